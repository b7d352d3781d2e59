//! Links libselectors_vm.a, which tools/library writes. SELECTORS_VM_DIR names another folder that holds it.
use std::env;
use std::path::PathBuf;

fn variable(name: &str) -> String {
    env::var(name).unwrap_or_else(|_| panic!("cargo sets {name}"))
}

fn main() {
    let beside = PathBuf::from(variable("CARGO_MANIFEST_DIR")).join("../target/staticlib");
    let folder = env::var("SELECTORS_VM_DIR").map_or(beside, PathBuf::from);
    let archive = folder.join("libselectors_vm.a");
    println!("cargo:rerun-if-env-changed=SELECTORS_VM_DIR");
    println!("cargo:rerun-if-changed={}", archive.display());
    let machine = [
        variable("CARGO_CFG_TARGET_ARCH"),
        variable("CARGO_CFG_TARGET_OS"),
    ];
    if machine != ["x86_64", "linux"] {
        panic!("libselectors_vm.a is for Linux on x86-64");
    }
    let Ok(archive) = archive.canonicalize() else {
        panic!(
            "{} is missing: run tools/library at the top of the repository",
            archive.display()
        );
    };
    println!("cargo:rustc-env=SELECTORS_VM_ARCHIVE={}", archive.display());
    let folder = archive.parent().expect("a file stands in a folder");
    println!("cargo:rustc-link-search=native={}", folder.display());
    println!("cargo:rustc-link-lib=static=selectors_vm");
}
