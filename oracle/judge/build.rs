//! Lays out the crate's module tree under cargo's output folder: links to the 19 unchanged files and to our stand-ins.
//! No file of lol_html is copied or changed; the compiler reads each where it lies.

use std::env;
use std::fs;
use std::os::unix::fs::symlink;
use std::path::{Path, PathBuf};

/// Where the unchanged files lie when the variable `LOL_HTML` does not say otherwise: beside the repository.
const BESIDE: &str = "../../../shared/docs/src";

const UNCHANGED: [&str; 19] = [
    "base/align.rs",
    "base/bytes.rs",
    "base/mod.rs",
    "base/range.rs",
    "base/spanned.rs",
    "html/local_name.rs",
    "html/mod.rs",
    "html/namespace.rs",
    "html/tag.rs",
    "html/text_type.rs",
    "memory/limited_vec.rs",
    "memory/limiter.rs",
    "selectors_vm/ast.rs",
    "selectors_vm/attribute_matcher.rs",
    "selectors_vm/compiler.rs",
    "selectors_vm/match_info.rs",
    "selectors_vm/mod.rs",
    "selectors_vm/program.rs",
    "selectors_vm/stack.rs",
];

const STAND_INS: [&str; 5] = [
    "base/debug_trace.rs",
    "memory/mod.rs",
    "selectors_vm/error.rs",
    "selectors_vm/parser.rs",
    "selectors_vm/tests.rs",
];

fn link(from: &Path, to: &Path) {
    println!("cargo::rerun-if-changed={}", from.display());
    assert!(from.is_file(), "{} is not there", from.display());
    fs::create_dir_all(to.parent().expect("a file has a folder")).expect("folder of the tree");
    symlink(from, to).expect("link in the tree");
}

fn main() {
    println!("cargo::rerun-if-env-changed=LOL_HTML");
    let here = PathBuf::from(env::var_os("CARGO_MANIFEST_DIR").expect("set by cargo"));
    let source = env::var_os("LOL_HTML").map_or_else(|| here.join(BESIDE), PathBuf::from);
    let source = source
        .join("src")
        .canonicalize()
        .unwrap_or_else(|e| panic!("no files of lol_html under {}: {e}", source.display()));
    let out = PathBuf::from(env::var_os("OUT_DIR").expect("set by cargo"));
    let tree = out.join("tree");
    if tree.exists() {
        fs::remove_dir_all(&tree).expect("old tree");
    }
    for file in UNCHANGED {
        link(&source.join(file), &tree.join(file));
    }
    for file in STAND_INS {
        link(&here.join("stand-ins").join(file), &tree.join(file));
    }
    let modules: String = ["base", "html", "memory", "selectors_vm"]
        .map(|module| {
            let path = tree.join(module).join("mod.rs");
            format!(
                "#[allow(warnings, clippy::all)]\n#[macro_use]\n#[path = {path:?}]\nmod {module};\n"
            )
        })
        .concat();
    fs::write(out.join("modules.rs"), modules).expect("list of modules");
}
