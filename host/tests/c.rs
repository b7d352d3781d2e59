//! The header and the library from C: c/calls.c is compiled with every warning an error, and run.
//! CC names another compiler than gcc, and RUNNER what runs its program: for a processor that is not x86-64 (.ci/run sets them).
use std::env;
use std::path::Path;
use std::process::Command;

#[test]
fn the_c_program_compiles_and_ends_with_0() {
    let here = Path::new(env!("CARGO_MANIFEST_DIR"));
    let program = Path::new(env!("CARGO_TARGET_TMPDIR")).join("calls");
    let compiled = Command::new(env::var("CC").unwrap_or("gcc".into()))
        .args(["-std=c11", "-O2", "-Wall", "-Wextra", "-Werror", "-I"])
        .args([here.join("include"), here.join("c/calls.c")])
        .args([
            Path::new(env!("SELECTORS_VM_ARCHIVE")),
            Path::new("-o"),
            &program,
        ])
        .status();
    assert!(compiled.expect("gcc is at hand").success());
    let ran = match env::var("RUNNER") {
        Ok(runner) => Command::new(runner).arg(program).status(),
        Err(_) => Command::new(program).status(),
    };
    assert!(ran.expect("it runs").success());
}
