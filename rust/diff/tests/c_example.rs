//! The example program in C: compiled with all warnings, linked with the library, and run.

use diff::machine::{command, TOOLS};
use std::path::{Path, PathBuf};
use std::process::Command;

const STDOUT: &str = "\
irrelevant yes, a sheet of 16 bytes that passes
  damaged: refused 11 16
computable yes, a sheet of 16 bytes that passes
  damaged: refused 11 16
last byte cut off: refused 1 69
";

const WARNINGS: [&str; 5] = ["-std=c99", "-Wall", "-Wextra", "-Wpedantic", "-Werror"];

fn include() -> PathBuf {
    Path::new(env!("CARGO_MANIFEST_DIR")).join("../../include")
}

/// With the C compiler of this machine.
fn compile(program: &Path) {
    let mut cc = Command::new("cc");
    cc.args(WARNINGS).arg("-I").arg(include()).arg(include().join("example.c")).arg(env!("LIBCAPI"));
    assert!(cc.arg("-o").arg(program).status().expect("a C compiler named cc").success());
}

/// For x86-64 on another machine: with a compiler that can, this machine's headers and the kit's linker.
fn compile_elsewhere(program: &Path, tools: &str) {
    const TARGET: &str = "x86_64-unknown-linux-gnu";
    let object = program.with_extension("o");
    let mut clang = Command::new("clang");
    clang.args(WARNINGS).arg(format!("--target={TARGET}")).arg("-idirafter");
    clang.arg(format!("/usr/include/{}-linux-gnu", std::env::consts::ARCH)).arg("-I").arg(include());
    clang.arg("-c").arg(include().join("example.c")).arg("-o").arg(&object);
    assert!(clang.status().expect("a C compiler named clang").success());
    let mut link = Command::new(format!("{tools}/../bin/rattle-link"));
    link.args(["--target", TARGET, "--toolchain", tools, "-o"]).arg(program);
    assert!(link.arg(object).arg(env!("LIBCAPI")).status().expect("the kit's linker").success());
}

#[test]
fn the_example_runs() {
    let program = Path::new(env!("CARGO_TARGET_TMPDIR")).join("example");
    match TOOLS {
        None => compile(&program),
        Some(tools) => compile_elsewhere(&program, tools),
    }
    let output = command(&program).output().expect("the program runs");
    assert_eq!(String::from_utf8_lossy(&output.stdout), STDOUT);
    assert!(output.status.success());
}
