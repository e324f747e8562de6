//! Finds the archive of the proved library. It is for x86-64: on another machine a program that lends
//! it to the tests is built with the kit's own tools, to be run by the kit's emulator.

use std::env::{split_paths, var, var_os};
use std::path::{Path, PathBuf};
use std::process::Command;

fn main() {
    println!("cargo::rerun-if-env-changed=SLUSHTROWEL_LIB");
    let here = PathBuf::from(env!("CARGO_MANIFEST_DIR"));
    let folder = match var_os("SLUSHTROWEL_LIB") {
        Some(folder) => PathBuf::from(folder),
        None => here.join("../../target/staticlib"),
    };
    let archive = folder.join("libcapi.a");
    println!("cargo::rerun-if-changed={}", archive.display());
    println!("cargo::rustc-env=LIBCAPI={}", archive.display());
    if !archive.is_file() {
        return missing(&archive);
    }
    let machine = var("CARGO_CFG_TARGET_ARCH").unwrap_or_default();
    println!("cargo::rustc-check-cfg=cfg(carried)");
    if runs_on(&archive, &machine) {
        println!("cargo::rustc-link-search=native={}", folder.display());
        println!("cargo::rustc-link-lib=static=capi");
        return;
    }
    println!("cargo::rustc-cfg=carried");
    if let Err(error) = carrier(&here, &archive, &machine) {
        println!("cargo::error=the library is for x86-64, and this machine can't lend it: {error}");
    }
}

/// Whether the archive's code is this machine's, by the number of the first object in it (ELF's `e_machine`).
fn runs_on(archive: &Path, machine: &str) -> bool {
    let bytes = std::fs::read(archive).unwrap_or_default();
    let object = bytes.windows(4).position(|four| four == b"\x7fELF");
    let number = object.and_then(|at| bytes.get(at + 18..at + 20)).map(|two| (two[0], two[1]));
    match machine {
        "x86_64" => number == Some((62, 0)),
        "aarch64" => number == Some((183, 0)),
        _ => false,
    }
}

fn missing(archive: &Path) {
    println!("cargo::error=there is no {}", archive.display());
    println!(
        "cargo::error=run `make lib` in the project's root (that is `rt lib` in crates/capi, and a copy), then try again"
    );
    println!("cargo::error=or name the folder of another libcapi.a in SLUSHTROWEL_LIB");
}

/// Compiles and links the carrier, and tells where it and the kit's tools are.
fn carrier(here: &Path, archive: &Path, machine: &str) -> Result<(), String> {
    let source = here.join("carrier/carrier.c");
    println!("cargo::rerun-if-changed={}", source.display());
    let tools = kit()?.join("on").join(machine).join("toolchain");
    let out = PathBuf::from(var("OUT_DIR").map_err(|error| error.to_string())?);
    let (object, program) = (out.join("carrier.o"), out.join("carrier"));
    let mut clang = Command::new(tools.join("bin/clang"));
    clang.args(["--target=x86_64-unknown-linux-gnu", "-std=c99", "-Wall", "-Wextra", "-Werror", "-O2"]);
    clang.args(["-ffreestanding", "-fno-builtin", "-fno-stack-protector", "-fno-pic"]);
    run(clang.args(["-mgeneral-regs-only", "-c"]).arg(source).arg("-o").arg(&object))?;
    let mut link = Command::new(tools.join("bin/ld.lld"));
    run(link.args(["-static", "-o"]).arg(&program).arg(&object).arg(archive))?;
    println!("cargo::rustc-env=SLUSHTROWEL_TOOLS={}", tools.display());
    println!("cargo::rustc-env=SLUSHTROWEL_CARRIER={}", program.display());
    Ok(())
}

/// The folder of the kit that `rt` belongs to.
fn kit() -> Result<PathBuf, String> {
    println!("cargo::rerun-if-env-changed=RATTLE_HOME");
    if let Some(home) = var_os("RATTLE_HOME") {
        return Ok(PathBuf::from(home));
    }
    let path = var_os("PATH").unwrap_or_default();
    let rt = split_paths(&path).find_map(|folder| folder.join("rt").canonicalize().ok());
    let home = rt.as_deref().and_then(Path::parent).and_then(Path::parent);
    home.map(Path::to_path_buf).ok_or_else(|| "there is no rt on the path".to_string())
}

fn run(command: &mut Command) -> Result<(), String> {
    let name = command.get_program().to_string_lossy().to_string();
    match command.status() {
        Ok(status) if status.success() => Ok(()),
        Ok(status) => Err(format!("{name}: {status}")),
        Err(error) => Err(format!("{name}: {error}")),
    }
}
