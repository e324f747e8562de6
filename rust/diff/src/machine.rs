//! How programs for x86-64 are started: as they are, or on another machine by the emulator and the
//! loader of the kit that compiled them.

use std::path::Path;
use std::process::Command;

/// The folder with the kit's tools, on a machine that needs them.
pub const TOOLS: Option<&str> = option_env!("SLUSHTROWEL_TOOLS");

/// A command that runs the program.
pub fn command(program: &Path) -> Command {
    let Some(tools) = TOOLS else { return Command::new(program) };
    let mut command = Command::new(format!("{tools}/bin/qemu-x86_64"));
    // a plain processor: one that has quick instructions for strings is slow at them when emulated
    command.args(["-cpu", "qemu64"]);
    // a program that is linked whole needs no loader
    if program.to_str() != option_env!("SLUSHTROWEL_CARRIER") {
        let (lib, loader) = (format!("{tools}/lib"), format!("{tools}/lib/ld-linux-x86-64.so.2"));
        command.args([&loader, "--library-path", &lib]);
    }
    command.arg(program);
    command
}
