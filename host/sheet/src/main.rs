//! The program `sheet`: what the library of this crate does with a command line.

use std::process::ExitCode;

fn main() -> ExitCode {
    sheet::command()
}
