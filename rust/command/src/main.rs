//! The command `wennathig`: sheets checked and explained, run, assembled and
//! disassembled.

use std::env;
use std::process::ExitCode;

fn main() -> ExitCode {
    let arguments: Vec<_> = env::args_os().skip(1).collect();
    ExitCode::from(command::main(&arguments))
}
