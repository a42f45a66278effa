//! Prints the exhibits for the prover: the definitions, or their proofs.

use comparison::exhibits::{all, antt};
use std::env;
use std::process::ExitCode;

const USAGE: &str = "exhibits specs|proofs";

fn main() -> ExitCode {
    let arguments: Vec<String> = env::args().skip(1).collect();
    let arguments: Vec<&str> = arguments.iter().map(String::as_str).collect();
    match arguments[..] {
        ["specs"] => print!("{}", antt::specs(&all())),
        ["proofs"] => print!("{}", antt::proofs(&all())),
        _ => {
            eprintln!("{USAGE}");
            return ExitCode::from(2);
        }
    }
    ExitCode::SUCCESS
}
