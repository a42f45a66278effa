//! Makes copies of what is timed, the two proved libraries and the plain C
//! interpreter, so that each of them stands at several places of the program.
//! src/places.rs says why, and calls them by the names that they get here.

use std::env;
use std::path::{Path, PathBuf};
use std::process::Command;

const PLACES: usize = 8;

fn main() {
    let (root, out) = (PathBuf::from("../.."), folder("OUT_DIR"));
    let (source, include) = (root.join("c/bench_interpreter.c"), root.join("include"));
    println!("cargo:rerun-if-changed={}", source.display());
    println!("cargo:rerun-if-changed={}", include.display());
    for place in 0..PLACES {
        let interpreter = out.join(format!("bench_interpreter_{place}.o"));
        compile(&source, &include, place, &interpreter);
        println!("cargo:rustc-link-arg={}", interpreter.display());
        for (library, functions) in [
            ("wennathig", &["wn_check", "wn_run"][..]),
            ("wennathig_watch", &["wn_watch"]),
        ] {
            let from = folder("DEP_WENNATHIG_FOLDER").join(format!("lib{library}.a"));
            println!("cargo:rerun-if-changed={}", from.display());
            let copy = out.join(format!("lib{library}_{place}.a"));
            rename(&from, functions, place, &copy);
            println!("cargo:rustc-link-arg={}", copy.display());
        }
    }
}

fn folder(variable: &str) -> PathBuf {
    PathBuf::from(env::var_os(variable).expect("cargo sets it"))
}

/// Compiles the interpreter under the name of a place. The words before its
/// functions move it, and what is linked after it, by so many bytes.
fn compile(source: &Path, include: &Path, place: usize, object: &Path) {
    let bytes = 16 * place;
    let mut gcc = Command::new("gcc");
    gcc.args(["-std=c99", "-O2", "-Wall", "-Wextra", "-Werror"]);
    gcc.arg("-pedantic");
    gcc.arg(format!("-fpatchable-function-entry={bytes},{bytes}"));
    gcc.arg(format!("-Dbench_run=bench_run_{place}"));
    gcc.arg("-I").arg(include).arg("-c").arg(source);
    done(gcc.arg("-o").arg(object));
}

/// Copies a library, with its functions under the names of a place.
fn rename(library: &Path, functions: &[&str], place: usize, copy: &Path) {
    let mut objcopy = Command::new("objcopy");
    for function in functions {
        objcopy.arg(format!("--redefine-sym={function}={function}_{place}"));
    }
    done(objcopy.arg(library).arg(copy));
}

fn done(command: &mut Command) {
    let status = command.status();
    assert!(
        status.is_ok_and(|status| status.success()),
        "{command:?} has failed"
    );
}
