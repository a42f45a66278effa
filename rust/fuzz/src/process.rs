//! The program as its users start it.

use crate::scratch::Scratch;
use generator::runs::Run;
use std::env;
use std::ffi::OsStr;
use std::fs;
use std::path::{Path, PathBuf};
use std::process::{Command, Output, Stdio};

/// The command `wennathig` beside the program that runs, or above it, where
/// cargo puts tests.
///
/// # Panics
/// If there is none.
pub fn beside() -> PathBuf {
    let own = env::current_exe().expect("the path of this program");
    let folders = own.ancestors().skip(1).take(2);
    let mut paths = folders.map(|folder| folder.join("wennathig"));
    let found = paths.find(|path| path.is_file());
    found.expect("target/rust/release/wennathig: run `make command` first")
}

/// A file that is tried, and how it is run.
pub struct Attempt {
    /// The file's name without its ending.
    pub name: &'static str,
    pub bytes: Vec<u8>,
    /// Whether its name says that it is a text.
    pub is_text: bool,
    /// The sheet in it is that of the file.
    pub lent: Run,
    /// A file of reads other than those lent.
    pub odd_reads: Option<Vec<u8>>,
    pub watched: bool,
}

impl Attempt {
    fn file_name(&self) -> String {
        let ending = if self.is_text { "ws" } else { "sheet" };
        format!("{}.{ending}", self.name)
    }

    /// The file of reads.
    fn reads(&self) -> Vec<u8> {
        let words = self.lent.input.iter().map(|word| format!("{word}\n"));
        let odd = self.odd_reads.clone();
        odd.unwrap_or_else(|| words.collect::<String>().into_bytes())
    }
}

/// What the tasks have said and written.
pub struct Said {
    pub check: Output,
    pub run: Output,
    pub asm: Output,
    /// What asm has written.
    pub assembled: Option<Vec<u8>>,
    pub dis: Output,
    /// asm on what dis has written, and what that has written.
    pub back: Output,
    pub came_back: Option<Vec<u8>>,
}

/// Tries every task on a file.
///
/// # Panics
/// If the program does not start.
pub fn attempt(program: &Path, scratch: &Scratch, attempt: &Attempt) -> Said {
    let path = |name: &str| scratch.path(name);
    let input = path(&attempt.file_name());
    let (reads, dis) = (path("reads"), path("dis.ws"));
    let (assembled, came_back) = (path("out.sheet"), path("back.sheet"));
    for old in [&assembled, &came_back, &dis] {
        // It may not be there.
        let _ = fs::remove_file(old);
    }
    write(&input, &attempt.bytes);
    write(&reads, &attempt.reads());
    let form = if attempt.is_text { "--text" } else { "--bytes" };
    let numbers = run_options(attempt);
    let mut run: Vec<&OsStr> = ["run", form, "--trace", "--reads"].map(OsStr::new).to_vec();
    run.extend([reads.as_os_str(), input.as_os_str()]);
    run.extend(numbers.iter().map(OsStr::new));
    let start = |arguments: &[&OsStr]| started(program, arguments);
    let make = |from: &Path, to: &Path| {
        start(&["asm".as_ref(), from.as_ref(), "-o".as_ref(), to.as_ref()])
    };
    Said {
        check: start(&["check".as_ref(), form.as_ref(), input.as_ref()]),
        run: start(&run),
        asm: make(&input, &assembled),
        assembled: fs::read(&assembled).ok(),
        dis: start(&["dis".as_ref(), input.as_ref(), "-o".as_ref(), dis.as_ref()]),
        back: make(&dis, &came_back),
        came_back: fs::read(&came_back).ok(),
    }
}

fn run_options(attempt: &Attempt) -> Vec<String> {
    let lent = &attempt.lent;
    let numbers = [
        ("--fuel", lent.fuel.to_string()),
        ("--memory", lent.memory_words.to_string()),
        ("--report", lent.output.len().to_string()),
    ];
    let pairs = numbers.map(|(option, number)| [String::from(option), number]);
    let watch = attempt.watched.then(|| String::from("--watch"));
    pairs.into_iter().flatten().chain(watch).collect()
}

fn write(path: &Path, bytes: &[u8]) {
    fs::write(path, bytes).expect("a file under target/");
}

fn started(program: &Path, arguments: &[&OsStr]) -> Output {
    let mut command = Command::new(program);
    let command = command.args(arguments).stdin(Stdio::null());
    command.output().expect("the program starts")
}
