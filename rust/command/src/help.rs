//! How the command is used, in a few lines or in more.

use crate::tasks::{Entry, Known, OF_ALL, OF_NONE, OF_RUNS, OF_SHEETS, OF_WRITERS, TASKS};

const FILES: &str = "\
FILE  a sheet, as bytes or as text (docs/TEXT.md); - is standard input, at most once. A file whose name ends
      in .ws is text, any other is text if it has only printed characters; --text and --bytes say it instead.
      Several are handled in turn, also after one with an error. -- ends the options.
";

const STATUSES: &str = "\
Exit status: 0 accepted (run: and run to its stop, whatever stop that is), 1 refused (test: something differs),
2 misuse, an error in a text or a file that cannot be read, 3 the output cannot be written, or the two engines
disagree, 4 a run stopped otherwise than by 11 done, with --expect-done. Of several files the first of 3, 2, 1, 4
that there is.
";

/// The usage line of a task.
pub fn usage(task: &Entry) -> String {
    format!("usage: wennathig {} {}\n", task.word, task.arguments)
}

/// The usage lines of all tasks.
pub fn usages() -> String {
    let of_tasks = TASKS
        .iter()
        .map(|task| format!("wennathig {} {}\n", task.word, task.arguments));
    let others = ["wennathig help [TASK]\n", "wennathig -V | --version\n"];
    let all: Vec<String> = of_tasks.chain(others.map(String::from)).collect();
    format!("usage: {}", all.join("       "))
}

/// Everything.
pub fn whole() -> String {
    let tasks: String = TASKS
        .iter()
        .map(|task| entry(task.word, 7, task.about))
        .collect();
    let groups = [
        ("Options of check, run and watch", OF_SHEETS),
        ("Options of run and watch", OF_RUNS),
        ("Options of asm and dis", OF_WRITERS),
        ("Options of every task", OF_ALL),
        ("In place of a task", OF_NONE),
    ];
    let groups = groups.map(|(whose, options)| format!("\n{whose}:\n{}", list(options)));
    let usages = usages();
    let groups = groups.concat();
    format!("{usages}\n{tasks}\n{FILES}{groups}\n{STATUSES}")
}

/// Of one task.
pub fn of(task: &Entry) -> String {
    let about = entry(task.word, 7, task.about);
    let options: String = task.options.iter().map(|options| list(options)).collect();
    let more: String = task.more.iter().map(|line| format!("{line}\n")).collect();
    let more = if more.is_empty() {
        more
    } else {
        format!("{more}\n")
    };
    format!("{}\n{about}\n{more}{options}", usage(task))
}

fn list(options: &[Known]) -> String {
    let all = options.iter().map(|known| {
        let value = known
            .value
            .map_or_else(String::new, |value| format!(" {value}"));
        let names = known.names.join(", ");
        // Long names stand below one another.
        let indent = if known.names.len() == 1 && names.starts_with("--") {
            "    "
        } else {
            ""
        };
        entry(&format!("  {indent}{names}{value}"), 25, known.about)
    });
    all.collect()
}

/// What is said of a word, from one column on.
fn entry(word: &str, width: usize, about: &[&str]) -> String {
    let words = std::iter::once(word).chain(std::iter::repeat(""));
    let lines = words
        .zip(about)
        .map(|(word, line)| format!("{word:<width$}{line}\n"));
    lines.collect()
}
