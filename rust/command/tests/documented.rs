//! The manual pages, the completion for bash and the header say what the
//! program's help says, and nothing else. The numbers have the program's words
//! there and in docs/RULES.md.

mod common;

use common::{status, stdout, wennathig};
use std::collections::BTreeSet;
use std::fs;
use std::path::PathBuf;
use std::process::{Command, Output};

fn root() -> PathBuf {
    PathBuf::from(env!("CARGO_MANIFEST_DIR")).join("../..")
}

fn page(name: &str) -> String {
    fs::read_to_string(root().join(name)).expect("a page of the repository")
}

/// What the program says of itself.
fn help(arguments: &[&str]) -> String {
    let output = wennathig(arguments, &[]);
    assert_eq!(status(&output), 0, "{arguments:?}: {output:?}");
    stdout(&output)
}

/// A manual page with its requests, but without what only changes the fonts
/// and the spaces.
fn unfonted(roff: &str) -> String {
    let marks = [
        ("\\fB", ""),
        ("\\fI", ""),
        ("\\fR", ""),
        ("\\-", "-"),
        ("\\~", " "),
        ("\\(aq", "'"),
    ];
    let plain = |text: String, (mark, meant): &(&str, &str)| text.replace(mark, meant);
    marks.iter().fold(String::from(roff), plain)
}

/// The lines of a section of a manual page.
fn section(roff: &str, title: &str) -> String {
    let heading = format!(".SH {title}\n");
    let (_, from) = roff.split_once(&heading).expect("the section");
    let end = from.find("\n.SH ").unwrap_or(from.len());
    String::from(&from[..end])
}

/// The options that a text names. What follows -o at once is its value.
fn options(text: &str) -> BTreeSet<String> {
    let words = text.split(|c: char| c.is_whitespace() || "[](){}|,'\"`=".contains(c));
    let names = words.filter_map(|word| {
        let name = word.trim_end_matches(|c: char| !c.is_ascii_alphabetic());
        let letter = |at: usize| name.as_bytes().get(at).is_some_and(u8::is_ascii_alphabetic);
        match (name.starts_with("--"), name.starts_with('-')) {
            (true, _) if letter(2) => Some(name),
            (false, true) if letter(1) => Some(&name[..2]),
            _ => None,
        }
    });
    names.map(String::from).collect()
}

/// The tasks of usage lines, such as `usage: wennathig check FILE`.
fn tasks(usage: &str) -> BTreeSet<String> {
    let calls = usage.lines().filter_map(|line| {
        let line = line.trim_start();
        let line = line.strip_prefix("usage: ").unwrap_or(line);
        line.strip_prefix("wennathig ")?.split_whitespace().next()
    });
    let words = calls.filter(|word| word.bytes().all(|byte| byte.is_ascii_lowercase()));
    words.map(String::from).collect()
}

fn set(words: &[&str]) -> BTreeSet<String> {
    words.iter().copied().map(String::from).collect()
}

/// Every option that the help names, that of all tasks and that of each.
fn options_of_the_program() -> BTreeSet<String> {
    let whole = help(&["help"]);
    let mut found = options(&whole);
    for task in tasks(&whole).iter().filter(|task| *task != "help") {
        found.extend(options(&help(&["help", task])));
    }
    found
}

#[test]
fn the_names_are_found() {
    let text = "run [-q|--quiet] `--color WHEN`, --expect-done: -oOUT - -- 6-9 a-b --fuel=3 (-V)";
    let due = [
        "-q",
        "--quiet",
        "--color",
        "--expect-done",
        "-o",
        "--fuel",
        "-V",
    ];
    assert_eq!(options(text), set(&due));
    let usage = "usage: wennathig check FILE\n       wennathig --version\n  wennathig asm\nthe wennathig run";
    assert_eq!(tasks(usage), set(&["check", "asm"]));
}

#[test]
fn the_manual_page_has_the_tasks_and_options_of_the_program() {
    let page = unfonted(&page("man/wennathig.1"));
    let known = tasks(&help(&["help"]));
    assert_eq!(tasks(&section(&page, "SYNOPSIS")), known);
    let described = section(&page, "TASKS");
    let headings = described.lines().zip(described.lines().skip(1));
    let headings = headings
        .filter_map(|(request, line)| line.strip_prefix(".B ").filter(|_| request == ".TP"));
    assert_eq!(headings.map(String::from).collect::<BTreeSet<_>>(), known);
    assert_eq!(options(&page), options_of_the_program());
    assert_eq!(
        options(&section(&page, "OPTIONS")),
        options_of_the_program()
    );
}

#[test]
fn help_after_a_task_is_help_of_the_task() {
    for task in tasks(&help(&["help"]))
        .iter()
        .filter(|task| *task != "help")
    {
        let of_task = help(&["help", task]);
        assert!(of_task.contains(&format!("wennathig {task} ")), "{of_task}");
        assert_eq!(help(&[task, "--help"]), of_task);
        assert_eq!(help(&[task, "-h"]), of_task);
    }
    assert_eq!(help(&["--help"]), help(&["help"]));
    assert_eq!(help(&["-h"]), help(&["help"]));
    assert_eq!(help(&["-V"]), help(&["--version"]));
}

/// Runs a script in the repository with the built program in the path.
fn bash(script: &str) -> Output {
    let program = PathBuf::from(env!("CARGO_BIN_EXE_wennathig"));
    let folder = program.parent().expect("a folder").display().to_string();
    let path = std::env::var("PATH").unwrap_or_default();
    Command::new("bash")
        .args(["--norc", "-c", script])
        .env("PATH", format!("{folder}:{path}"))
        .current_dir(root())
        .output()
        .expect("bash")
}

/// What the completion offers for the last of the words.
fn completed(words: &[&str]) -> Vec<String> {
    let quoted: Vec<String> = words.iter().map(|word| format!("'{word}'")).collect();
    let script = format!(
        "set -u; source completions/wennathig; COMP_WORDS=(wennathig {}) COMP_CWORD={}
        _wennathig; printf '%s\\n' \"${{COMPREPLY[@]}}\"",
        quoted.join(" "),
        words.len()
    );
    let output = bash(&script);
    assert!(output.stderr.is_empty(), "{words:?}: {output:?}");
    let said = stdout(&output);
    let lines = said.lines().filter(|line| !line.is_empty());
    lines.map(String::from).collect()
}

fn completed_set(words: &[&str]) -> BTreeSet<String> {
    completed(words).into_iter().collect()
}

#[test]
fn the_completion_has_the_tasks_and_options_of_the_program() {
    let whole = help(&["help"]);
    let known = tasks(&whole);
    let mut first = known.clone();
    first.extend(set(&["-h", "--help", "-V", "--version"]));
    assert_eq!(completed_set(&[""]), first);
    for option in completed(&["-"]) {
        help(&[&option]);
        assert!(options(&whole).contains(&option), "{option}");
    }
    assert_eq!(completed_set(&["help", ""]), known);
    for task in known.iter().filter(|task| *task != "help") {
        let due = options(&help(&["help", task]));
        assert_eq!(completed_set(&[task, "-"]), due, "{task}");
        assert_eq!(completed_set(&[task, "file", "-"]), due, "{task}");
    }
}

#[test]
fn the_completion_knows_what_follows() {
    assert_eq!(completed(&["w"]), ["watch"]);
    assert_eq!(completed(&["run", "--re"]), ["--reads", "--report"]);
    let colors = ["auto", "always", "never"];
    assert_eq!(completed(&["check", "--color", ""]), colors);
    // readline parts a word at =
    assert_eq!(completed(&["check", "--color", "="]), colors);
    assert_eq!(completed(&["check", "--color", "=", "n"]), ["never"]);
    let nothing: [&str; 0] = [];
    let files = [
        &["check", ""][..],
        &["check", "sam"],
        &["run", "--fuel", ""],
        &["run", "--reads", "-"],
        &["asm", "file", "-o", ""],
        &["run", "--", "--"],
        &["nothing", "-"],
    ];
    for words in files {
        assert_eq!(completed(words), nothing, "{words:?}");
    }
    // Where it has nothing to say, readline has the files.
    let output = bash("source completions/wennathig; complete -p wennathig");
    assert_eq!(
        stdout(&output),
        "complete -o default -F _wennathig wennathig\n"
    );
}

/// A call that answers each number: the arguments and the standard input.
fn answering(number: usize) -> (Vec<String>, Vec<u8>) {
    let call = |words: &str| words.split(' ').map(String::from).collect::<Vec<_>>();
    let sample = |name: &str, task: &str| {
        let path = root().join("samples").join(name);
        let mut call = call(task);
        call.push(path.display().to_string());
        call
    };
    let none = Vec::new();
    match number {
        1 => (call("check --bytes -"), vec![0; 32_769]),
        2 => (sample("torn.ws", "check"), none),
        3 => (call("check --bytes -"), b"??????".to_vec()),
        4 => (sample("later-edition.ws", "check"), none),
        5 => (call("check --text -"), b"raw\nHD 1 0 0 0".to_vec()),
        6 => (sample("leak.ws", "check"), none),
        7 => (sample("stranger.ws", "check"), none),
        8 => (sample("incident.ws", "check"), none),
        9 => (sample("unlicensed.ws", "check"), none),
        10 => (sample("smallest.ws", "run --memory 65537"), none),
        11 => (sample("smallest.ws", "run"), none),
        12 => (sample("stop-fuel.ws", "run --fuel 13"), none),
        13 => (sample("stop-blank.ws", "run"), none),
        14 => (sample("stop-past.ws", "run"), none),
        15 => (sample("stop-reads.ws", "run"), none),
        16 => (sample("stop-report.ws", "run --report 2"), none),
        17 => (sample("stop-memory.ws", "run --memory 20"), none),
        18 => (sample("stop-kind.ws", "run --watch"), none),
        19 => (sample("stop-right.ws", "run --watch"), none),
        20 => (sample("unsettled.ws", "check"), none),
        _ => (sample("short.ws", "check"), none),
    }
}

/// The word and the meaning of a number, as the program says them.
fn words(number: usize) -> String {
    let (call, input) = answering(number);
    let call: Vec<&str> = call.iter().map(String::as_str).collect();
    let said = stdout(&wennathig(&call, &input));
    let stopped = format!("stopped {number} ");
    let stop = said.lines().find_map(|line| line.strip_prefix(&stopped));
    let refused = said.starts_with(&format!("refused {number} "));
    let words = stop.or_else(|| said.lines().nth(1).filter(|_| refused));
    String::from(words.unwrap_or_else(|| panic!("{number}: {said}")))
}

/// The rows `NUMBER|WORDS` of a page's table.
fn rows(page: &str) -> Vec<(usize, String)> {
    let table = section(page, "NUMBERS");
    let rows = table.lines().filter_map(|line| line.split_once('|'));
    let rows = rows.filter_map(|(number, words)| Some((number.parse().ok()?, String::from(words))));
    rows.collect()
}

#[test]
fn the_manual_page_has_the_numbers_as_the_program_says_them() {
    let due: Vec<(usize, String)> = (1..=21).map(|number| (number, words(number))).collect();
    assert_eq!(rows(&page("man/wennathig.1")), due);
}

/// The other pages may add the place after what the program says.
fn adds_to(said: &str, words: &str) -> bool {
    let rest = said.strip_prefix(words);
    rest.is_some_and(|rest| rest.is_empty() || rest.starts_with([';', ',']))
}

#[test]
fn the_page_of_the_checking_program_has_the_same_numbers() {
    let rows = rows(&page("man/wennathig-check.1"));
    let numbers: Vec<usize> = rows.iter().map(|(number, _)| *number).collect();
    assert_eq!(numbers, (1..=9).chain(20..=21).collect::<Vec<_>>());
    for (number, said) in rows {
        let due = words(number);
        assert!(
            adds_to(&said, &due),
            "{number}: {said}, and the program: {due}"
        );
    }
}

/// The comments of the header's numbers: `NAME = 8, /* crw WORDS */`, of which
/// the next line may be a part.
#[test]
fn the_header_has_the_same_numbers() {
    let header = page("include/wennathig.h");
    let (_, from) = header.split_once("enum wn_number {").expect("the numbers");
    let (numbers, _) = from.split_once("};").expect("their end");
    let entries = numbers.lines().filter_map(|line| {
        let (name, comment) = line.split_once("/*")?;
        let number: usize = name
            .split('=')
            .nth(1)?
            .trim()
            .trim_end_matches(',')
            .parse()
            .ok()?;
        // three letters tell the calls
        Some((
            number,
            String::from(comment[4..].trim_end_matches("*/").trim()),
        ))
    });
    let entries: Vec<(usize, String)> = entries.collect();
    let found: Vec<usize> = entries.iter().map(|(number, _)| *number).collect();
    assert_eq!(found, (0..=21).collect::<Vec<_>>());
    for (number, said) in entries.into_iter().skip(1) {
        let due = words(number);
        assert!(
            adds_to(&said, &due),
            "{number}: {said}, and the program: {due}"
        );
    }
}

/// Each number has a heading with its word, and its section begins with what
/// the program says.
#[test]
fn the_rules_have_the_same_numbers() {
    let rules = page("docs/RULES.md");
    for number in 1..=21 {
        let due = words(number);
        let (word, _) = due.split_once(':').expect("a word and a meaning");
        let start = format!("\n### {number} {word}\n\n`{due}`. ");
        assert!(rules.contains(&start), "the rules lack: {start}");
    }
}

/// Each example of the manual page prints what is shown below it.
#[test]
fn the_examples_of_the_manual_page_work() {
    let page = unfonted(&page("man/wennathig.1"));
    let examples = section(&page, "EXAMPLES");
    let blocks: Vec<&str> = examples.split(".EX\n$ ").skip(1).collect();
    assert!(!blocks.is_empty());
    for block in blocks {
        let (block, _) = block.split_once(".EE").expect("the end of the example");
        let (command, shown) = block.split_once('\n').expect("a line");
        assert_eq!(stdout(&bash(command)), shown, "{command}");
    }
}
