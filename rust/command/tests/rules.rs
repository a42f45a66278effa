//! docs/RULES.md: the task `test` passes each text, and the tables are those of
//! the program. limits.rs has its limits and its units of memory.

mod common;

use common::rules::{between, head_and_sheet, rows, texts, verdict, PAGE};
use common::{folder, status, stderr, stdout, wennathig, written};
use std::path::PathBuf;
use std::process::Output;

const TEXT_PAGE: &str = include_str!("../../../docs/TEXT.md");

// ---- Texts and numbers

/// What `test` says of texts, each in a file of its own, in one call.
fn tried(name: &str, texts: &[impl AsRef<[u8]>]) -> Output {
    let folder = folder(name);
    let mut call = vec![String::from("test")];
    for (index, text) in texts.iter().enumerate() {
        call.push(written(&folder, &format!("{index}.ws"), text.as_ref()));
    }
    let call: Vec<&str> = call.iter().map(String::as_str).collect();
    wennathig(&call, &[])
}

#[test]
fn each_text_does_what_its_head_says() {
    let texts = texts(PAGE);
    assert!(texts.len() > 50, "the texts are found");
    let output = tried("rules", &texts);
    assert_eq!(status(&output), 0, "{}{}", stdout(&output), stderr(&output));
}

/// Each number, with its word and its section.
fn sections() -> Vec<(usize, &'static str, &'static str)> {
    let part = between(PAGE, "\n## The numbers 1 to 21\n", "\n## ");
    let sections = part.split("\n### ").skip(1).map(|section| {
        let (title, rest) = section.split_once('\n').expect("a heading has a line");
        let (number, word) = title.split_once(' ').expect("a number and a word");
        (number.parse().expect(title), word, rest)
    });
    sections.collect()
}

/// Whether the head names this number as a refusal or a stop.
fn names(text: &str, number: usize) -> bool {
    let keys = ["expect: refused", "stop:", "watch:"];
    let begin = |key| text.contains(&format!("# {key} {number} "));
    keys.into_iter().any(begin)
}

/// Whether the head says that nothing is wrong.
fn is_right(text: &str) -> bool {
    let is_done = text.contains("\n# stop: 11 done\n") || !text.contains("\n# stop: ");
    is_done && text.starts_with("# expect: accepted 0 0\n")
}

/// The numbers whose sections say how to be rid of them.
const CURES: [usize; 9] = [6, 7, 8, 9, 13, 18, 19, 20, 21];

#[test]
fn each_number_has_a_wrong_and_a_right_text() {
    let sections = sections();
    let numbers: Vec<usize> = sections.iter().map(|section| section.0).collect();
    assert_eq!(numbers, (1..=21).collect::<Vec<_>>());
    for (number, _, section) in sections {
        if number == 1 {
            // No small text is so long: two commands, which scripts/check-commands runs.
            assert!(section.contains("\n    refused 1 0\n"));
            assert!(section.contains("\n    accepted 0 0\n"));
            continue;
        }
        let (due, others): (Vec<&str>, Vec<&str>) =
            texts(section).iter().partition(|text| names(text, number));
        assert!(!due.is_empty() && !others.is_empty(), "{number}: two sides");
        // 11 is the right side itself.
        let others_are_right = others.iter().all(|text| is_right(text));
        assert_eq!(others_are_right, number != 11, "{number}: {others:?}");
        let cured = section.contains("The cure");
        assert!(cured || !CURES.contains(&number), "{number}: a cure");
    }
}

/// A text once without each line of its sheet. The head still says how it ends,
/// but not at which line, for that may be the one left out.
fn shortened(text: &str) -> Vec<String> {
    let (mut head, sheet) = head_and_sheet(text);
    head.retain(|line| !line.starts_with("# at: "));
    let shorter = (0..sheet.len()).map(|left_out| {
        let (before, after) = (&sheet[..left_out], &sheet[left_out + 1..]);
        [&head[..], before, after].concat().join("\n")
    });
    shorter.collect()
}

#[test]
fn no_line_of_a_wrong_text_can_be_left_out() {
    let mut shorter = Vec::new();
    for (number, _, section) in sections() {
        for text in texts(section).iter().filter(|text| names(text, number)) {
            let mut texts = shortened(text);
            if number == 5 && text.ends_with("return") {
                // The lack of it is a 5 as well.
                texts.pop();
            }
            shorter.extend(texts);
        }
    }
    let output = tried("rules-shorter", &shorter);
    let said = stdout(&output);
    let passed: Vec<&str> = said.lines().filter(|line| line.starts_with("ok")).collect();
    assert!(passed.is_empty(), "a line can be left out: {passed:?}");
    assert_eq!(status(&output), 1, "{said}{}", stderr(&output));
}

#[test]
fn the_table_of_numbers_says_who_gives_which() {
    let part = between(PAGE, "\n## The numbers 1 to 21\n", "\n### ");
    let rows = rows(part);
    let halves = rows.iter().flat_map(|row| [&row[..5], &row[6..]]);
    let mut found = Vec::new();
    for half in halves.filter(|half| !half[0].is_empty()) {
        let [linked, word, by @ ..] = half else {
            panic!("{half:?}")
        };
        let number: usize = between(linked, "[", "]").parse().expect(linked);
        let refuses = number <= 9 || number >= 20;
        let gives = [
            refuses,
            refuses || number <= 17,
            number <= 5 || (10..=19).contains(&number),
        ];
        let due = gives.map(|gives| if gives { "×" } else { "" });
        assert_eq!(by, due, "{number}");
        found.push((number, *word));
    }
    found.sort();
    let due: Vec<(usize, &str)> = sections().iter().map(|s| (s.0, s.1)).collect();
    assert_eq!(found, due);
}

// ---- Types and instructions

/// The number of a refusal; 0 where a text is accepted.
fn number(text: &str) -> u64 {
    let said = verdict(text);
    let number = said.split(' ').nth(1).and_then(|word| word.parse().ok());
    number.unwrap_or_else(|| panic!("{said}: {text}"))
}

#[test]
fn the_table_of_the_order_is_that_of_the_checker() {
    let rows = rows(between(PAGE, "\n### Equality and order\n", "\n### "));
    assert!(rows.len() >= 7);
    for row in rows {
        let [source, destination, holds] = row[..] else {
            panic!("{row:?}")
        };
        let [source, destination] = [source, destination].map(|cell| cell.trim_matches('`'));
        let text = format!(
            "type call{{read,amend}}\ntype horse{{read,amend}}\nprocedure main\nvariable a: {destination}\n\
             variable b: {source}\nbind a <- b\nreturn\n"
        );
        let due = match holds.strip_prefix("no: ") {
            None => 0,
            Some(why) => between(why, "", ",").parse().expect(why),
        };
        assert_eq!(number(&text), due, "{row:?}");
    }
}

#[test]
fn the_table_of_instructions_has_every_code_of_the_text_form() {
    let part = between(PAGE, "\n### What each instruction needs\n", "\n### ");
    let list = between(
        TEXT_PAGE,
        "<!-- instructions -->\n",
        "<!-- /instructions -->",
    );
    let due: Vec<(&str, &str)> = list
        .lines()
        .map(|line| {
            let mut words = line.split_whitespace();
            (words.next().expect(line), words.next().expect(line))
        })
        .collect();
    let mut found = Vec::new();
    for row in rows(part) {
        let words = row[1].split('`').skip(1).step_by(2);
        let words = words.map(|word| word.split(' ').next().unwrap_or_default());
        found.extend(row[0].split(", ").zip(words));
    }
    assert_eq!(found, due);
}

/// A text with one instruction, by its code, on an array or a call that has
/// these rights.
fn using(code: &str, rights: &str) -> String {
    let line = match code {
        "10" => "fetch n <- numbers[n]",
        "11" => "store numbers[n] <- n",
        "12" => "size n <- numbers",
        "14" => "getslot n <- item.slot",
        "15" => "setslot item.slot <- n",
        _ => panic!("code {code} needs no right"),
    };
    let variable = match line.contains("item") {
        true => format!("item: call{{{rights}}}"),
        false => format!("numbers: tray[integer]{{{rights}}}"),
    };
    format!(
        "type call{{read}} (slot: integer)\nprocedure main\nreturn\nprocedure p of call\n\
         variable n: integer\nvariable {variable}\n{line}\nreturn\n"
    )
}

#[test]
fn each_instruction_needs_the_right_that_the_table_names_and_no_other() {
    let part = between(PAGE, "\n### What each instruction needs\n", "\n### ");
    let mut codes = Vec::new();
    for row in rows(part).iter().filter(|row| !row[3].is_empty()) {
        let (code, right) = (row[0], between(row[3], "`", "`"));
        let mut others = match code {
            "10" | "11" | "12" => vec!["fetch", "store", "size"],
            _ => vec!["open", "read"],
        };
        assert!(others.contains(&right), "{row:?}");
        others.retain(|other| *other != right);
        assert_eq!(number(&using(code, right)), 0, "{row:?}");
        assert_eq!(number(&using(code, &others.join(","))), 9, "{row:?}");
        codes.push(code);
    }
    assert_eq!(codes, ["10", "11", "12", "14", "15"]);
}

// ---- The page itself

/// The anchor that a heading has.
fn anchor(heading: &str) -> String {
    let kept = heading.to_lowercase();
    let kept = kept
        .chars()
        .filter(|c| c.is_alphanumeric() || matches!(c, ' ' | '-'));
    kept.collect::<String>().replace(' ', "-")
}

#[test]
fn links_lead_somewhere() {
    let headings = PAGE.lines().filter(|line| line.starts_with("##"));
    let anchors: Vec<String> = headings
        .map(|l| anchor(l.trim_start_matches(['#', ' '])))
        .collect();
    for link in PAGE.split("](").skip(1) {
        let target = link.split(')').next().unwrap_or_default();
        match target.strip_prefix('#') {
            Some(name) => assert!(anchors.iter().any(|a| a == name), "{target}"),
            None => {
                let docs = PathBuf::from(env!("CARGO_MANIFEST_DIR")).join("../../docs");
                assert!(docs.join(target).exists(), "{target}");
            }
        }
    }
}
