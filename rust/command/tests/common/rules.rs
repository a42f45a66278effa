//! The page docs/RULES.md, taken apart.

use super::{status, stdout, wennathig};

pub const PAGE: &str = include_str!("../../../../docs/RULES.md");

/// What stands between two lines, the first and the second left out.
pub fn between<'a>(page: &'a str, first: &str, second: &str) -> &'a str {
    let (_, rest) = page.split_once(first).expect(first);
    rest.split_once(second).expect(second).0
}

/// The texts of a part of the page: its fenced blocks that are sheets.
pub fn texts(part: &str) -> Vec<&str> {
    let blocks = part.split("\n```ws\n").skip(1);
    let texts = blocks.map(|rest| rest.split_once("\n```\n").expect("the block ends").0);
    texts.collect()
}

/// The lines of a text's head, and those of its sheet.
pub fn head_and_sheet(text: &str) -> (Vec<&str>, Vec<&str>) {
    text.lines().partition(|line| line.starts_with('#'))
}

/// The rows of a table but the first, cell by cell.
pub fn rows(part: &str) -> Vec<Vec<&str>> {
    let lines = part.lines().filter(|line| line.starts_with('|'));
    let cells = lines.skip(2).map(|line| {
        let inner = line.trim_matches('|').split('|');
        inner.map(str::trim).collect()
    });
    cells.collect()
}

/// What `check` says of a text, such as `refused 8 36`, or `error`.
pub fn verdict(text: &str) -> String {
    let output = wennathig(&["check", "--text", "-"], text.as_bytes());
    match (status(&output), stdout(&output).lines().next()) {
        (2, None) => String::from("error"),
        (0 | 1, Some(verdict)) => String::from(verdict),
        _ => panic!("{output:?}"),
    }
}
