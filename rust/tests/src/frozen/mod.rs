//! The frozen answers: sheets of edition 1, what each is run with, and what
//! check, run and watch said of it when it was frozen.
//!
//! rust/tests/frozen has them as a file, with a list of those that a later
//! request changed on purpose, and says how both are kept.

pub mod answers;
pub mod changed;
mod difference;
pub mod draw;

use answers::{listed, same_as, Answers, OLD_WORD, SAME};
use difference::{applied, difference};
use generator::runs::Run;

/// The folder of the files.
pub const FOLDER: &str = concat!(env!("CARGO_MANIFEST_DIR"), "/frozen");

/// As many as the file has to hold.
pub const ENTRIES: usize = 10_000;

pub struct Entry {
    /// Where the sheet comes from.
    pub kind: String,
    pub run: Run,
    pub answers: Answers,
}

/// Stands for no byte and no word.
const NOTHING: &str = "-";

/// The first lines of the file.
const ABOUT: &str = "\
# Answers that do not change. README.md, beside this file, says how they are kept.
#
# A line is an entry, the first has the number 1. Its fields: kind, words to read, fuel, words of the bench, words of the
# report, sheet, and the answers of check, run and watch. '=' is what the entry before has; for run it is what check says,
# for watch what run says. '-' is no word, or no byte. Before a run every word of the report holds 9.
#
# A sheet: new bytes in hexadecimal, and copies (start+length) of bytes that have been seen, counted from the first byte of
# the sheet of the entry before. A copy may reach into what it writes.
#
# An answer: 0 is accepted; 8@118 is refused with 8 at byte 118; 11@0.22+151>9,14 is stopped with 11 in procedure 0 at
# instruction 22 after 151 steps, with the words 9 and 14 put. >40#.. is 40 words put, with the FNV-1a hash of their bytes.
";

/// The whole file.
pub fn written(entries: &[Entry]) -> String {
    let mut text = String::from(ABOUT);
    let mut before = None;
    for entry in entries {
        text += &line(entry, before);
        before = Some(entry);
    }
    text
}

fn line(entry: &Entry, before: Option<&Entry>) -> String {
    let mut lent = lent(entry);
    for (field, known) in lent.iter_mut().zip(known(before)) {
        *field = same_as(&known, field).to_string();
    }
    let lent = lent.join(" ");
    let sheet = difference(sheet_of(before), &entry.run.sheet);
    let answers = answers::shown(&entry.answers);
    format!("{lent} {} {answers}\n", or_nothing(sheet))
}

/// All entries of a file, or the first line that is none.
pub fn read(text: &str) -> Result<Vec<Entry>, String> {
    let mut entries: Vec<Entry> = Vec::new();
    for line in text.lines().filter(|line| !line.starts_with('#')) {
        let entry = entry(line, entries.last());
        entries.push(entry.ok_or_else(|| format!("no entry: {line}"))?);
    }
    Ok(entries)
}

fn entry(line: &str, before: Option<&Entry>) -> Option<Entry> {
    let fields: Vec<&str> = line.split(' ').collect();
    let [kind, input, fuel, memory, report, sheet, check, run, watch] = fields[..] else {
        return None;
    };
    let mut lent = [kind, input, fuel, memory, report].map(String::from);
    for (field, known) in lent.iter_mut().zip(known(before)) {
        if field == SAME {
            *field = known;
        }
    }
    let [kind, input, fuel, memory, report] = lent;
    let run_with = Run {
        sheet: applied(sheet_of(before), something(sheet))?,
        input: words(something(&input))?,
        fuel: fuel.parse().ok()?,
        memory_words: memory.parse().ok()?,
        output: vec![OLD_WORD; report.parse().ok()?],
    };
    Some(Entry {
        kind,
        run: run_with,
        answers: answers::read([check, run, watch]),
    })
}

/// The fields that are often those of the entry before.
fn lent(Entry { kind, run, .. }: &Entry) -> [String; 5] {
    [
        kind.clone(),
        or_nothing(listed(&run.input)),
        run.fuel.to_string(),
        run.memory_words.to_string(),
        run.output.len().to_string(),
    ]
}

fn known(before: Option<&Entry>) -> [String; 5] {
    before.map_or_else(Default::default, lent)
}

fn sheet_of(before: Option<&Entry>) -> &[u8] {
    before.map_or(&[], |entry| &entry.run.sheet)
}

fn or_nothing(text: String) -> String {
    match text.is_empty() {
        true => String::from(NOTHING),
        false => text,
    }
}

fn something(field: &str) -> &str {
    match field {
        NOTHING => "",
        field => field,
    }
}

fn words(text: &str) -> Option<Vec<u32>> {
    let words = text.split(',').filter(|word| !word.is_empty());
    words.map(|word| word.parse().ok()).collect()
}

#[cfg(test)]
mod tests {
    use super::{read, written, ABOUT};

    #[test]
    fn what_is_read_is_written_alike() {
        let text = String::from(ABOUT)
            + "smallest 3,0 200 100 6 4844010000015052000000ff0100494e11ffffff0000 0 11@0.0+1 =\n\
               empty = = = = - 2@0 = =\n\
               cut - = 0 0 4844010000 2@0 = =\n\
               = = = = = (0+5)00 2@6 = =\n";
        let entries = read(&text).expect("entries");
        assert_eq!(written(&entries), text);
        let last = &entries[3];
        assert_eq!((&last.kind[..], last.run.fuel), ("cut", 200));
        assert_eq!(last.run.sheet, b"HD\x01\0\0\0");
        assert_eq!(last.answers, ["2@6", "2@6", "2@6"]);
    }

    #[test]
    fn other_lines_are_no_entries() {
        for line in [
            "cut - 1 2 3 48 2@0 =",
            "cut - 1 2 3 4 2@0 = =",
            "cut x 1 2 3 48 2@0 = =",
        ] {
            let fault = Some(format!("no entry: {line}"));
            assert_eq!(read(line).err(), fault);
        }
    }
}
