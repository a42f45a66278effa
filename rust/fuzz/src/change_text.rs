//! Texts changed by chance: tokens, lines, characters and whole parts.

use generator::Random;
use text::MNEMONICS;

/// Makes a changed text of a text and another one.
type Change = fn(&mut Random, &str, &str) -> String;

/// The most bytes that a text grows to.
const MOST: usize = 300_000;

/// They leave much of the text, and are made most often.
const SMALL: [Change; 9] = [
    replace_token,
    exchange_tokens,
    remove_token,
    repeat_token,
    exchange_lines,
    remove_line,
    repeat_line,
    take_line,
    insert_character,
];
const BROAD: [Change; 4] = [remove_characters, splice, cut, line_ends];
/// They make much work, and are made seldom.
const LARGE: [Change; 3] = [nest_trays, long_line, many_lines];

/// The text with one or more changes.
pub fn changed(random: &mut Random, mut text: String, other: &str) -> String {
    loop {
        let changes = match random.below(64) {
            0..=1 => &LARGE[..],
            2..=13 => &BROAD,
            _ => &SMALL,
        };
        text = changes[random.below(changes.len())](random, &text, other);
        if text.len() > MOST {
            let end = (0..=MOST).rev().find(|&end| text.is_char_boundary(end));
            text.truncate(end.unwrap_or(0));
        }
        if random.one_in(2) {
            return text;
        }
    }
}

/// Words, runs of blanks, and all other characters one by one.
fn tokens(text: &str) -> Vec<&str> {
    let class = |c: char| match c {
        c if c.is_alphanumeric() || c == '_' => 1,
        ' ' | '\t' => 2,
        _ => 0,
    };
    let mut all = Vec::new();
    let mut start = 0;
    let mut before = 0;
    for (place, character) in text.char_indices() {
        let class = class(character);
        if class == 0 || class != before {
            all.push(&text[start..place]);
            start = place;
        }
        before = class;
    }
    all.push(&text[start..]);
    all
}

/// A place of the tokens that is not a blank, if there is one.
fn some_token(random: &mut Random, tokens: &[&str]) -> usize {
    let places = 0..tokens.len();
    let solid: Vec<usize> = places.filter(|&at| !tokens[at].trim().is_empty()).collect();
    random.pick(&solid).unwrap_or(0)
}

/// Words and numbers that mean something, and some that nearly do.
const WORDS: [&str; 57] = [
    "edition",
    "type",
    "qual",
    "procedure",
    "formal",
    "variable",
    "of",
    "gives",
    "as",
    "integer",
    "tray",
    "open",
    "fetch",
    "store",
    "size",
    "raw",
    "bytes",
    "HD",
    "TY",
    "QT",
    "PR",
    "GN",
    "VR",
    "IN",
    "main",
    ":=",
    "<-",
    ">=",
    "?R",
    "for",
    "{",
    "}",
    "[",
    "]",
    "(",
    ")",
    ",",
    ":",
    "=",
    "<",
    "+",
    "-",
    ".",
    "#",
    "0",
    "1",
    "2",
    "255",
    "256",
    "65535",
    "65536",
    "4294967295",
    "4294967296",
    "0x10",
    "0xfffff",
    "99999999999999999999",
    "-1",
];

/// A token of the other text, of the same one, a mnemonic or a known word.
fn some_word<'a>(random: &mut Random, tokens: &[&'a str], other: &'a str) -> &'a str {
    match random.below(8) {
        0 => WORDS[random.below(WORDS.len())],
        1 => MNEMONICS[random.below(MNEMONICS.len())].word,
        2 => {
            let others = self::tokens(other);
            others[some_token(random, &others)]
        }
        _ => tokens[some_token(random, tokens)],
    }
}

fn replace_token(random: &mut Random, text: &str, other: &str) -> String {
    let mut tokens = tokens(text);
    let place = some_token(random, &tokens);
    tokens[place] = some_word(random, &tokens, other);
    tokens.concat()
}

fn exchange_tokens(random: &mut Random, text: &str, _: &str) -> String {
    let mut tokens = tokens(text);
    let (one, another) = (some_token(random, &tokens), some_token(random, &tokens));
    tokens.swap(one, another);
    tokens.concat()
}

fn remove_token(random: &mut Random, text: &str, _: &str) -> String {
    let mut tokens = tokens(text);
    let place = some_token(random, &tokens);
    tokens.remove(place);
    tokens.concat()
}

fn repeat_token(random: &mut Random, text: &str, _: &str) -> String {
    let mut tokens = tokens(text);
    let place = some_token(random, &tokens);
    let blank = if random.one_in(2) { " " } else { "" };
    let again = [tokens[place], blank];
    tokens.splice(place..place, again);
    tokens.concat()
}

/// The lines with their ends; an empty text has one.
fn lines(text: &str) -> Vec<&str> {
    let all: Vec<&str> = text.split_inclusive('\n').collect();
    match all.is_empty() {
        true => vec![""],
        false => all,
    }
}

fn exchange_lines(random: &mut Random, text: &str, _: &str) -> String {
    let mut lines = lines(text);
    let (one, another) = (random.below(lines.len()), random.below(lines.len()));
    lines.swap(one, another);
    lines.concat()
}

fn remove_line(random: &mut Random, text: &str, _: &str) -> String {
    let mut lines = lines(text);
    lines.remove(random.below(lines.len()));
    lines.concat()
}

fn repeat_line(random: &mut Random, text: &str, _: &str) -> String {
    let mut lines = lines(text);
    let place = random.below(lines.len());
    lines.insert(random.below(lines.len()), lines[place]);
    lines.concat()
}

fn take_line(random: &mut Random, text: &str, other: &str) -> String {
    let (mut lines, others) = (lines(text), lines(other));
    let place = random.below(lines.len());
    lines.insert(place, others[random.below(others.len())]);
    lines.concat()
}

/// A place between two characters.
fn some_place(random: &mut Random, text: &str) -> usize {
    let place = random.below(text.len() + 1);
    let places = (0..=place).rev();
    let mut places = places.filter(|&at| text.is_char_boundary(at));
    places.next().unwrap_or(0)
}

/// Control characters, blanks that are none of ours, letters of others, and
/// what changes the direction or the width of a line.
const ODD: [char; 24] = [
    '\0',
    '\u{1}',
    '\u{7}',
    '\u{8}',
    '\t',
    '\n',
    '\u{b}',
    '\u{c}',
    '\r',
    '\u{1b}',
    '\u{7f}',
    '\u{85}',
    '\u{9b}',
    '\u{a0}',
    'é',
    'ß',
    '\u{301}',
    '\u{2028}',
    '\u{202e}',
    '\u{feff}',
    '字',
    '\u{1f980}',
    '$',
    '`',
];

fn insert_character(random: &mut Random, text: &str, _: &str) -> String {
    let (before, after) = text.split_at(some_place(random, text));
    let odd = match random.one_in(4) {
        true => char::from(random.byte()),
        false => ODD[random.below(ODD.len())],
    };
    let count = if random.one_in(8) { 300 } else { 1 };
    let odd = String::from(odd).repeat(count);
    format!("{before}{odd}{after}")
}

fn remove_characters(random: &mut Random, text: &str, _: &str) -> String {
    let (before, after) = text.split_at(some_place(random, text));
    let count = random.between(1, 8);
    let after: String = after.chars().skip(count).collect();
    format!("{before}{after}")
}

/// The beginning of the one and the end of the other, often whole lines.
fn splice(random: &mut Random, text: &str, other: &str) -> String {
    if random.one_in(4) {
        let (from, to) = (some_place(random, text), some_place(random, other));
        return format!("{}{}", &text[..from], &other[to..]);
    }
    let (lines, others) = (lines(text), lines(other));
    let (from, to) = (random.below(lines.len()), random.below(others.len()));
    format!("{}{}", lines[..from].concat(), others[to..].concat())
}

fn cut(random: &mut Random, text: &str, _: &str) -> String {
    text[..some_place(random, text)].to_owned()
}

/// Ends of lines as others write them.
fn line_ends(random: &mut Random, text: &str, _: &str) -> String {
    let end = ["\r\n", "\r", "\n\r", "\u{2028}", "\n\n"][random.below(5)];
    text.replace('\n', end)
}

/// One type of the text inside trays, around the most that a sheet can have
/// and far beyond.
fn nest_trays(random: &mut Random, text: &str, _: &str) -> String {
    let depth = match random.below(4) {
        0 => random.between(2, 12),
        1 => 20_000,
        _ => random.between(60, 66),
    };
    let (before, after) = ("tray[".repeat(depth), "]{}".repeat(depth));
    let deep = format!("{before}integer{after}");
    match random.one_in(2) {
        true => format!("qual deep = {deep}\n{text}"),
        false => text.replacen("integer", &deep, 1),
    }
}

/// A token so often that the line is very long.
fn long_line(random: &mut Random, text: &str, other: &str) -> String {
    let mut tokens = tokens(text);
    let place = some_token(random, &tokens);
    let blank = ["", " ", ", "][random.below(3)];
    let again = format!("{}{blank}", some_word(random, &tokens, other));
    let bytes = [200, 1_000, 5_000, 100_000][random.below(4)];
    let long = again.repeat(bytes / again.len().max(1));
    tokens[place] = &long;
    tokens.concat()
}

/// A line so often that a limit is met.
fn many_lines(random: &mut Random, text: &str, _: &str) -> String {
    let mut lines = lines(text);
    let place = random.below(lines.len());
    let count = [15, 32, 64, 255, 256, 1_000, 1_001, 4_000][random.below(8)];
    let many = lines[place].repeat(count);
    lines[place] = &many;
    lines.concat()
}
