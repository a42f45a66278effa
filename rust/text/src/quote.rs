//! What a message quotes from a text: printable, and short.

/// The most characters of a word that a message shows.
const LONGEST_WORD: usize = 40;
/// The most characters of a list of names that a message shows.
const LONGEST_LIST: usize = 80;

/// The word for a message, without the backticks around it: characters that
/// are not printed or change what is printed beside them are escaped, and a
/// long word is cut, `..` at its end.
pub fn quoted(found: &str) -> String {
    let mut said = String::new();
    let mut length = 0;
    for character in found.chars() {
        let shown = shown(character);
        length += shown.chars().count();
        if length > LONGEST_WORD {
            return said + "..";
        }
        said += &shown;
    }
    said
}

fn shown(character: char) -> String {
    match character {
        '\'' | '"' => String::from(character),
        _ => character.escape_debug().collect(),
    }
}

/// Names between commas; those that a message has no room for are left out,
/// `..` in their place.
pub fn listed<'a>(names: impl IntoIterator<Item = &'a str>) -> String {
    let mut said = String::new();
    for name in names {
        let comma = if said.is_empty() { "" } else { ", " };
        if said.len() > LONGEST_LIST {
            return said + comma + "..";
        }
        said += comma;
        said += &quoted(name);
    }
    said
}
