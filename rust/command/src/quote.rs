//! What a message shows of names and lines: nothing that a terminal obeys.
//! What is found in a file is also shortened, by [`text::quoted`].

use std::fmt::Write;

/// With what is not shown as it stands written out, as in `\u{1b}`.
pub fn escaped(said: &str) -> String {
    let mut out = String::new();
    for character in said.chars() {
        match character {
            '\n' => out.push_str("\\n"),
            '\r' => out.push_str("\\r"),
            '\t' => out.push_str("\\t"),
            hidden if is_hidden(hidden) => {
                // Writing to a string cannot fail.
                let _ = write!(out, "{}", hidden.escape_unicode());
            }
            shown => out.push(shown),
        }
    }
    out
}

/// Characters that a terminal obeys, or that take no column of it: controls,
/// and those that format, turn or join the text.
pub fn is_hidden(character: char) -> bool {
    let is_plain = matches!(character, '\\' | '\'' | '"' | '\u{a0}');
    !is_plain && character.escape_debug().len() > 1
}

#[cfg(test)]
mod tests {
    use super::escaped;

    #[test]
    fn what_a_terminal_obeys_is_written_out() {
        let said = "a\x1b[31m\u{202e}b\n\u{9b}é";
        assert_eq!(escaped(said), "a\\u{1b}[31m\\u{202e}b\\n\\u{9b}é");
    }
}
