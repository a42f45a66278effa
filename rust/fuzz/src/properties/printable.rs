//! What a message may not say to a terminal.

/// The first character that a terminal obeys instead of showing it: controls,
/// and those that turn the direction of a line, end it, or are not seen.
pub fn hidden(said: &str) -> Option<char> {
    let is_hidden = |c: &char| match *c {
        '\u{200e}' | '\u{200f}' | '\u{2028}' | '\u{2029}' | '\u{feff}' => true,
        '\u{202a}'..='\u{202e}' | '\u{2066}'..='\u{2069}' => true,
        other => other.is_control(),
    };
    said.chars().find(is_hidden)
}
