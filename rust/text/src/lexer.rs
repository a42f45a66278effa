//! A line made into tokens.

use crate::span::Span;

#[derive(Clone, Copy, Debug, PartialEq, Eq)]
pub enum Token<'a> {
    /// Letters, digits and underscores: a name, or, after a digit, a number.
    Word(&'a str),
    Mark(&'static str),
    /// A character that starts none of the others; no statement has it.
    Stray(char),
    /// The end of the line or the beginning of its comment.
    End,
}

/// The marks, a longer one before those that it starts with.
const MARKS: [&str; 16] = [
    ":=", "<-", ">=", "{", "}", "[", "]", "(", ")", ",", ":", "=", "<", "+", "-", ".",
];

/// The rights name, which stands for rights that a call settles.
pub const RIGHTS_NAME: &str = "?R";

/// A line's tokens, the last of them End. Of its stray characters only the
/// first is among them: no reader of the line passes it.
pub fn tokens(line: &str, number: usize) -> Vec<(Token<'_>, Span)> {
    let (mut all, mut has_strayed) = (Vec::new(), false);
    let (mut rest, mut column) = (line, 1);
    loop {
        let after = rest.trim_start_matches([' ', '\t', '\r']);
        column += rest.len() - after.len();
        let (token, length) = next(after);
        let is_stray = matches!(token, Token::Stray(_));
        // A character may have more bytes than its one column.
        let columns = if is_stray { 1 } else { length };
        let span = Span {
            line: number,
            start: column,
            end: column + columns,
        };
        if !(is_stray && has_strayed) {
            all.push((token, span));
        }
        if token == Token::End {
            return all;
        }
        has_strayed |= is_stray;
        column += columns;
        rest = &after[length..];
    }
}

/// The first token, and its length in bytes.
fn next(rest: &str) -> (Token<'_>, usize) {
    let Some(first) = rest.chars().next().filter(|&first| first != '#') else {
        return (Token::End, 0);
    };
    let length = word_length(rest);
    if length > 0 {
        return (Token::Word(&rest[..length]), length);
    }
    // No other word stands after a question mark.
    let is_name = |rest: &str| rest.strip_prefix('?').map(word_length) == Some(1);
    if rest.starts_with(RIGHTS_NAME) && is_name(rest) {
        return (Token::Mark(RIGHTS_NAME), RIGHTS_NAME.len());
    }
    match MARKS.into_iter().find(|mark| rest.starts_with(mark)) {
        Some(mark) => (Token::Mark(mark), mark.len()),
        None => (Token::Stray(first), first.len_utf8()),
    }
}

/// The bytes of the word that the rest begins with.
fn word_length(rest: &str) -> usize {
    let is_word = |byte: &u8| byte.is_ascii_alphanumeric() || *byte == b'_';
    rest.bytes().take_while(is_word).count()
}
