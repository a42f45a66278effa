//! The lines `# KEY: VALUE` of a head.

use std::str::FromStr;
use text::{quoted, Error, Span};

const KEYS: [&str; 10] = [
    "expect", "at", "stop", "watch", "watch-at", "put", "reads", "fuel", "memory", "report",
];

/// A line that is a comment.
pub struct Line<'a> {
    /// What stands before the colon, or all where there is none.
    pub key: &'a str,
    /// What follows the colon, without the blanks around it.
    pub value: &'a str,
    has_colon: bool,
    /// What stands before the #.
    blank: Span,
    key_span: Span,
    value_span: Span,
}

/// The lines of the head from `# expect:` on. All have a known key, and no
/// other line does: a misspelt or misplaced one is not passed over.
pub fn read(text: &str) -> Result<Vec<Line<'_>>, Error> {
    // Some editors write a byte order mark before the first line.
    let text = text.strip_prefix('\u{feff}').unwrap_or(text);
    let mut found = Vec::new();
    let mut end = None;
    for (index, said) in text.lines().enumerate() {
        let number = index + 1;
        match (Line::of_comment(said, number), &end) {
            (None, None) => end = Some(End::new(said, number)),
            (Some(line), None) => add_to_head(line, &mut found)?,
            (Some(line), Some(end)) if line.is_known() => {
                return Err(line.outside(end, found.is_empty()));
            }
            (_, Some(_)) => {}
        }
    }
    Ok(found)
}

/// A line of the head, which is prose before `# expect:` and has a key from
/// there on.
fn add_to_head<'a>(line: Line<'a>, found: &mut Vec<Line<'a>>) -> Result<(), Error> {
    if line.blank.start < line.blank.end {
        let message = "expected `#` at the start of the line, found a blank before it";
        return Err(Error::new(line.blank, message));
    }
    let is_prose = found.is_empty() && line.key != "expect";
    match line.is_known() {
        true if is_prose => Err(line.wrong("stands before `# expect:`, from which the keys begin")),
        true if found.iter().any(|other| other.key == line.key) => Err(line.wrong("is said twice")),
        true => {
            found.push(line);
            Ok(())
        }
        false if found.is_empty() || line.is_empty() => Ok(()),
        false => Err(line.unknown()),
    }
}

/// The line after the head, the first that is no comment.
struct End {
    number: usize,
    is_empty: bool,
}

impl End {
    fn new(said: &str, number: usize) -> End {
        let is_empty = said.trim().is_empty();
        End { number, is_empty }
    }

    /// For a message about what stands after it.
    fn said(&self) -> String {
        let what = match self.is_empty {
            true => "is empty",
            false => "does not begin with `#`",
        };
        format!("after line {}, which {what}", self.number)
    }
}

/// The error of a text whose head says nothing.
pub fn missing() -> Error {
    let (line, start, end) = (1, 1, 1);
    let message = "expected a line `# expect: ..` at the head of the text";
    Error::new(Span { line, start, end }, message)
}

/// A number of decimal digits and nothing else.
pub fn decimal<N: FromStr>(word: &str) -> Option<N> {
    let plain = word.bytes().all(|byte| byte.is_ascii_digit());
    word.parse().ok().filter(|_| plain)
}

impl<'a> Line<'a> {
    /// None where the line is no comment.
    fn of_comment(said: &'a str, number: usize) -> Option<Self> {
        let bare = said.trim_start_matches([' ', '\t', '\r']);
        let comment = bare.strip_prefix('#')?;
        // The blanks are characters of one byte.
        let sign = said.len() - bare.len() + 1;
        let parts = comment.split_once(':');
        let (key, value) = parts.unwrap_or((comment, ""));
        let before_value = key.chars().count() + 1;
        Some(Line {
            key: key.trim(),
            value: value.trim(),
            has_colon: parts.is_some(),
            blank: Span {
                line: number,
                start: 1,
                end: sign,
            },
            key_span: trimmed(key, number, sign + 1),
            value_span: trimmed(value, number, sign + 1 + before_value),
        })
    }

    /// Whether it has one of the keys.
    fn is_known(&self) -> bool {
        self.has_colon && KEYS.contains(&self.key)
    }

    fn is_empty(&self) -> bool {
        !self.has_colon && self.key.is_empty()
    }

    /// The error of a key after the end of the head.
    fn outside(&self, end: &End, is_first: bool) -> Error {
        let end = end.said();
        if is_first && self.key == "expect" {
            let message = format!("expected `# expect:` at the start of the text, found it {end}");
            return Error::new(self.key_span, message);
        }
        self.wrong(&format!("stands outside the head, {end}"))
    }

    fn wrong(&self, what: &str) -> Error {
        Error::new(self.key_span, format!("`{}:` {what}", self.key))
    }

    fn unknown(&self) -> Error {
        let (keys, key) = (KEYS.join(", "), quoted(self.key));
        let message = format!("expected a key, one of {keys}, and a colon, found `{key}`");
        Error::new(self.key_span, message)
    }

    /// The error of a key that says nothing about the sheet.
    pub fn useless(&self) -> Error {
        self.wrong(
            "says nothing about this sheet: an accepted one is run where `stop:` is said, one refused for 6 to 9, 20 or 21 where \
             `watch:` is, no other is run",
        )
    }

    pub fn malformed(&self, expected: &str) -> Error {
        let message = format!("expected {expected}, found `{}`", quoted(self.value));
        Error::new(self.value_span, message)
    }
}

/// The columns of a part of a line, without the blanks around it.
fn trimmed(part: &str, line: usize, column: usize) -> Span {
    let blank = part.chars().take_while(|c| c.is_whitespace()).count();
    let start = column + blank;
    let end = start + part.trim().chars().count();
    Span { line, start, end }
}

#[cfg(test)]
mod tests {
    use super::read;

    #[test]
    fn a_line_is_a_key_and_a_value_however_the_editor_ends_it() {
        let text =
            "\u{feff}# \u{e9}: prose\r\n# expect: accepted 0 0\r\n#put:  1 2 \r\n#\r\nput: 3\r\n";
        let lines = read(text).expect("a head");
        let said: Vec<_> = lines.iter().map(|line| (line.key, line.value)).collect();
        assert_eq!(said, [("expect", "accepted 0 0"), ("put", "1 2")]);
        let spans = (lines[1].key_span, lines[1].value_span);
        assert_eq!((spans.0.line, spans.0.start, spans.0.end), (3, 2, 5));
        assert_eq!((spans.1.line, spans.1.start, spans.1.end), (3, 8, 11));
    }
}
