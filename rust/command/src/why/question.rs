//! The question of --why, PLACE.RIGHT: where the place is to be found in a
//! run, and the right that it carries.

use text::quoted;

pub struct Question {
    /// As it was given.
    pub said: String,
    pub start: Start,
    /// The cells and slots on the way from there.
    pub parts: Vec<Part>,
    pub right: String,
}

/// What a place begins with.
#[derive(Clone, Debug, PartialEq, Eq)]
pub enum Start {
    Variable {
        frame: Frame,
        name: String,
    },
    /// A part of an object, by the number that the trace gives it.
    Object(usize, Part),
}

#[derive(Clone, Debug, PartialEq, Eq)]
pub enum Frame {
    /// The one that runs.
    Running,
    /// The innermost that is open of a procedure.
    Of(String),
    /// The one that stands on so many others.
    Number(usize),
}

#[derive(Clone, Debug, PartialEq, Eq)]
pub enum Part {
    Cell(usize),
    Slot(String),
}

impl Question {
    /// Reads PLACE.RIGHT, or says what it must be.
    pub fn read(said: &str) -> Result<Question, String> {
        let found = || {
            let found = quoted(said);
            format!(
                "--why needs PLACE.RIGHT, such as seen.read or main:drafts[0].read, found {found}"
            )
        };
        let (place, right) = said.rsplit_once('.').ok_or_else(found)?;
        let right = name(right).ok_or_else(found)?;
        let (head, rest) = place.split_at(place.find(['[', '.']).unwrap_or(place.len()));
        let mut parts = parts(rest).ok_or_else(found)?;
        let start = match head.strip_prefix("object ") {
            None => variable(head).ok_or_else(found)?,
            Some(digits) => {
                let number = number(digits).ok_or_else(found)?;
                if parts.is_empty() {
                    return Err(format!(
                        "--why needs a cell or a slot of object {number}, such as object {number}[0].{right}"
                    ));
                }
                Start::Object(number, parts.remove(0))
            }
        };
        Ok(Question {
            said: String::from(said),
            start,
            parts,
            right,
        })
    }

    /// The place as it was given.
    pub fn place(&self) -> &str {
        &self.said[..self.said.len() - self.right.len() - 1]
    }
}

fn variable(head: &str) -> Option<Start> {
    let (frame, variable) = match head.split_once(':') {
        None => (Frame::Running, head),
        Some((frame, variable)) => match frame.strip_prefix("frame ") {
            Some(digits) => (Frame::Number(number(digits)?), variable),
            None => (Frame::Of(name(frame)?), variable),
        },
    };
    let name = name(variable)?;
    Some(Start::Variable { frame, name })
}

fn parts(mut rest: &str) -> Option<Vec<Part>> {
    let mut parts = Vec::new();
    while !rest.is_empty() {
        let part;
        (part, rest) = match rest.strip_prefix('[') {
            Some(cell) => {
                let (digits, rest) = cell.split_once(']')?;
                (Part::Cell(number(digits)?), rest)
            }
            None => {
                let slot = rest.strip_prefix('.')?;
                let (slot, rest) = slot.split_at(slot.find(['[', '.']).unwrap_or(slot.len()));
                (Part::Slot(name(slot)?), rest)
            }
        };
        parts.push(part);
    }
    Some(parts)
}

/// A name as texts have them.
fn name(word: &str) -> Option<String> {
    let is_name = |byte: u8| byte.is_ascii_alphanumeric() || byte == b'_';
    let holds = !word.is_empty() && word.bytes().all(is_name);
    holds.then(|| String::from(word))
}

fn number(digits: &str) -> Option<usize> {
    let is_plain = digits.bytes().all(|byte| byte.is_ascii_digit());
    digits.parse().ok().filter(|_| is_plain)
}

#[cfg(test)]
mod tests {
    use super::{Frame, Part, Question, Start};

    fn read(said: &str) -> (Start, Vec<Part>, String) {
        let question = Question::read(said).unwrap_or_else(|error| panic!("{error}"));
        let (place, right) = (question.place(), &question.right);
        assert_eq!(format!("{place}.{right}"), said);
        (question.start, question.parts, question.right)
    }

    fn variable(frame: Frame, name: &str) -> Start {
        let name = String::from(name);
        Start::Variable { frame, name }
    }

    #[test]
    fn a_place_is_a_variable_or_a_part_of_an_object() {
        let slot = |name: &str| Part::Slot(String::from(name));
        let main = || Frame::Of(String::from("main"));
        for (said, start, parts, right) in [
            (
                "seen.read",
                variable(Frame::Running, "seen"),
                vec![],
                "read",
            ),
            ("main:seen.open", variable(main(), "seen"), vec![], "open"),
            (
                "frame 3:v0.r1",
                variable(Frame::Number(3), "v0"),
                vec![],
                "r1",
            ),
            (
                "main:a[0][12].sire.b[7].read",
                variable(main(), "a"),
                vec![
                    Part::Cell(0),
                    Part::Cell(12),
                    slot("sire"),
                    slot("b"),
                    Part::Cell(7),
                ],
                "read",
            ),
            (
                "object 10[0].x",
                Start::Object(10, Part::Cell(0)),
                vec![],
                "x",
            ),
            (
                "object 1.s[2].x",
                Start::Object(1, slot("s")),
                vec![Part::Cell(2)],
                "x",
            ),
            // A variable may have the name of what an object begins with.
            (
                "object[0].x",
                variable(Frame::Running, "object"),
                vec![Part::Cell(0)],
                "x",
            ),
        ] {
            assert_eq!(read(said), (start, parts, String::from(right)), "{said}");
        }
    }

    #[test]
    fn what_is_no_place_with_a_right_is_told() {
        for wrong in [
            "",
            ".",
            "seen",
            "seen.",
            ".read",
            "a[0]",
            "a[].read",
            "a[x].read",
            "a[0.read",
            "a]0[.read",
            "a[0]b.read",
            "a[+1].read",
            "a[-1].read",
            "a..read",
            "a.b..read",
            ":a.read",
            "main:.read",
            "a:b:c.read",
            "frame x:a.read",
            "frame :a.read",
            "object x[0].read",
            "object.read.",
            "a b.read",
            "a.re ad",
            "a[18446744073709551616].read",
            "é.read",
            "object  1[0].read",
        ] {
            let error = Question::read(wrong).err().unwrap_or_default();
            assert!(
                error.starts_with("--why needs PLACE.RIGHT, "),
                "{wrong}: {error}"
            );
        }
        let error = Question::read("object 0.read").err().unwrap_or_default();
        assert_eq!(
            error,
            "--why needs a cell or a slot of object 0, such as object 0[0].read"
        );
    }
}
