//! The arguments after the word of a task, told apart into files and options.

use crate::help;
use crate::tasks::{Entry, Known, OF_ALL, OF_NONE, TASKS};
use crate::Failure;
use std::ffi::{OsStr, OsString};
use std::os::unix::ffi::OsStrExt;
use std::slice::Iter;
use text::quoted;

pub struct Given {
    pub task: &'static Entry,
    pub files: Vec<OsString>,
    options: Vec<(&'static Known, Option<OsString>)>,
}

impl Given {
    pub fn read(task: &'static Entry, arguments: &[OsString]) -> Result<Given, Failure> {
        let (files, options) = (Vec::new(), Vec::new());
        let mut given = Given {
            task,
            files,
            options,
        };
        let mut rest = arguments.iter();
        while let Some(argument) = rest.next() {
            match argument.as_bytes() {
                b"--" => given.files.extend(rest.by_ref().cloned()),
                [b'-', _, ..] => given.add_option(argument, &mut rest)?,
                _ => given.files.push(argument.clone()),
            }
        }
        Ok(given)
    }

    fn add_option(&mut self, argument: &OsStr, rest: &mut Iter<OsString>) -> Result<(), Failure> {
        let (name, attached) = parted(argument);
        let known = name.to_str().and_then(|name| self.task.option(name));
        let Some(known) = known.filter(|known| is_meant(known, name, attached)) else {
            return self.misuse(self.unknown(argument));
        };
        let shown = quoted(&name.to_string_lossy());
        let value = match (known.value, attached) {
            (None, None) => None,
            (None, Some(_)) => return self.misuse(format!("{shown} takes no value")),
            (Some(_), Some(value)) => Some(value.to_owned()),
            (Some(_), None) => match rest.next() {
                Some(value) => Some(value.clone()),
                None => return self.misuse(format!("{shown} needs a value")),
            },
        };
        if value.is_some() && self.given(known).is_some() {
            return self.misuse(format!("{shown} is given twice"));
        }
        self.options.push((known, value));
        Ok(())
    }

    /// What is said of an option that the task does not have.
    fn unknown(&self, argument: &OsStr) -> String {
        let said = argument.to_string_lossy();
        let name = said.split('=').next().unwrap_or_default();
        let shown = quoted(name);
        if TASKS.iter().any(|task| task.option(name).is_some()) {
            return format!("{shown} is no option of {}", self.task.word);
        }
        if OF_NONE.iter().any(|known| known.names.contains(&name)) {
            return format!("{shown} stands alone, in place of a task");
        }
        let names = self.task.options().flat_map(|known| known.names);
        let near = nearest(name, names.copied());
        format!("no such option: {shown}{near}")
    }

    fn given(&self, wanted: &Known) -> Option<&(&'static Known, Option<OsString>)> {
        let mut options = self.options.iter();
        options.find(|(known, _)| known.names == wanted.names)
    }

    fn named(&self, name: &str) -> Option<&(&'static Known, Option<OsString>)> {
        let known = self.task.option(name)?;
        self.given(known)
    }

    /// Whether the option is given.
    pub fn has(&self, name: &str) -> bool {
        self.named(name).is_some()
    }

    /// The value that the option is given.
    pub fn value(&self, name: &str) -> Option<&OsStr> {
        self.named(name)?.1.as_deref()
    }

    /// The value of the option as a number.
    pub fn number(&self, option: &str, default: u64, most: u64) -> Result<u64, Failure> {
        let Some(value) = self.value(option) else {
            return Ok(default);
        };
        let digits = value.to_str().filter(|text| !text.starts_with('+'));
        let number = digits.and_then(|text| text.parse().ok());
        match number.filter(|&number| number <= most) {
            Some(number) => Ok(number),
            None => self.misuse(format!(
                "{option} needs a number from 0 to {most}, found {}",
                quoted(&value.to_string_lossy())
            )),
        }
    }

    /// The only file given.
    pub fn file(&self) -> Result<OsString, Failure> {
        match &self.files[..] {
            [] => self.misuse("which file?"),
            [file] => Ok(file.clone()),
            [_, second, ..] => self.misuse(format!(
                "one file at a time, found also {}",
                quoted(&second.to_string_lossy())
            )),
        }
    }

    pub fn misuse<T>(&self, message: impl AsRef<str>) -> Result<T, Failure> {
        misuse(message, &help::usage(self.task))
    }
}

/// What is wrong with the call, and how it is to be.
pub fn misuse<T>(message: impl AsRef<str>, usage: &str) -> Result<T, Failure> {
    let (message, usage) = (message.as_ref(), usage.trim_end());
    Err(Failure::Misuse(format!("{message}\n{usage}")))
}

/// What is said of a call that begins with something other than a task, and
/// with a dash.
pub fn misplaced(argument: &OsStr) -> String {
    if argument == "--" {
        return String::from("-- comes after the task, where it ends the options");
    }
    let (name, attached) = parted(argument);
    let said = name.to_string_lossy();
    let known = TASKS.iter().find_map(|task| task.option(&said));
    if known.is_some_and(|known| is_meant(known, name, attached)) {
        return format!("{said} is an option: options come after the task");
    }
    let whole = argument.to_string_lossy();
    let in_place = OF_ALL.iter().chain(OF_NONE);
    let names = in_place.flat_map(|known| known.names).copied();
    let near = nearest(&whole, names);
    format!("no such option: {}{near}", quoted(&whole))
}

/// The name of an option and the value that stands with it, as in `--fuel=3`
/// and `-oOUT`.
fn parted(argument: &OsStr) -> (&OsStr, Option<&OsStr>) {
    let bytes = argument.as_bytes();
    let (name, value) = match bytes.starts_with(b"--") {
        true => match bytes.iter().position(|&byte| byte == b'=') {
            Some(sign) => (&bytes[..sign], Some(&bytes[sign + 1..])),
            None => (bytes, None),
        },
        false => (
            &bytes[..2],
            Some(&bytes[2..]).filter(|rest| !rest.is_empty()),
        ),
    };
    (OsStr::from_bytes(name), value.map(OsStr::from_bytes))
}

/// Whether an option is meant where its name and what is attached stand:
/// `-quiet` is no -q with a value.
fn is_meant(known: &Known, name: &OsStr, attached: Option<&OsStr>) -> bool {
    let is_long = name.len() > 2;
    known.value.is_some() || is_long || attached.is_none()
}

/// A question after the known words that a wrong one nearly is, if any.
pub fn nearest<'a>(wrong: &str, known: impl Iterator<Item = &'a str>) -> String {
    let begun = |word: &str| !wrong.trim_start_matches('-').is_empty() && word.starts_with(wrong);
    // Every short option is one slip from any other.
    let is_short = wrong.starts_with('-') && wrong.chars().count() == 2;
    let is_near = |word: &&str| match is_short {
        true => word.eq_ignore_ascii_case(wrong),
        false => begun(word) || one_slip(wrong.as_bytes(), word.as_bytes()),
    };
    let near: Vec<&str> = known.filter(is_near).collect();
    match near.is_empty() {
        true => String::new(),
        false => format!("; is it {}?", near.join(" or ")),
    }
}

/// Whether two words differ by one character too many, too few or other, or by
/// two that are exchanged.
fn one_slip(left: &[u8], right: &[u8]) -> bool {
    let pairs = left.iter().zip(right);
    let same = pairs.take_while(|(left, right)| left == right).count();
    let (left, right) = (&left[same..], &right[same..]);
    let pairs = left.iter().rev().zip(right.iter().rev());
    let same = pairs.take_while(|(left, right)| left == right).count();
    match (&left[..left.len() - same], &right[..right.len() - same]) {
        ([], [_]) | ([_], []) | ([_], [_]) => true,
        ([a, b], [c, d]) => (a, b) == (d, c),
        _ => false,
    }
}

#[cfg(test)]
mod tests {
    use super::one_slip;

    #[test]
    fn a_slip_is_one_character_or_an_exchange() {
        for near in ["fuell", "fue", "fool", "feul", "uel", "fuul"] {
            let expected = near != "fool";
            assert_eq!(one_slip(near.as_bytes(), b"fuel"), expected, "{near}");
        }
        assert!(!one_slip(b"fuel", b"fuel"));
        assert!(!one_slip(b"", b"fuel"));
    }
}
