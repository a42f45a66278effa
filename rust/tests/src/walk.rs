//! Which record is due at a place of a sheet, read from its bytes.
//!
//! All records before the place must be in range, as they are where a sheet
//! is refused at that place or accepted.

use generator::records::{RecordKind, NONE};
use reference::Edition;

/// What is due at a place.
#[derive(Clone, Copy, Debug, PartialEq, Eq)]
pub enum Due {
    Record(RecordKind),
    /// An IN, with the place of its PR.
    Instruction {
        procedure: usize,
        is_last: bool,
    },
    /// A VR, with the place of its PR.
    Variable {
        procedure: usize,
    },
    /// After the last record.
    Nothing,
}

impl Due {
    pub fn kind(self) -> Option<RecordKind> {
        match self {
            Due::Record(kind) => Some(kind),
            Due::Instruction { .. } => Some(RecordKind::Instruction),
            Due::Variable { .. } => Some(RecordKind::Variable),
            Due::Nothing => None,
        }
    }
}

/// The bytes of a sheet; beyond its end they are 0.
pub struct Walk<'a> {
    pub sheet: &'a [u8],
}

impl Walk<'_> {
    /// The edition by which the records are read: the first, where none is
    /// named at the start.
    pub fn edition(&self) -> Edition {
        let second = self.marked(0, RecordKind::Header)
            && self.byte(2) == usize::from(Edition::Second.number());
        match second {
            true => Edition::Second,
            false => Edition::First,
        }
    }

    fn size(&self, kind: RecordKind) -> usize {
        kind.size(self.edition())
    }

    pub fn byte(&self, place: usize) -> usize {
        usize::from(self.sheet.get(place).copied().unwrap_or(0))
    }

    fn word(&self, place: usize) -> usize {
        self.byte(place) + 256 * self.byte(place + 1)
    }

    fn qualified_start(&self) -> usize {
        6 + 12 * self.byte(3)
    }

    /// Where a qualified type stands.
    fn qualified(&self, number: usize) -> usize {
        self.qualified_start() + self.size(RecordKind::Qualified) * number
    }

    fn procedures_start(&self) -> usize {
        self.qualified(self.byte(4))
    }

    /// The places at which the PR, what comes after its GN, its first IN and
    /// the next PR stand.
    fn procedures(&self) -> Vec<[usize; 4]> {
        let mut start = self.procedures_start();
        let mut all = Vec::new();
        for number in 0..self.byte(5) {
            let head = start + self.size(RecordKind::Procedure);
            let bound = match number > 0 && self.marked(head, RecordKind::Bound) {
                true => self.size(RecordKind::Bound),
                false => 0,
            };
            let body = head + bound + 4 * self.byte(start + 4);
            let end = body + 8 * self.word(start + 6);
            all.push([start, head + bound, body, end]);
            start = end;
        }
        all
    }

    fn marked(&self, place: usize, kind: RecordKind) -> bool {
        let rest = self.sheet.get(place..);
        rest.is_some_and(|rest| rest.starts_with(&kind.mark()))
    }

    pub fn due(&self, place: usize) -> Due {
        if place == 0 {
            return Due::Record(RecordKind::Header);
        }
        if place < self.qualified_start() {
            return Due::Record(RecordKind::Type);
        }
        if place < self.procedures_start() {
            return Due::Record(RecordKind::Qualified);
        }
        for [start, variables, body, end] in self.procedures() {
            if place == start {
                return Due::Record(RecordKind::Procedure);
            }
            if place < variables {
                return Due::Record(RecordKind::Bound);
            }
            if place < body {
                return Due::Variable { procedure: start };
            }
            if place < end {
                let is_last = place + 8 == end;
                return Due::Instruction {
                    procedure: start,
                    is_last,
                };
            }
        }
        Due::Nothing
    }

    /// The codes of all instructions.
    pub fn codes(&self) -> Vec<usize> {
        let procedures = self.procedures().into_iter();
        procedures
            .flat_map(|[_, _, body, end]| (body..end).step_by(8))
            .map(|place| self.byte(place + 2))
            .collect()
    }

    fn has_open(&self, qualified: usize) -> bool {
        let rights = self.qualified(qualified) + 3;
        qualified != usize::from(NONE) && self.byte(rights) % 2 == 1
    }

    /// Whether a VR may be refused with 6 for its need and for its inner.
    pub fn open_in_variable(&self, procedure: usize, place: usize) -> (bool, bool) {
        let (inner, need) = (self.byte(place + 2), self.byte(place + 3));
        let base = self.byte(self.qualified(inner) + 2);
        let owned = base == self.byte(procedure + 2);
        (self.has_open(need), self.has_open(inner) && !owned)
    }

    /// Whether the fields of an IN that do not wait for the pass for calls
    /// are in range, where it is a call.
    pub fn call_waits(&self, procedure: usize, place: usize) -> bool {
        let none = usize::from(NONE);
        let [code, a, c] = [2, 3, 5].map(|offset| self.byte(place + offset));
        let kept = a == none || a < self.byte(procedure + 4);
        code == 16 && c == none && kept
    }
}
