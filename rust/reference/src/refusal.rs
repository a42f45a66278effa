//! Why and where a sheet is refused.

/// The reasons for a refusal, with the numbers of documents 01 and 02. A check
/// gives all but 10.
#[derive(Clone, Copy, Debug, PartialEq, Eq)]
pub enum Reason {
    /// "overlong": more than 32,768 bytes.
    TooLong = 1,
    /// "torn": a record cut short, or bytes left over.
    Truncated = 2,
    /// "stray mark": not the mark due.
    WrongMark = 3,
    /// "edition": neither 1 nor 2.
    WrongEdition = 4,
    /// "off scale": a field outside the layout.
    OutOfRange = 5,
    /// "loose key": the right open where it may not stand.
    MisplacedOpen = 6,
    /// "false raise": need and inner disagree.
    NeedMismatch = 7,
    /// "wrong kind": base, element or return form.
    WrongKind = 8,
    /// "no licence": a right is lacking.
    MissingRight = 9,
    /// "big bench": a memory of more than 65,536 words.
    MemoryTooLarge = 10,
    /// "unsettled": no formal uses the rights name of the procedure called, or
    /// two actuals settle it differently.
    Unsettled = 20,
    /// "short": the settled set lacks a least right.
    Short = 21,
}

/// A reason together with the byte at which the refused record starts.
#[derive(Clone, Copy, Debug, PartialEq, Eq)]
pub struct Refusal {
    pub reason: Reason,
    pub place: usize,
}

impl Refusal {
    pub fn new(reason: Reason, place: usize) -> Self {
        Refusal { reason, place }
    }
}

/// What a check says about a sheet.
#[derive(Clone, Copy, Debug, PartialEq, Eq)]
pub enum Verdict {
    Accepted,
    Refused { number: u8, place: usize },
}

impl From<Result<(), Refusal>> for Verdict {
    fn from(outcome: Result<(), Refusal>) -> Self {
        match outcome {
            Ok(()) => Verdict::Accepted,
            Err(Refusal { reason, place }) => Verdict::Refused {
                number: reason as u8,
                place,
            },
        }
    }
}
