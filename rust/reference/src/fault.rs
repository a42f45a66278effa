//! What an access rule refuses, told in full, for those who explain it.

use crate::generic::{Read, Reading};
use crate::refusal::{Reason, Refusal};

/// A refusal with what its rule looked at.
#[derive(Clone, Copy, Debug, PartialEq, Eq)]
pub struct Fault {
    pub refusal: Refusal,
    pub detail: Detail,
}

/// What is wrong with a record. Numbers are indexes of the program; variables
/// are those of the procedure that the record belongs to.
#[derive(Clone, Copy, Debug, PartialEq, Eq)]
pub enum Detail {
    /// 6: the qualified type that has open, and which part of the record
    /// names it.
    Open { holder: Holder, qualified: usize },
    /// 7: whether inner has the owner's type, so that only the bases of the
    /// two must agree.
    Need {
        need: usize,
        inner: usize,
        owned: bool,
    },
    /// 20: the two formals of the procedure called whose actuals settle its
    /// rights name differently; None where no formal uses the name.
    Unsettled {
        procedure: usize,
        differing: Option<[usize; 2]>,
    },
    /// 21: what the rights name of the procedure called is settled to.
    Short { procedure: usize, settled: Reading },
    /// 8: a result is lacking, or one too many.
    Form(Form),
    /// 8: a variable is not of the kind due.
    Kind { variable: usize, due: Due },
    /// 9: a variable lacks the right due.
    Right { variable: usize, right: usize },
    /// 9: a new record is no ?R, though it is of its base.
    NewGeneric { variable: usize },
    /// 8 or 9: a value does not fit where it goes.
    Movement { from: Site, to: Site },
}

/// The part of a record that names a qualified type.
#[derive(Clone, Copy, Debug, PartialEq, Eq)]
pub enum Holder {
    Slot(usize),
    Element,
    Result,
    Need,
    Inner,
}

#[derive(Clone, Copy, Debug, PartialEq, Eq)]
pub enum Form {
    /// A return without a value where the procedure has a result.
    NothingReturned,
    /// A return with a value where the procedure has no result.
    TooMuchReturned,
    /// A call that keeps the result of a procedure that has none.
    NothingToKeep { procedure: usize },
}

#[derive(Clone, Copy, Debug, PartialEq, Eq)]
pub enum Due {
    Integer,
    Array,
    /// The type of the procedure's owner.
    Owner,
}

/// Where a value comes from or goes, and its qualified type as it is read
/// there.
#[derive(Clone, Copy, Debug, PartialEq, Eq)]
pub struct Site {
    pub end: End,
    pub declared: Read,
}

#[derive(Clone, Copy, Debug, PartialEq, Eq)]
pub enum End {
    Variable(usize),
    /// An element of the array in a variable.
    Element {
        array: usize,
    },
    /// A slot of the record in a variable.
    Slot {
        record: usize,
        slot: usize,
    },
    /// What a procedure needs of a formal.
    Need {
        procedure: usize,
        formal: usize,
    },
    Result {
        procedure: usize,
    },
}

/// A fault whose record is not yet said.
pub(crate) struct Broken {
    pub reason: Reason,
    pub detail: Detail,
}

impl Broken {
    pub fn new(reason: Reason, detail: Detail) -> Self {
        Broken { reason, detail }
    }

    /// The fault of the record at the place.
    pub fn at(self, place: usize) -> Fault {
        Fault {
            refusal: Refusal::new(self.reason, place),
            detail: self.detail,
        }
    }
}
