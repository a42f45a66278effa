//! The generator's own view of types in which ?R is read, by a procedure or
//! by a call.
//!
//! A type is spelled out: the rights of its arrays, outermost first, and what
//! stands innermost. The second engine walks through QT records instead, so
//! that a slip in one of the two shows.

use crate::records::{BoundRecord, VariableRecord, GENERIC, OPEN, STORE};
use crate::sheet::Procedure;
use crate::typing::{Movement, Typing};

/// What stands innermost in a type.
#[derive(Clone, Copy, Debug, PartialEq, Eq)]
pub enum Leaf {
    Integer,
    Record {
        base: u8,
        rights: u32,
    },
    /// ?R itself, in the procedure that has the bound.
    Own {
        base: u8,
        least: u32,
    },
}

impl Leaf {
    pub fn own(BoundRecord { base, least }: BoundRecord) -> Self {
        Leaf::Own { base, least }
    }

    fn base(self) -> u8 {
        match self {
            Leaf::Integer => 0,
            Leaf::Record { base, .. } | Leaf::Own { base, .. } => base,
        }
    }

    /// The rights that it surely has.
    fn rights(self) -> u32 {
        match self {
            Leaf::Integer => 0,
            Leaf::Record { rights, .. } => rights,
            Leaf::Own { least, .. } => least,
        }
    }

    fn movement(self, destination: Leaf) -> Movement {
        if self.base() != destination.base() {
            return Movement::WrongKind;
        }
        let reached = match (self, destination) {
            (Leaf::Own { .. }, Leaf::Own { .. }) => true,
            (_, Leaf::Own { .. }) => false,
            _ => destination.rights() & !self.rights() == 0,
        };
        match reached {
            true => Movement::Fits,
            false => Movement::LacksRight,
        }
    }
}

/// A type spelled out.
#[derive(Clone, Debug, PartialEq, Eq)]
pub struct Spelled {
    pub arrays: Vec<u32>,
    pub leaf: Leaf,
}

impl Spelled {
    /// From the innermost level to the outermost.
    pub fn movement(&self, destination: &Spelled) -> Movement {
        if self.arrays.len() != destination.arrays.len() {
            return Movement::WrongKind;
        }
        let mut inside = self.leaf.movement(destination.leaf);
        let mut equal = self.leaf == destination.leaf;
        for (&has, &due) in self.arrays.iter().zip(&destination.arrays).rev() {
            let stores = due & STORE != 0;
            let elements = equal || !stores && inside == Movement::Fits;
            inside = match (elements, due & !has) {
                (false, _) => Movement::WrongKind,
                (true, 0) => Movement::Fits,
                (true, _) => Movement::LacksRight,
            };
            equal &= has == due;
        }
        inside
    }
}

impl Typing {
    /// A type with something in place of ?R; unread it is of no base.
    pub fn spelled(&self, number: u8, generic: Option<Leaf>) -> Spelled {
        let mut arrays = Vec::new();
        let mut record = self.get(number);
        while record.base == 1 {
            arrays.push(record.rights);
            record = self.get(record.element);
        }
        let unread = Leaf::Own {
            base: 255,
            least: 0,
        };
        let leaf = match record.base {
            0 => Leaf::Integer,
            GENERIC => generic.unwrap_or(unread),
            base => Leaf::Record {
                base,
                rights: record.rights,
            },
        };
        Spelled { arrays, leaf }
    }
}

/// What a call comes to before its actuals move.
#[derive(Clone, Copy, Debug, PartialEq, Eq)]
pub enum Settling {
    /// There is no rights name.
    Nameless,
    To(Leaf),
    Unsettled,
    Short,
}

/// The types as one procedure reads them.
#[derive(Clone, Copy)]
pub struct Scope<'a> {
    pub typing: &'a Typing,
    pub bound: Option<BoundRecord>,
}

impl Scope<'_> {
    pub fn spelled(&self, number: u8) -> Spelled {
        self.typing.spelled(number, self.bound.map(Leaf::own))
    }

    /// A movement within the procedure.
    pub fn movement(&self, source: u8, destination: u8) -> Movement {
        let uses = |number| self.typing.uses_generic(number);
        match uses(source) || uses(destination) {
            true => self.spelled(source).movement(&self.spelled(destination)),
            false => self.typing.movement(source, destination),
        }
    }

    pub fn fits(&self, source: u8, destination: u8) -> bool {
        self.movement(source, destination) == Movement::Fits
    }

    /// Whether an array moves to one with other elements.
    pub fn widens(&self, source: u8, destination: u8) -> bool {
        let element = |number| self.typing.get(number).element;
        let arrays = [source, destination].map(|number| self.typing.is_array_with(number, 0));
        arrays == [true; 2]
            && !self.typing.equal(element(source), element(destination))
            && self.fits(source, destination)
    }

    /// Types for two names of one array, of which the second asks for less of
    /// its elements.
    pub fn two_names(&self) -> Vec<[u8; 2]> {
        let arrays = self
            .typing
            .all()
            .filter(|&n| self.typing.is_array_with(n, 0));
        let arrays: Vec<u8> = arrays.filter(|&n| self.may_name(n)).collect();
        let pairs = arrays.iter().flat_map(|&first| {
            let seconds = arrays.iter().filter(move |&&n| self.widens(first, n));
            seconds.map(move |&second| [first, second])
        });
        pairs.collect()
    }

    /// Whether the procedure may name a type.
    pub fn may_name(&self, number: u8) -> bool {
        self.bound.is_some() || !self.typing.uses_generic(number)
    }

    /// What a call with actuals of these types settles.
    pub fn settling(&self, callee: &Procedure, actuals: &[u8]) -> Settling {
        let Some(BoundRecord { base, least }) = callee.bound else {
            return Settling::Nameless;
        };
        let formals = callee.formals().iter().zip(actuals);
        let users: Vec<_> = formals
            .filter(|(formal, _)| self.typing.uses_generic(formal.need))
            .collect();
        let settled = users.iter().filter_map(|(formal, &actual)| {
            let need = self.typing.spelled(formal.need, None);
            let actual = self.spelled(actual);
            let alike = need.arrays.len() == actual.arrays.len() && actual.leaf.base() == base;
            alike.then(|| closed(actual.leaf))
        });
        let settled: Vec<Leaf> = settled.collect();
        let rights = least;
        let first = settled.first().copied();
        let first = first.unwrap_or(Leaf::Record { base, rights });
        if users.is_empty() || settled.iter().any(|&other| other != first) {
            Settling::Unsettled
        } else if least & !first.rights() != 0 {
            Settling::Short
        } else {
            Settling::To(first)
        }
    }

    /// The types that the procedure may name and that it reads so.
    pub fn read_as(&self, spelled: &Spelled) -> Vec<u8> {
        let all = self.typing.all();
        let named = all.filter(|&number| self.may_name(number));
        named.filter(|&n| self.spelled(n) == *spelled).collect()
    }

    /// What calls of a procedure with the bound may settle: this procedure's
    /// own ?R, and every set of rights that some type has.
    pub fn choices(&self, bound: BoundRecord) -> Vec<Leaf> {
        let records = self.typing.all().map(|number| self.typing.get(number));
        let records = records.filter(|record| record.base == bound.base);
        let records = records.map(|record| Leaf::Record {
            base: bound.base,
            rights: record.rights & !OPEN,
        });
        let own = self.bound.map(Leaf::own);
        let own = own.filter(|own| own.base() == bound.base);
        let all = own.into_iter().chain(records);
        all.filter(|leaf| bound.least & !leaf.rights() == 0)
            .collect()
    }

    /// Whether a call is settled and its actuals move, and what the result is
    /// then.
    pub fn call(&self, callee: &Procedure, actuals: &[u8]) -> Option<Option<Spelled>> {
        let generic = match self.settling(callee, actuals) {
            Settling::Nameless => None,
            Settling::To(leaf) => Some(leaf),
            Settling::Unsettled | Settling::Short => return None,
        };
        let fits = |(formal, &actual): (&VariableRecord, &u8)| {
            let need = self.typing.spelled(formal.need, generic);
            self.spelled(actual).movement(&need) == Movement::Fits
        };
        let moved = callee.formals().iter().zip(actuals).all(fits);
        let result = callee.result();
        moved.then(|| result.map(|result| self.typing.spelled(result, generic)))
    }
}

/// Open is left out of what is settled.
fn closed(leaf: Leaf) -> Leaf {
    match leaf {
        Leaf::Record { base, rights } => Leaf::Record {
            base,
            rights: rights & !OPEN,
        },
        other => other,
    }
}
