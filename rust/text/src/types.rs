//! Qualified types as a procedure or a frame of it reads them.

use crate::sheet::{Kind, RightsName, Sheet};

/// A qualified type as a tree, ?R read.
#[derive(Clone, Debug, PartialEq, Eq)]
pub enum Type {
    Integer,
    Declared {
        of: usize,
        rights: u32,
    },
    Tray {
        element: Box<Type>,
        rights: u32,
    },
    /// ?R inside its procedure. None where the procedure declares none.
    Name(Option<RightsName>),
}

/// What ?R is read as.
#[derive(Clone, Debug, PartialEq, Eq)]
pub enum Reading {
    /// Itself, as the rules of its procedure read it.
    Name(Option<RightsName>),
    /// What a call settled it to.
    As(Type),
}

/// The right to open a record, right 0.
const OPEN: u32 = 1;
/// The right to store into a tray, right 2.
const STORE: u32 = 1 << 2;

/// The level in which a type is not of the kind that is needed.
#[derive(Clone, Copy, Debug, PartialEq, Eq)]
pub struct Unlike<'a> {
    pub why: Why,
    /// How many levels of elements it is below the two types.
    pub below: usize,
    pub has: &'a Type,
    pub needs: &'a Type,
}

#[derive(Clone, Copy, Debug, PartialEq, Eq)]
pub enum Why {
    /// Another base.
    Base,
    /// Elements that lack a right.
    Rights,
    /// What is needed has store so many levels down, and there are unequal
    /// elements below that.
    Store { level: usize },
}

impl<'a> Unlike<'a> {
    fn here(why: Why, has: &'a Type, needs: &'a Type) -> Self {
        let below = 0;
        Unlike {
            why,
            below,
            has,
            needs,
        }
    }

    /// The same, told of what has the two types as elements.
    fn further_in(mut self) -> Self {
        self.below += 1;
        if let Why::Store { level } = &mut self.why {
            *level += 1;
        }
        self
    }
}

impl Type {
    /// The rights at the top; those of ?R are the least.
    pub fn rights(&self) -> u32 {
        match self {
            Type::Integer => 0,
            Type::Declared { rights, .. } | Type::Tray { rights, .. } => *rights,
            Type::Name(name) => name.map_or(0, |name| name.least),
        }
    }

    /// The type with other rights at the top.
    pub fn with(&self, new: u32) -> Type {
        let mut changed = self.clone();
        if let Type::Declared { rights, .. } | Type::Tray { rights, .. } = &mut changed {
            *rights = new;
        }
        changed
    }

    /// The declared type that it is of.
    pub fn declared(&self) -> Option<usize> {
        match self {
            Type::Declared { of, .. } => Some(*of),
            Type::Name(name) => name.map(|name| name.of),
            Type::Integer | Type::Tray { .. } => None,
        }
    }

    /// Whether it is ?R or a tray of what is.
    pub fn uses_name(&self) -> bool {
        match self {
            Type::Name(_) => true,
            Type::Tray { element, .. } => element.uses_name(),
            Type::Integer | Type::Declared { .. } => false,
        }
    }

    /// What keeps a value of this type from the kind that is needed: the same
    /// base and, for trays, equal elements where what is needed has store, else
    /// elements that are at least those needed. Each level is asked by its own
    /// store, and the elements before the rights around them.
    pub fn unlike<'a>(&'a self, needs: &'a Type) -> Option<Unlike<'a>> {
        let (Type::Tray { element: one, .. }, Type::Tray { element: two, .. }) = (self, needs)
        else {
            let other_base = !self.has_base_of(needs);
            return other_base.then_some(Unlike::here(Why::Base, self, needs));
        };
        if needs.rights() & STORE != 0 {
            let (below, has, needs) = one.innermost_difference(two)?;
            let found = Unlike::here(Why::Store { level: 0 }, has, needs);
            let below = below + 1;
            return Some(Unlike { below, ..found });
        }
        let lacks = || (!one.covers(two)).then_some(Unlike::here(Why::Rights, one, two));
        one.unlike(two).or_else(lacks).map(Unlike::further_in)
    }

    /// Whether the bases are the same; that of ?R is the type that it is of.
    fn has_base_of(&self, other: &Type) -> bool {
        match (self, other) {
            (Type::Integer, Type::Integer) | (Type::Tray { .. }, Type::Tray { .. }) => true,
            (Type::Name(one), Type::Name(two)) => one == two,
            _ => self.declared().is_some() && self.declared() == other.declared(),
        }
    }

    /// The innermost level in which two types are unequal, and how many levels
    /// of elements it is below them: the elements of trays are asked before the
    /// rights around them, as check asks them.
    pub fn innermost_difference<'a>(
        &'a self,
        other: &'a Type,
    ) -> Option<(usize, &'a Type, &'a Type)> {
        if let (Type::Tray { element: one, .. }, Type::Tray { element: two, .. }) = (self, other) {
            if let Some((below, one, two)) = one.innermost_difference(two) {
                return Some((below + 1, one, two));
            }
        }
        (self != other).then_some((0, self, other))
    }

    /// Whether this has every right of the other: only ?R has those of ?R.
    pub fn covers(&self, other: &Type) -> bool {
        match (self, other) {
            (Type::Name(_), Type::Name(_)) => true,
            (_, Type::Name(_)) => false,
            _ => other.rights() & !self.rights() == 0,
        }
    }

    /// What an actual of this type settles ?R to in the need of a formal, open
    /// left out; None where shape or base is another.
    pub fn settles(&self, need: &Type) -> Option<Type> {
        match (need, self) {
            (Type::Tray { element: need, .. }, Type::Tray { element, .. }) => element.settles(need),
            (Type::Name(Some(name)), actual) if actual.declared() == Some(name.of) => {
                Some(actual.with(actual.rights() & !OPEN))
            }
            _ => None,
        }
    }

    /// The same type with ?R read so.
    pub fn read(&self, reading: &Reading) -> Type {
        match (self, reading) {
            (Type::Name(_), Reading::Name(name)) => Type::Name(*name),
            (Type::Name(_), Reading::As(settled)) => settled.clone(),
            (Type::Tray { element, rights }, _) => Type::Tray {
                element: Box::new(element.read(reading)),
                rights: *rights,
            },
            _ => self.clone(),
        }
    }
}

impl Sheet {
    /// A qualified type with ?R read so.
    pub fn read_type(&self, number: usize, reading: &Reading) -> Type {
        let qualified = &self.qualified[number];
        let rights = qualified.rights;
        match qualified.kind {
            Kind::Integer => Type::Integer,
            Kind::Declared { of } => Type::Declared { of, rights },
            Kind::Tray { element } => Type::Tray {
                element: Box::new(self.read_type(element, reading)),
                rights,
            },
            Kind::Name => Type::Name(None).read(reading),
        }
    }

    /// ?R as the rules of a procedure read it.
    pub fn own_name(&self, procedure: usize) -> Reading {
        Reading::Name(self.procedures[procedure].name)
    }
}
