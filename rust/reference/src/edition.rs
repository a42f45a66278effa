//! What the edition of a sheet decides.
//!
//! Document 02, S-5: "Edition 2 has n 0..31 and four rights bytes in QT and
//! GN, so these take 8 and 7 bytes." All else is the same in both.

#[derive(Clone, Copy, Debug, PartialEq, Eq, PartialOrd, Ord, Hash)]
pub enum Edition {
    First,
    Second,
}

impl Edition {
    pub const ALL: [Edition; 2] = [Edition::First, Edition::Second];

    /// The edition that a header names; None for a number that none has.
    pub fn numbered(number: u8) -> Option<Edition> {
        Edition::ALL
            .into_iter()
            .find(|edition| edition.number() == number)
    }

    pub fn number(self) -> u8 {
        match self {
            Edition::First => 1,
            Edition::Second => 2,
        }
    }

    /// The bytes that a set of rights takes.
    pub fn rights_bytes(self) -> usize {
        match self {
            Edition::First => 2,
            Edition::Second => 4,
        }
    }

    /// The most rights that a type may name.
    pub fn most_named_rights(self) -> usize {
        match self {
            Edition::First => 15,
            Edition::Second => 31,
        }
    }
}
