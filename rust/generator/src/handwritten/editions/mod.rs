//! The two editions (document 02, S-5): their records, and rights up to 31.

pub mod catalogue;
mod rules;
mod scales;
mod sizes;

use super::{case, refused, Case, ACCEPTED};
use crate::operations::leave;
use crate::records::{named_rights, QualifiedRecord, ARRAY_ALL, NONE};
use crate::sheet::{Procedure, Sheet, SheetBuilder};
use reference::Edition;
use reference::Edition::{First, Second};

pub fn cases() -> Vec<Case> {
    let mut all = sizes::cases();
    all.extend(scales::cases());
    all.extend(rules::cases());
    all
}

/// What the record in question says in the sheet below.
#[derive(Clone, Copy)]
struct Sample {
    edition: Edition,
    named: u8,
    /// Of QT 1, a record that nothing uses.
    rights: u32,
    /// Of the GN.
    least: u32,
}

/// All rights of the edition.
fn whole(edition: Edition) -> Sample {
    let named = edition.most_named_rights() as u8;
    Sample {
        edition,
        named,
        rights: named_rights(named),
        least: named_rights(named),
    }
}

/// A record of every kind. In edition 1: HD 0, TY 6, QT 18, 24, 30, 36, main
/// with PR 42, IN 50, procedure 1 with PR 58, GN 66, VR 71, IN 75; it ends at
/// 83. In edition 2: QT 18, 26, 34, 42, PR 50, IN 58, PR 66, GN 74, VR 81,
/// IN 85; it ends at 93.
impl Sample {
    fn sheet(self) -> Sheet {
        let named = Procedure::new(0, NONE).bound(2, self.least).formal(3, 3);
        SheetBuilder::in_edition(self.edition)
            .record_type(self.named, &[])
            .integer()
            .record(2, self.rights)
            .array(0, ARRAY_ALL)
            .qualified(QualifiedRecord::GENERIC)
            .procedure(Procedure::main().body(&[leave()]))
            .procedure(named.body(&[leave()]))
            .build()
    }

    fn bytes(self) -> Vec<u8> {
        self.sheet().encode()
    }
}

pub fn bit(right: usize) -> u32 {
    1 << right
}
