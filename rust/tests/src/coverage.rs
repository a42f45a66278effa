//! Which refusals have come up where, and which codes were accepted and
//! refused, in each edition.

use crate::walk::{Due, Walk};
use crate::{generics, rights};
use generator::records::RecordKind;
use reference::{layout, Edition, Verdict};
use std::collections::BTreeMap;

/// Where a refusal can arise.
#[derive(Clone, Copy, Debug, PartialEq, Eq, PartialOrd, Ord)]
pub enum Site {
    /// The sheet as a whole.
    Whole,
    Record(RecordKind),
    LeftoverBytes,
    /// A field that waits for the procedure called.
    CallPass,
    /// A record that uses ?R where it may not, in the pass for calls.
    Use(RecordKind),
    /// The need or the inner type of a variable.
    Need,
    Inner,
}

/// The refusals that are possible in an edition, all of which must come up.
pub fn possible(edition: Edition) -> Vec<(u8, Site)> {
    let mut all = vec![
        (1, Site::Whole),
        (2, Site::LeftoverBytes),
        (4, Site::Record(RecordKind::Header)),
        (5, Site::CallPass),
        (5, Site::Use(RecordKind::Type)),
        (5, Site::Use(RecordKind::Procedure)),
        (5, Site::Use(RecordKind::Variable)),
        (6, Site::Record(RecordKind::Type)),
        (6, Site::Record(RecordKind::Qualified)),
        (6, Site::Record(RecordKind::Procedure)),
        (6, Site::Need),
        (6, Site::Inner),
        (7, Site::Record(RecordKind::Variable)),
        (8, Site::Record(RecordKind::Instruction)),
        (9, Site::Record(RecordKind::Instruction)),
        (20, Site::Record(RecordKind::Instruction)),
        (21, Site::Record(RecordKind::Instruction)),
    ];
    for number in [2, 3, 5] {
        all.extend(RecordKind::ALL.map(|kind| (number, Site::Record(kind))));
    }
    // A GN is due only where its mark stands.
    all.retain(|&refusal| refusal != (3, Site::Record(RecordKind::Bound)));
    // What begins without an HD of edition 2 is read by edition 1.
    if edition == Edition::Second {
        all.retain(|(number, site)| {
            !matches!((number, site), (3 | 4, Site::Record(RecordKind::Header)))
        });
    }
    all
}

/// The refusals of instructions that are possible, by number and code.
pub fn possible_codes() -> Vec<(u8, usize)> {
    let mut all = Vec::new();
    for number in [5, 8] {
        all.extend((1..=17).map(|code| (number, code)));
    }
    all.extend([6, 10, 11, 12, 13, 14, 15, 16, 17].map(|code| (9, code)));
    all.extend([20, 21].map(|number| (number, 16)));
    all
}

#[derive(Default)]
pub struct Coverage {
    pub sheets: usize,
    pub accepted: usize,
    pub accepted_codes: BTreeMap<(Edition, usize), usize>,
    /// What accepted sheets do with rights names.
    pub accepted_generics: BTreeMap<(Edition, &'static str), usize>,
    pub refused: BTreeMap<(Edition, (u8, Site)), usize>,
    pub refused_codes: BTreeMap<(Edition, (u8, usize)), usize>,
    /// What edition 2 does with its rights.
    pub rights: BTreeMap<rights::Seen, usize>,
}

impl Coverage {
    pub fn add(&mut self, sheet: &[u8], verdict: Verdict) {
        self.sheets += 1;
        let walk = Walk { sheet };
        let edition = walk.edition();
        if edition == Edition::Second {
            for seen in rights::seen(sheet, verdict) {
                *self.rights.entry(seen).or_default() += 1;
            }
        }
        match verdict {
            Verdict::Accepted => {
                self.accepted += 1;
                for code in walk.codes() {
                    *self.accepted_codes.entry((edition, code)).or_default() += 1;
                }
                for name in generics::seen(sheet) {
                    *self.accepted_generics.entry((edition, name)).or_default() += 1;
                }
            }
            Verdict::Refused { number, place } => {
                if let Some(site) = site(&walk, number, place) {
                    let key = (edition, (number, site));
                    *self.refused.entry(key).or_default() += 1;
                }
                self.add_code(&walk, number, place);
            }
        }
    }

    /// Counts the code of a refused instruction; a mark or code that is none
    /// has nothing to count.
    fn add_code(&mut self, walk: &Walk, number: u8, place: usize) {
        let code = walk.byte(place + 2);
        let is_instruction = walk.due(place).kind() == Some(RecordKind::Instruction);
        if is_instruction && number >= 5 && (1..=17).contains(&code) {
            let key = (walk.edition(), (number, code));
            *self.refused_codes.entry(key).or_default() += 1;
        }
    }

    pub fn merge(&mut self, other: Coverage) {
        self.sheets += other.sheets;
        self.accepted += other.accepted;
        merge_counts(&mut self.accepted_codes, other.accepted_codes);
        merge_counts(&mut self.accepted_generics, other.accepted_generics);
        merge_counts(&mut self.refused, other.refused);
        merge_counts(&mut self.refused_codes, other.refused_codes);
        merge_counts(&mut self.rights, other.rights);
    }

    /// What should have come up and has not, and what has come up and is not
    /// possible.
    pub fn faults(&self) -> Vec<String> {
        let codes: Vec<usize> = (1..=17).collect();
        let mut faults = differences(&in_editions(|_| codes.clone()), &self.accepted_codes);
        let names = in_editions(|_| generics::ALL.to_vec());
        faults.extend(differences(&names, &self.accepted_generics));
        faults.extend(differences(&in_editions(possible), &self.refused));
        let codes = in_editions(|_| possible_codes());
        faults.extend(differences(&codes, &self.refused_codes));
        faults.extend(differences(&rights::due(), &self.rights));
        faults
    }
}

fn merge_counts<Key: Ord>(into: &mut BTreeMap<Key, usize>, from: BTreeMap<Key, usize>) {
    for (key, count) in from {
        *into.entry(key).or_default() += count;
    }
}

/// What must come up in either edition.
fn in_editions<Due>(due: impl Fn(Edition) -> Vec<Due>) -> Vec<(Edition, Due)> {
    let all = Edition::ALL.into_iter();
    all.flat_map(|edition| due(edition).into_iter().map(move |due| (edition, due)))
        .collect()
}

fn differences<Key: Ord + std::fmt::Debug>(
    possible: &[Key],
    counts: &BTreeMap<Key, usize>,
) -> Vec<String> {
    let lacking = possible.iter().filter(|key| !counts.contains_key(key));
    let lacking = lacking.map(|key| format!("never: {key:?}"));
    let strange = counts.keys().filter(|key| !possible.contains(key));
    let strange = strange.map(|key| format!("not possible: {key:?}"));
    lacking.chain(strange).collect()
}

/// Where a refusal arose; None where it may be the need or the inner type.
fn site(walk: &Walk, number: u8, place: usize) -> Option<Site> {
    if number == 1 {
        return Some(Site::Whole);
    }
    match (number, walk.due(place)) {
        (_, Due::Nothing) => Some(Site::LeftoverBytes),
        (6, Due::Variable { procedure }) => match walk.open_in_variable(procedure, place) {
            (true, false) => Some(Site::Need),
            (false, true) => Some(Site::Inner),
            (true, true) => None,
            (false, false) => Some(Site::Record(RecordKind::Variable)),
        },
        (5, Due::Instruction { procedure, is_last })
            if !is_last && walk.call_waits(procedure, place) =>
        {
            Some(Site::CallPass)
        }
        (5, Due::Variable { .. } | Due::Record(RecordKind::Type | RecordKind::Procedure))
            if layout::read(walk.sheet).is_ok() =>
        {
            walk.due(place).kind().map(Site::Use)
        }
        (_, due) => due.kind().map(Site::Record),
    }
}
