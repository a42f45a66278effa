//! Sheets of edition 2, made of others: the same records, but each named right
//! becomes one right or more, mostly of a higher number.
//!
//! No rule asks which number a named right has. Two sets are equal, or one is
//! within the other, exactly as before; so a well-formed sheet keeps its
//! verdict, at the same record, and its runs.

use crate::random::Random;
use crate::records::OPEN;
use crate::sheet::Sheet;
use reference::Edition;

/// The last rights of each half of four bytes, and those beside them.
pub const EDGES: [usize; 4] = [15, 16, 30, 31];

/// Makes half of the sheets ones of edition 2.
pub fn in_either_edition(random: &mut Random, sheet: &mut Sheet) {
    if random.one_in(2) {
        into_second_edition(random, sheet);
    }
}

/// Makes a well-formed sheet one of edition 2.
pub fn into_second_edition(random: &mut Random, sheet: &mut Sheet) {
    sheet.header.edition = Edition::Second.number();
    let types = sheet.types.iter_mut();
    let renamings: Vec<Renaming> = types
        .map(|declared| {
            let renaming = Renaming::draw(random, usize::from(declared.named_rights));
            declared.named_rights = renaming.count as u8;
            renaming
        })
        .collect();
    let rename = |base: u8, rights: &mut u32| {
        let of = usize::from(base).checked_sub(2);
        if let Some(renaming) = of.and_then(|of| renamings.get(of)) {
            *rights = renaming.of(*rights);
        }
    };
    for record in &mut sheet.qualified {
        rename(record.base, &mut record.rights);
    }
    let procedures = sheet.procedures.iter_mut();
    for bound in procedures.filter_map(|procedure| procedure.bound.as_mut()) {
        rename(bound.base, &mut bound.least);
    }
}

/// What the rights of one type become.
struct Renaming {
    /// How many rights the type names then.
    count: usize,
    /// For each right, open first, the rights that stand for it; no two sets
    /// have a right in common.
    sets: Vec<u32>,
}

impl Renaming {
    fn draw(random: &mut Random, named: usize) -> Self {
        let most = Edition::Second.most_named_rights();
        let count = match random.below(4) {
            0 => named,
            1 => random.between(named, most),
            2 => [16, 22, 30][random.below(3)].max(named),
            _ => most,
        };
        let numbers = edges_first(random, count);
        let (first, others) = numbers.split_at(named);
        let mut sets = vec![OPEN];
        sets.extend(first.iter().map(|right| 1 << right));
        // The others are in no set, or stand for some right too.
        if named > 0 && random.one_in(2) {
            for right in others {
                sets[random.between(1, named)] |= 1 << right;
            }
        }
        Renaming { count, sets }
    }

    fn of(&self, rights: u32) -> u32 {
        let sets = self.sets.iter().enumerate();
        let own = sets.filter(|(right, _)| rights >> right & 1 == 1);
        own.fold(0, |all, (_, set)| all | set)
    }
}

/// The rights from 1 on by chance, the edges before all others.
fn edges_first(random: &mut Random, count: usize) -> Vec<usize> {
    let mut left: Vec<usize> = (1..=count).collect();
    let mut drawn = Vec::new();
    while !left.is_empty() {
        let edges: Vec<usize> = left.iter().copied().filter(|n| EDGES.contains(n)).collect();
        let next = random.pick(&edges).or_else(|| random.pick(&left));
        drawn.extend(next);
        left.retain(|&right| Some(right) != next);
    }
    drawn
}
