//! Sheets by seed, small ones.

use super::{drawn, need, Drawn};
use generator::accepted::{accepted_within, Room};
use generator::breach::Flaw;
use generator::damage::{damaged, random_bytes};
use generator::runs::families::{Family, RUNNABLE};
use generator::runs::{around, plenty};
use generator::wellformed::{redraw, wellformed};
use generator::{Random, Sheet};
use reference::machine::MAX_MEMORY;
use std::iter::repeat_with;

/// The most bytes of a sheet that is drawn by chance.
const SMALL: usize = 800;

/// Each rule broken at each place, beside the sheet that keeps it. For one
/// seed all stand on the same sheet.
pub fn flawed(first: u64) -> impl Iterator<Item = Drawn> {
    let build = |flaw: Flaw, seed| flaw.build(&mut Random::new(seed));
    let small = (first << 32..).filter(move |&seed| {
        let sizes = Flaw::all().into_iter().map(|flaw| build(flaw, seed));
        sizes.map(|pair| pair.sound.byte_count()).max() <= Some(SMALL)
    });
    let flaws = |seed| Flaw::all().into_iter().map(move |flaw| (flaw, seed));
    small.flat_map(flaws).flat_map(move |(flaw, seed)| {
        let pair = build(flaw, seed);
        let sheets = [("kept", pair.sound), ("broken", pair.broken)];
        sheets.map(|(kind, sheet)| drawn(format!("{kind}:{flaw:?}"), sheet.encode()))
    })
}

/// Small sheets of a family, by seed.
fn small(family: &Family, first: u64) -> impl Iterator<Item = (u64, Sheet)> + '_ {
    let all = (first << 32..).map(|seed| (seed, family.sheet(seed)));
    all.filter(|(_, sheet)| sheet.byte_count() <= SMALL)
}

/// Runs of one sheet with plenty, and at and around the need.
pub fn around_the_need(first: u64) -> impl Iterator<Item = Drawn> {
    small(&RUNNABLE, first).flat_map(|(seed, _)| {
        let runs = RUNNABLE.runs(seed, need).into_iter();
        runs.map(|run| (String::from("run:around the need"), run))
    })
}

/// Sheets of a family, each followed by others in which one to three fields
/// are drawn anew, within the layout. Each is lent something around its need.
pub fn varied<'a>(
    random: &'a mut Random,
    family: &'a Family,
    first: u64,
) -> impl Iterator<Item = Drawn> + 'a {
    small(family, first).flat_map(|(_, sheet)| {
        let plenty = plenty(random, sheet.encode());
        let mut variant = |number: usize| {
            let (mut sheet, mut run) = (sheet.clone(), plenty.clone());
            (0..random.between(1, 3).min(number)).for_each(|_| redraw(random, &mut sheet));
            run.sheet = sheet.encode();
            let mut lendings = around(random, &run, need(&run));
            let run = lendings.swap_remove(random.below(lendings.len()));
            let redrawn = if number == 0 { "" } else { ", redrawn" };
            (format!("run:{}{redrawn}", family.name), run)
        };
        (0..16).map(&mut variant).collect::<Vec<Drawn>>()
    })
}

/// Bytes and fields by chance.
pub fn by_chance(random: &mut Random) -> impl Iterator<Item = Drawn> + '_ {
    let all = repeat_with(|| match random.one_in(2) {
        true => drawn("bytes", random_bytes(random)),
        false => drawn("well-formed", wellformed(random).encode()),
    });
    all.filter(|(_, run)| run.sheet.len() <= SMALL / 3)
}

/// Accepted sheets, half of them in a memory around the largest, each followed
/// by damaged ones.
pub fn sound_and_damaged(random: &mut Random) -> impl Iterator<Item = Drawn> + '_ {
    const ROOM: Room = Room {
        types: 4,
        qualified: 12,
        procedures: 4,
        instructions: 20,
    };
    let all = repeat_with(|| {
        let sound = accepted_within(random, ROOM);
        let mut run = plenty(random, sound.encode());
        if random.one_in(2) {
            run.memory_words = MAX_MEMORY + random.below(3);
        }
        let mut group = vec![(String::from("accepted"), run)];
        group.extend((0..16).map(|_| drawn("damaged", damaged(random, &sound))));
        group
    });
    all.flatten().filter(|(_, run)| run.sheet.len() <= SMALL)
}
