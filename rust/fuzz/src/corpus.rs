//! The texts and the sheets that are changed.

use crate::editions::second;
use crate::{change_bytes, change_text};
use generator::breach::Flaw;
use generator::damage::{damaged, random_bytes};
use generator::handwritten::cases;
use generator::runs::families::{Family, ANY_ACCEPTED, MISDECLARED, RUNNABLE, TRIALS};
use generator::wellformed::wellformed;
use generator::{large, Random};
use std::fs;
use std::path::Path;
use text::{assemble, disassemble};

/// The sheets that are made to be run.
const FAMILIES: [&Family; 4] = [&RUNNABLE, &ANY_ACCEPTED, &TRIALS, &MISDECLARED];

/// By how many places, at most, the rights of a sheet move up in the second
/// edition.
const MOST_PLACES: usize = 32;

pub struct Corpus {
    samples: Vec<String>,
    /// Sheets written by hand.
    cases: Vec<Vec<u8>>,
    flaws: Vec<Flaw>,
}

impl Corpus {
    /// # Panics
    /// If samples/ cannot be read.
    pub fn read() -> Self {
        let folder = Path::new(env!("CARGO_MANIFEST_DIR")).join("../../samples");
        let files = fs::read_dir(folder).expect("the folder samples/");
        let paths = files.map(|file| file.expect("a file of samples/").path());
        let is_text = |path: &std::path::PathBuf| path.extension().is_some_and(|end| end == "ws");
        let mut paths: Vec<_> = paths.filter(is_text).collect();
        // The same on every machine.
        paths.sort();
        let read = |path| fs::read_to_string(path).expect("a text of samples/");
        Corpus {
            samples: paths.iter().map(read).collect(),
            cases: cases().into_iter().map(|case| case.sheet).collect(),
            flaws: Flaw::all(),
        }
    }

    /// A sample, or the disassembly of a sheet.
    pub fn text(&self, random: &mut Random) -> String {
        match random.below(2) {
            0 => self.samples[random.below(self.samples.len())].clone(),
            _ => disassemble(&self.generated(random)),
        }
    }

    /// A text with some things changed.
    pub fn changed_text(&self, random: &mut Random) -> String {
        let (text, other) = (self.text(random), self.text(random));
        change_text::changed(random, text, &other)
    }

    /// A sheet of any kind: accepted, well-formed, or damaged.
    fn sheet(&self, random: &mut Random) -> Vec<u8> {
        match random.below(8) {
            0 => self.of_text(random),
            _ => self.generated(random),
        }
    }

    /// Mostly a sheet that is changed, sometimes one that is not, so that all
    /// of its run is seen.
    pub fn changed_sheet(&self, random: &mut Random) -> Vec<u8> {
        let sheet = self.sheet(random);
        match random.one_in(4) {
            true => sheet,
            false => {
                let other = self.sheet(random);
                change_bytes::changed(random, sheet, &other)
            }
        }
    }

    /// A sheet of the generator, or the same in the second edition.
    fn generated(&self, random: &mut Random) -> Vec<u8> {
        let sheet = self.of_generator(random);
        match random.one_in(3) {
            true => second(&sheet, || random.below(MOST_PLACES)),
            false => sheet,
        }
    }

    fn of_generator(&self, random: &mut Random) -> Vec<u8> {
        match random.below(128) {
            0 => large_sheet(random),
            1..=8 => self.cases[random.below(self.cases.len())].clone(),
            9..=20 => wellformed(random).encode(),
            21..=32 => {
                let flaw = self.flaws[random.below(self.flaws.len())];
                flaw.build(random).broken.encode()
            }
            33..=42 => {
                let sound = wellformed(random);
                damaged(random, &sound)
            }
            43..=46 => random_bytes(random),
            number => FAMILIES[number % FAMILIES.len()]
                .sheet(random.word())
                .encode(),
        }
    }

    /// What a changed text makes, if it makes anything.
    fn of_text(&self, random: &mut Random) -> Vec<u8> {
        match assemble(&self.changed_text(random)) {
            Ok(assembled) => assembled.sheet,
            Err(_) => self.generated(random),
        }
    }
}

/// One that fills the bytes that a sheet may have, or a part of them.
fn large_sheet(random: &mut Random) -> Vec<u8> {
    let (_, make) = large::SHEETS[random.below(large::SHEETS.len())];
    let bytes = [8_000, 20_000, 32_768][random.below(3)];
    make(bytes).encode()
}
