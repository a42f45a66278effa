//! One round: an input by chance, and the properties that must hold of it.

use crate::corpus::Corpus;
use crate::counts::{Counts, Event, Kind};
use crate::failure::Failure;
use crate::lent::lent;
use crate::process::{self, Attempt};
use crate::properties::program::{made, Tried};
use crate::properties::text::Text;
use crate::properties::{self, Broken, OF_FILES, OF_SHEETS, OF_TEXTS};
use crate::scratch::Scratch;
use crate::{change_bytes, change_text};
use generator::Random;
use std::path::PathBuf;

/// A long run of records takes a second: one in so many rounds has one.
const LONG_RUNS: u64 = 32_768;

/// Names of files; the last is the usual one.
const NAMES: [&str; 4] = ["red\u{1b}[31m\u{7}", "two\nlines", "字 é", "in"];

/// What the rounds of a worker share.
pub struct Worker {
    corpus: Corpus,
    program: PathBuf,
    scratch: Scratch,
}

/// The input of a round, as a file.
#[derive(Clone, Default)]
pub struct Input {
    pub bytes: Vec<u8>,
    pub is_text: bool,
}

impl Worker {
    /// # Panics
    /// If a file is missing that the rounds need.
    pub fn start() -> Self {
        Worker {
            corpus: Corpus::read(),
            program: process::beside(),
            scratch: Scratch::new(),
        }
    }

    /// Tries a round, counts what has come up, and gives what does not hold.
    pub fn try_round(&self, seed: u64, round: u64, counts: &mut Counts) -> Vec<Failure> {
        self.scratch.begin(seed, round);
        let tried = properties::caught(|| self.tried(seed, round, counts));
        // The tools are used also where an input is made.
        let unmade = |fault| (Input::default(), vec![("the input can be made", fault)]);
        let (input, broken) = tried.unwrap_or_else(unmade);
        let failure = |(property, fault)| Failure {
            seed,
            round,
            property,
            fault,
            input: input.clone(),
        };
        broken.into_iter().map(failure).collect()
    }

    fn tried(&self, seed: u64, round: u64, counts: &mut Counts) -> (Input, Vec<Broken>) {
        let first = Random::new(seed).word();
        let mut random = Random::new(first.wrapping_add(round));
        let is_long = round % LONG_RUNS == LONG_RUNS - 1;
        let kind = match random.below(32) {
            0 => Kind::Program,
            _ if is_long => Kind::Program,
            1..=15 => Kind::Text,
            _ => Kind::Bytes,
        };
        counts.add(Event::Round(kind));
        match kind {
            Kind::Text => self.text_round(&mut random, counts),
            Kind::Bytes => self.bytes_round(&mut random, counts),
            Kind::Program => {
                let input = match is_long {
                    true => long_run(&mut random),
                    false => self.file(&mut random),
                };
                self.program_round(&mut random, input, counts)
            }
        }
    }

    fn text_round(&self, random: &mut Random, counts: &mut Counts) -> (Input, Vec<Broken>) {
        let text = self.corpus.changed_text(random);
        let bytes = text.clone().into_bytes();
        let broken = properties::broken(&OF_TEXTS, &Text::new(text), counts);
        let is_text = true;
        (Input { bytes, is_text }, broken)
    }

    fn bytes_round(&self, random: &mut Random, counts: &mut Counts) -> (Input, Vec<Broken>) {
        let bytes = self.corpus.changed_sheet(random);
        let broken = properties::broken(&OF_SHEETS, &lent(random, bytes.clone()), counts);
        let is_text = false;
        (Input { bytes, is_text }, broken)
    }

    fn program_round(
        &self,
        random: &mut Random,
        input: Input,
        counts: &mut Counts,
    ) -> (Input, Vec<Broken>) {
        let Input { bytes, is_text } = input;
        let sheet = match is_text {
            true => made(&bytes),
            false => Some(bytes.clone()),
        };
        let attempt = Attempt {
            name: NAMES[random.below(8).min(NAMES.len() - 1)],
            lent: lent(random, sheet.clone().unwrap_or_default()),
            odd_reads: random.one_in(16).then(|| odd_reads(random)),
            watched: random.one_in(2),
            bytes,
            is_text,
        };
        let said = process::attempt(&self.program, &self.scratch, &attempt);
        let tried = Tried {
            attempt,
            sheet,
            said,
        };
        let broken = properties::broken(&OF_FILES, &tried, counts);
        let bytes = tried.attempt.bytes;
        (Input { bytes, is_text }, broken)
    }

    /// A file for the program: a sheet, a text, or bytes under the name of a
    /// text.
    fn file(&self, random: &mut Random) -> Input {
        let is_text = random.one_in(2);
        let bytes = match (is_text, random.below(8)) {
            (false, _) | (true, 0) => self.corpus.changed_sheet(random),
            (true, 1..=2) => self.corpus.text(random).into_bytes(),
            (true, _) => self.corpus.changed_text(random).into_bytes(),
        };
        Input { bytes, is_text }
    }
}

fn long_run(random: &mut Random) -> Input {
    Input {
        bytes: change_bytes::long_run(random),
        is_text: false,
    }
}

/// A list of numbers that is changed like a text.
fn odd_reads(random: &mut Random) -> Vec<u8> {
    let numbers = String::from("3\n14 # pi\n4294967295\n\n0\n");
    change_text::changed(random, numbers, "4294967296\n-1\n+1\n1 2\n").into_bytes()
}
