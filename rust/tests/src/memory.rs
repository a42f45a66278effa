//! A memory to be lent, full of random words, with a word on either side.

use generator::Random;

pub struct Memory {
    seed: u64,
    /// The memory between two words that nobody may write.
    words: Vec<u64>,
}

impl Memory {
    pub fn random(seed: u64, count: usize) -> Self {
        let words = random_words(seed).take(count + 2).collect();
        Memory { seed, words }
    }

    /// Exactly the words that are lent.
    pub fn lent(&mut self) -> &mut [u64] {
        let end = self.words.len() - 1;
        &mut self.words[1..end]
    }

    pub fn assert_unchanged(&self) {
        self.assert_words(|_, before| before, "changed");
    }

    /// All that was lent is zero, the words beside it are unchanged.
    pub fn assert_zero(&self) {
        let last = self.words.len() - 1;
        let due = |index, before| match index == 0 || index == last {
            true => before,
            false => 0,
        };
        self.assert_words(due, "not cleared, or written beside");
    }

    /// Every word is what is due for its index and what it held before.
    fn assert_words(&self, due: impl Fn(usize, u64) -> u64, fault: &str) {
        let all = self.words.iter().zip(random_words(self.seed)).enumerate();
        for (index, (&word, before)) in all {
            let words = self.words.len() - 2;
            assert!(
                word == due(index, before),
                "memory {fault}: word {index} of {words}, counted from 1, holds {word:#x}"
            );
        }
    }
}

/// Words of all magnitudes, 0 among them, so that some look like what a run
/// would keep.
fn random_words(seed: u64) -> impl Iterator<Item = u64> {
    let mut random = Random::new(seed);
    std::iter::repeat_with(move || random.word() >> random.below(64))
}
