//! Times calls in batches that take turns.
//!
//! A machine that is shared is slower for a while and then faster again. So
//! all calls of a table take turns in short batches, round by round; a ratio is
//! taken within a round, and what is told is the median of the rounds at all
//! places, with the quartiles beside it. The time is the thread's own: that in
//! which others have the processor is not counted.

use crate::clock::own_time;
use crate::places::{Place, PLACES};
use std::array::from_fn;
use std::fmt;
use std::time::Duration;

const BATCH_TIME: Duration = Duration::from_millis(1);

/// Rounds at each place, for a ratio and for a time that is only shown.
pub const MANY: usize = 61;
pub const FEW: usize = 7;

pub type Call<'a> = Box<dyn FnMut() + 'a>;

/// Seconds per call of each, round by round, at one place after the other.
pub struct Rounds<const COUNT: usize>(Vec<Vec<[f64; COUNT]>>);

impl<const COUNT: usize> Rounds<COUNT> {
    /// The rounds of several groups of calls, in which all take turns.
    pub fn measured<'a, const GROUPS: usize>(
        rounds: usize,
        groups: impl Fn(&'a Place) -> [[Call<'a>; COUNT]; GROUPS],
    ) -> [Self; GROUPS] {
        let mut all = [(); GROUPS].map(|()| Rounds(Vec::new()));
        for place in PLACES {
            let measured = at_a_place(rounds, groups(place));
            let parts = all.iter_mut().zip(measured);
            parts.for_each(|(rounds, here)| rounds.0.push(here));
        }
        all
    }

    /// The tenth of the rounds at each place in which others disturbed least:
    /// the calls took least, each measured by its own least time.
    pub fn quietest(&self) -> Self {
        Rounds(self.0.iter().map(|rounds| quietest(rounds)).collect())
    }

    /// The median of the seconds of one call.
    pub fn seconds(&self, call: usize) -> f64 {
        Spread::of(self.0.iter().flatten().map(|times| times[call])).median
    }

    /// The time of one call over that of another.
    pub fn ratio(&self, call: usize, other: usize) -> Spread {
        let rounds = self.0.iter().flatten();
        Spread::of(rounds.map(|times| times[call] / times[other]))
    }
}

fn at_a_place<const COUNT: usize, const GROUPS: usize>(
    rounds: usize,
    groups: [[Call; COUNT]; GROUPS],
) -> [Vec<[f64; COUNT]>; GROUPS] {
    let mut groups = groups.map(|calls| calls.map(batches));
    let mut all = [(); GROUPS].map(|()| Vec::new());
    for _ in 0..rounds {
        let times = groups
            .each_mut()
            .map(|group| group.each_mut().map(|time| time()));
        let parts = all.iter_mut().zip(times);
        parts.for_each(|(rounds, times)| rounds.push(times));
    }
    all
}

fn quietest<const COUNT: usize>(rounds: &[[f64; COUNT]]) -> Vec<[f64; COUNT]> {
    let least: [f64; COUNT] = from_fn(|call| {
        let times = rounds.iter().map(|times| times[call]);
        times.fold(f64::MAX, f64::min)
    });
    let unrest = |times: &[f64; COUNT]| -> f64 {
        let parts = times.iter().zip(least);
        parts.map(|(time, least)| time / least).sum()
    };
    let mut rounds = rounds.to_vec();
    rounds.sort_by(|one, other| unrest(one).total_cmp(&unrest(other)));
    rounds.truncate(rounds.len().div_ceil(10));
    rounds
}

/// The median of some numbers, and the quartiles below and above it.
#[derive(Clone, Copy, Debug, PartialEq)]
pub struct Spread {
    pub low: f64,
    pub median: f64,
    pub high: f64,
}

impl Spread {
    fn of(values: impl Iterator<Item = f64>) -> Self {
        let mut sorted: Vec<f64> = values.collect();
        sorted.sort_by(f64::total_cmp);
        let [low, median, high] = [1, 2, 3].map(|quarter| sorted[quarter * (sorted.len() - 1) / 4]);
        Spread { low, median, high }
    }
}

impl fmt::Display for Spread {
    fn fmt(&self, to: &mut fmt::Formatter) -> fmt::Result {
        let Spread { low, median, high } = self;
        to.pad(&format!("{median:.2} ({low:.2}-{high:.2})"))
    }
}

/// The mean of factors.
pub fn geometric_mean(values: impl ExactSizeIterator<Item = f64>) -> f64 {
    let count = values.len() as f64;
    (values.map(f64::ln).sum::<f64>() / count).exp()
}

/// Gives the seconds per call of one batch after the other.
fn batches(mut call: Call<'_>) -> impl FnMut() -> f64 + '_ {
    let calls = calls_per_batch(&mut call);
    move || batch(&mut call, calls).as_secs_f64() / f64::from(calls)
}

/// As many calls as fill the time of a batch, found by doubling.
fn calls_per_batch(call: &mut Call) -> u32 {
    let mut calls = 1;
    while batch(call, calls) < BATCH_TIME {
        calls *= 2;
    }
    calls
}

fn batch(call: &mut Call, calls: u32) -> Duration {
    let start = own_time();
    for _ in 0..calls {
        call();
    }
    own_time() - start
}

#[cfg(test)]
mod tests {
    use super::{geometric_mean, Rounds, Spread};

    /// A round that is slow for both leaves the ratio as it is.
    #[test]
    fn a_ratio_is_taken_within_a_round() {
        let rounds = Rounds(vec![
            vec![[2.0, 1.0], [20.0, 10.0], [6.0, 3.0]],
            vec![[8.0, 4.0], [30.0, 5.0]],
        ]);
        let ratio = rounds.ratio(0, 1);
        let (low, median, high) = (2.0, 2.0, 2.0);
        assert_eq!(ratio, Spread { low, median, high });
        assert_eq!(rounds.seconds(1), 4.0);
        assert_eq!(rounds.quietest().0, [[[2.0, 1.0]], [[8.0, 4.0]]]);
        assert_eq!(ratio.to_string(), "2.00 (2.00-2.00)");
        assert_eq!(format!("{ratio:>18}"), "  2.00 (2.00-2.00)");
    }

    #[test]
    fn quartiles_are_beside_the_median() {
        let Spread { low, median, high } = Spread::of((0..201).map(f64::from));
        assert_eq!([low, median, high], [50.0, 100.0, 150.0]);
    }

    #[test]
    fn the_mean_of_factors() {
        let mean = geometric_mean([2.0, 8.0].into_iter());
        assert!((mean - 4.0).abs() < 1e-12);
    }
}
