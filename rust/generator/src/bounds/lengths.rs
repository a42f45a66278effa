//! The lengths of input and output, and fuel: "fuel and steps 64" bits.

use super::{bound, of_integers, seen, Bound, Family, Seen, Turns};
use crate::operations::{jump_if_zero, leave, put, set, take};

pub const LENGTHS: Family = Family {
    name: "lengths of input and output",
    count: |_| 2 * COUNTS.len(),
    bound: words_taken_and_put,
    due: |_| {
        let all = COUNTS.iter();
        all.flat_map(|&count| [15, 16].map(|stop| seen(count, 0, stop)))
            .collect()
    },
};

const COUNTS: [usize; 16] = [
    0, 1, 2, 127, 128, 255, 256, 257, 511, 512, 513, 32_768, 65_535, 65_536, 65_537, 65_800,
];

/// Every word taken is put, until the input ends or the output is full.
fn words_taken_and_put(turns: &mut Turns) -> Bound {
    let count = turns.pick(&COUNTS);
    let full = turns.of(2);
    let body = [set(1, 0), take(0), put(0), jump_if_zero(1, 1), leave()];
    let mut run = turns.lent(of_integers(2, &body));
    let word = |number: u32| number.wrapping_mul(0x9e37_79b9);
    run.input = (0..(count + full) as u32).map(word).collect();
    run.output = vec![9; count + 1 - full];
    run.fuel = 1_000_000;
    bound(run, seen(count, 0, [15, 16][full]))
}

pub const FUEL: Family = Family {
    name: "fuel",
    count: |_| 3 * 64 + ENDLESS.len(),
    bound: fuel_of_a_size,
    due: |_| {
        let powers = (0..64).map(|bit| seen(bit, 0, if bit < 2 { 12 } else { 11 }));
        let cut = ENDLESS.iter().map(|&fuel| seen(fuel as usize, 0, 12));
        powers.chain(cut).collect::<Vec<Seen>>()
    },
};

const ENDLESS: [u64; 11] = [
    255, 256, 257, 511, 32_768, 65_535, 65_536, 65_537, 131_073, 1_000_000, 16_777_217,
];

/// Around every power of two for three steps, and a loop that is cut.
fn fuel_of_a_size(turns: &mut Turns) -> Bound {
    let position = turns.of(3 * 64 + ENDLESS.len());
    let (body, fuel, at) = match position.checked_sub(3 * 64) {
        Some(cut) => {
            let body = vec![set(0, 0), jump_if_zero(0, 1), leave()];
            (body, ENDLESS[cut], ENDLESS[cut] as usize)
        }
        None => {
            let (bit, near) = (position / 3, position % 3);
            let fuel = (1u64 << bit) - 1 + near as u64;
            (vec![set(0, 7), put(0), leave()], fuel, bit)
        }
    };
    let done = fuel >= 3 && position < 3 * 64;
    let mut run = turns.lent(of_integers(1, &body));
    run.fuel = fuel;
    bound(run, seen(at, 0, if done { 11 } else { 12 }))
}
