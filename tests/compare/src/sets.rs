//! The set that a call is made with. In two calls of three it is the largest,
//! which has the longest texts; else mostly a small one, so that short texts
//! meet its limits.

use oracle::generate::Random;
use oracle::limits::Limits;

const LEAST: Limits = Limits::SMALLEST;
const MOST: Limits = Limits::LARGEST;

/// The set at an index of a seed, each number in its range.
pub fn at(seed: u64, index: u64) -> Limits {
    let mut random = random_at(seed, index);
    match random.once_in(3) {
        true => other(&mut random),
        false => MOST,
    }
}

/// What is handed over in a call whose texts are made for the set at an index:
/// that set, or once in a while one with a number out of its range.
pub fn handed(seed: u64, index: u64) -> Limits {
    let set = at(seed, index);
    let mut random = random_at(!seed, index);
    match random.once_in(50) {
        true => out_of_range(set, &mut random),
        false => set,
    }
}

fn random_at(seed: u64, index: u64) -> Random {
    Random::at(seed ^ 0x9c1d_63e5, index)
}

fn other(random: &mut Random) -> Limits {
    match random.below(8) {
        0..=3 => LEAST,
        4 | 5 => Limits {
            text_bytes: LEAST.text_bytes + random.below(64),
            values: LEAST.values + random.below(16),
            nesting: LEAST.nesting + random.below(3),
            steps: LEAST.steps + random.below(64) as u64,
        },
        6 => Limits {
            text_bytes: random.pick(&[LEAST.text_bytes, MOST.text_bytes]),
            values: random.pick(&[LEAST.values, MOST.values]),
            nesting: random.pick(&[LEAST.nesting, MOST.nesting]),
            steps: random.pick(&[LEAST.steps, MOST.steps]),
        },
        _ => Limits {
            text_bytes: random.between(LEAST.text_bytes, MOST.text_bytes),
            values: random.between(LEAST.values, MOST.values),
            nesting: random.between(LEAST.nesting, MOST.nesting),
            steps: random.between(LEAST.steps as usize, MOST.steps as usize) as u64,
        },
    }
}

/// The set with one number that is out of its range.
fn out_of_range(mut set: Limits, random: &mut Random) -> Limits {
    match random.below(4) {
        0 => set.text_bytes = beyond(LEAST.text_bytes, MOST.text_bytes, random),
        1 => set.values = beyond(LEAST.values, MOST.values, random),
        2 => set.nesting = beyond(LEAST.nesting, MOST.nesting, random),
        _ => set.steps = beyond(LEAST.steps as usize, MOST.steps as usize, random) as u64,
    }
    set
}

/// A number out of a range: one past an end mostly, or one of more bits.
fn beyond(least: usize, most: usize, random: &mut Random) -> usize {
    match random.below(8) {
        0..=2 => least - 1,
        3..=5 => most + 1,
        6 => random.pick(&[0, usize::MAX, 1 << 63]),
        _ => (1 << 32) + random.between(least, most),
    }
}
