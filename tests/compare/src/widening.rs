//! Request Q-13 tried: readers checked against what some samples reach, and
//! again against what further ones reach. Where both pass, the first result is
//! below the second; else the second number is 9 or 11, or 1 or 15 by what is
//! lent.

use crate::demand::{Host, Room};
use crate::library::Callee;
use crate::sets;
use oracle::generate::{self, Random};
use oracle::operations::Operation;
use oracle::text_forms::read_shape;

/// How often each thing came.
#[derive(Default)]
pub struct Tally {
    /// results that are another one against the further text
    pub widened: usize,
    pub kept: usize,
    /// readers that passed before, by the number that they then came to
    pub lost: [usize; 16],
}

/// Tries it with the samples at an index. Gives what is wrong.
pub fn trial(callee: Callee, seed: u64, index: u64, tally: &mut Tally) -> Result<(), String> {
    let limits = sets::at(seed, index);
    let mut host = Host {
        callee,
        limits,
        random: Random::at(!seed, index),
    };
    let samples = generate::samples(seed, index, &limits);
    let before = host.random.below(samples.len() + 1);
    let (first, _) = host.chain_from(b"(shape)\n", &samples[..before], Room::Any);
    let (second, _) = host.chain_from(&first, &samples[before..], Room::Any);
    for text in [&first, &second] {
        let shape = read_shape(text, &limits).map_err(|_| "the shape reached is none")?;
        for reader in generate::trial(seed, index, &shape, &limits).readers {
            host.check_both(&reader, &first, &second, tally)?;
        }
    }
    Ok(())
}

impl Host {
    fn check_both(
        &mut self,
        reader: &[u8],
        first: &[u8],
        second: &[u8],
        tally: &mut Tally,
    ) -> Result<(), String> {
        let lower = self.call(Operation::Check, reader, first, Room::Any);
        let higher = self.call(Operation::Check, reader, second, Room::Any);
        match (lower.number, higher.number) {
            (0, 0) if !self.says_below(&lower.written, &higher.written) => {
                return Err("a further sample narrows a result".into());
            }
            (0, 0) if lower.written == higher.written => tally.kept += 1,
            (0, 0) => tally.widened += 1,
            (0, number @ (1 | 9 | 11 | 15)) => tally.lost[number as usize] += 1,
            (0, number) => return Err(format!("a further sample loses a reader by {number}")),
            _ => {}
        }
        Ok(())
    }

    fn says_below(&mut self, first: &[u8], second: &[u8]) -> bool {
        let said = self.call(Operation::Below, first, second, Room::Enough(0));
        said.number == 0 && said.yes
    }
}
