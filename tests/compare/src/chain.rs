//! Samples joined one behind the other by `infer`, each call given what the
//! last accepted one wrote, all with one set: in every order the same bytes are reached, and they
//! are those of the second implementation.

use crate::case::ANSWER;
use crate::library::{Callee, Lent};
use oracle::generate::Random;
use oracle::json;
use oracle::limits::Limits;
use oracle::operations::Operation;
use oracle::shape::{join, shape_of, Shape};
use oracle::text_forms::write_shape;

/// How many orders of the samples are tried besides the given one.
const ORDERS: usize = 3;

#[derive(Default)]
pub struct Tally {
    pub accepted: usize,
    pub refused: usize,
    pub orders: usize,
}

/// Whether a callee's chains of some samples reach what they have to.
pub fn is_fine(
    callee: Callee,
    limits: &Limits,
    samples: &[Vec<u8>],
    mut random: Random,
    tally: &mut Tally,
) -> bool {
    let (reached, accepted) = chained(callee, limits, samples);
    tally.accepted += accepted.len();
    tally.refused += samples.len() - accepted.len();
    let mut order = accepted.clone();
    let same = (0..ORDERS).all(|_| {
        shuffle(&mut order, &mut random);
        tally.orders += 1;
        let (again, all) = chained(callee, limits, &order);
        again == reached && all.len() == order.len()
    });
    same && stated(limits, &accepted) == Some(reached)
}

/// The text that samples reach from `(shape)`, and the samples accepted.
fn chained(callee: Callee, limits: &Limits, samples: &[Vec<u8>]) -> (Vec<u8>, Vec<Vec<u8>>) {
    let mut reached = b"(shape)\n".to_vec();
    let mut accepted = Vec::new();
    for sample in samples {
        if let Some(written) = inferred(callee, limits, &reached, sample) {
            reached = written;
            accepted.push(sample.clone());
        }
    }
    (reached, accepted)
}

/// What a callee's `infer` writes.
fn inferred(callee: Callee, limits: &Limits, shape: &[u8], document: &[u8]) -> Option<Vec<u8>> {
    let mut output = vec![0; limits.text_bytes];
    let mut answer = [0; ANSWER];
    let lent = Lent {
        limits: *limits,
        first: shape,
        second: document,
        output: &mut output,
        answer: &mut answer,
        null: false,
    };
    let number = callee(Operation::Infer, lent);
    let length: [u8; 8] = answer[16..24].try_into().ok()?;
    output.truncate(u64::from_le_bytes(length) as usize);
    (number == 0).then_some(output)
}

/// What the second implementation says that accepted samples reach.
fn stated(limits: &Limits, samples: &[Vec<u8>]) -> Option<Vec<u8>> {
    let mut shape = Shape::default();
    for sample in samples {
        let value = json::read(sample, limits).ok()?;
        shape = join(shape, shape_of(&value));
    }
    write_shape(&shape, limits)
}

fn shuffle(samples: &mut [Vec<u8>], random: &mut Random) {
    for end in (1..samples.len()).rev() {
        samples.swap(end, random.below(end + 1));
    }
}
