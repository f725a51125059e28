//! How often each number comes up over generated calls.

use crate::generate;
use crate::limits::Limits;
use crate::operations::{outcome, Operation, Texts};

/// Counts of generated calls by the number of their answer; of those that
/// `below` and `admits` accept, the ones answered yes stand apart.
#[derive(Clone, Debug, Default)]
pub struct Tally {
    pub numbers: [u64; 19],
    pub yes: u64,
    pub text_bytes: u64,
}

/// Generates and answers calls of one operation.
pub fn tally(seed: u64, count: u64, operation: Operation, limits: &Limits) -> Tally {
    let mut tally = Tally::default();
    for index in 0..count {
        let call = generate::call(seed, index, operation, limits);
        let texts = Texts {
            first: &call.first,
            second: &call.second,
            limits,
        };
        let (answer, _) = outcome(operation, texts, call.output);
        tally.numbers[usize::from(answer.number)] += 1;
        tally.yes += u64::from(answer.yes);
        tally.text_bytes += (call.first.len() + call.second.len()) as u64;
    }
    tally
}
