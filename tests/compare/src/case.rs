//! One call with all that is lent to it, and what it has to leave behind.

use crate::buffer::Buffer;
use crate::library::{Callee, Lent};
use oracle::generate::{Call, Random};
use oracle::limits::Limits;
use oracle::operations::{outcome, Answer, Operation, Texts};

/// The length of an answer: five words of eight bytes.
pub const ANSWER: usize = 40;

#[derive(Clone)]
pub struct Case {
    pub operation: Operation,
    pub limits: Limits,
    pub buffers: Buffers,
    null: bool,
}

/// What a call is lent, with the guards around it.
#[derive(Clone, PartialEq, Eq)]
pub struct Buffers {
    pub first: Buffer,
    pub second: Buffer,
    pub output: Buffer,
    pub answer: Buffer,
}

/// The number that a call returned, and all bytes as it left them.
#[derive(PartialEq, Eq)]
pub struct Left {
    pub number: u64,
    pub buffers: Buffers,
}

impl Case {
    pub fn new(call: &Call, limits: Limits, random: &mut Random) -> Case {
        let answer = match random.below(32) {
            0 => ANSWER - 1,
            1 => ANSWER - 2,
            2..=9 => ANSWER + random.between(1, 8),
            _ => ANSWER,
        };
        Case {
            operation: call.operation,
            limits,
            null: random.once_in(2),
            buffers: Buffers {
                first: Buffer::holding(&call.first, random),
                second: Buffer::holding(&call.second, random),
                output: Buffer::filled(call.output, random),
                answer: Buffer::filled(answer, random),
            },
        }
    }

    /// What the second implementation says that the call leaves.
    pub fn stated(&self) -> Left {
        let mut buffers = self.buffers.clone();
        if buffers.answer.inside().len() < ANSWER {
            // 18 goes before 1, and either is returned alone.
            let number = if self.limits.are_in_range() { 1 } else { 18 };
            return Left { number, buffers };
        }
        let texts = Texts {
            first: self.buffers.first.inside(),
            second: self.buffers.second.inside(),
            limits: &self.limits,
        };
        let output = buffers.output.inside_mut();
        let (answer, written) = outcome(self.operation, texts, output.len());
        output[..written.len()].copy_from_slice(&written);
        buffers.answer.inside_mut()[..ANSWER].copy_from_slice(&words(&answer));
        Left {
            number: u64::from(answer.number),
            buffers,
        }
    }

    /// What a callee leaves.
    pub fn left_by(&self, callee: Callee) -> Left {
        let mut buffers = self.buffers.clone();
        let lent = Lent {
            limits: self.limits,
            first: buffers.first.inside(),
            second: buffers.second.inside(),
            output: buffers.output.inside_mut(),
            answer: buffers.answer.inside_mut(),
            null: self.null,
        };
        let number = callee(self.operation, lent);
        Left { number, buffers }
    }
}

/// Text, place, length, steps and yes, little-endian.
pub fn words(answer: &Answer) -> [u8; ANSWER] {
    let words = [
        u64::from(answer.text),
        answer.place,
        answer.length,
        answer.steps,
        u64::from(answer.yes),
    ];
    let mut bytes = [0; ANSWER];
    for (word, place) in words.iter().zip(bytes.chunks_mut(8)) {
        place.copy_from_slice(&word.to_le_bytes());
    }
    bytes
}
