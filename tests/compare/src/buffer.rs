//! Bytes at any alignment between guards, all filled at random.

use oracle::generate::Random;
use std::ops::Range;

const GUARD: usize = 16;

#[derive(Clone, PartialEq, Eq)]
pub struct Buffer {
    bytes: Vec<u8>,
    inside: Range<usize>,
}

impl Buffer {
    pub fn filled(length: usize, random: &mut Random) -> Buffer {
        let start = GUARD + random.below(8);
        let whole = start + length + GUARD;
        let mut bytes = Vec::with_capacity(whole + 8);
        while bytes.len() < whole {
            bytes.extend(random.draw().to_le_bytes());
        }
        bytes.truncate(whole);
        Buffer {
            bytes,
            inside: start..start + length,
        }
    }

    pub fn holding(text: &[u8], random: &mut Random) -> Buffer {
        let mut buffer = Buffer::filled(text.len(), random);
        buffer.inside_mut().copy_from_slice(text);
        buffer
    }

    pub fn inside(&self) -> &[u8] {
        &self.bytes[self.inside.clone()]
    }

    pub fn inside_mut(&mut self) -> &mut [u8] {
        &mut self.bytes[self.inside.clone()]
    }

    /// What stands before and behind.
    pub fn guards(&self) -> (&[u8], &[u8]) {
        (
            &self.bytes[..self.inside.start],
            &self.bytes[self.inside.end..],
        )
    }
}
