//! Damage: small changes that mostly make a right text wrong.

use super::Source;

/// Bytes that mean something in some text, and ones that end or break others.
pub const BYTES: &[u8] =
    b"\"\\{}[]():,-+.0159eEuxntf /\t\n\r\0\x0b\x1f\x7f\x80\xbf\xc0\xc2\xe0\xed\xef\xf4\xf5\xff";

const PIECES: [&[u8]; 20] = [
    b"\xef\xbb\xbf",
    b"\\ud800",
    b"\\uDC00",
    b"\\u00",
    b"\\x",
    b"null",
    b"tru",
    b"1e5",
    b"-0",
    b"01",
    b"1.",
    b",",
    b":",
    b"\"a\"",
    b"[]",
    b"{}",
    b"()",
    b"\xc2\xa0",
    b"/**/",
    b"  ",
];

impl Source {
    /// Changes a text in one to three spots.
    pub fn damage(&mut self, text: &mut Vec<u8>) {
        for _ in 0..self.random.between(1, 3) {
            self.damage_once(text);
            if self.random.once_in(2) {
                return;
            }
        }
    }

    fn damage_once(&mut self, text: &mut Vec<u8>) {
        let at = self.random.below(text.len() + 1);
        let end = (at + self.random.between(1, 4)).min(text.len());
        match self.random.below(9) {
            0 if at < text.len() => text[at] ^= 1 << self.random.below(8),
            1 | 2 if at < text.len() => text[at] = self.random.pick(BYTES),
            3 | 4 => text.insert(at, self.random.pick(BYTES)),
            5 => text.truncate(at),
            6 => drop(text.drain(at..end)),
            7 => {
                let again = text[at..end].to_vec();
                text.splice(at..at, again);
            }
            _ => {
                let piece = self.random.pick(&PIECES);
                text.splice(at..at, piece.iter().copied());
            }
        }
    }

    /// Changes one or two tokens of a form text.
    pub fn damage_tokens(&mut self, tokens: &mut Vec<Vec<u8>>, others: &[&str]) {
        for _ in 0..self.random.between(1, 2) {
            let at = self.random.below(tokens.len());
            let other = self.random.pick(others).as_bytes().to_vec();
            match self.random.below(6) {
                _ if tokens.is_empty() => tokens.push(other),
                0 => drop(tokens.remove(at)),
                1 => tokens.insert(at, tokens[at].clone()),
                2 => tokens.insert(at, other),
                3 => tokens.truncate(at),
                4 if at + 1 < tokens.len() => tokens.swap(at, at + 1),
                _ => tokens[at] = other,
            }
        }
    }

    /// Makes a text as long as wanted, by white space before or behind it.
    pub fn pad(&mut self, text: &mut Vec<u8>, length: usize) {
        let lacking = length.saturating_sub(text.len());
        let white = vec![self.random.pick(b" \t\n\r"); lacking];
        let at = if self.random.once_in(2) {
            0
        } else {
            text.len()
        };
        text.splice(at..at, white);
    }

    /// A length at the border of 2, or well past it.
    pub fn border_length(&mut self) -> usize {
        match self.random.below(4) {
            0 => self.limits.text_bytes + 1000,
            _ => self.random.near(self.limits.text_bytes, 1),
        }
    }
}
