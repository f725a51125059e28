//! Rows of texts that go over one text place by place.

use super::Source;

/// The longest text that a row goes over: a row has as many texts as it has
/// bytes, or as a byte has values.
const LONGEST: usize = 120;

impl Source {
    /// One text, or a row of texts made from it.
    pub fn sweep(&mut self, text: Vec<u8>) -> Vec<Vec<u8>> {
        if text.is_empty() || text.len() > LONGEST {
            return vec![text];
        }
        match self.random.below(800) {
            0..=3 => truncations(&text),
            4 => self.every_value(&text),
            5..=6 => self.at_every_place(&text),
            _ => vec![text],
        }
    }

    /// One byte with every value that it can have.
    fn every_value(&mut self, text: &[u8]) -> Vec<Vec<u8>> {
        let at = self.random.below(text.len());
        let edited = |value| {
            let mut text = text.to_vec();
            text[at] = value;
            text
        };
        (0..=255).map(edited).collect()
    }

    /// A byte put in the place of each byte, or before each, or each left out.
    fn at_every_place(&mut self, text: &[u8]) -> Vec<Vec<u8>> {
        let value = self.random.pick(super::damage::BYTES);
        let how = self.random.below(3);
        let edited = |at: usize| {
            let mut text = text.to_vec();
            match how {
                0 => text[at] = value,
                1 => text.insert(at, value),
                _ => drop(text.remove(at)),
            }
            text
        };
        (0..text.len()).map(edited).collect()
    }
}

/// Every beginning of a text, the whole among them.
fn truncations(text: &[u8]) -> Vec<Vec<u8>> {
    (0..=text.len()).map(|end| text[..end].to_vec()).collect()
}
