//! Documents as long as may be: long texts, many texts, many numbers, trees.

use super::Source;

impl Source {
    /// A document of any length up to the border of 2 and a little past it.
    pub fn large_document(&mut self) -> Vec<u8> {
        let length = match self.random.below(4) {
            0 => self.random.near(self.limits.text_bytes, 16),
            _ => self.random.below(self.limits.text_bytes),
        };
        let mut out = match self.random.below(5) {
            0 => self.long_texts(length),
            1 => self.many_texts(length),
            2 => self.many_numbers(length),
            3 => self.wasteful_texts(),
            _ => self.large_tree(length),
        };
        if self.random.once_in(3) {
            self.damage(&mut out);
        }
        out
    }

    /// A list of a few texts, each of plain bytes with other characters at random.
    fn long_texts(&mut self, length: usize) -> Vec<u8> {
        let count = self.random.between(1, 4);
        let rare = self.random.pick(&[2, 9, 200, 5000]);
        let mut out = b"[".to_vec();
        for index in 0..count {
            out.extend(if index > 0 { &b",\""[..] } else { b"\"" });
            let end = (length.saturating_sub(2) * (index + 1) / count).saturating_sub(1);
            while out.len() < end {
                self.push_character(rare, &mut out);
            }
            out.push(b'"');
        }
        out.push(b']');
        out
    }

    fn push_character(&mut self, rare: usize, out: &mut Vec<u8>) {
        if !self.random.once_in(rare) {
            return out.push(self.random.pick(b"abcxyz 0189_-.,:[]{}"));
        }
        let character = self.character();
        let spelled = self.spell_text(character.encode_utf8(&mut [0; 4]).as_bytes());
        out.extend(&spelled[1..spelled.len() - 1]);
    }

    /// A record of texts whose lengths, and those of their names, go around
    /// multiples of eight, so that the last word of each is full or nearly empty.
    fn many_texts(&mut self, length: usize) -> Vec<u8> {
        let most = self.random.near(self.limits.values, 1);
        let words = self.random.pick(&[0, 8, 16, 24]);
        let mut out = b"{".to_vec();
        for index in 1..most {
            if out.len() + 2 * words + 24 > length {
                break;
            }
            out.extend(if index > 1 { &b","[..] } else { b"" });
            let name = self.random.near(words, 1).max(3);
            out.extend(format!("\"{index:0>name$}\":\"").into_bytes());
            let text = self.random.near(words, 1);
            out.resize(out.len() + text, b'x');
            out.push(b'"');
        }
        out.push(b'}');
        out
    }

    /// A record of as many texts as may be, each with one byte in its last word
    /// of eight, as long as may be: nothing takes more words. It is closed, or a
    /// last name is left open.
    fn wasteful_texts(&mut self) -> Vec<u8> {
        let length = self.limits.text_bytes;
        // A name of nine bytes, a text of one, and what stands around them.
        let members = (self.limits.values - 1).min(length / 16);
        let mut texts = vec![1; members];
        for _ in 0..length.saturating_sub(16 * members + 2) / 8 {
            let longer = self.random.below(members);
            texts.iter_mut().skip(longer).take(1).for_each(|n| *n += 8);
        }
        let mut out = b"{".to_vec();
        for (index, text) in texts.into_iter().enumerate() {
            out.extend(&b","[..index.min(1)]);
            out.extend(format!("\"{index:0>9}\":\"{:x>text$}\"", "").into_bytes());
        }
        out.extend(self.random.pick(&[&b"}"[..], b",\""]));
        let open = out.ends_with(b"\"");
        let length = self.random.near(length, 1).max(out.len());
        out.resize(length, if open { b'n' } else { b' ' });
        out
    }

    fn many_numbers(&mut self, length: usize) -> Vec<u8> {
        let most = self.random.near(self.limits.values, 1);
        let mut out = b"[".to_vec();
        for index in 1..most {
            if out.len() + 40 > length {
                break;
            }
            out.extend(if index > 1 { &b", "[..] } else { b" " });
            let scale = self.random.below(10);
            let number = self.number(scale);
            out.extend(crate::plain::spelled(&number).into_bytes());
        }
        // White space brings a number to each place of a word.
        out.resize(length.max(out.len() + 1) - 1, b'\n');
        out.push(b']');
        out
    }

    /// A list of trees, with about as many values as may be.
    fn large_tree(&mut self, length: usize) -> Vec<u8> {
        let mut left = self.random.near(self.limits.values, 6).saturating_sub(1);
        let mut out = b"[".to_vec();
        while left > 0 && out.len() < length {
            out.extend(if out.len() > 1 { &b","[..] } else { b"" });
            let nesting = self.random.between(1, self.limits.nesting.min(8));
            let tree = self.value_within(nesting, &mut left);
            out.extend(self.spell_document(&tree));
        }
        out.push(b']');
        out
    }
}
