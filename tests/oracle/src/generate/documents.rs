//! Documents, right and wrong, each theme near one of the refusals.

use super::pieces::{NUMBERS, RIGHT_PIECES, TOKENS, WRONG_PIECES};
use super::Source;
use crate::value::Value;

impl Source {
    /// A document of any theme.
    pub fn any_document(&mut self) -> Vec<u8> {
        let mut text = match self.random.below(100) {
            0..=19 => return self.spell_value_document(),
            20..=37 => {
                let mut text = self.spell_value_document();
                self.damage(&mut text);
                return text;
            }
            38..=47 => self.number_document(),
            48..=60 => self.text_document(),
            61..=68 => self.repeated_name(),
            69..=71 => self.near_names(),
            72..=78 => self.deep_document(),
            79..=84 => self.many_values(),
            85..=87 => self.long_document(),
            88..=91 => return self.large_document(),
            92..=93 => (0..self.random.below(12))
                .map(|_| self.random.draw() as u8)
                .collect(),
            _ => self.token_row(),
        };
        if self.random.once_in(12) {
            self.damage(&mut text);
        }
        text
    }

    fn spell_value_document(&mut self) -> Vec<u8> {
        let value = self.value();
        self.spell_document(&value)
    }

    /// A piece of text as a document or inside one.
    fn inside(&mut self, piece: &[u8]) -> Vec<u8> {
        let around: &[(&[u8], &[u8])] = &[
            (b"", b""),
            (b"[", b"]"),
            (b"{\"a\":", b"}"),
            (b"[1,", b",2]"),
            (b" ", b"\n"),
            (b"{\"b\":0,\"a\":[", b"],\"c\":1}"),
            (b"", b"x"),
            (b"[", b""),
        ];
        let (before, behind) = self.random.pick(around);
        [before, piece, behind].concat()
    }

    pub fn number_document(&mut self) -> Vec<u8> {
        let number = match self.random.below(5) {
            0 => self.digits().into_bytes(),
            1..=2 => self.any_number(),
            _ => self.random.pick(&NUMBERS).as_bytes().to_vec(),
        };
        self.inside(&number)
    }

    /// Random digits with a point somewhere, about as long as may be.
    fn digits(&mut self) -> String {
        let length = self.random.between(14, 21);
        let digit = self.random.pick(&['9', '1', '5']);
        let mut spelled: String = std::iter::repeat_n(digit, length).collect();
        match self.random.below(3) {
            0 => {}
            _ => spelled.insert(
                self.random
                    .between(length.saturating_sub(11).max(1), length - 1),
                '.',
            ),
        }
        if self.random.once_in(3) {
            spelled.insert(0, '-');
        }
        spelled
    }

    /// A text of pieces, at most one of them wrong.
    fn quoted_pieces(&mut self) -> Vec<u8> {
        let mut pieces: Vec<&[u8]> = Vec::new();
        for _ in 0..self.random.below(5) {
            pieces.push(self.random.pick(&RIGHT_PIECES));
        }
        if self.random.once_in(2) {
            let at = self.random.below(pieces.len() + 1);
            pieces.insert(at, self.random.pick(&WRONG_PIECES));
        }
        let end: &[u8] = if self.random.once_in(12) { b"" } else { b"\"" };
        [b"\"", &pieces.concat()[..], end].concat()
    }

    fn text_document(&mut self) -> Vec<u8> {
        let text = match self.random.below(8) {
            0 => self.any_text(),
            1..=2 => self.border_bytes(),
            3 => self.border_units(),
            _ => self.quoted_pieces(),
        };
        match self.random.below(3) {
            0 => [b"{", &text[..], b":1}"].concat(),
            _ => self.inside(&text),
        }
    }

    /// A record in which a name comes again, mostly spelled in another way.
    fn repeated_name(&mut self) -> Vec<u8> {
        let count = self.random.between(1, 4);
        let names = self.names(count);
        let mut out = b"{".to_vec();
        for name in &names {
            out.extend(self.spell_text(name));
            out.extend(b":");
            let value = self.scalar();
            out.extend(self.spell_document(&value));
            out.extend(b",");
        }
        let again = names[self.random.below(names.len())].clone();
        out.extend(match self.random.below(8) {
            0 => self.quoted_pieces(),
            _ => self.spell_text(&again),
        });
        let behind: [&[u8]; 8] = [
            b":1}", b":1}", b" : [] }", b"x", b"", b":x", b":1,", b":1e5}",
        ];
        out.extend(self.random.pick(&behind));
        self.inside(&out)
    }

    /// A record whose names differ at their ends, some by zeros alone, around
    /// multiples of eight bytes; mostly one of them comes again.
    fn near_names(&mut self) -> Vec<u8> {
        let length = self.random.pick(&[0, 1, 7, 8, 9, 15, 16, 17, 24]);
        let mut out = b"{".to_vec();
        for index in 0..self.random.between(2, 4) {
            let mut name = vec![b'n'; length];
            match self.random.below(6) {
                0 => {}
                1 => name.push(0),
                2 => name.extend([0, 0]),
                3 => drop(name.pop()),
                4 => name.push(b'n'),
                _ => name.iter_mut().take(1).for_each(|first| *first = 0),
            }
            out.extend(&b","[..index.min(1)]);
            out.extend(self.spell_text(&name));
            out.extend(b":0");
        }
        out.push(b'}');
        out
    }

    /// Lists and records inside each other, about as deep as may be.
    pub fn deep_document(&mut self) -> Vec<u8> {
        let depth = match self.random.below(12) {
            0 => self.limits.text_bytes,
            _ => self.random.near(self.limits.nesting, 2),
        };
        let records = self.random.below(3);
        let mut out = Vec::new();
        let mut closing = Vec::new();
        for _ in 0..depth {
            let record = records > 0 && self.random.below(3) < records;
            out.extend(if record { &b"{\"a\":"[..] } else { b"[" });
            closing.push(if record { b'}' } else { b']' });
        }
        let innermost: [&[u8]; 9] = [b"", b"1", b"[]", b"{}", b"\"", b"tru", b"1e5", b"-", b"x"];
        let right = self.random.once_in(3);
        out.extend(if right {
            b"null"
        } else {
            self.random.pick(&innermost)
        });
        closing.reverse();
        out.extend(closing);
        out
    }

    /// About as many values as may be, the last one of any sort.
    pub fn many_values(&mut self) -> Vec<u8> {
        let count = self.random.near(self.limits.values, 2).saturating_sub(2);
        let record = self.random.once_in(3);
        let mut out = if record { b"{".to_vec() } else { b"[".to_vec() };
        for index in 0..count {
            if record {
                out.extend(format!("\"{index:x}\":").into_bytes());
            }
            out.extend(b"1,");
        }
        if record {
            out.extend(b"\"last\":");
        }
        let last: [&[u8]; 14] = [
            b"1",
            b"2.5",
            b"[]",
            b"{}",
            b"\"t\"",
            b"null",
            b"1e5",
            b"1000000000000000000",
            b"-",
            b"1.",
            b"tru",
            b"x",
            b"\"",
            b"[1]",
        ];
        out.extend(self.random.pick(&last));
        out.extend(if record { b"}" } else { b"]" });
        out
    }

    /// A document at the border of 2: white space, a long text or a long run.
    fn long_document(&mut self) -> Vec<u8> {
        let length = self.border_length();
        if self.random.once_in(2) {
            let value = self.value();
            let mut text = self.spell_document(&value);
            self.pad(&mut text, length);
            return text;
        }
        let piece = self.random.pick(&RIGHT_PIECES);
        let mut out = b"[\"".to_vec();
        while out.len() + piece.len() + 2 <= length {
            out.extend(piece);
        }
        out.extend(b"\"]");
        self.pad(&mut out, length);
        out
    }

    fn token_row(&mut self) -> Vec<u8> {
        let count = self.random.below(9);
        let tokens = (0..count).map(|_| self.random.pick(&TOKENS));
        tokens.collect::<String>().into_bytes()
    }

    /// A list of so many equal elements.
    pub fn row_of(&self, count: usize, element: &Value) -> Vec<u8> {
        let spelled = crate::plain::document(element);
        let elements = vec![spelled; count];
        [b"[", &elements.join(&b","[..])[..], b"]"].concat()
    }
}
