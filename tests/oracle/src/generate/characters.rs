//! Texts of any characters, and texts that break RFC 3629 or a surrogate pair
//! at any place.

use super::Source;

/// Bytes at the borders of RFC 3629's table.
const UTF8_BORDERS: [u8; 25] = [
    0x20, 0x22, 0x5c, 0x7e, 0x7f, 0x80, 0x8f, 0x90, 0x9f, 0xa0, 0xbf, 0xc0, 0xc1, 0xc2, 0xdf, 0xe0,
    0xe1, 0xec, 0xed, 0xee, 0xef, 0xf0, 0xf3, 0xf4, 0xf5,
];

/// Units at the borders of the surrogates and of lengths in UTF-8.
const UNIT_BORDERS: [u16; 18] = [
    0x0000, 0x001f, 0x0020, 0x0022, 0x005c, 0x007f, 0x0080, 0x07ff, 0x0800, 0xd7ff, 0xd800, 0xdbff,
    0xdc00, 0xdfff, 0xe000, 0xfeff, 0xfffe, 0xffff,
];

impl Source {
    /// A text of any characters, spelled in any way.
    pub fn any_text(&mut self) -> Vec<u8> {
        let length = self.random.below(24);
        let characters: String = (0..length).map(|_| self.character()).collect();
        self.spell_text(characters.as_bytes())
    }

    /// A character of one to four bytes, each length as often.
    pub fn character(&mut self) -> char {
        let (low, high) = self.random.pick(&[
            (0, 0x7f),
            (0x80, 0x7ff),
            (0x800, 0xffff),
            (0x10000, 0x10ffff),
        ]);
        let code = self.random.between(low, high) as u32;
        // A surrogate is no character.
        char::from_u32(code).unwrap_or('\u{d7ff}')
    }

    /// A text with some bytes of which most are no UTF-8.
    pub fn border_bytes(&mut self) -> Vec<u8> {
        let mut out = vec![b'"'];
        out.resize(1 + self.random.below(10), b'a');
        for _ in 0..self.random.between(1, 4) {
            out.push(match self.random.below(8) {
                0 => self.random.draw() as u8,
                1..=3 => self.random.between(0x80, 0xbf) as u8,
                _ => self.random.pick(&UTF8_BORDERS),
            });
        }
        out.extend(b"\"");
        out
    }

    /// A text with some escapes of units, of which most make no pair.
    pub fn border_units(&mut self) -> Vec<u8> {
        let mut out = vec![b'"'];
        for _ in 0..self.random.between(1, 3) {
            let unit = match self.random.below(4) {
                0 => self.random.draw() as u16,
                1 => self.random.between(0xd800, 0xdfff) as u16,
                _ => self.random.pick(&UNIT_BORDERS),
            };
            self.spell_unit(unit, &mut out);
        }
        out.extend(b"\"");
        out
    }
}
