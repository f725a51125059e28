//! Numbers around every border, and runs that are almost numbers.

use super::Source;

impl Source {
    /// A number part by part: sign, whole part, fraction, exponent; each may be
    /// wrong or too long.
    pub fn any_number(&mut self) -> Vec<u8> {
        let mut out = Vec::new();
        if self.random.once_in(3) {
            out.push(b'-');
        }
        self.whole_part(&mut out);
        if self.random.once_in(2) {
            out.push(b'.');
            let count = match self.random.below(3) {
                0 => self.random.below(3),
                _ => self.random.near(9, 2),
            };
            self.push_digits(count, &mut out);
        }
        if self.random.once_in(6) {
            self.exponent_part(&mut out);
        }
        out
    }

    /// Mostly as many digits as make the coefficient about as long as may be.
    fn whole_part(&mut self, out: &mut Vec<u8>) {
        let count = match self.random.below(4) {
            0 => return out.push(b'0'),
            1 => self.random.near(9, 2),
            2 => self.random.near(18, 2),
            _ => self.random.between(1, 20),
        };
        // A leading zero is wrong, and comes up as often as any other digit.
        self.push_digits(count, out);
    }

    fn exponent_part(&mut self, out: &mut Vec<u8>) {
        out.push(self.random.pick(b"eE"));
        out.extend(self.random.pick(&[&b""[..], b"+", b"-", b"+-"]));
        let count = self.random.below(4);
        self.push_digits(count, out);
    }

    fn push_digits(&mut self, count: usize, out: &mut Vec<u8>) {
        let digit = self.random.pick(b"90 ");
        for _ in 0..count {
            out.push(match digit {
                b' ' => b'0' + self.random.below(10) as u8,
                digit => digit,
            });
        }
    }
}
