//! Values: what a document holds and a run gives.

use std::rc::Rc;

/// The largest magnitude of a coefficient.
pub const MOST_COEFFICIENT: u64 = 999_999_999_999_999_999;
/// The largest scale.
pub const MOST_SCALE: usize = 9;

/// A coefficient over ten to the scale, which is the count of fraction digits
/// as written. 12 and 12.0 are two values of one kind.
#[derive(Clone, Copy, Debug, PartialEq, Eq)]
pub struct Number {
    pub coefficient: i64,
    pub scale: usize,
}

impl Number {
    pub fn int(coefficient: i64) -> Number {
        Number {
            coefficient,
            scale: 0,
        }
    }

    /// Whether it is written with a point.
    pub fn has_fraction(&self) -> bool {
        self.scale > 0
    }

    /// Request Q-5: every fraction digit is a zero.
    pub fn is_int(&self) -> bool {
        let digits = format!(
            "{:0width$}",
            self.coefficient.unsigned_abs(),
            width = self.scale
        );
        digits
            .bytes()
            .rev()
            .take(self.scale)
            .all(|digit| digit == b'0')
    }

    /// An int without its fraction.
    pub fn without_fraction(&self) -> Number {
        Number::int(self.coefficient / 10_i64.pow(self.scale as u32))
    }
}

/// Parts are shared, because a run may give the same part many times over.
#[derive(Clone, Debug, PartialEq, Eq)]
pub enum Value {
    Null,
    Bool(bool),
    Number(Number),
    Text(Vec<u8>),
    List(Vec<Rc<Value>>),
    /// members in the order written, names distinct
    Record(Vec<(Vec<u8>, Rc<Value>)>),
}
