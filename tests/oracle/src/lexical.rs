//! JSON white space, texts and numbers, which documents and forms share.
//! RFC 8259 and RFC 3629, with lone surrogate escapes ruled out.

use crate::value::{Number, MOST_COEFFICIENT, MOST_SCALE};
use std::ops::Range;

pub fn is_white(byte: u8) -> bool {
    matches!(byte, b' ' | b'\t' | b'\n' | b'\r')
}

/// The first position from `at` on that holds no white space.
pub fn skip_white(bytes: &[u8], at: usize) -> usize {
    let white = bytes[at..].iter().take_while(|byte| is_white(**byte));
    at + white.count()
}

/// Decodes the text whose opening quote stands at `quote`. Gives its bytes and
/// the position behind its closing quote, or else the first byte after which
/// no JSON text could follow.
pub fn text(bytes: &[u8], quote: usize) -> Result<(Vec<u8>, usize), usize> {
    let mut decoded = Vec::new();
    let mut at = quote + 1;
    loop {
        at = match bytes.get(at) {
            Some(b'"') => return Ok((decoded, at + 1)),
            Some(b'\\') => escape(bytes, at + 1, &mut decoded)?,
            Some(0x20..) => character(bytes, at, &mut decoded)?,
            _ => return Err(at),
        }
    }
}

/// Reads what follows a backslash.
fn escape(bytes: &[u8], at: usize, decoded: &mut Vec<u8>) -> Result<usize, usize> {
    let byte = match bytes.get(at) {
        Some(byte @ (b'"' | b'\\' | b'/')) => *byte,
        Some(b'b') => 0x08,
        Some(b'f') => 0x0c,
        Some(b'n') => b'\n',
        Some(b'r') => b'\r',
        Some(b't') => b'\t',
        Some(b'u') => return unicode_escape(bytes, at + 1, decoded),
        _ => return Err(at),
    };
    decoded.push(byte);
    Ok(at + 1)
}

/// Reads what follows `\u`: a unit, and its low half where it is a high one.
fn unicode_escape(bytes: &[u8], at: usize, decoded: &mut Vec<u8>) -> Result<usize, usize> {
    // A second digit c to f behind `d` would make a low half on its own.
    let first = unit(bytes, at, |unit| !(0xdc..=0xdf).contains(&unit))?;
    let (code, end) = if (0xd800..=0xdbff).contains(&first) {
        let low = low_half(bytes, at + 4)?;
        let code = 0x10000 + ((first - 0xd800) << 10) + (low - 0xdc00);
        (code, at + 10)
    } else {
        (first, at + 4)
    };
    let scalar = char::from_u32(code).ok_or(at)?;
    decoded.extend_from_slice(scalar.encode_utf8(&mut [0; 4]).as_bytes());
    Ok(end)
}

/// Reads the `\u` and the four digits that a high half calls for.
fn low_half(bytes: &[u8], at: usize) -> Result<u32, usize> {
    for (offset, wanted) in [b'\\', b'u'].iter().enumerate() {
        if bytes.get(at + offset) != Some(wanted) {
            return Err(at + offset);
        }
    }
    unit(bytes, at + 2, |unit| {
        unit == 0xd || (0xdc..=0xdf).contains(&unit)
    })
}

/// Reads four hexadecimal digits; `fits` judges the first one alone and the
/// first two together, so that a wrong surrogate is found at its own digit.
fn unit(bytes: &[u8], at: usize, fits: impl Fn(u32) -> bool) -> Result<u32, usize> {
    let mut unit = 0;
    for place in at..at + 4 {
        let digit = bytes
            .get(place)
            .and_then(|byte| char::from(*byte).to_digit(16));
        unit = unit * 16 + digit.ok_or(place)?;
        if place < at + 2 && !fits(unit) {
            return Err(place);
        }
    }
    Ok(unit)
}

/// Reads one character that is written as itself.
fn character(bytes: &[u8], at: usize, decoded: &mut Vec<u8>) -> Result<usize, usize> {
    let tails = tails(bytes[at]).ok_or(at)?;
    for (offset, (low, high)) in tails.iter().enumerate() {
        let place = at + 1 + offset;
        match bytes.get(place) {
            Some(byte) if (low..=high).contains(&byte) => {}
            _ => return Err(place),
        }
    }
    let end = at + 1 + tails.len();
    decoded.extend_from_slice(&bytes[at..end]);
    Ok(end)
}

/// The bytes that may follow a head byte, by RFC 3629's table (section 4).
fn tails(head: u8) -> Option<&'static [(u8, u8)]> {
    const TAIL: (u8, u8) = (0x80, 0xbf);
    Some(match head {
        0x00..=0x7f => &[],
        0xc2..=0xdf => &[TAIL],
        0xe0 => &[(0xa0, 0xbf), TAIL],
        0xe1..=0xec | 0xee..=0xef => &[TAIL, TAIL],
        0xed => &[(0x80, 0x9f), TAIL],
        0xf0 => &[(0x90, 0xbf), TAIL, TAIL],
        0xf1..=0xf3 => &[TAIL, TAIL, TAIL],
        0xf4 => &[(0x80, 0x8f), TAIL, TAIL],
        _ => return None,
    })
}

/// The longest run of bytes that begins some JSON number, judged.
#[derive(Clone, Copy, Debug, PartialEq, Eq)]
pub enum NumberRun {
    /// the run is no number; it ends here
    Broken(usize),
    /// a number beyond the limits, or one with an exponent
    Beyond,
    /// a number within the limits, and the run's end
    Within(Number, usize),
}

/// Judges the run at `start`, where a digit or a minus stands.
pub fn number_run(bytes: &[u8], start: usize) -> NumberRun {
    let negative = bytes.get(start) == Some(&b'-');
    let first = start + usize::from(negative);
    let whole = match bytes.get(first) {
        Some(b'0') => first..first + 1,
        _ => digits(bytes, first),
    };
    if whole.is_empty() {
        return NumberRun::Broken(whole.end);
    }
    let fraction = match bytes.get(whole.end) {
        Some(b'.') => digits(bytes, whole.end + 1),
        _ => whole.end..whole.end,
    };
    if fraction.is_empty() && fraction.end > whole.end {
        return NumberRun::Broken(fraction.end);
    }
    if let Some(b'e' | b'E') = bytes.get(fraction.end) {
        return exponent(bytes, fraction.end + 1);
    }
    match number(negative, &bytes[whole], &bytes[fraction.clone()]) {
        Some(number) => NumberRun::Within(number, fraction.end),
        None => NumberRun::Beyond,
    }
}

fn digits(bytes: &[u8], start: usize) -> Range<usize> {
    let rest = bytes.get(start..).unwrap_or(&[]);
    let count = rest.iter().take_while(|byte| byte.is_ascii_digit()).count();
    start..start + count
}

/// Judges a run whose `e` stands just before `at`.
fn exponent(bytes: &[u8], at: usize) -> NumberRun {
    let signed = matches!(bytes.get(at), Some(b'+' | b'-'));
    let digits = digits(bytes, at + usize::from(signed));
    if digits.is_empty() {
        NumberRun::Broken(digits.end)
    } else {
        NumberRun::Beyond
    }
}

fn number(negative: bool, whole: &[u8], fraction: &[u8]) -> Option<Number> {
    if fraction.len() > MOST_SCALE {
        return None;
    }
    // One digit past the limit still fits into 64 bits without a sign.
    let mut magnitude: u64 = 0;
    for digit in whole.iter().chain(fraction) {
        magnitude = magnitude * 10 + u64::from(digit - b'0');
        if magnitude > MOST_COEFFICIENT {
            return None;
        }
    }
    let coefficient = i64::try_from(magnitude).ok()?;
    Some(Number {
        coefficient: if negative { -coefficient } else { coefficient },
        scale: fraction.len(),
    })
}
