//! Numbers at the powers of ten: what `plain` and `run` write of them.

use crate::case::Case;
use oracle::generate::{Call, Random};
use oracle::limits::Limits;
use oracle::operations::Operation;

/// How many powers of ten a coefficient may be, and the most fraction digits.
const POWERS: u32 = 18;
const SCALE: usize = 9;
/// How many cases there are: each power, one less than each and the largest
/// coefficient, with both signs and each scale, in two calls.
pub const CASES: usize = (2 * POWERS as usize + 1) * 2 * (SCALE + 1) * 2;

fn coefficients() -> impl Iterator<Item = u64> {
    let around = |power| [10_u64.pow(power) - 1, 10_u64.pow(power)];
    (0..POWERS).flat_map(around).chain([10_u64.pow(POWERS) - 1])
}

/// As a document may spell it: with the minus of a zero too.
fn spelled(minus: bool, coefficient: u64, scale: usize) -> String {
    let digits = format!("{coefficient:0width$}", width = scale + 1);
    let (whole, fraction) = digits.split_at(digits.len() - scale);
    let sign = if minus { "-" } else { "" };
    let point = if scale > 0 { "." } else { "" };
    format!("{sign}{whole}{point}{fraction}")
}

/// The number twice in a document, and as a reader's literal.
fn calls(number: String) -> [Call; 2] {
    let call = |operation, first: String, second: &str| Call {
        operation,
        output: first.len(),
        first: first.into_bytes(),
        second: second.into(),
    };
    [
        call(Operation::Plain, format!("[{number},{number}]"), ""),
        call(Operation::Run, format!("(num {number})"), "null"),
    ]
}

/// The call with an answer buffer that is long enough, so that it is accepted.
fn accepted(call: Call) -> Option<Case> {
    let tried = |index| Case::new(&call, Limits::LARGEST, &mut Random::at(1, index));
    (0..100).map(tried).find(|case| case.stated().number == 0)
}

pub fn cases() -> Vec<Case> {
    let signed = |coefficient| [(false, coefficient), (true, coefficient)];
    let scaled =
        |(minus, coefficient)| (0..=SCALE).map(move |scale| spelled(minus, coefficient, scale));
    let numbers = coefficients().flat_map(signed).flat_map(scaled);
    numbers.flat_map(calls).filter_map(accepted).collect()
}
