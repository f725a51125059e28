//! The library's calls, as `include/runvestol.h` declares them. A further
//! operation is an entry of `OPERATIONS`.

use oracle::limits::Limits;
use oracle::operations::Operation;

// The calls, as build.rs takes them from the header.
include!(concat!(env!("OUT_DIR"), "/calls.rs"));

/// A call by what it is lent: a text and an output, two texts and an output,
/// or two texts; always a set in front and an answer buffer behind.
enum Call {
    Rewrites(
        unsafe extern "C" fn(
            u64,
            u64,
            u64,
            u64,
            *const u8,
            usize,
            *mut u8,
            usize,
            *mut u8,
            usize,
        ) -> u64,
    ),
    Writes(
        unsafe extern "C" fn(
            u64,
            u64,
            u64,
            u64,
            *const u8,
            usize,
            *const u8,
            usize,
            *mut u8,
            usize,
            *mut u8,
            usize,
        ) -> u64,
    ),
    Says(
        unsafe extern "C" fn(
            u64,
            u64,
            u64,
            u64,
            *const u8,
            usize,
            *const u8,
            usize,
            *mut u8,
            usize,
        ) -> u64,
    ),
}

/// An operation that the library has.
pub struct Known {
    pub operation: Operation,
    /// how many calls are made of it where no count is given
    pub calls: u64,
    /// the numbers that its call gives
    pub numbers: &'static [usize],
    call: Call,
}

pub const OPERATIONS: [Known; 7] = [
    Known {
        operation: Operation::Plain,
        calls: 200_000,
        numbers: &[0, 1, 2, 3, 4, 5, 6, 15, 18],
        call: Call::Rewrites(runvestol_plain),
    },
    Known {
        operation: Operation::Infer,
        calls: 60_000,
        numbers: &[0, 1, 2, 3, 4, 5, 6, 7, 8, 11, 15, 18],
        call: Call::Writes(runvestol_infer),
    },
    Known {
        operation: Operation::Join,
        calls: 60_000,
        numbers: &[0, 1, 2, 7, 8, 11, 15, 18],
        call: Call::Writes(runvestol_join),
    },
    Known {
        operation: Operation::Below,
        calls: 60_000,
        numbers: &[0, 1, 2, 7, 8, 18],
        call: Call::Says(runvestol_below),
    },
    Known {
        operation: Operation::Admits,
        calls: 60_000,
        numbers: &[0, 1, 2, 3, 4, 5, 6, 7, 8, 18],
        call: Call::Says(runvestol_admits),
    },
    Known {
        operation: Operation::Check,
        calls: 120_000,
        numbers: &[0, 1, 2, 7, 8, 9, 10, 11, 15, 18],
        call: Call::Writes(runvestol_check),
    },
    Known {
        operation: Operation::Run,
        calls: 120_000,
        numbers: &[0, 1, 2, 3, 4, 5, 6, 7, 8, 12, 13, 14, 15, 18],
        call: Call::Writes(runvestol_run),
    },
];

impl Known {
    /// Whether it answers yes or no, and writes nothing.
    pub fn says(&self) -> bool {
        matches!(self.call, Call::Says(_))
    }
}

/// What a call is handed. A slice may be empty with any pointer, also null.
pub struct Lent<'a> {
    pub limits: Limits,
    pub first: &'a [u8],
    pub second: &'a [u8],
    pub output: &'a mut [u8],
    pub answer: &'a mut [u8],
    /// hands on null for what is empty
    pub null: bool,
}

/// Makes a call and gives the number that it returns.
pub type Callee = fn(Operation, Lent) -> u64;

pub fn call(operation: Operation, lent: Lent) -> u64 {
    let mut known = OPERATIONS.iter();
    let Some(known) = known.find(|known| known.operation == operation) else {
        unreachable!("the library has no {}", operation.name());
    };
    let (bytes, values) = (lent.limits.text_bytes as u64, lent.limits.values as u64);
    let (deep, steps) = (lent.limits.nesting as u64, lent.limits.steps);
    let a = read(lent.first, lent.null);
    let b = read(lent.second, lent.null);
    let out = written(lent.output, lent.null);
    let answer = written(lent.answer, lent.null);
    // SAFETY: each pointer and length is a slice's, or null and 0, the slices
    // that are written overlap nothing, and there is one thread.
    unsafe {
        match known.call {
            Call::Rewrites(call) => call(
                bytes, values, deep, steps, a.0, a.1, out.0, out.1, answer.0, answer.1,
            ),
            Call::Writes(call) => call(
                bytes, values, deep, steps, a.0, a.1, b.0, b.1, out.0, out.1, answer.0, answer.1,
            ),
            Call::Says(call) => call(
                bytes, values, deep, steps, a.0, a.1, b.0, b.1, answer.0, answer.1,
            ),
        }
    }
}

fn read(slice: &[u8], null: bool) -> (*const u8, usize) {
    match slice {
        [] if null => (std::ptr::null(), 0),
        slice => (slice.as_ptr(), slice.len()),
    }
}

fn written(slice: &mut [u8], null: bool) -> (*mut u8, usize) {
    match slice {
        [] if null => (std::ptr::null_mut(), 0),
        slice => (slice.as_mut_ptr(), slice.len()),
    }
}
