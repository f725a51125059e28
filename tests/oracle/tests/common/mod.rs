//! Calls with the paper's limits and an output that is long enough.

// Every test file takes what it needs of these.
#![allow(dead_code)]

use oracle::limits::Limits;
use oracle::operations::{outcome, Answer, Operation, Texts};

pub type Bytes<'a> = &'a [u8];

pub fn ask(operation: Operation, first: Bytes, second: Bytes) -> (Answer, Vec<u8>) {
    ask_at(&Limits::LARGEST, operation, first, second)
}

/// The same at other limits.
pub fn ask_at(
    limits: &Limits,
    operation: Operation,
    first: Bytes,
    second: Bytes,
) -> (Answer, Vec<u8>) {
    let texts = Texts {
        first,
        second,
        limits,
    };
    outcome(operation, texts, usize::MAX)
}

fn shown(first: Bytes, second: Bytes) -> String {
    let short = |text: Bytes| text.escape_ascii().to_string().chars().take(200).collect();
    let texts: [String; 2] = [short(first), short(second)];
    texts.join(" and ")
}

/// The call writes this, and takes these steps.
#[track_caller]
pub fn writes_in(operation: Operation, first: Bytes, second: Bytes, wanted: Bytes, steps: u64) {
    let (answer, written) = ask(operation, first, second);
    let expected = Answer {
        length: wanted.len() as u64,
        steps,
        ..Answer::default()
    };
    let wanted = wanted.escape_ascii().to_string();
    let written = written.escape_ascii().to_string();
    assert_eq!(
        (answer, written),
        (expected, wanted),
        "{}",
        shown(first, second)
    );
}

/// The call writes this.
#[track_caller]
pub fn writes(operation: Operation, first: Bytes, second: Bytes, wanted: Bytes) {
    writes_in(operation, first, second, wanted, 0);
}

/// The call is refused with a number, at a text and a place.
#[track_caller]
pub fn refuses(operation: Operation, first: Bytes, second: Bytes, refusal: (u8, u8, u64)) {
    let (answer, written) = ask(operation, first, second);
    let (number, text, place) = refusal;
    let expected = Answer {
        number,
        text,
        place,
        ..Answer::default()
    };
    assert_eq!(answer, expected, "{}", shown(first, second));
    assert!(written.is_empty());
}

/// The call says yes or no and writes nothing.
#[track_caller]
pub fn says(operation: Operation, first: Bytes, second: Bytes, yes: bool) {
    let (answer, written) = ask(operation, first, second);
    let expected = Answer {
        yes,
        ..Answer::default()
    };
    assert_eq!(answer, expected, "{}", shown(first, second));
    assert!(written.is_empty());
}

#[track_caller]
pub fn plain_writes(document: Bytes, wanted: Bytes) {
    writes(Operation::Plain, document, b"", wanted);
}

#[track_caller]
pub fn plain_refuses(document: Bytes, number: u8, place: u64) {
    refuses(Operation::Plain, document, b"", (number, 1, place));
}

/// The shape text of a document inferred from nothing.
#[track_caller]
pub fn infers(document: Bytes, wanted: Bytes) {
    writes(Operation::Infer, b"(shape)\n", document, wanted);
}

#[track_caller]
pub fn runs(reader: Bytes, document: Bytes, wanted: Bytes, steps: u64) {
    writes_in(Operation::Run, reader, document, wanted, steps);
}

#[track_caller]
pub fn checks(reader: Bytes, shape: Bytes, wanted: Bytes) {
    writes(Operation::Check, reader, shape, wanted);
}
