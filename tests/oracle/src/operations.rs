//! The seven operations and their answers.

use crate::check::check;
use crate::json;
use crate::limits::{Limits, Refusal};
use crate::plain;
use crate::run;
use crate::shape::{admits, below, join, shape_of, Shape};
use crate::text_forms::{read_reader, read_shape, write_shape, Form};
use crate::value::Value;

#[derive(Clone, Copy, Debug, PartialEq, Eq)]
pub enum Operation {
    Plain,
    Infer,
    Join,
    Below,
    Admits,
    Check,
    Run,
}

impl Operation {
    pub const ALL: [Operation; 7] = [
        Operation::Plain,
        Operation::Infer,
        Operation::Join,
        Operation::Below,
        Operation::Admits,
        Operation::Check,
        Operation::Run,
    ];

    pub fn name(self) -> &'static str {
        match self {
            Operation::Plain => "plain",
            Operation::Infer => "infer",
            Operation::Join => "join",
            Operation::Below => "below",
            Operation::Admits => "admits",
            Operation::Check => "check",
            Operation::Run => "run",
        }
    }

    pub fn named(name: &str) -> Option<Operation> {
        Operation::ALL
            .into_iter()
            .find(|known| known.name() == name)
    }
}

/// An answer; fields that a number doesn't use are 0 or false.
#[derive(Clone, Copy, Debug, Default, PartialEq, Eq)]
pub struct Answer {
    pub number: u8,
    pub text: u8,
    pub place: u64,
    pub length: u64,
    pub steps: u64,
    pub yes: bool,
}

/// The two texts of a call and its limits; `plain` has no second text.
#[derive(Clone, Copy, Debug)]
pub struct Texts<'a> {
    pub first: &'a [u8],
    pub second: &'a [u8],
    pub limits: &'a Limits,
}

/// Answers a call and writes to the front of `output` on success alone.
pub fn operate(operation: Operation, texts: Texts, output: &mut [u8]) -> Answer {
    let (answer, written) = outcome(operation, texts, output.len());
    output[..written.len()].copy_from_slice(&written);
    answer
}

/// The answer of a call with an output of that length, and what it writes.
pub fn outcome(operation: Operation, texts: Texts, output: usize) -> (Answer, Vec<u8>) {
    if !texts.limits.are_in_range() {
        return (numbered(18), Vec::new());
    }
    let result = match operation {
        Operation::Plain => plain(texts),
        Operation::Infer => infer(texts),
        Operation::Join => joined(texts),
        Operation::Below => is_below(texts),
        Operation::Admits => admitted(texts),
        Operation::Check => checked(texts),
        Operation::Run => ran(texts),
    };
    let (mut answer, written) = match result {
        Ok(done) => done,
        Err(answer) => return (answer, Vec::new()),
    };
    answer.length = written.len() as u64;
    if written.len() <= output {
        return (answer, written);
    }
    let short = Answer {
        number: 15,
        length: answer.length,
        ..Answer::default()
    };
    (short, Vec::new())
}

/// What an operation gives before its output's length is judged.
type Done = Result<(Answer, Vec<u8>), Answer>;

fn plain(texts: Texts) -> Done {
    let value = document(1, texts.first, texts.limits)?;
    Ok((Answer::default(), plain::document(&value)))
}

fn infer(texts: Texts) -> Done {
    let start = shape(1, texts.first, texts.limits)?;
    let sample = document(2, texts.second, texts.limits)?;
    written(&join(start, shape_of(&sample)), texts.limits)
}

fn joined(texts: Texts) -> Done {
    let (first, second) = two_shapes(texts)?;
    written(&join(first, second), texts.limits)
}

fn is_below(texts: Texts) -> Done {
    let (first, second) = two_shapes(texts)?;
    Ok((said(below(&first, &second)), Vec::new()))
}

fn admitted(texts: Texts) -> Done {
    let shape = shape(1, texts.first, texts.limits)?;
    let value = document(2, texts.second, texts.limits)?;
    Ok((said(admits(&shape, &value)), Vec::new()))
}

fn checked(texts: Texts) -> Done {
    let reader = reader(texts.first, texts.limits)?;
    let given = shape(2, texts.second, texts.limits)?;
    let result = check(&reader, given).map_err(|refusal| refused(1, refusal))?;
    written(&result, texts.limits)
}

fn ran(texts: Texts) -> Done {
    let reader = reader(texts.first, texts.limits)?;
    let value = document(2, texts.second, texts.limits)?;
    let result = run::run(&reader, value, texts.limits);
    let (result, steps) = result.map_err(|refusal| refused(1, refusal))?;
    if !run::fits(&result, texts.limits) {
        return Err(numbered(14));
    }
    let answer = Answer {
        steps,
        ..Answer::default()
    };
    Ok((answer, plain::document(&result)))
}

fn two_shapes(texts: Texts) -> Result<(Shape, Shape), Answer> {
    let first = shape(1, texts.first, texts.limits)?;
    Ok((first, shape(2, texts.second, texts.limits)?))
}

fn document(text: u8, bytes: &[u8], limits: &Limits) -> Result<Value, Answer> {
    size(text, bytes, limits)?;
    json::read(bytes, limits).map_err(|refusal| refused(text, refusal))
}

fn shape(text: u8, bytes: &[u8], limits: &Limits) -> Result<Shape, Answer> {
    size(text, bytes, limits)?;
    read_shape(bytes, limits).map_err(|refusal| refused(text, refusal))
}

fn reader(bytes: &[u8], limits: &Limits) -> Result<Form, Answer> {
    size(1, bytes, limits)?;
    read_reader(bytes, limits).map_err(|refusal| refused(1, refusal))
}

fn size(text: u8, bytes: &[u8], limits: &Limits) -> Result<(), Answer> {
    if bytes.len() <= limits.text_bytes {
        return Ok(());
    }
    Err(Answer {
        text,
        ..numbered(2)
    })
}

fn written(shape: &Shape, limits: &Limits) -> Done {
    match write_shape(shape, limits) {
        Some(bytes) => Ok((Answer::default(), bytes)),
        None => Err(numbered(11)),
    }
}

fn said(yes: bool) -> Answer {
    Answer {
        yes,
        ..Answer::default()
    }
}

/// The answer of a refusal that stands in no text.
pub fn numbered(number: u8) -> Answer {
    Answer {
        number,
        ..Answer::default()
    }
}

fn refused(text: u8, refusal: Refusal) -> Answer {
    Answer {
        number: refusal.number,
        text,
        place: refusal.place as u64,
        ..Answer::default()
    }
}
