//! Random calls, chosen so that every refusal and every success comes up
//! often. A seed and an index give the same call every time.

mod borders;
mod characters;
mod damage;
mod documents;
mod forms;
mod large;
mod merges;
mod numbers;
mod pieces;
mod random;
mod readers;
mod shapes;
mod spelling;
mod sweeps;
mod values;

pub use random::Random;

use crate::json;
use crate::limits::Limits;
use crate::operations::{outcome, Operation, Texts};
use crate::shape::{join, shape_of, Shape};
use crate::value::Value;

/// A call: its operation, texts and output length.
#[derive(Clone, Debug)]
pub struct Call {
    pub operation: Operation,
    pub first: Vec<u8>,
    pub second: Vec<u8>,
    pub output: usize,
}

/// The call at an index of a seed's row of calls.
pub fn call(seed: u64, index: u64, operation: Operation, limits: &Limits) -> Call {
    let mut source = Source::at(seed, index, limits);
    let (first, second) = source.texts(operation);
    source.call(operation, first, second)
}

/// The calls at an index: one, or a row of calls that go over one text of it
/// place by place.
pub fn calls(seed: u64, index: u64, operation: Operation, limits: &Limits) -> Vec<Call> {
    let mut source = Source::at(seed, index, limits);
    let (first, second) = source.texts(operation);
    let swept = match operation != Operation::Plain && source.random.once_in(2) {
        true => pairs(vec![first], source.sweep(second)),
        false => pairs(source.sweep(first), vec![second]),
    };
    let calls = swept.into_iter();
    calls
        .map(|(first, second)| source.call(operation, first, second))
        .collect()
}

/// The samples at an index of a seed: documents to infer a shape from, one
/// behind the other.
pub fn samples(seed: u64, index: u64, limits: &Limits) -> Vec<Vec<u8>> {
    Source::at(seed, index, limits).row_of_samples()
}

/// Readers that mostly pass against a shape, and documents that it mostly
/// admits.
pub struct Trial {
    pub readers: Vec<Vec<u8>>,
    pub documents: Vec<Vec<u8>>,
}

/// The trial of a shape at an index of a seed.
pub fn trial(seed: u64, index: u64, shape: &Shape, limits: &Limits) -> Trial {
    let mut source = Source::at(seed, index, limits);
    let mut readers = vec![source.reader_on(shape), source.large_reader_on(shape)];
    let mut documents = vec![source.any_document()];
    for _ in 0..3 {
        readers.push(source.passing_reader_on(shape));
        let witness = source.witness(shape).unwrap_or(Value::Null);
        let relative = source.relative(&witness);
        documents.push(source.spell_document(&witness));
        documents.push(source.spell_document(&relative));
    }
    Trial { readers, documents }
}

/// Each first text with each second one.
fn pairs(firsts: Vec<Vec<u8>>, seconds: Vec<Vec<u8>>) -> Vec<(Vec<u8>, Vec<u8>)> {
    let with_seconds = |first: &Vec<u8>| {
        let pair = |second: &Vec<u8>| (first.clone(), second.clone());
        seconds.iter().map(pair).collect::<Vec<_>>()
    };
    firsts.iter().flat_map(with_seconds).collect()
}

/// The random numbers of one call, and the limits to go near.
pub(crate) struct Source {
    pub random: Random,
    pub limits: Limits,
}

impl Source {
    fn at(seed: u64, index: u64, limits: &Limits) -> Source {
        Source {
            random: Random::at(seed, index),
            limits: *limits,
        }
    }

    /// A call of some texts, with an output around the length needed.
    fn call(&mut self, operation: Operation, first: Vec<u8>, second: Vec<u8>) -> Call {
        let texts = Texts {
            first: &first,
            second: &second,
            limits: &self.limits,
        };
        let (answer, _) = outcome(operation, texts, usize::MAX);
        Call {
            operation,
            output: self.output(answer.length as usize),
            first,
            second,
        }
    }

    fn texts(&mut self, operation: Operation) -> (Vec<u8>, Vec<u8>) {
        match operation {
            Operation::Plain => (self.any_document(), Vec::new()),
            Operation::Infer => self.shape_and_document(true),
            Operation::Admits => self.shape_and_document(false),
            Operation::Join => self.two_shapes(true),
            Operation::Below => self.two_shapes(false),
            Operation::Check => self.reader_and_shape(),
            Operation::Run => self.reader_and_document(),
        }
    }

    /// An output length around the one needed.
    fn output(&mut self, needed: usize) -> usize {
        match self.random.below(20) {
            0..=4 => needed.saturating_sub(1),
            5..=7 => needed,
            8 => needed + 1,
            9 => self.random.below(needed + 1),
            10 => 0,
            11 => 300,
            _ => needed + self.random.below(64),
        }
    }

    fn shape_and_document(&mut self, written: bool) -> (Vec<u8>, Vec<u8>) {
        match self.random.below(100) {
            0..=11 => (self.any_shape(), self.right_document()),
            12..=39 => (self.right_shape(), self.any_document()),
            40..=47 if written => self.past_written_by_document(),
            40..=44 => (self.right_shape(), self.right_document()),
            45..=51 => self.shape_and_witness(),
            52..=55 => (self.any_shape(), self.any_document()),
            56..=58 => self.shape_and_merging_document(),
            59..=64 => self.shape_and_document_at_a_limit(),
            _ => self.related(),
        }
    }

    /// Two texts of which one is at a limit of its own.
    fn shape_and_document_at_a_limit(&mut self) -> (Vec<u8>, Vec<u8>) {
        match self.random.below(6) {
            0 | 1 => (self.right_shape(), self.number_document()),
            2 => (self.right_shape(), self.deep_document()),
            3 => (self.right_shape(), self.many_values()),
            4 => (self.deep_shape_text(), self.right_document()),
            _ => (self.many_forms_shape(), self.right_document()),
        }
    }

    /// A shape reached from some samples, and a document like them.
    fn related(&mut self) -> (Vec<u8>, Vec<u8>) {
        let sample = self.value();
        let shape = self.shape_like(&sample);
        let document = match self.random.below(3) {
            0 => sample,
            _ => self.relative(&sample),
        };
        (self.spell_shape(&shape), self.spell_document(&document))
    }

    /// The join of the shapes of a value and of some relatives of it.
    fn shape_like(&mut self, sample: &Value) -> Shape {
        let mut shape = shape_of(sample);
        for _ in 0..self.random.below(4) {
            let relative = self.relative(sample);
            shape = join(shape, shape_of(&relative));
        }
        shape
    }

    fn shape_and_witness(&mut self) -> (Vec<u8>, Vec<u8>) {
        let shape = self.shape();
        let witness = self.witness(&shape).unwrap_or(Value::Null);
        (self.spell_shape(&shape), self.spell_document(&witness))
    }

    fn two_shapes(&mut self, written: bool) -> (Vec<u8>, Vec<u8>) {
        match self.random.below(100) {
            0..=14 => (self.any_shape(), self.right_shape()),
            15..=29 => (self.right_shape(), self.any_shape()),
            30..=39 if written => self.past_written_by_shape(),
            30..=39 => (self.right_shape(), self.right_shape()),
            40..=44 => (self.any_shape(), self.any_shape()),
            45..=69 => self.two_near_shapes(),
            70..=72 => self.two_merging_shapes(),
            _ => self.two_ordered_shapes(),
        }
    }

    /// Two shapes of which the first is mostly below the second.
    fn two_ordered_shapes(&mut self) -> (Vec<u8>, Vec<u8>) {
        let first = self.shape();
        let second = join(first.clone(), self.near_shape(&first));
        let (first, second) = match self.random.below(5) {
            0 => (second, first),
            _ => (first, second),
        };
        (self.spell_shape(&first), self.spell_shape(&second))
    }

    fn two_near_shapes(&mut self) -> (Vec<u8>, Vec<u8>) {
        let first = self.shape();
        let second = self.near_shape(&first);
        (self.spell_shape(&first), self.spell_shape(&second))
    }

    fn reader_and_shape(&mut self) -> (Vec<u8>, Vec<u8>) {
        match self.random.below(100) {
            0..=19 => (self.any_reader(), self.right_shape()),
            20..=29 => (self.right_reader(), self.any_shape()),
            30..=39 => self.past_written_by_reader(),
            40..=44 => (self.any_reader(), self.any_shape()),
            45..=47 => self.large_reader_and_shape(),
            _ => {
                let sample = self.value();
                let shape = self.shape_like(&sample);
                let reader = self.reader_on(&shape);
                (reader, self.spell_shape(&shape))
            }
        }
    }

    /// Hundreds of forms, against a few or against hundreds.
    fn large_reader_and_shape(&mut self) -> (Vec<u8>, Vec<u8>) {
        let shape = match self.random.once_in(2) {
            true => self.merging_shape(),
            false => self.shape(),
        };
        (self.large_reader_on(&shape), self.spell_shape(&shape))
    }

    fn reader_and_document(&mut self) -> (Vec<u8>, Vec<u8>) {
        match self.random.below(100) {
            0..=14 => (self.any_reader(), self.right_document()),
            15..=33 => self.reader_and_any_document(),
            34..=41 => self.past_result(),
            42..=46 => self.past_steps(),
            47..=48 => self.large_reader_and_document(),
            49 => self.long_result(),
            50..=54 => self.reader_and_document_at_a_limit(),
            _ => {
                let sample = self.value();
                let shape = self.shape_like(&sample);
                let reader = self.reader_on(&shape);
                (reader, self.spell_document(&sample))
            }
        }
    }

    /// Hundreds of forms, on a few values or on hundreds.
    fn large_reader_and_document(&mut self) -> (Vec<u8>, Vec<u8>) {
        let shape = match self.random.once_in(2) {
            true => self.merging_shape(),
            false => self.shape(),
        };
        let document = self.witness(&shape).unwrap_or(Value::Null);
        (self.large_reader_on(&shape), self.spell_document(&document))
    }

    /// A right reader, and a document at a limit of its own.
    fn reader_and_document_at_a_limit(&mut self) -> (Vec<u8>, Vec<u8>) {
        let reader = self.right_reader();
        let document = match self.random.below(5) {
            0 => self.deep_document(),
            1 => self.many_values(),
            2 => {
                let mut document = self.right_document();
                let length = self.border_length();
                self.pad(&mut document, length);
                document
            }
            _ => self.number_document(),
        };
        (reader, document)
    }

    /// A reader that fits the document wherever the document can be read.
    fn reader_and_any_document(&mut self) -> (Vec<u8>, Vec<u8>) {
        let document = self.any_document();
        let shape = match json::read(&document, &self.limits) {
            Ok(value) => shape_of(&value),
            Err(_) => self.shape(),
        };
        (self.reader_on(&shape), document)
    }

    fn right_reader(&mut self) -> Vec<u8> {
        let shape = self.shape();
        self.reader_on(&shape)
    }

    fn right_shape(&mut self) -> Vec<u8> {
        let shape = self.shape();
        self.spell_shape(&shape)
    }

    fn right_document(&mut self) -> Vec<u8> {
        let value = self.value();
        self.spell_document(&value)
    }
}
