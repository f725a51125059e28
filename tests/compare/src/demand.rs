//! Demand 3 tried: samples inferred one behind the other, readers checked
//! against what they reach, and those that pass run over what it admits. None
//! gets stuck, and what each gives is admitted by its result shape.

use crate::case::ANSWER;
use crate::library::{Callee, Lent};
use crate::sets;
use oracle::generate::{self, Random};
use oracle::json;
use oracle::limits::Limits;
use oracle::operations::Operation;
use oracle::shape::admits;
use oracle::text_forms::read_shape;

/// How often each thing came.
#[derive(Default)]
pub struct Tally {
    pub accepted: usize,
    pub refused: usize,
    pub passed: usize,
    pub not_passed: usize,
    /// runs of readers that passed, on documents that are admitted, by number
    pub runs: [usize; 16],
    pub not_admitted: usize,
}

impl Tally {
    pub fn run(&self) -> usize {
        self.runs.iter().sum()
    }
}

/// The calls of one host, all with one set.
pub struct Host {
    pub callee: Callee,
    pub limits: Limits,
    pub random: Random,
}

/// What a call left: its number, and the output's front as long as the
/// answer's third word says.
pub struct Outcome {
    pub number: u64,
    pub written: Vec<u8>,
    length: usize,
    pub yes: bool,
}

/// Which buffers are lent.
#[derive(Clone, Copy)]
pub enum Room {
    /// of any length
    Any,
    /// long enough
    Enough(usize),
}

/// Tries the demand with the samples at an index. Gives what is wrong.
pub fn trial(callee: Callee, seed: u64, index: u64, tally: &mut Tally) -> Result<(), String> {
    let random = Random::at(!seed, index);
    let limits = match index % 40 {
        0 => Limits::LARGEST,
        _ => sets::at(seed, index),
    };
    let mut host = Host {
        callee,
        limits,
        random,
    };
    let samples = match index % 40 {
        0 => vec![long_list(&mut host.random), b"[]".to_vec()],
        _ => generate::samples(seed, index, &limits),
    };
    let (reached, mut accepted) = host.chain(&samples, Room::Any);
    tally.accepted += accepted.len();
    tally.refused += samples.len() - accepted.len();
    for sample in &accepted {
        if !host.admits(&reached, sample) {
            return Err("the shape reached does not admit a sample".into());
        }
    }
    let enough = Room::Enough(reached.len());
    for end in (1..accepted.len()).rev() {
        accepted.swap(end, host.random.below(end + 1));
    }
    let (again, all) = host.chain(&accepted, enough);
    if again != reached || all.len() != accepted.len() {
        return Err("another order comes to another shape".into());
    }
    let shape = read_shape(&again, &limits).map_err(|_| "the shape reached is none")?;
    let mut trial = generate::trial(seed, index, &shape, &limits);
    trial.readers.extend(demanding(index));
    trial.documents.extend(accepted);
    for reader in &trial.readers {
        host.try_reader(reader, &again, &trial.documents, tally)?;
    }
    Ok(())
}

/// Whether a result is admitted that is too long to be a document of a call:
/// the second implementation says so.
fn is_long_and_admitted(limits: &Limits, shape: &[u8], result: &[u8]) -> bool {
    let shape = read_shape(shape, limits);
    let value = json::read(result, limits);
    let admitted = matches!((shape, value), (Ok(shape), Ok(value)) if admits(&shape, &value));
    admitted && result.len() > limits.text_bytes
}

/// A list that takes a reader to the limits of steps and of values.
fn long_list(random: &mut Random) -> Vec<u8> {
    let ones = vec!["1"; random.between(20, 400)];
    format!("[{}]", ones.join(",")).into_bytes()
}

/// Readers that pass against such a list's shape and go past a limit.
fn demanding(index: u64) -> Vec<Vec<u8>> {
    match index % 40 {
        0 => vec![
            b"(each (it 0) (each (it 1) (int (it 0))))".to_vec(),
            b"(each (it 0) (keep (it 1)))".to_vec(),
        ],
        _ => Vec::new(),
    }
}

impl Host {
    /// The text that samples reach from `(shape)`, and the samples accepted.
    fn chain(&mut self, samples: &[Vec<u8>], room: Room) -> (Vec<u8>, Vec<Vec<u8>>) {
        self.chain_from(b"(shape)\n", samples, room)
    }

    /// The same from any shape text.
    pub fn chain_from(
        &mut self,
        text: &[u8],
        samples: &[Vec<u8>],
        room: Room,
    ) -> (Vec<u8>, Vec<Vec<u8>>) {
        let mut reached = text.to_vec();
        let mut accepted = Vec::new();
        for sample in samples {
            let outcome = self.call(Operation::Infer, &reached, sample, room);
            if outcome.number == 0 {
                reached = outcome.written;
                accepted.push(sample.clone());
            }
        }
        (reached, accepted)
    }

    /// Checks a reader, and where it passes runs it over the documents.
    fn try_reader(
        &mut self,
        reader: &[u8],
        shape: &[u8],
        documents: &[Vec<u8>],
        tally: &mut Tally,
    ) -> Result<(), String> {
        let checked = self.call(Operation::Check, reader, shape, Room::Any);
        if checked.number != 0 {
            tally.not_passed += 1;
            return Ok(());
        }
        tally.passed += 1;
        for document in documents {
            match self.admits(shape, document) {
                true => self.try_run(reader, document, &checked.written, tally)?,
                false => tally.not_admitted += 1,
            }
        }
        Ok(())
    }

    /// Runs a reader that passed on a document that is admitted.
    fn try_run(
        &mut self,
        reader: &[u8],
        document: &[u8],
        result_shape: &[u8],
        tally: &mut Tally,
    ) -> Result<(), String> {
        let mut ran = self.call(Operation::Run, reader, document, Room::Any);
        tally.runs[(ran.number as usize).min(15)] += 1;
        if ran.number == 15 {
            ran = self.call(Operation::Run, reader, document, Room::Enough(ran.length));
            if ran.number != 0 {
                return Err("an output as long as is told is refused".into());
            }
        }
        match ran.number {
            0 if self.admits(result_shape, &ran.written) => Ok(()),
            0 if is_long_and_admitted(&self.limits, result_shape, &ran.written) => Ok(()),
            0 => Err("the result shape does not admit a result".into()),
            1 | 13 | 14 => Ok(()),
            number => Err(format!("a reader that passed comes to {number}")),
        }
    }

    fn admits(&mut self, shape: &[u8], document: &[u8]) -> bool {
        let said = self.call(Operation::Admits, shape, document, Room::Enough(0));
        said.number == 0 && said.yes
    }

    pub fn call(
        &mut self,
        operation: Operation,
        first: &[u8],
        second: &[u8],
        room: Room,
    ) -> Outcome {
        let (output, answer) = match room {
            Room::Any => (self.output_length(), self.answer_length()),
            Room::Enough(length) => (length + self.random.below(9), ANSWER),
        };
        let mut output = vec![0xA5; output];
        let mut answer = vec![0xA5; answer];
        let lent = Lent {
            limits: self.limits,
            first,
            second,
            output: &mut output,
            answer: &mut answer,
            null: self.random.once_in(2),
        };
        let number = (self.callee)(operation, lent);
        let word = |at: usize| match answer.get(at..at + 8).map(<[u8; 8]>::try_from) {
            Some(Ok(bytes)) if number != 1 => u64::from_le_bytes(bytes) as usize,
            _ => 0,
        };
        let length = word(16);
        output.truncate(length);
        Outcome {
            number,
            written: output,
            length,
            yes: word(32) == 1,
        }
    }

    fn output_length(&mut self) -> usize {
        match self.random.below(8) {
            0 => self.random.below(64),
            1 => self.random.below(1024),
            _ => self.limits.text_bytes,
        }
    }

    fn answer_length(&mut self) -> usize {
        match self.random.below(24) {
            0 => self.random.below(ANSWER),
            1 => ANSWER + self.random.below(9),
            _ => ANSWER,
        }
    }
}
