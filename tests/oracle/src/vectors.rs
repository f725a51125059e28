//! Vector files: one call and its expected outcome a row, tab-separated.

use crate::limits::Limits;
use crate::operations::{numbered, outcome, Answer, Operation, Texts};
use std::fmt::{self, Display, Formatter};

/// The comment that heads a file of rows, which have columns for their limits
/// where these aren't the largest.
pub fn header(limits: &Limits, seed: u64) -> String {
    let columns = [
        "# operation",
        "text 1 (hex)",
        "text 2 (hex)",
        "output length",
        "number",
        "text",
        "place",
        "length",
        "steps",
        "yes",
        "bytes written (hex)",
        "text bytes",
        "values and forms",
        "nesting",
        "steps",
    ];
    let count = if *limits == Limits::LARGEST { 11 } else { 15 };
    format!(
        "{}; - is empty or absent; seed {seed}",
        columns[..count].join("\t")
    )
}

/// What a row's call is lent besides its texts and its output.
#[derive(Clone, Copy, Debug, PartialEq, Eq)]
pub enum Lent {
    AsPublished,
    /// a work slice one word short
    Short,
    /// an answer buffer of 39 bytes
    Answer39,
}

impl Lent {
    const ALL: [Lent; 3] = [Lent::AsPublished, Lent::Short, Lent::Answer39];

    fn word(self) -> &'static str {
        match self {
            Lent::AsPublished => "-",
            Lent::Short => "short",
            Lent::Answer39 => "answer39",
        }
    }

    /// From the columns behind the set: `m`, which none of the operations
    /// has, and what is lent; or none of them.
    fn parse(columns: &[&str]) -> Option<Lent> {
        match columns {
            [] => Some(Lent::AsPublished),
            ["-", word] => Lent::ALL.into_iter().find(|lent| lent.word() == *word),
            _ => None,
        }
    }
}

/// A call with its outcome.
#[derive(Clone, Debug, PartialEq, Eq)]
pub struct Row {
    pub operation: Operation,
    pub first: Vec<u8>,
    pub second: Vec<u8>,
    pub output: usize,
    pub answer: Answer,
    pub written: Vec<u8>,
    pub limits: Limits,
    pub lent: Lent,
}

impl Row {
    pub fn parse(line: &str) -> Option<Row> {
        let columns: Vec<&str> = line.split('\t').collect();
        let number = |index: usize| columns.get(index)?.parse::<u64>().ok();
        let behind = columns.get(11..)?;
        let (set, lent) = behind.split_at(behind.len().min(4));
        let limits = Limits::parse(set)?;
        let lent = Lent::parse(lent)?;
        Some(Row {
            operation: Operation::named(columns[0])?,
            first: from_hex(columns[1])?,
            second: from_hex(columns[2])?,
            output: usize::try_from(number(3)?).ok()?,
            answer: Answer {
                number: u8::try_from(number(4)?).ok()?,
                text: u8::try_from(number(5)?).ok()?,
                place: number(6)?,
                length: number(7)?,
                steps: number(8)?,
                yes: match number(9)? {
                    0 => false,
                    1 => true,
                    _ => return None,
                },
            },
            written: from_hex(columns[10])?,
            limits,
            lent,
        })
    }

    /// The same call with the outcome that it has here.
    pub fn answered(&self) -> Row {
        let texts = Texts {
            first: &self.first,
            second: &self.second,
            limits: &self.limits,
        };
        let (answer, written) = match self.limits.are_in_range() && self.lent != Lent::AsPublished {
            true => (numbered(1), Vec::new()),
            false => outcome(self.operation, texts, self.output),
        };
        Row {
            answer,
            written,
            ..self.clone()
        }
    }
}

impl Display for Row {
    fn fmt(&self, to: &mut Formatter) -> fmt::Result {
        let answer = &self.answer;
        let first = to_hex(&self.first);
        let second = to_hex(&self.second);
        write!(to, "{}\t{first}\t{second}\t", self.operation.name())?;
        write!(to, "{}\t{}\t{}\t", self.output, answer.number, answer.text)?;
        write!(to, "{}\t{}\t", answer.place, answer.length)?;
        write!(to, "{}\t{}\t", answer.steps, u8::from(answer.yes))?;
        write!(to, "{}", to_hex(&self.written))?;
        let limits = &self.limits;
        if *limits != Limits::LARGEST || self.lent != Lent::AsPublished {
            write!(to, "\t{}\t{}", limits.text_bytes, limits.values)?;
            write!(to, "\t{}\t{}", limits.nesting, limits.steps)?;
        }
        if self.lent != Lent::AsPublished {
            write!(to, "\t-\t{}", self.lent.word())?;
        }
        Ok(())
    }
}

/// Compares every row of a file's text; gives how many passed and failed.
pub fn compare(text: &str) -> (usize, usize) {
    let (mut passed, mut failed) = (0, 0);
    for line in text.lines() {
        if line.is_empty() || line.starts_with('#') {
            continue;
        }
        match Row::parse(line).map(|row| (row.answered(), row)) {
            Some((here, row)) if here == row => passed += 1,
            Some((here, _)) => {
                failed += 1;
                println!("expected {line}\nhere     {here}");
            }
            None => {
                failed += 1;
                println!("no row   {line}");
            }
        }
    }
    (passed, failed)
}

/// Hexadecimal digits, or `-` for nothing.
pub fn to_hex(bytes: &[u8]) -> String {
    if bytes.is_empty() {
        return "-".to_string();
    }
    let digit = |value: u8| char::from(b"0123456789abcdef"[usize::from(value)]);
    let pairs = bytes.iter().flat_map(|byte| [byte >> 4, byte & 15]);
    pairs.map(digit).collect()
}

pub fn from_hex(text: &str) -> Option<Vec<u8>> {
    if text == "-" {
        return Some(Vec::new());
    }
    let digits: Option<Vec<u32>> = text.chars().map(|digit| digit.to_digit(16)).collect();
    let digits = digits.filter(|digits| digits.len() % 2 == 0)?;
    Some(
        digits
            .chunks(2)
            .map(|pair| (pair[0] * 16 + pair[1]) as u8)
            .collect(),
    )
}
