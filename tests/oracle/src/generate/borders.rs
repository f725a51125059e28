//! Pairs of texts that are right and whose outcome lies at the border of 11,
//! 13 or 14.

use super::spelling::push;
use super::Source;
use crate::limits::Limits;
use crate::plain;
use crate::shape::{Kinds, Member, Shape};
use crate::text_forms::write_shape;
use crate::value::{Number, Value};
use std::rc::Rc;

impl Source {
    /// A shape of exactly so much nesting.
    pub fn deep_shape(&mut self, depth: usize) -> Shape {
        let mut shape = Shape::of_kinds(self.random.pick(&[Kinds::NONE, Kinds::INT, Kinds::REC]));
        let lists = self.random.below(3);
        for _ in 1..depth {
            shape = match self.random.below(3) < lists {
                true => Shape::list(shape),
                false => Shape::record(vec![Member {
                    name: b"a".to_vec(),
                    shape,
                }]),
            };
        }
        shape
    }

    /// A record's shape of so many forms, with names of at least a length.
    pub fn wide_shape(&mut self, forms: usize, name_length: usize) -> Shape {
        let kinds = self.random.pick(&[Kinds::NONE, Kinds::INT, Kinds::NULL]);
        let members = (1..forms).map(|index| Member {
            name: format!("{index:0>name_length$}").into_bytes(),
            shape: Shape::of_kinds(kinds),
        });
        Shape::record(members.collect())
    }

    /// A record's shape whose text is exactly so long, if it can be.
    fn shape_of_length(&mut self, length: usize) -> Shape {
        let forms = self.random.between(2, self.limits.values);
        let each = length / forms;
        let mut shape = self.wide_shape(forms, each.saturating_sub(40).max(1));
        let lacking = length.saturating_sub(text_length(&shape));
        if let Some(last) = shape.members.last_mut() {
            last.name.resize(last.name.len() + lacking, b'z');
        }
        shape
    }

    /// A shape and a document whose join is at the border of 11.
    pub fn past_written_by_document(&mut self) -> (Vec<u8>, Vec<u8>) {
        let (shape, document) = match self.random.below(4) {
            0 => (Shape::default(), self.deep_document()),
            1 => {
                let count = self.random.near(self.limits.values, 2).saturating_sub(1);
                let member = |index| (format!("{index:x}").into_bytes(), Rc::new(Value::Null));
                let record = Value::Record((1..count).map(member).collect());
                (self.wide_shape(2, 4), self.spell_document(&record))
            }
            2 => {
                let shape = self.wide_shape_near_values();
                let document: [&[u8]; 4] = [b"null", b"{}", b"{\"y\":1}", b"[]"];
                (shape, self.random.pick(&document).to_vec())
            }
            _ => {
                // The document adds ` null`, or nothing at all.
                let near = self
                    .random
                    .near(self.limits.text_bytes.saturating_sub(2), 5);
                let shape = self.shape_of_length(near);
                let witness = self.witness(&shape).unwrap_or(Value::Null);
                let document = if self.random.once_in(2) {
                    Value::Null
                } else {
                    witness
                };
                (shape, plain::document(&document))
            }
        };
        (self.compact_shape(&shape), document)
    }

    fn wide_shape_near_values(&mut self) -> Shape {
        let count = self.random.near(self.limits.values.saturating_sub(1), 1);
        self.wide_shape(count, 1)
    }

    /// Two shapes whose join is at the border of 11.
    pub fn past_written_by_shape(&mut self) -> (Vec<u8>, Vec<u8>) {
        let (first, second) = match self.random.below(3) {
            0 => {
                let count = self.random.near(self.limits.values, 2);
                let part = self.random.below(count);
                let first = self.wide_shape(part + 1, 1);
                let mut second = self.wide_shape(count - part, 1);
                for member in &mut second.members {
                    member.name.insert(0, b'x');
                }
                (first, second)
            }
            1 => {
                let near = self
                    .random
                    .near(self.limits.text_bytes.saturating_sub(2), 5);
                let shape = self.shape_of_length(near);
                let other = self.random.pick(&[Kinds::NONE, Kinds::NULL, Kinds::BOOL]);
                (shape, Shape::of_kinds(other))
            }
            _ => {
                let depth = self.limits.nesting;
                (self.deep_shape(depth), self.deep_shape(depth))
            }
        };
        match self.random.once_in(2) {
            true => (self.compact_shape(&first), self.compact_shape(&second)),
            false => (self.compact_shape(&second), self.compact_shape(&first)),
        }
    }

    /// A reader and a shape whose result shape is at the border of 11.
    pub fn past_written_by_reader(&mut self) -> (Vec<u8>, Vec<u8>) {
        match self.random.below(5) {
            0 => {
                let depth = self.random.between(1, self.limits.nesting);
                let shape = self.deep_shape(depth);
                let around = self.random.near(self.limits.nesting - depth, 1);
                (self.wrapped_keep(around), self.compact_shape(&shape))
            }
            1 => {
                let copies = self.random.between(1, 4);
                let most = self.limits.values.saturating_sub(1) / copies;
                let forms = self.random.near(most, 1).max(1);
                let shape = self.wide_shape(forms, 1);
                (packed(copies, 0), self.compact_shape(&shape))
            }
            2 => self.results_that_wait(),
            3 => self.results_that_meet(),
            _ => {
                let copies = self.random.between(1, 3);
                let target = self.random.near(self.limits.text_bytes, 2);
                let length = target.saturating_sub(40) / copies;
                let shape = self.shape_of_length(length.saturating_sub(length / 16));
                let lacking = target.saturating_sub(packed_length(copies, &shape));
                (packed(copies, lacking), self.compact_shape(&shape))
            }
        }
    }

    /// The document's shape in every branch: the result is that shape, however
    /// many branches wait for each other.
    fn results_that_wait(&mut self) -> (Vec<u8>, Vec<u8>) {
        let levels = self.random.between(1, self.limits.nesting.max(4) - 3);
        let most = self.limits.values;
        let forms = match self.random.below(3) {
            0 => self.random.near(most, 1),
            1 => 401.min(most),
            _ => self.random.between(1, most),
        };
        let shape = self.wide_shape(forms, 1);
        let reader = match self.random.once_in(2) {
            true => nested(
                levels,
                |_| "(when rec (it 0) ".into(),
                "(keep (it 0))",
                " (keep (it 1)))",
            ),
            false => nested(
                levels,
                |level| format!("(when rec (it {level}) (keep (it 0)) "),
                &format!("(keep (it {levels}))"),
                ")",
            ),
        };
        (reader, self.compact_shape(&shape))
    }

    /// A member of the document's shape from every branch.
    fn results_that_meet(&mut self) -> (Vec<u8>, Vec<u8>) {
        let levels = self.random.between(1, self.limits.nesting.max(5) - 4);
        let most = self.limits.values.saturating_sub(1) / (levels + 1);
        let forms = self.random.near(most, 1).max(1);
        let shape = self.wide_shape(forms, 1);
        let reader = nested(
            levels,
            |level| format!("(if (yes) (pack \"{level}\" (keep (it 0))) "),
            "(pack \"x\" (keep (it 0)))",
            ")",
        );
        (reader, self.compact_shape(&shape))
    }

    /// A reader and a document whose result is at the border of 14.
    pub fn past_result(&mut self) -> (Vec<u8>, Vec<u8>) {
        match self.random.below(3) {
            0 => {
                let depth = self.random.between(1, self.limits.nesting);
                let around = self.random.near(self.limits.nesting - depth, 1);
                let document = [vec![b'['; depth], vec![b']'; depth]].concat();
                (self.wrapped_keep(around), document)
            }
            1 => {
                let copies = self.random.between(1, 4);
                let most = self.limits.values.saturating_sub(1) / copies;
                let count = self.random.near(most.saturating_sub(1), 1);
                (packed(copies, 0), self.row_of(count, &Value::Null))
            }
            _ => {
                // Each of the n elements gives them all: n * (n + 1) + 1 values.
                let root = (1..)
                    .take_while(|n| n * (n + 1) < self.limits.values)
                    .count();
                let count = self.random.near(root, 1);
                let reader = b"(each (it 0) (keep (it 1)))".to_vec();
                (reader, self.row_of(count, &Value::Bool(true)))
            }
        }
    }

    /// A long text many times over: mostly some thousands of bytes, at times
    /// millions.
    pub fn long_result(&mut self) -> (Vec<u8>, Vec<u8>) {
        let copies = self.random.below(self.limits.values - 1);
        let most = match self.random.once_in(10) {
            true => self.limits.text_bytes.saturating_sub(2 * copies + 16),
            false => 200,
        };
        let text = "t".repeat(self.random.below(most + 1));
        let ones = vec!["1"; copies].join(",");
        let document = format!("{{\"t\":\"{text}\",\"l\":[{ones}]}}");
        let reader = b"(each (field \"l\" (it 0)) (text (field \"t\" (it 1))))".to_vec();
        (reader, document.into_bytes())
    }

    /// A reader and a document that take about as many steps as may be.
    pub fn past_steps(&mut self) -> (Vec<u8>, Vec<u8>) {
        let target = self.random.near(self.limits.steps as usize, 2);
        let burns: Vec<Burn> = (1..self.limits.values)
            .map(|count| Burn::of(target, count))
            .filter(|burn| burn.fits(&self.limits))
            .collect();
        if burns.is_empty() || self.random.once_in(4) {
            return self.each_in_each();
        }
        let burn = self.random.pick(&burns);
        let element = self.scalar();
        let tokens = burn.tokens();
        (
            self.spell_tokens(&tokens),
            self.row_of(burn.count, &element),
        )
    }

    /// All pairs of elements: n * (n + 2) + 2 steps.
    fn each_in_each(&mut self) -> (Vec<u8>, Vec<u8>) {
        let most = self.limits.steps as usize;
        let root = (1..).take_while(|n| n * (n + 2) + 2 <= most).count();
        let count = self.random.near(root + 1, 1);
        let inner = self
            .random
            .pick(&["(no)", "(no)", "(int (it 1))", "(count (it 0))"]);
        let reader = format!("(each (it 0) (each (it 1) {inner}))");
        let element = Value::Number(Number::int(1));
        (reader.into_bytes(), self.row_of(count, &element))
    }

    /// `keep` of the document inside so many forms.
    fn wrapped_keep(&mut self, around: usize) -> Vec<u8> {
        nested(around, |_| "(pack \"a\" ".into(), "(keep (it 0))", ")")
    }

    /// The shortest spelling, as the written one may be longer than a text.
    fn compact_shape(&mut self, shape: &Shape) -> Vec<u8> {
        let text = write_shape(shape, &UNBOUNDED).unwrap_or_default();
        let mut out = Vec::new();
        for line in text.split(|byte| *byte == b'\n') {
            out.extend(line.trim_ascii_start());
        }
        out
    }
}

const UNBOUNDED: Limits = Limits {
    text_bytes: usize::MAX,
    values: usize::MAX,
    nesting: usize::MAX,
    steps: u64::MAX,
};

/// A reader inside so many forms, each of which may know its level.
fn nested(levels: usize, open: impl Fn(usize) -> String, inner: &str, close: &str) -> Vec<u8> {
    let opened: String = (0..levels).map(open).collect();
    format!("{opened}{inner}{}", close.repeat(levels)).into_bytes()
}

fn text_length(shape: &Shape) -> usize {
    write_shape(shape, &UNBOUNDED).unwrap_or_default().len()
}

/// A reader that packs so many copies of the document, the last one under a
/// name that is longer by so much.
fn packed(copies: usize, longer: usize) -> Vec<u8> {
    let mut reader = b"(pack".to_vec();
    for index in 0..copies {
        let name = copy_name(index, if index + 1 == copies { longer } else { 0 });
        reader.extend(format!(" \"{name}\" (keep (it 0))").into_bytes());
    }
    reader.push(b')');
    reader
}

fn copy_name(index: usize, longer: usize) -> String {
    format!("{index}{}", "z".repeat(longer))
}

/// The length of the result shape's text of such a reader.
fn packed_length(copies: usize, shape: &Shape) -> usize {
    let members = (0..copies).map(|index| Member {
        name: copy_name(index, 0).into_bytes(),
        shape: shape.clone(),
    });
    text_length(&Shape::record(members.collect()))
}

/// A reader that takes an exact number of steps on a list of `count` elements
/// and gives a small result: conditions take steps and leave no value behind.
#[derive(Clone, Copy)]
struct Burn {
    count: usize,
    /// steps for each element, an odd number
    each: usize,
    /// single steps behind them
    rest: usize,
}

impl Burn {
    fn of(target: usize, count: usize) -> Burn {
        // `pack` and `each` with its place are 3 steps.
        let left = target.saturating_sub(3);
        let each = (left / count).max(1);
        let each = each - (each + 1) % 2;
        let rest = left.saturating_sub(count * each);
        Burn { count, each, rest }
    }

    fn fits(&self, limits: &Limits) -> bool {
        let forms = 3 + self.each + self.each / 2 + self.rest;
        let values = 2 + self.count + self.rest;
        forms <= limits.values && values <= limits.values && limits.nesting > 12
    }

    fn tokens(&self) -> Vec<Vec<u8>> {
        let mut tokens = Vec::new();
        push(
            &mut tokens,
            &["(", "pack", "\"e\"", "(", "each", "(", "it", "0", ")"],
        );
        push_steps(self.each, &mut tokens);
        push(&mut tokens, &[")"]);
        for index in 0..self.rest {
            push(&mut tokens, &[&format!("\"{index}\""), "(", "none", ")"]);
        }
        push(&mut tokens, &[")"]);
        tokens
    }
}

/// A form that gives a bool after exactly so many steps, an odd number.
fn push_steps(steps: usize, tokens: &mut Vec<Vec<u8>>) {
    if steps < 3 {
        return push(tokens, &["(", "yes", ")"]);
    }
    // Both parts have odd numbers of steps; halves keep the nesting small.
    let condition = (steps / 2) | 1;
    let condition = condition.min(steps - 2);
    push(tokens, &["(", "if"]);
    push_steps(condition, tokens);
    push_steps(steps - 1 - condition, tokens);
    push(tokens, &["(", "no", ")", ")"]);
}
