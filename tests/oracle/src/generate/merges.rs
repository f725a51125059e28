//! Shapes and documents of many members, whose names come in turns, and rows
//! of documents that are alike.

use super::Source;
use crate::shape::{join, Kinds, Member, Shape};
use crate::value::Value;

impl Source {
    /// A shape, and a document that brings names first, amid and last.
    pub fn shape_and_merging_document(&mut self) -> (Vec<u8>, Vec<u8>) {
        let (first, second) = self.two_merging();
        let document = self.document_of(&second);
        let shape = match self.random.once_in(2) {
            true => join(first, second),
            false => first,
        };
        (self.spell_shape(&shape), self.spell_document(&document))
    }

    /// A value that the shape admits, its members in any order.
    fn document_of(&mut self, shape: &Shape) -> Value {
        let mut value = self.witness(shape).unwrap_or(Value::Null);
        if let Value::Record(members) = &mut value {
            for end in (1..members.len()).rev() {
                members.swap(end, self.random.below(end + 1));
            }
        }
        value
    }

    /// Two shapes of which each has names that the other lacks, or one of them
    /// with the join of both.
    pub fn two_merging_shapes(&mut self) -> (Vec<u8>, Vec<u8>) {
        let (first, second) = self.two_merging();
        let (first, second) = match self.random.below(3) {
            0 => (first.clone(), join(first, second)),
            1 => (join(first, second.clone()), second),
            _ => (first, second),
        };
        (self.spell_shape(&first), self.spell_shape(&second))
    }

    /// A record's shape of up to hundreds of members.
    pub fn merging_shape(&mut self) -> Shape {
        self.two_merging().0
    }

    fn two_merging(&mut self) -> (Shape, Shape) {
        let nesting = self.random.between(2, self.limits.nesting.clamp(2, 6));
        let mut left = self.random.between(2, self.limits.values) - 1;
        self.merging_within(nesting, &mut left)
    }

    /// Two records' shapes, of about so many forms together.
    fn merging_within(&mut self, nesting: usize, left: &mut usize) -> (Shape, Shape) {
        let count = self.random.pick(&[3, 12, 60, 500]).min(*left);
        let (mut first, mut second) = (Vec::new(), Vec::new());
        for name in self.many_names(count) {
            if *left == 0 {
                break;
            }
            *left -= 1;
            let deeper = nesting > 2 && self.random.once_in(6);
            let (a, b) = match deeper {
                true => self.merging_within(nesting - 1, left),
                false => (self.leaf(), self.leaf()),
            };
            let part = self.random.below(4);
            if part != 0 {
                let name = name.clone();
                first.push(Member { name, shape: a });
            }
            if part != 1 {
                second.push(Member { name, shape: b });
            }
        }
        (Shape::record(first), Shape::record(second))
    }

    fn leaf(&mut self) -> Shape {
        let common = [
            Kinds::NULL,
            Kinds::BOOL,
            Kinds::INT,
            Kinds::NUM,
            Kinds::TEXT,
            Kinds::REC,
            Kinds::NULL.and(Kinds::TEXT),
        ];
        let kinds = self.random.pick(&common);
        match self.random.once_in(12) {
            true => Shape::list(Shape::of_kinds(kinds)),
            false => Shape::of_kinds(kinds),
        }
    }

    /// At most so many names, distinct and of several lengths.
    fn many_names(&mut self, count: usize) -> Vec<Vec<u8>> {
        let mut names: Vec<Vec<u8>> = Vec::new();
        for _ in 0..count {
            let digits = self.random.between(1, 9);
            let number = self.random.draw() % 16_u64.pow(digits as u32);
            names.push(format!("{number:x}").into_bytes());
        }
        names.sort();
        names.dedup();
        names
    }

    /// Documents to infer a shape from one behind the other: mostly alike, some
    /// damaged.
    pub fn row_of_samples(&mut self) -> Vec<Vec<u8>> {
        let like = match self.random.once_in(8) {
            true => {
                let (_, second) = self.two_merging();
                self.document_of(&second)
            }
            false => self.value(),
        };
        let count = self.random.between(2, 6);
        let mut samples = Vec::new();
        for _ in 0..count {
            let sample = self.relative(&like);
            let mut text = self.spell_document(&sample);
            if self.random.once_in(8) {
                self.damage(&mut text);
            }
            samples.push(text);
        }
        samples
    }
}
