//! Random shapes, and shapes near a given one.

use super::Source;
use crate::shape::{join, shape_of, Kinds, Member, Shape};

impl Source {
    /// A shape of moderate size: one that samples reach, or any.
    pub fn shape(&mut self) -> Shape {
        if self.random.once_in(3) {
            let sample = self.value();
            let relative = self.relative(&sample);
            return join(shape_of(&sample), shape_of(&relative));
        }
        let nesting = self.random.between(1, self.limits.nesting.min(4));
        let mut left = self.random.between(1, self.limits.values.min(16));
        self.shape_within(nesting, &mut left)
    }

    fn shape_within(&mut self, nesting: usize, left: &mut usize) -> Shape {
        *left = left.saturating_sub(1);
        let mut kinds = self.kinds();
        if nesting == 1 || *left == 0 {
            kinds = kinds.without(Kinds::LIST);
        }
        let element = kinds
            .has(Kinds::LIST)
            .then(|| Box::new(self.shape_within(nesting - 1, left)));
        let room = if nesting > 1 { (*left).min(4) } else { 0 };
        let count = match kinds.has(Kinds::REC) {
            true => self.random.below(room + 1),
            false => 0,
        };
        let mut names = self.names(count);
        names.sort();
        let mut members = Vec::new();
        for name in names {
            if *left == 0 {
                break;
            }
            let shape = self.shape_within(nesting - 1, left);
            members.push(Member { name, shape });
        }
        Shape {
            kinds,
            element,
            members,
        }
    }

    /// A few kinds, lists and records among them more often than not.
    fn kinds(&mut self) -> Kinds {
        let common = [
            Kinds::NONE,
            Kinds::NULL,
            Kinds::BOOL,
            Kinds::INT,
            Kinds::NUM,
            Kinds::TEXT,
            Kinds::LIST,
            Kinds::LIST,
            Kinds::REC,
            Kinds::REC,
            Kinds::REC,
        ];
        let mut kinds = self.random.pick(&common);
        while self.random.once_in(3) {
            kinds = kinds.and(self.random.pick(&common));
        }
        kinds
    }

    /// A shape that differs from another one in few spots, or in none.
    pub fn near_shape(&mut self, shape: &Shape) -> Shape {
        let mut near = shape.clone();
        if let Some(element) = &mut near.element {
            **element = self.near_shape(element);
        }
        for member in &mut near.members {
            member.shape = self.near_shape(&member.shape);
        }
        match self.random.below(16) {
            0 => near = near.cut(near.kinds.without(Kinds::NULL)),
            1 => near = join(near, Shape::of_kinds(Kinds::NULL)),
            2 => {
                let other = self
                    .random
                    .pick(&[Kinds::NUM, Kinds::INT, Kinds::TEXT, Kinds::BOOL]);
                near = join(near, Shape::of_kinds(other));
            }
            3 if !near.members.is_empty() => {
                near.members.remove(self.random.below(near.members.len()));
            }
            4 if near.kinds.has(Kinds::REC) => self.add_member(&mut near),
            5 => near = near.cut(Kinds(self.random.draw() as u8).without(Kinds::NUM)),
            _ => {}
        }
        near
    }

    fn add_member(&mut self, shape: &mut Shape) {
        let name = self.name();
        let inner = Shape::of_kinds(self.kinds().without(Kinds::LIST));
        if let Err(at) = shape
            .members
            .binary_search_by(|member| member.name.cmp(&name))
        {
            shape.members.insert(at, Member { name, shape: inner });
        }
    }
}
