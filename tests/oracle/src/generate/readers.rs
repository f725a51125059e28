//! Random readers that mostly fit a shape.

use super::spelling::push;
use super::Source;
use crate::check::split;
use crate::plain;
use crate::shape::{Kinds, Shape};
use crate::text_forms::Case;

type Tokens = Vec<Vec<u8>>;

/// What surrounds the form to be made.
struct Around {
    /// shapes of the bindings, the innermost last
    bound: Vec<Shape>,
    nesting_left: usize,
    forms_left: usize,
    /// makes no form that a check against these shapes would refuse
    careful: bool,
}

impl Source {
    /// A reader that fits a shape; a careful one passes against it.
    pub fn reader_tokens(&mut self, shape: &Shape, careful: bool) -> Tokens {
        let mut around = self.around(shape, careful);
        let mut tokens = Tokens::new();
        self.push_form(&mut around, &mut tokens);
        tokens
    }

    /// A pack of readers, of about so many forms in all; mostly it passes.
    pub fn large_reader_tokens(&mut self, shape: &Shape, forms: usize) -> Tokens {
        let careful = !self.random.once_in(4);
        let mut tokens = Tokens::new();
        push(&mut tokens, &["(", "pack"]);
        for index in 0.. {
            let mut around = self.around(shape, careful);
            around.nesting_left -= 1;
            push(&mut tokens, &[&format!("\"{index}\"")]);
            self.push_form(&mut around, &mut tokens);
            if tokens.iter().filter(|token| *token == b"(").count() >= forms {
                break;
            }
        }
        push(&mut tokens, &[")"]);
        tokens
    }

    fn around(&mut self, shape: &Shape, careful: bool) -> Around {
        Around {
            bound: vec![shape.clone()],
            nesting_left: self.limits.nesting,
            forms_left: self.random.between(1, self.limits.values.min(30)),
            careful,
        }
    }

    fn push_form(&mut self, around: &mut Around, tokens: &mut Tokens) {
        around.forms_left = around.forms_left.saturating_sub(1);
        let room = around.nesting_left > 2 && around.forms_left > 3;
        around.nesting_left -= 1;
        match self.random.below(20) {
            0 | 1 if room => self.push_pack(around, tokens),
            2 if room => self.push_if(around, tokens),
            3 => self.push_literal(tokens),
            _ if around.nesting_left > 0 => self.push_on_place(around, tokens),
            _ => self.push_literal(tokens),
        }
        around.nesting_left += 1;
    }

    fn push_pack(&mut self, around: &mut Around, tokens: &mut Tokens) {
        push(tokens, &["(", "pack"]);
        let count = self.random.below(4);
        for name in self.names(count) {
            tokens.push(self.spell_text(&name));
            self.push_form(around, tokens);
        }
        push(tokens, &[")"]);
    }

    fn push_if(&mut self, around: &mut Around, tokens: &mut Tokens) {
        push(tokens, &["(", "if"]);
        match self.random.below(8) {
            0 if !around.careful => self.push_form(around, tokens),
            1 | 2 => push(tokens, &["(", "no", ")"]),
            3 | 4 => push(tokens, &["(", "yes", ")"]),
            _ => self.push_condition(around, tokens),
        }
        self.push_form(around, tokens);
        self.push_form(around, tokens);
        push(tokens, &[")"]);
    }

    /// A bool out of the document: the value, or whether it is of a kind.
    fn push_condition(&mut self, around: &mut Around, tokens: &mut Tokens) {
        let nesting_left = around.nesting_left.saturating_sub(1);
        let (place, shape) = self.place(around, nesting_left);
        if shape.kinds == Kinds::BOOL {
            push(tokens, &["(", "bool"]);
            tokens.extend(place);
        } else {
            push(tokens, &["(", "when", self.case(&shape).0]);
            tokens.extend(place);
            push(tokens, &["(", "yes", ")", "(", "no", ")"]);
        }
        push(tokens, &[")"]);
    }

    fn push_literal(&mut self, tokens: &mut Tokens) {
        match self.random.below(5) {
            0 => push(tokens, &["(", "yes", ")"]),
            1 => push(tokens, &["(", "no", ")"]),
            2 => push(tokens, &["(", "none", ")"]),
            3 => {
                let text = self.text();
                push(tokens, &["(", "str"]);
                tokens.push(self.spell_text(&text));
                push(tokens, &[")"]);
            }
            _ => {
                let scale = self.random.below(10);
                let number = plain::spelled(&self.number(scale));
                let number = if self.random.once_in(12) {
                    "-0".to_string()
                } else {
                    number
                };
                push(tokens, &["(", "num", &number, ")"]);
            }
        }
    }

    /// A form on a place; mostly one that takes the place's kinds.
    fn push_on_place(&mut self, around: &mut Around, tokens: &mut Tokens) {
        let (place, shape) = self.place(around, around.nesting_left);
        let lists = Kinds::LIST.and(Kinds::NULL);
        let kinds = shape.kinds;
        let room = around.nesting_left > 1 && around.forms_left > 2;
        let word = match self.random.below(16) {
            0 if !around.careful => self
                .random
                .pick(&["int", "dec", "bool", "text", "count", "each", "when"]),
            1 => "keep",
            _ if kinds.within(Kinds::INT) => self.random.pick(&["int", "int", "dec"]),
            _ if kinds.within(Kinds::NUM) => "dec",
            _ if kinds == Kinds::BOOL => "bool",
            _ if kinds == Kinds::TEXT => "text",
            _ if kinds.within(lists) => self.random.pick(&["each", "each", "count"]),
            _ => self.random.pick(&["when", "when", "keep"]),
        };
        match word {
            "each" if room => {
                let element = shape.element.as_deref().cloned().unwrap_or_default();
                push(tokens, &["(", "each"]);
                tokens.extend(place);
                self.push_bound(element, around, tokens);
            }
            "when" if room => self.push_when(place, &shape, around, tokens),
            "each" | "when" => {
                push(tokens, &["(", "keep"]);
                tokens.extend(place);
            }
            _ => {
                push(tokens, &["(", word]);
                tokens.extend(place);
            }
        }
        push(tokens, &[")"]);
    }

    fn push_when(
        &mut self,
        place: Tokens,
        shape: &Shape,
        around: &mut Around,
        tokens: &mut Tokens,
    ) {
        let (word, case) = self.case(shape);
        let (taken, left) = split(case, shape);
        push(tokens, &["(", "when", word]);
        tokens.extend(place);
        self.push_bound(taken, around, tokens);
        self.push_bound(left, around, tokens);
    }

    fn push_bound(&mut self, binding: Shape, around: &mut Around, tokens: &mut Tokens) {
        around.bound.push(binding);
        self.push_form(around, tokens);
        around.bound.pop();
    }

    /// A case that splits a shape, or any.
    fn case(&mut self, shape: &Shape) -> (&'static str, Case) {
        let splits = |(_, case): &&(&str, Case)| split(*case, shape).0 != Shape::default();
        let split: Vec<_> = Case::WORDS.iter().filter(splits).collect();
        match split.is_empty() || self.random.once_in(8) {
            true => self.random.pick(&Case::WORDS),
            false => *self.random.pick(&split),
        }
    }

    /// A place and its shape, which is nothing where no check would pass.
    fn place(&mut self, around: &Around, nesting_left: usize) -> (Tokens, Shape) {
        let bound = &around.bound;
        let near = self.random.below(bound.len());
        let outward = if self.random.once_in(3) { near } else { 0 };
        let mut shape = bound[bound.len() - 1 - outward].clone();
        let mut path = Vec::new();
        while path.len() + 1 < nesting_left {
            let records = shape.kinds.within(Kinds::FIELD) && !shape.members.is_empty();
            let (name, inner) = match self.random.below(40) {
                0..=2 if !around.careful => (self.name(), Shape::default()),
                3..=30 if records => {
                    let name = &shape.members[self.random.below(shape.members.len())].name;
                    (name.clone(), shape.field(name).unwrap_or_default())
                }
                _ => break,
            };
            path.push(name);
            shape = inner;
        }
        let mut tokens = Tokens::new();
        for name in path.iter().rev() {
            push(&mut tokens, &["(", "field"]);
            tokens.push(self.spell_text(name));
        }
        push(&mut tokens, &["(", "it", &outward.to_string(), ")"]);
        tokens.extend(vec![b")".to_vec(); path.len()]);
        (tokens, shape)
    }
}
