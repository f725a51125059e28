//! Shape texts and reader texts of any theme, right and wrong.

use super::spelling::push;
use super::Source;
use crate::shape::Shape;

const SHAPE_TOKENS: [&str; 26] = [
    "(",
    "(",
    ")",
    ")",
    "shape",
    "member",
    "null",
    "bool",
    "int",
    "dec",
    "text",
    "list",
    "rec",
    "num",
    "\"a\"",
    "\"b\"",
    "\"\\u0061\"",
    "\"",
    "\"\\uD800\"",
    "\"\n\"",
    "sha",
    "shapes",
    "Shape",
    "[",
    "0",
    "\u{0}",
];

const READER_TOKENS: [&str; 48] = [
    "(",
    "(",
    ")",
    ")",
    "it",
    "field",
    "int",
    "dec",
    "bool",
    "text",
    "keep",
    "count",
    "each",
    "when",
    "if",
    "num",
    "str",
    "yes",
    "no",
    "none",
    "pack",
    "null",
    "list",
    "rec",
    "\"a\"",
    "\"b\"",
    "\"\\u0061\"",
    "\"",
    "\"\\uDC00\"",
    "0",
    "1",
    "2",
    "-0",
    "0.0",
    "00",
    "-1",
    "1.5",
    "1.",
    "1e5",
    "999999999999999999",
    "1000000000000000000",
    "0.123456789",
    "0.1234567890",
    "9223372036854775808",
    "keeps",
    "It",
    "\u{feff}",
    "99999999999999999999",
];

impl Source {
    pub fn any_shape(&mut self) -> Vec<u8> {
        match self.random.below(10) {
            0 => {
                let mut text = self.right_shape_text();
                let length = self.border_length();
                self.pad(&mut text, length);
                text
            }
            1 | 2 => self.deep_shape_text(),
            3 => self.many_forms_shape(),
            4 => self.token_text(&SHAPE_TOKENS, &["(", "shape"]),
            5..=7 => {
                let shape = self.shape();
                let mut tokens = self.shape_tokens(&shape);
                self.damage_tokens(&mut tokens, &SHAPE_TOKENS);
                self.spell_tokens(&tokens)
            }
            _ => {
                let mut text = self.right_shape_text();
                self.damage(&mut text);
                text
            }
        }
    }

    fn right_shape_text(&mut self) -> Vec<u8> {
        let shape = self.shape();
        self.spell_shape(&shape)
    }

    pub fn any_reader(&mut self) -> Vec<u8> {
        let shape = self.shape();
        match self.random.below(11) {
            0 => {
                let mut text = self.reader_on(&shape);
                let length = self.border_length();
                self.pad(&mut text, length);
                text
            }
            1 => self.deep_reader(),
            2 => self.many_forms_reader(),
            3 => self.token_text(&READER_TOKENS, &["("]),
            4..=7 => {
                let mut tokens = self.reader_tokens(&shape, false);
                self.damage_tokens(&mut tokens, &READER_TOKENS);
                self.spell_tokens(&tokens)
            }
            8 => self.blank_text(),
            _ => {
                let mut text = self.reader_on(&shape);
                self.damage(&mut text);
                text
            }
        }
    }

    /// No token: white space alone, now and then as much as a text may have.
    fn blank_text(&mut self) -> Vec<u8> {
        let mut text = self.spell_tokens(&[]);
        if self.random.once_in(3) {
            let length = self.border_length();
            self.pad(&mut text, length);
        }
        text
    }

    /// A few tokens of a sort, after a right beginning.
    fn token_text(&mut self, choices: &[&str], beginning: &[&str]) -> Vec<u8> {
        let mut tokens = Vec::new();
        if !self.random.once_in(4) {
            push(&mut tokens, beginning);
        }
        for _ in 0..self.random.below(6) {
            push(&mut tokens, &[self.random.pick(choices)]);
        }
        self.spell_tokens(&tokens)
    }

    /// Lists and members inside each other, about as deep as may be; broken
    /// or cut past that now and then.
    pub fn deep_shape_text(&mut self) -> Vec<u8> {
        let depth = self.random.near(self.limits.nesting, 1);
        let shape = self.deep_shape(depth);
        let mut tokens = self.shape_tokens(&shape);
        if self.random.once_in(3) {
            let from = tokens.len() - self.random.below(2 * depth + 2).min(tokens.len());
            tokens.truncate(from);
        }
        self.spell_tokens(&tokens)
    }

    pub fn many_forms_shape(&mut self) -> Vec<u8> {
        let count = self.random.near(self.limits.values, 2);
        let shape = self.wide_shape(count, 1);
        let mut tokens = self.shape_tokens(&shape);
        if self.random.once_in(3) {
            tokens.truncate(tokens.len() - 1 - self.random.below(10).min(tokens.len() - 1));
        }
        self.spell_tokens(&tokens)
    }

    /// A reader of about as much nesting as may be.
    fn deep_reader(&mut self) -> Vec<u8> {
        let depth = self.random.near(self.limits.nesting, 1).max(3);
        let style = self.random.below(3);
        let mut tokens = Vec::new();
        let wrappers = depth - 2;
        for _ in 0..wrappers {
            match style {
                0 => push(&mut tokens, &["(", "pack", "\"a\""]),
                1 => push(&mut tokens, &["(", "each", "(", "it", "0", ")"]),
                _ => push(&mut tokens, &["(", "if", "(", "yes", ")", "(", "no", ")"]),
            }
        }
        push(&mut tokens, &["(", "keep", "(", "it", "0", ")", ")"]);
        tokens.extend(vec![b")".to_vec(); wrappers]);
        if self.random.once_in(3) {
            self.damage_tokens(&mut tokens, &READER_TOKENS);
        }
        self.spell_tokens(&tokens)
    }

    /// A reader of about as many forms as may be.
    fn many_forms_reader(&mut self) -> Vec<u8> {
        let count = self.random.near(self.limits.values, 2);
        let mut tokens = Vec::new();
        push(&mut tokens, &["(", "pack"]);
        for index in 1..count {
            push(&mut tokens, &[&format!("\"{index:x}\"")]);
            let last: [&[&str]; 4] = [&["(", "yes", ")"], &["(", "x"], &["("], &["(", "num", "1."]];
            let part = if index + 1 == count {
                self.random.below(4)
            } else {
                0
            };
            push(&mut tokens, last[part]);
        }
        push(&mut tokens, &[")"]);
        self.spell_tokens(&tokens)
    }

    /// A reader of hundreds of forms.
    pub fn large_reader_on(&mut self, shape: &Shape) -> Vec<u8> {
        let forms = match self.random.once_in(3) {
            true => self.limits.values.saturating_sub(4),
            false => self.random.below(self.limits.values),
        };
        let tokens = self.large_reader_tokens(shape, forms);
        self.spell_tokens(&tokens)
    }

    pub fn reader_on(&mut self, shape: &Shape) -> Vec<u8> {
        let tokens = self.reader_tokens(shape, false);
        self.spell_tokens(&tokens)
    }

    pub fn passing_reader_on(&mut self, shape: &Shape) -> Vec<u8> {
        let tokens = self.reader_tokens(shape, true);
        self.spell_tokens(&tokens)
    }
}
