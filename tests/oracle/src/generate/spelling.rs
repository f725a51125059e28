//! Many spellings of one thing: white space and escapes at random.

use super::Source;
use crate::plain;
use crate::shape::{Kinds, Shape};
use crate::value::Value;

impl Source {
    /// Some spelling of a document.
    pub fn spell_document(&mut self, value: &Value) -> Vec<u8> {
        let spaced = self.random.once_in(3);
        let mut out = Vec::new();
        self.spell_value(value, spaced, &mut out);
        out
    }

    fn spell_value(&mut self, value: &Value, spaced: bool, out: &mut Vec<u8>) {
        self.space(spaced, out);
        match value {
            Value::List(elements) => {
                out.push(b'[');
                for (index, element) in elements.iter().enumerate() {
                    out.extend(&b","[..index.min(1)]);
                    self.spell_value(element, spaced, out);
                }
                self.space(spaced, out);
                out.push(b']');
            }
            Value::Record(members) => {
                out.push(b'{');
                for (index, (name, member)) in members.iter().enumerate() {
                    out.extend(&b","[..index.min(1)]);
                    self.space(spaced, out);
                    out.extend(self.spell_text(name));
                    self.space(spaced, out);
                    out.push(b':');
                    self.spell_value(member, spaced, out);
                }
                self.space(spaced, out);
                out.push(b'}');
            }
            Value::Text(text) => out.extend(self.spell_text(text)),
            Value::Number(number) => {
                // Zero may be written with a minus.
                let minus = number.coefficient == 0 && self.random.once_in(4);
                out.extend(&b"-"[..usize::from(minus)]);
                out.extend(plain::spelled(number).into_bytes());
            }
            scalar => out.extend(plain::document(scalar)),
        }
        self.space(spaced, out);
    }

    fn space(&mut self, spaced: bool, out: &mut Vec<u8>) {
        while spaced && self.random.once_in(3) {
            out.push(self.random.pick(b" \t\n\r"));
        }
    }

    /// A text or name between quotes, with more escapes than needed.
    pub fn spell_text(&mut self, bytes: &[u8]) -> Vec<u8> {
        let mut out = vec![b'"'];
        let eager = if self.random.once_in(3) { 2 } else { 40 };
        for character in String::from_utf8_lossy(bytes).chars() {
            match character {
                '/' if self.random.once_in(2) => out.extend(b"\\/"),
                _ if self.random.once_in(eager) => self.spell_units(character, &mut out),
                _ => {
                    let mut quoted = Vec::new();
                    plain::text(character.encode_utf8(&mut [0; 4]).as_bytes(), &mut quoted);
                    out.extend(&quoted[1..quoted.len() - 1]);
                }
            }
        }
        out.push(b'"');
        out
    }

    /// A character as one `\u` escape or two, in either case of digits.
    fn spell_units(&mut self, character: char, out: &mut Vec<u8>) {
        for unit in character.encode_utf16(&mut [0; 2]) {
            self.spell_unit(*unit, out);
        }
    }

    pub fn spell_unit(&mut self, unit: u16, out: &mut Vec<u8>) {
        out.extend(b"\\u");
        for digit in format!("{unit:04x}").into_bytes() {
            let upper = self.random.once_in(2);
            out.push(if upper {
                digit.to_ascii_uppercase()
            } else {
                digit
            });
        }
    }

    /// Some spelling of a shape.
    pub fn spell_shape(&mut self, shape: &Shape) -> Vec<u8> {
        let tokens = self.shape_tokens(shape);
        self.spell_tokens(&tokens)
    }

    pub fn shape_tokens(&mut self, shape: &Shape) -> Vec<Vec<u8>> {
        let mut tokens = Vec::new();
        self.push_shape(shape, &mut tokens);
        tokens
    }

    fn push_shape(&mut self, shape: &Shape, tokens: &mut Vec<Vec<u8>>) {
        push(tokens, &["(", "shape"]);
        for (word, kind) in Kinds::WORDS {
            if shape.kinds.has(kind) {
                push(tokens, &[word]);
            }
        }
        if let Some(element) = &shape.element {
            self.push_shape(element, tokens);
        }
        for member in &shape.members {
            push(tokens, &["(", "member"]);
            tokens.push(self.spell_text(&member.name));
            self.push_shape(&member.shape, tokens);
            push(tokens, &[")"]);
        }
        push(tokens, &[")"]);
    }

    /// Tokens with white space between them: none but what is needed, single
    /// spaces, or any.
    pub fn spell_tokens(&mut self, tokens: &[Vec<u8>]) -> Vec<u8> {
        let style = self.random.below(3);
        let mut out = Vec::new();
        let mut after_word = false;
        for token in tokens {
            let word = is_word(token);
            match style {
                0 => {}
                1 if !out.is_empty() => out.push(b' '),
                1 => {}
                _ => self.space(true, &mut out),
            }
            let separate = out
                .last()
                .is_none_or(|byte| crate::lexical::is_white(*byte));
            if after_word && word && !separate {
                out.push(self.random.pick(b" \t\n\r"));
            }
            out.extend(token);
            after_word = word;
        }
        self.space(style == 2, &mut out);
        out
    }
}

/// Whether a token needs white space between it and a word.
fn is_word(token: &[u8]) -> bool {
    !matches!(token.first(), Some(b'(' | b')' | b'"'))
}

pub fn push(tokens: &mut Vec<Vec<u8>>, spelled: &[&str]) {
    tokens.extend(spelled.iter().map(|token| token.as_bytes().to_vec()));
}
