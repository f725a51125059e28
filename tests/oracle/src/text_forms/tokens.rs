//! Tokens, and the steps that both kinds of form texts are read with.

use crate::lexical::{self, NumberRun};
use crate::limits::{refuse, Limits, Refusal};
use crate::value::Number;

#[derive(Clone, Debug, PartialEq, Eq)]
pub enum Token<'a> {
    Open,
    Close,
    Text(Vec<u8>),
    /// a word or a number
    Word(&'a [u8]),
    /// a text that is cut or breaks the grammar
    Broken,
    End,
}

/// A form text on the way. A wrong token is 7 at its first byte, the end at
/// the text's length, so `at` is the place of either.
pub struct Forms<'a> {
    bytes: &'a [u8],
    limits: &'a Limits,
    pub token: Token<'a>,
    /// where `token` begins
    pub at: usize,
    next: usize,
    begun: usize,
}

impl<'a> Forms<'a> {
    pub fn new(bytes: &'a [u8], limits: &'a Limits) -> Forms<'a> {
        let mut forms = Forms {
            bytes,
            limits,
            token: Token::End,
            at: 0,
            next: 0,
            begun: 0,
        };
        forms.advance();
        forms
    }

    /// Moves to the next token.
    pub fn advance(&mut self) {
        self.at = lexical::skip_white(self.bytes, self.next);
        self.next = self.at + 1;
        self.token = match self.bytes.get(self.at) {
            None => Token::End,
            Some(b'(') => Token::Open,
            Some(b')') => Token::Close,
            Some(b'"') => match lexical::text(self.bytes, self.at) {
                Ok((text, end)) => {
                    self.next = end;
                    Token::Text(text)
                }
                Err(_) => Token::Broken,
            },
            Some(_) => {
                self.next = word_end(self.bytes, self.at);
                Token::Word(&self.bytes[self.at..self.next])
            }
        };
    }

    /// The current token is wrong.
    pub fn wrong<T>(&self) -> Result<T, Refusal> {
        refuse(7, self.at)
    }

    fn pass(&mut self, right: bool) -> Result<(), Refusal> {
        if !right {
            return self.wrong();
        }
        self.advance();
        Ok(())
    }

    /// Passes the bracket of a form that counts; gives its place.
    pub fn open_form(&mut self, nesting: usize) -> Result<usize, Refusal> {
        let place = self.at;
        if self.token == Token::Open {
            self.begun += 1;
            if self.begun > self.limits.values || nesting > self.limits.nesting {
                return refuse(8, place);
            }
        }
        self.open()?;
        Ok(place)
    }

    pub fn open(&mut self) -> Result<(), Refusal> {
        self.pass(self.token == Token::Open)
    }

    pub fn close(&mut self) -> Result<(), Refusal> {
        self.pass(self.token == Token::Close)
    }

    /// Nothing may stand behind the whole form.
    pub fn end(&self) -> Result<(), Refusal> {
        match self.token {
            Token::End => Ok(()),
            _ => self.wrong(),
        }
    }

    pub fn word(&mut self, wanted: &str) -> Result<(), Refusal> {
        self.pass(self.token == Token::Word(wanted.as_bytes()))
    }

    /// Passes a text that `right` accepts.
    pub fn text(&mut self, right: impl Fn(&[u8]) -> bool) -> Result<Vec<u8>, Refusal> {
        match &self.token {
            Token::Text(text) if right(text) => {
                let text = text.clone();
                self.advance();
                Ok(text)
            }
            _ => self.wrong(),
        }
    }

    /// Passes a number that `right` accepts, judging it by its own spelling too.
    pub fn number(&mut self, right: impl Fn(&Number, &[u8]) -> bool) -> Result<Number, Refusal> {
        let Token::Word(word) = self.token else {
            return self.wrong();
        };
        match lexical::number_run(word, 0) {
            NumberRun::Within(number, end) if end == word.len() && right(&number, word) => {
                self.advance();
                Ok(number)
            }
            _ => self.wrong(),
        }
    }
}

fn word_end(bytes: &[u8], start: usize) -> usize {
    let stops = |byte: u8| lexical::is_white(byte) || matches!(byte, b'(' | b')' | b'"');
    let length = bytes[start..].iter().take_while(|byte| !stops(**byte));
    start + length.count()
}
