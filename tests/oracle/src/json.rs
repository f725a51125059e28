//! Reading documents: refusals 3 to 6 at their places.
//!
//! Reading goes from left to right and stops at the first cause it meets.
//! That cause has the smallest place: 3 and 6 are met where they stand, and
//! between the place of a 4 or 5 and the point where it shows there is only
//! one number or name, which holds no other cause.

use crate::lexical::{self, NumberRun};
use crate::limits::{refuse, Limits, Refusal};
use crate::value::Value;
use std::collections::HashSet;
use std::rc::Rc;

/// Reads a whole document. Its size (2) has been judged before.
pub fn read(bytes: &[u8], limits: &Limits) -> Result<Value, Refusal> {
    let mut document = Document {
        bytes,
        limits,
        at: 0,
        begun: 0,
    };
    document.skip_white();
    let value = document.value(1)?;
    document.skip_white();
    if document.at < bytes.len() {
        return refuse(3, document.at);
    }
    Ok(value)
}

struct Document<'a> {
    bytes: &'a [u8],
    limits: &'a Limits,
    at: usize,
    /// how many values have begun
    begun: usize,
}

impl Document<'_> {
    /// Reads the value that begins right here.
    fn value(&mut self, nesting: usize) -> Result<Value, Refusal> {
        match self.peek() {
            Some(b'n') => self.literal(nesting, b"null", Value::Null),
            Some(b't') => self.literal(nesting, b"true", Value::Bool(true)),
            Some(b'f') => self.literal(nesting, b"false", Value::Bool(false)),
            Some(b'-' | b'0'..=b'9') => self.number(nesting),
            Some(b'"') => {
                self.begin(nesting)?;
                Ok(Value::Text(self.text()?))
            }
            Some(b'[') => {
                self.begin(nesting)?;
                self.list(nesting)
            }
            Some(b'{') => {
                self.begin(nesting)?;
                self.record(nesting)
            }
            _ => refuse(3, self.at),
        }
    }

    /// Counts the value that begins right here.
    fn begin(&mut self, nesting: usize) -> Result<(), Refusal> {
        self.begun += 1;
        if self.begun > self.limits.values || nesting > self.limits.nesting {
            return refuse(6, self.at);
        }
        Ok(())
    }

    fn literal(&mut self, nesting: usize, name: &[u8], value: Value) -> Result<Value, Refusal> {
        self.begin(nesting)?;
        for wanted in name {
            self.expect(*wanted)?;
        }
        Ok(value)
    }

    fn number(&mut self, nesting: usize) -> Result<Value, Refusal> {
        let run = lexical::number_run(self.bytes, self.at);
        // 4 goes before 6, as both stand at the first byte.
        if run == NumberRun::Beyond {
            return refuse(4, self.at);
        }
        self.begin(nesting)?;
        match run {
            NumberRun::Within(number, end) => {
                self.at = end;
                Ok(Value::Number(number))
            }
            NumberRun::Broken(end) => refuse(3, end),
            NumberRun::Beyond => refuse(4, self.at),
        }
    }

    fn text(&mut self) -> Result<Vec<u8>, Refusal> {
        match lexical::text(self.bytes, self.at) {
            Ok((text, end)) => {
                self.at = end;
                Ok(text)
            }
            Err(place) => refuse(3, place),
        }
    }

    fn list(&mut self, nesting: usize) -> Result<Value, Refusal> {
        let mut elements = Vec::new();
        if self.opens_empty(b']') {
            return Ok(Value::List(elements));
        }
        loop {
            elements.push(Rc::new(self.value(nesting + 1)?));
            if self.closes(b']')? {
                return Ok(Value::List(elements));
            }
        }
    }

    fn record(&mut self, nesting: usize) -> Result<Value, Refusal> {
        let mut members = Vec::new();
        let mut names = HashSet::new();
        if self.opens_empty(b'}') {
            return Ok(Value::Record(members));
        }
        loop {
            let quote = self.at;
            if self.peek() != Some(b'"') {
                return refuse(3, quote);
            }
            let name = self.text()?;
            if !names.insert(name.clone()) {
                return refuse(5, quote);
            }
            self.skip_white();
            self.expect(b':')?;
            self.skip_white();
            members.push((name, Rc::new(self.value(nesting + 1)?)));
            if self.closes(b'}')? {
                return Ok(Value::Record(members));
            }
        }
    }

    /// Passes the opening bracket and, where nothing stands inside, `close`.
    fn opens_empty(&mut self, close: u8) -> bool {
        self.at += 1;
        self.skip_white();
        let empty = self.peek() == Some(close);
        self.at += usize::from(empty);
        empty
    }

    /// Passes `close`, or the comma and the white space before a next item.
    fn closes(&mut self, close: u8) -> Result<bool, Refusal> {
        self.skip_white();
        let closed = self.peek() == Some(close);
        self.expect(if closed { close } else { b',' })?;
        if !closed {
            self.skip_white();
        }
        Ok(closed)
    }

    fn expect(&mut self, wanted: u8) -> Result<(), Refusal> {
        if self.peek() != Some(wanted) {
            return refuse(3, self.at);
        }
        self.at += 1;
        Ok(())
    }

    fn peek(&self) -> Option<u8> {
        self.bytes.get(self.at).copied()
    }

    fn skip_white(&mut self) {
        self.at = lexical::skip_white(self.bytes, self.at);
    }
}
