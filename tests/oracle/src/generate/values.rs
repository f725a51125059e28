//! Random values, and values like a given one.

use super::Source;
use crate::shape::{Kinds, Shape};
use crate::value::{Number, Value, MOST_COEFFICIENT};
use std::rc::Rc;

/// Few names, so that they meet; their byte order differs from the order of
/// their UTF-16 units, and some need escapes.
const NAMES: [&str; 24] = [
    "a",
    "b",
    "c",
    "bay",
    "due",
    "aa",
    "ab",
    "a\u{0}",
    "A",
    "",
    "\u{e9}",
    "\u{ffff}",
    "\u{10000}",
    "\u{10ffff}",
    "\u{e000}",
    "\u{d7ff}",
    "\u{feff}",
    "q\"uote",
    "back\\slash",
    "sl/ash",
    "tab\t",
    "\u{1f}",
    "\u{7f}",
    "\u{1f600}",
];

const CHARACTERS: [char; 24] = [
    'a',
    'b',
    'z',
    ' ',
    '0',
    '/',
    '"',
    '\\',
    '\u{8}',
    '\u{c}',
    '\n',
    '\r',
    '\t',
    '\u{0}',
    '\u{1f}',
    '\u{7f}',
    '\u{80}',
    '\u{7ff}',
    '\u{800}',
    '\u{d7ff}',
    '\u{e000}',
    '\u{ffff}',
    '\u{10000}',
    '\u{10ffff}',
];

impl Source {
    /// A value of moderate size.
    pub fn value(&mut self) -> Value {
        let mut left = self.random.between(1, self.limits.values.min(24));
        let nesting = self.random.between(1, self.limits.nesting.min(5));
        match self.random.below(3) {
            0 if self.limits.nesting > 2 => self.table(),
            _ => self.value_within(nesting, &mut left),
        }
    }

    /// A value of at most so much nesting and about so many values.
    pub fn value_within(&mut self, nesting: usize, left: &mut usize) -> Value {
        *left = left.saturating_sub(1);
        let inner = if nesting > 1 { *left } else { 0 };
        let count = self.random.below(inner.min(5) + 1);
        match self.random.below(10) {
            0..=2 => {
                let elements = (0..count).map(|_| self.value_within(nesting - 1, left));
                Value::List(elements.map(Rc::new).collect())
            }
            3..=5 => {
                let mut members = Vec::new();
                for name in self.names(count) {
                    members.push((name, Rc::new(self.value_within(nesting - 1, left))));
                }
                Value::Record(members)
            }
            _ => self.scalar(),
        }
    }

    /// A list of records that are alike, as samples mostly are.
    fn table(&mut self) -> Value {
        let columns = self.random.between(1, 4);
        let names = self.names(columns);
        let room = (self.limits.values - 1) / (names.len() + 1);
        let rows = self.random.below(room.min(6) + 1);
        let kinds: Vec<usize> = names.iter().map(|_| self.random.below(6)).collect();
        let mut elements = Vec::new();
        for _ in 0..rows {
            let mut members = Vec::new();
            for (name, kind) in names.iter().zip(&kinds) {
                match self.random.below(8) {
                    0 => {}
                    1 => members.push((name.clone(), Rc::new(Value::Null))),
                    _ => members.push((name.clone(), Rc::new(self.scalar_of(*kind)))),
                }
            }
            elements.push(Rc::new(Value::Record(members)));
        }
        Value::List(elements)
    }

    pub fn scalar(&mut self) -> Value {
        let kind = self.random.below(6);
        self.scalar_of(kind)
    }

    fn scalar_of(&mut self, kind: usize) -> Value {
        match kind {
            0 => Value::Null,
            1 => Value::Bool(self.random.once_in(2)),
            2 => Value::Number(self.whole()),
            3 => {
                let scale = self.random.between(1, 9);
                Value::Number(self.number(scale))
            }
            _ => Value::Text(self.text()),
        }
    }

    /// An int, now and then with a fraction of zeros.
    fn whole(&mut self) -> Number {
        let int = self.number(0);
        let scale = self.random.between(1, 9);
        let shifted = int.coefficient.checked_mul(10_i64.pow(scale as u32));
        match shifted {
            Some(coefficient)
                if self.random.once_in(4) && coefficient.unsigned_abs() <= MOST_COEFFICIENT =>
            {
                Number { coefficient, scale }
            }
            _ => int,
        }
    }

    pub fn number(&mut self, scale: usize) -> Number {
        let most = MOST_COEFFICIENT as i64;
        let power = 10_i64.pow(self.random.below(19) as u32);
        let magnitude = match self.random.below(8) {
            0 => most,
            1 => 0,
            2 => power.min(most),
            3 => power - 1,
            _ => self.random.draw() as i64 % power,
        };
        let coefficient = if self.random.once_in(3) {
            -magnitude
        } else {
            magnitude
        };
        Number { coefficient, scale }
    }

    pub fn text(&mut self) -> Vec<u8> {
        let length = self.random.below(6);
        let characters = (0..length).map(|_| self.random.pick(&CHARACTERS));
        characters.collect::<String>().into_bytes()
    }

    pub fn name(&mut self) -> Vec<u8> {
        match self.random.below(12) {
            0 => self.text(),
            1..=3 => self.random.pick(&NAMES).as_bytes().to_vec(),
            _ => self.random.pick(&NAMES[..6]).as_bytes().to_vec(),
        }
    }

    /// At most `count` names, all distinct.
    pub fn names(&mut self, count: usize) -> Vec<Vec<u8>> {
        let mut names = Vec::new();
        for _ in 0..count {
            let name = self.name();
            if !names.contains(&name) {
                names.push(name);
            }
        }
        names
    }

    /// A value like another one: here and there a part is changed.
    pub fn relative(&mut self, value: &Value) -> Value {
        if self.random.once_in(12) {
            return self.scalar();
        }
        match value {
            Value::List(elements) => {
                let mut elements: Vec<_> = elements.iter().map(|e| self.shared(e)).collect();
                self.vary(&mut elements, |source| Rc::new(source.scalar()));
                Value::List(elements)
            }
            Value::Record(members) => {
                let alike =
                    |(name, member): &(Vec<u8>, Rc<Value>)| (name.clone(), self.shared(member));
                let mut members: Vec<_> = members.iter().map(alike).collect();
                self.vary(&mut members, |source| {
                    (source.name(), Rc::new(source.scalar()))
                });
                distinct(members)
            }
            Value::Number(_) if self.random.once_in(2) => {
                let scale = self.random.below(3);
                Value::Number(self.number(scale))
            }
            other => other.clone(),
        }
    }

    fn shared(&mut self, value: &Rc<Value>) -> Rc<Value> {
        Rc::new(self.relative(value))
    }

    /// Sometimes takes an item out or puts one in.
    fn vary<T>(&mut self, items: &mut Vec<T>, fresh: impl Fn(&mut Source) -> T) {
        if self.random.once_in(6) && !items.is_empty() {
            items.remove(self.random.below(items.len()));
        }
        if self.random.once_in(6) {
            items.push(fresh(self));
        }
    }

    /// Some value that a shape admits, where there is one.
    pub fn witness(&mut self, shape: &Shape) -> Option<Value> {
        let present = Kinds::WORDS.map(|(_, kind)| kind);
        let mut present: Vec<_> = present
            .iter()
            .filter(|kind| shape.kinds.has(**kind))
            .collect();
        while !present.is_empty() {
            let kind = *present.remove(self.random.below(present.len()));
            let found = self.witness_of(shape, kind);
            if found.is_some() {
                return found;
            }
        }
        None
    }

    fn witness_of(&mut self, shape: &Shape, kind: Kinds) -> Option<Value> {
        match kind {
            Kinds::NULL => Some(Value::Null),
            Kinds::BOOL => Some(self.scalar_of(1)),
            Kinds::INT => Some(self.scalar_of(2)),
            Kinds::DEC => Some(self.scalar_of(3)),
            Kinds::TEXT => Some(self.scalar_of(4)),
            Kinds::LIST => {
                let element = shape.element.as_deref()?;
                let tries = (0..self.random.below(3)).filter_map(|_| self.witness(element));
                Some(Value::List(tries.map(Rc::new).collect()))
            }
            _ => {
                let mut members = Vec::new();
                for member in &shape.members {
                    let lacks = member.shape.kinds.has(Kinds::NULL) && self.random.once_in(3);
                    if !lacks {
                        let value = self.witness(&member.shape)?;
                        members.push((member.name.clone(), Rc::new(value)));
                    }
                }
                Some(Value::Record(members))
            }
        }
    }
}

/// A record of the members whose names come for the first time.
fn distinct(members: Vec<(Vec<u8>, Rc<Value>)>) -> Value {
    let mut kept: Vec<(Vec<u8>, Rc<Value>)> = Vec::new();
    for (name, member) in members {
        if kept.iter().all(|(earlier, _)| *earlier != name) {
            kept.push((name, member));
        }
    }
    Value::Record(kept)
}
