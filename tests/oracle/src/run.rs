//! Running a reader over a document: refusals 12 and 13, and the limits of 14.

use crate::limits::{refuse, Limits, Refusal};
use crate::shape::Kinds;
use crate::text_forms::{Body, Case, Form, Place, Spot};
use crate::value::{Number, Value};
use std::rc::Rc;

/// The value that a reader gives on a document, and the steps it took.
pub fn run(reader: &Form, document: Value, limits: &Limits) -> Result<(Rc<Value>, u64), Refusal> {
    let mut machine = Machine {
        steps: 0,
        most_steps: limits.steps,
        bound: vec![Rc::new(document)],
    };
    let value = machine.form(reader)?;
    Ok((value, machine.steps))
}

struct Machine {
    steps: u64,
    most_steps: u64,
    /// bindings, the innermost last
    bound: Vec<Rc<Value>>,
}

impl Machine {
    fn enter(&mut self, at: usize) -> Result<(), Refusal> {
        if self.steps == self.most_steps {
            return refuse(13, at);
        }
        self.steps += 1;
        Ok(())
    }

    fn form(&mut self, part: &Form) -> Result<Rc<Value>, Refusal> {
        self.enter(part.at)?;
        match &part.body {
            Body::Convert(kinds, at) => {
                let value = self.place(at)?;
                match kind(&value).within(*kinds) {
                    true => Ok(converted(*kinds, value)),
                    false => refuse(12, part.at),
                }
            }
            Body::Keep(at) => self.place(at),
            Body::Count(at) => match &*self.place(at)? {
                Value::Null => Ok(count(0)),
                Value::List(elements) => Ok(count(elements.len())),
                _ => refuse(12, part.at),
            },
            Body::Each(at, result) => match &*self.place(at)? {
                Value::Null => Ok(Rc::new(Value::List(Vec::new()))),
                Value::List(elements) => self.each(elements, result),
                _ => refuse(12, part.at),
            },
            Body::When(case, at, first, second) => {
                let value = self.place(at)?;
                let chosen = if is(*case, &value) { first } else { second };
                self.form_with(chosen, value)
            }
            Body::If(condition, first, second) => match &*self.form(condition)? {
                Value::Bool(true) => self.form(first),
                Value::Bool(false) => self.form(second),
                _ => refuse(12, part.at),
            },
            Body::Literal(value) => Ok(Rc::clone(value)),
            Body::Pack(pairs) => self.pack(pairs),
        }
    }

    /// Runs a form with one more binding around it.
    fn form_with(&mut self, part: &Form, binding: Rc<Value>) -> Result<Rc<Value>, Refusal> {
        self.bound.push(binding);
        let result = self.form(part);
        self.bound.pop();
        result
    }

    fn each(&mut self, elements: &[Rc<Value>], part: &Form) -> Result<Rc<Value>, Refusal> {
        let mut results = Vec::new();
        for element in elements {
            results.push(self.form_with(part, Rc::clone(element))?);
        }
        Ok(Rc::new(Value::List(results)))
    }

    fn pack(&mut self, pairs: &[(Vec<u8>, Form)]) -> Result<Rc<Value>, Refusal> {
        let mut members = Vec::new();
        for (name, part) in pairs {
            members.push((name.clone(), self.form(part)?));
        }
        Ok(Rc::new(Value::Record(members)))
    }

    fn place(&mut self, part: &Place) -> Result<Rc<Value>, Refusal> {
        self.enter(part.at)?;
        match &part.spot {
            Spot::It(outward) => Ok(Rc::clone(&self.bound[self.bound.len() - 1 - outward])),
            Spot::Field(name, inner) => match &*self.place(inner)? {
                Value::Record(members) => {
                    let found = members.iter().find(|(other, _)| other == name);
                    let member = found.map(|(_, value)| Rc::clone(value));
                    Ok(member.unwrap_or(Rc::new(Value::Null)))
                }
                Value::Null => Ok(Rc::new(Value::Null)),
                _ => refuse(12, part.at),
            },
        }
    }
}

fn count(length: usize) -> Rc<Value> {
    Rc::new(Value::Number(Number::int(length as i64)))
}

/// What a conversion of these kinds gives: `int` writes no fraction.
fn converted(kinds: Kinds, value: Rc<Value>) -> Rc<Value> {
    match &*value {
        Value::Number(number) if kinds == Kinds::INT => {
            Rc::new(Value::Number(number.without_fraction()))
        }
        _ => value,
    }
}

/// The one kind of a value; a decimal is dec alone here.
fn kind(value: &Value) -> Kinds {
    match value {
        Value::Null => Kinds::NULL,
        Value::Bool(_) => Kinds::BOOL,
        Value::Number(number) if number.is_int() => Kinds::INT,
        Value::Number(_) => Kinds::DEC,
        Value::Text(_) => Kinds::TEXT,
        Value::List(_) => Kinds::LIST,
        Value::Record(_) => Kinds::REC,
    }
}

fn is(case: Case, value: &Value) -> bool {
    match case {
        Case::Null => matches!(value, Value::Null),
        Case::Bool => matches!(value, Value::Bool(_)),
        Case::Int => matches!(value, Value::Number(number) if number.is_int()),
        Case::Num => matches!(value, Value::Number(_)),
        Case::Text => matches!(value, Value::Text(_)),
        Case::List => matches!(value, Value::List(_)),
        Case::Rec => matches!(value, Value::Record(_)),
    }
}

/// Whether a result keeps within the limits of 14. Looks at no more values
/// than may be there, since shared parts can make a result very large.
pub fn fits(result: &Value, limits: &Limits) -> bool {
    let mut values_left = limits.values;
    part_fits(result, limits.nesting, &mut values_left)
}

fn part_fits(value: &Value, nesting_left: usize, values_left: &mut usize) -> bool {
    if nesting_left == 0 || *values_left == 0 {
        return false;
    }
    *values_left -= 1;
    let mut inner_fits = |inner: &Rc<Value>| part_fits(inner, nesting_left - 1, values_left);
    match value {
        Value::List(elements) => elements.iter().all(inner_fits),
        Value::Record(members) => members.iter().all(|(_, member)| inner_fits(member)),
        _ => true,
    }
}
