//! Readers, read from their texts.

use super::tokens::{Forms, Token};
use crate::limits::{Limits, Refusal};
use crate::shape::Kinds;
use crate::value::{Number, Value};
use std::rc::Rc;

/// A result form and the place of its bracket.
#[derive(Clone, Debug)]
pub struct Form {
    pub at: usize,
    pub body: Body,
}

#[derive(Clone, Debug)]
pub enum Body {
    /// `int`, `dec`, `bool` or `text`: the kinds it wants and gives
    Convert(Kinds, Place),
    Keep(Place),
    Count(Place),
    Each(Place, Box<Form>),
    When(Case, Place, Box<Form>, Box<Form>),
    If(Box<Form>, Box<Form>, Box<Form>),
    /// `num`, `str`, `yes`, `no` or `none`
    Literal(Rc<Value>),
    Pack(Vec<(Vec<u8>, Form)>),
}

/// A place form and the place of its bracket in the text.
#[derive(Clone, Debug)]
pub struct Place {
    pub at: usize,
    pub spot: Spot,
}

#[derive(Clone, Debug)]
pub enum Spot {
    It(usize),
    Field(Vec<u8>, Box<Place>),
}

/// The K of `when`.
#[derive(Clone, Copy, Debug, PartialEq, Eq)]
pub enum Case {
    Null,
    Bool,
    Int,
    Num,
    Text,
    List,
    Rec,
}

impl Case {
    pub const WORDS: [(&'static str, Case); 7] = [
        ("null", Case::Null),
        ("bool", Case::Bool),
        ("int", Case::Int),
        ("num", Case::Num),
        ("text", Case::Text),
        ("list", Case::List),
        ("rec", Case::Rec),
    ];
}

/// Reads a whole reader text. Its size (2) has been judged before. One without a token means `(none)`, at place 0.
pub fn read_reader(bytes: &[u8], limits: &Limits) -> Result<Form, Refusal> {
    let mut forms = Forms::new(bytes, limits);
    if forms.token == Token::End {
        let body = Body::Literal(Rc::new(Value::Null));
        return Ok(Form { at: 0, body });
    }
    // The document is bound around everything.
    let form = form(&mut forms, 1, 1)?;
    forms.end()?;
    Ok(form)
}

/// Reads a result form inside `bound` bindings.
fn form(forms: &mut Forms, nesting: usize, bound: usize) -> Result<Form, Refusal> {
    let at = forms.open_form(nesting)?;
    let Token::Word(word) = forms.token else {
        return forms.wrong();
    };
    let inner = nesting + 1;
    let body = match word {
        b"int" | b"dec" | b"bool" | b"text" | b"keep" | b"count" => {
            forms.advance();
            on_place(word, place(forms, inner, bound)?)
        }
        b"each" => {
            forms.advance();
            let list = place(forms, inner, bound)?;
            Body::Each(list, boxed(forms, inner, bound + 1)?)
        }
        b"when" => {
            forms.advance();
            when(forms, inner, bound)?
        }
        b"if" => {
            forms.advance();
            let condition = boxed(forms, inner, bound)?;
            let yes = boxed(forms, inner, bound)?;
            Body::If(condition, yes, boxed(forms, inner, bound)?)
        }
        b"pack" => {
            forms.advance();
            pack(forms, inner, bound)?
        }
        _ => Body::Literal(Rc::new(literal(forms, word)?)),
    };
    forms.close()?;
    Ok(Form { at, body })
}

fn boxed(forms: &mut Forms, nesting: usize, bound: usize) -> Result<Box<Form>, Refusal> {
    Ok(Box::new(form(forms, nesting, bound)?))
}

/// The forms that take one place and nothing else.
fn on_place(word: &[u8], place: Place) -> Body {
    match word {
        b"int" => Body::Convert(Kinds::INT, place),
        b"dec" => Body::Convert(Kinds::NUM, place),
        b"bool" => Body::Convert(Kinds::BOOL, place),
        b"text" => Body::Convert(Kinds::TEXT, place),
        b"keep" => Body::Keep(place),
        _ => Body::Count(place),
    }
}

fn when(forms: &mut Forms, nesting: usize, bound: usize) -> Result<Body, Refusal> {
    let case = Case::WORDS
        .iter()
        .find(|(word, _)| forms.token == Token::Word(word.as_bytes()));
    let Some((_, case)) = case else {
        return forms.wrong();
    };
    forms.advance();
    let place = place(forms, nesting, bound)?;
    let first = boxed(forms, nesting, bound + 1)?;
    let second = boxed(forms, nesting, bound + 1)?;
    Ok(Body::When(*case, place, first, second))
}

fn pack(forms: &mut Forms, nesting: usize, bound: usize) -> Result<Body, Refusal> {
    let mut pairs: Vec<(Vec<u8>, Form)> = Vec::new();
    while forms.token != Token::Close {
        let name = forms.text(|name| pairs.iter().all(|(earlier, _)| earlier != name))?;
        let part = form(forms, nesting, bound)?;
        pairs.push((name, part));
    }
    Ok(Body::Pack(pairs))
}

/// Reads the rest of a literal form whose word is the current token.
fn literal(forms: &mut Forms, word: &[u8]) -> Result<Value, Refusal> {
    let value = match word {
        b"yes" => Value::Bool(true),
        b"no" => Value::Bool(false),
        b"none" => Value::Null,
        b"num" => {
            forms.advance();
            return Ok(Value::Number(forms.number(|_, _| true)?));
        }
        b"str" => {
            forms.advance();
            return Ok(Value::Text(forms.text(|_| true)?));
        }
        _ => return forms.wrong(),
    };
    forms.advance();
    Ok(value)
}

fn place(forms: &mut Forms, nesting: usize, bound: usize) -> Result<Place, Refusal> {
    let at = forms.open_form(nesting)?;
    let spot = match forms.token {
        Token::Word(b"it") => {
            forms.advance();
            Spot::It(binding(forms, bound)?)
        }
        Token::Word(b"field") => {
            forms.advance();
            let name = forms.text(|_| true)?;
            Spot::Field(name, Box::new(place(forms, nesting + 1, bound)?))
        }
        _ => return forms.wrong(),
    };
    forms.close()?;
    Ok(Place { at, spot })
}

/// Reads the N of `it`: no minus, not even before a zero, and no fraction.
fn binding(forms: &mut Forms, bound: usize) -> Result<usize, Refusal> {
    let outward = |number: &Number| usize::try_from(number.coefficient).unwrap_or(usize::MAX);
    let number = forms.number(|number, spelled| {
        !number.has_fraction() && spelled[0] != b'-' && outward(number) < bound
    })?;
    Ok(outward(&number))
}
