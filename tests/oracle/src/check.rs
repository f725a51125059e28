//! Checking a reader against a document's shape: refusals 9 and 10.

use crate::limits::{refuse, Refusal};
use crate::shape::{join, shape_of, Kinds, Member, Shape};
use crate::text_forms::{Body, Case, Form, Place, Spot};

/// The result shape of a reader on documents of a shape.
pub fn check(reader: &Form, document: Shape) -> Result<Shape, Refusal> {
    form(reader, &mut vec![document])
}

/// Checks a form inside bindings, the innermost last.
fn form(part: &Form, bound: &mut Vec<Shape>) -> Result<Shape, Refusal> {
    match &part.body {
        Body::Convert(kinds, at) => {
            let given = place(at, bound)?;
            want(part.at, &given, *kinds)?;
            Ok(Shape::of_kinds(*kinds))
        }
        Body::Keep(at) => place(at, bound),
        Body::Count(at) => {
            want_list(part.at, &place(at, bound)?)?;
            Ok(Shape::of_kinds(Kinds::INT))
        }
        Body::Each(at, result) => {
            let given = place(at, bound)?;
            let element = given.element.as_deref().cloned().unwrap_or_default();
            let result = form_with(result, element, bound)?;
            // The form itself comes last, though its cause may be plain before.
            want_list(part.at, &given)?;
            Ok(Shape::list(result))
        }
        Body::When(case, at, first, second) => {
            let (taken, left) = split(*case, &place(at, bound)?);
            let first = form_with(first, taken, bound)?;
            let second = form_with(second, left, bound)?;
            Ok(join(first, second))
        }
        Body::If(condition, first, second) => {
            let condition = form(condition, bound)?;
            let first = form(first, bound)?;
            let second = form(second, bound)?;
            want(part.at, &condition, Kinds::BOOL)?;
            Ok(join(first, second))
        }
        Body::Literal(value) => Ok(shape_of(value)),
        Body::Pack(pairs) => pack(pairs, bound),
    }
}

/// Checks a form with one more binding around it.
fn form_with(part: &Form, binding: Shape, bound: &mut Vec<Shape>) -> Result<Shape, Refusal> {
    bound.push(binding);
    let result = form(part, bound);
    bound.pop();
    result
}

fn pack(pairs: &[(Vec<u8>, Form)], bound: &mut Vec<Shape>) -> Result<Shape, Refusal> {
    let mut members = Vec::new();
    for (name, part) in pairs {
        let shape = form(part, bound)?;
        let name = name.clone();
        members.push(Member { name, shape });
    }
    Ok(Shape::record(members))
}

fn place(part: &Place, bound: &[Shape]) -> Result<Shape, Refusal> {
    match &part.spot {
        Spot::It(outward) => Ok(bound[bound.len() - 1 - outward].clone()),
        Spot::Field(name, inner) => {
            let given = place(inner, bound)?;
            want(part.at, &given, Kinds::FIELD)?;
            match given.field(name) {
                Some(member) => Ok(member),
                None => refuse(10, part.at),
            }
        }
    }
}

fn want(at: usize, given: &Shape, wanted: Kinds) -> Result<(), Refusal> {
    match given.kinds.within(wanted) {
        true => Ok(()),
        false => refuse(9, at),
    }
}

fn want_list(at: usize, given: &Shape) -> Result<(), Refusal> {
    want(at, given, Kinds::LIST.and(Kinds::NULL))
}

/// What `when` binds in its first and in its second result.
pub fn split(case: Case, given: &Shape) -> (Shape, Shape) {
    let kinds = match case {
        Case::Null => Kinds::NULL,
        Case::Bool => Kinds::BOOL,
        Case::Int => Kinds::INT,
        Case::Num => Kinds::NUM,
        Case::Text => Kinds::TEXT,
        Case::List => Kinds::LIST,
        Case::Rec => Kinds::REC,
    };
    // A decimal is no int, so int has to stay beside dec.
    let out = match case == Case::Int && given.kinds.has(Kinds::DEC) {
        true => Kinds::NONE,
        false => kinds,
    };
    let left = given.kinds.without(out);
    (given.cut(kinds), given.cut(left))
}
