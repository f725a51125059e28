//! Shape texts, read and written.

use super::tokens::{Forms, Token};
use crate::limits::{Limits, Refusal};
use crate::plain;
use crate::shape::{Kinds, Member, Shape};

/// Reads a whole shape text. Its size (2) has been judged before.
pub fn read_shape(bytes: &[u8], limits: &Limits) -> Result<Shape, Refusal> {
    let mut forms = Forms::new(bytes, limits);
    let shape = shape(&mut forms, 1)?;
    forms.end()?;
    Ok(shape)
}

fn shape(forms: &mut Forms, nesting: usize) -> Result<Shape, Refusal> {
    forms.open_form(nesting)?;
    forms.word("shape")?;
    let kinds = kinds(forms)?;
    let element = match kinds.has(Kinds::LIST) {
        true => Some(Box::new(shape(forms, nesting + 1)?)),
        false => None,
    };
    let mut members = Vec::new();
    while kinds.has(Kinds::REC) && forms.token == Token::Open {
        let next = member(forms, nesting, members.last())?;
        members.push(next);
    }
    forms.close()?;
    Ok(Shape {
        kinds,
        element,
        members,
    })
}

/// Reads kind words, each behind the earlier ones in their order.
fn kinds(forms: &mut Forms) -> Result<Kinds, Refusal> {
    let mut kinds = Kinds::NONE;
    let mut left = Kinds::WORDS.iter();
    while let Token::Word(word) = forms.token {
        match left.find(|(spelled, _)| spelled.as_bytes() == word) {
            Some((_, kind)) if *kind != Kinds::DEC || kinds.has(Kinds::INT) => {
                kinds = kinds.and(*kind)
            }
            _ => return forms.wrong(),
        }
        forms.advance();
    }
    Ok(kinds)
}

/// Reads a member, whose name stands above the one before. Its own form
/// counts for nothing.
fn member(forms: &mut Forms, nesting: usize, before: Option<&Member>) -> Result<Member, Refusal> {
    forms.open()?;
    forms.word("member")?;
    let name = forms.text(|name| before.is_none_or(|before| name > &before.name))?;
    let shape = shape(forms, nesting + 1)?;
    forms.close()?;
    Ok(Member { name, shape })
}

/// The shape text of a shape, or none where it goes past the limits (11).
pub fn write_shape(shape: &Shape, limits: &Limits) -> Option<Vec<u8>> {
    let mut forms_left = limits.values;
    if !fits(shape, limits.nesting, &mut forms_left) {
        return None;
    }
    let mut out = Vec::new();
    write(shape, 0, &mut out);
    out.push(b'\n');
    (out.len() <= limits.text_bytes).then_some(out)
}

/// Whether the shape has no more forms and nesting than there are left.
fn fits(shape: &Shape, nesting_left: usize, forms_left: &mut usize) -> bool {
    if nesting_left == 0 || *forms_left == 0 {
        return false;
    }
    *forms_left -= 1;
    let members = shape.members.iter().map(|member| &member.shape);
    let mut inner = shape.element.as_deref().into_iter().chain(members);
    inner.all(|shape| fits(shape, nesting_left - 1, forms_left))
}

/// Writes a shape that has `around` forms around it.
fn write(shape: &Shape, around: usize, out: &mut Vec<u8>) {
    out.extend_from_slice(b"(shape");
    for (word, kind) in Kinds::WORDS {
        if shape.kinds.has(kind) {
            out.push(b' ');
            out.extend_from_slice(word.as_bytes());
        }
    }
    if let Some(element) = &shape.element {
        new_line(around + 1, out);
        write(element, around + 1, out);
    }
    for member in &shape.members {
        new_line(around + 1, out);
        out.extend_from_slice(b"(member ");
        plain::text(&member.name, out);
        new_line(around + 2, out);
        write(&member.shape, around + 2, out);
        out.push(b')');
    }
    out.push(b')');
}

fn new_line(indent: usize, out: &mut Vec<u8>) {
    out.push(b'\n');
    out.resize(out.len() + indent, b' ');
}
