//! Callees that are wrong in one way each: the comparison has to find every one.

use crate::case::{words, ANSWER};
use crate::library::{Callee, Lent};
use oracle::check::check;
use oracle::json;
use oracle::limits::Limits;
use oracle::operations::{outcome, Answer, Operation, Texts};
use oracle::plain;
use oracle::run::{fits, run};
use oracle::shape::{admits, below, Kinds, Shape};
use oracle::text_forms::{read_reader, read_shape, write_shape, Body, Case, Form};
use oracle::value::{Number, Value};
use std::rc::Rc;

/// An infer that leaves each sample's own shape, so that a chain comes to the
/// last one's.
pub const FORGETFUL: Callee = |o, mut lent| match right(o, &mut lent) {
    0 if o == Operation::Infer => {
        lent.first = b"(shape)";
        right(o, &mut lent)
    }
    number => number,
};

/// A check that passes every reader, with the shape of nothing.
pub const PASSES_EVERY_READER: Callee = |o, mut lent| match right(o, &mut lent) {
    9 | 10 if o == Operation::Check => again(&mut lent, Operation::Join, b"(shape)", b"(shape)"),
    number => number,
};

/// A check that takes a kind which is not wanted for a name that is not listed.
pub const TEN_FOR_NINE: Callee = |o, mut lent| match right(o, &mut lent) {
    9 if o == Operation::Check => 10,
    number => number,
};

/// A run that writes null whatever the reader is.
pub const RUNS_TO_NULL: Callee = |o, mut lent| match right(o, &mut lent) {
    0 if o == Operation::Run => again(&mut lent, Operation::Plain, b"null", b""),
    number => number,
};

/// A number writer whose quotient by ten to the sixteenth stays one short.
pub const ONE_SHORT: Callee = |o, mut lent| {
    let number = right(o, &mut lent);
    let sixteen = b"10000000000000000";
    let at = lent
        .output
        .windows(sixteen.len())
        .position(|s| s == sixteen);
    if let (0, Some(at)) = (number, at) {
        flip(lent.output.get_mut(at));
    }
    number
};

/// What is wrong with a callee, of which operation, and the callee.
pub const WRONG: [(&str, Operation, Callee); 59] = [
    (
        "18 is judged behind 1",
        Operation::Plain,
        |o, mut lent| match right(o, &mut lent) {
            18 if lent.answer.len() < ANSWER => 1,
            number => number,
        },
    ),
    (
        "18 is written to an answer buffer of 39 bytes",
        Operation::Below,
        |o, mut lent| {
            let number = right(o, &mut lent);
            if number == 18 {
                lent.answer.fill(0);
            }
            number
        },
    ),
    (
        "18 leaves the answer as it was",
        Operation::Admits,
        |o, mut lent| {
            let before = lent.answer.to_vec();
            let number = right(o, &mut lent);
            if number == 18 {
                lent.answer.copy_from_slice(&before);
            }
            number
        },
    ),
    ("513 values are let through", Operation::Join, |o, lent| {
        with_set(o, lent, |set| match set.values {
            513 => Limits { values: 512, ..set },
            _ => set,
        })
    }),
    (
        "steps are judged where there is a run alone",
        Operation::Infer,
        |o, lent| {
            with_set(o, lent, |set| Limits {
                steps: Limits::LARGEST.steps,
                ..set
            })
        },
    ),
    (
        "the low 32 bits are the number",
        Operation::Check,
        |o, lent| {
            with_set(o, lent, |set| Limits {
                nesting: set.nesting & 0xffff_ffff,
                values: set.values & 0xffff_ffff,
                ..set
            })
        },
    ),
    (
        "the largest set is used inside",
        Operation::Infer,
        |o, lent| {
            with_set(o, lent, |set| match set.are_in_range() {
                true => Limits::LARGEST,
                false => set,
            })
        },
    ),
    (
        "a run has the steps of the largest set",
        Operation::Run,
        |o, lent| {
            with_set(o, lent, |set| match set.are_in_range() {
                true => Limits {
                    steps: Limits::LARGEST.steps,
                    ..set
                },
                false => set,
            })
        },
    ),
    (
        "a byte of the output is changed on a refusal",
        Operation::Plain,
        |o, mut lent| {
            let number = right(o, &mut lent);
            if number > 1 {
                flip(lent.output.last_mut());
            }
            number
        },
    ),
    (
        "the byte behind the length is changed",
        Operation::Plain,
        |o, mut lent| {
            let number = right(o, &mut lent);
            let length = length(&lent);
            if number == 0 {
                flip(lent.output.get_mut(length));
            }
            number
        },
    ),
    (
        "the last byte written is another",
        Operation::Plain,
        |o, mut lent| {
            let number = right(o, &mut lent);
            let length = length(&lent);
            if number == 0 {
                flip(lent.output[..length].last_mut());
            }
            number
        },
    ),
    (
        "an answer buffer of 39 bytes is written",
        Operation::Plain,
        |o, mut lent| {
            if lent.answer.len() == ANSWER - 1 {
                lent.answer.fill(0);
            }
            right(o, &mut lent)
        },
    ),
    (
        "an answer's 41st byte is changed",
        Operation::Plain,
        |o, mut lent| {
            let number = right(o, &mut lent);
            flip(lent.answer.get_mut(ANSWER));
            number
        },
    ),
    (
        "place and length are exchanged",
        Operation::Plain,
        |o, mut lent| {
            let number = right(o, &mut lent);
            if number > 1 && lent.answer.len() >= ANSWER {
                lent.answer[8..24].rotate_left(8);
            }
            number
        },
    ),
    ("a place is one too far", Operation::Plain, |o, mut lent| {
        let number = right(o, &mut lent);
        if number == 3 {
            flip(lent.answer.get_mut(8));
        }
        number
    }),
    (
        "an output one short is refused with another length",
        Operation::Plain,
        |o, mut lent| {
            let number = right(o, &mut lent);
            if number == 15 {
                flip(lent.answer.get_mut(16));
            }
            number
        },
    ),
    ("6 is 4", Operation::Plain, |o, mut lent| {
        match right(o, &mut lent) {
            6 => 4,
            number => number,
        }
    }),
    ("infer hands its shape back", Operation::Infer, |o, lent| {
        instead(o, lent, |lent| {
            lent.second = b"(shape)";
            right(Operation::Join, lent)
        })
    }),
    ("infer forgets its shape", Operation::Infer, FORGETFUL),
    ("infer adds null", Operation::Infer, |o, lent| {
        instead(o, lent, |lent| {
            let shape = lent.output[..length(lent)].to_vec();
            again(lent, Operation::Join, &shape, b"(shape null)")
        })
    }),
    (
        "infer has a null element for an empty list",
        Operation::Infer,
        |o, lent| {
            instead(o, lent, |lent| {
                write(lent, |shape| everywhere(shape, with_null_for_no_element))
            })
        },
    ),
    (
        "infer adds null where the first record meets nothing",
        Operation::Infer,
        |o, lent| {
            instead(o, lent, |lent| {
                match shape_in(lent.first).kinds.has(Kinds::REC) {
                    true => 0,
                    false => write(lent, with_null_members),
                }
            })
        },
    ),
    (
        "infer takes 12.0 for a decimal",
        Operation::Infer,
        |o, lent| {
            instead(o, lent, |lent| {
                let document = plain::document(&decimals_by_spelling(&document_in(lent)));
                again(lent, Operation::Infer, lent.first, &document)
            })
        },
    ),
    ("11 comes one form early", Operation::Infer, |o, lent| {
        instead(o, lent, one_form_early)
    }),
    (
        "the text refused is the other one",
        Operation::Infer,
        |o, mut lent| {
            let number = right(o, &mut lent);
            if (3..=8).contains(&number) {
                lent.answer[0] ^= 3;
            }
            number
        },
    ),
    (
        "the second text is judged first",
        Operation::Infer,
        |o, mut lent| {
            let number = right(o, &mut lent);
            let mut judged = [0; ANSWER];
            let mut second = Lent {
                limits: lent.limits,
                first: lent.second,
                second: b"",
                output: &mut [],
                answer: &mut judged,
                null: false,
            };
            if number == 1 || number == 18 || right(Operation::Plain, &mut second) != 3 {
                return number;
            }
            judged[0] = 2;
            lent.answer[..ANSWER].copy_from_slice(&judged);
            3
        },
    ),
    ("join is its first shape", Operation::Join, |o, lent| {
        instead(o, lent, |lent| {
            lent.second = b"(shape)";
            right(Operation::Join, lent)
        })
    }),
    (
        "join keeps only the first shape's members",
        Operation::Join,
        |o, lent| {
            instead(o, lent, |lent| {
                let first = shape_in(lent.first);
                write(lent, |shape| within(shape, &first))
            })
        },
    ),
    (
        "a byte of the output is changed on 15",
        Operation::Join,
        |o, mut lent| {
            let number = right(o, &mut lent);
            if number == 15 {
                flip(lent.output.first_mut());
            }
            number
        },
    ),
    ("11 is 15", Operation::Join, |o, mut lent| {
        match right(o, &mut lent) {
            11 => 15,
            number => number,
        }
    }),
    (
        "a byte of the output is changed on 11",
        Operation::Join,
        |o, mut lent| {
            let number = right(o, &mut lent);
            if number == 11 {
                flip(lent.output.first_mut());
            }
            number
        },
    ),
    ("below is reversed", Operation::Below, |o, lent| {
        instead(o, lent, |lent| {
            (lent.first, lent.second) = (lent.second, lent.first);
            right(Operation::Below, lent)
        })
    }),
    ("below says yes always", Operation::Below, |o, lent| {
        instead(o, lent, |lent| {
            lent.answer[32] = 1;
            0
        })
    }),
    (
        "below lets an unlisted member through",
        Operation::Below,
        |o, lent| {
            instead(o, lent, |lent| {
                say_of_shapes(lent, |a, b| below(&within(a, &b), &b))
            })
        },
    ),
    ("admits says no always", Operation::Admits, |o, lent| {
        instead(o, lent, |lent| {
            lent.answer[32] = 0;
            0
        })
    }),
    (
        "admits lets a missing member through",
        Operation::Admits,
        |o, lent| {
            instead(o, lent, |lent| {
                say_of_document(lent, |shape, value| {
                    admits(&everywhere(shape, with_null_members), value)
                })
            })
        },
    ),
    (
        "admits lets an unlisted member through",
        Operation::Admits,
        |o, lent| {
            instead(o, lent, |lent| {
                say_of_document(lent, |shape, value| {
                    admits(&shape, &listed_in(value, &shape))
                })
            })
        },
    ),
    (
        "admits takes a decimal for an int",
        Operation::Admits,
        |o, lent| {
            instead(o, lent, |lent| {
                say_of_document(lent, |shape, value| {
                    admits(&everywhere(shape, with_dec_beside_int), value)
                })
            })
        },
    ),
    (
        "admits takes 12.0 for a decimal",
        Operation::Admits,
        |o, lent| {
            instead(o, lent, |lent| {
                say_of_document(lent, |shape, value| {
                    admits(&shape, &decimals_by_spelling(value))
                })
            })
        },
    ),
    ("check passes no reader", Operation::Check, |o, lent| {
        instead(o, lent, |lent| answer(lent, &refused(9, 0)))
    }),
    (
        "check passes every reader",
        Operation::Check,
        |_, mut lent| match right(Operation::Check, &mut lent) {
            9 | 10 => again(&mut lent, Operation::Join, b"(shape)", b"(shape)"),
            number => number,
        },
    ),
    (
        "check leaves out the second branch of when",
        Operation::Check,
        |_, lent| {
            check_otherwise(lent, |body| match body {
                Body::When(case, at, first, _) => Body::When(case, at, first, none()),
                other => other,
            })
        },
    ),
    ("check takes any condition", Operation::Check, |_, lent| {
        check_otherwise(lent, |body| match body {
            Body::If(_, first, second) => Body::If(yes(), first, second),
            other => other,
        })
    }),
    (
        "check drops int behind when int",
        Operation::Check,
        |_, lent| {
            check_otherwise(lent, |body| match body {
                Body::When(Case::Int, at, a, b) => Body::When(Case::Num, at, a, b),
                other => other,
            })
        },
    ),
    (
        "count takes no null and gives what it counts",
        Operation::Check,
        |_, lent| {
            check_otherwise(lent, |body| match body {
                Body::Count(at) => Body::Convert(Kinds::LIST, at),
                other => other,
            })
        },
    ),
    ("check has 10 before 9", Operation::Check, |o, mut lent| {
        let number = right(o, &mut lent);
        let mut judged = [0; ANSWER];
        let records = everywhere(shape_in(lent.second), records_alone);
        let mut otherwise = Lent {
            limits: lent.limits,
            first: lent.first,
            second: &write_shape(&records, &lent.limits).unwrap_or_default(),
            output: &mut [],
            answer: &mut judged,
            null: false,
        };
        let is_unlisted = number == 9 && right(o, &mut otherwise) == 10;
        match is_unlisted && judged[..] == lent.answer[..ANSWER] {
            true => 10,
            false => number,
        }
    }),
    (
        "check comes to 11 one form early",
        Operation::Check,
        |o, lent| instead(o, lent, one_form_early),
    ),
    (
        "check refuses at the word behind the bracket",
        Operation::Check,
        |o, mut lent| {
            let number = right(o, &mut lent);
            if number == 9 || number == 10 {
                flip(lent.answer.get_mut(8));
            }
            number
        },
    ),
    ("run writes null always", Operation::Run, RUNS_TO_NULL),
    ("run invents a step", Operation::Run, |o, mut lent| {
        let number = right(o, &mut lent);
        if number == 0 {
            flip(lent.answer.get_mut(24));
        }
        number
    }),
    (
        "a refused run tells its steps",
        Operation::Run,
        |o, mut lent| {
            let number = right(o, &mut lent);
            if number > 1 {
                flip(lent.answer.get_mut(24));
            }
            number
        },
    ),
    ("13 comes one step early", Operation::Run, |o, lent| {
        instead(o, lent, |lent| {
            match word(lent, 24) == lent.limits.steps as usize {
                true => 13,
                false => 0,
            }
        })
    }),
    ("14 comes one value early", Operation::Run, |_, lent| {
        run_otherwise(lent, |body| body, |values| values - 1)
    }),
    ("14 comes one value late", Operation::Run, |_, lent| {
        run_otherwise(lent, |body| body, |values| values + 1)
    }),
    ("14 is 15", Operation::Run, |o, mut lent| {
        match right(o, &mut lent) {
            14 => 15,
            number => number,
        }
    }),
    ("when int takes a decimal", Operation::Run, |_, lent| {
        run_otherwise(
            lent,
            |body| match body {
                Body::When(Case::Int, at, a, b) => Body::When(Case::Num, at, a, b),
                other => other,
            },
            |values| values,
        )
    }),
    ("int keeps a fraction", Operation::Run, |_, lent| {
        run_otherwise(
            lent,
            |body| match body {
                Body::Convert(Kinds::INT, at) => Body::Convert(Kinds::NUM, at),
                other => other,
            },
            |values| values,
        )
    }),
    ("if takes its second on false", Operation::Run, |_, lent| {
        run_otherwise(
            lent,
            |body| match body {
                Body::If(condition, a, b) => Body::If(condition, b, a),
                other => other,
            },
            |values| values,
        )
    }),
    (
        "a stuck run has another place",
        Operation::Run,
        |o, mut lent| {
            let number = right(o, &mut lent);
            if number == 12 {
                flip(lent.answer.get_mut(8));
            }
            number
        },
    ),
];

/// The right call with another set.
fn with_set(operation: Operation, mut lent: Lent, change: fn(Limits) -> Limits) -> u64 {
    lent.limits = change(lent.limits);
    right(operation, &mut lent)
}

/// The right call, and where that is done, another in its place.
fn instead(operation: Operation, mut lent: Lent, wrong: fn(&mut Lent) -> u64) -> u64 {
    match right(operation, &mut lent) {
        0 => wrong(&mut lent),
        number => number,
    }
}

/// Refuses a shape of as many forms as may be.
fn one_form_early(lent: &mut Lent) -> u64 {
    let shape = shape_in(&lent.output[..length(lent)]);
    match forms(&shape) == lent.limits.values {
        true => 11,
        false => 0,
    }
}

/// A check in which every form of the reader is changed.
fn check_otherwise(mut lent: Lent, change: fn(Body) -> Body) -> u64 {
    let shape = read_shape(lent.second, &lent.limits);
    let (Some(reader), Ok(shape)) = (changed_reader(&lent, change), shape) else {
        return right(Operation::Check, &mut lent);
    };
    let checked = check(&reader, shape).map_err(|refusal| refused(refusal.number, refusal.place));
    let written = checked.and_then(|shape| {
        write_shape(&shape, &lent.limits).ok_or(Answer {
            number: 11,
            ..Answer::default()
        })
    });
    match written {
        Ok(text) => again(&mut lent, Operation::Join, &text, b"(shape)"),
        Err(refusal) => answer(&mut lent, &refusal),
    }
}

/// A run in which every form of the reader is changed, and results have
/// another number of values.
fn run_otherwise(mut lent: Lent, change: fn(Body) -> Body, values: fn(usize) -> usize) -> u64 {
    let document = json::read(lent.second, &lent.limits);
    let (Some(reader), Ok(document)) = (changed_reader(&lent, change), document) else {
        return right(Operation::Run, &mut lent);
    };
    let limits = Limits {
        values: values(lent.limits.values),
        ..lent.limits
    };
    match run(&reader, document, &limits) {
        Ok((value, _)) if !fits(&value, &limits) => answer(
            &mut lent,
            &Answer {
                number: 14,
                ..Answer::default()
            },
        ),
        Ok((value, steps)) => give(&mut lent, &plain::document(&value), steps),
        Err(refusal) => answer(&mut lent, &refused(refusal.number, refusal.place)),
    }
}

/// Writes what a run gives, where there is room for it.
fn give(lent: &mut Lent, text: &[u8], steps: u64) -> u64 {
    let fits = text.len() <= lent.output.len();
    if fits {
        lent.output[..text.len()].copy_from_slice(text);
    }
    let given = Answer {
        number: if fits { 0 } else { 15 },
        length: text.len() as u64,
        steps: if fits { steps } else { 0 },
        ..Answer::default()
    };
    answer(lent, &given)
}

/// The reader with every form of it changed, where it and the buffers are such
/// that it is looked at.
fn changed_reader(lent: &Lent, change: fn(Body) -> Body) -> Option<Form> {
    let longest = lent.first.len().max(lent.second.len());
    let is_looked_at = lent.limits.are_in_range() && lent.answer.len() >= ANSWER;
    if !is_looked_at || longest > lent.limits.text_bytes {
        return None;
    }
    let reader = read_reader(lent.first, &lent.limits).ok()?;
    Some(in_every_form(reader, change))
}

/// Puts an answer into its buffer, and gives its number.
fn answer(lent: &mut Lent, answer: &Answer) -> u64 {
    lent.answer[..ANSWER].copy_from_slice(&words(answer));
    u64::from(answer.number)
}

/// The answer of a refusal in the reader.
fn refused(number: u8, place: usize) -> Answer {
    Answer {
        number,
        text: 1,
        place: place as u64,
        ..Answer::default()
    }
}

/// Changes every form of a reader, the innermost first.
fn in_every_form(form: Form, change: fn(Body) -> Body) -> Form {
    let inner = |part: Box<Form>| Box::new(in_every_form(*part, change));
    let body = match form.body {
        Body::Each(at, part) => Body::Each(at, inner(part)),
        Body::When(case, at, a, b) => Body::When(case, at, inner(a), inner(b)),
        Body::If(a, b, c) => Body::If(inner(a), inner(b), inner(c)),
        Body::Pack(pairs) => {
            let pairs = pairs.into_iter();
            Body::Pack(
                pairs
                    .map(|(name, part)| (name, in_every_form(part, change)))
                    .collect(),
            )
        }
        other => other,
    };
    Form {
        at: form.at,
        body: change(body),
    }
}

fn literal(value: Value) -> Box<Form> {
    let body = Body::Literal(Rc::new(value));
    Box::new(Form { at: 0, body })
}

fn none() -> Box<Form> {
    literal(Value::Null)
}

fn yes() -> Box<Form> {
    literal(Value::Bool(true))
}

/// Without the kinds beside rec.
fn records_alone(shape: Shape) -> Shape {
    match shape.kinds.has(Kinds::REC) {
        true => shape.cut(Kinds::REC),
        false => shape,
    }
}

/// Writes another shape in the place of the one written.
fn write(lent: &mut Lent, change: impl FnOnce(Shape) -> Shape) -> u64 {
    let shape = change(shape_in(&lent.output[..length(lent)]));
    match write_shape(&shape, &lent.limits) {
        Some(text) => again(lent, Operation::Join, &text, b"(shape)"),
        None => 11,
    }
}

/// The shape of a text that is right.
fn shape_in(text: &[u8]) -> Shape {
    read_shape(text, &Limits::LARGEST).unwrap_or_default()
}

/// Answers whether the shapes of two right texts stand so.
fn say_of_shapes(lent: &mut Lent, holds: fn(Shape, Shape) -> bool) -> u64 {
    let yes = holds(shape_in(lent.first), shape_in(lent.second));
    lent.answer[32] = u8::from(yes);
    0
}

/// Answers whether a right shape and document stand so.
fn say_of_document(lent: &mut Lent, holds: fn(Shape, &Value) -> bool) -> u64 {
    lent.answer[32] = u8::from(holds(shape_in(lent.first), &document_in(lent)));
    0
}

fn document_in(lent: &Lent) -> Value {
    json::read(lent.second, &Limits::LARGEST).unwrap_or(Value::Null)
}

/// The value with a decimal for every number that is written with a point.
fn decimals_by_spelling(value: &Value) -> Value {
    let inner = |part: &Rc<Value>| Rc::new(decimals_by_spelling(part));
    match value {
        Value::Number(number) if number.has_fraction() => Value::Number(Number {
            coefficient: 1,
            scale: 1,
        }),
        Value::List(parts) => Value::List(parts.iter().map(inner).collect()),
        Value::Record(members) => {
            let members = members.iter();
            Value::Record(members.map(|(n, v)| (n.clone(), inner(v))).collect())
        }
        other => other.clone(),
    }
}

/// Changes every shape within a shape, the innermost first.
fn everywhere(mut shape: Shape, change: fn(Shape) -> Shape) -> Shape {
    let inner = shape.element.take();
    shape.element = inner.map(|element| Box::new(everywhere(*element, change)));
    for member in &mut shape.members {
        member.shape = everywhere(std::mem::take(&mut member.shape), change);
    }
    change(shape)
}

fn with_null(mut shape: Shape) -> Shape {
    shape.kinds = shape.kinds.and(Kinds::NULL);
    shape
}

fn with_null_members(mut shape: Shape) -> Shape {
    for member in &mut shape.members {
        member.shape = with_null(std::mem::take(&mut member.shape));
    }
    shape
}

fn with_null_for_no_element(mut shape: Shape) -> Shape {
    let element = shape.element.take();
    shape.element = element.map(|element| match *element == Shape::default() {
        true => Box::new(with_null(*element)),
        false => element,
    });
    shape
}

fn with_dec_beside_int(mut shape: Shape) -> Shape {
    if shape.kinds.has(Kinds::INT) {
        shape.kinds = shape.kinds.and(Kinds::DEC);
    }
    shape
}

/// Without the members that a record's shape does not list.
fn within(mut shape: Shape, listed: &Shape) -> Shape {
    if listed.kinds.has(Kinds::REC) {
        shape
            .members
            .retain(|member| listed.member(&member.name).is_some());
    }
    shape
}

/// Without the members that the shape does not list, at every level.
fn listed_in(value: &Value, shape: &Shape) -> Value {
    let kept = |inner: Option<&Shape>, part: &Rc<Value>| match inner {
        Some(inner) => Rc::new(listed_in(part, inner)),
        None => part.clone(),
    };
    match value {
        Value::List(parts) => {
            let parts = parts.iter();
            Value::List(
                parts
                    .map(|part| kept(shape.element.as_deref(), part))
                    .collect(),
            )
        }
        Value::Record(members) => {
            let listed = members
                .iter()
                .filter(|(name, _)| shape.member(name).is_some());
            let kept = |(name, part): &(Vec<u8>, Rc<Value>)| {
                (name.clone(), kept(shape.member(name), part))
            };
            Value::Record(listed.map(kept).collect())
        }
        scalar => scalar.clone(),
    }
}

fn forms(shape: &Shape) -> usize {
    let element = shape.element.as_deref().map_or(0, forms);
    let members: usize = shape
        .members
        .iter()
        .map(|member| forms(&member.shape))
        .sum();
    1 + element + members
}

/// A further call that writes to the same buffers.
fn again(lent: &mut Lent, operation: Operation, first: &[u8], second: &[u8]) -> u64 {
    let mut lent = Lent {
        limits: lent.limits,
        first,
        second,
        output: lent.output,
        answer: lent.answer,
        null: lent.null,
    };
    right(operation, &mut lent)
}

fn flip(byte: Option<&mut u8>) {
    if let Some(byte) = byte {
        *byte ^= 1;
    }
}

/// The length that the answer has; 0 where there is none.
fn length(lent: &Lent) -> usize {
    word(lent, 16)
}

/// The answer's word at a place; 0 where there is none.
fn word(lent: &Lent, at: usize) -> usize {
    let word = lent.answer.get(at..at + 8);
    let word = word.and_then(|word| word.try_into().ok());
    word.map_or(0, |word| u64::from_le_bytes(word) as usize)
}

/// What the second implementation does.
fn right(operation: Operation, lent: &mut Lent) -> u64 {
    let Some(answer) = lent.answer.get_mut(..ANSWER) else {
        return if lent.limits.are_in_range() { 1 } else { 18 };
    };
    let texts = Texts {
        first: lent.first,
        second: lent.second,
        limits: &lent.limits,
    };
    let (said, written): (Answer, Vec<u8>) = outcome(operation, texts, lent.output.len());
    lent.output[..written.len()].copy_from_slice(&written);
    answer.copy_from_slice(&words(&said));
    u64::from(said.number)
}
