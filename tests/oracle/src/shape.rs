//! Shapes: their order, join, the shape of a value, and which values a shape
//! admits.

use crate::value::Value;
use std::cmp::Ordering;

/// A set of kinds, one bit for each.
#[derive(Clone, Copy, Debug, Default, PartialEq, Eq)]
pub struct Kinds(pub u8);

impl Kinds {
    pub const NONE: Kinds = Kinds(0);
    pub const NULL: Kinds = Kinds(1);
    pub const BOOL: Kinds = Kinds(2);
    pub const INT: Kinds = Kinds(4);
    pub const DEC: Kinds = Kinds(8);
    pub const TEXT: Kinds = Kinds(16);
    pub const LIST: Kinds = Kinds(32);
    pub const REC: Kinds = Kinds(64);
    /// int and dec, the kinds of a decimal's shape
    pub const NUM: Kinds = Kinds(12);
    /// rec and null, the kinds that `field` wants
    pub const FIELD: Kinds = Kinds(65);

    /// The words of the kinds in the order in which they are written.
    pub const WORDS: [(&'static str, Kinds); 7] = [
        ("null", Kinds::NULL),
        ("bool", Kinds::BOOL),
        ("int", Kinds::INT),
        ("dec", Kinds::DEC),
        ("text", Kinds::TEXT),
        ("list", Kinds::LIST),
        ("rec", Kinds::REC),
    ];

    pub fn within(self, others: Kinds) -> bool {
        self.0 & !others.0 == 0
    }

    pub fn has(self, kind: Kinds) -> bool {
        kind.within(self)
    }

    pub fn and(self, others: Kinds) -> Kinds {
        Kinds(self.0 | others.0)
    }

    pub fn common(self, others: Kinds) -> Kinds {
        Kinds(self.0 & others.0)
    }

    pub fn without(self, others: Kinds) -> Kinds {
        Kinds(self.0 & !others.0)
    }
}

/// The default shape is nothing, the one with no kind.
#[derive(Clone, Debug, Default, PartialEq, Eq)]
pub struct Shape {
    pub kinds: Kinds,
    /// there exactly with list
    pub element: Option<Box<Shape>>,
    /// names strictly ascending by bytes; none without rec
    pub members: Vec<Member>,
}

#[derive(Clone, Debug, PartialEq, Eq)]
pub struct Member {
    pub name: Vec<u8>,
    pub shape: Shape,
}

impl Shape {
    /// A shape of kinds without list; with rec it has no member.
    pub fn of_kinds(kinds: Kinds) -> Shape {
        Shape {
            kinds,
            ..Shape::default()
        }
    }

    pub fn list(element: Shape) -> Shape {
        Shape {
            kinds: Kinds::LIST,
            element: Some(Box::new(element)),
            members: Vec::new(),
        }
    }

    /// A record's shape, from members in any order with distinct names.
    pub fn record(mut members: Vec<Member>) -> Shape {
        members.sort_by(|a, b| a.name.cmp(&b.name));
        Shape {
            kinds: Kinds::REC,
            element: None,
            members,
        }
    }

    pub fn member(&self, name: &[u8]) -> Option<&Shape> {
        let order = |member: &Member| member.name.as_slice().cmp(name);
        let at = self.members.binary_search_by(order).ok()?;
        Some(&self.members[at].shape)
    }

    /// What `field` gives: the shape of the member, with null where this one has it.
    pub fn field(&self, name: &[u8]) -> Option<Shape> {
        let member = self.member(name)?.clone();
        match self.has_null() {
            true => Some(member.with_null()),
            false => Some(member),
        }
    }

    /// Cuts the shape to some kinds; the element goes with list, the members
    /// with rec.
    pub fn cut(&self, kinds: Kinds) -> Shape {
        let kinds = self.kinds.common(kinds);
        Shape {
            kinds,
            element: self.element.clone().filter(|_| kinds.has(Kinds::LIST)),
            members: match kinds.has(Kinds::REC) {
                true => self.members.clone(),
                false => Vec::new(),
            },
        }
    }

    fn with_null(mut self) -> Shape {
        self.kinds = self.kinds.and(Kinds::NULL);
        self
    }

    fn has_null(&self) -> bool {
        self.kinds.has(Kinds::NULL)
    }
}

/// Whether `a` is below `b`.
pub fn below(a: &Shape, b: &Shape) -> bool {
    let elements = match (&a.element, &b.element) {
        (Some(a), Some(b)) => below(a, b),
        _ => true,
    };
    // Without rec, `a` has no members and asks nothing of those of `b`.
    let members = !a.kinds.has(Kinds::REC) || members_below(a, b);
    a.kinds.within(b.kinds) && elements && members
}

fn members_below(a: &Shape, b: &Shape) -> bool {
    let listed = a.members.iter().all(|member| {
        let other = b.member(&member.name);
        other.is_some_and(|other| below(&member.shape, other))
    });
    let mut lacking = b.members.iter().filter(|m| a.member(&m.name).is_none());
    listed && lacking.all(|member| member.shape.has_null())
}

/// The join of two shapes.
pub fn join(a: Shape, b: Shape) -> Shape {
    let both_records = a.kinds.has(Kinds::REC) && b.kinds.has(Kinds::REC);
    Shape {
        kinds: a.kinds.and(b.kinds),
        element: match (a.element, b.element) {
            (Some(a), Some(b)) => Some(Box::new(join(*a, *b))),
            (a, b) => a.or(b),
        },
        members: match both_records {
            true => join_members(a.members, b.members),
            // At most one of the two has members here.
            false => a.members.into_iter().chain(b.members).collect(),
        },
    }
}

/// Merges two ascending rows of members; one found in a single row gets null.
fn join_members(a: Vec<Member>, b: Vec<Member>) -> Vec<Member> {
    let mut joined = Vec::with_capacity(a.len().max(b.len()));
    let mut a = a.into_iter().peekable();
    let mut b = b.into_iter().peekable();
    loop {
        let order = match (a.peek(), b.peek()) {
            (Some(x), Some(y)) => x.name.cmp(&y.name),
            (Some(_), None) => Ordering::Less,
            (None, _) => Ordering::Greater,
        };
        let from_a = a.next_if(|_| order != Ordering::Greater);
        let from_b = b.next_if(|_| order != Ordering::Less);
        joined.push(match (from_a, from_b) {
            (Some(x), Some(y)) => Member {
                name: x.name,
                shape: join(x.shape, y.shape),
            },
            (Some(lone), None) | (None, Some(lone)) => Member {
                name: lone.name,
                shape: lone.shape.with_null(),
            },
            (None, None) => return joined,
        });
    }
}

/// The shape of a value.
pub fn shape_of(value: &Value) -> Shape {
    match value {
        Value::Null => Shape::of_kinds(Kinds::NULL),
        Value::Bool(_) => Shape::of_kinds(Kinds::BOOL),
        Value::Number(number) if number.is_int() => Shape::of_kinds(Kinds::INT),
        Value::Number(_) => Shape::of_kinds(Kinds::NUM),
        Value::Text(_) => Shape::of_kinds(Kinds::TEXT),
        Value::List(elements) => {
            let shapes = elements.iter().map(|element| shape_of(element));
            Shape::list(shapes.fold(Shape::default(), join))
        }
        Value::Record(members) => {
            let members = members.iter().map(|(name, member)| Member {
                name: name.clone(),
                shape: shape_of(member),
            });
            Shape::record(members.collect())
        }
    }
}

/// Whether a shape admits a value.
pub fn admits(shape: &Shape, value: &Value) -> bool {
    match value {
        Value::Null => shape.has_null(),
        Value::Bool(_) => shape.kinds.has(Kinds::BOOL),
        Value::Number(number) if number.is_int() => shape.kinds.has(Kinds::INT),
        Value::Number(_) => shape.kinds.has(Kinds::DEC),
        Value::Text(_) => shape.kinds.has(Kinds::TEXT),
        Value::List(elements) => match &shape.element {
            Some(inner) => elements.iter().all(|element| admits(inner, element)),
            None => false,
        },
        Value::Record(members) => {
            let listed = members.iter().all(|(name, member)| {
                let inner = shape.member(name);
                inner.is_some_and(|inner| admits(inner, member))
            });
            let lacks = |name: &[u8]| members.iter().all(|(other, _)| other != name);
            let mut lacking = shape.members.iter().filter(|m| lacks(&m.name));
            shape.kinds.has(Kinds::REC) && listed && lacking.all(|m| m.shape.has_null())
        }
    }
}
