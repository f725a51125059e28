//! The limits that an operation judges by, and what a text is refused with.

/// The set of four numbers that every call is handed.
#[derive(Clone, Copy, Debug, PartialEq, Eq)]
pub struct Limits {
    /// the most bytes a text holds, given or a shape's written one (2, 11)
    pub text_bytes: usize,
    /// the most values or forms a text or a result holds (6, 8, 11, 14)
    pub values: usize,
    /// the deepest nesting, the root being 1 (6, 8, 11, 14)
    pub nesting: usize,
    /// the most steps of a run (13)
    pub steps: u64,
}

impl Limits {
    pub const SMALLEST: Limits = Limits {
        text_bytes: 1_024,
        values: 16,
        nesting: 4,
        steps: 256,
    };
    pub const LARGEST: Limits = Limits {
        text_bytes: 16_384,
        values: 512,
        nesting: 32,
        steps: 65_536,
    };

    /// Whether each number is in its range; a call with another is refused
    /// (18).
    pub fn are_in_range(&self) -> bool {
        let (least, most) = (Limits::SMALLEST, Limits::LARGEST);
        (least.text_bytes..=most.text_bytes).contains(&self.text_bytes)
            && (least.values..=most.values).contains(&self.values)
            && (least.nesting..=most.nesting).contains(&self.nesting)
            && (least.steps..=most.steps).contains(&self.steps)
    }

    /// Limits from columns of a row: all four, or none for the largest set.
    pub fn parse(columns: &[&str]) -> Option<Limits> {
        let numbers: Option<Vec<u64>> = columns.iter().map(|word| word.parse().ok()).collect();
        match numbers?[..] {
            [] => Some(Limits::LARGEST),
            [text_bytes, values, nesting, steps] => Some(Limits {
                text_bytes: usize::try_from(text_bytes).ok()?,
                values: usize::try_from(values).ok()?,
                nesting: usize::try_from(nesting).ok()?,
                steps,
            }),
            _ => None,
        }
    }
}

/// A cause found in one text: the paper's number and the byte it stands at.
#[derive(Clone, Copy, Debug, PartialEq, Eq)]
pub struct Refusal {
    pub number: u8,
    pub place: usize,
}

/// The refusal `number` at `place`, as a result to return.
pub fn refuse<T>(number: u8, place: usize) -> Result<T, Refusal> {
    Err(Refusal { number, place })
}
