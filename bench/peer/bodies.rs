//! Bodies and the table of kinds.

#[derive(Clone, Copy, Debug, PartialEq, Eq)]
pub enum Body {
    Empty,
    Neutral,
    Insert { event: u32, start: i32 },
    Drop { event: u32 },
    Shift { event: u32, frames: i32 },
}

/// One row of the table of kinds.
struct Limits {
    least_event: u32,
    most_event: u32,
    least_argument: i32,
    most_argument: i32,
}

const NO_NUMBERS: Limits = Limits { least_event: 0, most_event: 0, least_argument: 0, most_argument: 0 };

const KINDS: [Limits; 5] = [
    NO_NUMBERS,
    NO_NUMBERS,
    Limits { least_event: 1, most_event: 99_999_999, least_argument: 0, most_argument: 2_699_999 },
    Limits { least_event: 1, most_event: 99_999_999, least_argument: 0, most_argument: 0 },
    Limits { least_event: 1, most_event: 99_999_999, least_argument: -90_000, most_argument: 90_000 },
];

/// Whether a body inside its limits has these numbers.
pub fn numbers_in_limits(kind: u32, event: u32, argument: i32) -> bool {
    KINDS
        .get(kind as usize)
        .is_some_and(|row| (row.least_event..=row.most_event).contains(&event) && (row.least_argument..=row.most_argument).contains(&argument))
}

/// Whether this kind has this channel: an edit of edition 1 has one, all else has 0.
pub fn channel_in_limits(kind: u8, channel: u8, edition: u32) -> bool {
    if edition == 1 && kind >= 2 { (1..=200).contains(&channel) } else { channel == 0 }
}

impl Body {
    /// The body of numbers that are inside the limits of their kind; Empty for all others.
    pub fn of_numbers(kind: u32, event: u32, argument: i32) -> Body {
        if numbers_in_limits(kind, event, argument) { Body::of_checked(kind as u8, event, argument) } else { Body::Empty }
    }

    /// The body of numbers that were checked before.
    pub fn of_checked(kind: u8, event: u32, argument: i32) -> Body {
        match kind {
            1 => Body::Neutral,
            2 => Body::Insert { event, start: argument },
            3 => Body::Drop { event },
            4 => Body::Shift { event, frames: argument },
            _ => Body::Empty,
        }
    }

    /// Kind, event and argument.
    pub fn numbers(&self) -> (u8, u32, i32) {
        match *self {
            Body::Empty => (0, 0, 0),
            Body::Neutral => (1, 0, 0),
            Body::Insert { event, start } => (2, event, start),
            Body::Drop { event } => (3, event, 0),
            Body::Shift { event, frames } => (4, event, frames),
        }
    }

    pub fn is_empty(&self) -> bool {
        matches!(self, Body::Empty)
    }

    /// Whether it is of an edit's kind, whatever its numbers.
    pub fn has_edit_kind(&self) -> bool {
        !matches!(self, Body::Empty | Body::Neutral)
    }

    pub fn in_limits(&self) -> bool {
        let (kind, event, argument) = self.numbers();
        numbers_in_limits(kind.into(), event, argument)
    }

    pub fn is_edit(&self) -> bool {
        self.has_edit_kind() && self.in_limits()
    }
}
