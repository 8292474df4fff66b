//! The reasons for which a call is refused, with their published numbers.

/// A reason for refusing a sheet, a lent memory or a call on a record.
#[derive(Clone, Copy, Debug, PartialEq, Eq, PartialOrd, Ord)]
#[repr(u8)]
pub enum Refusal {
    /// The sheet is longer than 1,024 bytes.
    TooLong = 1,
    /// The sheet ends inside a field.
    CutShort = 2,
    /// Unknown edition.
    Edition = 3,
    /// Number of facts outside 1 to 8.
    Facts = 4,
    /// Number of replies outside 1 to 8.
    Replies = 5,
    /// Fact number not below the number of facts.
    FactNumber = 6,
    /// New fact outside a theory.
    NewFact = 7,
    /// Formula too deep.
    TooDeep = 8,
    /// Action number not below the number of actions.
    ActionNumber = 9,
    /// A loop.
    Loop = 10,
    /// Too many action or branch nodes.
    TooManyNodes = 11,
    /// A set padding bit or a spare byte.
    Padding = 12,
    /// No state satisfies the start formula.
    NoStartState = 13,
    /// A change has no next state from some state.
    NoNextState = 14,
    /// A probe has no reply in some state.
    NoReply = 15,
    /// No state satisfies the constraint.
    NoState = 16,
    /// The lent trace memory is shorter than the longest trace.
    TraceMemory = 30,
    /// The record is not one that loading and reporting can give.
    Record = 31,
    /// The routine is at its end.
    AtEnd = 32,
    /// The action has no such reply.
    NoSuchReply = 33,
    /// The reply is true in no state still possible.
    Impossible = 34,
}

impl Refusal {
    /// The published number.
    pub fn number(self) -> u8 {
        self as u8
    }
}
