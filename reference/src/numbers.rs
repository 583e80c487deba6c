//! The numbers handed back (01, "Numbers handed back"; 02).

/// A number of 01's table, or one that 02 adds.
///
/// `ShortBuffer` is given here only for a keyboard map, and `StateNotWhole` never: other
/// memory is not lent to this library, and its types admit no other broken state.
#[derive(Clone, Copy, Debug, PartialEq, Eq, PartialOrd, Ord)]
#[repr(u8)]
pub enum Number {
    Accepted = 0,
    ShortBuffer = 1,
    TextTooLong = 2,
    BadByte = 3,
    NotGrammar = 4,
    UnknownName = 5,
    BadNumber = 6,
    ListNotTaken = 7,
    NoStateMeets = 8,
    ColonNotTaken = 9,
    NotBuilt = 10,
    LimitPassed = 11,
    TableNotWhole = 12,
    BadRecord = 13,
    StateNotWhole = 14,
    ContextTooLong = 15,
    NotThere = 16,
    AlreadyMerged = 17,
    BadModifierMap = 18,
}

impl Number {
    pub const COUNT: usize = Number::BadModifierMap as usize + 1;

    pub fn index(self) -> usize {
        self as usize
    }
}

/// A refusal by the compiler. "Only the compiler gives places."
#[derive(Clone, Copy, Debug, PartialEq, Eq)]
pub struct Refusal {
    pub number: Number,
    pub place: usize,
}
