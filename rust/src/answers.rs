//! The answers of the calls, an enum for each. A refusal is no answer but the error of a call.

use crate::word::Word;

/// What tightening ends with.
#[derive(Clone, Debug, PartialEq, Eq)]
pub enum Tightened {
    /// The words of the widest tight table.
    Tight(Vec<Word>),
    /// There is no tight table, and so there are no settings.
    Conflict,
}

/// What the search ends with.
#[derive(Clone, Debug, PartialEq, Eq)]
pub enum Solved {
    /// There are settings.
    Found {
        /// The first settings in word order, a value for each word.
        settings: Vec<u64>,
        /// The guesses made.
        count: u64,
    },
    /// There are no settings.
    None {
        /// The guesses made.
        count: u64,
    },
    /// One more guess was needed than the limit allows; nothing is said about settings.
    GaveUp {
        /// The limit.
        count: u64,
    },
}

/// A field of a rule that names a word. One word may stand at two places of a rule.
#[derive(Clone, Copy, Debug, PartialEq, Eq, Hash)]
#[repr(u8)]
pub enum Place {
    /// The result.
    R = 0,
    /// The first operand.
    A = 1,
    /// The second operand.
    B = 2,
    /// The condition.
    S = 3,
}

impl Place {
    /// The places, by number.
    pub const ALL: [Place; 4] = [Place::R, Place::A, Place::B, Place::S];

    /// The place's number, 0 to 3.
    pub const fn number(self) -> u8 {
        self as u8
    }
}

/// An entry of a reason: a fixed bit at a place of the rule.
#[derive(Clone, Copy, Debug, PartialEq, Eq, Hash)]
pub struct FixedBit {
    /// Where in the rule.
    pub place: Place,
    /// Which bit of the word there, 0 being the lowest.
    pub bit: u64,
}

impl FixedBit {
    /// The bit of an entry, which is 64 times place plus bit; `None` where there is no such place.
    pub(crate) fn of(entry: u16) -> Option<FixedBit> {
        let place = *Place::ALL.get(usize::from(entry / 64))?;
        Some(FixedBit { place, bit: u64::from(entry % 64) })
    }
}

/// What a rule says of one of its open bits.
///
/// The bits of a reason alone give the same answer, and with any one of them opened the answer changes. A reason may be empty.
#[derive(Clone, Debug, PartialEq, Eq)]
pub enum Explained {
    /// The rule has no fit.
    Conflict {
        /// Why: by place, and from bit 0 upwards.
        reason: Vec<FixedBit>,
    },
    /// All fits agree on the bit.
    Forced {
        /// The bit's value.
        value: bool,
        /// Why: by place, and from bit 0 upwards.
        reason: Vec<FixedBit>,
    },
    /// The bit is 0 in some fit and 1 in some fit.
    Free,
}

/// Which rules conflict.
#[derive(Clone, Debug, PartialEq, Eq)]
pub enum Caused {
    /// There are settings, so there is no cause.
    Exists {
        /// The guesses of the one search made.
        count: u64,
    },
    /// A search gave up; nothing is said about a cause.
    GaveUp {
        /// The guesses of all searches made.
        count: u64,
    },
    /// These rules have no settings by themselves; with any one of them left out there are some.
    Cause {
        /// The rules' numbers, ascending.
        rules: Vec<usize>,
        /// The guesses of all searches made.
        count: u64,
    },
}
