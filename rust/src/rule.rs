//! Rules: a kind, the words that it speaks of, and an amount.

use crate::numbers::RULE_BYTES;

/// What a rule says. All numbers are unsigned.
#[derive(Clone, Copy, Debug, PartialEq, Eq, Hash)]
#[repr(u8)]
pub enum Kind {
    /// r = a
    Copy = 1,
    /// r = a with each bit inverted
    Not = 2,
    /// r = a and b, bit by bit
    And = 3,
    /// r = a or b, bit by bit
    Or = 4,
    /// r = a xor b, bit by bit
    Xor = 5,
    /// r = a + b modulo 2^w
    Add = 6,
    /// r = a if s is 1, else b
    Ite = 7,
    /// r = bits k to k + w(r) - 1 of a
    Slice = 8,
    /// r = a above b
    Join = 9,
    /// r = a shifted up by k, zeros enter
    Shl = 10,
    /// r = a shifted down by k, zeros enter
    Shr = 11,
    /// a at most b
    Ule = 12,
    /// a below b
    Ult = 13,
    /// a differs from b
    Ne = 14,
}

impl Kind {
    /// The fourteen kinds, by number.
    pub const ALL: [Kind; 14] = [
        Kind::Copy,
        Kind::Not,
        Kind::And,
        Kind::Or,
        Kind::Xor,
        Kind::Add,
        Kind::Ite,
        Kind::Slice,
        Kind::Join,
        Kind::Shl,
        Kind::Shr,
        Kind::Ule,
        Kind::Ult,
        Kind::Ne,
    ];

    /// The kind's number, 1 to 14.
    pub const fn number(self) -> u8 {
        self as u8
    }

    /// The kind with a number, if there is one.
    pub fn of(number: u8) -> Option<Kind> {
        Kind::ALL.iter().copied().find(|kind| kind.number() == number)
    }
}

/// A rule between words, which it names by their numbers in the problem.
///
/// The constructors name the fields that a kind uses and leave the others 0. A rule can hold faults, as kind 15; the calls refuse them.
#[derive(Clone, Copy, Debug, PartialEq, Eq, Hash)]
pub struct Rule {
    /// The number of the kind, see [`Kind::number`].
    pub kind: u8,
    /// The word that is the result.
    pub r: u8,
    /// The word that is the first operand.
    pub a: u8,
    /// The word that is the second operand.
    pub b: u8,
    /// The word that is the condition.
    pub s: u8,
    /// The amount, a plain number.
    pub k: u8,
}

impl Rule {
    const fn new(kind: Kind, r: u8, a: u8, b: u8, s: u8, k: u8) -> Rule {
        Rule { kind: kind.number(), r, a, b, s, k }
    }

    /// r = a. Equal widths.
    pub const fn copy(r: u8, a: u8) -> Rule {
        Rule::new(Kind::Copy, r, a, 0, 0, 0)
    }

    /// r = a with each bit inverted. Equal widths.
    pub const fn not(r: u8, a: u8) -> Rule {
        Rule::new(Kind::Not, r, a, 0, 0, 0)
    }

    /// r = a and b, bit by bit. Equal widths.
    pub const fn and(r: u8, a: u8, b: u8) -> Rule {
        Rule::new(Kind::And, r, a, b, 0, 0)
    }

    /// r = a or b, bit by bit. Equal widths.
    pub const fn or(r: u8, a: u8, b: u8) -> Rule {
        Rule::new(Kind::Or, r, a, b, 0, 0)
    }

    /// r = a xor b, bit by bit. Equal widths.
    pub const fn xor(r: u8, a: u8, b: u8) -> Rule {
        Rule::new(Kind::Xor, r, a, b, 0, 0)
    }

    /// r = a + b modulo 2^w. Equal widths.
    pub const fn add(r: u8, a: u8, b: u8) -> Rule {
        Rule::new(Kind::Add, r, a, b, 0, 0)
    }

    /// r = a if s is 1, else b. Equal widths of r, a and b; s has width 1.
    pub const fn ite(r: u8, a: u8, b: u8, s: u8) -> Rule {
        Rule::new(Kind::Ite, r, a, b, s, 0)
    }

    /// r = bits k to k + w(r) - 1 of a. k + w(r) is at most w(a).
    pub const fn slice(r: u8, a: u8, k: u8) -> Rule {
        Rule::new(Kind::Slice, r, a, 0, 0, k)
    }

    /// r = a above b. w(r) = w(a) + w(b).
    pub const fn join(r: u8, a: u8, b: u8) -> Rule {
        Rule::new(Kind::Join, r, a, b, 0, 0)
    }

    /// r = a shifted up by k, zeros enter. Equal widths; a k of the width or more gives 0.
    pub const fn shl(r: u8, a: u8, k: u8) -> Rule {
        Rule::new(Kind::Shl, r, a, 0, 0, k)
    }

    /// r = a shifted down by k, zeros enter. Equal widths; a k of the width or more gives 0.
    pub const fn shr(r: u8, a: u8, k: u8) -> Rule {
        Rule::new(Kind::Shr, r, a, 0, 0, k)
    }

    /// a at most b. Equal widths.
    pub const fn ule(a: u8, b: u8) -> Rule {
        Rule::new(Kind::Ule, 0, a, b, 0, 0)
    }

    /// a below b. Equal widths.
    pub const fn ult(a: u8, b: u8) -> Rule {
        Rule::new(Kind::Ult, 0, a, b, 0, 0)
    }

    /// a differs from b. Equal widths.
    pub const fn ne(a: u8, b: u8) -> Rule {
        Rule::new(Kind::Ne, 0, a, b, 0, 0)
    }

    /// The rule as it is lent.
    pub(crate) fn bytes(self) -> [u8; RULE_BYTES] {
        [self.kind, self.r, self.a, self.b, self.s, self.k]
    }
}

/// Rules as they are lent.
pub(crate) fn bytes(rules: &[Rule]) -> Vec<u8> {
    rules.iter().flat_map(|rule| rule.bytes()).collect()
}

/// Rules as they come back.
pub(crate) fn rules(bytes: &[u8]) -> Vec<Rule> {
    bytes.chunks_exact(RULE_BYTES).map(|x| Rule { kind: x[0], r: x[1], a: x[2], b: x[3], s: x[4], k: x[5] }).collect()
}

#[cfg(test)]
mod tests {
    use super::*;

    #[test]
    fn kinds_are_numbered_from_1_to_14() {
        assert!(Kind::ALL.iter().map(|kind| kind.number()).eq(1..=14));
        assert!(Kind::ALL.iter().all(|&kind| Kind::of(kind.number()) == Some(kind)));
        assert_eq!((Kind::of(0), Kind::of(15)), (None, None));
    }

    /// Fields are told apart by their values: r 1, a 2, b 3, s 4, k 5.
    #[test]
    fn constructors_fill_the_used_fields() {
        let made = [
            (Rule::copy(1, 2), [1, 1, 2, 0, 0, 0]),
            (Rule::not(1, 2), [2, 1, 2, 0, 0, 0]),
            (Rule::and(1, 2, 3), [3, 1, 2, 3, 0, 0]),
            (Rule::or(1, 2, 3), [4, 1, 2, 3, 0, 0]),
            (Rule::xor(1, 2, 3), [5, 1, 2, 3, 0, 0]),
            (Rule::add(1, 2, 3), [6, 1, 2, 3, 0, 0]),
            (Rule::ite(1, 2, 3, 4), [7, 1, 2, 3, 4, 0]),
            (Rule::slice(1, 2, 5), [8, 1, 2, 0, 0, 5]),
            (Rule::join(1, 2, 3), [9, 1, 2, 3, 0, 0]),
            (Rule::shl(1, 2, 5), [10, 1, 2, 0, 0, 5]),
            (Rule::shr(1, 2, 5), [11, 1, 2, 0, 0, 5]),
            (Rule::ule(2, 3), [12, 0, 2, 3, 0, 0]),
            (Rule::ult(2, 3), [13, 0, 2, 3, 0, 0]),
            (Rule::ne(2, 3), [14, 0, 2, 3, 0, 0]),
        ];
        for (rule, lent) in made {
            assert_eq!(rule.bytes(), lent);
            assert_eq!(rules(&lent), [rule]);
        }
    }
}
