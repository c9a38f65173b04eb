//! The answers taken out of the numbers that the library returns.
//!
//! A number that a call cannot return means that the library was built from other sources than this crate. No caller can go on from there,
//! and to guess what was meant could give a wrong board, so it is a panic that says what to do.

use crate::answers::{Caused, Explained, FixedBit, Solved, Tightened};
use crate::numbers::{CAUSE, CONFLICT, EXISTS, FORCED, FOUND, FREE, GAVE_UP, NONE, OK, TIGHT};
use crate::numbers::{DETAIL_SHIFT, ENTRIES_SHIFT, RULES_SHIFT, RULE_BYTES, WORDS_SHIFT, WORD_NUMBERS};
use crate::numbers::{REFUSED_ASK, REFUSED_CHECK, REFUSED_EMPTY, REFUSED_FIELD, REFUSED_FIT, REFUSED_KIND};
use crate::numbers::{REFUSED_LAYOUT, REFUSED_LIMIT, REFUSED_SIZE, REFUSED_TABLE, REFUSED_WIDTH};
use crate::problem::Problem;
use crate::refusal::Refusal;
use crate::{rule, word};

/// The parts of a returned number: the answer's own number; its detail, which is a place, count, value, limit or length, by the answer; its
/// entries, which are words and rules for a file read.
fn unpack(packed: u64) -> (u64, u64, u64) {
    (packed % (1 << DETAIL_SHIFT), (packed % (1 << ENTRIES_SHIFT)) >> DETAIL_SHIFT, packed >> ENTRIES_SHIFT)
}

fn mismatch(call: &str, packed: u64) -> ! {
    let (number, detail, entries) = unpack(packed);
    panic!(
        "libsievecrest.a answers {call} by number {number}, detail {detail}, entries {entries}, which this crate does not know: \
         build both from the same sources"
    )
}

/// The refusals of words and rules, which every call has that takes them.
const PROBLEM: [u64; 6] = [REFUSED_SIZE, REFUSED_WIDTH, REFUSED_TABLE, REFUSED_KIND, REFUSED_FIELD, REFUSED_FIT];

/// The refusal that a call answered: one of a problem's, or of those that only some calls have. One that counts nothing has place 0.
fn refusal(call: &str, packed: u64, others: &[u64]) -> Refusal {
    let (number, place, entries) = unpack(packed);
    let refusal = Refusal { number, place };
    let known = PROBLEM.contains(&number) || others.contains(&number);
    if known && entries == 0 && (place == 0 || refusal.counted().is_some()) {
        refusal
    } else {
        mismatch(call, packed)
    }
}

/// The first n entries, if there are as many.
fn first<T>(list: &[T], n: u64) -> Option<&[T]> {
    list.get(..n as usize)
}

pub fn check(packed: u64) -> Result<(), Refusal> {
    match unpack(packed) {
        (OK, 0, 0) => Ok(()),
        _ => Err(refusal("check", packed, &[REFUSED_LIMIT])),
    }
}

pub fn tighten(packed: u64, numbers: &[u64]) -> Result<Tightened, Refusal> {
    match unpack(packed) {
        (TIGHT, 0, 0) => Ok(Tightened::Tight(word::words(numbers))),
        (CONFLICT, 0, 0) => Ok(Tightened::Conflict),
        _ => Err(refusal("tighten", packed, &[])),
    }
}

pub fn solve(packed: u64, settings: Vec<u64>) -> Result<Solved, Refusal> {
    match unpack(packed) {
        (FOUND, count, 0) => Ok(Solved::Found { settings, count }),
        (NONE, count, 0) => Ok(Solved::None { count }),
        (GAVE_UP, count, 0) => Ok(Solved::GaveUp { count }),
        _ => Err(refusal("solve", packed, &[REFUSED_LIMIT])),
    }
}

fn reason(list: &[u16], n: u64) -> Option<Vec<FixedBit>> {
    first(list, n)?.iter().map(|&entry| FixedBit::of(entry)).collect()
}

pub fn explain(packed: u64, list: &[u16]) -> Result<Explained, Refusal> {
    let answer = match unpack(packed) {
        (CONFLICT, 0, n) => reason(list, n).map(|reason| Explained::Conflict { reason }),
        (FORCED, value @ 0..=1, n) => reason(list, n).map(|reason| Explained::Forced { value: value == 1, reason }),
        (FREE, 0, 0) => Some(Explained::Free),
        _ => None,
    };
    answer.ok_or_else(|| refusal("explain", packed, &[REFUSED_ASK]))
}

fn named(list: &[u16], n: u64) -> Option<Vec<usize>> {
    first(list, n).map(|part| part.iter().map(|&rule| usize::from(rule)).collect())
}

pub fn cause(packed: u64, list: &[u16]) -> Result<Caused, Refusal> {
    let answer = match unpack(packed) {
        (EXISTS, count, 0) => Some(Caused::Exists { count }),
        (GAVE_UP, count, 0) => Some(Caused::GaveUp { count }),
        (CAUSE, count, n) => named(list, n).map(|rules| Caused::Cause { rules, count }),
        _ => None,
    };
    answer.ok_or_else(|| refusal("cause", packed, &[REFUSED_LIMIT, REFUSED_EMPTY]))
}

/// The problem in the records that were stored: so many words and rules, and the limit.
fn stored(packed: u64, limit: u64, numbers: &[u64], bytes: &[u8]) -> Option<Problem> {
    let words = (packed % (1 << RULES_SHIFT)) >> WORDS_SHIFT;
    let rules = packed >> RULES_SHIFT;
    let numbers = first(numbers, words * WORD_NUMBERS as u64)?;
    let bytes = first(bytes, rules * RULE_BYTES as u64)?;
    Some(Problem { words: word::words(numbers), rules: rule::rules(bytes), limit: limit as u32 })
}

pub fn read(packed: u64, numbers: &[u64], bytes: &[u8]) -> Result<Problem, Refusal> {
    let answer = match unpack(packed) {
        (OK, limit, _) => stored(packed, limit, numbers, bytes),
        _ => None,
    };
    answer.ok_or_else(|| refusal("read", packed, &[REFUSED_CHECK, REFUSED_LAYOUT, REFUSED_LIMIT]))
}

/// The bytes that were put, where the answer is OK with their number.
fn put(packed: u64, bytes: &[u8]) -> Option<Vec<u8>> {
    match unpack(packed) {
        (OK, length, 0) => first(bytes, length).map(<[u8]>::to_vec),
        _ => None,
    }
}

pub fn write(packed: u64, file: &[u8]) -> Result<Vec<u8>, Refusal> {
    put(packed, file).ok_or_else(|| refusal("write", packed, &[REFUSED_LIMIT]))
}

/// `advise` refuses only lent memory that is too short, and this crate's is not; a refused file is a line.
pub fn advise(packed: u64, out: &[u8]) -> Vec<u8> {
    put(packed, out).unwrap_or_else(|| mismatch("advise", packed))
}

#[cfg(test)]
mod tests;
