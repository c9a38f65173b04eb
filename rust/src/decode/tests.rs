//! Made-up numbers: those that a call can return give their answers, every other one is a panic that says what to do.

use super::*;
use crate::answers::Place;
use std::panic::{catch_unwind, RefUnwindSafe};

fn packed(number: u64, detail: u64, entries: u64) -> u64 {
    number + (detail << DETAIL_SHIFT) + (entries << ENTRIES_SHIFT)
}

/// What a call says of a number that it cannot return; none where it takes the number.
fn complaint<T>(call: impl Fn(u64) -> T + RefUnwindSafe, packed: u64) -> Option<String> {
    catch_unwind(|| call(packed)).err().map(|panic| *panic.downcast::<String>().expect("a panic with a text"))
}

/// Of all numbers with nothing beside them, a call takes those of its own answers and refusals and no other.
fn takes<T>(call: impl Fn(u64) -> T + RefUnwindSafe, answers: &[u64], refusals: &[u64]) {
    for number in 0..256 {
        let taken = complaint(&call, number).is_none();
        assert_eq!(taken, answers.contains(&number) || refusals.contains(&number), "number {number}");
    }
}

const ALL_ONES: u64 = u64::MAX >> ENTRIES_SHIFT;

#[test]
fn parts_of_a_number() {
    assert_eq!(unpack(0), (0, 0, 0));
    assert_eq!(unpack(u64::MAX), (255, 0xffff_ffff, ALL_ONES));
    assert_eq!(unpack(packed(41, 253_000_000, 252)), (41, 253_000_000, 252));
}

#[test]
fn each_call_takes_its_own_numbers_and_no_other() {
    let of_words_and_rules = [&PROBLEM[..], &[REFUSED_LIMIT]].concat();
    takes(check, &[OK], &of_words_and_rules);
    takes(|x| tighten(x, &[]), &[TIGHT, CONFLICT], &PROBLEM);
    takes(|x| solve(x, vec![]), &[FOUND, NONE, GAVE_UP], &of_words_and_rules);
    takes(|x| explain(x, &[]), &[CONFLICT, FORCED, FREE], &[&PROBLEM[..], &[REFUSED_ASK]].concat());
    takes(|x| cause(x, &[]), &[EXISTS, GAVE_UP, CAUSE], &[&of_words_and_rules[..], &[REFUSED_EMPTY]].concat());
    takes(|x| read(x, &[], &[]), &[OK], &[&of_words_and_rules[..], &[REFUSED_CHECK, REFUSED_LAYOUT]].concat());
    takes(|x| write(x, &[]), &[OK], &of_words_and_rules);
    takes(|x| advise(x, &[]), &[OK], &[]);
}

#[test]
fn a_mismatch_says_what_to_do() {
    let said = complaint(|x| solve(x, vec![]), packed(CAUSE, 7, 3));
    let wanted =
        "libsievecrest.a answers solve by number 41, detail 7, entries 3, which this crate does not know: build both from the same sources";
    assert_eq!(said.as_deref(), Some(wanted));
}

/// The parts of every answer, each at its greatest; an answer has no other parts, since it is a type of its own.
#[test]
fn every_answer_has_its_own_parts() {
    let (limit, sum) = (1_000_000, 253_000_000);
    assert_eq!(check(OK), Ok(()));
    assert_eq!(tighten(TIGHT, &[1, 0, 1]), Ok(Tightened::Tight(vec![word::Word::open(1)])));
    assert_eq!(tighten(CONFLICT, &[1, 0, 1]), Ok(Tightened::Conflict));
    assert_eq!(solve(packed(FOUND, limit, 0), vec![5]), Ok(Solved::Found { settings: vec![5], count: limit }));
    assert_eq!(solve(packed(NONE, limit, 0), vec![5]), Ok(Solved::None { count: limit }));
    assert_eq!(solve(packed(GAVE_UP, limit, 0), vec![5]), Ok(Solved::GaveUp { count: limit }));
    let all: Vec<u16> = (0..193).collect();
    let bits: Vec<FixedBit> = all.iter().map(|&entry| FixedBit::of(entry).unwrap()).collect();
    assert_eq!(explain(packed(CONFLICT, 0, 193), &all), Ok(Explained::Conflict { reason: bits.clone() }));
    assert_eq!(explain(packed(FORCED, 1, 193), &all), Ok(Explained::Forced { value: true, reason: bits.clone() }));
    assert_eq!(explain(packed(FORCED, 0, 193), &all), Ok(Explained::Forced { value: false, reason: bits }));
    assert_eq!(explain(FREE, &all), Ok(Explained::Free));
    assert_eq!(cause(packed(EXISTS, limit, 0), &all), Ok(Caused::Exists { count: limit }));
    assert_eq!(cause(packed(GAVE_UP, sum, 0), &all), Ok(Caused::GaveUp { count: sum }));
    let named: Vec<u16> = (0..252).collect();
    assert_eq!(cause(packed(CAUSE, sum, 252), &named), Ok(Caused::Cause { rules: (0..252).collect(), count: sum }));
    let full = read(packed(OK, limit, 32 + (252 << 8)), &[1; 96], &[1; 1512]).unwrap();
    assert_eq!((full.limit, full.words.len(), full.rules.len()), (1_000_000, 32, 252));
    assert_eq!(write(packed(OK, 3584, 0), &[9; 3584]), Ok(vec![9; 3584]));
    assert_eq!(advise(packed(OK, 2304, 0), &[9; 2304]), vec![9; 2304]);
}

type Call = fn(u64) -> Result<(), Refusal>;

#[test]
fn a_refusal_that_counts_nothing_has_place_0() {
    let calls: [(u64, Call); 4] = [
        (REFUSED_SIZE, check),
        (REFUSED_LIMIT, check),
        (REFUSED_ASK, |x| explain(x, &[]).map(|_| ())),
        (REFUSED_EMPTY, |x| cause(x, &[]).map(|_| ())),
    ];
    for (number, call) in calls {
        assert_eq!(call(number), Err(Refusal { number, place: 0 }));
        assert!(complaint(call, packed(number, 1, 0)).is_some(), "number {number}");
    }
}

#[test]
fn a_number_where_nothing_can_stand_is_a_mismatch() {
    assert!(complaint(check, packed(OK, 1, 0)).is_some());
    assert!(complaint(check, packed(REFUSED_FIT, 2, 1)).is_some());
    assert!(complaint(|x| tighten(x, &[]), packed(TIGHT, 1, 0)).is_some());
    assert!(complaint(|x| tighten(x, &[]), packed(CONFLICT, 0, 1)).is_some());
    assert!(complaint(|x| solve(x, vec![]), packed(FOUND, 1, 1)).is_some());
    assert!(complaint(|x| explain(x, &[]), packed(FREE, 0, 1)).is_some());
    assert!(complaint(|x| explain(x, &[]), packed(FORCED, 2, 0)).is_some());
    assert!(complaint(|x| cause(x, &[]), packed(EXISTS, 1, 1)).is_some());
    assert!(complaint(|x| write(x, &[0; 512]), packed(OK, 512, 1)).is_some());
}

#[test]
fn more_entries_than_were_lent_are_a_mismatch() {
    assert!(complaint(|x| explain(x, &[0; 193]), packed(FORCED, 1, 194)).is_some());
    assert!(complaint(|x| explain(x, &[0; 193]), packed(CONFLICT, 0, ALL_ONES)).is_some());
    assert!(complaint(|x| cause(x, &[0; 3]), packed(CAUSE, 0, 4)).is_some());
    assert!(complaint(|x| read(x, &[0; 96], &[0; 1512]), packed(OK, 0, 33)).is_some());
    assert!(complaint(|x| read(x, &[0; 96], &[0; 1512]), packed(OK, 0, 253 << 8)).is_some());
    assert!(complaint(|x| write(x, &[0; 3584]), packed(OK, 3585, 0)).is_some());
    assert!(complaint(|x| advise(x, &[0; 2304]), packed(OK, 2305, 0)).is_some());
}

#[test]
fn an_entry_at_no_place_is_a_mismatch() {
    assert!(complaint(|x| explain(x, &[255]), packed(CONFLICT, 0, 1)).is_none());
    assert!(complaint(|x| explain(x, &[256]), packed(CONFLICT, 0, 1)).is_some());
}

#[test]
fn refusals_keep_number_and_place() {
    assert_eq!(check(packed(REFUSED_FIT, 251, 0)), Err(Refusal { number: REFUSED_FIT, place: 251 }));
    assert_eq!(read(packed(REFUSED_LAYOUT, 6, 0), &[], &[]), Err(Refusal { number: REFUSED_LAYOUT, place: 6 }));
    assert_eq!(explain(packed(REFUSED_ASK, 0, 0), &[]), Err(Refusal { number: REFUSED_ASK, place: 0 }));
    assert_eq!(cause(packed(REFUSED_EMPTY, 0, 0), &[]), Err(Refusal { number: REFUSED_EMPTY, place: 0 }));
}

#[test]
fn lists_are_cut_to_their_entries() {
    let reason = vec![FixedBit { place: Place::A, bit: 3 }, FixedBit { place: Place::S, bit: 0 }];
    assert_eq!(explain(packed(FORCED, 1, 2), &[67, 192, 9]), Ok(Explained::Forced { value: true, reason }));
    assert_eq!(cause(packed(CAUSE, 5, 2), &[0, 3, 9, 9]), Ok(Caused::Cause { rules: vec![0, 3], count: 5 }));
}

#[test]
fn a_read_problem_has_its_words_rules_and_limit() {
    let problem = read(packed(OK, 77, 1 + (2 << 8)), &[3, 0, 7, 9, 9, 9], &[14, 0, 1, 2, 0, 0, 1, 2, 3, 0, 0, 0, 8]);
    let rules = vec![rule::Rule::ne(1, 2), rule::Rule::copy(2, 3)];
    assert_eq!(problem, Ok(Problem { words: vec![word::Word::open(3)], rules, limit: 77 }));
}
