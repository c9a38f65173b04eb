//! Each refusal, with its number and place, of every call that has it; and what was given is as it was.

use sievecrest::numbers::{
    MAX_LIMIT, REFUSED_ASK, REFUSED_CHECK, REFUSED_FIELD, REFUSED_FIT, REFUSED_KIND, REFUSED_LAYOUT, REFUSED_LIMIT, REFUSED_SIZE,
    REFUSED_TABLE, REFUSED_WIDTH,
};
use sievecrest::{advise, Place, Problem, Refusal, Rule, Word};

/// Three words and two rules, all proper; word 2 has width 1.
fn proper() -> Problem {
    let words = vec![Word::open(4), Word::bounds(4, 8, 15), Word::open(1)];
    Problem { words, rules: vec![Rule::add(0, 0, 1), Rule::ite(0, 0, 1, 2)], limit: MAX_LIMIT }
}

fn with_word(word: Word) -> Problem {
    let mut problem = proper();
    problem.words[1] = word;
    problem
}

fn with_rule(rule: Rule) -> Problem {
    let mut problem = proper();
    problem.rules[1] = rule;
    problem
}

/// Faulty problems with the refusal of each, all but that of a limit.
fn faulty() -> Vec<(Problem, u64, u64)> {
    vec![
        (Problem { words: vec![Word::open(1); 33], ..Problem::default() }, REFUSED_SIZE, 0),
        (Problem { rules: vec![Rule::ne(0, 2); 253], ..proper() }, REFUSED_SIZE, 0),
        (with_word(Word::open(0)), REFUSED_WIDTH, 1),
        (with_word(Word::open(65)), REFUSED_WIDTH, 1),
        (with_word(Word::open(u64::MAX)), REFUSED_WIDTH, 1),
        (with_word(Word::bounds(4, 2, 13)), REFUSED_TABLE, 1),
        (with_word(Word::fixed(4, 16)), REFUSED_TABLE, 1),
        (with_word(Word::bounds(4, 0, u64::MAX)), REFUSED_TABLE, 1),
        (with_rule(Rule { kind: 0, ..Rule::add(0, 0, 1) }), REFUSED_KIND, 1),
        (with_rule(Rule { kind: 15, ..Rule::add(0, 0, 1) }), REFUSED_KIND, 1),
        (with_rule(Rule::add(0, 0, 3)), REFUSED_FIELD, 1),
        (with_rule(Rule::add(255, 0, 1)), REFUSED_FIELD, 1),
        (with_rule(Rule { s: 2, ..Rule::add(0, 0, 1) }), REFUSED_FIELD, 1),
        (with_rule(Rule { k: 1, ..Rule::ne(0, 1) }), REFUSED_FIELD, 1),
        (with_rule(Rule::add(0, 1, 2)), REFUSED_FIT, 1),
        (with_rule(Rule::ite(0, 0, 1, 1)), REFUSED_FIT, 1),
        (with_rule(Rule::shr(0, 2, 1)), REFUSED_FIT, 1),
        (with_rule(Rule::join(0, 1, 2)), REFUSED_FIT, 1),
    ]
}

#[test]
fn every_call_refuses_a_faulty_problem_and_leaves_it() {
    for (problem, number, place) in faulty() {
        let before = problem.clone();
        let refusal = Refusal { number, place };
        assert_eq!(problem.check(), Err(refusal), "{problem:?}");
        assert_eq!(problem.tighten(), Err(refusal));
        assert_eq!(problem.solve(), Err(refusal));
        assert_eq!(problem.explain(0, Place::R, 0), Err(refusal));
        assert_eq!(problem.cause(), Err(refusal));
        assert_eq!(problem.write(), Err(refusal));
        assert_eq!(problem, before);
    }
}

#[test]
fn answers_leave_the_problem_too() {
    let problem = proper();
    assert!(problem.tighten().is_ok() && problem.solve().is_ok() && problem.explain(0, Place::R, 0).is_ok());
    assert!(problem.check().is_ok() && problem.cause().is_ok() && problem.write().is_ok());
    assert_eq!(problem, proper());
}

#[test]
fn a_limit_is_refused_by_the_calls_that_take_one() {
    let problem = Problem { limit: u32::MAX, ..proper() };
    let refusal = Refusal { number: REFUSED_LIMIT, place: 0 };
    assert_eq!(problem.check(), Err(refusal));
    assert_eq!(problem.solve(), Err(refusal));
    assert_eq!(problem.cause(), Err(refusal));
    assert_eq!(problem.write(), Err(refusal));
    assert!(problem.tighten().is_ok());
    assert!(problem.explain(0, Place::R, 0).is_ok());
}

#[test]
fn the_first_fault_is_refused() {
    let mut problem = with_word(Word::bounds(4, 2, 13));
    problem.rules = vec![Rule::add(0, 1, 2), Rule { kind: 0, ..Rule::ne(9, 9) }];
    problem.limit = u32::MAX;
    assert_eq!(problem.check(), Err(Refusal { number: REFUSED_TABLE, place: 1 }));
    problem.words[1] = Word::open(4);
    assert_eq!(problem.check(), Err(Refusal { number: REFUSED_FIT, place: 0 }));
    problem.rules.remove(0);
    assert_eq!(problem.check(), Err(Refusal { number: REFUSED_KIND, place: 0 }));
}

#[test]
fn an_explanation_is_asked_for_an_open_bit() {
    let problem = proper();
    let asked = [
        (2, Place::R, 0),
        (usize::MAX, Place::R, 0),
        (0, Place::S, 0),
        (1, Place::S, 1),
        (0, Place::A, 4),
        (0, Place::B, 3),
        (0, Place::B, u64::MAX),
    ];
    for (rule, place, bit) in asked {
        assert_eq!(
            problem.explain(rule, place, bit),
            Err(Refusal { number: REFUSED_ASK, place: 0 }),
            "rule {rule}, place {place:?}, bit {bit}"
        );
    }
    assert!(problem.explain(1, Place::S, 0).is_ok());
}

const BLOCK: usize = 512;

/// The check of a block set so that its sum is right.
fn seal(block: &mut [u8]) {
    block[6..8].fill(0);
    let sum = block.chunks(2).fold(0, |sum: u16, pair| sum.wrapping_add(u16::from_le_bytes([pair[0], pair[1]])));
    block[6..8].copy_from_slice(&(u16::MAX - sum).to_le_bytes());
}

/// The file of the proper problem, three blocks, with one byte of one block altered.
fn altered(block: usize, byte: usize, value: u8) -> Vec<u8> {
    let mut file = proper().write().unwrap();
    file[BLOCK * block + byte] = value;
    file
}

/// The same, with the sum made right again.
fn sealed(block: usize, byte: usize, value: u8) -> Vec<u8> {
    let mut file = altered(block, byte, value);
    seal(&mut file[BLOCK * block..BLOCK * (block + 1)]);
    file
}

#[test]
fn every_refusal_of_a_file() {
    let whole = proper().write().unwrap();
    let cases = [
        (vec![], REFUSED_SIZE, 0),
        (whole[..BLOCK - 1].to_vec(), REFUSED_SIZE, 0),
        (vec![0; 8 * BLOCK], REFUSED_SIZE, 0),
        (altered(0, 9, 1), REFUSED_CHECK, 0),
        (altered(2, 300, 1), REFUSED_CHECK, 2),
        (sealed(1, 1, 2), REFUSED_LAYOUT, 1),
        (sealed(2, 4, 1), REFUSED_LAYOUT, 2),
        (whole[..2 * BLOCK].to_vec(), REFUSED_LAYOUT, 1),
        (sealed(0, 8 + 24, 65), REFUSED_WIDTH, 1),
        (sealed(0, 8 + 24 + 8, 16), REFUSED_TABLE, 1),
        (sealed(1, 8 + 8, 15), REFUSED_KIND, 1),
        (sealed(1, 8 + 8 + 1, 3), REFUSED_FIELD, 1),
        (sealed(1, 8 + 8 + 1, 2), REFUSED_FIT, 1),
        (sealed(2, 8 + 3, 255), REFUSED_LIMIT, 0),
    ];
    for (file, number, place) in cases {
        assert_eq!(Problem::read(&file), Err(Refusal { number, place }));
        assert_eq!(advise(&file), format!("refused {number} {place}\n").into_bytes());
    }
}
