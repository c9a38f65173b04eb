//! The boards that the product's paper works by hand, A to L, through every call that they concern.

use sievecrest::numbers::{MAX_LIMIT, MAX_RULES, MAX_WORDS, REFUSED_FIT, REFUSED_LIMIT, REFUSED_SIZE};
use sievecrest::{advise, Caused, Explained, FixedBit, Place, Problem, Refusal, Rule, Solved, Tightened, Word};

fn board(words: &[Word], rules: &[Rule], limit: u32) -> Problem {
    Problem { words: words.to_vec(), rules: rules.to_vec(), limit }
}

fn found(settings: &[u64], count: u64) -> Result<Solved, Refusal> {
    Ok(Solved::Found { settings: settings.to_vec(), count })
}

fn tight(words: &[Word]) -> Result<Tightened, Refusal> {
    Ok(Tightened::Tight(words.to_vec()))
}

/// Entries as the paper lists them, 64 times place plus bit.
fn reason(entries: &[usize]) -> Vec<FixedBit> {
    entries.iter().map(|entry| FixedBit { place: Place::ALL[entry / 64], bit: (entry % 64) as u64 }).collect()
}

fn forced(value: bool, entries: &[usize]) -> Result<Explained, Refusal> {
    Ok(Explained::Forced { value, reason: reason(entries) })
}

/// The lines for the problem's own file.
fn lines(problem: &Problem) -> String {
    String::from_utf8(advise(&problem.write().unwrap())).unwrap()
}

const BIT: Word = Word::open(1);

#[test]
fn a_no_words_and_no_rules() {
    let a = Problem::default();
    assert_eq!(a.check(), Ok(()));
    assert_eq!(a.tighten(), tight(&[]));
    assert_eq!(a.solve(), found(&[], 0));
    assert_eq!(a.cause(), Ok(Caused::Exists { count: 0 }));
    let file = a.write().unwrap();
    assert_eq!(file[..8], [3, 1, 0, 0, 0, 0, 252, 254]);
    assert!(file.len() == 512 && file[8..].iter().all(|&byte| byte == 0));
    assert_eq!(Problem::read(&file), Ok(a));
    assert_eq!(advise(&file), b"sat 0\n");
}

#[test]
fn b_one_open_bit() {
    assert_eq!(board(&[BIT], &[], 0).solve(), Ok(Solved::GaveUp { count: 0 }));
    assert_eq!(board(&[BIT], &[], 1).solve(), found(&[0], 1));
    assert_eq!(lines(&board(&[BIT], &[], 0)), "unknown 0\n");
    assert_eq!(lines(&board(&[BIT], &[], 1)), "sat 1\n0 1 0\n");
}

#[test]
fn c_sums_wrap_at_the_words_own_width() {
    for (width, ones) in [(4, 15), (64, u64::MAX)] {
        let [a, b, r] = [Word::fixed(width, ones), Word::fixed(width, 1), Word::open(width)];
        let c = board(&[a, b, r], &[Rule::add(2, 0, 1)], 0);
        assert_eq!(c.tighten(), tight(&[a, b, Word::fixed(width, 0)]));
        assert_eq!(c.solve(), found(&[ones, 1, 0], 0));
    }
}

#[test]
fn d_a_word_that_differs_from_itself() {
    let d = board(&[BIT], &[Rule::ne(0, 0)], MAX_LIMIT);
    assert_eq!(d.tighten(), tight(&[BIT]));
    assert_eq!(d.solve(), Ok(Solved::None { count: 1 }));
    assert_eq!(d.cause(), Ok(Caused::Cause { rules: vec![0], count: 2 }));
    assert_eq!(lines(&d), "unsat 1\ncause 2 0\n");
    let without_guesses = Problem { limit: 0, ..d };
    assert_eq!(without_guesses.solve(), Ok(Solved::GaveUp { count: 0 }));
    assert_eq!(without_guesses.cause(), Ok(Caused::GaveUp { count: 0 }));
}

#[test]
fn e_the_highest_open_bit_is_guessed() {
    let e = board(&[Word::open(2), Word::fixed(2, 0)], &[Rule::ne(0, 1)], MAX_LIMIT);
    assert_eq!(e.solve(), found(&[1, 0], 1));
}

const SUM: [Word; 3] = [Word::open(2), Word::open(2), Word::fixed(2, 3)];

#[test]
fn f_two_words_with_a_sum() {
    let f = board(&SUM, &[Rule::add(2, 0, 1)], 15);
    assert_eq!(f.tighten(), tight(&SUM));
    assert_eq!(f.solve(), found(&[0, 3, 3], 2));
    assert_eq!(f.explain(0, Place::A, 1), Ok(Explained::Free));
}

#[test]
fn g_two_words_with_a_sum_and_an_order() {
    let g = board(&SUM, &[Rule::add(2, 0, 1), Rule::ule(1, 0)], 100);
    assert_eq!(g.solve(), found(&[2, 1, 3], 2));
    assert_eq!(g.cause(), Ok(Caused::Exists { count: 2 }));
    assert_eq!(lines(&g), "sat 2\n0 2 10\n1 2 01\n2 2 11\n");
}

#[test]
fn h_the_cause_is_not_every_rule_that_was_touched() {
    let h = board(&[BIT, BIT], &[Rule::ult(0, 1), Rule::ult(0, 1), Rule::ne(0, 1), Rule::ult(1, 0)], MAX_LIMIT);
    assert_eq!(h.tighten(), Ok(Tightened::Conflict));
    assert_eq!(h.solve(), Ok(Solved::None { count: 0 }));
    assert_eq!(h.cause(), Ok(Caused::Cause { rules: vec![0, 3], count: 0 }));
    assert_eq!(lines(&h), "unsat 0\ncause 0 0 3\n");
}

#[test]
fn i_an_order_forces_the_highest_bit() {
    let high = Word::bounds(4, 8, 15);
    let i = board(&[high, Word::open(4)], &[Rule::ule(0, 1)], 0);
    assert_eq!(i.explain(0, Place::B, 3), forced(true, &[67]));
    assert_eq!(i.explain(0, Place::B, 2), Ok(Explained::Free));
    assert_eq!(i.tighten(), tight(&[high, high]));
}

#[test]
fn j_a_difference_forces_the_last_open_bit() {
    let j = board(&[Word::fixed(3, 5), Word::bounds(3, 5, 7)], &[Rule::ne(0, 1)], 0);
    assert_eq!(j.explain(0, Place::B, 1), forced(true, &[64, 65, 66, 128, 130]));
}

#[test]
fn k_a_product_of_bits_forces_0() {
    let [zero, one] = [Word::fixed(1, 0), Word::fixed(1, 1)];
    let k = board(&[zero, BIT, one], &[Rule::and(0, 1, 2)], 0);
    assert_eq!(k.explain(0, Place::A, 0), forced(false, &[0, 128]));
    let without_fits = board(&[one, BIT, zero], &[Rule::and(0, 1, 2)], 0);
    assert_eq!(without_fits.explain(0, Place::A, 0), Ok(Explained::Conflict { reason: reason(&[0, 128]) }));
}

#[test]
fn l_the_last_that_passes_and_the_first_that_is_refused() {
    let fixed = Word::fixed(1, 0);
    let four = [Word::open(4), Word::open(8)];
    let cases = [
        (board(&[], &[], MAX_LIMIT), board(&[], &[], MAX_LIMIT + 1), REFUSED_LIMIT),
        (board(&[fixed; MAX_WORDS], &[], 0), board(&[fixed; MAX_WORDS + 1], &[], 0), REFUSED_SIZE),
        (board(&[fixed], &[Rule::ule(0, 0); MAX_RULES], 0), board(&[fixed], &[Rule::ule(0, 0); MAX_RULES + 1], 0), REFUSED_SIZE),
        (board(&four, &[Rule::slice(0, 1, 4)], 0), board(&four, &[Rule::slice(0, 1, 5)], 0), REFUSED_FIT),
        (board(&four, &[Rule::shl(0, 0, 255)], 0), board(&four, &[Rule::shl(0, 1, 0)], 0), REFUSED_FIT),
    ];
    for (passes, refused, number) in cases {
        assert_eq!(passes.check(), Ok(()));
        assert_eq!(Problem::read(&passes.write().unwrap()), Ok(passes));
        assert_eq!(refused.check(), Err(Refusal { number, place: 0 }));
        assert_eq!(refused.solve(), Err(Refusal { number, place: 0 }));
    }
}

#[test]
fn l_a_shift_may_be_as_long_as_the_word_and_longer() {
    for rule in [Rule::shl(0, 1, 4), Rule::shr(0, 1, 4), Rule::shl(0, 1, 255), Rule::shr(0, 1, 255)] {
        let l = board(&[Word::open(4), Word::open(4)], &[rule], 4);
        assert_eq!(l.check(), Ok(()), "{rule:?}");
        assert_eq!(l.tighten(), tight(&[Word::fixed(4, 0), Word::open(4)]), "{rule:?}");
        assert_eq!(l.solve(), found(&[0, 0], 4), "{rule:?}");
        assert_eq!(l.explain(0, Place::R, 3), forced(false, &[]), "{rule:?}");
        assert_eq!(l.explain(0, Place::A, 3), Ok(Explained::Free), "{rule:?}");
    }
}

#[test]
fn a_reason_may_be_empty() {
    let shift = board(&[Word::open(4), Word::open(4)], &[Rule::shl(0, 1, 2)], 0);
    assert_eq!(shift.explain(0, Place::R, 1), forced(false, &[]));
}

/// A trial has fewer rules than the problem, so it may need more guesses.
#[test]
fn a_cause_may_be_out_of_reach_where_the_whole_is_not() {
    let trial = board(&[Word::fixed(1, 0), BIT], &[Rule::ult(1, 0), Rule::copy(0, 0)], 0);
    assert_eq!(trial.solve(), Ok(Solved::None { count: 0 }));
    assert_eq!(trial.cause(), Ok(Caused::GaveUp { count: 0 }));
    assert_eq!(lines(&trial), "unsat 0\ncause unknown 0\n");
}

/// The kinds that have a result, over words that are fixed.
#[test]
fn every_result_is_computed() {
    let [a, b, s] = [Word::fixed(4, 12), Word::fixed(4, 10), Word::fixed(1, 0)];
    let cases = [
        (Rule::copy(3, 0), 4, 12),
        (Rule::not(3, 0), 4, 3),
        (Rule::and(3, 0, 1), 4, 8),
        (Rule::or(3, 0, 1), 4, 14),
        (Rule::xor(3, 0, 1), 4, 6),
        (Rule::add(3, 0, 1), 4, 6),
        (Rule::ite(3, 0, 1, 2), 4, 10),
        (Rule::slice(3, 0, 1), 3, 6),
        (Rule::join(3, 0, 1), 8, 202),
        (Rule::shl(3, 0, 1), 4, 8),
        (Rule::shr(3, 0, 2), 4, 3),
        (Rule::shl(3, 0, 4), 4, 0),
        (Rule::shr(3, 0, 64), 4, 0),
    ];
    for (rule, width, value) in cases {
        assert_eq!(board(&[a, b, s, Word::open(width)], &[rule], 0).solve(), found(&[12, 10, 0, value], 0), "{rule:?}");
    }
}

#[test]
fn every_comparison_holds_or_is_a_conflict() {
    let words = [Word::fixed(4, 10), Word::fixed(4, 12), Word::fixed(4, 12)];
    for rule in [Rule::ule(0, 1), Rule::ule(1, 2), Rule::ult(0, 1), Rule::ne(0, 1)] {
        assert_eq!(board(&words, &[rule], 0).tighten(), tight(&words), "{rule:?}");
    }
    for rule in [Rule::ule(1, 0), Rule::ult(1, 2), Rule::ult(1, 0), Rule::ne(1, 2)] {
        assert_eq!(board(&words, &[rule], 0).tighten(), Ok(Tightened::Conflict), "{rule:?}");
    }
}

/// A search of 2,048 levels, the most there are, on the stack that the front page names.
#[test]
fn a_mebibyte_was_enough_for_2048_levels() {
    let deepest = || board(&[Word::open(64); MAX_WORDS], &[Rule::ule(31, 31)], MAX_LIMIT).solve();
    let thread = std::thread::Builder::new().stack_size(1 << 20).spawn(deepest).unwrap();
    assert_eq!(thread.join().unwrap(), found(&[0; MAX_WORDS], 2048));
}
