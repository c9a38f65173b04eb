//! Lent memory: the lengths of `numbers` are the least that each call takes, and memory is left as promised.

use super::*;
use crate::numbers::{
    ADVISE_WORK, CAUSE_WORK, LINES_BYTES, MAX_FILE_BYTES, READ_BYTES, READ_NUMBERS, REASON_ENTRIES, SOLVE_WORK, TIGHTEN_WORK,
};
use crate::numbers::{CAUSE, DETAIL_SHIFT, ENTRIES_SHIFT, FORCED, FOUND, OK, REFUSED_SIZE, RULES_SHIFT, TIGHT, WORDS_SHIFT};

/// What memory holds before a call, so that a write shows.
const DIRT: u8 = 7;

fn dirty<T: From<u8> + Clone>(length: usize) -> Vec<T> {
    vec![T::from(DIRT); length]
}

fn is_dirty<T: From<u8> + PartialEq>(memory: &[T]) -> bool {
    memory.iter().all(|number| *number == T::from(DIRT))
}

fn is_clear(memory: &[u64]) -> bool {
    memory.iter().all(|&number| number == 0)
}

/// Board E: word 0 of width 2 is open, word 1 is 0, and they differ; the first settings are 1 and 0, after 1 guess.
const E: ([u64; 6], [u8; 6]) = ([2, 0, 3, 2, 0, 0], [14, 0, 0, 1, 0, 0]);

/// Board D: word 0 of width 1 is open and differs from itself, which rule 0 alone says; 2 guesses in all.
const D: ([u64; 3], [u8; 6]) = ([1, 0, 1], [14, 0, 0, 0, 0, 0]);

#[test]
fn tighten_takes_320_numbers() {
    let (mut words, rules) = ([4, 8, 15, 4, 0, 15], [12, 0, 0, 1, 0, 0]);
    let mut short = dirty(TIGHTEN_WORK - 1);
    assert_eq!(tighten(&mut words, &rules, &mut short), REFUSED_SIZE);
    assert_eq!(words, [4, 8, 15, 4, 0, 15]);
    assert!(is_dirty(&short));
    let mut work = dirty(TIGHTEN_WORK);
    assert_eq!(tighten(&mut words, &rules, &mut work), TIGHT);
    assert_eq!(words, [4, 8, 15, 4, 8, 15]);
    assert!(is_clear(&work));
}

#[test]
fn solve_takes_4608_numbers_and_a_model_number_a_word() {
    let (words, rules) = E;
    for (model_length, work_length) in [(1, SOLVE_WORK), (2, SOLVE_WORK - 1), (0, 0)] {
        let (mut model, mut work) = (dirty(model_length), dirty(work_length));
        assert_eq!(solve(&words, &rules, 9, &mut model, &mut work), REFUSED_SIZE);
        assert!(is_dirty(&model) && is_dirty(&work));
    }
    let (mut model, mut work) = (dirty(3), dirty(SOLVE_WORK));
    assert_eq!(solve(&words, &rules, 9, &mut model, &mut work), FOUND + (1 << DETAIL_SHIFT));
    assert_eq!(model, [1, 0, DIRT.into()]);
    assert!(is_clear(&work));
}

#[test]
fn explain_takes_193_entries() {
    let (words, rules) = ([1, 0, 0, 1, 0, 1, 1, 1, 1], [3, 0, 1, 2, 0, 0]);
    let mut short = dirty(REASON_ENTRIES - 1);
    assert_eq!(explain(&words, &rules, 0, 1, 0, &mut short), REFUSED_SIZE);
    assert!(is_dirty(&short));
    let mut list = dirty(REASON_ENTRIES);
    assert_eq!(explain(&words, &rules, 0, 1, 0, &mut list), FORCED + (2 << ENTRIES_SHIFT));
    assert_eq!(list[..2], [0, 128]);
    assert!(is_dirty(&list[2..]));
}

#[test]
fn cause_takes_5120_numbers_and_an_entry_a_rule() {
    let (words, rules) = D;
    for (list_length, work_length) in [(0, CAUSE_WORK), (1, CAUSE_WORK - 1)] {
        let (mut list, mut work) = (dirty(list_length), dirty(work_length));
        assert_eq!(cause(&words, &rules, 9, &mut list, &mut work), REFUSED_SIZE);
        assert!(is_dirty(&list) && is_dirty(&work));
    }
    let (mut list, mut work) = (dirty(2), dirty(CAUSE_WORK));
    assert_eq!(cause(&words, &rules, 9, &mut list, &mut work), CAUSE + (2 << DETAIL_SHIFT) + (1 << ENTRIES_SHIFT));
    assert_eq!(list, [0, DIRT.into()]);
    assert!(is_clear(&work));
}

/// The file of board E with limit 9: a block of words, one of rules, one end block.
fn file_of_e() -> Vec<u8> {
    let mut file = dirty(MAX_FILE_BYTES);
    assert_eq!(write(&E.0, &E.1, 9, &mut file), OK + (1536 << DETAIL_SHIFT));
    assert!(is_dirty(&file[1536..]));
    file.truncate(1536);
    file
}

#[test]
fn write_takes_the_files_own_length() {
    let mut short: Vec<u8> = dirty(1535);
    assert_eq!(write(&E.0, &E.1, 9, &mut short), REFUSED_SIZE);
    assert!(is_dirty(&short));
    let mut enough: Vec<u8> = dirty(1536);
    assert_eq!(write(&E.0, &E.1, 9, &mut enough), OK + (1536 << DETAIL_SHIFT));
    assert_eq!(enough, file_of_e());
}

#[test]
fn read_takes_room_for_32_words_and_252_rules() {
    for (numbers, bytes) in [(READ_NUMBERS - 1, READ_BYTES), (READ_NUMBERS, READ_BYTES - 1)] {
        let (mut words, mut rules): (Vec<u64>, Vec<u8>) = (dirty(numbers), dirty(bytes));
        assert_eq!(read(&file_of_e(), &mut words, &mut rules), REFUSED_SIZE);
        assert!(is_dirty(&words) && is_dirty(&rules));
    }
    let (mut words, mut rules): (Vec<u64>, Vec<u8>) = (dirty(READ_NUMBERS), dirty(READ_BYTES));
    assert_eq!(read(&file_of_e(), &mut words, &mut rules), OK + (9 << DETAIL_SHIFT) + (2 << WORDS_SHIFT) + (1 << RULES_SHIFT));
    assert_eq!((&words[..6], &rules[..6]), (&E.0[..], &E.1[..]));
    assert!(is_dirty(&words[6..]) && is_dirty(&rules[6..]));
}

#[test]
fn advise_takes_2304_bytes_and_5120_numbers() {
    for (bytes, numbers) in [(LINES_BYTES - 1, ADVISE_WORK), (LINES_BYTES, ADVISE_WORK - 1)] {
        let (mut out, mut work): (Vec<u8>, Vec<u64>) = (dirty(bytes), dirty(numbers));
        assert_eq!(advise(&file_of_e(), &mut out, &mut work), REFUSED_SIZE);
        assert!(is_dirty(&out) && is_dirty(&work));
    }
    let (mut out, mut work): (Vec<u8>, Vec<u64>) = (dirty(LINES_BYTES), dirty(ADVISE_WORK));
    assert_eq!(advise(&file_of_e(), &mut out, &mut work), OK + (20 << DETAIL_SHIFT));
    assert_eq!(&out[..20], b"sat 1\n0 2 01\n1 2 00\n");
    assert!(is_dirty(&out[20..]) && is_clear(&work));
}

/// Empty slices of Rust have pointers that are aligned and not null, which is all that a call asks of them.
#[test]
fn nothing_may_be_lent() {
    assert_eq!(check(&[], &[], 0), OK);
    assert_eq!(solve(&[], &[], 0, &mut [], &mut [DIRT.into(); SOLVE_WORK]), FOUND);
    assert_eq!(read(&[], &mut [], &mut []), REFUSED_SIZE);
    assert_eq!(advise(&[], &mut [], &mut []), REFUSED_SIZE);
}
