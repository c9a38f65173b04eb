//! Problems written and read again, and files read and written again.

use sievecrest::numbers::{MAX_FILE_BYTES, MAX_LIMIT, MAX_RULES, MAX_WORDS};
use sievecrest::{Problem, Rule, Word};
use std::path::Path;

/// A problem of a given size: word i has width 64 - i, and each rule cuts a word out of word 0.
fn sized(words: usize, rules: usize) -> Problem {
    let word = |i: usize| Word::bounds(64 - i as u64, 1 << (i % 4), 15);
    let rule = |i: usize| Rule::slice((i % words) as u8, 0, (i % words / 2) as u8);
    Problem { words: (0..words).map(word).collect(), rules: (0..rules).map(rule).collect(), limit: MAX_LIMIT - rules as u32 }
}

#[test]
fn what_is_written_reads_back_the_same() {
    for (words, rules, blocks) in [(1, 0, 2), (21, 0, 2), (22, 1, 4), (32, 63, 4), (32, 64, 5), (MAX_WORDS, MAX_RULES, 7)] {
        let problem = sized(words, rules);
        let file = problem.write().unwrap();
        assert_eq!(file.len(), 512 * blocks);
        assert!(file.len() <= MAX_FILE_BYTES);
        assert_eq!(Problem::read(&file), Ok(problem));
    }
}

#[test]
fn a_file_that_reads_is_written_back_byte_by_byte() {
    let folder = Path::new(env!("CARGO_MANIFEST_DIR")).join("../examples");
    let mut files = 0;
    for entry in std::fs::read_dir(folder).unwrap() {
        let path = entry.unwrap().path();
        if path.extension().map_or(false, |ending| ending == "blocks") {
            let file = std::fs::read(&path).unwrap();
            assert_eq!(Problem::read(&file).unwrap().write(), Ok(file), "{}", path.display());
            files += 1;
        }
    }
    assert!(files > 0, "no block files in examples");
}
