//! A part of a run: so many files, each made from the seed and its own number alone, so that every one can be made again.

use crate::compare::{compare, known, Known};
use crate::damage::damaged;
use crate::edge::Edge;
use second::file::{seal, write, BLOCK};
use second::make::{long, proper};
use second::random::Random;
use std::collections::BTreeMap;
use std::path::{Path, PathBuf};

/// Files made from one proper problem.
const OF_ONE: u64 = 8;

/// The greatest limit left in a file that takes the second solver too long.
const LOW: u64 = 3;

/// Failures of a part that are told and kept.
const MOST_KEPT: u64 = 20;

/// How often each thing happened.
pub type Counts = BTreeMap<String, u64>;

/// Where files are kept that show a failure.
pub fn kept(name: &str) -> PathBuf {
    Path::new(env!("CARGO_MANIFEST_DIR")).join("target/kept").join(name)
}

pub fn keep(name: &str, bytes: &[u8]) {
    let path = kept(name);
    let written = std::fs::create_dir_all(kept("")).and_then(|()| std::fs::write(&path, bytes));
    if let Err(error) = written {
        eprintln!("fuzz: {} cannot be written: {error}", path.display());
    }
}

/// A generator for one number of a run; which use it is for keeps problems and faults apart.
fn random_for(seed: u64, number: u64, purpose: u64) -> Random {
    let mut random = Random(seed);
    let mut mixed = Random(random.next() ^ number);
    Random(mixed.next().wrapping_add(purpose))
}

/// A proper file with a low limit, now and then with any other one.
fn base(seed: u64, number: u64) -> Vec<u8> {
    let mut random = random_for(seed, number, 1);
    let mut problem = if random.once_in(4) { long(&mut random) } else { proper(&mut random) };
    if !random.once_in(20) {
        problem.limit = random.pick(&[0, 1, 2, 5, 20, 100]);
    }
    write(&problem)
}

/// A file with its limit lowered, where it is a proper one that takes too long; the end block is its last.
fn lowered(mut bytes: Vec<u8>, random: &mut Random) -> Vec<u8> {
    let at = bytes.len() - BLOCK;
    let end = &mut bytes[at..];
    end[8..12].copy_from_slice(&(random.below(LOW + 1) as u32).to_le_bytes());
    seal(end);
    bytes
}

/// What is counted of a file: the first word of its lines, with the number of a refusal, and whether a cause was named.
fn sort(lines: &[u8]) -> String {
    let text = String::from_utf8_lossy(lines);
    let mut items = text.split_whitespace();
    match (items.next(), items.next()) {
        (Some("refused"), Some(number)) => format!("refused {number}"),
        (Some("unsat"), _) if text.contains("cause unknown") => "unsat, cause unknown".to_string(),
        (Some("unsat"), _) => "unsat, cause named".to_string(),
        (first, _) => first.unwrap_or("nothing").to_string(),
    }
}

/// The files `first` to `first + count - 1` of a seed. Where it is careful, each is kept as `running.blocks` before it is asked about.
pub fn run(first: u64, count: u64, seed: u64, careful: bool) -> Counts {
    let mut counts = Counts::new();
    let mut add = |name: &str| {
        let count = counts.entry(name.to_string()).or_insert(0);
        *count += 1;
        *count
    };
    let mut edge = Edge::new();
    let mut problem = (u64::MAX, Vec::new());
    for number in first..first + count {
        if problem.0 != number / OF_ONE {
            problem = (number / OF_ONE, base(seed, number / OF_ONE));
        }
        let mut random = random_for(seed, number, 2);
        let mut bytes = damaged(&problem.1, &mut random);
        let mut said = known(&bytes);
        if matches!(&said, Known::Proper(problem, None) if u64::from(problem.limit) > LOW) {
            bytes = lowered(bytes, &mut random);
            said = known(&bytes);
        }
        if careful {
            keep("running.blocks", &bytes);
        }
        match compare(&bytes, &said, &mut edge) {
            Ok(lines) => {
                add(&sort(&lines));
            }
            Err(what) => {
                if add("failed") <= MOST_KEPT {
                    let name = format!("{seed}-{number}.blocks");
                    keep(&name, &bytes);
                    eprintln!("file {number}: {what}; kept as {}", kept(&name).display());
                }
            }
        }
        if matches!(said, Known::Proper(_, None)) {
            add("lines not compared");
        }
    }
    counts
}
