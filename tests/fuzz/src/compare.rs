//! One file through the library and through the second solver: the refusal, or what was read and the lines, and all lent memory.

use crate::edge::Edge;
use crate::library::{self, Advised, Read};
use second::file;
use second::fits::Meter;
use second::lines;
use second::paper::{check, Problem, Refused};

/// Fits that the second solver may look at for one file.
const SMALL: u64 = 40_000;

/// What a file is to the second solver.
pub enum Known {
    Refused(Refused),
    /// A proper problem, with its lines where going through it does not take too long.
    Proper(Problem, Option<String>),
}

/// What the second solver says of a file.
pub fn known(bytes: &[u8]) -> Known {
    match file::read(bytes).and_then(|problem| check(&problem).map(|()| problem)) {
        Err(refused) => Known::Refused(refused),
        Ok(problem) => Known::Proper(problem, lines::advise(bytes, &mut Meter(SMALL)).ok()),
    }
}

/// The memory and the answer that `read` must leave.
fn wanted_read(known: &Known) -> Read {
    match known {
        Known::Refused(Refused(number, place)) => Read::with(u64::from(*number) | (*place as u64) << 8, &[], &[]),
        Known::Proper(problem, _) => {
            let words: Vec<u64> = problem.words.iter().flat_map(|word| [u64::from(word.width), word.lo, word.hi]).collect();
            let rules: Vec<u8> = problem.rules.iter().flat_map(|rule| [rule.kind, rule.at[0], rule.at[1], rule.at[2], rule.at[3], rule.k]).collect();
            let counts = (problem.words.len() as u64) << 40 | (problem.rules.len() as u64) << 48;
            Read::with(35 | u64::from(problem.limit) << 8 | counts, &words, &rules)
        }
    }
}

/// The lines that `advise` must put; where they are not known, those that came if they are not a refusal's.
fn wanted_lines(known: &Known, came: &[u8]) -> Vec<u8> {
    match known {
        Known::Refused(Refused(number, place)) => format!("refused {number} {place}\n").into_bytes(),
        Known::Proper(_, Some(lines)) => lines.clone().into_bytes(),
        Known::Proper(_, None) if came.ends_with(b"\n") && [&b"sat "[..], b"unsat ", b"unknown "].iter().any(|word| came.starts_with(word)) => came.to_vec(),
        Known::Proper(_, None) => b"sat, unsat or unknown\n".to_vec(),
    }
}

/// The first line that two texts do not share, as it is in each.
fn first_difference(came: &[u8], wanted: &[u8]) -> String {
    let (came, wanted) = (String::from_utf8_lossy(came), String::from_utf8_lossy(wanted));
    let (mut came, mut wanted) = (came.split_inclusive('\n'), wanted.split_inclusive('\n'));
    loop {
        let (x, y) = (came.next(), wanted.next());
        if x != y || x.is_none() {
            return format!("advise gives {:?}, wanted {:?}", x.unwrap_or(""), y.unwrap_or(""));
        }
    }
}

/// The lines that came, or the first thing that is not as the second solver and the promises have it.
pub fn compare(bytes: &[u8], known: &Known, edge: &mut Edge) -> Result<Vec<u8>, String> {
    let lent = edge.put(bytes);
    let (got, wanted) = (library::read(lent), wanted_read(known));
    if got.answer != wanted.answer {
        return Err(format!("read answers {:#x}, wanted {:#x}", got.answer, wanted.answer));
    }
    if got != wanted {
        return Err("read leaves other words or rules".to_string());
    }
    let advised = library::advise(lent);
    let came = advised.lines().ok_or_else(|| format!("advise answers {:#x}", advised.answer))?;
    let lines = wanted_lines(known, came);
    if came != lines {
        return Err(first_difference(came, &lines));
    }
    if advised != Advised::with(advised.answer, &lines) {
        return Err("advise alters bytes after the lines, or leaves work memory that is not 0".to_string());
    }
    if lent != bytes {
        return Err("the file is altered".to_string());
    }
    Ok(lines)
}
