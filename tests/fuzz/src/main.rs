//! Damaged files through `read` and `advise` of the linked library, compared with the second solver, which shares no code with the crates.
//!
//! `fuzz [COUNT [SEED]]` makes COUNT files (one million) from SEED (1) and compares them; `fuzz file PATH` compares one file, as one that was kept.
//! Every 100,000 files are a process of their own: where it crashes, it is run again with each file kept before it is asked about.

mod compare;
mod damage;
mod edge;
mod library;
mod part;

use part::{kept, Counts};
use std::process::{exit, Command, Stdio};
use std::time::Instant;

const PART: u64 = 100_000;

/// The sorts in the order of the table.
const SORTS: [&str; 13] = [
    "refused 1",
    "refused 2",
    "refused 3",
    "refused 4",
    "refused 5",
    "refused 6",
    "refused 7",
    "refused 8",
    "refused 9",
    "sat",
    "unsat, cause named",
    "unsat, cause unknown",
    "unknown",
];

fn fail(what: &str) -> ! {
    eprintln!("fuzz: {what}");
    exit(2)
}

fn number(text: &str) -> u64 {
    text.parse().unwrap_or_else(|_| fail(&format!("{text:?} is no number; give: [COUNT [SEED]], or file PATH")))
}

/// One part in a process of its own: its counts, or how it ended where it did not end well.
fn in_process(first: u64, count: u64, seed: u64, mode: &str) -> Result<Counts, String> {
    let program = std::env::current_exe().unwrap_or_else(|error| fail(&format!("this program cannot be found: {error}")));
    let arguments = [mode.to_string(), first.to_string(), count.to_string(), seed.to_string()];
    let done = Command::new(program).args(arguments).stderr(Stdio::inherit()).output();
    let done = done.unwrap_or_else(|error| fail(&format!("this program cannot be started: {error}")));
    if !done.status.success() {
        return Err(done.status.to_string());
    }
    let lines = String::from_utf8_lossy(&done.stdout);
    Ok(lines.lines().filter_map(|line| line.split_once('\t')).map(|(name, n)| (name.to_string(), number(n))).collect())
}

/// The counts of one part. A crash is one failure, and the file that was asked about is kept.
fn part_counts(first: u64, count: u64, seed: u64) -> Counts {
    in_process(first, count, seed, "part").unwrap_or_else(|how| {
        eprintln!("files {first} to {}: {how}; run again to find the file", first + count - 1);
        let again = in_process(first, count, seed, "careful");
        let name = format!("{seed}-crash-{first}.blocks");
        if again.is_err() && std::fs::rename(kept("running.blocks"), kept(&name)).is_ok() {
            eprintln!("the file is kept as {}", kept(&name).display());
        }
        Counts::from([("failed".to_string(), 1)])
    })
}

fn run_all(count: u64, seed: u64) -> bool {
    let begin = Instant::now();
    let mut counts = Counts::new();
    for first in (0..count).step_by(PART as usize) {
        for (name, n) in part_counts(first, PART.min(count - first), seed) {
            *counts.entry(name).or_insert(0) += n;
        }
        println!("{} files, {} s", (first + PART).min(count), begin.elapsed().as_secs());
    }
    let of = |name: &str| counts.get(name).copied().unwrap_or(0);
    println!("\nseed {seed}, answers:");
    for name in SORTS {
        println!("{name:<22}{:>9}", of(name));
    }
    println!("of these with lines that were not compared, only that both do not refuse: {}", of("lines not compared"));
    let passed: u64 = SORTS.iter().map(|name| of(name)).sum();
    println!("{} s", begin.elapsed().as_secs());
    println!("{passed} passed, {} failed", of("failed"));
    passed == count && of("failed") == 0
}

/// One file, and what comes.
fn one(path: &str) -> bool {
    let bytes = std::fs::read(path).unwrap_or_else(|error| fail(&format!("{path} cannot be read: {error}")));
    match compare::compare(&bytes, &compare::known(&bytes), &mut edge::Edge::new()) {
        Ok(lines) => print!("{}", String::from_utf8_lossy(&lines)),
        Err(what) => {
            println!("{what}");
            return false;
        }
    }
    true
}

fn main() {
    let arguments: Vec<String> = std::env::args().skip(1).collect();
    let arguments: Vec<&str> = arguments.iter().map(String::as_str).collect();
    let good = match arguments[..] {
        ["file", path] => one(path),
        [mode @ ("part" | "careful"), first, count, seed] => {
            for (name, n) in part::run(number(first), number(count), number(seed), mode == "careful") {
                println!("{name}\t{n}");
            }
            true
        }
        [] => run_all(1_000_000, 1),
        [count] => run_all(number(count), 1),
        [count, seed] => run_all(number(count), number(seed)),
        _ => fail("no such arguments; give: [COUNT [SEED]], or file PATH"),
    };
    exit(i32::from(!good))
}
