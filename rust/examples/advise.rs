//! Prints the adviser program's lines for a block file, FILE or standard input, as they follow from `Problem::read`, `solve` and `cause`.
//! Then it asks the call `advise` too: exit status 1 where its lines differ, 2 where the file cannot be read.

use sievecrest::numbers::MAX_FILE_BYTES;
use sievecrest::{advise, Caused, Problem, Refusal, Solved};
use std::fs::File;
use std::io::{stdin, stdout, Read, Write};
use std::process::exit;

fn fail(what: &str, status: i32) -> ! {
    eprintln!("advise: {what}");
    exit(status)
}

/// One byte more than the longest file is enough to be refused for its length.
fn bytes(from: impl Read) -> std::io::Result<Vec<u8>> {
    let mut bytes = Vec::new();
    from.take(MAX_FILE_BYTES as u64 + 1).read_to_end(&mut bytes)?;
    Ok(bytes)
}

fn input() -> Vec<u8> {
    let (name, read) = match std::env::args_os().nth(1) {
        Some(path) => (path.to_string_lossy().into_owned(), File::open(path).and_then(bytes)),
        None => ("standard input".to_string(), bytes(stdin().lock())),
    };
    read.unwrap_or_else(|error| fail(&format!("{name} cannot be read: {error}; give a block file"), 2))
}

/// The first line, and a line per word: number, width, value in binary with exactly as many digits as the width.
fn sat(problem: &Problem, settings: &[u64], count: u64) -> String {
    let mut lines = format!("sat {count}\n");
    for (i, (word, value)) in problem.words.iter().zip(settings).enumerate() {
        lines += &format!("{i} {} {value:0digits$b}\n", word.width, digits = word.width as usize);
    }
    lines
}

fn cause(problem: &Problem) -> Result<String, Refusal> {
    Ok(match problem.cause()? {
        Caused::Cause { rules, count } => rules.iter().fold(format!("cause {count}"), |line, rule| format!("{line} {rule}")),
        Caused::GaveUp { count } => format!("cause unknown {count}"),
        Caused::Exists { count } => fail(&format!("a cause is asked for, and after {count} guesses there are settings"), 1),
    })
}

fn lines(file: &[u8]) -> Result<String, Refusal> {
    let problem = Problem::read(file)?;
    Ok(match problem.solve()? {
        Solved::Found { settings, count } => sat(&problem, &settings, count),
        Solved::None { count } => format!("unsat {count}\n{}\n", cause(&problem)?),
        Solved::GaveUp { count } => format!("unknown {count}\n"),
    })
}

fn main() {
    let file = input();
    let lines = lines(&file).unwrap_or_else(|refusal| format!("refused {} {}\n", refusal.number, refusal.place));
    if let Err(error) = stdout().write_all(lines.as_bytes()) {
        fail(&format!("standard output cannot be written: {error}"), 2);
    }
    let other = advise(&file);
    if other != lines.as_bytes() {
        fail(&format!("the call `advise` gives other lines:\n{}", String::from_utf8_lossy(&other)), 1);
    }
}
