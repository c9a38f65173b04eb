//! A second solver, written from the product's paper alone, to be compared with the adviser program.
//!
//! Without arguments it reads one block file on standard input and prints the lines of the adviser program; exit status 3 where that takes too long.
//! `second make FOLDER [COUNT [SEED]]` writes boards of all sorts as block files, each with the lines that it must give.
//! `second ask [COUNT [SEED]]` prints COUNT questions for each of `tighten` and `explain`, two lines each: a board as in tests/boards/boards.txt, and its answer.

use second::fits::{Meter, TooLong};
use second::{ask, file, lines, make};
use std::io::Read;
use std::process::exit;

/// Fits looked at for one file before it takes too long: some seconds.
const MOST_WORK: u64 = 200_000_000;

fn fail(what: &str, status: i32) -> ! {
    eprintln!("second: {what}");
    exit(status)
}

fn argument<T: std::str::FromStr>(text: Option<&String>, name: &str, otherwise: T) -> T {
    let parsed = text.map(|x| x.parse().unwrap_or_else(|_| fail(&format!("{name} is {x:?}; give a number"), 2)));
    parsed.unwrap_or(otherwise)
}

fn main() {
    let arguments: Vec<String> = std::env::args().skip(1).collect();
    match arguments.first().map(String::as_str) {
        None => {
            let mut bytes = Vec::new();
            if let Err(error) = std::io::stdin().take(8 * file::BLOCK as u64).read_to_end(&mut bytes) {
                fail(&format!("standard input cannot be read: {error}"), 2);
            }
            match lines::advise(&bytes, &mut Meter(MOST_WORK)) {
                Ok(lines) => print!("{lines}"),
                Err(TooLong) => fail("the board takes too long to go through; give one with fewer open bits or a lower limit", 3),
            }
        }
        Some("make") if arguments.len() >= 2 => {
            let count = argument(arguments.get(2), "COUNT", 6000);
            let seed = argument(arguments.get(3), "SEED", 1);
            match make::write_all(std::path::Path::new(&arguments[1]), count, seed) {
                Ok(summary) => print!("{summary}"),
                Err(error) => fail(&format!("{}: {error}; give a folder that can be written", arguments[1]), 2),
            }
        }
        Some("ask") => {
            let (lines, _) = ask::all(argument(arguments.get(1), "COUNT", 8960), argument(arguments.get(2), "SEED", 1));
            print!("{lines}");
        }
        _ => fail("no such arguments; give none, or: make FOLDER [COUNT [SEED]], or: ask [COUNT [SEED]]", 2),
    }
}
