//! Faults put into proper files, so that every refusal comes up at several places, alone and together with others.

use crate::file::{full, seal, write, BLOCK};
use crate::paper::{places, uses, Problem};
use crate::random::Random;

/// A file with one fault or some: first those of the problem, then those of its blocks, last its length.
pub fn damaged(problem: &Problem, random: &mut Random) -> Vec<u8> {
    let mut problem = problem.clone();
    let faults = if random.once_in(3) { 2 + random.below(3) } else { 1 };
    let chosen: Vec<u64> = (0..faults).map(|_| random.pick(&[1, 2, 3, 3, 3, 4, 5, 6, 7, 7, 8, 8, 9])).collect();
    for &number in &chosen {
        spoil_problem(number, &mut problem, random);
    }
    let mut bytes = write(&problem);
    for &number in &chosen {
        match number {
            2 => spoil_sum(&mut bytes, random),
            3 => spoil_layout(&mut bytes, random),
            _ => {}
        }
    }
    if chosen.contains(&1) {
        spoil_length(&mut bytes, random);
    }
    bytes
}

/// Refusals 4 to 9.
pub fn spoil_problem(number: u64, problem: &mut Problem, random: &mut Random) {
    let (i, j) = (random.below(problem.words.len().max(1) as u64) as usize, random.below(problem.rules.len().max(1) as u64) as usize);
    let words = problem.words.len();
    let word = match problem.words.get_mut(i) {
        Some(word) => word,
        None => return,
    };
    match number {
        4 => word.width = random.pick(&[0, 65, 66, 128, 255]),
        5 => match random.below(3) {
            0 => word.lo |= 1 << random.below(64),
            1 => word.hi |= 1 << random.below(64),
            _ => word.hi &= !word.lo,
        },
        9 => problem.limit = random.pick(&[1_000_001, 1 << 20, 1 << 31, u32::MAX]),
        _ => {}
    }
    let widths: Vec<u8> = problem.words.iter().map(|word| word.width).collect();
    let rule = match problem.rules.get_mut(j) {
        Some(rule) => rule,
        None => return,
    };
    match number {
        6 => rule.kind = random.pick(&[0, 15, 16, 128, 255]),
        7 if random.once_in(2) => {
            let p = random.below(4) as usize;
            rule.at[p] = if places(rule.kind).any(|q| q == p) { random.pick(&[words as u8, 32, 255]) } else { random.pick(&[1, 2, 255]) };
        }
        7 => rule.k = if uses(rule.kind).contains('k') { rule.k } else { random.pick(&[1, 64, 255]) },
        8 if rule.kind == 8 && random.once_in(2) => rule.k = random.pick(&[widths[usize::from(rule.at[0]) % words], 63, 64, 255]),
        8 => {
            let used: Vec<usize> = places(rule.kind).collect();
            if !used.is_empty() {
                rule.at[random.pick(&used)] = random.below(words as u64) as u8;
            }
        }
        _ => {}
    }
}

fn some_block<'a>(bytes: &'a mut [u8], random: &mut Random) -> &'a mut [u8] {
    let i = random.below((bytes.len() / BLOCK) as u64) as usize;
    &mut bytes[i * BLOCK..(i + 1) * BLOCK]
}

fn spoil_sum(bytes: &mut [u8], random: &mut Random) {
    let at = random.below(BLOCK as u64) as usize;
    some_block(bytes, random)[at] ^= 1 << random.below(8);
}

/// A fault of one block by itself or of the order of blocks, with right sums.
fn spoil_layout(bytes: &mut Vec<u8>, random: &mut Random) {
    let count = bytes.len() / BLOCK;
    let i = random.below(count as u64) as usize;
    match random.below(9) {
        0 if count > 1 => drop(bytes.drain(i * BLOCK..(i + 1) * BLOCK)),
        1 if count < 7 => {
            let copy = bytes[i * BLOCK..(i + 1) * BLOCK].to_vec();
            let at = random.below(count as u64 + 1) as usize * BLOCK;
            bytes.splice(at..at, copy);
        }
        2 if count > 1 => {
            let j = random.below(count as u64) as usize;
            for at in 0..BLOCK {
                bytes.swap(i * BLOCK + at, j * BLOCK + at);
            }
        }
        choice => {
            let block = &mut bytes[i * BLOCK..(i + 1) * BLOCK];
            spoil_block(block, choice, random);
            seal(block);
        }
    }
    if random.once_in(2) {
        for (j, block) in bytes.chunks_mut(BLOCK).enumerate() {
            block[2] = j as u8;
            seal(block);
        }
    }
}

fn spoil_block(block: &mut [u8], choice: u64, random: &mut Random) {
    let records = usize::from(block[4]);
    match choice {
        0 | 3 => block[0] = random.pick(&[0, 1, 2, 3, 4, 255]),
        1 | 4 => block[1] = random.pick(&[0, 2, 255]),
        2 | 5 => block[2 + random.below(2) as usize] = random.pick(&[1, 2, 7, 255]),
        6 => block[4] = random.pick(&[0, 1, records as u8 + 1, full(block[0]) as u8, full(block[0]) as u8 + 1, 255]),
        7 => block[5] = 1,
        // a byte anywhere among the records: a zero that must stay one, or not
        _ => block[8 + random.below(504) as usize] ^= random.pick(&[1, 128]),
    }
}

fn spoil_length(bytes: &mut Vec<u8>, random: &mut Random) {
    let wanted = match random.below(6) {
        0 => 0,
        1 => bytes.len() - 1,
        2 => bytes.len() + 1,
        3 => 8 * BLOCK,
        4 => bytes.len() / 2 + 3,
        _ => 7 * BLOCK + 1,
    };
    bytes.resize(wanted, 0);
}
