//! Block files: read with refusals 1 to 3, and written.

use crate::paper::{Problem, Refused, Rule, Word};

pub const BLOCK: usize = 512;
const HEAD: usize = 8;
const WORDS: u8 = 1;
const RULES: u8 = 2;
const END: u8 = 3;

/// Records of a full block.
pub fn full(kind: u8) -> usize {
    match kind {
        WORDS => 21,
        RULES => 63,
        _ => 0,
    }
}

/// Bytes of a record.
fn record(kind: u8) -> usize {
    match kind {
        WORDS => 24,
        RULES => 8,
        _ => 4,
    }
}

fn number(bytes: &[u8]) -> u64 {
    bytes.iter().rev().fold(0, |x, &byte| x << 8 | u64::from(byte))
}

fn sum(block: &[u8]) -> u64 {
    block.chunks(2).map(number).sum::<u64>() % 65_536
}

fn count(block: &[u8]) -> usize {
    number(&block[4..6]) as usize
}

/// Whether a block is proper by itself, as block number i.
fn proper(block: &[u8], i: usize) -> bool {
    let kind = block[0];
    if !(WORDS..=END).contains(&kind) || block[1] != 1 || number(&block[2..4]) != i as u64 {
        return false;
    }
    let records = count(block);
    if kind == END {
        return records == 0 && block[HEAD + 4..].iter().all(|&x| x == 0);
    }
    if records == 0 || records > full(kind) {
        return false;
    }
    let (used, unused) = block[HEAD..].split_at(records * record(kind));
    let zeros = if kind == WORDS { 1..8 } else { 6..8 };
    unused.iter().all(|&x| x == 0) && used.chunks(record(kind)).all(|x| x[zeros.clone()].iter().all(|&y| y == 0))
}

/// Whether blocks can begin a proper file.
fn can_begin(blocks: &[&[u8]]) -> bool {
    let total = |kind: u8| blocks.iter().filter(|block| block[0] == kind).map(|block| count(block)).sum::<usize>();
    let in_order = blocks.windows(2).all(|pair| {
        let (before, after) = (pair[0], pair[1]);
        before[0] != END && before[0] <= after[0] && (before[0] != after[0] || count(before) == full(before[0]))
    });
    blocks.iter().enumerate().all(|(i, block)| proper(block, i)) && in_order && total(WORDS) <= 32 && total(RULES) <= 252
}

/// The problem of a file, not yet checked, or its first refusal of 1 to 3.
pub fn read(bytes: &[u8]) -> Result<Problem, Refused> {
    if bytes.len() % BLOCK != 0 || !(1..=7).contains(&(bytes.len() / BLOCK)) {
        return Err(Refused(1, 0));
    }
    let blocks: Vec<&[u8]> = bytes.chunks(BLOCK).collect();
    for (i, block) in blocks.iter().enumerate() {
        if sum(block) != 65_535 {
            return Err(Refused(2, i));
        }
        if !can_begin(&blocks[..=i]) {
            return Err(Refused(3, i));
        }
    }
    let mut problem = Problem::default();
    for block in &blocks {
        for x in block[HEAD..].chunks(record(block[0])).take(count(block)) {
            if block[0] == WORDS {
                problem.words.push(Word { width: x[0], lo: number(&x[8..16]), hi: number(&x[16..24]) });
            } else {
                problem.rules.push(Rule { kind: x[0], at: [x[1], x[2], x[3], x[4]], k: x[5] });
            }
        }
    }
    let last = blocks[blocks.len() - 1];
    if last[0] != END {
        return Err(Refused(3, blocks.len() - 1));
    }
    problem.limit = number(&last[HEAD..HEAD + 4]) as u32;
    Ok(problem)
}

/// The check of a block set so that the sum is right.
pub fn seal(block: &mut [u8]) {
    block[6..8].fill(0);
    let check = 65_535 - sum(block);
    block[6..8].copy_from_slice(&(check as u16).to_le_bytes());
}

fn block(kind: u8, i: usize, records: &[Vec<u8>]) -> Vec<u8> {
    let mut bytes = vec![kind, 1, i as u8, 0, records.len() as u8, 0, 0, 0];
    if kind == END {
        bytes[4] = 0;
    }
    bytes.extend(records.concat());
    bytes.resize(BLOCK, 0);
    seal(&mut bytes);
    bytes
}

/// The file of a problem, which may be one that is refused.
pub fn write(problem: &Problem) -> Vec<u8> {
    let words: Vec<Vec<u8>> = problem.words.iter().map(|x| [&[x.width, 0, 0, 0, 0, 0, 0, 0], &x.lo.to_le_bytes()[..], &x.hi.to_le_bytes()].concat()).collect();
    let rules: Vec<Vec<u8>> = problem.rules.iter().map(|x| [&[x.kind], &x.at[..], &[x.k, 0, 0]].concat()).collect();
    let mut blocks: Vec<Vec<u8>> = Vec::new();
    for (kind, records) in [(WORDS, words), (RULES, rules), (END, vec![problem.limit.to_le_bytes().to_vec()])] {
        for part in records.chunks(full(kind).max(1)) {
            blocks.push(block(kind, blocks.len(), part));
        }
    }
    blocks.concat()
}

#[cfg(test)]
mod tests {
    use super::*;

    #[test]
    fn board_a_is_one_block() {
        let bytes = write(&Problem::default());
        assert_eq!(bytes[..8], [3, 1, 0, 0, 0, 0, 252, 254]);
        assert!(bytes.len() == BLOCK && bytes[8..].iter().all(|&x| x == 0));
        assert_eq!(read(&bytes), Ok(Problem::default()));
    }

    fn of(words: usize, rules: usize) -> Problem {
        Problem::of(&vec![(2, 1, 3); words], &vec![[14, 0, 1, 2, 0, 0]; rules], 77)
    }

    #[test]
    fn read_gives_what_was_written() {
        for (words, rules) in [(1, 0), (21, 0), (22, 63), (32, 252), (0, 1)] {
            assert_eq!(read(&write(&of(words, rules))), Ok(of(words, rules)));
        }
        assert_eq!(read(&write(&of(33, 0))), Err(Refused(3, 1)));
        assert_eq!(read(&write(&of(32, 251))), Ok(of(32, 251)));
        assert_eq!(read(&write(&of(0, 253))), Err(Refused(3, 4)));
    }

    #[test]
    fn lengths() {
        let bytes = write(&of(32, 252));
        assert_eq!(bytes.len(), 7 * BLOCK);
        for length in [0, 1, 511, 513, 7 * BLOCK - 1] {
            assert_eq!(read(&bytes[..length]), Err(Refused(1, 0)));
        }
        assert_eq!(read(&[bytes.clone(), bytes].concat()), Err(Refused(1, 0)));
    }

    /// The first bad block decides, its sum before its layout; a file that stops early is at fault at its last block.
    #[test]
    fn first_bad_block() {
        let mut bytes = write(&of(22, 64));
        assert_eq!(read(&bytes[..3 * BLOCK]), Err(Refused(3, 2)));
        bytes[3 * BLOCK + 9] ^= 1;
        assert_eq!(read(&bytes), Err(Refused(2, 3)));
        bytes[BLOCK + 1] = 2;
        assert_eq!(read(&bytes), Err(Refused(2, 1)));
        seal(&mut bytes[BLOCK..2 * BLOCK]);
        assert_eq!(read(&bytes), Err(Refused(3, 1)));
    }

    #[test]
    fn part_full_block_in_the_middle() {
        let (a, b) = (write(&of(20, 0)), write(&of(22, 0)));
        let bytes = [&a[..BLOCK], &b[BLOCK..]].concat();
        assert_eq!(read(&bytes), Err(Refused(3, 1)));
    }
}
