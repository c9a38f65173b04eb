//! Files to be refused, and some that are not: proper files with faults of their records, their blocks, their sums and their lengths, and noise.

// all faults have one type, also those that do not alter the length
#![allow(clippy::ptr_arg)]

use second::file::{seal, BLOCK};
use second::random::Random;

const HEAD: usize = 8;

type Fault = fn(&mut Vec<u8>, &mut Random);

/// Faults of records and blocks, each as often as its number says; sums are mended after them.
const FAULTS: [(u64, Fault); 17] = [
    (6, width),
    (8, bound),
    (6, kind),
    (3, other_kind),
    (8, field),
    (6, amount),
    (10, limit),
    (2, some_bytes),
    (2, some_bits),
    (2, zeros),
    (3, head),
    (2, count),
    (1, edition),
    (1, block_number),
    (2, drop_block),
    (2, swap_blocks),
    (2, repeat_block),
];

/// A file made from a proper one: as it is, damaged in one way or in several, or noise.
pub fn damaged(proper: &[u8], random: &mut Random) -> Vec<u8> {
    if random.once_in(25) {
        return noise(random);
    }
    let mut bytes = proper.to_vec();
    for _ in 0..random.pick(&[0, 0, 1, 1, 1, 1, 1, 2, 3, 5]) {
        some_fault(random)(&mut bytes, random);
    }
    mend(&mut bytes);
    match random.below(24) {
        0..=2 => some_bytes(&mut bytes, random),
        3 => some_bits(&mut bytes, random),
        4 => check(&mut bytes, random),
        5..=7 => length(&mut bytes, random),
        _ => {}
    }
    bytes
}

fn some_fault(random: &mut Random) -> Fault {
    let mut left = random.below(FAULTS.iter().map(|(weight, _)| weight).sum());
    for &(weight, fault) in &FAULTS {
        if left < weight {
            return fault;
        }
        left -= weight;
    }
    unreachable!("less than the sum of all weights is left")
}

fn blocks(bytes: &[u8]) -> usize {
    bytes.len() / BLOCK
}

fn mend(bytes: &mut [u8]) {
    bytes.chunks_exact_mut(BLOCK).for_each(seal);
}

fn renumber(bytes: &mut [u8]) {
    for (i, block) in bytes.chunks_exact_mut(BLOCK).enumerate() {
        block[2] = i as u8;
    }
}

fn some_block<'a>(bytes: &'a mut [u8], random: &mut Random) -> &'a mut [u8] {
    let i = random.below(blocks(bytes) as u64) as usize;
    &mut bytes[i * BLOCK..][..BLOCK]
}

/// One of the records in blocks of a kind, if there are any.
fn some_record<'a>(bytes: &'a mut [u8], kind: u8, random: &mut Random) -> Option<&'a mut [u8]> {
    let size = if kind == 1 { 24 } else { 8 };
    let starts: Vec<usize> = (0..blocks(bytes))
        .filter(|i| bytes[i * BLOCK] == kind)
        .flat_map(|i| (0..usize::from(bytes[i * BLOCK + 4]).min(504 / size)).map(move |j| i * BLOCK + HEAD + j * size))
        .collect();
    if starts.is_empty() {
        return None;
    }
    let at = random.pick(&starts);
    Some(&mut bytes[at..at + size])
}

fn any_byte(random: &mut Random) -> u8 {
    random.below(256) as u8
}

/// One of these bytes, now and then any other.
fn one_of(bytes: &[u8], random: &mut Random) -> u8 {
    if random.once_in(6) {
        any_byte(random)
    } else {
        random.pick(bytes)
    }
}

fn width(bytes: &mut Vec<u8>, random: &mut Random) {
    let wide = one_of(&[0, 65, 66, 128, 255], random);
    if let Some(word) = some_record(bytes, 1, random) {
        word[0] = wide;
    }
}

/// A bit turned over, both bounds exchanged, or any number for one of them.
fn bound(bytes: &mut Vec<u8>, random: &mut Random) {
    let (way, bit, any) = (random.below(4), random.below(128) as usize, random.next().to_le_bytes());
    let word = match some_record(bytes, 1, random) {
        Some(word) => word,
        None => return,
    };
    match way {
        0 | 1 => word[8 + bit / 8] ^= 1 << (bit % 8),
        2 => word[8..].rotate_left(8),
        _ => word[8 + bit / 64 * 8..][..8].copy_from_slice(&any),
    }
}

fn kind(bytes: &mut Vec<u8>, random: &mut Random) {
    let number = one_of(&[0, 15, 16, 128, 255], random);
    if let Some(rule) = some_record(bytes, 2, random) {
        rule[0] = number;
    }
}

/// A rule becomes one of another kind, whose fields and widths it seldom fits.
fn other_kind(bytes: &mut Vec<u8>, random: &mut Random) {
    let number = 1 + random.below(14) as u8;
    if let Some(rule) = some_record(bytes, 2, random) {
        rule[0] = number;
    }
}

fn field(bytes: &mut Vec<u8>, random: &mut Random) {
    let (at, number) = (1 + random.below(5) as usize, one_of(&[1, 2, 3, 5, 31, 32, 255], random));
    if let Some(rule) = some_record(bytes, 2, random) {
        rule[at] = number;
    }
}

/// The k of a rule that uses one, at or over its bound; a word number below the usual counts where it does not.
fn amount(bytes: &mut Vec<u8>, random: &mut Random) {
    let (over, word) = (random.pick(&[1, 2, 4, 8, 16, 32, 63, 64, 65, 255]), random.below(6) as u8);
    if let Some(rule) = some_record(bytes, 2, random) {
        match rule[0] {
            8 | 10 | 11 => rule[5] = over,
            _ => rule[2] = word,
        }
    }
}

fn limit(bytes: &mut Vec<u8>, random: &mut Random) {
    let any = random.next() as u32;
    let number = random.pick(&[0, 1, 7, 999_999, 1_000_000, 1_000_001, 1_000_002, 1 << 24, u32::MAX, any]);
    for block in bytes.chunks_exact_mut(BLOCK).filter(|block| block[0] == 3) {
        block[HEAD..HEAD + 4].copy_from_slice(&number.to_le_bytes());
    }
}

fn some_bytes(bytes: &mut Vec<u8>, random: &mut Random) {
    for _ in 0..random.pick(&[1, 1, 2, 8]) {
        let at = random.below(bytes.len() as u64) as usize;
        bytes[at] = any_byte(random);
    }
}

fn some_bits(bytes: &mut Vec<u8>, random: &mut Random) {
    for _ in 0..random.pick(&[1, 1, 2, 8]) {
        let at = random.below(8 * bytes.len() as u64) as usize;
        bytes[at / 8] ^= 1 << (at % 8);
    }
}

/// A byte that must be 0: of a word, of a rule, or anywhere after the head of a block.
fn zeros(bytes: &mut Vec<u8>, random: &mut Random) {
    let (way, in_word, in_rule, anywhere) = (random.below(3), 1 + random.below(7) as usize, 6 + random.below(2) as usize, random.below(504) as usize);
    let byte = match way {
        0 => some_record(bytes, 1, random).map(|word| &mut word[in_word]),
        1 => some_record(bytes, 2, random).map(|rule| &mut rule[in_rule]),
        _ => Some(&mut some_block(bytes, random)[HEAD + anywhere]),
    };
    if let Some(byte) = byte {
        *byte |= 1;
    }
}

/// Any byte of a block's head.
fn head(bytes: &mut Vec<u8>, random: &mut Random) {
    let (at, number) = (random.below(6) as usize, one_of(&[0, 1, 2, 3, 4, 255], random));
    some_block(bytes, random)[at] = number;
}

/// One record more or fewer, none, as many as a full block has, or too many.
fn count(bytes: &mut Vec<u8>, random: &mut Random) {
    let way = random.below(7);
    let block = some_block(bytes, random);
    block[4] = match way {
        0 => 0,
        1 => block[4].wrapping_add(1),
        2 => block[4].wrapping_sub(1),
        3 => 21,
        4 => 22,
        5 => 63,
        _ => 64,
    };
}

fn edition(bytes: &mut Vec<u8>, random: &mut Random) {
    let number = random.pick(&[0, 2, 3, 255]);
    let every = random.once_in(3);
    for block in bytes.chunks_exact_mut(BLOCK).skip(if every { 0 } else { random.below(2) as usize }) {
        block[1] = number;
    }
}

fn block_number(bytes: &mut Vec<u8>, random: &mut Random) {
    let (at, number) = (2 + random.below(2) as usize, random.below(8) as u8);
    some_block(bytes, random)[at] = number;
}

fn drop_block(bytes: &mut Vec<u8>, random: &mut Random) {
    if blocks(bytes) > 1 {
        let at = random.below(blocks(bytes) as u64) as usize * BLOCK;
        bytes.drain(at..at + BLOCK);
    }
    if random.once_in(2) {
        renumber(bytes);
    }
}

fn swap_blocks(bytes: &mut Vec<u8>, random: &mut Random) {
    let (i, j) = (random.below(blocks(bytes) as u64) as usize, random.below(blocks(bytes) as u64) as usize);
    for at in 0..BLOCK {
        bytes.swap(i * BLOCK + at, j * BLOCK + at);
    }
    if random.once_in(2) {
        renumber(bytes);
    }
}

fn repeat_block(bytes: &mut Vec<u8>, random: &mut Random) {
    let copy = some_block(bytes, random).to_vec();
    let at = random.below(blocks(bytes) as u64 + 1) as usize * BLOCK;
    bytes.splice(at..at, copy);
    if random.once_in(2) {
        renumber(bytes);
    }
}

/// The check itself.
fn check(bytes: &mut Vec<u8>, random: &mut Random) {
    let (at, number) = (6 + random.below(2) as usize, any_byte(random));
    some_block(bytes, random)[at] = number;
}

/// A file cut short or made longer: by some bytes, to whole blocks, or far beyond the longest.
fn length(bytes: &mut Vec<u8>, random: &mut Random) {
    let now = bytes.len();
    let wanted = match random.below(8) {
        0 => 0,
        1 => now - 1,
        2 => now + 1,
        3 => random.below(now as u64) as usize,
        4 => now + random.below(600) as usize,
        5 => random.below(8) as usize * BLOCK,
        6 => 7 * BLOCK + random.below(3) as usize,
        _ => 8 * BLOCK + random.below(2) as usize * BLOCK,
    };
    let byte = random.pick(&[0, 0, 255]);
    bytes.resize(wanted, byte);
}

/// Bytes of no sort; some as whole blocks with right sums, and of these some with the heads of a proper file of full blocks.
fn noise(random: &mut Random) -> Vec<u8> {
    let whole = 1 + random.below(7) as usize;
    let length = if random.once_in(3) { random.below(4200) as usize } else { whole * BLOCK };
    let sparse = random.once_in(2);
    let mut bytes: Vec<u8> = (0..length).map(|_| if sparse && !random.once_in(16) { 0 } else { any_byte(random) }).collect();
    if random.once_in(2) {
        let words = random.below(3) as usize;
        for (i, block) in bytes.chunks_exact_mut(BLOCK).enumerate() {
            let kind = if i + 1 == whole { 3 } else { 2 - u8::from(i < words) };
            block[..6].copy_from_slice(&[kind, 1, i as u8, 0, [0, 21, 63, 0][usize::from(kind)], 0]);
        }
    }
    if random.once_in(2) {
        mend(&mut bytes);
    }
    bytes
}
