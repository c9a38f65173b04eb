//! Words, rules and what they mean, and refusals 4 to 9, read from the product's paper.

#[derive(Clone, Copy, PartialEq, Eq, Debug, Default)]
pub struct Word {
    pub width: u8,
    pub lo: u64,
    pub hi: u64,
}

/// The fields r, a, b and s stand at the indices 0 to 3 of `at`: the numbers of the places.
#[derive(Clone, Copy, PartialEq, Eq, Debug, Default)]
pub struct Rule {
    pub kind: u8,
    pub at: [u8; 4],
    pub k: u8,
}

#[derive(Clone, PartialEq, Eq, Debug, Default)]
pub struct Problem {
    pub words: Vec<Word>,
    pub rules: Vec<Rule>,
    pub limit: u32,
}

impl Problem {
    /// Words as (width, lo, hi), rules as kind r a b s k.
    pub fn of(words: &[(u8, u64, u64)], rules: &[[u8; 6]], limit: u32) -> Problem {
        let words = words.iter().map(|&(width, lo, hi)| Word { width, lo, hi }).collect();
        let rules = rules.iter().map(|&[kind, r, a, b, s, k]| Rule { kind, at: [r, a, b, s], k }).collect();
        Problem { words, rules, limit }
    }
}

/// Number and place of a refusal.
#[derive(Clone, Copy, PartialEq, Eq, Debug)]
pub struct Refused(pub u8, pub usize);

pub const MOST_LIMIT: u32 = 1_000_000;

/// The greatest value of a width.
pub fn greatest(width: u8) -> u64 {
    ((1u128 << width) - 1) as u64
}

/// The fields that a kind uses, by their letters.
pub fn uses(kind: u8) -> &'static str {
    match kind {
        1 | 2 => "ra",
        3..=6 | 9 => "rab",
        7 => "rabs",
        8 | 10 | 11 => "rak",
        12..=14 => "ab",
        _ => "",
    }
}

/// The places that a kind uses: 0 r, 1 a, 2 b, 3 s.
pub fn places(kind: u8) -> impl Iterator<Item = usize> {
    (0..4).filter(move |&p| uses(kind).contains(char::from(b"rabs"[p])))
}

/// The value that a kind from 1 to 11 gives its word r.
pub fn result(kind: u8, k: u8, widths: [u8; 4], values: [u64; 4]) -> u64 {
    let [_, a, b, s] = values.map(u128::from);
    let whole = match kind {
        1 => a,
        2 => u128::from(greatest(widths[0])) - a,
        3 => a & b,
        4 => a | b,
        5 => a ^ b,
        6 => a + b,
        7 if s == 1 => a,
        7 => b,
        8 | 11 => a >> k.min(127),
        9 => (a << widths[2]) + b,
        10 => a << k.min(64),
        _ => unreachable!("kind {kind} computes no word"),
    };
    (whole & u128::from(greatest(widths[0]))) as u64
}

/// Whether a rule holds for values of its places.
pub fn holds(kind: u8, k: u8, widths: [u8; 4], values: [u64; 4]) -> bool {
    let [r, a, b, _] = values;
    match kind {
        12 => a <= b,
        13 => a < b,
        14 => a != b,
        _ => r == result(kind, k, widths, values),
    }
}

fn widths_fit(kind: u8, k: u8, [r, a, b, s]: [u8; 4]) -> bool {
    match kind {
        1 | 2 | 10 | 11 => r == a,
        3..=6 => r == a && r == b,
        7 => r == a && r == b && s == 1,
        8 => usize::from(k) + usize::from(r) <= usize::from(a),
        9 => r == a + b,
        _ => a == b,
    }
}

/// The widths of a rule's places, 0 at those that the kind does not use.
pub fn widths_of(words: &[Word], rule: &Rule) -> [u8; 4] {
    let mut widths = [0; 4];
    for p in places(rule.kind) {
        widths[p] = words[usize::from(rule.at[p])].width;
    }
    widths
}

/// Refusals 6 to 8 of one rule.
pub fn check_rule(words: &[Word], rule: &Rule) -> Result<(), u8> {
    if !(1..=14).contains(&rule.kind) {
        return Err(6);
    }
    for p in 0..4 {
        let number = usize::from(rule.at[p]);
        let good = if places(rule.kind).any(|q| q == p) { number < words.len() } else { number == 0 };
        if !good {
            return Err(7);
        }
    }
    if !uses(rule.kind).contains('k') && rule.k != 0 {
        return Err(7);
    }
    if !widths_fit(rule.kind, rule.k, widths_of(words, rule)) {
        return Err(8);
    }
    Ok(())
}

/// Refusals 4 to 9, word by word, rule by rule, then the limit.
pub fn check(problem: &Problem) -> Result<(), Refused> {
    for (i, word) in problem.words.iter().enumerate() {
        if !(1..=64).contains(&word.width) {
            return Err(Refused(4, i));
        }
        if word.lo & !word.hi != 0 || word.hi > greatest(word.width) {
            return Err(Refused(5, i));
        }
    }
    for (i, rule) in problem.rules.iter().enumerate() {
        check_rule(&problem.words, rule).map_err(|number| Refused(number, i))?;
    }
    if problem.limit > MOST_LIMIT {
        return Err(Refused(9, 0));
    }
    Ok(())
}

#[cfg(test)]
mod tests {
    use super::*;

    #[test]
    fn sums_keep_the_width() {
        assert_eq!(result(6, 0, [4, 4, 4, 0], [0, 15, 1, 0]), 0);
        assert_eq!(result(6, 0, [64, 64, 64, 0], [0, u64::MAX, 1, 0]), 0);
    }

    #[test]
    fn moves() {
        assert_eq!(result(8, 2, [3, 8, 0, 0], [0, 0b1101_0110, 0, 0]), 0b101);
        assert_eq!(result(9, 0, [5, 2, 3, 0], [0, 0b10, 0b011, 0]), 0b10011);
        assert_eq!(result(10, 63, [64, 64, 0, 0], [0, 3, 0, 0]), 1 << 63);
        assert_eq!(result(11, 3, [4, 4, 0, 0], [0, 12, 0, 0]), 1);
    }

    /// A shift by the width or more gives 0; one by a bit less keeps one bit.
    #[test]
    fn long_shifts() {
        for width in [1, 4, 63, 64] {
            let all = greatest(width);
            let by = |kind, k| result(kind, k, [width, width, 0, 0], [0, all, 0, 0]);
            assert_eq!([by(10, width - 1), by(11, width - 1)], [1 << (width - 1), 1]);
            for k in [width, width + 1, 127, 128, 255] {
                assert_eq!([by(10, k), by(11, k)], [0, 0], "width {width}, k {k}");
            }
        }
    }

    /// Board L: the last k of SLICE that fits, and the first that does not; a shift may have any k.
    #[test]
    fn amounts_at_their_bounds() {
        let words = [4, 8].map(|width| Word { width, lo: 0, hi: 0 });
        let slice = |k| Rule { kind: 8, at: [0, 1, 0, 0], k };
        let shift = |k| Rule { kind: 10, at: [0, 0, 0, 0], k };
        assert_eq!([4, 5].map(|k| check_rule(&words, &slice(k))), [Ok(()), Err(8)]);
        assert_eq!([3, 4, 255].map(|k| check_rule(&words, &shift(k))), [Ok(()); 3]);
    }
}
