//! Explanations: what one rule says of an open bit, and the fixed bits that are the reason, by asking whether the rule has a fit.

use crate::fits::{bounds_of, has_fit};
use crate::paper::{places, Rule, Word};

#[derive(Clone, Copy, PartialEq, Eq, Debug)]
pub enum Said {
    Conflict,
    Forced(bool),
    Free,
}

/// Whether an explanation may be asked: an open bit of a word at a place that the rule uses.
pub fn is_question(words: &[Word], rules: &[Rule], rule: u64, place: u64, bit: u64) -> bool {
    let rule = match usize::try_from(rule).ok().and_then(|i| rules.get(i)) {
        Some(rule) => rule,
        None => return false,
    };
    places(rule.kind).any(|p| p as u64 == place) && {
        let word = words[usize::from(rule.at[place as usize])];
        bit < u64::from(word.width) && (word.lo ^ word.hi) >> bit & 1 == 1
    }
}

/// What a rule says of an open bit at a place, over the bounds of its places.
pub fn says(rule: &Rule, bounds: &[Word; 4], place: usize, bit: u64) -> Said {
    let fixed = |value: bool| {
        let mut bounds = *bounds;
        if value {
            bounds[place].lo |= 1 << bit;
        } else {
            bounds[place].hi &= !(1 << bit);
        }
        has_fit(rule, &bounds)
    };
    match (fixed(false), fixed(true)) {
        (false, false) => Said::Conflict,
        (true, true) => Said::Free,
        (_, one) => Said::Forced(one),
    }
}

/// What a rule says of an open bit, and the reason: the fixed bits without which it would say something else, each 64 times place plus bit.
pub fn explain(words: &[Word], rule: &Rule, place: usize, bit: u64) -> (Said, Vec<u64>) {
    let mut bounds = bounds_of(words, rule);
    let said = says(rule, &bounds, place, bit);
    let mut reason = Vec::new();
    if said == Said::Free {
        return (said, reason);
    }
    for p in places(rule.kind) {
        for j in (0..bounds[p].width).filter(|j| (bounds[p].lo ^ bounds[p].hi) >> j & 1 == 0).collect::<Vec<_>>() {
            let mut dropped = bounds;
            dropped[p].lo &= !(1 << j);
            dropped[p].hi |= 1 << j;
            if says(rule, &dropped, place, bit) == said {
                bounds = dropped;
            } else {
                reason.push(64 * p as u64 + u64::from(j));
            }
        }
    }
    (said, reason)
}

#[cfg(test)]
mod tests {
    use super::*;
    use crate::make::small;
    use crate::paper::{holds, Problem};
    use crate::random::Random;

    /// What a rule says, by going through all values of all places.
    fn says_of_all_values(rule: &Rule, bounds: &[Word; 4], place: usize, bit: u64) -> Said {
        let keep = |p: usize, x: u64| x & bounds[p].lo == bounds[p].lo && x | bounds[p].hi == bounds[p].hi;
        let values = |p: usize| (0..=bounds[p].hi).filter(move |&x| keep(p, x));
        let widths = bounds.map(|word| word.width);
        let mut seen = [false; 2];
        for (r, a) in values(0).flat_map(|r| values(1).map(move |a| (r, a))) {
            for (b, s) in values(2).flat_map(|b| values(3).map(move |s| (b, s))) {
                let fit = [r, a, b, s];
                if holds(rule.kind, rule.k, widths, fit) {
                    seen[(fit[place] >> bit & 1) as usize] = true;
                }
            }
        }
        match seen {
            [false, false] => Said::Conflict,
            [true, true] => Said::Free,
            [_, one] => Said::Forced(one),
        }
    }

    /// A bit of the reason is one without which the answer is another one, over the bits that are kept: so the reason is what is left of dropping.
    #[test]
    fn answers_are_those_of_all_values() {
        let mut random = Random(5);
        let mut counts = [0; 3];
        while counts.iter().any(|&n| n < 200) {
            let problem = small(&mut random);
            for rule in problem.rules.iter().filter(|rule| bounds_of(&problem.words, rule).iter().map(|x| x.width).sum::<u8>() <= 13) {
                let bounds = bounds_of(&problem.words, rule);
                for p in places(rule.kind) {
                    for bit in (0..u64::from(bounds[p].width)).filter(|j| (bounds[p].lo ^ bounds[p].hi) >> j & 1 == 1) {
                        let (said, reason) = explain(&problem.words, rule, p, bit);
                        assert_eq!(said, says_of_all_values(rule, &bounds, p, bit), "{rule:?} over {bounds:?}, place {p}, bit {bit}");
                        counts[[Said::Conflict, Said::Free].iter().position(|&x| x == said).unwrap_or(2)] += 1;
                        if said != Said::Free {
                            assert_eq!(reason, reason_of_all_values(rule, bounds, p, bit, said), "{rule:?} over {bounds:?}, place {p}, bit {bit}");
                        }
                    }
                }
            }
        }
    }

    fn reason_of_all_values(rule: &Rule, mut bounds: [Word; 4], place: usize, bit: u64, said: Said) -> Vec<u64> {
        let given = bounds;
        let fixed = (0..256).filter(|e| places(rule.kind).any(|p| p == e / 64) && e % 64 < usize::from(given[e / 64].width));
        let fixed = fixed.filter(|e| (given[e / 64].lo ^ given[e / 64].hi) >> (e % 64) & 1 == 0);
        fixed
            .filter(|e| {
                let before = bounds;
                bounds[e / 64].lo &= !(1 << (e % 64));
                bounds[e / 64].hi |= 1 << (e % 64);
                let kept = says_of_all_values(rule, &bounds, place, bit) != said;
                if kept {
                    bounds = before;
                }
                kept
            })
            .map(|e| e as u64)
            .collect()
    }

    /// Boards I, J and K, and the reason of a rule without fits.
    #[test]
    fn boards_worked_by_hand() {
        let explained = |words: &[(u8, u64, u64)], rule: [u8; 6], place, bit| {
            let problem = Problem::of(words, &[rule], 0);
            explain(&problem.words, &problem.rules[0], place, bit)
        };
        assert_eq!(explained(&[(4, 8, 15), (4, 0, 15)], [12, 0, 0, 1, 0, 0], 2, 3), (Said::Forced(true), vec![67]));
        assert_eq!(explained(&[(3, 5, 5), (3, 5, 7)], [14, 0, 0, 1, 0, 0], 2, 1), (Said::Forced(true), vec![64, 65, 66, 128, 130]));
        assert_eq!(explained(&[(1, 0, 0), (1, 0, 1), (1, 1, 1)], [3, 0, 1, 2, 0, 0], 1, 0), (Said::Forced(false), vec![0, 128]));
        assert_eq!(explained(&[(1, 1, 1), (1, 0, 1), (1, 0, 0)], [3, 0, 1, 2, 0, 0], 1, 0), (Said::Conflict, vec![0, 128]));
        assert_eq!(explained(&[(4, 8, 15), (4, 0, 15)], [12, 0, 0, 1, 0, 0], 2, 2), (Said::Free, vec![]));
    }

    #[test]
    fn questions() {
        let problem = Problem::of(&[(4, 8, 15), (4, 0, 15)], &[[12, 0, 0, 1, 0, 0]], 0);
        let asked = |rule, place, bit| is_question(&problem.words, &problem.rules, rule, place, bit);
        assert!(asked(0, 1, 0) && asked(0, 2, 3));
        assert!(!asked(1, 1, 0) && !asked(u64::MAX, 1, 0) && !asked(0, 0, 0) && !asked(0, 3, 0) && !asked(0, 4, 0) && !asked(0, u64::MAX, 0));
        assert!(!asked(0, 1, 3) && !asked(0, 2, 4) && !asked(0, 2, u64::MAX));
    }
}
