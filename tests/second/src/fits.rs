//! The fits of one rule, each field a place of its own: where every open bit can still be 0 and 1.
//!
//! Few open bits: every fit is gone through. Many: for each open bit and each value the rule is asked whether it has a fit with that bit so fixed.

use crate::paper::{holds, places, result, widths_of, Rule, Word};

/// Stands for "this takes too long": the work allowed for one file is used up.
#[derive(Debug, PartialEq, Eq)]
pub struct TooLong;

/// The work still allowed, in fits looked at.
pub struct Meter(pub u64);

impl Meter {
    pub fn spend(&mut self, steps: u64) -> Result<(), TooLong> {
        self.0 = self.0.checked_sub(steps).ok_or(TooLong)?;
        Ok(())
    }
}

/// Up to so many open bits of the operands every fit is gone through.
const FEW: u32 = 9;

/// The places' bounds as the fits of the rule leave them, unused places untouched; None without a fit.
pub fn narrowed(words: &[Word], rule: &Rule, meter: &mut Meter) -> Result<Option<[Word; 4]>, TooLong> {
    let bounds = bounds_of(words, rule);
    let open: u32 = places(rule.kind).filter(|&p| p > 0).map(|p| (bounds[p].lo ^ bounds[p].hi).count_ones()).sum();
    if open <= FEW {
        meter.spend(1 << open)?;
        Ok(by_every_fit(rule, bounds))
    } else {
        meter.spend(1 << FEW)?;
        Ok(by_asking(rule, bounds))
    }
}

/// The bounds at the places of a rule, those of no word at places that the kind does not use.
pub fn bounds_of(words: &[Word], rule: &Rule) -> [Word; 4] {
    let mut bounds = [Word::default(); 4];
    for p in places(rule.kind) {
        bounds[p] = words[usize::from(rule.at[p])];
    }
    debug_assert_eq!(bounds.map(|b| b.width), widths_of(words, rule));
    bounds
}

fn keeps(bounds: &Word, value: u64) -> bool {
    value & bounds.lo == bounds.lo && value | bounds.hi == bounds.hi
}

/// All values that keep the fixed bits.
fn values(bounds: Word) -> Vec<u64> {
    let mut all = vec![bounds.lo];
    for j in (0..64).filter(|j| (bounds.lo ^ bounds.hi) >> j & 1 == 1) {
        for i in 0..all.len() {
            all.push(all[i] | 1 << j);
        }
    }
    all
}

fn by_every_fit(rule: &Rule, bounds: [Word; 4]) -> Option<[Word; 4]> {
    let widths = bounds.map(|b| b.width);
    let mut fits: Vec<[u64; 4]> = Vec::new();
    for &s in &values(bounds[3]) {
        for &b in &values(bounds[2]) {
            for &a in &values(bounds[1]) {
                let mut fit = [0, a, b, s];
                if rule.kind <= 11 {
                    fit[0] = result(rule.kind, rule.k, widths, fit);
                }
                if keeps(&bounds[0], fit[0]) && holds(rule.kind, rule.k, widths, fit) {
                    fits.push(fit);
                }
            }
        }
    }
    if fits.is_empty() {
        return None;
    }
    let mut left = bounds;
    for p in places(rule.kind) {
        left[p].lo = fits.iter().fold(u64::MAX, |x, fit| x & fit[p]);
        left[p].hi = fits.iter().fold(0, |x, fit| x | fit[p]);
    }
    Some(left)
}

fn by_asking(rule: &Rule, bounds: [Word; 4]) -> Option<[Word; 4]> {
    if !has_fit(rule, &bounds) {
        return None;
    }
    let mut left = bounds;
    for p in places(rule.kind) {
        for j in (0..64).filter(|j| (bounds[p].lo ^ bounds[p].hi) >> j & 1 == 1) {
            let mut one = bounds;
            one[p].lo |= 1 << j;
            if !has_fit(rule, &one) {
                left[p].hi &= !(1 << j);
            }
            let mut zero = bounds;
            zero[p].hi &= !(1 << j);
            if !has_fit(rule, &zero) {
                left[p].lo |= 1 << j;
            }
        }
    }
    Some(left)
}

/// Whether a rule has any fit.
pub fn has_fit(rule: &Rule, [r, a, b, s]: &[Word; 4]) -> bool {
    let can = |word: &Word, bit: u8, value: bool| if value { word.hi >> bit & 1 == 1 } else { word.lo >> bit & 1 == 0 };
    let same = |x: &Word, i: u8, y: &Word, j: u8| [false, true].into_iter().any(|v| can(x, i, v) && can(y, j, v));
    let both = |i: u8, op: fn(bool, bool) -> bool| {
        [(false, false), (false, true), (true, false), (true, true)].into_iter().any(|(x, y)| can(a, i, x) && can(b, i, y) && can(r, i, op(x, y)))
    };
    let mut bits = 0..r.width;
    let k = rule.k;
    match rule.kind {
        1 => bits.all(|i| same(r, i, a, i)),
        2 => bits.all(|i| [false, true].into_iter().any(|v| can(r, i, v) && can(a, i, !v))),
        3 => bits.all(|i| both(i, |x, y| x && y)),
        4 => bits.all(|i| both(i, |x, y| x || y)),
        5 => bits.all(|i| both(i, |x, y| x != y)),
        6 => has_sum(r, a, b),
        7 => [(true, a), (false, b)].into_iter().any(|(v, taken)| can(s, 0, v) && bits.clone().all(|i| same(r, i, taken, i))),
        8 => bits.all(|i| same(r, i, a, i + k)),
        9 => bits.all(|i| if i < b.width { same(r, i, b, i) } else { same(r, i, a, i - b.width) }),
        10 => bits.all(|i| if i < k { can(r, i, false) } else { same(r, i, a, i - k) }),
        11 => bits.all(|i| if k < r.width - i { same(r, i, a, i + k) } else { can(r, i, false) }),
        12 => a.lo <= b.hi,
        13 => a.lo < b.hi,
        _ => a.lo != a.hi || b.lo != b.hi || a.lo != b.lo,
    }
}

/// Whether some a and b have a sum that keeps r: bit by bit from below, the carries that can come are kept, 1 for carry 0 and 2 for carry 1.
fn has_sum(r: &Word, a: &Word, b: &Word) -> bool {
    let mut carries = 1;
    for i in 0..r.width {
        let can = |word: &Word, value: u64| (if value == 1 { word.hi } else { !word.lo }) >> i & 1 == 1;
        let mut next = 0;
        for (x, y, carry) in (0..8u64).map(|n| (n & 1, n >> 1 & 1, n >> 2)) {
            let sum = x + y + carry;
            if carries >> carry & 1 == 1 && can(a, x) && can(b, y) && can(r, sum % 2) {
                next |= 1 << (sum / 2);
            }
        }
        carries = next;
    }
    carries != 0
}

#[cfg(test)]
mod tests {
    use super::*;
    use crate::make::amount;
    use crate::paper::{check_rule, greatest, uses};
    use crate::random::Random;

    /// All pairs of bounds of a width.
    fn all_bounds(width: u8) -> Vec<Word> {
        let all = (0..=greatest(width)).flat_map(|lo| (0..=greatest(width)).map(move |hi| Word { width, lo, hi }));
        all.filter(|word| word.lo & !word.hi == 0).collect()
    }

    /// Both ways to narrow give the same on every table of one rule up to width 4: of three places and more every seventh at width 4, of JOIN all with a
    /// result up to width 4.
    #[test]
    fn asking_is_every_fit_on_small_tables() {
        let (mut compared, mut empty) = (0, 0);
        for kind in 1..=14 {
            let used = places(kind).count();
            for (r, wide, k) in (1..=4).flat_map(|r| (1..=4).flat_map(move |wide| [0, 1, 2, 3, 4, 5, 255].map(|k| (r, wide, k)))) {
                let mut rule = Rule { kind, k, ..Rule::default() };
                places(kind).for_each(|p| rule.at[p] = p as u8);
                let widths = [r, wide, wide, 1];
                if check_rule(&widths.map(|width| Word { width, lo: 0, hi: 0 }), &rule).is_err() || (kind >= 12 && r > 1) {
                    continue;
                }
                let any = |p: usize| if places(kind).any(|q| q == p) { all_bounds(widths[p]) } else { vec![Word::default()] };
                let (first, second, third, fourth) = (any(0), any(1), any(2), any(3));
                let pairs = first.iter().flat_map(|x| second.iter().map(move |y| (x, y)));
                let others = || third.iter().flat_map(|z| fourth.iter().map(move |s| (z, s)));
                let tables = pairs.flat_map(|(&x, &y)| others().map(move |(&z, &s)| [x, y, z, s]));
                for bounds in tables.step_by(if used > 2 && wide == 4 { 7 } else { 1 }) {
                    let every = by_every_fit(&rule, bounds);
                    assert_eq!(every, by_asking(&rule, bounds), "{rule:?} over {bounds:?}");
                    compared += 1;
                    empty += usize::from(every.is_none());
                }
            }
        }
        assert!(compared > 500_000 && empty > 100_000, "{compared} tables, {empty} without a fit");
    }

    /// Both ways to narrow give the same on random rules of every kind, narrow and wide, with up to 12 open bits.
    #[test]
    fn asking_is_every_fit() {
        let mut random = Random(7);
        let (mut compared, mut empty) = ([0; 15], 0);
        while compared[1..].iter().any(|&n| n < 300) {
            let usual = random.pick(&[1, 2, 3, 5, 8, 33, 64]);
            let words: Vec<Word> = (0..4)
                .map(|_| {
                    let width = if random.below(3) == 0 { random.pick(&[1, 2, 4, 6, 64]) } else { usual };
                    let value = random.next() & greatest(width);
                    let open = (0..random.below(5)).fold(0, |x, _| x | 1u64 << random.below(u64::from(width)));
                    Word { width, lo: value & !open, hi: value | open }
                })
                .collect();
            let kind = 1 + random.below(14) as u8;
            let mut rule = Rule { kind, ..Rule::default() };
            for p in places(kind) {
                rule.at[p] = random.below(4) as u8;
            }
            if uses(kind).contains('k') {
                rule.k = if kind == 8 { random.below(u64::from(usual)) as u8 } else { amount(usual, &mut random) };
            }
            if check_rule(&words, &rule).is_err() {
                continue;
            }
            let bounds = bounds_of(&words, &rule);
            let every = by_every_fit(&rule, bounds);
            assert_eq!(every, by_asking(&rule, bounds), "{rule:?} over {bounds:?}");
            compared[usize::from(kind)] += 1;
            empty += usize::from(every.is_none());
        }
        assert!(empty > 100);
    }
}
