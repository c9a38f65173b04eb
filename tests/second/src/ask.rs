//! Questions for `tighten` and `explain` at all widths, each as a line of tests/boards/boards.txt with the line of answers.txt that it must give.

use crate::damage::spoil_problem;
use crate::explain::{explain, is_question, says, Said};
use crate::fits::{bounds_of, Meter};
use crate::make::{amount, around, around_values, shuffled, some_rule};
use crate::paper::{check, check_rule, greatest, holds, places, result, uses, Problem, Refused, Rule, Word};
use crate::random::Random;
use crate::search::tightened;
use std::collections::BTreeMap;

pub const WIDTHS: u8 = 64;
const TIGHTEN_WORK: u64 = 320;
const REASON_ENTRIES: u64 = 193;

/// A question, the sort of its answer, and both as lines without the name.
pub struct Asked {
    pub sort: String,
    pub question: String,
    pub answer: String,
}

fn joined(numbers: impl IntoIterator<Item = u64>) -> String {
    numbers.into_iter().map(|x| format!(" {x}")).collect()
}

fn numbers(words: &[Word]) -> Vec<u64> {
    words.iter().flat_map(|word| [u64::from(word.width), word.lo, word.hi]).collect()
}

fn lists(problem: &Problem) -> String {
    let words = numbers(&problem.words);
    let rules: Vec<u64> = problem.rules.iter().flat_map(|x| [x.kind, x.at[0], x.at[1], x.at[2], x.at[3], x.k]).map(u64::from).collect();
    format!(" {}{} {}{}", words.len(), joined(words), rules.len(), joined(rules))
}

/// The refusal of a call that takes no limit: what is lent is too short, too many words or rules, then the problem.
fn refusal(problem: &Problem, lent: u64, least: u64) -> Option<Refused> {
    if lent < least || problem.words.len() > 32 || problem.rules.len() > 252 {
        return Some(Refused(1, 0));
    }
    check(&Problem { limit: 0, ..problem.clone() }).err()
}

fn refused(question: String, Refused(number, place): Refused) -> Asked {
    Asked { sort: format!("refused {number}"), question, answer: format!("refused {number} {place}") }
}

/// What is lent: enough, and seldom one too few or nothing.
fn room(least: u64, random: &mut Random) -> u64 {
    match random.below(40) {
        0 => random.pick(&[0, least - 1]),
        _ => least + random.below(5),
    }
}

/// Faults put into a problem now and then, so that it is refused by 1 or 4 to 8.
fn spoilt(mut problem: Problem, random: &mut Random) -> Problem {
    if !random.once_in(8) {
        return problem;
    }
    match random.below(8) {
        0 => problem.words.resize(33, Word { width: 1, lo: 0, hi: 1 }),
        1 if !problem.rules.is_empty() => problem.rules.resize(253, problem.rules[0]),
        _ => (0..1 + random.below(2)).for_each(|_| spoil_problem(random.pick(&[4, 5, 6, 7, 7, 8, 8]), &mut problem, random)),
    }
    problem
}

/// Some fixed bits turned over.
fn turned(words: &mut [Word], times: u64, random: &mut Random) {
    for _ in 0..times {
        let word = &mut words[random.below(words.len() as u64) as usize];
        let bit = 1 << random.below(u64::from(word.width));
        if (word.lo ^ word.hi) & bit == 0 {
            word.lo ^= bit;
            word.hi ^= bit;
        }
    }
}

/// A question for `tighten` with words mostly of one width. Values obey the rules; then some fixed bits are turned over in every second one.
pub fn tighten(width: u8, random: &mut Random) -> Asked {
    let half = (width / 2).max(1);
    let widths = [width, width, width, width, (width - half).max(1), half, 1];
    let (words, rules) = random.pick(&[(4, 3), (6, 6), (8, 10), (12, 16), (32, 40)]);
    let percent = random.pick(&[5, 20, 40, 60, 80]);
    let least = 1 + random.below(rules) as usize / 2;
    let mut problem = loop {
        let problem = around_values(words, rules, &widths, percent, random);
        if problem.rules.len() >= least {
            break problem;
        }
    };
    if random.once_in(2) {
        turned(&mut problem.words, 1 + random.below(3), random);
    }
    let problem = spoilt(problem, random);
    let lent = room(TIGHTEN_WORK, random);
    let question = format!("tighten {lent}{}", lists(&problem));
    if let Some(found) = refusal(&problem, lent, TIGHTEN_WORK) {
        return refused(question, found);
    }
    // there is no bound on the work here, so it cannot take too long
    match tightened(&problem.words, &problem.rules, &mut Meter(u64::MAX)).unwrap() {
        None => Asked { sort: "conflict".into(), question, answer: "conflict".into() },
        Some(left) => {
            let sort = if left == problem.words { "tight, nothing changed" } else { "tight, bounds changed" };
            Asked { sort: sort.into(), question, answer: format!("tight{}", joined(numbers(&left))) }
        }
    }
}

/// The widths of a rule's places for one of the kinds, and k: those of its result and operands as far as they go, s 1.
fn shape(kind: u8, width: u8, random: &mut Random) -> ([u8; 4], u8) {
    match kind {
        8 => {
            let r = 1 + random.below(u64::from(width)) as u8;
            ([r, width, 1, 1], random.below(u64::from(width - r) + 1) as u8)
        }
        9 if width == 1 => ([2, 1, 1, 1], 0),
        9 => {
            let a = 1 + random.below(u64::from(width) - 1) as u8;
            ([width, a, width - a, 1], 0)
        }
        10 | 11 => ([width, width, 1, 1], amount(width, random)),
        _ => ([width, width, width, 1], 0),
    }
}

/// One rule of a kind over words of its own, around values that obey it, with some fixed bits turned over; then other words and rules.
fn one_rule(kind: u8, width: u8, random: &mut Random) -> Problem {
    let (widths, k) = shape(kind, width, random);
    let mut values = widths.map(|w| random.next() & greatest(w));
    // operands that are near each other, so that comparisons are decided low down too; now and then the wrong way round
    if kind >= 12 && random.once_in(2) {
        values[2] = values[1] ^ (1 << random.below(u64::from(width)));
    }
    if kind <= 11 {
        values[0] = result(kind, k, widths, values);
    } else if !holds(kind, k, widths, values) && !random.once_in(3) {
        values.swap(1, 2);
    }
    let percent = random.pick(&[3, 10, 25, 50, 75]);
    let mut words: Vec<Word> = (0..4).map(|p| around(widths[p], values[p], if random.once_in(4) { 100 - percent } else { percent }, random)).collect();
    let times = random.below(3);
    turned(&mut words, times, random);
    // only the last open bit of two words that are the same otherwise is forced by NE
    if kind == 14 && random.once_in(2) {
        let bit = 1 << random.below(u64::from(width));
        let same = Word { width, lo: values[1], hi: values[1] };
        let but_one = Word { width, lo: values[1] & !bit, hi: values[1] | bit };
        let which = random.once_in(2);
        (words[1], words[2]) = if which { (same, but_one) } else { (but_one, same) };
    }
    let mut rule = Rule { kind, k, ..Rule::default() };
    for p in places(kind) {
        rule.at[p] = p as u8;
    }
    // one word at two places
    if random.once_in(8) {
        let twice = Rule { at: [rule.at[0], rule.at[1], if uses(kind).contains('b') { rule.at[1] } else { 0 }, rule.at[3]], ..rule };
        if check_rule(&words, &twice).is_ok() {
            rule = twice;
        }
    }
    for _ in 0..random.below(4) {
        let w = random.pick(&[1, width]);
        words.push(around(w, random.next() & greatest(w), percent, random));
    }
    let mut rules: Vec<Rule> = (0..random.below(3)).filter_map(|_| some_rule(&words, 1 + random.below(14) as u8, random)).collect();
    rules.push(rule);
    shuffled(Problem { words, rules, limit: 0 }, random)
}

/// Any sort of answer.
const ANY: u64 = 3;

/// The open bits of the last rule of which it says something of a sort, FORCED 0, FORCED 1, CONFLICT or any: places and bits.
fn bits_that_are(problem: &Problem, wanted: u64) -> Vec<(u64, u64)> {
    let rule = match problem.rules.last() {
        Some(rule) => rule,
        None => return vec![],
    };
    let bounds = bounds_of(&problem.words, rule);
    let open = places(rule.kind).flat_map(|p| (0..64).filter(move |j| (bounds[p].lo ^ bounds[p].hi) >> j & 1 == 1).map(move |j| (p, j)));
    let is = |said: Said| match wanted {
        0 => said == Said::Forced(false),
        1 => said == Said::Forced(true),
        2 => said == Said::Conflict,
        _ => true,
    };
    open.filter(|&(p, j)| is(says(rule, &bounds, p, j))).map(|(p, j)| (p as u64, j)).collect()
}

/// A question for `explain` of a rule of some kind and width, with an answer of a sort that is looked for.
pub fn explained(kind: u8, width: u8, wanted: u64, random: &mut Random) -> Asked {
    for turn in 0.. {
        // a kind may have no such answer at a width, as NE no conflict where a bit is open: after some turns any answer will do
        let problem = one_rule(kind, width, random);
        let bits = bits_that_are(&problem, if turn < 40 { wanted } else { ANY });
        if !bits.is_empty() {
            return question(problem, random.pick(&bits), random);
        }
    }
    unreachable!("some word of some problem has an open bit")
}

fn question(problem: Problem, (mut place, mut bit): (u64, u64), random: &mut Random) -> Asked {
    let mut number = problem.rules.len() as u64 - 1;
    // now and then another question, which mostly is none
    match random.below(60) {
        0 => number = random.pick(&[number + 1, 252, u64::MAX]),
        1 => place = random.pick(&[0, 3, 4, 64, u64::MAX]),
        2 => bit = random.pick(&[0, 63, 64, u64::MAX]),
        _ => {}
    }
    let problem = spoilt(problem, random);
    let lent = room(REASON_ENTRIES, random);
    let question = format!("explain {number} {place} {bit} {lent}{}", lists(&problem));
    if let Some(found) = refusal(&problem, lent, REASON_ENTRIES) {
        return refused(question, found);
    }
    if !is_question(&problem.words, &problem.rules, number, place, bit) {
        return refused(question, Refused(10, 0));
    }
    let (said, reason) = explain(&problem.words, &problem.rules[number as usize], place as usize, bit);
    let entries = format!("{}{}", reason.len(), joined(reason));
    let (sort, answer) = match said {
        Said::Conflict => ("conflict", format!("conflict 0 {entries}")),
        Said::Forced(value) => (if value { "forced 1" } else { "forced 0" }, format!("forced {} {entries}", u8::from(value))),
        Said::Free => ("free", "free".to_string()),
    };
    Asked { sort: sort.into(), question, answer }
}

/// So many questions for each call, two lines each, and how many there are of each sort: over all widths the same number, over all kinds for `explain`.
pub fn all(count: u64, seed: u64) -> (String, BTreeMap<String, u64>) {
    let mut random = Random(seed);
    let (mut lines, mut sorts) = (String::new(), BTreeMap::new());
    for i in 0..count {
        let width = 1 + (i % u64::from(WIDTHS)) as u8;
        let kind = 1 + (i / u64::from(WIDTHS) % 14) as u8;
        let both = [("tighten", tighten(width, &mut random)), ("explain", explained(kind, width, random.below(ANY + 1), &mut random))];
        for (call, asked) in both {
            let name = format!("{call}-{i}");
            lines += &format!("{name} {}\n{name} {}\n", asked.question, asked.answer);
            *sorts.entry(format!("{call} {}", asked.sort)).or_insert(0) += 1;
        }
    }
    (lines, sorts)
}

#[cfg(test)]
mod tests {
    use super::*;

    /// Every sort of answer is well represented.
    #[test]
    fn all_sorts() {
        let (lines, sorts) = all(2 * 14 * 64, 3);
        assert_eq!(lines.lines().count(), 4 * 2 * 14 * 64);
        for sort in ["tighten tight, bounds changed", "tighten conflict", "explain forced 0", "explain forced 1", "explain conflict", "explain free"] {
            assert!(sorts.get(sort).copied().unwrap_or(0) >= 150, "{sort}: {sorts:?}");
        }
        for (call, numbers) in [("tighten", &[1, 4, 5, 6, 7, 8][..]), ("explain", &[1, 4, 5, 6, 7, 8, 10])] {
            for number in numbers {
                assert!(sorts.get(&format!("{call} refused {number}")).copied().unwrap_or(0) >= 5, "{call} refused {number}: {sorts:?}");
            }
        }
    }
}
