//! Boards of all sorts, the same in every run of one seed: proper ones that are found, have none or give up, and damaged ones.

use crate::damage::damaged;
use crate::file::write;
use crate::fits::Meter;
use crate::hand;
use crate::lines::advise;
use crate::paper::{check_rule, greatest, holds, places, result, uses, widths_of, Problem, Rule, Word};
use crate::random::Random;
use std::collections::BTreeMap;
use std::path::Path;

/// Work allowed for a made board; one that takes more is left out.
const SMALL: u64 = 400_000;

/// The k of a shift at a width: mostly below the width, else around it and far above.
pub fn amount(width: u8, random: &mut Random) -> u8 {
    if random.once_in(3) {
        random.pick(&[width - 1, width, width + 1, 63, 64, 255])
    } else {
        random.below(u64::from(width)) as u8
    }
}

/// A random rule of random words that passes the checker; None if none was met.
pub fn some_rule(words: &[Word], kind: u8, random: &mut Random) -> Option<Rule> {
    for _ in 0..30 {
        let mut rule = Rule { kind, ..Rule::default() };
        for p in places(kind) {
            rule.at[p] = random.below(words.len() as u64) as u8;
        }
        if uses(kind).contains('k') {
            let width = words[usize::from(rule.at[1])].width;
            rule.k = if kind == 8 { random.below(u64::from(width)) as u8 } else { amount(width, random) };
        }
        if check_rule(words, &rule).is_ok() {
            return Some(rule);
        }
    }
    None
}

/// A word around a value, with about so many in a hundred of its bits open.
pub fn around(width: u8, value: u64, percent: u64, random: &mut Random) -> Word {
    let open = (0..width).fold(0, |x, j| x | u64::from(random.below(100) < percent) << j);
    Word { width, lo: value & !open, hi: value | open }
}

/// Words of some widths with any rules between them: mostly without settings, often one word in two places.
pub fn small(random: &mut Random) -> Problem {
    let usual = 1 + random.below(4) as u8;
    let count = 1 + random.below(6);
    let percent = random.pick(&[50, 80, 100]);
    let words: Vec<Word> = (0..count)
        .map(|_| {
            let width = if random.once_in(3) { 1 + random.below(5) as u8 } else { usual };
            around(width, random.next() & greatest(width), percent, random)
        })
        .collect();
    let rules = (0..random.below(7)).filter_map(|_| some_rule(&words, 1 + random.below(14) as u8, random)).collect();
    Problem { words, rules, limit: limit(random) }
}

fn limit(random: &mut Random) -> u32 {
    if random.once_in(4) {
        random.below(12) as u32
    } else {
        random.pick(&[100, 5000, 1_000_000])
    }
}

/// Words with values that obey the rules, the bits then opened; now and then a rule is added that the values break.
pub fn around_values(most_words: u64, most_rules: u64, widths: &[u8], percent: u64, random: &mut Random) -> Problem {
    let fixed = |width: u8, random: &mut Random| around(width, random.next() & greatest(width), 0, random);
    let mut words: Vec<Word> = (0..1 + random.below(3)).map(|_| fixed(random.pick(widths), random)).collect();
    let mut rules = Vec::new();
    let (wanted_words, wanted_rules) = (1 + random.below(most_words), random.below(most_rules + 1));
    for _ in 0..4 * wanted_rules {
        let kind = 1 + random.below(14) as u8;
        if rules.len() as u64 >= wanted_rules {
            break;
        }
        // a kind that computes gets a new word, while there is room for one
        if kind <= 11 && (words.len() as u64) < wanted_words {
            words.push(fixed(random.pick(widths), random));
        }
        let mut rule = match some_rule(&words, kind, random) {
            Some(rule) => rule,
            None => continue,
        };
        if kind <= 11 {
            rule.at[0] = words.len() as u8 - 1;
            if check_rule(&words, &rule).is_err() {
                continue;
            }
        }
        let values = |words: &[Word], rule: &Rule| rule.at.map(|i| words[usize::from(i)].lo);
        let widths = widths_of(&words, &rule);
        let free = !rules.iter().any(|old: &Rule| places(old.kind).any(|p| old.at[p] == rule.at[0])) && rule.at[1..].iter().all(|&i| i != rule.at[0]);
        if kind <= 11 && free {
            let value = result(kind, rule.k, widths, values(&words, &rule));
            let word = &mut words[usize::from(rule.at[0])];
            (word.lo, word.hi) = (value, value);
        }
        if holds(kind, rule.k, widths, values(&words, &rule)) || random.once_in(40) {
            rules.push(rule);
        }
    }
    for word in &mut words {
        *word = around(word.width, word.lo, if random.once_in(5) { percent / 3 } else { percent }, random);
    }
    shuffled(Problem { words, rules, limit: limit(random) }, random)
}

/// The same words in another order, so that results also come before their operands.
pub fn shuffled(mut problem: Problem, random: &mut Random) -> Problem {
    for i in (1..problem.words.len()).rev() {
        let j = random.below(i as u64 + 1) as usize;
        if random.once_in(2) {
            problem.words.swap(i, j);
            for rule in &mut problem.rules {
                for p in places(rule.kind) {
                    let x = &mut rule.at[p];
                    *x = if usize::from(*x) == i { j as u8 } else if usize::from(*x) == j { i as u8 } else { *x };
                }
            }
        }
    }
    problem
}

/// A proper board: small, wide with few open bits, wide with many, or with many words and rules.
pub fn proper(random: &mut Random) -> Problem {
    match random.below(10) {
        0..=2 => small(random),
        3..=5 => around_values(8, 8, &[1, 1, 2, 3, 4, 4], 90, random),
        6 => around_values(10, 12, &[1, 8, 16, 32, 63, 64, 64], 6, random),
        7 => around_values(8, 10, &[1, 16, 32, 32, 64], 60, random),
        8 => around_values(32, 252, &[1, 1, 2, 2, 3, 4], 60, random),
        _ => around_values(24, 60, &[1, 2, 2, 4], 100, random),
    }
}

/// Many words and many rules, in files of up to seven blocks; only for files that are damaged.
pub fn long(random: &mut Random) -> Problem {
    let words: Vec<Word> = (0..1 + random.below(32)).map(|_| around(random.pick(&[1, 2, 2, 3]), 0, 30, random)).collect();
    let rules = (0..random.below(253)).filter_map(|_| some_rule(&words, 1 + random.below(14) as u8, random)).collect();
    Problem { words, rules, limit: limit(random) }
}

/// The file of one board, and the lines that it must give.
pub fn board(random: &mut Random) -> (Vec<u8>, String) {
    loop {
        let bytes = match random.below(6) {
            0..=2 => write(&proper(random)),
            3 | 4 => damaged(&proper(random), random),
            _ => damaged(&long(random), random),
        };
        if let Ok(lines) = advise(&bytes, &mut Meter(SMALL)) {
            return (bytes, lines);
        }
    }
}

/// What sort of lines these are: the first word, with the number of a refusal.
fn sort(lines: &str) -> String {
    let mut items = lines.split_whitespace();
    match (items.next(), items.next()) {
        (Some("refused"), Some(number)) => format!("refused {number}"),
        (Some("unsat"), _) if lines.contains("cause unknown") => "unsat, cause unknown".to_string(),
        (first, _) => first.unwrap_or("nothing").to_string(),
    }
}

/// Writes the boards worked by hand and so many made ones, each as NAME.blocks and NAME.lines, into a folder; gives how many there are of each sort.
pub fn write_all(folder: &Path, count: usize, seed: u64) -> std::io::Result<String> {
    std::fs::create_dir_all(folder)?;
    let mut random = Random(seed);
    let made = (0..count).map(|i| {
        let (bytes, lines) = board(&mut random);
        (format!("{i:05}"), bytes, lines)
    });
    let by_hand = hand::boards().into_iter().map(|(name, problem, lines)| (format!("hand-{name}"), write(&problem), lines));
    let mut sorts = BTreeMap::new();
    for (name, bytes, lines) in by_hand.chain(made) {
        std::fs::write(folder.join(format!("{name}.blocks")), bytes)?;
        std::fs::write(folder.join(format!("{name}.lines")), &lines)?;
        *sorts.entry(sort(&lines)).or_insert(0) += 1;
    }
    Ok(sorts.iter().map(|(sort, number)| format!("{number} {sort}\n")).collect())
}

#[cfg(test)]
mod tests {
    use super::*;

    /// Every sort of answer comes up often, and every refusal that has places at three places or more.
    #[test]
    fn all_sorts() {
        let mut random = Random(1);
        let mut seen: BTreeMap<String, Vec<String>> = BTreeMap::new();
        for _ in 0..1500 {
            let (_, lines) = board(&mut random);
            seen.entry(sort(&lines)).or_default().push(lines);
        }
        for wanted in ["sat", "unsat", "unsat, cause unknown", "unknown"] {
            assert!(seen.get(wanted).map_or(0, Vec::len) >= 20, "{wanted}: {}", seen.get(wanted).map_or(0, Vec::len));
        }
        for number in 1..=9 {
            let all = seen.get(&format!("refused {number}")).unwrap_or_else(|| panic!("no refusal {number}"));
            let different: std::collections::BTreeSet<_> = all.iter().collect();
            assert!(different.len() >= if number == 1 || number == 9 { 1 } else { 3 }, "refusal {number}: {different:?}");
        }
    }

    /// Rules, kinds and widths that come up in proper boards.
    #[test]
    fn all_kinds() {
        let mut random = Random(1);
        let problems: Vec<Problem> = (0..400).map(|_| proper(&mut random)).collect();
        for kind in 1..=14 {
            assert!(problems.iter().flat_map(|p| &p.rules).filter(|rule| rule.kind == kind).count() >= 20, "kind {kind}");
        }
        for kind in [10, 11] {
            let is_long = |p: &Problem, rule: &Rule| rule.kind == kind && rule.k >= p.words[usize::from(rule.at[1])].width;
            let long: usize = problems.iter().map(|p| p.rules.iter().filter(|rule| is_long(p, rule)).count()).sum();
            assert!(long >= 10, "kind {kind}: {long} shifts by the width or more");
        }
        assert!(problems.iter().any(|p| p.words.len() == 32) && problems.iter().any(|p| p.rules.len() > 189));
        assert!(problems.iter().all(|p| crate::paper::check(p).is_ok()));
    }
}
