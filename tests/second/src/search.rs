//! The published search and the cause, over tables that are copied at every step.

use crate::fits::{narrowed, Meter, TooLong};
use crate::paper::{places, Rule, Word};

#[derive(Clone, PartialEq, Eq, Debug)]
pub enum Answer {
    Found(Vec<u64>),
    None,
    GaveUp,
}

#[derive(Clone, PartialEq, Eq, Debug)]
pub enum Cause {
    Rules(Vec<usize>),
    Unknown,
}

/// The widest tight table, or None on a conflict.
pub fn tightened(words: &[Word], rules: &[Rule], meter: &mut Meter) -> Result<Option<Vec<Word>>, TooLong> {
    let mut table = words.to_vec();
    loop {
        let before = table.clone();
        for rule in rules {
            let left = match narrowed(&table, rule, meter)? {
                Some(left) => left,
                None => return Ok(None),
            };
            for p in places(rule.kind) {
                let word = &mut table[usize::from(rule.at[p])];
                word.lo |= left[p].lo;
                word.hi &= left[p].hi;
                if word.lo & !word.hi != 0 {
                    return Ok(None);
                }
            }
        }
        if table == before {
            return Ok(Some(table));
        }
    }
}

/// The answer at a limit, and the count.
pub fn solve(words: &[Word], rules: &[Rule], limit: u32, meter: &mut Meter) -> Result<(Answer, u32), TooLong> {
    let mut count = 0;
    let answer = branch(words, rules, limit, &mut count, meter)?;
    Ok((answer, count))
}

fn branch(words: &[Word], rules: &[Rule], limit: u32, count: &mut u32, meter: &mut Meter) -> Result<Answer, TooLong> {
    meter.spend(1)?;
    let tight = match tightened(words, rules, meter)? {
        Some(tight) => tight,
        None => return Ok(Answer::None),
    };
    let i = match tight.iter().position(|word| word.lo != word.hi) {
        Some(i) => i,
        None => return Ok(Answer::Found(tight.iter().map(|word| word.lo).collect())),
    };
    if *count == limit {
        return Ok(Answer::GaveUp);
    }
    *count += 1;
    let bit = 1 << (63 - (tight[i].lo ^ tight[i].hi).leading_zeros());
    let mut zero = tight.clone();
    zero[i].hi &= !bit;
    let answer = branch(&zero, rules, limit, count, meter)?;
    if answer != Answer::None {
        return Ok(answer);
    }
    let mut one = tight;
    one[i].lo |= bit;
    branch(&one, rules, limit, count, meter)
}

/// The rules in the way of a problem that has no settings, found with `first` guesses, and the sum of the counts.
pub fn cause(words: &[Word], rules: &[Rule], limit: u32, first: u32, meter: &mut Meter) -> Result<(Cause, u64), TooLong> {
    let mut kept: Vec<usize> = (0..rules.len()).collect();
    let mut sum = u64::from(first);
    for dropped in (0..rules.len()).rev() {
        let rest: Vec<usize> = kept.iter().copied().filter(|&i| i != dropped).collect();
        let trial: Vec<Rule> = rest.iter().map(|&i| rules[i]).collect();
        let (answer, count) = solve(words, &trial, limit, meter)?;
        sum += u64::from(count);
        match answer {
            Answer::None => kept = rest,
            Answer::Found(_) => {}
            Answer::GaveUp => return Ok((Cause::Unknown, sum)),
        }
    }
    Ok((Cause::Rules(kept), sum))
}

#[cfg(test)]
mod tests {
    use super::*;
    use crate::make::small;
    use crate::paper::{holds, widths_of, Problem};
    use crate::random::Random;

    /// A problem with at most 12 open bits, which no search gives up at a limit of 4,095.
    fn few_open_bits(random: &mut Random) -> Problem {
        loop {
            let problem = small(random);
            if problem.words.iter().map(|word| (word.lo ^ word.hi).count_ones()).sum::<u32>() <= 12 {
                return problem;
            }
        }
    }

    /// The first settings, by going through all values of all words in order; the last word changes fastest.
    fn first_settings(words: &[Word], rules: &[Rule], chosen: &mut Vec<u64>) -> bool {
        let word = match words.get(chosen.len()) {
            Some(word) => word,
            None => return rules.iter().all(|rule| holds(rule.kind, rule.k, widths_of(words, rule), rule.at.map(|i| chosen[usize::from(i)]))),
        };
        let mut value = word.lo;
        loop {
            chosen.push(value);
            if first_settings(words, rules, chosen) {
                return true;
            }
            chosen.pop();
            let next = match (value + 1..=word.hi).find(|x| x & word.lo == word.lo && x | word.hi == word.hi) {
                Some(next) => next,
                None => return false,
            };
            value = next;
        }
    }

    /// The search finds the first settings wherever there are any; a cause has none, and has some without any one of its rules.
    #[test]
    fn answers_are_those_of_all_values() {
        let mut random = Random(3);
        let mut meter = Meter(u64::MAX);
        let (mut found, mut none) = (0, 0);
        while found < 300 || none < 300 {
            let problem = few_open_bits(&mut random);
            let (words, rules) = (&problem.words, &problem.rules);
            let mut chosen = Vec::new();
            let exist = first_settings(words, rules, &mut chosen);
            let (answer, count) = solve(words, rules, 1_000_000, &mut meter).unwrap();
            assert_eq!(answer, if exist { Answer::Found(chosen) } else { Answer::None }, "{problem:?}");
            if exist {
                found += 1;
                continue;
            }
            none += 1;
            let (kept, sum) = match cause(words, rules, 1_000_000, count, &mut meter).unwrap() {
                (Cause::Rules(kept), sum) => (kept, sum),
                (Cause::Unknown, _) => panic!("{problem:?} gives up"),
            };
            assert!(!kept.is_empty() && sum >= u64::from(count));
            for dropped in std::iter::once(None).chain(kept.iter().map(Some)) {
                let rest: Vec<Rule> = kept.iter().filter(|&i| Some(i) != dropped).map(|&i| rules[i]).collect();
                assert_eq!(first_settings(words, &rest, &mut Vec::new()), dropped.is_some(), "{problem:?} without {dropped:?}");
            }
        }
    }

    /// At a limit below its count a search gives up with count = limit, and from its count on it answers as before.
    #[test]
    fn limits_decide() {
        let mut random = Random(4);
        let mut meter = Meter(u64::MAX);
        for _ in 0..200 {
            let problem = few_open_bits(&mut random);
            let (answer, count) = solve(&problem.words, &problem.rules, 1_000_000, &mut meter).unwrap();
            for limit in count.saturating_sub(2)..count + 2 {
                let wanted = if limit < count { (Answer::GaveUp, limit) } else { (answer.clone(), count) };
                assert_eq!(solve(&problem.words, &problem.rules, limit, &mut meter), Ok(wanted));
            }
        }
    }
}
