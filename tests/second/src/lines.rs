//! The lines that the adviser program prints for one block file.

use crate::file::read;
use crate::fits::{Meter, TooLong};
use crate::paper::{check, Problem, Refused};
use crate::search::{cause, solve, Answer, Cause};

/// The lines for the bytes of a file, within the work that the meter allows.
pub fn advise(bytes: &[u8], meter: &mut Meter) -> Result<String, TooLong> {
    let checked = read(bytes).and_then(|problem| check(&problem).map(|()| problem));
    match checked {
        Err(Refused(number, place)) => Ok(format!("refused {number} {place}\n")),
        Ok(problem) => answered(&problem, meter),
    }
}

fn answered(problem: &Problem, meter: &mut Meter) -> Result<String, TooLong> {
    let (words, rules, limit) = (&problem.words, &problem.rules, problem.limit);
    let (answer, count) = solve(words, rules, limit, meter)?;
    Ok(match answer {
        Answer::GaveUp => format!("unknown {count}\n"),
        Answer::Found(values) => {
            let mut lines = format!("sat {count}\n");
            for (i, (word, value)) in words.iter().zip(values).enumerate() {
                lines += &format!("{i} {} {value:0width$b}\n", word.width, width = usize::from(word.width));
            }
            lines
        }
        Answer::None => {
            let (cause, sum) = cause(words, rules, limit, count, meter)?;
            let named = match cause {
                Cause::Unknown => format!("cause unknown {sum}"),
                Cause::Rules(numbers) => numbers.iter().fold(format!("cause {sum}"), |line, i| format!("{line} {i}")),
            };
            format!("unsat {count}\n{named}\n")
        }
    })
}

#[cfg(test)]
mod tests {
    use super::*;
    use crate::file::write;

    fn printed(words: &[(u8, u64, u64)], rules: &[[u8; 6]], limit: u32) -> String {
        advise(&write(&Problem::of(words, rules, limit)), &mut Meter(1_000_000)).unwrap()
    }

    /// Without one of the two comparisons the open word takes two guesses, and one is allowed.
    #[test]
    fn cause_that_gives_up() {
        let rules = [[13, 0, 0, 1, 0, 0], [13, 0, 1, 0, 0, 0]];
        assert_eq!(printed(&[(1, 0, 1), (1, 0, 1), (2, 0, 3)], &rules, 1), "unsat 0\ncause unknown 1\n");
    }

    #[test]
    fn order_of_refusals() {
        assert_eq!(printed(&[(2, 1, 0), (0, 0, 0)], &[], 1_000_001), "refused 5 0\n");
        assert_eq!(printed(&[(2, 0, 4)], &[], 0), "refused 5 0\n");
        assert_eq!(printed(&[(2, 0, 3)], &[[14, 1, 0, 0, 0, 0], [0; 6]], 0), "refused 7 0\n");
        assert_eq!(printed(&[(2, 0, 3), (3, 0, 3)], &[[14, 0, 0, 1, 0, 0], [15, 0, 0, 0, 0, 0]], 0), "refused 8 0\n");
        assert_eq!(printed(&[(65, 0, 3)], &[], 0), "refused 4 0\n");
    }

    #[test]
    fn too_long_is_said() {
        let problem = Problem::of(&[(64, 0, u64::MAX)], &[[14, 0, 0, 0, 0, 0]], 1_000_000);
        assert_eq!(advise(&write(&problem), &mut Meter(10_000)), Err(TooLong));
    }
}
