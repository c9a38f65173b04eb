//! The boards that the paper works by hand, as far as the adviser program shows them, with the lines as they follow from the paper's own answers.

use crate::paper::Problem;

const MOST: u32 = 1_000_000;

/// Name, problem, lines.
pub fn boards() -> Vec<(String, Problem, String)> {
    let add = [6, 2, 0, 1, 0, 0];
    let (bit, two, three) = ((1, 0, 1), (2, 0, 3), (2, 3, 3));
    let same = [14, 0, 0, 0, 0, 0];
    let below = [13, 0, 0, 1, 0, 0];
    let (ones, zeros) = ("1".repeat(64), "0".repeat(64));
    let wide = [(64, u64::MAX, u64::MAX), (64, 1, 1), (64, 0, u64::MAX)];
    let ordered = [add, [12, 0, 1, 0, 0, 0]];
    let slice = |k| Problem::of(&[(4, 0, 0), (8, 0, 0)], &[[8, 0, 1, 0, 0, k]], 0);
    let shift = |k| Problem::of(&[(4, 0, 0)], &[[10, 0, 0, 0, 0, k]], 0);
    let words = |n| Problem::of(&vec![(1, 1, 1); n], &[], 0);
    let rules = |n| Problem::of(&[(1, 0, 0), (1, 1, 1)], &vec![below; n], 0);
    let all_words: String = (0..32).map(|i| format!("{i} 1 1\n")).collect();
    let listed = [
        ("a", Problem::of(&[], &[], 0), "sat 0\n".to_string()),
        ("b-0", Problem::of(&[bit], &[], 0), "unknown 0\n".into()),
        ("b-1", Problem::of(&[bit], &[], 1), "sat 1\n0 1 0\n".into()),
        ("c-4", Problem::of(&[(4, 15, 15), (4, 1, 1), (4, 0, 15)], &[add], 0), "sat 0\n0 4 1111\n1 4 0001\n2 4 0000\n".into()),
        ("c-64", Problem::of(&wide, &[add], 0), format!("sat 0\n0 64 {ones}\n1 64 {}1\n2 64 {zeros}\n", &zeros[1..])),
        ("d", Problem::of(&[bit], &[same], MOST), "unsat 1\ncause 2 0\n".into()),
        ("d-0", Problem::of(&[bit], &[same], 0), "unknown 0\n".into()),
        ("e", Problem::of(&[two, (2, 0, 0)], &[[14, 0, 0, 1, 0, 0]], MOST), "sat 1\n0 2 01\n1 2 00\n".into()),
        ("f", Problem::of(&[two, two, three], &[add], 15), "sat 2\n0 2 00\n1 2 11\n2 2 11\n".into()),
        ("g", Problem::of(&[two, two, three], &ordered, 100), "sat 2\n0 2 10\n1 2 01\n2 2 11\n".into()),
        ("h", Problem::of(&[bit, bit], &[below, below, [14, 0, 0, 1, 0, 0], [13, 0, 1, 0, 0, 0]], MOST), "unsat 0\ncause 0 0 3\n".into()),
        ("l-limit", Problem::of(&[], &[], MOST), "sat 0\n".into()),
        ("l-limit-over", Problem::of(&[], &[], MOST + 1), "refused 9 0\n".into()),
        ("l-words", words(32), format!("sat 0\n{all_words}")),
        ("l-words-over", words(33), "refused 3 1\n".into()),
        ("l-rules", rules(252), "sat 0\n0 1 0\n1 1 1\n".into()),
        ("l-rules-over", rules(253), "refused 3 5\n".into()),
        ("l-slice", slice(4), "sat 0\n0 4 0000\n1 8 00000000\n".into()),
        ("l-slice-over", slice(5), "refused 8 0\n".into()),
        ("l-shift", shift(3), "sat 0\n0 4 0000\n".into()),
        ("l-shift-4", shift(4), "sat 0\n0 4 0000\n".into()),
        ("l-shift-255", shift(255), "sat 0\n0 4 0000\n".into()),
    ];
    listed.into_iter().map(|(name, problem, lines)| (name.to_string(), problem, lines)).collect()
}

#[cfg(test)]
mod tests {
    use super::*;
    use crate::file::write;
    use crate::fits::Meter;
    use crate::lines::advise;

    #[test]
    fn every_board_gives_its_lines() {
        for (name, problem, lines) in boards() {
            assert_eq!(advise(&write(&problem), &mut Meter(1_000_000)).as_ref(), Ok(&lines), "board {name}");
        }
    }
}
