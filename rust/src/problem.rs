//! Problems, and the calls on them.

use crate::answers::{Caused, Explained, Place, Solved, Tightened};
use crate::numbers::{
    ADVISE_WORK, CAUSE_WORK, LINES_BYTES, MAX_FILE_BYTES, READ_BYTES, READ_NUMBERS, REASON_ENTRIES, SOLVE_WORK, TIGHTEN_WORK,
};
use crate::refusal::Refusal;
use crate::rule::{self, Rule};
use crate::word::{self, Word};
use crate::{decode, raw};

/// Words, the rules between them, and how many guesses a search may make.
///
/// A problem can hold faults, as a rule that names no word. Every call looks at it before it works, and refuses the first fault.
#[derive(Clone, Debug, Default, PartialEq, Eq, Hash)]
pub struct Problem {
    /// At most 32. They order settings: of two settings the earlier has the smaller value in the first word where they differ.
    pub words: Vec<Word>,
    /// At most 252. All of them must hold.
    pub rules: Vec<Rule>,
    /// At most 1,000,000 guesses. A limit of 0 lets tightening alone decide.
    pub limit: u32,
}

impl Problem {
    /// Whether the problem is proper: its first refusal, if there is any.
    pub fn check(&self) -> Result<(), Refusal> {
        decode::check(raw::check(&self.numbers(), &self.bytes(), self.limit))
    }

    /// The widest tight table: every bit that a single rule forces is fixed. The limit is not used.
    pub fn tighten(&self) -> Result<Tightened, Refusal> {
        let mut numbers = self.numbers();
        let packed = raw::tighten(&mut numbers, &self.bytes(), &mut [0; TIGHTEN_WORK]);
        decode::tighten(packed, &numbers)
    }

    /// The first settings in word order, or that there are none, or that the limit was too small.
    pub fn solve(&self) -> Result<Solved, Refusal> {
        let mut model = vec![0; self.words.len()];
        let packed = raw::solve(&self.numbers(), &self.bytes(), self.limit, &mut model, &mut vec![0; SOLVE_WORK]);
        decode::solve(packed, model)
    }

    /// What one rule says of an open bit at one of its places, and why, over the words as they are: tighten first if that is the table you
    /// mean. The limit is not used.
    pub fn explain(&self, rule: usize, place: Place, bit: u64) -> Result<Explained, Refusal> {
        let mut list = [0; REASON_ENTRIES];
        let packed = raw::explain(&self.numbers(), &self.bytes(), rule as u64, place.number().into(), bit, &mut list);
        decode::explain(packed, &list)
    }

    /// Conflicting rules where there are no settings: from the last rule to the first, each is dropped if the rest still has none. What is
    /// left is a minimal unsatisfiable subset. Each trial is a search of its own with the full limit.
    pub fn cause(&self) -> Result<Caused, Refusal> {
        let mut list = vec![0; self.rules.len()];
        let packed = raw::cause(&self.numbers(), &self.bytes(), self.limit, &mut list, &mut vec![0; CAUSE_WORK]);
        decode::cause(packed, &list)
    }

    /// The problem in the bytes of a block file.
    pub fn read(file: &[u8]) -> Result<Problem, Refusal> {
        let mut numbers = [0; READ_NUMBERS];
        let mut bytes = [0; READ_BYTES];
        let packed = raw::read(file, &mut numbers, &mut bytes);
        decode::read(packed, &numbers, &bytes)
    }

    /// The bytes of the problem's block file.
    pub fn write(&self) -> Result<Vec<u8>, Refusal> {
        let mut file = [0; MAX_FILE_BYTES];
        let packed = raw::write(&self.numbers(), &self.bytes(), self.limit, &mut file);
        decode::write(packed, &file)
    }

    fn numbers(&self) -> Vec<u64> {
        word::numbers(&self.words)
    }

    fn bytes(&self) -> Vec<u8> {
        rule::bytes(&self.rules)
    }
}

/// The lines that the adviser program prints for the bytes of a block file: settings, the cause where there are none, or a refusal.
pub fn advise(file: &[u8]) -> Vec<u8> {
    let mut out = [0; LINES_BYTES];
    let packed = raw::advise(file, &mut out, &mut vec![0; ADVISE_WORK]);
    decode::advise(packed, &out)
}
