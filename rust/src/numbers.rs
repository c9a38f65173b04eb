//! The numbers of the library's interface: refusals, answers, how a returned number is made, the most of each, and the lengths of what is
//! lent.
//!
//! Each stands on one line, under the name that the C header has for it, so that a test can compare both with the library's own sources.

// Refusals. All are below 32.

/// More than 32 words or 252 rules, a file that is not 1 to 7 blocks long, or lent memory that is too short.
pub const REFUSED_SIZE: u64 = 1;
/// A block's sum.
pub const REFUSED_CHECK: u64 = 2;
/// Any other fault in the blocks of a file.
pub const REFUSED_LAYOUT: u64 = 3;
/// A width that is not 1 to 64.
pub const REFUSED_WIDTH: u64 = 4;
/// A lo with a 1 where hi has 0, or a bound that is wider than the word.
pub const REFUSED_TABLE: u64 = 5;
/// A kind that is not 1 to 14.
pub const REFUSED_KIND: u64 = 6;
/// A word number that is not below the word count, or an unused field that is not 0.
pub const REFUSED_FIELD: u64 = 7;
/// Widths, or the k of a SLICE, that do not fit.
pub const REFUSED_FIT: u64 = 8;
/// A limit over 1,000,000.
pub const REFUSED_LIMIT: u64 = 9;
/// A question for an explanation that names no open bit at a place of a rule.
pub const REFUSED_ASK: u64 = 10;
/// A cause without any rule, which is proved never to come.
pub const REFUSED_EMPTY: u64 = 11;

// Answers.

/// Settings.
pub const FOUND: u64 = 32;
/// No settings.
pub const NONE: u64 = 33;
/// One more guess was needed than the limit allows.
pub const GAVE_UP: u64 = 34;
/// A problem is checked, read or written, or lines are put.
pub const OK: u64 = 35;
/// The bounds are those of the widest tight table.
pub const TIGHT: u64 = 36;
/// There is no tight table, or a rule has no fit.
pub const CONFLICT: u64 = 37;
/// All fits agree on the bit.
pub const FORCED: u64 = 38;
/// The fits differ in the bit.
pub const FREE: u64 = 39;
/// A cause is asked where settings exist.
pub const EXISTS: u64 = 40;
/// Conflicting rules.
pub const CAUSE: u64 = 41;

// The bits of a returned number at which its parts begin, after the answer's own number.

/// The detail: the place of a refusal, a count, a value, a limit or a length, by the answer.
pub const DETAIL_SHIFT: u32 = 8;
/// The entries of a reason or a cause.
pub const ENTRIES_SHIFT: u32 = 40;
/// The words of a problem that was read.
pub const WORDS_SHIFT: u32 = 40;
/// The rules of a problem that was read.
pub const RULES_SHIFT: u32 = 48;

// The most of each.

/// Bits of a word.
pub const MAX_WIDTH: u64 = 64;
/// Words of a problem.
pub const MAX_WORDS: usize = 32;
/// Rules of a problem.
pub const MAX_RULES: usize = 252;
/// Guesses allowed.
pub const MAX_LIMIT: u32 = 1000000;
/// Bytes of a block file.
pub const MAX_FILE_BYTES: usize = 3584;

// What is lent: how a problem lies in memory, and the least length of each buffer whose length is fixed.

/// Numbers a word: width, lo, hi.
pub const WORD_NUMBERS: usize = 3;
/// Bytes a rule: kind, r, a, b, s, k.
pub const RULE_BYTES: usize = 6;
/// Work memory of `tighten`, in numbers.
pub const TIGHTEN_WORK: usize = 320;
/// Work memory of `solve`.
pub const SOLVE_WORK: usize = 4608;
/// Work memory of `cause`.
pub const CAUSE_WORK: usize = 5120;
/// Work memory of `advise`.
pub const ADVISE_WORK: usize = 5120;
/// Entries of the list for `explain`.
pub const REASON_ENTRIES: usize = 193;
/// Numbers for the words that `read` stores.
pub const READ_NUMBERS: usize = 96;
/// Bytes for the rules that `read` stores.
pub const READ_BYTES: usize = 1512;
/// Bytes for the lines of `advise`.
pub const LINES_BYTES: usize = 2304;
