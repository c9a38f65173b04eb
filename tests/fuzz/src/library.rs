//! The linked library's `read` and `advise` on one file. All lent memory is filled with a pattern before a call, and has more room behind than is lent.

extern "C" {
    fn sievecrest_read(file: *const u8, file_len: usize, words: *mut u64, words_len: usize, rules: *mut u8, rules_len: usize) -> u64;
    fn sievecrest_advise(file: *const u8, file_len: usize, out: *mut u8, out_len: usize, work: *mut u64, work_len: usize) -> u64;
}

const WORDS: usize = 96;
const RULES: usize = 1512;
const OUT: usize = 2304;
const WORK: usize = 5120;
const BEHIND: usize = 16;
const BYTE: u8 = 0xa5;
const NUMBER: u64 = 0xa5a5_a5a5_a5a5_a5a5;

/// The memory lent to `read`, and what came back.
#[derive(PartialEq)]
pub struct Read {
    pub answer: u64,
    pub words: Vec<u64>,
    pub rules: Vec<u8>,
}

/// The memory lent to `advise`, and what came back.
#[derive(PartialEq)]
pub struct Advised {
    pub answer: u64,
    pub out: Vec<u8>,
    pub work: Vec<u64>,
}

impl Read {
    /// Memory as it stands before the call, and must stand after it where records are stored in front.
    pub fn with(answer: u64, words: &[u64], rules: &[u8]) -> Read {
        let mut made = Read { answer, words: vec![NUMBER; WORDS + BEHIND], rules: vec![BYTE; RULES + BEHIND] };
        made.words[..words.len()].copy_from_slice(words);
        made.rules[..rules.len()].copy_from_slice(rules);
        made
    }
}

impl Advised {
    /// Memory as it must stand after the call where these lines were put.
    pub fn with(answer: u64, lines: &[u8]) -> Advised {
        let mut made = Advised { answer, out: vec![BYTE; OUT + BEHIND], work: vec![NUMBER; WORK + BEHIND] };
        made.out[..lines.len()].copy_from_slice(lines);
        made.work[..WORK].fill(0);
        made
    }

    /// The lines that the answer says were put; None where it is no answer or says more than was lent.
    pub fn lines(&self) -> Option<&[u8]> {
        let length = (self.answer >> 8) as usize;
        if self.answer & 255 == 35 && length <= OUT {
            Some(&self.out[..length])
        } else {
            None
        }
    }
}

/// The call `read` on a file.
pub fn read(file: &[u8]) -> Read {
    let mut lent = Read::with(0, &[], &[]);
    // SAFETY: the three slices are valid for the lengths given, aligned, not null, and do not overlap.
    lent.answer = unsafe { sievecrest_read(file.as_ptr(), file.len(), lent.words.as_mut_ptr(), WORDS, lent.rules.as_mut_ptr(), RULES) };
    lent
}

/// The call `advise` on a file.
pub fn advise(file: &[u8]) -> Advised {
    let mut lent = Advised::with(0, &[]);
    lent.work.fill(NUMBER);
    // SAFETY: as above.
    lent.answer = unsafe { sievecrest_advise(file.as_ptr(), file.len(), lent.out.as_mut_ptr(), OUT, lent.work.as_mut_ptr(), WORK) };
    lent
}
