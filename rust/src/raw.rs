//! The calls of libsievecrest.a, each behind one safe function over slices. There is no unsafe code elsewhere.
//!
//! A call asks that pointers are aligned, not null and valid for the lengths beside them, and that what it writes overlaps nothing else
//! that is lent. It keeps no pointer, and it refuses every length and every value that does not suit it.

extern "C" {
    fn sievecrest_check(words: *const u64, words_length: usize, rules: *const u8, rules_length: usize, limit: u32) -> u64;

    fn sievecrest_tighten(
        words: *mut u64,
        words_length: usize,
        rules: *const u8,
        rules_length: usize,
        work: *mut u64,
        work_length: usize,
    ) -> u64;

    fn sievecrest_solve(
        words: *const u64,
        words_length: usize,
        rules: *const u8,
        rules_length: usize,
        limit: u32,
        model: *mut u64,
        model_length: usize,
        work: *mut u64,
        work_length: usize,
    ) -> u64;

    fn sievecrest_explain(
        words: *const u64,
        words_length: usize,
        rules: *const u8,
        rules_length: usize,
        rule: u64,
        place: u64,
        bit: u64,
        list: *mut u16,
        list_length: usize,
    ) -> u64;

    fn sievecrest_cause(
        words: *const u64,
        words_length: usize,
        rules: *const u8,
        rules_length: usize,
        limit: u32,
        list: *mut u16,
        list_length: usize,
        work: *mut u64,
        work_length: usize,
    ) -> u64;

    fn sievecrest_read(
        file: *const u8,
        file_length: usize,
        words: *mut u64,
        words_length: usize,
        rules: *mut u8,
        rules_length: usize,
    ) -> u64;

    fn sievecrest_write(
        words: *const u64,
        words_length: usize,
        rules: *const u8,
        rules_length: usize,
        limit: u32,
        file: *mut u8,
        file_length: usize,
    ) -> u64;

    fn sievecrest_advise(file: *const u8, file_length: usize, out: *mut u8, out_length: usize, work: *mut u64, work_length: usize) -> u64;
}

pub fn check(words: &[u64], rules: &[u8], limit: u32) -> u64 {
    // SAFETY: each pointer and length is that of a slice, hence aligned, not null and valid; nothing is written.
    unsafe { sievecrest_check(words.as_ptr(), words.len(), rules.as_ptr(), rules.len(), limit) }
}

pub fn tighten(words: &mut [u64], rules: &[u8], work: &mut [u64]) -> u64 {
    // SAFETY: as for `check`; `words` and `work` are written, and as mutable borrows they overlap nothing.
    unsafe { sievecrest_tighten(words.as_mut_ptr(), words.len(), rules.as_ptr(), rules.len(), work.as_mut_ptr(), work.len()) }
}

pub fn solve(words: &[u64], rules: &[u8], limit: u32, model: &mut [u64], work: &mut [u64]) -> u64 {
    // SAFETY: as for `check`; `model` and `work` are written, and as mutable borrows they overlap nothing.
    unsafe {
        sievecrest_solve(
            words.as_ptr(),
            words.len(),
            rules.as_ptr(),
            rules.len(),
            limit,
            model.as_mut_ptr(),
            model.len(),
            work.as_mut_ptr(),
            work.len(),
        )
    }
}

pub fn explain(words: &[u64], rules: &[u8], rule: u64, place: u64, bit: u64, list: &mut [u16]) -> u64 {
    // SAFETY: as for `check`; `list` is written, and as a mutable borrow it overlaps nothing.
    unsafe { sievecrest_explain(words.as_ptr(), words.len(), rules.as_ptr(), rules.len(), rule, place, bit, list.as_mut_ptr(), list.len()) }
}

pub fn cause(words: &[u64], rules: &[u8], limit: u32, list: &mut [u16], work: &mut [u64]) -> u64 {
    // SAFETY: as for `check`; `list` and `work` are written, and as mutable borrows they overlap nothing.
    unsafe {
        sievecrest_cause(
            words.as_ptr(),
            words.len(),
            rules.as_ptr(),
            rules.len(),
            limit,
            list.as_mut_ptr(),
            list.len(),
            work.as_mut_ptr(),
            work.len(),
        )
    }
}

pub fn read(file: &[u8], words: &mut [u64], rules: &mut [u8]) -> u64 {
    // SAFETY: as for `check`; `words` and `rules` are written, and as mutable borrows they overlap nothing.
    unsafe { sievecrest_read(file.as_ptr(), file.len(), words.as_mut_ptr(), words.len(), rules.as_mut_ptr(), rules.len()) }
}

pub fn write(words: &[u64], rules: &[u8], limit: u32, file: &mut [u8]) -> u64 {
    // SAFETY: as for `check`; `file` is written, and as a mutable borrow it overlaps nothing.
    unsafe { sievecrest_write(words.as_ptr(), words.len(), rules.as_ptr(), rules.len(), limit, file.as_mut_ptr(), file.len()) }
}

pub fn advise(file: &[u8], out: &mut [u8], work: &mut [u64]) -> u64 {
    // SAFETY: as for `check`; `out` and `work` are written, and as mutable borrows they overlap nothing.
    unsafe { sievecrest_advise(file.as_ptr(), file.len(), out.as_mut_ptr(), out.len(), work.as_mut_ptr(), work.len()) }
}

#[cfg(test)]
mod tests;
