//! Words: a width and two bounds.

use crate::numbers::WORD_NUMBERS;

/// A register or a part of one: its width, and what is known of its bits.
///
/// A bit that is 1 in both bounds is fixed 1, 0 in both is fixed 0, and 0 in `lo` with 1 in `hi` is open. Bit 0 is the lowest. A word can
/// hold faults, as width 0; the calls refuse them.
#[derive(Clone, Copy, Debug, PartialEq, Eq, Hash)]
pub struct Word {
    /// 1 to 64.
    pub width: u64,
    /// 1 where the bit is fixed 1.
    pub lo: u64,
    /// 0 where the bit is fixed 0.
    pub hi: u64,
}

impl Word {
    /// A word whose bits are all open.
    pub const fn open(width: u64) -> Word {
        let hi = match width {
            0 => 0,
            1..=63 => (1 << width) - 1,
            _ => u64::MAX,
        };
        Word { width, lo: 0, hi }
    }

    /// A word whose bits are all fixed.
    pub const fn fixed(width: u64, value: u64) -> Word {
        Word { width, lo: value, hi: value }
    }

    /// A word with some bits fixed.
    pub const fn bounds(width: u64, lo: u64, hi: u64) -> Word {
        Word { width, lo, hi }
    }

    /// How many bits are open.
    pub const fn open_bits(self) -> u32 {
        (self.lo ^ self.hi).count_ones()
    }

    /// The word as it is lent.
    pub(crate) fn numbers(self) -> [u64; WORD_NUMBERS] {
        [self.width, self.lo, self.hi]
    }
}

/// Words as they are lent.
pub(crate) fn numbers(words: &[Word]) -> Vec<u64> {
    words.iter().flat_map(|word| word.numbers()).collect()
}

/// Words as they come back.
pub(crate) fn words(numbers: &[u64]) -> Vec<Word> {
    numbers.chunks_exact(WORD_NUMBERS).map(|x| Word::bounds(x[0], x[1], x[2])).collect()
}

#[cfg(test)]
mod tests {
    use super::*;

    #[test]
    fn open_words_of_every_width() {
        assert_eq!(Word::open(1).hi, 1);
        assert_eq!(Word::open(12).hi, 4095);
        assert_eq!(Word::open(63).hi, u64::MAX / 2);
        assert_eq!(Word::open(64).hi, u64::MAX);
        assert!((1..=64).all(|width| u64::from(Word::open(width).open_bits()) == width));
    }

    #[test]
    fn a_width_that_is_none_can_be_held() {
        assert_eq!(Word::open(0), Word { width: 0, lo: 0, hi: 0 });
        assert_eq!(Word::open(u64::MAX), Word { width: u64::MAX, lo: 0, hi: u64::MAX });
    }

    #[test]
    fn open_bits_are_the_ones_of_lo_xor_hi() {
        assert_eq!(Word::bounds(4, 8, 15).open_bits(), 3);
        assert_eq!(Word::fixed(4, 9).open_bits(), 0);
    }

    #[test]
    fn words_come_back_as_lent() {
        let some = [Word::open(3), Word::fixed(64, 7), Word::bounds(4, 8, 15)];
        assert_eq!(numbers(&some), [3, 0, 7, 64, 7, 7, 4, 8, 15]);
        assert_eq!(words(&numbers(&some)), some);
    }
}
