"""Words: a width and two bounds."""
import dataclasses
from array import array

from .numbers import STRIDE

MOST = (1 << 64) - 1


@dataclasses.dataclass(frozen=True)
class Word:
    """A register or a part of one: its width, and what is known of its bits.

    A bit that is 1 in both bounds is fixed 1, 0 in both is fixed 0, and 0 in lo with 1 in hi is open. Bit 0 is the lowest. A word can hold what is none, as
    width 0; the calls refuse it. Numbers that do not fit into 64 bits cannot be lent, and are a ValueError at once.
    """

    width: int
    """1 to 64."""
    lo: int
    """1 where the bit is fixed 1."""
    hi: int
    """0 where the bit is fixed 0."""

    def __post_init__(self):
        for field in dataclasses.fields(self):
            number = getattr(self, field.name)
            if not isinstance(number, int) or not 0 <= number <= MOST:
                raise ValueError(f"{field.name} of a word is {number!r}; give a number from 0 to 2^64 - 1")

    @classmethod
    def open(cls, width):
        """A word whose bits are all open."""
        return cls(width, 0, (1 << min(width, 64)) - 1 if isinstance(width, int) and width >= 0 else 0)

    @classmethod
    def fixed(cls, width, value):
        """A word whose bits are all fixed."""
        return cls(width, value, value)

    @property
    def open_bits(self):
        """How many bits are open."""
        return bin(self.lo ^ self.hi).count("1")


def numbers(words):
    """Words as they are lent."""
    return array("Q", [x for word in words for x in (word.width, word.lo, word.hi)])


def words(numbers):
    """Words as they come back."""
    return [Word(*numbers[i : i + STRIDE]) for i in range(0, len(numbers), STRIDE)]
