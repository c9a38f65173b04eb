"""Problems, and the calls on them."""
import dataclasses
from array import array
from typing import List

from . import decode, raw, rule, word
from .numbers import ADVISE_WORK, CAUSE_WORK, FIELDS, FILE_BYTES, LINES_BYTES, REASON_ENTRIES, RULES, SOLVE_WORK, STRIDE, TIGHTEN_WORK, WORDS
from .rule import Rule
from .word import Word

MOST_LIMIT = (1 << 32) - 1


def zeros(kind, n):
    return array(kind, bytes(n * array(kind).itemsize))


def own(file):
    """The bytes of a file, which no other thread can alter while a call runs."""
    return bytes(memoryview(file))


@dataclasses.dataclass
class Problem:
    """Words, the rules between them, and how many guesses a search may make.

    A problem can hold what is none, as a rule that names no word. Every call looks at it before it works, and raises Refusal for the first fault. No call
    alters the problem.
    """

    words: List[Word] = dataclasses.field(default_factory=list)
    """At most 32. They order settings: of two settings the earlier has the smaller value in the first word where they differ."""
    rules: List[Rule] = dataclasses.field(default_factory=list)
    """At most 252. All of them must hold."""
    limit: int = 0
    """At most 1,000,000 guesses. A limit of 0 lets tightening alone decide."""

    def check(self):
        """Whether the problem is one: raises its first refusal, if there is any."""
        decode.check(raw.check(*self._lent(), self._limit()))

    def tighten(self):
        """Tight with the words of the widest table in which every bit that a single rule forces is fixed, or Conflict. The limit plays no part."""
        numbers, fields = self._lent()
        return decode.tighten(raw.tighten(numbers, fields, zeros("Q", TIGHTEN_WORK)), numbers)

    def solve(self):
        """Found with the first settings in word order, or NoSettings, or GaveUp where the limit was too small."""
        model = zeros("Q", len(self.words))
        return decode.solve(raw.solve(*self._lent(), self._limit(), model, zeros("Q", SOLVE_WORK)), model)

    def explain(self, number, place, bit):
        """What the rule of that number says of an open bit at one of its places, and why: Forced, Free or Conflict.

        The words are taken as they are; tighten first if that is the table you mean. The limit plays no part.
        """
        entries = zeros("H", REASON_ENTRIES)
        return decode.explain(raw.explain(*self._lent(), number, place, bit, entries), entries)

    def cause(self):
        """Cause with conflicting rules where there are no settings, or Exists, or GaveUp.

        From the last rule to the first, each is dropped if the rest still has no settings. Each trial is a search of its own with the full limit.
        """
        entries = zeros("H", len(self.rules))
        return decode.cause(raw.cause(*self._lent(), self._limit(), entries, zeros("Q", CAUSE_WORK)), entries)

    @classmethod
    def read(cls, file):
        """The problem in the bytes of a block file."""
        numbers, fields = zeros("Q", STRIDE * WORDS), bytearray(FIELDS * RULES)
        return cls(*decode.read(raw.read(own(file), numbers, fields), numbers, fields))

    def write(self):
        """The bytes of the problem's block file."""
        file = bytearray(FILE_BYTES)
        return decode.write(raw.write(*self._lent(), self._limit(), file), file)

    def _lent(self):
        return word.numbers(self.words), rule.numbers(self.rules)

    def _limit(self):
        """The limit as it is lent: one that does not fit into 32 bits is refused as any other that is too great."""
        if not isinstance(self.limit, int) or self.limit < 0:
            raise ValueError(f"the limit is {self.limit!r}; give a number from 0 to 1000000")
        return min(self.limit, MOST_LIMIT)


def advise(file):
    """The lines that the adviser program prints for the bytes of a block file: settings, the cause where there are none, or a refusal."""
    out = bytearray(LINES_BYTES)
    return decode.advise(raw.advise(own(file), out, zeros("Q", ADVISE_WORK)), out)
