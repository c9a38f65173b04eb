"""The answers of the calls, a class for each. A refusal is no answer but the exception of a call."""
import dataclasses
import enum
from typing import List, Optional

from .word import Word


class Place(enum.IntEnum):
    """A field of a rule that names a word. One word may stand at two places of a rule."""

    R = 0
    A = 1
    B = 2
    S = 3


@dataclasses.dataclass(frozen=True)
class FixedBit:
    """An entry of a reason: a bit that is fixed, at a place of the rule."""

    place: Place
    bit: int

    @classmethod
    def of(cls, entry):
        """The entry of a list, 64 times place plus bit."""
        return cls(Place(entry // 64), entry % 64)


@dataclasses.dataclass(frozen=True)
class Tight:
    """Of tighten: the words of the widest tight table."""

    words: List[Word]


@dataclasses.dataclass(frozen=True)
class Conflict:
    """Of tighten: there is no tight table, and so there are no settings. Of explain: the rule has no fit, and why."""

    reason: Optional[List[FixedBit]] = None


@dataclasses.dataclass(frozen=True)
class Found:
    """Of solve: the first settings in word order, a value for each word, and the guesses made."""

    settings: List[int]
    count: int


@dataclasses.dataclass(frozen=True)
class NoSettings:
    """Of solve: there are no settings; the guesses made."""

    count: int


@dataclasses.dataclass(frozen=True)
class GaveUp:
    """Of solve and cause: a search needed one more guess than the limit allows, and nothing is said about settings; the guesses made in all searches."""

    count: int


@dataclasses.dataclass(frozen=True)
class Forced:
    """Of explain: all fits of the rule agree on the bit; its value, and why."""

    value: int
    reason: List[FixedBit]


@dataclasses.dataclass(frozen=True)
class Free:
    """Of explain: the bit is 0 in some fit of the rule and 1 in another one."""


@dataclasses.dataclass(frozen=True)
class Exists:
    """Of cause: there are settings; the guesses made."""

    count: int


@dataclasses.dataclass(frozen=True)
class Cause:
    """Of cause: the numbers of conflicting rules, ascending, and the guesses made in all searches.

    They alone have no settings, and have some without any one of them.
    """

    rules: List[int]
    count: int
