"""Rules: a kind, the words that it speaks of, and an amount."""
import dataclasses
import enum

from .numbers import FIELDS


class Kind(enum.IntEnum):
    """What a rule says. All numbers are unsigned."""

    COPY = 1
    NOT = 2
    AND = 3
    OR = 4
    XOR = 5
    ADD = 6
    ITE = 7
    SLICE = 8
    JOIN = 9
    SHL = 10
    SHR = 11
    ULE = 12
    ULT = 13
    NE = 14


@dataclasses.dataclass(frozen=True)
class Rule:
    """A rule between words, which it names by their numbers in the problem.

    The class methods name the fields that a kind uses and leave the others 0. A rule can hold what is none, as kind 15; the calls refuse it. Numbers that do
    not fit into a byte cannot be lent, and are a ValueError at once.
    """

    kind: int
    """The number of the kind, see Kind."""
    r: int = 0
    """The word that is the result."""
    a: int = 0
    """The word that is the first operand."""
    b: int = 0
    """The word that is the second operand."""
    s: int = 0
    """The word that is the condition."""
    k: int = 0
    """The amount, a plain number."""

    def __post_init__(self):
        for field in dataclasses.fields(self):
            number = getattr(self, field.name)
            if not isinstance(number, int) or not 0 <= number <= 255:
                raise ValueError(f"{field.name} of a rule is {number!r}; give a number from 0 to 255")

    @classmethod
    def copy(cls, r, a):
        """r = a. Equal widths."""
        return cls(Kind.COPY, r=r, a=a)

    @classmethod
    def not_(cls, r, a):
        """r = a with each bit inverted. Equal widths."""
        return cls(Kind.NOT, r=r, a=a)

    @classmethod
    def and_(cls, r, a, b):
        """r = a and b, bit by bit. Equal widths."""
        return cls(Kind.AND, r=r, a=a, b=b)

    @classmethod
    def or_(cls, r, a, b):
        """r = a or b, bit by bit. Equal widths."""
        return cls(Kind.OR, r=r, a=a, b=b)

    @classmethod
    def xor(cls, r, a, b):
        """r = a xor b, bit by bit. Equal widths."""
        return cls(Kind.XOR, r=r, a=a, b=b)

    @classmethod
    def add(cls, r, a, b):
        """r = a + b modulo 2^w. Equal widths."""
        return cls(Kind.ADD, r=r, a=a, b=b)

    @classmethod
    def ite(cls, r, a, b, s):
        """r = a if s is 1, else b. Equal widths of r, a and b; s has width 1."""
        return cls(Kind.ITE, r=r, a=a, b=b, s=s)

    @classmethod
    def slice(cls, r, a, k):
        """r = bits k to k + w(r) - 1 of a. k + w(r) is at most w(a)."""
        return cls(Kind.SLICE, r=r, a=a, k=k)

    @classmethod
    def join(cls, r, a, b):
        """r = a above b. w(r) = w(a) + w(b)."""
        return cls(Kind.JOIN, r=r, a=a, b=b)

    @classmethod
    def shl(cls, r, a, k):
        """r = a shifted up by k, zeros enter. Equal widths; a k of the width or more gives 0."""
        return cls(Kind.SHL, r=r, a=a, k=k)

    @classmethod
    def shr(cls, r, a, k):
        """r = a shifted down by k, zeros enter. Equal widths; a k of the width or more gives 0."""
        return cls(Kind.SHR, r=r, a=a, k=k)

    @classmethod
    def ule(cls, a, b):
        """a at most b. Equal widths."""
        return cls(Kind.ULE, a=a, b=b)

    @classmethod
    def ult(cls, a, b):
        """a below b. Equal widths."""
        return cls(Kind.ULT, a=a, b=b)

    @classmethod
    def ne(cls, a, b):
        """a differs from b. Equal widths."""
        return cls(Kind.NE, a=a, b=b)


def numbers(rules):
    """Rules as they are lent."""
    return bytearray(x for rule in rules for x in (rule.kind, rule.r, rule.a, rule.b, rule.s, rule.k))


def rules(numbers):
    """Rules as they come back."""
    return [Rule(*numbers[i : i + FIELDS]) for i in range(0, len(numbers), FIELDS)]
