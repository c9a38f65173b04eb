"""The numbers of the library's interface: refusals, answers, how an answer is packed, and the lengths of what is lent."""
import enum


class Fault(enum.IntEnum):
    """The refusals, by number. All are below 32."""

    SIZE = 1
    CHECK = 2
    LAYOUT = 3
    WIDTH = 4
    TABLE = 5
    KIND = 6
    FIELD = 7
    FIT = 8
    LIMIT = 9
    ASK = 10
    EMPTY = 11


class Answer(enum.IntEnum):
    """The answers that are no refusals, by number."""

    FOUND = 32
    NONE = 33
    GAVE_UP = 34
    OK = 35
    TIGHT = 36
    CONFLICT = 37
    FORCED = 38
    FREE = 39
    EXISTS = 40
    CAUSE = 41


# An answer is one number: its own number below COUNT_SHIFT, from there a place, count, value, limit or length, from MORE_SHIFT entries or words,
# from RULES_SHIFT the rules of a problem that was read.
COUNT_SHIFT = 8
MORE_SHIFT = 40
RULES_SHIFT = 48

# A problem: numbers a word (width, lo, hi), bytes a rule (kind, r, a, b, s, k), the most words and rules, the greatest limit.
STRIDE = 3
FIELDS = 6
WORDS = 32
RULES = 252
GUESSES = 1000000

# Lengths of lent memory, in entries: work memory of three calls, a reason, the lines of advise, the longest block file.
TIGHTEN_WORK = 320
SOLVE_WORK = 4608
CAUSE_WORK = 5120
ADVISE_WORK = 5120
REASON_ENTRIES = 193
LINES_BYTES = 2304
FILE_BYTES = 3584
