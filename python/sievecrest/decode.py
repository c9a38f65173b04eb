"""The answers taken out of the numbers that the library returns.

A number that a call cannot return means that the library was built from other sources than this package. To guess what was meant could give a wrong board,
so it is a Mismatch that says what to do.
"""
from .answers import Cause, Conflict, Exists, FixedBit, Forced, Found, Free, GaveUp, NoSettings, Tight
from .numbers import COUNT_SHIFT, FIELDS, MORE_SHIFT, RULES_SHIFT, STRIDE, Answer, Fault
from .refusal import Refusal
from .rule import rules
from .word import words


class Mismatch(RuntimeError):
    """The library and this package were not built from the same sources."""


def unpack(packed):
    """An answer's number, its place or count, and its number of entries."""
    return packed % (1 << COUNT_SHIFT), packed % (1 << MORE_SHIFT) >> COUNT_SHIFT, packed >> MORE_SHIFT


# the refusals of words and rules, which every call has that takes them
PROBLEM = (Fault.SIZE, Fault.WIDTH, Fault.TABLE, Fault.KIND, Fault.FIELD, Fault.FIT)


def mismatch(call, packed):
    number, count, more = unpack(packed)
    return Mismatch(f"the library answers {call} by {number}, {count}, {more}, which this package does not know: build both from the same sources")


def other(call, packed, faults):
    """The refusal that a call answered: one of those that it has."""
    number, place, more = unpack(packed)
    return Refusal(number, place) if number in faults and more == 0 else mismatch(call, packed)


def first(call, packed, entries, n):
    """The first n entries, of which there must be as many."""
    if n > len(entries):
        raise mismatch(call, packed)
    return entries[:n]


def check(packed):
    if packed != Answer.OK:
        raise other("check", packed, PROBLEM + (Fault.LIMIT,))


def tighten(packed, numbers):
    if packed == Answer.TIGHT:
        return Tight(words(numbers))
    if packed == Answer.CONFLICT:
        return Conflict()
    raise other("tighten", packed, PROBLEM)


def solve(packed, model):
    number, count, more = unpack(packed)
    if more == 0 and number == Answer.FOUND:
        return Found(list(model), count)
    if more == 0 and number == Answer.NONE:
        return NoSettings(count)
    if more == 0 and number == Answer.GAVE_UP:
        return GaveUp(count)
    raise other("solve", packed, PROBLEM + (Fault.LIMIT,))


def reason(packed, entries, n):
    """The first n entries of a reason."""
    part = first("explain", packed, entries, n)
    if any(entry > 255 for entry in part):
        raise mismatch("explain", packed)
    return [FixedBit.of(entry) for entry in part]


def explain(packed, entries):
    number, value, n = unpack(packed)
    if number == Answer.CONFLICT and value == 0:
        return Conflict(reason(packed, entries, n))
    if number == Answer.FORCED and value <= 1:
        return Forced(value, reason(packed, entries, n))
    if packed == Answer.FREE:
        return Free()
    raise other("explain", packed, PROBLEM + (Fault.ASK,))


def cause(packed, entries):
    number, count, n = unpack(packed)
    if number == Answer.CAUSE:
        return Cause(list(first("cause", packed, entries, n)), count)
    if number == Answer.EXISTS and n == 0:
        return Exists(count)
    if number == Answer.GAVE_UP and n == 0:
        return GaveUp(count)
    raise other("cause", packed, PROBLEM + (Fault.LIMIT, Fault.EMPTY))


def read(packed, numbers, fields):
    """Words, rules and limit."""
    number, limit, more = unpack(packed)
    if number != Answer.OK:
        raise other("read", packed, PROBLEM + (Fault.CHECK, Fault.LAYOUT, Fault.LIMIT))
    in_more = RULES_SHIFT - MORE_SHIFT
    lent_words = first("read", packed, numbers, STRIDE * (more % (1 << in_more)))
    lent_rules = first("read", packed, fields, FIELDS * (more >> in_more))
    return words(lent_words), rules(lent_rules), limit


def put(call, packed, file):
    """The bytes that were put; None where the answer is none."""
    number, length, more = unpack(packed)
    return bytes(first(call, packed, file, length)) if number == Answer.OK and more == 0 else None


def write(packed, file):
    written = put("write", packed, file)
    if written is None:
        raise other("write", packed, PROBLEM + (Fault.LIMIT,))
    return written


def advise(packed, out):
    """advise refuses only lent memory that is too short, and this package's is not; a refused file is a line."""
    lines = put("advise", packed, out)
    if lines is None:
        raise mismatch("advise", packed)
    return lines
