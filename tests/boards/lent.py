"""The library's calls over lent memory in which every number is looked at.

Before a call all that is lent to be written is filled with a pattern, and so is some memory before and behind each buffer. After it the packed number and every
number of every buffer are compared with what must stand there: a refusal alters nothing; any other answer clears work memory over its whole length, puts what
it stores at the beginning of a buffer, and leaves the rest, and all that is lent to be read, as it was.
"""
import pathlib
import sys
from array import array

sys.path.insert(0, str(pathlib.Path(__file__).resolve().parents[2] / "python"))
from sievecrest import Unavailable, raw  # noqa: E402, F401

# how a call's answer is packed into one number, as include/sievecrest.h says
NUMBERS = dict(zip("found none gaveup ok tight conflict forced free exists cause".split(), range(32, 42)))
# entries of a kind: a pattern for each, no two neighbours the same
KINDS = {"Q": 0xA5A5A5A5A5A5A5A5, "B": 0xA5, "H": 0xA5A5}
AROUND = 8
# what each call is lent, in the order of its arguments: a buffer with its kind, `!` where it is written; or a plain number
ARGUMENTS = {
    "check": "Q words, B rules, limit",
    "tighten": "Q words!, B rules, Q work!",
    "solve": "Q words, B rules, limit, Q model!, Q work!",
    "explain": "Q words, B rules, rule, place, bit, H list!",
    "cause": "Q words, B rules, limit, H list!, Q work!",
    "read": "B file, Q words!, B rules!",
    "write": "Q words, B rules, limit, B file!",
    "advise": "B file, B out!, Q work!",
}


class Lent:
    """A buffer within memory of its own: what stands there before the call, and what must stand there after it."""

    def __init__(self, kind, begins, length):
        pattern = [(KINDS[kind] ^ i % 2) for i in range(length + 2 * AROUND)]
        pattern[AROUND : AROUND + len(begins)] = begins
        self.memory, self.wanted, self.length = array(kind, pattern), pattern, length

    def buffer(self):
        """The part that is lent. Of nothing an empty buffer is lent."""
        return memoryview(self.memory)[AROUND : AROUND + self.length]

    def put(self, numbers):
        """Numbers that the call must put at the beginning."""
        self.wanted[AROUND : AROUND + len(numbers)] = numbers

    def is_wanted(self):
        return list(self.memory) == self.wanted


def lend(call, board):
    """The arguments of a call, and the lent buffers by name."""
    own = dict(board.own)
    if call == "advise":
        own = {"out": 2304 + 5, "work": 5120 + 3}
    given = {"words": board.words, "rules": board.rules, "file": list(board.file)}
    arguments, lent = [], {}
    for argument in ARGUMENTS[call].split(", "):
        kind, _, name = argument.rpartition(" ")
        name = name.rstrip("!")
        if not kind:
            arguments.append(own[name])
            continue
        # a problem or a file that is given has its own length, all else is lent with the length that the board names
        begins, length = (given[name], len(given[name])) if name not in own else ([], own[name])
        lent[name] = Lent(kind, begins, length)
        arguments.append(lent[name].buffer())
    return arguments, lent


def packed(reply):
    number = reply.answer if reply.refused else NUMBERS[reply.answer]
    return number + (reply.low << 8) + (reply.high << 40)


def want(lent, reply):
    """What must stand in lent memory after the call."""
    for name, numbers in reply.stored.items():
        lent[name].put(numbers)
    if "work" in lent and not reply.refused:
        lent["work"].put([0] * lent["work"].length)


def wrong(lent):
    """The names of buffers that are not as they must be."""
    return [name for name, x in lent.items() if not x.is_wanted()]


def unseen(lent):
    """The names of buffers of which a number could be altered with nothing reported: the first or last lent one, and one on either side."""
    for name, x in lent.items():
        for at in {AROUND - 1, AROUND, AROUND + x.length - 1, AROUND + x.length}:
            x.memory[at] ^= 1
            if wrong(lent) != [name]:
                yield name
            x.memory[at] ^= 1


def called(call, board):
    """The number that a call returns for a board, and the lent buffers by name."""
    arguments, lent = lend(call, board)
    return getattr(raw, call)(*arguments), lent


def differences(call, came, lent, reply):
    """Whatever is not as the reply has it, in words."""
    want(lent, reply)
    if came != packed(reply):
        yield f"{call} returns {came & 255}, {came >> 8 & 0xFFFFFFFF}, {came >> 40}, and the paper says {reply}"
    for name in wrong(lent):
        yield f"{call} leaves other numbers in {name} than the paper says: {reply}"


def looked_at(lent):
    """How many lent numbers there are."""
    return sum(x.length for x in lent.values())
