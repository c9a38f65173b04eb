"""The eight calls over lent buffers of any length, passed as they are; each returns the packed number.

A buffer is anything with Python's buffer protocol: array('Q') for words, model and work, bytearray for rules, files and lines, array('H') for lists. A call
writes into it. What a call only reads may also be bytes or another buffer that cannot be written; of such a one a copy is lent. What the library cannot
test is tested here: the kind of numbers and their alignment, that no buffer overlaps one that is written, and that plain numbers fit, since ctypes would
cut them. Other threads go on while a call runs: none may touch what is lent to it.
"""
import ctypes

from . import library

BYTE, ENTRY, NUMBER = ctypes.c_uint8, ctypes.c_uint16, ctypes.c_uint64
NAMES = {BYTE: "bytes, as bytearray", ENTRY: "numbers of 16 bits, as array('H')", NUMBER: "numbers of 64 bits, as array('Q')"}
FORMATS = {BYTE: "B", ENTRY: "H", NUMBER: "QL"}
# stands for a buffer of length 0: a pointer must be aligned and not null all the same
NOTHING = NUMBER()


def lent(kind, buffer, written):
    """A buffer as ctypes lends it."""
    view = memoryview(buffer)
    if view.format.lstrip("<@") not in list(FORMATS[kind]) or view.ndim != 1 or not view.contiguous:
        raise TypeError(f"a buffer has {view.format!r} in {view.ndim} dimensions, and must have {NAMES[kind]}, one after another")
    if len(view) == 0:
        return (kind * 0).from_buffer(NOTHING)
    if view.readonly and not written:
        return (kind * len(view)).from_buffer_copy(view)
    numbers = (kind * len(view)).from_buffer(view)
    if ctypes.addressof(numbers) % ctypes.sizeof(kind):
        raise ValueError(f"a buffer is not aligned, and must have {NAMES[kind]}, at an address of their own size")
    return numbers


def plain(kind, number):
    """A plain number, which must fit."""
    bits = 8 * ctypes.sizeof(kind)
    if not 0 <= number < 1 << bits:
        raise OverflowError(f"{number} is no number of {bits} bits; give one from 0 to 2^{bits} - 1")
    return kind(number)


def overlap(one, other):
    """Whether two buffers share a byte."""
    (a, m), (b, n) = ((ctypes.addressof(x), ctypes.sizeof(x)) for x in (one, other))
    return a < b + n and b < a + m and m > 0 and n > 0


def call(name, *parts):
    """Calls the library: a part is a plain number, or a buffer with its kind and whether it is written."""
    buffers = [(lent(kind, buffer, written), written) for kind, buffer, written in (x for x in parts if isinstance(x, tuple))]
    for i, (one, written) in enumerate(buffers):
        if any((written or also) and overlap(one, other) for other, also in buffers[:i]):
            raise ValueError(f"{name}: a buffer that is written overlaps another one; lend a buffer of its own")
    rest = iter(buffers)
    arguments = []
    for part in parts:
        if isinstance(part, tuple):
            buffer, _ = next(rest)
            arguments += [ctypes.c_void_p(ctypes.addressof(buffer)), ctypes.c_size_t(len(buffer))]
        else:
            arguments.append(part)
    function = getattr(library.loaded(), "sievecrest_" + name)
    function.restype = NUMBER
    return function(*arguments)


def check(words, rules, limit):
    return call("check", (NUMBER, words, False), (BYTE, rules, False), plain(ctypes.c_uint32, limit))


def tighten(words, rules, work):
    return call("tighten", (NUMBER, words, True), (BYTE, rules, False), (NUMBER, work, True))


def solve(words, rules, limit, model, work):
    return call("solve", (NUMBER, words, False), (BYTE, rules, False), plain(ctypes.c_uint32, limit), (NUMBER, model, True), (NUMBER, work, True))


def explain(words, rules, rule, place, bit, entries):
    asked = (plain(NUMBER, x) for x in (rule, place, bit))
    return call("explain", (NUMBER, words, False), (BYTE, rules, False), *asked, (ENTRY, entries, True))


def cause(words, rules, limit, entries, work):
    return call("cause", (NUMBER, words, False), (BYTE, rules, False), plain(ctypes.c_uint32, limit), (ENTRY, entries, True), (NUMBER, work, True))


def read(file, words, rules):
    return call("read", (BYTE, file, False), (NUMBER, words, True), (BYTE, rules, True))


def write(words, rules, limit, file):
    return call("write", (NUMBER, words, False), (BYTE, rules, False), plain(ctypes.c_uint32, limit), (BYTE, file, True))


def advise(file, out, work):
    return call("advise", (BYTE, file, False), (BYTE, out, True), (NUMBER, work, True))
