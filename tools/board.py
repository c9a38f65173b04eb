#!/usr/bin/env python3
"""Boards as readable text: a block file written from a text, and a block file printed as text.

    tools/board.py write FILE.board > FILE.blocks
    tools/board.py print FILE.blocks

A text has one line for the limit, one for each word and one for each rule; `#` begins a comment. Words and rules are numbered from 0 in the order
of their lines.

    limit 1000              how many guesses may be made
    word mode 4             a word of width 4, every bit open
    word mode 4 0?1?        its bits, the highest first; ? is an open bit
    word mode 4 = 10        a value: decimal, 0x.. or 0b..
    word mode 4 2/11        the bounds lo and hi
    ADD total = core io     a rule: its kind and its words, as FORMS below says; k is a number
"""
import re
import sys

# kind: its number and how a rule is written; r a b s stand for words, k for a number
FORMS = {
    "COPY": (1, "r = a"),
    "NOT": (2, "r = a"),
    "AND": (3, "r = a b"),
    "OR": (4, "r = a b"),
    "XOR": (5, "r = a b"),
    "ADD": (6, "r = a b"),
    "ITE": (7, "r = a if s else b"),
    "SLICE": (8, "r = a k"),
    "JOIN": (9, "r = a b"),
    "SHL": (10, "r = a k"),
    "SHR": (11, "r = a k"),
    "ULE": (12, "a b"),
    "ULT": (13, "a b"),
    "NE": (14, "a b"),
}
NAMED = {number: kind for kind, (number, _) in FORMS.items()}
KEPT = {"word", "limit", "if", "else", *FORMS}
BLOCK, HEAD = 512, 8
WORDS, RULES, END = 1, 2, 3
# block kind: bytes of a record, records of a full block, records of a file
RECORDS = {WORDS: (24, 21, 32), RULES: (8, 63, 252)}
MOST_GUESSES = 1000000


class Fault(Exception):
    """What is wrong, and what to do."""


def number(text, least, most, what):
    """A number of a text within bounds."""
    if not re.fullmatch(r"\d+|0x[0-9a-fA-F]+|0b[01]+", text):
        raise Fault(f"{text!r} is no number; write {what} as decimal, 0x.. or 0b..")
    value = int(text, {"0x": 16, "0b": 2}.get(text[:2], 10))
    if not least <= value <= most:
        raise Fault(f"{what} is {text}, and must be {least} to {most}")
    return value


def bits(items, width):
    """The bounds lo and hi that a word's line gives after the width."""
    top = (1 << width) - 1
    text = "".join(items)
    if not text:
        return 0, top
    if text.startswith("="):
        value = number(text[1:], 0, top, f"a value of {width} bits")
        return value, value
    if "/" in text:
        lo, hi = (number(x, 0, top, f"a bound of {width} bits") for x in text.split("/", 1))
        if lo & ~hi:
            raise Fault(f"lo {lo} has a 1 where hi {hi} has 0; set that bit in hi, or clear it in lo")
        return lo, hi
    if not re.fullmatch("[01?]+", text):
        raise Fault(f"{text!r} is no bits; write bits as 0, 1 and ?, a value as = 10, or bounds as 2/11")
    if len(text) != width:
        raise Fault(f"{text} has {len(text)} bits, and the width is {width}; write {width} bits, or = before a value")
    return int(text.replace("?", "0"), 2), int(text.replace("?", "1"), 2)


def fit(kind, form, fields, words):
    """Refuses widths, or k, that do not fit, in words that tell what would."""
    width = {place: words[fields[place]][0] for place in "rabs" if place in form.split()}
    k = fields["k"]
    given = ", ".join(f"{place} has width {w}" for place, w in width.items())
    equal = {width[place] for place in "rab" if place in width}
    if kind == "SLICE":
        if k + width["r"] > width["a"]:
            raise Fault(f"{given}, and k is {k}: bits {k} to {k + width['r'] - 1} are asked for; take a smaller k or a narrower r")
    elif kind == "JOIN":
        if width["r"] != width["a"] + width["b"]:
            raise Fault(f"{given}; r needs width {width['a'] + width['b']}, the sum of the other two")
    elif len(equal) != 1:
        raise Fault(f"{given}; they must be equal{' but for s' if kind == 'ITE' else ''}, so widen one with JOIN or narrow one with SLICE")
    elif width.get("s", 1) != 1:
        raise Fault(f"{given}; s must have width 1, so take one bit out with SLICE")


def rule(kind, items, words, names):
    """The six bytes of a rule from the items after its kind."""
    code, form = FORMS[kind]
    fields = dict.fromkeys("rabsk", 0)
    wanted = form.split()
    if len(items) != len(wanted) or any(x != y and {x, y} & {"=", "if", "else"} for x, y in zip(wanted, items)):
        raise Fault(f"{kind} is written as: {kind} {form}")
    for place, item in zip(wanted, items):
        if place == "k":
            fields["k"] = number(item, 0, 255, "k")
        elif place in fields:
            if item not in names:
                raise Fault(f"there is no word {item!r} above this line; add a line: word {item} WIDTH")
            fields[place] = names[item]
    fit(kind, form, fields, words)
    return bytes([code] + [fields[place] for place in "rabsk"])


def word(items, names):
    """A word's width and bounds from the items after `word`."""
    if len(items) < 2:
        raise Fault("a word is written as: word NAME WIDTH, then its bits, = and a value, or lo/hi")
    name, width = items[0], number(items[1], 1, 64, "the width")
    if not re.fullmatch(r"[A-Za-z_][\w.-]*", name) or name in KEPT:
        raise Fault(f"{name!r} is no name; begin with a letter, go on with letters, digits, _ . - and take none of {' '.join(sorted(KEPT))}")
    if name in names:
        raise Fault(f"there is a word {name} already; give this one another name")
    return (width, *bits(items[2:], width))


def parse(text):
    """The words, rules and limit of a text."""
    words, rules, names, limit = [], [], {}, None
    for at, line in enumerate(text.splitlines(), 1):
        first, *items = line.split("#")[0].split() or [""]
        try:
            if first == "limit":
                if limit is not None or len(items) != 1:
                    raise Fault("the limit is one line with one number: limit 1000")
                limit = number(items[0], 0, MOST_GUESSES, "the limit")
            elif first == "word":
                words.append(word(items, names))
                names[items[0]] = len(names)
            elif first in FORMS:
                rules.append(rule(first, items, words, names))
            elif first:
                raise Fault(f"{first!r} is no kind; a line begins with limit, word or one of {' '.join(FORMS)}")
            for records, what, kind in ((words, "words", WORDS), (rules, "rules", RULES)):
                if len(records) > RECORDS[kind][2]:
                    raise Fault(f"a board has at most {RECORDS[kind][2]} {what}; split it")
        except Fault as fault:
            raise Fault(f"line {at}: {fault}") from None
    if limit is None:
        raise Fault("no line gives the limit; add one, as: limit 1000")
    return words, rules, limit


def total(data):
    """The sixteen-bit numbers of some bytes, added with wrapping."""
    return sum(int.from_bytes(data[i : i + 2], "little") for i in range(0, len(data), 2)) % 65536


def block(kind, at, count, records):
    """One block with its check."""
    data = bytes([kind, 1]) + at.to_bytes(2, "little") + count.to_bytes(2, "little") + bytes(2) + records.ljust(BLOCK - HEAD, b"\0")
    return data[:6] + (65535 - total(data)).to_bytes(2, "little") + data[HEAD:]


def blocks(words, rules, limit):
    """The block file of a board."""
    records = {
        WORDS: [bytes([width, *bytes(7)]) + lo.to_bytes(8, "little") + hi.to_bytes(8, "little") for width, lo, hi in words],
        RULES: [fields + bytes(2) for fields in rules],
    }
    data = b""
    for kind, (_, full, _) in RECORDS.items():
        for i in range(0, len(records[kind]), full):
            some = records[kind][i : i + full]
            data += block(kind, len(data) // BLOCK, len(some), b"".join(some))
    return data + block(END, len(data) // BLOCK, 0, limit.to_bytes(4, "little"))


def read(data):
    """The words, rules and limit of a block file; what they say is not looked at, so that a board that the adviser refuses can be printed."""
    if len(data) % BLOCK or not BLOCK <= len(data) <= 7 * BLOCK:
        raise Fault(f"the file has {len(data)} bytes, and a block file has 1 to 7 times {BLOCK}; make it anew from its text")
    words, rules, limit = [], [], None
    for at in range(len(data) // BLOCK):
        one = data[at * BLOCK : (at + 1) * BLOCK]
        if total(one) != 65535:
            raise Fault(f"block {at} is damaged: its sum is {total(one)}, and must be 65535; take another copy of the file")
        count, size = int.from_bytes(one[4:6], "little"), RECORDS.get(one[0], (4, 0, 0))[0]
        records = [one[HEAD + i * size : HEAD + (i + 1) * size] for i in range(min(count, (BLOCK - HEAD) // size))]
        if one[0] == WORDS:
            words += [(x[0], int.from_bytes(x[8:16], "little"), int.from_bytes(x[16:], "little")) for x in records]
        elif one[0] == RULES:
            rules += [x[:6] for x in records]
        else:
            limit = int.from_bytes(one[HEAD : HEAD + 4], "little")
    # a proper file is the one way to write its board
    if limit is None or len(words) > RECORDS[WORDS][2] or len(rules) > RECORDS[RULES][2] or blocks(words, rules, limit) != data:
        raise Fault("the blocks are not laid out as a block file's; the adviser refuses it with number 3 and the block")
    return words, rules, limit


def shown(width, lo, hi):
    """A word's bits as text: with ? where some are open, as bounds where they are no proper ones."""
    if lo & ~hi or hi >> width or not width:
        return f"{lo}/{hi}"
    return "".join("?" if (lo ^ hi) >> j & 1 else str(lo >> j & 1) for j in reversed(range(width)))


def text(words, rules, limit):
    """A board as text. A block file has no names, so word 3 is called w3."""
    lines = [f"limit {limit}"] + [f"word w{i} {width} {shown(width, lo, hi)}" for i, (width, lo, hi) in enumerate(words)]
    for i, fields in enumerate(rules):
        if fields[0] not in NAMED:
            raise Fault(f"rule {i} has kind {fields[0]}, and there are 1 to 14; the adviser refuses the board with number 6")
        kind = NAMED[fields[0]]
        form = FORMS[kind][1].split()
        value = dict(zip("rabsk", fields[1:]))
        if any(x and place not in form for place, x in value.items()):
            raise Fault(f"rule {i} is {kind} and has a field that is not used and not 0; the adviser refuses the board with number 7")
        items = [str(value[x]) if x == "k" else f"w{value[x]}" if x in value else x for x in form]
        lines.append(f"{' '.join([kind] + items)}  # rule {i}")
    return "\n".join(lines) + "\n"


def main():
    if len(sys.argv) != 3 or sys.argv[1] not in ("write", "print"):
        sys.exit("use: tools/board.py write FILE.board > FILE.blocks, or tools/board.py print FILE.blocks")
    try:
        with open(sys.argv[2], "rb") as file:
            data = file.read()
        if sys.argv[1] == "print":
            sys.stdout.write(text(*read(data)))
        else:
            if b"\0" in data:
                raise Fault(f"this is no text; to see a block file, use: tools/board.py print {sys.argv[2]}")
            sys.stdout.buffer.write(blocks(*parse(data.decode("utf-8", "replace"))))
    except OSError as error:
        sys.exit(f"tools/board.py: {sys.argv[2]}: {error.strerror}; give a file that can be read")
    except Fault as fault:
        sys.exit(f"tools/board.py: {sys.argv[2]}: {fault}")


if __name__ == "__main__":
    main()
