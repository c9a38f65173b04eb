#!/usr/bin/env python3
"""Makes the boards with wide words that the peers are asked about, from a fixed seed, and prints them as text.

tests/peers/make.py PLAIN > tests/peers/boards.txt: PLAIN is the plain search as a program (bench/search/advise.c). Boards that need many guesses are
left out, so that the published search, and each trial for a cause, answers well within the limit.
"""
import os
import random
import subprocess
import sys

sys.path.insert(0, os.path.dirname(os.path.abspath(__file__)))
from board import KINDS, Board

SEED = 20
MOST_GUESSES = 20000
# how many boards of each sort: found, found without a guess, none, none without a guess; and of boards with long shifts
WANTED = {"sat": 150, "sat 0": 30, "unsat": 90, "unsat 0": 70}
WANTED_LONG = {"sat": 10, "sat 0": 4, "unsat": 8, "unsat 0": 6}


def computed(kind, fields, words):
    """The value and the width of a computing rule's result, from the words' values."""
    w, a = words[fields["a"]]
    wb, b = words[fields["b"]] if "b" in fields else (0, 0)
    k = fields.get("k", 0)
    full = (1 << w) - 1
    if kind == "ITE":
        return w, a if words[fields["s"]][1] else b
    if kind == "JOIN":
        return w + wb, a << wb | b
    return w, {
        "COPY": a,
        "NOT": a ^ full,
        "AND": a & b,
        "OR": a | b,
        "XOR": a ^ b,
        "ADD": (a + b) & full,
        "SHL": a << k & full,
        "SHR": a >> k,
    }[kind]


class Maker:
    """Words with values, and rules that the values obey."""

    def __init__(self, dice):
        self.dice, self.words, self.rules = dice, [], []

    def new(self, width, value=None):
        self.words.append((width, self.dice.getrandbits(width) if value is None else value))
        return len(self.words) - 1

    def compute(self, kind, **fields):
        """A new word that a rule computes."""
        if kind == "SLICE":
            width = fields.pop("width")
            value = self.words[fields["a"]][1] >> fields["k"] & ((1 << width) - 1)
        else:
            width, value = computed(kind, fields, self.words)
        r = self.new(width, value)
        self.rules.append((kind, dict(fields, r=r)))
        return r

    def relate(self, a, b, honest=True):
        """A comparison of two words that their values obey; any comparison if not honest."""
        x, y = self.words[a][1], self.words[b][1]
        if x > y and honest:
            a, b, x, y = b, a, y, x
        kind = self.dice.choice(["ULE", "ULT", "ULT", "NE"] if x != y or not honest else ["ULE"])
        self.rules.append((kind, {"a": a, "b": b}))

    def of_width(self, width):
        return [i for i, (w, _) in enumerate(self.words) if w == width]


def sums(m):
    """Sums in a chain, the words in order, the total known."""
    width = m.dice.choice([16, 24, 32, 48, 64])
    parts = [m.new(width) for _ in range(m.dice.randint(2, 5))]
    total = parts[0]
    for x in parts[1:]:
        total = m.compute("ADD", a=total, b=x)
    for x, y in zip(parts, parts[1:]):
        m.relate(x, y)
    if m.dice.random() < 0.5:
        m.compute("XOR", a=parts[0], b=parts[-1])
    return [total]


def fields(m):
    """A register cut into fields that are compared and added, and put together again in another order."""
    reg = m.new(64 if m.dice.random() < 0.5 else 32)
    width = m.dice.choice([8, 16])
    cut = [m.compute("SLICE", a=reg, k=width * i, width=width) for i in range(m.words[reg][0] // width)][:4]
    for x, y in zip(cut, cut[1:]):
        m.relate(x, y)
    total = m.compute("ADD", a=cut[0], b=cut[1])
    back = m.compute("JOIN", a=cut[1], b=cut[0])
    m.relate(m.new(width), cut[-1])
    return [total] if m.dice.random() < 0.5 else [back]


def muxes(m):
    """Words chosen by bits, their sum known."""
    width = m.dice.choice([12, 32, 64])
    words = [m.new(width) for _ in range(m.dice.randint(2, 4))]
    chosen = []
    for x, y in zip(words, words[1:] + words[:1]):
        chosen.append(m.compute("ITE", a=x, b=y, s=m.new(1)))
    total = chosen[0]
    for x in chosen[1:]:
        total = m.compute(m.dice.choice(["ADD", "XOR"]), a=total, b=x)
    m.relate(words[0], chosen[-1])
    return [total]


def mixed(m):
    """Any operations over two or three words."""
    width = m.dice.choice([8, 16, 32, 64])
    for _ in range(m.dice.randint(2, 3)):
        m.new(width)
    for _ in range(m.dice.randint(3, 9)):
        kind = m.dice.choice(["COPY", "NOT", "AND", "OR", "XOR", "ADD", "ADD", "ITE", "SHL", "SHR"])
        chosen = {f: m.dice.choice(m.of_width(width)) for f in KINDS[kind][1] if f in "ab"}
        if kind == "ITE":
            chosen["s"] = m.new(1)
        if "k" in KINDS[kind][1]:
            chosen["k"] = m.dice.randrange(width)
        m.compute(kind, **chosen)
    for _ in range(m.dice.randint(0, 3)):
        m.relate(m.dice.choice(m.of_width(width)), m.dice.choice(m.of_width(width)))
    return [len(m.words) - 1]


def shifts(m):
    """Shifts by less than the width, by the width and by more, put together and compared, at widths of which some have no operand as large as the amount."""
    width = m.dice.choice([1, 2, 4, 5, 8, 33, 63, 64])
    words = [m.new(width) for _ in range(m.dice.randint(2, 3))]
    moved = []
    for x in words:
        for kind in ("SHL", "SHR"):
            moved.append(m.compute(kind, a=x, k=m.dice.choice([width // 2, width - 1, width, width, width + 1, 63, 64, 255])))
    total = moved[0]
    for x in moved[1:]:
        total = m.compute(m.dice.choice(["OR", "XOR", "ADD"]), a=total, b=x)
    total = m.compute("ADD", a=total, b=words[0])
    for _ in range(m.dice.randint(1, 3)):
        m.relate(m.dice.choice(words), m.dice.choice(moved + words))
    return [total]


def made(dice, name, family):
    """A board of a family: known words fixed, the others opened in full or in a few bits, and now and then a rule that the values break."""
    m = Maker(dice)
    known = family(m)
    results = {fields["r"] for _, fields in m.rules if "r" in fields}
    spoiled = dice.random() < 0.6
    if spoiled:
        for _ in range(dice.randint(1, 2)):
            a = dice.randrange(len(m.words))
            m.relate(a, dice.choice(m.of_width(m.words[a][0])), honest=False)
        dice.shuffle(m.rules)
    few = spoiled or dice.random() < 0.3
    words = []
    for i, (width, value) in enumerate(m.words):
        if i in known:
            mask = 0
        elif few and i not in results:
            mask = sum({1 << dice.randrange(width) for _ in range(dice.randint(1, 7))})
        else:
            mask = (1 << width) - 1
        words.append((width, value & ~mask, value | mask))
    return Board(name, words, m.rules)


def print_boards(dice, families, wanted, number):
    """Boards of some families, numbered on from a number, until there are as many of each sort as wanted; the next number."""
    left = {(family.__name__, sort): -(-count // len(families)) for sort, count in wanted.items() for family in families}
    for _ in range(200000):
        if not any(left.values()):
            return number
        family = dice.choice(families)
        board = made(dice, f"{family.__name__}-{number:03}", family)
        lines = subprocess.run([sys.argv[1]], input=board.file(MOST_GUESSES), capture_output=True, check=True).stdout.decode().split("\n")
        answer, count = lines[0].split()
        sort = answer if int(count) else answer + " 0"
        # a rule that is a cause by itself says little of the trials: one such board in ten is enough
        alone = answer == "unsat" and len(lines[1].split()) == 3 and dice.random() < 0.9
        if left.get((family.__name__, sort), 0) and "unknown" not in lines[1] and not alone:
            left[family.__name__, sort] -= 1
            number += 1
            print(board.text(), end="")
    sys.exit(f"make.py: these were not met often enough: {({key: n for key, n in left.items() if n})}")


def main():
    if len(sys.argv) != 2 or not os.access(sys.argv[1], os.X_OK):
        sys.exit("make.py: give the plain search as a program: bench/search/advise.c with plain.c, compiled")
    print("# Boards with wide words, made by make.py and answered in answers.txt; board.py says how to read them.")
    number = print_boards(random.Random(SEED), [sums, fields, muxes, mixed], WANTED, 0)
    print_boards(random.Random(SEED), [shifts], WANTED_LONG, number)


if __name__ == "__main__":
    main()
