#!/usr/bin/env python3
"""The adviser program against SMT-LIB: each operator's defining equation, laws that hold for all values, and a published script with its known result.

tests/smtlib.py PROGRAM. The defining equations are those of the theory FixedSizeBitVectors, of the logic QF_BV (bvxor, bvule) and of the Core theory (ite,
distinct), over lists of bits, lowest first; every choice of operands at a small width is a board with the result open. A law is a board in which its two sides
differ: it must be unsat. The script is the swap without a temporary variable of SMT-LIB's example page, where `(check-sat)` answers unsat; its negated
conjunction is cut into two boards, and x - y = z is written x = z + y. It is run at width 4, where the search ends, and at its own width, 32: there the search
gives up at every limit tried, which says nothing against unsat, and with given values of x0 and y0 it is unsat at once. A board that fails is kept in
target/smtlib.
"""
import importlib.util
import itertools
import os
import subprocess
import sys

SPEC = importlib.util.spec_from_file_location("board", "tools/board.py")
BOARD = importlib.util.module_from_spec(SPEC)
SPEC.loader.exec_module(BOARD)


def bits(n, width):
    """nat2bv[m](n): the bit-vector whose bv2nat is n."""
    return [n >> i & 1 for i in range(width)]


def value(v):
    """bv2nat."""
    return sum(b << i for i, b in enumerate(v))


# operator: what it denotes, over bit-vectors s and t
DENOTES = {
    "NOT": lambda s, t: [1 - b for b in s],
    "AND": lambda s, t: [a & b for a, b in zip(s, t)],
    "OR": lambda s, t: [a | b for a, b in zip(s, t)],
    "XOR": lambda s, t: [int(a != b) for a, b in zip(s, t)],
    "ADD": lambda s, t: bits(value(s) + value(t), len(s)),
}
COMPARES = {
    "ULE": lambda s, t: value(s) <= value(t),
    "ULT": lambda s, t: value(s) < value(t),
    "NE": lambda s, t: s != t,
}

# laws of bit-vectors that hold for all x, y and z of a width: rules, and the two words that are then equal
LAWS = {
    "and commutes": (["AND p = x y", "AND q = y x"], "p q"),
    "or commutes": (["OR p = x y", "OR q = y x"], "p q"),
    "add commutes": (["ADD p = x y", "ADD q = y x"], "p q"),
    "add associates": (["ADD a = x y", "ADD p = a z", "ADD b = y z", "ADD q = x b"], "p q"),
    "not of and is or of nots": (["AND a = x y", "NOT p = a", "NOT b = x", "NOT c = y", "OR q = b c"], "p q"),
    "xor by and, or and not": (["XOR p = x y", "OR a = x y", "AND b = x y", "NOT c = b", "AND q = a c"], "p q"),
    "twice not": (["NOT a = x", "NOT p = a"], "p x"),
    "add is xor where no bit is common": (["NOT y = x", "ADD p = x y", "XOR q = x y"], "p q"),
    "shift by one is twice": (["SHL p = x 1", "ADD q = x x"], "p q"),
    "shift up by the width is zero": (["SHL p = x 3", "XOR q = x x"], "p q"),
    "shift down by the width is zero": (["SHR p = x 3", "XOR q = x x"], "p q"),
    "shift up by more is zero": (["SHL p = x 255", "XOR q = x x"], "p q"),
    "shift down by more is zero": (["SHR p = x 255", "XOR q = x x"], "p q"),
    "two shifts up are one, to the width": (["SHL a = x 2", "SHL p = a 1", "SHL q = x 3"], "p q"),
    "two shifts down are one, to the width": (["SHR a = x 1", "SHR p = a 2", "SHR q = x 3"], "p q"),
    "two shifts up are one, over the width": (["SHL a = x 2", "SHL p = a 2", "SHL q = x 4"], "p q"),
    "two shifts down are one, over the width": (["SHR a = x 64", "SHR p = a 191", "SHR q = x 255"], "p q"),
    "shift of a sum by the width": (["ADD a = x y", "SHL p = a 3", "SHL b = x 3", "SHL c = y 3", "ADD q = b c"], "p q"),
    "or with a word shifted out": (["SHR a = y 3", "OR p = x a"], "p x"),
    "extract of concat, above": (["JOIN w = x y", "SLICE p = w 3"], "p x"),
    "extract of concat, below": (["JOIN w = x y", "SLICE p = w 0"], "p y"),
    "ite of one value": (["ITE p = x if s else x"], "p x"),
}
WIDE = {"w": 6, "s": 1}
# what a shift is by, at width 4: every operand of that width, then numbers that no such operand has
AMOUNTS = [*range(16), 16, 63, 64, 255]


KEPT = "target/smtlib"
# the text of the board asked about last
ASKED = []


def keep(number):
    """Puts the last board aside; the command that shows the failure."""
    os.makedirs(KEPT, exist_ok=True)
    with open(f"{KEPT}/{number}.board", "w", encoding="utf-8") as file:
        file.writelines(ASKED)
    return f"./advise {KEPT}/{number}.board"


def advised(program, lines, limit=100000):
    """The lines that the program prints for a board's text, after those on standard error, of which there must be none."""
    ASKED[:] = ["\n".join([f"limit {limit}"] + lines) + "\n"]
    data = BOARD.blocks(*BOARD.parse(ASKED[0]))
    done = subprocess.run([program], input=data, capture_output=True, check=True, timeout=60)
    return (done.stderr + done.stdout).decode("ascii", "replace").splitlines()


def fixed(name, v):
    return f"word {name} {len(v)} = {value(v)}"


def equations(program):
    """Each operator at every choice of operands, the result open: no guess is needed, and the result is the one defined."""
    width = 3
    all_values = [bits(n, width) for n in range(1 << width)]
    for name, denotes in DENOTES.items():
        for s, t in itertools.product(all_values, all_values[:1] if name == "NOT" else all_values):
            rule = f"{name} r = s" + ("" if name == "NOT" else " t")
            wanted = denotes(s, t)
            yield f"{name} {s} {t}", advised(program, [f"word r {width}", fixed("s", s), fixed("t", t), rule]), ["sat 0", wanted]
    for name, compares in COMPARES.items():
        for s, t in itertools.product(all_values, repeat=2):
            lines = advised(program, [fixed("s", s), fixed("t", t), f"{name} s t"])
            yield f"{name} {s} {t}", lines[:1], ["sat 0" if compares(s, t) else "unsat 0"]
    for s, t in itertools.product(all_values, repeat=2):
        for c in (0, 1):
            yield f"ITE {c} {s} {t}", advised(program, [f"word r {width}", fixed("s", s), fixed("t", t), fixed("c", [c]), "ITE r = s if c else t"]), [
                "sat 0",
                s if c else t,
            ]
        yield f"concat {s} {t}", advised(program, [f"word r {2 * width}", fixed("s", s), fixed("t", t), "JOIN r = s t"]), ["sat 0", t + s]
    for s in [bits(n, 4) for n in range(16)]:
        for k in range(4):
            yield f"extract {k} {s}", advised(program, [f"word r {4 - k}", fixed("s", s), f"SLICE r = s {k}"]), ["sat 0", s[k:]]
        for k in AMOUNTS:
            yield f"bvshl {k} {s}", advised(program, ["word r 4", fixed("s", s), f"SHL r = s {k}"]), ["sat 0", bits(value(s) << k, 4)]
            yield f"bvlshr {k} {s}", advised(program, ["word r 4", fixed("s", s), f"SHR r = s {k}"]), ["sat 0", bits(value(s) >> k, 4)]


def laws(program):
    """The two sides of a law made to differ: there are no settings."""
    for name, (rules, sides) in LAWS.items():
        used = sorted({item for rule in rules for item in rule.split()[1:] if item.isalpha() and item not in ("if", "else")} | set(sides.split()))
        words = [f"word {item} {WIDE.get(item, 3)}" for item in used]
        lines = advised(program, words + rules + [f"NE {sides}"])
        yield "law: " + name, [line.partition(" ")[0] for line in lines[:1]], ["unsat"]


# the swap: x1 = x0 + y0, y1 = x1 - y0, x2 = x1 - y1; then x2 is y0 and y1 is x0
STEPS = ["ADD x1 = x0 y0", "ADD x1 = y1 y0", "ADD x1 = x2 y1"]
# with this last step other values come for some x0 and y0
WRONG = STEPS[:2] + ["ADD x2 = x1 y1"]
PUBLISHED = 32


def variables(width, x0="", y0=""):
    return [f"word x0 {width} {x0}", f"word y0 {width} {y0}"] + [f"word {name} {width}" for name in ("x1", "y1", "x2")]


def swap(program):
    """The script at width 4, and a swap that is wrong."""
    for sides in ("x2 y0", "y1 x0"):
        lines = advised(program, variables(4) + STEPS + [f"NE {sides}"])
        yield f"swap, {sides} differ", [line.partition(" ")[0] for line in lines[:1]], ["unsat"]
    wrong = advised(program, variables(4) + WRONG + ["NE x2 y0"])
    yield "wrong swap", [line.partition(" ")[0] for line in wrong[:1]], ["sat"]


def swap_as_published(program):
    """The script at its own width: with x0 and y0 open at several limits, then with values for them."""
    for limit in (0, 1, 31, 32, 33, 63, 64, 65, 100, 1000, 10000, 100000):
        for sides in ("x2 y0", "y1 x0"):
            lines = advised(program, variables(PUBLISHED) + STEPS + [f"NE {sides}"], limit)
            yield f"swap at width {PUBLISHED}, {sides} differ, limit {limit}", lines, [f"unknown {limit}"]
    top = 1 << PUBLISHED
    some = [0, 1, 2, top // 2 - 1, top // 2, top - 2, top - 1, 0x55555555, 0xDEADBEEF]
    for x0, y0 in itertools.product(some, repeat=2):
        given, name = variables(PUBLISHED, f"= {x0}", f"= {y0}"), f"swap of {x0} and {y0}"
        for sides in ("x2 y0", "y1 x0"):
            yield f"{name}, {sides} differ", advised(program, given + STEPS + [f"NE {sides}"], 0)[:1], ["unsat 0"]
        values = [x0, y0, (x0 + y0) % top, x0, y0]
        wanted = ["sat 0"] + [f"{i} {PUBLISHED} {v:0{PUBLISHED}b}" for i, v in enumerate(values)]
        yield name, advised(program, given + STEPS, 0), wanted
        verdict = "unsat 0" if 2 * x0 % top == 0 else "sat 0"
        yield f"wrong {name}", advised(program, given + WRONG + ["NE x2 y0"], 0)[:1], [verdict]


def same(told, wanted):
    """Whether the lines are those wanted; where only the bits of word 0 are wanted, whether the first line is, and word 0 has them."""
    if all(isinstance(line, str) for line in wanted):
        return told == wanted
    return len(told) > 1 and told[0] == wanted[0] and told[1].split()[-1] == "".join(str(b) for b in reversed(wanted[1]))


def main():
    if len(sys.argv) != 2:
        sys.exit("use: tests/smtlib.py PROGRAM, the adviser program")
    passed = failed = 0
    for name, told, wanted in itertools.chain(*(part(sys.argv[1]) for part in (equations, laws, swap, swap_as_published))):
        if same(told, wanted):
            passed += 1
        else:
            failed += 1
            print(f"{name}: {keep(failed)} prints {told}, and SMT-LIB says {wanted}")
    print(f"{passed} passed, {failed} failed")
    return 1 if failed or not passed else 0


if __name__ == "__main__":
    sys.exit(main())
