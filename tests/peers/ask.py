#!/usr/bin/env python3
"""Asks z3 and cvc5 about the boards of boards.txt: settings or none, the first settings in word order, and the cause where there are none.

tests/peers/ask.py > tests/peers/answers.txt; tests/peers/ask.py BOARD prints the script of one board. Each board becomes one SMT-LIB script in QF_BV with
a Boolean for each rule. z3 gives the first settings, bit by bit from the top of each word; cvc5 is then asked whether a word can be less with those before
it as they are. Both go through the cause's trials.
"""
import os
import subprocess
import sys
import textwrap

HERE = os.path.dirname(os.path.abspath(__file__))
sys.path.insert(0, HERE)
from board import parse

PEERS = {"z3": ["z3", "-in", "-smt2"], "cvc5": ["cvc5", "--incremental", "--lang=smt2", "--produce-models", "-"]}
OPERATORS = {"AND": "bvand", "OR": "bvor", "XOR": "bvxor", "ADD": "bvadd", "JOIN": "concat", "ULE": "bvule", "ULT": "bvult", "NE": "distinct"}
SHIFTS = {"SHL": "bvshl", "SHR": "bvlshr"}


def constant(value, width):
    return f"(_ bv{value} {width})"


def term(board, kind, fields):
    """A rule as an SMT-LIB term."""
    r, a, b, s = (f"x{fields.get(f, 0)}" for f in "rabs")
    k, width = fields.get("k", 0), board.words[fields["a"]][0]
    if kind in ("ULE", "ULT", "NE"):
        return f"({OPERATORS[kind]} {a} {b})"
    if kind == "COPY":
        right = a
    elif kind == "NOT":
        right = f"(bvnot {a})"
    elif kind == "ITE":
        right = f"(ite (= {s} #b1) {a} {b})"
    elif kind == "SLICE":
        right = f"((_ extract {k + board.words[fields['r']][0] - 1} {k}) {a})"
    elif kind in SHIFTS:
        # of an amount that no constant of the width has, the greatest constant: it is at or above the width as well
        right = f"({SHIFTS[kind]} {a} {constant(min(k, (1 << width) - 1), width)})"
    else:
        right = f"({OPERATORS[kind]} {a} {b})"
    return f"(= {r} {right})"


def script(board):
    """Declarations, fixed bits, and each rule under its own Boolean."""
    lines = ["(set-logic QF_BV)"]
    for i, (width, lo, hi) in enumerate(board.words):
        fixed = ~(lo ^ hi) & ((1 << width) - 1)
        lines.append(f"(declare-const x{i} (_ BitVec {width}))")
        if fixed:
            lines.append(f"(assert (= (bvand x{i} {constant(fixed, width)}) {constant(lo & fixed, width)}))")
    for j, (kind, fields) in enumerate(board.rules):
        lines.append(f"(declare-const p{j} Bool)")
        lines.append(f"(assert (=> p{j} {term(board, kind, fields)}))")
    return "\n".join(lines)


class Peer:
    """A solver that answers line by line."""

    def __init__(self, name, board):
        self.name, self.board = name, board
        self.process = subprocess.Popen(PEERS[name], stdin=subprocess.PIPE, stdout=subprocess.PIPE, text=True)
        self.say(script(board))

    def say(self, text):
        self.process.stdin.write(text + "\n")

    def line(self, text):
        self.say(text)
        self.process.stdin.flush()
        return self.process.stdout.readline().strip()

    def sat(self, rules):
        """Whether the rules with these numbers hold together, with all that was asserted."""
        named = " ".join(f"p{j}" for j in rules)
        answer = self.line(f"(check-sat-assuming ({named}))" if named else "(check-sat)")
        if answer not in ("sat", "unsat"):
            raise ValueError(f"{self.name} answers {answer!r} to board {self.board.name}; ask.py with the board's name prints the script")
        return answer == "sat"

    def value(self, i):
        """The value of a word in the settings last found."""
        number = self.line(f"(get-value (x{i}))").rstrip(")").split()[-1]
        return int(number[2:], 16 if number.startswith("#x") else 2)

    def less(self, i, value):
        """Whether settings exist with a lesser value of a word."""
        self.say(f"(push 1)\n(assert (bvult x{i} {constant(value, self.board.words[i][0])}))")
        found = self.sat(range(len(self.board.rules)))
        self.say("(pop 1)")
        return found

    def fix(self, i, value):
        self.say(f"(assert (= x{i} {constant(value, self.board.words[i][0])}))")

    def end(self):
        self.process.stdin.close()
        self.process.wait()
        self.process.stdout.close()


def first_settings(peer):
    """The first settings in word order, each word made least in turn, from its highest bit."""
    rules = range(len(peer.board.rules))
    values = []
    for i, (width, lo, hi) in enumerate(peer.board.words):
        if not peer.sat(rules):
            raise ValueError(f"{peer.name} loses the settings of board {peer.board.name}")
        value = peer.value(i)
        for j in reversed(range(width)):
            if not value >> j & 1 or lo >> j & 1:
                continue
            # all bits above as they are, this one 0
            peer.say(f"(push 1)\n(assert (= ((_ extract {width - 1} {j}) x{i}) {constant((value >> j) - 1, width - j)}))")
            if peer.sat(rules):
                value = peer.value(i)
            peer.say("(pop 1)")
        peer.fix(i, value)
        values.append(value)
    return values


def cause(peer):
    """From the last rule to the first: a rule goes if the rest still has no settings."""
    kept = list(range(len(peer.board.rules)))
    for dropped in reversed(range(len(peer.board.rules))):
        rest = [j for j in kept if j != dropped]
        if not peer.sat(rest):
            kept = rest
    return kept


def asked(board):
    """The answer that both peers give, or an error that says where they differ."""
    z3, cvc5 = Peer("z3", board), Peer("cvc5", board)
    found = [peer.sat(range(len(board.rules))) for peer in (z3, cvc5)]
    if found[0] != found[1]:
        raise ValueError(f"z3 and cvc5 differ on board {board.name}")
    if found[0]:
        numbers = first_settings(z3)
        for i, value in enumerate(numbers):
            if cvc5.less(i, value):
                raise ValueError(f"cvc5 finds a lesser word {i} than z3 on board {board.name}")
            cvc5.fix(i, value)
        if not cvc5.sat(range(len(board.rules))):
            raise ValueError(f"cvc5 refuses z3's settings of board {board.name}")
    else:
        numbers = cause(z3)
        if cause(cvc5) != numbers:
            raise ValueError(f"z3 and cvc5 name different causes of board {board.name}")
    z3.end()
    cvc5.end()
    return "sat" if found[0] else "unsat", numbers


def text(name, answer, numbers):
    items = [f"{x:x}" if answer == "sat" else str(x) for x in numbers]
    return "\n".join(textwrap.wrap(" ".join([name, answer] + items), 150, subsequent_indent="  ", break_long_words=False, break_on_hyphens=False))


def stored(name):
    """A file beside this one."""
    with open(os.path.join(HERE, name), encoding="ascii") as file:
        return file.read()


def main():
    if len(sys.argv) > 1:
        print("\n".join(script(board) for board in parse(stored("boards.txt")) if board.name in sys.argv[1:]))
        return
    print("# What z3 and cvc5 answer to the boards of boards.txt: the first settings in hexadecimal, or the rule numbers of the cause.")
    for board in parse(stored("boards.txt")):
        print(text(board.name, *asked(board)), flush=True)


if __name__ == "__main__":
    main()
