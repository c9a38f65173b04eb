"""The library, asked through tests/c/ask.c."""
import os
import subprocess

from pages.page import SECONDS, Fault, board

LIBRARY = "crates/sievecrest/out/libsievecrest.a"
ASK = "target/manual/ask"
PLACES = "rabs"
TIGHT, CONFLICT = 36, 37


def build():
    """Whether the program that asks could be built."""
    os.makedirs(os.path.dirname(ASK), exist_ok=True)
    return subprocess.run(["cc", "-std=c99", "-O1", "-Iinclude", "-o", ASK, "tests/c/ask.c", LIBRARY], check=False).returncode == 0


def asked(call, words, rules, *more):
    """The numbers that tests/c/ask.c prints for a call: what is returned, then what is stored."""
    numbers = [len(words), *(x for word in words for x in word), len(rules), *(x for rule in rules for x in rule), *more]
    done = subprocess.run([ASK], input=f"{call} {' '.join(map(str, numbers))}\n", capture_output=True, text=True, timeout=SECONDS, check=False)
    if done.returncode != 0 or not done.stdout:
        raise Fault(f"{ASK} fails on {call}: {done.stderr}")
    return [int(x) for x in done.stdout.split()]


def shown(word):
    return board.shown(*word)


def tightened(words, rules):
    """The words after tightening; none after CONFLICT."""
    returned, *numbers = asked("tighten", words, rules)
    if returned not in (TIGHT, CONFLICT):
        raise Fault(f"tighten refuses {words} {rules} by {returned % 256} at {returned // 256}")
    return [tuple(numbers[i : i + 3]) for i in range(0, len(numbers), 3)] if returned == TIGHT else None


def one_rule(kind, given, k=0):
    """A problem of one rule: words for the places that are given, by their bits, and where each place stands."""
    places = [x for x in board.FORMS[kind][1].split() if x in PLACES]
    words = [(len(given[x]), *board.bits([given[x]], len(given[x]))) for x in places]
    at = {x: i for i, x in enumerate(places)}
    return words, [[board.FORMS[kind][0], *(at.get(x, 0) for x in PLACES), k]], at
