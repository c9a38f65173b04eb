#!/usr/bin/env python3
"""The adviser program compared with what z3 and cvc5 answered to boards with wide words: settings or none, the first settings, the cause.

tests/peers.py PROGRAM runs the program on the boards of tests/peers/boards.txt and compares with tests/peers/answers.txt, and the guess counts with those of
the plain search in tests/peers/counts.txt; no network and no peer is needed.
tests/peers.py --live asks z3 and cvc5 again and compares their answers with the stored ones. A board that fails is kept in target/peers.
"""
import os
import shutil
import subprocess
import sys

sys.path.insert(0, os.path.join(os.path.dirname(os.path.abspath(__file__)), "peers"))
from ask import PEERS, asked, stored
from board import answers, parse

KEPT = "target/peers"
SECONDS = 120


def lines_of(board, answer, numbers, counts):
    """The lines of the adviser program for an answer and its counts."""
    if answer == "sat":
        words = [f"{i} {width} {value:0{width}b}" for i, ((width, _, _), value) in enumerate(zip(board.words, numbers))]
        return "\n".join([f"sat {counts[0]}"] + words) + "\n"
    return f"unsat {counts[0]}\n" + " ".join(str(x) for x in ["cause", counts[1]] + numbers) + "\n"


def printed(program, board):
    """What the program prints for a board, with what it says on standard error, which must be nothing."""
    try:
        done = subprocess.run([program], input=board.file(), capture_output=True, timeout=SECONDS, check=False)
    except subprocess.TimeoutExpired:
        return f"(no end within {SECONDS} s)"
    return (done.stdout + done.stderr).decode("ascii", "replace") + (f"(exit status {done.returncode})" if done.returncode else "")


def keep(board):
    """Puts a failed board aside as text and as a block file."""
    os.makedirs(KEPT, exist_ok=True)
    with open(f"{KEPT}/{board.name}.txt", "w", encoding="ascii") as file:
        file.write(board.text())
    with open(f"{KEPT}/{board.name}.blocks", "wb") as file:
        file.write(board.file())


def stop(what):
    """Ends with one failure."""
    print(f"tests/peers.py: {what}\n0 passed, 1 failed")
    sys.exit(1)


def main():
    if len(sys.argv) != 2:
        stop("give the adviser program, or --live")
    live = sys.argv[1] == "--live"
    program = sys.argv[1] if "/" in sys.argv[1] else "./" + sys.argv[1]
    if live and not all(shutil.which(name) for name in PEERS):
        stop("z3 or cvc5 is missing; install the packages z3 and cvc5")
    if not live and not os.access(program, os.X_OK):
        stop(f"{program} is no program; prove and link it first")
    shutil.rmtree(KEPT, ignore_errors=True)
    boards, told = parse(stored("boards.txt")), answers(stored("answers.txt"))
    counts = {name: [int(x) for x in items] for name, *items in map(str.split, stored("counts.txt").splitlines()) if name != "#"}
    if not {board.name for board in boards} == set(told) == set(counts):
        stop("tests/peers: boards.txt, answers.txt and counts.txt name different boards; make the last two anew with ask.py and count.py")
    passed = failed = 0
    for board in boards:
        wanted, got = told[board.name], asked(board) if live else printed(program, board)
        if not live:
            wanted = lines_of(board, *wanted, counts[board.name])
        if got == wanted:
            passed += 1
        else:
            failed += 1
            keep(board)
            print(f"board {board.name}, kept in {KEPT}: {'the peers answer' if live else program + ' prints'} {got!r}, and stored is {wanted!r}")
    print(f"{passed} passed, {failed} failed")
    return 1 if failed or not passed else 0


if __name__ == "__main__":
    sys.exit(main())
