#!/usr/bin/env python3
"""Every board through the linked library, with every lent number looked at, and compared with a reading of the paper that shares nothing with the crates.

tests/boards/run.py: needs the library, as the Python package finds it (python/README.md), whose layer over lent buffers makes the calls. Each answer is
computed anew; the library's is compared with it, and so is the line of answers.txt. That each comparison of lent memory can fail is tried too: with one number
of a buffer altered after the call, that buffer must be reported. The file of each board of `read` goes through `advise` as well.
"""
import collections
import pathlib
import sys

import form
import lent
import reading

HERE = pathlib.Path(__file__).resolve().parent
BOARDS = 591


def boards():
    """All boards in order."""
    lines = (HERE / "boards.txt").read_text(encoding="ascii").splitlines()
    return [form.board(line) for line in lines if line.strip() and not line.startswith("#")]


def faults(call, board, reply, looked):
    """Whatever is wrong about a call on a board, in words; `looked` counts the lent numbers by call."""
    came, buffers = lent.called(call, board)
    looked[call] += lent.looked_at(buffers)
    found = list(lent.differences(call, came, buffers, reply))
    return found or [f"{call}: {name} could be altered unseen" for name in lent.unseen(buffers)]


def compare(board, told, looked):
    """Whatever is wrong about one board: the library beside the reading, the kept answer beside the reading."""
    reply = reading.CALLS[board.call](board)
    found = faults(board.call, board, reply, looked)
    if board.call == "read":
        found += faults("advise", board, reading.advise(board), looked)
    line = form.line(board, reply)
    kept = [] if line == told else [f"answers.txt has {told!r}, and the paper says {line!r}"]
    if board.call in ("tighten", "explain") and form.reply(board, line) != reply:
        kept.append(f"{line!r} is read as {form.reply(board, line)}, and stands for {reply}")
    return found, kept


def main():
    passed = failed = 0
    all_boards, looked = boards(), collections.Counter()
    answers = (HERE / "answers.txt").read_text(encoding="ascii").splitlines()
    if len(all_boards) != BOARDS or len(answers) != BOARDS or len({board.name for board in all_boards}) != BOARDS:
        failed += 1
        print(f"boards.txt has {len(all_boards)} boards and answers.txt {len(answers)} lines, and there must be {BOARDS}, each with a name of its own")
    for board, told in zip(all_boards, answers):
        try:
            results = compare(board, told, looked)
        except lent.Unavailable as error:
            print(f"tests/boards/run.py: {error}\n0 passed, 1 failed")
            return 1
        for found in results:
            passed, failed = passed + (not found), failed + bool(found)
            for fault in found[:5]:
                print(f"board {board.name}: {fault}")
    calls = collections.Counter(board.call for board in all_boards)
    calls["advise"] = calls["read"]
    for call, count in calls.items():
        print(f"{call}: {count} calls, {looked[call]} lent numbers looked at")
    print(f"{len(all_boards)} boards, {sum(looked.values())} lent numbers in all")
    print(f"{passed} passed, {failed} failed")
    return 1 if failed or not passed else 0


if __name__ == "__main__":
    sys.exit(main())
