"""A board as a line of boards.txt, and what a call answers to it as a line of answers.txt."""
from typing import Dict, List, NamedTuple

import blockfiles

# the numbers of a board that stand before its lists, by call; all but the limit and the question are lengths of lent memory
OWN = {
    "check": ["limit"],
    "tighten": ["work"],
    "solve": ["limit", "model", "work"],
    "explain": ["rule", "place", "bit", "list"],
    "cause": ["limit", "list", "work"],
    "read": ["words", "rules", "length"],
    "write": ["file", "limit"],
}


class Board(NamedTuple):
    """A line of boards.txt. For `read` there is a file, and words and rules are none."""

    name: str
    call: str
    own: Dict[str, int]
    words: List[int]
    rules: List[int]
    file: bytes


class Reply(NamedTuple):
    """What a call answers: a word, or the number of a refusal; the numbers beside it; and what it puts at the beginning of lent memory."""

    answer: object
    low: int = 0
    high: int = 0
    stored: Dict[str, list] = {}

    @property
    def refused(self):
        return isinstance(self.answer, int)


def board(line):
    """A line taken apart: its counts must fit its numbers, with nothing behind them."""
    name, call, *rest = line.split()
    numbers = [int(x) for x in rest]
    own, lists = dict(zip(OWN[call], numbers)), numbers[len(OWN[call]) :]
    if call == "read":
        return Board(name, call, own, [], [], blockfiles.laid(own["length"], lists))
    size = lists[0]
    words, rules = lists[1 : 1 + size], lists[2 + size :]
    if len(words) != size or len(rules) != lists[1 + size]:
        raise ValueError("a board's counts do not fit its numbers: " + line)
    return Board(name, call, own, words, rules, b"")


def line(board, reply):
    """The reply as a line of answers.txt."""
    if reply.refused:
        told = ["refused", reply.answer, reply.low]
    elif board.call == "read":
        words, rules = reply.stored["words"], reply.stored["rules"]
        told = ["ok", len(words) // 3, len(rules) // 6, reply.low, *words, *rules]
    elif board.call == "write":
        told = ["ok", reply.low] + [x for pair in enumerate(reply.stored["file"]) if pair[1] for x in pair]
    elif board.call in ("check", "tighten"):
        told = [reply.answer, *reply.stored.get("words", [])]
    elif reply.answer == "free":
        told = ["free"]
    else:
        told = [reply.answer, reply.low]
        for entries in reply.stored.values():
            told += [len(entries), *entries]
    return " ".join(str(x) for x in [board.name, *told])


def reply(board, line):
    """A line of answers.txt, to a board of `tighten` or `explain`, as the reply that it stands for."""
    name, answer, *rest = line.split()
    numbers = [int(x) for x in rest]
    if name != board.name:
        raise ValueError(f"an answer to {name} stands where one to {board.name} is due")
    if answer == "refused":
        return Reply(*numbers)
    if board.call == "tighten":
        return Reply(answer, stored={"words": numbers})
    if answer == "free":
        return Reply(answer, stored={"list": []})
    value, count, *entries = numbers
    if count != len(entries):
        raise ValueError("an answer's count does not fit its entries: " + line)
    return Reply(answer, value, count, {"list": entries})
