"""What a page shows about a board: its tightened table, its search, its numbers as they are lent, and its file's bytes."""
import re

from pages.bits import BITS
from pages.library import shown, tightened
from pages.page import Fault, board


def compare_items(block, at, line, first, wanted):
    """The items of a line from a column on, whatever blanks stand between them, up to an item that is no number and no bits."""
    items = [x for x in re.finditer(r"\S+", line) if x.start() >= first]
    items = items[: next((i for i, x in enumerate(items) if not re.fullmatch(r"[\d?]+", x.group())), len(items))]
    if len(items) != len(wanted):
        raise Fault(f"line {block.line}: {len(items)} items are shown, and there are {len(wanted)}: {line}")
    for item, got in zip(items, wanted):
        block.page.compare(at + item.start(), at + item.end(), str(got))


def table(block):
    """The tightened table of a board, a word a column."""
    words, rules, _ = block.page.problem(block.argument)
    (_, _), (at, line) = block.lines()
    compare_items(block, at, line, 0, [shown(x) for x in tightened(words, rules)])


def lent(block):
    """The numbers of a board as they are lent."""
    words, rules, limit = block.page.problem(block.argument)
    wanted = {"words": [x for word in words for x in word], "rules": [x for rule in rules for x in rule], "limit": [limit]}
    for at, line in block.lines():
        compare_items(block, at, line, len(line.split()[0]), wanted.pop(line.split()[0]))
    if wanted:
        raise Fault(f"line {block.line}: nothing is said of {', '.join(wanted)}")


def steps(words, rules, guesses=0, depth=0):
    """The search of a board, step by step: the lines that it is shown by, without their remarks; the last item says whether there are settings."""
    indent = "   " * depth
    tight = tightened(words, rules)
    if tight is None:
        return [f"{indent}{' '.join(map(shown, words))} CONFLICT"], False, guesses
    lines = [f"{indent}{' '.join(map(shown, tight))} tightened"]
    number = next((i for i, (_, lo, hi) in enumerate(tight) if lo != hi), None)
    if number is None:
        return lines, True, guesses
    width, lo, hi = tight[number]
    bit = (lo ^ hi).bit_length() - 1
    inner = "   " * (depth + 1)
    lines.append(f"{inner}guess {guesses + 1}: word {number}, bit {bit} = 0")
    low = tight[:number] + [(width, lo, hi & ~(1 << bit))] + tight[number + 1 :]
    more, found, guesses = steps(low, rules, guesses + 1, depth + 1)
    lines += more
    if not found:
        lines.append(f"{inner}so bit {bit} = 1, no guess")
        high = tight[:number] + [(width, lo | 1 << bit, hi)] + tight[number + 1 :]
        more, found, guesses = steps(high, rules, guesses, depth + 1)
        lines += more
    return lines, found, guesses


def search(block):
    """Each line of a search, up to its remark."""
    words, rules, _ = block.page.problem(block.argument)
    wanted = steps(words, rules)[0]
    lines = list(block.lines())
    if len(lines) != len(wanted):
        raise Fault(f"line {block.line}: {len(lines)} lines are shown, and there are {len(wanted)}: {wanted}")
    for (at, line), want in zip(lines, wanted):
        state = re.fullmatch(rf"(\s*{BITS})\s+(\w+)\b.*", line)
        if state:
            block.page.compare(at, at + state.end(1), want.rsplit(" ", 1)[0])
            block.page.compare(at + state.start(2), at + state.end(2), want.rsplit(" ", 1)[1])
        else:
            block.page.compare(at, at + len(line), want)


def dump(block):
    """Bytes of a file as xxd shows them, sixteen-bit numbers of pairs of bytes, and the sum of the first block."""
    data = block.page.read(block.argument)
    for at, line in block.lines():
        match = re.fullmatch(r"([0-9a-f]{8}): ([0-9a-f ]+)", line)
        pair = re.match(r"([0-9a-f]{2}) ([0-9a-f]{2})\s+(\d+)", line)
        total = re.match(r"\s+(\d+)\s+the sum", line)
        if match:
            some = data[int(match.group(1), 16) :][:16].hex()
            block.page.compare(at + match.start(2), at + match.end(2), " ".join(some[i : i + 4] for i in range(0, 32, 4)))
        elif pair:
            block.page.compare(at + pair.start(3), at + pair.end(3), str(int(pair.group(1), 16) + 256 * int(pair.group(2), 16)))
        elif total:
            block.page.compare(at + total.start(1), at + total.end(1), str(board.total(data[: board.BLOCK])))
