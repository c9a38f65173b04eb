"""Pictures of bits: bounds, what kinds compute, what tightening leaves, and answers about a bit."""
import re

from pages.library import PLACES, asked, one_rule, shown, tightened
from pages.page import Fault, board

BITS = r"[01?]+(?: [01?]+)*"
FREE = 39


def rows(block):
    """The lines that show bits of a place: its name, the bits without blanks, and where they stand."""
    for at, line in block.lines():
        match = re.match(rf"(\w+)\s+(?:\(1\) )?({BITS})(?=\s|$)", line)
        if match and match.group(1) != "bit":
            yield match.group(1), match.group(2).replace(" ", ""), at + match.start(2), at + match.end(2)


def spaced(bits, like):
    return " ".join(bits) if " " in like else bits


def compare_bits(block, start, end, bits):
    block.page.compare(start, end, spaced(bits, block.page.text[start:end]))


def compare_number(block, at, bits):
    """A number after a row of bits, which end at a place of the page, is their value."""
    match = re.compile(r" {2,}(?:= )?(\d+)\b").match(block.page.text, at)
    if match and "?" not in bits:
        block.page.compare(*match.span(1), str(int(bits, 2)))


def bounds(block):
    """Lo and hi with their numbers, and the bits that they make."""
    given = {}
    for at, line in block.lines():
        match = re.match(r"(lo|hi)\s+([01](?: {3}[01])*)", line)
        if match:
            given[match.group(1)] = match.group(2).replace(" ", "")
            compare_number(block, at + match.end(2), given[match.group(1)])
    for at, line in block.lines():
        match = re.match(r"\s+([01?](?:\s+[01?])*)\s{2,}", line)
        if match:
            bits = shown((len(given["lo"]), int(given["lo"], 2), int(given["hi"], 2)))
            block.page.compare(at + match.start(1), at + match.end(1), "   ".join(bits))


def computed(block):
    """What kinds compute of a and b: each result is what tightening leaves of an open word."""
    given = {name: bits for name, bits, *_ in rows(block) if name in "ab"}
    for name, bits, _, end in rows(block):
        if name in given:
            compare_number(block, end, bits)
    found = 0
    for at, line in block.lines():
        for match in re.finditer(rf"\b([A-Z]+) (?:r|by (\d+))\s+({BITS})(?=\s|$)", line):
            compare_result(block, match.group(1), given, int(match.group(2) or 0), at + match.start(3), at + match.end(3))
            found += 1
    for name, _, start, end in rows(block):
        if name == "r" and block.argument:
            amount = re.search(r"\bk = (\d+)", block.text)
            compare_result(block, block.argument, given, int(amount.group(1)) if amount else 0, start, end)
            found += 1
    if not found:
        raise Fault(f"line {block.line}: no result is shown")


def compare_result(block, kind, given, k, start, end):
    width = len(block.page.text[start:end].replace(" ", ""))
    words, rules, at = one_rule(kind, {**given, "r": "?" * width}, k)
    left = tightened(words, rules)
    result = shown(left[at["r"]]) if left else "no fit"
    compare_bits(block, start, end, result)
    if left:
        compare_number(block, end, result)


def before_after(block):
    """Tables of three columns side by side: a place, its bits before and after; or rules with what is left of an open r."""
    lines = list(block.lines())
    if "before" in lines[0][1]:
        kinds = lines[0][1].split()[::3]
        cells = [[(at + x.start(), at + x.end(), x.group()) for x in re.finditer(r"\S+", line)] for at, line in lines[1:]]
        for i, kind in enumerate(kinds):
            column = [row[3 * i : 3 * i + 3] for row in cells if len(row) > 3 * i]
            words, rules, places = one_rule(kind, {name[2]: before[2] for name, before, _ in column})
            left = tightened(words, rules)
            for name, _, after in column:
                compare_bits(block, *after[:2], shown(left[places[name[2]]]) if left else "no fit")
        return
    for at, line in lines[1:]:
        match = re.match(r"(\w+ r = .*?)\s{2,}([01?]+)", line)
        width = len(match.group(2))
        words, rules, _ = board.parse(f"limit 0\nword r {width}\nword a {width}\n{match.group(1)}")
        compare_bits(block, at + match.start(2), at + match.end(2), shown(tightened(words, rules)[0]))


def explained(block):
    """Answers about one rule, over the bits that are shown."""
    words, rules, _ = one_rule(block.argument, {name: bits for name, bits, *_ in rows(block) if name in PLACES})
    found = 0
    for at, line in block.lines():
        match = re.match(r"rule (\d+), place (\d+), bit (\d+): (.*)", line)
        if match:
            returned, *reason = asked("explain", words, rules, *match.group(1, 2, 3))
            answer = {37: "CONFLICT", 38: f"FORCED {returned >> 8 & 1}", FREE: "FREE"}.get(returned % 256, f"{returned % 256}")
            listed = f", reason {' '.join(map(str, reason))}" if returned % 256 != FREE else ""
            block.page.compare(at + match.start(4), at + match.end(4), answer + listed)
            found += 1
    if not found:
        raise Fault(f"line {block.line}: no question is shown")
