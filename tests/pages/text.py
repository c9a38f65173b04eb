"""What paragraphs and tables of a page say that a program prints or a call returns."""
import os
import re

from pages.library import asked
from pages.page import Fault, board


def altered_board(page, name, change):
    """Writes a board anew: altered as by sed, or made of lines with `;` between them; its file's name comes back."""
    if not change.startswith("s/"):
        page.write(name, "".join(f"{line.strip()}\n" for line in change.split(";")))
        return name
    _, old, new, _ = re.split(r"(?<!\\)/", change)
    before = page.read(name).decode()
    after, count = re.subn(old, new, before, flags=re.S)
    if count != 1 or before == after:
        raise Fault(f"{change} alters {name} {count} times")
    page.write("altered.board", after)
    return "altered.board"


def prose(page):
    """What altered boards print, as paragraphs say."""
    for match in re.finditer(r"^ *<!-- prints: ([\w/.]+), (.*): (.*) -->$", page.text, re.M):
        lines = page.run(f"./advise {altered_board(page, *match.group(1, 2))}", True).splitlines()
        wanted = match.group(3).split("; ")
        page.compare(*match.span(3), "; ".join(lines[: len(wanted)]))
        paragraph = re.sub(r"(\s*<!-- [^\n]* -->)*\s*$", "", page.text[: match.start()]).rsplit("\n\n", 1)[-1]
        if not any(f"`{line}`" in paragraph for line in wanted):
            page.faults.append(f"none of {wanted} is quoted in the paragraph before its comment")


def damaged(data, name, words, rules, limit):
    """The board's file made wrong, by the words that a row says it in."""
    block = board.BLOCK
    makers = {
        "its last byte left out": lambda: data[:-1],
        "a byte of block 1 altered": lambda: data[: block + 8] + bytes([data[block + 8] ^ 1]) + data[block + 9 :],
        "the end block left out": lambda: data[:-block],
        "words and rules blocks swapped": lambda: data[block : 2 * block] + data[:block] + data[2 * block :],
        "the second word with lo 1 and hi 2": lambda: board.blocks([words[0], (2, 1, 2), *words[2:]], rules, limit),
        "ULE with word 3, which is not there": lambda: board.blocks(words, [rules[0], bytes([12, 0, 3, 0, 0, 0])], limit),
        "limit 1,000,001": lambda: board.blocks(words, rules, 1000001),
    }
    if name not in makers:
        raise Fault(f"a row speaks of a file that is not known: {name}")
    return makers[name]()


def table_after(page, comment):
    """The rows of the table after a comment, without its head: the comment, the first two cells, and where each stands."""
    tables = list(re.finditer(rf"^<!-- {comment} -->\n\n\|[^\n]*\n\|[-|]*\|\n((?:\|[^\n]*\n)+)", page.text, re.M))
    if len(tables) != len(re.findall(rf"<!-- {comment} -->", page.text)):
        raise Fault(f"no table follows a comment <!-- {comment} -->")
    for match in tables:
        for row in re.finditer(r"^\| (.*?) \| (.*?) \|", match.group(match.lastindex), re.M):
            at = match.start(match.lastindex)
            yield match, row.groups(), [(at + row.start(i), at + row.end(i)) for i in (1, 2)]


def damaged_files(page):
    for match, (name, _), (_, span) in table_after(page, r"damaged: ([\w.]+)"):
        words, rules, limit = page.problem(match.group(1))
        data = damaged(board.blocks(words, rules, limit), name, words, rules, limit)
        with open(os.path.join(page.folder, "damaged.blocks"), "wb") as file:
            file.write(data)
        page.compare(*span, f"`{page.run('./advise damaged.blocks', True).strip()}`")


G = [(2, 0, 3), (2, 0, 3), (2, 3, 3)], [[6, 2, 0, 1, 0, 0], [12, 0, 1, 0, 0, 0]]
H = [(1, 0, 1)] * 2, [[13, 0, 0, 1, 0, 0], [13, 0, 0, 1, 0, 0], [14, 0, 0, 1, 0, 0], [13, 0, 1, 0, 0, 0]]
J = [(3, 5, 5), (3, 5, 7)], [[14, 0, 0, 1, 0, 0]]
RETURNED = {
    "`solve`, board G": ("solve", *G, 100),
    "the same with limit 1": ("solve", *G, 1),
    "`explain`, board J": ("explain", *J, 0, 2, 1),
    "`cause`, board H": ("cause", *H, 100),
    "`read`, board G": ("read", *G, 100),
    "`check`, two words, the second with lo 4 and hi 3": ("check", [(4, 0, 15), (4, 4, 3)], [], 0),
}


def returned_numbers(page):
    for _, (name, _), (_, span) in table_after(page, "returned"):
        if name not in RETURNED:
            raise Fault(f"a row speaks of a call that is not known: {name}")
        page.compare(*span, str(asked(*RETURNED[name])[0]))
