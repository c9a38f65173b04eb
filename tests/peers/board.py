"""Boards as readable text, and as block files for the adviser program.

A board is three lines, each of which may go on in lines that begin with a blank: `board NAME`, `words WIDTH:LO:HI ..` with the bounds in hexadecimal,
and `rules KIND FIELD .., ..` with the fields that the kind uses in the order r a b s k.
"""
import textwrap

# kind: number and fields in use
KINDS = {
    "COPY": (1, "ra"),
    "NOT": (2, "ra"),
    "AND": (3, "rab"),
    "OR": (4, "rab"),
    "XOR": (5, "rab"),
    "ADD": (6, "rab"),
    "ITE": (7, "rabs"),
    "SLICE": (8, "rak"),
    "JOIN": (9, "rab"),
    "SHL": (10, "rak"),
    "SHR": (11, "rak"),
    "ULE": (12, "ab"),
    "ULT": (13, "ab"),
    "NE": (14, "ab"),
}
LIMIT = 1000000


class Board:
    """Words are triples (width, lo, hi); a rule is its kind and a dictionary of its fields."""

    def __init__(self, name, words, rules):
        self.name, self.words, self.rules = name, words, rules

    def text(self):
        words = " ".join(f"{w}:{lo:x}:{hi:x}" for w, lo, hi in self.words)
        rules = ", ".join(" ".join([kind] + [str(fields[f]) for f in KINDS[kind][1]]) for kind, fields in self.rules)
        lines = [f"board {self.name}"]
        for line in ("words " + words, "rules " + rules):
            lines += textwrap.wrap(line, 150, subsequent_indent="  ", break_long_words=False)
        return "\n".join(lines) + "\n"

    def file(self, limit=LIMIT):
        """The block file."""
        words = [bytes([w, 0, 0, 0, 0, 0, 0, 0]) + lo.to_bytes(8, "little") + hi.to_bytes(8, "little") for w, lo, hi in self.words]
        rules = [bytes([KINDS[kind][0]] + [fields.get(f, 0) for f in "rabsk"] + [0, 0]) for kind, fields in self.rules]
        blocks = b""
        for kind, records, full in ((1, words, 21), (2, rules, 63)):
            for i in range(0, len(records), full):
                blocks += block(kind, len(blocks) // 512, len(records[i : i + full]), b"".join(records[i : i + full]))
        return blocks + block(3, len(blocks) // 512, 0, limit.to_bytes(4, "little"))


def block(kind, number, count, records):
    """One block with its check."""
    numbers = lambda data: [int.from_bytes(data[i : i + 2], "little") for i in range(0, len(data), 2)]
    body = bytes([kind, 1]) + number.to_bytes(2, "little") + count.to_bytes(2, "little")
    records = records.ljust(504, b"\0")
    check = (65535 - sum(numbers(body)) - sum(numbers(records))) % 65536
    return body + check.to_bytes(2, "little") + records


def parse(text):
    """The boards of a text."""
    boards = []
    for part in text.split("\nboard "):
        lines = part.replace("\n  ", " ").splitlines()
        lines = [line for line in lines if line.strip() and not line.startswith("#")]
        if not lines:
            continue
        name = lines[0].removeprefix("board ").strip()
        words = [tuple(int(x, base) for x, base in zip(item.split(":"), (10, 16, 16))) for item in lines[1].split()[1:]]
        rules = []
        for item in lines[2].removeprefix("rules").split(","):
            kind, *numbers = item.split()
            rules.append((kind, dict(zip(KINDS[kind][1], map(int, numbers)))))
        boards.append(Board(name, words, rules))
    return boards


def answers(text):
    """The stored answers by name: ('sat', values) or ('unsat', rule numbers)."""
    found = {}
    joined = text.replace("\n  ", " ")
    for line in joined.splitlines():
        if line.strip() and not line.startswith("#"):
            name, answer, *numbers = line.split()
            found[name] = (answer, [int(x, 16 if answer == "sat" else 10) for x in numbers])
    return found
