"""Commands and programs that a page shows, and what they print."""
import re

from pages.page import Fault

PROGRAMS = {"c": ("board.c", "./board"), "rust": ("src/main.rs", "cargo run --quiet"), "python": ("board.py", "PYTHONPATH=python python3 board.py")}
PACKAGE = '[package]\nname = "board"\nversion = "0.1.0"\nedition = "2021"\n\n'


def files(page):
    """Writes the boards and programs of a page, each of which has one name of its own."""
    names = set()
    for block in page.blocks:
        if block.kind == "console" and not block.text.startswith("$ "):
            name, text = board_of(block), block.text.split("$ ", 1)[0]
            if name.startswith("examples/"):
                continue
        elif block.kind in PROGRAMS:
            name, text = PROGRAMS[block.kind][0], block.text
            if block.kind == "rust" and "fn main()" not in text:
                text = f"fn main() {{\n{text}}}\n"
        elif block.kind == "toml":
            name, text = "Cargo.toml", block.text if "[package]" in block.text else PACKAGE + block.text
        else:
            continue
        if name in names:
            raise Fault(f"line {block.line}: there is a {name} already")
        names.add(name)
        page.write(name, text)


def board_of(block):
    """The board that a console block's first command names."""
    match = re.search(r"^\$ .*?([\w/.-]+\.board)\b", block.text, re.M)
    if not match:
        raise Fault(f"line {block.line}: text stands before a command that names no board")
    return match.group(1)


def program(block):
    """A program that no line says the output of: it prints nothing."""
    after = block.page.text[block.end :]
    block.page.last_program = block.kind
    if not re.match(r" *```\n\n[^\n]*prints\n\n```\n", after):
        block.page.compare(block.end, block.end, block.page.run(PROGRAMS[block.kind][1], True))


def printed(block):
    """What a command, or the program before, prints."""
    page = block.page
    if not block.before.endswith("prints"):
        raise Fault(f"line {block.line}: the block does not say what it is, and the line before it does not end in `prints`")
    command = re.search(r"`([^`]+)`", block.before)
    if not command and page.last_program is None:
        raise Fault(f"line {block.line}: there is no command and no program whose output this could be")
    page.compare(block.start, block.end, page.run(command.group(1) if command else PROGRAMS[page.last_program][1], False))


def console(block):
    """Commands, each with its output; text before the first is a board, which an example has as its own."""
    parts = list(re.finditer(r"^\$ ([^\n]*)\n((?:(?!\$ )[^\n]*\n)*)", block.text, re.M))
    if not parts:
        raise Fault(f"line {block.line}: there is no command")
    first = block.text[: parts[0].start()]
    if first and board_of(block).startswith("examples/"):
        block.page.compare(block.start, block.start + len(first.rstrip("\n")) + 1, block.page.read(board_of(block)).decode())
    for part in parts:
        start, end = (block.start + x for x in part.span(2))
        block.page.compare(start, end, block.page.run(part.group(1), True))


def examples(block):
    """A block of examples/README.md is what the program prints for the board of its heading."""
    page = block.page
    name = re.findall(r"^## (\w+)$", page.text[: block.start], re.M)[-1:]
    if not name:
        raise Fault(f"line {block.line}: a block stands before the first board's heading")
    page.compare(block.start, block.end, page.run(f"./advise examples/{name[0]}.blocks", False))
