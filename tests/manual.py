#!/usr/bin/env python3
"""What the pages for users show is what comes: commands, programs, printed lines, and tables of bits.

tests/manual.py [PAGE..]: without a name all of PAGES. It needs the adviser program and libsievecrest.a, built. Each page gets a scratch folder in which its
boards and programs are files and its commands are run. A block between fences says by its first word what it is:

    console              commands after `$ `, each with what it prints; lines before the first one are the board's text that the command names
    c, rust, python      a program: board.c, src/main.rs, board.py; toml: Cargo.toml, its package being added where it is not shown
    (none)               what is printed by the command in the line before it, which ends in `prints`; without a command, by the program before it
    bounds               a word's bounds, as bits and as numbers
    computed [KIND]      what a kind computes, tightened
    tightened            bits before and after tightening
    explained KIND       questions about a rule, and their answers
    table, search, lent BOARD    the tightened table of a board, its search step by step, and its numbers as they are lent
    bytes FILE           bytes of a file, and their numbers
    text not run: REASON         what cannot be run; such blocks are counted and their reasons are printed

A comment `<!-- prints: BOARD, s/OLD/NEW/: LINE; LINE -->` holds a paragraph to what the altered board prints first, one of the lines being quoted in it;
`<!-- returned -->` and `<!-- damaged: BOARD -->` stand before tables of returned numbers and of damaged files. A block that is none of these is a failure.

That the test can fail is tried: in a copy of each page every text that was compared is altered at its end, and each must be reported.

Beside the pages, docs/layers.svg is held to what tools/layers.py makes of crates.txt, and README.md's table of crates to crates.txt.
"""
import os
import re
import subprocess
import sys
import tempfile

from pages import bits, boards, layers, library, programs, text
from pages.page import Block, Fault, Page, board, scratch

PAGES = ["docs/MANUAL.md", "README.md", "examples/README.md", "rust/README.md"]

KNOWN = {
    "console": programs.console,
    "": programs.printed,
    "bounds": bits.bounds,
    "computed": bits.computed,
    "tightened": bits.before_after,
    "explained": bits.explained,
    "table": boards.table,
    "search": boards.search,
    "lent": boards.lent,
    "bytes": boards.dump,
    **dict.fromkeys(programs.PROGRAMS, programs.program),
}


def stop(what):
    """Ends with one failure."""
    print(f"tests/manual.py: {what}\n0 passed, 1 failed")
    sys.exit(1)


def run_page(path, shown):
    """A page with all that was compared."""
    with tempfile.TemporaryDirectory() as folder:
        scratch(folder)
        page = Page(path, shown, folder)
        guarded(page, programs.files, page)
        for block in page.blocks:
            if block.argument.startswith("not run: "):
                page.not_run.append(f"{path}:{block.line}: {block.argument}")
            elif path == "examples/README.md":
                guarded(page, programs.examples, block)
            elif block.kind in KNOWN:
                before = len(page.compared)
                guarded(page, KNOWN[block.kind], block)
                if len(page.compared) == before and block.kind not in programs.PROGRAMS:
                    page.faults.append(f"line {block.line}: nothing of the block was compared")
            elif block.kind != "toml":
                page.faults.append(f"line {block.line}: a block of kind {block.kind!r} is not known")
        for indented in re.finditer(r"(?<=\n\n)    \S[^\n]*", re.sub(r"^ *```.*?^ *```$", "", shown, flags=re.M | re.S)):
            page.faults.append(f"a block without fences cannot be run: {indented.group().strip()}")
        for comment in re.findall(r"<!-- (?!prints: |returned -->|damaged: ).*?-->", shown, re.S):
            page.faults.append(f"a comment is not known: {comment}")
        for part in (text.prose, text.damaged_files, text.returned_numbers):
            guarded(page, part, page)
        return page


def guarded(page, part, *arguments):
    """A part whose fault is one of the page."""
    try:
        part(*arguments)
    except (Fault, board.Fault, OSError, KeyError, ValueError, IndexError, TypeError, AttributeError, subprocess.TimeoutExpired) as error:
        at = f"line {arguments[0].line}: " if isinstance(arguments[0], Block) else ""
        page.faults.append(f"{at}{part.__name__}: {error or type(error).__name__}")


def altered(page):
    """The page with every compared text altered at its last character, blanks aside; texts that are empty stay."""
    copy = list(page.text)
    for start, end, _ in page.compared:
        at = start + len(page.text[start:end].rstrip()) - 1
        if at >= start:
            copy[at] = {"0": "1", "?": "1"}.get(copy[at], "0" if copy[at].isdigit() else "y" if copy[at] == "x" else "x")
    return "".join(copy)


def judged(page):
    """Counts what is the same and what is not, and says where."""
    passed = failed = 0
    for start, end, got in page.compared:
        if page.differs(start, end, got):
            failed += 1
            print(f"{page.path}:{page.text.count(chr(10), 0, start) + 1}: shown {page.text[start:end]!r}, came {got[:600]!r}")
        else:
            passed += 1
    for fault in page.faults:
        failed += 1
        print(f"{page.path}: {fault}")
    return passed, failed


def unreported(page):
    """What an altered copy of the page does not report, of all that can be altered."""
    copy = run_page(page.path, altered(page))
    wanted = [start for start, end, _ in page.compared if page.text[start:end].strip()]
    seen = {start for start, end, got in copy.compared if copy.differs(start, end, got)}
    return [page.text.count("\n", 0, start) + 1 for start in wanted if start not in seen], len(wanted)


def main():
    for path, hint in ((library.LIBRARY, "run rt lib in crates/sievecrest"), ("crates/advise/out/advise", "run ./advise")):
        if not os.path.isfile(path):
            stop(f"there is no {path}; {hint}")
    if not library.build():
        stop("tests/c/ask.c cannot be built; the messages above say why")
    passed, failed = layers.checked() if len(sys.argv) == 1 else (0, 0)
    for path in sys.argv[1:] or PAGES:
        with open(path, encoding="utf-8") as file:
            page = run_page(path, file.read())
        good, bad = judged(page)
        unseen, tried = unreported(page)
        for line in unseen:
            print(f"{path}:{line}: altered in a copy, and not reported")
        passed += good + tried - len(unseen)
        failed += bad + len(unseen)
        print(f"manual: {path}: {len(page.blocks)} blocks, {len(page.compared)} texts compared, {tried} altered in a copy, {len(page.not_run)} blocks not run")
        for reason in page.not_run:
            print(f"manual: {reason}")
    print(f"{passed} passed, {failed} failed")
    return 1 if failed or not passed else 0


if __name__ == "__main__":
    sys.exit(main())
