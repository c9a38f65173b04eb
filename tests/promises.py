#!/usr/bin/env python3
"""Every name that docs/PROMISES.md gives beside a file is declared in that file, and every must-fail edit is named there.

A row is `| words | `name`, `name` | path |`; of what stands in backquotes in its second column each name is looked up. Where the path is a folder of
must-fail edits, a name is that of an edit.

Each spec file but Lib.antt says in its first line that it is to be believed or that it mirrors code; a later line of its header names exceptions. The list
under "The definitions to believe" has each definition to be believed, beside its file, and nothing else. Other rows name no definition that mirrors code,
but for those under "Inside the calls". That all this can fail is tried on a made-up tree first.
"""
import collections
import glob
import itertools
import os
import re
import sys
import tempfile

PAGE = "docs/PROMISES.md"
LIST = "The definitions to believe"
INSIDE = "Inside the calls"
BELIEVED = "-- To be believed: "
MIRRORS = "-- Mirrors code: "

Row = collections.namedtuple("Row", "number part names path")


def constructors(lines):
    """The names that stand as constructors in the public data declarations of a file."""
    inside = None
    for line in lines:
        indent = len(line) - len(line.lstrip())
        if inside is not None and line.strip() and indent <= inside:
            inside = None
        if inside is not None:
            names = re.match(r"\s*([^\s:({][^:({]*) :", line)
            yield from names.group(1).split() if names else ()
        if re.match(r"\s*pub data ", line):
            inside = indent


def declared(root, path):
    """The public names that a file declares: antt declarations, their constructors and fields, and functions of Rattle; or a folder's edits."""
    path = os.path.join(root, path)
    if path.endswith("/must-fail"):
        return {os.path.basename(edit)[: -len(".edit")] for edit in glob.glob(path + "/*.edit")}
    with open(path, encoding="utf-8") as file:
        lines = file.read().split("\n")
    if path.endswith(".rt"):
        found = (re.match(r'\s*pub (?:extern "C" )?fn (\w+)', line) for line in lines)
    else:
        found = (re.match(r"\s*(?:(?:unfoldable|abbrev)\s+)?pub\s+(?:(?:data|record)\s+)?([^\s:({]+)[^:]*:", line) for line in lines)
    return {match.group(1) for match in found if match} | set(constructors(lines))


def definitions(lines):
    """The public definitions of a spec file, without constructors and fields."""
    inside = None
    for line in lines:
        indent = len(line) - len(line.lstrip())
        if inside is not None and line.strip() and indent <= inside:
            inside = None
        if inside is not None:
            continue
        found = re.match(r"\s*(?:(?:unfoldable|abbrev)\s+)?pub\s+((?:data|record)\s+)?([^\s:({]+)", line)
        if found:
            yield found.group(2)
            if found.group(1):
                inside = indent


def standing(lines):
    """What the header of a spec file says: whether it is to be believed, or None where it does not say; and the exceptions."""
    for label, other in ((BELIEVED, MIRRORS), (MIRRORS, BELIEVED)):
        if lines[0].startswith(label):
            header = itertools.takewhile(lambda line: line.startswith("--"), lines)
            return label == BELIEVED, [name for line in header if line.startswith(other) for name in re.findall(r"`([^`]+)`", line)]
    return None, []


def spec_files(root):
    """The paths of all spec files but Lib.antt."""
    for path in sorted(glob.glob(os.path.join(root, "crates/*/specs/*.antt"))):
        if os.path.basename(path) != "Lib.antt":
            yield os.path.relpath(path, root)


def rows(root):
    """The rows of the page that name a file of a crate."""
    part = None
    with open(os.path.join(root, PAGE), encoding="utf-8") as page:
        for number, line in enumerate(page, 1):
            if line.startswith("## "):
                part = line[3:].strip()
            cells = [cell.strip() for cell in line.strip().strip("|").split("|")]
            if len(cells) == 3 and cells[2].startswith("crates/"):
                yield Row(number, part, re.findall(r"`([^`]+)`", cells[1]), cells[2])


def look_up(root, found):
    """Each name of a row is declared in its file, and each edit is named: how many are, and what is wrong."""
    passed, wrong = 0, []
    named = set()
    for row in found:
        try:
            names = declared(root, row.path)
        except OSError:
            wrong.append(f"{PAGE}:{row.number}: there is no {row.path}")
            continue
        if not row.names:
            wrong.append(f"{PAGE}:{row.number}: the row names nothing")
        for name in row.names:
            if name in names:
                passed += 1
                named.add((row.path, name))
            else:
                wrong.append(f"{PAGE}:{row.number}: {row.path} declares no {name}")
    for edit in sorted(glob.glob(os.path.join(root, "crates/*/must-fail/*.edit"))):
        edit = os.path.relpath(edit, root)
        if (os.path.dirname(edit), os.path.basename(edit)[: -len(".edit")]) in named:
            passed += 1
        else:
            wrong.append(f"{PAGE}: {edit} is not named")
    if passed == 0:
        wrong.append(f"{PAGE}: no row was found")
    return passed, wrong


def believe(root, found):
    """The headers of spec files, and the list on the page against them: how many agree, and what is wrong."""
    passed, wrong = 0, []
    believed = set()
    mirrors = set()
    for path in spec_files(root):
        with open(os.path.join(root, path), encoding="utf-8") as file:
            lines = file.read().split("\n")
        names = list(definitions(lines))
        is_believed, exceptions = standing(lines)
        if is_believed is None:
            wrong.append(f"{path}:1: says neither that it is to be believed nor that it mirrors code")
            continue
        passed += 1
        for name in exceptions:
            if name not in names:
                wrong.append(f"{path}: its header names {name}, which it does not define")
        for name in names:
            (believed if is_believed != (name in exceptions) else mirrors).add((path, name))
    listed = [(row, name) for row in found if row.part == LIST for name in row.names]
    seen = set()
    for row, name in listed:
        if (row.path, name) in seen:
            wrong.append(f"{PAGE}:{row.number}: {name} is listed twice")
        elif (row.path, name) in believed:
            passed += 1
        else:
            wrong.append(f"{PAGE}:{row.number}: {row.path} does not say that {name} is to be believed")
        seen.add((row.path, name))
    for path, name in sorted(believed - seen):
        wrong.append(f"{PAGE}: {name} of {path} is to be believed, and is not listed")
    for row in found:
        if row.part not in (LIST, INSIDE):
            for name in row.names:
                if (row.path, name) in mirrors:
                    wrong.append(f"{PAGE}:{row.number}: {name} of {row.path} mirrors code")
    return passed, wrong


def check(root):
    """Both, of a tree."""
    found = list(rows(root))
    looked, missing = look_up(root, found)
    agreed, unlike = believe(root, found)
    return looked + agreed, missing + unlike


MADE_UP = {
    "crates/a/specs/Lib.antt": "pub mod Good\n",
    "crates/a/specs/Good.antt": "-- To be believed: good.\n-- Mirrors code: `inner`, `gone`.\n\npub record Good : Type 0 where\n  pub field : X\n\n"
    "abbrev pub inner : X\ninner = x\n\nabbrev pub missed : X\nmissed = x\n",
    "crates/a/specs/Code.antt": "-- Mirrors code: code.\n-- To be believed: `shown`.\n\nmodule _ (x : X) where\n  pub data Code : Type 0 where\n"
    "    one : Code\n\n  unfoldable pub shown : X\n  shown = x\n",
    "crates/a/specs/Bare.antt": "-- What is bare.\n\nabbrev pub bare : X\nbare = x\n",
    "crates/a/specs/SmtLib.antt": "-- To be believed: what is not listed at all.\n\nabbrev pub hidden : X\nhidden = x\n",
    "crates/a/must-fail/named.edit": "",
    "crates/a/must-fail/unnamed.edit": "",
    PAGE: "\n".join([
        "## " + LIST,
        "| good | `Good` | crates/a/specs/Good.antt |",
        "| twice | `Good` | crates/a/specs/Good.antt |",
        "| an exception | `inner` | crates/a/specs/Good.antt |",
        "| a field | `field` | crates/a/specs/Good.antt |",
        "| shown | `shown` | crates/a/specs/Code.antt |",
        "| code | `Code` | crates/a/specs/Code.antt |",
        "## A call",
        "| mirrors code | `Code`, `shown` | crates/a/specs/Code.antt |",
        "| not there | `nothing` | crates/a/specs/Good.antt |",
        "| no name | nothing | crates/a/specs/Good.antt |",
        "| no file | `x` | crates/a/specs/None.antt |",
        "| edits | `named` | crates/a/must-fail |",
        "## " + INSIDE,
        "| inside | `Code` | crates/a/specs/Code.antt |",
        "",
    ]),
}

EXPECTED = [
    f"{PAGE}:10: crates/a/specs/Good.antt declares no nothing",
    f"{PAGE}:11: the row names nothing",
    f"{PAGE}:12: there is no crates/a/specs/None.antt",
    f"{PAGE}: crates/a/must-fail/unnamed.edit is not named",
    "crates/a/specs/Bare.antt:1: says neither that it is to be believed nor that it mirrors code",
    "crates/a/specs/Good.antt: its header names gone, which it does not define",
    f"{PAGE}:3: Good is listed twice",
    f"{PAGE}:4: crates/a/specs/Good.antt does not say that inner is to be believed",
    f"{PAGE}:5: crates/a/specs/Good.antt does not say that field is to be believed",
    f"{PAGE}:7: crates/a/specs/Code.antt does not say that Code is to be believed",
    f"{PAGE}: missed of crates/a/specs/Good.antt is to be believed, and is not listed",
    f"{PAGE}: hidden of crates/a/specs/SmtLib.antt is to be believed, and is not listed",
    f"{PAGE}:9: Code of crates/a/specs/Code.antt mirrors code",
]


def tried():
    """What is found wrong with the made-up tree is what was made wrong in it: how many faults are found, and what is wrong with that."""
    with tempfile.TemporaryDirectory() as root:
        for path, text in MADE_UP.items():
            path = os.path.join(root, path)
            os.makedirs(os.path.dirname(path), exist_ok=True)
            with open(path, "w", encoding="utf-8") as file:
                file.write(text)
        wrong = check(root)[1]
    unfound = [f"the made-up tree: not found: {line}" for line in EXPECTED if line not in wrong]
    unmeant = [f"the made-up tree: found, and not made: {line}" for line in wrong if line not in EXPECTED]
    return len(EXPECTED) - len(unfound), unfound + unmeant


def main():
    passed = failed = 0
    for count, wrong in (tried(), check(".")):
        passed += count
        failed += len(wrong)
        for line in wrong:
            print(line)
    print(f"{passed} passed, {failed} failed")
    return 1 if failed else 0


if __name__ == "__main__":
    sys.exit(main())
