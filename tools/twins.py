#!/usr/bin/env python3
"""Functions of crates/*/src that differ only in names, types, sizes or constants.

tools/twins.py [LINES]: groups of functions whose bodies are the same text once each name, type and number in them stands for its place of first appearance,
of LINES (3) lines or more; and of shorter ones those of one name in two modules.
"""
import collections
import glob
import re
import sys

HEAD = re.compile(r"^( *)(?:pub(?:\([a-z]+\))? )?(?:const )?(?:unsafe )?(?:extern \"C\" )?fn (\w+)", re.M)
WORDS = {"if", "else", "match", "while", "for", "in", "loop", "let", "mut", "return", "as", "true", "false", "self", "fn"}
TOKEN = re.compile(r"[A-Za-z_]\w*|\d+|\S")


def functions(path):
    """Each function of a file: its name, and the lines of its body without comments."""
    text = re.sub(r"//.*", "", open(path).read())
    for head in HEAD.finditer(text):
        space = head.group(1)
        begin = re.compile(rf"^{space}{{$|\{{$", re.M).search(text, head.end())
        end = re.compile(rf"^{space}}}$", re.M).search(text, head.end())
        if begin and end and begin.end() < end.start():
            yield head.group(2), [line.strip() for line in text[begin.end():end.start()].splitlines() if line.strip()]


def shape(lines):
    names = {}
    tokens = TOKEN.findall("\n".join(lines))
    return " ".join(t if t in WORDS or not re.match(r"\w", t) else names.setdefault(t, f"#{len(names)}") for t in tokens)


def main():
    least = int(sys.argv[1]) if len(sys.argv) > 1 else 3
    groups = collections.defaultdict(list)
    for path in sorted(glob.glob("crates/*/src/*.rt")):
        for name, lines in functions(path):
            key = shape(lines) if len(lines) >= least else (name, shape(lines))
            groups[key].append(f"{path[7:-3].replace('/src/', '::')}::{name}")
    found = [places for places in groups.values() if len(places) > 1]
    for places in sorted(found):
        print(len(places), *places)
    print(f"{len(found)} groups, {sum(map(len, found))} functions")


main()
