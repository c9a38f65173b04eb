#!/usr/bin/env python3
"""Every folder of crates/ is a line of crates.txt, every crate listed is there, and every file of a crate is of a kind that the gate reads."""
import os
import re
import sys

KINDS = (
    r"src/\w+\.rt",
    r"specs/\w+\.antt",
    r"proofs/([\w+]+/)*\w+\.antt",
    r"must-fail/\w+\.edit",
    r"stdin|stdout",
)


def main():
    passed = failed = 0
    # a line is NAME: USED .., or NAME WORD ..: USED ..
    lines = [line.split("#")[0] for line in open("crates.txt", encoding="utf-8")]
    listed = {line.split(":")[0].split()[0] for line in lines if line.strip()}
    there = set(os.listdir("crates"))
    for name in sorted(listed | there):
        if name not in there:
            failed += 1
            print(f"crates.txt lists {name}, and there is no crates/{name}")
        elif name not in listed:
            failed += 1
            print(f"crates/{name} is not listed in crates.txt")
        else:
            passed += 1
    for name in sorted(listed & there):
        for folder, inner, files in os.walk(os.path.join("crates", name)):
            if folder == os.path.join("crates", name) and "out" in inner:
                # what rt made
                inner.remove("out")
            for file in files:
                path = os.path.relpath(os.path.join(folder, file), os.path.join("crates", name))
                if not any(re.fullmatch(kind, path) for kind in KINDS):
                    failed += 1
                    print(f"crates/{name}/{path}: no part of the gate reads such a file")
    print(f"{passed} passed, {failed} failed")
    return 1 if failed else 0


sys.exit(main())
