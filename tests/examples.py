#!/usr/bin/env python3
"""The example boards: each block file is what its text gives, a text printed from it gives the same bytes, and the program prints the lines shown.

tests/examples.py PROGRAM: PROGRAM is the adviser program. The lines wanted are those of examples/README.md. Standard error is looked at too: it is empty where
the program printed its lines, and has one line where it could not read or write. What tools/board.py refuses is tried too: each fault is named with its line
and with what to do.
"""
import os
import subprocess
import sys
import tempfile

FOLDER = "examples"
TOOL = "tools/board.py"

# every kind, and every way to write a word
EVERY_KIND = """
limit 0x10   # guesses
word a 4 0?1?
word b 4 = 0b1010
word c 4 2/11
word d 8
word s 1
word half 4
COPY a = half
NOT a = b
AND a = b c
OR a = b c
XOR a = b c
ADD a = b c
ITE a = b if s else c
SLICE a = d 4
JOIN d = a b
SHL a = b 4
SHR a = b 255
ULE a b
ULT a b
NE a b
"""
EVERY_KIND_PRINTED = """limit 16
word w0 4 0?1?
word w1 4 1010
word w2 4 ?01?
word w3 8 ????????
word w4 1 ?
word w5 4 ????
COPY w0 = w5  # rule 0
NOT w0 = w1  # rule 1
AND w0 = w1 w2  # rule 2
OR w0 = w1 w2  # rule 3
XOR w0 = w1 w2  # rule 4
ADD w0 = w1 w2  # rule 5
ITE w0 = w1 if w4 else w2  # rule 6
SLICE w0 = w3 4  # rule 7
JOIN w3 = w0 w1  # rule 8
SHL w0 = w1 4  # rule 9
SHR w0 = w1 255  # rule 10
ULE w0 w1  # rule 11
ULT w0 w1  # rule 12
NE w0 w1  # rule 13
"""

# a faulty text, and what its message must say
FAULTS = (
    ("word a 4", "no line gives the limit; add one"),
    ("limit 1000001", "line 1: the limit is 1000001, and must be 0 to 1000000"),
    ("limit 1\nlimit 2", "line 2: the limit is one line"),
    ("limit 1\nwort a 4", "line 2: 'wort' is no kind; a line begins with"),
    ("limit 1\nword a", "line 2: a word is written as"),
    ("limit 1\nword a 65", "line 2: the width is 65, and must be 1 to 64"),
    ("limit 1\nword a x", "line 2: 'x' is no number"),
    ("limit 1\nword NE 4", "line 2: 'NE' is no name"),
    ("limit 1\nword a 4\nword a 4", "line 3: there is a word a already"),
    ("limit 1\nword a 4 01?", "line 2: 01? has 3 bits, and the width is 4"),
    ("limit 1\nword a 4 012?", "line 2: '012?' is no bits"),
    ("limit 1\nword a 4 = 16", "line 2: a value of 4 bits is 16, and must be 0 to 15"),
    ("limit 1\nword a 4 4/3", "line 2: lo 4 has a 1 where hi 3 has 0"),
    ("limit 1\nword a 4\nNE a b", "line 3: there is no word 'b' above this line; add"),
    ("limit 1\nword a 4\nADD a a a", "line 3: ADD is written as: ADD r = a b"),
    ("limit 1\nword a 4\nITE a = a a a", "line 3: ITE is written as: ITE r = a if s else b"),
    ("limit 1\nword a 4\nword b 5\nNE a b", "line 4: a has width 4, b has width 5; they must be equal"),
    ("limit 1\nword a 4\nITE a = a if a else a", "line 3: r has width 4, a has width 4, b has width 4, s has width 4; s must have width 1"),
    ("limit 1\nword a 4\nSLICE a = a 1", "line 3: r has width 4, a has width 4, and k is 1"),
    ("limit 1\nword a 4\nJOIN a = a a", "line 3: r has width 4, a has width 4, b has width 4; r needs width 8"),
    ("limit 1\nword a 4\nSHR a = a 256", "line 3: k is 256, and must be 0 to 255"),
    ("limit 1\nword a 4\nword b 5\nSHL a = b 1", "line 4: r has width 4, a has width 5; they must be equal"),
    ("limit 1\n" + "".join(f"word a{i} 1\n" for i in range(33)), "line 34: a board has at most 32 words"),
    ("limit 1\nword a 1\n" + 253 * "NE a a\n", "line 255: a board has at most 252 rules"),
    ("limit 1\0", "this is no text"),
)


def tool(verb, data):
    """What tools/board.py writes for the bytes of a file, and its message."""
    with tempfile.NamedTemporaryFile() as file:
        file.write(data)
        file.flush()
        done = subprocess.run([sys.executable, TOOL, verb, file.name], capture_output=True, check=False)
    return done.stdout, done.stderr.decode()


def damaged(data, at, by):
    """A block file with one byte changed; the block's check is set anew where the change is not in it."""
    block = bytearray(data[:512])
    block[at] = (block[at] + by) % 256
    if at not in (6, 7):
        numbers = sum(int.from_bytes(block[i : i + 2], "little") for i in range(0, 512, 2) if i != 6)
        block[6:8] = ((65535 - numbers) % 65536).to_bytes(2, "little")
    return bytes(block) + data[512:]


def read(name):
    with open(f"{FOLDER}/{name}", "rb") as file:
        return file.read()


def shown():
    """The lines that README.md shows, by board."""
    sections = read("README.md").decode().split("\n## ")[1:]
    return {section.split("\n")[0]: (section.split("```\n") + [""])[1] for section in sections}


def examples(program):
    """A name, what came and what was wanted, for each thing that is compared about the examples."""
    lines = shown()
    boards = {x.removesuffix(".board") for x in os.listdir(FOLDER) if x.endswith(".board")}
    yield "block files", sorted(x for x in os.listdir(FOLDER) if x.endswith(".blocks")), sorted(f"{x}.blocks" for x in boards)
    yield "boards shown", sorted(lines), sorted(boards)
    for name in sorted(boards & set(lines)):
        blocks = read(name + ".blocks")
        yield f"{name}: block file of the text", tool("write", read(name + ".board")), (blocks, "")
        yield f"{name}: text printed and written", tool("write", tool("print", blocks)[0]), (blocks, "")
        yield f"{name}: lines printed", run([program], blocks), (lines[name], "", 0)


def run(command, data=b""):
    """What a command prints on standard output and on standard error, and its exit status."""
    done = subprocess.run(command, input=data, capture_output=True, timeout=60, check=False)
    return done.stdout.decode("ascii", "replace"), done.stderr.decode("utf-8", "replace"), done.returncode


# how the program is run from a shell, the stream that it cannot use, and why not
BROKEN = (
    ("<&-", "standard input", "Bad file descriptor"),
    ("</", "standard input", "Is a directory"),
    (">/dev/full", "standard output", "No space left on device"),
    (">&-", "standard output", "Bad file descriptor"),
)


def streams(program):
    """Standard error: empty after every sort of lines; one line, and nothing on standard output, where a stream cannot be used."""
    yield "lines of an empty file", run([program]), ("refused 1 0\n", "", 0)
    yield "lines of a file that is too long", run([program], 8 * read("pll.blocks")), ("refused 1 0\n", "", 0)
    yield "lines of a damaged file", run([program], damaged(read("pll.blocks"), 6, 1)), ("refused 2 0\n", "", 0)
    for name in ("pll", "loads", "addresses"):
        for how, stream, why in BROKEN:
            came = run(["env", "LC_ALL=C", "sh", "-c", f'exec "$0" {how}', program], read(name + ".blocks"))
            yield f"{name}: the program run with {how}", came, ("", f"{stream}: {why}\n", 0)


def texts():
    """The same for texts that no example has, and for files that are no proper ones."""
    blocks = tool("write", EVERY_KIND.encode())[0]
    yield "every kind printed", tool("print", blocks), (EVERY_KIND_PRINTED.encode(), "")
    yield "every kind written again", tool("write", EVERY_KIND_PRINTED.encode()), (blocks, "")
    for text, message in FAULTS:
        out, said = tool("write", text.encode())
        yield f"fault {message!r}", (out, said if message not in said else message), (b"", message)
    files = ((blocks[1:], "a block file has 1 to 7 times 512"), (damaged(blocks, 6, 1), "block 0 is damaged"), (damaged(blocks, 2, 1), "not laid out"))
    for data, message in files:
        out, said = tool("print", data)
        yield f"file {message!r}", (out, said if message not in said else message), (b"", message)


def main():
    if len(sys.argv) != 2 or not os.access(sys.argv[1], os.X_OK):
        print("tests/examples.py: give the adviser program, proved and linked, as crates/advise/out/advise\n0 passed, 1 failed")
        return 1
    passed = failed = 0
    program = os.path.abspath(sys.argv[1])
    for what in (examples(program), streams(program), texts()):
        for name, got, wanted in what:
            if got == wanted:
                passed += 1
            else:
                failed += 1
                print(f"{name}: came {str(got)[:400]}, wanted {str(wanted)[:400]}")
    print(f"{passed} passed, {failed} failed")
    return 1 if failed or not passed else 0


if __name__ == "__main__":
    sys.exit(main())
