#!/usr/bin/env python3
"""The callers of the library: the C header with its worked example, every call from C, the Rust wrapper, every number and text that they share, and what the
archive asks from outside.

tests/callers.py PROGRAM: PROGRAM is the adviser program, with which the wrapper's example is compared. Builds libsievecrest.a first; the environment variable
SIEVECREST_LIB_DIR may name a folder that has one already. That the comparison can fail is tried on each number and on each refusal's text: altered in a copy
of the header or of the wrapper it must be reported, and so must one that is missing.
"""
import glob
import os
import re
import shutil
import subprocess
import sys
import textwrap
import time

from examples import damaged

HEADER = "include/sievecrest.h"
WORKED = "tests/c/worked.c"
CALLS = "tests/c/calls.c"
WRAPPER = "rust/src/numbers.rs"
WRAPPED_TEXTS = "rust/src/refusal.rs"
CODE = "crates/*/src/*.rt"
SPECS = "crates/*/specs/*.antt"
BUILT = "target/callers"
STRICT = ["-Wall", "-Wextra", "-Wconversion", "-Werror", "-pedantic", "-Iinclude"]
SECONDS = 900

REFUSALS = "SIZE CHECK LAYOUT WIDTH TABLE KIND FIELD FIT LIMIT ASK EMPTY".split()
ANSWERS = "FOUND NONE GAVE_UP OK TIGHT CONFLICT FORCED FREE EXISTS CAUSE".split()
KINDS = "COPY NOT AND OR XOR ADD ITE SLICE JOIN SHL SHR ULE ULT NE".split()
# what the wrapper has in types of its own, or not at all
NOT_WRAPPED = {"BLOCK_BYTES"} | {"KIND_" + x for x in KINDS} | {"PLACE_" + x for x in "RABS"}
# the functions of C that the library asks of whoever links it
ASKED = ["memset"]


class Tally:
    """What passed and what failed."""

    def __init__(self):
        self.passed = self.failed = 0

    def add(self, passed, failed):
        self.passed += passed
        self.failed += failed

    def same(self, name, got, wanted):
        self.add(*((1, 0) if got == wanted else (0, 1)))
        if got != wanted:
            print(f"{name}: came {str(got)[:600]}, wanted {str(wanted)[:600]}", flush=True)


def stop(what):
    """Ends with one failure."""
    print(f"tests/callers.py: {what}\n0 passed, 1 failed")
    sys.exit(1)


def progress(what):
    print(f"callers: {what}", flush=True)


def text_of(path):
    try:
        with open(path, encoding="utf-8") as file:
            return file.read()
    except OSError as error:
        stop(f"{path} cannot be read: {error.strerror}; restore it")


def run(command, **more):
    """Exit status, standard output and standard error of a command, as bytes; a status that says so where it does not end."""
    try:
        done = subprocess.run(command, capture_output=True, timeout=SECONDS, check=False, **more)
    except subprocess.TimeoutExpired:
        return f"no end within {SECONDS} s", b"", b""
    return done.returncode, done.stdout, done.stderr


# ---- numbers


def constant(name):
    return rf"^(?:pub )?const {name}: \w+ = (\d+);"


def public(name):
    return rf"^pub const {name}: \w+ = (\d+);"


def definition(name):
    return rf"^{name} = (\d+)$"


def demand(name):
    return rf"^number \(?{name}\b[^=]*= (\d+)$"


def variant(name):
    """A name as the variants of enums are written."""
    return "".join(part.capitalize() for part in name.split("_"))


def refused(name):
    return rf"^number_of \(?{variant(name)}\b[^=]*= (\d+)$"


def places():
    """Where each number stands in the crates: its name, a file or several, and the text around it."""
    for name in ANSWERS:
        yield name, "crates/packing/src/lib.rt", rf"^    {variant(name)} = (\d+),$"
        yield name, SPECS, definition(name)
    for name in REFUSALS:
        yield "REFUSED_" + name, "crates/checker/src/refusal.rt", rf"^            Refusal::{variant(name)}(?:\(_\))? => (\d+),$"
        yield "REFUSED_" + name, SPECS, refused(name)
    for name in "SIZE WIDTH TABLE KIND FIELD FIT LIMIT".split():
        yield "REFUSED_" + name, SPECS, demand(name)
    for name, code, spec in (
        ("WORD_NUMBERS", "STRIDE", "stride"),
        ("RULE_BYTES", "FIELDS", "fields"),
        ("MAX_WORDS", "WORDS", "most_words"),
        ("MAX_RULES", "RULES", "most_rules"),
        ("MAX_LIMIT", "GUESSES", "most_guesses"),
    ):
        yield name, CODE, public(code)
        yield name, SPECS, definition(spec)
    yield "MAX_WIDTH", CODE, r"\bone_to\((\d+), w\)"
    yield "MAX_WIDTH", SPECS, r"^is_width w = one_to (\d+) w$"
    yield "MAX_WIDTH", SPECS, r"^  pub high : w ≤ (\d+)$"
    for name in "TIGHTEN SOLVE CAUSE".split():
        yield name + "_WORK", f"crates/{name.lower()}/src/lib.rt", constant("WORK")
        yield name + "_WORK", f"crates/{name.lower()}/specs/Promise.antt", definition(name.lower() + "_work")
    yield "REASON_ENTRIES", "crates/explain/src/lib.rt", constant("ENTRIES")
    yield "REASON_ENTRIES", "crates/explain/specs/Promise.antt", definition("entries")
    yield "LINES_BYTES", "crates/report/src/lib.rt", constant("MOST")
    yield "LINES_BYTES", "crates/report/specs/Printed.antt", definition("most")
    yield "BLOCK_BYTES", "crates/blocks/specs/File.antt", r"^block_at f i = part f \(\d+ \* i\) (\d+)$"
    for name in "RABS":
        yield "PLACE_" + name, SPECS, definition("place_no " + name)


def listed(tally, path, pattern):
    """The kinds in the order in which a file, the one of its name, lists them."""
    found = glob.glob(path)
    tally.same(f"there is one {path}", len(found), 1)
    for file in found:
        tally.same(f"kinds of {file}", [x.upper() for x in re.findall(pattern, text_of(file), re.M)], KINDS)


def number_at(tally, name, path, pattern):
    """The one number that stands in a file, or in several, within such a text; 0, and a failure, where there is none or more than one."""
    found = {int(x) for file in sorted(glob.glob(path)) for x in re.findall(pattern, text_of(file), re.M)}
    tally.same(f"{path} has one number {name}", len(found), 1)
    return found.pop() if len(found) == 1 else 0


def bit_of(tally, name, factor):
    """The bit at which a part of an answer begins, from the number that it is multiplied by."""
    bit = max(factor.bit_length() - 1, 0)
    tally.same(f"the factor of {name} is a power of 2", factor, 1 << bit)
    return bit


def shifts(tally):
    """The bits at which the detail, entries or words, and rules begin: the factors of the second and third part, and of the rules in the third."""
    path = "crates/packing/specs/Packed.antt"
    detail = number_at(tally, "detail", path, r"^packed p = p\.number \+ (\d+) \* p\.\w+ \+ \d+ \* p\.\w+$")
    entries = number_at(tally, "entries", path, r"^packed p = p\.number \+ \d+ \* p\.\w+ \+ (\d+) \* p\.\w+$")
    rules = entries * number_at(tally, "rules", path, r"\(x\.words \+ (\d+) \* x\.rules\)$")
    for name, factor in (("DETAIL_SHIFT", detail), ("ENTRIES_SHIFT", entries), ("WORDS_SHIFT", entries), ("RULES_SHIFT", rules)):
        yield name, bit_of(tally, name, factor)


def in_crates(tally):
    """Every number by its name, read from the crates; where one stands in several files, they are compared with each other."""
    wanted = {}
    for name, path, pattern in places():
        number = number_at(tally, name, path, pattern)
        if name in wanted:
            tally.same(f"{name} of {path}", number, wanted[name])
        else:
            wanted[name] = number
    listed(tally, "crates/*/specs/Kinds.antt", r"(?:op|rel) ([A-Z]+) ∷")
    listed(tally, "crates/*/src/kinds.rt", r"^    Row\(.*\), // (\w+)$")
    for i, kind in enumerate(KINDS, 1):
        number = number_at(tally, kind, "crates/problem/src/kinds.rt", rf"^            (\d+) => Ok\(Kind::{variant(kind)}\),$")
        tally.same(f"{kind} of crates/problem/src/kinds.rt", number, i)
        wanted["KIND_" + kind] = i
    wanted.update(shifts(tally))
    tally.same("advise asks for the work memory of cause", "work.len() < cause::WORK " in text_of("crates/report/src/lib.rt"), True)
    wanted["ADVISE_WORK"] = wanted["CAUSE_WORK"]
    wanted["READ_NUMBERS"] = wanted["WORD_NUMBERS"] * wanted["MAX_WORDS"]
    wanted["READ_BYTES"] = wanted["RULE_BYTES"] * wanted["MAX_RULES"]
    wanted["MAX_FILE_BYTES"] = wanted["BLOCK_BYTES"] * number_at(tally, "blocks", "crates/blocks/specs/Edition.antt", r"^  blocks = (\d+);$")
    return wanted


# a number of the header, and of the wrapper: its name, then itself
IN_HEADER = r"^#define SIEVECREST_(\w+) (\w+)\b"
IN_WRAPPER = r"^pub const (\w+): \w+ = (\w+);"


def differences(text, pattern, wanted, spared=frozenset()):
    """The names whose number in a text is another one, is said twice or is nowhere in the crates, or which are missing and not spared."""
    given = {}
    for name, number in re.findall(pattern, text, re.M):
        given.setdefault(name, []).append(number.replace("_", ""))
    return [name for name in sorted(given.keys() | wanted.keys() - spared) if given.get(name) != [str(wanted.get(name))]]


def altered(text, match, spared):
    """Copies of a text with a number that is one more, that is said twice, and that is missing where it may not be."""
    yield text[: match.start(2)] + str(int(match.group(2).replace("_", "")) + 1) + text[match.end(2) :]
    yield text[: match.end()] + "\n" + match.group() + text[match.end() :]
    if match.group(1) not in spared:
        yield text[: match.start()] + text[match.end() :]


def compare_numbers(tally, path, pattern, wanted, spared=frozenset()):
    """The numbers of the header or the wrapper are those of the crates, and none could be another one unseen."""
    text = text_of(path)
    wrong = differences(text, pattern, wanted, spared)
    matches = list(re.finditer(pattern, text, re.M))
    for name in sorted({match.group(1) for match in matches} | set(wrong)):
        tally.same(f"{name} of {path} is the number of the crates", name in wrong, False)
    unseen = [x.group(1) for x in matches if any(x.group(1) not in differences(copy, pattern, wanted, spared) for copy in altered(text, x, spared))]
    tally.same(f"numbers that are altered in a copy of {path} and not reported", unseen, [])


def numbers(tally):
    progress("every number of the header and of the wrapper beside those of the crates")
    wanted = in_crates(tally)
    compare_numbers(tally, HEADER, IN_HEADER, wanted)
    compare_numbers(tally, WRAPPER, IN_WRAPPER, wanted, NOT_WRAPPED)


# ---- texts

# a refusal's text in the header, and in the wrapper: its name, then itself; that of any other number has no name
TEXT_IN_HEADER = r'(?:case SIEVECREST_REFUSED_(\w+)|default):\s*return "([^"]*)";'
TEXT_IN_WRAPPER = r'(?:REFUSED_(\w+)|_) =>\s*(?:\{\s*)?"([^"]*)"'


def part_of(path, begin, end):
    """The text of a file from a line's beginning to an end; empty, so that nothing is found in it, where there is no such part."""
    match = re.search(rf"^{begin}.*?{end}", text_of(path), re.M | re.S)
    return match.group() if match else ""


def texts_apart(one, other):
    """The refusals whose texts differ or are missing or said twice in one of two parts, each with its pattern; all of them where nothing is found."""
    given = [sorted(re.findall(pattern, text)) for text, pattern in (one, other)]
    names = [x for x, _ in given[0] + given[1]]
    return sorted(x for x in {"", *REFUSALS, *names} if names.count(x) != 2 or dict(given[0]).get(x) != dict(given[1]).get(x))


def compare_texts(tally):
    """Header and wrapper have one text for each refusal, and none could be another one unseen."""
    header = part_of(HEADER, r"static inline const char \*sievecrest_refusal_text\(", r"\n}"), TEXT_IN_HEADER
    wrapper = part_of(WRAPPED_TEXTS, r"    pub fn text\(&self\)", r"\n    }"), TEXT_IN_WRAPPER
    apart = texts_apart(header, wrapper)
    for name in ["", *REFUSALS]:
        tally.same(f"the text of {name or 'no refusal'} differs in {HEADER} and {WRAPPED_TEXTS}", name in apart, False)
    tally.same("other names with a text", [x for x in apart if x and x not in REFUSALS], [])
    for text, pattern in (header, wrapper):
        for match in re.finditer(pattern, text):
            name, at = match.group(1) or "", match.start(2)
            copies = (text[:at] + "x" + text[at:], text[: match.start()] + text[match.end() :])
            unseen = [copy for copy in copies if name not in texts_apart((copy, pattern), wrapper if pattern == TEXT_IN_HEADER else header)]
            tally.same(f"the text of {name or 'no refusal'}, altered or taken out, is reported", len(unseen), 0)


def compare_versions(tally):
    """The header names the version of the wrapper."""
    header = re.findall(r'^#define SIEVECREST_VERSION "(\d+\.\d+\.\d+)"$', text_of(HEADER), re.M)
    wrapper = re.findall(r'^version = "(\d+\.\d+\.\d+)"$', text_of("rust/Cargo.toml"), re.M)
    tally.same("one version in the header", len(header), 1)
    tally.same("the version of rust/Cargo.toml", wrapper, header)


def texts(tally):
    progress("the texts of refusals and the version in header and wrapper")
    compare_texts(tally)
    compare_versions(tally)


# ---- C


def library():
    """The folder of libsievecrest.a, which is built unless one is named."""
    named = os.environ.get("SIEVECREST_LIB_DIR")
    if named is None:
        if shutil.which("rt") is None:
            stop("rt is missing: install the Rattle kit named in toolchain.txt and put its bin folder on PATH")
        progress("proving and building libsievecrest.a, which takes some minutes where little is proved yet")
        if subprocess.run(["rt", "lib"], cwd="crates/sievecrest", check=False).returncode != 0:
            stop("rt lib fails in crates/sievecrest; the messages above say why")
    folder = os.path.abspath(named or "crates/sievecrest/out")
    if not os.path.isfile(f"{folder}/libsievecrest.a"):
        stop(f"there is no {folder}/libsievecrest.a; run rt lib in crates/sievecrest")
    return folder


def example():
    """The worked example of the header's comment, and what it says that the example prints."""
    match = re.search(r"which is tests/c/worked\.c:\n\n(.*?)\nIt prints\n\n(.*?)\*/", text_of(HEADER), re.S)
    return [textwrap.dedent(x) for x in match.groups()] if match else ["", ""]


def compiled(tally, compiler, source, name, folder):
    """A C program built without a warning: its path."""
    path = f"{BUILT}/{name}"
    done = run([*compiler, *STRICT, "-o", path, source, "-x", "none", f"{folder}/libsievecrest.a"])
    tally.same(f"{' '.join(compiler)} {source}", (done[0], done[2].decode(errors="replace")), (0, ""))
    return path if done[0] == 0 else None


def worked(tally, compiler, name, folder, printed):
    path = compiled(tally, compiler, WORKED, name, folder)
    if path:
        tally.same(f"{path} prints", run([path]), (0, printed.encode(), b""))


def calls(tally, folder):
    """Every comparison of calls.c counts."""
    path = compiled(tally, ["cc", "-std=c99", "-O2"], CALLS, "calls", folder)
    if path is None:
        return
    status, out, _ = run([path])
    lines = out.decode(errors="replace").splitlines()
    counts = re.fullmatch(r"(\d+) passed, (\d+) failed", lines[-1] if lines else "")
    for line in lines[:-1][:40]:
        print(line)
    tally.same(f"{path} ends", (status, bool(counts)), (0, True))
    if counts:
        tally.add(int(counts.group(1)), int(counts.group(2)))


def asked_in(listing):
    """The names that nm lists as undefined."""
    return re.findall(r"^(\S+) [Uvw]\b", listing, re.M)


def asked(tally, folder):
    """A program without the C library has to bring what the archive asks from outside. That one name more is seen is tried."""
    status, out, _ = run(["nm", "-P", "-u", f"{folder}/libsievecrest.a"])
    listing = out.decode(errors="replace")
    tally.same("libsievecrest.a asks from outside", (status, asked_in(listing)), (0, ASKED))
    tally.same("one name more", asked_in(listing + "memmove U         \n"), [*ASKED, "memmove"])


def from_c(tally, folder):
    progress("the header, its worked example and every call from C")
    os.makedirs(BUILT, exist_ok=True)
    asked(tally, folder)
    text, printed = example()
    tally.same(f"{WORKED} is the example of {HEADER}", text_of(WORKED), text)
    worked(tally, ["cc", "-std=c99"], "worked", folder, printed)
    calls(tally, folder)
    worked(tally, ["c++", "-std=c++11", "-Wold-style-cast", "-x", "c++"], "worked-c++", folder, printed)


# ---- Rust


def cargo(tally, folder, *arguments):
    """A cargo command on the wrapper, without a warning; what it prints."""
    more = {"SIEVECREST_LIB_DIR": folder, "CARGO_TARGET_DIR": os.path.abspath("target/rust")}
    status, out, said = run(["cargo", *arguments, "--release", "--offline"], cwd="rust", env={**os.environ, **more})
    warned = "warning:" in said.decode(errors="replace")
    if status != 0 or warned:
        print((out + said).decode(errors="replace")[-4000:])
    tally.same(f"cargo {' '.join(arguments)} in rust/: status, and whether it warns", (status, warned), (0, False))
    return out.decode(errors="replace")


def files():
    """Block files: the examples, and each with faults, most of them with the sum mended."""
    for path in sorted(glob.glob("examples/*.blocks")):
        with open(path, "rb") as file:
            data = file.read()
        yield path, data
        for at, by in ((0, 1), (1, 1), (2, 1), (4, 255), (6, 1), (8, 64), (8, 255), (9, 1), (16, 255), (31, 128), (511, 1)):
            yield f"{path}, byte {at} changed by {by}", damaged(data, at, by)
        end = data[-512:]
        for at, by in ((8, 1), (10, 16), (11, 1), (12, 1)):
            yield f"{path}, byte {at} of its end changed by {by}", data[:-512] + damaged(end, at, by)
        for length in (0, 1, 511, len(data) - 512, len(data) - 1):
            yield f"{path}, its first {length} bytes", data[:length]
        for more in (b"\0", end, 7 * end):
            yield f"{path}, {len(more)} bytes more", data + more


def from_rust(tally, folder, program):
    progress("the tests and the pages of the wrapper in rust/")
    tests = cargo(tally, folder, "test")
    counts = [tuple(map(int, x)) for x in re.findall(r"^test result: \w+\. (\d+) passed; (\d+) failed;", tests, re.M)]
    tally.add(sum(x for x, _ in counts), sum(x for _, x in counts))
    tally.same("tests were run in rust/", any(x for x, _ in counts), True)
    cargo(tally, folder, "doc", "--no-deps")
    progress("the wrapper's example beside the adviser program")
    cargo(tally, folder, "build", "--example", "advise")
    advise = os.path.abspath("target/rust/release/examples/advise")
    if not os.access(advise, os.X_OK):
        tally.same(f"{advise} is there", False, True)
        return
    for number, (name, data) in enumerate(files()):
        got, wanted = run([advise], input=data)[:2], run([program], input=data)[:2]
        tally.same(f"rust/examples/advise.rs on {name}, kept as {BUILT}/{number}.blocks", got, wanted)
        if got != wanted:
            with open(f"{BUILT}/{number}.blocks", "wb") as file:
                file.write(data)


def main():
    begin = time.monotonic()
    if len(sys.argv) != 2 or not os.access(sys.argv[1], os.X_OK):
        stop("give the adviser program, proved and linked, as crates/advise/out/advise")
    for tool, package in (("cc", "gcc"), ("c++", "g++"), ("nm", "binutils"), ("cargo", "cargo")):
        if shutil.which(tool) is None:
            stop(f"{tool} is missing; install the package {package}")
    tally = Tally()
    numbers(tally)
    texts(tally)
    folder = library()
    from_c(tally, folder)
    from_rust(tally, folder, os.path.abspath(sys.argv[1]))
    progress(f"{time.monotonic() - begin:.0f} s")
    print(f"{tally.passed} passed, {tally.failed} failed")
    return 1 if tally.failed or not tally.passed else 0


if __name__ == "__main__":
    sys.exit(main())
