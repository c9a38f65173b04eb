#!/usr/bin/env python3
"""Every must-fail edit is refused by the fact that it names, because that fact no longer holds.

tests/refusals.py [--shown] [LOG]: LOG has what `rt ci` printed, as ./test keeps it in target/gate/proofs.log; what `rt must-fail` prints will do. With --shown
it prints for each edit the fact that rt blames first, and judges nothing.

The first line of an edit ends with `Refused by FACT.`: the name of a lemma; FUNCTION/GOAL, of what a function owes; or FILE:LEMMA, with the file below proofs/
or specs/, without its ending. A name alone must not be declared in two files of its crate.

rt keeps no log of an edit, and prints the first line of its first error alone, cut off after 160 characters. Where that is not the fact's, where it is cut off,
or where it is of a function's proof, whose other lines may say that the proof only no longer fits the code, the edit is checked once more, in a copy of the
crates, and all errors are read. An error does not count that only follows from another one, or that only says that a proof no longer fits the code: the
checker then refuses the proof's text and has not come to the fact. Nor does a limit of the checker count, which is no verdict. That each sign of this is known
is tried first, on made-up logs.
"""
import collections
import concurrent.futures
import glob
import os
import re
import shutil
import subprocess
import sys
import tempfile
from typing import NamedTuple

LOG = "target/gate/proofs.log"
REFUSED = "refused, as it must be"
# how much of an error rt shows
SHOWN = 160
FOLLOWS = ("was not admitted", "which is not proved")
# signs that a proof only no longer fits the code: a name, a field or a file is gone; or another goal, or another state of the code, stands where one was
GONE = (
    r"that can be named from here",
    r"is not in scope(?! here, so what is shown)",
    r"no such file",
    r"record `[^`]*` has no field `",
    r"module `[^`]*` has no `",
    r"has no function `",
)
STATE = re.compile(r"one has `[^` ]*\.Lts\.[^`. ]+`")
GOAL = r"`[^`]*\b(?:goal|Goals)\.([^` ]+)[^`]*`"
GOALS = re.compile(rf"expected type {GOAL},? but this has type {GOAL}")
FUNCTION = re.compile(r"\s*(?:pub(?:\([^)]*\))? )?(?:const )?(?:unsafe )?(?:extern \"C\" )?fn (\w+)")
# the crates whose edits are checked side by side, each in a copy of its own
LANES = min(4, len(os.sched_getaffinity(0)))


class Error(NamedTuple):
    """An error: the file below its crate, the declaration that is blamed, or what a function owes, and the message in one line."""

    path: str
    name: str
    message: str

    @property
    def follows(self):
        return any(words in self.message for words in FOLLOWS)

    @property
    def unfit(self):
        goals = GOALS.search(self.message)
        return any(re.search(sign, self.message) for sign in GONE) or bool(STATE.search(self.message)) or bool(goals and goals.group(1) != goals.group(2))

    @property
    def facts(self):
        """The ways to name what is blamed, the best one first."""
        if "/" in self.name:
            return [self.name]
        folder, file = os.path.split(re.sub(r"\.antt$", "", re.sub(r"^(proofs|specs)/", "", self.path)))
        parts = folder.split("/") if folder else []
        names = ["/".join(parts[i:] + [self.name]) for i in range(len(parts) - 1, -1, -1)] + [self.name]
        return names + [f"{file}:{self.name}", f"{os.path.join(folder, file)}:{self.name}"]


def function_at(text, number):
    """The function of a file that stands at a line, from the line of its first attribute on; None where there is none."""
    lines, found = text.split("\n"), None
    for at, line in enumerate(lines):
        match = FUNCTION.match(line)
        if match:
            while at > 0 and lines[at - 1].lstrip().startswith("#["):
                at -= 1
            if at < number:
                found = match.group(1)
    return found


def errors(log, source):
    """The errors of a log. A message goes on in lines that begin with blanks. `source` gives the text of a file of the crate: an edit moves no line of it."""
    found = []
    for line in log.splitlines():
        match = re.match(r"(?:\./)?(\S+?):\d+:\d+: (\w+): (.*)", line)
        owed = re.match(r"note: (?:\./)?(src/\S+?):(\d+):\d+: (it is not proved that .*?\(`([^`]+)`\).*)", line)
        if match:
            path, sort, message = match.groups()
            name, message = re.match(r"(?:`([^`]+)`: )?(.*)", message).groups()
            found.append((sort, Error(path, name or "", message)))
        elif owed:
            path, number, message, goal = owed.groups()
            found.append(("error", Error(path, f"{function_at(source(path), int(number))}/{goal}", message)))
        elif line.startswith("  ") and found:
            sort, error = found[-1]
            found[-1] = sort, error._replace(message=error.message + " " + line.strip())
        elif found:
            # what follows belongs to no message
            found.append(("", Error("", "", "")))
    return [error for sort, error in found if sort == "error"]


def fault(fact, log, source):
    """Why a log is none of a refusal by a fact; None where it is."""
    blamed = [error for error in errors(log, source) if not error.follows]
    named = [error for error in blamed if fact in error.facts]
    if any(not error.unfit for error in named):
        return None
    if named:
        return f"{fact} is not shown to be false, its proof only no longer fits: {named[0].message[:200]}"
    others = sorted({f"{error.path}: {error.name}" for error in blamed if not error.unfit})
    return f"{fact} does not refuse it; the log blames {', '.join(others) or 'nothing but proofs that no longer fit'}"


def declared(crate, name):
    """The files of a crate that declare and define a name; what is not defined is a parameter, a constructor or a field."""
    signature = re.compile(rf"^\s*(?:(?:pub|abbrev|unfoldable)\s+)*{re.escape(name)}(?:\s[^=\n]*)?:", re.M)
    clause = re.compile(rf"^\s*{re.escape(name)}(?:\s.*)?=", re.M)
    files = glob.glob(f"crates/{crate}/proofs/**/*.antt", recursive=True) + glob.glob(f"crates/{crate}/specs/**/*.antt", recursive=True)
    texts = {path: text_of(path) for path in files}
    return sorted(path for path, text in texts.items() if signature.search(text) and clause.search(text))


def has_function(crate, name):
    files = glob.glob(f"crates/{crate}/src/**/*.rt", recursive=True)
    return any(match and match.group(1) == name for path in files for match in map(FUNCTION.match, text_of(path).split("\n")))


def unnamed(crate, fact):
    """What is wrong about how a fact is named; None where that says which one is meant."""
    if "/" in fact and ":" not in fact:
        function = fact.split("/")[-2].lstrip("+")
        return None if has_function(crate, function) else f"{fact}: its crate has no function {function}"
    places = declared(crate, fact.split(":")[-1])
    if not places or (":" not in fact and len(places) > 1):
        return f"{fact} is declared in {', '.join(places) or 'no file of its crate'}; name it FUNCTION/GOAL or FILE:LEMMA"
    return None


def text_of(path):
    with open(path, encoding="utf-8", errors="replace") as file:
        return file.read()


def source_of(crate):
    return lambda path: text_of(f"crates/{crate}/{path}")


def fact_of(edit):
    """The fact that an edit names, and what is wrong about that."""
    named = re.search(r"Refused by (\S+)\.$", text_of(edit).split("\n")[0].rstrip())
    if not named:
        return None, "its first line names no fact; end it with 'Refused by FACT.'"
    return named.group(1), unnamed(edit.split("/")[1], named.group(1))


# ---- what rt says of an edit


def read(path):
    """What rt says of each edit, by CRATE/FILE."""
    return dict(re.findall(r"^rt: must-fail (\w+/\S+): (.*)$", text_of(path), re.M))


def first(said, source):
    """The first error, as rt shows it; None where it shows none that counts, or may not show all that tells."""
    if not said.startswith(REFUSED + ": ") or len(said) >= len(REFUSED) + 2 + SHOWN:
        return None
    found = errors(said[len(REFUSED) + 2 :], source)
    inner = found and re.match(r"proofs/.*/", found[0].path)
    return found[0] if found and not inner and not found[0].follows and not found[0].unfit else None


def unrefused(said):
    """Why an edit is not refused by a fact, whatever the whole log has; None where that is not known."""
    if not said.startswith(REFUSED):
        return f"it is not refused: {said[:200]}"
    if said.startswith(REFUSED + " ("):
        return f"its refusal says nothing of a fact: {said[len(REFUSED) + 1 :][:200]}"
    return None


# ---- the whole log of an edit


def altered(edit, text, folder):
    """Makes the change of an edit in a copy of its crate, and returns the files as they were, by path."""
    path, old, before = None, None, {}
    for line in text.split("\n"):
        if line.startswith("file: "):
            path = f"{folder}/{line[len('file: ') :].strip()}"
        elif line.startswith("old: "):
            old = line[len("old: ") :]
        elif line.startswith("new:"):
            now = text_of(path)
            before.setdefault(path, now)
            if now.count(old) != 1:
                raise ValueError(f"{edit}: its text {old!r} stands {now.count(old)} times in {path}")
            write(path, now.replace(old, re.sub(r"\A ", "", line[len("new:") :])))
    return before


def write(path, text):
    with open(path, "w", encoding="utf-8") as file:
        file.write(text)


def copied(folder):
    """Copies the crates to a folder in which edits can be checked, without what rt made of them."""
    shutil.copytree("crates", f"{folder}/crates", ignore=shutil.ignore_patterns("out", "must-fail"))
    shutil.copy("crates.txt", folder)
    # rt looks no further up
    os.mkdir(f"{folder}/.git")


def whole(edit, folder):
    """All that the checker says of the crate with the edit, in a copy of the crates."""
    crate = f"{folder}/crates/{edit.split('/')[1]}"
    before = altered(edit, text_of(edit), crate)
    done = subprocess.run(["rt", "check", "--jobs", "1"], cwd=crate, stdout=subprocess.PIPE, stderr=subprocess.STDOUT, text=True, check=False)
    for path, text in before.items():
        write(path, text)
    return done.stdout


def faults(crate, edits):
    """What is wrong about edits of a crate, by their whole logs: edits with their facts."""
    found = {}
    with tempfile.TemporaryDirectory() as folder:
        copied(folder)
        for edit, fact in edits.items():
            found[edit] = fault(fact, whole(edit, folder), source_of(crate))
            print(f"refusals: {edit} is checked", flush=True)
    return found


def tried_again(edits):
    """What is wrong about each of some edits, by its whole log, the crates with most edits first."""
    crates = collections.defaultdict(dict)
    for edit, fact in edits.items():
        crates[edit.split("/")[1]][edit] = fact
    found = {}
    with concurrent.futures.ThreadPoolExecutor(LANES) as pool:
        for run in [pool.submit(faults, crate, crates[crate]) for crate in sorted(crates, key=lambda x: -len(crates[x]))]:
            found.update(run.result())
    return found


# ---- the signs, tried on made-up logs

FALSE = "expected type `i < n`, but this has type `n < i`"
UNPROVED = "it is not proved that what the function ensures holds when it returns"
# a fact, the path of an error and what follows its name, and whether the fact refuses; the error is of `less`
TRIED = (
    ("less", "proofs/Order.antt", FALSE, True),
    ("Order:less", "proofs/Order.antt", FALSE, True),
    ("Other:less", "proofs/Order.antt", FALSE, False),
    ("proofs/less", "proofs/Order.antt", FALSE, False),
    ("more", "proofs/Order.antt", FALSE, False),
    ("sort/less", "proofs/sort/Answers.antt", FALSE, True),
    ("list/sort/less", "proofs/list/sort/Answers.antt", FALSE, True),
    ("list/less", "proofs/list/sort/Answers.antt", FALSE, False),
    ("list/sort/Answers:less", "proofs/list/sort/Answers.antt", FALSE, True),
    ("find/less", "proofs/sort/Answers.antt", FALSE, False),
    ("less", "proofs/Order.antt", "`more` was not admitted (it has holes or undetermined implicits, or was rejected), so this cannot be checked", False),
    ("less", "proofs/Order.antt", "it calls `crate::sort`, which is not proved", False),
    ("less", "proofs/Order.antt", "`goal.x`: module `Rattle.a.proofs.sort.Goals` has no `x` that can be named from here", False),
    ("less", "proofs/Order.antt", "`goal.x`: module `Rattle.a.proofs.sort.Goals` has no `x", False),
    ("less", "proofs/Order.antt", "`x` is not in scope", False),
    ("less", "proofs/Order.antt", FALSE + "\n  `i` is not in scope here, so what is shown does not paste back as it stands", True),
    ("less", "proofs/Order.antt", "no such file", False),
    ("less", "proofs/Order.antt", "record `Rattle.a.proofs.sort.Lts.After-mask` has no field `mask` (nearest: .mask-m)", False),
    ("less", "proofs/Order.antt", "record `Rattle.a.proofs.sort.Lts.After-mask`\n  has no field `mask`", False),
    ("less", "proofs/Order.antt", "expected type `goal.add-loop Inv μ`, but this has type `goal.sub-j Inv μ`", False),
    ("less", "proofs/Order.antt", "expected type `goal.add-loop`\n  but this has type `goal.sub-j`", False),
    ("less", "proofs/Order.antt", "expected type `goal.add-loop 1`, but this has type `goal.add-loop 2`", True),
    ("less", "proofs/Order.antt", "as printed, the two types differ only where one has `Rattle.a.proofs.sort.Lts.Else1`\n  (expected), right after", False),
    ("less", "proofs/Order.antt", "as printed, the two types differ only where one has `Rattle.a.proofs.sort.Lts.m1 (c .before)`\n  (expected), and", True),
    ("less", "proofs/Order.antt", "as printed, the two types differ only where one has `c.args.hi` (expected), right after ", True),
    ("less", "proofs/Order.antt", "`omega`: the goal does not follow from what it read. All of that holds, and the goal fails, at `i` = 2", True),
    ("less", "proofs/sort/Answers.antt", "`crate` has no function `sort` for this file to be the proof of", False),
)
SOURCE = """use std::vec::Vec;

// Sorts.
#[tactic(auto)]
#[inline]
pub fn sort(n: u64) -> u64
    ensures { result ≤ n }
{
    n
}

fn find() {}
"""
# a fact, where something is not proved, and whether the fact refuses
OWED = (
    ("sort/returns", f"src/lib.rt:4:1: {UNPROVED} (`returns`); the facts known there allow values", True),
    ("sort/returns", f"src/lib.rt:9:5: {UNPROVED} (`returns`)", True),
    ("find/returns", f"src/lib.rt:9:5: {UNPROVED} (`returns`)", False),
    ("find/returns", f"src/lib.rt:12:1: {UNPROVED} (`returns`)", True),
    ("sort/less", f"src/lib.rt:9:5: {UNPROVED} (`returns`)", False),
    ("sort/returns", f"src/lib.rt:9:5: {UNPROVED} (`retu", False),
    ("sort/returns", "src/lib.rt:9:5: a name is not used (`returns`)", False),
)
ORDER = f"./proofs/Order.antt:9:5: error: `less`: {FALSE}"
# what rt says of an edit, whether that is a refusal, and whether it shows the fact
SAID = (
    (f"{REFUSED}: {ORDER}", True, True),
    (f"{REFUSED}: ./proofs/Order.antt:9:5: error: `less`: it calls `crate::sort`, which is not proved", True, False),
    (f"{REFUSED}: ./proofs/Order.antt:9:5: error: `less`: no such file", True, False),
    (f"{REFUSED}: {ORDER.replace('i < n', 'i' + ' + 0' * 40 + ' < n')[:SHOWN]}", True, False),
    (f"{REFUSED}: ./proofs/sort/Answers.antt:9:5: error: `less`: expected type `goal.add-loop`", True, False),
    (f"{REFUSED}: ./proofs/sort/Answers.antt:9:5: error: `less`: {FALSE}", True, False),
    (REFUSED, True, False),
    (f"{REFUSED} (only because a proof file names what the edit took away): {ORDER}", False, False),
    (f"{REFUSED} (only by a limit of the prover, which gave no verdict): {ORDER}", False, False),
    (f"BAD EDIT: the prover cannot read the edited text: {ORDER}", False, False),
    ("NOT REFUSED: the crate is still proved with this edit", False, False),
    ("NOT TRIED: its check was killed", False, False),
)


def made_up(path, name, message):
    """A log with one error, between lines that are none."""
    return f"./{path}:9:4: note: `{name}`: large solution\n./{path}:9:5: error: `{name}`: {message}\nfn crate::sort: not proved\n  {FALSE}\n"


def tried():
    """Counts of made-up logs that are judged as they must be, and that are not."""
    source = lambda _: SOURCE
    results = []
    for fact, path, message, refuses in TRIED:
        good = (fault(fact, made_up(path, "less", message), source) is None) == refuses
        results.append((f"made-up log {message!r} in {path}: {fact} must {'' if refuses else 'not '}count as what refuses it", good))
    for fact, line, refuses in OWED:
        good = (fault(fact, f"note: {line}\nfn crate::sort: not proved\n", source) is None) == refuses
        results.append((f"made-up note {line!r}: {fact} must {'' if refuses else 'not '}count as what refuses it", good))
    for said, refused, shows in SAID:
        good = (unrefused(said) is None) == refused and (refused and first(said, source) is not None) == shows
        results.append((f"{said!r} must {'' if refused else 'not '}be a refusal and must {'' if shows else 'not '}show its fact", good))
    # a second error of the same fact counts, where the first only no longer fits
    both = made_up("proofs/Order.antt", "less", "no such file") + made_up("proofs/Order.antt", "less", FALSE)
    results.append(("a second error must count, and a log without one must not", fault("less", both, source) is None and fault("less", "", source) is not None))
    for what, good in results:
        if not good:
            print(what)
    return sum(good for _, good in results), sum(not good for _, good in results)


def shown(log):
    """Prints the fact that rt blames first for each edit, or what it says."""
    for edit, said in sorted(log.items()):
        crate = edit.split("/")[0]
        found = first(said, source_of(crate)) if unrefused(said) is None else None
        names = [fact for fact in found.facts if not unnamed(crate, fact)] if found else []
        print(f"{edit}: {names[0] if names else said[:300]}")


def judged(edits, log):
    """What is wrong about each edit; None where it is refused by the fact that it names."""
    found, again = {}, {}
    for edit in edits:
        _, crate, _, file = edit.split("/")
        fact, why = fact_of(edit)
        said = log.get(f"{crate}/{file}")
        why = why or ("nothing is said of it; run the must-fail edits first" if said is None else unrefused(said))
        error = None if why else first(said, source_of(crate))
        if not why and not (error and fact in error.facts):
            again[edit] = fact
        found[edit] = why
    if again:
        print(f"refusals: of {len(again)} edits rt does not show all that tells, so they are checked once more", flush=True)
    return {**found, **tried_again(again)}


def main():
    arguments = [x for x in sys.argv[1:] if x != "--shown"]
    path = arguments[0] if arguments else LOG
    if not os.path.isfile(path):
        print(f"tests/refusals.py: there is no {path}; run rt ci and keep there what it prints, as ./test does\n0 passed, 1 failed")
        return 1
    log = read(path)
    if "--shown" in sys.argv[1:]:
        shown(log)
        return 0
    passed, failed = tried()
    edits = sorted(glob.glob("crates/*/must-fail/*.edit"))
    for edit, why in judged(edits, log).items():
        passed, failed = passed + (why is None), failed + (why is not None)
        if why:
            print(f"{edit}: {why}")
    print(f"{passed} passed, {failed} failed")
    return 1 if failed or not edits else 0


if __name__ == "__main__":
    sys.exit(main())
