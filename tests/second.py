#!/usr/bin/env python3
"""The adviser program, and `tighten` and `explain` of the linked library, compared with a second solver, written from the product's paper alone.

tests/second.py PROGRAM [COUNT [SEED]]: builds tests/second, lets it make COUNT boards with the lines that each must give, runs PROGRAM on every
board and compares all that it prints. A board that fails is kept in target/second with the lines wanted and the lines printed.
Then it lets tests/second ask 8,960 questions for each of `tighten` and `explain`, the same number at each width from 1 to 64, and makes the calls, with every
lent number looked at, as tests/boards does. The library is found as the Python package finds it (python/README.md). A question that fails is kept in
target/second/questions.txt as two lines, the board and the answer wanted.
"""
import collections
import os
import re
import shutil
import subprocess
import sys
import tempfile

sys.path.insert(0, os.path.join(os.path.dirname(os.path.abspath(__file__)), "boards"))
import form  # noqa: E402
import lent  # noqa: E402

SECOND = "tests/second"
BUILT = SECOND + "/target/release/second"
KEPT = "target/second"
SECONDS = 60
# for each call, a multiple of the 64 widths and the 14 kinds; and the least that each sort of answer must come up
QUESTIONS = 8960
PLENTY = {
    "tighten": {"tight, bounds changed": 2000, "tight, nothing changed": 1000, "conflict": 2000, "refused": 500},
    "explain": {"forced": 3000, "conflict": 1500, "free": 800, "refused": 500},
}
WIDTHS = range(1, 65)
AT_EACH_WIDTH = 4


def printed(command, board):
    """What a program prints for a board; a text that says why where it does not end well or says something on standard error."""
    with open(board, "rb") as file:
        try:
            done = subprocess.run([command], stdin=file, capture_output=True, timeout=SECONDS, check=False)
        except subprocess.TimeoutExpired:
            return f"(no end within {SECONDS} s)\n".encode()
    if done.returncode != 0 or done.stderr:
        return done.stdout + f"(exit status {done.returncode})\n".encode() + done.stderr
    return done.stdout


def keep(name, board, wanted, got):
    """Puts aside what reproduces a failure."""
    os.makedirs(KEPT, exist_ok=True)
    shutil.copy(board, f"{KEPT}/{name}.blocks")
    for ending, lines in (("wanted", wanted), ("printed", got)):
        with open(f"{KEPT}/{name}.{ending}", "wb") as file:
            file.write(lines)


def compare(program, folder):
    """Counts of boards that passed and failed."""
    passed = failed = 0
    for name in sorted(x[: -len(".blocks")] for x in os.listdir(folder) if x.endswith(".blocks")):
        board = f"{folder}/{name}.blocks"
        with open(f"{folder}/{name}.lines", "rb") as file:
            wanted = file.read()
        got = printed(program, board)
        if got == wanted:
            passed += 1
            continue
        failed += 1
        keep(name, board, wanted, got)
        if failed <= 10:
            print(f"board {name}: {program} < {KEPT}/{name}.blocks prints {got[:200]!r}, and the paper says {wanted[:200]!r}")
    return passed, failed


def sort_of(board, reply):
    """The sort of an answer: its own word, of TIGHT also whether a bound changed."""
    if reply.refused:
        return "refused"
    if reply.answer == "tight":
        return "tight, " + ("nothing" if reply.stored["words"] == board.words else "bounds") + " changed"
    return reply.answer


def asked(question, answer, sorts):
    """Whatever is wrong about one question, in words, and how many lent numbers were looked at; `sorts` counts answers by call, sort and width."""
    board = form.board(question)
    reply = form.reply(board, answer)
    # questions are numbered, one width after the other
    width = WIDTHS[int(board.name.partition("-")[2]) % len(WIDTHS)]
    sorts[board.call, sort_of(board, reply)][width] += 1
    came, buffers = lent.called(board.call, board)
    return list(lent.differences(board.call, came, buffers, reply)), lent.looked_at(buffers)


def questions(seed):
    """Counts of questions for `tighten` and `explain` that passed and failed, and whether every sort of answer came up often enough."""
    done = subprocess.run([BUILT, "ask", str(QUESTIONS), seed], stdout=subprocess.PIPE, text=True, check=False)
    lines = done.stdout.splitlines()
    if done.returncode != 0 or len(lines) != 4 * QUESTIONS:
        stop(f"{BUILT} ask gave {len(lines) // 2} questions, and {2 * QUESTIONS} were asked for; the messages above say why")
    passed = failed = looked = 0
    sorts = collections.defaultdict(collections.Counter)
    for question, answer in zip(lines[::2], lines[1::2]):
        faults, numbers = asked(question, answer, sorts)
        looked += numbers
        passed, failed = passed + (not faults), failed + bool(faults)
        if faults and failed <= 10:
            os.makedirs(KEPT, exist_ok=True)
            with open(f"{KEPT}/questions.txt", "a", encoding="ascii") as file:
                file.write(question + "\n" + answer + "\n")
            print(f"{question.split()[0]}, kept in {KEPT}/questions.txt: {'; '.join(faults)[:400]}")
    for call, least in PLENTY.items():
        for sort, wanted in least.items():
            widths = sorts[call, sort]
            total, fewest = sum(widths.values()), min(widths[width] for width in WIDTHS)
            print(f"{call}: {total} {sort}, at each width at least {fewest}")
            few = total < wanted or fewest < AT_EACH_WIDTH
            passed, failed = passed + (not few), failed + few
            if few:
                print(f"{call}: {wanted} must be {sort}, at each width {AT_EACH_WIDTH}; see tests/second/src/ask.rs")
    print(f"{2 * QUESTIONS} questions, {looked} lent numbers looked at")
    return passed, failed


def own_tests():
    """Counts of the second solver's own tests, among them the boards that the paper works by hand."""
    done = subprocess.run(["cargo", "test", "--release", "--offline"], cwd=SECOND, capture_output=True, text=True, check=False)
    counts = re.findall(r"^test result: \w+\. (\d+) passed; (\d+) failed;", done.stdout, re.M)
    passed, failed = (sum(int(x[i]) for x in counts) for i in (0, 1))
    if done.returncode != 0 or passed == 0:
        print((done.stdout + done.stderr)[-4000:])
        failed = max(failed, 1)
    return passed, failed


def stop(what):
    """Ends with one failure."""
    print(f"tests/second.py: {what}\n0 passed, 1 failed")
    sys.exit(1)


def main():
    if len(sys.argv) < 2 or not all(x.isdigit() for x in sys.argv[2:4]):
        stop("give the adviser program, then, if wanted, a number of boards and a seed")
    program, count, seed = sys.argv[1], *(sys.argv[2:4] + ["6000", "1"][len(sys.argv[2:4]) :])
    if not os.access(program, os.X_OK):
        stop(f"{program} is no program; prove and link it first")
    if shutil.which("cargo") is None:
        stop("cargo is missing; install the package cargo")
    if subprocess.run(["cargo", "build", "--release", "--offline", "--quiet"], cwd=SECOND, check=False).returncode != 0:
        stop(f"{SECOND} does not build; the messages above say why")
    shutil.rmtree(KEPT, ignore_errors=True)
    with tempfile.TemporaryDirectory() as folder:
        if subprocess.run([BUILT, "make", folder, count, seed], check=False).returncode != 0:
            stop(f"{BUILT} made no boards; the messages above say why")
        passed, failed = compare(program if "/" in program else "./" + program, folder)
    if passed + failed < int(count):
        stop(f"{passed + failed} boards were compared, and {count} were asked for; see what {BUILT} make does")
    print(f"{passed} boards agree, {failed} do not")
    try:
        both = questions(seed)
    except lent.Unavailable as error:
        stop(str(error))
    passed, failed = (sum(x) for x in zip((passed, failed), both, own_tests()))
    print(f"{passed} passed, {failed} failed")
    return 1 if failed or not passed else 0


if __name__ == "__main__":
    sys.exit(main())
