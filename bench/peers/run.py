#!/usr/bin/env python3
"""Boards a second and time a board: the adviser program beside the plain C search and, where they are installed, z3 and cvc5, in one run.

bench/peers/run.py [PROGRAM]. The boards are those of tests/peers. Each program is started anew for each board and answers it whole: the adviser and the plain
search give count, first settings or cause; z3 and cvc5 are asked for sat or unsat alone, which is less. The programs take turns on each board, so that all see
the machine in the same state. The time of the start is in every figure, and the least time shows it.
"""
import os
import shutil
import subprocess
import sys
import time

sys.path.insert(0, "tests/peers")
import ask  # noqa: E402
import board as boards  # noqa: E402

PLAIN = "target/bench/plain-advise"


def timed(command, data):
    begin = time.perf_counter()
    done = subprocess.run(command, input=data, stdout=subprocess.PIPE, stderr=subprocess.DEVNULL, check=False)
    return time.perf_counter() - begin, done.stdout


def script(one):
    named = " ".join(f"p{j}" for j in range(len(one.rules)))
    return (ask.script(one) + f"\n(assert (and true {named}))\n(check-sat)\n").encode("ascii")


def first_word(told):
    return told.split()[0].decode("ascii") if told.split() else "nothing"


def main():
    program = sys.argv[1] if len(sys.argv) > 1 else "crates/advise/out/advise"
    if not os.path.exists(program):
        sys.exit(f"bench/peers/run.py: {program} is missing; run ./advise once, which builds it")
    os.makedirs("target/bench", exist_ok=True)
    cc = os.environ.get("CC", "cc")
    subprocess.run([cc, "-O3", "-o", PLAIN, "bench/search/advise.c", "bench/search/plain.c"], check=True)
    commands = {"advise": [program], "plain C": [PLAIN]}
    for name, command in (("z3", ["z3", "-in", "-smt2"]), ("cvc5", ["cvc5", "--lang=smt2", "-"])):
        if shutil.which(name):
            commands[name] = command
    with open("tests/peers/boards.txt", encoding="ascii") as file:
        chosen = list(boards.parse(file.read()))
    times = {name: [] for name in commands}
    bad = 0
    for one in chosen:
        told = {}
        for name, command in commands.items():
            spent, out = timed(command, script(one) if name in ("z3", "cvc5") else one.file())
            times[name].append(spent)
            told[name] = first_word(out)
        if len(set(told.values())) != 1:
            bad += 1
            print(f"{one.name}: the answers differ: {told}")
    print(f"{len(chosen)} boards, answers differ on {bad}")
    print(f"{'program':10} {'boards a s':>10} {'median ms':>10} {'worst ms':>10} {'least ms':>10} {'time, advise = 1':>17}")
    whole = sum(times["advise"])
    for name, spent in times.items():
        ordered = sorted(spent)
        figures = (len(spent) / sum(spent), 1e3 * ordered[len(ordered) // 2], 1e3 * ordered[-1], 1e3 * ordered[0], sum(spent) / whole)
        print(f"{name:10} {figures[0]:10.0f} {figures[1]:10.2f} {figures[2]:10.1f} {figures[3]:10.2f} {figures[4]:17.2f}")
    return 1 if bad else 0


if __name__ == "__main__":
    sys.exit(main())
