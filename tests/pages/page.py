"""A page for users: its blocks, its scratch folder, and what of it was compared. Boards are read by tools/board.py."""
import os
import re
import shlex
import subprocess
import sys

sys.path.insert(0, os.path.join(os.path.dirname(os.path.abspath(__file__)), "..", "..", "tools"))
import board  # noqa: E402

SECONDS = 600


class Fault(Exception):
    """What is wrong with a page, or with what it needs."""


class Block:
    """A block between fences: what it is, where its text stands in the page, and the line before it."""

    def __init__(self, page, match):
        self.page = page
        self.kind, _, self.argument = match.group(1).strip().partition(" ")
        self.start, self.end = match.span(2)
        self.text = match.group(2)
        before = [line for line in page.text[: match.start()].splitlines() if line.strip()]
        self.before = before[-1] if before else ""
        self.line = page.text.count("\n", 0, match.start()) + 1

    def lines(self):
        """Each line with the place in the page where it begins."""
        at = self.start
        for line in self.text.splitlines(keepends=True):
            yield at, line.rstrip("\n")
            at += len(line)


class Page:
    """A page, its scratch folder, and what was compared: where the shown text stands, and what came."""

    def __init__(self, path, text, folder):
        self.path, self.text, self.folder = path, text, folder
        self.compared = []
        self.not_run = []
        self.faults = []
        self.last_program = None
        self.blocks = [Block(self, x) for x in re.finditer(r"^ *```([^\n`]*)\n(.*?)^ *```$", text, re.M | re.S)]

    def compare(self, start, end, got):
        """The text of the page from start to end is held to what came."""
        self.compared.append((start, end, got))

    def differs(self, start, end, got):
        return self.text[start:end] != got

    def write(self, name, text):
        path = os.path.join(self.folder, name)
        os.makedirs(os.path.dirname(path), exist_ok=True)
        with open(path, "w", encoding="utf-8") as file:
            file.write(text)

    def read(self, name):
        with open(os.path.join(self.folder, name), "rb") as file:
            return file.read()

    def problem(self, name):
        """Words, rules and limit of a board."""
        return board.parse(self.read(name).decode())

    def run(self, command, both):
        """What a command prints on standard output, and on standard error too where both are shown."""
        environment = {**os.environ, "CARGO_TARGET_DIR": os.path.abspath("target/manual"), "CARGO_NET_OFFLINE": "true", "PYTHONDONTWRITEBYTECODE": "1"}
        where = {"stdout": subprocess.PIPE, "stderr": subprocess.STDOUT if both else subprocess.PIPE}
        done = subprocess.run(["bash", "-c", command], cwd=self.folder, env=environment, text=True, timeout=SECONDS, check=False, **where)
        if done.stderr and done.returncode != 0:
            return f"{done.stdout}{done.stderr}"
        return done.stdout


def scratch(folder):
    """A folder in which the commands of the pages can be run."""
    here = os.getcwd()
    for name in ("crates", "examples", "include", "python", "rust", "tests", "tools"):
        if os.path.exists(name):
            os.symlink(os.path.join(here, name), os.path.join(folder, name))
    os.symlink(here, os.path.join(folder, "sievecrest"))
    script = os.path.join(folder, "advise")
    with open(script, "w", encoding="utf-8") as file:
        file.write(f'#!/bin/sh\nexec {shlex.quote(here)}/advise "$@"\n')
    os.chmod(script, 0o755)
