"""The examples of README.md and of the manual: each prints what is shown beneath it."""
import os
import pathlib
import re
import subprocess
import sys
import unittest

REPOSITORY = pathlib.Path(__file__).resolve().parents[2]
SHOWN = re.compile(r"```python\n(.*?)```\n\n[^\n]*prints\n\n```\n(.*?)```\n", re.S)


def shown(path):
    """The Python programs of a page, each with what it prints."""
    return SHOWN.findall((REPOSITORY / path).read_text(encoding="utf-8"))


class Shown(unittest.TestCase):
    def prints(self, path):
        programs = shown(path)
        self.assertTrue(programs, f"{path} shows no program")
        for program, wanted in programs:
            environment = {**os.environ, "PYTHONPATH": str(REPOSITORY / "python")}
            done = subprocess.run([sys.executable, "-c", program], env=environment, capture_output=True, text=True, check=False)
            self.assertEqual((done.stdout, done.stderr), (wanted, ""))

    def test_readme(self):
        self.prints("python/README.md")

    def test_manual(self):
        self.prints("docs/MANUAL.md")


if __name__ == "__main__":
    unittest.main()
