"""How the library is found, linked and loaded, each in a process of its own, and what is said where it cannot be."""
import os
import pathlib
import shutil
import subprocess
import sys
import tempfile
import unittest

from sievecrest import library

PACKAGE = pathlib.Path(__file__).resolve().parents[1]
PROGRAM = """
import sievecrest
try:
    print(sievecrest.Problem([sievecrest.Word.open(1)], limit=1).solve())
except sievecrest.Unavailable as error:
    print(error)
"""
FOUND = "Found(settings=[0], count=1)"


def run(**more):
    """What the program prints with some environment."""
    environment = {**os.environ, "PYTHONPATH": str(PACKAGE), **more}
    done = subprocess.run([sys.executable, "-c", PROGRAM], env=environment, capture_output=True, text=True, check=False)
    return done.stdout.strip() + done.stderr


class Library(unittest.TestCase):
    def setUp(self):
        self.archive = library.folder() / library.ARCHIVE
        self.folder = pathlib.Path(tempfile.mkdtemp())
        self.addCleanup(shutil.rmtree, self.folder, ignore_errors=True)

    def named(self, **more):
        return run(SIEVECREST_LIB_DIR=str(self.folder), **more)

    def test_an_archive_is_linked_once(self):
        shutil.copy(self.archive, self.folder)
        self.assertEqual(self.named(), FOUND)
        self.assertEqual(sorted(x.name for x in self.folder.iterdir()), [library.ARCHIVE, library.SHARED])
        self.assertEqual(self.named(CC="no-such-compiler"), FOUND)

    def test_a_newer_archive_is_linked_again(self):
        shutil.copy(self.archive, self.folder)
        shared = self.folder / library.SHARED
        shared.write_bytes(b"of an older archive")
        os.utime(shared, (1, 1))
        self.assertEqual(self.named(), FOUND)
        self.assertGreater(shared.stat().st_mtime, 1)

    def test_a_shared_object_alone_will_do(self):
        library.link(self.archive, self.folder / library.SHARED)
        self.assertEqual(self.named(), FOUND)

    def test_nothing_there(self):
        self.assertIn("libsievecrest.a is missing: run `rt lib` in crates/sievecrest, or `./test`, in the repository", self.named())

    def test_no_compiler(self):
        shutil.copy(self.archive, self.folder)
        self.assertIn("no-such-compiler is missing: install a C compiler, or name one in CC", self.named(CC="no-such-compiler"))
        self.assertIn(" fails:", self.named(CC="false"))
        self.assertEqual([x.name for x in self.folder.iterdir()], [library.ARCHIVE])

    def test_no_library_at_all(self):
        (self.folder / library.SHARED).write_bytes(b"no library")
        self.assertIn("cannot be loaded: ", self.named())


if __name__ == "__main__":
    unittest.main()
