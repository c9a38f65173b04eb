"""Runs all tests of the package, and prints as its last line how many passed and failed: python3 python/tests."""
import pathlib
import sys
import unittest

HERE = pathlib.Path(__file__).resolve().parent


def main():
    sys.path.insert(0, str(HERE.parent))
    suite = unittest.TestLoader().discover(str(HERE), top_level_dir=str(HERE.parent))
    done = unittest.TextTestRunner(stream=sys.stdout, verbosity=0).run(suite)
    # a test that is skipped has compared nothing
    failed = len(done.failures) + len(done.errors) + len(done.skipped) + len(done.unexpectedSuccesses)
    passed = max(done.testsRun - failed, 0)
    print(f"{passed} passed, {failed} failed")
    return 1 if failed or not passed or not done.wasSuccessful() else 0


if __name__ == "__main__":
    sys.exit(main())
