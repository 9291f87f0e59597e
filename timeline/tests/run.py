"""Runs the tests of this folder; the last line printed counts them, and the exit status is 1 where one failed."""
import pathlib
import sys
import unittest

FOLDER = pathlib.Path(__file__).resolve().parent
sys.dont_write_bytecode = True
sys.path[:0] = [str(FOLDER.parent), str(FOLDER)]


def main():
    tests = unittest.defaultTestLoader.discover(str(FOLDER), pattern=sys.argv[1] if len(sys.argv) > 1 else "test_*.py")
    result = unittest.TextTestRunner(stream=sys.stdout, verbosity=1).run(tests)
    for reason in dict.fromkeys(reason for _, reason in result.skipped):
        print(f"skipped: {reason}")
    failed = len({test.id() for test, _ in result.failures + result.errors})
    print(f"{result.testsRun - len(result.skipped) - failed} passed, {failed} failed")
    return 1 if failed else 0


sys.exit(main())
