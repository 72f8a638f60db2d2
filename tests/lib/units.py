"""Runs the unittest cases of a script of tests/, and prints the count as its last line."""
import sys
import unittest


def main():
    """Runs the cases of the script that is run, and ends with 0 if nothing failed."""
    suite = unittest.defaultTestLoader.loadTestsFromModule(sys.modules["__main__"])
    result = unittest.TextTestRunner(stream=sys.stdout, verbosity=2 if "-v" in sys.argv else 0).run(suite)
    failed = len(result.failures) + len(result.errors)
    for _, reason in result.skipped:
        print(f"skipped: {reason}")
    print(f"{max(0, result.testsRun - failed - len(result.skipped))} passed, {failed} failed")
    sys.exit(1 if failed else 0)
