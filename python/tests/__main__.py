"""``python -m tests``: runs all tests, and then tells which were left out, and why."""
import sys
import unittest
from collections import Counter


def main() -> int:
    """The exit status."""
    suite = unittest.defaultTestLoader.discover("tests", top_level_dir=".")
    result = unittest.TextTestRunner().run(suite)
    for reason, count in Counter(reason for _, reason in result.skipped).items():
        print(f"left out: {count} tests of the Python package, since {reason}")
    return 0 if result.wasSuccessful() else 1


if __name__ == "__main__":
    sys.exit(main())
