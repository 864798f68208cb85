"""Runs every test of the second program: python3 reference/test_reference.py"""

import pathlib
import sys
import unittest

if __name__ == "__main__":
    tests = pathlib.Path(__file__).resolve().parent / "tests"
    suite = unittest.defaultTestLoader.discover(str(tests))
    result = unittest.TextTestRunner().run(suite)
    sys.exit(not result.wasSuccessful() or result.testsRun == 0)
