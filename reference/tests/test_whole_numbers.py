"""The program holds whole numbers only, but for readings: no true division, no float."""

import ast
import pathlib
import unittest

SOURCES = sorted(pathlib.Path(__file__).resolve().parent.parent.glob("*.py"))

# What a flow computer reads is binary64.
READINGS = ("readings.py", "readingcases.py")


def is_fractional(node):
    return (
        isinstance(node, ast.Div)
        or (isinstance(node, ast.Constant) and isinstance(node.value, float))
        or (isinstance(node, ast.Name) and node.id in ("float", "round"))
    )


class WholeNumbers(unittest.TestCase):
    def test_sources(self):
        self.assertIn("rounds.py", [source.name for source in SOURCES])
        for source in SOURCES:
            if source.name not in ("test_reference.py", *READINGS):
                tree = ast.parse(source.read_text(encoding="utf-8"))
                self.assertFalse(any(map(is_fractional, ast.walk(tree))), source.name)
