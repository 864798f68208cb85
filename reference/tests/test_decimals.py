"""Words read as decimal numbers."""

from decimals import decimal_of
from support import RuleTest


class Decimals(RuleTest):
    def test_numbers(self):
        for word, number in ((b"0", 0), (b"000", 0), (b"7", 7), (b"0" * 5_000 + b"12", 12)):
            self.assertEqual(number, decimal_of(word, 100))

    def test_bounds(self):
        for greatest in (0, 9, 10, 100_000_000, 2**32 - 1):
            self.assertEqual(greatest, decimal_of(str(greatest).encode(), greatest))
            self.refused(3, 0, decimal_of, str(greatest + 1).encode(), greatest)
        self.refused(3, 0, decimal_of, b"9" * 5_000, 2**32 - 1)

    def test_other_words(self):
        words = (b"", b"-1", b"+1", b" 1", b"1 ", b"1\n", b"/", b":", b"1x", b"\0", b"\xb2")
        for word in (*words, "٣".encode()):
            self.refused(3, 0, decimal_of, word, 100)
