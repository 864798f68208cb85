"""What several tests share: a test for refusals, and the tests of any program's cases."""

import unittest

from refusals import Refusal


class RuleTest(unittest.TestCase):
    def refused(self, number, place, rule, *arguments, **named):
        """The rule refuses these arguments with this number and place."""
        with self.assertRaises(Refusal) as caught:
            rule(*arguments, **named)
        self.assertEqual((number, place), (caught.exception.number, caught.exception.place))


class CasesTest:
    """Of the cases of a program, which a test names with the numbers that they must reach."""

    program = None
    refusals = {}

    @classmethod
    def setUpClass(cls):
        """Each routine's cases with their numbers."""
        program = cls.program
        cls.cases = [
            (routine, [(case, program.words_of(routine, case)[0]) for case in program.cases_of(routine)])
            for routine in program.routines
        ]

    def test_numbers(self):
        self.assertEqual(list(self.refusals), [routine.name for routine, _ in self.cases])
        for routine, cases in self.cases:
            found = {number for _, number in cases}
            self.assertEqual(self.refusals[routine.name], found, routine.name)

    def test_same_seed(self):
        for routine, cases in self.cases:
            again = self.program.cases_of(routine)
            self.assertEqual([case for case, _ in cases], again, routine.name)
