"""coverage.md and the tests, both ways."""
import collections
import os
import unittest

import shared
from ctrconform import building, coverage


class Coverage(unittest.TestCase):
    def test_every_case_has_a_statement(self):
        known = coverage.statements()
        for case in coverage.cases() + coverage.cases("s"):
            self.assertTrue(case.keys, "%s: no line `covers` above %s" % (case.test, case.name))
            for key in case.keys:
                self.assertIn(key, known, "%s: %s" % (case.test, case.name))

    def test_every_statement_has_cases_or_a_reason(self):
        for statement in coverage.statements().values():
            counted = coverage.counted(statement.key)
            if counted:
                self.assertEqual(statement.cases, counted, statement.key)
            else:
                self.assertTrue(statement.cases.startswith("none: "), statement.key)
            self.assertEqual(statement.from_s, coverage.counted(statement.key, "s") or "-", statement.key)

    def test_every_statement_says_how_sure_it_is(self):
        statements = coverage.statements()
        self.assertGreater(len(statements), 80)
        for statement in statements.values():
            self.assertIn(statement.sure, ("A", "B", "C"), statement.key)

    def test_the_names_of_a_test_are_its_own(self):
        for test in building.test_names():
            self.assertTrue(coverage.cases_of(test) + coverage.cases_of(test, "s"), test)
            for start in coverage.STARTS:
                names = collections.Counter(case.name for case in coverage.cases_of(test, start))
                self.assertEqual([name for name, count in names.items() if count > 1], [], test)

    def test_every_case_stands_in_the_stored_output(self):
        # What reads the cases of a file by its lines misses none: the output has the names that were assembled.
        for name, start in (("ctrsim.tap", "m"), ("ctrsim-s.tap", "s")):
            with open(os.path.join(shared.HERE, "expected", name), encoding="utf-8") as file:
                stored = [line.split(" - ", 1)[1].split(" # SKIP")[0].rstrip("\n") for line in file if " - " in line]
            self.assertEqual(stored, ["%s: %s" % (case.test, case.name) for case in coverage.cases(start)])
