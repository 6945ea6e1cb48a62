"""What the tools share at their ends: the line that tells how far one is, and arguments that are empty."""
import contextlib
import io
import os
import sys
import unittest

sys.path.insert(0, os.path.dirname(os.path.abspath(__file__)))

import cases

sys.path.insert(0, cases.TOOLS)
from ctrtools import ends


@contextlib.contextmanager
def standard_error(file):
    before, sys.stderr = sys.stderr, file
    try:
        yield
    finally:
        sys.stderr = before


class Terminal(io.StringIO):
    def isatty(self):
        return True


class Progress(cases.Case):
    def setUp(self):
        super().setUp()
        self.addCleanup(setattr, ends, "SECONDS_UNTOLD", ends.SECONDS_UNTOLD)

    def told(self, file, seconds, *counts):
        """What is written of some counts, where nothing is told before so many seconds."""
        ends.SECONDS_UNTOLD = seconds
        with standard_error(file):
            progress = ends.Progress("bytes read")
            for count in counts:
                progress.at(count)
            progress.end()
        return file.getvalue()

    def test_on_a_terminal(self):
        # One line, which is written over and away at the end.
        text = self.told(Terminal(), 0, 1234567)
        self.assertRegex(text, r"\A\r[^\r\n]*: 1,234,567 bytes read\r\x1b\[K\Z")

    def test_not_at_once(self):
        self.assertEqual(self.told(Terminal(), 1000, 1, 2), "")

    def test_elsewhere(self):
        self.assertEqual(self.told(io.StringIO(), 0, 1, 2), "")

    def test_no_standard_error(self):
        with standard_error(None):
            progress = ends.Progress("bytes read")
            progress.at(1)
            progress.end()
            self.assertFalse(progress.shown)


class Empty(cases.Case):
    def test_an_empty_name_is_named(self):
        for name, words, said in (("fold", [""], "ELF is empty"), ("fold", ["x", "987", ""], "FILE is empty"),
                                  ("brstack", ["987", "-o", ""], "-o is empty"), ("preagg", ["987", ""], "ELF is empty"),
                                  ("perf_data", ["987", "--map", ""], "--map is empty"), ("same", ["987", "", "x"], "A is empty"),
                                  ("explain", [""], "SCHEDULE is empty"), ("trace", ["", "987"], "ELF is empty"),
                                  ("from_perf", [""], "FILE is empty"), ("package", ["-o", ""], "-o is empty"),
                                  ("build", ["-o", ""], "-o is empty")):
            self.ends(cases.tool(name, *words), 2, said)


if __name__ == "__main__":
    unittest.main()
