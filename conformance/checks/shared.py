"""What the tests of this folder share."""
import os
import subprocess
import sys
import tempfile
import unittest

from ctrconform import block, building

HERE = building.HERE
CONFORM = os.path.join(HERE, "conform")
BUILT = [os.path.join(HERE, "..", *parts, "out", "ctrsim") for parts in (("crates", "ctrsim"), ())]


def program():
    """The program that tests run; a test that needs it is skipped where there is none."""
    for place in (os.environ.get("CTRSIM"), *BUILT):
        if place and os.path.isfile(place):
            return os.path.abspath(place)
    raise unittest.SkipTest("no program: CTRSIM names none, and neither crates/ctrsim/out/ctrsim nor out/ctrsim is there")


def needs_compiler():
    if not building.compiler():
        raise unittest.SkipTest("no compiler for RISC-V: neither clang with ld.lld nor riscv64-unknown-elf-gcc")


def conform(*words, **environment):
    """The status of conform, its output and what it said."""
    ended = subprocess.run([sys.executable, "-B", CONFORM, *words], stdout=subprocess.PIPE, stderr=subprocess.PIPE,
                           universal_newlines=True, env={**os.environ, **environment}, timeout=300)
    return ended.returncode, ended.stdout, ended.stderr


def words_of_block(outcomes, failures=(), checks=0, state=1, failed=None):
    """The words of a block with these outcomes of cases, each a pair of numbers, and these failures of six words."""
    words = [0] * block.WORDS
    words[0], words[1], words[2], words[7] = block.MAGIC, state, len(outcomes), checks
    words[3] = len(failures) if failed is None else failed
    for i, (outcome, detail) in enumerate(outcomes):
        words[block.CASES_AT + 2 * i:block.CASES_AT + 2 * i + 2] = outcome, detail
    for i, failure in enumerate(failures[:block.MOST_FAILURES]):
        words[block.FAILURES_AT + 6 * i:block.FAILURES_AT + 6 * i + 6] = failure
    return words


class Case(unittest.TestCase):
    """A test with a folder of its own."""

    def setUp(self):
        folder = tempfile.TemporaryDirectory()
        self.addCleanup(folder.cleanup)
        self.folder = folder.name

    def file(self, name, text, mode=0o644):
        path = os.path.join(self.folder, name)
        os.makedirs(os.path.dirname(path), exist_ok=True)
        with open(path, "w", encoding="utf-8") as file:
            file.write(text)
        os.chmod(path, mode)
        return path

    def refused(self, ended, said):
        """It ended with status 2, and one line on standard error that has some words."""
        self.assertEqual(ended[0], 2, ended)
        self.assertEqual(ended[2].count("\n"), 1, ended[2])
        self.assertIn(said, ended[2])
