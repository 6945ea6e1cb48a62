"""tools/preagg: a profile by hand, the fdata that perf2bolt makes of it and of perf.data, and refusals."""
import os
import shutil
import struct
import subprocess
import sys
import unittest

sys.dont_write_bytecode = True
sys.path.insert(0, os.path.dirname(os.path.abspath(__file__)))
import perf_cases
from perf_cases import ELF, QUEENS, TRANSFERS, stored, tool

CALL, RETURN, BRANCH = 4 << 20, 6 << 20 | 2, 1 << 20
MISSED = 1
# A name that ends with a version makes it llvm-bolt, so it is called by the name that it was built with.
PERF2BOLT = next((path for path in ("/usr/lib/llvm-19/bin/perf2bolt", shutil.which("perf2bolt") or "")
                  if os.path.exists(path)), None)


def sample(*branches):
    """A sample of the layout 803, with the branches of a run, the oldest first."""
    body = b"".join(struct.pack("<QQQ", *branch) for branch in reversed(branches))
    return struct.pack("<IHHQIIQ", 9, 2, 32 + len(body), 0x80000000, 1, 1, len(branches)) + body


# By `nm -n`: attacked is at 80000048 to 80000090, place at 80000094 to 8000010c, main at 8000010c.
# place calls itself, branches in the new call, and returns to where it was called, which calls attacked.
RUN = sample((0x800000E8, 0x80000094, CALL), (0x800000AC, 0x800000B4, BRANCH | MISSED),
             (0x80000108, 0x800000EC, RETURN), (0x800000F0, 0x800000C0, BRANCH), (0x800000C8, 0x80000048, CALL))
BRANCHES = "B 800000ac 800000b4 1 1\nB 800000c8 80000048 1 0\nB 800000e8 80000094 1 0\nB 800000f0 800000c0 1 0\n" \
           "B 80000108 800000ec 1 0\n"


class Text(unittest.TestCase):
    def test_with_functions(self):
        done = tool("preagg", "803", ELF, input=RUN)
        self.assertEqual((done.returncode, done.stderr), (0, b""))
        self.assertEqual(done.stdout.decode(), BRANCHES + "F 80000094 800000ac 1\nF 800000b4 80000108 1\n"
                         "F 800000c0 800000c8 1\nF 800000ec 800000f0 1\n")

    def test_without_functions(self):
        self.assertEqual(tool("preagg", "803", input=RUN).stdout.decode(), BRANCHES + "F 80000094 800000ac 1\n"
                         "F 800000b4 80000108 1\nF 800000c0 800000c8 1\nf 800000ec 800000f0 1\n")

    def test_from_another_function(self):
        run = sample((0x80000118, 0x80000094, CALL), (0x800000C8, 0x80000048, CALL))
        self.assertEqual(tool("preagg", "803", ELF, input=run).stdout.decode(),
                         "B 800000c8 80000048 1 0\nB 80000118 80000094 1 0\nf 80000094 800000c8 1\n")

    def test_counts(self):
        self.assertEqual(tool("preagg", "803", ELF, input=RUN * 3).stdout.splitlines()[0], b"B 800000ac 800000b4 3 3")

    def test_outside(self):
        run = sample((0x70000000, 0x80000048, CALL), (0x800000C8, 0x70000000, CALL), (0x70000004, 0x70000008, BRANCH))
        done = tool("preagg", "803", ELF, input=run)
        self.assertEqual(done.stdout, b"B 0 80000048 1 0\nB 800000c8 0 1 0\n")
        self.assertEqual(done.stderr, b"preagg: 2 times no function had both ends of what was run through; left out\n")


@unittest.skipUnless(PERF2BOLT, "perf2bolt isn't installed")
class Bolt(perf_cases.WithPerf):
    def fdata(self, *words):
        """The lines that perf2bolt makes, sorted."""
        done = subprocess.run([PERF2BOLT, ELF, "-o", self.path("fdata")] + list(words), stdin=subprocess.DEVNULL,
                              stdout=subprocess.PIPE, stderr=subprocess.PIPE)
        self.assertEqual(done.returncode, 0, done.stderr)
        with open(self.path("fdata"), encoding="ascii") as file:
            return sorted(file)

    def test_same_as_of_perf_data(self):
        for path in (TRANSFERS, QUEENS):
            self.assertEqual(tool("preagg", "987", ELF, "-i", path, "-o", self.path("profile")).returncode, 0)
            lines = self.fdata("-p", self.made("--map", ELF, "-i", path))
            self.assertTrue(lines)
            self.assertEqual(self.fdata("-pa", "-p", self.path("profile")), lines)


class Refusals(perf_cases.Refusals, perf_cases.WithFolder):
    TOOL, GOOD = "preagg", ["987"]

    def test_arguments(self):
        self.refused(3, b"cannot read", "987", "/nowhere/at/all")
        self.refused(4, b"cannot write", "987", "-o", "/nowhere/at/all")
        self.refused(5, b"no ELF file", "987", QUEENS)

    def test_nothing_is_written_of_a_broken_stream(self):
        self.assertEqual(tool("preagg", "987", input=stored(QUEENS)[:-1]).stdout, b"")


if __name__ == "__main__":
    unittest.main()
