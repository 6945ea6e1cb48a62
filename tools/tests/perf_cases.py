"""What the tests of perf_data, brstack and preagg share: the stored samples, runs of a tool, and its refusals."""
import os
import shutil
import struct
import subprocess
import sys

import cases

# The program of examples/recursive_calls in mode U, by gcc 12.2 with -Wl,--emit-relocs; six samples of its calls
# (MCTRCTL 81), 997 steps apart; ten of which the modes, pids and times were changed, three branches kept, and one has
# none; and twenty with all transfers but branches not taken (MCTRCTL 1). All have the layout 987.
ELF, QUEENS, MODES, TRANSFERS = (os.path.join(cases.DATA, name) for name in (
    "queens.elf", "queens.samples", "modes.samples", "transfers.samples"))
TYPES = ["", "COND", "UNCOND", "IND", "CALL", "IND_CALL", "RET"]


def stored(path):
    with open(path, "rb") as file:
        return file.read()


def tool(name, *words, input=None):
    """A tool that ran with some arguments: its status, output and what it said, in bytes."""
    return subprocess.run([sys.executable, os.path.join(cases.TOOLS, name)] + list(words), input=input or b"",
                          stdout=subprocess.PIPE, stderr=subprocess.PIPE)


def perf(*words):
    """What perf prints."""
    done = subprocess.run(("perf",) + words, stdin=subprocess.DEVNULL, stdout=subprocess.PIPE, stderr=subprocess.PIPE)
    return done.stdout.decode()


def told(data):
    """The samples of a stream of the layout 987 as `perf script` tells them, word by word; read here from the bytes."""
    lines, at = [], 0
    while at < len(data):
        size, ip, pid, tid, time, cpu, _, period, count = struct.unpack_from("<6xHQIIQIIQQ", data, at)
        words = ["%d/%d" % (pid, tid), "[%03d]" % cpu, "0.%09d:" % time, str(period), "%x" % ip]
        for source, target, flags in struct.iter_unpack("<QQQ", data[at + 56:at + size]):
            sign = "M" if flags & 1 else "P" if flags & 2 else "-"
            words.append("0x%x/0x%x/%s/-/-/0/%s" % (source, target, sign, TYPES[flags >> 20 & 15]))
        lines.append(" ".join(words))
        at += size
        assert len(words) == 5 + count
    return lines


class WithFolder(cases.Case):
    """Tests that write files in a folder of their own."""

    def path(self, name):
        return os.path.join(self.folder, name)


class WithPerf(WithFolder):
    """Tests that need perf."""

    def setUp(self):
        if not shutil.which("perf"):
            self.skipTest("perf isn't installed")
        super().setUp()

    def made(self, *words):
        """The path of the perf.data file that perf_data makes."""
        done = tool("perf_data", "987", "-o", self.path("perf.data"), *words)
        self.assertEqual(done.returncode, 0, done.stderr)
        return self.path("perf.data")


class Refusals:
    """What every tool that reads samples refuses, to be mixed into a test of it: TOOL with the arguments GOOD."""

    def refused(self, status, text, *words, input=b""):
        done = tool(self.TOOL, *words, input=input)
        self.assertEqual(done.returncode, status, done.stderr)
        self.assertIn(text, done.stderr)
        self.assertEqual(done.stderr.count(b"\n"), 1, done.stderr)

    def test_broken_samples(self):
        good = stored(QUEENS)
        self.refused(6, b"sample at 0: not a sample", *self.GOOD, input=bytes(range(1, 250)))
        self.refused(6, b"sample at 0: header cut", *self.GOOD, input=good[:5])
        self.refused(6, b"cut", *self.GOOD, input=good[:-1])
        self.refused(6, b"wrong size", "883", *self.GOOD[1:], input=good)

    def test_usage(self):
        self.refused(2, b"is no layout", "3", *self.GOOD[1:])
        self.refused(2, b"is no layout", "x", *self.GOOD[1:])
        self.refused(2, b"required")
        self.refused(3, b"cannot read", *self.GOOD, "-i", os.path.join(cases.DATA, "none"))

    def test_help(self):
        done = tool(self.TOOL, "--help")
        self.assertEqual((done.returncode, done.stderr), (0, b""))
        self.assertIn(b"tools/%s LAYOUT" % self.TOOL.encode(), done.stdout)

    def test_closed_ends(self):
        command = [sys.executable, os.path.join(cases.TOOLS, self.TOOL)] + self.GOOD
        for closing, status, text in (("<&-", 3, b"cannot read"), (">&-", 4, b"cannot write"), ("2>&-", 0, b"")):
            done = subprocess.run(["sh", "-c", '"$@" ' + closing, "sh"] + command, input=b"", stdout=subprocess.PIPE,
                                  stderr=subprocess.PIPE)
            self.assertEqual(done.returncode, status, done.stderr)
            self.assertIn(text, done.stderr)
            self.assertEqual(done.stderr.count(b"\n"), len(text) > 0, done.stderr)

    def test_closed_pipe(self):
        self.closed_pipe(self.TOOL, *self.GOOD, given=stored(QUEENS) * 60)
