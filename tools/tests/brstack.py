"""tools/brstack: text by hand, what perf prints, what llvm-profgen takes, and refusals."""
import os
import shutil
import struct
import subprocess
import sys
import unittest

sys.dont_write_bytecode = True
sys.path.insert(0, os.path.dirname(os.path.abspath(__file__)))
import perf_cases
from perf_cases import ELF, MODES, QUEENS, TRANSFERS, perf, stored, tool

PROFGEN = shutil.which("llvm-profgen-19") or shutil.which("llvm-profgen")


def sample(*flags):
    """A sample of the layout 803, of mode U, with a branch of each of some flags."""
    branches = b"".join(struct.pack("<QQQ", 0x80000000 + i, 0x90000000 + i, word) for i, word in enumerate(flags))
    return struct.pack("<IHHQIIQ", 9, 2, 32 + len(branches), 0x80000008, 1, 1, len(flags)) + branches


class Text(unittest.TestCase):
    def test_small(self):
        done = tool("brstack", "803", input=sample(4 << 20, 5 << 20 | 2) + sample())
        self.assertEqual((done.returncode, done.stderr), (0, b""))
        self.assertEqual(done.stdout, b"         80000008 0x80000000/0x90000000/-/-/-/0/CALL "
                                      b" 0x80000001/0x90000001/P/-/-/0/IND_CALL \n         80000008\n")

    def test_mapping(self):
        done = tool("brstack", "803", ELF, input=sample())
        # By readelf -l: the segment at 80000000 has 150 bytes, is at 1000 of the file, and may be read, written, run.
        self.assertEqual(done.stdout.splitlines()[0].decode(),
                         "PERF_RECORD_MMAP2 1/1: [0x80000000(0x150) @ 0x1000 00:00 0 0]: rwxp " + ELF)

    def test_guests_are_left_out(self):
        done = tool("brstack", "987", "-i", MODES)
        self.assertEqual(len(done.stdout.splitlines()), 6)
        self.assertEqual(done.stderr, b"brstack: 2 samples of mode VS left out; --as-user writes them\n"
                                      b"brstack: 2 samples of mode VU left out; --as-user writes them\n")
        done = tool("brstack", "987", "--as-user", "-i", MODES)
        self.assertEqual((len(done.stdout.splitlines()), done.stderr), (10, b""))

    def test_samples_before_a_broken_one(self):
        done = tool("brstack", "803", input=sample() + b"x")
        self.assertEqual((done.returncode, done.stdout), (6, b"         80000008\n"))


class Perf(perf_cases.WithPerf):
    def compared(self, data, layout, *words):
        """perf's text of the file that perf_data makes is the text of the tool."""
        made, said = self.path("perf.data"), self.path("samples")
        with open(said, "wb") as file:
            file.write(data)
        mapped = ["--map", ELF] if ELF in words else []
        user = ["--as-user"] if "--as-user" in words else []
        self.assertEqual(tool("perf_data", layout, *mapped, *user, "-i", said, "-o", made).returncode, 0)
        text = perf("script", "-i", made, "--show-mmap-events", "-F", "ip,brstack")
        self.assertTrue(text)
        self.assertEqual(tool("brstack", layout, *words, input=data).stdout.decode(), text)

    def test_stored_samples(self):
        for path in (QUEENS, MODES, TRANSFERS):
            self.compared(stored(path), "987", ELF)
        self.compared(stored(MODES), "987", ELF, "--as-user")
        self.compared(stored(MODES), "987")

    def test_every_flag(self):
        kinds = [number << 20 for number in range(16)]
        others = [1, 2, 3, 4, 8, 0x7FFF0, 0xFFFF0, 1 << 24, 3 << 24, 7 << 30]
        news = [15 << 20 | number << 26 for number in range(16)]
        self.compared(sample(*kinds, *others, *news) + sample(0) + sample(), "803")

    def test_every_field(self):
        fields = struct.pack("<QQIIQQQQIIQQQ", 5, 0x80000008, 2, 2, 9, 1, 5, 7, 3, 0, 997, 256, 255)
        branches = b"".join(struct.pack("<QQQ", (1 << 64) - 1 - i, i << 32, i << 20 & 0xE00000) for i in range(256))
        self.compared(struct.pack("<IHH", 9, 2, 8 + len(fields + branches)) + fields + branches, "10bcf:20000")

    def test_no_pid(self):
        ip = struct.pack("<IHHQQ", 9, 2, 24, 0x80000008, 0)
        self.compared(ip + ip, "801")


@unittest.skipUnless(PROFGEN, "llvm-profgen isn't installed")
class Profgen(perf_cases.WithFolder):
    def test_it_is_taken(self):
        text, out = self.path("text"), self.path("out")
        self.assertEqual(tool("brstack", "987", ELF, "-i", TRANSFERS, "-o", text).returncode, 0)
        done = subprocess.run([PROFGEN, "--perfscript=" + text, "--binary=" + ELF, "--format=text", "--output=" + out],
                              stdout=subprocess.PIPE, stderr=subprocess.PIPE)
        self.assertEqual(done.returncode, 0, done.stderr)
        self.assertNotIn(b"error", done.stderr)


class Refusals(perf_cases.Refusals, perf_cases.WithFolder):
    TOOL, GOOD = "brstack", ["987"]

    def test_arguments(self):
        self.refused(8, b"lacks ip", "802")
        self.refused(8, b"lacks pid", "801", ELF)
        self.refused(3, b"cannot read", "987", "/nowhere/at/all")
        self.refused(4, b"cannot write", "987", "-o", "/nowhere/at/all")
        self.refused(5, b"no ELF file", "987", QUEENS)


if __name__ == "__main__":
    unittest.main()
