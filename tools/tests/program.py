"""The program at a number of samples that no other test of it reaches."""
import os
import subprocess
import sys
import unittest

sys.path.insert(0, os.path.dirname(os.path.abspath(__file__)))

import cases

# a sample of mode M in the layout 800: 16 bytes, with no branch
SMALLEST = bytes([9, 0, 0, 0, 3, 0, 16, 0]) + bytes(8)
MOST_SAMPLES = 1 << 24


class Program(cases.Case):
    def test_one_sample_too_many(self):
        """2^24 samples are shown, and the first byte behind them is one sample too many."""
        with subprocess.Popen([cases.program(), "show", "800"], stdin=subprocess.PIPE, stdout=subprocess.DEVNULL,
                              stderr=subprocess.PIPE) as process:
            for _ in range(MOST_SAMPLES >> 12):
                process.stdin.write(SMALLEST * 4096)
            process.stdin.write(SMALLEST[:1])
            process.stdin.close()
            said = process.stderr.read()
        self.assertEqual((process.returncode, said), (6, b"ctrsim: sample at 268435456: too many samples\n"))


if __name__ == "__main__":
    unittest.main()
