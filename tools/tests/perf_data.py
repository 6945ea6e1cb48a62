"""tools/perf_data: the bytes of a small file by hand, what perf makes of stored samples, and refusals."""
import os
import shutil
import struct
import sys
import unittest

sys.dont_write_bytecode = True
sys.path.insert(0, os.path.dirname(os.path.abspath(__file__)))
import perf_cases
from perf_cases import ELF, MODES, QUEENS, perf, stored, tool

OBJDUMP = "riscv64-unknown-elf-objdump"

# One sample of the layout 803, of mode U, ip 80000008, pid 1, one call: docs/samples.md, with another misc.
ONE = bytes.fromhex("0900000002003800" "0800008000000000" "0100000001000000" "0100000000000000"
                    "0000008000000000" "0800008000000000" "0000400000000000")


class Bytes(unittest.TestCase):
    def test_small_file(self):
        done = tool("perf_data", "803", input=ONE)
        self.assertEqual((done.returncode, done.stderr), (0, b""))
        data = done.stdout
        # The header: magic, its size, the size of an attribute; where attributes, data and event types are; features.
        self.assertEqual(struct.unpack_from("<8s8Q", data), (b"PERFILE2", 104, 128, 104, 128, 232, 24 + 56, 0, 0))
        self.assertEqual(struct.unpack_from("<4Q", data, 72), (1 << 6 | 1 << 12 | 1 << 15, 0, 0, 0))
        # The event: hardware instructions, period 1, the layout; branches of any kind, in all modes, with their types.
        self.assertEqual(struct.unpack_from("<IIQQQ", data, 104), (0, 112, 1, 1, 0x803))
        self.assertEqual(struct.unpack_from("<Q", data, 104 + 72), (0x1000F,))
        self.assertEqual(data[232:256], struct.pack("<IHHII8s", 3, 2, 24, 1, 1, b"task0"))
        self.assertEqual(data[256:312], ONE)

    def test_hardware_index_is_said(self):
        sample = ONE[:6] + b"\x40" + ONE[7:32] + bytes(8) + ONE[32:]
        data = tool("perf_data", "803:20000", input=sample).stdout
        self.assertEqual(struct.unpack_from("<Q", data, 104 + 72), (0x3000F,))

    def test_no_samples(self):
        self.assertEqual(struct.unpack_from("<QQ", tool("perf_data", "987", input=b"").stdout, 40), (232, 0))

    def test_call_graph_frames(self):
        # enter calls main, and main is where the sample was taken: 8000010c, behind the two marks of the context.
        sample = ONE[:8] + struct.pack("<QIIQQQQ", 0x80000110, 1, 1, 1, 0x8000003C, 0x8000010C, 4 << 20)
        done = tool("perf_data", "803", "--map", ELF, "--call-graph", "frames", input=sample)
        at = done.stdout.index(struct.pack("<QII", 0x80000110, 1, 1)) + 16
        self.assertEqual(struct.unpack_from("<5Q", done.stdout, at),
                         (3, (1 << 64) - 512, 0x80000110, 0x8000003C, 1))

    def test_call_graph_frames_of_a_tail_call(self):
        # main called place, which went on to attacked by a jump; that called solved, where the sample was taken.
        calls = struct.pack("<6Q", 0x80000060, 0x80000090, 4 << 20, 0x80000118, 0x80000094, 4 << 20)
        sample = struct.pack("<IHHQIIQ", 9, 2, 80, 0x80000090, 1, 1, 2) + calls
        done = tool("perf_data", "803", "--map", ELF, "--call-graph", "frames", input=sample)
        at = done.stdout.index(struct.pack("<QII", 0x80000090, 1, 1)) + 16
        self.assertEqual(struct.unpack_from("<7Q", done.stdout, at),
                         (5, (1 << 64) - 512, 0x80000090, 0x80000060, 0x80000094, 0x80000118, 2))


class Said(unittest.TestCase):
    MODES = [b"perf_data: 2 samples of mode %s: " % mode for mode in (b"S", b"M", b"VS", b"VU")]

    def test_what_perf_leaves_out(self):
        done = tool("perf_data", "987", "-i", MODES)
        lines = done.stderr.splitlines(True)
        self.assertEqual([line[:len(start)] for line, start in zip(lines, self.MODES)], self.MODES)
        self.assertTrue(all(b"--as-user" in line for line in lines[:4]))
        self.assertEqual(lines[4:], [b"perf_data: 1 samples of the period 0: `perf report` gives them no weight\n"])

    def test_what_was_changed(self):
        done = tool("perf_data", "987", "--as-user", "-i", MODES)
        self.assertEqual(done.stderr.splitlines()[:4], [start + b"written as of mode U" for start in self.MODES])


class Perf(perf_cases.WithPerf):
    def test_every_field_of_every_sample(self):
        path = self.made("--map", ELF, "--as-user", "-i", MODES)
        lines = perf("script", "-i", path, "--ns", "-F", "pid,tid,time,cpu,period,ip,brstack").splitlines()
        self.assertEqual([" ".join(line.split()) for line in lines], perf_cases.told(stored(MODES)))

    def test_names(self):
        path = self.made("--map", ELF, "--symbols", self.path("symbols"), "-i", QUEENS)
        names = [line.split()[1] for line in perf("script", "-i", path, "-F", "ip,sym").splitlines()]
        # By `nm -n`: attacked is at 80000048 to 80000090, place at 80000094 to 8000010c.
        self.assertEqual(names, ["attacked"] * 4 + ["place", "attacked"])

    def test_report(self):
        path = self.made("--map", ELF, "--symbols", self.path("symbols"), "-i", QUEENS)
        lines = perf("report", "-i", path, "--stdio", "--no-branch-stack").splitlines()
        shares = [("83.33%", "attacked"), ("16.67%", "place")]
        self.assertEqual([line.split() for line in lines if line and line[0] != "#"],
                         [[share, "task0", "symbols", "[.]", name] for share, name in shares])

    def test_branch_history(self):
        path = self.made("--map", ELF, "--symbols", self.path("symbols"), "-i", QUEENS)
        text = perf("report", "-i", path, "--stdio", "--branch-history")
        self.assertIn("83.33%", text)
        self.assertIn("main ??:0 (CALL predicted:0.0%)", text)

    @unittest.skipUnless(shutil.which(OBJDUMP), "no objdump for RISC-V is installed")
    def test_annotate(self):
        path = self.made("--map", ELF, "--symbols", self.path("symbols"), "-i", QUEENS)
        text = perf("annotate", "-i", path, "--stdio", "--objdump=" + OBJDUMP, "-s", "attacked")
        shares = {line.split()[2]: line.split()[0] for line in text.splitlines() if ":   8000" in line}
        # Two of the five samples in attacked were taken at 80000070, and one at each of three others.
        self.assertEqual({place: share for place, share in shares.items() if share != "0.00"},
                         {"8000006c:": "20.00", "80000070:": "40.00", "80000078:": "20.00", "8000007c:": "20.00"})

    def test_stacks(self):
        for graph in ("lbr", "frames"):
            path = self.made("--map", ELF, "--symbols", self.path("symbols"), "--call-graph", graph, "-i", QUEENS)
            text = perf("script", "report", "stackcollapse", "-i", path)
            # By hand, of the branches of the six samples: how deep place is, whether it called attacked, and how often.
            stacks = [(4, ";attacked", 1), (5, "", 1), (5, ";attacked", 1), (6, ";attacked", 1), (8, ";attacked", 2)]
            self.assertEqual(sorted(text.splitlines()),
                             sorted("task0;enter;main%s%s %d" % (depth * ";place", rest, count)
                                    for depth, rest, count in stacks))


class Refusals(perf_cases.Refusals, perf_cases.WithFolder):
    TOOL, GOOD = "perf_data", ["987"]

    def test_arguments(self):
        self.refused(2, b"need --map", "987", "--symbols", "x")
        self.refused(2, b"need --map", "987", "--call-graph", "frames")
        self.refused(8, b"lacks pid", "801", "--map", ELF)
        self.refused(4, b"cannot write", "987", "-o", "/nowhere/at/all", input=b"")
        self.refused(5, b"no ELF file", "987", "--map", QUEENS, input=b"")

    def test_nothing_is_written_of_a_broken_stream(self):
        self.assertEqual(tool("perf_data", "987", input=stored(QUEENS)[:-1]).stdout, b"")


if __name__ == "__main__":
    unittest.main()
