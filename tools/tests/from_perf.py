"""tools/from_perf: the inverse of tools/perf_data, files with more in their samples judged by `perf script`, and refusals."""
import io
import os
import shutil
import struct
import sys
import unittest

sys.path.insert(0, os.path.dirname(os.path.abspath(__file__)))

import cases

sys.path.insert(0, cases.TOOLS)
from ctrtools import perf

READ, CALLCHAIN, RAW, PRIVILEGE = 0x10, 0x20, 0x400, 0x2000
CALL, COND = 4 << 20, 1 << 20
USUAL, FIELDS = 0x987, ["-F", "ip,pid,tid,time,cpu,period,brstack"]
BRANCHES = [(0x80000010, 0x80000040, CALL | 1), (0x80000004, 0x80000010, COND | 2)]


class FromPerf(cases.Case):
    def made(self, sample_type, records, read_format=0, branch_type=None, second=None):
        """The path of a perf.data file: its one event, or two with ids of their own, and some records."""
        event = bytearray(perf.attribute(sample_type, branch_type or 0xF | 0x10000, 0))
        struct.pack_into("<Q", event, 32, read_format)
        path = os.path.join(self.folder, "perf.data")
        with open(path, "wb") as out:
            perf.write_file(out, bytes(event), io.BytesIO(b"".join(records)), True)
        if second is not None:
            self.add_event(path, event, second)
        return path

    @staticmethod
    def add_event(path, event, second):
        """A second event of another sample_type: both at the end of the file, with the ids 7 and 8."""
        with open(path, "r+b") as file:
            data = file.read()
            other = bytearray(event)
            struct.pack_into("<Q", other, 24, second)
            ids, at = len(data), len(data) + 16
            file.write(struct.pack("<QQ", 7, 8) + event + struct.pack("<QQ", ids, 8) + other + struct.pack("<QQ", ids + 8, 8))
            file.seek(24)
            file.write(struct.pack("<QQ", at, 2 * (len(event) + 16)))

    @staticmethod
    def record(*parts, kind=9, misc=2):
        body = b"".join(part if isinstance(part, bytes) else struct.pack("<Q", part) for part in parts)
        return perf.record(kind, misc, body)

    @staticmethod
    def branches(*branches):
        return struct.pack("<Q", len(branches)) + b"".join(struct.pack("<QQQ", *branch) for branch in branches)

    def usual(self, ip, time, *more, branches=BRANCHES):
        """A sample of the fields of 987, with some parts ahead of its branches."""
        return self.record(ip, struct.pack("<II", 1, 1), time, struct.pack("<II", 0, 0), 997, *more, self.branches(*branches))

    def stream(self, *samples):
        return b"".join(samples)

    def test_inverse_of_perf_data(self):
        path = os.path.join(self.folder, "perf.data")
        for name, layout, words in (("queens.samples", "987", []), ("modes.samples", "987", []), ("transfers.samples", "987", []),
                                    ("queens.samples", "987", ["--call-graph", "lbr"]),
                                    ("queens.samples", "987", ["--map", os.path.join(cases.DATA, "queens.elf"), "--call-graph", "frames"])):
            given = cases.data(name)
            status, _, said = cases.tool("perf_data", layout, *words, "-o", path, given=given)
            self.assertEqual(status, 0, said)
            back = os.path.join(self.folder, "back")
            status, _, said = cases.tool("from_perf", path, "-o", back)
            self.assertEqual(status, 0, said)
            self.assertIn("from_perf: ", said.splitlines()[0])
            with open(back, "rb") as file:
                self.assertEqual(file.read(), given, (name, words))

    def test_hardware_index(self):
        branches = struct.pack("<Q", 2) + struct.pack("<Q", 5) + self.branches(*BRANCHES)[8:]
        path = self.made(0x803, [self.record(0x80000040, struct.pack("<II", 1, 1), branches)], branch_type=0xF | 0x30000)
        back = os.path.join(self.folder, "back")
        self.assertEqual(cases.tool("from_perf", path, "-o", back), (0, "", "from_perf: 1 samples of layout 803:20000\n"))
        with cases.environment(CTRSIM=cases.program()), open(back, "rb") as file:
            status, text, said = cases.run([os.path.join(cases.TOOLS, "ctrsim"), "show", "803", "20000"], file.read())
        self.assertEqual((status, said), (0, b""))
        self.assertIn(b"hw_index 0x0000000000000005\n0x0000000080000010 0x0000000080000040 call ", text)

    def test_other_parts_and_other_records(self):
        # A group of two counters with ids, a chain of three addresses, raw data of twelve bytes.
        more = [struct.pack("<QQQQQ", 2, 5, 7, 6, 8), struct.pack("<QQQQ", 3, 1, 2, 3), struct.pack("<I", 12) + bytes(12)]
        path = self.made(USUAL | READ | CALLCHAIN | RAW, [
            perf.comm(1, "task0"), self.usual(0x80000040, 5000, *more), self.record(1, 1, kind=5),
            self.usual(0x80000044, 4000, *more, branches=[]), self.record(bytes(16), kind=68)], read_format=8 | 4)
        want = self.stream(self.usual(0x80000040, 5000), self.usual(0x80000044, 4000, branches=[]))
        back = os.path.join(self.folder, "back")
        status, _, said = cases.tool("from_perf", path, "-o", back)
        self.assertEqual((status, said), (0, "from_perf: 2 samples of layout 987\nfrom_perf: left out: 1 records COMM,"
                                          " 1 records FINISHED_ROUND, 1 records THROTTLE\n"))
        with open(back, "rb") as file:
            self.assertEqual(file.read(), want)
        cases.tool("from_perf", path, "--by-time", "-o", back)
        with open(back, "rb") as file:
            self.assertEqual(file.read(), self.stream(self.usual(0x80000044, 4000, branches=[]), self.usual(0x80000040, 5000)))

    def test_perf_script_says_the_same(self):
        if not shutil.which("perf"):
            self.skipTest("no perf")
        # perf leaves out samples of counters that it doesn't know, so the chain and the raw data alone.
        more = [struct.pack("<QQ", 1, 0x80000040), struct.pack("<I", 4) + bytes(4)]
        path = self.made(USUAL | CALLCHAIN | RAW, [perf.comm(1, "task0")] + [
            self.usual(0x80000040 + 4 * i, 1000 * i, *more, branches=BRANCHES[:i % 3]) for i in range(1, 7)])
        back, again = os.path.join(self.folder, "back"), os.path.join(self.folder, "again")
        self.assertEqual(cases.tool("from_perf", path, "-o", back)[0], 0)
        with open(back, "rb") as file:
            self.assertEqual(cases.tool("perf_data", "987", "-o", again, given=file.read())[0], 0)
        first, second = (cases.run(["perf", "script", "-G", "-i", place] + FIELDS) for place in (path, again))
        self.assertEqual((first[0], second[0]), (0, 0), (first, second))
        self.assertEqual(first[1].count(b"\n"), 6)
        self.assertIn(b"0x80000010/0x80000040/M", first[1])
        self.assertEqual(first[1], second[1])

    def test_a_file_of_perf_itself(self):
        if not shutil.which("perf"):
            self.skipTest("no perf")
        path = os.path.join(self.folder, "perf.data")
        if cases.run(["perf", "record", "-q", "-e", "cpu-clock", "-o", path, "true"])[0]:
            self.skipTest("perf can't record here")
        self.ends(cases.tool("from_perf", path), 8, "no event has branch stacks")

    def test_two_events(self):
        kind = USUAL | 0x10000
        body = [struct.pack("<II", 1, 1), 1, struct.pack("<II", 0, 0), 997]
        wanted, other = self.record(7, 1, *body, self.branches(*BRANCHES)), self.record(8, 1, *body)
        path = self.made(kind, [wanted, other, wanted], second=kind & ~0x800)
        back = os.path.join(self.folder, "back")
        status, _, said = cases.tool("from_perf", path, "-o", back)
        self.assertEqual((status, said), (0, "from_perf: 2 samples of layout 10987\nfrom_perf: left out: 1 samples without"
                                          " branches\n"))
        with open(back, "rb") as file:
            self.assertEqual(file.read(), wanted + wanted)
        self.ends(cases.tool("from_perf", self.made(kind, [], second=kind & ~0x80)), 8, "layouts 10907, 10987")
        self.ends(cases.tool("from_perf", self.made(USUAL, [], second=USUAL & ~0x800)), 8, "don't say whose they are")

    def test_too_many_branches(self):
        path = self.made(USUAL, [self.usual(1, 1, branches=BRANCHES[:1] * 257), self.usual(2, 2)])
        status, _, said = cases.tool("from_perf", path, "-o", os.path.join(self.folder, "back"))
        self.assertEqual((status, said), (0, "from_perf: 1 samples of layout 987\nfrom_perf: left out: 1 samples with more than 256"
                                          " branches\n"))

    def test_refused(self):
        def changed(at, form, value):
            with open(whole, "rb") as file:
                data = bytearray(file.read())
            struct.pack_into(form, data, at, value)
            return self.file("changed-%d-%d" % (at, value), bytes(data))

        whole = self.made(USUAL, [self.usual(1, 1)])
        start = 104 + 112 + 16
        for path, said in ((self.file("0", b""), "no perf.data file"), (self.file("1", b"2ELIFREP" + bytes(96)), "other byte order"),
                           (self.file("2", b"PERFILE2"), "cut at byte 8"), (changed(8, "<Q", 16), "written to a pipe"),
                           (changed(8, "<Q", 50), "a header of 50 bytes"), (changed(16, "<Q", 3), "list of events is broken"),
                           (changed(24, "<Q", 1 << 40), "cut at byte"), (changed(48, "<Q", 1 << 40), "cut: its records end"),
                           (changed(start + 6, "<H", 4), "a record of kind 9 and 4 bytes"), (changed(start, "<I", 81), "compressed"),
                           (changed(start + 8 + 40, "<Q", 9), "the sample at byte"), ("/nowhere", "cannot read /nowhere")):
            self.ends(cases.tool("from_perf", path), 3, said)
        self.ends(cases.tool("from_perf", whole, "more"), 2, "unrecognized arguments: more")


if __name__ == "__main__":
    unittest.main()
