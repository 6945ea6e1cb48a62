"""tools/same: streams made by hand, and two cuts of one schedule."""
import os
import sys
import unittest

sys.path.insert(0, os.path.dirname(os.path.abspath(__file__)))

import cases

LAYOUT = "986"  # pid and tid, time, cpu, period, branches


def sample(pid, time, cpu=0, branches=(), period=10):
    return cases.sample([(pid, pid), time, (cpu, 0), period], branches)


CALL = (0x80000000, 0x80000010, 0x400000)


class Same(cases.Case):
    def compared(self, a, b, layout=LAYOUT):
        """The answer for two streams, with A and B for the names of their files."""
        a, b = self.file("a", a), self.file("b", b)
        status, text, said = cases.tool("same", layout, a, b)
        self.assertEqual(said, "")
        return status, text.replace(a, "A").replace(b, "B")

    def test_same_but_for_cpu_and_order_among_tasks(self):
        a = sample(1, 10) + sample(1, 20, branches=[CALL]) + sample(2, 10) + sample(2, 20)
        b = sample(2, 10, cpu=3) + sample(1, 10, cpu=1) + sample(2, 20) + sample(1, 20, cpu=2, branches=[CALL])
        self.assertEqual(self.compared(a, b), (0, "same: 4 samples of 2 tasks\n"))
        self.assertEqual(self.compared(b"", b""), (0, "same: 0 samples of 0 tasks\n"))

    def test_order_within_a_task_counts(self):
        line = "different: pid 1, sample 0 (time 10): time is 10 in A at offset 0, 20 in B at offset 0\n"
        self.assertEqual(self.compared(sample(1, 10) + sample(1, 20), sample(1, 20) + sample(1, 10)), (1, line))

    def test_first_field_that_differs(self):
        # A sample without branches has 8 bytes of header, 4 fields of 8, and nr: 48 bytes.
        before = sample(2, 5)
        for change, said in (
                (sample(1, 10, period=11), "period is 10 in A at offset 0, 11 in B at offset 48"),
                (sample(1, 11), "time is 10 in A at offset 0, 11 in B at offset 48"),
                (sample(1, 10, branches=[CALL]), "number of branches is 0 in A at offset 0, 1 in B at offset 48"),
                (cases.sample([(1, 1), 10, (0, 0), 10], [], misc=2), "misc is 3 in A at offset 0, 2 in B at offset 48"),
                (cases.sample([(1, 7), 10, (0, 0), 10], []), "tid is 1 in A at offset 0, 7 in B at offset 48")):
            self.assertEqual(self.compared(sample(1, 10) + before, before + change),
                             (1, "different: pid 1, sample 0 (time 10): %s\n" % said))

    def test_branches_by_their_fields(self):
        start = sample(1, 10)
        for branch, field, one, other in (((CALL[0], 0x80000014, CALL[2]), "to", "80000010", "80000014"),
                                          ((4, CALL[1], CALL[2]), "from", "80000000", "00000004"),
                                          ((CALL[0], CALL[1], 1), "flags", "00400000", "00000001")):
            line = ("different: pid 1, sample 1 (time 20): %s of branch 1 is 0x00000000%s in A at offset 48, "
                    "0x00000000%s in B at offset 48\n" % (field, one, other))
            a, b = (start + sample(1, 20, branches=[CALL, second]) for second in (CALL, branch))
            self.assertEqual(self.compared(a, b), (1, line))

    def test_one_stream_is_longer(self):
        line = "different: pid %d, sample %d (time %d): %s has it at offset 48, and %s has no more of this task\n"
        self.assertEqual(self.compared(sample(1, 10) + sample(1, 20), sample(1, 10)), (1, line % (1, 1, 20, "A", "B")))
        self.assertEqual(self.compared(sample(1, 10), sample(1, 10) + sample(2, 7)), (1, line % (2, 0, 7, "B", "A")))

    def test_hardware_index(self):
        index = bytes.fromhex("0500000000000000"), bytes.fromhex("0600000000000000")
        # Layout 802: header, pid with tid, nr; then the hardware index.
        whole = [bytes.fromhex("0900000003002000 0100000001000000 0000000000000000") + one for one in index]
        self.assertEqual(self.compared(whole[0], whole[0], "802:20000"), (0, "same: 1 samples of 1 tasks\n"))
        self.assertEqual(self.compared(whole[0], whole[1], "802:20000"),
                         (1, "different: pid 1, sample 0: hw_index is 0x0000000000000005 in A at offset 0, "
                             "0x0000000000000006 in B at offset 0\n"))

    def test_tasks_by_identifier_or_id(self):
        one, other = (cases.sample([number, (0, 0)], []) for number in (0, 1))
        for layout in ("10880", "8c0"):
            self.assertEqual(self.compared(one + other, other + one, layout), (0, "same: 2 samples of 2 tasks\n"))
        self.ends(cases.tool("same", "801", "/dev/null", "/dev/null"), 8, "lacks pid")

    def test_errors(self):
        good = self.file("good", sample(1, 10))
        for content, said in ((b"\x09", "sample at 0: header cut"), (os.urandom(5), "sample at 0: header cut"),
                              (sample(1, 10) + b"x" * 48, "sample at 48: not a sample"),
                              (sample(1, 10)[:-1], "sample at 0: cut")):
            broken = self.file("broken", content)
            self.ends(cases.tool("same", LAYOUT, good, broken), 6, "%s: %s" % (broken, said))
        self.ends(cases.tool("same", LAYOUT, good, os.path.join(self.folder, "none")), 3, "No such file")
        self.ends(cases.tool("same", LAYOUT, good, self.folder), 3, "directory")
        self.ends(cases.tool("same", LAYOUT, "-", "-"), 2, "standard input")
        self.ends(cases.tool("same", LAYOUT, good), 2, "--help")
        self.ends(cases.tool("same", "+986", good, good), 2, "no layout")
        self.ends(cases.tool("same", "3", good, good), 2, "no layout")

    def test_standard_input_and_pipes(self):
        good = self.file("good", sample(1, 10))
        self.assertEqual(cases.tool("same", LAYOUT, good, "-", given=sample(1, 10, cpu=9)),
                         (0, "same: 1 samples of 1 tasks\n", ""))
        self.closed_pipe("same", LAYOUT, good, good)

    def test_two_cuts_of_one_schedule(self):
        # JAL x1, 8; ADDI; JALR x0, x1: each task calls and returns, with samples of its own periods.
        image = cases.image(0x008000EF, 0x00000013, 0x00008067)
        head = "ctr-schedule 2\nharts 2\nlayout 987\nbranch 20000\ntask 12 12 0 4 0 7\ntask 12 12 1 4 0 5\nimages\n"
        whole = "run 0 0 100\nrun 1 1 100\nend\n"
        cut = "run 0 1 33\nrun 1 0 50\nrun 1 1 60\nrun 0 0 50\nrun 0 1 7\nend\n"
        longer = cut.replace("0 1 33", "0 1 38")
        streams = []
        for commands in (whole, cut, longer):
            status, output, said = cases.run([cases.program(), "run"], head.encode() + image * 2 + commands.encode())
            self.assertEqual((status, said), (0, b""))
            streams.append(output)
        # 100 steps: 14 samples at each 7th and 20 at each 5th; 105 steps of task 1 have 21.
        self.assertNotEqual(streams[0], streams[1])
        self.assertEqual(self.compared(streams[0], streams[1], "987:20000"), (0, "same: 34 samples of 2 tasks\n"))
        status, text = self.compared(streams[0], streams[2], "987:20000")
        self.assertEqual(status, 1)
        self.assertRegex(text, r"different: pid 2, sample 20 \(time 105\): B has it at offset \d+, and A has no more")


if __name__ == "__main__":
    unittest.main()
