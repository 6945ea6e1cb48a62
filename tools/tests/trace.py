"""tools/trace: the trace of data/trace.S, written by hand, and streams with gaps."""
import os
import sys
import unittest

sys.path.insert(0, os.path.dirname(os.path.abspath(__file__)))

import cases

ELF = os.path.join(cases.DATA, "trace.elf")
SAMPLES = os.path.join(cases.DATA, "trace.samples")

# The samples are those of 34 steps in mode M under return-stack emulation (MCTRCTL 84), at depth 16.
#
#   1         a call, recorded
#   2 to 4    ADDI; a call that links to t0, recorded; the jump through t0 is a return, and pops it
#   5, 6      ADDI; the tail call is a jump, which the emulation doesn't record
#   7         the return of `last` pops the call of `first`: nothing is left, but by a return
#   8 to 11   a call; AUIPC and ADDI; JALR by t0 that links to ra is a co-routine swap: it takes the place of the
#             youngest record, with the type 5, ind_call, and it is predicted, as all but branches are
#   12        SCTRCLR
#   13 to 16  the entry 0 is selected, and its source written with V: it is 40, its target and its type are 0
#   17        a call, to where the recursion begins
#   18 to 31  14 calls more: the 16 entries are full, the forged one the oldest
#   32, 33    each call pushes the oldest record out: the forged one, then the call of step 17
#   34        all 16 are equal before and after: only the hardware index, which went on, tells the push
BY_HAND = """\
       1 M    1  _start               pushed call _start -> first
       3 M    2  first+0x4            pushed call first+0x4 -> second
       4 M    1  second               popped call first+0x4 -> second
       7 M    0  last                 popped call _start -> first
       8 M    1  _start+0x4           pushed call _start+0x4 -> swaps
      11 M    1  swaps+0x8            overwritten 0 call _start+0x4 -> swaps
      11 M    1  swaps+0x8            with 0 ind_call swaps+0x8 -> other, predicted
      12 M    0  other                cleared 1 branches
      16 M    1  other+0x10           written 0 unknown 0x40 -> 0x0
      17 M    2  other+0x14           pushed call other+0x14 -> deep
""" + "".join("      %d M  %3d  deep                 pushed call deep -> deep\n" % (time, time - 15)
              for time in range(18, 32)) + """\
      32 M   16  deep                 pushed call deep -> deep
      32 M   16  deep                 lost unknown 0x40 -> 0x0
      33 M   16  deep                 pushed call deep -> deep
      33 M   16  deep                 lost call other+0x14 -> deep
      34 M   16  deep                 pushed call deep -> deep
      34 M   16  deep                 lost call deep -> deep
"""

LAYOUT = "807"  # ip, pid and tid, time, branches
CALL = (0x80000000, 0x80000008, 0x400000)
BRANCH = (0x80000044, 0x80000044, 0x100001)


def sample(time, ip, branches, pid=1):
    return cases.sample([ip, (pid, pid), time], branches)


class Trace(cases.Case):
    def traced(self, stream, *words, said=""):
        """The trace of a stream, by lines without the spaces at their beginnings."""
        ended = cases.tool("trace", ELF, LAYOUT, *words, given=stream)
        self.assertEqual((ended[0], ended[2]), (0, said))
        return [" ".join(line.split()) for line in ended[1].splitlines()]

    def test_by_hand(self):
        self.assertEqual(cases.tool("trace", ELF, "807:20000", SAMPLES), (0, BY_HAND, ""))

    def test_all_steps(self):
        status, text, _ = cases.tool("trace", ELF, "807:20000", SAMPLES, "--all")
        lines = text.splitlines()
        self.assertEqual(status, 0)
        self.assertEqual("".join(line + "\n" for line in lines if not line.endswith(" -")), BY_HAND)
        nothing = [int(line.split()[0]) for line in lines if line.endswith(" -")]
        self.assertEqual(nothing, [2, 5, 6, 9, 10, 13, 14, 15])
        self.assertIn("       6 M    1  first+0xc            -", lines)

    def test_samples_are_those_of_the_program(self):
        image = cases.data("trace.elf")[cases.data("trace.elf").index(cases.image(0x008000EF, 0x01C000EF)):][:72]
        head = b"ctr-schedule 2\nharts 1\nlayout 807\nbranch 20000\ntask 72 72 0 84 0 1\nimages\n"
        self.assertEqual(cases.run([cases.program(), "run"], head + image + b"run 0 0 34\nend\n"),
                         (0, cases.data("trace.samples"), b""))

    def test_gaps_and_runs(self):
        one, three, four = (sample(time, 0x80000008 + 4 * time, [CALL] * time) for time in (1, 3, 4))
        self.assertEqual(self.traced(one + three + four), [
            "1 M 1 _start written 0 call _start -> first",
            "# no sample of the times 2 to 2; 3 branches at 3",
            "4 M 4 first+0xc written 3 call _start -> first"])
        self.assertEqual(self.traced(three + three + four), ["# the first sample is of time 3, with 3 branches",
                                                             "4 M 4 first+0xc written 3 call _start -> first"])
        called = sample(1, 0x80000008, [CALL])
        self.assertEqual(self.traced(sample(0, 0x80000000, []) + called + called + called),
                         ["1 M 1 _start pushed call _start -> first"])
        self.assertEqual(self.traced(called + sample(2, 0x8000000C, [CALL]) + called), [
            "1 M 1 _start pushed call _start -> first", "# time 1 after 2: another run",
            "1 M 1 _start pushed call _start -> first"])

    def test_traps_and_software(self):
        start = sample(1, 0x80000044, [])
        # A branch that was mispredicted; an exception whose target isn't recorded; two branches go from the middle.
        taken = sample(2, 0x80000044, [BRANCH])
        away = (0x80000044, 0, 0x700000)
        trapped = sample(3, 0x80000008, [away, BRANCH])
        again = sample(4, 0x8000000C, [away, CALL, CALL, BRANCH])
        self.assertEqual(self.traced(start + taken + trapped + again), [
            "2 M 1 deep pushed cond deep -> deep, mispredicted", "3 M 2 deep pushed syscall deep -> 0x0",
            "4 M 4 first written 1 call _start -> first", "4 M 4 first written 2 call _start -> first"])
        self.assertEqual(self.traced(start + sample(2, 0x80000048, [CALL, CALL, BRANCH]) + sample(3, 0x8000004C, [])), [
            "2 M 3 deep written 0 call _start -> first", "2 M 3 deep written 1 call _start -> first",
            "2 M 3 deep written 2 cond deep -> deep, mispredicted", "3 M 0 deep+0x4 cleared 3 branches"])

    def test_tasks(self):
        stream = sample(1, 0x80000008, [CALL]) + sample(1, 0x80000004, [], pid=3) + sample(1, 0x80000008, [CALL], pid=2)
        line = "trace: left out: 2 samples of the other pids %s\n"
        self.assertEqual(self.traced(stream, said=line % "2, 3"), ["1 M 1 _start pushed call _start -> first"])
        self.assertEqual(self.traced(stream, "--pid", "3", said=line % "1, 2"), [])
        self.assertEqual(self.traced(b"", said="trace: no sample\n"), [])
        self.assertEqual(self.traced(b"", "--pid", "9", said="trace: no sample of the pid 9\n"), [])

    def test_errors(self):
        self.ends(cases.tool("trace", ELF, "883", SAMPLES), 8, "lacks time")
        self.ends(cases.tool("trace", ELF, "806", SAMPLES), 8, "lacks ip")
        self.ends(cases.tool("trace", ELF, "805", SAMPLES), 8, "lacks pid")
        self.ends(cases.tool("trace", ELF, "807", SAMPLES), 6, "sample at 0: ")
        self.ends(cases.tool("trace", ELF, LAYOUT, given=os.urandom(100)), 6, "sample at 0: ")
        self.ends(cases.tool("trace", ELF, LAYOUT, given=sample(1, 0, [])[:-1]), 6, "sample at 0: cut")
        self.ends(cases.tool("trace", SAMPLES, LAYOUT, SAMPLES), 5, "no ELF file")
        self.ends(cases.tool("trace", ELF, LAYOUT, os.path.join(self.folder, "none")), 3, "No such file")
        self.ends(cases.tool("trace", os.path.join(self.folder, "none"), LAYOUT), 3, "No such file")
        self.ends(cases.tool("trace", ELF), 2, "--help")

    def test_closed_pipe(self):
        self.closed_pipe("trace", ELF, "807:20000", SAMPLES)


if __name__ == "__main__":
    unittest.main()
