"""tools/fold: stacks of data/stacks.S, from samples made by hand."""
import os
import shutil
import sys
import unittest

sys.path.insert(0, os.path.dirname(os.path.abspath(__file__)))

import cases

ELF = os.path.join(cases.DATA, "stacks.elf")
CALL, IND_CALL, COND = 4 << 20, 5 << 20 | 2, 1 << 20 | 2

# The functions of data/stacks.S, by the lengths of those before them; each call by its place.
MAIN, TAILER, HOT, LEAF, OUTER, INNER, THROWER, HANDLER, EVEN, ODD, CHOOSER = (
    0x80000000 + at for at in (0x08, 0x20, 0x24, 0x34, 0x38, 0x40, 0x48, 0x4C, 0x54, 0x5C, 0x64))
START_MAIN = (0x80000000, MAIN, CALL)
MAIN_TAILER = (MAIN, TAILER, CALL)
MAIN_OUTER, MAIN_OUTER_AGAIN = (MAIN + 0x0C, OUTER, CALL), (MAIN + 0x10, OUTER, CALL)
HOT_LEAF = (HOT + 4, LEAF, CALL)
OUTER_INNER, INNER_THROWER = (OUTER, INNER, CALL), (INNER, THROWER, CALL)
HANDLER_LEAF = (HANDLER, LEAF, CALL)
EVEN_LEAF, ODD_EVEN = (EVEN, LEAF, CALL), (ODD, EVEN, CALL)


def sample(ip, *branches, pid=1):
    """A sample of the layout 803, its branches the oldest first."""
    return cases.sample([ip, (pid, pid)], branches[::-1])


class Fold(cases.Case):
    def folded(self, *samples, words=()):
        status, text, said = cases.tool("fold", ELF, "803", *words, given=b"".join(samples))
        self.assertEqual(status, 0, said)
        return text, said

    def stack(self, ip, *branches, notes=0):
        text, said = self.folded(sample(ip, *branches))
        self.assertEqual(said.count("1 samples want a jump back"), notes)
        self.assertEqual(said.count("\n"), notes, said)
        self.assertTrue(text.endswith(" 1\n"), text)
        return text[:-3]

    def test_calls(self):
        self.assertEqual(self.stack(0x80000004), "_start")
        self.assertEqual(self.stack(MAIN + 4, START_MAIN), "_start;main")
        self.assertEqual(self.stack(THROWER, START_MAIN, MAIN_OUTER, OUTER_INNER, INNER_THROWER),
                         "_start;main;outer;inner;thrower")
        self.assertEqual(self.stack(LEAF, START_MAIN, (MAIN, LEAF, IND_CALL)), "_start;main;leaf")

    def test_tail_calls(self):
        self.assertEqual(self.stack(HOT, START_MAIN, MAIN_TAILER), "_start;main;tailer;hot")
        self.assertEqual(self.stack(LEAF, START_MAIN, MAIN_TAILER, HOT_LEAF), "_start;main;tailer;hot;leaf")

    def test_tail_call_to_a_function_further_out(self):
        # even leads on to odd, which calls even, which leads on to odd: odd is further out, and no jump went back to it.
        self.assertEqual(self.stack(ODD + 4, START_MAIN, (MAIN, EVEN, CALL), ODD_EVEN), "_start;main;even;odd;even;odd")
        self.assertEqual(self.stack(LEAF, START_MAIN, (MAIN, EVEN, CALL), ODD_EVEN, EVEN_LEAF),
                         "_start;main;even;odd;even;leaf")

    def test_tail_call_through_a_pointer(self):
        # chooser may lead to any function, also to one that is further out: no jump went back to it.
        chosen = [START_MAIN, (MAIN, CHOOSER, CALL)]
        self.assertEqual(self.stack(HOT, *chosen), "_start;main;chooser;hot")
        self.assertEqual(self.stack(LEAF, *chosen, HOT_LEAF), "_start;main;chooser;hot;leaf")
        self.assertEqual(self.stack(MAIN + 4, *chosen), "_start;main;chooser;main")
        self.assertEqual(self.stack(LEAF, *chosen, (MAIN, EVEN, CALL), EVEN_LEAF), "_start;main;chooser;main;even;leaf")
        self.assertEqual(self.stack(CHOOSER, *chosen), "_start;main;chooser")

    def test_jumps_back(self):
        # The return of thrower took its own record away.
        left = [START_MAIN, MAIN_OUTER, OUTER_INNER]
        self.assertEqual(self.stack(MAIN + 0x10, *left, notes=1), "_start;main")
        self.assertEqual(self.stack(OUTER, *left, MAIN_OUTER_AGAIN, notes=1), "_start;main;outer")
        self.assertEqual(self.stack(INNER, *left, MAIN_OUTER_AGAIN, OUTER_INNER, notes=1), "_start;main;outer;inner")

    def test_calls_that_have_returned(self):
        # Without return-stack emulation the records of leaf and outer stay: fold tells of it, and takes them for left.
        self.assertEqual(self.stack(LEAF, START_MAIN, (MAIN, LEAF, CALL), (MAIN, OUTER, CALL), OUTER_INNER, (MAIN, LEAF, CALL),
                                    notes=1), "_start;main;leaf")

    def test_handlers(self):
        self.assertEqual(self.stack(HANDLER, START_MAIN, MAIN_OUTER), "_start;main;outer;handler")
        self.assertEqual(self.stack(LEAF, START_MAIN, MAIN_OUTER, HANDLER_LEAF), "_start;main;outer;handler;leaf")

    def test_counts_and_unknown_places(self):
        text, _ = self.folded(*[sample(LEAF, START_MAIN)] * 2, sample(MAIN, START_MAIN), sample(4))
        self.assertEqual(text, "[unknown] 1\n_start;main 1\n_start;main;leaf 2\n")

    def test_other_transfers_than_calls(self):
        text, said = self.folded(sample(LEAF, START_MAIN, (MAIN, MAIN, COND)))
        self.assertEqual(text, "leaf 1\n")
        self.assertEqual(said, "fold: 1 samples have other transfers than calls, so they count for their function alone\n")

    def test_tasks(self):
        both = [sample(LEAF), sample(HOT, pid=2), sample(HOT, pid=2)]
        text, said = self.folded(*both)
        self.assertEqual((text, said.count("--pid")), ("hot 2\nleaf 1\n", 1))
        self.assertEqual(self.folded(*both, words=["--pid", "2"]),
                         ("hot 2\n", "fold: left out: 1 samples of other tasks\n"))

    def test_errors(self):
        self.ends(cases.tool("fold"), 2, "ELF")
        self.ends(cases.tool("fold", ELF, "3"), 2, "3 is no layout")
        self.ends(cases.tool("fold", ELF, "802"), 8, "lacks ip")
        self.ends(cases.tool("fold", "/nowhere"), 3, "cannot read /nowhere")
        self.ends(cases.tool("fold", self.file("no.elf", b"no"), "803"), 5, "no ELF file")
        self.ends(cases.tool("fold", ELF, "803", given=b"\x09"), 6, "sample at 0: header cut")
        self.ends(cases.tool("fold", ELF, "803", given=bytes(64)), 6, "sample at 0: not a sample")

    def test_nothing(self):
        self.assertEqual(self.folded(), ("", ""))

    def test_perf_folds_the_same(self):
        """The stacks that perf makes of the same samples, by the branches (lbr) where no tail call, handler or jump back
        is among them, and by the chains of tools/perf_data."""
        if not shutil.which("perf"):
            self.skipTest("no perf")
        plain = [sample(MAIN + 4, START_MAIN), sample(HOT + 4, START_MAIN, (MAIN, HOT, CALL)),
                 sample(THROWER, START_MAIN, MAIN_OUTER, OUTER_INNER, INNER_THROWER),
                 sample(LEAF, START_MAIN, (MAIN, LEAF, CALL))]
        left = [START_MAIN, MAIN_OUTER, OUTER_INNER]
        others = [sample(LEAF, START_MAIN, MAIN_TAILER, HOT_LEAF), sample(HOT, START_MAIN, MAIN_TAILER),
                  sample(INNER, *left, MAIN_OUTER_AGAIN, OUTER_INNER), sample(LEAF, START_MAIN, MAIN_OUTER, HANDLER_LEAF),
                  sample(LEAF, START_MAIN, (MAIN, EVEN, CALL), ODD_EVEN, EVEN_LEAF)]
        for graph, stream in (("lbr", plain), ("frames", plain), ("frames", plain + others + plain)):
            self.assertEqual(self.by_perf(graph, stream), self.folded(*stream)[0], graph)

    def by_perf(self, graph, stream):
        """The lines of `perf script report stackcollapse`, without the name of the task."""
        path = os.path.join(self.folder, "perf.data")
        status, _, said = cases.tool("perf_data", "803", "--map", ELF, "--as-user", "--call-graph", graph, "-o", path,
                                     given=b"".join(stream))
        self.assertEqual(status, 0, said)
        status, text, said = cases.run(["perf", "script", "report", "stackcollapse", "-i", path])
        lines = [line.partition(";")[2] for line in text.decode().splitlines() if line.startswith("task0;")]
        self.assertTrue(lines, said)
        return "".join(line + "\n" for line in sorted(lines))

    def test_closed_pipe(self):
        self.closed_pipe("fold", ELF, "803", given=sample(LEAF))


if __name__ == "__main__":
    unittest.main()
