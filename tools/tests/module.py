"""The module ctrtools, by the names that its page has."""
import inspect
import io
import os
import re
import sys
import unittest

sys.path.insert(0, os.path.dirname(os.path.abspath(__file__)))

import cases

sys.path.insert(0, cases.TOOLS)
import ctrtools

QUEENS = os.path.join(cases.DATA, "queens.samples")


class Module(cases.Case):
    def test_what_is_read_is_written_as_it_was(self):
        for layout in ("987", ctrtools.Layout("0x987")):
            path = os.path.join(self.folder, "again")
            ctrtools.write(path, ctrtools.read(QUEENS, layout), layout)
            with open(path, "rb") as file:
                self.assertEqual(file.read(), cases.data("queens.samples"))
        stream = io.BytesIO()
        ctrtools.write(stream, ctrtools.read(io.BytesIO(cases.data("queens.samples"))))
        self.assertEqual(stream.getvalue(), cases.data("queens.samples"))

    def test_a_sample_by_hand(self):
        sample = ctrtools.Sample({"ip": 0x80000040, "pid": 1, "tid": 1}, [ctrtools.Branch(0x80000010, 0x80000040, 4 << 20)], hw_index=7)
        stream = io.BytesIO()
        ctrtools.write(stream, [sample], "803:20000")
        want = cases.sample([0x80000040, (1, 1)], [])[:-8] + b"".join(number.to_bytes(8, "little") for number in (
            1, 7, 0x80000010, 0x80000040, 4 << 20))
        want = want[:6] + len(want).to_bytes(2, "little") + want[8:]
        self.assertEqual(stream.getvalue(), want)
        again, = ctrtools.read(io.BytesIO(want), "803:20000")
        self.assertEqual((again.ip, again.pid, again.time, again.hw_index, again.mode()), (0x80000040, 1, 0, 7, "M"))
        self.assertEqual(again.branches, [(0x80000010, 0x80000040, 4 << 20)])
        self.assertEqual(ctrtools.TYPES[again.branches[0].flags >> 20 & 15], "call")
        with self.assertRaises(AttributeError):
            again.nothing

    def test_a_program(self):
        program = ctrtools.Program(os.path.join(cases.DATA, "stacks.elf"))
        sample = ctrtools.Sample({"ip": 0x80000034}, [(0x80000000, 0x80000008, 4 << 20)])
        self.assertEqual((program.name(0x80000004), program.place(0x80000004)), ("_start", "_start+0x4"))
        self.assertEqual(program.stack(sample), ["_start", "main", "leaf"])
        sample.branches = [(0x80000000, 0x80000008, 1 << 20)]
        self.assertIsNone(program.stack(sample))

    def test_errors(self):
        for act, said, status in ((lambda: list(ctrtools.read("/nowhere")), "cannot read /nowhere", 3),
                                  (lambda: list(ctrtools.read(io.BytesIO(b"\x09"))), "sample at 0: header cut", 6),
                                  (lambda: ctrtools.Layout("x"), "x is no layout", 2),
                                  (lambda: ctrtools.Program(QUEENS), "no ELF file", 5),
                                  (lambda: ctrtools.write("/nowhere/x", []), "cannot write /nowhere/x", 4)):
            with self.assertRaises(ctrtools.Error) as raised:
                act()
            self.assertIn(said, str(raised.exception))
            self.assertEqual(raised.exception.status, status)

    def test_the_page_has_each_name(self):
        with open(os.path.join(cases.TOP, "docs", "ctrtools.md"), encoding="utf-8") as file:
            page = file.read().partition("## Names")[2]
        told = [name for row in re.findall(r"^\| (`.*?`) \|", page, re.M) for name in re.findall(r"`(\w+)", row)]
        self.assertEqual(sorted(told), sorted(ctrtools.__all__))
        for name in told:
            if callable(getattr(ctrtools, name)):
                self.assertTrue(inspect.getdoc(getattr(ctrtools, name)), name)


if __name__ == "__main__":
    unittest.main()
