"""tools/record: its refusals, the controls that it sets, and a run of data/stacks.S."""
import os
import re
import shutil
import struct
import subprocess
import sys
import unittest

sys.path.insert(0, os.path.dirname(os.path.abspath(__file__)))

import cases

sys.path.insert(0, cases.TOOLS)
from ctrtools import samples

ELF = os.path.join(cases.DATA, "stacks.elf")
OBJCOPIES = ("riscv64-unknown-elf-objcopy", "llvm-objcopy", "llvm-objcopy-14")
OBJCOPY = next((name for name in OBJCOPIES if shutil.which(name)), None)


class Record(cases.Case):
    def changed(self, *changes):
        """The path of the ELF file with some of its bytes changed: each the place, the form and the value."""
        content = bytearray(cases.data("stacks.elf"))
        for at, form, value in changes:
            struct.pack_into(form, content, at, value)
        return self.file("changed.elf", bytes(content))

    def test_files_that_are_no_task(self):
        # Places in the file header: class 4, machine 18, type 16, entry 24, place of the segments 32, flags 48.
        at, = struct.unpack_from("<Q", cases.data("stacks.elf"), 32)
        segment = at + 56 * next(i for i in range(8) if cases.data("stacks.elf")[at + 56 * i] == 1)
        for changes, said in (([(0, "<I", 0)], "no ELF file"), ([(4, "B", 1)], "not of 64 bits"),
                              ([(18, "<H", 62)], "not for RISC-V"), ([(16, "<H", 1)], "an object file"),
                              ([(16, "<H", 3)], "-static"), ([(48, "<I", 1)], "compressed code"),
                              ([(48, "<I", 4)], "floating-point code"), ([(24, "<Q", 0x80000004)], "entry is 80000004"),
                              ([(segment + 16, "<Q", 0x80100000)], "outside the memory"),
                              ([(segment + 16, "<Q", 0x7FFFFFFC)], "outside the memory"),
                              ([(32, "<Q", 1 << 40)], "cut or broken"), ([(40, "<Q", 1 << 63)], "cut or broken"),
                              ([(segment + 8, "<Q", 1 << 40)], "aren't there"),
                              ([(segment + 32, "<Q", 1 << 19), (segment + 40, "<Q", 8)], "aren't there"),
                              ([(segment + 40, "<Q", 8)], "more bytes in the file than in memory")):
            self.ends(cases.tool("record", self.changed(*changes)), 5, said)
        self.ends(cases.tool("record", self.file("cut.elf", cases.data("stacks.elf")[:60])), 5, "not of 64 bits")

    def test_extensions(self):
        content = cases.data("stacks.elf").replace(b"rv64i2p1_m2p0_", b"rv64i2p1_a2p0_")
        self.ends(cases.tool("record", self.file("atomic.elf", content)), 5, "a hart here has no a")

    def test_words(self):
        for words, said in (([], "ELF"), ([ELF, "--steps", "0"], "--steps"), ([ELF, "--every", "x"], "--every"),
                            ([ELF, "--depth", "4"], "the entries of the record buffer"), ([ELF, "--mode", "X"], "not X"),
                            ([ELF, "--branches", "lbr"], "call_stack"), ([ELF, "--controls", "xyz"], "hexadecimal"),
                            ([ELF, "--layout", "3"], "3 is no layout"), ([ELF, "--step", "3"], "unrecognized"),
                            ([ELF, "--controls", "8_4"], "not 8_4"), ([ELF, "--layout", "+987"], "+987 is no layout"),
                            ([ELF, "--controls", "1" + "0" * 16], "64 bits"), ([ELF, "--controls", ""], "--controls is empty"),
                            ([""], "ELF is empty"), ([ELF, "--layout", ""], "--layout is empty"),
                            ([ELF, "-o", ""], "-o is empty"), ([ELF, "--until", ""], "--until is empty"),
                            ([ELF, "--until", "leaf", "--until-still"], "two ends of one run")):
            self.ends(cases.tool("record", *words), 2, said)
        self.ends(cases.tool("record", "/nowhere"), 3, "cannot read /nowhere")
        with cases.environment(CTRSIM="/bin/false"):
            self.ends(cases.tool("record", ELF), 7, "status 1")

    def schedule(self, *words):
        """The schedule of some words, its image apart: the lines before it and those behind it."""
        path = os.path.join(self.folder, "schedule")
        with cases.environment(CTRSIM="/bin/true"):
            cases.tool("record", ELF, "--schedule", path, *words)
        with open(path, "rb") as file:
            head, _, rest = file.read().partition(b"images\n")
        size = int(re.search(rb"^task (\d+) ", head, re.M).group(1))
        return head.decode(), rest[:size], rest[size:].decode()

    def test_controls(self):
        # By the bits of docs/records.md: the enable of the mode, and the kinds that stay out.
        out = sum(1 << bit for bit in (33, 34, 35, 37, 40, 41, 42, 43, 44, 45, 46, 47))
        for words, machine, guest in (([], 0x84, 0), (["--mode", "U"], 0x81, 0), (["--mode", "S,U"], 0x83, 0),
                                      (["--mode", "VS,VU"], 0, 0x83), (["--mode", "M,VU"], 0x84, 0x81),
                                      (["--branches", "any"], 4 | 1 << 36, 0), (["--branches", "any_taken"], 4, 0),
                                      (["--branches", "call"], 4 | out & ~(1 << 41), 0),
                                      (["--branches", "any_ret"], 4 | out & ~(1 << 45) & ~(1 << 44), 0),
                                      (["--branches", "cond"], 4 | out & ~(1 << 37) | 1 << 36, 0),
                                      (["--controls", "1084:82"], 0x1084, 0x82),
                                      (["--controls", "0x84:0X82", "--layout", "0x803:0x20000"], 0x84, 0x82)):
            head, _, _ = self.schedule(*words)
            task = next(line for line in head.split("\n") if line.startswith("task "))
            self.assertEqual(task.split()[4:6], ["%x" % machine, "%x" % guest], words)

    def test_schedule(self):
        head, image, tail = self.schedule("--depth", "64", "--every", "7", "--steps", "2000000001", "--timer", "900000000",
                                          "--layout", "803:20000")
        self.assertEqual(head, "ctr-schedule 2\nharts 1\nlayout 803\nbranch 20000\ntask %d 1048576 2 84 0 7\n"
                         "irq 0 900000000 7\nirq 0 1800000000 7\n" % len(image))
        self.assertEqual(tail, "run 0 0 1000000000\nrun 0 0 1000000000\nrun 0 0 1\nsample 0\nend\n")

    def test_image(self):
        if not OBJCOPY:
            self.skipTest("no objcopy that knows RISC-V")
        flat = os.path.join(self.folder, "flat")
        subprocess.run([OBJCOPY, "-O", "binary", ELF, flat], check=True)
        with open(flat, "rb") as file:
            self.assertEqual(self.schedule()[1], file.read())

    def test_run(self):
        # The first steps are the call of main at 80000000, that of tailer at 80000008, the jump to hot, its first
        # instruction, and the call of leaf. So there is one branch after step 1, two after steps 2 to 4, three after 5.
        with cases.environment(CTRSIM=cases.program()):
            status, output, said = cases.run([os.path.join(cases.TOOLS, "record"), ELF, "--every", "1", "--steps", "5",
                                              "--layout", "805"])
        calls = [(0x80000028, 0x80000034, 4 << 20), (0x80000008, 0x80000020, 4 << 20), (0x80000000, 0x80000008, 4 << 20)]
        places = [0x80000008, 0x80000020, 0x80000024, 0x80000028, 0x80000034]
        wanted = b"".join(cases.sample([ip, time], calls[-count:])
                          for ip, time, count in zip(places, range(1, 6), (1, 2, 2, 2, 3)))
        self.assertEqual((status, output), (0, wanted))
        self.assertIn("5 samples of layout 805, one after each 1 steps\n", said.decode())
        self.assertIn("after 5 steps it stood in mode M at leaf\n", said.decode())

    def recorded(self, *words):
        """The status of a run to some place, how many samples it wrote, and what it said last."""
        path = os.path.join(self.folder, "samples")
        with cases.environment(CTRSIM=cases.program()):
            status, _, said = cases.tool("record", ELF, "--every", "1", "-o", path, *words)
        with open(path, "rb") as file:
            return status, len(list(samples.read(file, samples.Layout()))), said.splitlines()[-1]

    def test_until_a_place(self):
        # By data/stacks.S the fifth step calls leaf. _start is never come to again: the program ends in a jump to itself.
        self.assertEqual(self.recorded("--until", "leaf"), (0, 5, "record: it came to leaf after 5 steps"))
        self.assertEqual(self.recorded("--until", "main"), (0, 1, "record: it came to main after 1 steps"))
        self.assertEqual(self.recorded("--until", "leaf", "--steps", "4"), (1, 4, "record: in 4 steps it didn't come to leaf"))
        self.assertEqual(self.recorded("--until", "_start", "--steps", "900"),
                         (1, 900, "record: in 900 steps it didn't come to _start"))
        self.ends(cases.tool("record", ELF, "--until", "nothing"), 5, "no symbol nothing")

    def test_until_it_stays(self):
        # queens.c ends in a loop of one instruction, solved. The places after each step, by samples of all of them.
        queens, path = os.path.join(cases.DATA, "queens.elf"), os.path.join(self.folder, "all")
        with cases.environment(CTRSIM=cases.program()):
            self.assertEqual(cases.tool("record", queens, "--steps", "60000", "--every", "1", "--controls", "0", "-o", path)[0], 0)
            with open(path, "rb") as file:
                places = [sample.ip for sample in samples.read(file, samples.Layout())]
            last = next(i for i in range(len(places), 0, -1) if places[i - 1] != places[-1])
            for words in (["--until-still"], ["--until", "solved"]):
                status, _, said = cases.tool("record", queens, *words, "-o", path)
                self.assertEqual((status, said.splitlines()[-1].split(" after ")[1]), (0, "%d steps" % (last + 1)))
            self.assertEqual(cases.tool("record", queens, "--until-still", "--steps", str(last + 1), "-o", path)[0], 1)

    def test_what_is_said(self):
        with cases.environment(CTRSIM=cases.program()):
            words = [ELF, "--mode", "U", "--steps", "3000", "--timer", "2"]
            said = cases.run([os.path.join(cases.TOOLS, "record")] + words)[2].decode()
        self.assertIn("no sample has a branch; recorded is mode U, and the samples are of mode M", said)
        self.assertIn("left out: 475 of 1499 timer interrupts, those behind step 2048", said)

    def test_a_fault(self):
        # The word of _start's first instruction becomes 0, which is no instruction; mtvec is 0.
        offset = cases.data("stacks.elf").index(struct.pack("<I", 0x008000EF))
        with cases.environment(CTRSIM=cases.program()):
            path = self.changed((offset, "<I", 0))
            said = cases.run([os.path.join(cases.TOOLS, "record"), path, "--steps", "3000"])[2].decode()
        self.assertIn("at 0x0, as in the last 3 samples, from step 997 on", said)
        self.assertIn("it went wrong: a fault led there, since mtvec is 0", said)

    def test_closed_pipe(self):
        with cases.environment(CTRSIM=cases.program()):
            self.closed_pipe("record", ELF, "--steps", "3000")


if __name__ == "__main__":
    unittest.main()
