"""tools/explain: refusals by docs/schedule.md, line and text, with what is said of each; and mutated schedules, which
the tool and the program judge alike."""
import os
import random
import sys
import unittest

sys.path.insert(0, os.path.dirname(os.path.abspath(__file__)))

import cases

HEAD = "ctr-schedule 1\nharts 2\nlayout 883\ntask 4 8 0 4 0 0\ntask 4 4 4 4 0 7\nirq 1 5 3\nimages\n"
IMAGES = cases.image(0x008000EF, 0x0000006F)
COMMANDS = "run 0 0 1\nrun 0 1 3\nrun 1 0 0\nsample 0\nsample 1\nevict 1\nend\n"

# What is changed of head and commands, the line and the text of the refusal, and some words of what is said.
REFUSED = [
    ("ctr-schedule 1", "ctr-schedule 3", 1, "out of range", "versions 1 and 2"),
    ("ctr-schedule 1", "ctr-schedule", 1, "unexpected words", "`ctr-schedule VERSION`: 2 words, and there are 1"),
    ("ctr-schedule 1\n", "", 1, "unexpected words", "`harts` doesn't belong here: there may be `ctr-schedule`"),
    ("ctr-schedule 1\n", "\ufeffctr-schedule 1\n", 1, "unexpected words", "byte order mark"),
    ("harts 2", "harts 17", 2, "out of range", "1 to 16 harts"),
    ("harts 2", "harts  2", 2, "unexpected words", "exactly one space"),
    ("harts 2", "harts x", 2, "not a number", "N is a decimal number"),
    ("harts 2", "harts\t16", 2, "unexpected words", "a tab"),
    ("harts 2", "Harts 2", 2, "unexpected words", "lower case: `harts`"),
    ("harts 2", "harts 2\r", 2, "not a number", "carriage return"),
    ("layout 883", "layout 0x883", 3, "not a number", "There is no prefix: write 883"),
    ("layout 883", "layout 83", 3, "out of range", "bit 800: perhaps 883"),
    ("layout 883", "layout 893", 3, "out of range", "The bits 10 are none"),
    ("layout 883", "layout 2179", 3, "out of range", "write 883, if 2179 is meant in decimal"),
    ("layout 883", "layout 883\nbranch 20000", 4, "unexpected words", "`ctr-schedule 2` in line 1"),
    ("ctr-schedule 1", "ctr-schedule 2", 4, "unexpected words", "`branch 0` or `branch 20000`"),
    ("task 4 8 0 4 0 0", "task 4 8 16 4 0 0", 4, "out of range", "For 16 entries write 0"),
    ("task 4 8 0 4 0 0", "task 4 8 5 4 0 0", 4, "out of range", "DEPTH is a code"),
    ("task 4 8 0 4 0 0", "task 4 8 0 4 0", 4, "unexpected words", "usually PERIOD"),
    ("task 4 8 0 4 0 0", "task 12 8 0 4 0 0", 4, "out of range", "IMAGE comes first"),
    ("task 4 8 0 4 0 0", "task 4 10 0 4 0 0", 4, "out of range", "The next multiple is 12"),
    ("task 4 8 0 4 0 0", "task 4 8 0 10000000000000000 0 0", 4, "out of range", "MCTRCTL is below 2^64"),
    ("task 4 8 0 4 0 0", "task 4 8 0 4 0 1000000001", 4, "out of range", "PERIOD is 0 to"),
    ("task 4 8 0 4 0 0", "task 4 8 0 4 0 1e6", 4, "not a number", "digits alone"),
    ("task 4 8 0 4 0 0", "task 4 8 0 4 0 -1", 4, "not a number", "no sign"),
    ("task 4 8 0 4 0 0", "task 4 8 0 4 0 0 # first", 4, "unexpected words", "no comments"),
    ("task 4 8 0 4 0 0", "task 4 8 0 4 0 ff", 4, "not a number", "write 255, if it is meant in hexadecimal"),
    ("irq 1 5 3", "irq 1 5 4", 6, "out of range", "CAUSE is the number of an interrupt"),
    ("irq 1 5 3", "irq 2 5 3", 6, "no such task", "the last one here is 1"),
    ("irq 1 5 3", "irq 1 5 3\nirq 1 4 3", 7, "interrupts out of order", "sort them"),
    ("irq 1 5 3", "irq 1 5 3\ntask 4 4 0 4 0 0", 7, "unexpected words", "before the first irq line"),
    ("irq 1 5 3\nimages\n", "", 6, "unexpected words", "`task` or `irq` or `images`"),
    ("images\n", "", 7, "unexpected words", "`irq` or `images`"),
    ("task 4 4 4 4 0 7", "task 0 4 4 4 0 7", 8, "unexpected words", "comes to 4 bytes, and the first command seems to"),
    ("task 4 8 0 4 0 0", "task 8 8 0 4 0 0", 8, "unexpected words", "the first command seems to stand behind 8"),
    ("run 0 0 1\n", "\nrun 0 0 1\n", 8, "unexpected words", "right behind the images"),
    ("run 0 0 1", "run 0 1 1000000001", 8, "out of range", "write several run lines"),
    ("run 0 0 1", "run 0 2 1", 8, "no such task", "the last one here is 1"),
    ("run 0 0 1", "run 2 0 1", 8, "no such hart", "the last one here is 1"),
    ("run 0 0 1", "run 0 0", 8, "unexpected words", "`run HART TASK STEPS`: 4 words, and there are 3"),
    ("run 0 1 3", "run  1 3", 9, "not a number", "HART is empty"),
    ("sample 0\n", "evict 1\nsample 0\n", 12, "task is on no hart", "It left its hart at line 11"),
    ("run 0 0 1\n", "sample 0\n", 8, "task is on no hart", "No run line has brought it"),
    ("run 0 0 1\n", "evict 0\n", 8, "hart has no task", "nobody is on this one"),
    ("run 0 0 1\n", "run 1 0 1\nevict 0\n", 9, "hart has no task", "Task 0 is on hart 1: perhaps `evict 1`"),
    ("end\n", "", 14, "input ended", "`end`; it is missing"),
    ("end\n", "end", 14, "input ended", "no line feed"),
    ("end\n", "end\n\n", 15, "input goes on", "1 bytes follow it, white space"),
    ("end\n", "finish\n", 14, "unexpected words", "`run` or `sample` or `evict` or `end`"),
    ("sample 1", "x" * 256, 12, "too long", "255 bytes at most"),
]

WORDS = ["run", "sample", "evict", "end", "images", "irq", "task", "branch", "harts", "", "Run"]
NUMBERS = ["0", "1", "2", "3", "4", "5", "7", "8", "16", "17", "64", "883", "20000", "1000000001", "1" + "0" * 19, "",
           "0x1", "-1", "a", "1\r", "00000000004"]
LINES = ["run 0 0 0", "run 1 1 2", "sample 0", "sample 1", "evict 0", "evict 1", "end", "images", "irq 1 5 2",
         "irq 1 6 13", "irq 0 7 1", "task 4 4 0 4 0 0", "branch 0", "", "x" * 255, "x" * 256]


def mutated(text, chance):
    """A schedule with one thing changed."""
    lines = text.split(b"\n")
    i = chance.randrange(len(lines))
    kind = chance.randrange(8)
    if kind == 0:
        return text[:chance.randrange(len(text) + 1)]
    if kind == 1:
        at = chance.randrange(len(text) + 1)
        return text[:at] + bytes([chance.choice(b"\n \r0a\xff")]) + text[at:]
    if kind == 2:
        del lines[i]
    elif kind == 3:
        lines.insert(i, chance.choice(LINES).encode())
    elif kind == 4:
        lines.insert(i, chance.choice(lines))
    else:
        words = lines[i].split(b" ")
        at = chance.randrange(len(words))
        words[at] = chance.choice(NUMBERS if at else WORDS).encode()
        lines[i] = b" ".join(words)
    return b"\n".join(lines)


class Explain(cases.Case):
    def explained(self, text, *words):
        cases.program()
        return cases.tool("explain", *words, given=text)

    def test_refusals(self):
        for old, new, line, text, said in REFUSED:
            with self.subTest(old=old, new=new):
                self.assertEqual((HEAD + COMMANDS).count(old), 1)
                schedule = HEAD.replace(old, new).encode() + IMAGES + COMMANDS.replace(old, new).encode()
                ended = self.explained(schedule)
                self.assertEqual((ended[0], ended[2]), (1, ""), ended)
                self.assertEqual(ended[1].splitlines()[0], "ctrsim: line %d: %s" % (line, text))
                self.assertIn(said, ended[1])

    def test_refusals_of_whole_texts(self):
        head = HEAD.encode()
        for schedule, line, text, said in (
                (b"", 1, "input ended", "Nothing was read"),
                (cases.data("trace.elf"), 1, "too long", "an ELF file"),
                (b"ctr-schedule 1\n", 2, "input ended", "where `harts` should stand"),
                ((HEAD + "x").replace("\n", "\r\n").encode(), 1, "not a number", "carriage return"),
                (head + IMAGES[:5], 7, "input ended", "ask for 8 bytes of images, and 5 follow"),
                (head.replace(b"task 4", b"task 40").replace(b"0 8", b"0 40").replace(b"0 4 4", b"0 40 4") + IMAGES +
                 b"run 0 0 1\nend\n", 7, "input ended", "the first command seems to stand behind 8"),
                (head.replace(b"harts 2", b"harts 1") + IMAGES + b"run 1 0 1\n", 8, "no such hart", "`run 0 1`"),
                (head + IMAGES + b"end\n" + head, 9, "input goes on", "Another schedule begins there")):
            with self.subTest(schedule=schedule):
                ended = self.explained(schedule)
                self.assertEqual((ended[0], ended[2]), (1, ""), ended)
                self.assertEqual(ended[1].splitlines()[0], "ctrsim: line %d: %s" % (line, text))
                self.assertIn(said, ended[1])

    def test_place_of_the_word(self):
        ended = self.explained(HEAD.replace("task 4 8 0", "task 4 8 16").encode() + IMAGES + COMMANDS.encode())
        self.assertEqual(ended, (1, "ctrsim: line 4: out of range\n"
                                    "  task 4 8 16 4 0 0\n"
                                    "           ^^ DEPTH\n"
                                    "DEPTH is a code: 0, 1, 2, 3 and 4 are for 16, 32, 64, 128 and 256 entries.\n"
                                    "For 16 entries write 0.\n", ""))

    def test_accepted(self):
        text = HEAD.encode() + IMAGES + COMMANDS.encode()
        expected = (0, "accepted\n"
                       "version 1, 2 harts, layout 883, 2 tasks, 1 irq line, 6 commands: 3 run, 2 sample, 1 evict\n"
                       "task 0: an image of 4 bytes in 8, 16 entries, period 0, 1 step, 1 sample\n"
                       "task 1: an image of 4 bytes in 4, 256 entries, period 7, 3 steps, 1 sample\n"
                       "task 1: 1 irq line of it come too late: the first is of step 5\n", "")
        self.assertEqual(self.explained(text), expected)
        self.assertEqual(self.explained(b"", self.file("schedule", text)), expected)

    def test_number_of_samples(self):
        text = HEAD.encode() + IMAGES + b"run 0 0 5\nrun 1 1 23\nsample 1\nrun 0 1 12\nend\n"
        # 35 steps of task 1, with a sample at each 7th, and one more.
        self.assertIn("35 steps, 6 samples", self.explained(text)[1])
        status, output, _ = cases.run([cases.program(), "run"], text)
        status, shown, _ = cases.run([cases.program(), "show", "883"], output)
        self.assertEqual((status, shown.count(b"sample ")), (0, 6))

    def test_odd_but_accepted(self):
        one = "ctr-schedule 1\nharts 1\nlayout 803\ntask %d 64 0 %s 0 %d\nimages\n"
        jump = cases.image(0x0000006F)
        for image, control, period, commands, said in (
                (jump, "4", 0, "run 0 0 5\n", "no sample of it is written: its PERIOD is 0"),
                (jump, "4", 6, "run 0 0 5\n", "no sample of it is written: its PERIOD is more than its steps"),
                (jump, "0", 1, "run 0 0 5\n", "MCTRCTL and VSCTRCTL enable no mode"),
                (jump, "132", 1, "run 0 0 5\n", "has bits that the register hasn't and drops: 30"),
                (bytes(8), "4", 1, "run 0 0 5\n", "its image is all zero"),
                (b"\x7fELF\x02\x01", "4", 1, "run 0 0 5\n", "its image is an ELF file"),
                (b"0000006f\n", "4", 1, "run 0 0 5\n", "its image is text in hexadecimal"),
                (jump, "4", 1, "run 0 0 0\n", "it makes no step")):
            head = (one % (len(image), control, period)).encode()
            ended = self.explained(head + image + commands.encode() + b"end\n")
            self.assertEqual((ended[0], ended[2]), (0, ""), ended)
            self.assertIn(said, ended[1].splitlines()[3])
        ended = self.explained((one % (4, "4", 5)).encode() + jump + b"run 0 0 5\nend\n")
        self.assertEqual(ended[1].count("\n"), 3)

    def test_many_steps_are_not_made(self):
        head = "ctr-schedule 1\nharts 1\nlayout 803\ntask 4 4 0 4 0 1\nimages\n".encode() + cases.image(0x0000006F)
        ended = self.explained(head + b"run 0 0 1000000000\n" * 50 + b"sample 1\n")
        self.assertEqual(ended[1].splitlines()[0], "ctrsim: line 56: no such task")

    def test_mutated_schedules(self):
        chance = random.Random(1)
        whole = HEAD.encode() + IMAGES + COMMANDS.encode()
        statuses = set()
        for _ in range(150):
            text = whole
            for _ in range(chance.randrange(1, 4)):
                text = mutated(text, chance)
            status, output, said = self.explained(text)
            self.assertIn(status, (0, 1), (text, said))
            self.assertEqual(said, "")
            statuses.add(output.splitlines()[0].split(": ")[-1])
        self.assertGreater(len(statuses), 5, statuses)

    def test_errors(self):
        good = HEAD.encode() + IMAGES + COMMANDS.encode()
        program = self.file("program", b"#!/bin/sh\ncat >/dev/null\necho 'ctrsim: line 1: too long' >&2\nexit 5\n")
        os.chmod(program, 0o755)
        with cases.environment(CTRSIM=program):
            self.ends(cases.tool("explain", given=good), 9,
                      "the program says `ctrsim: line 1: too long`, and by docs/schedule.md it is `accepted`")
        with cases.environment(CTRSIM="/bin/false"):
            self.ends(cases.tool("explain", given=good), 7, "the program ended with status 1")
        with cases.environment(CTRSIM=self.file("none", b"")):
            self.ends(cases.tool("explain", given=good), 7, "cannot run the program")
        self.ends(cases.tool("explain", os.path.join(self.folder, "missing")), 3, "No such file")
        self.ends(cases.tool("explain", "one", "two"), 2, "--help")

    def test_nonsense(self):
        for _ in range(5):
            ended = self.explained(os.urandom(400))
            self.assertEqual((ended[0], ended[2]), (1, ""))

    def test_closed_pipe(self):
        cases.program()
        self.closed_pipe("explain", given=HEAD.encode() + IMAGES + COMMANDS.encode())


if __name__ == "__main__":
    unittest.main()
