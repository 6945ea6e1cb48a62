#!/usr/bin/env python3
"""Time, peak memory and system calls of the whole program, on schedules, on samples and on `demo`.

    bench/program.py [BINARY [PART]]

BINARY is crates/ctrsim/out/ctrsim where none is given. PART makes all inputs smaller by that factor, for a program that is
built to be checked and not to be fast. The runs are

    a jump to itself, 10,000,000 steps in one command
    four tasks of 65,536 bytes that take turns on four harts, 250,000 steps each time, a sample after every 10,000:
        100,000,000 steps
    64 tasks over 16 harts, each of which makes 100 steps on the next hart in turn: 100,000 commands, depths 16 and 256
    a sample after every 10 steps, 100,000 samples
    a schedule of 10 MB: 1,000,000 commands of 0 steps
    `show` on 100 MB of samples, from a file and from a pipe
    `demo 100000`

Beside each stands bench/plain_program.c, which does the same in plain C and must write the same bytes; for `demo` it runs
the schedule as text. For `show` perf stands beside it too, where it is installed: `perf script` prints the same branches.
"""
import os
import shutil
import struct
import subprocess
import sys
import tempfile

import measure
import steps as small

JUMP = [0x0000006F]
CALLS = [0x008000EF, 0xFFDFF06F, 0x00008067]


def schedule(header, images, commands):
    return header.encode() + b"images\n" + b"".join(images) + "".join(commands).encode() + b"end\n"


def one_task(words, count, period=0, commands=None):
    image = small.image_of(words)
    header = "ctr-schedule 1\nharts 1\nlayout 803\ntask %d %d 0 4 0 %d\n" % (len(image), small.MEM, period)
    return schedule(header, [image], commands or ["run 0 0 %d\n" % count])


def four_tasks(count):
    """Four tasks that take turns on four harts, as a profiler would sample them."""
    image = small.image_of(CALLS).ljust(65536, b"\0")
    header = "ctr-schedule 1\nharts 4\nlayout 803\n" + "task 65536 65536 2 4 0 10000\n" * 4
    return schedule(header, [image] * 4, ["run %d %d 250000\n" % ((i + i // 4) % 4, i % 4) for i in range(count // 250000)])


def many_tasks(code, count):
    """64 tasks over 16 harts. A task comes to another hart in each round."""
    image = small.image_of(CALLS)
    header = "ctr-schedule 1\nharts 16\nlayout 803\n" + "task %d %d %d 4 0 0\n" % (len(image), small.MEM, code) * 64
    return schedule(header, [image] * 64, ["run %d %d 100\n" % ((i + i // 64) % 16, i % 64) for i in range(count)])


def samples(count):
    """Samples of the layout 803 with 16 branches each."""
    branches = b"".join(struct.pack("<QQQ", 0x80000000 + 8 * i, 0x80000100 + 8 * i, 4 << 20) for i in range(16))
    return (struct.pack("<IHHQIIQ", 9, 2, 32 + len(branches), 0x80000000, 1, 1, 16) + branches) * count


def demo(turns):
    """The schedule of `demo`, as docs/ctrsim.md has it."""
    header = "ctr-schedule 1\nharts 4\nlayout 803\n" + "".join("task 12 12 %d 4 0 7\n" % (t % 5) for t in range(8))
    commands = ["run %d %d %d\nsample %d\n" % ((i + i // 8) % 4, i % 8, 1 + (i * i + 3 * i) % 97, i % 8) for i in range(turns)]
    return schedule(header, [struct.pack("<3I", 0x008000EF, 0x00000013, 0x00008067)] * 8, commands)


class Runs:
    def __init__(self, binary, folder):
        self.binary, self.folder = binary, folder
        self.plain = measure.compiled("plain_program.c", folder)
        self.path = os.path.join(folder, "text")

    def run(self, name, words, text, unit, units, plain_text=None):
        """A line of time with the ratio to the yardstick, one of host instructions, and one of memory and system calls."""
        command, plain_words = [self.binary] + words, [self.plain] + words[:1]
        if plain_text is None:
            self.compared(command, plain_words, text)
        else:
            plain_words = [self.plain, "run"]
        with open(self.path, "wb") as f:
            f.write(text)
        plain_path = self.path
        if plain_text is not None:
            plain_path = os.path.join(self.folder, "plain")
            with open(plain_path, "wb") as f:
                f.write(plain_text)
        took, plainly = measure.alternating([(command, self.path), (plain_words, plain_path)])
        measure.spread(name, "seconds", took, [("plain C", plainly)])
        if measure.HAS_VALGRIND:
            ours = measure.host_instructions(command, text, self.folder)
            theirs = measure.host_instructions(plain_words, plain_text or text, self.folder)
            measure.figures("", "host instructions/%s" % unit, ours / units, [("plain C", theirs / units)])
        line = "%-40s %8.3f million %s/s" % ("", units / took[1] / 1e6, unit)
        line += ", peak memory %.1f MB" % measure.peak(command, text, self.folder)
        if measure.HAS_STRACE:
            line += ", %d reads, %d writes" % measure.system_calls(command, self.path, self.folder)
        print(line, flush=True)

    def compared(self, command, plain, text):
        """The end of the bench where the yardstick writes other bytes."""
        ours, theirs = (measure.digest(words, text) for words in (command, plain))
        if ours != theirs:
            raise SystemExit("bench/program.py: %s writes other bytes than the program" % plain[0])

    def piped(self, name, words, text, unit, units):
        took = measure.seconds([self.binary] + words, text)
        measure.figures(name, "seconds", took, [], 3)
        print("%-40s %8.3f million %s/s" % ("", units / took / 1e6, unit), flush=True)

    def beside_perf(self, stream):
        """The time of `show`, and that of `perf script` on the same samples, where perf is there."""
        if not shutil.which("perf"):
            print("show, beside perf script: perf isn't installed", flush=True)
            return
        data = os.path.join(self.folder, "perf.data")
        with open(self.path, "wb") as f:
            f.write(stream)
        subprocess.run([os.path.join(measure.TOP, "tools", "perf_data"), "803", "-i", self.path, "-o", data], check=True,
                       stderr=subprocess.DEVNULL)
        ours, theirs = measure.alternating([([self.binary, "show", "803"], self.path),
                                            (["perf", "script", "-i", data, "-F", "ip,brstack"], os.devnull)])
        measure.spread("show, beside perf script", "seconds", ours, [("perf", theirs)])


def main(binary, part):
    steps, commands, turns = (max(1, n // part) for n in (10_000_000, 100_000, 100_000))
    stream = samples(max(1, 100_000_000 // 416 // part))
    with tempfile.TemporaryDirectory() as folder:
        runs = Runs(binary, folder)
        runs.run("a jump to itself", ["run"], one_task(JUMP, steps), "step", steps)
        runs.run("four tasks on four harts", ["run"], four_tasks(10 * steps), "step", 10 * steps)
        for code in (0, 4):
            runs.run("64 tasks over 16 harts, depth %d" % (16 << code), ["run"], many_tasks(code, commands), "step",
                     100 * commands)
        runs.run("a sample every 10 steps", ["run"], one_task(CALLS, 10 * commands, 10), "sample", commands)
        idle = ["run 0 0 0\n"] * (10 * commands)
        runs.run("%d commands of 0 steps" % len(idle), ["run"], one_task(JUMP, 0, 0, idle), "command", len(idle))
        runs.run("show, from a file", ["show", "803"], stream, "byte", len(stream))
        runs.piped("show, from a pipe", ["show", "803"], stream, "byte", len(stream))
        runs.beside_perf(stream)
        runs.run("demo %d" % turns, ["demo", str(turns)], b"", "turn", turns, demo(turns))


if __name__ == "__main__":
    main(os.path.abspath(sys.argv[1]) if len(sys.argv) > 1 else small.BINARY, int(sys.argv[2]) if len(sys.argv) > 2 else 1)
