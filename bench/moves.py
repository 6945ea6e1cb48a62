#!/usr/bin/env python3
"""What a sample and a move cost the built program, and how much of the stack its words take.

    bench/moves.py [PROGRAM]     (crates/ctrsim/out/ctrsim where none is given)

A sample of depth 256 stands beside one of bench/plain_program.c through the same four calls an entry, which must write the same
bytes. Costs are differences between two runs, so that what a run does once isn't counted; times are the middle of five runs in
turn, with the least and the greatest.
"""
import os
import subprocess
import sys
import tempfile

import measure
import steps as small

SAMPLES = 20_000
TENTH = 10


def schedule(words, code, control, period, count):
    image = small.image_of(words)
    head = "ctr-schedule 1\nharts 1\nlayout 803\ntask %d %d %d %x 0 %d\n" % (len(image), small.MEM, code, control, period)
    return head.encode() + b"images\n" + image + b"run 0 0 %d\nsample 0\nend\n" % count


def moves(count):
    """A task of depth 256 that goes to another hart at each of so many commands."""
    head = b"ctr-schedule 1\nharts 2\nlayout 803\ntask 4 4 4 4 0 0\nimages\n"
    return head + small.image_of([0x6F]) + b"run 0 0 0\nrun 1 0 0\n" * (count // 2) + b"end\n"


def many(size):
    """64 tasks of depth 256 with memories of this size on 16 harts, each moved and sampled four times."""
    head = "ctr-schedule 1\nharts 16\nlayout 10bcf\n" + "task 4 %d 4 4 0 500\n" % size * 64 + "images\n"
    runs = "".join("run %d %d 1000\n" % ((t + k) % 16, t) for k in range(2) for t in range(64))
    return head.encode() + small.image_of([0x6F]) * 64 + runs.encode() + b"end\n"


def sampling(count):
    """A task of depth 256 that jumps to itself, and so many samples, each after ten steps. All but the first 25 have 256
    branches."""
    return schedule([0x6F], 4, small.ON, TENTH, TENTH * count)


def difference(command, text_of, first, last, folder):
    """What one more of what a text has so many of costs, in host instructions."""
    before, after = (measure.host_instructions(command, text_of(n), folder) for n in (first, last))
    return (after - before) / (last - first)


def samples_beside_calls(command, folder):
    """A sample, beside the same bytes by plain C through the same four calls an entry."""
    plain = measure.compiled("plain_program.c", folder, ("CALLS",))
    if not plain:
        return
    commands = [command, [plain, "run"]]
    if len({measure.digest(words, sampling(SAMPLES)) for words in commands}) != 1:
        raise SystemExit("the program and plain_program.c sample differently")
    name = "a sample of depth 256 and its ten steps"
    if measure.HAS_VALGRIND:
        ours, theirs = (difference(words, sampling, SAMPLES // 20, SAMPLES // 10, folder) for words in commands)
        measure.figures(name, "host instructions", ours, [("C by calls", theirs)])
    path = os.path.join(folder, "sampling")
    with open(path, "wb") as f:
        f.write(sampling(SAMPLES))
    ours, theirs = ([seconds / SAMPLES * 1e6 for seconds in times]
                    for times in measure.alternating([(words, path) for words in commands]))
    measure.spread(name, "microseconds", ours, [("C by calls", theirs)])


def stack(command, text, folder):
    """The most bytes that the stack takes, as valgrind's massif sees it."""
    out = os.path.join(folder, "massif.out")
    subprocess.run(["valgrind", "--tool=massif", "--stacks=yes", "--heap=no", "--massif-out-file=" + out] + command, input=text,
                   stdout=subprocess.DEVNULL, stderr=subprocess.DEVNULL, check=True)
    with open(out, encoding="utf-8") as f:
        return max(int(line.split("=")[1]) for line in f if line.startswith("mem_stacks_B="))


def samples_of(command):
    """What a run of the program writes on some samples, for `show`."""
    return subprocess.run(command, input=sampling(100), stdout=subprocess.PIPE, check=True).stdout


def main(binary):
    run = [binary, "run"]
    with tempfile.TemporaryDirectory() as folder:
        samples_beside_calls(run, folder)
        if measure.HAS_VALGRIND:
            for code in (0, 4):
                without, sampled = (difference(run, lambda n, period=period: schedule(small.MIXED, code, small.ON, period, n),
                                               small.FEW, 2 * small.FEW, folder) for period in (0, 1000))
                print("a sample of depth %d takes %.0f host instructions" % (16 << code, 1000 * (sampled - without)))
            print("a move at depth 256 takes %.0f host instructions" % difference(run, moves, 200, 400, folder))
            for words, text in ((run, many(16)), ([binary, "show", "803"], samples_of(run)), ([binary, "demo", "100"], b"")):
                print("the stack of %s takes at most %.1f KB" % (words[1], stack(words, text, folder) / 1024))
        print("peak memory of 64 tasks with 4 MB %.1f MB" % measure.peak(run, many(65536), folder))


if __name__ == "__main__":
    main(sys.argv[1] if len(sys.argv) > 1 else small.BINARY)
