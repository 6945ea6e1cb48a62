#!/usr/bin/env python3
"""Refuses each request for memory of the built program in turn, and looks at how it ends.

    bench/refused_memory.py [BINARY]

It must end with status 7, its line and nothing written, or as it does where nothing is refused: the C library asks for a
little itself, and does without. For each word it prints how many requests there were and how the runs ended; the status is 1
where one ended otherwise.
"""
import collections
import os
import subprocess
import sys
import tempfile

import measure
import program
import steps


def many_tasks():
    """64 tasks of all depths with irq lines, on three harts, with the hardware index and all fields."""
    header = "ctr-schedule 2\nharts 3\nlayout 10bcf\nbranch 20000\n"
    header += "".join("task 12 %d %d 4 0 7\n" % (1024 * (task + 1), task % 5) for task in range(64))
    header += "".join("irq %d %d 7\n" % (task, step) for task in range(0, 64, 5) for step in range(0, 100, 7))
    commands = ["run %d %d 11\nsample %d\n" % (i % 3, i % 64, i % 64) for i in range(80)]
    return program.schedule(header, [steps.image_of(program.CALLS)] * 64, commands)


def ended(binary, words, text, library, told, refused=0):
    environment = dict(os.environ, LD_PRELOAD=library, COUNT_TO=told, FAIL_AT=str(refused))
    end = subprocess.run([binary] + words, input=text, stdout=subprocess.PIPE, stderr=subprocess.PIPE, env=environment)
    return end.returncode, end.stdout, end.stderr


def main(binary):
    wrong = 0
    with tempfile.TemporaryDirectory() as folder:
        library, told = os.path.join(folder, "refused.so"), os.path.join(folder, "count")
        source = os.path.join(measure.HERE, "refused_memory.c")
        subprocess.run(["cc", "-O2", "-shared", "-fPIC", "-o", library, source], check=True)
        for words, text in ((["run"], many_tasks()), (["run"], program.one_task(program.CALLS, 100, 10)),
                            (["show", "803"], program.samples(3)), (["demo", "20"], b"")):
            usual = ended(binary, words, text, library, told)
            with open(told, encoding="ascii") as file:
                requests = int(file.read())
            seen = collections.Counter()
            for number in range(1, requests + 1):
                end = ended(binary, words, text, library, told, number)
                known = {usual: "as ever", (7, b"", b"ctrsim: no memory\n"): "status 7 and nothing written"}
                seen[known.get(end, "status %d, %d bytes written, %s" % (end[0], len(end[1]), end[2]))] += 1
                wrong += end not in known
            print("%s: status %d, %d requests" % (" ".join(words), usual[0], requests))
            for how, times in sorted(seen.items()):
                print("  %4d refused: %s" % (times, how))
    return 1 if wrong else 0


if __name__ == "__main__":
    sys.exit(main(os.path.abspath(sys.argv[1]) if len(sys.argv) > 1 else steps.BINARY))
