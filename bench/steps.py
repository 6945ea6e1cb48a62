#!/usr/bin/env python3
"""Host instructions a step, steps a second, and peak memory of the built program, beside bench/plain.c.

    bench/steps.py [STEPS [BINARY]]     (100000000 where none are given, and the program of this tree)

Steps a second are the middle of five runs, with the least and the greatest; the two programs run in turn.
"""
import os
import struct
import sys
import tempfile

import measure

FEW = 200_000
MEM = 4096
BINARY = os.path.join(measure.TOP, "crates", "ctrsim", "out", "ctrsim")

# auipc x5, 0; then again and again addi, add, sd, ld, xor, a call (slli and a return there), and a branch back
MIXED = [0x00000297, 0x00130313, 0x006383B3, 0x0472B023, 0x0402B403, 0x006444B3, 0x00C000EF, 0xFE0314E3, 0xFE5FF06F,
         0x00349513, 0x00008067]

OFF, ON, EMULATED = 0x0, 0x4, 0x84


def again(word, first=()):
    """The words of `first`, then a thousand times a word and a jump back to the first of them."""
    back = -4000
    jump = (back >> 20 & 1) << 31 | (back >> 1 & 1023) << 21 | (back >> 11 & 1) << 20 | (back >> 12 & 255) << 12 | 0x6F
    return list(first) + [word] * 1000 + [jump]


# the name, the image, the depth's code, mctrctl, and the number of irq lines
LOOPS = [
    ("j .", [0x0000006F], 0, ON, 0),
    ("a call and a return", [0x008000EF, 0xFFDFF06F, 0x00008067], 0, ON, 0),
    ("1023 ADDI and a jump", [0x00128293] * 1023 + [0x804FF06F], 0, ON, 0),
    ("1000 LUI and a jump", again(0x12345337), 0, ON, 0),
    ("1000 LD and a jump", again(0x7002B303, [0x00000297]), 0, ON, 0),
    ("1000 SD and a jump", again(0x7E02BC23, [0x00000297, 0x7F828293]), 0, ON, 0),
    ("1000 branches not taken and a jump", again(0x00001463), 0, ON, 0),
    ("1000 reads of sctrstatus and a jump", again(0x14F02373), 0, ON, 0),
    ("1000 reads of ctrsource and a jump", again(0x15102373, [0x20000293, 0x15029073]), 0, ON, 0),
    ("ECALL in M", [0x00000297, 0x00C28293, 0x30529073, 0x00000073], 0, ON, 0),
] + [
    ("mixed, depth %d, %s, %d irqs" % (16 << code, what, irqs), MIXED, code, control, irqs)
    for code in (0, 4)
    for what, control in (("controls off", OFF), ("recorded", ON), ("emulated", EMULATED))
    for irqs in (0, 1024)
]

# what bench/plain_hart.h has no registers or no traps for
UNKNOWN_TO_PLAIN = {"1000 reads of sctrstatus and a jump", "1000 reads of ctrsource and a jump", "ECALL in M"}


def image_of(words):
    return b"".join(struct.pack("<I", w) for w in words)


def schedule(words, code, control, irqs, count, mem=MEM):
    image = image_of(words)
    head = "ctr-schedule 1\nharts 1\nlayout 803\ntask %d %d %d %x 0 0\n" % (len(image), mem, code, control)
    head += "".join("irq 0 %d 3\n" % (1000 * i) for i in range(irqs)) + "images\n"
    return head.encode() + image + b"run 0 0 %d\nsample 0\nend\n" % count


def per_step(make, text_of, folder):
    """The difference between two runs, so that what a run does once isn't counted."""
    first, last = (measure.host_instructions(make(n), text_of(n), folder) for n in (FEW, 2 * FEW))
    return (last - first) / FEW


def speeds(count, commands):
    """Of each of some commands, with the paths of their input, the least, middle and greatest million steps a second."""
    return [tuple(count / took / 1e6 for took in reversed(times)) for times in measure.alternating(commands)]


def main(steps, binary):
    with tempfile.TemporaryDirectory() as folder:
        plain = measure.compiled("plain.c", folder)
        image, path = os.path.join(folder, "image"), os.path.join(folder, "schedule")
        for name, words, code, control, irqs in LOOPS:
            with open(image, "wb") as f:
                f.write(image_of(words))
            with open(path, "wb") as f:
                f.write(schedule(words, code, control, irqs, steps))
            text_of = lambda n: schedule(words, code, control, irqs, n)
            plainly = lambda n: [plain, image, str(n), str(16 << code), "%x" % control, str(irqs)]
            beside = plain and name not in UNKNOWN_TO_PLAIN
            if measure.HAS_VALGRIND:
                cost = per_step(lambda n: [binary, "run"], text_of, folder)
                others = [("plain C", per_step(plainly, lambda n: None, folder))] if beside else []
                measure.figures(name, "host instructions/step", cost, others)
            commands = [([binary, "run"], path)] + ([(plainly(steps), os.devnull)] if beside else [])
            ours, *theirs = speeds(steps, commands)
            measure.spread("", "million steps/s", ours, [("plain C", found) for found in theirs])
        for mem in (MEM, 1048576):
            text = schedule(MIXED, 4, ON, 1024, steps, mem)
            print("peak memory %.1f MB with MEM %d" % (measure.peak([binary, "run"], text, folder), mem))


if __name__ == "__main__":
    main(int(sys.argv[1]) if len(sys.argv) > 1 else 100_000_000, sys.argv[2] if len(sys.argv) > 2 else BINARY)
