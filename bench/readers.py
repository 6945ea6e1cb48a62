#!/usr/bin/env python3
"""MB a second of processor time and host instructions a byte of the two readers, beside bench/plain_readers.c: 100 MB
of samples, and a schedule of 10 MB, each read from memory to its end; and of `encode`, beside a memcpy of as many
bytes.

The programs around them are made and proved in a temporary folder. Plain C reads samples where they lie, and once more
field by field through a call, as a reader over a source has to. Whoever reads sums up what was read, and the sums are
compared. The instructions are those of the function that reads or writes alone, and the MB/s are the middle of five
runs in turn.

    bench/readers.py [MB]     (100 where none are given; a schedule has a tenth of it)
"""
import os
import shutil
import struct
import subprocess
import sys
import tempfile

import measure

READ_SAMPLES = """\
//! Reads the samples on standard input from memory, and prints how many there are, the sum of their numbers and the
//! nanoseconds of processor time that it took.
#![tactic(auto)]

use ctr_port::MemSource;
use perf_sample::{Layout, Sample, SampleReader};
use std::io::Read;
use std::process::ExitCode;
use std::time::CpuClock;

// How many samples there are, and the sum of ip and of each branch's numbers; none where they are refused.
#[inline(never)]
fn read_all(source: &mut MemSource) -> Option<(u64, u64)> {
    let mut reader = SampleReader::new(Layout::of(0x803)?);
    let mut sample = Sample::blank();
    let mut count = 0u64;
    let mut sum = 0u64;
    for _ in 0..=(1u32 << 24) {
        match reader.read_into(source, &mut sample) {
            Ok(true) => {
                count = count.saturating_add(1);
                sum = sum.wrapping_add(sample.ip);
                for branch in sample.branches.items() {
                    sum = sum.wrapping_add(branch.from ^ branch.to ^ branch.flags);
                }
            }
            Ok(false) => return Some((count, sum)),
            Err(_) => return None,
        }
    }
    None
}
"""

READ_SCHEDULE = """\
//! Reads the schedule on standard input from memory, and prints how many commands there are, the sum of the steps that
//! are to run and the nanoseconds of processor time that it took.
#![tactic(auto)]

use ctr_port::MemSource;
use sched_text::{Command, ScheduleReader};
use std::alloc::Global;
use std::io::Read;
use std::process::ExitCode;
use std::time::CpuClock;

// How many commands there are, and the sum of the steps; none where the schedule is refused.
#[inline(never)]
fn read_all(alloc: Global, source: &mut MemSource) -> Option<(u64, u64)> {
    let mut reader = ScheduleReader::new();
    let header = match reader.header(alloc, source) {
        Ok(header) => header,
        Err(_) => return None,
    };
    for task in header.tasks.items() {
        match reader.image(alloc, source, task.image) {
            Ok(_) => {}
            Err(_) => return None,
        }
    }
    let mut count = 0u64;
    let mut sum = 0u64;
    for _ in 0..=(1u32 << 20) {
        match reader.command(source) {
            Ok(Command::End) => return Some((count, sum)),
            Ok(Command::Run { steps, .. }) => {
                count = count.saturating_add(1);
                sum = sum.wrapping_add(steps as u64);
            }
            Ok(_) => count = count.saturating_add(1),
            Err(_) => return None,
        }
    }
    None
}
"""

WRITE_SAMPLES = """\
//! Writes a sample of 256 branches into one buffer, as many times as standard input has bytes, and prints how many
//! bytes that were, the sum of one byte of each time and the nanoseconds of processor time that it took.
#![tactic(auto)]

use perf_sample::{Branch, Buffer, Layout, Sample, encode};
use std::io::Read;
use std::process::ExitCode;
use std::time::CpuClock;

fn full() -> Sample {
    let mut sample = Sample::blank();
    sample.misc = 3;
    sample.ip = 0x8000_0008;
    sample.pid = 1;
    sample.tid = 1;
    for number in 0..256u64 {
        if sample.branches.items().len() < 256 {
            sample.branches.push(Branch {
                from: 0x8000_0000 + 8 * number,
                to: 0x8000_0100 + 8 * number,
                flags: 2 << 20,
            });
        }
    }
    sample
}

// How many bytes were written, and the sum of one byte of each sample; none where the layout doesn't fit.
#[inline(never)]
fn write_all(times: usize) -> Option<(u64, u64)> {
    let layout = Layout::of(0x803)?;
    let sample = full();
    if !layout.fits(&sample) {
        return None;
    }
    let mut out = Buffer::new();
    let mut count = 0u64;
    let mut sum = 0u64;
    for time in 0..times {
        encode(layout, &sample, &mut out);
        let written = out.as_slice();
        count = count.saturating_add(written.len() as u64);
        if !written.is_empty() {
            sum = sum.wrapping_add(written[time % written.len()] as u64);
        }
    }
    Some((count, sum))
}

"""

SOURCE = """\
    let Ok(mut source) = MemSource::new(rt.alloc(), &bytes, &[], &[]) else {
        return ExitCode::FAILURE;
    };
"""

# Behind each program's functions, with the source that it reads, if any, and the call that is measured.
MAIN = """
fn main(rt: HostRuntime) -> ExitCode {
    let mut bytes = Vec::new(rt.alloc());
    if rt.stdin().read_to_end(&mut bytes).is_err() {
        return ExitCode::FAILURE;
    }
%s    let Ok(begin) = rt.thread_cpu_time() else {
        return ExitCode::FAILURE;
    };
    let Some((count, sum)) = %s else {
        return ExitCode::FAILURE;
    };
    let Ok(end) = rt.thread_cpu_time() else {
        return ExitCode::FAILURE;
    };
    match println!(rt; "{count} {sum} {}", end.saturating_sub(begin).as_nanos()) {
        Ok(()) => ExitCode::SUCCESS,
        Err(_) => ExitCode::FAILURE,
    }
}
"""

INVARIANTS = """\
use Rattle.std.proofs.Common.{◌≡◌, None, false}
use Rattle.read_schedule.proofs.read_all.Given as goal

abbrev pub invariant-loop-task : goal.invariant-loop-task
invariant-loop-task l = (l.reader.refused ≡ None) × (l.reader.ended ≡ false)

abbrev pub invariant-loop : goal.invariant-loop
invariant-loop l = (l.reader.refused ≡ None) × (l.reader.ended ≡ false)
"""


def samples(branches, size):
    """Samples of the layout 803, together about so many bytes."""
    entries = b"".join(struct.pack("<QQQ", 0x80000000 + 8 * k, 0x80000100 + 8 * k, 2 << 20) for k in range(branches))
    one = struct.pack("<IHHQIIQ", 9, 3, 32 + 24 * branches, 0x80000008, 1, 1, branches) + entries
    return one * int(size // len(one))


def schedule(size):
    """64 tasks with 64 bytes and 16 irq lines each, and commands, together about so many bytes."""
    lines = [b"ctr-schedule 1\nharts 16\nlayout 803\n"] + [b"task 64 4096 0 4 0 1000\n"] * 64
    lines += [b"irq %d %d %d\n" % (task, 1000 * step, 3) for step in range(16) for task in range(64)]
    text = b"".join(lines) + b"images\n" + bytes(64 * 64)
    some = b"".join(b"run %d %d %d\n" % (k % 16, k % 64, 997 * k % 100000)
                    + (b"sample %d\n" % (k % 64) if k % 4 == 0 else b"") for k in range(1000))
    return text + some * int((size - len(text)) // len(some)) + b"end\n"


def write(path, text):
    os.makedirs(os.path.dirname(path), exist_ok=True)
    with open(path, "w", encoding="utf-8") as f:
        f.write(text)


# How many bytes a sample of 256 branches has in the layout 803.
ENCODED = 32 + 24 * 256

PROGRAMS = {
    "read_samples": ("ctr_port perf_sample", READ_SAMPLES + MAIN % (SOURCE, "read_all(&mut source)")),
    "read_schedule": ("ctr_port sched_text", READ_SCHEDULE + MAIN % (SOURCE, "read_all(rt.alloc(), &mut source)")),
    "write_samples": ("perf_sample", WRITE_SAMPLES + MAIN % ("", "write_all(bytes.len())")),
}


def make_programs(folder):
    """Copies the readers' crates, and writes the programs over them."""
    with open(os.path.join(measure.TOP, "crates.txt"), encoding="ascii") as f:
        lines = [line for line in f if line.split(":")[0] in ("ctr_port", "perf_sample", "sched_text")]
    for name in ("ctr_port", "perf_sample", "sched_text"):
        for part in ("src", "specs", "proofs"):
            place = os.path.join("crates", name, part)
            shutil.copytree(os.path.join(measure.TOP, place), os.path.join(folder, place))
    for name, (below, text) in PROGRAMS.items():
        lines.append("%s: %s\n" % (name, below))
        write(os.path.join(folder, "crates", name, "src", "main.rt"), text)
    write(os.path.join(folder, "crates.txt"), "".join(lines))
    write(os.path.join(folder, "crates", "read_schedule", "proofs", "read_all", "Invariants.antt"), INVARIANTS)


def build(folder, name, text):
    """The command of a program, which is proved, and run once."""
    here = os.path.join(folder, "crates", name)
    done = subprocess.run(["rt", "run"], cwd=here, input=text, stdout=subprocess.PIPE, stderr=subprocess.STDOUT)
    path = os.path.join(here, "out", name)
    if done.returncode or not os.path.exists(path):
        raise SystemExit(done.stdout.decode(errors="replace"))
    return [path]


def told(command, path):
    """What a program counted and summed up, and the seconds that it says it took, with a file as standard input."""
    with open(path, "rb") as f:
        count, total, took = subprocess.run(command, stdin=f, stdout=subprocess.PIPE, check=True).stdout.split()
    return (int(count), int(total)), int(took) / 1e9


def per_byte(command, make, folder, inside, size):
    """Of a function alone, between two and four hundred thousand bytes, so that what it does once isn't counted."""
    few, many = make(200_000), make(400_000)
    took = [measure.host_instructions(command, text, folder, inside) for text in (few, many)]
    return (took[1] - took[0]) / (size(many) - size(few))


def row(name, folder, ours, bases, make, wanted, size=len):
    """The lines of one input. A command stands beside the function of it that is counted; `size` tells how many bytes
    an input stands for."""
    path = os.path.join(folder, "input")
    text = make(wanted)
    with open(path, "wb") as f:
        f.write(text)
    commands = [(ours[0], "")] + [(command, "plain C (%s)" % command[1]) for command, _ in bases]
    answers = [told(command, path)[0] for command, _ in commands]
    for answer in answers:
        if answer != answers[0]:
            raise SystemExit("%s: %s here, %s in plain C" % (name, answers[0], answer))
    took = measure.alternating([(command, path) for command, _ in commands], seconds_of=lambda c, p: told(c, p)[1])
    rates = [tuple(size(text) / seconds / 1e6 for seconds in reversed(found)) for found in took]
    labels = [label for _, label in commands]
    measure.spread(name, "MB/s", rates[0], list(zip(labels, rates))[1:], 0)
    if measure.HAS_VALGRIND:
        found = [per_byte(command, make, folder, inside, size) for command, inside in [ours] + bases]
        measure.figures("", "host instructions/byte", found[0], list(zip(labels, found))[1:], 2)


def main(mb):
    with tempfile.TemporaryDirectory() as folder:
        plain = measure.compiled("plain_readers.c", folder)
        make_programs(folder)
        read_samples = build(folder, "read_samples", samples(1, 1000)), "*read_all*"
        write_samples = build(folder, "write_samples", bytes(10)), "*write_all*"
        read_schedule = build(folder, "read_schedule", schedule(20_000)), "*read_all*"

        def bases(*modes):
            return [([plain, mode], mode) for mode in modes if plain]

        for name, branches in [("256 branches", 256), ("16 branches", 16), ("1 branch", 1)]:
            row("samples of " + name, folder, read_samples, bases("samples", "fields"),
                lambda n, branches=branches: samples(branches, n), mb * 1e6)
        row("encode, 256 branches", folder, write_samples, bases("copy"), lambda n: bytes(int(n // ENCODED)), mb * 1e7,
            lambda text: len(text) * ENCODED)
        row("schedule", folder, read_schedule, bases("schedule"), schedule, mb * 1e5)


if __name__ == "__main__":
    main(float(sys.argv[1]) if len(sys.argv) > 1 else 100)
