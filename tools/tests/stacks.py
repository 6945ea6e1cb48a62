"""Stacks of tools/fold and tools/perf_data, sample by sample, against a machine of its own that keeps a shadow stack: programs with
threaded code, callbacks, longjmp, switch tables, -msave-restore and a timer, by gcc and clang, -O0 to -Os."""
import os
import shutil
import subprocess
import sys
import unittest

sys.path.insert(0, os.path.dirname(os.path.abspath(__file__)))

import cases
import machine

sys.path.insert(0, cases.TOOLS)
import ctrtools
from ctrtools import elf

START = os.path.join(cases.TOOLS, "start")
PROGRAMS = os.path.join(cases.TOOLS, "tests", "programs")
COMMON = ["-mabi=lp64", "-mcmodel=medany", "-ffreestanding", "-nostdlib", "-static", "-T", os.path.join(START, "link.ld"),
          os.path.join(START, "start.S"), os.path.join(START, "memory.S")]
COMPILERS = {"gcc": ["riscv64-unknown-elf-gcc", "-march=rv64im", "-Wa,-march=rv64im_zicsr", "-Wl,--no-warn-rwx-segments"],
             "clang": ["clang", "--target=riscv64", "-march=rv64im", "-fuse-ld=lld"]}
LEVELS = ["-O0", "-O1", "-O2", "-Os"]
EVERY, MOST = 61, 200_000


def is_here(compiler):
    return bool(shutil.which(COMPILERS[compiler][0])) and (compiler != "clang" or bool(shutil.which("ld.lld")))


class Compared(cases.Case):
    def built(self, compiler, program, *flags):
        path = os.path.join(self.folder, "program")
        subprocess.run(COMPILERS[compiler] + list(flags) + COMMON + [os.path.join(PROGRAMS, program + ".c"), "-o", path]
                       + ["-lgcc"] * (compiler == "gcc"), check=True, stderr=subprocess.DEVNULL)
        return path

    def samples(self, path, *words):
        """The samples of a program up to its end, by the program and tools/record."""
        output = os.path.join(self.folder, "samples")
        with cases.environment(CTRSIM=cases.program()):
            status, _, said = cases.tool("record", path, "--every", str(EVERY), "--steps", str(MOST), "--until", "finished",
                                         "-o", output, *words)
        self.assertEqual(status, 0, said)
        return list(ctrtools.read(output))

    def differences(self, path, samples, timers=()):
        """The samples whose stacks differ: the step, what the tools say, and what the machine says. And the machine."""
        file = elf.read(path)
        functions, found = elf.Functions(file), []
        known = {}

        def name_of(address):
            if address not in known:
                known[address] = functions.name(address)
            return known[address]

        runs, program = machine.Machine(file.image()[0], name_of, timers), ctrtools.Program(path)
        for sample in samples:
            while runs.steps < sample.time:
                runs.step()
            self.assertEqual(runs.pc, sample.ip, "after %d steps" % sample.time)
            told, true = program.stack(sample), runs.stack()
            self.assertEqual([name for name, _ in program.stacks.frames(sample)], told)     # as perf_data writes them
            if told != true:
                found.append((sample.time, told, true))
        return found, runs

    def compare(self, program, *flags, compilers=COMPILERS, timer=0, levels=LEVELS, untold=lambda difference: False):
        done = 0
        for compiler in filter(is_here, compilers):
            for level in levels:
                path = self.built(compiler, program, level, *flags)
                samples = self.samples(path, *["--timer", str(timer)] * bool(timer))
                self.assertGreater(len(samples), 20)
                found, runs = self.differences(path, samples, range(timer, MOST, timer) if timer else ())
                found = [one for one in found if not untold(one)]
                self.assertEqual(found[:1], [], "%s of %d samples differ: %s %s %s" % (len(found), len(samples), compiler, level, program))
                self.seen(program, runs, samples, timer)
                done += len(samples)
        if not done:
            self.skipTest("no compiler for RISC-V")
        return done

    def seen(self, program, runs, samples, timer):
        """What the program is for did happen."""
        if timer:
            self.assertGreater(runs.handled, 10)
        if program == "jumps_back":
            self.assertGreater(runs.jumped, 20)
        self.assertGreater(max(len(sample.branches) for sample in samples), 1)

    def test_threaded_code(self):
        self.compare("threaded")

    def test_callbacks(self):
        self.compare("callbacks")

    def test_jumps_back(self):
        self.compare("jumps_back")

    def test_switch_tables(self):
        self.compare("switched")

    def test_a_timer(self):
        # Where the interrupt came in a function that was entered by a tail call, before that called on, no record names it.
        self.compare("timed", timer=149, untold=lambda difference: difference[1] == without_before(difference[2], "tick"))

    def test_saved_by_the_library(self):
        for program in ("threaded", "callbacks", "switched"):
            self.compare(program, "-msave-restore", compilers=["gcc"])
        # The library's epilogue is everybody's tail call, so after a longjmp it may be that of a function that was left.
        self.compare("jumps_back", "-msave-restore", compilers=["gcc"],
                     untold=lambda difference: difference[2][-1].startswith("__riscv_restore") and difference[1][-1] == difference[2][-1])

    def test_left_from_a_table(self):
        """What can't be told: a function that has a switch by a table may lead anywhere, as far as its code tells. So a longjmp
        out of it isn't seen: the functions that it left stay, with the right ones behind them, and nothing else is wrong."""
        done = 0
        for compiler in filter(is_here, COMPILERS):
            for level in LEVELS:
                path = self.built(compiler, "left_from_a_table", level)
                samples = self.samples(path)
                found, runs = self.differences(path, samples)
                self.assertGreater(runs.jumped, 20)
                for step, told, true in found:
                    self.assertIn("deep", told, step)
                    self.assertTrue(is_within(true, told), (step, told, true))
                done += len(samples) - len(found)
        if not done:
            self.skipTest("no compiler for RISC-V")


def without_before(names, name):
    """Some names without the one that stands before another one."""
    at = names.index(name)
    return names[:at - 1] + names[at:]


def is_within(few, many):
    """Whether all of some names stand among others, in their order."""
    rest = iter(many)
    return all(name in rest for name in few)


if __name__ == "__main__":
    unittest.main()
