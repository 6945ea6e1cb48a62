"""The scripts of bench/: each is imported, each C program compiled, and each program of theirs that isn't shipped is built and
run on a small input. What they measure isn't looked at."""
import importlib
import os
import shutil
import subprocess
import sys
import tempfile
import unittest

sys.path.insert(0, os.path.dirname(os.path.abspath(__file__)))

import cases

BENCH = os.path.join(cases.TOP, "bench")

# The C programs that are built in more than one way, with the macros of each.
WAYS = {"plain_program.c": [(), ("CALLS",)], "refused_memory.c": []}


def named(ending):
    return sorted(name for name in os.listdir(BENCH) if name.endswith(ending))


class Bench(cases.Case):
    @classmethod
    def setUpClass(cls):
        super().setUpClass()
        sys.path.insert(0, BENCH)
        cls.modules = {name[:-3]: importlib.import_module(name[:-3]) for name in named(".py")}

    def test_each_script_is_imported(self):
        self.assertIn("measure", self.modules)
        for name, module in self.modules.items():
            self.assertTrue(module.__doc__, name)

    def test_each_c_program_is_compiled(self):
        if not shutil.which("cc"):
            self.skipTest("no C compiler")
        with tempfile.TemporaryDirectory() as folder:
            for name in named(".c"):
                for macros in WAYS.get(name, [()]):
                    path = self.modules["measure"].compiled(name, folder, macros)
                    self.assertTrue(os.path.exists(path), (name, macros))
            if "refused_memory.c" in named(".c"):
                done = subprocess.run(["cc", "-O2", "-shared", "-fPIC", "-o", os.path.join(folder, "refused.so"),
                                       os.path.join(BENCH, "refused_memory.c")])
                self.assertEqual(done.returncode, 0)

    def test_each_readers_program_is_built_and_agrees_with_plain_c(self):
        if not shutil.which("rt") or not shutil.which("cc"):
            self.skipTest("no rt, or no C compiler")
        readers = self.modules["readers"]
        with tempfile.TemporaryDirectory() as folder:
            plain = self.modules["measure"].compiled("plain_readers.c", folder)
            readers.make_programs(folder)
            for name, text, mode in [("read_samples", readers.samples(3, 1000), "samples"),
                                     ("read_schedule", readers.schedule(20_000), "schedule"),
                                     ("write_samples", bytes(10), "copy")]:
                done = subprocess.run(["rt", "try"], cwd=os.path.join(folder, "crates", name), input=text,
                                      stdout=subprocess.PIPE, stderr=subprocess.PIPE)
                self.assertEqual(done.returncode, 0, (name, done.stderr.decode(errors="replace")[-2000:]))
                beside = subprocess.run([plain, mode], input=text, stdout=subprocess.PIPE)
                self.assertEqual(done.stdout.split()[:2], beside.stdout.split()[:2], name)

    def test_each_schedule_is_accepted_by_the_program(self):
        moves, small, program = (self.modules[name] for name in ("moves", "steps", "program"))
        for text in [moves.sampling(3), moves.moves(4), moves.many(16), program.four_tasks(500_000), program.many_tasks(0, 64),
                     program.demo(8), small.schedule(small.MIXED, 0, small.ON, 2, 10)]:
            status, _, said = cases.run([cases.program(), "run"], text)
            self.assertEqual((status, said), (0, b""))


if __name__ == "__main__":
    unittest.main()
