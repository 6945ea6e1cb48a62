"""tools/build: a program of the sources without their contracts, which passes the examples; and tools/ctrsim in front of it."""
import os
import shutil
import sys
import unittest

sys.path.insert(0, os.path.dirname(os.path.abspath(__file__)))

import cases

FROM = r"\Anot proved; built by rustc \d+\.\d+\.\d+ from (commit [0-9a-f]{12}( with changes)?|sources of no known commit)\n\Z"
EXAMPLES = os.path.join(cases.TOP, "examples")


class Build(cases.Case):
    def test_the_program_passes_the_examples(self):
        if not shutil.which("rustc"):
            self.skipTest("no rustc")
        cases.program()
        path = os.path.join(self.folder, "new", "ctrsim")
        status, output, said = cases.tool("build", "-o", path)
        self.assertEqual((status, output, said), (0, "", "build: building without a proof, by rustc ..\n"))
        with open(path + ".from", encoding="utf-8") as file:
            self.assertRegex(file.read(), FROM)
        status, output, said = cases.run([os.path.join(EXAMPLES, "run"), path])
        self.assertEqual((status, said), (0, b""))
        folders = [name for name in os.listdir(EXAMPLES) if os.path.isdir(os.path.join(EXAMPLES, name))]
        self.assertEqual(output.decode().splitlines()[-1], "%d passed, 0 failed" % len(folders))
        # It writes what the program does that the other tests run, which may be a proved one.
        queens, streams = os.path.join(cases.DATA, "queens.elf"), []
        for program in (path, cases.program()):
            with cases.environment(CTRSIM=program):
                output = os.path.join(self.folder, "samples")
                self.assertEqual(cases.tool("record", queens, "--mode", "M,U", "--steps", "60000", "-o", output)[0], 0)
            with open(output, "rb") as file:
                streams.append(file.read())
        self.assertGreater(len(streams[0]), 1000)
        self.assertEqual(streams[0], streams[1])
        # An example that is shown is what README shows, and the lines of a build aren't among it.
        with cases.environment(CTRSIM=path):
            status, shown, said = cases.run([os.path.join(EXAMPLES, "run"), "--show", "kernel_switch"])
            status, told, _ = cases.tool("ctrsim", "--version")
        self.assertEqual((status, said), (0, b""))
        with open(os.path.join(cases.TOP, "README.md"), encoding="utf-8") as file:
            blocks = file.read().split("```\n")[1].split("...\n")
        for block in blocks:
            self.assertIn(block, shown.decode())
        self.assertRegex(told, r"\Actrsim, %s\nnot proved; built by rustc " % path)

    def test_errors(self):
        with cases.environment(PATH="/nowhere"):
            self.ends(cases.tool("build", "-o", os.path.join(self.folder, "x")), 7, "no rustc, nor the Rattle kit")
            self.ends(cases.tool("build", "--by", "rt"), 7, "no rt here")
        self.ends(cases.tool("build", "--by", "gcc"), 2, "invalid choice")
        self.ends(cases.tool("build", "more"), 2, "unrecognized arguments: more")


class Ctrsim(cases.Case):
    def test_help(self):
        status, output, said = cases.tool("ctrsim", "--help")
        self.assertEqual((status, said), (0, ""))
        self.assertIn("tools/ctrsim --version", output)

    def test_words_go_to_the_program(self):
        path = self.file("program", b"#!/bin/sh\necho \"$0:$*\"\ncat\nexit 9\n")
        os.chmod(path, 0o755)
        with cases.environment(CTRSIM=path):
            self.assertEqual(cases.tool("ctrsim", "show", "803", given=b"text\n"), (9, path + ":show 803\ntext\n", ""))
            self.assertEqual(cases.tool("ctrsim")[1], path + ":\n")
            status, output, _ = cases.tool("ctrsim", "--version")
            self.assertEqual((status, output), (0, "ctrsim, %s\nnothing is known of how it was built\n" % path))
            self.file("program.from", b"built by hand\n")
            self.assertEqual(cases.tool("ctrsim", "--version")[1], "ctrsim, %s\nbuilt by hand\n" % path)

    def test_no_program(self):
        with cases.environment(CTRSIM="/nowhere"):
            for word in ("--version", "run"):
                self.ends(cases.tool("ctrsim", word), 7, "CTRSIM names no file: /nowhere")
        with cases.environment(CTRSIM=self.file("text", b"no program")):
            self.ends(cases.tool("ctrsim", "run"), 7, "cannot run ")


if __name__ == "__main__":
    unittest.main()
