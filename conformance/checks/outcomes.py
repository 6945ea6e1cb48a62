"""What conform says and ends with: targets that print a stored block, arguments that are none, tests that break."""
import os
import shlex
import subprocess
import xml.etree.ElementTree

import shared
from ctrconform import block, building

TEST = '''#include "ctr.h"
TESTS(1)
// covers: recorded-mode
CASE("first")
ENDCASE
CASE("second")
ENDCASE
ENDTESTS
'''
PASS, FAIL = (block.PASSED, 0), (block.FAILED, 0)
NO_RASEMU = (block.SKIPPED | 2 << 8, 1 << 7)
NO_HYPERVISOR = (block.SKIPPED | 1 << 8, 1 << 9)


class Outcomes(shared.Case):
    def setUp(self):
        super().setUp()
        shared.needs_compiler()
        for part in ("link.ld", "target.S"):
            with open(os.path.join(shared.HERE, "target", "template", part), encoding="utf-8") as file:
                self.file("target/" + part, file.read())
        self.test = self.file("stored.S", TEST)

    def run_with(self, words, *more, test=None, status=0):
        """Runs conform on a target whose `run` prints these words and ends with a status."""
        text = "".join("echo %016x\n" % word for word in words)
        self.file("target/run", "#!/bin/sh\necho noise\n%sexit %d\n" % (text, status), 0o755)
        return shared.conform(os.path.join(self.folder, "target"), test or self.test, *more)

    def test_passes(self):
        status, output, said = self.run_with(shared.words_of_block([PASS, PASS], checks=5))
        self.assertEqual((status, said), (0, ""))
        self.assertEqual(output.splitlines()[:4], ["TAP version 14", "ok 1 - stored: first", "ok 2 - stored: second", "1..2"])
        self.assertIn("# 2 cases, 0 failed, 0 skipped, 5 checks", output)

    def test_a_failure_has_its_line_and_its_statement(self):
        failure = (1, 6, 2, block.TARGET, 0x80000010, 0x80000020)
        status, output, _ = self.run_with(shared.words_of_block([PASS, FAIL], [failure]), "--source")
        self.assertEqual(status, 1)
        self.assertIn("not ok 2 - stored: second\n"
                      '  # stored.S:6: entry 2, target: expected 0x80000010, got 0x80000020   CASE("second")\n'
                      "  # Control Transfer Records: a transfer within a mode is recorded", output)

    def test_skips_and_what_is_required(self):
        words = shared.words_of_block([NO_RASEMU, NO_HYPERVISOR])
        status, output, _ = self.run_with(words)
        self.assertEqual(status, 0)
        self.assertIn("ok 1 - stored: first # SKIP mctrctl doesn't have RASEMU\n"
                      "ok 2 - stored: second # SKIP needs the hypervisor extension\n", output)
        self.assertEqual(self.run_with(words, "--require", "lcofi,ntbren")[0], 0)
        for word in ("rasemu", "H"):
            status, output, _ = self.run_with(words, "--require", word)
            self.assertEqual(status, 1)
            self.assertIn("# skipped, though it is required: ", output)

    def test_an_advisory_case_never_fails(self):
        test = self.file("advice.S", "// advisory\n" + TEST)
        failure = (0, 4, 0, block.VALUE, 1, 2)
        status, output, _ = self.run_with(shared.words_of_block([FAIL, PASS], [failure]), test=test)
        self.assertEqual(status, 0)
        self.assertIn("not ok 1 - advice: first # TODO never fails an implementation\n  # advice.S:4: value: expected 0x1", output)

    def test_no_whole_block(self):
        whole = shared.words_of_block([PASS, PASS])
        for words in ([], whole[:100], shared.words_of_block([PASS, PASS], state=0), shared.words_of_block([PASS]),
                      [1] + whole[1:]):
            status, output, _ = self.run_with(words, status=3)
            self.assertEqual(status, 2)
            self.assertIn("not ok 1 - stored: comes to its end\n  # no whole block of results; the target ended with status 3\n",
                          output)

    def test_a_test_that_cannot_be_built(self):
        status, output, _ = self.run_with([], test=self.file("broken.S", "        no_such_instruction\n"))
        self.assertEqual(status, 2)
        self.assertIn("not ok 1 - broken: can be built\n  # ", output)

    def test_junit(self):
        path = os.path.join(self.folder, "out.xml")
        failure = (0, 4, 0, block.VALUE, 1, 2)
        self.run_with(shared.words_of_block([FAIL, NO_HYPERVISOR], [failure]), "--junit", path)
        suite = xml.etree.ElementTree.parse(path).getroot().find("testsuite")
        self.assertEqual({key: suite.get(key) for key in ("name", "tests", "failures", "skipped")},
                         {"name": "stored", "tests": "2", "failures": "1", "skipped": "1"})
        self.assertIn("expected 0x1, got 0x2", suite[0].find("failure").text)
        self.assertEqual(suite[1].find("skipped").get("message"), "needs the hypervisor extension")

    def test_programs_that_are_kept(self):
        folder = os.path.join(self.folder, "kept")
        words = shared.words_of_block([PASS, PASS])
        self.assertEqual(self.run_with(words, "--keep", folder)[0], 0)
        self.assertEqual(os.listdir(folder), ["stored.elf"])
        self.assertEqual(self.run_with(words, "--keep", folder, "--built", "--cc", "no-such-compiler")[0], 0)

    def test_what_is_refused(self):
        place = os.path.join(self.folder, "target")
        self.run_with([])
        self.refused(shared.conform("no-such-target"), "no target no-such-target; there are ctrsim, qemu-spike")
        self.refused(shared.conform(place, "no_such_test"), "no test no_such_test; there are access")
        self.refused(shared.conform(place, "supervisor"), "the test supervisor has no case that starts in M")
        self.refused(shared.conform(place, "access", "--start", "u"), "invalid choice")
        self.refused(shared.conform(place, self.test, "--require", "everything"), "--require knows no word everything")
        self.refused(shared.conform(place, self.test, "--built"), "no --keep is given")
        self.refused(shared.conform(place, self.test, "--keep", self.folder, "--built"), "no program ")
        self.refused(shared.conform(place, self.test, "--cc", "no-such-compiler"), "cannot run the compiler no-such-compiler")
        self.refused(shared.conform(place, self.test, "--junit", "/no/such/folder/file"), "cannot write /no/such/folder/file")
        self.refused(shared.conform(), "--help tells more")
        self.refused(shared.conform(place, "--no-such-flag"), "--help tells more")

    def test_every_shipped_target_is_whole(self):
        for name in os.listdir(os.path.join(shared.HERE, "target")):
            for part in ("link.ld", "target.S", "run"):
                self.assertTrue(os.path.exists(os.path.join(shared.HERE, "target", name, part)), (name, part))
            self.assertTrue(os.access(os.path.join(shared.HERE, "target", name, "run"), os.X_OK), name)
            path, said = building.build("status", os.path.join(shared.HERE, "target", name), building.compiler(), self.folder)
            self.assertTrue(path, said)

    def test_the_reports_can_be_built(self):
        for name in os.listdir(os.path.join(shared.HERE, "reports")):
            command = shlex.split(building.COMPILERS[building.compiler()]) + [
                "-nostdlib", "-static", "-Wl,-Ttext=0x80000000", os.path.join(shared.HERE, "reports", name),
                "-o", os.path.join(self.folder, "report")]
            ended = subprocess.run(command, stdout=subprocess.PIPE, stderr=subprocess.STDOUT, universal_newlines=True)
            self.assertEqual((ended.returncode, ended.stdout), (0, ""), name)
