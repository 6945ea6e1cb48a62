"""All tests on ctrsim: the stored output, skips too, and what a failure looks like."""
import os
import shutil

import shared
from ctrconform import building

EXPECTED = os.path.join(shared.HERE, "expected", "ctrsim.tap")
EXPECTED_FROM_S = os.path.join(shared.HERE, "expected", "ctrsim-s.tap")
FAILING = os.path.join(shared.HERE, "checks", "failing.S")

# What our harts have: no case may be skipped for want of it.
HAVE = "ctr,h,type,lcofi,vslcofi,depth16,depth32,depth64,depth128,depth256,rasemu,ste,mte,bpfrz,lcofifrz,excinh,intrinh," \
       "tretinh,ntbren,tkbrinh,indcallinh,dircallinh,indjmpinh,dirjmpinh,corswapinh,retinh,indljmpinh,dirljmpinh"


class OnCtrsim(shared.Case):
    def setUp(self):
        super().setUp()
        shared.needs_compiler()
        self.program = shared.program()

    def test_all_tests(self):
        status, output, said = shared.conform("ctrsim", "--require", HAVE, CTRSIM=self.program)
        self.assertEqual((status, said), (0, ""), output[-2000:])
        with open(EXPECTED, encoding="utf-8") as file:
            self.assertEqual(output, file.read())

    def test_all_tests_from_s(self):
        # MTE and the trap-enable bits that go with it are of M.
        status, output, said = shared.conform("ctrsim", "--start", "s", "--require", HAVE.replace("mte,", ""), CTRSIM=self.program)
        self.assertEqual((status, said), (0, ""), output[-2000:])
        with open(EXPECTED_FROM_S, encoding="utf-8") as file:
            self.assertEqual(output, file.read())

    def test_firmware_of_a_target(self):
        # A target's own M code takes the place of that in env/: this one leaves the records to M, as mstateen0 may.
        folder = os.path.join(self.folder, "target")
        shutil.copytree(os.path.join(shared.HERE, "target", "ctrsim"), folder)
        with open(os.path.join(shared.HERE, "env", "ctr_firmware.S"), encoding="utf-8") as file:
            text = file.read()
        self.assertIn("        li      a0, -2\n", text)
        self.file("target/firmware.S", text.replace("        li      a0, -2\n", "        csrwi   0x14f, 9\n"))
        os.remove(os.path.join(folder, "run_all"))
        self.file("target/run", "#!/bin/sh\nexec %s \"$@\"\n" % os.path.join(shared.HERE, "target", "ctrsim", "run"), 0o755)
        status, output, _ = shared.conform(folder, "supervisor", "--start", "s", CTRSIM=self.program)
        self.assertEqual(status, 1, output)
        self.assertIn("not ok 6 - supervisor: a call of the firmware leaves no record", output)
        self.assertIn("# 13 cases, 3 failed", output)

    def test_a_failure_of_each_kind(self):
        # Expectations that are wrong: the only way to see the environment's own failing path on a right implementation.
        status, output, _ = shared.conform("ctrsim", FAILING, "--source", CTRSIM=self.program)
        self.assertEqual(status, 1, output)
        for words in FAILURES:
            self.assertIn(words, output)
        self.assertIn("ok 8 - failing: a case after one that ended early is judged by itself\n", output)
        self.assertIn("# 11 cases, 9 failed, 1 skipped", output)

    def test_each_compiler_gives_the_same(self):
        with open(EXPECTED, encoding="utf-8") as file:
            expected = [line for line in file if " - traps: " in line]
        for compiler in building.COMPILERS:
            if building.is_there(compiler):
                status, output, said = shared.conform("ctrsim", "traps", "--cc", compiler, CTRSIM=self.program)
                self.assertEqual(status, 0, said)
                got = [line for line in output.splitlines(True) if " - traps: " in line]
                self.assertEqual([line.split(" - ")[1] for line in got], [line.split(" - ")[1] for line in expected])


# One line of each kind of failure, as failing.S has them.
FAILURES = [
    "not ok 1 - failing: another source\n",
    "not ok 2 - failing: another target, and another type\n",
    "not ok 3 - failing: a row too many\n",
    "not ok 4 - failing: a row that is missing\n",
    "entry 0: V is expected to be 0, and the source is 0x",
    "not ok 5 - failing: a value\n",
    "value: expected 0x7, got 0x0   CHECK_CSR(sctrstatus, 7)\n",
    "value 3: expected 0x1, got 0x2",
    "not ok 6 - failing: a trap that nothing waits for\n",
    "failing.S: a trap that nothing waits for, mcause 0x2 at 0x",
    "not ok 7 - failing: a failure, and then a skip\n",
    "ok 9 - failing: a skip # SKIP needs Smstateen with the bit of the records\n",
    "not ok 10 - failing: more failures than the block holds\n",
    "not ok 11 - failing: a failure that the block has no room for\n  # one of 42 failures, of which",
    "entry 0, type: expected 0x9, got 0xb   ROW(1b, 3f, DIRCALL)\n",
]
