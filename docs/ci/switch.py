"""switch.py ELF SAMPLES EXPECTED: whether the last sample shows the branches of a file, the youngest first, each as the function
that it leaves, the one that it goes to, and its type."""
import sys

import ctrtools

program, (*_, last) = ctrtools.Program(sys.argv[1]), ctrtools.read(sys.argv[2])
shown = ["%s %s %s" % (program.name(branch.source), program.name(branch.target), ctrtools.TYPES[branch.flags >> 20 & 15])
         for branch in last.branches]
with open(sys.argv[3], encoding="utf-8") as file:
    expected = [line.strip() for line in file if line.strip()]
if shown != expected:
    sys.exit("at %s the records show\n  %s\nand not\n  %s" % (program.place(last.ip), "\n  ".join(shown), "\n  ".join(expected)))
print("at %s the records show the %d branches that they should" % (program.place(last.ip), len(shown)))
