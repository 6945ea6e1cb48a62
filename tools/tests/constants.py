"""The constants of the code that the headline's definitions cite: each with the value that its standard or a page gives.

A definition that cites a constant of the code is wrong wherever the code is, and no proof sees it. This table does."""
import ast
import os
import re
import sys
import unittest

sys.path.insert(0, os.path.dirname(os.path.abspath(__file__)))

import cases

# linux/perf_event.h: the numbers of records, of misc, and of the words of a sample and of its branches
PERF_EVENT = {
    "PERF_RECORD_SAMPLE": 9,
    "MISC_KERNEL": 1, "MISC_USER": 2, "MISC_HYPERVISOR": 3, "MISC_GUEST_KERNEL": 4, "MISC_GUEST_USER": 5,
    "BRANCH_STACK": 1 << 11,
    "HW_INDEX": 1 << 17,
    "BRANCH_SIZE": 8 + 8 + 8,
    "MISPRED": 1 << 0, "PREDICTED": 1 << 1, "TYPE": 1 << 20,
}

# RISC-V Privileged Architecture, table of machine cause register values after a trap; the interrupts are those of bits 1,
# 5, 9 of software, timer and external interrupts of S, 2, 6, 10 of VS, 3, 7, 11 of M, and 13 of a counter's overflow
PRIVILEGED = {
    "INSTRUCTION_ADDRESS_MISALIGNED": 0, "INSTRUCTION_ACCESS_FAULT": 1, "ILLEGAL_INSTRUCTION": 2, "BREAKPOINT": 3,
    "LOAD_ADDRESS_MISALIGNED": 4, "LOAD_ACCESS_FAULT": 5, "STORE_ADDRESS_MISALIGNED": 6, "STORE_ACCESS_FAULT": 7,
    "ENVIRONMENT_CALL_FROM_U": 8, "ENVIRONMENT_CALL_FROM_S": 9, "ENVIRONMENT_CALL_FROM_VS": 10,
    "ENVIRONMENT_CALL_FROM_M": 11, "VIRTUAL_INSTRUCTION": 22,
    "LOCAL_COUNTER_OVERFLOW": 13,
    "INTERRUPTS": sum(1 << bit for bit in (1, 2, 3, 5, 6, 7, 9, 10, 11, 13)),
}

# docs/schedule.md: the form of a line, and the limits
SCHEDULE = {
    "LINE_FEED": 10,
    "LINE_LIMIT": 255 + 1,
    "WINDOW": 4096,
    "MAX_TASKS": 64,
    "MAX_MEMORY": 1 << 20,
    "MAX_STEPS": 10 ** 9,
    "MAX_IRQS": 1024,
    "MAX_IRQ_STEP": 10 ** 15,
    "MAX_COMMANDS": 1 << 20,
}


def number(text):
    """The number that a constant's value in the code is."""
    if text == r"b'\n'":
        return 10
    left, _, shift = text.partition("<<")
    return ast.literal_eval(left.strip()) << ast.literal_eval(shift.strip() or "0")


class Constants(cases.Case):
    def test_values(self):
        """Each constant that docs/definitions.md lists has the value of the table, and the table has no other."""
        with open(os.path.join(cases.TOP, "docs", "definitions.md"), encoding="utf-8") as file:
            listed = file.read().split("constants of the code that they cite")[1]
        have = {name: number(value) for name, value in re.findall(r"`(\w+)` (b'\\n'|[^,\n]+)", listed)}
        self.assertEqual(have, {**PERF_EVENT, **PRIVILEGED, **SCHEDULE})


if __name__ == "__main__":
    unittest.main()
