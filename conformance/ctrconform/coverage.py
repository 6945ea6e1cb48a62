"""coverage.md and the lines `covers` of the tests: which statement of the standard which case checks."""
import collections
import os
import re

from . import building

PAGE = os.path.join(building.HERE, "coverage.md")

# How sure a statement is: A and B are said on the page; C is from memory alone.
Statement = collections.namedtuple("Statement", "key section text sure cases from_s")
Case = collections.namedtuple("Case", "test name keys line")

# In which homes a case is, by the macro that begins it: CASE_S, names that end in _ALL or _OR, and all others, which are of M.
STARTS = ("m", "s")


ADVISORY = "// advisory"


def source(test):
    with open(building.source_of(test), encoding="utf-8") as file:
        return file.read().splitlines()


def is_advisory(test):
    """Whether a test is of what the standard leaves to the implementation, so that its cases never fail one."""
    return ADVISORY in source(test)


def name_from(macro, name, other, start):
    """The name of a case where the environment is at home in M or in S, or none where it isn't there."""
    if start == "m":
        return None if macro == "CASE_S" else name
    if macro == "CASE_S" or macro.endswith("_ALL"):
        return name
    return other if macro.endswith("_OR") else None


def cases_of(test, start="m"):
    """The cases of a test in their order, each with the statements that the last line `covers` before it names."""
    keys, found = [], []
    for number, line in enumerate(source(test), 1):
        covers = re.match(r"// covers: (.*)", line)
        case = re.match(r'(\w+)\("([^"]*)"(?:, "([^"]*)")?', line)
        name = name_from(*case.groups(), start) if case else None
        if covers:
            keys = covers.group(1).split()
        elif name:
            found.append(Case(test, name, keys, number))
    return found


def tests_from(start):
    """The tests that have cases with this home."""
    return [test for test in building.test_names() if cases_of(test, start)]


def cases(start="m"):
    return [case for test in building.test_names() for case in cases_of(test, start)]


def statements():
    """The statements of the page by their keys, in its order."""
    found, section = collections.OrderedDict(), ""
    with open(PAGE, encoding="utf-8") as file:
        for line in file:
            if line.startswith("## "):
                section = line[3:].strip()
            cells = [cell.strip() for cell in line.strip().strip("|").split("|")]
            if line.startswith("| `") and len(cells) == 5:
                key = cells[0].strip("`")
                found[key] = Statement(key, section, *cells[1:])
    return found


def counted(key, start="m"):
    """How many cases of which tests check a statement, as the page says it."""
    counts = collections.OrderedDict()
    for case in cases(start):
        if key in case.keys:
            counts[case.test] = counts.get(case.test, 0) + 1
    return ", ".join("%s %d" % count for count in counts.items())
