"""The man pages: without a warning of mandoc, with the statuses, texts, lines, ranges and fields of the Markdown pages,
and an example that runs."""
import os
import re
import shutil
import sys
import unittest

sys.path.insert(0, os.path.dirname(os.path.abspath(__file__)))

import cases

PAGES = os.path.join(cases.TOP, "docs", "man")
NAMES = ["ctr-samples.5", "ctr-schedule.5", "ctrsim.1"]


def read(*path):
    with open(os.path.join(cases.TOP, "docs", *path), encoding="utf-8") as file:
        return file.read()


def section(page, name):
    """A section of a man page."""
    return re.search(r"^\.Sh %s\n(.*?)(?=^\.Sh |\Z)" % name, read("man", page), re.M | re.S).group(1)


def items(text):
    return re.findall(r"^\.It (.*)$", text, re.M)


def statuses(page):
    return re.findall(r"^\| (\d+) \|", page, re.M)


def refusals():
    """The texts of `run` by the page of schedules, in its order."""
    return re.findall(r"^\| [A-Z]\w+ \| .* \| `([a-z ]+)` \|$", read("schedule.md"), re.M)


def broken():
    """The texts of `show` by the page of samples, in its order."""
    told = re.search(r"and `TooMany`, is (.*?)\. FIELD is", " ".join(read("samples.md").split()))
    return re.findall(r"`([^`]+)`", told.group(1))


def printed(table):
    """The words in the first column of a table, each once."""
    column = "".join(line.split(" | ")[0] for line in table.splitlines() if line.startswith("| "))
    return list(dict.fromkeys(re.findall(r"`([^`]+)`", column)))


def rows(page, first):
    """The cells of the table of a Markdown page whose head begins so, row by row."""
    table = re.search(r"^\| %s \|.*\n\|[-|]+\n((?:\|.*\n)+)" % re.escape(first), read(page), re.M).group(1)
    return [[cell.strip() for cell in line.strip("|").split("|")] for line in table.splitlines()]


def described(page):
    """The items of a man page's description, each with its text."""
    parts = re.split(r"^\.It (.*)$", section(page, "DESCRIPTION"), flags=re.M)
    return dict(zip(parts[1::2], parts[2::2]))


def numbers(text):
    """The numbers of a text, 10^15 and 1,000 as they are meant."""
    powers = {int(base) ** int(power) for base, power in re.findall(r"(\d+)\^(\d+)", text)}
    return powers | {int(word.replace(",", "")) for word in re.findall(r"(?<![\d^])\d+(?:,\d{3})*(?![\d^])", text)}


class Man(cases.Case):
    def test_lint(self):
        self.assertEqual(sorted(os.listdir(PAGES)), NAMES)
        if not shutil.which("mandoc"):
            self.skipTest("no mandoc here")
        self.assertEqual(cases.run(["mandoc", "-Tlint", "-Wall"] + NAMES, cwd=PAGES), (0, b"", b""))

    def test_statuses(self):
        self.assertEqual(items(section("ctrsim.1", "EXIT STATUS")), statuses(read("ctrsim.md")))

    def test_lines_of_standard_error(self):
        said = items(section("ctrsim.1", "DIAGNOSTICS"))
        for line in re.findall(r"\| `(ctrsim: .*)` \|$", read("ctrsim.md"), re.M):
            self.assertIn(line.replace("\\|", "|"), said)

    def test_refusals(self):
        self.assertEqual(len(refusals()), 12)
        self.assertEqual(items(section("ctr-schedule.5", "DIAGNOSTICS")), refusals())

    def test_lines_and_ranges(self):
        """Each line of a schedule stands in both, in the same order, with the same numbers in its ranges."""
        items_of = {" ".join(item.replace("Ic ", "").replace("Ar ", "").split()): text
                    for item, text in described("ctr-schedule.5").items() if item.startswith("Ic ")}
        lines = [(cells[0].strip("`"), cells[2]) for cells in rows("schedule.md", "Line") if cells[0].startswith("`")]
        self.assertEqual(len(lines), 11)
        self.assertEqual(list(items_of), [line.split(" ")[0] + line[len(line.split(" ")[0]):].lower() for line, _ in lines])
        for (line, ranges), text in zip(lines, items_of.values()):
            self.assertLessEqual(numbers(ranges), numbers(text), line)

    def test_fields(self):
        """Each field of a sample stands in both, in the same order, with its bit, its name and its length."""
        told = [[cells[0].replace(" of the branch word", " (branch)"), cells[1].replace("PERF_SAMPLE_", "")] + cells[2:]
                for cells in rows("samples.md", "Bit")]
        have = [item.split("Ta") for item in items(section("ctr-samples.5", "DESCRIPTION")) if "Ta" in item]
        self.assertEqual([[cell.strip() for cell in cells] for cells in have[1:]], told)
        self.assertEqual(len(told), 13)

    def test_contents(self):
        """What `run` writes into each field is told in the same words."""
        have = described("ctr-samples.5")
        for field, holds in rows("samples.md", "Field"):
            if field not in ("nr and the branches", "period", "hw_index"):
                self.assertEqual(have[field].strip(), holds, field)

    def test_broken_samples(self):
        self.assertEqual(len(broken()), 8)
        self.assertEqual(items(section("ctr-samples.5", "DIAGNOSTICS")), broken())

    def test_page_of_refusals(self):
        _, ends, run, show, _ = re.split(r"^## ", read("refusals.md"), flags=re.M)
        self.assertEqual(statuses(ends), statuses(read("ctrsim.md")))
        self.assertEqual([text for text in printed(run) if text in refusals()], refusals())
        self.assertEqual(sorted(printed(show)), sorted(broken()))

    def test_example(self):
        block = re.findall(r"^\.Bd .*?\n(.*?)^\.Ed", section("ctrsim.1", "EXAMPLES"), re.M | re.S)
        script, shown = (text.replace("\\e", "\\") for text in block)
        os.symlink(cases.program(), os.path.join(self.folder, "ctrsim"))
        words = {"PATH": self.folder + os.pathsep + os.environ["PATH"]}
        status, output, said = cases.run(["sh", "-c", script], cwd=self.folder, env=words)
        self.assertEqual((status, said), (0, b""))
        self.assertTrue(output.decode().startswith(shown), output)


if __name__ == "__main__":
    unittest.main()
