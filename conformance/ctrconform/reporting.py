"""What is said of a run: TAP on standard output, and JUnit XML in a file."""
import collections
from xml.sax.saxutils import escape, quoteattr

from . import ends

Line = collections.namedtuple("Line", "name passed skipped notes")


class Report:
    """The lines of all tests, as they come."""

    def __init__(self):
        self.suites, self.count, self.failed, self.skipped, self.checks = [], 0, 0, 0, 0
        print("TAP version 14")

    def test(self, name):
        self.suites.append((name, []))

    def say(self, name, passed, skipped="", notes=(), advisory=False):
        """The line of a case, and below it what is said of its failure. One that is advisory doesn't count as failed."""
        test, lines = self.suites[-1]
        self.count += 1
        self.failed += not passed and not advisory
        self.skipped += bool(skipped)
        more = " # SKIP " + skipped if skipped else " # TODO never fails an implementation" if advisory and not passed else ""
        print("%s %d - %s: %s%s" % ("ok" if passed else "not ok", self.count, test, name, more))
        lines.append(Line(name, passed or advisory, skipped, list(notes)))
        for note in notes:
            print("  # " + note, flush=True)

    def end(self, target):
        print("1..%d" % self.count)
        print("# %d cases, %d failed, %d skipped, %d checks, target %s"
              % (self.count, self.failed, self.skipped, self.checks, target))

    def write_junit(self, path):
        try:
            with open(path, "w", encoding="utf-8") as file:
                file.write("\n".join(self.junit()) + "\n")
        except OSError as error:
            raise ends.End("cannot write %s: %s" % (path, error.strerror)) from error

    def junit(self):
        yield '<?xml version="1.0" encoding="UTF-8"?>'
        yield "<testsuites>"
        for test, lines in self.suites:
            yield '<testsuite name=%s tests="%d" failures="%d" skipped="%d">' % (
                quoteattr(test), len(lines), sum(not line.passed for line in lines), sum(bool(line.skipped) for line in lines))
            for line in lines:
                inner = "" if line.passed else "<failure>%s</failure>" % escape("\n".join(line.notes))
                inner = "<skipped message=%s/>" % quoteattr(line.skipped) if line.skipped else inner
                yield "<testcase classname=%s name=%s>%s</testcase>" % (quoteattr(test), quoteattr(line.name), inner)
            yield "</testsuite>"
        yield "</testsuites>"
