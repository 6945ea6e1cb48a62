"""The block of results that a test leaves, as env/ctr.h lays it out, and its numbers in words."""
import collections

WORDS = 256
MAGIC = 0x3154534554525443
MOST_FAILURES = 21
CASES_AT, FAILURES_AT = 8, 128

PASSED, FAILED, SKIPPED = 1, 2, 3
SOURCE, TARGET, TYPE, VALID, VALUE, TRAP = range(1, 7)
NAMES_OF_FIELDS = {SOURCE: "source", TARGET: "target", TYPE: "type"}

FEATURES = {8: "Smctr and Ssctr", 9: "the hypervisor extension", 10: "transfer types in entries",
            11: "a local counter overflow interrupt", 12: "Smstateen with the bit of the records",
            13: "compressed instructions", 14: "a local counter overflow interrupt for VS",
            15: "mstatus.MPV written by a CSR instruction", 16: "jumps to multiples of 4 alone",
            17: "cycle counts in entries", 18: "an address without memory that the target knows"}
FEATURES.update({i: "depth %d" % (16 << i) for i in range(5)})
BITS = {0: "U", 1: "S", 2: "M", 7: "RASEMU", 8: "STE", 9: "MTE", 11: "BPFRZ", 12: "LCOFIFRZ", 33: "EXCINH", 34: "INTRINH",
        35: "TRETINH", 36: "NTBREN", 37: "TKBRINH", 40: "INDCALLINH", 41: "DIRCALLINH", 42: "INDJMPINH", 43: "DIRJMPINH",
        44: "CORSWAPINH", 45: "RETINH", 46: "INDLJMPINH", 47: "DIRLJMPINH"}
REGISTERS = {2: "mctrctl", 3: "vsctrctl", 4: "medeleg", 5: "hedeleg", 6: "mideleg", 7: "hideleg"}
OF_FEATURE, OF_CSR, CONTROLS = 1, 8, (2, 3)

# The words of --require: features by their number, and control bits by their name.
REQUIRABLE = {"ctr": 8, "h": 9, "type": 10, "lcofi": 11, "stateen": 12, "c": 13, "vslcofi": 14, "cycles": 17}
REQUIRABLE.update({"depth%d" % (16 << i): i for i in range(5)})
REQUIRABLE_BITS = {name.lower(): place for place, name in BITS.items()}

Failure = collections.namedtuple("Failure", "case line index field expected got")


def places(bits):
    return [place for place in range(64) if bits >> place & 1]


def named(bits, names):
    return ", ".join(names.get(place, "bit %d" % place) for place in places(bits))


class Skip:
    """Why a case was skipped."""

    def __init__(self, reason, detail):
        self.reason, self.detail = reason, detail

    def text(self):
        if self.reason == OF_FEATURE:
            return "needs " + named(self.detail, FEATURES)
        if self.reason == OF_CSR:
            return "register %03x doesn't hold what it should" % self.detail
        names = BITS if self.reason in CONTROLS else {}
        return "%s doesn't have %s" % (REGISTERS.get(self.reason, "reason %d" % self.reason), named(self.detail, names))

    def is_for_want_of(self, required):
        """Whether one of the required words names what is missing."""
        if self.reason == OF_FEATURE:
            return any(REQUIRABLE.get(word) in places(self.detail) for word in required)
        return self.reason in CONTROLS and any(REQUIRABLE_BITS.get(word) in places(self.detail) for word in required)


class Results:
    """The results of one test."""

    def __init__(self, words):
        self.count, self.failed, self.checks = words[2], words[3], words[7]
        outcomes = words[CASES_AT:CASES_AT + 2 * self.count]
        self.outcomes = [word & 255 for word in outcomes[::2]]
        self.skips = [Skip(word >> 8, detail) for word, detail in zip(outcomes[::2], outcomes[1::2])]
        self.failures = [Failure(*words[at:at + 6])
                         for at in range(FAILURES_AT, FAILURES_AT + 6 * min(self.failed, MOST_FAILURES), 6)]

    def failures_of(self, case):
        return [failure for failure in self.failures if failure.case == case]


def words_of(text):
    """The words of a block that a target printed, one of 16 hexadecimal digits a line; other lines are passed over."""
    words = []
    for line in text.split("\n"):
        line = line.strip()
        if len(line) == 16 and all(digit in "0123456789abcdefABCDEF" for digit in line):
            words.append(int(line, 16))
    return words


def read(words):
    """The results that some words are, or nothing where they are no block of a test that came to its end."""
    if len(words) < WORDS or words[0] != MAGIC or words[1] != 1 or words[2] > (FAILURES_AT - CASES_AT) // 2:
        return None
    return Results(words[:WORDS])
