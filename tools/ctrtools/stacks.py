"""The stack of functions that a sample shows, where its branches are the calls that haven't returned (call_stack of
tools/record, RASEMU of the control words)."""
import struct

from . import elf

CALLS = {4, 5}
BRANCH = struct.Struct("<QQQ")
MOST_KEPT = 1_000_000
UNKNOWN = "[unknown]"
LINKS = {1, 5}

# Where a jump through a register may lead: a tail call through a pointer, or a place within the function by a table.
ANYWHERE = ""


class Frame:
    """A function and the place that the program has reached in it: that of the call that leads on, and of the innermost frame
    that of the sample; and the frame that it was called from."""
    __slots__ = ("outer", "name", "place")

    def __init__(self, outer, name, place):
        self.outer, self.name, self.place = outer, name, place


class Reached:
    """What a stack has come to by some branches, the oldest first: its innermost frame, whether it takes a jump back to a frame
    further out to explain them, and whether all of them are calls. What further branches lead to is kept, by their bytes."""
    __slots__ = ("frame", "jumped_back", "calls", "ways", "ends")

    def __init__(self, frame, jumped_back, calls):
        self.frame, self.jumped_back, self.calls = frame, jumped_back, calls
        self.ways, self.ends = {}, {}


class Stacks:
    """The stacks of one program's samples. Most samples share their oldest branches with others, so what these come to is found
    once."""

    def __init__(self, program):
        self.functions = elf.Functions(program)
        self.tails = tails(program, self.functions)
        self.reached, self.names = {}, {}
        self.root, self.known = Reached(None, False, True), 0
        self.jumped_back = False

    def name(self, address):
        name = self.names.get(address)
        if name is None:
            found = self.functions.at(address)
            name = self.names[address] = found[1] if found else UNKNOWN
        return name

    def of(self, raw):
        """What the branches of a sample come to, by their bytes: the youngest first, 24 of each."""
        if self.known > MOST_KEPT:
            self.root, self.known = Reached(None, False, True), 0
        at = self.root
        for i in range(len(raw) - 24, -1, -24):
            branch = raw[i:i + 24]
            way = at.ways.get(branch)
            if way is None:
                way = at.ways[branch] = self.after(at, *BRANCH.unpack(branch))
                self.known += 1
            at = way
        return at

    def after(self, at, source, target, flags):
        frame, back = self.come(at.frame, source)
        return Reached(Frame(frame, self.name(target), target), at.jumped_back or back, at.calls and flags >> 20 & 15 in CALLS)

    def innermost(self, sample):
        """The innermost frame of a sample. Afterwards `jumped_back` tells whether it takes a jump back to a frame further out to
        explain the branches, which calls that returned look like where their records stayed."""
        at = self.of(sample.raw)
        found = at.ends.get(sample.ip)
        if found is None:
            found = at.ends[sample.ip] = self.come(at.frame, sample.ip)
            self.known += 1
        self.jumped_back = at.jumped_back or found[1]
        return found[0]

    def frames(self, sample):
        """The frames of a sample, each as the name of its function and its place, the outermost first; and `jumped_back`."""
        frame, found = self.innermost(sample), []
        while frame:
            found.append((frame.name, frame.place))
            frame = frame.outer
        return found[::-1]

    def line(self, sample):
        """The stack of a sample as a line, or none where its branches aren't all calls, as they are under return-stack
        emulation; and `jumped_back`."""
        if not self.of(sample.raw).calls:
            return None
        frame, names = self.innermost(sample), []
        while frame:
            names.append(frame.name)
            frame = frame.outer
        return ";".join(names[::-1])

    def come(self, frame, address):
        """The frame in which the program is, which came from another to an address, and no record says how. It is still in that
        frame; or a tail call led on to another function, as the code of the last one tells; or a jump went back to a frame
        further out, as longjmp does; or an interrupt led to a handler. The second is whether it takes a jump back."""
        name = self.name(address)
        if frame is None:
            return Frame(None, name, address), False
        if name == frame.name:
            return Frame(frame.outer, name, address), False
        further = frame.outer
        while further and further.name != name:
            further = further.outer
        if further and not self.may_lead(frame.name, name):
            return Frame(further.outer, name, address), True
        return Frame(frame, name, address), False

    def may_lead(self, name, other):
        """Whether tail calls may lead from one function to another: as the code says, or through a pointer."""
        return bool({other, ANYWHERE} & self.led_to(name))

    def led_to(self, name):
        """The functions that tail calls lead to from one, by one or more of them."""
        if name not in self.reached:
            reached, open_ends = set(), [name]
            while open_ends:
                for target in self.tails.get(open_ends.pop(), ()):
                    if target not in reached:
                        reached.add(target)
                        open_ends.append(target)
            self.reached[name] = reached
        return self.reached[name]


def tails(program, functions):
    """The functions that each one jumps to without a link, by name; ANYWHERE where it goes by a register whose value the code
    before it doesn't tell."""
    found = {}
    for section in program.sections:
        if not section.flags & elf.INSTRUCTIONS or section.kind == elf.NO_BITS:
            continue
        high = {}
        for at in range(0, section.size - 3, 4):
            word, = program.unpacked("<I", section.offset + at)
            address = section.address + at
            target = jump_target(word, address, high)
            if target is None and is_jump_through_register(word) and functions.at(address):
                found.setdefault(functions.at(address)[1], set()).add(ANYWHERE)
            high = {word >> 7 & 31: address + signed(word & 0xFFFFF000, 32)} if word & 127 == 0x17 else {}
            here, there = functions.at(address), functions.at(target) if target is not None else None
            if here and there and here != there:
                found.setdefault(here[1], set()).add(there[1])
    return found


def is_jump_through_register(word):
    """Whether a word is a JALR that neither keeps an address to come back to nor returns to one."""
    return word & 127 == 0x67 and word >> 7 & 31 not in LINKS and word >> 15 & 31 not in LINKS


def jump_target(word, address, high):
    """Where a jump without a link, or a branch, leads, or none: JAL, AUIPC with JALR, branches."""
    opcode, link, first = word & 127, word >> 7 & 31, word >> 15 & 31
    if opcode == 0x6F and link not in LINKS:
        return address + signed(word >> 31 << 20 | (word >> 12 & 255) << 12 | (word >> 20 & 1) << 11
                                | (word >> 21 & 1023) << 1, 21)
    if opcode == 0x67 and link not in LINKS and first in high:
        return high[first] + signed(word >> 20, 12)
    if opcode == 0x63:
        return address + signed(word >> 31 << 12 | (word >> 7 & 1) << 11 | (word >> 25 & 63) << 5
                                | (word >> 8 & 15) << 1, 13)
    return None


def signed(value, bits):
    return value - (1 << bits) if value >> (bits - 1) else value
