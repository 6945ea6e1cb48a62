"""ELF files as far as a task needs them: 64 bits, little-endian, RISC-V. The image that a task has of one, and the names of
its functions."""
import bisect
import collections
import re
import struct

from . import ends

BASE = 0x80000000
MOST_MEMORY = 1 << 20

RISCV = 243
EXECUTABLE, SHARED = 2, 3
LOADED, DYNAMIC, INTERPRETER = 1, 2, 3
SYMBOLS, ATTRIBUTES = 2, 0x70000003
INSTRUCTIONS = 4
NO_BITS = 8
NO_TYPE, FUNCTION = 0, 2
COMPRESSED, FLOAT = 1, 6

Segment = collections.namedtuple("Segment", "kind flags offset address physical filed size align")
Section = collections.namedtuple("Section", "name kind flags address offset size link info align entry")
Symbol = collections.namedtuple("Symbol", "name address size kind binding section offset")


class Elf:
    """An ELF file, as it stands in bytes."""

    def __init__(self, data, name):
        self.data, self.name = data, name
        if data[:4] != b"\x7fELF":
            raise self.refused("no ELF file")
        if len(data) < 64 or data[4] != 2 or data[5] != 1:
            raise self.refused("not of 64 bits and little-endian, as RV64 is")
        (self.kind, self.machine, _, self.entry, at, sections_at, self.flags, _, size, count, section_size, section_count,
         names) = struct.unpack_from("<HHIQQQIHHHHHH", data, 16)
        if self.machine != RISCV:
            raise self.refused("not for RISC-V")
        self.segments = []
        for i in range(count):
            kind, flags, *rest = self.unpacked("<IIQQQQQQ", at + i * size)
            self.segments.append(Segment(kind, flags, *rest))
            self.is_there(self.segments[-1].offset, self.segments[-1].filed)
        raw = [self.unpacked("<IIQQQQIIQQ", sections_at + i * section_size) for i in range(section_count)]
        strings = raw[names][4] if names < len(raw) else 0
        self.sections = [Section(self.string(strings + words[0]) if strings else "", *words[1:]) for words in raw]
        for section in self.sections:
            if section.kind != NO_BITS:
                self.is_there(section.offset, section.size)
        self.symbols = self.read_symbols()

    def refused(self, text):
        return ends.End(ends.ELF, "%s: %s" % (self.name, text))

    def is_there(self, offset, size):
        """The end of the tool where the file lacks some bytes that it says that it has."""
        if offset + size > len(self.data):
            raise self.refused("cut or broken: %d bytes at byte %d aren't there" % (size, offset))

    def unpacked(self, form, at):
        try:
            return struct.unpack_from(form, self.data, at)
        except (struct.error, OverflowError) as error:
            raise self.refused("cut or broken at byte %d" % at) from error

    def string(self, at):
        end = self.data.find(b"\0", at)
        return self.data[at:end if end >= 0 else len(self.data)].decode(errors="replace")

    def read_symbols(self):
        found = []
        for section in self.sections:
            if section.kind != SYMBOLS or section.link >= len(self.sections):
                continue
            names = self.sections[section.link].offset
            for at in range(section.offset, section.offset + section.size - 23, 24):
                name, info, _, place, value, size = self.unpacked("<IBBHQQ", at)
                found.append(Symbol(self.string(names + name), value, size, info & 15, info >> 4, place, at))
        return found

    def without_marks(self):
        """The bytes of the file, where the marks of the assembler have lost their names. The symbols stay where they
        are, since relocations know them by their numbers."""
        data = bytearray(self.data)
        for symbol in self.symbols:
            if is_mark(symbol):
                struct.pack_into("<I", data, symbol.offset, 0)
        return bytes(data)

    def architecture(self):
        """What the attributes say of the architecture, as rv64i2p1_m2p0; nothing where they don't."""
        for section in self.sections:
            if section.kind == ATTRIBUTES:
                found = re.search(rb"\x05(rv[0-9a-z_]+)\0", self.data[section.offset:section.offset + section.size])
                if found:
                    return found.group(1).decode()
        return ""

    def symbol(self, *names):
        """The address of the first of some names that there is, or none."""
        known = {symbol.name: symbol.address for symbol in self.symbols if symbol.section}
        return next((known[name] for name in names if name in known), None)

    def loaded(self):
        return [segment for segment in self.segments if segment.kind == LOADED and segment.size]

    def image(self):
        """The bytes from 80000000 on, as a flat image has them, and the first address behind all that the file asks for.
        The end of the tool where a task can't be so."""
        self.check()
        image = bytearray()
        for segment in self.loaded():
            if segment.address < BASE or segment.address + segment.size > BASE + MOST_MEMORY:
                raise self.refused("a segment at %x to %x, outside the memory 80000000 to 80100000"
                                   % (segment.address, segment.address + segment.size))
            if segment.filed > segment.size:
                raise self.refused("a segment has more bytes in the file than in memory")
            if segment.filed:
                at, end = segment.address - BASE, segment.address - BASE + segment.filed
                image += bytes(max(0, end - len(image)))
                image[at:end] = self.data[segment.offset:segment.offset + segment.filed]
        return bytes(image), max(segment.address + segment.size for segment in self.loaded())

    def check(self):
        """The end of the tool where the file is none that a task can be."""
        if self.kind == SHARED or any(segment.kind in (DYNAMIC, INTERPRETER) for segment in self.segments):
            raise self.refused("linked dynamically, or position independent: link with -static -no-pie")
        if self.kind != EXECUTABLE:
            raise self.refused("not linked yet: it is an object file")
        if self.flags & COMPRESSED:
            raise self.refused("has compressed code: compile with -march=rv64im, libraries too")
        if self.flags & FLOAT:
            raise self.refused("has floating-point code: compile with -march=rv64im -mabi=lp64, libraries too")
        beyond = [word for word in extensions(self.architecture()) if word not in KNOWN_EXTENSIONS]
        if beyond:
            raise self.refused("is for %s, and a hart here has no %s: compile with -march=rv64im, libraries too"
                               % (self.architecture(), ", ".join(beyond)))
        if not self.loaded():
            raise self.refused("nothing in it is loaded")
        if self.entry != BASE:
            raise self.refused("its entry is %x, and a task begins at 80000000: link the start code first, there"
                               % self.entry)


KNOWN_EXTENSIONS = {"i", "m", "zicsr", "zifencei", "zmmul"}


def extensions(architecture):
    """The extensions of an architecture string, without its versions."""
    if not architecture:
        return []
    first, *rest = re.sub(r"^rv64", "", architecture).split("_")
    words = [re.sub(r"\d+p\d+$", "", word) for word in [first] + rest]
    return [letter for letter in words[0]] + words[1:] if len(words[0]) > 1 else words


class Functions:
    """The functions of an ELF file by their addresses, and what other addresses are called."""

    def __init__(self, elf=None):
        self.known = []
        if elf is None:
            return
        names = {}
        for symbol in elf.symbols:
            if is_function(elf, symbol):
                # Of several names at one address the one of a function, that is global, that has a size, that comes first.
                rank = (symbol.kind != FUNCTION, symbol.binding == 0, not symbol.size, symbol.name)
                names.setdefault(symbol.address, []).append((rank, symbol))
        self.known = [(address, min(found)[1]) for address, found in sorted(names.items())]
        self.starts = [address for address, _ in self.known]

    def at(self, address):
        """The function that an address is in: its first address and its name, or none."""
        i = bisect.bisect_right(self.starts, address) - 1 if self.known else -1
        if i < 0:
            return None
        start, symbol = self.known[i]
        return None if symbol.size and address >= start + symbol.size else (start, symbol.name)

    def name(self, address):
        """The name of the function that an address is in; the address where there is none."""
        found = self.at(address)
        return found[1] if found else "0x%x" % address

    def place(self, address):
        """An address as a function and how far it is in it."""
        found = self.at(address)
        if not found:
            return "0x%x" % address
        return found[1] if found[0] == address else "%s+0x%x" % (found[1], address - found[0])


def is_mark(symbol):
    """Whether a symbol is a mark of an assembler, as `$x` and `.L4`."""
    return bool(re.match(r"\$|\.L|L0\x01", symbol.name))


def is_function(elf, symbol):
    """Whether a symbol names code: it is in a section of instructions, and is no mark of an assembler."""
    if symbol.kind not in (NO_TYPE, FUNCTION) or not symbol.name or is_mark(symbol):
        return False
    if not 0 < symbol.section < len(elf.sections):
        return False
    section = elf.sections[symbol.section]
    return bool(section.flags & INSTRUCTIONS) and section.address <= symbol.address < section.address + section.size


def read(path):
    """The ELF file at a path."""
    return Elf(ends.content(path), path or "standard input")
