"""The layout of samples (docs/samples.md): a layout from its words, samples from bytes, and bytes from samples."""
import collections
import re
import struct

from . import ends

SAMPLE_RECORD = 9
BRANCH_STACK, HW_INDEX = 0x800, 0x20000
MOST_BRANCHES = 256
BRANCH_SIZE = 24
BYTES_BETWEEN = 1 << 18

# The fields between header and branches, in their order: the bit of the layout, the name of its first word, of its second
# one where it is two of four bytes, and the form.
FIELDS = [(0x10000, "identifier", None), (0x1, "ip", None), (0x2, "pid", "tid"), (0x4, "time", None),
          (0x8, "addr", None), (0x40, "id", None), (0x200, "stream_id", None), (0x80, "cpu", None),
          (0x100, "period", None)]
FIELD_NAMES = {name for _, first, second in FIELDS for name in (first, second) if name}
KNOWN = BRANCH_STACK | sum(bit for bit, _, _ in FIELDS)

MODES = {1: "S", 2: "U", 3: "M", 4: "VS", 5: "VU"}
TYPES = ["unknown", "cond", "uncond", "ind", "call", "ind_call", "ret", "syscall", "sysret", "cond_call", "cond_ret",
         "eret", "irq", "serror", "no_tx", "extend_abi"]

# What `tools/record` asks for, and the other tools take where no layout is given: ip, tid, time, cpu, period, branches.
USUAL = "987"
LAYOUT_FORM = ("the word sample_type in hexadecimal, and behind a colon the branch word where it isn't 0, as 803 or"
               " 803:20000")
LAYOUT_HELP = "%s; %s where none is given" % (LAYOUT_FORM, USUAL)

MISPREDICTED, PREDICTED = 1, 2
HEADER, NUMBER = struct.Struct("<IHH"), struct.Struct("<Q")

Branch = collections.namedtuple("Branch", "source target flags")


def two_words(text):
    """Two words of 64 bits in hexadecimal, with a colon between them and 0x ahead of each or not; the second is 0 where it isn't
    there. None where the text is something else."""
    if not re.fullmatch(r"(0[xX])?[0-9a-fA-F]{1,16}(:(0[xX])?[0-9a-fA-F]{1,16})?", text):
        return None
    first, _, second = text.partition(":")
    return int(first, 16), int(second or "0", 16)


class Layout:
    """Which fields a sample has."""

    def __init__(self, word=USUAL):
        both = two_words(word)
        if both is None:
            raise ends.End(ends.USAGE, "%s is no layout; one is %s" % (word, LAYOUT_FORM))
        self.bits, self.branch = both
        if self.bits & ~KNOWN or not self.bits & BRANCH_STACK or self.branch not in (0, HW_INDEX):
            raise ends.End(ends.USAGE, "%s is no layout of ctrsim (docs/samples.md)" % word)
        self.names, form = [], "<"
        for bit, name, second in FIELDS:
            if self.bits & bit:
                self.names += [name, second or ""] if second or name == "cpu" else [name]
                form += "II" if second or name == "cpu" else "Q"
        self.fields = struct.Struct(form)
        self.least = 16 + self.fields.size + (8 if self.branch else 0)

    def __str__(self):
        return "%x:%x" % (self.bits, self.branch) if self.branch else "%x" % self.bits

    def words(self):
        """The layout as words of `ctrsim show`."""
        return ["%x" % self.bits] + (["%x" % self.branch] if self.branch else [])

    def needs(self, *names):
        """The end of the tool where a field isn't there."""
        for name in names:
            if name not in self.names:
                bit = next(bit for bit, first, second in FIELDS if name in (first, second))
                raise ends.End(ends.LAYOUT, "the layout %s lacks %s (bit %x)" % (self, name, bit))


class Sample:
    """A sample: where it stands, its mode, its fields by name (0 where the layout lacks one), and its branches, the
    youngest first. A field is an attribute too, as `sample.ip`. `raw` are the branches as bytes, 24 of each."""
    __slots__ = ("offset", "size", "misc", "values", "hw_index", "raw", "kept")

    def __init__(self, values=None, branches=(), misc=3, hw_index=0):
        self.offset = self.size = 0
        self.misc, self.hw_index, self.values = misc, hw_index, {} if values is None else values
        self.branches = branches

    def __getattr__(self, name):
        if name in FIELD_NAMES:
            return self.values.get(name, 0)
        raise AttributeError(name)

    @property
    def branches(self):
        if self.kept is None:
            self.kept = [Branch(*words) for words in struct.iter_unpack("<QQQ", self.raw)]
        return self.kept

    @branches.setter
    def branches(self, branches):
        self.kept = None
        self.raw = b"".join(struct.pack("<QQQ", *branch) for branch in branches)

    def mode(self):
        return MODES.get(self.misc & 7, "?")


def spelled(sample, layout):
    """The bytes of a sample."""
    values = [sample.values.get(name, 0) if name else 0 for name in layout.names]
    body = layout.fields.pack(*values) + struct.pack("<Q", len(sample.raw) // BRANCH_SIZE)
    if layout.branch:
        body += struct.pack("<Q", sample.hw_index)
    body += sample.raw
    return struct.pack("<IHH", SAMPLE_RECORD, sample.misc, 8 + len(body)) + body


def exactly(stream, count):
    """So many bytes of a stream, or fewer at its end."""
    try:
        got = stream.read(count)
        while got and len(got) < count:
            more = stream.read(count - len(got))
            if not more:
                break
            got += more
    except OSError as error:
        raise ends.End(ends.READ, "cannot read: %s" % error.strerror) from error
    return got


def read(stream, layout):
    """The samples of a stream, one after another; the end of the tool at the first bytes that are none."""
    offset, told, progress = 0, 0, ends.Progress("bytes read")
    try:
        while True:
            head = exactly(stream, 8)
            if not head:
                return
            yield sample_of(head, stream, layout, offset)
            offset += head[6] | head[7] << 8
            if offset >= told:
                progress.at(offset)
                told = offset + BYTES_BETWEEN
    finally:
        progress.end()


def sample_of(head, stream, layout, offset):
    def broken(text):
        return ends.End(ends.SAMPLE, "sample at %d: %s" % (offset, text))

    if len(head) < 8:
        raise broken("header cut")
    kind, misc, size = HEADER.unpack(head)
    if kind != SAMPLE_RECORD:
        raise broken("not a sample")
    if size < layout.least or (size - layout.least) % 24 or size > layout.least + 24 * MOST_BRANCHES:
        raise broken("wrong size for the layout %s" % layout)
    body = exactly(stream, size - 8)
    if len(body) < size - 8:
        raise broken("cut")
    sample = Sample.__new__(Sample)
    sample.offset, sample.size, sample.misc, sample.kept = offset, size, misc, None
    sample.values = dict(zip(layout.names, layout.fields.unpack_from(body)))
    if sample.values.pop("", 0):
        raise broken("reserved cpu bytes")
    at = layout.fields.size
    count, = NUMBER.unpack_from(body, at)
    if layout.least + 24 * count != size:
        raise broken("wrong number of branches")
    sample.hw_index = NUMBER.unpack_from(body, at + 8)[0] if layout.branch else 0
    sample.raw = raw = body[len(body) - 24 * count:]
    # Bits 33 to 63 of the flags, over all branches at once.
    if any(raw[21::24]) or any(raw[22::24]) or any(raw[23::24]) or max(raw[20::24], default=0) > 1:
        raise broken("reserved flags in branch %d" % next(i for i, branch in enumerate(sample.branches) if branch.flags >> 33))
    return sample
