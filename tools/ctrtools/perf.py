"""The perf.data file of `perf record`: its header, its one event, and the records that say which file a task runs."""
import collections
import os
import shutil
import struct

COMM, MMAP2 = 3, 10
KERNEL, USER, HYPERVISOR, GUEST_KERNEL, GUEST_USER = range(1, 6)
MODE_BITS = 7
GUESTS = (GUEST_KERNEL, GUEST_USER)

# The words sample_type and branch_sample_type of the event.
CALLCHAIN = 0x20
BRANCH_USER, BRANCH_KERNEL, BRANCH_HYPERVISOR, BRANCH_ANY = 1, 2, 4, 8
BRANCH_CALL_STACK, BRANCH_TYPES = 0x800, 0x10000
CONTEXT_USER = (1 << 64) - 512

# A step is the instruction that a hart retires, or a trap that it takes; the event is named `steps` all the same.
HARDWARE, INSTRUCTIONS = 0, 1
EVENT = "steps"
EXCLUDES_KERNEL = 1 << 5
HAS_RECORDS = 1 << 8 | 1 << 9 | 1 << 23

HEADER_SIZE, ATTRIBUTE_SIZE = 104, 112
ARCHITECTURE, EVENT_NAMES, HAS_BRANCHES = 6, 12, 15

PAGE = 4096
READABLE, WRITABLE, RUNNABLE = 1, 2, 4
PRIVATE = 2

Mapping = collections.namedtuple("Mapping", "address size offset protection path")


def mappings(elf, path):
    """What a task maps of an ELF file: its segments that hold instructions, from the beginning of a page, as a kernel
    maps them and llvm-profgen expects it."""
    found = []
    for segment in elf.loaded():
        if segment.flags & 1:
            protection = RUNNABLE | (WRITABLE if segment.flags & 2 else 0) | (READABLE if segment.flags & 4 else 0)
            before = min(segment.address % PAGE, segment.offset)
            found.append(Mapping(segment.address - before, segment.size + before, segment.offset - before, protection,
                                 os.path.abspath(path)))
    return found


def record(kind, misc, body):
    return struct.pack("<IHH", kind, misc, 8 + len(body)) + body


def string(text):
    """A string of a record: zeros behind it up to a multiple of eight bytes."""
    raw = os.fsencode(text) + b"\0"
    return raw + bytes(-len(raw) % 8)


def comm(pid, name):
    return record(COMM, USER, struct.pack("<II", pid, pid) + string(name))


def mmap2(pid, mapping):
    place = struct.pack("<QQQ", mapping.address, mapping.size, mapping.offset)
    file = struct.pack("<IIQQ", 0, 0, 0, 0)
    return record(MMAP2, USER, struct.pack("<II", pid, pid) + place + file
                  + struct.pack("<II", mapping.protection, PRIVATE) + string(mapping.path))


def task_records(pid, mapped):
    """What stands before the samples of a task: its name, and what it maps."""
    return comm(pid, "task%d" % (pid - 1)) + b"".join(mmap2(pid, mapping) for mapping in mapped)


def branch_word(layout, call_stack):
    """branch_sample_type: what the records of a hart can hold, and the words that the samples have beside them."""
    word = BRANCH_USER | BRANCH_KERNEL | BRANCH_HYPERVISOR | BRANCH_TYPES | layout.branch
    return word | (BRANCH_CALL_STACK if call_stack else BRANCH_ANY)


def attribute(sample_type, branch_type, flags):
    """The event, a struct perf_event_attr. Its period is 1, which counts where the samples have none."""
    start = struct.pack("<IIQQQQQ", HARDWARE, ATTRIBUTE_SIZE, INSTRUCTIONS, 1, sample_type, 0, HAS_RECORDS | flags)
    return start + struct.pack("<QQQQ", 0, 0, 0, branch_type) + bytes(ATTRIBUTE_SIZE - len(start) - 32)


def feature_string(text):
    raw = text.encode() + b"\0"
    raw += bytes(-len(raw) % 64)
    return struct.pack("<I", len(raw)) + raw


def features(event, by_branches):
    """The features behind the data, by their numbers: what perf has to know of the machine and of the event, and
    whether `perf report` lists branches where it isn't told."""
    names = struct.pack("<II", 1, len(event)) + event + struct.pack("<I", 0) + feature_string(EVENT)
    found = {ARCHITECTURE: feature_string("riscv64"), EVENT_NAMES: names}
    if by_branches:
        found[HAS_BRANCHES] = b""
    return found


def write_file(out, event, body, by_branches):
    """The file: header, event, the records of a file `body`, and the features."""
    start = HEADER_SIZE + len(event) + 16
    end = start + body.seek(0, os.SEEK_END)
    body.seek(0)
    parts = features(event, by_branches)
    out.write(b"PERFILE2" + struct.pack("<QQ", HEADER_SIZE, len(event) + 16)
              + struct.pack("<QQ", HEADER_SIZE, len(event) + 16) + struct.pack("<QQ", start, end - start)
              + struct.pack("<QQ", 0, 0) + sum(1 << number for number in parts).to_bytes(32, "little"))
    out.write(event + struct.pack("<QQ", 0, 0))
    shutil.copyfileobj(body, out)
    at = end + 16 * len(parts)
    for number in sorted(parts):
        out.write(struct.pack("<QQ", at, len(parts[number])))
        at += len(parts[number])
    out.write(b"".join(parts[number] for number in sorted(parts)))
