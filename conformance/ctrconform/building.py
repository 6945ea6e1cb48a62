"""Tests as programs: the compilers, and what is read from the ELF file that they make."""
import os
import shlex
import shutil
import struct
import subprocess

from . import ends

HERE = os.path.dirname(os.path.dirname(os.path.realpath(__file__)))
TESTS = os.path.join(HERE, "tests")

COMPILERS = {
    "clang": "clang --target=riscv64 -march=rv64i -mabi=lp64 -mno-relax -fuse-ld=lld",
    "gcc": "riscv64-unknown-elf-gcc -march=rv64i_zicsr_zifencei -mabi=lp64 -mno-relax -Wl,--no-warn-rwx-segments",
}
ALL = ["-nostdlib", "-static"]
NAMES_SECTION, SYMBOLS = ".ctr.cases", 2


def is_there(name):
    """Whether a compiler of the table can be run here."""
    return bool(shutil.which(COMPILERS[name].split()[0])) and (name != "clang" or bool(shutil.which("ld.lld")))


def compiler():
    """The first compiler of the table that is here, or none."""
    return next((name for name in COMPILERS if is_there(name)), None)


def test_names():
    return sorted(name[:-2] for name in os.listdir(TESTS) if name.endswith(".S"))


def source_of(test):
    """The file of a test: one of tests/ by its name, or any other by its path."""
    return test if test.endswith(".S") else os.path.join(TESTS, test + ".S")


def name_of(test):
    return os.path.basename(source_of(test))[:-2]


def start_words(place, start):
    """What the compiler is told of the mode that the cases start in: from S there is M code too, the target's own or that of
    env/."""
    if start == "m":
        return []
    own = os.path.join(place, "firmware.S")
    return ["-DSTART_S", own if os.path.exists(own) else os.path.join(HERE, "env", "ctr_firmware.S")]


def build(test, place, command, folder, start="m"):
    """Builds a test for the target of a folder, to start in M or in S. Answers the path of the program, and what the compiler
    said where there is none."""
    elf = os.path.join(folder, name_of(test) + ".elf")
    words = shlex.split(COMPILERS.get(command, command)) + ALL + start_words(place, start) + [
        "-I", os.path.join(HERE, "env"), "-T", os.path.join(place, "link.ld"), os.path.join(HERE, "env", "ctr_env.S"),
        os.path.join(place, "target.S"), source_of(test), "-o", elf]
    try:
        ended = subprocess.run(words, stdout=subprocess.PIPE, stderr=subprocess.STDOUT, universal_newlines=True,
                               errors="replace")
    except OSError as error:
        raise ends.End("cannot run the compiler %s: %s" % (words[0], error.strerror)) from error
    return (elf, "") if ended.returncode == 0 else (None, ended.stdout)


class Program:
    """An ELF file as far as it is looked at: what is loaded, its symbols, and the names of its cases."""

    def __init__(self, path):
        with open(path, "rb") as file:
            self.data = file.read()
        segments_at, sections_at = struct.unpack_from("<QQ", self.data, 32)
        count, _, sections, names = struct.unpack_from("<HHHH", self.data, 56)
        self.segments = [struct.unpack_from("<IIQQQQQQ", self.data, segments_at + 56 * i) for i in range(count)]
        self.sections = [struct.unpack_from("<IIQQQQIIQQ", self.data, sections_at + 64 * i) for i in range(sections)]
        self.names = self.sections[names][4]

    def text(self, at):
        return self.data[at:self.data.index(b"\0", at)].decode()

    def cases(self):
        for section in self.sections:
            if self.text(self.names + section[0]) == NAMES_SECTION:
                return self.data[section[4]:section[4] + section[5]].decode().rstrip("\0").split("\0")
        return []

    def symbols(self):
        found = {}
        for section in self.sections:
            if section[1] == SYMBOLS:
                names = self.sections[section[6]][4]
                for at in range(section[4], section[4] + section[5], 24):
                    name, _, _, _, value, _ = struct.unpack_from("<IBBHQQ", self.data, at)
                    found[self.text(names + name)] = value
        return found

    def image(self, base):
        """The bytes that are loaded from an address on, in whole words."""
        image = bytearray()
        for kind, _, offset, address, _, size, _, _ in self.segments:
            if kind == 1 and size:
                at = address - base
                image += bytes(max(0, at + size - len(image)))
                image[at:at + size] = self.data[offset:offset + size]
        return bytes(image) + bytes(-len(image) % 4)
