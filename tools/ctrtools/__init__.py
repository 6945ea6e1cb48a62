"""Samples of ctrsim in Python: read, written, and named by the functions of a program.

    import ctrtools
    for sample in ctrtools.read("queens.samples", "987"):
        print(sample.ip, sample.branches[0].source if sample.branches else None)

The names in `__all__` are a promise: `read`, `write`, `Layout`, `Sample`, `Branch`, `Program`, `Error`, `TYPES` and `MODES`.
What is in the modules below this one is the tools' own: how they end (`ends`), samples (`samples`), ELF files (`elf`), call stacks
(`stacks`), schedules (`schedule`), perf's files (`perf`), and where the program is (`built`).
"""
import contextlib

from . import elf, ends, samples, stacks
from .ends import End as Error
from .samples import MODES, TYPES, Branch, Layout, Sample

__all__ = ["read", "write", "Layout", "Sample", "Branch", "Program", "Error", "TYPES", "MODES"]


def layout_of(layout):
    return layout if isinstance(layout, Layout) else Layout(layout)


def opened(file, opener):
    """A path, to be opened and closed again, or a stream of bytes, which is left open."""
    return contextlib.nullcontext(file) if hasattr(file, "read") or hasattr(file, "write") else opener(file)


def read(file, layout=samples.USUAL):
    """The samples of a file, one after another, by its path or as a stream of bytes. `layout` is a word, as "987" or
    "803:20000", or a `Layout`. Raises an `Error` where the file can't be read, or at the first bytes that are no sample."""
    with opened(file, ends.opened) as stream:
        yield from samples.read(stream, layout_of(layout))


def write(file, given, layout=samples.USUAL):
    """Writes samples to a file, by its path or as a stream of bytes. Fields that a sample lacks are written as 0."""
    form = layout_of(layout)
    with opened(file, ends.created) as stream:
        for sample in given:
            stream.write(samples.spelled(sample, form))


class Program:
    """A program by its ELF file: the names of its functions, and the stacks of samples that were taken of it under return-stack
    emulation."""

    def __init__(self, path):
        self.stacks = stacks.Stacks(elf.read(path))

    def name(self, address):
        """The name of the function that an address is in; the address in hexadecimal where there is none."""
        return self.stacks.functions.name(address)

    def place(self, address):
        """An address as the name of its function and how far it is in it."""
        return self.stacks.functions.place(address)

    def stack(self, sample):
        """The functions that are open where a sample was taken, the outermost first; none where its branches aren't all calls."""
        line = self.stacks.line(sample)
        return None if line is None else line.split(";")
