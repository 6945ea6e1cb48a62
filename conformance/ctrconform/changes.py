"""The wrong implementations of mutants/changes.txt: each a small change to the sources of the harts.

A change is a paragraph of lines `key: text`. `says` says what is wrong, `file` is a file below crates/, and each `old` is a
text that stands once in it, followed by the `new` text in its place. `seen: yes` marks one that the cases were written to
tell; `permitted: yes` one that the standard lets an implementation do.
"""
import collections
import os

from . import building, ends

LIST = os.path.join(building.HERE, "mutants", "changes.txt")
CRATES = os.path.join(building.HERE, "..", "crates")

Change = collections.namedtuple("Change", "number says parts seen permitted")
Part = collections.namedtuple("Part", "file old new")
KEYS = ("says", "file", "old", "new", "seen", "permitted")


def read():
    """The changes, numbered from 1."""
    with open(LIST, encoding="utf-8") as file:
        paragraphs = file.read().strip().split("\n\n")
    return [change(number, paragraph) for number, paragraph in enumerate(paragraphs, 1)]


def change(number, paragraph):
    said, parts = {}, []
    for line in paragraph.splitlines():
        key, mark, text = line.partition(": ")
        if not mark or key not in KEYS:
            raise ends.End("changes.txt: no line of a change: %s" % line)
        said[key] = text
        if key == "new":
            parts.append(Part(said["file"], said["old"], text))
    return Change(number, said["says"], parts, "seen" in said, "permitted" in said)


def misfit(change, crates=CRATES):
    """Why a change can't be made to the sources, or nothing."""
    for part in change.parts:
        try:
            with open(os.path.join(crates, part.file), encoding="utf-8") as file:
                count = file.read().count(part.old)
        except OSError as error:
            return "change %d, %s: %s: %s" % (change.number, change.says, part.file, error.strerror)
        if count != 1:
            return "change %d, %s: the text stands %d times in %s: %s" % (
                change.number, change.says, count, part.file, part.old)
    return ""


def make(change, crates):
    """Makes a change in a copy of the crates."""
    said = misfit(change, crates)
    if said:
        raise ends.End(said)
    for part in change.parts:
        path = os.path.join(crates, part.file)
        with open(path, encoding="utf-8") as file:
            text = file.read()
        with open(path, "w", encoding="utf-8") as file:
            file.write(text.replace(part.old, part.new))
