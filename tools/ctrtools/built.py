"""The program: where it is, and what it was built from."""
import os
import subprocess

from . import ends

PROVED = os.path.join(ends.TOP, "crates", "ctrsim", "out", "ctrsim")    # what `rt ci` builds
UNPROVED = os.path.join(ends.TOP, "out", "ctrsim")                      # what tools/build builds
INSTALLED = os.path.join(ends.TOP, "ctrsim", "bin", "ctrsim")            # where ctrtools is in PREFIX/libexec/ctrsim

# Beside a program, a file with this ending says what it was built from.
FROM = ".from"


def binary():
    """The path of the program: CTRSIM of the environment, else the one that was proved, else the one that tools/build built,
    else the one that was installed."""
    named = os.environ.get("CTRSIM")
    if named and not os.path.isfile(named):
        raise ends.End(ends.PROGRAM, "CTRSIM names no file: %s" % named)
    for place in (named, PROVED, UNPROVED, INSTALLED):
        if place and os.path.isfile(place):
            return os.path.abspath(place)
    raise ends.End(ends.PROGRAM, "no program: tools/build builds one in seconds, `rt ci` proves one, CTRSIM names one")


def git(*words):
    try:
        ended = subprocess.run(["git", "-C", ends.TOP, *words], stdout=subprocess.PIPE, stderr=subprocess.DEVNULL,
                               universal_newlines=True)
    except OSError:
        return None
    return ended.stdout.strip() if ended.returncode == 0 else None


def commit():
    """The commit of the checkout, and whether its sources are others."""
    name = git("rev-parse", "--short=12", "HEAD")
    if name is None:
        return "sources of no known commit"
    return "commit %s%s" % (name, " with changes" if git("status", "--porcelain", "--", "crates", "crates.txt") else "")


def newest_source():
    """The time of the last change of a source."""
    crates = os.path.join(ends.TOP, "crates")
    return max((os.path.getmtime(os.path.join(folder, name)) for folder, _, names in os.walk(crates)
                if os.path.basename(folder) != "out" for name in names if name.endswith(".rt")), default=0)


def story(path):
    """What is known of a program: whether it is proved, by what it was built and from what."""
    if os.path.isfile(path + FROM):
        with open(path + FROM, encoding="utf-8") as file:
            return file.read().strip()
    if path != os.path.abspath(PROVED):
        return "nothing is known of how it was built"
    changed = os.path.getmtime(path) < newest_source()
    return "proved and built by the Rattle kit from %s" % ("sources that have changed since" if changed else commit())
