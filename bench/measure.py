"""What the scripts here share: a yardstick in plain C, times, host instructions, peak memory, and lines of figures.

Each line has the figure of the program, that of the yardstick in the same run, and the ratio of the two.
"""
import hashlib
import os
import shutil
import subprocess
import tempfile
import time

HERE = os.path.dirname(os.path.abspath(__file__))
TOP = os.path.join(HERE, "..")
HAS_VALGRIND = shutil.which("valgrind") is not None
HAS_STRACE = shutil.which("strace") is not None


def compiled(source, folder, defined=()):
    """The path of a C program of this folder, compiled with these macros defined, or None where there is no compiler."""
    if not shutil.which("cc"):
        return None
    path = os.path.join(folder, "_".join([os.path.splitext(source)[0], *defined]))
    subprocess.run(["cc", "-O2", *("-D" + name for name in defined), "-o", path, os.path.join(HERE, source)], check=True)
    return path


def seconds(command, text):
    begin = time.perf_counter()
    subprocess.run(command, input=text, stdout=subprocess.DEVNULL, check=True)
    return time.perf_counter() - begin


def seconds_of_file(command, path):
    """The same, with a file as standard input."""
    with open(path, "rb") as f:
        begin = time.perf_counter()
        subprocess.run(command, stdin=f, stdout=subprocess.DEVNULL, check=True)
        return time.perf_counter() - begin


def in_turn(figures_of, times=5):
    """The least, middle and greatest of the figures that each of some functions answers, called in turn."""
    found = [[] for _ in figures_of]
    for _ in range(times):
        for figures, figure_of in zip(found, figures_of):
            figures.append(figure_of())
    return [(min(figures), sorted(figures)[times // 2], max(figures)) for figures in found]


def alternating(commands, times=5, seconds_of=seconds_of_file):
    """The least, middle and greatest of the seconds that each of some commands takes, run in turn. A command is its
    words and the path of its standard input; `seconds_of` tells how long one run of it took."""
    return in_turn([lambda words=words, path=path: seconds_of(words, path) for words, path in commands], times)


def spread(name, unit, ours, others, digits=3):
    """A line like that of `figures`, of the middle of several runs with the least and the greatest."""
    def told(found):
        return "%8.*f (%.*f to %.*f)" % (digits, found[1], digits, found[0], digits, found[2])

    line = "%-40s %s %s" % (name, told(ours), unit)
    for label, other in others:
        line += ", %s %s, ratio %.2f" % (label, told(other), ours[1] / other[1])
    print(line, flush=True)


def digest(command, text):
    """A digest of what a command writes."""
    found = hashlib.sha256()
    with tempfile.TemporaryFile() as source:
        source.write(text)
        source.seek(0)
        child = subprocess.Popen(command, stdin=source, stdout=subprocess.PIPE)
        for piece in iter(lambda: child.stdout.read(1 << 20), b""):
            found.update(piece)
    if child.wait():
        raise SystemExit("%s ended with status %d" % (command[0], child.returncode))
    return found.hexdigest()


def system_calls(command, path, folder):
    """How many reads and writes a command makes, with a file as standard input."""
    out = os.path.join(folder, "strace.out")
    with open(path, "rb") as f:
        subprocess.run(["strace", "-f", "-c", "-e", "trace=read,write", "-o", out] + command, stdin=f,
                       stdout=subprocess.DEVNULL, stderr=subprocess.DEVNULL, check=True)
    calls = {"read": 0, "write": 0}
    with open(out, encoding="ascii") as f:
        for line in f:
            words = line.split()
            if words and words[-1] in calls:
                calls[words[-1]] = int(words[3])
    return calls["read"], calls["write"]


def host_instructions(command, text, folder, inside=None):
    """How many instructions a command executes, or how many in the functions of this name and in what they call."""
    out = os.path.join(folder, "callgrind.out")
    words = ["valgrind", "--tool=callgrind", "--callgrind-out-file=" + out]
    words += ["--toggle-collect=" + inside] if inside else []
    subprocess.run(words + command, input=text, stdout=subprocess.DEVNULL, stderr=subprocess.DEVNULL, check=True)
    with open(out, encoding="utf-8", errors="replace") as f:
        for line in f:
            if line.startswith(("summary:", "totals:")):
                return int(line.split()[1])
    raise SystemExit("callgrind gave no total")


def peak(command, text, folder):
    """The greatest resident size in MB, as the kernel kept it for the program's own address space."""
    path = os.path.join(folder, "input")
    with open(path, "wb") as f:
        f.write(text)
    most = 0
    with open(path, "rb") as f:
        child = subprocess.Popen(command, stdin=f, stdout=subprocess.DEVNULL)
        while child.poll() is None:
            try:
                with open("/proc/%d/status" % child.pid, encoding="ascii") as status:
                    for line in status:
                        if line.startswith("VmHWM:"):
                            most = max(most, int(line.split()[1]))
            except OSError:
                pass
            time.sleep(0.01)
    return most / 1024


def figures(name, unit, ours, others, digits=1):
    """A line: the program's figure, and each yardstick's with the ratio to it."""
    line = "%-40s %8.*f %s" % (name, digits, ours, unit)
    for label, other in others:
        line += ", %s %8.*f, ratio %.2f" % (label, digits, other, ours / other)
    print(line, flush=True)
