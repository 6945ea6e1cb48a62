"""What the tests of the tools share: running a tool, samples by their numbers, and the program."""
import contextlib
import importlib.machinery
import importlib.util
import io
import os
import signal
import struct
import subprocess
import sys
import tempfile
import traceback
import unittest

sys.dont_write_bytecode = True

TOOLS = os.path.dirname(os.path.dirname(os.path.abspath(__file__)))
TOP = os.path.dirname(TOOLS)
DATA = os.path.join(TOOLS, "tests", "data")

MISC_OF_M = 3
LOADED = {}


def data(name):
    """The bytes of a stored file."""
    with open(os.path.join(DATA, name), "rb") as file:
        return file.read()


def run(command, given=b"", **more):
    """The status of a command, its output and what it said, both in bytes."""
    ended = subprocess.run(command, input=given, stdout=subprocess.PIPE, stderr=subprocess.PIPE, timeout=120, **more)
    return ended.returncode, ended.stdout, ended.stderr


def program():
    """The program that tests run; a test that needs it is skipped where there is none."""
    for place in (os.environ.get("CTRSIM"), os.path.join(TOP, "crates", "ctrsim", "out", "ctrsim"), os.path.join(TOP, "out", "ctrsim")):
        if place and os.path.isfile(place):
            return os.path.abspath(place)
    raise unittest.SkipTest("no program: CTRSIM names none, and neither crates/ctrsim/out/ctrsim nor out/ctrsim is there")


@contextlib.contextmanager
def environment(**words):
    """The environment with some words changed, for a while."""
    before = dict(os.environ)
    os.environ.update(words)
    try:
        yield
    finally:
        os.environ.clear()
        os.environ.update(before)


def module(name):
    """A tool as a module."""
    if name not in LOADED:
        loader = importlib.machinery.SourceFileLoader("tool_" + name, os.path.join(TOOLS, name))
        LOADED[name] = importlib.util.module_from_spec(importlib.util.spec_from_loader(loader.name, loader))
        loader.exec_module(LOADED[name])
    return LOADED[name]


def tool(name, *words, given=b""):
    """The status of a tool, its output and what it said, both as text. It runs in a fork of the test, which saves
    starting Python each time."""
    loaded = module(name)
    with tempfile.TemporaryFile() as source, tempfile.TemporaryFile() as output, tempfile.TemporaryFile() as said:
        source.write(given)
        source.seek(0)
        child = os.fork()
        if not child:
            forked(loaded, [name, *words], [source, output, said])
        _, status = os.waitpid(child, 0)
        for file in (output, said):
            file.seek(0)
        status = os.WEXITSTATUS(status) if os.WIFEXITED(status) else -os.WTERMSIG(status)
        return status, output.read().decode(), said.read().decode()


def forked(loaded, words, files):
    """Runs a tool in this process with other streams, and ends it."""
    status = 1
    try:
        for i, file in enumerate(files):
            os.dup2(file.fileno(), i)
        sys.stdin, sys.stdout, sys.stderr = (io.TextIOWrapper(open(i, mode, closefd=False), line_buffering=i == 2)
                                             for i, mode in enumerate(("rb", "wb", "wb")))
        sys.argv = words
        loaded.ends.run(loaded.main)
    except SystemExit as end:
        status = end.code or 0
    except BaseException:
        traceback.print_exc()
    sys.stdout.flush()
    sys.stderr.flush()
    os._exit(status)


def sample(fields, branches, misc=MISC_OF_M):
    """The bytes of a sample without a hardware index. `fields` are what stands between its header and its branches: a
    number has eight bytes, each of a pair of numbers four."""
    body = b"".join(struct.pack("<II", *field) if isinstance(field, tuple) else struct.pack("<Q", field)
                    for field in [*fields, len(branches)])
    body += b"".join(struct.pack("<QQQ", *branch) for branch in branches)
    return struct.pack("<IHH", 9, misc, 8 + len(body)) + body


def image(*instructions):
    """The bytes of an image by its instruction words."""
    return struct.pack("<%dI" % len(instructions), *instructions)


class Case(unittest.TestCase):
    """A test of a tool, with what is asked of every tool."""

    def setUp(self):
        folder = tempfile.TemporaryDirectory()
        self.addCleanup(folder.cleanup)
        self.folder = folder.name

    def file(self, name, content):
        """A file of the test's own folder."""
        path = os.path.join(self.folder, name)
        with open(path, "wb") as file:
            file.write(content)
        return path

    def ends(self, ended, status, said):
        """It ended with a status, no output, and one line on standard error that has some words."""
        self.assertEqual((ended[0], ended[1]), (status, ""), ended)
        self.assertEqual(ended[2].count("\n"), 1, ended[2])
        self.assertIn(said, ended[2])

    def closed_pipe(self, name, *words, given=b""):
        """Nobody reads the output: the tool ends by the signal, and says nothing."""
        reading, writing = os.pipe()
        os.close(reading)
        with open(writing, "wb") as output:
            command = [os.path.join(TOOLS, name), *words]
            ended = subprocess.run(command, input=given, stdout=output, stderr=subprocess.PIPE, timeout=60)
        self.assertEqual((ended.returncode, ended.stderr), (-signal.SIGPIPE, b""))
