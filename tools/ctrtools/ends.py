"""How the tools begin and end: their arguments, their input and output, and one line with a status for each error.

    0   all is done
    1   the tool's own answer is no, as that two streams differ
    2   the arguments are none that the tool takes
    3   a file or standard input can't be read
    4   the output can't be written
    5   the ELF file is none that a task can be
    6   the bytes from some offset on are no sample of the layout
    7   the program can't be run, or it ended with another status than 0
    8   the layout lacks a field that the tool needs
    9   the program and the tool's own judgement of its input differ, which is an error in one of them
"""
import argparse
import contextlib
import os
import signal
import sys
import time

SECONDS_UNTOLD, SECONDS_BETWEEN = 2, 0.5

NO, USAGE, READ, WRITE, ELF, SAMPLE, PROGRAM, LAYOUT, JUDGEMENT = range(1, 10)

TOP = os.path.dirname(os.path.dirname(os.path.dirname(os.path.realpath(__file__))))


class End(Exception):
    """The end of a tool by an error: its status, and the line that says it."""

    def __init__(self, status, text):
        super().__init__(text)
        self.status = status


class Arguments(argparse.ArgumentParser):
    """Arguments whose refusal is one line, with the status for it."""

    def __init__(self, doc, **words):
        super().__init__(description=doc, formatter_class=argparse.RawDescriptionHelpFormatter, allow_abbrev=False,
                         **words)

    def parse_args(self, args=None, namespace=None):
        """The arguments; one that is given and empty names nothing."""
        given = super().parse_args(args, namespace)
        for action in self._actions:
            value = getattr(given, action.dest, None)
            if value == "" or isinstance(value, list) and "" in value:
                self.error("%s is empty" % (action.option_strings[0] if action.option_strings else action.metavar or action.dest))
        return given

    def error(self, message):
        raise End(USAGE, "%s; --help tells more" % message)


def note(text):
    """A line of what was left out, or of how it went, beside the output; nothing where it can't be written."""
    try:
        if sys.stderr is not None:
            print("%s: %s" % (os.path.basename(sys.argv[0]), text), file=sys.stderr)
    except OSError:
        pass


class Progress:
    """How far a tool is, as a line on standard error that is written over, where that is a terminal and it takes longer than
    two seconds."""

    def __init__(self, what):
        self.what, self.shown = what, False
        self.next = time.monotonic() + SECONDS_UNTOLD if sys.stderr is not None and sys.stderr.isatty() else None

    def at(self, count):
        if self.next is not None and time.monotonic() >= self.next:
            self.write("\r%s: %s %s" % (os.path.basename(sys.argv[0]), "{:,}".format(count), self.what))
            self.shown, self.next = True, time.monotonic() + SECONDS_BETWEEN

    def end(self):
        if self.shown:
            self.write("\r\x1b[K")
            self.shown = False

    @staticmethod
    def write(text):
        try:
            sys.stderr.write(text)
            sys.stderr.flush()
        except OSError:
            pass


def opened(path):
    """A file to read bytes from; standard input where no path is given, or `-`."""
    if path in (None, "-"):
        if sys.stdin is None:
            raise End(READ, "cannot read standard input: it is closed")
        return sys.stdin.buffer
    try:
        return open(path, "rb")
    except OSError as error:
        raise End(READ, "cannot read %s: %s" % (path, error.strerror)) from error


def created(path):
    """A file to write bytes to, for a `with`; standard output where no path is given, or `-`."""
    if path in (None, "-"):
        if sys.stdout is None:
            raise End(WRITE, "cannot write standard output: it is closed")
        return contextlib.nullcontext(sys.stdout.buffer)
    try:
        return open(path, "wb")
    except OSError as error:
        raise End(WRITE, "cannot write %s: %s" % (path, error.strerror)) from error


def created_for_bytes(path):
    """The same for what isn't text: a terminal doesn't take it."""
    if path in (None, "-") and sys.stdout is not None and sys.stdout.isatty():
        raise End(USAGE, "standard output is a terminal: -o FILE or a pipe takes the bytes")
    return created(path)


def content(path):
    """All bytes of a file, or of standard input."""
    try:
        with opened(path) as file:
            return file.read()
    except OSError as error:
        raise End(READ, "cannot read %s: %s" % (path or "standard input", error.strerror)) from error


def flush():
    """Writes out what is held back; a closed standard output holds nothing."""
    if sys.stdout is not None:
        sys.stdout.flush()


def run(main):
    """Runs a tool. A pipe that closes early ends it as it ends any command, by the signal."""
    signal.signal(signal.SIGPIPE, signal.SIG_DFL)
    try:
        status = main(sys.argv[1:])
        flush()
    except End as end:
        try:
            flush()
        except OSError:
            pass
        note(end)
        status = end.status
    except KeyboardInterrupt:
        status = 128 + signal.SIGINT
    except OSError as error:
        note("cannot write: %s" % error.strerror)
        status = WRITE
    # The streams are flushed by now, or can't be.
    os._exit(status or 0)
