"""How the tools of this folder begin and end: their arguments, and one line with a status for each error.

    0   every case passed or was skipped
    1   a case failed
    2   the arguments are none that the tool takes, or a test couldn't be built or run
"""
import argparse
import os
import signal
import sys

FAILED, BROKEN = 1, 2


class End(Exception):
    """The end of a tool by an error: the line that says it."""


class Arguments(argparse.ArgumentParser):
    """Arguments whose refusal is one line, with the status for it."""

    def __init__(self, doc, **words):
        super().__init__(description=doc, formatter_class=argparse.RawDescriptionHelpFormatter, allow_abbrev=False,
                         **words)

    def error(self, message):
        raise End("%s; --help tells more" % message)


def note(text):
    """A line on standard error."""
    print("%s: %s" % (os.path.basename(sys.argv[0]), text), file=sys.stderr)


def run(main):
    """Runs a tool. A pipe that closes early ends it as it ends any command, by the signal."""
    signal.signal(signal.SIGPIPE, signal.SIG_DFL)
    try:
        status = main(sys.argv[1:])
        sys.stdout.flush()
    except End as end:
        sys.stdout.flush()
        note(end)
        status = BROKEN
    except KeyboardInterrupt:
        status = 128 + signal.SIGINT
    sys.exit(status or 0)
