"""What ./replay and tools/schedule share: how they read, speak and end."""

import argparse
import contextlib
import os
import signal
import sys

from . import BadInput, BadUsage

MOST_READ = 2**20  # bytes; far more than are played, so that they are counted


def end_quietly(number, _):
    sys.exit(128 + number)


def be_quiet_when_ended():
    """Without a traceback, whoever ends the program."""
    for number in signal.SIGINT, signal.SIGTERM, signal.SIGHUP:
        if signal.getsignal(number) != signal.SIG_IGN:
            signal.signal(number, end_quietly)


class Parser(argparse.ArgumentParser):
    """Complains in one line."""

    def error(self, message):
        raise BadUsage("%s (see %s --help)" % (message, self.prog))


def name_of(path):
    return "standard input" if path == "-" else path


def read(path):
    """The bytes of a file, or of standard input: one more than is counted."""
    try:
        if path != "-":
            with open(path, "rb") as file:
                return file.read(MOST_READ + 1)
        if sys.stdin is not None:
            return sys.stdin.buffer.read(MOST_READ + 1)
        reason = "it is closed"
    except (OSError, ValueError) as wrong:
        reason = getattr(wrong, "strerror", None) or str(wrong)
    raise BadInput("%s cannot be read: %s" % (name_of(path), reason))


def say(program, message):
    """Write lines to standard error, if that can be written to."""
    if sys.stderr is None:
        return
    for line in str(message).split("\n"):
        told = "%s: %s\n" % (program, line)
        with contextlib.suppress(OSError):
            os.write(2, told.encode(sys.stderr.encoding, "backslashreplace"))
