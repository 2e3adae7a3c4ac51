"""The proved program, built and run.

The report is the program's alone; what is said besides goes to standard
error.
"""

import contextlib
import fcntl
import os
import re
import shutil
import signal
import subprocess
import time

from . import TOP, console
from .output import NotWritten
from .report import PROGRAM, is_built


class NotPlayed(Exception):
    """Nothing can be played; a line that says why."""


def say(message):
    console.say("replay", message)


# The program, proved and built.

MADE = TOP / "crates" / "replay" / "out" / "replay"  # by rt
LOCK = TOP / "target" / "replay.lock"  # our own, as rt locks the folders
BEGUN = re.compile(r"chose --jobs \d+ for (\w+)")


def needed(name):
    """The crates of this repository that one uses, and itself."""
    uses = {}
    listed = (TOP / "crates.txt").read_text(encoding="utf-8")
    for line in listed.splitlines():
        crate, colon, used = line.partition("#")[0].partition(":")
        if colon:
            uses[crate.split()[0]] = used.split()
    found, open_ends = set(), [name]
    while open_ends:
        crate = open_ends.pop()
        if crate in uses and crate not in found:  # else one of the kit's
            found.add(crate)
            open_ends += uses[crate]
    return found


def follow(output, log):
    """Keep what rt prints, and say how far it is; the last that it said."""
    crates, proved, last = needed("replay"), set(), "nothing"
    crate = since = None
    for line in output:
        log.write(line)
        if line.startswith(b"rt: "):
            last = line.decode(errors="replace")[4:].rstrip()
            match = BEGUN.fullmatch(last)
            if match:
                crate, since = match[1], time.monotonic()
            elif "waiting for" in last:  # another rt, which works there
                say(last)
        elif line.startswith(b"logic=proved") and crate in crates:
            proved |= needed(crate)  # those below were proved before it
            say("%d of %d proved: %s (%.0f s)"
                % (len(proved), len(crates), crate, time.monotonic() - since))
        elif line.startswith(b"logic=not-proved"):
            say("%s NOT PROVED" % crate)
    return last


@contextlib.contextmanager
def started_rt():
    """'rt run' on an empty file; it ends with all that it started if we do."""
    try:
        rt = subprocess.Popen(["rt", "run"], cwd=MADE.parent.parent,
                              stdin=subprocess.DEVNULL,
                              stdout=subprocess.DEVNULL,
                              stderr=subprocess.PIPE,
                              start_new_session=True)
    except OSError as wrong:
        raise NotPlayed("the Rattle kit's command 'rt' cannot be run (%s); "
                        "install the kit, put 'rt' on the PATH and run this "
                        "again" % wrong.strerror) from None
    try:
        yield rt
    finally:
        if rt.poll() is None:
            os.killpg(rt.pid, signal.SIGTERM)
        rt.wait()
        rt.stderr.close()


def prove():
    """Prove and build the program; only a failure leaves a log."""
    import tempfile  # here, as it is slow to import and rarely needed

    begun = time.time_ns()
    file, path = tempfile.mkstemp(prefix="replay-", suffix=".log")
    try:
        with open(file, "wb") as log, started_rt() as rt:
            say("proving and building the program; this takes some minutes "
                "the first time")
            last = follow(rt.stderr, log)
            status = rt.wait()
    except BaseException:
        os.remove(path)
        raise
    if status or not MADE.exists():
        raise NotPlayed("the program is not proved and built: rt ended with "
                        "exit status %d and '%s'; its whole output is in %s"
                        % (status, last, path))
    os.remove(path)
    PROGRAM.parent.mkdir(parents=True, exist_ok=True)
    made = PROGRAM.with_suffix(".new")  # takes its place when it is whole
    shutil.copy(MADE, made)
    os.utime(made, ns=(begun, begun))  # later changes are not in it
    made.replace(PROGRAM)


@contextlib.contextmanager
def alone():
    """Let one ./replay at a time do this; the others wait."""
    LOCK.parent.mkdir(exist_ok=True)
    file = os.open(LOCK, os.O_WRONLY | os.O_CREAT, 0o666)
    try:
        with contextlib.suppress(OSError):  # not all file systems have locks
            try:
                fcntl.flock(file, fcntl.LOCK_EX | fcntl.LOCK_NB)
            except BlockingIOError:
                say("waiting for another ./replay, which proves and builds "
                    "the program")
                fcntl.flock(file, fcntl.LOCK_EX)
        yield
    finally:
        os.close(file)


def build():
    """See to it that the program is built from the sources as they are."""
    try:
        if not is_built():
            with alone():
                if not is_built():  # not even by another, meanwhile
                    prove()
    except OSError as wrong:
        raise NotPlayed("the program cannot be built: %s" % wrong) from None


def play(schedule):
    """The report that the program prints."""
    try:
        done = subprocess.run([PROGRAM], input=schedule,
                              stdout=subprocess.PIPE)
    except OSError as wrong:
        raise NotPlayed("target/bin/replay cannot be run: %s; remove it and "
                        "run this again" % wrong.strerror) from None
    if done.returncode:
        raise NotWritten("target/bin/replay ended with exit status %d and "
                         "maybe half a report; remove it and run this again"
                         % done.returncode)
    return done.stdout
