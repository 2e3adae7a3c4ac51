"""The program tools/schedule: exit statuses, messages, files."""

import os
import pathlib
import shlex
import signal
import subprocess
import sys
import tempfile
import time
from unittest import mock

import alone
import second
from checking import need, same
from common import EXAMPLES, LISTING, TOP, example, run
from scheduling import explain, picture, report, stats

COMMANDS = ("make", "show", "make-up", "explain", "stats", "draw", "page")

WRONG = (  # arguments, what is read, the exit status
    ((), b"", 2), (("play",), b"", 2), (("make", "a", "b"), b"", 2),
    (("explain", "--report"), b"", 2), (("show", "--wide"), b"", 2),
    (("explain", "--report", "-"), b"", 2),
    (("stats", "--report", "-"), b"", 2),
    (("stats", "--svg", "--report", "report"), b"", 2),
    (("draw", "--from", "first"), b"", 2), (("make-up", "day"), b"", 2),
    (("make-up", "--clients", "many"), b"", 2),
    (("make",), b"begin", 1), (("make",), LISTING, 1),
    (("make", "no such file"), b"", 1), (("show", "."), b"", 1),
    (("draw",), b"", 1), (("draw",), LISTING, 1), (("page",), LISTING, 1),
    (("stats", "--svg"), b"", 1), (("make-up", "--clients", "17"), b"", 2),
    (("explain", "no such file"), b"", 1),
    (("explain", "--report", "no such file"), b"", 1),
)


def statuses():
    """Exit statuses and one-line messages."""
    for arguments, data, expected in WRONG:
        status, output, said = run(*arguments, data=data)
        same((status, output), (expected, b""), "status of %r" % (arguments,))
        # Whose run it is may be said before what is wrong with it.
        wrong = [line for line in said.splitlines()
                 if "is not built" not in line]
        need(len(wrong) == 1 and said.startswith("schedule"),
             "%r says %r" % (arguments, said))
    for arguments in ((), *((name,) for name in COMMANDS)):
        status, output, said = run(*arguments, "--help")
        same((status, said), (0, ""), "--help of %r" % (arguments,))
        need(b"usage: schedule" in output, "--help of %r says %r"
             % (arguments, output))
    return "the program, %d wrong uses and %d helps" % (len(WRONG),
                                                        len(COMMANDS) + 1)


def unwritten():
    """A full disk is told, a reader that has seen enough is not."""
    schedule = example("example.txt")
    for name in COMMANDS:
        text_or_file = b"step 0\n" if name == "make" else schedule
        with open("/dev/full", "wb") as full:
            status, _, said = run(name, data=text_or_file, stdout=full)
        need(status == 1 and "No space left" in said.splitlines()[-1],
             "%s on a full disk: status %d, %r" % (name, status, said))
        reader, writer = os.pipe()
        os.close(reader)
        status, _, said = run(name, data=text_or_file, stdout=writer)
        os.close(writer)
        need(status == 0 and "Traceback" not in said,
             "%s without a reader: status %d, %r" % (name, status, said))
    return "the program, %d commands on a full disk" % len(COMMANDS)


def unread():
    """A text by mistake, input that is closed or has no end, Ctrl-C."""
    for name in ("show", "explain", "stats", "draw", "page"):
        for data, what in ((b"step 0\n", "a text"), (LISTING, "a report")):
            status, output, said = run(name, data=data)
            same((status, output), (1, b""), "status of %s of %s"
                 % (name, what))
            need("this seems to be " + what in said, "it says %r" % said)
    tool = shlex.join((sys.executable, str(TOP / "tools" / "schedule")))
    for command, status, part in (
            (tool + " explain <&-", 1, "standard input cannot be read"),
            (tool + " show /dev/zero", 1, "more than 1048576 bytes")):
        done = subprocess.run(command, shell=True, stdout=subprocess.PIPE,
                              stderr=subprocess.PIPE)
        same((done.returncode, done.stdout), (status, b""), command)
        need(part in done.stderr.decode() and done.stderr.count(b"\n") == 1,
             "%s says %r" % (command, done.stderr))
    with subprocess.Popen(shlex.split(tool) + ["show"],
                          stdin=subprocess.PIPE, stdout=subprocess.PIPE,
                          stderr=subprocess.PIPE) as reading:
        time.sleep(1)  # until it reads; a signal before that ends it, too
        reading.send_signal(signal.SIGINT)
        _, said = reading.communicate()
    need(reading.returncode in (130, -signal.SIGINT)
         and b"Traceback" not in said, "Ctrl-C: status %d, %r"
         % (reading.returncode, said))
    return "the program, other files by mistake, unreadable input, Ctrl-C"


def whole_way():
    """A text through the commands, by files and standard input."""
    with tempfile.TemporaryDirectory() as name:
        folder = pathlib.Path(name)
        schedule, answers = folder / "schedule", folder / "report"
        status, made, _ = run("make", str(EXAMPLES / "two-clients.txt"))
        same(status, 0, "status of make")
        schedule.write_bytes(made)
        answers.write_bytes(second.run(made)[0])
        status, shown, _ = run("show", str(schedule))
        same(run("make", data=shown), (0, made, ""), "make of show")
        given = run("explain", str(schedule), "--report", str(answers))
        same(given[0], 0, "status of explain")
        same(run("explain", "-", data=made)[:2], given[:2],
             "explain with and without a report")
        status, drawn, _ = run("draw", str(schedule))
        same((status, drawn.decode()), (0, picture.draw(made)), "draw")
        status, drawn, _ = run("draw", "--from", "9", "--to", "20", "--slots",
                               "1", "--clients", "0-1", str(schedule))
        same((status, drawn.decode()), (0, picture.draw(
            made, first=9, last=20, slots="1")), "draw of a part")
    left = [path for part in ("tools", "tests")
            for path in (TOP / part).rglob("__pycache__")]
    same(left, [], "compiled files left behind")
    return "the program, one text through make, show, explain and draw"


# The built program, and what is said without it.


ANSWERED = (("explain",), ("stats",))  # these show the program's answers
PLAYED = (("draw",), ("page",), ("stats", "--svg"))  # these play the run
# A report that the run of the example does not have: no frame at record 9.
OTHER = LISTING.replace(b"9 0 2 0", b"9 0 115 0")


def run_alone(top, arguments):
    """Run the tools of a folder on the example."""
    return alone.run(top, *arguments, data=example("example.txt"),
                     program=(sys.executable, "tools/schedule"))


def built_alike():
    """A program that reports what second.py does is taken in silence."""
    schedule = example("example.txt")
    with alone.a_top() as top:
        outputs = {}
        for arguments in ANSWERED + PLAYED:
            status, outputs[arguments], said = run_alone(top, arguments)
            same((status, said), (0, ""), "%r, built" % (arguments,))
    answers = report.read_report(LISTING, schedule)
    for arguments, expected in (
            (("explain",), explain.explain(schedule, answers)),
            (("stats",), stats.table(schedule, answers)),
            (("stats", "--svg"), stats.plot(schedule)),
            (("draw",), picture.draw(schedule))):
        same(outputs[arguments].decode(), expected, "%r" % (arguments,))
    return outputs


def built_otherwise():
    """Its answers are shown; a run that is not its own is not."""
    schedule = example("example.txt")
    answers = report.read_report(OTHER, schedule)
    player = "#!/bin/sh\nprintf %s " + shlex.quote(OTHER.decode()) + "\n"
    with alone.a_top(player=player) as top:
        for arguments, expected in (
                (("explain",), explain.explain(schedule, answers)),
                (("stats",), stats.table(schedule, answers))):
            status, output, said = run_alone(top, arguments)
            same((status, output.decode(), said), (0, expected, ""),
                 "%r of another program" % (arguments,))
            need(b"1 by 11, 1 by 15" in output, "the answers of %r: %r"
                 % (arguments, output))
        for arguments in PLAYED:
            status, output, said = run_alone(top, arguments)
            same((status, output), (1, b""), "%r of another program"
                 % (arguments,))
            need("report differently" in said and said.count("\n") == 1,
                 "%r says %r" % (arguments, said))


def unbuilt(outputs):
    """The second program's run is shown, and it is said whose it is."""
    with alone.a_top(player=None) as top:
        for arguments in ANSWERED + PLAYED:
            status, output, said = run_alone(top, arguments)
            same((status, output), (0, outputs[arguments]),
                 "%r, not built" % (arguments,))
            need(said.count("\n") == 1 and "is not built" in said
                 and "tests/second.py" in said,
                 "%r, not built, says %r" % (arguments, said))


def programs():
    outputs = built_alike()
    built_otherwise()
    unbuilt(outputs)
    return ("the program, %d commands with a program built, with one that "
            "differs, and with none" % len(outputs))


def newer():
    """A program is built while no source is newer than it."""
    with alone.a_top() as top:
        program = top / "target" / "bin" / "replay"
        source = top / "crates" / "pool" / "src" / "Pool.rs"
        source.parent.mkdir(parents=True)
        source.write_text("")
        sources = top / "crates.txt", source, source.parent
        with mock.patch.multiple(report, TOP=top, PROGRAM=program):
            for path in (*sources, program):
                os.utime(path, (1000, 1000))
            need(report.is_built(), "a program as old as its sources is none")
            for path in sources:
                os.utime(path, (1001, 1001))
                need(not report.is_built(), "%s is newer" % path)
                os.utime(path, (999, 999))
            need(report.is_built(), "a program newer than its sources")
            program.unlink()
            need(not report.is_built(), "a program that is not there")
    return "the program, %d sources newer than the built one" % len(sources)


TESTS = (statuses, unwritten, unread, whole_way, programs, newer)
