"""The program ./replay: reports, exit statuses, what it says of failures.

It is tried with a stand-in for the proved program, and once that is built,
with itself.
"""

import os
import subprocess
import tempfile

import generate
import second
from alone import a_top, check_line, run
from checking import need, same
from common import EXAMPLES, LISTING, TOP, example
from common import run as run_schedule
from scheduling import endings, report, words

EXAMPLE = example("example.txt")
SETUP = EXAMPLE[:10]
STEP = generate.call_record(second.STEP, 0, 0)


# Reports, and why runs ended.


def whole_runs():
    longest = SETUP + 2046 * STEP
    with a_top() as top:
        (top / "file").write_bytes(EXAMPLE)
        for arguments in ("file",), ("-",), ():
            same(run(top, *arguments, data=EXAMPLE), (0, LISTING, ""),
                 "./replay %s" % " ".join(arguments))
        same(run(top, data=longest), (0, second.run(longest)[0], ""),
             "./replay of the longest file")
        same(run(top, "--explain", "file"),
             (0, run_schedule("explain", data=EXAMPLE)[1], ""),
             "./replay --explain")
        status, output, said = run(top, "--help")
        same((status, said), (0, ""), "./replay --help")
        need(b"usage: ./replay" in output, "--help says %r" % output)
    return "./replay, whole runs: reports, an explanation"


REFUSED = (  # a file, the refusal that ends its run, and parts of what is said
    (SETUP + 2048 * STEP, 1,
     ("has 16,394", "nothing was played", "16378 bytes", "2047 records")),
    (SETUP + 2**18 * STEP, 1, ("has more than 1,048,576", "16378 bytes")),
    (bytes(16385), 1, ("has 16,385", "no schedule file")),
    (EXAMPLE + bytes(16384), 1, ("has 16,482", "damaged at byte 98")),
    (b"", 3, ("record 0 at byte 0", "it is empty", "make TEXT")),
    (SETUP[:9], 3, ("record 0 at byte 0", "1 byte short of 10")),
    (SETUP[:2], 3, ("record 0 at byte 0", "46 43, 8 bytes short of 10")),
    (EXAMPLE[:37], 3, ("record 4 at byte 34", "46 43 02, 5 bytes short of 8",
                       "keep its first 34 bytes")),
    (EXAMPLE + SETUP[:9], 3, ("record 12 at byte 98", "1 byte short of 10")),
    (EXAMPLE + b"\n", 3, ("record 12 at byte 98", "0a, 7 bytes short of 8")),
    (b"\x89PNG\r\n\x1a\n", 4, ("record 0 at byte 0", "starts with 89 50",
                               "no schedule file")),
    (EXAMPLE[:34] + b"\0" + EXAMPLE[34:], 4,
     ("record 4 at byte 34", "starts with 00 46", "next mark is at byte 35")),
    (EXAMPLE + bytes(10), 4, ("record 12 at byte 98", "no mark follows")),
    (generate.spoiled(EXAMPLE, 36, 7), 5,
     ("record 4 at byte 34", "byte 36 is 7", "2 step")),
    (EXAMPLE[10:], 6, ("record 0 at byte 0", "a begin", "a setup before")),
    (EXAMPLE + EXAMPLE, 6, ("record 12 at byte 98", "another setup")),
    (EXAMPLE + generate.call_record(second.STEP, 0, 9), 7,
     ("record 12 at byte 98", "bytes 102 to 105 are page 9")),
    (generate.setup_record(0, 17, 101, 0), 8,
     ("record 0 at byte 0", "slots is 0 and must be from 1 to 64",
      "clients is 17 and must be from 1 to 16",
      "cap is 101 and must be from 1 to 100")),
)


def refused_runs():
    with a_top() as top:
        for schedule, refusal, parts in REFUSED:
            same(second.run(schedule)[2], refusal, "the refusal meant")
            (top / "file").write_bytes(schedule)
            status, output, said = run(top, "file")
            same((status, output), (1, second.run(schedule)[0]),
                 "status and report after refusal %d" % refusal)
            check_line(said, "replay: file: ", words.refused(refusal), *parts)
            if refusal == 5:
                same(run(top, "--explain", "file"),
                     (1, run_schedule("explain", data=schedule)[1], said),
                     "./replay --explain after refusal 5")
    return "./replay, %d runs that were ended: why" % len(REFUSED)


def ends_of_runs():
    """What ended a run is told from its report, whatever the file."""
    files = [*map(generate.generate, range(60)),
             *(EXAMPLE[:length] for length in range(len(EXAMPLE))),
             *(generate.spoiled(EXAMPLE, at, 255 - EXAMPLE[at])
               for at in range(len(EXAMPLE)))]
    for schedule in files:
        found, records, refusal = second.run(schedule)
        end = endings.end_of(schedule, found)
        same((end.refusal, end.record) if end else (0, records),
             (refusal, records), "what ended the run, and where")
        if end:
            check_line("replay: %s\n" % endings.why(end, schedule, "file"),
                       words.refused(refusal))
    same(endings.end_of(EXAMPLE, LISTING[:32]), endings.End(2, 4, 34),
         "the end of a run with too little report space")
    return "./replay, what ended the runs of %d files" % len(files)


def mistaken_files():
    """A text, a report or a picture in place of a schedule file."""
    written = (EXAMPLES / "two-clients.txt").read_bytes()
    drawn = (EXAMPLES / "two-clients.svg").read_bytes()
    cases = (  # a file, the refusal, what is said if it is named 'a file'
        (written, 4, "a text", "tools/schedule make 'a file' > schedule\n"),
        (b"step 0\n", 3, "a text", "make 'a file' > schedule\n"),
        (b"# caf\xe9\n" + 3000 * b"step 0\n", 1, "a text", "make 'a file' >"),
        (b"FC, in words\n", 5, "a text", "make 'a file' > schedule\n"),
        (LISTING, 4, "a report", "the schedule file that it belongs to"),
        (drawn, 1, "a picture or a page", "the schedule file that it belongs to"),
    )
    with a_top() as top:
        for given, refusal, what, advice in cases:
            (top / "a file").write_bytes(given)
            status, _, said = run(top, "a file")
            same(status, 1, "the exit status for %s" % what)
            check_line(said, words.refused(refusal), advice,
                       "this seems to be " + what)
        status, _, said = run(top, data=written)
        same(status, 1, "the exit status for a text on standard input")
        check_line(said, "replay: standard input: ", "this seems to be a text",
                   "tools/schedule make | ./replay\n")
    return "./replay, %d files that are no schedules" % len(cases)


# Failures.


def not_read():
    """Wrong uses, and files that cannot be read."""
    closed = "/bin/sh", "-c", 'exec ./replay "$@" <&-', "sh"
    cases = (  # arguments, part of what is said
        (("--wide",), "--wide"), (("a", "b"), "b (see"),
        (("tools",), "tools cannot be read: Is a directory"),
        (("none",), "none cannot be read: No such file"),
        (("--explain", "none"), "none cannot be read: No such file"),
    )
    with a_top() as top:
        for arguments, part in cases:
            status, output, said = run(top, *arguments)
            same((status, output), (2, b""), "status of %r" % (arguments,))
            check_line(said, part)
        status, output, said = run(top, program=closed)
        same((status, output), (2, b""), "status without standard input")
        check_line(said, "standard input cannot be read")
    return "./replay, %d wrong uses and unreadable files" % (len(cases) + 1)


def not_written():
    """A full disk, a closed output, a reader that went away."""
    closed = "/bin/sh", "-c", 'exec ./replay "$@" >&-', "sh"
    mute = "/bin/sh", "-c", 'exec ./replay "$@" 2>&-', "sh"
    with a_top() as top:
        (top / "file").write_bytes(EXAMPLE)
        for arguments in ("file",), ("--explain", "file"), ("--help",):
            with open("/dev/full", "wb") as full:
                status, _, said = run(top, *arguments, stdout=full)
            same(status, 3, "status of %r, full disk" % (arguments,))
            check_line(said, "No space left")
        status, _, said = run(top, "file", program=closed)
        same(status, 3, "status without standard output")
        check_line(said, "standard output is closed")
        reader, writer = os.pipe()
        os.close(reader)
        same(run(top, "file", stdout=writer), (3, b"", ""),
             "status and messages where nobody reads")
        os.close(writer)
        (top / "file").write_bytes(EXAMPLE[:-1])
        same(run(top, "file", program=mute),
             (1, second.run(EXAMPLE[:-1])[0], ""), "without standard error")
    return "./replay, reports that could not be written"


def broken_programs():
    cases = (  # a program, the exit status, part of what is said
        ("#!/bin/sh\necho 0 0 0 1\nexit 5\n", 3, "exit status 5"),
        ("#!/bin/sh\necho half\n", 3, "four numbers"),
        ("#!/bin/sh\n", 3, "four numbers"),
        ("#!/no/such/shell\n", 2, "cannot be run: No such file"),
    )
    for player, expected, part in cases:
        with a_top(player) as top:
            status, _, said = run(top, data=EXAMPLE)
        same(status, expected, "status with a broken program")
        check_line(said, part)
    return "./replay, %d broken programs" % len(cases)


def proved_program():
    """The real one, if it is there."""
    if not report.is_built():
        return "./replay itself: not tried, as the program is not built"
    cut = EXAMPLE[:-1]
    for schedule, status in (EXAMPLE, 0), (cut, 1):
        with tempfile.NamedTemporaryFile() as file:
            file.write(schedule)
            file.flush()
            done = subprocess.run([TOP / "replay", file.name],
                                  stdout=subprocess.PIPE,
                                  stderr=subprocess.PIPE)
        same((done.returncode, done.stdout),
             (status, second.run(schedule)[0]), "./replay itself")
        said = done.stderr.decode()
        if status:
            check_line(said, words.refused(3), "1 byte short of 8")
        else:
            same(said, "", "what is said of a whole run")
    return "./replay itself, on a whole file and a cut one"


TESTS = (whole_runs, refused_runs, ends_of_runs, mistaken_files, not_read,
         not_written, broken_programs, proved_program)
