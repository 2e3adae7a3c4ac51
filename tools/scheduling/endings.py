"""Why a run ended, in words: which record, what is wrong, what to do."""

import shlex
from typing import NamedTuple

from . import BadInput, text, words
from .console import MOST_READ
from .output import NotWritten
from .records import (CALL_LENGTH, LONGEST_FILE, MARK, NAMES, SETUP_LENGTH,
                      length, read, read_one)
from .report import read_line


class End(NamedTuple):
    """The refusal that ended a run, and the record that met it."""

    refusal: int
    record: int
    at: int  # the byte that the record begins at


def beginning(record):
    """The byte that a record begins at; only the first can be a setup."""
    return SETUP_LENGTH + CALL_LENGTH * (record - 1) if record else 0


def end_of(schedule, report):
    """What ended a run, by its report; None for the ordinary end."""
    if not report and len(schedule) > LONGEST_FILE:
        return End(1, 0, 0)
    try:
        last = read_line((report.splitlines() or [b""])[-1])
    except BadInput as wrong:
        raise NotWritten("the last line that target/bin/replay printed is "
                         "wrong: %s" % wrong) from None
    if last.ends_run:
        return End(last.refusal, last.number, beginning(last.number))
    at = beginning(last.number + 1)
    return None if at == len(schedule) else End(2, last.number + 1, at)


NO_SCHEDULE = "this is no schedule file; tools/schedule --help has the form"
MAKE = "to make a schedule file of a text: tools/schedule make %s > schedule"
PIPE = "to play a text: tools/schedule make | ./replay"
GIVE = "give the schedule file that it belongs to"


def mistaken(schedule, path):
    """What was given for a schedule file, and what to do; or nothing."""
    what = text.seems(schedule)
    if what == text.TEXT:
        advice = PIPE if path == "-" else MAKE % shlex.quote(path)
    elif what in (text.REPORT, text.PICTURE):
        advice = GIVE
    else:
        return ""
    return "this seems to be %s; %s" % (what, advice)


# Each of these says what exactly is wrong with a record, and what to do.


def too_long(_, schedule):
    size = "{}{:,}".format("more than " if len(schedule) > MOST_READ else "",
                           min(len(schedule), MOST_READ))
    fitting, damage = read(schedule)
    what = "it has %s, and nothing was played" % size
    if damage.refusal > 1:
        return what, ("besides, it is damaged at byte %d" % damage.at
                      if fitting else NO_SCHEDULE)
    return what, ("keep its first %d bytes, the %d records that fit"
                  % (damage.at, len(fitting)))


def cut(end, schedule):
    if not schedule:
        return "it is empty", MAKE % "TEXT"
    rest = schedule[end.at:]
    whole = (length(rest[2]) if len(rest) > 2
             else CALL_LENGTH if end.record else SETUP_LENGTH)
    what = "it is %s, %s short of %d" % (
        rest.hex(" "), words.count(whole - len(rest), "byte"), whole)
    if end.record:
        return what, "get the whole file, or keep its first %d bytes" % end.at
    return what, ("get the whole file" if MARK.startswith(rest[:2])
                  else NO_SCHEDULE)


def unmarked(end, schedule):
    what = "it starts with " + schedule[end.at:end.at + 2].hex(" ")
    if not end.record:
        return what, NO_SCHEDULE
    following = schedule.find(MARK, end.at)
    return what, ("%s; tools/schedule show shows the bytes"
                  % ("no mark follows" if following < 0
                     else "the next mark is at byte %d" % following))


def unknown_kind(end, schedule):
    return ("byte %d is %d" % (end.at + 2, schedule[end.at + 2]),
            "expected 0 setup, 1 begin, 2 step or 3 release")


def misplaced(end, schedule):
    if end.record:
        return ("this is another setup", "leave it out, or play what begins "
                "here as a file of its own")
    return "this is a " + NAMES[schedule[2]], "put a setup before it"


def paged_step(end, schedule):
    page = int.from_bytes(schedule[end.at + 4:end.at + 8], "little")
    return ("bytes %d to %d are page %d" % (end.at + 4, end.at + 7, page),
            "in a step they must be 0")


def out_of_range(end, schedule):
    if end.record:  # the pool itself, and no file comes to that
        return "", ""
    return ", ".join(text.out_of_range(read_one(schedule, 0).numbers)), ""


EXACTLY = {1: too_long, 3: cut, 4: unmarked, 5: unknown_kind, 6: misplaced,
           7: paged_step, 8: out_of_range}


def why(end, schedule, path):
    """Why a run ended: which record, what is wrong with it, what to do."""
    place = ("record %d at byte %d: " % (end.record, end.at)
             if end.refusal > 1 else "")
    what = advice = ""
    if end.refusal in EXACTLY:
        what, advice = EXACTLY[end.refusal](end, schedule)
    if end.record == 0:
        advice = mistaken(schedule, path) or advice
    return place + words.refused(end.refusal) + "".join(
        sign + part for sign, part in ((": ", what), ("; ", advice)) if part)
