"""The report of a run, read and checked against its schedule file.

Each record gives one line: its number from 0, the client (0 for a setup and
for a record that ends the run), a code and a value, in decimal.
"""

import re
import subprocess
from typing import NamedTuple

import second

from . import TOP, BadInput, words
from .records import NAMES, STEP, read

DONE, WORKING, GRANTED, REFUSAL = (second.DONE, second.WORKING,
                                   second.GRANTED, second.REFUSAL)

PROGRAM = TOP / "target" / "bin" / "replay"  # the proved one, once built

LINE = re.compile(rb"([0-9]{1,10}) ([0-9]{1,10}) ([0-9]{1,10}) ([0-9]{1,10})")


def refusal_of(code):
    """The number of the refusal that a code stands for, or 0."""
    return code - REFUSAL if code > REFUSAL else 0


class Answer(NamedTuple):
    """One line of a report."""

    number: int
    client: int
    code: int
    value: int

    @property
    def refusal(self):
        return refusal_of(self.code)

    @property
    def ends_run(self):
        return 0 < self.refusal <= words.LAST_TO_END


def read_line(line):
    match = LINE.fullmatch(line)
    if not match:
        raise BadInput("expected four numbers with one space between: "
                       "record, client, code, value")
    answer = Answer(*map(int, match.groups()))
    if not (answer.code in (DONE, WORKING, GRANTED)
            or answer.refusal in words.REFUSALS):
        raise BadInput("there is no code %d; expected 0, 1, 2 or 100 and a "
                       "refusal number" % answer.code)
    return answer


def check_code(code, kind):
    """Complain of a code that no record of its kind can have."""
    fitting = (WORKING, GRANTED) if kind == STEP else (DONE,)
    if code not in fitting and not refusal_of(code):
        raise BadInput("it says code %d, which no %s has; is this the report "
                       "of another schedule?" % (code, NAMES[kind]))


def check_place(answer, number, records, damage):
    """Complain unless the line can be the answer to record 'number'."""
    if answer.number != number:
        raise BadInput("it says record %d; expected record %d"
                       % (answer.number, number))
    if number >= len(records) + (1 if damage else 0):
        raise BadInput("the schedule has only %s; is this the report of "
                       "another schedule?"
                       % words.count(len(records), "record"))
    expected = 0
    if number < len(records) and not answer.ends_run:
        expected = records[number].client or 0
        check_code(answer.code, records[number].kind)
    if answer.client != expected:
        raise BadInput("it says client %d, but record %d is of client %d; is "
                       "this the report of another schedule?"
                       % (answer.client, number, expected))


def read_report(data, schedule):
    """The answers in a report, which must fit the schedule."""
    records, damage = read(schedule)
    answers = []
    for number, line in enumerate(data.splitlines()):
        try:
            if answers and answers[-1].ends_run:
                raise BadInput("the line before ends the run; expected no "
                               "more")
            answer = read_line(line)
            check_place(answer, number, records, damage)
        except BadInput as wrong:
            raise BadInput("line %d: %s" % (number + 1, wrong)) from None
        answers.append(answer)
    return answers


def sources():
    """What the program is made of: of a crate all but out/, which is rt's."""
    yield TOP / "crates.txt"
    for part in (TOP / "crates").glob("*/*"):
        if part.name != "out":
            yield part
            yield from part.rglob("*")


def is_built():
    """Whether the proved program is there and no source is newer."""
    if not PROGRAM.exists():
        return False
    built = PROGRAM.stat().st_mtime
    # A link that leads nowhere, as some editors make, is a file, too.
    return all(source.lstat().st_mtime <= built for source in sources())


def proved_report(schedule):
    """The report of the proved program, or None while it is not built."""
    if not is_built():
        return None
    try:
        done = subprocess.run([PROGRAM], input=schedule,
                              stdout=subprocess.PIPE)
    except OSError as wrong:
        raise BadInput("target/bin/replay cannot be run: %s"
                       % wrong.strerror) from None
    if done.returncode:
        raise BadInput("target/bin/replay ended with exit status %d"
                       % done.returncode)
    return done.stdout


def second_report(schedule):
    """The report of the second program, the one of the tests."""
    return second.run(schedule)[0]


def check_alike(schedule):
    """Complain where the programs do not agree; whether both are there."""
    proved = proved_report(schedule)
    if proved not in (None, second_report(schedule)):
        raise BadInput("target/bin/replay and tests/second.py report "
                       "differently: one of them is wrong")
    return proved is not None
