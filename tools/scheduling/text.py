"""Schedule files from readable text and back.

One command a line; '#' begins a comment; numbers are decimal or 0x
hexadecimal:

    setup slots 2 clients 2 cap 3 hand 0
    begin 0 page 9
    step 0 times 8          # 'times 8' may be left out: one step
    release 0 page 9
"""

import itertools
import re
from typing import NamedTuple, Optional, Tuple

import second

from . import BadInput, words
from .records import (BEGIN, LONGEST_FILE, MARK, NAMES, RELEASE, SETUP, STEP,
                      length, pack, read)
from .report import LINE


MOST_PLAYED = {  # of the numbers that fit, a pool takes these, from 1 on
    "slots": second.MOST_SLOTS,
    "clients": second.MOST_CLIENTS,
    "cap": second.MOST_COUNT,
}


class Field(NamedTuple):
    """A number in a command."""

    word: str  # the word before it, or none
    name: str  # what the number is, for errors
    least: int
    most: Optional[int]

    def expected(self):
        """The field's range, for errors."""
        played = MOST_PLAYED.get(self.name)
        return "%s from %d %s%s" % (
            self.name, self.least,
            "on" if self.most is None else "to %d" % self.most,
            "" if played is None else " (a pool takes 1 to %d)" % played)

    def fits(self, value):
        return value >= self.least and (self.most is None
                                        or value <= self.most)


def byte(word, name):
    return Field(word, name, 0, 2**8 - 1)


def four_bytes(word, name):
    return Field(word, name, 0, 2**32 - 1)


CLIENT = byte("", "client")
PAGE = four_bytes("page", "page")
TIMES = Field("times", "times", 1, None)  # in no record; the file limits it

FORMS = {
    SETUP: (byte("slots", "slots"), byte("clients", "clients"),
            byte("cap", "cap"), four_bytes("hand", "hand")),
    BEGIN: (CLIENT, PAGE),
    STEP: (CLIENT, TIMES),
    RELEASE: (CLIENT, PAGE),
}

SAMPLES = {
    SETUP: "setup slots 2 clients 2 cap 3 hand 0",
    BEGIN: "begin 0 page 9",
    STEP: "step 0 times 8",
    RELEASE: "release 0 page 9",
}

NUMBER = re.compile(r"0[xX]([0-9a-fA-F]+)|([0-9]+)")
MOST_DIGITS = 20  # more than any field takes; longer ones are not computed
MOST_TOLD = 100  # complaints about one text; the others are only counted


# What a file is that was given for another.

SCHEDULE, REPORT, PICTURE, TEXT = ("a schedule file", "a report",
                                   "a picture or a page", "a text")
LOOKED_AT = 1000  # bytes; enough to tell


def is_readable(start):
    """Whether bytes read as text, but for a letter here and there."""
    letters = start.decode("utf-8-sig", "replace")
    return (letters.count("\ufffd") * 10 < len(letters)
            and all(letter.isprintable() or letter in "\t\n\f\r"
                    for letter in letters))


def seems(data):
    """What a file seems to be, by its first bytes; None for none of these."""
    start = data[:LOOKED_AT]
    if start.startswith(MARK) and start[2:3] in b"\0\1\2\3":
        return SCHEDULE
    if LINE.fullmatch(start.partition(b"\n")[0].rstrip(b"\r")):
        return REPORT
    if start.lstrip().startswith(b"<"):
        return PICTURE
    return TEXT if is_readable(start) else None


# From text to bytes.


class Command(NamedTuple):
    """A line of a text, read."""

    line: int  # its number, from 1
    kind: int
    numbers: Tuple[int, ...]  # of its record
    times: int  # how often the record is written

    @property
    def size(self):
        return self.times * length(self.kind)

    def records(self):
        return self.times * pack(self.kind, *self.numbers)


def shortened(word):
    return word if len(word) <= 24 else word[:20] + "..."


def quoted(word):
    """A word for an error, without control characters."""
    return ascii(shortened(word))


class WrongNumber(BadInput):
    """A number does not fit; what follows it may be right."""


def read_number(word, field):
    """The value of a word that stands for a field's number."""
    match = NUMBER.fullmatch(word)
    if not match:
        raise BadInput("%s is no number; expected %s, decimal or 0x "
                       "hexadecimal" % (quoted(word), field.expected()))
    hexadecimal, decimal = match.groups()
    digits = (hexadecimal or decimal).lstrip("0") or "0"
    if len(digits) <= MOST_DIGITS:
        value = int(digits, 16 if hexadecimal else 10)
        if field.fits(value):
            return value
    raise WrongNumber("%s %s does not fit; expected %s"
                      % (field.name, shortened(word), field.expected()))


def read_field(rest, field, sample):
    """Take a field's word and its number off the front of the rest."""
    if field.word:
        if not rest:
            raise BadInput("a word is missing at the end; expected '%s' and "
                           "a number, as in: %s" % (field.word, sample))
        word = rest.pop(0)
        if word != field.word:
            raise BadInput("unknown word %s; expected '%s', as in: %s"
                           % (quoted(word), field.word, sample))
    if not rest:
        raise BadInput("a number is missing at the end; expected %s, as in: "
                       "%s" % (field.expected(), sample))
    return read_number(rest.pop(0), field)


def read_numbers(rest, kind):
    """The numbers of a command; complains of all that are wrong."""
    fields = FORMS[kind]
    if kind == STEP and len(rest) == 1:
        fields = (CLIENT,)  # 'times' may be left out
    numbers, wrong = [], []
    for field in fields:
        try:
            numbers.append(read_field(rest, field, SAMPLES[kind]))
        except WrongNumber as why:
            wrong.append(str(why))
        except BadInput as why:
            wrong.append(str(why))
            break
    else:
        if rest:
            wrong.append("unknown word %s after the command; expected no "
                         "more, as in: %s" % (quoted(rest[0]), SAMPLES[kind]))
    if wrong:
        raise BadInput("\n".join(wrong))
    return numbers


def read_command(line, line_words):
    """The command that the words of a line are."""
    first, *rest = line_words
    if first not in NAMES:
        raise BadInput("unknown word %s; expected setup, begin, step or "
                       "release" % quoted(first))
    kind = NAMES.index(first)
    numbers = read_numbers(rest, kind)
    if kind == STEP:
        client, times = (numbers + [1])[:2]
        return Command(line, STEP, (client, 0), times)
    return Command(line, kind, tuple(numbers), 1)


def read_lines(data):
    """The commands of a text, and for each wrong line its number and why."""
    commands, wrong = [], []
    text = data.decode("utf-8-sig", "replace")  # comments may be anything
    for number, line in enumerate(text.split("\n"), 1):
        line_words = line.partition("#")[0].split()
        if line_words:
            try:
                commands.append(read_command(number, line_words))
            except BadInput as whys:
                wrong += [(number, why) for why in str(whys).split("\n")]
    return commands, wrong


def past_the_end(commands):
    """The same of the first command that makes the file too long, if any."""
    so_far = 0
    for command in commands:
        if so_far + command.size > LONGEST_FILE:
            return [(command.line, "the file would be longer than 16,384 "
                     "bytes: it has %d before this line; expected at most %d "
                     "more, not %d" % (so_far, LONGEST_FILE - so_far,
                                       command.size))]
        so_far += command.size
    return []


def told(found):
    """Lines and what is to be said of each, in their order: the first few."""
    lines = ["line %d: %s" % one
             for one in sorted(found, key=lambda one: one[0])]
    if len(lines) > MOST_TOLD:
        lines[MOST_TOLD:] = ["and %d more" % (len(lines) - MOST_TOLD)]
    return lines


def read_text(data):
    """The commands of a text; complains of all that is wrong in it."""
    what = seems(data)
    if what in (SCHEDULE, REPORT, PICTURE):
        raise BadInput("this is %s%s; expected a text"
                       % (what, " already" if what == SCHEDULE else ""))
    commands, wrong = read_lines(data)
    wrong += past_the_end(commands)
    if wrong:
        raise BadInput("\n".join(told(wrong)))
    return commands


def make(data):
    """The schedule file that a text, given as bytes, stands for.

    Where the text is wrong, the complaint has a line for each wrong one.
    """
    return written(read_text(data))


def written(commands):
    """The records of commands, in their order."""
    return b"".join(command.records() for command in commands)


# What no pool can play.


def out_of_range(numbers):
    """What a pool refuses of a setup's numbers, in words, one by one."""
    for field, number in zip(FORMS[SETUP], numbers):
        most = MOST_PLAYED.get(field.name)
        if most is not None and not 1 <= number <= most:
            yield ("%s is %d and must be from 1 to %d"
                   % (field.name, number, most))


def faults(first, setups):
    """Lines that end every run, and why, by the first command and setups."""
    if first.kind != SETUP:
        better = ("the setup of line %d" % setups[0].line if setups
                  else "a setup")
        yield first.line, ("a %s comes first and ends the run here; begin "
                           "with %s: %s" % (NAMES[first.kind], better,
                                            words.refused(6)))
    for setup in setups[:1]:
        for why in out_of_range(setup.numbers):
            yield setup.line, "%s: %s" % (why, words.refused(8))
    for setup in setups[1:]:
        yield setup.line, ("another setup ends the run here (the first is at "
                           "line %d): %s"
                           % (setups[0].line, words.refused(6)))


def warnings(commands):
    """Lines about what no pool can play, of commands that can be read."""
    if not commands:
        return ["there is no command, so the file is empty: "
                + words.refused(3)]
    return told(faults(commands[0], [command for command in commands
                                     if command.kind == SETUP]))


# From bytes to text.


def command(record, times=1):
    """The command that stands for a record."""
    if record.kind == STEP:
        return "step %d" % record.client + (" times %d" % times
                                            if times > 1 else "")
    parts = [NAMES[record.kind]]
    for field, number in zip(FORMS[record.kind], record.numbers):
        parts += [field.word, str(number)] if field.word else [str(number)]
    return " ".join(parts)


def together(record):
    """Records with the same key, one after the other, make one line."""
    return (STEP, record.client) if record.kind == STEP else record.at


def ending(data, records):
    """The first record that ends the run though it can be read, and why."""
    for number, record in enumerate(records):
        try:
            second.readRecord(data[record.at:record.end], number == 0)
        except second.Refused as refused:  # by 6 or 8
            return record, refused.number
    return None, 0


def show(data):
    """The text that stands for a schedule file."""
    records, damage = read(data)
    last, refusal = ending(data, records)
    lines = []
    if len(data) > LONGEST_FILE:
        lines.append("# nothing of this file is played: " + words.refused(1))
    for _, group in itertools.groupby(records, together):
        first, *more = group
        if first is last:
            lines.append("# at byte %d: the run ends, %s"
                         % (first.at, words.refused(refusal)))
        lines.append(command(first, 1 + len(more)))
    if damage:
        lines.append("# at byte %d: %s"
                     % (damage.at, words.refused(damage.refusal)))
        rest = data[damage.at:]
        if rest:
            lines.append("# the other %s: %s"
                         % (words.count(len(rest), "byte"), rest.hex(" ")))
    return "".join(line + "\n" for line in lines)
