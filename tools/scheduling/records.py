"""The records of a schedule file, as bytes and as numbers.

Their form is in docs/SPECIFICATION.md, section 9.
"""

import struct
from typing import NamedTuple, Optional, Tuple

import second

MARK = second.MARK
SETUP, BEGIN, STEP, RELEASE = range(4)
NAMES = ("setup", "begin", "step", "release")
LONGEST_FILE = second.LONGEST_FILE
SETUP_LENGTH, CALL_LENGTH = 10, 8
SETUP_NUMBERS, CALL_NUMBERS = "<BBBI", "<BI"


class Record(NamedTuple):
    """A record that can be read, whatever the pool will say to it."""

    at: int  # the byte it begins at
    kind: int
    numbers: Tuple[int, ...]  # slots, clients, cap, hand; or client, page

    @property
    def client(self):
        return None if self.kind == SETUP else self.numbers[0]

    @property
    def page(self):
        return None if self.kind == SETUP else self.numbers[1]

    @property
    def end(self):
        return self.at + length(self.kind)


class Damage(NamedTuple):
    """Where no further record can be read, and why."""

    at: int
    refusal: int


def length(kind):
    return SETUP_LENGTH if kind == SETUP else CALL_LENGTH


def pack(kind, *numbers):
    """The bytes of a record."""
    form = SETUP_NUMBERS if kind == SETUP else CALL_NUMBERS
    return MARK + bytes((kind,)) + struct.pack(form, *numbers)


def read_one(data, at):
    """The record at a byte, or the damage that is there."""
    rest = data[at:at + SETUP_LENGTH]
    # In the order of SPECIFICATION 9.2.
    if len(rest) < CALL_LENGTH or len(rest) < length(rest[2]):
        return Damage(at, 3)
    if rest[:2] != MARK:
        return Damage(at, 4)
    kind = rest[2]
    if kind > RELEASE:
        return Damage(at, 5)
    form = SETUP_NUMBERS if kind == SETUP else CALL_NUMBERS
    numbers = struct.unpack(form, rest[3:length(kind)])
    if kind == STEP and numbers[1] != 0:
        return Damage(at, 7)
    return Record(at, kind, numbers)


def read(data):
    """The records of a file as far as they can be read, and its damage.

    A setup at a wrong place and numbers out of range are no damage here: the
    pool refuses them, but they can be read. Of a file that is too long, what
    is past the limit counts as damage.
    """
    records, at = [], 0
    damage: Optional[Damage] = None
    if not data:
        damage = Damage(0, 3)
    while at < len(data) and damage is None:
        found = read_one(data, at)
        if isinstance(found, Damage):
            damage = found
        elif found.end > LONGEST_FILE:
            damage = Damage(at, 1)
        else:
            records.append(found)
            at = found.end
    return records, damage
