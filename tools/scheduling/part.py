"""The part of a run that is to be drawn: which records, clients and slots."""

import re
from typing import List, NamedTuple

from . import BadInput, BadUsage
from .text import quoted

ITEM = re.compile(r"(\d{1,9})(?:-(\d{1,9}))?")


class Part(NamedTuple):
    """Records from the first to the last one, and rows by their numbers.

    Before the first record the pool is shown as it was then, unless that is
    the setup, before which there is no pool.
    """

    first: int
    last: int
    clients: List[int]
    slots: List[int]

    @property
    def origin(self):
        """The column that is drawn first."""
        return max(self.first - 1, 0)

    @property
    def columns(self):
        return self.last - self.origin + 1


def limits(count):
    """The numbers that there are, for errors."""
    return "only 0" if count == 1 else "0 to %d" % (count - 1)


def numbers(written, what, count):
    """Numbers such as '0,3' or '0-7', each below the count, in order."""
    if written is None:
        return list(range(count))
    found = set()
    for item in written.split(","):
        match = ITEM.fullmatch(item.strip())
        if not match:
            raise BadUsage("--%ss %s: expected numbers such as 0,3 or 0-7"
                           % (what, quoted(written)))
        low, high = int(match[1]), int(match[2] or match[1])
        if high < low:
            raise BadUsage("--%ss %s: %d comes before %d"
                           % (what, quoted(written), high, low))
        if high >= count:
            raise BadInput("there is no %s %d; this run has %s"
                           % (what, high, limits(count)))
        found.update(range(low, high + 1))
    return sorted(found)


def of(setup, records, first=None, last=None, clients=None, slots=None):
    """The part that options ask for, of a run of so many records."""
    first = 0 if first is None else first
    last = records - 1 if last is None else last
    for number in (first, last):
        if not 0 <= number < records:
            raise BadInput("there is no record %d; this run has %s"
                           % (number, limits(records)))
    if last < first:
        raise BadUsage("--from %d --to %d: the last record comes before the "
                       "first" % (first, last))
    return Part(first, last, numbers(clients, "client", setup[1]),
                numbers(slots, "slot", setup[0]))
