"""What a run does to clients and slots, as spans of columns.

A run has a column for each record. What a column shows is the pool as the
record left it.
"""

import itertools
from typing import NamedTuple, Optional

from .moments import CANDIDATE, EVICTED, dropped, run_to
from .records import BEGIN
from .report import DONE, GRANTED


class Span(NamedTuple):
    """Something that stays from one column up to but without another."""

    first: int
    end: int
    what: object

    def within(self, first, end):
        """The part of it between two columns, or None."""
        first, end = max(self.first, first), min(self.end, end)
        return self._replace(first=first, end=end) if first < end else None


class Content(NamedTuple):
    """What a slot names."""

    page: int
    frame: int
    state: str
    told: str  # all that in words

    @property
    def labels(self):
        """What to write: the first that there is room for.

        It is called a page only where it is the page's copy.
        """
        if self.state == CANDIDATE:
            return ("for %d" % self.page,)
        if self.state == EVICTED:
            return ("was for %d" % self.page,)
        return "page %d" % self.page, str(self.page)


class Grant(NamedTuple):
    """A grant from its answer until its release."""

    first: int
    end: Optional[int]  # None if it is still open at the end
    page: int
    frame: int


class Mark(NamedTuple):
    """Something that a step did to a page or candidate, in a slot's row.

    By stage 14 a page was evicted, by 22 revived and by 17 dropped, and by 20
    or 23 a candidate was given up. The frame is the one that the page lost
    or came to, or the candidate.
    """

    column: int
    slot: int
    page: int
    frame: int
    stage: int


def spans(values):
    """A list with a value for each column, as spans; None is left out."""
    found, at = [], 0
    for value, group in itertools.groupby(values):
        end = at + sum(1 for _ in group)
        if value is not None:
            found.append(Span(at, end, value))
        at = end
    return found


def content(moment, frame):
    """What to say of a slot that names the frame, if any."""
    if frame is None:
        return None
    return Content(moment.frames[frame].page, frame, moment.state(frame),
                   moment.told(frame))


def count(moment, frame):
    """The count of the frame in a slot, as long as it matters."""
    if frame is None or moment.state(frame) == EVICTED:
        return None
    return moment.frames[frame].count


def is_marked(call, before, after):
    """Whether a call did one of the things that have a mark."""
    return (call.did in (20, 23) or (call.did, call.stage) == (14, 15)
            or (call.did, call.code) == (22, GRANTED)
            or dropped(call, before, after))


def marks_of(run):
    """The marks of a whole run."""
    for call, before, after in run.turns():
        if is_marked(call, before, after):
            client = before.clients[call.client]
            frame = client.victim if call.did in (14, 17) else client.own
            # By 17 the own frame stands where the victim stood.
            slot = after.slot_of(frame if call.did == 14 else client.own)
            yield Mark(call.number, slot, after.frames[frame].page, frame,
                       call.did)


def grants_of(client, calls):
    """The grants of a client, in the order of their answers."""
    ended, running, page = [], {}, None  # running: by page
    for call in calls:
        if call.client != client:
            continue
        if call.kind == BEGIN and call.code == DONE:
            page = call.page
        elif call.code == GRANTED:
            running[page] = Grant(call.number, None, page, call.value)
        elif call.code == DONE:  # a release
            ended.append(running.pop(call.page)._replace(end=call.number))
    return sorted([*ended, *running.values()], key=lambda grant: grant.first)


class History:
    """A whole run, ready to be drawn."""

    def __init__(self, data):
        run = run_to("draw", data)
        self.setup, self.calls, self.refusal = (run.setup, run.calls,
                                                run.refusal)
        self.columns = len(self.calls)
        size, clients = self.setup[:2]
        moments = run.moments
        self.standing = [spans(moment.clients[client].stage
                               for moment in moments)
                         for client in range(clients)]
        self.wanted = [spans(moment.clients[client].wanted
                             for moment in moments)
                       for client in range(clients)]
        self.contents = [spans(content(moment, moment.slots[slot])
                               for moment in moments)
                         for slot in range(size)]
        self.counts = [spans(count(moment, moment.slots[slot])
                             for moment in moments)
                       for slot in range(size)]
        self.most_count = max((span.what for row in self.counts
                               for span in row), default=0)
        self.hands = spans(moment.hand % size for moment in moments)
        self.marks = list(marks_of(run))
        self.grants = [grants_of(client, self.calls)
                       for client in range(clients)]
