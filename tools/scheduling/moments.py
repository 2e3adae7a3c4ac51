"""A run, played record by record, and the pool as each record left it.

A report tells nothing of slots, counts or the table, so the schedule is
played with the second program and its pool is looked at after each record.
The names are those of docs/SPECIFICATION.md, sections 1 and 2.
"""

from typing import Dict, NamedTuple, Optional, Tuple

import second

from . import BadInput, words
from .records import SETUP, STEP, read
from .report import DONE, REFUSAL, WORKING, refusal_of

# What can be said of a frame in a slot. A candidate is what the
# specification calls placed: its page is not in the table with this frame
# yet, and perhaps never will be, so it is no copy that anyone was given.
IN_USE, UNHELD, CANDIDATE, EVICTED = ("in use", "not held", "candidate",
                                      "evicted")


class Frame(NamedTuple):
    page: int
    pins: int  # -1: evicted
    count: int


class Client(NamedTuple):
    """A client; None stands for what it does not remember, or rest."""

    stage: Optional[int] = None
    wanted: Optional[int] = None
    own: Optional[int] = None
    found: Optional[int] = None
    victim: Optional[int] = None
    seen: Optional[int] = None
    place: Optional[int] = None
    start: Optional[int] = None
    busy: Optional[int] = None
    grants: Tuple[Tuple[int, int], ...] = ()  # pairs of page and frame


class Moment(NamedTuple):
    """The pool between two records."""

    free: int
    hand: int
    slots: Tuple[Optional[int], ...]  # the frame in each
    frames: Tuple[Frame, ...]
    table: Dict[int, int]  # the frame of each page
    clients: Tuple[Client, ...]

    def state(self, frame):
        """What can be said of a frame that stands in a slot."""
        pins = self.frames[frame].pins
        if pins < 0:
            return EVICTED
        if not self.maps(frame):
            return CANDIDATE
        return IN_USE if pins else UNHELD

    def maps(self, frame):
        """Whether the table has the frame's page with this very frame."""
        return self.table.get(self.frames[frame].page) == frame

    def told(self, frame):
        """A frame that stands in a slot, in words.

        It has a page only where the table has the page with it: else two
        copies of a page could be read out of it that nobody was given.
        """
        return {CANDIDATE: "frame %d, a candidate for page %d",
                EVICTED: "frame %d, evicted, which was for page %d"}.get(
                    self.state(frame), "frame %d with page %d") % (
                        frame, self.frames[frame].page)

    def slot_of(self, frame):
        """The slot that names a frame, or None."""
        return self.slots.index(frame) if frame in self.slots else None

    def held(self):
        """The pages on which a grant is open."""
        return {page for client in self.clients for page, _ in client.grants}


class Call(NamedTuple):
    """A record that was played, or the one that ended the run."""

    number: int
    kind: Optional[int]  # None where it cannot be read
    client: Optional[int]
    page: Optional[int]
    did: Optional[int]  # the stage whose action a step did
    code: int
    value: int

    @property
    def refusal(self):
        return refusal_of(self.code)

    @property
    def stage(self):
        """Where the client stands after a step, or None."""
        return self.value if self.code == WORKING else None


def dropped(call, before, after):
    """Whether a call dropped a page: a 17 that removed the victim's entry.

    It answers the same where it removed nothing, so the pool has to tell.
    """
    if call.did != 17:
        return False
    victim = before.clients[call.client].victim
    return before.maps(victim) and not after.maps(victim)


def swept(client, did, moment):
    """What a client that goes on remembers of its search for a slot.

    The second program keeps these four numbers to itself, in the variables
    of a running function, so they are followed here; by SPECIFICATION 2.4.
    """
    seen, place, start, busy = (client.seen, client.place, client.start,
                                client.busy)
    size = len(moment.slots)
    if did == 5:
        seen = moment.free or seen
    elif did == 7:
        place = moment.hand % size
    elif did == 10:
        start, place, busy = moment.hand, moment.hand % size, 0
    elif did == 8 and client.stage == 8:
        place = (place + 1) % size
    elif did in (11, 12, 13, 14, 15) and client.stage == 11:
        place = (place + 1) % size
        busy = busy + 1 if did < 13 else 0
    return dict(seen=seen, place=place, start=start, busy=busy)


def number_of(*frames):
    """The number of the one that is a frame, or None."""
    return next((frame.number for frame in frames if frame is not None), None)


class Player:
    """A pool of the second program, and the moments it has come through."""

    def __init__(self, setup):
        self.pool = second.Pool(*setup.numbers)
        self.calls = [Call(0, SETUP, None, None, None, DONE,
                           setup.numbers[0])]
        idle = Client()
        self.moments = [self.look((idle,) * len(self.pool.clients))]

    def look(self, clients):
        """The pool as it is now, with what is known of its clients."""
        cache = self.pool.cache
        clock = cache.CLOCKBUF
        return Moment(clock.FREE, clock.CLOCKHAND,
                      tuple(map(number_of, clock.POOL)),
                      tuple(Frame(frame.key, frame.pinning, frame.refcount)
                            for frame in cache.frames),
                      {page: frame.number
                       for page, frame in cache.HASHTBL.items()}, clients)

    def client(self, number, did):
        """A client as it is now, after the action of a stage, if any."""
        now, before = self.pool.clients[number], self.moments[-1]
        grants = tuple((page, frame.number) for page, frame in now.grants)
        if now.request is None:
            return Client(grants=grants)
        known = before.clients[number]._replace(
            stage=now.stage, wanted=now.page, own=number_of(now.newEntry),
            found=number_of(now.entry, now.prevEntry),
            victim=number_of(now.e, now.removed), grants=grants)
        return known._replace(**swept(known, did, before))

    def play(self, record):
        clients, did = self.moments[-1].clients, None
        known = record.client < len(clients)
        if record.kind == STEP and known:
            did = clients[record.client].stage
        code, value = second.call(self.pool, record.kind, *record.numbers)
        self.calls.append(Call(len(self.calls), record.kind, record.client,
                               record.page, did, code, value))
        if known:
            clients = (clients[:record.client]
                       + (self.client(record.client, did),)
                       + clients[record.client + 1:])
        self.moments.append(self.look(clients))

    def end_by(self, record, refusal):
        """The record that ended the run, which changed nothing."""
        self.calls.append(Call(len(self.calls),
                               None if record is None else record.kind,
                               None, None, None, REFUSAL + refusal, 0))
        self.moments.append(self.moments[-1])


class Run:
    """A whole run: its calls, and the pool after each of them.

    Without an accepted setup there was no pool, and both are empty.
    """

    def __init__(self, data):
        records, _ = read(data)
        count, self.refusal = second.run(data)[1:]
        self.setup, self.calls, self.moments = None, [], []
        if count == 0:
            return
        player = Player(records[0])
        for record in records[1:count]:
            player.play(record)
        if self.refusal:
            player.end_by(records[count] if count < len(records) else None,
                          self.refusal)
        self.setup = records[0].numbers
        self.calls, self.moments = player.calls, player.moments

    def turns(self):
        """Each call, with the pool before it and after it.

        Before a setup there was none, so it has the same pool twice.
        """
        return zip(self.calls, self.moments[:1] + self.moments, self.moments)

    def drops(self):
        """The numbers of the records that dropped a page."""
        return {turn[0].number for turn in self.turns() if dropped(*turn)}


def run_to(purpose, data):
    """The run of a schedule file, which must have one for this purpose."""
    run = Run(data)
    if not run.calls:
        raise BadInput("there is no run to %s: %s"
                       % (purpose, words.refused(run.refusal)))
    return run
