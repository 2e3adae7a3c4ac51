"""A second player of schedule files: python3 tests/second.py < schedule

It reads a schedule file on standard input and prints the report on standard
output, and it exists to be compared with the main program. It was made from
figures 4 and 5 of the paper ("Nb-GCLOCK") and from the user's text alone;
nothing of the main program was looked at. What the user's text says stands
today in docs/SPECIFICATION.md, in other words.

It is written in the form of the figures. Frame, BufferCache and ClockBuffer
are their classes, and the methods keep their names. The methods that are more
than one atomic action are coroutines. "yield 8" means: the client now stands
at stage 8. The lines from there to the next yield are that
stage's one atomic action and the private bookkeeping after it, and they run
when that client is stepped. So whatever is between two yields happens at
once, and anything may happen to the shared data at a yield.

Where the pool differs from the figures, a comment says "not in the figure".
The user calls a client a "bench" and the paper calls it a "thread".
"""

import itertools
import struct
import sys

MARK = b"\x46\x43"
SETUP, BEGIN, STEP, RELEASE = range(4)  # the kinds of record
DONE, WORKING, GRANTED, REFUSAL = 0, 1, 2, 100  # the codes in the report

LONGEST_FILE = 16384
LONGEST_LINE = 24
REPORT_SPACE = 49152
HAND_VALUES = 2**32
MOST_SLOTS, MOST_CLIENTS, MOST_COUNT = 64, 16, 100
MOST_GRANTS = 8
INDEX_PAGES = range(4)  # every request passes through them
INDEX_COUNT, OTHER_COUNT = 3, 1  # what a page's reference count starts with


class Refused(Exception):
    """A call or a record turned down, with the refusal's number."""

    def __init__(self, number):
        super().__init__(number)
        self.number = number


# Figure 4, left half.


class Frame:
    """One frame: its page (the key), its pins and its reference count."""

    def __init__(self, number, cap):
        self.number = number
        self.cap = cap
        self.key = 0
        self.refcount = 0
        self.pinning = -1  # evicted

    def renew(self, key):
        """Lines 2 to 7, "new Frame": both numbers start at 1.

        Not in the figure: the count of an index page starts higher, so that
        it lasts longer, but never above the cap.
        """
        start = INDEX_COUNT if key in INDEX_PAGES else OTHER_COUNT
        self.key = key
        self.refcount = min(start, self.cap)
        self.pinning = 1

    def incrRC(self):
        """Lines 15 to 17; not in the figure: never above the cap."""
        self.refcount = min(self.refcount + 1, self.cap)

    def decrRC(self):
        """Lines 18 to 20, the new count; not in the figure: never below 0."""
        self.refcount = max(self.refcount - 1, 0)
        return self.refcount

    def tryEvict(self):
        """Lines 21 to 23: pinning.CAS(0, -1)."""
        if self.pinning != 0:
            return False
        self.pinning = -1
        return True

    def evictUnshared(self):
        """Lines 24 to 26: pinning.CAS(1, -1)."""
        if self.pinning == 1:
            self.pinning = -1

    def pinCount(self):
        """Lines 27 to 29."""
        return self.pinning

    def pin(self):
        """Lines 30 to 32: add one unless evicted, test and add in one."""
        if self.pinning < 0:
            return False
        self.pinning += 1
        return True

    def unpin(self):
        """Lines 33 to 35."""
        self.pinning -= 1


# The hash table that figure 4 uses, section 3.


class HashTable(dict):
    """A dict from page to frame, with the table's three atomic changes."""

    def putIfAbsent(self, key, frame):
        """Map the key unless it is mapped; the frame it had, or None."""
        found = self.get(key)
        if found is None:
            self[key] = frame
        return found

    def remove(self, key, frame):
        """Remove the entry only if it maps the key to this very frame."""
        if self.get(key) is frame:
            del self[key]

    def replace(self, key, old, new):
        """Map the key to new only if it is mapped to old; tell if it was."""
        if self.get(key) is not old:
            return False
        self[key] = new
        return True


class Client:
    """One client: its running request, if any, and its grants.

    The figures' variables that name a frame are kept here instead of in the
    coroutines, so that a frame some client still names can be told. Each is
    set to None as soon as its request has no more use for it.
    """

    def __init__(self):
        self.grants = []  # a pair (page, frame) for each, no page twice
        self.rest()

    def rest(self):
        """No request is running, and no frame is named."""
        self.request = None  # the coroutine of fixEntry
        self.page = None
        self.stage = None
        self.entry = None  # fixEntry: stages 2 and 3
        self.newEntry = None  # addEntry: from stage 4 on, the own frame
        self.e = None  # swap: stages 12 to 16
        self.removed = None  # addEntry: stage 17, the frame that was e
        self.prevEntry = None  # addEntry: stages 19 to 22

    def names(self):
        return (self.entry, self.newEntry, self.e, self.removed,
                self.prevEntry)

    def held(self, page):
        """The frame of the client's grant of the page; None without one."""
        return dict(self.grants).get(page)


# Figure 4, right half.


class BufferCache:
    """The table and the clock, and the request that fixes a page."""

    def __init__(self, size, clients, cap, hand):
        self.HASHTBL = HashTable()
        self.CLOCKBUF = ClockBuffer(size, hand)
        self.clients = clients
        self.frames = [Frame(number, cap)
                       for number in range(size + 2 * len(clients))]
        self.taken = -1  # number of the frame last taken

    def fixEntry(self, me, key):
        """Lines 42 to 50; the frame granted."""
        yield 1  # stage 1: look up the page
        me.entry = self.HASHTBL.get(key)
        if me.entry is not None:
            yield 2  # stage 2: pin it unless it is evicted
            if me.entry.pin():
                yield 3  # stage 3: count the reference
                me.entry.incrRC()
                return me.entry
            me.entry = None
        return (yield from self.addEntry(me, key))

    def addEntry(self, me, key):
        """Lines 51 to 75; the frame granted."""
        while True:
            yield 4  # stage 4: take a frame for the page
            me.newEntry = self.newFrame(key)
            me.removed = yield from self.CLOCKBUF.add(me)
            me.e = None  # the same frame, from here on called removed
            if me.removed is not None:
                yield 17  # stage 17: remove the old page's entry
                self.HASHTBL.remove(me.removed.key, me.removed)
                me.removed = None
            yield 18  # stage 18: map the page unless it is mapped
            me.prevEntry = self.HASHTBL.putIfAbsent(key, me.newEntry)
            if me.prevEntry is not None:
                yield 19  # stage 19: pin the frame found
                if not me.prevEntry.pin():
                    yield 22  # stage 22: map the page to the own frame
                    if self.HASHTBL.replace(key, me.prevEntry, me.newEntry):
                        return me.newEntry
                    me.prevEntry = None
                    yield 23  # stage 23: give the own frame up, start anew
                    me.newEntry.evictUnshared()
                    me.newEntry = None
                    continue
                yield 20  # stage 20: give the own frame up, join
                me.newEntry.evictUnshared()
                me.newEntry = None
                yield 21  # stage 21: count the reference
                me.prevEntry.incrRC()
                return me.prevEntry
            return me.newEntry

    def newFrame(self, key):
        """Line 53's "new Frame"; not in the figure: out of a fixed row.

        Frames that stand in a slot or in the table, or that a client names,
        are not taken. The search starts after the frame last taken.
        """
        named = set(self.CLOCKBUF.POOL)
        named.update(self.HASHTBL.values())
        for client in self.clients:
            named.update(client.names())
        for ahead in range(1, len(self.frames) + 1):
            number = (self.taken + ahead) % len(self.frames)
            frame = self.frames[number]
            if frame not in named:
                self.taken = number
                frame.renew(key)
                return frame
        raise Refused(8)  # never met by a pool made by calls


# Figure 5.


class ClockBuffer:
    """The slots, how many were never given away, and the clock's hand."""

    def __init__(self, size, hand):
        self.POOL = [None] * size
        self.FREE = size
        self.CLOCKHAND = hand  # not in the figure: set by the setup record
        self.SIZE = size

    def add(self, me):
        """Lines 10 to 23; the frame the new one replaced, or None."""
        while True:
            yield 5  # stage 5: read FREE
            free = self.FREE
            if free == 0:
                return (yield from self.swap(me))
            yield 6  # stage 6: FREE.CAS(free, free - 1)
            if self.FREE == free:
                self.FREE = free - 1
                break
        yield 7  # stage 7: read the hand
        idx = self.CLOCKHAND % self.SIZE
        while True:
            yield 8  # stage 8: into the slot if it is empty
            if self.casSlot(idx, None, me.newEntry):
                break
            idx = (idx + 1) % self.SIZE
        yield 9  # stage 9: the hand moves on by one
        self.addToHand(1)
        return None

    def swap(self, me):
        """Lines 24 to 49; the frame the new one replaced.

        Not in the figure, which goes on for ever when all frames are pinned:
        here SIZE busy visits in a row, empty slots among them, are refused.
        A visit that got as far as stage 13 or 15 ends the row.
        """
        numpinning = 0
        yield 10  # stage 10: read the hand
        start = self.CLOCKHAND
        for count in itertools.count(start % self.SIZE):
            i = count % self.SIZE
            me.e = None  # the last slot's frame is forgotten
            yield 11  # stage 11: look at slot i
            me.e = self.POOL[i]
            if me.e is None:  # not ours: it is promised to another client
                numpinning = self.busyVisit(numpinning)
                continue
            yield 12  # stage 12: read the pins
            pincount = me.e.pinCount()
            if pincount > 0:  # pinned?
                numpinning = self.busyVisit(numpinning)
                continue
            if pincount == 0:
                yield 13  # stage 13: lower the count
                if me.e.decrRC() > 0:
                    numpinning = 0
                    continue
                yield 14  # stage 14: evict unless pinned by now
                if not me.e.tryEvict():
                    numpinning = 0
                    continue
            yield 15  # stage 15: into the slot if it still names e
            if self.casSlot(i, me.e, me.newEntry):
                yield 16  # stage 16: the hand moves past slot i
                self.moveClockHand(i, start)
                return me.e
            numpinning = 0

    def busyVisit(self, numpinning):
        """Lines 38 to 40; the new length of the run of busy visits."""
        if numpinning + 1 >= self.SIZE:
            raise Refused(15)
        return numpinning + 1

    def casSlot(self, i, expect, update):
        """POOL.CAS(i, expect, update)."""
        if self.POOL[i] is not expect:
            return False
        self.POOL[i] = update
        return True

    def moveClockHand(self, curr, start):
        """Lines 50 to 57; not in the figure: start is reduced first."""
        start %= self.SIZE
        if curr < start:
            delta = curr + self.SIZE - start + 1
        else:
            delta = curr - start + 1
        self.addToHand(delta)

    def addToHand(self, delta):
        """CLOCKHAND.add(delta), 32 bits wide and not reduced to a slot."""
        self.CLOCKHAND = (self.CLOCKHAND + delta) % HAND_VALUES


# The calls, one action at a time.


class Pool:
    """A pool and its clients: the calls begin, step, release and holdings.

    Each call gives its answer as a pair (code, value) or raises Refused;
    only holdings, which no record makes, answers with a plain number.
    """

    def __init__(self, slots, clients, cap, hand):
        self.clients = [Client() for _ in range(clients)]
        self.cache = BufferCache(slots, self.clients, cap, hand)

    def begin(self, number, page):
        """Put a resting client at stage 1, wanting the page."""
        client = self.client(number)
        if client.request is not None:
            raise Refused(10)
        if len(client.grants) >= MOST_GRANTS:
            raise Refused(12)
        if client.held(page) is not None:
            raise Refused(18)
        client.page = page
        client.request = self.cache.fixEntry(client, page)
        client.stage = next(client.request)  # runs up to "yield 1"
        return DONE, page

    def step(self, number):
        """Let a working client do the one action it stands at."""
        client = self.client(number)
        if client.request is None:
            raise Refused(11)
        try:
            client.stage = next(client.request)
        except StopIteration as end:
            frame = end.value
            client.grants.append((client.page, frame))
            client.rest()
            return GRANTED, frame.number
        except Refused:  # by 15, out of the sweep
            client.rest()
            raise
        return WORKING, client.stage

    def release(self, number, page):
        """End the client's grant of the page."""
        client = self.client(number)
        if client.request is not None:
            raise Refused(10)
        frame = client.held(page)
        if frame is None:
            raise Refused(13)
        client.grants.remove((page, frame))
        frame.unpin()
        return DONE, page

    def holdings(self, number, rows):
        """Write the client's pages over the front of rows, lowest first.

        A row is a pair (page, times), and times is always 1: begin refuses
        a page the client holds. A running request counts for nothing.
        """
        pages = sorted(page for page, _ in self.client(number).grants)
        if len(pages) > len(rows):
            raise Refused(14)
        rows[:len(pages)] = [(page, 1) for page in pages]
        return len(pages)

    def client(self, number):
        if number >= len(self.clients):
            raise Refused(9)
        return self.clients[number]


# The schedule file and the report.


def readRecord(data, first):
    """The kind and the numbers of the record that data begins with.

    Makes checks 3 to 8, in their order. It looks at no more than 10 bytes.
    """
    if len(data) < 8 or (len(data) < 10 and data[2] == SETUP):
        raise Refused(3)
    if data[:2] != MARK:
        raise Refused(4)
    kind = data[2]
    if kind > RELEASE:
        raise Refused(5)
    if (kind == SETUP) != first:
        raise Refused(6)
    if kind == SETUP:
        slots, clients, cap, hand = struct.unpack("<BBBI", data[3:10])
        if not (1 <= slots <= MOST_SLOTS and 1 <= clients <= MOST_CLIENTS
                and 1 <= cap <= MOST_COUNT):
            raise Refused(8)
        return kind, slots, clients, cap, hand
    client, page = struct.unpack("<BI", data[3:8])
    if kind == STEP and page != 0:
        raise Refused(7)
    return kind, client, page


def call(pool, kind, client, page):
    """Make a record's call; code and value of its line."""
    try:
        if kind == BEGIN:
            return pool.begin(client, page)
        if kind == STEP:
            return pool.step(client)
        return pool.release(client, page)
    except Refused as refused:
        if refused.number == 8:
            raise
        return REFUSAL + refused.number, 0


def line(number, client, code, value):
    return b"%d %d %d %d\n" % (number, client, code, value)


def run(schedule, space=REPORT_SPACE):
    """Play a schedule file into a report of at most space bytes.

    Gives the report, how many records the run got through, and the number
    of the refusal that ended it, 0 for the ordinary end.
    """
    if len(schedule) > LONGEST_FILE:
        return b"", 0, 1
    pool = None
    report = bytearray()
    at = 0
    for number in itertools.count():
        if number > 0 and at == len(schedule):
            return bytes(report), number, 0
        if space - len(report) < LONGEST_LINE:
            return bytes(report), number, 2
        try:
            kind, *numbers = readRecord(schedule[at:at + 10], number == 0)
            if kind == SETUP:
                pool = Pool(*numbers)
                report += line(number, 0, DONE, numbers[0])
                at += 10
            else:
                report += line(number, numbers[0], *call(pool, kind, *numbers))
                at += 8
        except Refused as refused:
            report += line(number, 0, REFUSAL + refused.number, 0)
            return bytes(report), number, refused.number


if __name__ == "__main__":
    if len(sys.argv) > 1:
        print("usage: python3 second.py < schedule > report", file=sys.stderr)
        sys.exit(2)
    sys.stdout.buffer.write(run(sys.stdin.buffer.read())[0])
