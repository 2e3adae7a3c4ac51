"""A second player of byte scripts: python3 second_store.py < script

It plays the pool of second.py with a store and a tally lent to it and 64 bytes
in every frame, and exists to be compared with the main program. Like second.py
it was made from the user's text, and a list of readings where that is open;
nothing of the main program was looked at.

A script has one call a line, with decimal numbers:

    setup S T C HAND LENGTH          the first line, and only that
    lend N
    tally N
    begin CLIENT PAGE
    step CLIENT
    release CLIENT PAGE
    read CLIENT PAGE OFFSET
    write CLIENT PAGE OFFSET BYTE
    dump

The store is the front of one space of 16,512 bytes: its first LENGTH bytes at
setup and until a "lend" says how many. One tally is lent to every step, all
zero at setup; from a "tally" on another, with all six counts N. Every call
gives one line, code and value as in the report of a schedule; "lend" and
"tally" give none. "dump" gives

    NUMBER FILLED CHANGED BYTES      for each frame
    - BYTES                          64 of the space, as far as LENGTH goes,
                                     one line at least
    tally HITS JOINS ADMITTED REVIVED DROPS REFUSED
    holds CLIENT ROOM CODE VALUE ROW ROW ..

The last is a holdings call on ROOM rows and what it leaves of eight rows:
PAGExTIMES, or "." for a row that is as it was. Each client, and then one that
is not there, is asked on eight rows, on exactly enough, and on one too few if
it needs any. A refused setup ends the report.

The exit status is 2 if a line of the script cannot be read.
"python3 second_store.py --check" plays the EXAMPLES below instead.
"""

import sys

sys.dont_write_bytecode = True  # leave no compiled files beside the sources

from second import (DONE, GRANTED, MOST_CLIENTS, MOST_COUNT,  # noqa: E402
                    MOST_GRANTS, MOST_SLOTS, REFUSAL, WORKING, BufferCache,
                    Frame, HashTable, Pool, Refused)

PAGE = 64  # bytes of a page
MOST_PAGES = 256  # of a store
SPACE = 16512  # bytes that stores are cut from
BYTE, WORD = 255, 2**32 - 1  # the largest of 8 and of 32 bits


def place(page):
    """Where a page stands in the store."""
    return slice(PAGE * page, PAGE * (page + 1))


# The frames and the table, with bytes.


class ByteFrame(Frame):
    """A frame with bytes, zero at setup, and its two marks."""

    def __init__(self, number, cap):
        super().__init__(number, cap)
        self.bytes = bytearray(PAGE)
        self.filled = False
        self.changed = False

    def renew(self, key):
        """Stage 4: both marks go off; the bytes stay as they were."""
        super().renew(key)
        self.filled = self.changed = False


class ByteTable(HashTable):
    """The table; where a frame leaves it, its bytes are looked after."""

    store = tally = None  # what the running step was lent

    def remove(self, key, frame):
        """Stage 17: a removal is a drop; a changed frame is stored first."""
        if self.get(key) is not frame:
            return
        if frame.changed:
            self.store[place(key)] = frame.bytes
        super().remove(key, frame)
        self.tally.add("drops")

    def replace(self, key, old, new):
        """Stage 22: with the entry, bytes and marks go to the new frame."""
        if not super().replace(key, old, new):
            return False
        new.bytes[:] = old.bytes
        new.filled, new.changed = old.filled, old.changed
        old.filled = old.changed = False
        return True


class ByteCache(BufferCache):
    """The table and the clock of second.py over frames with bytes."""

    def __init__(self, size, clients, cap, hand):
        super().__init__(size, clients, cap, hand)
        self.HASHTBL = ByteTable()
        self.frames = [ByteFrame(frame.number, cap) for frame in self.frames]


# The tally.


class Tally:
    """Six counts that the caller keeps and lends to each step."""

    def __init__(self, start):
        self.hits = self.joins = self.admitted = start
        self.revived = self.drops = self.refused = start

    def count(self, stage, answer):
        """Bring it up to date after a step at the stage, but for drops.

        Stages 18 and 22 count only where they grant. The answer of 17 does
        not tell if the entry was removed: the table counts drops itself.
        """
        granted = {3: "hits", 21: "joins", 18: "admitted", 22: "revived"}
        if answer[0] == GRANTED:
            self.add(granted[stage])
        elif answer[0] == REFUSAL + 15:
            self.add("refused")

    def add(self, name):
        """One more; a count stays at the largest value."""
        setattr(self, name, min(getattr(self, name) + 1, WORD))

    def line(self):
        return "tally %d %d %d %d %d %d" % (
            self.hits, self.joins, self.admitted, self.revived, self.drops,
            self.refused)


# The calls.


class StorePool(Pool):
    """The pool of second.py that may have a store; the calls of a script.

    It keeps how many pages the store has, 0 for none, but not the store.
    """

    def __init__(self, slots, clients, cap, hand, store):
        pages, rest = divmod(len(store), PAGE)
        if not (1 <= slots <= MOST_SLOTS and 1 <= clients <= MOST_CLIENTS
                and 1 <= cap <= MOST_COUNT
                and rest == 0 and pages <= MOST_PAGES):
            raise Refused(8)
        super().__init__(slots, clients, cap, hand)
        self.cache = ByteCache(slots, self.clients, cap, hand)
        self.pages = pages

    def begin(self, number, page):
        """As in second.py, with 16 after its 10 and 12 and before its 18."""
        client = self.client(number)
        may = client.request is None and len(client.grants) < MOST_GRANTS
        if may and self.pages > 0 and page >= self.pages:
            raise Refused(16)
        return super().begin(number, page)

    def step(self, number, tally, store):
        """As in second.py, and the tally is brought up to date."""
        self.check(store)
        table = self.cache.HASHTBL
        table.store, table.tally = store, tally
        stage = self.client(number).stage
        try:
            answer = super().step(number)
        except Refused as refused:
            tally.count(stage, (REFUSAL + refused.number, 0))
            raise
        tally.count(stage, answer)
        return answer

    def read(self, number, page, offset, store):
        """The byte at the offset of a page the resting client holds."""
        frame = self.filledFrame(number, page, offset, store)
        return DONE, frame.bytes[offset]

    def write(self, number, page, offset, byte, store):
        """Put a byte at the offset of a page the resting client holds."""
        frame = self.filledFrame(number, page, offset, store)
        frame.bytes[offset] = byte
        frame.changed = True
        return DONE, page

    def filledFrame(self, number, page, offset, store):
        """The frame a read or write is about, filled; all their refusals."""
        self.check(store)
        client = self.client(number)
        if client.request is not None:
            raise Refused(10)
        frame = client.held(page)
        if frame is None:
            raise Refused(13)
        if page >= self.pages:
            raise Refused(16)
        if offset >= PAGE:
            raise Refused(17)
        if not frame.filled:
            frame.bytes[:] = store[place(page)]
            frame.filled = True
        return frame

    def check(self, store):
        if len(store) != PAGE * self.pages:
            raise Refused(8)


# The script and the report.


class Unreadable(Exception):
    """A line of a script that cannot be read."""


NUMBERS = {  # the largest value of each number after the word
    "setup": (BYTE, BYTE, BYTE, WORD, SPACE),
    "lend": (SPACE,),
    "tally": (WORD,),
    "begin": (BYTE, WORD),
    "step": (BYTE,),
    "release": (BYTE, WORD),
    "read": (BYTE, WORD, WORD),
    "write": (BYTE, WORD, WORD, BYTE),
    "dump": (),
}


def readLine(text, first):
    """The word of a line and its numbers, as one list."""
    name, *numbers = text.split() or [""]
    if name not in NUMBERS:
        raise Unreadable("no such call")
    if (name == "setup") != first:
        raise Unreadable("the first line, and only that, is a setup")
    if len(numbers) != len(NUMBERS[name]):
        raise Unreadable("%s takes %d numbers" % (name, len(NUMBERS[name])))
    for number, largest in zip(numbers, NUMBERS[name]):
        if not (number.isascii() and number.isdigit()
                and len(number) <= 10 and int(number) <= largest):
            raise Unreadable("not a number from 0 to %d: %s"
                             % (largest, number))
    return [name, *map(int, numbers)]


def readScript(script):
    """All calls of a script."""
    calls = []
    for number, text in enumerate(script.splitlines() or [""], 1):
        try:
            calls.append(readLine(text, number == 1))
        except Unreadable as fault:
            raise Unreadable("line %d, %r: %s" % (number, text, fault))
    return calls


def listed(pool, number, room):
    """A holdings call on so many of eight rows: its value and its line."""
    rows = room * [None]
    try:
        code, value = DONE, pool.holdings(number, rows)
    except Refused as refused:
        code, value = REFUSAL + refused.number, 0
    rows += (MOST_GRANTS - room) * [None]
    return value, "holds %d %d %d %d %s" % (
        number, room, code, value,
        " ".join("%dx%d" % row if row else "." for row in rows))


class Player:
    """The space, what of it is lent, and the pool once it is set up."""

    def __init__(self):
        self.space = bytearray((i * 7 + i // 64 * 13 + 5) % 256
                               for i in range(SPACE))
        self.length = 0  # of the store at setup
        self.lent = 0  # of the store lent now
        self.lendTally(0)
        self.pool = None

    def lendTally(self, start):
        self.tally = Tally(start)

    def call(self, name, *numbers):
        """Make one call; code and value of its line."""
        store = memoryview(self.space)[:self.lent]
        try:
            if name == "setup":
                return self.setup(*numbers)
            if name in ("begin", "release"):
                return getattr(self.pool, name)(*numbers)
            if name == "step":
                return self.pool.step(*numbers, self.tally, store)
            return getattr(self.pool, name)(*numbers, store)
        except Refused as refused:
            return REFUSAL + refused.number, 0

    def setup(self, slots, clients, cap, hand, length):
        self.length = self.lent = length
        store = memoryview(self.space)[:length]
        self.pool = StorePool(slots, clients, cap, hand, store)
        return DONE, slots

    def lines(self, name, *numbers):
        """Play one line of a script; the report's lines for it."""
        if name == "lend":
            self.lent, = numbers
            return []
        if name == "tally":
            self.lendTally(*numbers)
            return []
        if name == "dump":
            return self.dump()
        return ["%d %d" % self.call(name, *numbers)]

    def dump(self):
        return ["%d %d %d %s" % (frame.number, frame.filled, frame.changed,
                                 frame.bytes.hex())
                for frame in self.pool.cache.frames] + [
            "- " + self.space[at:at + PAGE].hex()
            for at in range(0, max(self.length, PAGE), PAGE)] + [
            self.tally.line()] + self.holdings()

    def holdings(self):
        """The lines of all clients, and of one that is not there."""
        lines = []
        for number in range(len(self.pool.clients) + 1):
            needed, line = listed(self.pool, number, MOST_GRANTS)
            lines.append(line)
            lines.append(listed(self.pool, number, needed)[1])
            if needed > 0:
                lines.append(listed(self.pool, number, needed - 1)[1])
        return lines


def play(script):
    """The report of a script."""
    player = Player()
    report = []
    for call in readScript(script):
        report += player.lines(*call)
        if player.pool is None:  # the setup was refused
            break
    return "".join(line + "\n" for line in report)


# Examples. Their reports were worked out by hand from the text.


def row(first, **others):
    """64 bytes in hex, each 7 above the last; b5=9 makes byte 5 a 9.

    Pages 0, 1 and 2 of the space start with the bytes 5, 210 and 159.
    """
    row = [(first + 7 * i) % 256 for i in range(64)]
    for name, byte in others.items():
        row[int(name[1:])] = byte
    return bytes(row).hex()


ZERO = 64 * "00"


def zeros(count):
    """The lines of so many frames that nobody used yet."""
    return "\n".join("%d 0 0 %s" % (number, ZERO) for number in range(count))


def books(tally, *clients):
    """The end of a dump: the counts, and the rows of each client."""
    lines, untouched = ["", "tally " + tally], 8 * ["."]
    for number, rows in enumerate(clients):
        shown = " ".join((rows + untouched)[:8])
        for room in (8, len(rows)):
            lines.append("holds %d %d 0 %d %s"
                         % (number, room, len(rows), shown))
        if rows:
            lines.append("holds %d %d 114 0 %s"
                         % (number, len(rows) - 1, " ".join(untouched)))
    for room in (8, 0):
        lines.append("holds %d %d 109 0 %s"
                     % (len(clients), room, " ".join(untouched)))
    return "\n".join(lines)


def example(about, *pairs):
    """What it shows, the script and the report.

    A pair is a line of the script and what it adds to the report. A list of
    stages stands for as many such lines, steps answered by these stages.
    """
    script, report = [], []
    for call, answer in pairs:
        if isinstance(answer, list):
            script += [call] * len(answer)
            report += ["%d %d" % (WORKING, stage) for stage in answer]
        else:
            script.append(call)
            report += answer.split("\n") if answer else []
    return about, "\n".join(script) + "\n", "\n".join(report) + "\n"


def to17(visits, held=0):
    """The stages of a miss up to 17, where so many visits lower a count.

    The last of them evicts. Before each, so many held frames are met.
    """
    visit = held * [11, 12] + [11, 12, 13]
    return [4, 5, 10] + visits * visit + [14, 15, 16, 17]


TO_EMPTY_SLOT = [4, 5, 6, 7, 8, 9, 18]

ADMITTED = books("0 0 1 0 0 0", ["0x1"])  # page 0, to the one client


def sevenPages():
    """Pages 6 down to 0, granted to client 0 in empty slots."""
    for frame, page in enumerate(reversed(range(7))):
        yield "begin 0 %d" % page, "0 %d" % page
        yield "step 0", TO_EMPTY_SLOT
        yield "step 0", "2 %d" % frame


def lasts(page, cap, visits):
    """The page alone in a pool with that cap, evicted by so many visits."""
    return example("Page %d with cap %d is evicted by visit %d."
                   % (page, cap, visits),
                   ("setup 1 1 %d 0 0" % cap, "0 1"),
                   ("begin 0 %d" % page, "0 %d" % page),
                   ("step 0", TO_EMPTY_SLOT),
                   ("step 0", "2 0"),
                   ("release 0 %d" % page, "0 %d" % page),
                   ("begin 0 9", "0 9"),
                   ("step 0", to17(visits) + [18]),
                   ("step 0", "2 1"))


EXAMPLES = [
    example("A read fills, a write marks; refusals 10, 17, 13, 16 and 9.",
            ("setup 1 1 3 0 64", "0 1"),
            ("begin 0 0", "0 0"),
            ("step 0", TO_EMPTY_SLOT),
            ("read 0 0 1", "110 0"),
            ("step 0", "2 0"),
            ("dump", zeros(3) + "\n- " + row(5) + ADMITTED),
            ("read 0 0 1", "0 12"),
            ("dump", "0 1 0 " + row(5) + "\n1 0 0 " + ZERO
             + "\n2 0 0 " + ZERO + "\n- " + row(5) + ADMITTED),
            ("write 0 0 1 200", "0 0"),
            ("read 0 0 1", "0 200"),
            ("read 0 0 64", "117 0"),
            ("write 0 1 64 3", "113 0"),
            ("begin 0 1", "116 0"),
            ("read 1 1 64", "109 0"),
            ("dump", "0 1 1 " + row(5, b1=200) + "\n1 0 0 " + ZERO
             + "\n2 0 0 " + ZERO + "\n- " + row(5) + ADMITTED)),
    example("A changed page goes to the store at 17, not before, and is read "
            "back; stage 4 takes its old frame and turns the marks off.",
            ("setup 1 1 3 0 128", "0 1"),
            ("begin 0 1", "0 1"),
            ("step 0", TO_EMPTY_SLOT),
            ("step 0", "2 0"),
            ("write 0 1 63 9", "0 1"),
            ("release 0 1", "0 1"),
            ("begin 0 0", "0 0"),
            ("step 0", to17(3)),  # page 1 has count 3
            ("dump", "0 1 1 " + row(210, b63=9) + "\n1 0 0 " + ZERO
             + "\n2 0 0 " + ZERO + "\n- " + row(5) + "\n- " + row(210)
             + books("0 0 1 0 0 0", [])),
            ("step 0", "1 18"),
            ("dump", "0 1 1 " + row(210, b63=9) + "\n1 0 0 " + ZERO
             + "\n2 0 0 " + ZERO + "\n- " + row(5)
             + "\n- " + row(210, b63=9) + books("0 0 1 0 1 0", [])),
            ("step 0", "2 1"),
            ("release 0 0", "0 0"),
            ("begin 0 1", "0 1"),
            ("step 0", to17(3) + [18]),  # and so has page 0
            ("step 0", "2 2"),
            ("read 0 1 63", "0 9"),
            ("release 0 1", "0 1"),
            ("begin 0 0", "0 0"),
            ("step 0", [4, 5]),
            ("dump", "0 0 0 " + row(210, b63=9) + "\n1 0 0 " + ZERO
             + "\n2 1 0 " + row(210, b63=9) + "\n- " + row(5)
             + "\n- " + row(210, b63=9) + books("0 0 3 0 2 0", []))),
    example("At 22 the new frame gets bytes and marks; the 17 that comes too "
            "late writes nothing and is no drop.",
            ("setup 2 2 3 0 192", "0 2"),
            ("begin 0 0", "0 0"),
            ("step 0", TO_EMPTY_SLOT),
            ("step 0", "2 0"),
            ("write 0 0 0 77", "0 0"),
            ("release 0 0", "0 0"),
            ("begin 0 1", "0 1"),
            ("step 0", TO_EMPTY_SLOT),
            ("step 0", "2 1"),
            ("release 0 1", "0 1"),
            ("begin 0 2", "0 2"),
            ("step 0", to17(5)),  # page 0 from 3 to 0, page 1 from 3 to 1
            ("begin 1 0", "0 0"),
            ("step 1", [2] + to17(1) + [18, 19, 22]),
            ("step 1", "2 3"),
            ("read 1 0 0", "0 77"),
            ("step 0", "1 18"),
            ("step 0", "2 2"),
            ("dump", "0 0 0 " + row(5, b0=77) + "\n1 0 0 " + ZERO
             + "\n2 0 0 " + ZERO + "\n3 1 1 " + row(5, b0=77)
             + "\n4 0 0 " + ZERO + "\n5 0 0 " + ZERO
             + "\n- " + row(5) + "\n- " + row(210) + "\n- " + row(159)
             + books("0 0 3 1 1 0", ["2x1"], ["0x1"]))),
    example("Without a store any page may be begun, a held one can be neither "
            "read nor written, and only an empty store may be lent.",
            ("setup 1 1 3 0 0", "0 1"),
            ("begin 0 4294967295", "0 4294967295"),
            ("step 0", TO_EMPTY_SLOT),
            ("step 0", "2 0"),
            ("read 0 4294967295 64", "116 0"),
            ("write 0 4294967295 0 1", "116 0"),
            ("read 0 3 0", "113 0"),
            ("lend 64", ""),
            ("step 0", "108 0"),
            ("read 0 3 0", "108 0"),
            ("release 0 4294967295", "0 4294967295"),
            ("lend 0", ""),
            ("step 0", "111 0"),
            ("dump", zeros(3) + "\n- " + row(5)
             + books("0 0 1 0 0 0", []))),
    example("A store of another length is refused before all else, and the "
            "client stands where it stood.",
            ("setup 1 1 3 0 128", "0 1"),
            ("begin 0 0", "0 0"),
            ("lend 127", ""),
            ("step 0", "108 0"),
            ("read 7 0 0", "108 0"),
            ("write 0 0 0 1", "108 0"),
            ("lend 0", ""),
            ("step 7", "108 0"),
            ("begin 0 0", "110 0"),
            ("lend 128", ""),
            ("read 7 0 0", "109 0"),
            ("write 0 0 0 1", "110 0"),
            ("step 0", [4, 5])),
    example("An admission, a join, a hit and a refusal by 15 are counted, one "
            "by 18 is not, and rows rise; a drop is counted at 17 and not at "
            "14, nor at a 17 refused by 8 or one that meets a frame given up.",
            ("setup 2 2 3 0 0", "0 2"),
            ("begin 0 9", "0 9"),
            ("begin 1 9", "0 9"),
            ("step 0", TO_EMPTY_SLOT),
            ("step 1", TO_EMPTY_SLOT),
            ("step 0", "2 0"),
            ("step 1", [19, 20, 21]),
            ("step 1", "2 0"),
            ("begin 0 9", "118 0"),
            ("release 0 9", "0 9"),
            ("begin 0 9", "0 9"),
            ("step 0", [2, 3]),
            ("step 0", "2 0"),
            ("begin 1 5", "0 5"),
            ("step 1", [4, 5, 10, 11, 12, 11, 12, 15, 16, 17, 18]),
            ("step 1", "2 2"),
            ("begin 0 7", "0 7"),
            ("step 0", [4, 5, 10, 11, 12, 11, 12]),
            ("step 0", "115 0"),
            ("step 0", "111 0"),
            ("begin 0 9", "118 0"),
            ("dump", zeros(6) + "\n- " + row(5)
             + books("1 1 2 0 0 1", ["9x1"], ["5x1", "9x1"])),
            ("release 1 5", "0 5"),
            ("begin 1 7", "0 7"),
            ("step 1", [4, 5, 10, 11, 12, 11, 12, 13, 14]),
            ("lend 64", ""),
            ("step 1", "108 0"),
            ("dump", zeros(6) + "\n- " + row(5)
             + books("1 1 2 0 0 1", ["9x1"], ["9x1"])),
            ("lend 0", ""),
            ("step 1", [15]),
            ("dump", zeros(6) + "\n- " + row(5)
             + books("1 1 2 0 0 1", ["9x1"], ["9x1"])),
            ("step 1", [16, 17]),
            ("lend 64", ""),
            ("step 1", "108 0"),
            ("dump", zeros(6) + "\n- " + row(5)
             + books("1 1 2 0 0 1", ["9x1"], ["9x1"])),
            ("lend 0", ""),
            ("step 1", [18]),
            ("dump", zeros(6) + "\n- " + row(5)
             + books("1 1 2 0 1 1", ["9x1"], ["9x1"]))),
    example("A page evicted and revived before the 17 is no drop; it is one "
            "when it leaves later.",
            ("setup 2 2 3 0 0", "0 2"),
            ("begin 1 9", "0 9"),
            ("step 1", TO_EMPTY_SLOT),
            ("begin 0 9", "0 9"),
            ("step 0", TO_EMPTY_SLOT),
            ("step 0", "2 1"),
            ("release 0 9", "0 9"),
            ("begin 0 5", "0 5"),
            ("step 0", [4, 5, 10, 11, 12, 11, 12, 13, 14, 15, 16, 17]),
            ("step 1", [19, 22]),
            ("step 1", "2 0"),
            ("step 0", [18]),
            ("dump", zeros(6) + "\n- " + row(5)
             + books("0 0 1 1 0 0", [], ["9x1"])),
            ("step 0", "2 2"),
            ("release 1 9", "0 9"),
            ("begin 1 7", "0 7"),
            ("step 1", to17(1) + [18]),
            ("step 1", "2 3"),
            ("dump", zeros(6) + "\n- " + row(5)
             + books("0 0 3 1 1 0", ["5x1"], ["7x1"]))),
    example("A page that one client evicts and another removes is one drop.",
            ("setup 1 2 3 0 0", "0 1"),
            ("begin 0 9", "0 9"),
            ("step 0", TO_EMPTY_SLOT),
            ("step 0", "2 0"),
            ("release 0 9", "0 9"),
            ("begin 0 5", "0 5"),
            ("step 0", [4, 5, 10, 11, 12, 13, 14, 15]),
            ("begin 1 7", "0 7"),
            ("step 1", [4, 5, 10, 11, 12, 15, 16, 17]),
            ("dump", zeros(5) + "\n- " + row(5)
             + books("0 0 1 0 0 0", [], [])),
            ("step 1", [18]),
            ("step 1", "2 2"),
            ("step 0", [11, 12]),
            ("step 0", "115 0"),
            ("dump", zeros(5) + "\n- " + row(5)
             + books("0 0 2 0 1 1", [], ["7x1"]))),
    example("A count stays at its largest value.",
            ("setup 1 1 1 0 0", "0 1"),
            ("tally 4294967294", ""),
            ("begin 0 9", "0 9"),
            ("step 0", TO_EMPTY_SLOT),
            ("step 0", "2 0"),
            ("release 0 9", "0 9"),
            ("begin 0 9", "0 9"),
            ("step 0", [2, 3]),
            ("step 0", "2 0"),
            ("release 0 9", "0 9"),
            ("begin 0 9", "0 9"),
            ("step 0", [2, 3]),
            ("step 0", "2 0"),
            ("dump", zeros(3) + "\n- " + row(5)
             + books("4294967295 4294967294 4294967295 4294967294 4294967294 "
                     "4294967294", ["9x1"])),
            ("release 0 9", "0 9"),
            ("begin 0 5", "0 5"),
            ("step 0", to17(1) + [18]),
            ("step 0", "2 1"),
            ("release 0 5", "0 5"),
            ("begin 0 7", "0 7"),
            ("step 0", to17(1) + [18]),
            ("step 0", "2 2"),
            ("dump", zeros(3) + "\n- " + row(5)
             + books("4294967295 4294967294 4294967295 4294967294 4294967295 "
                     "4294967294", ["7x1"]))),
    example("A client cannot begin a page it holds, by 18, after 9, 10 and "
            "12; another can, and so can the client after its release.",
            ("setup 8 2 3 0 512", "0 8"),
            *sevenPages(),
            ("begin 0 2", "118 0"),
            ("step 0", "111 0"),
            ("begin 0 8", "116 0"),
            ("begin 0 7", "0 7"),
            ("begin 0 2", "110 0"),
            ("step 0", TO_EMPTY_SLOT),
            ("begin 0 7", "110 0"),
            ("step 0", "2 7"),
            ("begin 0 2", "112 0"),
            ("begin 0 8", "112 0"),
            ("begin 2 2", "109 0"),
            ("begin 1 2", "0 2"),
            ("step 1", [2, 3]),
            ("step 1", "2 4"),
            ("begin 1 2", "118 0"),
            ("release 0 2", "0 2"),
            ("release 0 2", "113 0"),
            ("begin 0 3", "118 0"),
            ("begin 0 2", "0 2"),
            ("step 0", [2, 3]),
            ("step 0", "2 4"),
            ("release 1 2", "0 2"),
            ("dump", zeros(12) + "".join("\n- " + row(first) for first in
                                         (5, 210, 159, 108, 57, 6, 211, 160))
             + books("2 0 8 0 0 0", ["%dx1" % page for page in range(8)],
                     [])),
            ("read 0 2 0", "0 159")),
    lasts(3, 1, 1),
    lasts(3, 2, 2),
    lasts(3, 3, 3),
    lasts(3, 100, 3),
    lasts(4, 100, 1),
    lasts(0, 100, 3),
    example("A sweep that meets an index page first evicts the other page, "
            "and the index page is still there.",
            ("setup 2 1 3 0 0", "0 2"),
            ("begin 0 3", "0 3"),
            ("step 0", TO_EMPTY_SLOT),
            ("step 0", "2 0"),
            ("release 0 3", "0 3"),
            ("begin 0 4", "0 4"),
            ("step 0", TO_EMPTY_SLOT),
            ("step 0", "2 1"),
            ("release 0 4", "0 4"),
            ("begin 0 9", "0 9"),
            ("step 0", to17(2) + [18]),  # page 3 from 3 to 2, page 4 to 0
            ("step 0", "2 2"),
            ("begin 0 3", "0 3"),
            ("step 0", [2, 3]),
            ("step 0", "2 0"),
            ("begin 0 4", "0 4"),
            ("step 0", [4])),
    example("From 23 back at 4, an index page gets its count again.",
            ("setup 2 2 3 0 0", "0 2"),
            ("begin 1 3", "0 3"),
            ("step 1", TO_EMPTY_SLOT),
            ("begin 0 3", "0 3"),
            ("step 0", TO_EMPTY_SLOT),
            ("step 0", "2 1"),
            ("release 0 3", "0 3"),
            ("begin 0 9", "0 9"),
            ("step 0", to17(3, held=1)),
            ("step 1", [19, 22]),
            ("step 0", [18]),
            ("step 1", [23, 4, 5]),
            ("step 0", "2 2"),
            ("step 1", [10, 11, 12, 15, 16, 17, 18]),
            ("step 1", "2 3"),
            ("release 1 3", "0 3"),
            ("begin 1 5", "0 5"),
            ("step 1", to17(3, held=1) + [18]),
            ("step 1", "2 4")),
    example("A setup with a store of 257 pages is refused; nothing follows.",
            ("setup 1 1 3 0 16448", "108 0"),
            ("begin 0 0", ""),
            ("dump", "")),
]


def checkExamples():
    """Tell of each example whose report is another; the exit status."""
    wrong = [about for about, script, report in EXAMPLES
             if play(script) != report]
    for about in wrong:
        print("another report: " + about)
    print("%d of %d examples as expected"
          % (len(EXAMPLES) - len(wrong), len(EXAMPLES)))
    return 1 if wrong else 0


def main(arguments):
    """Do what the command line says; the exit status."""
    if arguments == ["--check"]:
        return checkExamples()
    if arguments:
        print("usage: python3 second_store.py [--check] < script > report",
              file=sys.stderr)
        return 2
    try:
        script = sys.stdin.buffer.read().decode("ascii")
        sys.stdout.write(play(script))
    except (Unreadable, UnicodeDecodeError) as fault:
        print("second_store.py: %s" % fault, file=sys.stderr)
        return 2
    return 0


if __name__ == "__main__":
    sys.exit(main(sys.argv[1:]))
