"""Byte scripts for comparing the two programs.

usage: python3 generate_bytes.py SEED > script
       python3 generate_bytes.py --cover FIRST END

The first form prints the script of a seed. The second makes the scripts of
the seeds from FIRST up to but not with END, plays them with second_store.py
and prints how often each of PATHS was taken. Its exit status is 1 if one
never was, or if one of FAULTS was met: a read gave another byte than the last
one written there (than the store's at setup, if none was), or the tally of a
whole run did not add up to the pages in the table.

What kind of script a seed gives goes by a fixed rotation (ROTATION); all
else is drawn from the seed.
"""

import sys

sys.dont_write_bytecode = True  # leave no compiled files beside the sources

from generate import (CAPS, INDEX, LARGEST, SORTS, Dice,  # noqa: E402
                      Sorts)
from second_store import (MOST_GRANTS, NUMBERS, PAGE, SPACE,  # noqa: E402
                          Player, Tally, place, readScript)

MOST_LINES = 400
BAD_LENGTHS = (63, 65, 1, 16448, 100)  # at setup
BAD_SETUPS = 2 * tuple((5, length) for length in BAD_LENGTHS) + (
    (1, 0), (1, 65), (2, 0), (2, 17), (3, 0), (3, 101))  # which number, what
OUTER_OFFSETS = (64, 65, 128, 255)
LENT = ("step", "read", "write")  # the calls that are lent the store


class Script:
    """A script in the making, and a player that plays it at once."""

    def __init__(self, dice, slots=None, clients=None, pages=None):
        self.dice = dice
        self.lines, self.dumps = [], 0
        self.first = 0  # the first client that random calls are made by
        self.slots = slots or dice.between(1, 4)
        if pages is None:
            pages = dice.pick((1, 2, 4, 5, 6, 8, 256, dice.between(3, 255)))
        self.length = PAGE * pages
        self.player = Player()
        self.do("setup", self.slots, clients or dice.between(2, 4),
                dice.pick(CAPS),
                dice.pick((0, dice.below(9), LARGEST - dice.below(6))),
                self.length)
        if dice.chance(1, 5):
            self.do("tally", LARGEST - dice.below(2))
        self.clients = self.player.pool.clients
        few = min(self.slots, 8) + dice.between(2, 3)
        last = max(pages - few, 0)
        if dice.chance(1, 2):  # so that there are index pages
            last = min(last, INDEX[-1])
        first = dice.below(last + 1)
        self.pages = list(range(first, first + min(few, pages or few)))
        if pages == 0 and dice.chance(1, 2):
            self.pages[0] = LARGEST
        self.outside = [pages, pages + 1, LARGEST]
        self.offsets = (dice.pick((0, 63)), dice.below(PAGE))

    def room(self):
        return len(self.lines) < MOST_LINES - 1  # the last is a dump

    def do(self, *call):
        """Append a line and play it; nothing happens in a full script."""
        if self.room():
            self.lines.append(" ".join(map(str, call)))
            self.player.lines(*call)

    def look(self):
        """A dump, if there were not three of these yet."""
        if self.dumps < 3:
            self.dumps += 1
            self.do("dump")

    def wrong(self, *call, length=None):
        """A call lent a wrong store, looked at, and made again rightly."""
        if len(self.lines) > MOST_LINES - 8:
            return
        lengths = [0, 1, SPACE] + [self.length + more
                                   for more in (-64, -1, 1, 64)]
        lengths = [n for n in lengths if 0 <= n <= SPACE and n != self.length]
        self.do("lend", self.dice.pick(lengths) if length is None else length)
        self.do(*call)
        self.do("dump")
        if self.dice.chance(1, 3):  # these are not lent it
            self.do(self.dice.pick(("begin", "release")), self.anyone(),
                    self.dice.pick(self.pages))
        self.do("lend", self.length)
        self.do(*call)

    def anyone(self):
        return self.dice.between(self.first, len(self.clients) - 1)

    def works(self, client):
        return self.clients[client].request is not None

    def held(self, client):
        return [page for page, _ in self.clients[client].grants]

    def until(self, client, stage):
        """Step a working client till it stands at the stage, or rests."""
        while (self.works(client) and self.clients[client].stage != stage
               and self.room()):
            self.do("step", client)

    def fix(self, client, page):
        self.do("begin", client, page)
        self.until(client, None)

    def use(self, name, client, page, offset=None):
        """A read or a write, mostly at one of two offsets."""
        if offset is None:
            offset = self.dice.pick(self.offsets + self.offsets
                                    + (self.dice.below(PAGE),))
        byte = [self.dice.below(256)] if name == "write" else []
        self.do(name, client, page, offset, *byte)

    def fill(self, *uses):
        """Client 0 fills all slots, uses the pages and releases them."""
        for page in self.pages[:self.slots]:
            self.fix(0, page)
            for name in uses:
                self.use(name, 0, page)
            self.do("release", 0, page)

    def missing(self):
        """A page that is not in the table."""
        table = self.player.pool.cache.HASHTBL
        return next(page for page in self.pages if page not in table)

    def churn(self, client, page=None):
        """Ask for pages that are not in the table, as many as there are
        frames, or only until the given page is not in it either."""
        cache = self.player.pool.cache
        for _ in cache.frames:
            if page is None or page in cache.HASHTBL:
                other = self.missing()
                self.fix(client, other)
                self.do("release", client, other)

    def play_on(self):
        """A random end of up to 150 calls, but 30 lines in all at least."""
        calls = self.dice.between(0, 150)
        while self.room() and (calls > 0 or len(self.lines) < 30):
            calls -= 1
            random_call(self.dice, self)
            if self.dice.chance(1, 60):
                self.look()
        self.lines.append("dump")
        return "\n".join(self.lines) + "\n"


def random_call(dice, script):
    """Mostly a sensible call or some; now and then any call at all."""
    client = script.anyone()
    held = script.held(client)
    if dice.chance(1, 20):
        name = dice.pick(("begin", "step", "release", "read", "write"))
        call = (name, dice.pick((client, client, len(script.clients), 255)),
                dice.pick(script.pages + held + script.outside),
                dice.pick(script.offsets + OUTER_OFFSETS),
                dice.below(256))[:1 + len(NUMBERS[name])]
        if name in LENT and dice.chance(1, 3):
            script.wrong(*call)
        else:
            script.do(*call)
    elif script.works(client):
        for _ in range(dice.pick((1, 2, 5, 12))):
            if script.works(client):
                script.do("step", client)
    elif not held or len(held) < MOST_GRANTS and dice.chance(1, 6):
        script.do("begin", client, dice.pick(script.pages))  # held or not
    elif dice.chance(1, 2):
        script.do("release", client, dice.pick(held))
    else:
        script.use(dice.pick(("read", "write")), client, dice.pick(held))


# The kinds of script.


def mixed(dice, slots=None, clients=None, pages=None):
    """Random calls alone."""
    script = Script(dice, slots, clients or dice.between(1, 4), pages)
    for _ in range(dice.between(0, 200)):
        random_call(dice, script)
    return script


def written_back(dice):
    """A written page is driven out, and another client reads it back."""
    script = Script(dice, pages=dice.pick((7, 8, 256)))
    script.fill("write")
    script.do("begin", 0, script.missing())
    script.until(0, 17)
    page = script.clients[0].removed.key
    if dice.chance(1, 2):
        script.wrong("step", 0)
    script.until(0, None)
    script.look()
    script.do("release", 0, script.held(0)[0])
    script.fix(1, page)
    for offset in script.offsets:
        script.do("read", 1, page, offset)
    return script


def revived(dice, *uses):
    """Client 0 has evicted a page and stops before its 17; client 1 is to
    get it anew at 22. Then it is read, perhaps written, and driven out.

    Without uses the pages stand in frames that still have old bytes.
    """
    script = Script(dice, slots=dice.between(2, 4), pages=dice.pick((7, 256)),
                    clients=None if uses else 2)
    script.fill(*uses or ["write"])
    if not uses:
        script.churn(0)
    script.do("begin", 0, script.missing())
    script.until(0, 15)
    page = script.clients[0].e.key
    script.until(0, dice.pick((15, 16, 16, 17, 17, 17)))
    script.do("begin", 1, page)
    script.until(1, 22)
    script.look()
    if script.works(1) and dice.chance(1, 4):
        script.wrong("step", 1)
    elif dice.chance(1, 4):
        script.until(0, 18)  # the 17 comes first after all
    script.until(1, None)
    script.look()
    for offset in script.offsets:
        script.use("read", 1, page, offset)
    if dice.chance(1, 3):
        script.use("write", 1, page)
    script.do("release", 1, page)
    if dice.chance(1, 2):
        script.until(0, None)  # else it stands there a while longer
    script.churn(1, page)
    script.until(0, None)
    script.fix(1, page)
    script.use("read", 1, page, script.offsets[0])
    return script


def stalled(dice):
    """Client 0 has evicted a written page and stands before its 17 for long
    while the others go on as they like."""
    script = Script(dice, dice.between(2, 3), dice.between(3, 4), 6)
    script.fill("write")
    script.do("begin", 0, script.missing())
    script.until(0, dice.pick((15, 16, 17, 17)))
    script.first = 1
    for _ in range(dice.between(50, 120)):
        random_call(dice, script)
    script.look()
    script.first = 0
    script.until(0, None)
    return script


def shared(dice):
    """One client writes a page, another reads it."""
    script = Script(dice, pages=dice.pick((1, 6, 256)))
    page = script.pages[-1]
    script.fix(0, page)
    script.use("write", 0, page, 63)
    if dice.chance(1, 2):
        script.do("release", 0, page)
    script.fix(1, page)
    script.use("read", 1, page, 63)
    return script


def refusals(dice, pages):
    """Reads, writes and begins with no fault, one or several.

    Client 0 rests and holds a page, client 1 works and holds it too.
    """
    script = Script(dice, pages=pages)
    page, other = script.pages[:2]
    for client in (0, 1):
        script.fix(client, page)
    script.do("begin", 1, other)
    outside = dice.pick(script.outside)
    for client in (0, 1, len(script.clients), 255):
        for at in (page, other, outside):
            for offset in (63, dice.pick(OUTER_OFFSETS)):
                script.use("read", client, at, offset)
                script.use("write", client, at, offset)
        for at in (page, outside):
            script.do("begin", client, at)
    return script


def wrong_stores(dice, pages):
    """Steps, reads and writes that are lent a store of another length."""
    script = Script(dice, dice.between(1, 2), 2, pages)
    page, length = script.pages[0], script.length
    script.fix(0, page)
    script.do("begin", 1, page)
    lengths = (0, dice.pick((1, length - 1)), length + dice.pick((1, 64)))
    for wrong in lengths if pages else (1, 64, SPACE):
        script.wrong("step", 1, length=wrong)
        script.wrong("read", 0, page, 63, length=wrong)
        script.wrong("write", 0, page, 63, dice.below(256), length=wrong)
        script.wrong("read", dice.pick((1, 2)), page, 64, length=wrong)
    return script


def bad_setup(dice):
    """A setup that is refused, before a script that is not played then."""
    script = mixed(dice)
    words = script.lines[0].split()
    at, bad = dice.pick(BAD_SETUPS)
    words[at] = str(bad)
    script.lines[0] = " ".join(words)
    return script


def pool_full(dice):
    """All slots are held, some changed, and a client is refused by 15."""
    script = Script(dice, pages=8)
    for page in script.pages[:script.slots]:
        script.fix(0, page)
        script.use("write", 0, page)
    script.fix(1, script.missing())
    script.look()
    return script


def eight_grants(dice):
    """The ninth begin is 12, also for a page that is held or outside; with 7
    grants it is 18 for the one and 16 for the other.

    The pages are not granted by rising number.
    """
    script = Script(dice, slots=MOST_GRANTS, pages=dice.pick((10, 256)))
    at = dice.between(1, MOST_GRANTS - 1)
    pages = script.pages[at:MOST_GRANTS] + script.pages[:at]
    for page in pages:
        script.fix(0, page)
    for page in (dice.pick(pages), script.outside[0]):
        script.do("begin", 0, page)
    script.look()
    script.do("release", 0, dice.pick(pages))
    for page in (dice.pick(script.held(0)), script.outside[0]):
        script.do("begin", 0, page)
    return script


ROTATION = (
    (mixed,), (written_back,), (revived, "write"), (refusals, 6),
    (revived, "read"), (wrong_stores, 3), (shared,), (bad_setup,),
    (revived, "read", "write"), (pool_full,), (mixed, None, None, 0),
    (stalled,), (refusals, 0), (revived,), (wrong_stores, 0),
    (eight_grants,), (bad_setup,), (mixed, 2, 4, 4), (stalled,),
    (mixed, 64, 16, 256), (wrong_stores, 256), (bad_setup,),
    (mixed, 1, 3, 1), (stalled,), (wrong_stores, 1),
)


def script(seed):
    """The script of a seed."""
    kind, *details = ROTATION[seed % len(ROTATION)]
    return kind(Dice(seed), *details).play_on()


# What scripts take, for --cover.

WRONG_BYTE = "a read gave another byte"
WRONG_SUM = "the tally does not add up"
FAULTS = (WRONG_BYTE, WRONG_SUM)
COUNTS = tuple(vars(Tally(0)))
UNCOUNTED = {  # by stage and the stage answered: what counts nothing
    (14, 15): "14 evicts, no drop",
    (14, 11): "14 finds it pinned, no drop",
    (17, 18): "17 removes nothing, no drop",
    (18, 19): "18 finds a frame, nothing admitted",
}
PATHS = (
    "read fills", "read finds it filled",
    "write fills", "write finds it filled",
    "read of another client's byte", "read of a byte that moved at 22",
    "read of a byte written back to the store",
    "4 takes an unfilled frame", "4 takes a filled frame",
    "4 takes a changed frame",
    "17 removes an unfilled page", "17 removes a filled page",
    "17 removes a changed page", "17 finds another frame or none",
    "17 changes the store", "17 changes the store after a move at 22",
    "22 moves an unfilled page", "22 moves a filled page",
    "22 moves a changed page", "22 moves old bytes without a mark",
    "22 finds another frame or none",
    "15 while a frame is changed",
    *("%d at begin" % number for number in (9, 10, 12, 16, 18)),
    *("%d before 16 at begin" % number for number in (9, 10, 12)),
    # A client that is not there holds nothing, and where there is a store no
    # page outside it is held: 9 and 16 are never met together with 18.
    *("%d before 18 at begin" % number for number in (10, 12)),
    *("%d at %s" % (number, name) for name in ("read", "write")
      for number in (9, 10, 13, 16, 17)),
    *("%d before %d at %s" % (*pair, name) for name in ("read", "write")
      for pair in ((9, 16), (9, 17), (10, 13), (10, 16), (10, 17), (13, 16),
                   (13, 17), (16, 17))),
    *("8 at %s, %s" % (name, how) for name in LENT
      for how in ("shorter", "longer", "empty", "no store at setup")),
    "8 at 17 with a changed page", "8 at 22 with a changed page",
    *("%s again after 8" % name for name in LENT),
    *("8 before %d" % number for number in (9, 10, 11, 13, 16, 17)),
    *("%s while a wrong store is lent" % name
      for name in ("begin", "release")),
    *("8 at setup, length %d" % length for length in BAD_LENGTHS),
    "8 at setup, S, T or C",
    *("setup, length %d" % length for length in (0, 64, 16384)),
    "setup, S 64 and T 16",
    *("one more: %s" % name for name in COUNTS),
    *("at the largest count: %s" % name for name in COUNTS),
    *UNCOUNTED.values(),
    *("%d at step" % number for number in (9, 11)),
    *("a list of %s" % rows for rows in ("no row", "one row", "2 to 7 rows",
                                         "8 rows")),
    "a list in another order than granted", "a list of a client that works",
    *SORTS,
)


def marks(frame):
    """The frame's marks in words."""
    return ("a changed" if frame.changed else
            "a filled" if frame.filled else "an unfilled")


def faults(pool, client, name, page, offset=0, byte=0):
    """All that is wrong with a begin, read or write, by refusal numbers."""
    found = {9: client is None, 10: client and client.request}
    if name == "begin":
        found[12] = client and len(client.grants) == MOST_GRANTS
        found[16] = pool.pages and page >= pool.pages
        found[18] = client and client.held(page)
    else:
        found[13] = client and not client.held(page)
        found[16] = page >= pool.pages
        found[17] = offset >= PAGE
    return [number for number, wrong in found.items() if wrong]


class WatchedTally(Tally):
    """A tally that tells what it counts."""

    def __init__(self, start, take):
        super().__init__(start)
        self.take = take

    def add(self, name):
        full = getattr(self, name) == LARGEST
        self.take("at the largest count: %s" if full else "one more: %s",
                  name)
        super().add(name)


class Watch(Player):
    """A player that gathers the paths its calls take."""

    def __init__(self):
        super().__init__()
        self.start = bytes(self.space)
        self.taken = []
        self.last = {}  # by page and offset: client and byte of a write
        self.moved, self.back = set(), set()  # pages moved, written back
        self.again = None  # the call last refused by 8

    def take(self, path, *parts):
        self.taken.append(path % parts)

    def lendTally(self, start):
        self.tally = WatchedTally(start, self.take)
        self.sums = start == 0  # then it is lent throughout

    def call(self, name, *numbers):
        watched = {"setup": self.watch_setup, "step": self.watch_step,
                   "release": self.make}.get(name, self.watch_use)
        return watched(name, *numbers)

    def watch_setup(self, name, slots, clients, cap, hand, length):
        code, value = super().call(name, slots, clients, cap, hand, length)
        if code == 0:
            self.sorts = Sorts(self.pool)
            self.take("setup, length %d", length)
            if (slots, clients) == (64, 16):
                self.take("setup, S 64 and T 16")
        elif length in BAD_LENGTHS:
            self.take("8 at setup, length %d", length)
        else:
            self.take("8 at setup, S, T or C")
        return code, value

    def make(self, *call):
        """Make a call and see to the paths about the lent store."""
        code, value = super().call(*call)
        if code == 108:
            self.take("8 at %s, %s", call[0],
                      "no store at setup" if self.length == 0 else
                      "empty" if self.lent == 0 else
                      "shorter" if self.lent < self.length else "longer")
            self.again = call
        elif call == self.again and code > 100:
            self.take("8 before %d", code - 100)
        elif call == self.again:
            self.take("%s again after 8", call[0])
        elif code == 0 and self.lent != self.length:
            self.take("%s while a wrong store is lent", call[0])
        if code != 108 and call[0] in LENT:
            self.again = None
        return code, value

    def client(self, number):
        return dict(enumerate(self.pool.clients)).get(number)

    def watch_step(self, name, number):
        client, cache = self.client(number), self.pool.cache
        if client is None:
            code, value = self.make(name, number)
            if code == 109:
                self.take("9 at step")
            return code, value
        stage, old = client.stage, client.removed or client.prevEntry
        page = old.key if old else 0
        mapped = old and cache.HASHTBL.get(page) is old
        stored = self.space[place(page)]
        before = [marks(frame) for frame in cache.frames]
        tally = self.tally.line()
        self.sorts.before(number)
        code, value = self.make(name, number)
        self.taken += self.sorts.after(code, value)
        self.watch_tally(stage, code, value, self.tally.line() == tally)
        if code == 108 and stage in (17, 22) and mapped and old.changed:
            self.take("8 at %d with a changed page", stage)
        elif code == 115 and "a changed" in before:
            self.take("15 while a frame is changed")
        elif code > 100:
            pass
        elif stage == 4:
            self.take("4 takes %s frame", before[client.newEntry.number])
        elif stage == 17 and mapped:
            self.take("17 removes %s page", before[old.number])
            if self.space[place(page)] != stored:
                self.take("17 changes the store")
                self.back.add(page)
                if page in self.moved:
                    self.take("17 changes the store after a move at 22")
            self.moved.discard(page)
        elif stage == 22 and mapped:
            self.take("22 moves %s page", before[old.number])
            if before[old.number] == "a changed":
                self.moved.add(page)
            elif before[old.number] == "an unfilled" and any(old.bytes):
                self.take("22 moves old bytes without a mark")
        elif stage in (17, 22):
            self.take("%d finds another frame or none", stage)
        return code, value

    def watch_tally(self, stage, code, value, same):
        """What was not counted, and the sum of what was."""
        tally, table = self.tally, self.pool.cache.HASHTBL
        if self.sums and tally.admitted - tally.drops != len(table):
            self.take(WRONG_SUM)
        if code == 111:
            self.take("11 at step")
        elif (self.sums and same and code == 1
              and (stage, value) in UNCOUNTED):
            self.take(UNCOUNTED[stage, value])

    def holdings(self):
        """The lists of a dump."""
        for client in self.pool.clients:
            pages = [page for page, _ in client.grants]
            self.take("a list of %s", {0: "no row", 1: "one row",
                                       8: "8 rows"}.get(len(pages),
                                                        "2 to 7 rows"))
            if pages != sorted(pages):
                self.take("a list in another order than granted")
            if pages and client.request:
                self.take("a list of a client that works")
        return super().holdings()

    def watch_use(self, name, number, page, *rest):
        """A begin, a read or a write."""
        client = self.client(number)
        found = faults(self.pool, client, name, page, *rest)
        frame = None if found else client.held(page)
        filled = frame and frame.filled
        code, value = self.make(name, number, page, *rest)
        if code > 108:
            self.take("%d at %s", code - 100, name)
            for later in found[1:]:
                self.take("%d before %d at %s", code - 100, later, name)
        elif code == 0 and name != "begin":
            self.take("%s finds it filled" if filled else "%s fills", name)
            if name == "write":
                self.last[page, rest[0]] = number, rest[1]
            else:
                self.watch_byte(number, (page, rest[0]), value, filled)
        return code, value

    def watch_byte(self, number, at, value, filled):
        """What a read gave and where that came from."""
        page, offset = at
        writer, byte = self.last.get(at, (None,
                                          self.start[PAGE * page + offset]))
        if value != byte:
            self.take(WRONG_BYTE)
        if writer is None:
            return
        if number != writer:
            self.take("read of another client's byte")
        if page in self.moved:
            self.take("read of a byte that moved at 22")
        if page in self.back and not filled:
            self.take("read of a byte written back to the store")


def cover(first, end):
    """Print how often each path was taken; the exit status."""
    times = dict.fromkeys(PATHS + FAULTS, 0)
    scripts = dict(times)
    for seed in range(first, end):
        watch = Watch()
        for call in readScript(script(seed)):
            watch.lines(*call)
            if watch.pool is None:
                break
        for path in watch.taken:
            times[path] = times.get(path, 0) + 1
        for path in set(watch.taken):
            scripts[path] = scripts.get(path, 0) + 1
    for path in PATHS + FAULTS:
        print("%-44s %5d times %4d scripts"
              % (path, times[path], scripts[path]))
    missing = [path for path in PATHS if times[path] == 0]
    print("never taken: " + "; ".join(missing) if missing
          else "all %d paths taken" % len(PATHS))
    return 1 if missing or any(times[fault] for fault in FAULTS) else 0


def main(arguments):
    """Do what the command line says; the exit status."""
    covering = arguments[:1] == ["--cover"]
    numbers = arguments[covering:]
    if len(numbers) != 1 + covering or not all(map(str.isdecimal, numbers)):
        print(__doc__.strip(), file=sys.stderr)
        return 2
    if covering:
        return cover(*map(int, numbers))
    print(script(int(numbers[0])), end="")
    return 0


if __name__ == "__main__":
    sys.exit(main(sys.argv[1:]))
