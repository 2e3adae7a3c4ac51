"""Schedule files for comparing the two programs.

usage: python3 tests/generate.py SEED > schedule
       python3 tests/generate.py --cover FIRST LAST
       python3 tests/generate.py --help

The first form writes one schedule file to standard output. SEED is a whole
number from 0 on; the same seed always gives the same bytes.

The second form makes the files of the seeds FIRST to LAST, plays each with
second.py and prints how often each edge between stages was taken, how often
each refusal and each ending was met and what became of index pages and of
others, and by how many files. Its exit status is 1 if any of them is missing.
Seeds 0 to 59 together miss none.

What kind of file a seed gives goes by a fixed rotation of 60 (ROTATION), so
that the rare kinds come up regularly; all else is drawn from the seed.
"""

import collections
import random
import struct
import sys

sys.dont_write_bytecode = True  # leave no compiled files beside the sources

import second  # noqa: E402 (after the line above, or it comes too late)

LONGEST_FILE = second.LONGEST_FILE
MOST_CALLS = 2046  # the most whole records of 8 bytes after a setup
LARGEST = 2**32 - 1  # of a page or a hand
INDEX = second.INDEX_PAGES
ENDS = (INDEX[0], INDEX[-1], INDEX[-1] + 1, LARGEST)  # of both sorts of page


class Dice(random.Random):
    """Draws that use random() alone.

    Its sequence is the one that Python promises to keep from version to
    version, so a seed gives the same file everywhere.
    """

    def below(self, limit):
        return int(self.random() * limit)

    def between(self, low, high):
        return low + self.below(high - low + 1)

    def chance(self, part, whole):
        return self.below(whole) < part

    def pick(self, choices):
        return choices[self.below(len(choices))]


# Records.


def setup_record(slots, clients, cap, hand):
    return second.MARK + struct.pack("<BBBBI", second.SETUP,
                                     slots, clients, cap, hand)


def call_record(kind, client, page):
    return second.MARK + struct.pack("<BBI", kind, client, page)


class Script:
    """A schedule file in the making, and a pool that plays it at once.

    The pool tells who works and who holds what, so that most calls can be
    sensible ones and a client can be led to a chosen stage.
    """

    def __init__(self, slots, clients, cap, hand):
        self.slots = slots
        self.pool = second.Pool(slots, clients, cap, hand)
        self.clients = self.pool.clients
        self.data = bytearray(setup_record(slots, clients, cap, hand))

    def room(self):
        return len(self.data) + 8 <= LONGEST_FILE

    def call(self, kind, client, page):
        """Append a call and play it; nothing happens in a full file."""
        if self.room():
            self.data += call_record(kind, client, page)
            second.call(self.pool, kind, client, page)

    def begin(self, client, page):
        self.call(second.BEGIN, client, page)

    def step(self, client):
        self.call(second.STEP, client, 0)

    def release(self, client, page):
        self.call(second.RELEASE, client, page)

    def works(self, client):
        return self.clients[client].request is not None

    def held(self, client):
        """The pages the client holds."""
        return [page for page, _ in self.clients[client].grants]

    def until(self, client, stage):
        """Step a working client till it stands at the stage, or rests."""
        while (self.works(client) and self.clients[client].stage != stage
               and self.room()):
            self.step(client)

    def finish(self, client):
        self.until(client, None)

    def fix(self, client, page):
        """One request from its begin to its answer."""
        self.begin(client, page)
        self.finish(client)


# What is drawn for every file.


def draw_slots(dice):
    """Mostly few, so that the pool runs full soon."""
    if dice.chance(1, 20):
        return 64
    if dice.chance(1, 8):
        return dice.between(1, 64)
    return dice.pick((1, 1, 2, 2, 3, 3, 3, 4, 5, 5, 6, 7))


def draw_clients(dice):
    if dice.chance(1, 12):
        return 16
    return dice.pick((1, 2, 2, 3, 3, 4, 5, 6, 8, 11))


def draw_cap(dice):
    """Mostly small, so that counts meet the cap and reach 0 soon."""
    if dice.chance(1, 10):
        return dice.pick((100, 99, dice.between(1, 100)))
    return dice.pick((1, 1, 2, 2, 3, 3, 4))


CAPS = (1, 2, 3, 4, 100)  # below, at and above what an index page starts with


def draw_hand(dice):
    """Every other one so high that the hand soon goes round to 0."""
    if dice.chance(1, 2):
        return LARGEST - dice.below(dice.pick((1, 4, 16, 64)))
    return dice.pick((0, 1, dice.below(100), 2**31 - 1, 2**31,
                      dice.below(LARGEST + 1)))


def draw_pages(dice, count):
    """So many different pages, now and then with those of ENDS."""
    pages = []
    far = dice.chance(1, 4)
    while len(pages) < count:
        page = dice.below(LARGEST + 1) if far else dice.below(3 * count + 3)
        if page not in pages:
            pages.append(page)
    for page in ENDS:
        if dice.chance(1, 3) and page not in pages:
            pages[dice.below(count)] = page
    return pages


def draw_script(dice, slots=None, clients=None, cap=None):
    """A set-up pool, with whatever is not given drawn."""
    return Script(slots or draw_slots(dice), clients or draw_clients(dice),
                  cap or draw_cap(dice), draw_hand(dice))


# Whose turn it is. Each of these gives client numbers without end.


def round_robin(dice, clients):
    """Everyone in turn: the steps of like requests meet in lockstep."""
    while True:
        yield from range(clients)


def anyone(dice, clients):
    """Whoever the dice say, each time anew."""
    while True:
        yield dice.below(clients)


def one_stalled(dice, clients):
    """Someone is left standing for long while the others go on."""
    while True:
        stalled = dice.below(clients)
        for _ in range(dice.between(40, 200)):
            client = dice.below(clients)
            if client == stalled and not dice.chance(1, 15):
                client = (client + 1) % clients
            yield client


def bursts(dice, clients):
    """Several calls in a row by one, often a whole request."""
    while True:
        client = dice.below(clients)
        for _ in range(dice.between(2, 25)):
            yield client


ORDERS = (round_robin, anyone, one_stalled, bursts)


# Calls by the turn.


def sensible_call(dice, script, client, pages, greed):
    """A step if the client works, else a begin or a release.

    The greed, 0 to 10, says how willingly a client that holds a page wants
    another one before it gives any back. One time in ten it forgets what it
    holds and begins that again, which is refused by 18.
    """
    if script.works(client):
        script.step(client)
        return
    held = script.held(client)
    others = [page for page in pages if page not in held]
    if held and (len(held) == second.MOST_GRANTS or not others
                 or not dice.chance(greed, 10)):
        script.release(client, dice.pick(held))
    else:
        again = held and dice.chance(1, 10)
        script.begin(client, dice.pick(held if again else others))


def silly_call(dice, script, pages):
    """Any call at all, by a client that may not even exist."""
    clients = len(script.clients)
    client = dice.pick((dice.below(clients), dice.below(clients),
                        clients, clients + dice.below(256 - clients), 255))
    kind = dice.pick((second.BEGIN, second.STEP, second.RELEASE))
    if kind == second.STEP:
        script.step(client)
    else:
        page = dice.pick((dice.pick(pages), dice.below(LARGEST + 1)))
        script.call(kind, client, page)


def play(dice, script, order, calls, pages=None, greed=None, percent=None):
    """Go on with a script for so many calls, some percent of them silly."""
    if pages is None:
        pages = draw_pages(dice, dice.between(1, script.slots + 3))
    if greed is None:
        greed = dice.pick((0, 2, 2, 4, 6, 9))
    if percent is None:
        percent = dice.pick((0, 0, 2, 10))
    turns = order(dice, len(script.clients))
    for _ in range(calls):
        if dice.chance(percent, 100):
            silly_call(dice, script, pages)
        else:
            sensible_call(dice, script, next(turns), pages, greed)


def play_on(dice, script):
    """A short random end for a scripted file."""
    play(dice, script, dice.pick(ORDERS), dice.between(0, 80))
    return bytes(script.data)


# Random files.


def mixed(dice, order, fewest, most):
    """Whatever the dice say, in one order of turns."""
    script = draw_script(dice)
    play(dice, script, order, dice.between(fewest, most))
    return bytes(script.data)


def crowd(dice, order):
    """Many clients after few pages in few slots, who give them back soon.

    Most of the rare edges need just that: frames that are evicted, pinned
    or replaced while someone stands between two stages.
    """
    script = draw_script(dice, slots=dice.between(1, 4),
                         clients=dice.between(3, 16), cap=dice.between(1, 4))
    pages = draw_pages(dice, script.slots + dice.between(1, 2))
    play(dice, script, order, dice.between(150, 400), pages, greed=0)
    return bytes(script.data)


def both_sorts(dice):
    """Index pages and as many others drive one another out of few slots."""
    script = draw_script(dice, slots=dice.between(2, 5), cap=dice.pick(CAPS))
    play(dice, script, dice.pick(ORDERS), dice.between(150, 400),
         range(2 * len(INDEX)), greed=dice.pick((0, 2)))
    return bytes(script.data)


def longest(dice, order):
    """As many calls as a file holds."""
    script = draw_script(dice)
    play(dice, script, order, MOST_CALLS)
    return bytes(script.data)


def greedy(dice, order):
    """Nobody gives a page back willingly, so the pool is full of held ones."""
    script = draw_script(dice, slots=dice.pick((1, 2, 3, 5, 8)))
    play(dice, script, order, dice.between(60, 250), greed=9)
    return bytes(script.data)


def silly(dice):
    """Half of the calls are not sensible."""
    script = draw_script(dice)
    play(dice, script, anyone, dice.between(30, 120), percent=50)
    return bytes(script.data)


def hand_goes_round(dice):
    """The hand passes its largest value in the middle of sweeps.

    With a number of slots that is no power of two its slot jumps there.
    """
    slots = dice.pick((3, 5, 6, 7, 9, 11, 63))
    script = Script(slots, dice.between(1, 5), dice.between(1, 3),
                    LARGEST - dice.below(slots + 4))
    play(dice, script, dice.pick((round_robin, anyone, bursts)),
         dice.between(100, 300) + 10 * slots, greed=2)
    return bytes(script.data)


# Scripted files: clients 0 and 1, and sometimes more, are led to a meeting
# that chance alone seldom brings about. A random end follows.


def fill(dice, script, spare):
    """Fill all slots with pages nobody holds, all with the same count.

    Beside an index page the others are asked for until they have its count.
    Gives a list of pages: so many spare ones and then those in the slots.
    """
    pages = draw_pages(dice, spare + script.slots)
    index = any(page in INDEX for page in pages[spare:])
    for page in pages[spare:]:
        times = second.INDEX_COUNT if index and page not in INDEX else 1
        for _ in range(times):
            script.fix(0, page)
            script.release(0, page)
    return pages


def race_for_slots(dice):
    """All want one page of an empty pool, in lockstep.

    One lowers the number of free slots and the others try again (6 to 5);
    one maps the page and the others join it (18 to 21). Then all want it once
    more, and those that have it are refused by 18.
    """
    script = draw_script(dice, slots=dice.between(1, 8),
                         clients=dice.between(2, 16))
    page = draw_pages(dice, 3)[0]
    for client in range(len(script.clients)):
        script.begin(client, page)
    for _ in range(dice.between(20, 30)):
        for client in range(len(script.clients)):
            if script.works(client):
                script.step(client)
    for client in range(len(script.clients)):
        script.begin(client, page)
    return play_on(dice, script)


def hand_left_behind(dice):
    """Nobody moves the hand yet, so all look for a slot from the same one on
    (8 to 8), round the end of the slots and past the hand's largest value."""
    slots = dice.between(3, 7)
    clients = dice.between(2, slots)
    script = Script(slots, clients, draw_cap(dice),
                    LARGEST - dice.below(slots))
    pages = draw_pages(dice, clients)
    for client in range(clients):
        script.begin(client, pages[client])
        script.until(client, 9)
    for _ in range(clients):
        script.finish(dice.below(clients))
    return play_on(dice, script)


def pinned_at_the_last_moment(dice):
    """A frame about to be evicted is pinned by a hit (14 to 11)."""
    script = draw_script(dice, slots=dice.between(1, 6),
                         clients=dice.between(2, 5))
    pages = fill(dice, script, 1)
    script.begin(0, pages[0])
    script.until(0, 14)
    script.begin(1, script.clients[0].e.key)
    script.until(1, 3)
    script.step(0)
    script.finish(dice.below(2))
    return play_on(dice, script)


def two_lower_one_count(dice):
    """Two sweeps lower the count of one frame, the second finds it at 0.

    Then two others pin the frame and raise its count, and both sweeps go on;
    how far shows whether the count stayed at 0.
    """
    script = draw_script(dice, slots=dice.between(1, 3),
                         clients=dice.between(4, 6), cap=dice.between(2, 4))
    pages = fill(dice, script, 2)
    for client in (0, 1):
        script.begin(client, pages[client])
        script.until(client, 14)
    wanted = script.clients[0].e.key
    for client in (2, 3):
        script.fix(client, wanted)
    script.step(0)
    script.step(1)
    for client in (2, 3):
        script.release(client, wanted)
    script.finish(dice.below(2))
    return play_on(dice, script)


def meet_at_slot(dice, most_slots):
    """Clients 0 and 1 are about to use the same slot (at 15).

    Client 1 saw that its frame was evicted already (12 to 15).
    """
    script = draw_script(dice, slots=dice.between(1, most_slots),
                         clients=dice.between(2, most_slots))
    pages = fill(dice, script, 2)
    for client in (0, 1):
        script.begin(client, pages[client])
        script.until(client, 15)
    return script


def two_after_one_slot(dice):
    """One of two finds the slot taken and sweeps on (15 to 11)."""
    script = meet_at_slot(dice, 6)
    first = dice.below(2)
    script.step(first)
    script.step(1 - first)
    script.finish(dice.below(2))
    return play_on(dice, script)


def meet_at_removal(dice, most_slots):
    """Client 0 is about to remove an evicted page from the table (at 17),
    client 1 wants that page and is about to map it anew (at 22)."""
    script = draw_script(dice, slots=dice.between(2, most_slots),
                         clients=dice.between(2, most_slots))
    pages = fill(dice, script, 1)
    script.begin(0, pages[0])
    script.until(0, 17)
    script.begin(1, script.clients[0].removed.key)
    script.until(1, 22)
    return script


def revived(dice):
    """The page is mapped anew (22, granted); then there is nothing left to
    remove."""
    script = meet_at_removal(dice, 6)
    script.step(1)
    script.finish(0)
    return play_on(dice, script)


def removed_first(dice):
    """The page is removed before, so its client starts anew (22 to 23)."""
    script = meet_at_removal(dice, 6)
    script.step(0)
    script.until(1, dice.pick((23, 4, None)))
    script.finish(0)
    return play_on(dice, script)


def drive_out(script, page):
    """Client 0 asks for other pages until it has evicted this one (at 17)."""
    table, me = script.pool.cache.HASHTBL, script.clients[0]
    while script.room() and (me.removed is None
                             or table.get(page) is not me.removed):
        end_visit(script, 0)
        script.begin(0, next(other for other in range(100, 200)
                             if other not in table))
        script.until(0, 17)


def end_visit(script, client):
    """A request comes to its end, and all its client holds is given back."""
    script.finish(client)
    for page in script.held(client):
        script.release(client, page)


def taken_anew(dice):
    """Client 1 wants an index page, and another, that client 0 has evicted
    and is about to remove. Once it maps the page anew (22, granted), once the
    page is removed before (22 to 23) and it takes a frame anew (4).

    Each time the page is driven out again, and how long that takes shows the
    count that it had (with a cap of 1 all would be alike).
    """
    script = draw_script(dice, slots=dice.between(2, 3),
                         clients=dice.between(2, 4), cap=dice.pick(CAPS[1:]))
    for page in (dice.pick(INDEX), dice.pick(ENDS[2:])):
        script.fix(1, page)
        for first in (1, 0):
            end_visit(script, 1)
            drive_out(script, page)
            script.begin(1, page)
            script.until(1, 22)
            script.step(first)
            script.finish(1 - first)
            script.finish(first)
            end_visit(script, 0)
        end_visit(script, 1)
        drive_out(script, page)
        end_visit(script, 0)
    return play_on(dice, script)


def promised_slots(dice, most_filled):
    """Slots are given away but still empty, and a sweep meets them.

    If all are it is refused at stage 11. If some are filled by then, and
    their frames held, it may be refused at stage 12 as well.
    """
    slots = dice.between(1, 6)
    script = draw_script(dice, slots=slots, clients=slots + 1)
    pages = draw_pages(dice, slots + 1)
    for client in range(slots):
        script.begin(client, pages[client])
        script.until(client, dice.pick((7, 8)))
    for client in range(min(slots, dice.between(0, most_filled))):
        script.finish(client)
    script.fix(slots, pages[slots])
    return play_on(dice, script)


def all_held(dice):
    """Every slot names a held frame, and newcomers are refused."""
    slots = dice.between(1, 12)
    script = draw_script(dice, slots=slots, clients=dice.between(2, 6))
    pages = draw_pages(dice, slots + 2)
    for number, page in enumerate(pages[:slots]):
        script.fix(number % 2, page)
    for page in pages[slots:]:
        script.fix(dice.below(len(script.clients)), page)
    return play_on(dice, script)


def eight_grants(dice):
    """A client gets as many grants as it may hold, and wants one more.

    Another page is refused by 12, and so is one that it holds. After a
    release that one is refused by 18, and by 10 while the other is on its way.
    """
    script = draw_script(dice, slots=dice.between(second.MOST_GRANTS, 12))
    *pages, ninth = draw_pages(dice, second.MOST_GRANTS + 1)
    client = dice.below(len(script.clients))
    for page in pages:
        script.fix(client, page)
    for page in (ninth, dice.pick(pages)):
        script.begin(client, page)
    script.release(client, dice.pick(pages))
    again = dice.pick(script.held(client))
    for page in (again, ninth, again):
        script.begin(client, page)
    script.finish(client)
    return play_on(dice, script)


def frames_go_round(dice, order):
    """The largest pool, played until the search for a frame has passed the
    last one, 95, and is at 0 again."""
    script = draw_script(dice, slots=64, clients=16, cap=1)
    pages = draw_pages(dice, 200)
    turns = order(dice, 16)
    last = script.pool.cache.taken
    while script.room() and script.pool.cache.taken >= last:
        last = script.pool.cache.taken
        sensible_call(dice, script, next(turns), pages, greed=1)
    return play_on(dice, script)


# Stalled clients. While one stands at a stage, the others go on until the
# search for a frame has been all round. A frame that the stalled one still
# names must not be taken then, and one that it has forgotten must be. The
# pools are small here, so that going round does not take long.


def go_round(dice, script):
    """The resting clients make requests until every frame had its turn."""
    resting = [client for client in range(len(script.clients))
               if not script.works(client)]
    pages = draw_pages(dice, script.slots + 2)
    frames = len(script.pool.cache.frames)
    takes = 0
    for number in range(2 * frames if resting else 0):
        client = dice.pick(resting)
        page = pages[number % len(pages)]
        if page in script.held(client):
            continue  # the release below would end a grant that is to stay
        before = script.pool.cache.taken
        script.fix(client, page)
        script.release(client, page)
        takes += script.pool.cache.taken != before
        if takes > frames:
            break


def dawdle(dice, script, client):
    """Bring a request to its end, with some long stalls on the way."""
    while script.works(client) and script.room():
        if dice.chance(1, 5):
            go_round(dice, script)
        script.step(client)


def stalled_hit(dice):
    """A client has found its page's frame (at 2), which then is evicted."""
    script = draw_script(dice, slots=dice.between(1, 3),
                         clients=dice.between(2, 3))
    pages = fill(dice, script, 1)
    script.begin(0, pages[-1])
    script.step(0)
    go_round(dice, script)
    dawdle(dice, script, 0)
    return play_on(dice, script)


def stalled_sweep(dice):
    """A client sweeps, or has swept, a slot that others go on to use."""
    script = draw_script(dice, slots=dice.between(1, 3),
                         clients=dice.between(2, 3))
    pages = fill(dice, script, 1)
    script.begin(0, pages[0])
    script.until(0, dice.pick((5, 12, 13, 15, 16)))
    go_round(dice, script)
    dawdle(dice, script, 0)
    return play_on(dice, script)


def stalled_loser(dice):
    """A client found its slot taken (15 to 11) and has forgotten the frame
    it saw there."""
    script = meet_at_slot(dice, 3)
    first = dice.below(2)
    script.step(first)
    script.step(1 - first)
    script.finish(first)
    go_round(dice, script)
    dawdle(dice, script, 1 - first)
    return play_on(dice, script)


def stalled_removal(dice):
    """A client is about to remove a page (at 16 or 17) that another has
    mapped anew, so nothing else names the frame it replaced."""
    script = draw_script(dice, slots=dice.between(2, 3),
                         clients=dice.between(2, 3))
    pages = fill(dice, script, 1)
    script.begin(0, pages[0])
    script.until(0, dice.pick((16, 17)))
    wanted = script.clients[0].e or script.clients[0].removed
    script.fix(1, wanted.key)
    script.release(1, wanted.key)
    go_round(dice, script)
    dawdle(dice, script, 0)
    return play_on(dice, script)


def stalled_join(dice):
    """A client finds its page mapped by another, at the last moment (18).

    If that one releases it, it may even be evicted before it is pinned.
    """
    script = draw_script(dice, slots=dice.between(2, 3),
                         clients=dice.between(2, 3))
    page = draw_pages(dice, 3)[0]
    script.begin(0, page)
    script.begin(1, page)
    script.until(0, 18)
    script.finish(1)
    if dice.chance(1, 2):
        script.release(1, page)
    script.until(0, dice.pick((19, 21)))
    go_round(dice, script)
    dawdle(dice, script, 0)
    return play_on(dice, script)


def stalled_restart(dice):
    """A client finds its page removed (at 22) and starts anew (23, 4)."""
    script = meet_at_removal(dice, 3)
    script.finish(0)
    for _ in range(3):
        if dice.chance(2, 3):
            go_round(dice, script)
        script.step(1)
    dawdle(dice, script, 1)
    return play_on(dice, script)


# Files that end with a refusal.


def prefix(dice):
    """A short sound file, to which something is then appended."""
    script = draw_script(dice)
    play(dice, script, anyone, dice.pick((0, 1, dice.between(2, 40))))
    return bytes(script.data)


def any_call(dice):
    """A call record as it might follow."""
    kind = dice.pick((second.BEGIN, second.STEP, second.RELEASE))
    page = 0 if kind == second.STEP else dice.below(10)
    return call_record(kind, dice.below(4), page)


def tail(dice):
    """Sound records that a run which has ended must not play."""
    return b"".join(any_call(dice) for _ in range(dice.pick((0, 1, 3))))


def any_setup(dice):
    return setup_record(draw_slots(dice), draw_clients(dice), draw_cap(dice),
                        draw_hand(dice))


def spoiled(record, place, byte):
    return record[:place] + bytes((byte,)) + record[place + 1:]


def other_byte(dice, byte):
    return (byte + 1 + dice.below(255)) % 256


def empty_file(dice):
    return b""


def cut_setup(dice):
    """Refusal 3 in the first record."""
    return any_setup(dice)[:dice.between(1, 9)]


def cut_call(dice):
    """Refusal 3 in a later record."""
    return prefix(dice) + any_call(dice)[:dice.between(1, 7)]


def cut_second_setup(dice):
    """8 or 9 bytes with a third byte of 0: refusal 3 comes before 6."""
    return prefix(dice) + any_setup(dice)[:dice.between(8, 9)]


def full_file(dice, extra):
    """The most whole records and then so many bytes more."""
    script = draw_script(dice)
    play(dice, script, dice.pick((anyone, bursts)), MOST_CALLS)
    return bytes(script.data) + (any_call(dice) * 500)[:extra]


def largest_file(dice):
    """The longest file that is read; its last 6 bytes are a cut record."""
    return full_file(dice, 6)


def too_long(dice):
    """Refusal 1, by one byte or by many."""
    return full_file(dice, dice.pick((7, 7, 8, dice.between(9, 4000))))


def bad_mark(dice, place):
    """Refusal 4, in the first record or later."""
    start, record = dice.pick(((b"", any_setup(dice)),
                               (prefix(dice), any_call(dice))))
    byte = other_byte(dice, record[place])
    return start + spoiled(record, place, byte) + tail(dice)


def bad_kind(dice):
    """Refusal 5."""
    kind = dice.pick((4, 5, 255, dice.between(4, 255)))
    start = dice.pick((b"", prefix(dice)))
    return start + spoiled(any_call(dice), 2, kind) + tail(dice)


def no_setup(dice):
    """Refusal 6: the first record is a call."""
    return any_call(dice) + tail(dice)


def second_setup(dice):
    """Refusal 6: a later record is a setup."""
    return prefix(dice) + any_setup(dice) + tail(dice)


def paged_step(dice):
    """Refusal 7, whichever byte of the page it is."""
    page = dice.pick((1, 256, 2**16, 2**24, LARGEST, dice.between(1, LARGEST)))
    return (prefix(dice) + call_record(second.STEP, dice.below(4), page)
            + tail(dice))


def bad_setup(dice, place, numbers):
    """Refusal 8: one number of the setup is out of its range."""
    return spoiled(any_setup(dice), place, dice.pick(numbers)) + tail(dice)


def two_faults(dice):
    """A record that breaks two rules; the one checked first counts."""
    far = 255 - dice.below(200)
    mark_or_kind = spoiled(spoiled(any_call(dice), 0, 0), 2, far)
    return dice.pick((
        prefix(dice) + mark_or_kind,  # 4 before 5
        spoiled(any_call(dice), 2, far),  # 5 before 6
        call_record(second.STEP, 0, far),  # 6 before 7
        prefix(dice) + setup_record(0, far, 0, 0),  # 6 before 8
        prefix(dice) + call_record(second.STEP, far, far),  # 7 before 9
        prefix(dice) + spoiled(any_setup(dice), 1, 0)[:9],  # 3 before 4
        bytes(LONGEST_FILE + 1),  # 1 before 4
        bytes(LONGEST_FILE),  # just short enough, so 4
    ))


# Which seed gives which kind of file. The details after a kind are handed to
# it. The kinds are shuffled so that any few seeds in a row are a fair mix.

SLOTS_AT, CLIENTS_AT, CAP_AT = 3, 4, 5  # places of bytes in a setup

ROTATION = (
    (mixed, round_robin, 5, 60),
    (mixed, anyone, 20, 150),
    (race_for_slots,),
    (empty_file,),
    (mixed, one_stalled, 100, 300),
    (pinned_at_the_last_moment,),
    (cut_setup,),
    (crowd, anyone),
    (two_after_one_slot,),
    (bad_mark, 0),
    (mixed, bursts, 20, 200),
    (revived,),
    (no_setup,),
    (hand_goes_round,),
    (removed_first,),
    (bad_setup, SLOTS_AT, (0,)),
    (greedy, anyone),
    (promised_slots, 0),
    (bad_kind,),
    (mixed, anyone, 1, 20),
    (all_held,),
    (bad_setup, SLOTS_AT, (65, 66, 128, 255)),
    (crowd, round_robin),
    (eight_grants,),
    (cut_call,),
    (silly,),
    (frames_go_round, bursts),
    (second_setup,),
    (stalled_join,),
    (largest_file,),
    (stalled_hit,),
    (hand_left_behind,),
    (bad_setup, CLIENTS_AT, (0,)),
    (crowd, one_stalled),
    (pinned_at_the_last_moment,),
    (paged_step,),
    (stalled_sweep,),
    (stalled_loser,),
    (bad_setup, CLIENTS_AT, (17, 18, 32, 255)),
    (hand_goes_round,),
    (stalled_removal,),
    (bad_mark, 1),
    (greedy, round_robin),
    (stalled_restart,),
    (two_faults,),
    (longest, anyone),
    (promised_slots, 4),
    (bad_setup, CAP_AT, (0,)),
    (mixed, anyone, 60, 300),
    (taken_anew,),
    (cut_second_setup,),
    (both_sorts,),
    (eight_grants,),
    (bad_setup, CAP_AT, (101, 102, 128, 255)),
    (crowd, bursts),
    (frames_go_round, one_stalled),
    (two_faults,),
    (two_lower_one_count,),
    (too_long,),
    (longest, one_stalled),
)


def generate(seed):
    """The schedule file of a seed."""
    kind, *details = ROTATION[seed % len(ROTATION)]
    return kind(Dice(seed), *details)


# What files take, for --cover.

GRANT, FULL = "granted", "refused 15"  # the ends of a request

EDGES = (
    (1, 2), (1, 4),
    (2, 3), (2, 4),
    (3, GRANT),
    (4, 5),
    (5, 6), (5, 10),
    (6, 7), (6, 5),
    (7, 8),
    (8, 9), (8, 8),
    (9, 18),
    (10, 11),
    (11, 12), (11, 11), (11, FULL),
    (12, 13), (12, 15), (12, 11), (12, FULL),
    (13, 14), (13, 11),
    (14, 15), (14, 11),
    (15, 16), (15, 11),
    (16, 17),
    (17, 18),
    (18, GRANT), (18, 19),
    (19, 20), (19, 22),
    (20, 21),
    (21, GRANT),
    (22, GRANT), (22, 23),
    (23, 4),
)

ENDINGS = (
    "ordinary end",
    "1 file too long",
    "3 empty file",
    "3 first record cut",
    "3 later record cut",
    "3 later setup cut at 8 or 9 bytes",
    "3 at the end of 16,384 bytes",
    "4 first byte of the mark",
    "4 second byte of the mark",
    "5 kind above 3",
    "6 first record no setup",
    "6 later record a setup",
    "7 step with a page",
    "8 S too small", "8 S too large",
    "8 T too small", "8 T too large",
    "8 C too small", "8 C too large",
)

TURNED_DOWN = (
    "9 begin, client T or more",
    "9 step, client T or more",
    "9 release, client T or more",
    "9 client 255",
    "10 begin at a working client",
    "10 release at a working client",
    "10 before 18",
    "11 step at a resting client",
    "12 ninth grant",
    "12 before 18",
    "13 release of a page not held",
    "15 pool full",
    "18 begin of a page held",
    "18 begin of a page others hold, too",
)

SORTS = tuple(what % sort for what in (
    *("4 %%s, C %s" % cap for cap in ("1", "2", "3", "4", "above 4")),
    "4 %s, after 23, C above 1",
    "14 %s evicted",
    "14 %s evicted, both in slots",
    "22 %s revived, C above 1",
) for sort in ("index page", "other page"))


def record_at(schedule, number):
    """The bytes from a record on; only the first can be 10 bytes long."""
    return schedule[10 + 8 * (number - 1):] if number else schedule


def edges_taken(report):
    """The edges a report shows, one for each step that was not turned down.

    A client without a stage that takes a step stood at 1: only begins and
    releases, both done, can have come since it rested.
    """
    stages = {}
    for line in report.splitlines():
        _, client, code, value = map(int, line.split())
        if code == second.WORKING:
            yield stages.get(client, 1), value
            stages[client] = value
        elif code == second.GRANTED:
            yield stages.pop(client, 1), GRANT
        elif code == second.REFUSAL + 15:
            yield stages.pop(client, 1), FULL


def endings_met(schedule, records, refusal):
    """What ended a run, in the words of ENDINGS."""
    rest = record_at(schedule, records)
    if refusal == 0:
        yield "ordinary end"
    elif refusal == 1:
        yield "1 file too long"
    elif refusal == 3:
        if not schedule:
            yield "3 empty file"
        elif records == 0:
            yield "3 first record cut"
        elif len(rest) < 8:
            yield "3 later record cut"
        else:
            yield "3 later setup cut at 8 or 9 bytes"
        if len(schedule) == LONGEST_FILE:
            yield "3 at the end of 16,384 bytes"
    elif refusal == 4:
        if rest[0] != second.MARK[0]:
            yield "4 first byte of the mark"
        else:
            yield "4 second byte of the mark"
    elif refusal == 5:
        yield "5 kind above 3"
    elif refusal == 6:
        if records == 0:
            yield "6 first record no setup"
        else:
            yield "6 later record a setup"
    elif refusal == 7:
        yield "7 step with a page"
    elif refusal == 8:
        for name, number, most in zip("STC", rest[3:6], (64, 16, 100)):
            if number == 0:
                yield "8 %s too small" % name
            elif number > most:
                yield "8 %s too large" % name


def in_words(refusal, kind, client, holders):
    """A refusal in the words of TURNED_DOWN, by who holds the call's page."""
    call = {second.BEGIN: "begin", second.STEP: "step",
            second.RELEASE: "release"}[kind]
    yield {9: "9 %s, client T or more" % call,
           10: "10 %s at a working client" % call,
           11: "11 step at a resting client",
           12: "12 ninth grant",
           13: "13 release of a page not held",
           15: "15 pool full",
           18: "18 begin of a page held"}[refusal]
    if client == 255:
        yield "9 client 255"
    if kind == second.BEGIN and client in holders:
        if refusal < 18:
            yield "%d before 18" % refusal
        elif len(holders) > 1:
            yield "18 begin of a page others hold, too"


def turned_down(schedule, report):
    """The refusals a run went on after, in the words of TURNED_DOWN."""
    wanted, holders = {}, collections.defaultdict(set)  # by client, by page
    for line in report.splitlines():
        number, client, code, _ = map(int, line.split())
        refusal = code - second.REFUSAL
        if 0 < refusal < 9:
            break  # the run ended, by a record that may be cut
        kind, _, page = struct.unpack("<BBI",
                                      record_at(schedule, number)[2:8])
        if refusal > 0:
            yield from in_words(refusal, kind, client, holders[page])
        elif code == second.GRANTED:
            holders[wanted[client]].add(client)
        elif kind == second.BEGIN:
            wanted[client] = page
        elif kind == second.RELEASE:
            holders[page].remove(client)


def sort_of(page):
    return "index page" if page in INDEX else "other page"


class Sorts:
    """What the steps of a pool do to both sorts of page, in the words of
    SORTS."""

    def __init__(self, pool):
        cap = pool.cache.frames[0].cap
        self.pool, self.cap = pool, cap if cap <= 4 else "above 4"
        self.anew = set()  # clients that come from 23

    def before(self, number):
        """Look at a client that is there and is about to be stepped."""
        client = self.pool.clients[number]
        self.number, self.stage = number, client.stage
        self.sort = sort_of(client.e.key if client.e else client.page)
        self.slots = {sort_of(frame.key)
                      for frame in self.pool.cache.CLOCKBUF.POOL
                      if frame and frame.pinning >= 0}

    def after(self, code, value):
        """What that step did, by its answer."""
        if code > second.REFUSAL:
            return
        if self.stage == 4:
            yield "4 %s, C %s" % (self.sort, self.cap)
            if self.number in self.anew and self.cap != 1:
                yield "4 %s, after 23, C above 1" % self.sort
            self.anew.discard(self.number)
        elif self.stage == 14 and value == 15:
            yield "14 %s evicted" % self.sort
            if len(self.slots) == 2:
                yield "14 %s evicted, both in slots" % self.sort
        elif self.stage == 22 and code == second.GRANTED and self.cap != 1:
            yield "22 %s revived, C above 1" % self.sort
        elif self.stage == 23:
            self.anew.add(self.number)


def sorts_met(schedule, records):
    """What a run does to both sorts of page."""
    if records == 0:
        return
    pool = second.Pool(*second.readRecord(schedule[:10], True)[1:])
    sorts = Sorts(pool)
    for number in range(1, records):
        kind, client, page = second.readRecord(
            record_at(schedule, number)[:10], False)
        stepped = kind == second.STEP and client < len(pool.clients)
        if stepped:
            sorts.before(client)
        answer = second.call(pool, kind, client, page)
        if stepped:
            yield from sorts.after(*answer)


class Count:
    """How often things were met, and in how many files."""

    def __init__(self, things):
        self.times = dict.fromkeys(things, 0)
        self.files = dict.fromkeys(things, 0)

    def add_file(self, met):
        met = list(met)
        for thing in met:
            self.times[thing] += 1
        for thing in set(met):
            self.files[thing] += 1

    def show(self, name=str):
        for thing, times in self.times.items():
            print("%-36s %8d times %6d files"
                  % (name(thing), times, self.files[thing]))

    def missing(self, name=str):
        return [name(thing) for thing, times in self.times.items()
                if times == 0]


def edge_name(edge):
    return "%s -> %s" % edge


def cover(first, last):
    """Print what the files of the seeds take; the exit status."""
    edges, endings, refusals = Count(EDGES), Count(ENDINGS), Count(TURNED_DOWN)
    sorts = Count(SORTS)
    files = size = high_hands = 0
    for seed in range(first, last + 1):
        schedule = generate(seed)
        report, records, refusal = second.run(schedule)
        edges.add_file(edges_taken(report))
        endings.add_file(endings_met(schedule, records, refusal))
        refusals.add_file(turned_down(schedule, report))
        sorts.add_file(sorts_met(schedule, records))
        files += 1
        size += len(schedule)
        if records > 0:
            hand, = struct.unpack("<I", schedule[6:10])
            high_hands += hand > LARGEST - 64

    print("%d files, %d bytes in all" % (files, size))
    print("%d files start with a hand in the last 64 values" % high_hands)
    print("\nedges between stages")
    edges.show(edge_name)
    print("\nendings of runs")
    endings.show()
    print("\nrefusals after which a run goes on")
    refusals.show()
    print("\nboth sorts of page")
    sorts.show()
    print()
    missing = (["edge " + name for name in edges.missing(edge_name)]
               + endings.missing() + refusals.missing() + sorts.missing())
    if missing:
        print("missing: " + "; ".join(missing))
        return 1
    print("all %d edges, all endings and both sorts of page met" % len(EDGES))
    return 0


# The command line.


def complain(text):
    print("generate.py: %s (see --help)" % text, file=sys.stderr)
    return 2


def main(arguments):
    """Do what the command line says; the exit status."""
    if arguments in (["--help"], ["-h"]):
        print(__doc__.strip())
        return 0
    covering = arguments[:1] == ["--cover"]
    numbers = arguments[1:] if covering else arguments
    if len(numbers) != (2 if covering else 1):
        return complain("expected SEED, or --cover FIRST LAST")
    for number in numbers:
        if not (number.isascii() and number.isdigit()):
            return complain("not a whole number from 0 on: %r" % number)
    if covering:
        first, last = map(int, numbers)
        if first > last:
            return complain("FIRST is above LAST")
        return cover(first, last)
    sys.stdout.buffer.write(generate(int(numbers[0])))
    return 0


if __name__ == "__main__":
    sys.exit(main(sys.argv[1:]))
