"""What happened, in words: the sentence that each record asks for.

The numbers in a sentence come from the second program's own objects before
and after the record, and they alone choose its form.
"""

import collections

import generate
import second
from checking import same
from common import answers_to
from explaining import explained
from generate import FULL, GRANT
from played import Played

SEEDS = range(120)

# What several sentences share. A name with was_ is of the pool before the
# record, one with now_ of the pool after it.
CLAIMED = "slot {was_place} is claimed and still empty, busy visit {visit} of {size}"
BUSY = "slot {was_place}: frame {was_victim} is in use, busy visit {visit} of {size}"
GIVEN_UP = "gives its candidate up: frame {was_own} is evicted"
HAND = "the hand is {now_hand} now: slot {now_hand_slot}"
PINNED = "frame {was_found} is pinned: {now_found_pins} now"
TAKES = "takes frame {now_own} for page {wanted}"
STANDS = "frame {was_own} stands in slot {was_place}, a candidate for page {wanted}"
RAISED = "the count of frame {value} is {now_found_count} now"
AT_CAP = "the count of frame {value} stays {cap}, the cap"
LOWERED = "the count of page {victim_page} goes from {was_victim_count} to {now_victim_count}"
HOLDS_ONE, HOLDS_MORE = "it holds page {pages}", "it holds pages {pages}"

# A stage, where its step leads, and the case where there are several.
SENTENCES = {
    (1, 2): "the table has page {wanted} in frame {now_found}",
    (1, 4): "the table does not have page {wanted}",
    (2, 3): PINNED,
    (2, 4): "frame {was_found} is evicted and cannot be pinned",
    (3, GRANT, "raised"): "a hit: " + RAISED,
    (3, GRANT, "at the cap"): "a hit: " + AT_CAP,
    (4, 5, "index page"): TAKES + ", an index page, with one pin and count 3",
    (4, 5, "index page, C 2"): TAKES + ", an index page, with one pin and count 2",
    (4, 5, "index page, C 1"): TAKES + ", an index page, with one pin and count 1",
    (4, 5, "other page"): TAKES + ", with one pin and count 1",
    (5, 6): "{now_seen_slots} left to claim",
    (5, 10): "no slot is left to claim: it has to sweep",
    (6, 7): "claims a slot: free is {now_free} now",
    (6, 5): "free is {was_free} by now and not {was_seen}",
    (7, 8): "the hand is {was_hand}: it looks from slot {was_hand_slot} on",
    (8, 9): STANDS,
    (8, 8): "slot {was_place} has frame {in_slot}: slot {next_place} is next",
    (9, 18): HAND,
    (10, 11): "the hand is {was_hand}: the sweep starts at slot {was_hand_slot}",
    (11, 12, "in the table"): "slot {was_place}: frame {in_slot} with page {in_slot_page}",
    (11, 12, "candidate"): "slot {was_place}: frame {in_slot}, a candidate for page {in_slot_page}",
    (11, 12, "evicted"): "slot {was_place}: frame {in_slot}, evicted, which was for page {in_slot_page}",
    (11, 11): CLAIMED,
    (11, FULL): CLAIMED,
    (12, 13): "slot {was_place}: frame {was_victim} is not in use",
    (12, 15): "slot {was_place}: frame {was_victim} is evicted already",
    (12, 11): BUSY,
    (12, FULL): BUSY,
    (13, 14, "lowered"): LOWERED + ": it may go",
    (13, 14, "0 before"): "the count of page {victim_page} is 0: it may go",
    (13, 11): LOWERED + ": it stays, slot {next_place} is next",
    (14, 15, "0 still"): "page {victim_page} loses frame {was_victim}: its count was 0",
    (14, 15, "raised"): "page {victim_page} loses frame {was_victim}: its count was 0 at 13 and is {was_victim_count} by now",
    (14, 11, "pinned"): "frame {was_victim} is in use by now: slot {next_place} is next",
    (14, 11, "evicted"): "frame {was_victim} is evicted by now: slot {next_place} is next",
    (15, 16): STANDS + ", instead of frame {was_victim}",
    (15, 11): "frame {was_victim} is not in slot {was_place} any more: slot {next_place} is next",
    (16, 17): HAND,
    (17, 18, "there"): "dropped: page {victim_page} leaves the table",
    (17, 18, "never there"): "frame {was_victim} was given up and has no entry: nothing removed",
    (17, 18, "gone"): "the entry was already replaced: nothing removed",
    (18, GRANT): "admitted: the table has page {wanted} in frame {was_own}",
    (18, 19): "page {wanted} is in the table already, with frame {now_found}: frame {was_own} stays a candidate",
    (19, 20): PINNED,
    (19, 22): "frame {was_found} is evicted and cannot be joined",
    (20, 21): GIVEN_UP,
    (21, GRANT, "raised"): "joined: " + RAISED,
    (21, GRANT, "at the cap"): "joined: " + AT_CAP,
    (22, GRANT): "revived: the table has page {wanted} in frame {was_own} and not in {was_found}",
    (22, 23, "no entry"): "page {wanted} has no entry by now: frame {was_own} stays a candidate",
    (22, 23, "another frame"): "page {wanted} has frame {was_entry} by now: frame {was_own} stays a candidate",
    (23, 4): GIVEN_UP,
    ("setup",): "{slots} and {clients}: {frames}",
    ("begin",): "wants page {page}",
    ("release", "the last pin"): "frame {granted} has no pins now: nobody holds page {page}",
    ("release", "pins left"): "frame {granted} has {now_granted_pins} now",
    (9,): "the pool has {clients}",
    (10,): "it stands at {was_stage} and wants page {wanted}",
    (11,): "it has no request",
    (12,): HOLDS_MORE,
    (13, "none"): "it holds no page",
    (13, "one"): HOLDS_ONE,
    (13, "more"): HOLDS_MORE,
    (18, "one"): HOLDS_ONE,
    (18, "more"): HOLDS_MORE,
    ("the run ended",): "",
}


def several(number, thing):
    return "1 " + thing if number == 1 else "%d %ss" % (number, thing)


class Watched(Played):
    """A run with every frame after each record, and those once mapped."""

    def __init__(self, schedule):
        slots, clients, self.cap = schedule[3:6]
        self.frames = [[(0, -1, 0)] * (slots + 2 * clients)]
        self.mapped = [set()]  # since they were taken
        super().__init__(schedule)

    def play(self, pool, kind, client, page):
        super().play(pool, kind, client, page)
        self.frames.append([(frame.key, frame.pinning, frame.refcount)
                            for frame in pool.cache.frames])
        mapped = {frame.number for frame in pool.cache.HASHTBL.values()}
        # A frame that is taken stands at one pin again, out of the table.
        taken = {number for number, (was, now) in enumerate(
            zip(self.frames[-2], self.frames[-1])) if was[1] < 0 < now[1]}
        self.mapped.append(self.mapped[-1] - taken | mapped)


class Told:
    """A record of a run: its key in the table, and the numbers."""

    def __init__(self, run, schedule, number):
        before = max(number - 1, 0)
        self.run, self.number, self.before = run, number, before
        self.code, self.value = run.answers[number]
        self.refusal = self.code - second.REFUSAL
        self.who = run.who[number]
        self.was, self.now = self.client(before), self.client(number)
        record = generate.record_at(schedule, number).ljust(8)  # if cut
        self.kind = record[2]
        self.page = int.from_bytes(record[4:8], "little")

    def client(self, number):
        clients = self.run.pools[number]["clients"]
        known = self.who is not None and self.who < len(clients)
        return collections.defaultdict(
            lambda: None, clients[self.who] if known else {})

    def frame(self, number, at):
        """Page, pins and count of a frame, if any, after a record."""
        return (None,) * 3 if number is None else self.run.frames[at][number]

    def table(self):
        return {page: frame for page, frame, _
                in self.run.pools[self.before]["table"]}

    def granted(self):
        """The frame of the grant that a release ends."""
        return dict(self.was["grants"] or ()).get(self.page)

    def in_slot(self):
        """The frame in the slot at the client's place, before it acts."""
        place = self.was["place"]
        found = (None if place is None
                 else self.run.pools[self.before]["slots"][place])
        return found and found[0]

    # The key.

    def key(self):
        if self.number == 0:
            return "setup",
        if 1 <= self.refusal <= 8:
            return "the run ended",
        if 9 <= self.refusal <= 12:
            return self.refusal,
        if self.refusal in (13, 18):
            grants = len(self.was["grants"])
            return self.refusal, ("none", "one", "more")[min(grants, 2)]
        if self.kind == second.BEGIN:
            return "begin",
        if self.kind == second.RELEASE:
            pins = self.frame(self.granted(), self.number)[1]
            return "release", "pins left" if pins else "the last pin"
        return self.step()

    def step(self):
        end = {second.GRANTED: GRANT, second.REFUSAL + 15: FULL}
        edge = self.was["stage"], end.get(self.code, self.value)
        case = CASES.get(edge)
        return edge if case is None else (*edge, case(self))

    def raised(self):
        was, now = (self.frame(self.was["found"], at)[2]
                    for at in (self.before, self.number))
        return "raised" if was < now else "at the cap"

    def sort(self):  # by SPECIFICATION 4.31
        if self.was["wanted"] > 3:
            return "other page"
        return ("index page" if self.run.cap >= 3
                else "index page, C %d" % self.run.cap)

    def slot_case(self):
        page, pins, _ = self.frame(self.in_slot(), self.before)
        if pins < 0:
            return "evicted"
        return ("in the table" if self.table().get(page) == self.in_slot()
                else "candidate")

    def victim(self):
        return self.frame(self.was["victim"], self.before)

    def entry_case(self):
        if self.table().get(self.victim()[0]) == self.was["victim"]:
            return "there"
        return ("gone" if self.was["victim"] in self.run.mapped[self.before]
                else "never there")

    # The numbers.

    def numbers(self):
        """Everything that a sentence may name."""
        found = {**self.of_pool(), **self.of_slot(), **self.of_grants()}
        for when, at, client in (("was_", self.before, self.was),
                                 ("now_", self.number, self.now)):
            found.update({when + name: number for name, number
                          in self.at(at, client).items()})
        return found

    def of_pool(self):
        clients, size = map(len, (self.run.pools[0]["clients"],
                                  self.run.pools[0]["slots"]))
        return {"size": size, "cap": self.run.cap, "value": self.value,
                "slots": several(size, "slot"),
                "clients": several(clients, "client"),
                "frames": several(size + 2 * clients, "frame"),
                "page": self.page, "wanted": self.was["wanted"],
                "was_entry": self.table().get(self.was["wanted"])}

    def of_slot(self):
        """The slot that a client looks at, and the frame that it found."""
        found = {"victim_page": self.victim()[0], "in_slot": self.in_slot(),
                 "in_slot_page": self.frame(self.in_slot(), self.before)[0]}
        if self.was["place"] is not None:  # by SPECIFICATION 4.24
            found["next_place"] = ((self.was["place"] + 1)
                                   % len(self.run.pools[0]["slots"]))
        if self.was["busy"] is not None:  # by SPECIFICATION 4.25
            found["visit"] = self.was["busy"] + 1
        return found

    def of_grants(self):
        _, pins, _ = self.frame(self.granted(), self.number)
        return {"granted": self.granted(),
                "now_granted_pins": pins and several(pins, "pin"),
                "pages": ", ".join(str(page) for page, _
                                   in self.was["grants"] or ())}

    def at(self, at, client):
        """The pool after a record, its client, and the frames it named."""
        pool, seen = self.run.pools[at], client["seen"]
        found = {name: client[name] for name in (
            "stage", "own", "found", "victim", "seen", "place")}
        for role in "found", "victim":  # before: it forgets them
            _, pins, count = self.frame(self.was[role], at)
            found[role + "_count"] = count
            found[role + "_pins"] = pins and several(pins, "pin")
        return dict(found, free=pool["free"], hand=pool["hand"],
                    hand_slot=pool["hand"] % len(pool["slots"]),
                    seen_slots=seen and several(seen, "slot"))


CASES = {
    (3, GRANT): Told.raised,
    (21, GRANT): Told.raised,
    (4, 5): Told.sort,
    (11, 12): Told.slot_case,
    (13, 14): lambda told: "lowered" if told.victim()[2] else "0 before",
    (14, 15): lambda told: "raised" if told.victim()[2] else "0 still",
    (14, 11): lambda told: "pinned" if told.victim()[1] > 0 else "evicted",
    (17, 18): Told.entry_case,
    (22, 23): lambda told: ("no entry" if told.was["wanted"]
                            not in told.table() else "another frame"),
}


def check_sentences(schedule):
    """Each row says what it has to; how often each form was due."""
    run, met = Watched(schedule), collections.Counter()
    rows = explained(schedule, answers_to(schedule)).rows
    same(len(rows), len(run.answers), "the number of rows")
    for number, row in enumerate(rows):
        told = Told(run, schedule, number)
        key = told.key()
        same(row.happened, SENTENCES[key].format(**told.numbers()),
             "what happened at record %d, %s" % (number, key))
        met[key] += 1
    return met


def revived_before():
    """A run where two revive one page: a case that comes up too seldom."""
    script = generate.Script(4, 3, 1, 0)
    for page in range(4):
        script.fix(0, page)
        script.release(0, page)
    script.begin(0, 9)
    script.until(0, 17)  # page 0 has lost its frame and is in the table
    for client in 1, 2:
        script.begin(client, 0)
        script.until(client, 22)
    for client in 1, 2:
        script.finish(client)
    return bytes(script.data)


def taken_again():
    """A frame is given up; taken again, it is mapped, and then replaced."""
    script = generate.Script(2, 2, 1, 0)
    for client in 0, 1:
        script.begin(client, 9)
        script.until(client, 18)
    me, frame = script.clients[0], script.clients[1].newEntry
    for client in 0, 1:  # the second one joins
        script.finish(client)
        script.release(client, 9)
    for page in range(100, 200):
        script.begin(0, page)
        script.until(0, 17)
        if script.pool.cache.HASHTBL.get(frame.key) is frame is me.removed:
            break
        script.finish(0)
        script.release(0, page)
    script.fix(1, frame.key)
    script.finish(0)
    return bytes(script.data)


def one_client():
    """One client, and none beside it; it holds no page, one, and two, and
    begins again what it holds."""
    script = generate.Script(2, 1, 1, 0)
    script.step(1)
    for page in 5, 2**32 - 1:
        script.release(0, 9)
        script.fix(0, page)
        script.begin(0, page)
    script.release(0, 9)
    return bytes(script.data)


def sentences():
    """Of all sentences, of every form, with all their numbers."""
    met = collections.Counter()
    for made in revived_before, taken_again, one_client:
        met += check_sentences(made())
    for seed in SEEDS:
        schedule = generate.generate(seed)
        if second.run(schedule)[1]:  # else there is no pool
            met += check_sentences(schedule)
    same(set(generate.EDGES) - {key[:2] for key in SENTENCES}, set(),
         "edges without a sentence")
    same(set(SENTENCES) - set(met), set(), "forms that no record asked for")
    return "explain, %d records told in %d forms" % (sum(met.values()),
                                                     len(met))


TESTS = (sentences,)
