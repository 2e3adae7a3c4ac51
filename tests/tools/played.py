"""Runs of the second program, and its pool after each record, in numbers.

The second program's own objects are read, not what the tools make of them:
this is what the tools' pages are held against.
"""

import functools

import second


def number_of(*frames):
    return next((frame.number for frame in frames if frame), None)


def state_of(cache, frame):
    if frame.pinning < 0:
        return "evicted"
    if cache.HASHTBL.get(frame.key) is not frame:
        return "candidate"
    return "in use" if frame.pinning else "not held"


def search_of(client):
    """What the running functions of a request know of its search."""
    known, running = {}, client.request
    while running is not None:
        known.update(running.gi_frame.f_locals)
        running = running.gi_yieldfrom
    stage, found = client.stage or 0, {}
    if stage == 6:
        found["seen"] = known["free"]
    if stage == 8:
        found["place"] = known["idx"]
    if 11 <= stage <= 16:
        found.update(place=known["i"], start=known["start"])
    if stage in (11, 12):
        found["busy"] = known["numpinning"]
    return found


def client_of(client):
    return {"stage": client.stage, "wanted": client.page,
            "own": number_of(client.newEntry),
            "found": number_of(client.entry, client.prevEntry),
            "victim": number_of(client.e, client.removed),
            "grants": sorted([page, frame.number]
                             for page, frame in client.grants),
            **search_of(client)}


def pool_of(pool):
    cache = pool.cache
    return {
        "free": cache.CLOCKBUF.FREE, "hand": cache.CLOCKBUF.CLOCKHAND,
        "slots": [frame and [frame.number, frame.key, frame.pinning,
                             frame.refcount, state_of(cache, frame)]
                  for frame in cache.CLOCKBUF.POOL],
        "table": sorted([page, frame.number, frame.pinning < 0]
                        for page, frame in cache.HASHTBL.items()),
        "clients": list(map(client_of, pool.clients)),
    }


class Played:
    """A run: the pool after each record, whose it was, its code and value.

    'notable' has the number of each refusal, eviction, revival and drop.
    """

    def __init__(self, schedule):
        written, count, refusal = second.run(schedule)
        self.answers = [tuple(map(int, line.split()))[2:]
                        for line in written.splitlines()]
        pool = second.Pool(*second.readRecord(schedule[:10], True)[1:])
        self.pools, self.who, self.notable = [pool_of(pool)], [None], []
        for number in range(1, count):
            at = 10 + 8 * (number - 1)
            self.play(pool, *second.readRecord(schedule[at:at + 10], False))
        if refusal:  # by the record after these, which changed nothing
            self.note(self.pools[-1], None, "refusal")
        self.last = len(self.pools) - 1

    def play(self, pool, kind, client, page):
        evicted = [frame.pinning < 0 for frame in pool.cache.frames]
        mapped = set(pool.cache.HASHTBL)
        stage = client < len(pool.clients) and pool.clients[client].stage
        code, _ = second.call(pool, kind, client, page)
        notable = None
        if code > second.REFUSAL:
            notable = "refusal"
        elif (stage, code) == (22, second.GRANTED):
            notable = "revival"
        elif any(frame.pinning < 0 and not was
                 for was, frame in zip(evicted, pool.cache.frames)):
            notable = "eviction"
        elif mapped - set(pool.cache.HASHTBL):  # by SPECIFICATION 7.3
            notable = "drop"
        self.note(pool_of(pool), client, notable)

    def note(self, pool, client, notable):
        if notable:
            self.notable.append((len(self.pools), notable))
        self.pools.append(pool)
        self.who.append(client)

    def drops(self):
        """The numbers of the records that dropped a page."""
        return [number for number, kind in self.notable if kind == "drop"]


# Some are asked for more than once, and long ones take their time.
played = functools.lru_cache(maxsize=None)(Played)
