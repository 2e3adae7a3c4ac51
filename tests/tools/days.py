"""Made-up days."""

import collections
import statistics

import second
from checking import need, same
from common import answers_to
from scheduling import BadInput, makeup, records

NUMBERS = (  # what is asked for, each a day of its own
    dict(), dict(seed=2), dict(seed=3, skew=0), dict(clients=1),
    dict(clients=16, slots=64, pages=300, requests=400),
    dict(clients=16, slots=1, requests=40), dict(pages=1, requests=30),
    dict(clients=2, slots=2, requests=10**6, cap=100), dict(requests=1),
)


def pages_of(schedule):
    """The pages that are begun, for each client."""
    found = collections.defaultdict(list)
    for record in records.read(schedule)[0]:
        if record.kind == records.BEGIN:
            found[record.client].append(record.page)
    return found


def check_day(asked):
    """It is played to its end, refused by 15 alone, and leaves nothing."""
    numbers = makeup.Numbers(**asked)
    schedule, requests = makeup.make_up(numbers)
    same(makeup.make_up(numbers)[0], schedule, "the same day again")
    report, count, refusal = second.run(schedule)
    same((refusal, schedule[3], schedule[4], schedule[5]),
         (0, numbers.slots, numbers.clients, numbers.cap), "its setup")
    same({answer.refusal for answer in answers_to(schedule)} - {0, 15}, set(),
         "refusals other than 15")
    pages = pages_of(schedule)
    same(sum(map(len, pages.values())), requests, "its requests")
    need(requests == numbers.requests or len(schedule) > 15000,
         "a day of %d requests is not full" % requests)
    need(max(map(max, pages.values())) < numbers.pages, "its pages")
    found, _ = records.read(schedule)
    pool = second.Pool(*found[0].numbers)
    for record in found[1:count]:
        second.call(pool, record.kind, *record.numbers)
    need(not any(client.request or client.grants for client in pool.clients),
         "somebody works or holds a page at the end")
    return schedule


def hot_share(schedule, walker):
    """The part of the begins, but for the walker's, that is for pages 0-3."""
    begun = collections.Counter(page for client, each in
                                pages_of(schedule).items()
                                if client != walker for page in each)
    return sum(begun[page] for page in range(4)) / sum(begun.values()), begun


def days():
    for asked in NUMBERS:
        check_day(asked)
    schedule, requests = makeup.make_up(makeup.Numbers())
    same(requests, 200, "requests of README's day")
    same(pages_of(schedule)[5], list(range(40)), "the walk over all pages")
    walk = [number for number, record in enumerate(records.read(schedule)[0])
            if record.kind == records.BEGIN and record.client == 5]
    need(max(b - a for a, b in zip(walk, walk[1:])) * 8 < len(schedule) / 8,
         "the walk is not spread over the day")
    hot, _ = hot_share(schedule, 5)
    need(hot > 1 / 2, "four pages are not hot: %.2f" % hot)
    _, begun = hot_share(makeup.make_up(makeup.Numbers(skew=0))[0], 5)
    need(max(begun.values()) < sum(begun.values()) / 8,
         "a day without skew has a hot page")
    return "make-up, %d days: played to the end, hot pages, a walk" % len(
        NUMBERS)


SKEWS = (0, 0.5, 1, 2, 4)


def other_days():
    """What is asked for makes a difference."""
    files = {makeup.make_up(makeup.Numbers(seed=seed))[0]
             for seed in range(5)}
    same(len(files), 5, "files of five seeds")
    for seed in range(3):
        shares = [hot_share(makeup.make_up(makeup.Numbers(
            seed=seed, skew=skew, requests=400))[0], 5)[0] for skew in SKEWS]
        need(all(less + 0.05 < more for less, more
                 in zip(shares, shares[1:])),
             "more skew is not hotter: %r" % shares)
    return "make-up, %d seeds and %d skews that differ" % (len(files),
                                                           len(SKEWS))


def played_day(schedule):
    """How many clients are amid a request after each record, and how long
    pages are kept, from grant to release, counted in records.
    """
    found, _ = records.read(schedule)
    pool, working = second.Pool(*found[0].numbers), []
    granted, kept = {}, []
    for number, record in enumerate(found[1:], 1):
        page = pool.clients[record.client].page
        code, _ = second.call(pool, record.kind, *record.numbers)
        if code == second.GRANTED:
            granted[record.client, page] = number
        if record.kind == records.RELEASE:
            kept.append(number - granted.pop((record.client, record.page)))
        # One that stands at 1 has not done anything yet.
        working.append(sum(client.stage not in (None, 1)
                           for client in pool.clients))
    return working, kept


def busy_days():
    """Requests overlap, and some pages are kept for much longer."""
    for asked in dict(), dict(seed=2), dict(clients=2, slots=4):
        working, kept = played_day(makeup.make_up(
            makeup.Numbers(**asked))[0])
        need(sum(count > 1 for count in working) * 10 > len(working),
             "requests seldom overlap: %r" % collections.Counter(working))
        # If all were kept alike, the longest tenth would be about three
        # times the middle, as turns are of different lengths.
        middle, long = (statistics.quantiles(kept, n=10)[at] for at in (4, 8))
        need(long > 4 * middle, "half of the pages are kept for %d records, "
             "a tenth only for %d" % (middle, long))
    return "make-up, requests that overlap, pages kept for long and not"


WRONG = (("clients", 0), ("clients", 17), ("slots", 65), ("pages", 0),
         ("requests", 0), ("seed", -1), ("skew", -0.5), ("skew", 11),
         ("skew", float("nan")), ("cap", 101))


def wrong_days():
    for name, value in WRONG:
        try:
            makeup.make_up(makeup.Numbers(**{name: value}))
        except BadInput as wrong:
            need(str(wrong).startswith("--%s %s: expected" % (name, value)),
                 "it says: %s" % wrong)
        else:
            raise AssertionError("no complaint about %s %s" % (name, value))
    return "make-up, %d numbers out of range" % len(WRONG)


TESTS = (days, other_days, busy_days, wrong_days)
