"""A made-up day, as a schedule file.

A few pages are hot and most are seldom asked for. All clients but the last
pick pages by their heat and keep some of them for long. The last one walks
over all pages in order, evenly over the day, and keeps none for long. Who
acts next is drawn, so requests overlap. A client that is refused for want of a frame gives
back what it has and asks again.
"""

import bisect
import itertools
from typing import NamedTuple

import second
from generate import Dice, Script

from . import BadInput, BadUsage


class Numbers(NamedTuple):
    """What a day is made from."""

    clients: int = 6
    slots: int = 8
    pages: int = 40
    requests: int = 200
    seed: int = 1
    skew: float = 2.0
    cap: int = 3


RANGES = {  # the least and the most; None: there is no most
    "clients": (1, second.MOST_CLIENTS), "slots": (1, second.MOST_SLOTS),
    "pages": (1, 10**6), "requests": (1, None), "seed": (0, None),
    "skew": (0, 10), "cap": (1, second.MOST_COUNT)}

MOST_STEPS = 6  # that a client does in one turn
SHORT, LONG = (2, 12), (30, 120)  # for how many turns a page is kept
WALK_SHARE = 3  # at most one request in so many is the walk's


def check(numbers):
    """Complain of a number that is out of its range."""
    for name, (least, most) in RANGES.items():
        value = getattr(numbers, name)
        # A skew that is no number compares as false.
        if not (least <= value and (most is None or value <= most)):
            raise BadUsage("--%s %s: expected %d %s" % (
                name, value, least,
                "or more" if most is None else "to %d" % most))


class Heat:
    """Draws pages: page n in proportion to 1 / (n + 1) ** skew."""

    def __init__(self, dice, pages, skew):
        self.dice = dice
        self.sums = list(itertools.accumulate(
            (page + 1) ** -skew for page in range(pages)))

    def page(self):
        drawn = self.dice.random() * self.sums[-1]
        return min(bisect.bisect(self.sums, drawn), len(self.sums) - 1)


class Person:
    """Who uses the pool under one client's number."""

    def __init__(self, client, most_held, next_page, keeps):
        self.client, self.most_held = client, most_held
        self.next_page = next_page  # draws the page for a request
        self.keeps = keeps  # draws for how long
        self.begun = 0
        self.due = {}  # for each page held, when it is given back
        self.wants = None  # a page still to be granted


class Day:
    """A script that is written turn by turn."""

    def __init__(self, numbers, requests):
        self.dice = dice = Dice(numbers.seed)
        self.script = Script(numbers.slots, numbers.clients, numbers.cap, 0)
        self.now, self.requests = 0, requests
        heat = Heat(dice, numbers.pages, numbers.skew)
        # Most of the time not all slots are held.
        share = min(max(1, numbers.slots // numbers.clients + 1), 4)
        self.people = [Person(client, share, heat.page, self.mixed)
                       for client in range(numbers.clients)]
        self.walk, self.walker = min(numbers.pages,
                                     requests // WALK_SHARE), None
        if numbers.clients > 1:
            pages = itertools.cycle(range(numbers.pages))
            self.walker = self.people[-1] = Person(
                numbers.clients - 1, 1, lambda: next(pages), self.short)

    def short(self):
        return self.dice.between(*SHORT)

    def mixed(self):
        """One page in four is kept for long."""
        return self.dice.between(*(LONG if self.dice.chance(1, 4)
                                   else SHORT))

    def begun(self):
        return sum(person.begun for person in self.people)

    def is_behind(self):
        """Whether the walk has to go on, to be over with the day."""
        return (self.walker is not None and self.walker.begun * self.requests
                < self.walk * self.begun())

    def next_person(self):
        """Anyone; while the walk is behind, its client every other time."""
        if self.is_behind() and self.dice.chance(1, 2):
            return self.walker
        return self.dice.pick(self.people)

    def full(self):
        return not self.script.room()

    def turn(self, person):
        """Some steps, a page given back, or a new request."""
        script, client = self.script, person.client
        if script.works(client):
            for _ in range(self.dice.between(1, MOST_STEPS)):
                if script.works(client):
                    script.step(client)
            if not script.works(client):
                self.answered(person)
            return
        late = [page for page, due in person.due.items() if due <= self.now]
        if late:
            self.give_back(person, late[0])
        elif len(person.due) < person.most_held and (
                person is not self.walker or self.is_behind()):
            self.ask(person)

    def answered(self, person):
        """Keep the page, or make room if it was refused."""
        if person.wants in self.script.held(person.client):
            person.due[person.wants] = self.now + person.keeps()
            person.wants = None
        else:
            person.due = dict.fromkeys(person.due, self.now)

    def give_back(self, person, page):
        del person.due[page]
        self.script.release(person.client, page)

    def ask(self, person):
        if person.wants is None:
            person.wants = person.next_page()
            if person.wants in person.due:  # it has that one
                person.wants = None
                return
        person.begun += 1
        self.script.begin(person.client, person.wants)

    def play(self):
        """All requests from the first begin to the last release."""
        while self.begun() < self.requests and not self.full():
            self.now += 1
            self.turn(self.next_person())
        for client in range(len(self.people)):
            self.script.finish(client)
            for page in self.script.held(client):
                self.script.release(client, page)
        return self


def make_up(numbers):
    """The file, and how many of the requests have room in it."""
    check(numbers)
    day = Day(numbers, numbers.requests).play()
    requests = day.begun()
    while day.full():
        requests -= 1
        if requests == 0:
            raise BadInput("not one request has room in a schedule file")
        day = Day(numbers, requests).play()
    return bytes(day.script.data), requests
