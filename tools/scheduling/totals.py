"""What the answers to a schedule's records add up to, client by client.

Only the steps from one answer to the next are counted over all clients; how
many these can be is guaranteed.

Records and answers are enough for all counts but one: a step's answer tells
where the client stands, and so which stage it does next. Drops have to be
told, since a 17 answers the same whether or not it removes an entry.
"""

import collections
import statistics

from .records import BEGIN, RELEASE, SETUP, STEP
from .report import DONE, GRANTED, WORKING

# Where a request is granted, and as what it counts: SPECIFICATION 7.1.
GRANTS = {3: "hits", 21: "joins", 18: "admitted", 22: "revived"}
COUNTS = ("requests", *GRANTS.values(), "drops", "refusals")


def ends_request(answer):
    """Whether it answers a request: a grant, or refusal 15."""
    return answer.code == GRANTED or answer.refusal == 15


class Client:
    """What the answers so far tell of a client."""

    def __init__(self):
        self.stage = None  # where it stands while it works
        self.page = None  # what it wants
        self.taken = 0  # steps of the request that runs
        self.steps = []  # of each request that was answered
        self.held = set()  # its pages
        self.most_held = 0
        self.counts = collections.Counter()
        self.refusals = collections.Counter()

    def note(self, record, answer):
        """Take in the answer to a record of this client."""
        if answer.refusal:
            self.refuse(answer.refusal)
        if record.kind == BEGIN and answer.code == DONE:
            self.stage, self.page, self.taken = 1, record.page, 0
            self.counts["requests"] += 1
        elif record.kind == RELEASE and answer.code == DONE:
            self.held.discard(record.page)
        elif answer.code == WORKING:
            self.taken += 1
            self.stage = answer.value
        elif ends_request(answer):
            self.end(answer)

    def refuse(self, number):
        self.refusals[number] += 1
        self.counts["refusals"] += 1

    def end(self, answer):
        """The answer to its request."""
        self.steps.append(self.taken + 1)
        if answer.code == GRANTED:
            self.counts[GRANTS.get(self.stage)] += 1
            self.held.add(self.page)
            self.most_held = max(self.most_held, len(self.held))
        self.stage = None

    def hit_rate(self):
        """Hits among its answered requests, or None without any."""
        return self.counts["hits"] / len(self.steps) if self.steps else None

    def median_steps(self):
        return statistics.median(self.steps) if self.steps else None

    def longest_steps(self):
        return max(self.steps, default=None)


def step_bound(slots, clients, cap):
    """Of so many accepted steps, one after the other, one is an answer.

    So it is in every run, whichever clients are stepped and whatever other
    calls stand between: claim 24 of docs/GUARANTEE.md, somebody always gets
    through.
    """
    return ((2 * slots + 1) * slots * (cap - 1)
            + (2 * slots + 3) * (clients - 1) * (slots + 3 * clients)
            + (6 * slots + 24) * clients + 1)


class Stretches:
    """The accepted steps of all clients together, from answer to answer."""

    def __init__(self):
        self.longest = 0  # up to an answer and with it; 0 without any
        self.last = 0  # since the last answer, or else since the setup

    def note(self, answer):
        """Take in the answer to a step, of whichever client."""
        if answer.code == WORKING or ends_request(answer):
            self.last += 1  # else it was turned down
        if ends_request(answer):
            self.longest, self.last = max(self.longest, self.last), 0


def by_number(refusals):
    """Refusals by their numbers, in brackets, if there are any."""
    return "" if not refusals else "(%s)" % ", ".join(
        "%d by %d" % (times, number)
        for number, times in sorted(refusals.items()))


def sum_of(parts, most_held):
    """Clients taken together, as if they were one."""
    whole = Client()
    for part in parts:
        whole.counts.update(part.counts)
        whole.refusals.update(part.refusals)
        whole.steps += part.steps
    whole.most_held = most_held
    return whole


class Totals:
    """What each client of the pool came to, and what all of them did.

    Drops are those of the records whose numbers are given. 'strays' has the
    refusals of records that are of no client of the pool, and of the one that
    ended the run.
    """

    def __init__(self, records, answers, drops=()):
        clients = (records[0].numbers[1]
                   if records and answers and answers[0].code == DONE else 0)
        self.clients = [Client() for _ in range(clients)]
        self.strays = Client()
        self.stretches = Stretches()
        most_held = 0
        for answer in answers:
            record = (records[answer.number]
                      if answer.number < len(records) else None)
            if record is not None and record.kind != SETUP:
                client = self.of(record, answer)
                client.note(record, answer)
                client.counts["drops"] += answer.number in drops
                if record.kind == STEP:
                    self.stretches.note(answer)
            elif answer.refusal:
                self.strays.refuse(answer.refusal)
            if answer.code == GRANTED:
                held = set().union(*(client.held for client in self.clients))
                most_held = max(most_held, len(held))
        self.all = sum_of([*self.clients, self.strays], most_held)

    def of(self, record, answer):
        """Whose answer it is."""
        if answer.ends_run or record.client >= len(self.clients):
            return self.strays
        return self.clients[record.client]

    def parts(self):
        """Pairs of a name and what it came to; the last is all."""
        named = [(str(number), client)
                 for number, client in enumerate(self.clients)]
        if self.strays.refusals:
            named.append(("none", self.strays))
        return named + [("all", self.all)]
