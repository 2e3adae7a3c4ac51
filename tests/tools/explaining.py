"""Runs in words: each record and its answer, the pool, and the totals.

What happened at each record is another subject: telling.
"""

import collections
from typing import NamedTuple

import generate
import second
from checking import need, same
from common import LISTING, answers_to, begun_again, example
from played import played
from scheduling import BadInput, explain, moments, report, words

SEEDS = range(120)


class Row(NamedTuple):
    """A row of the listing, cut below its headings."""

    record: str
    client: str
    asked: str
    happened: str
    answer: str


HEADINGS = ("record", "client", "asked", "what happened", "answer")


class Explained(NamedTuple):
    """What is printed: a row for each answer, notes, and the totals."""

    rows: list
    notes: list
    totals: list


def explained(schedule, answers):
    heading, *lines = explain.explain(schedule, answers).splitlines()
    blank = lines.index("")
    starts = list(map(heading.index, HEADINGS))
    rows = [Row(*(line[start:end].strip() for start, end
                  in zip(starts, starts[1:] + [None])))
            for line in lines[:len(answers)]]
    return Explained(rows, lines[len(answers):blank], lines[blank + 1:])


# The rows but for what happened, by the report and the file's bytes.


UNREADABLE = (3, 4, 5, 7)  # refusals of what is no record at all


def lines_of(schedule):
    """The numbers of each line of the report."""
    return [tuple(map(int, line.split()))
            for line in second.run(schedule)[0].splitlines()]


class Listing:
    """The rows of a schedule file, as far as its report tells.

    The words for stages and refusals are the tool's own, which another test
    (tests/specification.py) holds to those of the specification.
    """

    def __init__(self, schedule):
        self.schedule = schedule
        self.stages, self.wanted = {}, {}  # of each client
        self.rows = [self.row(*line) for line in lines_of(schedule)]

    def row(self, number, _, code, value):
        """The row of a line; what happened is left out."""
        record = generate.record_at(self.schedule, number)
        refusal = code - second.REFUSAL
        if refusal in UNREADABLE:
            return Row(str(number), "", "(cannot be read)", "",
                       words.refused(refusal))
        kind, client = record[2:4]
        page = int.from_bytes(record[4:8], "little")
        asked = self.asked(kind, client, page)
        answer = self.answer(kind, client, page, code, value)
        return Row(str(number), "" if kind == second.SETUP else str(client),
                   asked, "", answer)

    def asked(self, kind, client, page):
        if kind == second.SETUP:
            return "setup"
        if kind == second.STEP:
            return ("step at %d" % self.stages[client]
                    if client in self.stages else "step")
        return "%s page %d" % ("begin" if kind == second.BEGIN else "release",
                               page)

    def answer(self, kind, client, page, code, value):
        """The answer; and what the client wants and where it stands now."""
        if code == second.WORKING:
            self.stages[client] = value
            return "now at %d: %s" % (value, words.STAGES[value])
        if code == second.DONE and kind == second.BEGIN:
            self.stages[client], self.wanted[client] = 1, page
            return "done; now at 1: look up the page"
        if code == second.DONE:
            return "done"
        if code == second.GRANTED:
            del self.stages[client]
            return "granted frame %d for page %d" % (value,
                                                     self.wanted[client])
        if code == second.REFUSAL + 15:
            del self.stages[client]
        return words.refused(code - second.REFUSAL)


def check_rows(schedule, rows):
    """Each row is the one that report and bytes ask for."""
    due = Listing(schedule).rows
    same(len(rows), len(due), "the number of rows")
    for row, expected in zip(rows, due):
        same(row._replace(happened=""), expected, "a row")
    return due


def check_notes(schedule, notes):
    """Bytes that were not played are told of, and nothing else."""
    _, count, refusal = second.run(schedule)
    at = 10 + 8 * (count - 1) if count else 0
    if refusal and refusal not in UNREADABLE:  # it could be read
        at += 8 if schedule[at + 2] else 10
    left = len(schedule) - at
    same(notes, ["%d byte%s from byte %d on not played: the run ended"
                 % (left, "" if left == 1 else "s", at)] if left else [],
         "what is left over")


# The totals.


def owner(line, clients):
    """Whose line it is: 'none' if it is of no client of the pool."""
    number, client, code, _ = line
    ended = second.REFUSAL < code <= second.REFUSAL + 8
    return str(client) if number and not ended and client < clients else "none"


def drops_of(schedule):
    """The records that dropped a page: the lines do not tell."""
    return played(schedule).drops() if second.run(schedule)[1] else []


def counts_of(schedule, lines, drops):
    """The seven counts of some lines, and the refusals by number."""
    edges = collections.Counter(generate.edges_taken(
        b"".join(second.line(*line) for line in lines)))
    begun = sum(code == second.DONE and number > 0 and generate.record_at(
        schedule, number)[2] == second.BEGIN for number, _, code, _ in lines)
    refusals = collections.Counter(code - second.REFUSAL for _, _, code, _
                                   in lines if code > second.REFUSAL)
    by = ", ".join("%d by %d" % (times, number)
                   for number, times in sorted(refusals.items()))
    return [begun, *(edges[stage, generate.GRANT] for stage in (3, 21, 18,
                                                                22)),
            sum(number in drops for number, _, _, _ in lines),
            sum(refusals.values())], by and "(%s)" % by


def due_totals(schedule):
    """Of each client, of no client and of all: what the lines add up to."""
    lines, drops = lines_of(schedule), drops_of(schedule)
    clients = schedule[4] if lines[0][2] == second.DONE else 0
    parts = {str(client): [] for client in range(clients)}
    for line in lines:
        parts.setdefault(owner(line, clients), []).append(line)
    # Those of no client stand before the sum, if any were refused.
    strays = parts.pop("none", [])
    if counts_of(schedule, strays, drops)[1]:
        parts["none"] = strays
    parts["all"] = lines
    return [(name, *counts_of(schedule, part, drops))
            for name, part in parts.items()]


def check_totals(schedule, totals):
    heading, *rows = totals
    same(heading.split(), ["client", "requests", "hits", "joins", "admitted",
                           "revived", "drops", "refusals"], "the counts")
    found = []
    for row in rows:
        counts, bracket, by = row.partition("(")
        name, *counts = counts.split()
        found.append((name, list(map(int, counts)), bracket + by))
    same(found, due_totals(schedule), "the totals")
    _, (_, _, _, admitted, _, drops, _), _ = found[-1]
    if second.run(schedule)[1]:  # by SPECIFICATION 7.4
        same(admitted - drops, len(played(schedule).pools[-1]["table"]),
             "admitted less drops")


def explanations():
    rows = []
    for seed in SEEDS:
        schedule = generate.generate(seed)
        if second.run(schedule)[0]:  # a file that is too long has no report
            found = explained(schedule, answers_to(schedule))
            rows += check_rows(schedule, found.rows)
            check_notes(schedule, found.notes)
            check_totals(schedule, found.totals)
    need(any(row.client in map(str, range(10, 16))
             and row.answer.startswith("granted") for row in rows),
         "no client above 9 was granted a page")
    need(any(row.answer.startswith("granted") and int(row.answer.split()[-1])
             > 2**16 for row in rows), "no page above 65535 was granted")
    need(any(row.client == "255" for row in rows), "no client 255 was met")
    same(sorted(words.STAGES), list(range(1, 24)), "the stages with a name")
    same(sorted(words.REFUSALS), list(range(1, 19)), "the refusals in words")
    return ("explain, seeds 0 to %d: %d rows, totals by client and in all"
            % (SEEDS[-1], len(rows)))


# Drops, which the report does not tell.


def removed_by_another():
    """Client 0 evicts page 9, and client 1 takes its place."""
    script = generate.Script(1, 2, 1, 0)
    script.fix(0, 9)
    script.release(0, 9)
    for client, page in ((0, 7), (1, 5)):
        script.begin(client, page)
        script.until(client, 15)
    for client in 1, 0:
        script.finish(client)
    return bytes(script.data)


def never_mapped():
    """Client 0 takes the place of a candidate that was given up."""
    script = generate.Script(2, 2, 1, 0)
    for client in 0, 1:
        script.begin(client, 9)
        script.until(client, 18)
    for client in 0, 1:
        script.finish(client)
    script.fix(0, 7)
    return bytes(script.data)


DROPS = (  # a run, what its 17s did, drops of the two clients and in all
    (example("two-clients.txt"),
     ["dropped: page 5 leaves the table",
      "the entry was already replaced: nothing removed"], [0, 1, 1]),
    (removed_by_another(), ["dropped: page 9 leaves the table"], [0, 1, 1]),
    (never_mapped(),
     ["frame 1 was given up and has no entry: nothing removed"], [0, 0, 0]),
)
LEFT = ("from record %d on the answers are not those of this schedule's run; "
        "drops are counted up to there")


def drops_shown(found):
    """The drops of each row of the totals."""
    place = found.totals[0].split().index("drops")
    return [int(row.split()[place]) for row in found.totals[1:]]


def leaving(schedule, number):
    """The answers to a schedule, with another value at a record."""
    lines = [list(line) for line in lines_of(schedule)]
    lines[number][-1] += 1
    return report.read_report(b"".join(second.line(*line) for line in lines),
                              schedule)


def check_leaving(schedule):
    """Where a report leaves the run, drops are known up to there."""
    clients, left = schedule[4], range(len(lines_of(schedule)))
    for number in left:
        found = explained(schedule, leaving(schedule, number))
        same(found.notes, [LEFT % number], "what is said of the report")
        owners = [played(schedule).who[drop] for drop in drops_of(schedule)
                  if drop < number]
        same(drops_shown(found), [*map(owners.count, range(clients)),
                                  len(owners)],
             "drops up to record %d" % number)
    return len(left)


def drops():
    """By whom, for what, and as far as it is known."""
    for schedule, happened, due in DROPS:
        found = explained(schedule, answers_to(schedule))
        same([row.happened for row in found.rows
              if row.asked == "step at 17"], happened, "what 17 did")
        same(drops_shown(found), due, "drops")
    count = sum(check_leaving(schedule) for schedule, _, _ in DROPS)
    refused = generate.setup_record(65, 1, 1, 0)  # there is no pool
    found = explained(refused, report.read_report(b"0 0 0 65\n", refused))
    same(found.notes, [LEFT % 0], "what is said of a setup that is refused")
    return "explain, drops of %d runs and of %d reports that leave them" % (
        len(DROPS), count + 1)


# A page that is begun again.


BEGUN = "begin page 9", "wants page 9", "done; now at 1: look up the page"
HELD = ("begin page 9", "it holds page 9",
        "refused by 18: the client holds this page already")
RELEASED = "release page 9"


def held_already():
    """It is refused by 18, the run goes on, and one release is enough."""
    found = explained(begun_again(), answers_to(begun_again()))
    same([row[1:] for row in found.rows if row.asked in (BEGUN[0], RELEASED)],
         [("0", *BEGUN), ("0", *HELD), ("1", *BEGUN), ("1", *HELD),
          ("0", RELEASED, "frame 0 has 1 pin now", "done"),
          ("1", RELEASED, "frame 0 has no pins now: nobody holds page 9",
           "done"), ("1", *BEGUN)], "what is said of page 9")
    same([row.split()[-4:] for row in found.totals[1:]],
         [["1", "(1", "by", "18)"], ["1", "(1", "by", "18)"],
          ["2", "(2", "by", "18)"]], "the refusals of each client and of all")
    return "explain, a page that two clients hold and begin again"


# The pool behind the words.


def in_numbers(moment):
    """A moment in the form of what played tells."""
    return {
        "free": moment.free, "hand": moment.hand,
        "slots": [None if frame is None else
                  [frame, *moment.frames[frame], moment.state(frame)]
                  for frame in moment.slots],
        "table": sorted([page, frame, moment.frames[frame].pins < 0]
                        for page, frame in moment.table.items()),
        "clients": [dict(client._asdict(),
                         grants=sorted(map(list, client.grants)))
                    for client in moment.clients]}


def check_moment(moment, expected):
    """Of clients all is compared that the second program tells of them."""
    found = in_numbers(moment)
    for client, known in zip(found["clients"], expected["clients"]):
        for name in set(client) - set(known):
            if client["stage"] is None:
                same(client[name], None, name + " of a client at rest")
            del client[name]
    same(found, expected, "the pool")


def pools():
    """The pool that sentences are made from is the second program's."""
    count = 0
    for schedule in map(generate.generate, range(60)):
        run = moments.Run(schedule)
        if run.calls:
            same(len(run.moments), played(schedule).last + 1, "moments")
            for moment, pool in zip(run.moments, played(schedule).pools):
                check_moment(moment, pool)
                count += 1
    return "explain, the pool after each of %d records" % count


# Reports from elsewhere.


WRONG_REPORTS = (  # a report of the first example, and what is said of it
    (b"0 0 0 1\n1 0 0\n", ("line 2", "four numbers")),
    (b"0 0 0 1\n1 0 3 0\n", ("line 2", "no code 3")),
    (b"0 0 0 1\n2 0 0 9\n", ("line 2", "expected record 1")),
    (b"0 0 0 1\n1 1 0 9\n", ("line 2", "client 1")),
    (LISTING + b"12 0 111 0\n", ("line 13", "only 12 records")),
    (b"0 0 108 0\n1 0 0 9\n", ("line 2", "ends the run")),
    (b"0 0 1 5\n", ("line 1", "code 1, which no setup has")),
    (b"0 0 0 1\n1 0 2 0\n", ("line 2", "code 2, which no begin has")),
    (b"0 0 0 1\n1 0 0 9\n2 0 0 4\n", ("line 3", "code 0, which no step")),
)


def given_reports():
    schedule = example("example.txt")
    for wrong_report, parts in WRONG_REPORTS:
        try:
            report.read_report(wrong_report, schedule)
        except BadInput as wrong:
            need(all(part in str(wrong) for part in parts),
                 "it says: %s" % wrong)
        else:
            raise AssertionError("no complaint about %r" % wrong_report)
    half = report.read_report(LISTING[:32], schedule)
    need("64 bytes from byte 34" in explain.explain(schedule, half),
         "nothing about what a short report leaves out")
    strange = report.read_report(LISTING.replace(b"5 0 1 7", b"5 0 1 5"),
                                 schedule)
    found = explained(schedule, strange)
    same([bool(row.happened) for row in found.rows],
         [True] * 5 + [False] * 7, "what is known of a strange report's run")
    need("from record 5 on" in found.notes[-1],
         "no word on a strange report")
    return ("explain, %d wrong reports, a short one and a strange one"
            % len(WRONG_REPORTS))


TESTS = (explanations, drops, held_already, pools, given_reports)
