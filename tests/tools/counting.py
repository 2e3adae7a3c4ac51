"""What runs come to: the table of stats, what is below it, and its plot."""

import collections
import re
import statistics
import xml.etree.ElementTree

import generate
import second
from checking import need, same
from common import LISTING, answers_to, example
from scheduling import BadInput, records, report, stats
from scheduling.text import make
from scheduling.totals import step_bound

SEEDS = range(60)
SVG = "{http://www.w3.org/2000/svg}"


def counted(schedule):
    """What each client and all came to, by a run of the second program.

    Beside it, for each accepted step of the run, by whichever client, whether
    it was an answer: who works is stepped, and who rests then was answered.
    """
    found, (_, count, _) = records.read(schedule)[0], second.run(schedule)
    pool = second.Pool(*found[0].numbers)
    rows = [collections.Counter() for _ in pool.clients]
    steps, most = [[] for _ in rows], [0] * (len(rows) + 1)
    running, answered = [0] * len(rows), []
    for record in found[1:count]:
        known = record.client < len(rows)
        stage = pool.clients[record.client].stage if known else None
        code, _ = second.call(pool, record.kind, *record.numbers)
        if not known:
            continue
        row, client = rows[record.client], record.client
        row[code] += code > 100
        if record.kind == records.STEP and stage is not None:
            answered.append(pool.clients[client].request is None)
        if record.kind == records.BEGIN and code == 0:
            row["requests"] += 1
            running[client] = 0
        running[client] += record.kind == records.STEP and code in (1, 2, 115)
        if code in (2, 115):
            steps[client].append(running[client])
            row["hits"] += code == 2 and stage == 3
        held = [{page for page, _ in each.grants} for each in pool.clients]
        for place, pages in enumerate([*held, set().union(*held)]):
            most[place] = max(most[place], len(pages))
    total = sum(rows, collections.Counter())
    return [*zip(map(str, range(len(rows))), rows, steps, most),
            ("all", total, sum(steps, []), most[-1])], answered


def refusals_shown(counts):
    """The last two cells of a row: refusals, in all and by number."""
    by = sorted((code - 100, times) for code, times in counts.items()
                if isinstance(code, int) and code > 100 and times)
    listed = ", ".join("%d by %d" % (times, number) for number, times in by)
    return (str(sum(times for _, times in by)),
            listed and "(%s)" % listed)


def rows_shown(text):
    """The cells of each row, by its name; the last one has spaces."""
    for line in text.splitlines()[1:]:
        if not line:
            return
        numbers, bracket, by = line.partition("(")
        yield (*numbers.split(), bracket + by)


# How far the next answer was away: what can stand below the table.
AWAY = "the next answer was at most %s away, counted over all clients;"
AFTER = "after the last one came %s without another;"
NONE = "no answer came in %s, counted over all clients;"
UNSTEPPED = "no answer came, since no step was accepted;"
LIMIT = "with %s, %s and cap %d the next is always at most %s away"


def below(shown):
    """The lines that stand last before the notes."""
    *_, said, notes = shown.split("\n\n")
    need(notes.startswith("requests: "), "the notes begin %.80r" % notes)
    return said.split("\n")


def some(number, thing):
    return "{:,} {}{}".format(number, thing, "s" * (number != 1))


def bound(slots, clients, cap):
    """The number of claim 24, in a form of its own."""
    others = clients - 1
    return (1 + 6 * clients * (slots + 4) + (cap - 1) * (2 * slots ** 2 + slots)
            + others * (2 * slots ** 2 + 3 * slots + 9 * clients
                        + 6 * slots * clients))


def check_away(schedule, shown, answered):
    """The lines have the numbers of a recount, which are in their limits."""
    *ended, last = "".join(".!"[answer] for answer in answered).split("!")
    longest = max((len(steps) + 1 for steps in ended), default=0)
    rest = len(last)
    due = [AWAY % some(longest, "step")] if longest else []
    if rest > longest:
        due.append((AFTER if longest else NONE) % some(rest, "step"))
    slots, clients, cap = schedule[3:6]
    limit = bound(slots, clients, cap)
    same(below(shown), [*(due or [UNSTEPPED]), LIMIT % (
        some(slots, "slot"), some(clients, "client"), cap,
        "{:,}".format(limit))], "how far the next answer was away")
    need(longest <= limit and rest < limit, "an answer is due after %d steps, "
         "but there were %d, and %d in the end" % (limit, longest, rest))


def check_table(schedule):
    answers = answers_to(schedule)
    due, (rows, answered) = [], counted(schedule)
    for name, row, steps, most in rows:
        due.append((name, str(row["requests"]),
                    "%.0f%%" % (100 * row["hits"] / len(steps))
                    if steps else "-",
                    "%g" % statistics.median(steps) if steps else "-",
                    str(max(steps)) if steps else "-", str(most),
                    *refusals_shown(row)))
    everything = collections.Counter(answer.code for answer in answers)
    due[-1] = (*due[-1][:-2], *refusals_shown(everything))
    # Of no client: a client that the pool does not have, the run's end.
    strays = collections.Counter(answer.code for answer in answers
                                 if answer.refusal <= 9)
    if refusals_shown(strays)[1]:
        due.insert(-1, ("none", "0", "-", "-", "-", "0",
                        *refusals_shown(strays)))
    shown = stats.table(schedule, answers)
    same(list(rows_shown(shown)), due, "the table")
    check_away(schedule, shown, answered)


def tables():
    count = 0
    for seed in SEEDS:
        schedule = generate.generate(seed)
        if second.run(schedule)[1]:
            check_table(schedule)
            count += 1
        else:
            for tried in (stats.plot, lambda data: stats.table(
                    data, answers_to(data))):
                try:
                    tried(schedule)
                except BadInput as wrong:
                    need("there is no run" in str(wrong),
                         "it says: %s" % wrong)
                else:
                    raise AssertionError("a run without a setup is counted")
    return "stats, %d runs counted anew with the second program" % count


BOUNDS = {(1, 1, 1): 31, (2, 2, 2): 139, (8, 4, 3): 1701,
          (64, 16, 100): 1043953}


def bounds():
    pools = [(slots, clients, cap) for slots in range(1, 65)
             for clients in range(1, 17) for cap in range(1, 101)]
    for pool in pools:
        same(step_bound(*pool), BOUNDS.get(pool, bound(*pool)),
             "the number of claim 24 for %r" % (pool,))
    return "stats, the number of claim 24 for %d pools" % len(pools)


# Runs of a slot and two clients, and what is due, counted by hand. Client 0 is
# granted a page in 8 steps: at 1, 4 to 9 and 18. While it holds the page,
# client 1 is refused by 15 in 6: at 1, 4, 5 and 10 to 12; and afterwards it is
# granted another in 12: at 1, 4, 5 and 10 to 18.
FIRST = "begin 0 page 9\nstep 0 times 8\n"
OTHER = "begin 1 page 8\nstep 1 times %d\n"
FREED = FIRST + "release 0 page 9\n" + OTHER
AWAYS = (
    ("", UNSTEPPED),
    ("begin 0 page 9\nstep 1 times 3\nstep 2\n", UNSTEPPED),  # by 11, by 9
    ("begin 0 page 9\nstep 0\n", NONE % "1 step"),
    ("begin 0 page 9\n" + OTHER % 3 + "step 0 times 4\n", NONE % "7 steps"),
    (FIRST, AWAY % "8 steps"),
    ("step 0 times 5\n" + FIRST + "step 0 times 9\n", AWAY % "8 steps"),
    (OTHER % 3 + FIRST, AWAY % "11 steps"),
    (FIRST + OTHER % 6, AWAY % "8 steps"),
    (FIRST + 2 * (OTHER % 6) + OTHER % 5, AWAY % "8 steps"),
    (FREED % 8, AWAY % "8 steps"),
    (FREED % 9, AWAY % "8 steps", AFTER % "9 steps"),
    (FREED % 11, AWAY % "8 steps", AFTER % "11 steps"),
    (FREED % 12, AWAY % "12 steps"),
    (FREED % 12 + "release 1 page 8\n" + FIRST, AWAY % "12 steps"),
)
# A record that is cut, a second setup, a step with a page: each ends a run.
ENDS = (b"\x46", records.pack(records.SETUP, 1, 2, 3, 0),
        records.pack(records.STEP, 0, 9))


def distances():
    for calls, *due in AWAYS:
        made = make(b"setup slots 1 clients 2 cap 3 hand 0\n"
                    + calls.encode())
        for schedule in (made, *(made + end for end in ENDS)):
            check_table(schedule)
            same(below(stats.table(schedule, answers_to(schedule)))[:-1], due,
                 "the lines below the table of %r" % calls)
    return "stats, how far the next answer was away in %d runs" % len(AWAYS)


NAMES = {  # what stands beside each look
    "filled": "slots with a frame", "in-use": "slots whose frame is in use",
    "held": "pages that somebody holds", "refusal": "refused by 15"}


def number(shape, name):
    return float(shape.get(name))


def middle(polygon):
    """The point in the middle of a polygon."""
    points = [tuple(map(float, point.split(",")))
              for point in polygon.get("points").split()]
    return tuple(map(statistics.mean, zip(*points)))


class Drawn:
    """The shapes of a plot, and where its areas say that numbers are."""

    def __init__(self, schedule, records_in_all):
        self.root = xml.etree.ElementTree.fromstring(
            stats.plot(schedule).encode())
        self.records, self.size = records_in_all, schedule[3]
        self.areas = [shape for shape in self.all("path")
                      if shape.get("class") in NAMES]
        path = self.areas[0].get("d")
        self.left = float(re.match(r"M([\d.]+)", path)[1])
        self.right, self.bottom = map(float, re.findall(
            r"H([\d.]+) V([\d.]+)", path)[-1])

    def all(self, tag):
        return self.root.iter(SVG + tag)

    def texts(self, anchor):
        return [text for text in self.all("text")
                if text.get("text-anchor") == anchor]

    def record(self, x):
        return (x - self.left) * self.records / (self.right - self.left)

    def level(self, y):
        return (self.bottom - y) * self.size / stats.HEIGHT

    def levels(self, area):
        """The level of an area after each record, by its path."""
        moves = re.findall(r"H([\d.]+) V([\d.]+)", area.get("d"))
        levels = []
        for x, y in moves[:-1]:
            record = round(self.record(float(x)))
            levels += (record - len(levels)) * [levels[-1] if levels else 0]
            levels.append(round(self.level(float(y))))
        return levels + (self.records - len(levels)) * [levels[-1]]

    def samples(self):
        """Look, right end and height of what the legend explains."""
        for box in self.all("rect"):
            if box.get("class") in NAMES:
                yield (box.get("class"), number(box, "x")
                       + number(box, "width"),
                       number(box, "y") + number(box, "height") / 2)
        for mark in self.all("polygon"):
            if mark.get("class") == "refusal" and mark.find(
                    SVG + "title") is None:
                yield ("refusal", *middle(mark))


def due_levels(schedule):
    """How high each area is after each record, by the second program."""
    found, (_, count, refusal) = records.read(schedule)[0], second.run(
        schedule)
    pool, due = second.Pool(*found[0].numbers), []
    for at in range(count):
        if at:
            second.call(pool, found[at].kind, *found[at].numbers)
        frames = [frame for frame in pool.cache.CLOCKBUF.POOL if frame]
        held = {page for client in pool.clients for page, _ in client.grants}
        due.append((len(frames), sum(frame.pinning > 0 for frame in frames),
                    len(held)))
    due += due[-1:] * bool(refusal)  # the record that ended the run
    return dict(zip(("filled", "in-use", "held"), map(list, zip(*due))))


def check_areas(drawn, due):
    """They have their levels, and none is hidden by one that comes later."""
    same(sorted(area.get("class") for area in drawn.areas), sorted(due),
         "the areas")
    below = [drawn.size] * drawn.records
    for area in drawn.areas:
        levels = drawn.levels(area)
        same(levels, due[area.get("class")], "the levels of "
             + area.get("class"))
        need(all(map(int.__le__, levels, below)), "%s hides another"
             % area.get("class"))
        below = levels


def check_marks(drawn, report):
    """Refusals by 15, each over the column of its record."""
    found = []
    for mark in drawn.all("polygon"):
        tip, (x, y) = mark.find(SVG + "title"), middle(mark)
        if tip is not None:  # else it is the legend's
            found.append((round(drawn.record(x) - 0.5, 1), tip.text))
            need(drawn.level(y) > drawn.size, "a mark stands on the areas")
    refused = [line.split() for line in report.splitlines()
               if line.split()[2] == b"115"]
    same(found, [(int(at), "record %d: client %d is refused by 15: its sweep "
                  "met only busy slots" % (int(at), int(client)))
                 for at, client, _, _ in refused], "the marks")


def check_legend(drawn):
    """Each name stands right of the look that it names, and no other."""
    samples = list(drawn.samples())
    same(sorted(look for look, _, _ in samples), sorted(NAMES),
         "the looks in the legend")
    for look, name in NAMES.items():
        text, = [text for text in drawn.all("text") if text.text == name]
        before = [(number(text, "x") - x, other) for other, x, y in samples
                  if abs(number(text, "y") - y) < 8 and x
                  < number(text, "x")]
        gap, nearest = min(before)
        need(nearest == look and gap < 20, "%r stands beside %s"
             % (name, nearest))


def check_axis(found, lines, most):
    """Pairs of a number and where it stands, and where the grid's lines are.

    Both are given by the level or record that the areas have there.
    """
    need(all(abs(due - there) < most / 1000 for due, there in found),
         "numbers and where they stand: %r" % found)
    due = [due for due, _ in found]
    need(due == list(range(0, most + 1, due[1])) and len(due) < 14,
         "the numbers %r of an axis up to %d" % (due, most))
    same([round(line, 1) for line in lines], due, "the lines of the grid")


def check_axes(drawn):
    # A number's foot is half its height below the middle.
    check_axis([(int(text.text), drawn.level(number(text, "y") - 3.5))
                for text in drawn.texts("end")],
               [drawn.level(number(line, "y1")) for line in drawn.all("line")
                if line.get("y1") == line.get("y2")], drawn.size)
    check_axis([(int(text.text), drawn.record(number(text, "x")))
                for text in drawn.texts("middle")],
               [drawn.record(number(line, "x1"))
                for line in drawn.all("line")
                if line.get("x1") == line.get("x2")], drawn.records)


def check_head(drawn, schedule):
    """The setup's numbers and the records."""
    slots, clients, cap = schedule[3:6]
    parts = ["S = %d slot" % slots, "T = %d client" % clients,
             "cap C = %d" % cap,
             "first hand %d" % int.from_bytes(schedule[6:10], "little")]
    head, = [text.text for text in drawn.all("text")
             if text.text.startswith("S = ")]
    setup, _, count = head.partition("; ")
    same([part.rstrip("s") for part in setup.split(", ")], parts, "the head")
    same(count.rstrip("s"), "%d record" % drawn.records, "the head's count")


def check_plot(schedule):
    report, _, _ = second.run(schedule)
    due = due_levels(schedule)
    drawn = Drawn(schedule, len(due["held"]))
    check_areas(drawn, due)
    check_marks(drawn, report)
    check_legend(drawn)
    check_axes(drawn)
    check_head(drawn, schedule)


def plots():
    schedules = [example("example.txt"), example("two-clients.txt"),
                 *(generate.generate(seed) for seed in SEEDS)]
    schedules = [schedule for schedule in schedules
                 if second.run(schedule)[1]]
    for schedule in schedules:
        check_plot(schedule)
    return ("stats --svg, %d plots: each level after each record, marks, "
            "names and numbers" % len(schedules))


def other_reports():
    """A report that is short or of another run is told."""
    schedule = example("example.txt")
    short, strange = ("not played: the report has no line for them",
                      "from record %d on the answers are not those")
    long = make(b"setup slots 1 clients 1 cap 3 hand 0\nbegin 0 page 9\n"
                b"step 0 times 1200\n")
    reports = (
        (schedule, LISTING[:32], "64 bytes from byte 34 on " + short,
         NONE % "2 steps"),
        (schedule, LISTING.replace(b"5 0 1 7", b"5 0 1 5"), strange % 5,
         AWAY % "8 steps"),
        (schedule, b"", "98 bytes from byte 0 on " + short, UNSTEPPED),
        (schedule, b"0 0 108 0\n", strange % 0, UNSTEPPED),
        # Not a step, whatever its answer.
        (schedule, b"0 0 0 1\n1 0 115 0\n", strange % 1, UNSTEPPED),
        # More steps than any run needs.
        (long, b"0 0 0 1\n1 0 0 9\n" + b"".join(
            b"%d 0 1 4\n" % number for number in range(2, 1202)),
         strange % 3, NONE % "1,200 steps"),
    )
    for asked, written, said, away in reports:
        found = stats.table(asked, report.read_report(written, asked))
        need("\n" + said in found, "no line %r in %r" % (said, found))
        same(below(found)[:-1], [away], "the lines below the table")
        need("drops" not in found, "a word on drops, which are not shown")
    return "stats, %d reports that are short or strange" % len(reports)


TESTS = (tables, bounds, distances, plots, other_reports)
