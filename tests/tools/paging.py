"""Pages to step through runs.

What a page's data say is compared with the second program's pool after every
record; what stands on the page, in a browser, after ten of them.
"""

import functools
import html.parser
import json
import os
import pathlib
import re
import tempfile

import browser
import generate
import second
from checking import need, same
from common import answers_to, crowded, example
from explaining import explained
from played import played
from scheduling import BadInput, happenings, moments, page, words
from visiting import (LINKS, Visitor, check_apart, check_history, check_keys,
                      check_layout, looks_of)

MOST_BYTES = 600_000
SEEDS = range(24)
NOT_TRIED = "page, NOT tried in a browser: %s"
KINDS = ("refusal", "eviction", "revival", "drop")


# Runs.


def ended():
    """A run that a second setup ends, which changes nothing."""
    return example("two-clients.txt")[:250] + example("example.txt")


def smallest():
    return generate.setup_record(1, 1, 1, 0)


RUNS = {"two clients": example("two-clients.txt"),
        "crowded": crowded(64, 16, generate.MOST_CALLS, pages=80, greed=3),
        "ended by a refusal": ended(), "cut": example("example.txt")[:-3],
        "smallest": smallest()}

page_of = functools.lru_cache(maxsize=None)(page.page)


def check_pool(found, expected, what):
    """Of clients only what the second program tells is compared."""
    for client, known in zip(found["clients"], expected["clients"]):
        for field in set(client) - set(known):
            del client[field]
    for part, value in expected.items():
        same(found[part], value, "%s, %s" % (what, part))


# The file, without a browser.


class Scanner(html.parser.HTMLParser):
    """The data of a page, its totals, and all its attributes."""

    def __init__(self, text):
        super().__init__()
        self.attributes, self.inside = [], None
        self.data, self.totals = "", ""
        self.feed(text)
        self.close()

    def handle_starttag(self, tag, attributes):
        self.attributes += [(tag, *pair) for pair in attributes]
        self.inside = dict(attributes).get("type", tag)

    def handle_data(self, data):
        if self.inside == "application/json":
            self.data += data
        elif self.inside == "pre":
            self.totals += data

    def handle_endtag(self, tag):
        self.inside = None


def merge(pool, changes):
    for key, value in changes.items():
        if isinstance(value, dict):
            merge(pool[key], value)
        else:
            pool[key] = value


def pool_in(data):
    """A pool of the page's data, in the form of what is expected."""
    frames = data["frames"]
    return {
        "free": data["free"], "hand": data["hand"],
        "slots": [slot and [slot[0], *frames[str(slot[0])], slot[1]]
                  for slot in data["slots"].values()],
        "table": sorted([int(page), frame, frames[str(frame)][1] < 0]
                        for page, frame in data["table"].items()
                        if frame is not None),
        "clients": [dict(client, grants=sorted(
            filter(None, client["grants"].values())))
            for client in data["clients"].values()],
    }


def check_data(schedule):
    """The data of a page tell the same run; how many records."""
    scanned, run = Scanner(page_of(schedule)), played(schedule)
    same(scanned.totals.splitlines(),
         explained(schedule, answers_to(schedule)).totals, "the totals")
    data = json.loads(scanned.data)
    same(len(data["records"]), run.last + 1, "records")
    same([tuple(mark[:2]) for mark in data["notable"]], run.notable,
         "the notable records")
    happened = happenings.of_run(moments.Run(schedule))
    same([data["texts"][what] for _, kind, what in data["notable"]
          if kind != "refusal"],
         [happened[number] for number, kind in run.notable
          if kind != "refusal"], "what they did")
    pool = data["first"]
    need(all(len(client["grants"]) <= second.MOST_GRANTS
             for client in pool["clients"].values()), "too many places")
    for number, (client, *said, changes) in enumerate(data["records"]):
        merge(pool, changes)
        check_pool(pool_in(pool), run.pools[number], "record %d" % number)
        same(client, run.who[number], "whose record it is")
        need(all(len(parts.get("grants", ())) <= 1
                 for parts in changes.get("clients", {}).values()),
             "grants move at record %d" % number)
        same(data["texts"][said[1]], happened[number], "what happened")
    return run.last + 1


def playable(schedules):
    return [schedule for schedule in schedules if second.run(schedule)[1]]


def sound_data():
    schedules = [*RUNS.values(), *playable(map(generate.generate, SEEDS))]
    count = sum(map(check_data, schedules))
    return ("page, %d runs: the pool of the page's data after each of %d "
            "records" % (len(schedules), count))


def one_file():
    sizes = []
    for schedule in RUNS.values():
        text = page_of(schedule)
        scanned = Scanner(text)
        same(re.findall(r"https?:|@import|url\(", text), [], "addresses")
        same([found for found in scanned.attributes
              if found[1] in ("src", "href")],
             [("link", "href", "data:,")], "what is loaded")
        same([all(kind in value for kind in KINDS)
              for _, name, value in scanned.attributes
              if name == "title" and value[-3:] in ("(p)", "(n)")],
             [True, True], "buttons that name all kinds of notable records")
        same(text.count("</script>"), 2, "ends of scripts")
        need(len(text.encode()) <= MOST_BYTES, "the file is too large")
        sizes.append(len(text.encode()))
    awkward = {"text": "</script><!--<script>&\u2028"}
    same(json.loads(page.script_data(awkward)), awkward, "data and back")
    need("<" not in page.script_data(awkward), "markup in the data")
    return ("page, %d files: nothing is loaded from elsewhere, at most %d "
            "bytes" % (len(sizes), max(sizes)))


def no_run():
    refused = ((b"", 3), (bytes(16385), 1), (example("example.txt")[10:], 6),
               (generate.setup_record(65, 1, 1, 0), 8))
    for schedule, number in refused:
        try:
            page.page(schedule)
        except BadInput as wrong:
            same(str(wrong), "there is no run to show: "
                 + words.refused(number), "the complaint")
        else:
            raise AssertionError("a page without a run")
    return "page, %d files without a run: a complaint" % len(refused)


# In a browser.


def ways(visitor, run):
    """Ten records over the run, each with a way to it."""
    notable = [number for number, _ in run.notable]
    spread = [run.last * part // 9 for part in range(10)]
    to_any = (visitor.by_field, visitor.by_keys, visitor.by_slider,
              visitor.by_address, visitor.back_to, visitor.by_buttons,
              visitor.by_opening)
    for place, number in enumerate(spread):
        if place in (3, 6) and notable:
            number = min(notable, key=lambda one: abs(one - number))
            # In a long run the strip's marks are too thin for a mouse.
            yield (visitor.by_strip if place == 6 and run.last < 200
                   else visitor.by_link), number
        else:
            yield to_any[place % len(to_any)], number


def differing(before, after):
    return [place for place, (was, now) in enumerate(zip(before, after))
            if was != now]


def check_marks(found, run, number):
    """What the record changed is marked, and nothing else."""
    before, now = run.pools[max(number - 1, 0)], run.pools[number]
    same(found["changed"]["slots"], differing(before["slots"], now["slots"]),
         "slots that changed")
    was, entries = ({entry[0]: entry for entry in pool["table"]}
                    for pool in (before, now))
    same(found["changed"]["table"],
         sorted(page for page in {*was, *entries}
                if was.get(page) != entries.get(page)),
         "entries that changed")
    same(sorted(found["changed"]["numbers"]),
         [name for name in ("free", "hand") if before[name] != now[name]],
         "hand and free")
    known = [client for client in (run.who[number],)
             if client is not None and client < len(now["clients"])]
    same(found["current"], known, "whose record it is")
    need(set(found["changed"]["clients"]) <= set(known), "clients changed")
    passed = [one for one, _ in run.notable if one <= number]
    same(found["here"], passed[-1:], "the place in the list")
    same(found["marked"], [one for one in passed if one == number],
         "the link to this record")


def check_words(found, run, number):
    kind, asked, _, answer = found["words"]
    same(kind, dict(run.notable).get(number, ""), "what kind of record")
    if run.who[number] is not None:
        need(asked.startswith("client %d: " % run.who[number]), asked)
    code, value = run.answers[number]
    said = {0: "done", 1: r"now .*\b%d: " % value,
            2: r"granted frame %d\b" % value}.get(
                code, "refused by %d: " % (code - second.REFUSAL))
    need(re.match(said, answer), "%r does not say %r" % (answer, said))


def check_shown(visitor, run, number):
    found = visitor.read()
    same(found["record"], number, "the record")
    check_words(found, run, number)
    check_marks(found, run, number)
    slot = found["hand"] % len(found["slots"])
    same(found["hands"], [slot, slot], "the hand's slot")
    for client in found["clients"]:
        same(client["words"], words.STAGES.get(client["stage"], "rests"),
             "the stage in words")
    check_pool(found, run.pools[number], "record %d" % number)


def check_page(visitor, run):
    same(visitor.evaluate(LINKS), list(map(list, run.notable)), "the links")
    for way, number in ways(visitor, run):
        way(number)
        try:
            check_shown(visitor, run, number)
        except AssertionError as wrong:
            raise AssertionError("%s: %s" % (way.__name__, wrong)) from None
    same(visitor.follow_all(),
         [[number, "#%d" % number] for number, _ in run.notable],
         "where the links lead")
    for width, height in ((1280, 800), (500, 900)):
        check_layout(visitor, run, width, height)


def without_a_browser(why):
    """What to say, unless a browser is asked for."""
    said = NOT_TRIED % why
    need(os.environ.get("FOQHERAN_BROWSER") != "required", said)
    return said


def in_a_browser():
    if browser.program() is None:
        return without_a_browser("no Chromium here; apt-get install chromium")
    try:
        reader = browser.Browser()
    except (browser.Failed, OSError) as wrong:
        return without_a_browser("%s cannot be started: %s"
                                 % (browser.program(), wrong))
    with reader:
        return try_pages(reader)


def try_pages(reader):
    with tempfile.TemporaryDirectory() as folder:
        path, links, looks = pathlib.Path(folder) / "run.html", 0, {}
        for name, schedule in RUNS.items():
            run = played(schedule)
            reader.view(1280, 800)
            path.write_text(page_of(schedule), encoding="utf-8")
            visitor = Visitor(reader, path)
            check_page(visitor, run)
            for dark in (False, True):
                reader.view(1280, 800, dark)
                looks.setdefault(dark, {}).update(looks_of(visitor, run))
            links += len(run.notable)
            if name == "two clients":
                check_keys(visitor, run)
                check_history(visitor, run)
        for found in looks.values():
            same(sorted(found), sorted(KINDS), "kinds of notable records")
            check_apart(found)
        same(reader.complaints(), [], "complaints")
        same({address.partition("#")[0] for address in reader.requests()},
             {visitor.url}, "what was asked for")
    return ("page, %d runs in a browser: ten records of each by all ways, %d "
            "links, keys, address, layout, colours, nothing loaded from "
            "elsewhere"
            % (len(RUNS), links))


TESTS = (sound_data, one_file, no_run, in_a_browser)
