"""A page to step through a run, as one HTML file.

The page has the pool after the first record and, for each record, its words
and what it changed; its script plays them. What can be said of the run is
said here, so the script only moves, shows and marks. Style and script are
put into the file: it asks the network for nothing.
"""

import html
import json
import pathlib
import re

from . import explain, happenings, symbols, words
from .history import marks_of
from .moments import run_to
from .picture import TITLE
from .records import SETUP, read
from .report import read_report, second_report
from .text import command

PARTS = pathlib.Path(__file__).with_suffix("")  # the folder of that name
STYLES = ("palette.css", "deck.css", "pool.css")
SCRIPTS = ("run.js", "cards.js", "links.js", "moves.js")

REFUSAL, EVICTION, REVIVAL, DROP = "refusal", "eviction", "revival", "drop"
KINDS = {  # of marks, by stage; a candidate that is given up is evicted, too
    14: EVICTION, 20: EVICTION, 23: EVICTION, 22: REVIVAL, 17: DROP}


# What is shown of the pool. A part that changes by itself is a dict, so that
# the changes of a record can be told as the same dicts with less in them.


def numbered(things):
    return dict(enumerate(things))


def settled(places, grants):
    """The same grants as before at the same places, a new one in a gap.

    The order of grants has no meaning, but on a page they should not move.
    """
    found = [grant if grant in grants else None for grant in places]
    for grant in grants:
        if grant not in found:
            if None not in found:
                found.append(None)
            found[found.index(None)] = grant
    return found


def grant_places(moments):
    """The places of each client's grants, for each moment."""
    places = [[] for _ in moments[0].clients]
    for moment in moments:
        places = [settled(before, client.grants)
                  for before, client in zip(places, moment.clients)]
        yield places


class Pools:
    """The pool of each moment of a run, as it is shown."""

    def __init__(self, moments):
        self.moments = moments
        self.pages = sorted({page for moment in moments
                             for page in moment.table})
        self.places = list(grant_places(moments))
        self.most = list(map(len, self.places[-1]))  # places are kept

    def client(self, client, grants, most):
        gaps = [None] * (most - len(grants))
        return dict(client._asdict(), grants=numbered(grants + gaps))

    def at(self, number):
        moment, places = self.moments[number], self.places[number]
        return {
            "free": moment.free,
            "hand": moment.hand,
            "slots": numbered(None if frame is None
                              else (frame, moment.state(frame))
                              for frame in moment.slots),
            "frames": numbered(moment.frames),
            "table": {page: moment.table.get(page) for page in self.pages},
            "clients": numbered(map(self.client, moment.clients, places,
                                    self.most)),
        }


def changes(before, after):
    """What of a dict is another now, and only that."""
    return {key: changes(before[key], now) if isinstance(now, dict) else now
            for key, now in after.items() if before[key] != now}


# What is said of the records.


def asked_of(record, call, asked):
    """Who asks, and for what; with the words of the stage that is done."""
    if record is not None and record.kind == SETUP:
        return command(record)
    if record is None or call.client is None:
        return asked
    if call.did is not None:
        asked += ", " + words.STAGES[call.did]
    return "client %d: %s" % (call.client, asked)


def notable(run):
    """The records that are worth a link, and what they are."""
    kinds = {call.number: REFUSAL for call in run.calls if call.refusal}
    for mark in marks_of(run):
        kinds[mark.column] = KINDS[mark.stage]
    return kinds


class Texts(dict):
    """Texts that are told once and then named by a number."""

    def number(self, text):
        return self.setdefault(text, len(self))


def told(run, records, answers):
    """For each record its client and its words: asked, happened, answer."""
    rows = explain.rows_of(records, answers, happenings.of_run(run))
    for call, (_, _, asked, happened, answer) in zip(run.calls, rows):
        record = (records[call.number] if call.number < len(records)
                  else None)
        yield call.client, asked_of(record, call, asked), happened, answer


def digits(number):
    return len(str(number))


def room_of(run, pages):
    """How many digits there must be room for, so that columns can be narrow.

    'page' is for a page in the table, 'numbers' for the frame, pins and count
    of a slot together. Pins of -1 take two.
    """
    pins, count = (max(getattr(frame, name) for moment in run.moments
                       for frame in moment.frames)
                   for name in ("pins", "count"))
    return {
        "page": digits(max(pages, default=0)),
        "numbers": digits(len(run.moments[0].frames) - 1)
        + max(digits(pins), 2) + digits(count),
    }


def data_of(run, records, answers):
    """All that the page's script is given."""
    pools, texts = Pools(run.moments), Texts()
    first = before = pools.at(0)
    rows, marks, kinds = [], [], notable(run)
    for number, (client, *said) in enumerate(told(run, records, answers)):
        now = pools.at(number)
        rows.append((client, *map(texts.number, said),
                     changes(before, now)))
        before, kind = now, kinds.get(number)
        if kind:
            # A refusal is told by its reason, the others by what they did.
            marks.append((number, kind,
                          texts.number(said[2 if kind == REFUSAL else 1])))
    return {
        "room": room_of(run, pools.pages),
        "first": first,
        "stages": words.STAGES,
        "phases": {stage: words.phase(stage) for stage in words.STAGES},
        "texts": list(texts),
        "records": rows,
        "notable": marks,
    }


def script_data(data):
    """Data as text that may stand in a script element."""
    compact = json.dumps(data, separators=(",", ":"))
    return compact.replace("<", "\\u003c")  # nothing ends the element early


# The file.


def palette():
    """The picture's colours, by name, for light and for dark."""
    def rule(place, phases):
        colours = {name: pair[place]
                   for name, pair in symbols.COLOURS.items()}
        for phase, colour in enumerate(phases):
            colours["phase-%d" % phase] = colour
            colours["letters-%d" % phase] = symbols.LETTERS[phase]
        return ":root { %s }" % " ".join("--%s: %s;" % pair
                                         for pair in colours.items())
    return "%s\n@media (prefers-color-scheme: dark) { %s }\n" % (
        rule(0, symbols.PHASES["light"]), rule(1, symbols.PHASES["dark"]))


def part(name):
    return (PARTS / name).read_text(encoding="utf-8")


def page(data):
    """The page of a schedule file's run, as the text of an HTML file."""
    run = run_to("show", data)
    records, _ = read(data)
    answers = read_report(second_report(data), data)
    about = "%s; %s" % (words.setup(run.setup),
                        words.count(len(run.calls), "record"))
    totals = "\n".join(explain.totals_of(run, records, answers))
    parts = {
        "title": html.escape(TITLE),
        "about": html.escape(about),
        "totals": html.escape(totals),
        "data": script_data(data_of(run, records, answers)),
        "style": "\n".join([palette(), *map(part, STYLES)]),
        "script": "\n".join(map(part, SCRIPTS)),
    }
    return re.sub("@([a-z]+)@", lambda found: parts[found[1]],
                  part("template.html"))
