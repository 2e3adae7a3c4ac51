"""Each column of a picture, beside the second program's run.

A picture is read by what it shows, where it shows it: boxes, lines and texts
by their places, looks and tips.
"""

import math
import re
import xml.etree.ElementTree

import generate
import second
from checking import need, same
from common import crowded, example
from played import played
from scheduling import picture, sheet, slot_rows, words

SEEDS = range(60)
SVG = "{http://www.w3.org/2000/svg}"
LOOKS = {"in use": "in-use", "not held": "unheld", "candidate": "candidate",
         "evicted": "evicted"}
LABELS = {"in use": {"page %d", "%d"}, "not held": {"page %d", "%d"},
          "candidate": {"for %d"}, "evicted": {"was for %d"}}
TIPS = {"in use": "slot {0}: frame {1} with page {2}, in use",
        "not held": "slot {0}: frame {1} with page {2}, not held",
        "candidate": "slot {0}: frame {1}, a candidate for page {2}",
        "evicted": "slot {0}: frame {1}, evicted, which was for page {2}"}
GIVEN_UP = "diamond", "gives up the candidate for page %d, frame %d"
MARKS = {  # by stage: the form of a mark, and what it says
    14: ("cross", "evicts page %d in frame %d"),
    17: ("arrow down", "drops page %d, which frame %d had"),
    20: GIVEN_UP,
    22: ("arrow up", "maps page %d anew, to frame %d"),
    23: GIVEN_UP,
}


def number(shape, name):
    return float(shape.get(name))


def tip_of(shape):
    title = shape.find(SVG + "title")
    return None if title is None else title.text


def corners(shape):
    """Where a polygon or a path has its corners: across, and down."""
    points = re.findall(r"(-?[\d.]+),(-?[\d.]+)",
                        shape.get("points") or shape.get("d"))
    return [list(map(float, places)) for places in zip(*points)]


def form_of(shape):
    """What a mark looks like; an arrow has one corner at its point."""
    if shape.get("class") == "cross":
        return "cross"
    _, down = corners(shape)
    if len(down) == 4:
        return "diamond"
    return "arrow up" if down.count(min(down)) == 1 else "arrow down"


class Drawing:
    """A picture of a part, and the run that it should show."""

    def __init__(self, schedule, first=0, last=None, clients=None,
                 slots=None):
        self.run, (self.size, self.clients, self.cap) = (played(schedule),
                                                         schedule[3:6])
        self.first = first
        self.last = self.run.last if last is None else last
        self.origin = max(first - 1, 0)
        self.width = sheet.column_width(self.last - self.origin + 1)
        self.left = sheet.MARGIN + sheet.NAME_WIDTH
        self.root = xml.etree.ElementTree.fromstring(picture.draw(
            schedule, first=first, last=last,
            clients=clients and ",".join(map(str, clients)),
            slots=slots and ",".join(map(str, slots))).encode())
        self.groups = {group.get("id"): group
                       for group in self.root.iter(SVG + "g")
                       if group.get("id")}
        self.most = max((content[3] for pool in self.run.pools
                         for content in pool["slots"]
                         if content and content[4] != "evicted"), default=0)
        self.drawn_clients = clients or range(self.clients)
        self.drawn_slots = slots or range(self.size)

    def columns(self, first=None):
        return range(self.origin if first is None else first, self.last + 1)

    def covered(self, x, end):
        """The columns whose middle is between two places."""
        low = (x - self.left) / self.width - 0.5
        high = (end - self.left) / self.width - 0.5
        return range(self.origin + math.ceil(low - 1e-6),
                     self.origin + math.floor(high + 1e-6) + 1)

    def column_at(self, x):
        return self.origin + int((x - self.left) // self.width)

    def boxes(self, row, look):
        """For each column the boxes of a look that cover its middle."""
        found = {column: [] for column in self.columns()}
        for box in self.groups[row].iter(SVG + "rect"):
            if re.fullmatch(look, box.get("class")):
                x = number(box, "x")
                for column in self.covered(x, x + number(box, "width")):
                    found[column].append(box)
        return found

    def texts(self, row, look, size=None):
        """The column and the words of each text within the columns."""
        right = self.left + self.width * (self.last + 1 - self.origin)
        for text in self.groups[row].iter(SVG + "text"):
            if (re.fullmatch(look, text.get("class"))
                    and self.left <= number(text, "x") < right
                    and size in (None, number(text, "font-size"))):
                yield self.column_at(number(text, "x")), text.text

    # Slots.

    def check_slot(self, slot):
        row = "slot-%d" % slot
        contents = self.boxes(row, "|".join(LOOKS.values()))
        bars = self.boxes(row, "count")
        for column in self.columns():
            content = self.run.pools[column]["slots"][slot]
            shown = [(box.get("class"), tip_of(box))
                     for box in contents[column]]
            due, count = [], 0
            if content:
                frame, page, _, count, state = content
                due = [(LOOKS[state], TIPS[state].format(slot, frame, page))]
                count = 0 if state == "evicted" else count
            same(shown, due, "slot %d in column %d" % (slot, column))
            heights = [number(bar, "height") for bar in bars[column]]
            room = slot_rows.COUNT_HEIGHT - 1
            need(len(heights) == bool(count) and all(
                abs(height - max(1, room * count / self.most)) < 0.01
                for height in heights), "count %d of slot %d in column %d: %s"
                % (count, slot, column, heights))
        self.check_hand(row, slot)
        self.check_slot_texts(row, slot)

    def check_hand(self, row, slot):
        shown = {column for line in self.groups[row].iter(SVG + "line")
                 if line.get("class") == "hand"
                 for column in self.covered(number(line, "x1"),
                                            number(line, "x2"))}
        same(shown, {column for column in self.columns()
                     if self.run.pools[column]["hand"] % self.size == slot},
             "the hand at slot %d" % slot)

    def check_slot_texts(self, row, slot):
        for column, text in self.texts(row, "ink", sheet.SMALL):
            _, page, _, _, state = self.run.pools[column]["slots"][slot]
            same({form % page for form in LABELS[state]}
                 & {text, text.partition(": ")[2]} != set(), True,
                 "label %r of slot %d in column %d" % (text, slot, column))
        for column, text in self.texts(row, "ink", slot_rows.COUNT_SIZE):
            same(int(text), self.run.pools[column]["slots"][slot][3],
                 "the count that is written in column %d" % column)

    def check_marks(self):
        """Each mark in its place; the stages that have one."""
        shown = [(slot, self.column_of(shape), form_of(shape), tip_of(shape))
                 for slot in self.drawn_slots
                 for shape in self.groups["slot-%d" % slot].iter()
                 if (tip_of(shape) or "").startswith("record ")]
        due, stages = [], set()
        for column in self.columns(self.first):
            stage, frame = self.marked(column)
            if frame is not None:
                slot, page = self.stood(frame, column)
                if slot in self.drawn_slots:
                    form, said = MARKS[stage]
                    due.append((slot, column, form, "record %d: stage %d %s"
                                % (column, stage, said % (page, frame))))
                    stages.add(stage)
        same(sorted(shown), sorted(due), "the marks")
        return stages

    def marked(self, column):
        """The stage that was done, and the frame that a mark is due for."""
        who, stage, code, value = self.step(column)
        if not stage:
            return None, None
        before, now = self.run.pools[column - 1], self.run.pools[column]
        client = before["clients"][who]
        if (stage, code, value) == (14, 1, 15):
            return stage, client["victim"]
        if stage in (20, 23) or (stage, code) == (22, 2):
            return stage, client["own"]
        left = {page for page, _, _ in now["table"]}
        return stage, next((frame for page, frame, _ in before["table"]
                            if page not in left), None)

    def stood(self, frame, column):
        """The slot where a frame stands or stood last, and its page."""
        return next((slot, content[1])
                    for pool in self.run.pools[column::-1]
                    for slot, content in enumerate(pool["slots"])
                    if content and content[0] == frame)

    def column_of(self, shape):
        """The column in the middle of a polygon or a path."""
        across, _ = corners(shape)
        return self.column_at((min(across) + max(across)) / 2)

    def check_copies(self):
        """In no column is one page drawn in two slots."""
        for column in self.columns():
            pages = [content[1] for content in self.run.pools[column]["slots"]
                     if content and LOOKS[content[4]] in ("in-use", "unheld")]
            same(len(pages), len(set(pages)), "pages drawn twice")

    # Clients.

    def step(self, column):
        """Who steps, the stage it does, code and value; None for no step."""
        who, (code, value) = self.run.who[column], self.run.answers[column]
        if who is None or who >= self.clients or not (
                code in (1, 2, 100 + 15)):
            return who, None, code, value
        before = self.run.pools[column - 1]["clients"][who]
        return who, before["stage"], code, value

    def check_client(self, client):
        row = "client-%d" % client
        stages = self.boxes(row, r"phase\d")
        bands = self.boxes(row, r"faint\d")
        grants = self.boxes(row, "grant")
        numbers = dict(self.texts(row, r"in-phase\d"))
        for column in self.columns():
            what = "of client %d in column %d" % (client, column)
            who, stage, code, _ = self.step(column)
            acts = (column >= self.first and who == client and stage
                    and code != 115)
            same([box.get("class") for box in stages[column]],
                 ["phase%d" % words.phase(stage)] if acts else [],
                 "the stage " + what)
            if self.width >= sheet.NUMBERED:
                same(numbers.get(column), str(stage) if acts else None,
                     "the number " + what)
            now = self.run.pools[column]["clients"][client]
            same([band.get("class") for band in bands[column]],
                 [] if now["stage"] is None
                 else ["faint%d" % words.phase(now["stage"])],
                 "where it stands, " + what)
            same(sorted(tip_of(box) for box in grants[column]),
                 sorted("client %d holds page %d in frame %d"
                        % (client, page, frame)
                        for page, frame in now["grants"]), "grants " + what)
        for column, text in self.texts(row, "grey"):
            wanted = self.run.pools[column]["clients"][client]["wanted"]
            need(text in ("wants %s" % wanted, str(wanted)),
                 "%r is written, client %d wants %s in column %d"
                 % (text, client, wanted, column))

    def check_calls(self):
        """Begins, releases and refusals stand in their columns."""
        for group in self.groups.values():
            for shape in group.iter(SVG + "polygon"):
                found = re.match(r"record (\d+): ", tip_of(shape) or "")
                if found:
                    same(self.column_of(shape), int(found[1]),
                         "the place of %r" % tip_of(shape))
                    self.check_direction(shape, tip_of(shape))
        due = sum(code > 100 for code, _ in
                  (self.run.answers[column]
                   for column in self.columns(self.first))
                  ) if self.drawn_clients == range(self.clients) else None
        shown = sum(shape.get("class") == "refusal"
                    for group in self.groups.values()
                    for shape in group.iter(SVG + "polygon"))
        need(due in (None, shown), "%d refusals drawn, not %s" % (shown, due))

    def check_direction(self, shape, tip):
        """A begin points forward, a release back."""
        across = [float(point.partition(",")[0])
                  for point in shape.get("points").split()]
        if shape.get("class") == "mark" and "client" in tip:
            ahead = across.count(max(across)) == 1
            same(ahead, " begin " in tip, "where %r points" % tip)

    def check(self):
        for slot in self.drawn_slots:
            self.check_slot(slot)
        for client in self.drawn_clients:
            self.check_client(client)
        self.check_copies()
        self.check_calls()
        return self.check_marks()


def parts_of(schedule, dice):
    """The whole run, and a part that is drawn by lot."""
    yield {}
    last = played(schedule).last
    first = dice.below(last + 1)
    yield dict(first=first, last=min(last, first + dice.pick(
        (0, 5, 58, 298, 700))), **{
            name: sorted({dice.below(count) for _ in range(count)})
            for name, count in (("slots", schedule[3]),
                                ("clients", schedule[4]))})


def columns():
    dice, count, marked = generate.Dice(1), 0, set()
    schedules = [example("example.txt"), example("two-clients.txt"),
                 crowded(64, 16, 900, pages=80, greed=3),
                 *map(generate.generate, SEEDS)]
    for schedule in schedules:
        if second.run(schedule)[1]:
            for part in parts_of(schedule, dice):
                marked |= Drawing(schedule, **part).check()
                count += 1
    same(marked, set(MARKS), "the stages that had a mark")
    return ("draw, every column of %d pictures: contents, counts, hand, "
            "labels, stages, grants, marks" % count)


TESTS = (columns,)
