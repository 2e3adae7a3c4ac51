"""Pictures of runs: what stands around the columns, and parts."""

import re
import xml.etree.ElementTree

import generate
import second
from checking import need, same
from columns import SVG, Drawing, corners, form_of, tip_of
from common import begun_again, crowded, example
from scheduling import BadInput, picture, sheet, svg, symbols, text

PICTURE_SEEDS = (0, 1, 4, 7, 16, 20, 24, 25, 27, 35, 44, 50, 54, 57)

ELEMENTS = {SVG + name for name in (
    "svg", "title", "style", "defs", "pattern", "g", "rect", "line", "path",
    "polygon", "text")}


def text_boxes(root):
    """Where each text is: its words, height, left and right end."""
    def walk(element, inherited):
        here = dict(inherited)
        here.update({name: element.get(name) for name in
                     ("font-size", "text-anchor") if element.get(name)})
        if element.tag == SVG + "text":
            # Common fonts take a little less than what the tool allows for.
            size = float(here["font-size"])
            width = 0.93 * svg.text_width(element.text, size)
            x = float(element.get("x")) - width * {
                "middle": 0.5, "end": 1}.get(here.get("text-anchor"), 0)
            yield float(element.get("y")), size, x, x + width, element.text
        for child in element:
            yield from walk(child, here)
    return sorted(walk(root, {}))


def check_apart(boxes, width):
    """No text runs into another or out of the picture."""
    for place, (y, _, x, end, words_here) in enumerate(boxes):
        if x < 0 or end > width:
            raise AssertionError("%r is out of the picture" % words_here)
        for other_y, size, other_x, other_end, other in boxes[place + 1:]:
            if other_y - 0.75 * size >= y:
                break
            if x < other_end and other_x < end:
                raise AssertionError("%r runs into %r" % (words_here, other))


def check_marks_apart(root):
    """In a slot's row no mark runs into a label or into another mark."""
    for row in rows_of(root, "slot"):
        marks = sorted((min(across), max(across)) for across, _ in (
            corners(shape) for shape in row.iter()
            if (tip_of(shape) or "").startswith("record ")))
        labels = [(x, end) for _, size, x, end, _ in text_boxes(row)
                  if size == sheet.SMALL]
        for place, (x, end) in enumerate(marks):
            for other_x, other_end in marks[place + 1:] + labels:
                need(end < other_x or other_end < x, "in %s a mark at %d runs "
                     "into something" % (row.get("id"), x))


def rows_of(root, name):
    """The rows of one kind, in their order."""
    return [group for group in root.iter(SVG + "g")
            if re.fullmatch(name + r"-\d+", group.get("id", ""))]


def tips_of(rows):
    """What the reader is told who points at the shapes of some rows."""
    return [title.text for row in rows for title in row.iter(SVG + "title")]


def headings(root, heading):
    """The places of a line of the legend."""
    return sorted((float(text.get("x")), float(text.get("y")))
                  for text in root.iter(SVG + "text")
                  if text.text == heading)


def near(places, most, what):
    """Those that follow each other are no further apart than so much."""
    for place, following in zip(places, places[1:]):
        need(following - place <= most, "%s at %d and then at %d"
             % (what, place, following))


def check_legend(root):
    """It is wherever the reader is, and promises nothing that is not there."""
    width, height = float(root.get("width")), float(root.get("height"))
    across = sorted({x for x, _ in headings(root, "stages")})
    same({x for x, _ in headings(root, "slots")}, set(across), "legends")
    near([*across, width - sheet.SCREEN / 3], 1.4 * sheet.SCREEN, "a legend")
    down = [y for x, y in sorted(headings(root, "stages")
                                 + headings(root, "slots")) if x == across[0]]
    # Rows stand in blocks of up to 1.5 screens, each with a legend above it.
    near([*sorted(down), height], 1.75 * picture.SCREEN, "a legend")
    texts = list(root.iter(SVG + "text"))
    promised = any("refusal's number" in text.text for text in texts)
    numbers = any(text.get("class").startswith("in-phase") for text in texts)
    steps = any(" does stage " in tip
                for tip in tips_of(rows_of(root, "client")))
    same(promised, numbers or not steps and promised, "a promise of numbers")
    need(promised or any("no room for the numbers" in text.text
                         for text in texts), "no word on missing numbers")


NAMES = {  # of marks, and what they name
    "page evicted (14)": "cross", "page revived (22)": "arrow up",
    "page dropped (17)": "arrow down",
    "candidate given up (20, 23)": "diamond"}


def check_names(root):
    """Each name of a mark in the legend stands right of it."""
    samples = [(max(across), sum(down) / len(down), form_of(shape))
               for shape in root if shape.get("class") in ("cross", "mark")
               for across, down in (corners(shape),)]
    names = [text for text in root.iter(SVG + "text") if text.text in NAMES]
    same({text.text for text in names}, set(NAMES), "the names of marks")
    for text in names:
        x, y = float(text.get("x")), float(text.get("y"))
        _, form = max((right, form) for right, middle, form in samples
                      if right < x and abs(middle - y) < 8)
        same(form, NAMES[text.text], "what is named %r" % text.text)


def check_looks(root):
    """Whatever has a look has it on light and on dark backgrounds."""
    used = {element.get("class") for element in root.iter()} - {None}
    light, _, dark = root.find(SVG + "style").text.partition("@media")
    need(dark.startswith(" (prefers-color-scheme:dark)"), "no dark colours")
    for rules in (light, dark):
        same(used - set(re.findall(r"\.([\w-]+)\{", rules)), set(),
             "looks without a rule")


def check_around(root):
    """Whatever stands around the columns, and that there is room for all."""
    check_legend(root)
    check_names(root)
    check_looks(root)
    check_apart(text_boxes(root), float(root.get("width")))
    check_marks_apart(root)


def check_picture(schedule, **options):
    """The picture is sound."""
    root = Drawing(schedule, **options).root
    same({element.tag for element in root.iter()} - ELEMENTS, set(),
         "elements that are not expected")
    check_around(root)
    return root


def pictures():
    schedules = [example("example.txt"), example("two-clients.txt"),
                 crowded(64, 16, 199), crowded(8, 5, 1999),
                 crowded(2, 16, 450), crowded(64, 16, 900)]
    for seed in PICTURE_SEEDS:
        schedule = generate.generate(seed)
        if second.run(schedule)[1]:  # without a setup nothing can be drawn
            schedules.append(schedule)
    for schedule in schedules:
        root = check_picture(schedule)
        for name, count in (("slot", schedule[3]), ("client", schedule[4])):
            same([row.get("id") for row in rows_of(root, name)],
                 ["%s-%d" % (name, number) for number in range(count)],
                 "the rows")
        ended = second.run(schedule)[2]
        same(any("ends the run" in (text.text or "")
                 for text in root.iter(SVG + "text")), ended != 0,
             "that the last record ends the run")
    return ("draw, %d pictures: well-formed, a row for each client and slot, "
            "the legend in sight, no text in another" % len(schedules))


TWO_CANDIDATES = b"""\
setup slots 2 clients 2 cap 3 hand 0
begin 0 page 9
begin 1 page 9
step 0 times 4
step 1 times 4
step 0 times 4
step 1 times 6
"""


def candidates():
    """Two clients miss one page: it is drawn once, and the rest as meant."""
    drawing = Drawing(text.make(TWO_CANDIDATES))
    drawing.check()
    states = [[content and content[4] for content in pool["slots"]]
              for pool in drawing.run.pools]
    same(states[11:], [[None, None]] + 2 * [["candidate", None]]
         + 2 * [["in use", None]] + 4 * [["in use", "candidate"]]
         + [["in use", "evicted"]], "the two slots")
    labels = [[text.text for text in row.iter(SVG + "text")
               if " " in text.text and not text.text.startswith("slot")]
              for row in rows_of(drawing.root, "slot")]
    same(labels, [["page 9", "for 9"], ["for 9"]], "what is written there")
    need(any("candidate" in (text.text or "")
             for text in drawing.root.iter(SVG + "text")),
         "the legend has no candidate")
    return "draw, a candidate is not drawn as a page"


def held_already():
    """A page that a client begins again: one bar, and an octagon with 18."""
    drawing = Drawing(begun_again())
    drawing.check()
    for client, row in enumerate(rows_of(drawing.root, "client")):
        same([tip for tip in tips_of([row]) if " holds page " in tip],
             ["client %d holds page 9 in frame 0" % client], "the bars")
        same([number for _, number in drawing.texts("client-%d" % client,
                                                    "in-refusal")],
             ["18"], "the numbers in octagons")
    return "draw, a page that two clients hold and begin again"


def pushed_aside():
    """A label that has no room before a drop's mark stands after it."""
    script = generate.Script(1, 2, 1, 0)
    script.fix(0, 9)
    script.release(0, 9)
    script.begin(0, 7)
    script.until(0, 18)
    for _ in range(300):  # so many make columns narrow
        script.step(1)
    drawing = Drawing(bytes(script.data))
    drawing.check()
    drop, = drawing.run.drops()
    same([column > drop for column, words
          in drawing.texts("slot-0", "ink", sheet.SMALL) if words == "for 7"],
         [True], "where a candidate is named")
    return "draw, a label beside the mark of a drop"


PARTS = (  # options, and the clients and slots that are drawn
    (dict(first=100, last=160), range(5), range(8)),
    (dict(first=100, last=160, clients="0,3", slots="0-2"), (0, 3), range(3)),
    (dict(last=0, slots="7"), range(5), (7,)),
    (dict(first=1999, clients=" 4 , 1-2"), (1, 2, 4), range(8)),
    (dict(first=1, last=400, slots="0-1,1-2"), range(5), range(3)),
)


WRONG_PARTS = (  # options, and what is said of them
    (dict(first=2000), "there is no record 2000; this run has 0 to 1999"),
    (dict(last=2000), "there is no record 2000"),
    (dict(first=-1), "there is no record -1"),
    (dict(first=9, last=8), "--from 9 --to 8: the last record comes before"),
    (dict(clients="5"), "there is no client 5; this run has 0 to 4"),
    (dict(slots="7-8"), "there is no slot 8; this run has 0 to 7"),
    (dict(slots="3-1"), "1 comes before 3"),
    (dict(clients="all"), "expected numbers such as 0,3 or 0-7"),
    (dict(clients=""), "expected numbers such as 0,3 or 0-7"),
    (dict(slots="1-"), "expected numbers such as 0,3 or 0-7"),
)


def said_of(root, words):
    return any(words in (text.text or "") for text in root.iter(SVG + "text"))


def check_part(schedule, options, clients, slots):
    """Its rows are those asked for; what stands before it is told."""
    root = xml.etree.ElementTree.fromstring(
        picture.draw(schedule, **options).encode())
    for name, numbers in (("client", clients), ("slot", slots)):
        same([row.get("id") for row in rows_of(root, name)],
             ["%s-%d" % (name, number) for number in numbers], "the rows")
    first = options.get("first", 0)
    same(said_of(root, "the pool before record %d" % first), first > 0,
         "that the legend tells of the pool before")
    same(any(line.get("class") == "before" for line in
             root.iter(SVG + "line")), first > 0, "the line after it")
    need(said_of(root, "Drawn: record"), "nothing says what is drawn")
    check_around(root)


def parts():
    """Parts of a long run; their columns are another test's."""
    schedule = crowded(8, 5, 1999)
    for options, clients, slots in PARTS:
        check_part(schedule, options, clients, slots)
    for options, said in WRONG_PARTS:
        try:
            picture.draw(schedule, **options)
        except BadInput as wrong:
            need(said in str(wrong), "of %r it says: %s" % (options, wrong))
        else:
            raise AssertionError("no complaint about %r" % options)
    return "draw, %d parts of a long run and %d wrong ones" % (
        len(PARTS), len(WRONG_PARTS))


def grey(colour):
    """How light a colour is without its hue, 0 to 255."""
    red, green, blue = (int(colour[at:at + 2], 16) for at in (1, 3, 5))
    return 0.299 * red + 0.587 * green + 0.114 * blue


def greys():
    """Without hues the phases differ, and their numbers can be read."""
    for colours in symbols.PHASES.values():
        order = sorted(map(grey, colours))
        need(all(b - a >= 40 for a, b in zip(order, order[1:])),
             "the greys of the phases are too near: %r" % order)
        for colour, letter in zip(colours, symbols.LETTERS):
            need(abs(grey(colour) - grey(letter)) >= 90,
                 "%s on %s cannot be read" % (letter, colour))
    for colours in symbols.FAINT.values():
        order = sorted(map(grey, colours))
        need(all(b - a >= 12 for a, b in zip(order, order[1:])),
             "the greys of the bands are too near: %r" % order)
    return "draw, the phases of stages can be told apart in grey"


TESTS = (pictures, candidates, held_already, pushed_aside, parts, greys)
