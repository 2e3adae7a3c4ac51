"""The legend of a picture: what each colour and shape means."""

from . import symbols, words
from .moments import CANDIDATE, EVICTED, IN_USE, UNHELD
from .svg import text_width

SIZE = 11
SAMPLE_WIDTH, SAMPLE_GAP, ITEM_GAP = 22, 6, 16
LINE_HEIGHT = 21
HEADING_WIDTH = 62


def box(look, height=14):
    def sample(canvas, x, y):
        canvas.box(x, y - height / 2, SAMPLE_WIDTH, height, look=look)
    return sample


def shape(draw):
    def sample(canvas, x, y):
        draw(canvas, x + SAMPLE_WIDTH / 2, y, 5)
    return sample


def grant(canvas, x, y):
    symbols.grant(canvas, x, y - 6, SAMPLE_WIDTH, 12)


def hand(canvas, x, y):
    symbols.hand(canvas, x, x + SAMPLE_WIDTH, y)


def count(canvas, x, y):
    for place in range(3):
        symbols.count(canvas, x + 7 * place, y + 5, 7, 10, 3 - place, 3)


def before(canvas, x, y):
    middle = x + SAMPLE_WIDTH / 2
    canvas.line(middle, y - 7, middle, y + 7, look="before")


def of_clients(numbered, first):
    """The lines about clients; narrow columns have no numbers.

    Where the first record is not the run's, something stands before it.
    """
    stages = [(box("phase%d" % place), "%d-%d %s" % phase)
              for place, phase in enumerate(words.PHASES)]
    stages.append((box("faint2", 8), "stands there while others act"))
    calls = [(shape(symbols.begin), "begin"),
             (shape(symbols.release), "release"),
             (shape(symbols.refusal), "refused (with the refusal's number)"
              if numbered else "refused"),
             (grant, "grant of a page, from its answer to its release")]
    if first:
        calls.append((before, "left of it, the pool before record %d"
                      % first))
    return ("stages", stages), ("clients", calls)


def of_slots(most_count):
    """The lines about slots; the highest count has the highest bar."""
    contents = [
        (box(symbols.CONTENTS[IN_USE]), "page in use"),
        (box(symbols.CONTENTS[UNHELD]), "page that nobody uses"),
        (box(symbols.CONTENTS[CANDIDATE]),
         "candidate for a page, not in the table: nobody was given it"),
        (box(symbols.CONTENTS[EVICTED]), "evicted frame"),
        (hand, "hand's slot")]
    marks = [
        (count, "reference count, the highest is %d" % most_count),
        (shape(symbols.eviction), "page evicted (14)"),
        (shape(symbols.revival), "page revived (22)"),
        (shape(symbols.drop), "page dropped (17)"),
        (shape(symbols.given_up), "candidate given up (20, 23)")]
    return ("slots", contents), ("in slots", marks)


def item_width(text):
    return SAMPLE_WIDTH + SAMPLE_GAP + text_width(text, SIZE) + ITEM_GAP


def broken(lines, width):
    """The same lines, none of them wider than so much."""
    found = []
    for heading, items in lines:
        found.append((heading, []))
        room = width - HEADING_WIDTH
        for item in items:
            if found[-1][1] and item_width(item[1]) > room:
                found.append((None, []))
                room = width - HEADING_WIDTH
            found[-1][1].append(item)
            room -= item_width(item[1])
    return found


def width(lines):
    """How wide the widest line is."""
    return HEADING_WIDTH + max(sum(item_width(text) for _, text in items)
                               for _, items in lines)


def height(lines):
    return LINE_HEIGHT * len(lines) + LINE_HEIGHT / 2


def draw(canvas, left, y, lines):
    """Draw some lines of the legend from a height on."""
    for heading, items in lines:
        y += LINE_HEIGHT
        if heading:
            canvas.text(left, y + 4, heading, font_size=SIZE,
                        font_weight="bold", look="ink")
        x = left + HEADING_WIDTH
        for sample, text in items:
            sample(canvas, x, y)
            canvas.text(x + SAMPLE_WIDTH + SAMPLE_GAP, y + 4, text,
                        font_size=SIZE, look="ink")
            x += item_width(text)
