"""What a run came to: a table of numbers, and a plot of the slots."""

from . import legend, symbols, words
from .explain import left_over, unlike
from .moments import CANDIDATE, IN_USE, run_to
from .records import read
from .svg import Canvas
from .tables import Column, lines_of
from .totals import Totals, by_number, step_bound

COLUMNS = (Column("client", right=True), Column("requests", right=True),
           Column("hit rate", right=True), Column("steps: median", right=True),
           Column("longest", right=True), Column("most held", right=True),
           Column("refusals", right=True), Column(""))

NOTES = """\
requests:  begins that were done
hit rate:  of the requests that were answered (a grant, or refusal 15), those
           that were granted at stage 3, since the page was there
steps:     of a request that was answered, from its begin to its answer
most held: how many different pages were held at one time
answer:    a grant or refusal 15, to whichever client; the steps up to it are
           those since the answer before it, or since the setup, without those
           that were turned down. Always: in whichever order the clients are
           stepped, by claim 24 of docs/GUARANTEE.md
"""


def shown(value, form):
    """A value, or a dash where there is none."""
    return "-" if value is None else form % value


def row(name, part):
    return (name, str(part.counts["requests"]),
            shown(part.hit_rate() and 100 * part.hit_rate(), "%.0f%%"),
            shown(part.median_steps(), "%g"),
            shown(part.longest_steps(), "%d"), str(part.most_held),
            str(part.counts["refusals"]), by_number(part.refusals))


def steps(number):
    return "{:,} step{}".format(number, "" if number == 1 else "s")


def away(stretches, setup):
    """Lines on how soon somebody was answered, and always is."""
    longest, last = stretches.longest, stretches.last
    if longest:
        yield ("the next answer was at most %s away, counted over all "
               "clients;" % steps(longest))
        if last > longest:
            yield "after the last one came %s without another;" % steps(last)
    elif last:
        yield "no answer came in %s, counted over all clients;" % steps(last)
    else:
        yield "no answer came, since no step was accepted;"
    slots, clients, cap, _ = setup
    yield "with {}, {} and cap {} the next is always at most {:,} away".format(
        words.count(slots, "slot"), words.count(clients, "client"), cap,
        step_bound(slots, clients, cap))


def table(data, answers):
    """The numbers of each client and of all, as text."""
    run, (records, _) = run_to("count", data), read(data)
    totals = Totals(records, answers)
    besides = [*left_over(data, records, answers), *unlike(run, answers)]
    lines = [*lines_of(COLUMNS, [row(*part) for part in totals.parts()]), "",
             *besides, *([""] if besides else []),
             *away(totals.stretches, run.setup), ""]
    return "".join(line + "\n" for line in lines) + NOTES


# The plot.


WIDTH, HEIGHT, MARGIN, LEFT, TOP = 900, 220, 16, 52, 104
TITLE = "Slots and pages over a run"
LOOKS = ("filled", "in-use", "held")  # from the highest line to the lowest
NAMES = ("slots with a frame", "slots whose frame is in use",
         "pages that somebody holds")


def levels(moment):
    """How many slots are filled and in use, and how many pages are held."""
    frames = [frame for frame in moment.slots if frame is not None]
    used = sum(moment.state(frame) in (IN_USE, CANDIDATE) for frame in frames)
    return len(frames), used, len(moment.held())


def round_distance(count, most):
    """A round distance with which there are at most so many ticks."""
    return next(digit * 10 ** power for power in range(10)
                for digit in (1, 2, 5) if count <= most * digit * 10 ** power)


class Plot:
    """Steps from left to right, one for each record."""

    def __init__(self, run):
        self.run, self.canvas = run, Canvas()
        self.size, self.records = run.setup[0], len(run.calls)

    def x(self, record):
        return LEFT + (WIDTH - LEFT - MARGIN) * record / self.records

    def y(self, level):
        return TOP + HEIGHT * (1 - level / self.size)

    def draw(self):
        self.draw_head()
        self.draw_axes()
        columns = [levels(moment) for moment in self.run.moments]
        for look, values in zip(LOOKS, zip(*columns)):
            self.draw_area(look, values)
        for call in self.run.calls:
            if call.refusal == 15:
                symbols.refusal(self.canvas, self.x(call.number + 0.5),
                                TOP - 8, 4, "record %d: client %d is %s"
                                % (call.number, call.client,
                                   words.refused(15)))
        return self.canvas.whole(WIDTH, TOP + HEIGHT + 44, TITLE,
                                 symbols.style(), symbols.DEFS)

    def draw_head(self):
        self.canvas.text(MARGIN, MARGIN + 14, TITLE, font_size=18, look="ink")
        self.canvas.text(MARGIN, MARGIN + 34, "%s; %s" % (
            words.setup(self.run.setup), words.count(self.records, "record")),
            font_size=13, look="ink")
        items = [(legend.box(look), name)
                 for look, name in zip(LOOKS, NAMES)]
        items.append((legend.shape(symbols.refusal), "refused by 15"))
        legend.draw(self.canvas, MARGIN, MARGIN + 38, [("shown", items)])

    def draw_axes(self):
        across = round_distance(self.records, 12)
        for record in range(0, self.records + 1, across):
            x = self.x(record)
            self.canvas.line(x, TOP, x, TOP + HEIGHT + 4, look="grid")
            self.canvas.text(x, TOP + HEIGHT + 17, str(record), font_size=10,
                             look="grey", text_anchor="middle")
        for level in range(0, self.size + 1, round_distance(self.size, 8)):
            y = self.y(level)
            self.canvas.line(LEFT, y, WIDTH - MARGIN, y, look="grid")
            self.canvas.text(LEFT - 8, y + 3.5, str(level), font_size=10,
                             look="grey", text_anchor="end")
        self.canvas.text(LEFT, TOP + HEIGHT + 34, "records, in their order; "
                         "the top is S, all slots", font_size=11, look="grey")

    def draw_area(self, look, values):
        """What is below a line of steps."""
        path = ["M%.2f,%.2f" % (self.x(0), self.y(0))]
        last = None
        for record, value in enumerate(values):
            if value != last:
                path.append("H%.2f V%.2f" % (self.x(record), self.y(value)))
            last = value
        path.append("H%.2f V%.2f Z" % (self.x(self.records), self.y(0)))
        self.canvas.shape("path", d=" ".join(path), look=look)


def plot(data):
    """The plot of a schedule file's run, as the text of an SVG file."""
    return Plot(run_to("plot", data)).draw()
