"""The picture of a run, or of a part of it.

Time goes from left to right, one column a record. Each client has a row with
the stages it does and, below, its grants; each slot has a row with the page
it holds and, below, its reference count. A column shows the pool as its
record left it. What has no room for words has a tip, which most programs show
where the reader points.
"""

import math

from . import legend, symbols, words
from . import part as parts
from .client_rows import ClientRows
from .history import History
from .sheet import MARGIN, NAME_GAP, NARROW_LEGEND, SMALL, WIDTHS, Sheet
from .slot_rows import SlotRows

TITLE = "A run of the page buffer pool"
TITLE_SIZE, SUBTITLE_SIZE, FOOT_SIZE = 18, 13, 11
AXIS_HEIGHT, FOOT_HEIGHT = 26, 8
SCREEN = 700  # rows are drawn in blocks that are about so high


def listed(name, numbers):
    """A name and numbers with ranges, as 'slots 0 to 3, 7'."""
    runs = []
    for number in numbers:
        if runs and runs[-1][-1] == number - 1:
            runs[-1] = runs[-1][0], number
        else:
            runs.append((number, number))
    return "%s%s %s" % (name, "s" if len(numbers) > 1 else "", ", ".join(
        str(low) if low == high else "%d to %d" % (low, high)
        for low, high in runs))


def blocks(rows):
    """Rows in groups of about the same height, none much above a screen."""
    whole = sum(height for _, _, height in rows)
    most = whole / max(1, round(whole / SCREEN))
    groups, so_far = [[]], 0
    for row in rows:
        if groups[-1] and so_far + row[-1] / 2 > most * len(groups):
            groups.append([])
        groups[-1].append(row)
        so_far += row[-1]
    return groups


class Picture:
    """A history on a sheet, with what stands around its rows."""

    def __init__(self, history, part):
        self.history, self.part = history, part
        self.sheet = Sheet(part)
        self.canvas = self.sheet.canvas

    def draw(self):
        clients = legend.of_clients(self.sheet.numbered, self.part.first)
        slots = legend.of_slots(self.history.most_count)
        if self.sheet.scrolled:
            clients, slots = (legend.broken(lines, NARROW_LEGEND)
                              for lines in (clients, slots))
        y = self.draw_head()
        for lines, rows in ((clients, ClientRows), (slots, SlotRows)):
            for block in blocks(rows(self.sheet, self.history).rows()):
                y = self.draw_block(y, lines, block)
        self.draw_foot(y)
        width = max(self.sheet.width, *(legend.width(lines) + 2 * MARGIN
                                        for lines in (clients, slots)))
        return self.canvas.whole(math.ceil(width),
                                 math.ceil(y + FOOT_HEIGHT + MARGIN), TITLE,
                                 symbols.style(), symbols.DEFS)

    def draw_block(self, y, lines, rows):
        """Rows under their legend and between two axes; where they end."""
        for x in (MARGIN, *self.sheet.rails()):
            legend.draw(self.canvas, x, y, lines)
        top = y + legend.height(lines) + AXIS_HEIGHT
        bottom = top + sum(height for _, _, height in rows)
        self.draw_columns(top, bottom)
        for draw_row, number, height in rows:
            draw_row(number, top)
            top += height
        return bottom + AXIS_HEIGHT

    def draw_head(self):
        """The title; where it ends."""
        y = MARGIN + TITLE_SIZE - 4
        self.canvas.text(MARGIN, y, TITLE, font_size=TITLE_SIZE, look="ink")
        for line in self.subtitles():
            y += 20
            self.canvas.text(MARGIN, y, line, font_size=SUBTITLE_SIZE,
                             look="ink")
        return y + 4

    def subtitles(self):
        history, part = self.history, self.part
        yield "%s; %s" % (words.setup(history.setup),
                          words.count(history.columns, "record"))
        whole = parts.of(history.setup, history.columns)
        if part != whole:
            yield "Drawn: %s; %s; %s" % (
                listed("record", range(part.first, part.last + 1)),
                listed("client", part.clients), listed("slot", part.slots))
        if history.refusal and part.last == whole.last:
            yield ("The last record ends the run, %s."
                   % words.refused(history.refusal))
        if not self.sheet.numbered:
            yield ("Columns as narrow as these have no room for the numbers "
                   "of stages and refusals; a part of at most %d records, by "
                   "--from and --to, has it." % (WIDTHS[1][0] - 1))

    def draw_columns(self, top, bottom):
        """Numbers, and lines that lead the eye to them."""
        sheet = self.sheet
        for column in sheet.ticks():
            x = sheet.middle(column)
            self.canvas.line(x, top - 4, x, bottom + 4, look="grid")
        if self.part.origin < self.part.first:
            x = sheet.x(self.part.first)
            self.canvas.line(x, top - 4, x, bottom + 4, look="before")
        self.draw_axis(top - 8)
        self.draw_axis(bottom + 16)

    def draw_axis(self, y):
        sheet = self.sheet
        self.canvas.open("g", font_size=SMALL, text_anchor="middle")
        for column in sheet.ticks():
            self.canvas.text(sheet.middle(column), y, str(column),
                             look="grey")
        self.canvas.close("g")
        self.canvas.text(sheet.left - NAME_GAP, y, "record", look="grey",
                         font_size=FOOT_SIZE, text_anchor="end")

    def draw_foot(self, y):
        self.canvas.text(self.sheet.left, y + 8, "time: one column for each "
                         "record, which shows the pool as the record left it",
                         font_size=FOOT_SIZE, look="grey")


def draw(data, **options):
    """The picture of a schedule file's run, as the text of an SVG file.

    The options are those of part.of.
    """
    history = History(data)
    part = parts.of(history.setup, history.columns, **options)
    return Picture(history, part).draw()
