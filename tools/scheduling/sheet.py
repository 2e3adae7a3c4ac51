"""Where things go on a picture: columns, names, what is in sight."""

import math

from .svg import Canvas

MARGIN = 16  # around everything
NAME_WIDTH, NAME_GAP = 66, 8  # for the names of rows, at both ends

# A picture wider than this is scrolled: names and legend are repeated about
# as often as a screen is wide, and the legend is kept narrow.
SCREEN, NARROW_LEGEND, LEGEND_GAP = 1200, 720, 40

NAME_SIZE, SMALL = 12, 10  # of letters

WIDTHS = (  # up to so many columns, each is so wide
    (60, 22), (300, 18), (600, 10), (1200, 6), (2049, 4))
NUMBERED = 16  # from this width on there is room for the stage's number
NUMBER_WIDTH = 30  # of a record's number on the axis


def column_width(columns):
    return next(width for most, width in WIDTHS if columns <= most)


def tick_distance(width):
    """How many columns from one record number on the axis to the next."""
    return next(distance for distance in (1, 2, 5, 10, 20)
                if distance * width >= 40)


class Sheet:
    """A canvas with a column for each record of a part."""

    def __init__(self, part):
        self.part, self.canvas = part, Canvas()
        self.column = column_width(part.columns)
        self.numbered = self.column >= NUMBERED
        self.symbol = min(6.5, max(3, self.column * 0.36))  # half its size
        self.left = MARGIN + NAME_WIDTH
        self.right = self.left + self.column * part.columns
        self.width = self.right + NAME_WIDTH + MARGIN
        self.scrolled = self.width > 1.5 * SCREEN

    def x(self, column):
        return self.left + self.column * (column - self.part.origin)

    def middle(self, column):
        return self.x(column) + self.column / 2

    def seen(self, spans):
        """The spans as far as they are in the part."""
        end = self.part.last + 1
        clipped = (span.within(self.part.origin, end) for span in spans)
        return [span for span in clipped if span is not None]

    def rails(self):
        """Where names and legend stand again; the last one at the end."""
        if not self.scrolled:
            return []
        room = self.width - 2 * MARGIN - NARROW_LEGEND
        times = max(1, min(math.ceil(room / SCREEN),
                           int(room / (NARROW_LEGEND + LEGEND_GAP))))
        return [MARGIN + room * time / times for time in range(1, times + 1)]

    def ticks(self):
        """The columns that have a number; the first one has, if it can."""
        first, distance = self.part.first, tick_distance(self.column)
        even = -(-first // distance) * distance
        ticks = list(range(even, self.part.last + 1, distance))
        if not ticks or (even - first) * self.column >= NUMBER_WIDTH:
            ticks.insert(0, first)
        return ticks

    def draw_name(self, name, y):
        """The name of a row, at both ends of it."""
        self.canvas.text(self.left - NAME_GAP, y, name, font_size=NAME_SIZE,
                         look="ink", text_anchor="end")
        self.canvas.text(self.right + NAME_GAP, y, name, look="ink",
                         font_size=NAME_SIZE)
