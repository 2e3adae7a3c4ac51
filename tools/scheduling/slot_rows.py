"""The rows of slots: the page in each, its count, what happens to it."""

from . import symbols
from .moments import CANDIDATE, IN_USE, UNHELD
from .sheet import SMALL
from .svg import Lane

COUNT_HEIGHT, HAND_HEIGHT, GAP = 11, 3, 4
COUNT_SIZE = 9  # of numbers
# Half the size of a mark; of smaller arrows nobody sees where they point. A
# slot's marks are at least three columns apart, so there is room for them.
LEAST_MARK = 4

MARKED = {  # what a mark says, by its stage
    14: "evicts page %d in frame %d",
    17: "drops page %d, which frame %d had",
    20: "gives up the candidate for page %d, frame %d",
    22: "maps page %d anew, to frame %d",
    23: "gives up the candidate for page %d, frame %d",
}


class SlotRows:
    """What draws them on a sheet."""

    def __init__(self, sheet, history):
        self.sheet, self.canvas, self.part = sheet, sheet.canvas, sheet.part
        self.history = history
        self.page_height = 18 if len(self.part.slots) <= 16 else 14

    def rows(self):
        """What draws each row, its number and its height."""
        height = self.page_height + COUNT_HEIGHT + HAND_HEIGHT + GAP
        return [(self.draw, slot, height) for slot in self.part.slots]

    def draw(self, slot, y):
        self.canvas.open("g", id="slot-%d" % slot)
        bottom = y + self.page_height
        marks = [mark for mark in self.history.marks if mark.slot == slot
                 and self.part.first <= mark.column <= self.part.last]
        self.sheet.draw_name("slot %d" % slot, bottom - 3)
        for span in self.sheet.seen(self.history.contents[slot]):
            self.draw_content(slot, span, y)
        self.draw_labels(slot, bottom, marks)
        self.draw_counts(slot, bottom + COUNT_HEIGHT)
        self.draw_hand(slot, bottom + COUNT_HEIGHT + HAND_HEIGHT / 2)
        for mark in marks:
            self.draw_mark(mark, y + self.page_height / 2)
        self.canvas.close("g")

    def draw_content(self, slot, span, y):
        state, x = span.what.state, self.sheet.x(span.first)
        inset = 0.5 if state == CANDIDATE else 0  # its edge is a line
        tip = "slot %d: %s" % (slot, span.what.told)
        self.canvas.box(x + inset, y + inset,
                        self.sheet.x(span.end) - x - 2 * inset,
                        self.page_height - 2 * inset,
                        look=symbols.CONTENTS[state],
                        tip=tip + (", " + state if state in (IN_USE, UNHELD)
                                   else ""))

    def draw_labels(self, slot, bottom, marks):
        """What comes into the slot, and the same again at the rails."""
        sheet = self.sheet
        lane = Lane(self.canvas, bottom - 4, SMALL)
        marked = [mark.column for mark in marks]
        for column in marked:
            lane.reserve(sheet.middle(column) - sheet.symbol - 2,
                         sheet.middle(column) + sheet.symbol + 2)
        for column, end, content, comes in self.labels(slot):
            x, right = max(sheet.x(column), sheet.left), sheet.x(end)
            if comes and column >= self.part.first:
                self.canvas.line(x, bottom - self.page_height, x, bottom,
                                 look="comes")
            # At the first column, or after the first mark that has room.
            places = [sheet.middle(mark) + sheet.symbol + 3
                      for mark in marked if column <= mark < end]
            if column not in marked:
                places.insert(0, x + 4)
            for place in places:
                if lane.put(place, right - 2, *content.labels, look="ink"):
                    break
            for rail in sheet.rails():
                if x < rail < right:
                    lane.put(rail, right - 2, "slot %d: %s"
                             % (slot, content.labels[0]), look="ink")

    def labels(self, slot):
        """The labels in sight: from where to where, what, if it comes."""
        end, due = self.part.last + 1, []
        for column, content, comes in reversed(
                labels_of(self.history.contents[slot])):
            if column < end:
                due.append((column, end, content, comes))
                end = column
            if end <= self.part.origin:
                break
        return due

    def draw_counts(self, slot, bottom):
        """The count below the page: a bar, and a number where it changes."""
        sheet = self.sheet
        self.canvas.line(sheet.left, bottom, sheet.right, bottom, look="rule")
        lane = Lane(self.canvas, bottom - 1.5, COUNT_SIZE)
        for span in sheet.seen(self.history.counts[slot]):
            x, end = sheet.x(span.first), sheet.x(span.end)
            symbols.count(self.canvas, x, bottom, end - x, COUNT_HEIGHT - 1,
                          span.what, self.history.most_count)
            for place in (x + 2, *sheet.rails()):
                if place > x:
                    lane.put(place, end, str(span.what), look="ink")

    def draw_hand(self, slot, y):
        for span in self.sheet.seen(self.history.hands):
            if span.what == slot:
                symbols.hand(self.canvas, self.sheet.x(span.first),
                             self.sheet.x(span.end), y)

    def draw_mark(self, mark, y):
        symbols.MARKS[mark.stage](
            self.canvas, self.sheet.middle(mark.column), y,
            max(self.sheet.symbol * 0.75, LEAST_MARK), "record %d: stage %d %s"
            % (mark.column, mark.stage,
               MARKED[mark.stage] % (mark.page, mark.frame)))


def labels_of(contents):
    """Where a label is due: its column and content, and if a frame comes.

    A frame comes once, and is called something else when it is mapped and
    when it is evicted.
    """
    labels, last = [], None
    for span in contents:
        now = span.what.frame, span.what.labels
        if now != last:
            comes = last is None or last[0] != span.what.frame
            labels.append((span.first, span.what, comes))
        last = now
    return labels
