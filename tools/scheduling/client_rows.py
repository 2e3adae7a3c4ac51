"""The rows of clients: what each wants, its stages, its grants."""

import math

from . import symbols, words
from .records import BEGIN, NAMES, RELEASE, STEP
from .report import GRANTED, WORKING
from .sheet import MARGIN, NAME_WIDTH, SMALL
from .svg import Lane

WANT_HEIGHT, STAGE_HEIGHT, GRANT_HEIGHT, GAP = 13, 18, 14, 9
STAGE_SIZE, REFUSAL_SIZE = 11, 9  # of numbers


class ClientRows:
    """What draws them on a sheet."""

    def __init__(self, sheet, history):
        self.sheet, self.canvas, self.part = sheet, sheet.canvas, sheet.part
        self.history = history
        self.calls = history.calls[self.part.first:self.part.last + 1]

    def rows(self):
        """What draws each row, its number and its height."""
        rows = [(self.draw, client, self.height(client))
                for client in self.part.clients]
        if self.strays():
            rows.insert(0, (self.draw_strays, None, STAGE_HEIGHT + GAP))
        return rows

    def draw_rule(self, y):
        self.canvas.line(MARGIN, y, self.sheet.right + NAME_WIDTH, y,
                         look="rule")

    # The row of the records that are of no client.

    def strays(self):
        """Those whose client is not there, and one that ends the run."""
        return [call for call in self.calls if call.refusal
                and (call.client is None
                     or call.client >= self.history.setup[1])]

    def draw_strays(self, _, y):
        self.canvas.open("g", id="no-client")
        self.sheet.draw_name("no client", y + 13)
        for call in self.strays():
            self.draw_call(call, y)
        self.draw_rule(y + STAGE_HEIGHT + GAP / 2)
        self.canvas.close("g")

    # A client's row.

    def grants(self, client):
        """Its grants that are open in the part, each with its lane."""
        return in_lanes(
            grant for grant in self.history.grants[client]
            if grant.first <= self.part.last
            and (grant.end is None or grant.end > self.part.origin))

    def height(self, client):
        lanes = max((lane + 1 for _, lane in self.grants(client)), default=1)
        return WANT_HEIGHT + STAGE_HEIGHT + GRANT_HEIGHT * lanes + GAP

    def draw(self, client, y):
        self.canvas.open("g", id="client-%d" % client)
        self.draw_rule(y + self.height(client) - GAP / 2)
        stage_y = y + WANT_HEIGHT
        self.sheet.draw_name("client %d" % client, stage_y + 13)
        self.draw_wants(client, stage_y - 3)
        self.draw_standing(client, stage_y)
        for call in self.calls:
            if call.client == client:
                self.draw_call(call, stage_y)
        for grant, lane in self.grants(client):
            self.draw_grant(client, grant, stage_y + STAGE_HEIGHT + 1
                            + GRANT_HEIGHT * lane)
        self.canvas.close("g")

    def draw_wants(self, client, y):
        """The page of each request, and between them the client's name."""
        sheet = self.sheet
        lane, end = Lane(self.canvas, y, SMALL), sheet.right
        for span in reversed(sheet.seen(self.history.wanted[client])):
            x = sheet.x(span.first)
            lane.put(x + 1, end, "wants %d" % span.what, str(span.what),
                     look="grey")
            end = x - Lane.GAP
        for x in sheet.rails():
            lane.put(x, sheet.right, "client %d" % client, look="ink")

    def draw_standing(self, client, y):
        """A band behind the stages, in the colour of the one to come."""
        sheet = self.sheet
        for span in sheet.seen(self.history.standing[client]):
            x = (sheet.middle(span.first) if span.first >= self.part.first
                 else sheet.left)
            self.canvas.box(x, y + 5, sheet.x(span.end) - x,
                            STAGE_HEIGHT - 10,
                            look="faint%d" % words.phase(span.what),
                            tip="client %d stands at %s"
                            % (client, words.stage(span.what)))

    def draw_call(self, call, y):
        symbol = self.sheet.symbol
        x, middle = self.sheet.middle(call.number), y + STAGE_HEIGHT / 2
        tip = "record %d: %s" % (call.number, call_in_words(call))
        if call.refusal:
            symbols.refusal(self.canvas, x, middle, symbol * 1.2, tip)
            self.draw_number(x, middle + 3.2, call.refusal, REFUSAL_SIZE,
                             "in-refusal")
        elif call.kind == BEGIN:
            symbols.begin(self.canvas, x, middle - self.apart(),
                          symbol * 0.8, tip)
        elif call.kind == RELEASE:
            symbols.release(self.canvas, x, middle + self.apart(),
                            symbol * 0.8, tip)
        elif call.kind == STEP:
            self.draw_stage(call, y, tip)

    def apart(self):
        """Symbols wider than a column are drawn above and below."""
        return (0 if self.sheet.symbol * 2 <= self.sheet.column
                else STAGE_HEIGHT / 4)

    def draw_stage(self, call, y, tip):
        place, width = words.phase(call.did), self.sheet.column
        gap = 1 if width >= 10 else 0
        self.canvas.box(self.sheet.x(call.number) + gap / 2, y, width - gap,
                        STAGE_HEIGHT, look="phase%d" % place, tip=tip)
        self.draw_number(self.sheet.middle(call.number), y + 13, call.did,
                         STAGE_SIZE, "in-phase%d" % place)

    def draw_number(self, x, y, number, size, look):
        """A number in a cell, if there is room for it."""
        if self.sheet.numbered:
            self.canvas.text(x, y, str(number), font_size=size, look=look,
                             text_anchor="middle")

    def draw_grant(self, client, grant, y):
        sheet = self.sheet
        begins = grant.first >= self.part.origin
        ends = grant.end is not None and grant.end <= self.part.last
        x = sheet.x(grant.first) if begins else sheet.left
        end = sheet.x(grant.end) if ends else sheet.right
        symbols.grant(self.canvas, x, y + 0.5, end - x, GRANT_HEIGHT - 2,
                      "client %d holds page %d in frame %d"
                      % (client, grant.page, grant.frame), begins, ends)
        lane = Lane(self.canvas, y + GRANT_HEIGHT - 4, SMALL)
        for place in (x + 4, *sheet.rails()):
            if place > x:
                lane.put(place, end - 2, "page %d" % grant.page,
                         str(grant.page), look="ink")


def in_lanes(grants):
    """Grants by their beginnings, each in the first lane that is free."""
    placed, ends = [], []  # where each lane is free again
    for grant in grants:
        lane = next((lane for lane, end in enumerate(ends)
                     if end <= grant.first), len(ends))
        ends[lane:lane + 1] = [math.inf if grant.end is None else grant.end]
        placed.append((grant, lane))
    return placed


def call_in_words(call):
    """A call and its answer, for a tip."""
    if call.client is None:
        what = ("a record that cannot be read" if call.kind is None
                else NAMES[call.kind])
    elif call.kind == STEP:
        what = "client %d steps" % call.client
        if call.did is not None:
            what += ", does " + words.stage(call.did)
    else:
        what = "client %d, %s page %d" % (call.client, NAMES[call.kind],
                                          call.page)
    if call.refusal:
        return "%s; %s" % (what, words.refused(call.refusal))
    if call.code == WORKING:
        return "%s; now stands at %d" % (what, call.value)
    if call.code == GRANTED:
        return "%s; granted frame %d" % (what, call.value)
    return what
