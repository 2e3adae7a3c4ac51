"""What each record of a run did, in words.

A sentence for each row of the tables in docs/SPECIFICATION.md, section 4,
with the numbers that decided it.
"""

import second

from . import words
from .records import BEGIN, RELEASE, SETUP, STEP
from .moments import EVICTED, IN_USE, dropped


class Step:
    """A step of a client: the pool before it and after it.

    'given_up' has the frames that were evicted at 20 or 23, before the table
    had them.
    """

    def __init__(self, call, before, after, given_up):
        self.call, self.before, self.after = call, before, after
        self.given_up = given_up
        self.was = before.clients[call.client]
        self.now = after.clients[call.client]
        self.size = len(before.slots)

    @property
    def page(self):
        return self.was.wanted

    def raised(self, frame):
        """What became of the count of the frame that is granted."""
        was, now = (moment.frames[frame].count
                    for moment in (self.before, self.after))
        return ("the count of frame %d is %d now" % (frame, now) if was < now
                else "the count of frame %d stays %d, the cap" % (frame, now))

    def pinned(self, frame):
        return "frame %d is pinned: %s now" % (
            frame, words.count(self.after.frames[frame].pins, "pin"))

    def hand(self):
        hand = self.after.hand
        return "the hand is %d now: slot %d" % (hand, hand % self.size)

    def following(self):
        """Where the client looks next."""
        return "slot %d is next" % self.now.place

    def busy_visit(self):
        run = self.size if self.call.refusal else self.now.busy
        return "busy visit %d of %d" % (run, self.size)

    def placed(self, slot):
        """What everybody should know of a frame that is not mapped yet."""
        return "frame %d stands in slot %d, a candidate for page %d" % (
            self.was.own, slot, self.page)


def stage1(step):
    if step.call.stage == 2:
        return "the table has page %d in frame %d" % (step.page,
                                                      step.now.found)
    return "the table does not have page %d" % step.page


def stage2(step):
    if step.call.stage == 3:
        return step.pinned(step.was.found)
    return "frame %d is evicted and cannot be pinned" % step.was.found


def stage3(step):
    return "a hit: " + step.raised(step.call.value)


def stage4(step):
    own = step.now.own
    sort = ", an index page" if step.page in second.INDEX_PAGES else ""
    return "takes frame %d for page %d%s, with one pin and count %d" % (
        own, step.page, sort, step.after.frames[own].count)


def stage5(step):
    if step.call.stage == 6:
        return "%s left to claim" % words.count(step.now.seen, "slot")
    return "no slot is left to claim: it has to sweep"


def stage6(step):
    if step.call.stage == 7:
        return "claims a slot: free is %d now" % step.after.free
    return "free is %d by now and not %d" % (step.before.free, step.was.seen)


def stage7(step):
    return "the hand is %d: it looks from slot %d on" % (step.before.hand,
                                                         step.now.place)


def stage8(step):
    slot = step.was.place
    if step.call.stage == 9:
        return step.placed(slot)
    return "slot %d has frame %d: %s" % (slot, step.before.slots[slot],
                                         step.following())


def stage9(step):
    return step.hand()


def stage10(step):
    return "the hand is %d: the sweep starts at slot %d" % (step.now.start,
                                                            step.now.place)


def stage11(step):
    slot = step.was.place
    if step.call.stage == 12:
        return "slot %d: %s" % (slot, step.before.told(step.now.victim))
    return "slot %d is claimed and still empty, %s" % (slot,
                                                       step.busy_visit())


def stage12(step):
    slot, victim = step.was.place, step.was.victim
    if step.call.stage == 13:
        return "slot %d: frame %d is not in use" % (slot, victim)
    if step.call.stage == 15:
        return "slot %d: frame %d is evicted already" % (slot, victim)
    return "slot %d: frame %d is in use, %s" % (slot, victim,
                                                step.busy_visit())


def stage13(step):
    victim = step.was.victim
    was, now = (moment.frames[victim].count
                for moment in (step.before, step.after))
    count = ("the count of page %d goes from %d to %d"
             % (step.before.frames[victim].page, was, now) if was > now
             else "the count of page %d is 0"
             % step.before.frames[victim].page)
    if step.call.stage == 14:
        return count + ": it may go"
    return "%s: it stays, %s" % (count, step.following())


def stage14(step):
    victim = step.was.victim
    page, pins, count = step.before.frames[victim]
    if step.call.stage == 15:
        # This stage looks at the pins alone: others may have used the page.
        return "page %d loses frame %d: its count was 0%s" % (
            page, victim, " at 13 and is %d by now" % count if count else "")
    return "frame %d is %s by now: %s" % (victim, EVICTED if pins < 0
                                          else IN_USE, step.following())


def stage15(step):
    if step.call.stage == 16:
        return "%s, instead of frame %d" % (step.placed(step.was.place),
                                            step.was.victim)
    return "frame %d is not in slot %d any more: %s" % (
        step.was.victim, step.was.place, step.following())


stage16 = stage9


def stage17(step):
    victim = step.was.victim
    if dropped(step.call, step.before, step.after):
        return ("dropped: page %d leaves the table"
                % step.before.frames[victim].page)
    if victim in step.given_up:
        return ("frame %d was given up and has no entry: nothing removed"
                % victim)
    # The entry of a page that a 14 evicted goes by this 17 or by a 22.
    return "the entry was already replaced: nothing removed"


def stage18(step):
    if step.call.stage == 19:
        return ("page %d is in the table already, with frame %d: frame %d "
                "stays a candidate" % (step.page, step.now.found,
                                       step.was.own))
    return "admitted: the table has page %d in frame %d" % (step.page,
                                                            step.call.value)


def stage19(step):
    if step.call.stage == 20:
        return step.pinned(step.was.found)
    return "frame %d is evicted and cannot be joined" % step.was.found


def stage20(step):
    return "gives its candidate up: frame %d is evicted" % step.was.own


def stage21(step):
    return "joined: " + step.raised(step.call.value)


def stage22(step):
    if step.call.stage == 23:
        there = step.before.table.get(step.page)
        return "page %d has %s by now: frame %d stays a candidate" % (
            step.page, "no entry" if there is None else "frame %d" % there,
            step.was.own)
    return "revived: the table has page %d in frame %d and not in %d" % (
        step.page, step.call.value, step.was.found)


stage23 = stage20


STAGES = (stage1, stage2, stage3, stage4, stage5, stage6, stage7, stage8,
          stage9, stage10, stage11, stage12, stage13, stage14, stage15,
          stage16, stage17, stage18, stage19, stage20, stage21, stage22,
          stage23)


def turned_down(call, moment):
    """What made a refusal by 9 to 13 or by 18 come about."""
    if call.refusal == 9:
        return "the pool has %s" % words.count(len(moment.clients), "client")
    client = moment.clients[call.client]
    if call.refusal == 10:
        return "it stands at %d and wants page %d" % (client.stage,
                                                      client.wanted)
    if call.refusal == 11:
        return "it has no request"
    pages = sorted(page for page, _ in client.grants)
    if not pages:
        return "it holds no page"
    return "it holds page%s %s" % ("s" if len(pages) > 1 else "",
                                   ", ".join(map(str, pages)))


def released(call, before, after):
    """What the grant's frame is left with."""
    page = call.page
    frame = dict(before.clients[call.client].grants)[page]
    pins = after.frames[frame].pins
    if pins == 0:
        return "frame %d has no pins now: nobody holds page %d" % (frame,
                                                                   page)
    return "frame %d has %s now" % (frame, words.count(pins, "pin"))


def happened(call, before, after, given_up):
    """What a call did, or why it did nothing; empty where nothing is to say.

    Before and after it the pool was as given; before a setup there is none.
    """
    if call.client is None:
        return ("%s and %s: %s" % (words.count(len(after.slots), "slot"),
                                   words.count(len(after.clients), "client"),
                                   words.count(len(after.frames), "frame"))
                if call.kind == SETUP and not call.refusal else "")
    if call.refusal and call.did is None:
        return turned_down(call, before)
    if call.kind == BEGIN:
        return "wants page %d" % call.page
    if call.kind == RELEASE:
        return released(call, before, after)
    assert call.kind == STEP
    return STAGES[call.did - 1](Step(call, before, after, given_up))


def of_run(run):
    """What each call of a run did, in their order."""
    told, given_up = [], set()
    for call, before, after in run.turns():
        told.append(happened(call, before, after, given_up))
        if call.did == 4:
            given_up.discard(after.clients[call.client].own)
        elif call.did in (20, 23):
            given_up.add(before.clients[call.client].own)
    return told
