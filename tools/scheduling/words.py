"""Stages, phases and refusals in words: docs/SPECIFICATION.md has the same."""

STAGES = {
    1: "look up the page",
    2: "pin the frame found",
    3: "raise the frame's count",
    4: "take a frame",
    5: "read free",
    6: "lower free",
    7: "read the hand",
    8: "put the own frame into an empty slot",
    9: "move the hand on by one",
    10: "start a sweep at the hand",
    11: "look at the next slot",
    12: "read the victim's pins",
    13: "lower the victim's count",
    14: "evict the victim",
    15: "put the own frame in the victim's place",
    16: "move the hand past the slot",
    17: "remove the victim's table entry",
    18: "map the page to the own frame",
    19: "pin the frame that the table has",
    20: "give the own frame up to join",
    21: "raise the joined frame's count",
    22: "map the page anew, to the own frame",
    23: "give the own frame up to start anew",
}

PHASES = (  # first stage, last stage, name
    (1, 3, "look-up"),
    (4, 9, "take and place a frame"),
    (10, 17, "sweep"),
    (18, 23, "table"),
)

REFUSALS = {
    1: "the file has more than 16,384 bytes",
    2: "the report space has fewer than 24 bytes left",
    3: "the record is cut, or the file is empty",
    4: "the record does not start with the mark 46 43",
    5: "there is no such kind of record",
    6: "the first record must be a setup, and no other may be",
    7: "the step names a page",
    8: "a number of the setup or of the pool is out of range",
    9: "there is no such client",
    10: "the client is at work",
    11: "the client is at rest",
    12: "the client has 8 grants already",
    13: "the client does not hold this page",
    14: "the list has too few rows",
    15: "its sweep met only busy slots",
    16: "the page is outside the store",
    17: "the offset is 64 or more",
    18: "the client holds this page already",
}

LAST_TO_END = 8  # refusals up to this number end a run


def stage(number):
    return "stage %d: %s" % (number, STAGES.get(number, "no such stage"))


def refused(number):
    return "refused by %d: %s" % (number,
                                  REFUSALS.get(number, "no such refusal"))


def phase(stage_number):
    """The place in PHASES of the phase that a stage belongs to."""
    for place, (first, last, _) in enumerate(PHASES):
        if first <= stage_number <= last:
            return place
    raise ValueError("no such stage: %d" % stage_number)


def count(number, thing):
    """A number and its thing, which takes an s unless there is one."""
    return "%d %s%s" % (number, thing, "" if number == 1 else "s")


def setup(numbers):
    """The numbers of a setup."""
    slots, clients, cap, hand = numbers
    return "S = %s, T = %s, cap C = %d, first hand %d" % (
        count(slots, "slot"), count(clients, "client"), cap, hand)
