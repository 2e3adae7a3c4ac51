"""Each record of a schedule file beside its answer, in words.

What happened is known from the run that moments plays. The answers are those
of a report, and where they are others than in that run, only they are told.
"""

from . import happenings, words
from .moments import Run
from .records import BEGIN, LONGEST_FILE, NAMES, SETUP, STEP, read
from .report import GRANTED, REFUSAL, WORKING
from .tables import Column, lines_of
from .totals import COUNTS, Client, Totals, by_number

COLUMNS = (Column("record", right=True), Column("client", right=True),
           Column("asked"), Column("what happened"), Column("answer"))


def asked(record, stage):
    """What a record asks for, of a client that stands at a stage, if any."""
    if record is None:
        return "(cannot be read)"
    if record.kind == SETUP:
        return "setup"
    if record.kind == STEP:
        return "step" if stage is None else "step at %d" % stage
    return "%s page %d" % (NAMES[record.kind], record.page)


def answered(record, answer, wanted):
    """What the answer to a record says, of a client that wants a page."""
    if answer.refusal:
        return words.refused(answer.refusal)
    if answer.code == WORKING:
        return "now at %d: %s" % (answer.value, words.STAGES.get(
            answer.value, "no such stage"))
    if answer.code == GRANTED:
        return ("granted frame %d" % answer.value
                + ("" if wanted is None else " for page %d" % wanted))
    if record is not None and record.kind == BEGIN:
        return "done; now at 1: " + words.STAGES[1]
    return "done"


def agreed(run, answers):
    """How many of the answers, from the first on, are those of the run."""
    due = ([(call.code, call.value) for call in run.calls]
           or [(REFUSAL + run.refusal, 0)])  # there was no pool
    number = 0
    for expected, answer in zip(due, answers):
        if expected != (answer.code, answer.value):
            break
        number += 1
    return number


def rows_of(records, answers, happened):
    """A row of the listing for each answer."""
    clients = {}  # what is known of each, by the answers so far
    for answer in answers:
        number = answer.number
        record = records[number] if number < len(records) else None
        who = None if record is None else record.client
        client = clients.setdefault(who, Client())
        yield (str(number), "" if who is None else str(who),
               asked(record, client.stage),
               happened[number] if number < len(happened) else "",
               answered(record, answer, client.page))
        if who is not None and not answer.ends_run:
            client.note(record, answer)


def totals_of(run, records, answers):
    """Lines with what each client came to, and all of them.

    Drops are known as far as the answers are those of the run.
    """
    known = agreed(run, answers)
    totals = Totals(records, answers, {number for number in run.drops()
                                       if number < known})
    columns = (Column("client", right=True),
               *(Column(name, right=True) for name in COUNTS), Column(""))
    return lines_of(columns, [
        (name, *(str(part.counts[count]) for count in COUNTS),
         by_number(part.refusals)) for name, part in totals.parts()])


def left_over(data, records, answers):
    """A line about the bytes that were not played, if there are any."""
    # A record that cannot be read is among them, though it has its answer.
    played = min(len(answers), len(records))
    at = records[played - 1].end if played else 0
    if at >= len(data):
        return []
    if answers and answers[-1].ends_run:
        why = "the run ended"
    elif len(data) > LONGEST_FILE:
        why = words.refused(1)
    else:
        why = "the report has no line for them"
    return ["%s from byte %d on not played: %s"
            % (words.count(len(data) - at, "byte"), at, why)]


def unlike(run, answers):
    """A line where answers leave the run that is known, if they do."""
    known = agreed(run, answers)
    if known == len(answers):
        return []
    return ["from record %d on the answers are not those of this schedule's "
            "run" % known]


def explain(data, answers):
    """The text that explains a schedule file by the answers to it."""
    records, _ = read(data)
    run = Run(data)
    happened = happenings.of_run(run)[:agreed(run, answers)]
    lines = [*lines_of(COLUMNS, rows_of(records, answers, happened)),
             *left_over(data, records, answers),
             *(line + "; drops are counted up to there"
               for line in unlike(run, answers)), "",
             *totals_of(run, records, answers)]
    return "".join(line.rstrip() + "\n" for line in lines)
