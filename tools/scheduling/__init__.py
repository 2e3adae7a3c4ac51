"""The parts of tools/schedule.

What is read and said:

    words         stages, phases and refusals in words
    records       the records of a schedule file, as bytes and as numbers
    text          schedule files from readable text and back
    report        the report of a run, read and checked
    tables        tables of text

What a run comes to:

    moments       a run played, and the pool as each record left it
    happenings    what each record did, in words
    totals        what the answers add up to, client by client
    explain       what each record did beside its answer
    stats         a table of the totals, and a plot of the slots
    makeup        a made-up day

Pictures:

    svg           shapes and text of a picture
    symbols       the small shapes that a picture is made of, and their looks
    legend        what each of them means
    history       what a run does to clients and slots, as spans of columns
    part          which records, clients and slots are drawn
    sheet         where things go
    client_rows   the rows of clients
    slot_rows     the rows of slots
    picture       the picture of a run
    page          a page to step through a run

What ./replay is made of, and tools/schedule shares:

    console       how the two read, speak and end
    output        standard output, written whole
    playing       the proved program, built and run
    endings       why a run ended, in words
"""

import pathlib
import sys

TOP = pathlib.Path(__file__).resolve().parent.parent.parent

# The player of schedule files is a module of the tests and stays there.
sys.path.insert(0, str(TOP / "tests"))


class BadInput(Exception):
    """What was given to read is wrong; a line for each fault."""


class BadUsage(BadInput):
    """What was asked for makes no sense, whatever there is to read."""
