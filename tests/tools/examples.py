"""The examples, and what README.md shows of them."""

import itertools
import pathlib
import re
import subprocess
import tempfile

import second
from checking import need, same
from common import EXAMPLES, LISTING, README, TOP, answers_to, example
from scheduling import explain, picture, playing, text

EXAMPLE_FILES = (EXAMPLES / "example.schedule",
                 *(TOP / "crates" / name / "stdin"
                   for name in ("replay", "test_spaces")))


def first_example():
    schedule = example("example.txt")
    same(schedule[:18].hex(" "), "46 43 00 01 01 03 00 00 00 00 "
         "46 43 01 00 09 00 00 00", "the example's first two records")
    same(second.run(schedule), (LISTING, 12, 0), "the example's listing")
    for path in EXAMPLE_FILES:
        same(path.read_bytes(), schedule, "the bytes of %s" % path)
    row = explain.explain(schedule, answers_to(schedule)).splitlines()[1]
    same(row.split(), "0 setup 1 slot and 1 client: 3 frames done".split(),
         "how a setup is explained")
    return ("examples/example.txt gives the example's listing, and the %d "
            "files of it are the same" % len(EXAMPLE_FILES))


def second_example():
    schedule = example("two-clients.txt")
    lines = explain.explain(schedule, answers_to(schedule)).splitlines()
    grants = [line.split()[1:5] for line in lines if "granted" in line]
    same(grants, [[client, "step", "at", stage] for client, stage in
                  (("0", "18"), ("0", "18"), ("1", "22"), ("0", "18"))],
         "who is granted where")
    same(picture.draw(schedule), (EXAMPLES / "two-clients.svg").read_text(),
         "examples/two-clients.svg, the picture of examples/two-clients.txt")
    return ("examples/two-clients.txt: client 1 is granted at stage 22, and "
            "the picture beside it")


def third_example():
    schedule = example("index-pages.txt")
    lines = explain.explain(schedule, answers_to(schedule)).splitlines()
    dropped = [int(re.search(r"dropped: page (\d+)", line)[1])
               for line in lines if "dropped: " in line]
    same(dropped, [4, 5, 3], "the pages that go, one after the other")
    taken = [line for line in lines if "an index page" in line]
    same([re.search(r"count (\d+)", line)[1] for line in taken], ["3"],
         "the count of the index page")
    same(picture.draw(schedule), (EXAMPLES / "index-pages.svg").read_text(),
         "examples/index-pages.svg, the picture of examples/index-pages.txt")
    return ("examples/index-pages.txt: page 3 outlives pages 4 and 5, and the "
            "picture beside it")


def fourth_example():
    schedule = example("round-again.txt")
    lines = explain.explain(schedule, answers_to(schedule)).splitlines()
    rows = [line.split() for line in lines if re.match(r" *\d+ +\d ", line)]
    at = next(place for place, row in enumerate(rows)
              if row[1:5] == ["1", "step", "at", "22"])
    same(rows[at - 1][1:5], ["0", "step", "at", "17"], "the step before it")
    need("dropped: page 9" in " ".join(rows[at - 1])
         and "now at 23" in " ".join(rows[at]), "records %s and %s"
         % (rows[at - 1][0], rows[at][0]))
    begun = next(place for place, row in enumerate(rows) if row[1] == "1")
    need(not any("granted" in row for row in rows[begun:at + 1]),
         "somebody is answered before")
    same([row[1] for row in rows[at:] if "granted" in row], ["0", "1"],
         "who is granted afterwards")
    need(not any("refused" in row for row in rows), "a record is refused")
    return ("examples/round-again.txt: a 17 sends client 1 from 22 to 23, and "
            "both are granted")


# The README.


def readme_lines(first, mark):
    """The lines from the first one that begins so, as far as the mark does."""
    lines = README.read_text(encoding="utf-8").splitlines()
    places = [place for place, line in enumerate(lines)
              if line.startswith(mark + first)]
    same(len(places), 1, "the places in README.md that begin %r" % first)
    return list(itertools.takewhile(lambda line: line.startswith(mark),
                                    lines[places[0]:]))


def readme_listings():
    """The example as text, its report, and an explanation."""
    schedule = example("example.txt")
    shown = readme_lines("setup ", "    ")
    same("".join(line.strip() + "\n" for line in shown),
         text.show(schedule), "the text in README.md")
    lines = readme_lines("0 0 0 1 ", "    ")
    same("".join(" ".join(line.split()[:4]) + "\n" for line in lines),
         second.run(schedule)[0].decode(), "the report in README.md")
    schedule = example("two-clients.txt")
    said = explain.explain(schedule, answers_to(schedule)).splitlines()
    shown = [line[4:] for line in readme_lines("record  client ", "    ")
             if line.strip() != ".."]
    same(shown, [line for line in said if line in shown],
         "the explanation in README.md")
    return "README.md, the example as text, its report, an explanation"


def readme_commands():
    """What README.md tells to type is there, and does what is said."""
    written = README.read_text(encoding="utf-8")
    typed = re.findall(r"^    (tools/schedule [^#\n]*[^# \n])", written, re.M)
    with tempfile.TemporaryDirectory() as folder:
        made = pathlib.Path(folder)
        (made / "tools").symlink_to(TOP / "tools")
        (made / "examples").symlink_to(EXAMPLES)
        for command in typed:
            done = subprocess.run(command, shell=True, cwd=made,
                                  stdout=subprocess.PIPE,
                                  stderr=subprocess.PIPE)
            same(done.returncode, 0, "the exit status of %s" % command)
            target = command.partition(" > ")[2]
            need(done.stdout or (made / target).stat().st_size,
                 "nothing comes of %s" % command)
    names = {command.split()[1] for command in typed}
    same({"make", "explain", "stats", "draw", "page", "make-up"} - names,
         set(), "commands that README.md does not tell")
    crates = len(playing.needed("replay"))
    need("3 of %d proved" % crates in written,
         "README.md does not say that ./replay proves %d crates" % crates)
    for status in re.findall(r"^  (\d)  ", (TOP / "replay").read_text(), re.M):
        need("\n| %s | " % status in written,
             "README.md does not have status %s of ./replay" % status)
    return "README.md, %d commands, the statuses of ./replay" % len(typed)


TESTS = (first_example, second_example, third_example, fourth_example,
         readme_listings, readme_commands)
