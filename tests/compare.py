"""Runs of the proved programs beside those of the second program.

usage: python3 tests/compare.py [PROGRAM] [--seeds N]

Plays generated schedules (seeds 0 to N - 1, 500 if not said) and the edge
files below with PROGRAM, target/bin/replay if not said, and with second.py,
and compares the reports byte for byte. Without PROGRAM it does the same with
target/bin/test_spaces, on 60 generated schedules: what a run returns, and what it
leaves of report spaces of many sizes; with target/bin/test_holdings, on 120:
the holdings after each call, on lists of all lengths; and with
target/bin/test_bytes and second_store.py, on 300 scripts of generate_bytes.py
and on second_store.py's examples: the answers of a pool with bytes, its frames,
its store, the tally and the holdings. It prints what it compared. At the first
difference it keeps the schedule or script and both outputs in target/compare/,
says where they differ, and ends with exit status 1.
"""

import dataclasses
import itertools
import pathlib
import struct
import subprocess
import sys
import time
import typing

sys.dont_write_bytecode = True  # leave no compiled files beside the sources

import generate  # noqa: E402
import generate_bytes  # noqa: E402
import second  # noqa: E402
import second_store  # noqa: E402

TOP = pathlib.Path(__file__).resolve().parent.parent
PROGRAMS = TOP / "target" / "bin"
BUILDS = {"replay": "./replay", "test_spaces": "tools/build test_spaces", "test_holdings": "tools/build test_holdings",
          "test_bytes": "tools/build test_bytes"}
KEPT = TOP / "target" / "compare"
TIME_LIMIT = 20  # seconds for one schedule or script, which takes a few milliseconds
SPACES_SEEDS = 60  # generate.py's whole rotation
HOLDINGS_SEEDS = 2 * SPACES_SEEDS
BYTES_SEEDS = 300  # twelve times generate_bytes.py's whole rotation


def step(client):
    return generate.call_record(second.STEP, client, 0)


def begin(client, page):
    return generate.call_record(second.BEGIN, client, page)


def release(client, page):
    return generate.call_record(second.RELEASE, client, page)


def visit(client, page, steps):
    """A request of so many steps, and its release."""
    return begin(client, page) + steps * step(client) + release(client, page)


# The example of SPECIFICATION 10.6.
EXAMPLE = generate.setup_record(1, 1, 3, 0) + begin(0, 9) + 9 * step(0) + release(0, 9)


def padded(length):
    """The example, then steps that are refused, cut at the length."""
    return (EXAMPLE + 2100 * step(0))[:length]


def hand_wraps():
    """A sweep that starts below 2**32 and ends above it, S no power of 2.

    There are no index pages, so that the first visit of a sweep evicts.
    """
    pages = b"".join(visit(0, page, 12) for page in range(4, 16))
    return generate.setup_record(3, 2, 2, 2**32 - 5) + pages


def frames_go_round():
    """S 64, T 16: frames 0 to 95 are taken in turn, and then frame 0.

    64 pages fill the slots; each further one takes the next frame and swaps
    out the page that stands first before the hand.
    """
    pages = b"".join(visit(page % 16, page, 12) for page in range(100))
    return generate.setup_record(64, 16, 1, 0) + pages


def must_be(found, expected, what):
    if found != expected:
        sys.exit("%s is %s and not %s: the edge file is not what it says" % (what, found, expected))


def pins(script):
    """The pins of the frame in each slot."""
    return [frame.pinning for frame in script.pool.cache.CLOCKBUF.POOL]


def most_pins():
    """16 clients hold the same 8 pages, 16 pins each and 128 grants: the most there can be.

    Each begins a page again as soon as it has it: 18 refuses the first seven,
    12 the eighth. All give theirs back, and a page is swapped out after all,
    once a sweep has lowered its count to 0.
    """
    script = generate.Script(8, 16, 100, 0)
    grants = [(client, page) for page in range(8) for client in range(16)]
    for client, page in grants:
        script.fix(client, page)
        script.begin(client, page)
    must_be(pins(script), 8 * [16], "the pins")
    for client, page in grants:
        script.release(client, page)
    must_be(pins(script), 8 * [0], "the pins")
    script.fix(0, 9)
    must_be(script.held(0), [9], "the held pages")
    lines = report(script.data).decode()
    must_be([lines.count(" %d 0\n" % code) for code in (118, 112)], [7 * 16, 16], "the refusals by 18 and 12")
    return bytes(script.data)


def most_references():
    """A page is fixed until its count is the cap, 100, and 5 times more.

    How long the sweep for another page then goes round tells the count.
    """
    script = generate.Script(1, 1, 100, 0)
    counts = []
    for _ in range(105):
        script.fix(0, 9)
        script.release(0, 9)
        counts.append(script.pool.cache.frames[0].refcount)
    must_be(counts[98:], [99] + 6 * [100], "the count at the end")
    script.fix(0, 5)
    must_be(script.held(0), [5], "the held pages")
    return bytes(script.data)


def visits(script, client, page):
    """The times that a client's sweep for a page lowers a count."""
    before = len(report(script.data))
    script.fix(client, page)
    must_be(page in script.held(client), True, "that page %d is granted" % page)
    return report(script.data)[before:].count(b" %d 1 13\n" % client)


def first_count(page, cap, count):
    """A page alone in its pool: the sweep for another one tells the count that it started with."""
    script = generate.Script(1, 1, cap, 0)
    script.fix(0, page)
    script.release(0, page)
    must_be(visits(script, 0, 9), count, "the count")
    return bytes(script.data)


# A page, the cap and the page's first count. The last two pages would be index pages if the highest byte were left out, or if numbers had a sign.
FIRST_COUNTS = ((3, 1, 1), (3, 2, 2), (3, 3, 3), (3, 100, 3), (0, 100, 3), (4, 100, 1), (2**24 + 3, 100, 1), (2**32 - 1, 100, 1))


def index_outlives():
    """A sweep meets page 3 and then page 4: it evicts page 4, and page 3 is still there for a hit."""
    script = generate.Script(2, 1, 100, 0)
    for page in (3, 4):
        script.fix(0, page)
        script.release(0, page)
    must_be(visits(script, 0, 9), 2, "the visits")
    must_be(sorted(script.pool.cache.HASHTBL), [3, 9], "the pages that are there")
    script.release(0, 9)
    for page in (3, 4):
        script.fix(0, page)
    must_be(script.held(0), [3, 4], "the held pages")
    return bytes(script.data)


def index_revived():
    """Page 3 is evicted and revived at 22; it goes at the third visit after that."""
    script = generate.Script(2, 2, 100, 0)
    script.fix(0, 3)
    script.release(0, 3)
    script.fix(1, 9)
    script.begin(0, 5)
    script.until(0, 17)
    script.release(1, 9)
    script.begin(1, 3)
    script.until(1, 22)
    script.step(1)
    must_be(script.held(1), [3], "what client 1 holds after 22")
    script.finish(0)
    script.release(1, 3)
    must_be(visits(script, 1, 7), 3, "the visits")
    return bytes(script.data)


def index_taken_anew():
    """A frame is taken for page 3, given up at 23 and taken anew; the page goes at the third visit after that."""
    script = generate.Script(2, 2, 100, 0)
    script.begin(1, 3)
    script.until(1, 18)
    script.fix(0, 3)
    script.release(0, 3)
    script.begin(0, 9)
    script.until(0, 17)
    script.until(1, 22)
    script.finish(0)
    script.until(1, 23)
    must_be(script.clients[1].stage, 23, "the stage of client 1")
    script.finish(1)
    script.release(1, 3)
    must_be(visits(script, 1, 5), 3, "the visits")
    return bytes(script.data)


def edge_files():
    """Names and bytes of files that random ones would rarely be."""
    yield "empty", b""
    for length in range(1, len(EXAMPLE) + 1):
        yield "example cut at %d" % length, EXAMPLE[:length]
    yield "16,384 bytes", padded(16384)
    yield "16,385 bytes", padded(16385)
    yield "16,384 zero bytes", bytes(16384)
    yield "hand wraps", hand_wraps()
    yield "frames go round", frames_go_round()
    yield "16 pins and 128 grants", most_pins()
    yield "count 100", most_references()
    for page, cap, count in FIRST_COUNTS:
        yield "page %d with cap %d" % (page, cap), first_count(page, cap, count)
    yield "index page outlives another", index_outlives()
    yield "index page revived", index_revived()
    yield "index page taken anew", index_taken_anew()


def generated(count):
    for seed in range(count):
        yield "seed %d" % seed, generate.generate(seed)


# Scripts for a pool with bytes, as ASCII text.


def scripts(count):
    for seed in range(count):
        yield "script %d" % seed, generate_bytes.script(seed).encode("ascii")


def example_scripts():
    for number, (_, script, _) in enumerate(second_store.EXAMPLES):
        yield "example script %d" % number, script.encode("ascii")


KINDS = ("setup", "begin", "step", "release", "read", "write", "lend", "dump", "tally")


def script_record(name, client=0, page=0, offset=0, byte=0, more=0):
    """A line of a script as the program test_bytes reads it."""
    return struct.pack("<BBBBII", KINDS.index(name), client, byte, more, page, offset)


def script_records(script):
    """All lines of a script as the program test_bytes reads them."""
    found = []
    for name, *numbers in second_store.readScript(script.decode("ascii")):
        if name == "setup":
            slots, clients, cap, hand, length = numbers
            found.append(script_record(name, slots, hand, length, clients, cap))
        elif name in ("lend", "tally"):
            found.append(script_record(name, page=numbers[0]))
        else:
            found.append(script_record(name, *numbers))
    return b"".join(found)


# What the second program has to say to a schedule or script, in the words of each program.


def report(schedule):
    """As the program replay: the report."""
    return second.run(schedule)[0]


def after_run(schedule, size):
    """A line of the program test_spaces: what a run returns, and its space's sum.

    The space is filled with 255 before the run. Its sum is the space read as
    one number, the first byte highest, modulo a prime.
    """
    lines, records, refusal = second.run(schedule, size)
    space = lines.ljust(size, b"\xff")
    return b"%d %d %d %d %d\n" % (size, records, len(lines), refusal, int.from_bytes(space, "big") % 4294967291)


def spaces(schedule):
    """As the program test_spaces: a line for each size that it tries."""
    whole = len(report(schedule))
    sizes = [second.REPORT_SPACE, *range(49), *range(whole, whole + 25)]
    return b"".join(after_run(schedule, size) for size in sizes)


def listed(pool, client, room):
    """A line of the program test_holdings: the first so many of eight rows are lent."""
    rows, others = room * [(77, 7)], (8 - room) * [(77, 7)]
    try:
        code, value = second.DONE, pool.holdings(client, rows)
    except second.Refused as refused:
        code, value = second.REFUSAL + refused.number, 0
    return b"%d %d" % (code, value) + b"".join(b" %d %d" % row for row in rows + others) + b"\n"


def lists(schedule):
    """As the program test_holdings: a list after each call, on 0 to 8 rows in turn."""
    found, rooms, at = [], itertools.cycle(range(9)), 10
    try:
        if len(schedule) <= second.LONGEST_FILE:
            pool = second.Pool(*second.readRecord(schedule[:at], True)[1:])
            while at < len(schedule):
                kind, client, page = second.readRecord(schedule[at:at + 10], False)
                second.call(pool, kind, client, page)
                found.append(listed(pool, client, next(rooms)))
                at += 8
    except second.Refused:
        pass  # the record that ends the run
    return b"".join(found)


def byte_report(script):
    """As the program test_bytes: the report."""
    return second_store.play(script.decode("ascii")).encode("ascii")


# The comparison.


class NotPlayed(Exception):
    """The program has no output for a schedule or script; why."""


def played(program, given):
    """What the program prints."""
    try:
        done = subprocess.run([program], input=given, stdout=subprocess.PIPE, timeout=TIME_LIMIT)
    except subprocess.TimeoutExpired:
        raise NotPlayed("did not end within %d seconds" % TIME_LIMIT) from None
    except OSError as wrong:
        raise NotPlayed("cannot be run: %s" % wrong.strerror) from None
    if done.returncode != 0:
        raise NotPlayed("ended with exit status %d" % done.returncode)
    return done.stdout


def shown(line):
    """A line with its end, in quotes, whatever bytes it has."""
    return repr(line)[1:] if line else "nothing more"


def first_difference(ours, theirs, second_name):
    """The first line that differs, by its number from 0, and both forms of it."""
    pairs = itertools.zip_longest(ours.splitlines(True), theirs.splitlines(True), fillvalue=b"")
    number, (ours, theirs) = next((number, pair) for number, pair in enumerate(pairs) if pair[0] != pair[1])
    place = "the end of line" if ours.rstrip(b"\r\n") == theirs.rstrip(b"\r\n") else "line"
    return "%s %d: the program says %s, %s %s" % (place, number, shown(ours), second_name, shown(theirs))


def stop(name, what, **kept):
    """Keep some bytes of this schedule or script, say what is wrong, and end."""
    KEPT.mkdir(parents=True, exist_ok=True)
    for end, data in kept.items():
        (KEPT / (name.replace(" ", "-") + "." + end)).write_bytes(data)
    sys.exit("%s: %s\nkept in target/compare/: the %s" % (name, what, ", ".join(kept)))


@dataclasses.dataclass
class Comparison:
    """A program, what it must print, and the files that it is tried on, each by its name and as it is kept."""

    program: pathlib.Path
    expected: typing.Callable
    files: typing.List  # of pairs: what the files are, and the files
    second: str = "second.py"
    kind: str = "schedule"
    given: typing.Callable = bytes  # what the program reads for a file

    def compare(self, files):
        """How many files and lines were compared; stops at a difference."""
        count = lines = 0
        for name, file in files:
            theirs = self.expected(file)
            try:
                ours = played(self.program, self.given(file))
            except NotPlayed as why:
                stop(name, "%s %s" % (self.program.name, why), **{self.kind: file})
            if ours != theirs:
                where = first_difference(ours, theirs, self.second)
                stop(name, "%s and %s differ at %s" % (self.program.name, self.second, where), **{self.kind: file}, program=ours, second=theirs)
            count += 1
            lines += theirs.count(b"\n")
        return count, lines


def of_schedules(program, expected, seeds):
    return Comparison(program, expected, [("generated schedules", generated(seeds)), ("edge files", edge_files())])


def of_scripts(seeds):
    return Comparison(PROGRAMS / "test_bytes", byte_report, [("generated scripts", scripts(seeds)), ("examples", example_scripts())],
                      "second_store.py", "script", script_records)


def comparisons(program, seeds):
    """All that is to be compared."""
    if program:
        return [of_schedules(pathlib.Path(program).resolve(), report, seeds)]
    return [of_schedules(PROGRAMS / "replay", report, seeds), of_schedules(PROGRAMS / "test_spaces", spaces, min(seeds, SPACES_SEEDS)),
            of_schedules(PROGRAMS / "test_holdings", lists, min(seeds, HOLDINGS_SEEDS)), of_scripts(min(seeds, BYTES_SEEDS))]


def read_arguments(arguments):
    """The program, if one is given, and the number of seeds."""
    program, seeds = None, 500
    while arguments:
        word = arguments.pop(0)
        if word == "--seeds" and arguments and arguments[0].isdigit():
            seeds = int(arguments.pop(0))
        elif word.startswith("-"):
            print(__doc__.strip())
            sys.exit(0 if word in ("-h", "--help") else 2)
        else:
            program = word
    return program, seeds


def main(arguments):
    todo = comparisons(*read_arguments(arguments))
    for program in (comparison.program for comparison in todo):
        if not program.is_file():
            how = BUILDS.get(program.name)
            sys.exit("%s is not there" % program + (": %s builds it" % how if how else ""))
    started = time.time()
    for comparison in todo:
        for what, files in comparison.files:
            count, lines = comparison.compare(files)
            print("%s: %d %s, %d lines: no difference" % (comparison.program.name, count, what, lines), flush=True)
    print("compared in %.0f s" % (time.time() - started))
    return 0


if __name__ == "__main__":
    sys.exit(main(sys.argv[1:]))
