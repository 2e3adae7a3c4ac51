"""Schedule files from text and back."""

import re

import generate
import second
from checking import same
from common import EXAMPLES, LISTING, example, run
from scheduling import BadInput, text, words

SEEDS = range(200)


OTHERS = re.compile(r"^# the other (\d+) bytes?: ([0-9a-f ]+)$", re.MULTILINE)
REASON = re.compile(r"^# at byte (\d+): refused by (\d+): ", re.MULTILINE)


def other_bytes(shown):
    """The bytes that a text shows in hexadecimal only."""
    found = OTHERS.findall(shown)
    if not found:
        return b""
    (count, digits), = found
    others = bytes.fromhex(digits)
    same(len(others), int(count), "the number of other bytes")
    return others


def check_round_trip(schedule):
    """No byte is lost; whether the file is shown as text altogether."""
    refusal = second.run(schedule)[2]
    shown = text.show(schedule)
    made, others = text.make(shown.encode()), other_bytes(shown)
    same(made + others, schedule, "made from what was shown, and the others")
    reasons = REASON.findall(shown)
    if refusal in (0, 6, 8) and not reasons:
        same(others, b"", "the other bytes of an undamaged file")
        return True
    (at, reason), = reasons
    same(int(at), len(made), "the byte that the damage begins at")
    if refusal not in (1, 6, 8):  # these are met before what is damaged
        same(int(reason), refusal, "the reason of the damage")
    return False


def round_trips():
    whole = sum(check_round_trip(generate.generate(seed)) for seed in SEEDS)
    if not 100 < whole < len(SEEDS):
        raise AssertionError("%d of the files are undamaged" % whole)
    return ("make and show, seeds 0 to 199: %d files byte for byte, %d "
            "damaged ones without loss" % (whole, len(SEEDS) - whole))


def cuts_and_spoils():
    """Each prefix of a file, and the file with each byte spoiled."""
    schedule = example("example.txt")
    for length in range(len(schedule)):
        check_round_trip(schedule[:length])
    for at in range(len(schedule)):
        check_round_trip(generate.spoiled(schedule, at, 255 - schedule[at]))
    for length in (16383, 16384, 16385, 16400, 20000):
        check_round_trip((schedule[:10] + schedule[18:26] * 2500)[:length])
    return "make and show, %d cut or spoiled files" % (2 * len(schedule) + 5)


def forms_of_text():
    """Comments, blank lines, hexadecimal, and numbers the pool refuses."""
    same(text.make(b"# all\n\n  \tsetup slots 0x2  clients 2 cap 3 hand "
                   b"0xFFFFffff# no space\r\nstep 200\nstep 0 times 2"),
         bytes.fromhex("464300020203ffffffff 464302c800000000"
                       "4643020000000000 4643020000000000"), "the records")
    same(text.make(b"setup slots 0 clients 255 cap 0 hand 0\n"),
         bytes.fromhex("46430000ff0000000000"), "a setup out of range")
    same(text.make(b"\xef\xbb\xbf# caf\xe9\nstep 0007\n"),
         bytes.fromhex("4643020700000000"), "a strange comment")
    same(text.make(b""), b"", "an empty text")
    longest = b"step 0 times 2048\n"
    same(len(text.make(longest)), 16384, "the length of the longest file")
    same(text.show(text.make(longest)), "# at byte 0: the run ends, "
         + words.refused(6) + "\n" + longest.decode(), "a run of steps")
    return "make, forms of the text"


ERRORS = (  # a text, the line that is wrong, and parts of what is said
    ("setup slots 256 clients 2 cap 3 hand 0", 1, ("slots 256", "0 to 255")),
    ("setup slots 2 clients 2 cap 0x100 hand 0", 1, ("cap 0x100", "255")),
    ("setup slots 2 clients 2 cap 3 hand 4294967296", 1,
     ("hand 4294967296", "0 to 4294967295")),
    ("\n# a comment\nbegin 300 page 9", 3, ("client 300", "0 to 255")),
    ("step 0\nbegin 0 page 4294967296", 2,
     ("page 4294967296", "0 to 4294967295")),
    ("release 0 page " + "9" * 5000, 1, ("page 9999", "0 to 4294967295")),
    ("begin 0 page nine", 1, ("'nine' is no number", "page from 0")),
    ("begin 0 page -1", 1, ("'-1' is no number",)),
    ("begin 0 page 1_0", 1, ("'1_0' is no number",)),
    ("begin page 9", 1, ("'page' is no number", "client")),
    ("step 0\n\nstop 0", 3, ("unknown word 'stop'",
                             "setup, begin, step or release")),
    ("Step 0", 1, ("unknown word 'Step'",)),
    ("begin 0 pages 9", 1, ("unknown word 'pages'", "expected 'page'")),
    ("setup clients 2", 1, ("unknown word 'clients'", "expected 'slots'")),
    ("step 0 9", 1, ("unknown word '9'", "expected 'times'")),
    ("begin 0 page 9 now", 1, ("unknown word 'now'", "expected no more")),
    ("step 0 times 2 times 3", 1, ("unknown word 'times'", "no more")),
    ("begin 0", 1, ("a word is missing", "expected 'page'")),
    ("setup slots 2 clients 2 cap 3", 1, ("a word is missing", "'hand'")),
    ("begin 0 page", 1, ("a number is missing", "page")),
    ("step", 1, ("a number is missing", "client")),
    ("step 0 times", 1, ("a number is missing", "times")),
    ("step 0 times 0", 1, ("times 0", "from 1 on")),
    ("setup slots 2 clients 2 cap 3 hand 0\nstep 0 times 2046\nstep 0", 3,
     ("longer than 16,384 bytes", "16378")),
    ("step 0 times 2049", 1, ("longer than 16,384 bytes",)),
    ("step 0 times 4294967295", 1, ("longer than 16,384 bytes",)),
    ("begin 0 \x00\x07 9", 1, (r"unknown word '\x00\x07'",)),
)


def complaint(given):
    """What 'make' complains of, which must be something."""
    try:
        text.make(given)
    except BadInput as wrong:
        return str(wrong)
    raise AssertionError("no complaint about %.80r" % given)


def errors_in_texts():
    for written, number, parts in ERRORS:
        said = complaint(written.encode())
        if not (said.startswith("line %d: " % number) and "\n" not in said
                and all(part in said for part in parts)):
            raise AssertionError("about %.80r it says: %s" % (written, said))
    return "make, %d wrong texts: line number and message" % len(ERRORS)


def many_errors():
    """All of a text's errors are told, up to a number of them."""
    written = (b"setup slots 2\nbegin 0 page 9\n\nstop\nstep 0 times 3000\n"
               b"step 0 times 3000\nbegin 0 pages 9 # too many\n")
    said = complaint(written).split("\n")
    same([line[:24] for line in said],
         ["line 1: a word is missin", "line 4: unknown word 'st",
          "line 5: the file would b", "line 7: unknown word 'pa"],
         "all that is wrong, the length once")
    same(run("make", data=written),
         (1, b"", "".join("schedule: standard input: %s\n" % line
                          for line in said)), "what the program says")
    said = complaint(b"step 0\n" + 105 * b"stop\n").split("\n")
    same([line.split()[1] for line in said[:-1]],
         ["%d:" % number for number in range(2, 102)], "the lines told of")
    same(said[-1], "and 5 more", "what is said of the others")
    same(len(complaint(100 * b"stop\n").split("\n")), 100, "100 lines")
    said = complaint(b"\nsetup slots 256 clients 300 cap nine hands 0\n")
    same([line[:16] for line in said.split("\n")],
         ["line 2: slots 25", "line 2: clients ", "line 2: 'nine' i"],
         "all that is wrong with one line, as far as it can be read")
    return "make, texts with several errors: each with its line"


def other_files():
    picture = (EXAMPLES / "two-clients.svg").read_bytes()
    for given, what in ((example("example.txt"), "a schedule file already"),
                        (LISTING, "a report"),
                        (picture, "a picture or a page")):
        same(complaint(given), "this is %s; expected a text" % what,
             "what is said of %s" % what)
    return "make, a schedule file, a report, a picture in place of a text"


GOOD = "setup slots 64 clients 16 cap 100 hand 4294967295\nbegin 200 page 9\n"
WARNINGS = (  # a text, and the parts of each warning of it
    (GOOD, ()),
    (GOOD.replace("64", "1").replace("16", "1").replace("100", "1"), ()),
    ("", (("no command", words.refused(3)),)),
    ("# nothing\n\n", (("no command", words.refused(3)),)),
    ("\nstep 0\nbegin 0 page 9\n",
     (("line 2: a step comes first", "with a setup", words.refused(6)),)),
    ("begin 0 page 9\n" + GOOD,
     (("line 1: a begin comes first", "the setup of line 2",
       words.refused(6)),)),
    (GOOD + "\n" + GOOD,
     (("line 4: another setup ends the run here", "the first is at line 1",
       words.refused(6)),)),
    ("setup slots 0 clients 17 cap 101 hand 0\nstep 0\n",
     (("line 1: slots is 0 and must be from 1 to 64", words.refused(8)),
      ("line 1: clients is 17 and must be from 1 to 16", words.refused(8)),
      ("line 1: cap is 101 and must be from 1 to 100", words.refused(8)))),
    ("step 0\nsetup slots 65 clients 0 cap 0 hand 0\n" + GOOD,
     (("line 1: a step comes first", "line 2"), ("line 2: slots is 65",),
      ("line 2: clients is 0",), ("line 2: cap is 0",),
      ("line 3: another setup", "at line 2"))),
)


def warnings_of_texts():
    """Of what no pool can play; the file is made all the same."""
    for written, expected in WARNINGS:
        said = text.warnings(text.read_text(written.encode()))
        same(len(said), len(expected), "the number of warnings of %.80r: %s"
             % (written, said))
        for line, parts in zip(said, expected):
            if "\n" in line or not all(part in line for part in parts):
                raise AssertionError("it says %r, and not %r" % (line, parts))
        made = text.make(written.encode())
        same(bool(said), second.run(made)[2] != 0,
             "whether the run of %.80r ends early" % written)
        same(run("make", data=written.encode()),
             (0, made, "".join("schedule: warning: standard input: %s\n"
                               % line for line in said)),
             "what the program makes and says")
    said = text.warnings(text.read_text(130 * GOOD.encode()))
    same((len(said), said[-1]), (101, "and 29 more"), "warnings of setups")
    return "make, %d texts with and without warnings" % len(WARNINGS)


TESTS = (round_trips, cuts_and_spoils, forms_of_text, errors_in_texts,
         many_errors, other_files, warnings_of_texts)
