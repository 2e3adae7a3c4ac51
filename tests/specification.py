"""The specification beside the sources: python3 tests/specification.py

It prints a line for each thing it tests and a line with the totals. Its exit
status is 0 if all passed, else 1.

docs/SPECIFICATION.md says for people what the definitions say for the proof
checker. Whether the two mean the same no test can tell; this one sees to it
that neither is renumbered or renamed without the other. Clauses are numbered
without gaps; each names definitions that exist, and the comment above each of
these cites the clause. Whatever is cited, in any file, is there. The tables
of stages and refusals have a row for each, in the words of tools/schedule,
and a stage leads where it leads in the runs of the second program. The
limits, the example and the names of the worked cases are the sources', and so
are the numbers of claim 24, on whichever page they are written. What is
exported to other languages promises, clause for clause, what the function
promises that the claims are about.
"""

import os
import pathlib
import re
import sys

sys.dont_write_bytecode = True  # leave no compiled files beside the sources

TOP = pathlib.Path(__file__).resolve().parent.parent
sys.path.insert(0, str(TOP / "tools"))

import generate  # noqa: E402 (after the lines above, or they come too late)
import second  # noqa: E402
from checking import need, run_all, same  # noqa: E402
from scheduling import text, words  # noqa: E402
from scheduling.totals import step_bound  # noqa: E402

SPECIFICATION = TOP / "docs" / "SPECIFICATION.md"
GUARANTEE = TOP / "docs" / "GUARANTEE.md"
SERVER = TOP / "docs" / "SERVER.md"
README = TOP / "README.md"
TYPES = [TOP / "crates" / name / "src" / "lib.rt"
         for name in ("pool", "memory")]
STAGE_CODE = TOP / "crates" / "actions" / "src" / "stages.rt"
SPECS = [TOP / "crates" / name / "specs"
         for name in ("pool", "guarantee", "memory", "contents", "mixed",
                      "client_arrays", "counting", "in_place", "listing",
                      "checks", "served", "held_claims", "served_tie")]
SUFFIXES = (".antt", ".edit", ".md", ".py", ".rs", ".rt", ".txt", "")
STAGES, REFUSALS, CASES = 4, 6, 12  # sections whose rows are numbered or named


def read(path):
    return path.read_text(encoding="utf-8")


def here(path):
    return path.relative_to(TOP)


# Reading the page.


def cells(row):
    return [cell.strip() for cell in row.strip().strip("|").split("|")]


def names_in(written):
    """The names between backquotes."""
    return re.findall(r"`([^`]+)`", written)


def sections():
    """The lines of each section, by the section's number."""
    found, number = {}, None
    for line in read(SPECIFICATION).splitlines():
        heading = re.match(r"## (\d+) ", line)
        if heading:
            number = int(heading[1])
            found[number] = []
        elif number is not None:
            found[number].append(line)
    return found


SECTIONS = sections()


def rows(section):
    """The cells of a section's table rows that begin with a number."""
    return [cells(line) for line in SECTIONS[section]
            if re.match(r"\| \d+ \|", line)]


def clauses():
    """Each clause's section, number and text, in the order of the page.

    A clause is a paragraph that begins with its number, or a row of the
    tables of stages and refusals.
    """
    for section, lines in SECTIONS.items():
        if section in (STAGES, REFUSALS):
            for row in rows(section):
                yield section, int(row[0]), "→ " + row[-1]
        for line in lines:
            begins = re.match(r"\*\*(\d+)\.(\d+)\b", line)
            if begins:
                yield int(begins[1]), int(begins[2]), line


TEXTS = {(section, number): line for section, number, line in clauses()}
# A clause names its definitions behind an arrow.
NAMED = {clause: names_in(line.rpartition("→")[2]) if "→" in line else []
         for clause, line in TEXTS.items()}


# Definitions.


DEFINES = re.compile(r" *(?:abbrev pub|unfoldable pub|pub record|pub data"
                     r"|pub struct|pub enum) (\S+)")


def spec_file(name):
    """The file of definitions that is called so, or None."""
    found = [folder / (name + ".antt") for folder in SPECS
             if (folder / (name + ".antt")).is_file()]
    need(len(found) < 2, "two files of definitions are called %s" % name)
    return found[0] if found else None


def defined_in(line):
    """The name that a line defines, or None."""
    defines = DEFINES.match(line)
    return defines[1] if defines else None


def type_file(name):
    """The file that declares a type; the first of them if none does."""
    return next((path for path in TYPES
                 if name in map(defined_in, read(path).splitlines())), TYPES[0])


def part_end(lines, at):
    """Where the lines end that stand further in than a line."""
    further = re.compile(r"$|%s +" % re.match(" *", lines[at])[0])
    return next((place for place in range(at + 1, len(lines))
                 if not further.match(lines[place])), len(lines))


def place_of(name):
    """The file that defines a name, and the line of it where it does.

    'State.slot' is slot in the file State, 'Claims.Point3.grants' is grants in
    Point3 in the file Claims, and 'Pool.free' is free in the type Pool. Where a
    file has a type's name, as Memory has, the type's fields cannot be named.
    """
    file, *inner = name.split(".")
    path = spec_file(file) if inner else None
    if path is None:
        path, inner = type_file(file), [file, *inner]
    lines = read(path).splitlines()
    at, end = -1, len(lines)
    for word in inner:
        part = re.compile(r" +(?:pub )?%s ?:" % re.escape(word))
        at = next((place for place in range(at + 1, end)
                   if defined_in(lines[place]) == word
                   or part.match(lines[place])), None)
        need(at is not None, "%s has no definition %s" % (here(path), name))
        end = part_end(lines, at)
    return path, at


def comment_above(path, at, group=()):
    """The comment right above a definition, or above others of its group."""
    lines = read(path).splitlines()
    is_comment = [line.lstrip().startswith(("--", "//")) for line in lines]
    while at > 0 and not is_comment[at - 1]:
        at -= 1
        if defined_in(lines[at]) not in (None, *group):
            return ""
    end = at
    while at > 0 and is_comment[at - 1]:
        at -= 1
    return " ".join(line.lstrip("-/ ") for line in lines[at:end])


# Citations.


def numbers(written, before, number=r"\d+"):
    """The numbers behind a word: 'stage 14', 'stages 3 and 21', '1.2 to 1.4'.

    Each is a tuple of its parts.
    """
    found = re.compile(r"\b%s (%s(?:(?:, | and | or | to )%s)*)(?![\d.]*\d)"
                       % (before, number, number))
    for match in found.finditer(written):
        for first, last in re.findall(r"(%s)(?: to (%s))?" % (number, number),
                                      match[1]):
            *section, low = map(int, first.split("."))
            high = int((last or first).split(".")[-1])
            for one in range(low, high + 1):
                yield (*section, one)


def in_full(written):
    """The clauses that 'SPECIFICATION 2.8' and the like cite."""
    return numbers(written, "SPECIFICATION", r"\d+\.\d+")


def cited(written):
    """Those, and the clauses of the short forms."""
    yield from in_full(written)
    for section, word in ((STAGES, "stages?"), (REFUSALS, "refusals?")):
        for one, in numbers(written, word):
            yield section, one


def files():
    """Every source and page, with its text on one line."""
    for folder, within, names in os.walk(TOP):
        within[:] = [name for name in within if name not in (".git", "target", "out")]
        for path in (pathlib.Path(folder, name) for name in names):
            if path.suffix in SUFFIXES:
                try:
                    yield path, re.sub(r"\n\s*(?://|--|#)?\s*", " ", read(path))
                except UnicodeDecodeError:
                    pass  # a schedule that a test program reads


# The tests.


def numbering():
    """Sections and clauses are numbered from 1 on."""
    same(list(SECTIONS), list(range(1, len(SECTIONS) + 1)), "the sections")
    listed = [int(number) for number
              in re.findall(r"\[(\d+)\]\(#\1-", read(SPECIFICATION))]
    same(listed, list(SECTIONS), "the sections in the table of contents")
    found = [(section, number) for section, number, _ in clauses()]
    expected = [(section, number) for section in SECTIONS
                for number in range(1, 1 + sum(one == section
                                               for one, _ in found))]
    for one, due in zip(found, expected):
        need(one == due, "clause %d.%d stands where %d.%d is due" % (one + due))
    same(set(SECTIONS) - {section for section, _ in found}, {CASES},
         "the sections without clauses")
    return "%d clauses in %d sections" % (len(TEXTS), len(SECTIONS))


def definitions():
    """Each clause names definitions; what the two pages name is there."""
    for clause, named in NAMED.items():
        need(named, "clause %d.%d names no definition" % clause)
        for name in named:
            place_of(name)
    for page in (SPECIFICATION, GUARANTEE):
        for name in names_in(read(page)):
            if re.fullmatch(r"[A-Z]\w*(\.[\w-]+)+(?<!\.antt)", name):
                place_of(name)
            elif re.fullmatch(r"[\w.]+(/[\w.]+)+", name):
                need((TOP / name).exists(),
                     "%s names %s, which is not there" % (here(page), name))
    return ("%d definitions of clauses, and whatever the two pages name"
            % sum(map(len, NAMED.values())))


def cited_where_defined():
    """The comment above a clause's definition cites the clause."""
    for clause, named in NAMED.items():
        group = {name.rpartition(".")[2] for name in named}
        for name in named:
            path, at = place_of(name)
            need(clause in set(cited(comment_above(path, at, group))),
                 "%s:%d: the comment above %s does not cite clause %d.%d"
                 % (here(path), at + 1, name, *clause))
    return "the comment above each of them cites its clause"


def citations():
    """What is cited is there, in every file and on the page itself."""
    last = {"stages?": max(words.STAGES), "refusals?": max(words.REFUSALS),
            r"SPECIFICATION(?:\.md)?, sections?": len(SECTIONS),
            "GUARANTEE": len(claims())}
    count = 0
    for path, written in files():
        for clause in in_full(written):
            need(clause in TEXTS, "%s cites clause %d.%d, which is not there"
                 % (here(path), *clause))
            count += 1
        for word, most in last.items():
            if word.islower() and path.suffix == ".md":
                continue  # a page may speak of the crate of that name
            for one, in numbers(written, word):
                need(one <= most, "%s cites %s %d, which is not there"
                     % (here(path), word.partition("?")[0], one))
                count += 1
    for within in re.findall(r"(?<![\d.,`])(\d+\.\d+)(?![\d.])",
                             read(SPECIFICATION)):
        need(tuple(map(int, within.split("."))) in TEXTS,
             "the page refers to %s, which is not there" % within)
    return "%d citations of clauses, stages, refusals and claims" % count


def claims():
    """The claims of docs/GUARANTEE.md, in order."""
    found = [int(number) for number
             in re.findall(r"^(\d+)\. \*\*", read(GUARANTEE), re.M)]
    same(found, list(range(1, len(found) + 1)), "the claims' numbers")
    return found


def statements():
    """Each claim has its statement, in a file that cites the claim."""
    stated = [cells(line) for line in read(GUARANTEE).splitlines()
              if re.match(r"\| \d+ \| `", line)]
    same([int(row[0]) for row in stated], claims(), "the claims stated")
    for number, statement, *_ in stated:
        need(names_in(statement), "claim %s has no statement" % number)
        for name in names_in(statement):
            path, _ = place_of(name)
            need((int(number),) in set(numbers(read(path), "GUARANTEE")),
                 "%s does not cite claim %s" % (here(path), number))
    return "%d claims: each has a statement, where it is cited" % len(stated)


def stages():
    """A row for each stage: its name, and the stages it can lead to."""
    found = rows(STAGES)
    same({len(row) for row in found}, {5}, "cells in the rows of stages")
    same([int(row[0]) for row in found], list(words.STAGES), "the stages")
    code = read(STAGE_CODE)
    for number, name, _, then, definition in found:
        same(name, words.STAGES[int(number)], "the name of stage %s" % number)
        same(definition, "`Stages.stage%s`" % number, "its definition")
        above = comment_above(*place_of("Stages.stage" + number))
        need(above.startswith("stage %s: %s" % (number, name)),
             "the comment above stage%s does not begin with its name" % number)
        need(re.search(r"^pub fn stage%s\((?:(?!^\{$).)*"
                       r"ensures \{ result ≡ stage%s " % (number, number),
                       code, re.M | re.S),
             "no function stage%s that promises its definition" % number)
        then = re.sub(r"(pins|count|above) -?\d+", "", then)
        leads = {int(one) for one in re.findall(r"\d+", then)}
        leads |= {generate.GRANT} if "granted" in then else set()
        leads |= {generate.FULL} if "refused" in then else set()
        same(leads, {after for before, after in generate.EDGES
                     if before == int(number)}, "where stage %s leads" % number)
    for _, _, phase in words.PHASES:
        need(phase.capitalize() + ":" in SECTIONS[STAGES],
             "no table of the phase %s" % phase)
    return ("%d stages: names, where they lead, and what their code promises"
            % len(found))


def refusals():
    """A row for each refusal: why, and what becomes of a run."""
    found = rows(REFUSALS)
    same({len(row) for row in found}, {5}, "cells in the rows of refusals")
    same([int(row[0]) for row in found], list(words.REFUSALS), "the refusals")
    for number, why, _, run, _ in found:
        same(why, words.REFUSALS[int(number)], "why %s refuses" % number)
        same(run.startswith("ends"), int(number) <= words.LAST_TO_END,
             "that refusal %s ends a run" % number)
        same("without a line" in run, int(number) <= 2,
             "that refusal %s has no line" % number)
    return "%d refusals: why, and what becomes of a run" % len(found)


# What C and Rust call them, in one order.
SERVERS = {
    TOP / "include" / "foqheran.h": [
        "FOQHERAN_" + name for name in (
            "MOST_SLOTS", "MOST_CLIENTS", "MOST_CAP", "MOST_GRANTS",
            "MOST_PAGES", "PAGE_BYTES", "INDEX_PAGES", "INDEX_COUNT")],
    TOP / "embed" / "rust" / "foqheran" / "src" / "lib.rs": [
        "MOST_SLOTS: u8", "MOST_CLIENTS: u8", "MOST_CAP: u8",
        "MOST_GRANTS: usize", "MOST_PAGES: usize", "PAGE_BYTES: usize",
        "INDEX_PAGES: u32", "INDEX_COUNT: u8"],
}


def limits():
    """The limits are those of the definitions, the code, C and Rust."""
    defined = dict(re.findall(r"^(max_\w+|page_bytes|index_\w+) = (\d+)$", "\n".join(
        read(spec_file(name)) for name in ("Limits", "Memory")), re.M))
    size, clients, cap, held, page, pages, index, count = (
        int(defined[name]) for name in (
            "max_size", "max_clients", "max_cap", "max_held", "page_bytes",
            "max_pages", "index_pages", "index_count"))
    for clause, said in (((1, 1), "S is 1 to %d, T is 1 to %d, C is 1 to %d."
                          % (size, clients, cap)),
                         ((1, 2), "-1 to %d" % (clients * held)),
                         ((2, 2), "at most %d open grants" % held),
                         ((4, 31), "Pages 0 to %d are *index pages*"
                          % (index - 1)),
                         ((4, 31), "has count %d then, or C where C is below "
                          "%d;" % (count, count)),
                         ((5, 3), "-1 to %d" % (clients * held)),
                         ((13, 1), "%d for each page. It has 1 to %d pages"
                          % (page, pages)),
                         ((13, 1), "0 to %d, is its *offset*" % (page - 1)),
                         ((13, 2), "for each frame %d bytes" % page),
                         ((13, 4), "%d bytes for each page" % page),
                         ((13, 11), "at most %d pages" % pages)):
        need(said in TEXTS[clause],
             "clause %d.%d does not say %r" % (*clause, said))
    need(words.REFUSALS[17].endswith(" %d or more" % page),
         "refusal 17 is not for offsets from %d on" % page)
    code = "\n".join(map(read, TYPES))
    for name, limit in (("MAX_SIZE: u8", size), ("MAX_CLIENTS: u8", clients),
                        ("MAX_CAP: u8", cap), ("MAX_HELD: u8", held),
                        ("PAGE: usize", page), ("MAX_PAGES: u16", pages),
                        ("INDEX_PAGES: u32", index),
                        ("INDEX_COUNT: u8", count)):
        need("pub const %s = %d;" % (name, limit) in code,
             "the code's %s is not %d" % (name, limit))
    for path, names in SERVERS.items():
        for name, limit in zip(names, (size, clients, cap, held, pages, page,
                                       index, count)):
            need(re.search(r"\b%s = %d\b" % (name, limit), read(path)),
                 "%s of %s is not %d" % (name, path.name, limit))
    return ("the limits: %d, %d, %d, %d; %d bytes, %d pages; %d index pages, "
            "count %d" % (size, clients, cap, held, page, pages, index, count))


def rules():
    """The table of the sequential pool's steps has a row for each rule."""
    path, at = place_of("Sequential.StepRule")
    lines = read(path).splitlines()
    defined = re.findall(r"^  (\w+) :", "\n".join(
        lines[at:part_end(lines, at)]), re.M)
    named = [name.rpartition(".")[2] for line in SECTIONS[11]
             if line.startswith("|") for name in names_in(cells(line)[-1])]
    same(list(dict.fromkeys(named)), defined, "the rules of 11.6")
    return "%d rules of the sequential pool's steps" % len(defined)


def example():
    """The records and the listing of the example are the file's."""
    lines = SECTIONS[10]
    listing = [line.strip() for line in lines if re.match(r"    \d", line)]
    schedule = (TOP / "examples" / "example.schedule").read_bytes()
    same("\n".join(listing) + "\n", second.run(schedule)[0].decode(),
         "the example's report")
    records = [bytes.fromhex(name) for line in lines for name in names_in(line)
               if re.fullmatch(r"([0-9a-f]{2} )+[0-9a-f]{2}", name)]
    same(len(records), 4, "the example's records")
    setup, begin, step, release = records
    same(setup + begin + 9 * step + release, schedule, "the example's file")
    same(schedule, text.make((TOP / "examples" / "example.txt").read_bytes()),
         "the file of examples/example.txt")
    return "the example: its records and its report"


def cases():
    """Each published case has its row, and each row its case."""
    defined = re.findall(r"^abbrev pub (P\d\w*) :",
                         read(spec_file("Cases")), re.M)
    named = [name.partition(".")[2] for line in SECTIONS[CASES]
             if line.startswith("| P") for name in names_in(cells(line)[-1])]
    same(named, defined, "the worked cases")
    return "%d worked cases" % len(named)


POOLS = [(slots, clients, cap) for slots in range(1, 65)
         for clients in range(1, 17) for cap in range(1, 101)]


def values(formula):
    """What a formula in S, T and C comes to, for every pool.

    As a page writes it, or as a definition does.
    """
    formula = formula.upper().replace("·", "*")
    for sign, power in (("²", "**2"), ("³", "**3")):
        formula = formula.replace(sign, power)
    formula = compile(re.sub(r"(\d)(?=[STC])", r"\1*", formula), "N", "eval")
    return [eval(formula, {"S": slots, "T": clients, "C": cap})
            for slots, clients, cap in POOLS]


def bounds():
    """The numbers of claim 24, wherever they are written."""
    defined = read(spec_file("Progress"))
    close, plain = (values(re.search(
        r"^%s s t c = (.+)$" % name, defined, re.M)[1])
        for name in ("step_bound", "plain_bound"))
    same([step_bound(*pool) for pool in POOLS], close,
         "the number that tools/schedule stats tells")
    count = 0
    for page in (GUARANTEE, README, SERVER):
        written = re.findall(r"^ +N = (.+)$", read(page), re.M)
        need(written, "%s does not have the number" % here(page))
        same([values(one) in (close, plain) for one in written],
             [True] * len(written), "whether %s has the numbers of claim 24"
             % here(page))
        count += len(written)
    of_pool = dict(zip(POOLS, zip(close, plain)))
    table = re.findall(r"^\| (\d+) \| (\d+) \| (\d+) \| ([\d,]+) "
                       r"\| ([\d,]+) \| ?(\d*) \|$", read(GUARANTEE), re.M)
    for *pool, close, plain, enough in table:
        due = of_pool[tuple(map(int, pool))]
        same((close, plain), tuple(map("{:,}".format, due)),
             "the row of S %s, T %s, C %s" % tuple(pool))
        need(int(enough or 0) <= due[0], "more is enough than what is proved")
    return ("claim 24: its two numbers in %d places, and %d rows"
            % (count, len(table)))


def functions(crate):
    """The public functions of a crate's root file: parameters, the rest of
    what stands before the body, and the body, each on one line."""
    found = re.findall(r'^pub (?:extern "C" )?fn (\w+)([^(]*\(.*?\))( -> .*?)'
                       r"\n\{\n(.*?)\n\}\n",
                       read(TOP / "crates" / crate / "src" / "lib.rt"),
                       re.M | re.S)
    return {name: [re.sub(r"(?<=\() | (?=\))|,(?= ?\))", "", " ".join(
        part.split())) for part in parts] for name, *parts in found}


def imported(crate):
    """What the clauses of a crate's root file name, and where that is from."""
    return {name.strip(): place for place, names in re.findall(
        r"^ghost use (\S+)\.\{([^}]*)\};",
        read(TOP / "crates" / crate / "src" / "lib.rt"), re.M)
        for name in names.split(",")}


def exports():
    """An export is the function of its name, and promises the same."""
    count = 0
    for crate, exporting in ("served", "served_c"), ("exported", "exported_c"):
        inner, outer = functions(crate), functions(exporting)
        need(inner, "crate %s has no function" % crate)
        same(list(outer), list(inner), "what %s exports" % exporting)
        need(imported(exporting).items() <= imported(crate).items(),
             "the clauses of %s mean other names" % exporting)
        for name, (parameters, promise, body) in outer.items():
            same([parameters, promise], inner[name][:2],
                 "parameters and promise of %s in %s" % (name, exporting))
            handed = ", ".join(re.findall(r"(\w+): ", parameters))
            same(body, "%s::%s(%s)" % (crate, name, handed),
                 "what %s in %s does" % (name, exporting))
            count += 1
    return "%d exports: each promises what the function within does" % count


TESTS = (numbering, definitions, cited_where_defined, citations, statements,
         stages, refusals, limits, rules, example, cases, bounds, exports)


if __name__ == "__main__":
    sys.exit(run_all(TESTS, "docs/SPECIFICATION.md"))
