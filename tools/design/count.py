#!/usr/bin/env python3
"""Counts the places of docs/DESIGN-PASS.md.

    python3 tools/design/count.py [-l] [POINT..]      at the top of a checkout, of any commit

For each kind of places of the points 1 to 8 a line: how many there are in the crates' src/, how many in those of the test programs
(crates test_*), and in which crates. With -l each place as well, by file and line. Comments, attributes, contracts and what only the logic
imports are left out, but by the kinds that are about contracts or derives. What stands behind "apart" is not in a point's sum.
"""

import collections
import difflib
import glob
import re
import sys

Place = collections.namedtuple("Place", "path line text")
Function = collections.namedtuple("Function", "path line head name params result contract body")


# ---- reading

def blank(text):
    return re.sub(r"[^\n]", " ", text)


def closing(text, start, pair):
    """The place behind the bracket that closes the one at start."""
    depth = 0
    for i in range(start, len(text)):
        depth += (text[i] == pair[0]) - (text[i] == pair[1])
        if depth == 0:
            return i + 1
    raise ValueError(text[start:start + 80])


def without_comments(text):
    return re.sub(r"//[^\n]*", lambda m: blank(m.group()), text)


def code_of(text):
    """The text with all blanked out that is no code."""
    text = re.sub(r"(?m)^ *#!?\[[^\n]*\]$|^(pub )?ghost use [^\n]*", lambda m: blank(m.group()), without_comments(text))
    for clause in re.finditer(r"\b(requires|ensures)\b[\w ]*\{", text):
        end = closing(text, clause.end() - 1, "{}")
        text = text[:clause.start()] + blank(text[clause.start():end]) + text[end:]
    return text


def split(text):
    """At the commas that stand in no brackets."""
    parts, depth, last = [], 0, ""
    for before, char in zip(" " + text, text + ","):
        depth += (char in "([<{") - (char in ")]}" or char == ">" and before not in "-=")
        if char == "," and depth <= 0:
            parts, last = parts + [last.strip()], ""
        else:
            last += char
    return tuple(part for part in parts + [last.strip()] if part)


def functions_of(path, whole):
    """The functions that have a body."""
    text, code, found = without_comments(whole), code_of(whole), []
    for start in re.finditer(r"\bfn (\w+)(<[^\n]*?>)?\(", text):
        end = closing(text, start.end() - 1, "()")
        opening = re.compile(r"\{|;\s*\n").search(code, end)
        if opening and opening.group() == "{":
            result = re.match(r"\s*->\s*([^\n]*?)\s*(\n|\{|$)", text[end:opening.start()])
            found.append(Function(
                path, text.count("\n", 0, start.start()) + 1, text.count("\n", start.start(), opening.start()), start.group(1),
                split(text[start.end():end - 1]), result.group(1) if result else "", text[end:opening.start()],
                code[opening.start():closing(code, opening.start(), "{}")]))
    return found


PATHS = sorted(glob.glob("crates/*/src/**/*.rt", recursive=True))
WHOLE = {path: open(path).read() for path in PATHS}
CODE = {path: code_of(text) for path, text in WHOLE.items()}
FUNCTIONS = [function for path in PATHS for function in functions_of(path, WHOLE[path])]
NUMBER = r"(u8|u16|u32|u64|usize)$"


# ---- finding

def lines(pattern, texts=CODE):
    """Each match of a pattern in a line."""
    return [Place(path, number, line.strip()) for path, text in texts.items()
            for number, line in enumerate(text.split("\n"), 1) for _ in re.finditer(pattern, line)]


def fields(pattern):
    """Each field of a struct that is of a pattern."""
    texts = {}
    for path, text in CODE.items():
        keep = blank(text)
        for struct in re.finditer(r"\bstruct \w+[^{;(]*\{", text):
            end = closing(text, struct.end() - 1, "{}")
            keep = keep[:struct.end()] + text[struct.end():end] + keep[end:]
        texts[path] = keep
    return lines(r"^\s+(pub )?" + pattern, texts)


def functions(test):
    """Each function that passes the test."""
    return [Place(f.path, f.line, f"fn {f.name}, {len(f.params)} parameters, -> {f.result or '()'}") for f in FUNCTIONS if test(f)]


def given(pattern, f):
    return [p for p in f.params if re.match(pattern, p)]


def gives_refusal(f):
    return f.result == "u8" and re.search(r"refus|turned|outside|unread", f.name)


def literal_refusals():
    """A number in place of a refusal's name: handed on, compared, or given by a function that gives a refusal's number."""
    anywhere = (r"(Refused|Unreadable|away|turned|turned_down|turned_back|unmade|refused)\(\d+[,)]"
                r"|(stop|ends|still)\([^;]*, \d+\)|(refusal|refused|\bn) [!=]= \d+")
    of_it = r"return \d+;|\{ \d+ \}|^\s+\d+ (\||=>)|=> \d+,"
    found = set()
    for f in FUNCTIONS:
        if re.search(r"(?i)refus|turned|outside|unread|away|stuck", f.name + f.body):
            for number, line in enumerate(f.body.split("\n"), f.line + f.head):
                if re.search(anywhere, line) or gives_refusal(f) and re.search(of_it, line):
                    found.add(Place(f.path, number, line.strip()))
    return sorted(found)


def named_twice():
    """Functions whose name another one has, but for methods, which stand once for each type."""
    def free(f):
        return not any(re.search(r"\bself$", p) for p in f.params) and f.name not in {"main", "new", "of", "from", "try_from"}
    names = collections.Counter(f.name for f in FUNCTIONS if free(f))
    return functions(lambda f: free(f) and names[f.name] > 1)


def alike():
    """Functions whose body another one has, but for a few words. Types, sizes, numbers and names of one letter do not count as different."""
    words = [(f, re.findall(r"\w+|[^\w\s]", re.sub(r"\b(u8|u16|u32|u64|usize|[A-Z_]{2,}|[a-z]|\d+)\b", "x", f.body))) for f in FUNCTIONS]
    words, found = [(f, w) for f, w in words if len(w) >= 20], set()
    for i, (f, a) in enumerate(words):
        for g, b in words[i + 1:]:
            match = difflib.SequenceMatcher(None, a, b, autojunk=False)
            if 3 * max(len(a), len(b)) < 4 * min(len(a), len(b)) and match.quick_ratio() > 0.85 and match.ratio() > 0.85:
                found |= {f, g}
    return functions(lambda f: f in found)


def facts():
    """For each fact that three or more functions ask for, each of them."""
    asked = collections.defaultdict(list)
    for f in FUNCTIONS:
        for clause in re.finditer(r"\brequires\b[\w ]*\{", f.contract):
            for fact in f.contract[clause.end():closing(f.contract, clause.end() - 1, "{}") - 1].split("×"):
                fact = re.sub(r"\.(now|old)\b", "", " ".join(fact.split()))
                while fact.startswith("(") and closing(fact, 0, "()") == len(fact):
                    fact = fact[1:-1].strip()
                asked[fact].append(Place(f.path, f.line, f"fn {f.name}: {fact}"))
    return [place for places in asked.values() if len(places) >= 3 for place in places]


def files(pattern, part):
    """Each match of a part in the files of a pattern."""
    return [Place(path, 1, "") for path in sorted(glob.glob(pattern, recursive=True)) for _ in re.findall(part, open(path).read())]


def answers_again():
    """Answers of 120 letters or more that stand a second time, word for word."""
    seen = collections.defaultdict(list)
    for path in sorted(glob.glob("crates/*/proofs/**/Answers.antt", recursive=True)):
        for part in re.split(r"\n(?=\S)", re.sub(r"--[^\n]*", "", open(path).read())):
            body = " ".join(part.split()[1:])
            if len(body) >= 120 and not part.startswith(("use ", "pub ")):
                seen[body].append(Place(path, 1, body[:100]))
    return [place for places in seen.values() if len(places) > 1 for place in places]


# ---- the kinds of places, by point

LIBRARY = r"(both|lowered|raised|up|wide|long|row_of|taken|copy_page|little_endian|digit|mixed|around|tried_after|slot_of|first_count)$"
STAGES = (r"works(_as)?\([^;]*[^a-z][0-9]+,|evict_own\(client, pins, [0-9]+\)|next\.stage = [0-9]|stage [!=<>]=? [0-9]+|matches!\(stage, "
          r"|^        [0-9]+ => \{|^        [0-9]+ => stages")
NONE_GIVEN = r"(return |=> |[{}]\s*)(NONE|COUNTS)\b|NONE, i\)|= NO_PAGE"

KINDS = {
    1: [
        ("enums with a variant for a refusal by its number", lambda: lines(r"^\s+(Refused|Unreadable)\(u8\),")),
        ("enums with a variant for nothing", lambda: lines(r"^\s+(Nothing|Keep|Same),$")),
        ("structs with a flag, a refusal's number or a length beside a value", lambda: fields(r"(\w+: bool|refusal: u8|n: usize),$")),
        ("structs with an answer beside what a call leaves", lambda: fields(r"answer: Answer,$")),
        ("functions that give a refusal's number, 0 for none", lambda: functions(gives_refusal)),
        ("functions that are given a refusal's number", lambda: functions(
            lambda f: given(r"(n|number|refusal): u8$", f) and re.search(r"Refused|refusal|still", f.body))),
        ("refusals by a literal number", literal_refusals),
        ("stages by a literal number", lambda: lines(STAGES)),
        ("functions that give a number which says that there is none", lambda: functions(
            lambda f: re.match(NUMBER, f.result) and re.search(NONE_GIVEN, f.body))),
        ("functions that give several things in one number", lambda: functions(lambda f: f.result == "u64" and re.search(r"4294967296|<< 32", f.body))),
        ("apart, sentinels: NONE", lambda: lines(r"\bNONE\b")),
        ("apart, sentinels: pins stored one more", lambda: lines(r"\b(EVICTED|NO_PIN|ONE_PIN)\b")),
        ("apart, the second way: functions whose result is a number", lambda: functions(lambda f: re.match(NUMBER, f.result))),
    ],
    2: [
        ("functions whose name or nearly whose body another one has", lambda: sorted(set(named_twice()) | set(alike()))),
        ("apart, of these by name", named_twice),
        ("apart, of these by body", alike),
    ],
    3: [
        ("loops that count", lambda: lines(r"\bfor \w+ in .*\.\.|\bwhile |\bloop \{")),
        ("apart, the second way: elements by a computed index", lambda: lines(r"\b\w+\[(?!\.\.)[^\]\[;]*[a-z][^\]\[;]*\]")),
    ],
    4: [
        ("functions for what an operator or the library does", lambda: functions(lambda f: re.match(LIBRARY, f.name))),
        ("calls of `both` and of `std::num`", lambda: lines(r"(?<!fn )\bboth\(|std::num::")),
        ("types that derive no equality or printing", lambda: lines(
            r"#\[derive\((Clone, Copy|Drop)\)\]", {path: without_comments(text) for path, text in WHOLE.items()})),
        ("fields taken out into a name", lambda: lines(r"^\s+let (mut )?\w+ = [a-z]\w*(\.\w+)+;")),
        ("`as` to a number of 16 bits or more", lambda: lines(r"\bas (u16|u32|u64|usize)\b")),
        ("printing functions", lambda: functions(lambda f: re.match(r"print|decimal|write_(line|answer)|(line|fact)$", f.name))),
    ],
    5: [
        ("functions with seven parameters or more", lambda: functions(lambda f: len(f.params) >= 7)),
        ("functions that ask for a fact which three or more ask for", facts),
        ("apart, the second way: parameters that are arrays", lambda: [
            Place(f.path, f.line, f"fn {f.name}: {p}") for f in FUNCTIONS for p in f.params if re.search(r"\[\w+; \w+\]", p)]),
    ],
    6: [
        ("functions over arrays that lie in parallel", lambda: functions(
            lambda f: len(given(r"(\w*pages|\w*frames|pins|counts|filled|changed): &.*\[", f)) >= 2)),
        ("functions over an array with a length beside", lambda: functions(
            lambda f: given(r"(n|total|held|count|size|room|places)\b", f) and any("[" in p for p in f.params))),
        ("functions with a loop that searches", lambda: functions(
            lambda f: re.search(r"\b(for|while)\b[^{]*\{[^}]*\b(return|continue '|break)\b", f.body))),
        ("apart, the second way: arrays in types and signatures", lambda: lines(r"\[(u8|u32|Row|Client); [A-Z_]+\]")),
    ],
    7: [
        ("matches on a stage, a write, a change or a call", lambda: lines(r"\bmatch (stage|w|write|change|call|counted|a|r)\b|\bmatch Stage::at")),
        ("function pointers, boxed closures, dyn", lambda: lines(r"\bBox<dyn|&(mut )?dyn|: fn\(|\[fn\(")),
    ],
    8: [
        ("answer files", lambda: files("crates/*/proofs/**/Answers.antt", r"\A")),
        ("invariant files", lambda: files("crates/*/proofs/**/Invariants.antt", r"\A")),
        ("answers that stand a second time word for word", answers_again),
        ("apart, lines of answers", lambda: files("crates/*/proofs/**/Answers.antt", r"\n")),
        ("apart, lines of all of proofs/", lambda: files("crates/*/proofs/**/*.antt", r"\n")),
        ("apart, lines of all of specs/", lambda: files("crates/*/specs/**/*.antt", r"\n")),
    ],
}


def main(arguments):
    for point in [int(a) for a in arguments if a.isdigit()] or sorted(KINDS):
        found = 0, 0
        for kind, find in KINDS[point]:
            places = find()
            crates = collections.Counter(p.path.split("/")[1] for p in places if not p.path.startswith("crates/test_"))
            counts = sum(crates.values()), len(places) - sum(crates.values())
            if not kind.startswith("apart"):
                found = found[0] + counts[0], found[1] + counts[1]
            print(f"{point} {kind}: {counts[0]}, in tests {counts[1]}")
            print("    " + ", ".join(f"{crate} {n}" for crate, n in sorted(crates.items())))
            for p in dict.fromkeys(places) if "-l" in arguments else []:
                print(f"    {p.path}:{p.line}: {p.text}")
        print(f"{point} in all: {found[0]}, in tests {found[1]}\n")


main(sys.argv[1:])
