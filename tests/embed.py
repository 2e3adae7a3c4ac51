"""The calls in place, tried from C, C++ and Rust.

usage: python3 tests/embed.py [--seeds N | --fetch]

What embed/build made, in target/embed/, is used as a program would use it:

  - the header is compiled by itself, as C and as C++, by two compilers;
  - the library must ask for memcpy and memset alone, so that a program links
    with it that has no C library;
  - generated schedules (seeds 0 to N - 1, 500 if not said) and edge files, and
    scripts with reads and writes, are played call by call, and the reports
    must be those of second.py and second_store.py;
  - a million calls are made on memory of all kinds;
  - the crate's own tests are run, its documentation is made, and clippy looks
    at it, where there is one;
  - the examples are run, which check themselves.

Programs in C are built with the sanitizers for addresses, for undefined
behaviour and, the examples once more, for threads. These do not see what the
library itself reads and writes. The players of schedules
and scripts, tests/embed/play.c and the crate's examples/play.rs, are told

    play schedule FILE      to print the report of a schedule file
    play script FILE        to print what the program test_bytes prints

where FILE has what that program reads (compare.py, script_records). They read
it whole. Each part prints a line. The first difference or failure ends the
test with exit status 1; what differs is kept in target/compare/. Compilers
that are missing are installed from Debian's packages; --fetch does that alone.
"""

import functools
import os
import shutil
import subprocess
import sys
import time
import typing

sys.dont_write_bytecode = True  # leave no compiled files beside the sources

import compare  # noqa: E402

TOP = compare.TOP
sys.path.insert(0, str(TOP / "tools"))

from scheduling import words  # noqa: E402 (after the line above)

READY = TOP / "target" / "embed"  # what is tried
BUILT = TOP / "target" / "embed_tests"  # what is built for that
LIBRARY = READY / "lib" / "libfoqheran.a"
CRATE = READY / "rust" / "foqheran"
EXAMPLES = TOP / "embed" / "examples"
OURS = TOP / "tests" / "embed"

WARNINGS = ["-Wall", "-Wextra", "-Wconversion", "-Wshadow", "-pedantic", "-Werror"]
C, CPP = ["-std=c11", "-xc"], ["-std=c++11", "-xc++"]
ASKED = {"memcpy", "memset"}  # of whoever links the library

TIME_LIMIT = 120  # seconds for one program; the longest takes a few
CPP_FILES = 60  # that the player in C++ plays, for which the library is the same
CALLS = 1000000  # on memory of all kinds


class Failed(Exception):
    """Something is not as it has to be; what."""


class Way(typing.NamedTuple):
    """How a program is compiled."""

    name: str
    options: typing.List[str]
    compiler: str = "gcc"
    language: typing.List[str] = C


PLAIN = Way("plain", ["-O2"])
MEMORY_CHECKED = Way("memory_checked", ["-O1", "-g", "-fsanitize=address,undefined", "-fno-sanitize-recover=all"])
THREADS_CHECKED = Way("threads_checked", ["-O1", "-g", "-fsanitize=thread"])
AS_CPP = Way("as_cpp", ["-O2"], "clang++", CPP)


# Compilers and programs.


def fetch(compilers):
    """See to it that the compilers are there."""
    missing = [name for name in compilers if not shutil.which(name)]
    if not missing:
        return
    print("%s missing; installing gcc, g++, clang and cargo" % ", ".join(missing), file=sys.stderr)
    quiet = dict(os.environ, DEBIAN_FRONTEND="noninteractive")
    apt = shutil.which("apt-get") or "false"
    for command in (["update", "-qq"], ["install", "-y", "-qq", "gcc", "g++", "clang", "cargo"]):
        if subprocess.run([apt, *command], env=quiet, stdout=sys.stderr).returncode:
            raise Failed("%s could not be installed" % ", ".join(missing))


def run(command, **options):
    """What a command prints; its exit status must be 0."""
    command = [str(word) for word in command]
    try:
        done = subprocess.run(command, stdout=subprocess.PIPE, stderr=subprocess.PIPE, timeout=TIME_LIMIT, **options)
    except subprocess.TimeoutExpired:
        raise Failed("%s did not end within %d seconds" % (" ".join(command), TIME_LIMIT)) from None
    if done.returncode:
        said = (done.stdout + done.stderr).decode(errors="replace").strip()
        raise Failed("%s ended with exit status %d:\n%s" % (" ".join(command), done.returncode, said[-3000:]))
    return done.stdout


def build(source, way):
    """The program of a source in C, linked with the library."""
    BUILT.mkdir(parents=True, exist_ok=True)
    program = BUILT / ("%s_%s" % (source.stem, way.name))
    run([way.compiler, *way.language, *WARNINGS, *way.options, "-I", READY / "include", source, "-xnone", LIBRARY,
         "-pthread", "-o", program])
    return program


@functools.lru_cache(maxsize=None)
def fixed_addresses():
    """What to run sanitized programs with: some cannot use the addresses that newer kernels choose."""
    fixed = ["setarch", "-R"]
    there = shutil.which(fixed[0])
    works = there and subprocess.run([*fixed, "true"], stderr=subprocess.DEVNULL).returncode == 0
    return fixed if works else []


def run_checked(program, *arguments):
    """What a sanitized program prints. Leaks are not looked for, which would take half of the time."""
    return run([*fixed_addresses(), program, *arguments], env=dict(os.environ, ASAN_OPTIONS="detect_leaks=0"))


def run_plain(program, *arguments):
    return run([program, *arguments])


def can_check_threads():
    """Whether the compiler has a sanitizer for threads that runs here."""
    empty = BUILT / "empty.c"
    empty.write_text("int main(void) { return 0; }\n")
    try:
        run_checked(build(empty, THREADS_CHECKED))
        return True
    except Failed:
        return False


def last_line(printed):
    return printed.decode().strip().splitlines()[-1]


# The header.


def header():
    """It is compiled by itself, does what it says, and has the texts that a refusal has everywhere."""
    ways = [(compiler, language) for compiler in ("gcc", "clang") for language in (C, CPP)]
    for compiler, language in ways:
        run([compiler, *language, *WARNINGS, "-I", READY / "include", "-fsyntax-only", "-"],
            input=b'#include "foqheran.h"\n')
    text = (READY / "include" / "foqheran.h").read_text()
    for number in range(8, 19):
        if '"%s"' % words.REFUSALS[number] not in text:
            raise Failed("the header has no text '%s' for refusal %d" % (words.REFUSALS[number], number))
    for way in (MEMORY_CHECKED, AS_CPP):
        run_checked(build(OURS / "header.c", way))
    return "the header compiles without warnings in %d ways, and its calls do what it says" % len(ways)


def outside():
    """What the library asks of whoever links it."""
    said = [line.split() for line in run(["nm", "-u", LIBRARY]).decode().splitlines()]
    asked = {parts[1] for parts in said if len(parts) == 2 and parts[0] == "U"}
    if not asked <= ASKED:
        raise Failed("the library asks from outside for %s" % ", ".join(sorted(asked - ASKED)))
    return "the library asks from outside for %s alone" % " and ".join(sorted(asked))


# Schedules and scripts.


class Files:
    """Schedules or scripts, written once, and the reports that they must have."""

    def __init__(self, kind, files, expected, given, second):
        self.kind, self.second, self.cases = kind, second, []
        folder = BUILT / kind
        folder.mkdir(parents=True, exist_ok=True)
        for number, (name, file) in enumerate(files):
            path = folder / str(number)
            path.write_bytes(given(file))
            self.cases.append((name, file, path, expected(file)))

    def play(self, player, run_with, count=None):
        """Compare what the player prints; how many files and lines."""
        lines = 0
        for name, file, path, theirs in self.cases[:count]:
            ours = run_with(player, self.kind, path)
            if ours != theirs:
                where = compare.first_difference(ours, theirs, self.second)
                compare.stop(name, "%s and %s differ at %s" % (player.name, self.second, where),
                             **{self.kind: file}, program=ours, second=theirs)
            lines += theirs.count(b"\n")
        return "%d %ss, %d lines" % (len(self.cases[:count]), self.kind, lines)


def prepare(seeds):
    """All schedules and all scripts."""
    schedules = [*compare.generated(seeds), *compare.edge_files()]
    scripts = [*compare.scripts(min(seeds, compare.BYTES_SEEDS)), *compare.example_scripts()]
    return (Files("schedule", schedules, compare.report, bytes, "second.py"),
            Files("script", scripts, compare.byte_report, compare.script_records, "second_store.py"))


def cargo(*arguments, last=(), **options):
    """A cargo command on the crate as it was made ready."""
    return run(["cargo", *arguments, "--offline", "--quiet", "--manifest-path", CRATE / "Cargo.toml",
                "--target-dir", BUILT / "cargo", *last], **options)


def from_c(schedules, scripts):
    player = build(OURS / "play.c", MEMORY_CHECKED)
    return "from C: %s; %s: no difference" % (schedules.play(player, run_checked), scripts.play(player, run_checked))


def from_cpp(schedules, scripts):
    player = build(OURS / "play.c", AS_CPP)
    return "from C++: %s; %s: no difference" % (schedules.play(player, run_plain, CPP_FILES),
                                               scripts.play(player, run_plain, CPP_FILES))


def from_rust(schedules, scripts):
    cargo("build", "--release", "--examples")
    player = BUILT / "cargo" / "release" / "examples" / "play"
    return "from Rust: %s; %s: no difference" % (schedules.play(player, run_plain), scripts.play(player, run_plain))


# The rest.


def memory():
    """Calls on memory of all kinds."""
    printed = run_checked(build(OURS / "memory.c", MEMORY_CHECKED), CALLS, 1)
    return "%d calls on memory of all kinds change nothing that they may not; %s" % (CALLS, last_line(printed))


def c_examples():
    """The examples in C, as they are and with each kind of sanitizer."""
    sources = sorted(EXAMPLES.glob("*.c"))
    ways, left_out = [PLAIN, MEMORY_CHECKED], " (NOT with the sanitizer for threads, which does not run here)"
    if can_check_threads():
        ways, left_out = [*ways, THREADS_CHECKED], ""
    for program in [build(source, way) for source in sources for way in ways]:
        run_checked(program)
    return "the examples in C find nothing wrong: %s%s" % (", ".join(source.stem for source in sources), left_out)


def rust_examples():
    names = sorted(source.stem for source in (CRATE / "examples").glob("*.rs") if source.stem != "play")
    for name in names:
        run_plain(BUILT / "cargo" / "release" / "examples" / name)
    return "the examples in Rust find nothing wrong: %s" % ", ".join(names)


def crate():
    """The crate's own tests, its documentation, and what clippy says, where there is one."""
    cargo("test")
    cargo("doc", "--no-deps", env=dict(os.environ, RUSTDOCFLAGS="-D warnings"))
    if subprocess.run(["cargo", "clippy", "--version"], stdout=subprocess.PIPE, stderr=subprocess.PIPE).returncode:
        return "the crate's own tests pass, and its documentation has no warnings (clippy is NOT there)"
    cargo("clippy", "--all-targets", last=["--", "-D", "warnings"])
    return "the crate's own tests pass, and there are no warnings, of its documentation and by clippy"


# All of it.


def read_arguments(arguments):
    """The number of seeds, or None where only the compilers are asked for."""
    if not arguments:
        return 500
    if arguments == ["--fetch"]:
        return None
    if len(arguments) == 2 and arguments[0] == "--seeds" and arguments[1].isdigit():
        return int(arguments[1])
    print(__doc__.strip())
    sys.exit(0 if arguments[0] in ("-h", "--help") else 2)


def check_ready():
    """What is tried has to be there, with the header as it is now."""
    ours, theirs = TOP / "include" / "foqheran.h", READY / "include" / "foqheran.h"
    if not (LIBRARY.is_file() and CRATE.is_dir() and theirs.is_file()):
        raise Failed("target/embed is not there: embed/build makes it")
    if ours.read_bytes() != theirs.read_bytes():
        raise Failed("target/embed is not of these sources: embed/build makes it anew")


def parts(seeds):
    """The parts of the test, in order: each gives its line."""
    yield header
    yield outside
    schedules, scripts = prepare(seeds)
    for player in (from_c, from_cpp, from_rust):
        yield lambda player=player: player(schedules, scripts)
    yield from (memory, c_examples, crate, rust_examples)


def main(arguments):
    seeds = read_arguments(arguments)
    started = time.time()
    try:
        fetch(["gcc", "g++", "clang", "clang++", "cargo"])
        if seeds is None:
            return
        check_ready()
        for part in parts(seeds):
            print(part(), flush=True)
    except Failed as wrong:
        sys.exit("tests/embed.py: %s" % wrong)
    print("tried in %.0f s" % (time.time() - started))
    return 0


if __name__ == "__main__":
    sys.exit(main(sys.argv[1:]))
