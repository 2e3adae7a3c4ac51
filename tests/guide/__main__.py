"""The pieces of code in docs/SERVER.md, compiled and run.

usage: python3 tests/guide

The guide's pieces in C, in their order, and main.c are one program, and so are
those in Rust and main.rs. Both are built on what embed/build made ready, in
target/embed/, and run. The C is compiled as C++ too. A program that is not
built, or ends with another status than 0, ends the test with exit status 1.
"""

import os
import pathlib
import re
import shutil
import subprocess
import sys

HERE = pathlib.Path(__file__).resolve().parent
TOP = HERE.parent.parent
GUIDE = TOP / "docs" / "SERVER.md"
CRATE = TOP / "embed" / "rust" / "foqheran"
READY = TOP / "target" / "embed"
BUILT = TOP / "target" / "guide"
WARNINGS = ["-Wall", "-Wextra", "-Wconversion", "-pedantic", "-Werror"]


def pieces(language):
    """The guide's pieces of code in a language."""
    return re.findall(r"^```%s\n(.*?)^```$" % language, GUIDE.read_text(), re.M | re.S)


def source(language, ending):
    """A file of all pieces and what is here to call them."""
    path = BUILT / ("guide." + ending)
    path.write_text("\n".join([*pieces(language), (HERE / ("main." + ending)).read_text()]))
    return path


def run(command, **options):
    command = [str(word) for word in command]
    done = subprocess.run(command, stdout=subprocess.PIPE, stderr=subprocess.STDOUT, **options)
    if done.returncode:
        said = done.stdout.decode(errors="replace")
        sys.exit("%s ended with exit status %d:\n%s" % (" ".join(command), done.returncode, said))


def run_c():
    program = BUILT / "guide_c"
    for compiler, kind, language in (("g++", "c++", "c++11"), ("gcc", "c", "c11")):
        run([compiler, "-x", kind, "-std=" + language, *WARNINGS, "-O1", "-I", READY / "include", source("c", "c"),
             "-x", "none", READY / "lib" / "libfoqheran.a", "-pthread", "-o", program])
        run([program])


def run_rust():
    run(["cargo", "build", "--offline", "--quiet", "--manifest-path", CRATE / "Cargo.toml", "--target-dir", BUILT],
        env=dict(os.environ, FOQHERAN_LIB=str(READY / "lib")))
    program, crate = BUILT / "guide_rust", BUILT / "debug" / "libfoqheran.rlib"
    run(["rustc", "--edition", "2021", "-D", "warnings", "--extern", "foqheran=%s" % crate, source("rust", "rs"),
         "-o", program])
    run([program])


def main():
    if len(sys.argv) > 1:
        print(__doc__.strip())
        return 0 if sys.argv[1] in ("-h", "--help") else 2
    if not READY.is_dir():
        sys.exit("target/embed is not there: embed/build makes it")
    missing = [name for name in ("gcc", "g++", "cargo", "rustc") if not shutil.which(name)]
    if missing:
        sys.exit("%s missing: python3 tests/embed.py --fetch installs what is" % ", ".join(missing))
    BUILT.mkdir(parents=True, exist_ok=True)
    run_c()
    run_rust()
    counts = len(pieces("c")), len(pieces("rust"))
    print("docs/SERVER.md: its %d pieces in C and its %d in Rust compile and run" % counts)
    return 0


if __name__ == "__main__":
    sys.exit(main())
