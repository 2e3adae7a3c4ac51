"""What the tests of the tools share: paths, runs, examples."""

import pathlib
import subprocess
import sys

TOP = pathlib.Path(__file__).resolve().parent.parent.parent
EXAMPLES = TOP / "examples"
README = TOP / "README.md"
sys.path[:0] = [str(TOP / "tools"), str(TOP / "tests")]

import generate  # noqa: E402 (after the line above)
import second  # noqa: E402
from scheduling import report, text  # noqa: E402

LISTING = b"""\
0 0 0 1
1 0 0 9
2 0 1 4
3 0 1 5
4 0 1 6
5 0 1 7
6 0 1 8
7 0 1 9
8 0 1 18
9 0 2 0
10 0 111 0
11 0 0 9
"""


def run(*arguments, data=b"", stdout=subprocess.PIPE):
    """Run tools/schedule; its exit status, output and messages."""
    done = subprocess.run([sys.executable, str(TOP / "tools" / "schedule"),
                           *arguments], input=data, stdout=stdout,
                          stderr=subprocess.PIPE)
    return done.returncode, done.stdout, done.stderr.decode()


def example(name):
    return text.make((EXAMPLES / name).read_bytes())


def answers_to(schedule):
    return report.read_report(second.run(schedule)[0], schedule)


def begun_again():
    """Two clients get one page and begin it again, which is refused; both give
    it back, and one begins it once more."""
    script = generate.Script(1, 2, 3, 0)
    for client in 0, 1:
        script.fix(client, 9)
        script.begin(client, 9)
    for client in 0, 1:
        script.release(client, 9)
    script.begin(1, 9)
    return bytes(script.data)


def crowded(slots, clients, calls, pages=None, greed=6):
    """A run with much of everything, on some pages or a drawn number."""
    dice = generate.Dice(slots)
    script = generate.Script(slots, clients, 3, generate.LARGEST - 5)
    generate.play(dice, script, generate.bursts, calls, greed=greed,
                  percent=2,
                  pages=pages and generate.draw_pages(dice, pages))
    return bytes(script.data)
