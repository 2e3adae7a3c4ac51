"""Tests of ./replay and tools/schedule: python3 tests/tools [SUBJECT ...]

It prints a line for each thing it tests and a line with the totals. Its exit
status is 0 if all passed, else 1. A subject is a file beside this one;
without one, all are tested.

The parts of the tool are called directly where many files are tried, and the
programs themselves are run where exit status and messages matter. What the
tool says is compared with the files' bytes and with the runs of second.py.
"""

import importlib
import signal
import sys

sys.dont_write_bytecode = True  # leave no compiled files beside the sources

import common  # noqa: E402, F401 (it makes the parts to be tested known)
from checking import run_all  # noqa: E402

SUBJECTS = ("texts", "examples", "explaining", "telling", "drawing", "columns",
            "counting", "days", "paging", "program", "replaying", "building")


def main(chosen):
    # started in the background it is ignored, and so it would be by the programs that are ended by Ctrl-C
    signal.signal(signal.SIGINT, signal.default_int_handler)
    unknown = [name for name in chosen if name not in SUBJECTS]
    if unknown:
        print("no such subject: %s; there are %s"
              % (", ".join(unknown), ", ".join(SUBJECTS)), file=sys.stderr)
        return 2
    tests = [test for name in chosen or SUBJECTS
             for test in importlib.import_module(name).TESTS]
    return run_all(tests, "tools")


if __name__ == "__main__":
    sys.exit(main(sys.argv[1:]))
