"""What the tests of pages and tools share: single checks, and a run of all.

A test is a function without arguments. It returns a line that says what it
tested, or raises an exception.
"""

import traceback


def same(found, expected, what):
    if found != expected:
        raise AssertionError("%s: found %.300r, expected %.300r"
                             % (what, found, expected))


def need(holds, what):
    if not holds:
        raise AssertionError(what)


def run_all(tests, subject):
    """Run the tests, print a line for each and the totals; exit status."""
    failed = 0
    for test in tests:
        try:
            print("passed: " + test(), flush=True)
        except Exception as wrong:
            failed += 1
            print("FAILED: %s: %s" % (test.__name__, wrong), flush=True)
            traceback.print_exc()
    print("%s: %d passed, %d failed" % (subject, len(tests) - failed, failed))
    return 1 if failed else 0
