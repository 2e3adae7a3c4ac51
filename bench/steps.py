"""Times a public step of the largest pool, check 8 before and after it included.

usage: python3 bench/steps.py PROGRAM

PROGRAM is the proved program test_sweeps (crates/test_sweeps), or test_byte_sweeps,
of a pool that has bytes: it fills a pool of S 64 and T 16 and then, for each byte of
its input, plays a begin and 132 steps. The
time of a run without input, which is the filling, is taken off.
"""

import pathlib
import statistics
import subprocess
import sys
import time

REQUESTS, CALLS = 4096, 133
ROUNDS = 9


def seconds(program, requests):
    started = time.perf_counter()
    done = subprocess.run([program], input=bytes(requests), stdout=subprocess.PIPE, check=True)
    took = time.perf_counter() - started
    if int(done.stdout) != requests:
        sys.exit("%s counted %s refusals, not %d" % (program, done.stdout.decode().strip(), requests))
    return took


def main(program):
    times = [seconds(program, REQUESTS) - seconds(program, 0) for _ in range(ROUNDS)]
    step = statistics.median(times) / (REQUESTS * CALLS)
    print("a public step, S 64 T 16, both range tests (%s): %.2f microseconds"
          % (pathlib.Path(program).name, step * 1e6))


if __name__ == "__main__":
    main(sys.argv[1])
