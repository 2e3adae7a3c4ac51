"""The program ./replay: what it says and does while it proves and builds."""

import os
import pathlib
import signal
import time

from alone import PLAYER, a_top, begun, check_line, run, write_program
from checking import need, same
from common import LISTING, example
from common import run as run_schedule
from scheduling import playing

EXAMPLE = example("example.txt")

PROVING = "replay: proving and building the program; this takes some " \
          "minutes the first time\n"

RT = """\
#!/bin/sh
echo "${PWD##*/}: $*" >>../../asked
while [ -e ../../wait ]; do sleep 0.05; done
echo "the program's own output, if it is run"
exec >&2
echo "rt: chose --jobs 2 for pool"
echo "fn pool::something: proved"
echo "logic=proved functions=1"
echo "rt: chose --jobs 2 for laws"
echo "logic=%s"
"""

BUILT = RT % "proved functions=0" + """\
echo "rt: chose --jobs 2 for replay"
echo "logic=proved functions=1"
mkdir -p out
cp ../../player out/replay
echo "rt: running out/replay; to give it other input, run that file yourself"
"""

FAILED = RT % "not-proved" + """\
echo "rt: the library laws did not build, so nothing above it was checked"
exit 1
"""

PROGRESS = PROVING + """\
replay: 1 of 3 proved: pool (0 s)
replay: 2 of 3 proved: laws (0 s)
replay: 3 of 3 proved: replay (0 s)
"""


def left_logs(top):
    return list((top / "logs").iterdir())


def proofs():
    """The program is built if it is not there or older than a source."""
    with a_top(None, BUILT) as top:
        write_program(top / "player", PLAYER)
        same(run(top, data=EXAMPLE), (0, LISTING, PROGRESS), "a first run")
        same(run(top, data=EXAMPLE), (0, LISTING, ""), "a second run")
        os.utime(top / "target" / "bin" / "replay", (0, 0))
        same(run(top, "--explain", data=EXAMPLE),
             (0, run_schedule("explain", data=EXAMPLE)[1], PROGRESS),
             "a run after a change")
        same((top / "asked").read_text(), 2 * "replay: run\n",
             "what rt was asked")
        same(left_logs(top), [], "the logs left behind")
    crates = playing.needed("replay")
    need({"replay", "schedule", "pool"} <= crates
         and not {"std", "csv", "tie", "exported"} & crates,
         "replay needs %r" % crates)
    return "./replay, proving and building: 'n of m'"


def proved_before():
    """What rt says nothing of, as it was proved before, counts as well."""
    last = BUILT.replace('echo "rt: chose --jobs 2 for pool"\n', "").replace(
        'echo "logic=proved functions=1"\necho "rt: chose --jobs 2 for laws"\n'
        'echo "logic=proved functions=0"\n', "")
    with a_top(None, last) as top:
        write_program(top / "player", PLAYER)
        same(run(top, data=EXAMPLE),
             (0, LISTING, PROVING + "replay: 3 of 3 proved: replay (0 s)\n"),
             "what is said where all but one was proved before")
    return "./replay, where most was proved before: 'n of n'"


def failed_proofs():
    with a_top(None, FAILED) as top:
        status, output, said = run(top, data=EXAMPLE)
        same((status, output), (2, b""), "status of a failed proof")
        lines = said.splitlines(True)
        same(lines[:-1], [PROVING, "replay: 1 of 3 proved: pool (0 s)\n",
                          "replay: laws NOT PROVED\n"],
             "what is said of the crates")
        log, = left_logs(top)
        check_line(lines[-1], "exit status 1", "laws did not build",
                   " is in %s\n" % log)
        same(log.read_text().count("\n"), 6, "the lines in the log")
    with a_top(None) as top:
        status, output, said = run(top, data=EXAMPLE)
        same((status, output), (2, b""), "status without rt")
        check_line(said, "'rt' cannot be run", "on the PATH")
        same(left_logs(top), [], "the logs left behind")
    return "./replay, a failed proof and a missing rt"


def two_at_once():
    """The second waits for what the first builds."""
    with a_top(None, BUILT) as top:
        write_program(top / "player", PLAYER)
        (top / "file").write_bytes(EXAMPLE)
        (top / "wait").touch()
        with begun(top, "file") as first, begun(top, "file") as other:
            said = {first.stderr.readline(), other.stderr.readline()}
            (top / "wait").unlink()
            for process in first, other:
                output, _ = process.communicate()
                same((process.returncode, output), (0, LISTING), "a run")
        waited, = said - {PROVING.encode()}
        check_line(waited.decode(), "waiting for another ./replay")
        same((top / "asked").read_text(), "replay: run\n",
             "what rt was asked")
    return "./replay, two at once: one builds"


# As rt does, it keeps others out of the folder where it works, and of the top.
LOCKING = """\
#!/bin/sh
for folder in . ../..; do
    flock --nonblock $folder true || exit 1
done
""" + BUILT.partition("\n")[2]


def rt_locks_too():
    """What keeps a second ./replay out is no folder that rt locks."""
    with a_top(None, LOCKING) as top:
        write_program(top / "player", PLAYER)
        same(run(top, data=EXAMPLE), (0, LISTING, PROGRESS),
             "a run with an rt that locks the folders")
    return "./replay, beside an rt that locks folders"


def rt_waits():
    """A line says so where rt waits for another rt."""
    line = "waiting for another rt to finish in crates/pool"
    waiting = BUILT.replace("exec >&2\n", 'exec >&2\necho "rt: %s"\n' % line)
    with a_top(None, waiting) as top:
        write_program(top / "player", PLAYER)
        same(run(top, data=EXAMPLE),
             (0, LISTING, PROGRESS.replace(PROVING, PROVING + "replay: %s\n"
                                           % line)), "what is said of waiting")
    return "./replay, while rt waits"


def interrupted():
    """Ctrl-C ends rt, too, and there is no traceback."""
    with a_top(None, "#!/bin/sh\necho $$ >../../asked\nsleep 60\n") as top:
        asked = top / "asked"
        (top / "file").write_bytes(EXAMPLE)
        with begun(top, "file") as process:
            said = process.stderr.readline().decode()
            for _ in range(3000):
                if asked.exists() and asked.read_text():
                    break
                time.sleep(0.01)
            process.send_signal(signal.SIGINT)
            output, more = process.communicate()
        same((process.returncode, output, said + more.decode()),
             (130, b"", PROVING), "status and messages after Ctrl-C")
        same(left_logs(top), [], "the logs left behind")
        rt = pathlib.Path("/proc") / asked.read_text().strip()
        need(not rt.exists(), "rt goes on")
    return "./replay, ended by Ctrl-C"


TESTS = (proofs, proved_before, failed_proofs, two_at_once, rt_locks_too,
         rt_waits, interrupted)
