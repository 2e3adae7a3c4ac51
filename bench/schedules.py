"""A full-length schedule of sensible calls, to time runs on.

usage: python3 bench/schedules.py SLOTS CLIENTS > schedule

Clients are stepped in random order; a resting one begins on one of a third
more pages than there are slots, one that it does not hold, or releases a page
it holds. The same numbers always give the same bytes.
"""

import pathlib
import sys

sys.dont_write_bytecode = True  # leave no compiled files beside the sources
sys.path.insert(0, str(pathlib.Path(__file__).resolve().parent.parent / "tests"))

import generate  # noqa: E402


def schedule(slots, clients):
    dice = generate.Dice(100 * slots + clients)
    script = generate.Script(slots, clients, 3, 0)
    while script.room():
        client = dice.below(clients)
        held = script.held(client)
        if script.works(client):
            script.step(client)
        elif held and (len(held) > 2 or dice.chance(1, 2)):
            script.release(client, dice.pick(held))
        else:
            script.begin(client, dice.pick([page for page in range(slots * 4 // 3 + 1) if page not in held]))
    return bytes(script.data)


if __name__ == "__main__":
    if len(sys.argv) != 3 or not all(word.isdigit() for word in sys.argv[1:]):
        print("usage: python3 bench/schedules.py SLOTS CLIENTS > schedule", file=sys.stderr)
        sys.exit(2)
    sys.stdout.buffer.write(schedule(int(sys.argv[1]), int(sys.argv[2])))
