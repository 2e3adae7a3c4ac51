"""./replay in a folder of its own, where nothing has to be proved.

second.py stands in for the proved program, and a script for rt.
"""

import contextlib
import os
import pathlib
import shlex
import shutil
import subprocess
import sys
import tempfile

from checking import need
from common import TOP

PYTHON = "#!/bin/sh\nexec %s " % shlex.quote(sys.executable)
PLAYER = PYTHON + "-I -S tests/second.py\n"

CRATES = """\
# two that replay uses, and two that use replay's
pool:
laws: pool csv
tie: pool laws  # not counted
replay: laws itoa
laws_c staticlib: laws
"""


def write_program(path, script):
    path.parent.mkdir(parents=True, exist_ok=True)
    path.write_text(script)
    path.chmod(0o755)


@contextlib.contextmanager
def a_top(player=PLAYER, rt=None):
    """A folder with ./replay in it, a player for its program, and an rt."""
    with tempfile.TemporaryDirectory() as name:
        top = pathlib.Path(name).resolve()
        shutil.copy(TOP / "replay", top)
        shutil.copytree(TOP / "tools", top / "tools")
        for folder in "tests", "crates", "crates/replay", "logs":
            (top / folder).mkdir()
        for path in (TOP / "tests").glob("*.py"):
            shutil.copy(path, top / "tests")
        (top / "crates.txt").write_text(CRATES)
        write_program(top / "kit" / "python3", PYTHON + '"$@"\n')
        if rt:
            write_program(top / "kit" / "rt", rt)
        if player:
            write_program(top / "target" / "bin" / "replay", player)
        yield top


def begun(top, *arguments, program=("./replay",), **how):
    """./replay, started in its folder; no other rt is on the PATH."""
    kit = top / "kit"
    path = [str(kit), *(os.get_exec_path() if (kit / "rt").exists() else ())]
    environment = dict(os.environ, TMPDIR=str(top / "logs"),
                       PATH=os.pathsep.join(path))
    how = {"stdin": subprocess.PIPE, "stdout": subprocess.PIPE,
           "stderr": subprocess.PIPE, **how}
    return subprocess.Popen([*program, *arguments], cwd=top, env=environment,
                            **how)


def run(top, *arguments, data=b"", **how):
    """Run ./replay; its exit status, output and messages."""
    with begun(top, *arguments, **how) as process:
        output, said = process.communicate(data)
    return process.returncode, output or b"", said.decode()


def check_line(said, *parts):
    """It is one line, with all these parts."""
    need(said.startswith("replay: ") and said.count("\n") == 1
         and said.endswith("\n") and all(part in said for part in parts),
         "it says %r, expected a line with %r" % (said, parts))
