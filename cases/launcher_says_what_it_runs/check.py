"""`./p4db` runs the proved program where it is newer than the sources, and else says that its answer is of an unproved build."""
import os
import pathlib
import sys
import tempfile

sys.path.insert(0, str(pathlib.Path(__file__).resolve().parent.parent))
from stand_in import expect, run, script, set_up

LINE = "p4db: no proved program is here yet; answering from an unproved build, in a minute or two (./prove makes the proved one)\n"
# what the toolchain writes of its own begins as there
TRY = '#!/bin/sh\ncat\necho "p4db: a note" >&2\necho "checked: ended status=7" >&2\necho "run=ended status=7 runners=1 proved=no" >&2\nexit 7\n'
BROKEN = '#!/bin/sh\necho "error: a source that is wrong" >&2\nexit 1\n'

with tempfile.TemporaryDirectory() as name:
    folder = pathlib.Path(name)
    set_up(folder, "p4db", "p4db:\n")
    (folder / "crates" / "p4db" / "src" / "main.rt").write_text("")
    proved = folder / "crates" / "p4db" / "out" / "p4db"
    script(folder / "bin" / "rt", TRY)
    expect("without a program", run(folder, "p4db", "run"), (7, "in", LINE + "p4db: a note\n"))
    script(proved, '#!/bin/sh\necho "proved $1"\nexit 3\n')
    expect("with a fresh program", run(folder, "p4db", "run"), (3, "proved run\n", ""))
    os.utime(proved, (0, 0))
    expect("with an old program", run(folder, "p4db", "run"), (7, "in", LINE + "p4db: a note\n"))
    script(folder / "bin" / "rt", BROKEN)
    said = LINE + "p4db: the program could not be built:\nerror: a source that is wrong\n"
    expect("with a source that can't be built", run(folder, "p4db", "run"), (1, "", said))
