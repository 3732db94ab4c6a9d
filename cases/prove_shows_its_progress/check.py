"""`./prove` tells how far it is, ends with the program's place, and says what failed where a crate isn't proved."""
import pathlib
import sys
import tempfile

sys.path.insert(0, str(pathlib.Path(__file__).resolve().parent.parent))
from stand_in import expect, run, script, set_up

# proves both crates, and builds a program that answers its usage
PROVES = """#!/bin/sh
if [ "$1" = all ]; then echo "== low"; echo "low: ok"; echo "== p4db"; echo "== summary"; exit 0; fi
mkdir -p out; printf '#!/bin/sh\\n' > out/p4db; echo "p4db: usage: p4db run" >&2; exit 2
"""
FAILS = '#!/bin/sh\necho "== low"\necho "error: a goal is open"\necho "== summary"\nexit 1\n'
BEGUN = "0 of 2 crates proved, begun, 0 min\n"

with tempfile.TemporaryDirectory() as name:
    folder = pathlib.Path(name)
    set_up(folder, "prove", "# one line a crate\nlow:\np4db: low\n")
    script(folder / "bin" / "rt", PROVES)
    said = BEGUN + "1 of 2 crates proved, low, 0 min\n2 of 2 crates proved, p4db, 0 min\n2 of 2 crates proved, building the program, 0 min\n"
    said += "2 of 2 crates proved; the program stands at crates/p4db/out/p4db, and ./p4db runs it\n"
    expect("where all is proved", run(folder, "prove"), (0, "", said))
    script(folder / "bin" / "rt", FAILS)
    log = folder.resolve() / "crates" / "p4db" / "out" / "prove.log"
    said = BEGUN + f"not proved; the last lines of {log}:\n== low\nerror: a goal is open\n== summary\n"
    expect("where a goal is open", run(folder, "prove"), (1, "", said))
