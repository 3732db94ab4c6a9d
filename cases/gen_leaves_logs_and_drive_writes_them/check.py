"""`gen` leaves the logs alone. `drive` empties and writes those of its clients, and names one that it can't empty. Both tell where
the output has no room."""
import os
import pathlib
import subprocess
import sys

sys.path.insert(0, str(pathlib.Path(__file__).resolve().parent.parent))
from draws import drawn
from loads import session_of, summary_of, text_of, words_of
from logs import expect, named, texts
from model import Run, report_of

FULL = "/dev/full"
LOAD, GIVEN = "smallbank", {"number": 5, "clients": 2, "scripts": 6, "customers": 8, "hot": 3}
LEFT = {"client0.log": b"left", "client1.log": b"behind", "client7.log": b"by others"}


def run(program, command, **how):
    ran = subprocess.run([program, *words_of(command, LOAD, GIVEN)], stderr=subprocess.PIPE, stdin=subprocess.DEVNULL, timeout=60, **how)
    return ran.returncode, (ran.stdout or b"").decode(), ran.stderr.decode()


def main():
    program = str(pathlib.Path(sys.argv[1]).resolve())
    session, folder = session_of(LOAD, GIVEN), pathlib.Path("p4db-logs")
    driven = Run(session).drive(drawn(session, GIVEN["number"], 16 * GIVEN["clients"] * GIVEN["scripts"]))
    generated, summary = (0, text_of(session) + "\n", ""), (0, summary_of(report_of(driven)), "")

    folder.write_text("a file")
    expect("gen beside a file", run(program, "gen", stdout=subprocess.PIPE), generated)
    expect("drive beside a file", run(program, "drive", stdout=subprocess.PIPE), (6, "", "p4db: log of c0 failed\n"))
    expect("the file", folder.read_text(), "a file")
    folder.unlink()

    folder.mkdir()
    for name, text in LEFT.items():
        (folder / name).write_bytes(text)
    expect("gen beside logs", run(program, "gen", stdout=subprocess.PIPE), generated)
    expect("the logs after gen", texts(), LEFT)
    expect("drive beside logs", run(program, "drive", stdout=subprocess.PIPE), summary)
    expect("the logs after drive", texts(), {**LEFT, **named(driven.log_texts())})

    if not os.path.exists(FULL):
        print(f"skipped: there is no {FULL} here", file=sys.stderr)
        return
    for command in ("gen", "drive"):
        with open(FULL, "wb") as output:
            expect(f"{command} to a full device", run(program, command, stdout=output), (4, "", "p4db: write failed\n"))


main()
