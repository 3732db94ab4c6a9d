"""Races by one to eight threads, a hundred of them, on a session full of conflicts, packets and losses: the schedule that each
prints, run again, gives the same bytes and the same files of logs; so does the independent model."""
import json
import pathlib
import subprocess
import sys

sys.path.insert(0, str(pathlib.Path(__file__).resolve().parent.parent))
from logs import expect, named, run, session, texts
from model import Run, report_of

HOT = [["add", 0, 1, []], ["put", 1, 0, [["old", 0]]]]
TWO_PASSES = [["put", 1, 0, []], ["add", 0, 0, [["old", 0]]]]
WARM = [["read", 2], ["add", 0, 0, [["old", 0]]], ["put", 3, 1, [["old", 1]]]]
COLD = [["add", 2, 5, []], ["add", 3, -1, []]]
ITEMS = [HOT, COLD, WARM, "lose", TWO_PASSES, COLD]
given = session(*[ITEMS[client % 3 :] + ITEMS[: client % 3] for client in range(5)])

for turn in range(100):
    threads = turn % 8 + 1
    ran = subprocess.run([sys.argv[1], "race", "--threads", str(threads)], input=json.dumps(given), capture_output=True, text=True, timeout=60)
    logs = texts()
    what = f"race {turn} by {threads} threads"
    expect(what, (ran.returncode, ran.stderr), (0, ""))
    printed = ran.stdout.splitlines()[-1].removeprefix("schedule").strip()
    again = {**given, "schedule": printed}
    expect(f"{what}, run again", run(sys.argv[1], again), (0, ran.stdout, ""))
    expect(f"{what}, the logs", texts(), logs)
    modelled = Run(given).drive(printed.split(" "))
    expect(f"{what}, the model", ran.stdout, report_of(modelled))
    expect(f"{what}, the model's logs", logs, named(modelled.log_texts()))
