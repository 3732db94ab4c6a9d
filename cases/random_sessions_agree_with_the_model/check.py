"""Compares the program with the independent model on 250 random sessions with transactions of all kinds, each with a
schedule of all kinds of actors, the files of logs too; and runs each again with the schedule that it printed, for the same
report."""
import json
import pathlib
import random
import subprocess
import sys

sys.path.insert(0, str(pathlib.Path(__file__).resolve().parent.parent))
from logs import named, texts
from model import Run, report_of
from sessions import session


def run(program, text):
    ran = subprocess.run([program, "run"], input=text, capture_output=True, text=True, timeout=60)
    return ran.stdout if ran.returncode == 0 and not ran.stderr else f"status {ran.returncode}: {ran.stderr}"


def main():
    for seed in range(250):
        drawn = session(random.Random(seed))
        done = Run(drawn).drive()
        wanted = report_of(done)
        got = run(sys.argv[1], json.dumps(drawn))
        if got != wanted:
            print(f"session {seed}: got {got[:300]!r}, wanted {wanted[:300]!r}")
            continue
        logs = named(done.log_texts())
        if logs.items() - texts().items():
            print(f"session {seed}: the logs are {texts()}, and not {logs}")
        printed = wanted.splitlines()[-1].removeprefix("schedule").strip()
        if run(sys.argv[1], json.dumps({**drawn, "schedule": printed})) != wanted:
            print(f"session {seed}: the printed schedule gives another report")


main()
