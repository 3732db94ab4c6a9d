"""Compares the program with the independent model on 250 random sessions in which one item in six loses the switch, the files of
logs too; and runs each again with the schedule that it printed, for the same report."""
import pathlib
import random
import sys

sys.path.insert(0, str(pathlib.Path(__file__).resolve().parent.parent))
from logs import expect, named, run, texts
from model import Run, report_of
from sessions import session

for seed in range(250):
    given = session(random.Random(seed), losses=1 / 6, most_clients=6)
    done = Run(given).drive()
    wanted = (0, report_of(done), "")
    expect(f"session {seed}", run(sys.argv[1], given), wanted)
    logs = named(done.log_texts())
    if logs.items() - texts().items():
        print(f"session {seed}: the logs are {texts()}, and not {logs}")
    expect(f"session {seed}, its printed schedule", run(sys.argv[1], {**given, "schedule": " ".join(done.trace)}), wanted)
