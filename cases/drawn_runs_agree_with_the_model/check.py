"""Compares `run --draws COUNT --number NUMBER` with the independent model and an independent generator, on 60 random sessions, and
with `run` of the schedule that it prints."""
import json
import pathlib
import random
import subprocess
import sys

sys.path.insert(0, str(pathlib.Path(__file__).resolve().parent.parent))
from draws import drawn
from logs import expect, run
from model import Run, report_of
from sessions import session

for seed in range(60):
    draw = random.Random(seed)
    given = session(draw, losses=draw.choice([0, 0.2]), most_clients=6)
    count, number = draw.choice([0, 1, 50, 1000]), draw.choice([0, 1, 7, draw.randrange(2**64), 2**64 - 1])
    wanted = (0, report_of(Run(given).drive(drawn(given, number, count))), "")
    words = [sys.argv[1], "run", *draw.choice([["--draws", str(count), f"--number={number}"], ["--number", str(number), f"--draws={count}"]])]
    ran = subprocess.run(words, input=json.dumps(given), capture_output=True, text=True, timeout=60)
    expect(f"session {seed}, {count} of {number}", (ran.returncode, ran.stdout, ran.stderr), wanted)
    printed = wanted[1].splitlines()[-1].removeprefix("schedule").strip()
    expect(f"session {seed}, its printed schedule", run(sys.argv[1], {**given, "schedule": printed}), wanted)
