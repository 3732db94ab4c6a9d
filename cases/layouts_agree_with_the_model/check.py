"""Compares what `layout K` prints with the independent model, on 150 random sessions and a K for each, 0 and more than the switch
has cells among them."""
import json
import pathlib
import random
import subprocess
import sys

sys.path.insert(0, str(pathlib.Path(__file__).resolve().parent.parent))
from logs import expect
from model import layout
from sessions import few_tuples

for seed in range(150):
    draw = random.Random(seed)
    given = few_tuples(draw)
    k = draw.choice([0, 1, 2, 5, 9, 20, 65536])
    ran = subprocess.run([sys.argv[1], "layout", str(k)], input=json.dumps(given), capture_output=True, text=True, timeout=60)
    expect(f"session {seed}, K {k}", (ran.returncode, ran.stdout, ran.stderr), (0, layout(given, k), ""))
