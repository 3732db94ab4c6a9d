"""Compares what `hot K` prints with the independent model, on 100 random sessions and a K for each, 0 and more than there
are tuples among them."""
import json
import pathlib
import random
import subprocess
import sys

sys.path.insert(0, str(pathlib.Path(__file__).resolve().parent.parent))
from model import hot
from sessions import few_tuples


def main():
    for seed in range(100):
        draw = random.Random(seed)
        drawn = few_tuples(draw)
        k = draw.choice([0, 1, 2, 5, 20, 65536])
        ran = subprocess.run([sys.argv[1], "hot", str(k)], input=json.dumps(drawn), capture_output=True, text=True, timeout=60)
        if (ran.returncode, ran.stdout, ran.stderr) != (0, hot(drawn, k), ""):
            print(f"session {seed}, K {k}: status {ran.returncode}, {ran.stdout!r}, {ran.stderr!r}")


main()
