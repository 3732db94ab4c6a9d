"""The report of the session on standard input, by an independent model."""
import json
import pathlib
import sys

sys.path.insert(0, str(pathlib.Path(__file__).resolve().parent.parent))
from model import report

sys.stdout.write(report(json.load(sys.stdin)))
