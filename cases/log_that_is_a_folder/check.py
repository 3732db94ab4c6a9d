"""A folder stands where the second client's log belongs: that log can't be emptied, and nothing is printed. The first one is
empty by then, and the third as it was."""
import os
import pathlib
import sys

sys.path.insert(0, str(pathlib.Path(__file__).resolve().parent.parent))
from logs import expect, run, session, texts

os.makedirs("p4db-logs/client1.log")
for name in ("client0.log", "client2.log"):
    pathlib.Path("p4db-logs", name).write_bytes(b"old")
expect("the answer", run(sys.argv[1], session(*[[[["add", 0, 1, []]]]] * 3)), (6, "", "p4db: log of c1 failed\n"))
expect("the logs", texts(), {"client0.log": b"", "client2.log": b"old"})
