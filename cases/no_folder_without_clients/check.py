"""A session without clients has no logs, and makes no folder; one with clients makes it, and runs again over it."""
import pathlib
import sys

sys.path.insert(0, str(pathlib.Path(__file__).resolve().parent.parent))
from logs import expect, run, session, texts

expect("without clients", run(sys.argv[1], session())[0], 0)
expect("the folder", pathlib.Path("p4db-logs").exists(), False)
given = session([[["read", 2]]])
first = run(sys.argv[1], given)
expect("with a client", (first[0], texts()), (0, {"client0.log": b""}))
expect("again", run(sys.argv[1], given), first)
