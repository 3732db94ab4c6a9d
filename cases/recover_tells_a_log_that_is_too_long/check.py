"""A log of one byte more than 16,777,216, where its front is a log's, and one of as many that is no log's."""
import pathlib
import sys

sys.path.insert(0, str(pathlib.Path(__file__).resolve().parent.parent))
from logs import expect, recover, session

given = session([], [], [])
TOO_LONG = (7, "", "p4db: log of c1 longer than 16777216 bytes\n")
expect("one byte more", recover(sys.argv[1], given, {"client0.log": b"", "client1.log": bytes(16777217), "client2.log": b"x"}), TOO_LONG)
expect("the longest", recover(sys.argv[1], given, {"client1.log": bytes(16777216)}), (7, "", "p4db: log of c1 damaged at 0\n"))
# the first client's log is told first
expect("behind a damaged one", recover(sys.argv[1], given, {"client0.log": b"x", "client1.log": bytes(16777217)}), (7, "", "p4db: log of c0 damaged at 0\n"))
