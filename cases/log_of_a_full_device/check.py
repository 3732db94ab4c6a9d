"""One client's log is on a device without room: its first record fails, it is named, and nothing is printed. The other's log
holds what it had appended by then."""
import os
import pathlib
import sys

sys.path.insert(0, str(pathlib.Path(__file__).resolve().parent.parent))
from logs import expect, run, session, texts
from model import Run

FULL = "/dev/full"

if not os.path.exists(FULL):
    print(f"skipped: there is no {FULL} here", file=sys.stderr)
    sys.exit()
os.mkdir("p4db-logs")
os.symlink(FULL, "p4db-logs/client1.log")
# c1's second turn would append its intent; by then c0 has had an answer, and has logged its second intent
schedule = "c0 c0 p0 s0 s1 c0 c0 c1 c0"
given = session([[["add", 0, 1, []]], [["add", 1, 1, []]]], [[["read", 2], ["read", 0]]], schedule=schedule)
before = Run(given)
for word in schedule.split(" ")[:8]:
    before.turn(word)
expect("the answer", run(sys.argv[1], given), (6, "", "p4db: log of c1 failed\n"))
expect("the log of c0", texts()["client0.log"], before.log_texts()[0])

# on hosts nothing is logged
cold = session([[["read", 2]]], [[["read", 3]]])
status, printed, complained = run(sys.argv[1], cold)
expect("a cold session", (status, complained), (0, ""))
