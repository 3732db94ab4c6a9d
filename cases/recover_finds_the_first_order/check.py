"""The order of three packets from their logs: one is answered, one was lost in the switch, one was never posted. Then with the
answered one's log cut inside its answer, damaged at its answer, with a pair that no order gives, and for another layout."""
import pathlib
import sys

sys.path.insert(0, str(pathlib.Path(__file__).resolve().parent.parent))
from logs import expect, named, recover, session
from model import Run

ADD = [["add", 0, 2, []]]
SCHEDULE = "c1 c1 c2 c2 p1 s0 p2 s1 s0 s1 c2 c0"
given = session([ADD], [ADD], [[["read", 0]]], ["lose"], schedule=SCHEDULE)
before = Run(given)
for word in SCHEDULE.split(" "):
    before.turn(word)
logs = named(before.log_texts())
answered = logs["client2.log"]


def changed(text):
    return {**logs, "client2.log": text}


rest = "registers 3\nt0 14\nt1 20\nt4 50\nnext 4\n"
expect("as they stand", recover(sys.argv[1], given, logs), (0, f"order 3\n1 c0 1 10>12\n2 c2 1 12>12\n3 c1 1 12>14\n{rest}torn\n", ""))
cut = (0, f"order 3\n1 c0 1 10>12\n2 c1 1 12>14\n3 c2 1 14>14\n{rest}torn c2\n", "")
expect("cut", recover(sys.argv[1], given, changed(answered[:56])), cut)
damaged = answered[:40] + b"\0" + answered[41:]
expect("damaged", recover(sys.argv[1], given, changed(damaged)), (7, "", "p4db: log of c2 damaged at 40\n"))
pair = (13).to_bytes(8, "big")
expect("another pair", recover(sys.argv[1], given, changed(answered[:56] + pair + pair)), (8, "", "p4db: no order fits the logs\n"))
moved = {**given, "layout": [[0, 1, 0, 1], [1, 1, 0, 0], [4, 0, 0, 1]]}
outside = (7, "", "p4db: log of c0 item 1 names a place outside the layout\n")
expect("another layout", recover(sys.argv[1], moved, logs), outside)
# the schedule, and what clients run, are not looked at
expect("no clients' items", recover(sys.argv[1], {**given, "clients": [[], [], [], []], "schedule": ""}, logs)[0], 0)
