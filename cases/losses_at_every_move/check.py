"""A loss behind each move of a run, one at a time: while packets stand in slots, wait between their passes, hold halves, sit in
boxes, wait at their ports, and while only their intents are logged. Report and logs are those of the independent model; and each
once more with the switch lost again at once."""
import pathlib
import sys

sys.path.insert(0, str(pathlib.Path(__file__).resolve().parent.parent))
from logs import expect, named, run, session, texts
from model import Run, report_of

TWO_PASSES = [["add", 0, 1, []], ["add", 4, 0, [["moved", 0]]]]
BOTH_HALVES = [["put", 1, 7, []], ["add", 0, 0, [["old", 0]]]]
WARM = [["read", 2], ["add", 0, 0, [["old", 0]]], ["put", 3, 1, [["old", 1]]]]
READS = [["read", 0], ["read", 4]]
SESSIONS = [
    session([TWO_PASSES, READS], [[["add", 1, 1, []]]], [READS], schedule="c0 c0 c1 c1 c2 c2 p0 s0 s1 p2 p1 s0 s1 p2"),
    session([WARM, BOTH_HALVES], [BOTH_HALVES], [[["add", 2, 5, []]]], schedule="c1 c1 p1 c0 c0 c2 s0 c0"),
]

for given in SESSIONS:
    moves = Run(given).drive().trace
    loser = len(given["clients"])
    for at in range(len(moves) + 1):
        for losses in (1, 2):
            lost = {**given, "clients": [*given["clients"], ["lose"] * losses]}
            lost["schedule"] = " ".join(moves[:at] + [f"c{loser}", "r"] * losses)
            wanted = Run(lost).drive()
            what = f"{losses} behind move {at}"
            expect(what, run(sys.argv[1], lost), (0, report_of(wanted), ""))
            expect(f"{what}: the logs", {name: text for name, text in texts().items() if name in named(lost["clients"])}, named(wanted.log_texts()))
