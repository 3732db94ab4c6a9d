"""Every front of the log of a client of which two packets are answered, byte by byte, beside another client's whole log."""
import pathlib
import sys

sys.path.insert(0, str(pathlib.Path(__file__).resolve().parent.parent))
from logs import expect, named, recover, session
from model import Run, first_order, recovered, records_in_front

FIRST = [[["add", 0, 1, []], ["put", 1, 0, [["old", 0]]]], [["read", 1]]]
SECOND = [[["add", 0, 5, []]], [["read", 4], ["choose", 0, 60, 3, -3, []]]]
given = session(FIRST, SECOND, schedule="c0 c0 c1 c1 p1 s0 p0 s1 s0")
run = Run(given).drive()
logs = named(run.log_texts())
whole = (run.clients[1].intents, run.clients[1].outcomes)
text = logs["client0.log"]
for length in range(len(text) + 1):
    records, is_torn = records_in_front(run, run.clients[0], length)
    if first_order([records, whole], run.first) is None:
        wanted = (8, "", "p4db: no order fits the logs\n")
    else:
        wanted = (0, recovered(given, [records, whole], [0] if is_torn else []), "")
    expect(f"{length} bytes", recover(sys.argv[1], given, {**logs, "client0.log": text[:length]}), wanted)
