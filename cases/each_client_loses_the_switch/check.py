"""Each of eight clients loses the switch in turn, with packets of the others under way, by three schedules."""
import pathlib
import sys

sys.path.insert(0, str(pathlib.Path(__file__).resolve().parent.parent))
from logs import expect, named, run, session, texts
from model import Run, report_of

ITEMS = [[["add", 0, 2, []], ["put", 1, 0, [["old", 0]]]], "lose", [["read", 2], ["add", 4, 1, [["old", 0]]]], [["add", 2, 1, []]]]
CLIENTS = [ITEMS[client % 3 :] + ITEMS[: client % 3] for client in range(8)]
for schedule in ("", "c7 c7 p7 c0 c0 p0 s0 c1 r c1 c1 c2 c2 c2", " ".join(f"c{c} c{c} p{c} s0" for c in (3, 1, 4, 0, 5, 2, 6, 7))):
    given = session(*CLIENTS, schedule=schedule)
    wanted = Run(given).drive()
    expect(f"schedule {schedule!r}", run(sys.argv[1], given), (0, report_of(wanted), ""))
    expect(f"schedule {schedule!r}: the logs", texts(), named(wanted.log_texts()))
