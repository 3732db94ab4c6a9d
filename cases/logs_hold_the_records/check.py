"""After a run the files hold exactly the texts of the records, as an independent writer makes them."""
import pathlib
import sys

sys.path.insert(0, str(pathlib.Path(__file__).resolve().parent.parent))
from logs import expect, named, run, session, texts
from model import Run, report_of

HOT = [["add", 0, -3, []], ["add", 1, 0, [["moved", 0]]]]
AGAINST = [["put", 1, 0, []], ["choose", 0, 5, 1, -1, [["old", 0]]]]
COLD = [["add", 2, 5, []], ["read", 3]]
WARM = [["read", 2], ["add", 0, 0, [["old", 0]]], ["put", 3, 1, [["old", 1]]]]
SESSIONS = {
    "hot ones": session([HOT, AGAINST], [AGAINST, HOT]),
    "a warm one": session([WARM]),
    "a cold one": session([COLD]),
    "a floor above the packets": session([WARM, COLD, HOT], [COLD, WARM], [HOT]),
    "eight clients": session(*[[HOT, COLD, WARM, AGAINST]] * 8, schedule="c3 c3 c1 p3 s0 c1 p1 c7 c7 s1 s0"),
    "none": session([], [HOT], []),
}

for what, given in SESSIONS.items():
    wanted = Run(given).drive()
    expect(f"{what}: the answer", run(sys.argv[1], given), (0, report_of(wanted), ""))
    expect(f"{what}: the logs", {name: text for name, text in texts().items() if name in named(given["clients"])}, named(wanted.log_texts()))
