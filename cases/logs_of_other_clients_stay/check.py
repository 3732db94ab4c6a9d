"""A run replaces the logs of its session's clients, and leaves those of higher clients and other files as they are."""
import pathlib
import sys

sys.path.insert(0, str(pathlib.Path(__file__).resolve().parent.parent))
from logs import expect, named, run, session, texts
from model import Run, report_of

logs = pathlib.Path("p4db-logs")
logs.mkdir()
old = {name: f"old {name}".encode() for name in ("client0.log", "client1.log", "client2.log", "client7.log", "notes")}
for name, text in old.items():
    (logs / name).write_bytes(text)
given = session([[["add", 0, 1, []]]], [[["read", 2]]])
wanted = Run(given).drive()
expect("the answer", run(sys.argv[1], given), (0, report_of(wanted), ""))
expect("the logs", texts(), {**old, **named(wanted.log_texts())})
