"""A file stands where the folder of logs belongs: no log can be emptied, and nothing is printed."""
import pathlib
import sys

sys.path.insert(0, str(pathlib.Path(__file__).resolve().parent.parent))
from logs import expect, run, session

file = pathlib.Path("p4db-logs")
file.write_text("a file")
expect("with two clients", run(sys.argv[1], session([[["read", 2]]], [[["read", 0]]])), (6, "", "p4db: log of c0 failed\n"))
expect("the file", file.read_text(), "a file")
status, printed, complained = run(sys.argv[1], session())
expect("without clients", (status, complained), (0, ""))
