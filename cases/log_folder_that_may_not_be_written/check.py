"""A folder of logs in which no file may be made: status 6, the first client is named, and nothing is printed."""
import os
import pathlib
import shutil
import sys

sys.path.insert(0, str(pathlib.Path(__file__).resolve().parent.parent))
from logs import expect, run, session

NOBODY = 65534

program, how = sys.argv[1], {}
if os.geteuid() == 0:
    # permissions say nothing to root, so the program runs as another user, who has to reach it
    program, how = shutil.copy(program, "program"), {"user": NOBODY, "group": NOBODY, "extra_groups": []}
    os.chmod(program, 0o755)
    os.chmod(".", 0o711)
os.mkdir("p4db-logs", 0o555)
try:
    answer = run(os.path.abspath(program), session([[["add", 0, 1, []]]]), **how)
except PermissionError as error:
    print(f"skipped: the program can't be run as another user here ({error})", file=sys.stderr)
else:
    expect("the answer", answer, (6, "", "p4db: log of c0 failed\n"))
    expect("the folder", list(pathlib.Path("p4db-logs").iterdir()), [])
