"""A generated script of 16 reads over 16 cold records reads each of them once, and the run answers so. A small session of the other
load has these tuples and these places."""
import json
import pathlib
import subprocess
import sys

sys.path.insert(0, str(pathlib.Path(__file__).resolve().parent.parent))
from logs import expect, run

RECORDS = 16
READS_ALONE = ["ycsb", "--mix=c", "--clients", "1", "--scripts=1", f"--records={RECORDS}", "--ops", "16", "--hot=0"]
TWO_CUSTOMERS = ["smallbank", "--customers=2", "--hot=1"]


def generated(program, words):
    ran = subprocess.run([program, "gen", *words], capture_output=True, text=True, timeout=60)
    expect(f"gen {words}", (ran.returncode, ran.stderr), (0, ""))
    return json.loads(ran.stdout)


def main():
    for number in ["0", "1", "7", "18446744073709551615"]:
        session = generated(sys.argv[1], [*READS_ALONE, "--number", number])
        [[script]] = session["clients"]
        expect(f"the script of {number}", sorted(script), [["read", record] for record in range(RECORDS)])
        status, report, notes = run(sys.argv[1], session)
        expect(f"the run of {number}", (status, report.splitlines()[:2], notes), (0, ["replies 1", "c0 1 cold 0.1" + " 100>100" * RECORDS], ""))
    session = generated(sys.argv[1], TWO_CUSTOMERS)
    expect("tuples", session["tuples"], [[0, 1000], [1, 1000], [2, 1000], [3, 1000]])
    expect("layout", session["layout"], [[0, 0, 0, 0], [1, 1, 0, 0]])


main()
