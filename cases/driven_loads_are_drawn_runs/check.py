"""Compares what `drive` prints with what `run` says of the session that `gen` prints, with 16 drawn actors for each item; the logs are
the same too. Small loads are compared with the independent model as well."""
import pathlib
import subprocess
import sys

sys.path.insert(0, str(pathlib.Path(__file__).resolve().parent.parent))
from draws import drawn
from loads import options_of, session_of, summary_of, text_of, words_of
from logs import expect, texts
from model import Run, report_of

LARGE = [
    ("smallbank", {"number": 7, "clients": 4, "scripts": 500, "customers": 1000, "hot": 20, "share": 80}),
    ("smallbank", {}),
    ("smallbank", {"number": 3, "clients": 8, "scripts": 60, "customers": 4, "hot": 2}),
    ("ycsb", {}),
    ("ycsb", {"number": 2**64 - 1, "clients": 8, "scripts": 60, "records": 16, "hot": 8, "ops": 8}),
]
SMALL = [
    ("smallbank", {"number": 0, "clients": 2, "scripts": 6, "customers": 12, "hot": 3}),
    ("smallbank", {"number": 11, "clients": 8, "scripts": 4, "customers": 3, "hot": 1}),
    ("smallbank", {"number": 12, "clients": 1, "scripts": 1, "customers": 2, "hot": 2}),
    ("smallbank", {"number": 13, "clients": 3, "scripts": 8, "customers": 30, "hot": 0}),
    ("ycsb", {"number": 0, "clients": 2, "scripts": 6, "records": 20, "hot": 3}),
    ("ycsb", {"number": 21, "clients": 8, "scripts": 4, "records": 16, "hot": 4, "ops": 3}),
    ("ycsb", {"number": 22, "clients": 3, "scripts": 8, "records": 40, "hot": 40, "ops": 16, "mix": "b"}),
    ("ycsb", {"number": 23, "clients": 1, "scripts": 1, "records": 16, "hot": 0, "ops": 1, "mix": "c"}),
]


def numbers_in(summary):
    return {name: int(number) for name, number in map(str.split, summary.splitlines())}


def run(program, words, text):
    """What a command says, and the logs that stand then."""
    ran = subprocess.run([program, *words], input=text.encode(), capture_output=True, timeout=300)
    return (ran.returncode, ran.stdout.decode(), ran.stderr.decode()), texts()


def check(program, load, given):
    what = f"drive {load} {given}"
    plan = options_of(load, given)
    items = plan["clients"] * plan["scripts"]
    driven, logs = run(program, words_of("drive", load, given), "not read")
    expect(f"{what}, again", run(program, words_of("drive", load, given), ""), (driven, logs))
    session = text_of(session_of(load, given))
    drawn_run, wanted_logs = run(program, ["run", "--draws", str(16 * items), "--number", str(plan["number"])], session)
    expect(what, driven, (0, summary_of(drawn_run[1]), ""))
    if logs != wanted_logs:
        print(f"{what}: the logs are not those of the drawn run")
    counts = numbers_in(driven[1])
    expect(f"{what}, all items", counts["hot"] + counts["warm"] + counts["cold"] + counts["aborted"], items)
    expect(f"{what}, losses", counts["lost"], 0)
    return driven[1]


def check_small(program, load, given):
    summary = check(program, load, given)
    plan, session = options_of(load, given), session_of(load, given)
    words = drawn(session, plan["number"], 16 * plan["clients"] * plan["scripts"])
    expect(f"drive {load} {given}, by the model", summary, summary_of(report_of(Run(session).drive(words))))


def main():
    program = str(pathlib.Path(sys.argv[1]).resolve())
    for load, given in LARGE:
        check(program, load, given)
    for load, given in SMALL:
        check_small(program, load, given)


main()
