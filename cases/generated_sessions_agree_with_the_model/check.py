"""Compares what `gen` prints with a generator that is written here on its own: at the defaults, at the ends of every range and at
random options. What was printed is a session that runs."""
import pathlib
import random
import subprocess
import sys

sys.path.insert(0, str(pathlib.Path(__file__).resolve().parent.parent))
from loads import options_of, session_of, text_of, words_of
from logs import expect

EDGES = [
    ("smallbank", {}),
    ("smallbank", {"customers": 2, "hot": 1}),
    ("smallbank", {"customers": 2, "hot": 0, "clients": 1, "scripts": 50}),
    ("smallbank", {"customers": 2, "hot": 2, "share": 0}),
    ("smallbank", {"customers": 3, "hot": 1, "share": 100}),
    ("smallbank", {"customers": 32768, "hot": 32768, "clients": 1, "scripts": 1}),
    ("smallbank", {"customers": 32768, "hot": 32767, "clients": 8, "scripts": 512}),
    ("smallbank", {"number": 2**64 - 1, "clients": 1, "scripts": 4096, "share": 50}),
    ("ycsb", {}),
    ("ycsb", {"mix": "b", "ops": 1, "number": 0}),
    ("ycsb", {"mix": "c", "ops": 16, "records": 16, "hot": 16}),
    ("ycsb", {"mix": "a", "ops": 16, "records": 17, "hot": 1, "share": 100}),
    ("ycsb", {"mix": "b", "ops": 16, "records": 16, "hot": 15, "share": 0}),
    ("ycsb", {"records": 65536, "hot": 65536, "clients": 1, "scripts": 1}),
    ("ycsb", {"records": 65536, "hot": 0, "clients": 8, "scripts": 512, "ops": 16}),
    ("ycsb", {"number": 2**64 - 1, "clients": 1, "scripts": 4096, "mix": "b"}),
]


def random_options(draw):
    """A load with some of its options, small enough to be run."""
    load = draw.choice(["smallbank", "ycsb"])
    keys = draw.choice([16, 17, 40, 100, 1000])
    given = {"number": draw.randrange(2**64), "clients": draw.randint(1, 8), "scripts": draw.randint(1, 40), "share": draw.choice([0, 50, 80, 100])}
    given |= {"hot": draw.choice([0, 1, keys // 2, keys]), "customers" if load == "smallbank" else "records": keys}
    if load == "ycsb":
        given |= {"ops": draw.randint(1, 16), "mix": draw.choice("abc")}
    kept = [name for name in given if name in ("hot", "customers", "records") or draw.random() < 0.8]
    return load, {name: given[name] for name in draw.sample(kept, len(kept))}


def check(program, load, given):
    what = f"gen {load} {given}"
    ran = subprocess.run([program, *words_of("gen", load, given)], input=b"not read", capture_output=True, timeout=60)
    expect(what, (ran.returncode, ran.stderr), (0, b""))
    wanted = text_of(session_of(load, given)).encode() + b"\n"
    if ran.stdout != wanted:
        at = next((i for i, (a, b) in enumerate(zip(ran.stdout, wanted)) if a != b), min(len(ran.stdout), len(wanted)))
        print(f"{what}: differs first at byte {at}: got {ran.stdout[at:at + 60]!r}, wanted {wanted[at:at + 60]!r}")
    expect(f"{what}, folders", list(pathlib.Path(".").iterdir()), [])
    return ran.stdout


def check_run(program, load, given, text):
    plan = options_of(load, given)
    items = plan["clients"] * plan["scripts"]
    with_folder = pathlib.Path("run")
    with_folder.mkdir()
    ran = subprocess.run([program, "run"], input=text, capture_output=True, cwd=with_folder, timeout=300)
    expect(f"run of gen {load} {given}", (ran.returncode, ran.stderr, ran.stdout.split(b"\n")[0]), (0, b"", b"replies %d" % items))
    for file in (with_folder / "p4db-logs").iterdir():
        file.unlink()
    (with_folder / "p4db-logs").rmdir()
    with_folder.rmdir()


def main():
    program = str(pathlib.Path(sys.argv[1]).resolve())
    for load, given in EDGES:
        text = check(program, load, given)
        check_run(program, load, given, text)
    for seed in range(60):
        load, given = random_options(random.Random(seed))
        text = check(program, load, given)
        if seed < 20:
            check_run(program, load, given, text)


main()
