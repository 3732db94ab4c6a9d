#!/usr/bin/env python3
"""Runs the built program on each case folder beside this file, and compares what it answers.

usage: cases/run.py PROGRAM [CASE ..]

A case is a folder with any of these files; what is absent is empty, and the status is then 0.
  args          the words of the command line, one a line
  stdin         standard input, or stdin.py, whose standard output is taken as that
  stdout        what the program must write to standard output, every byte, or stdout.py, which is given standard
                input and writes that
  stderr        what it must write to standard error, every byte
  status        the exit status
  logs          the files of logs that stand afterwards, a line for each: its name, a space, and its bytes as hexadecimal
                digits; without this file logs aren't compared, but where nothing was run there must be none
  seconds       how long it may take (else 60)
or with the one file check.py, which is given the program and writes a line for each fault that it finds.

Each case runs in an empty folder of its own, where the program makes its folder of logs.
"""
import pathlib
import subprocess
import sys
import tempfile

HERE = pathlib.Path(__file__).resolve().parent
# the statuses with which the program ends before it runs anything
NOTHING_RUN = (2, 3, 5)


def content(path):
    return path.read_bytes() if path.is_file() else b""


def stdin_of(case):
    maker = case / "stdin.py"
    if maker.is_file():
        return subprocess.run([sys.executable, "-B", str(maker)], stdout=subprocess.PIPE, check=True).stdout
    return content(case / "stdin")


def stdout_of(case, stdin):
    maker = case / "stdout.py"
    if maker.is_file():
        return subprocess.run([sys.executable, "-B", str(maker)], input=stdin, stdout=subprocess.PIPE, check=True).stdout
    return content(case / "stdout")


def first_difference(got, wanted):
    at = next((i for i, (a, b) in enumerate(zip(got, wanted)) if a != b), min(len(got), len(wanted)))
    return f"differs first at byte {at}: got {got[at:at + 60]!r}, wanted {wanted[at:at + 60]!r}"


def logs_in(folder):
    """The files of logs in the folder as lines, or None where there is no folder of logs."""
    logs = pathlib.Path(folder) / "p4db-logs"
    return [f"{file.name} {file.read_bytes().hex()}" for file in sorted(logs.iterdir())] if logs.exists() else None


def log_faults(case, folder, status):
    found = logs_in(folder)
    if status in NOTHING_RUN:
        return [] if found is None else ["there is a folder of logs, though nothing was run"]
    if not (case / "logs").is_file():
        return []
    lines = (line.partition(" ") for line in content(case / "logs").decode().splitlines())
    wanted = [f"{name} {digits.replace(' ', '')}" for name, _, digits in lines]
    return [] if found == wanted else [f"logs are {found}, and not {wanted}"]


def faults_of_check(check, program, folder):
    ran = subprocess.run([sys.executable, "-B", str(check), program], stdout=subprocess.PIPE, text=True, cwd=folder, timeout=600)
    return ran.stdout.splitlines() + ([f"ended with status {ran.returncode}"] if ran.returncode else [])


def faults_of(case, program, folder):
    if (case / "check.py").is_file():
        return faults_of_check(case / "check.py", program, folder)
    words = content(case / "args").decode().splitlines()
    limit = float(content(case / "seconds").decode() or 60)
    stdin = stdin_of(case)
    try:
        ran = subprocess.run([program, *words], input=stdin, capture_output=True, cwd=folder, timeout=limit)
    except subprocess.TimeoutExpired:
        return [f"had not ended after {limit:g} seconds"]
    status = int(content(case / "status").decode() or 0)
    faults = [] if ran.returncode == status else [f"ended with status {ran.returncode}, and not {status}"]
    for name, got, wanted in (
        ("stdout", ran.stdout, stdout_of(case, stdin)),
        ("stderr", ran.stderr, content(case / "stderr")),
    ):
        if got != wanted:
            faults.append(f"{name} {first_difference(got, wanted)}")
    return faults + log_faults(case, folder, status)


def main():
    program = str(pathlib.Path(sys.argv[1]).resolve())
    cases = [HERE / name for name in sys.argv[2:]] or sorted(it for it in HERE.iterdir() if it.is_dir())
    passed = failed = 0
    for case in cases:
        with tempfile.TemporaryDirectory(prefix="p4db-case-") as folder:
            faults = faults_of(case, program, folder)
        for fault in faults:
            print(f"case {case.name}: {fault}")
        passed, failed = passed + (not faults), failed + bool(faults)
    print(f"cases: {passed} passed, {failed} failed", flush=True)
    return 1 if failed or not passed else 0


sys.exit(main())
