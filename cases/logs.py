"""Runs of the program in a folder of their own, for the cases on the files of logs."""
import json
import pathlib
import subprocess

SHAPE = {"stages": 2, "arrays": 1, "cells": 2, "split": 1, "hosts": 2}
TUPLES = [[0, 10], [1, 20], [2, 30], [3, 40], [4, 50]]
LAYOUT = [[0, 0, 0, 0], [1, 1, 0, 0], [4, 0, 0, 1]]


def session(*clients, schedule=""):
    """A session in which t0, t1 and t4 are in the switch, with these clients."""
    return {"shape": SHAPE, "tuples": TUPLES, "layout": LAYOUT, "tries": 2, "clients": list(clients), "schedule": schedule}


def run(program, given, folder=None, **how):
    """Runs a session in this folder, or where the case runs: the status, standard output and standard error."""
    ran = subprocess.run([program, "run"], input=json.dumps(given), capture_output=True, text=True, cwd=folder, timeout=60, **how)
    return ran.returncode, ran.stdout, ran.stderr


def texts(folder="."):
    """What the files of logs hold, by name."""
    return {file.name: file.read_bytes() for file in (pathlib.Path(folder) / "p4db-logs").iterdir() if file.is_file()}


def named(logs):
    """The files of logs of these texts, from client 0 on."""
    return {f"client{number}.log": text for number, text in enumerate(logs)}


def expect(what, got, wanted):
    if got != wanted:
        print(f"{what}: got {got}, wanted {wanted}")


def recover(program, given, logs):
    """Recovers a session from these files of logs, by name: the status, standard output and standard error. The files must stay."""
    folder = pathlib.Path("p4db-logs")
    folder.mkdir(exist_ok=True)
    for file in folder.iterdir():
        file.unlink()
    for name, text in logs.items():
        (folder / name).write_bytes(text)
    ran = subprocess.run([program, "recover"], input=json.dumps(given), capture_output=True, text=True, timeout=60)
    expect("the logs after recover", texts(), logs)
    return ran.returncode, ran.stdout, ran.stderr
