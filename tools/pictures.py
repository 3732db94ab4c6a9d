#!/usr/bin/env python3
"""Draws the pictures of docs/pictures anew: one for each session of examples/ that is named below.

usage: tools/pictures.py [FOLDER]
"""
import json
import pathlib
import sys

sys.dont_write_bytecode = True
from picture import Picture
from model import Run

ROOT = pathlib.Path(__file__).resolve().parent.parent
NAMES = ["two_clients", "two_passes", "warm"]


def main():
    folder = pathlib.Path(sys.argv[1]) if len(sys.argv) > 1 else ROOT / "docs" / "pictures"
    for name in NAMES:
        session = json.loads((ROOT / "examples" / f"{name}.json").read_bytes())
        (folder / f"{name}.svg").write_text(Picture(session, Run(session).drive().trace).text())


main()
