"""Logs that no run writes: a number above that of all packets, one of 0, floors that leave no order, a number twice; and damage in
every byte that has one value only."""
import pathlib
import sys

sys.path.insert(0, str(pathlib.Path(__file__).resolve().parent.parent))
from logs import expect, named, recover, session
from model import Run

ADD = [["add", 0, 2, []]]
SCHEDULE = "c1 c1 c2 c2 p1 s0 p2 s1 s0 s1 c2 c0"
given = session([ADD], [ADD], [[["read", 0]]], ["lose"], schedule=SCHEDULE)
before = Run(given)
for word in SCHEDULE.split(" "):
    before.turn(word)
logs = named(before.log_texts())
NO_ORDER = (8, "", "p4db: no order fits the logs\n")


def with_bytes(name, at, piece):
    text = logs[name]
    return {**logs, name: text[:at] + piece + text[at + len(piece) :]}


def number(n):
    return n.to_bytes(8, "big")


# an outcome's number stands behind its 40 bytes of intent and 8 of its own
expect("above all", recover(sys.argv[1], given, with_bytes("client2.log", 48, number(5))), NO_ORDER)
expect("none", recover(sys.argv[1], given, {**with_bytes("client2.log", 48, number(0)), "client1.log": b""}), NO_ORDER)
expect("the greatest", recover(sys.argv[1], given, with_bytes("client2.log", 48, number(2**64 - 1))), NO_ORDER)
floors = {name: text[:4] + number(3) + text[12:] if name in ("client0.log", "client1.log") else text for name, text in logs.items()}
expect("floors", recover(sys.argv[1], given, floors), NO_ORDER)
expect("a floor that is met", recover(sys.argv[1], given, with_bytes("client0.log", 4, number(2)))[1].splitlines()[3], "3 c0 1 12>14")
for at in (0, 1, 2, 3, 12, 13, 14, 15):
    damaged = (7, "", "p4db: log of c2 damaged at 0\n")
    expect(f"byte {at}", recover(sys.argv[1], given, with_bytes("client2.log", at, b"\x77")), damaged)
for at in (40, 41, 43, 47):
    damaged = (7, "", "p4db: log of c2 damaged at 40\n")
    expect(f"byte {at}", recover(sys.argv[1], given, with_bytes("client2.log", at, b"\x77")), damaged)
# of two damaged logs the first client's is told
both = {**with_bytes("client1.log", 0, b"\0"), "client2.log": b"x"}
expect("two damaged", recover(sys.argv[1], given, both), (7, "", "p4db: log of c1 damaged at 0\n"))
# an answer without its intent
expect("an answer alone", recover(sys.argv[1], given, {**logs, "client2.log": logs["client2.log"][40:]}), (7, "", "p4db: log of c2 damaged at 0\n"))
