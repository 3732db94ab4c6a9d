"""Eight packets of which no client logged the answer, before a long row of answered packets: of their 40,320 orders only the last
fits, and only the last answer tells.

In the register of t0 each of the eight counts up by one where those of all higher clients came before it, and else falls far."""
import pathlib
import sys

sys.path.insert(0, str(pathlib.Path(__file__).resolve().parent.parent))
from logs import expect, recover
from model import intent_text, outcome_text

TAIL = 4000
PLACES = {0: (0, 0, 0), 1: (1, 0, 0)}
given = {"shape": {"stages": 2, "arrays": 1, "cells": 1, "split": 1, "hosts": 1}, "tuples": [[0, 0], [1, 20]]}
given |= {"layout": [[t, *place] for t, place in PLACES.items()], "tries": 1, "clients": [[]] * 8, "schedule": ""}


def intent(client, seq, op):
    planned = {"op": op, "place": PLACES[op[1]], "needs": [], "pass": 1, "bias": 0}
    return intent_text(0, {"client": client, "seq": seq, "passes": 1, "ops": [planned]}, 1 + PLACES[op[1]][0])


logs = {f"client{client}.log": b"" for client in range(8)}
tail = []
for k in range(TAIL):
    client, number = k % 8, 9 + k
    tuple_id, value = (0, 8) if k == TAIL - 1 else (1, 20)
    logs[f"client{client}.log"] += intent(client, k // 8 + 1, ["read", tuple_id])
    logs[f"client{client}.log"] += outcome_text(k // 8 + 1, number, [(value, value)])
    tail.append(f"{number} c{client} {k // 8 + 1} {value}>{value}")
for client in range(8):
    logs[f"client{client}.log"] += intent(client, TAIL // 8 + 1, ["choose", 0, 7 - client, 1, -100, []])
first = [f"{8 - client} c{client} {TAIL // 8 + 1} {7 - client}>{8 - client}" for client in reversed(range(8))]
lines = [f"order {TAIL + 8}", *first, *tail, "registers 2", "t0 8", "t1 20", f"next {TAIL + 9}", "torn"]
expect("the order", recover(sys.argv[1], given, logs), (0, "\n".join(lines) + "\n", ""))
# with another last answer no order fits
name = f"client{(TAIL - 1) % 8}.log"
at = logs[name].rindex(outcome_text(TAIL // 8, 8 + TAIL, [(8, 8)]))
other = outcome_text(TAIL // 8, 8 + TAIL, [(9, 9)])
logs[name] = logs[name][:at] + other + logs[name][at + len(other) :]
expect("no order", recover(sys.argv[1], given, logs), (8, "", "p4db: no order fits the logs\n"))
