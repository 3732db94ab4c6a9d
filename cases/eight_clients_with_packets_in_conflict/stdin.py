"""Eight clients with 400 scripts of all kinds each, on few tuples, and a schedule of 60,000 words of all kinds of actors."""
import json
import random

draw = random.Random(5)
HOT, ALL, STAGES = 24, 60, 4


def script():
    first, count = draw.choice([(0, HOT), (HOT, ALL), (0, ALL)])
    ops, late = [], set()
    for k, tuple_id in enumerate(draw.sample(range(first, count), draw.randint(1, 8))):
        usable = [j for j in range(k) if tuple_id >= HOT or j not in late]
        needs = [[draw.choice(["old", "moved"]), draw.choice(usable)]] if usable else []
        ops.append(draw.choice([["read", tuple_id], ["put", tuple_id, k, needs], ["add", tuple_id, 1, needs], ["choose", tuple_id, 50, 7, -3, needs]]))
        if ops[k][0] != "read" and tuple_id >= HOT and any(ops[j][1] < HOT or j in late for _, j in needs):
            late.add(k)
    return ops


layout = [[id, id % STAGES, id // STAGES % 2, id // (STAGES * 2)] for id in range(HOT)]
clients = [[script() for _ in range(400)] for _ in range(8)]
words = [f"c{n}" for n in range(8)] * 4 + [f"p{n}" for n in range(8)] * 2 + [f"s{n}" for n in range(STAGES)] * 6 + ["r"]
schedule = " ".join(draw.choice(words) for _ in range(60000))
shape = {"stages": STAGES, "arrays": 2, "cells": 3, "split": 2, "hosts": 3}
tuples = [[id, 10 * id] for id in range(ALL)]
print(json.dumps({"shape": shape, "tuples": tuples, "layout": layout, "tries": 3, "clients": clients, "schedule": schedule}))
