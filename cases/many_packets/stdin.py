"""Eight clients with 512 scripts of 16 operations each in the switch, on 65,536 tuples in all its stages."""
import json
import random

draw = random.Random(3)
STAGES, ARRAYS, CELLS = 12, 4, 1366


def script():
    ops = []
    for k, tuple_id in enumerate(sorted(draw.sample(range(65536), 16), key=lambda tuple_id: tuple_id % STAGES)):
        needs = [[draw.choice(["old", "moved"]), draw.randrange(k)]] if k % 4 == 3 else []
        ops.append(draw.choice([["read", tuple_id], ["put", tuple_id, k, needs], ["add", tuple_id, 1, needs]]))
    return ops


layout = [[id, id % STAGES, id // STAGES % ARRAYS, id // (STAGES * ARRAYS)] for id in range(65536)]
clients = [[script() for _ in range(512)] for _ in range(8)]
shape = {"stages": STAGES, "arrays": ARRAYS, "cells": CELLS, "split": 6, "hosts": 1}
tuples = [[id, 10 * id] for id in range(65536)]
print(json.dumps({"shape": shape, "tuples": tuples, "layout": layout, "tries": 1, "clients": clients, "schedule": ""}))
