"""Eight clients with 512 scripts of 16 operations each on 40 tuples, and a schedule of 100,000 words."""
import json
import random

draw = random.Random(7)


def script():
    ops = []
    for k, tuple_id in enumerate(draw.sample(range(40), 16)):
        needs = [[draw.choice(["old", "moved"]), draw.randrange(k)]] if k else []
        ops.append(draw.choice([["read", tuple_id], ["read", tuple_id], ["put", tuple_id, k, needs], ["add", tuple_id, 1, needs]]))
    return ops


clients = [[script() for _ in range(512)] for _ in range(8)]
schedule = " ".join(f"c{draw.randrange(8)}" for _ in range(100000))
shape = {"stages": 2, "arrays": 1, "cells": 2, "split": 1, "hosts": 2}
tuples = [[id, 10 * id] for id in range(40)]
print(json.dumps({"shape": shape, "tuples": tuples, "layout": [], "tries": 16, "clients": clients, "schedule": schedule}))
