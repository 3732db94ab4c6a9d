"""Eight clients with scripts of all acts on few tuples, and a schedule of all kinds of actors."""
import json
import random

draw = random.Random(11)
EDGES = [-(2**63), 2**63 - 1, -1, 0, 1]


def number():
    return draw.choice(EDGES) if draw.random() < 0.2 else draw.randrange(-100, 100)


def script():
    ops = []
    for k, tuple_id in enumerate(draw.sample(range(9), draw.randint(1, 5))):
        needs = [[draw.choice(["old", "moved"]), draw.randrange(k)] for _ in range(draw.randint(0, 4))] if k else []
        ops.append(
            draw.choice(
                [
                    ["read", tuple_id],
                    ["put", tuple_id, number(), needs],
                    ["add", tuple_id, number(), needs],
                    ["choose", tuple_id, number(), number(), number(), needs],
                ]
            )
        )
    return ops


clients = [[script() for _ in range(draw.randint(0, 40))] for _ in range(8)]
words = [f"c{n}" for n in range(8)] * 6 + [f"p{n}" for n in range(8)] + ["s0", "s1", "r"]
schedule = " ".join(draw.choice(words) for _ in range(2000))
shape = {"stages": 2, "arrays": 1, "cells": 2, "split": 1, "hosts": 2}
tuples = [[id, number()] for id in range(9)]
print(json.dumps({"shape": shape, "tuples": tuples, "layout": [], "tries": 4, "clients": clients, "schedule": schedule}))
