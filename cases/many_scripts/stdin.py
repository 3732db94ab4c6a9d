"""One client with 4,096 scripts of 1 to 16 reads and additions over 65,536 tuples, the most that a session may have."""
import json
import random

draw = random.Random(7)
EXTREMES = [-(2**63), 2**63 - 1, -1, 0, 1]
ids = sorted(draw.sample(range(2**32), 65536))
tuples = [[id, draw.choice(EXTREMES + [draw.randrange(-(10**6), 10**6)])] for id in ids]


def op(tuple_id):
    if draw.random() < 0.3:
        return ["read", tuple_id]
    return ["add", tuple_id, draw.choice(EXTREMES + [draw.randrange(-(2**62), 2**62)]), []]


# A few tuples are used often, so that most scripts find what earlier ones left.
scripts = [[op(id) for id in draw.sample(ids[:40], draw.randint(1, 8)) + draw.sample(ids[40:], draw.randint(0, 8))] for _ in range(4096)]
shape = {"stages": 12, "arrays": 4, "cells": 4096, "split": 12, "hosts": 8}
print(json.dumps({"shape": shape, "tuples": tuples, "layout": [], "tries": 16, "clients": [scripts], "schedule": ""}))
