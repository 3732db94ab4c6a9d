"""Random sessions for the cases that compare the program with the independent model."""
EDGES = [-(2**63), 2**63 - 1, -1, 0, 1]


def number(draw):
    return draw.choice(EDGES) if draw.random() < 0.15 else draw.randrange(-100, 100)


def needs_for(draw, usable):
    return [[draw.choice(["old", "moved"]), draw.choice(usable)] for _ in range(draw.choice([0, 1, 1, 2, 4]))] if usable else []


def script(draw, ids, hot):
    """A transaction in which no operation in the switch has a need of a late one."""
    ops, late = [], set()
    for k, tuple_id in enumerate(draw.sample(ids, draw.randint(1, min(len(ids), draw.choice([2, 4, 8, 16]))))):
        act = draw.choice(["read", "put", "add", "choose"])
        needs = needs_for(draw, [j for j in range(k) if tuple_id not in hot or j not in late])
        numbers = [number(draw) for _ in range({"read": 0, "put": 1, "add": 1, "choose": 3}[act])]
        ops.append([act, tuple_id, *numbers] + ([] if act == "read" else [needs]))
        if act != "read" and tuple_id not in hot and any(ops[j][1] in hot or j in late for _, j in needs):
            late.add(k)
    return ops


def session(draw, losses=0.0, most_clients=8):
    """Transactions of all kinds, a share of items that lose the switch, and a schedule of all kinds of actors."""
    stages, arrays, cells = draw.randint(1, 6), draw.randint(1, 2), draw.randint(1, 3)
    shape = {"stages": stages, "arrays": arrays, "cells": cells, "split": draw.randint(0, stages), "hosts": draw.randint(1, 3)}
    ids = sorted(draw.sample(range(40), draw.randint(1, 14)))
    places = [[s, a, c] for s in range(stages) for a in range(arrays) for c in range(cells)]
    hot = draw.sample(ids, min(draw.randint(0, len(ids)), len(places)))
    layout = [[tuple_id, *place] for tuple_id, place in zip(hot, draw.sample(places, len(hot)))]
    count = draw.randint(1, draw.choice([3, most_clients]))
    item = lambda: "lose" if draw.random() < losses else script(draw, ids, hot)
    clients = [[item() for _ in range(draw.randint(0, 5))] for _ in range(count)]
    words = [f"c{n}" for n in range(count)] * 4 + [f"p{n}" for n in range(count)] * 2 + [f"s{n}" for n in range(stages)] * 2 + ["r"]
    schedule = " ".join(draw.choice(words) for _ in range(draw.choice([0, 20, 200])))
    tuples = [[tuple_id, number(draw)] for tuple_id in ids]
    return {"shape": shape, "tuples": tuples, "layout": layout, "tries": draw.randint(1, 4), "clients": clients, "schedule": schedule}


def few_tuples(draw):
    """Transactions on few tuples, so that many are used as often; one in ten items is a loss."""
    shape = {"stages": draw.randint(1, 5), "arrays": draw.randint(1, 3), "cells": draw.randint(1, 4), "split": 1, "hosts": 1}
    ids = sorted(draw.sample(range(60), draw.randint(1, 40)))
    item = lambda: "lose" if draw.random() < 0.1 else adding(draw, ids)
    clients = [[item() for _ in range(draw.randint(0, 12))] for _ in range(draw.randint(0, 4))]
    return {"shape": shape, "tuples": [[n, 0] for n in ids], "layout": [], "tries": 1, "clients": clients, "schedule": ""}


def adding(draw, ids):
    ops = []
    for k, tuple_id in enumerate(draw.sample(ids, draw.randint(1, min(len(ids), 8)))):
        needs = [["old", draw.randrange(k)]] if k and draw.random() < 0.4 else []
        ops.append(["add", tuple_id, 1, needs])
    return ops
