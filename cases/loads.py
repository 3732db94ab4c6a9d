"""The sessions of the two loads, made on their own from the numbers of `draws.py`."""
import json

from draws import Dice

DEFAULTS = {"number": 1, "clients": 4, "scripts": 100, "hot": 10, "share": 80}
OWN_DEFAULTS = {"smallbank": {"customers": 100}, "ycsb": {"records": 100, "ops": 4, "mix": "a"}}
READS = {"a": 50, "b": 95, "c": 100}
SHAPE = {"arrays": 4, "cells": 4096, "hosts": 4, "split": 6, "stages": 12}


def options_of(load, given):
    """All options of a load: those that are given, and the defaults of the others."""
    return {**DEFAULTS, **OWN_DEFAULTS[load], **given}


def words_of(command, load, given):
    """The words of a command line; values stand by turns in a word of their own and behind a sign."""
    words = [command, load]
    for at, (name, value) in enumerate(given.items()):
        words += [f"--{name}", str(value)] if at % 2 else [f"--{name}={value}"]
    return words


def savings(customer):
    return 2 * customer


def checking(customer):
    return 2 * customer + 1


def bank_script(dice, plan):
    """One transaction of SmallBank: its kind first, then its customers, and then its amount."""
    kind, count = dice.draw(100), plan["customers"]
    first = dice.key(count, plan["hot"], plan["share"])
    second = amount = None
    if 45 <= kind < 60 or kind >= 75:
        second = dice.key(count, plan["hot"], plan["share"])
        if second == first:
            second = (first + 1) % count
    if not (kind < 15 or 45 <= kind < 60):
        amount = 1 + dice.draw(100)
    if kind < 15:
        return [["read", savings(first)], ["read", checking(first)]]
    if kind < 30:
        return [["add", checking(first), amount, []]]
    if kind < 45:
        return [["choose", savings(first), -amount, amount, 0, []]]
    if kind < 60:
        both = [["moved", 0], ["moved", 1]]
        return [["put", savings(first), 0, []], ["put", checking(first), 0, []], ["add", checking(second), 0, both]]
    if kind < 75:
        return [["read", savings(first)], ["choose", checking(first), amount, -amount, -amount - 1, [["old", 0]]]]
    return [["choose", checking(first), amount, -amount, 0, []], ["add", checking(second), 0, [["moved", 0]]]]


def ycsb_script(dice, plan):
    """As many operations as the plan says, each on another record."""
    ops, taken = [], set()
    for _ in range(plan["ops"]):
        key = dice.key(plan["records"], plan["hot"], plan["share"])
        while key in taken:
            key = (key + 1) % plan["records"]
        taken.add(key)
        ops.append(["read", key] if dice.draw(100) < READS[plan["mix"]] else ["put", key, dice.draw(1000), []])
    return ops


def session_of(load, given):
    """The session of a load with these options, and the defaults of the others."""
    plan = options_of(load, given)
    bank = load == "smallbank"
    tuples, hot = (2 * plan["customers"], 2 * plan["hot"]) if bank else (plan["records"], plan["hot"])
    dice, script = Dice(plan["number"]), bank_script if bank else ycsb_script
    return {
        "clients": [[script(dice, plan) for _ in range(plan["scripts"])] for _ in range(plan["clients"])],
        "layout": [[i, i % 12, i // 12 % 4, i // 48] for i in range(hot)],
        "schedule": "",
        "shape": SHAPE,
        "tries": 8,
        "tuples": [[i, 1000 if bank else 100] for i in range(tuples)],
    }


def text_of(session):
    """The canonical text: without blanks, keys in order."""
    return json.dumps(session, separators=(",", ":"), sort_keys=True)


def wrapped(number):
    return (number + 2**63) % 2**64 - 2**63


def summary_of(report):
    """What `drive` prints of a run with this report. Losses are not items of any load."""
    lines = report.splitlines()
    count = int(lines[0].removeprefix("replies "))
    kinds = [line.split(" ")[2] for line in lines[1 : 1 + count]]
    values_at = next(at for at, line in enumerate(lines) if line.startswith("tuples "))
    values = [int(line.split(" ")[1]) for line in lines[values_at + 1 : -1]]
    rows = [("hot", kinds.count("hot")), ("warm", kinds.count("warm")), ("cold", kinds.count("cold")), ("aborted", kinds.count("abort"))]
    rows += [("lost", kinds.count("lose")), ("moves", len(lines[-1].split(" ")) - 1), ("total", wrapped(sum(values)))]
    return "".join(f"{name} {number}\n" for name, number in rows)
