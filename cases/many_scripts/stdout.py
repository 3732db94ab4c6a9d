"""The report of the session on standard input, by running its scripts one after the other."""
import json
import sys

session = json.load(sys.stdin)
values = dict(session["tuples"])
scripts = session["clients"][0]


def apply(op):
    was = values[op[1]]
    if op[0] == "add":
        values[op[1]] = (was + op[2] + 2**63) % 2**64 - 2**63
    return f"{was}>{values[op[1]]}"


replies = [f"c0 {seq} cold 0.{seq} " + " ".join(map(apply, script)) for seq, script in enumerate(scripts, 1)]
history = [f"0.{seq} c0 {seq}" for seq in range(1, len(scripts) + 1)]
moves = sum(2 * len(script) + 1 for script in scripts)
lines = [f"replies {len(replies)}", *replies, f"history {len(history)}", *history]
lines += [f"tuples {len(values)}", *(f"t{id} {value}" for id, value in values.items()), "schedule" + " c0" * moves]
print("\n".join(lines))
