"""512 losses: eight clients, each of which loses the switch 64 times between its transactions."""
import json

HOT = [[["add", 0, 1, []], ["put", 1, 3, [["moved", 0]]]], [["read", 4], ["add", 0, 2, [["old", 0]]]]]
clients = [[item for k in range(64) for item in (HOT[(client + k) % 2], "lose")] for client in range(8)]
shape = {"stages": 2, "arrays": 1, "cells": 2, "split": 1, "hosts": 2}
tuples = [[0, 10], [1, 20], [2, 30], [3, 40], [4, 50]]
layout = [[0, 0, 0, 0], [1, 1, 0, 0], [4, 0, 0, 1]]
print(json.dumps({"shape": shape, "tuples": tuples, "layout": layout, "tries": 2, "clients": clients, "schedule": ""}))
