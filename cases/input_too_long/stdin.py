import sys

sys.stdout.write(" " * 16777217)
