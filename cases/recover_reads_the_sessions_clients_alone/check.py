"""Logs of clients that the session doesn't have aren't read; a log that isn't there is empty; a session with losses, and one
without clients, are recovered too; a text that is no session is refused, and words behind the command."""
import json
import os
import pathlib
import subprocess
import sys

sys.path.insert(0, str(pathlib.Path(__file__).resolve().parent.parent))
from logs import expect, named, recover, session
from model import Run, recovered

ADD = [["add", 0, 1, []]]
WARM = [["read", 2], ["add", 0, 0, [["old", 0]]], ["put", 3, 1, [["old", 1]]]]
given = session([ADD, "lose", WARM], [WARM, ADD, "lose"])
run = Run(given).drive()
records = [(client.intents, client.outcomes) for client in run.clients]
wanted = (0, recovered(given, records), "")
expect("as they stand", recover(sys.argv[1], given, named(run.log_texts())), wanted)
expect("beside another client's", recover(sys.argv[1], given, {**named(run.log_texts()), "client2.log": b"x", "client7.log": bytes(100)}), wanted)
expect("one that isn't there", recover(sys.argv[1], given, {"client0.log": run.log_texts()[0]})[2], "p4db: no order fits the logs\n")
EMPTY = "order 0\nregisters 3\nt0 10\nt1 20\nt4 50\nnext 1\ntorn\n"
expect("none", recover(sys.argv[1], given, {}), (0, EMPTY, ""))
expect("without clients", recover(sys.argv[1], session(), {"client0.log": b"x"}), (0, EMPTY, ""))
bad = session([[["read", 9]]])
expect("no session", recover(sys.argv[1], bad, {"client0.log": b"x"}), (5, "", "p4db: session fault 4 BadTuple c0 1 op0\n"))
ran = subprocess.run([sys.argv[1], "recover", "0"], input="", capture_output=True, text=True)
expect("a word", (ran.returncode, ran.stdout), (2, ""))
os.mkdir("elsewhere")
ran = subprocess.run([sys.argv[1], "recover"], input=json.dumps(given), capture_output=True, text=True, cwd="elsewhere")
expect("no folder of logs", (ran.returncode, ran.stdout, ran.stderr), (0, EMPTY, ""))
expect("no folder is made", os.listdir("elsewhere"), [])
