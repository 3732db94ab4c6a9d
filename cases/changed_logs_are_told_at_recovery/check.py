"""A log that isn't what its client appended is told at the recovery, with its first client and the first place: nothing is printed.

Two clients' logs are one file here, so that each has the other's records too; or one is a device that keeps nothing."""
import os
import pathlib
import shutil
import sys

sys.path.insert(0, str(pathlib.Path(__file__).resolve().parent.parent))
from logs import expect, run, session
from model import Run

ADD = [["add", 0, 1, []]]
READ = [["read", 4]]


def answer(links, given):
    """The answer where these files of logs are links."""
    shutil.rmtree("p4db-logs", ignore_errors=True)
    os.mkdir("p4db-logs")
    for name, target in links.items():
        os.symlink(target, f"p4db-logs/{name}")
    return run(sys.argv[1], given)


def changed(client, at):
    return (7, "", f"p4db: log of c{client} changed at {at}\n")


def two(schedule):
    return session([ADD, ADD], [READ], ["lose"], schedule=schedule)


length = len(Run(session([ADD])).drive().log_texts()[0])
intent = length - 32
shared = {"client1.log": "client0.log"}
# c0's record, and behind it c1's
expect("an extra record", answer(shared, two("c0 c1 c2 r")), changed(0, intent))
# the first record is c1's, which differs in the client's byte of its packet
expect("a byte", answer(shared, two("c1 c0 c2 r")), changed(0, 14))
# the same record a whole answer later
expect("behind an answer", answer(shared, two("c0 c0 p0 s0 s1 c0 c1 c2 r")), changed(0, length))
# c0 has nothing, and c1 has something
expect("a log that should be empty", answer(shared, two("c1 c2 r")), changed(0, 0))
expect("a cut", answer({"client0.log": "/dev/null"}, two("c1 c0 c2 r")), changed(0, 0))
expect("the second log alone", answer({"client1.log": "/dev/null"}, two("c0 c1 c2 r")), changed(1, 0))
# the second recovery reads again
expect("at the second recovery", answer({"client1.log": "/dev/null"}, session([ADD], [READ], ["lose", "lose"], schedule="c0 c2 r c1 c2 r")), changed(1, 0))
# without a loss no log is read
expect("without a loss", answer(shared, session([ADD], [READ]))[0], 0)
