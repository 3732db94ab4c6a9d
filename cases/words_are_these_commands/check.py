"""Compares which word lists the program takes, and as which command, with a reader that is written here on its own."""
import os
import subprocess
import sys
import tempfile

# the commands: the options of each, with the range of its number, and the range of the word that stands by itself, where one does
ANY = (0, 2**64 - 1)
TUPLES_WANTED = (0, 65536)
BUILT = {
    b"run": ({b"draws": (0, 1000000), b"number": ANY}, None),
    b"race": ({b"threads": (1, 8)}, None),
    b"recover": ({}, None),
    b"hot": ({}, TUPLES_WANTED),
    b"layout": ({}, TUPLES_WANTED),
}
# the loads: the option that says how many keys there are, and each option with a number, its range and what stands where it isn't given
SIZES = {b"number": (*ANY, 1), b"clients": (1, 8, 4), b"scripts": (1, 4096, 100), b"hot": (0, 65536, 10), b"share": (0, 100, 80)}
LOADS = {
    b"smallbank": (b"customers", {**SIZES, b"customers": (2, 32768, 100)}),
    b"ycsb": (b"records", {**SIZES, b"records": (16, 65536, 100), b"ops": (1, 16, 4)}),
}
LOAD_OPTIONS = [*SIZES, b"customers", b"records", b"ops", b"mix"]
MIXES = [b"a", b"b", b"c"]
ITEMS = 4096
SESSION = (
    b'{"shape":{"stages":2,"arrays":1,"cells":2,"split":1,"hosts":2},"tuples":[[0,10],[1,20],[2,30]],'
    b'"layout":[[0,0,0,0],[1,1,0,0]],"tries":2,"clients":[[[["add",2,5,[]]]]],"schedule":""}'
)
TUPLES = 3
# how the outputs of commands without a number begin that print no report
FRONTS = {b"recover": b"order 0\nregisters 2\n", b"gen": b'{"clients":[[[', b"drive": b"hot "}
NAMES = [
    b"gen", b"drive", b"help", b"rn", b"Run", b"", b"-", b"--", b"--help", b"--version", b"-h", b"-V", b"--run",
    b"rec", b"recover ", b"run\xff",
]
WORDS = [
    [], [b"5"], [b"003"], [b"0"], [b"65536"], [b"65537"], [b"-3"], [b"+3"], [b"--"], [b"--", b"--"], [b"--", b"3"], [b"3", b"--"], [b"--", b"-3"],
    [b"--", b"3", b"4"], [b"3", b"4"], [b"-"], [b"--", b"-"], [b""], [b"3x"], [b" 3"], [b"3 "], [b"0x3"], [b"3.0"], [b"\xd9\xa3"], [b"\xff"], [b"3\xff"],
    [b"0" * 19 + b"3"], [b"0" * 20 + b"3"], [b"9" * 20], [b"9" * 21], [b"18446744073709551616"], [b"18446744073709551619"], [b"4294967299"],
    [b"--=3"], [b"--=", b"3"], [b"---3"], [b"--h"], [b"--help"], [b"help"], [b"-h"], [b"-V"], [b"--version"], [b"--k=3"], [b"--K=3"], [b"--K", b"3"],
    [b"--hot", b"3"], [b"--customers", b"5"], [b"smallbank"], [b"ycsb", b"--customers", b"5"], [b"smallbank", b"--customers", b"5"],
    [b"run"], [b"hot", b"3"], [b"3", b"run"],
]
# what stands for the value of an option, at the edges of every range
VALUES = [
    b"", b"0", b"1", b"8", b"9", b"007", b"1=2", b"=1", b"-", b"1000000", b"1000001", b"257", b"264", b"4294967297", b"0" * 19 + b"8", b"0" * 20 + b"8",
    b"18446744073709551615", b"18446744073709551616", b"9" * 21, b"1 ", b"+1", b"one", b"1\xff", b"\xef\xbc\x91",
]
OPTIONS = [b"draws", b"number", b"threads"]
LOAD_VALUES = [
    b"", b"0", b"1", b"2", b"008", b"9", b"10", b"15", b"16", b"17", b"100", b"101", b"1024", b"1025", b"4097", b"32768", b"32769", b"65536", b"65537",
    b"18446744073709551615", b"18446744073709551616", b"a", b"b", b"c", b"A", b"d", b"ab", b"1 ", b"b\xff",
]
# a value of each option that may stand once
ONE_VALUE = {**{option: b"1" for option in LOAD_OPTIONS}, b"customers": b"16", b"records": b"16", b"mix": b"a"}
# words behind `gen` or `drive`, and a load
LOAD_WORDS = [
    [], [b"--"], [b"ycsb"], [b"--hot"], [b"--hot", b"--share=1"], [b"--hot", b"-1"], [b"--threads=1"], [b"--draws=1"], [b"--K=ycsb"], [b"--Hot=1"],
    [b"--mix=a", b"--mix=a"], [b"--hot=1", b"--hot", b"1"], [b"--", b"--hot=1"],
    [b"--customers", b"5"], [b"--customers=5", b"--hot=5"], [b"--records=65536", b"--hot=65536"], [b"--records=16", b"--hot", b"17"], [b"--records", b"16", b"--hot=0"],
    [b"--clients=8", b"--scripts=512"], [b"--clients=8", b"--scripts=513"], [b"--clients=1", b"--scripts=4096"], [b"--clients=5", b"--scripts=820"],
    [b"--share", b"7", b"--number=3", b"--scripts=1", b"--clients=2", b"--hot=9"], [b"--mix=c", b"--ops=16", b"--scripts=2"],
]


def tails():
    """The lists of words behind the command's name."""
    yield from WORDS
    for option in OPTIONS:
        joined = b"--" + option + b"="
        alone = b"--" + option
        yield from ([joined + value] for value in VALUES)
        yield from ([alone], [alone, b"--"], [alone, b"-1"], [alone, b"1"], [alone, b"-"], [b"--", alone, b"1"], [b"-" + option, b"1"])
        yield from ([joined + b"1", joined + b"1"], [alone, b"1", joined + b"2"], [alone[:-1] + b"=1"], [alone + b"x=1"], [alone.upper(), b"1"])
        yield from ([joined + b"1", b"--"], [joined + b"1", b"--", b"5"], [joined + b"1", b"5"], [b"5", joined + b"1"])
    for value in VALUES:
        yield from ([b"--draws=" + value, b"--number=1"], [b"--number=" + value, b"--draws", b"1"], [b"--draws", b"3", b"--number", value])
    yield from ([b"--number=1", b"--draws=1", b"--number=1"], [b"--draws=1", b"--number=1", b"--threads=1"], [b"--draws", b"--number", b"1"])


def load_tails():
    """The lists of words behind `gen` and `drive`."""
    yield from ([], [b"tpcc"], [b"SmallBank"], [b"ycsb "], [b"--hot=1"], [b"--", b"ycsb"], [b"-", b"ycsb"], [b"ycsb", b"smallbank"])
    for load in LOADS:
        yield from ([load, *words] for words in LOAD_WORDS)
        yield from ([*words, load] for words in LOAD_WORDS)
        yield from ([load, b"--" + option, value] for option, value in ONE_VALUE.items())
        yield from ([b"--" + option + b"=" + value, load, b"--" + option, value] for option, value in ONE_VALUE.items())
        yield from ([b"--" + option + b"=" + value, load] for option in LOAD_OPTIONS for value in LOAD_VALUES)


def is_text(word):
    try:
        word.decode("utf-8")
        return True
    except UnicodeDecodeError:
        return False


def number_in(text, least_most):
    """The number that the text writes, where it is one of the range."""
    if not 1 <= len(text) <= 20 or any(byte not in b"0123456789" for byte in text):
        return None
    least, most = least_most
    return int(text) if least <= int(text) <= most else None


def split(options, words):
    """The values of the options, and the words that stand by themselves, or None."""
    given, alone, rest = {}, [], list(words)
    while rest:
        word = rest.pop(0)
        if word == b"--":
            alone, rest = alone + rest, []
        elif word.startswith(b"--"):
            name, equals, value = word[2:].partition(b"=")
            if name not in options or name in given:
                return None
            if not equals:
                if not rest or (len(rest[0]) > 1 and rest[0][:1] == b"-"):
                    return None
                value = rest.pop(0)
            given[name] = value
        elif len(word) > 1 and word[:1] == b"-":
            return None
        else:
            alone.append(word)
    return given, alone


def is_load(words):
    """Whether the words behind `gen` or `drive` are a load."""
    parts = split(LOAD_OPTIONS, words)
    if parts is None or len(parts[1]) != 1 or parts[1][0] not in LOADS:
        return False
    given, (load,) = parts
    keys, ranges = LOADS[load]
    if b"mix" in given and (load != b"ycsb" or given.pop(b"mix") not in MIXES) or any(name not in ranges for name in given):
        return False
    numbers = {name: number_in(given[name], (least, most)) if name in given else other for name, (least, most, other) in ranges.items()}
    return None not in numbers.values() and numbers[b"hot"] <= numbers[keys] and numbers[b"clients"] * numbers[b"scripts"] <= ITEMS


def read(words):
    """The name of the command and the number of its word, or None where the words are no command."""
    if not words or not all(map(is_text, words)):
        return None
    if words[0] in (b"gen", b"drive"):
        return (words[0], None) if is_load(words[1:]) else None
    if words[0] not in BUILT:
        return None
    options, word_range = BUILT[words[0]]
    parts = split(options, words[1:])
    if parts is None or len(parts[1]) != (0 if word_range is None else 1):
        return None
    given, alone = parts
    if len(given) == 1 and words[0] == b"run" or not given and words[0] == b"race":
        return None
    if any(number_in(value, options[name]) is None for name, value in given.items()):
        return None
    number = number_in(alone[0], word_range) if alone else None
    return None if alone and number is None else (words[0], number)


def front_of(name, number):
    """How the output of the command begins."""
    if number is not None:
        return b"%s %d\n" % (name, min(number, TUPLES))
    return FRONTS.get(name, b"replies 1\n")


def fault_at(program, words, folder):
    ran = subprocess.run([program.encode(), *words], input=SESSION, capture_output=True, cwd=folder, timeout=60)
    wanted = read(words)
    if wanted is None:
        return None if ran.returncode == 2 and not ran.stdout else f"status {ran.returncode}, and not usage"
    return None if ran.returncode == 0 and ran.stdout.startswith(front_of(*wanted)) else f"status {ran.returncode}, output {ran.stdout[:40]!r}"


def main():
    program = os.path.abspath(sys.argv[1])
    lists = [[]] + [[name, *tail] for name in BUILT for tail in tails()] + [[name, *tail] for name in (b"gen", b"drive") for tail in load_tails()]
    lists += [[name, *tail] for name in NAMES for tail in WORDS[:9]]
    with tempfile.TemporaryDirectory() as folder:
        for words in lists:
            fault = fault_at(program, words, folder)
            if fault:
                print(f"{words}: {fault}")


main()
