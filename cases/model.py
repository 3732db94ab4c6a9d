"""An independent model of runs, in plain Python: hot, warm and cold transactions, losses and recovery, and the texts
that come out: the report of a run, the log of each client, the order that a recovery finds.

Nothing here was derived from the program. Locks are kept by tuple, a history is sorted when it is printed, packets are
objects that move through a list of slots, and a recovery tries every arrangement.
"""
import itertools
import struct


def wrap(n):
    return (n + 2**63) % 2**64 - 2**63


def needs_of(op):
    return op[-1] if op[0] != "read" else []


def total_of(needs, pairs):
    return wrap(sum(pairs[k][0] if which == "old" else wrap(pairs[k][0] - pairs[k][1]) for which, k in needs))


def new_value(op, was, operand):
    if op[0] == "read":
        return was
    if op[0] == "put":
        return wrap(op[2] + operand)
    if op[0] == "add":
        return wrap(was + op[2] + operand)
    limit, above, below = op[2:5]
    return wrap(was + (above if wrap(was + operand) >= limit else below))


def is_need_met(earlier, op):
    """Whether the pass and stage of a needed operation come before those of the operation that needs it."""
    return (earlier["pass"], earlier["place"][0]) < (op["pass"], op["place"][0])


class Script:
    """A script beside a layout: its operations on hosts and in the switch, and which of them are late."""

    def __init__(self, ops, places):
        self.ops = ops
        self.hot = [k for k, op in enumerate(ops) if op[1] in places]
        self.cold = [k for k, op in enumerate(ops) if op[1] not in places]
        self.places = places
        self.late = set()
        for k in self.cold:
            if any(j in self.hot or j in self.late for _, j in needs_of(ops[k])):
                self.late.add(k)
        self.kind = "cold" if not self.hot else "hot" if not self.cold else "warm"

    def plan(self):
        """The packet's operations with their passes, without the values that come from hosts."""
        planned = []
        for at, k in enumerate(self.hot):
            op = self.ops[k]
            needs = [(which, self.hot.index(j)) for which, j in needs_of(op) if j in self.hot]
            new = {"op": op, "place": self.places[op[1]], "needs": needs, "pass": 1}
            while any(old["place"][:2] == new["place"][:2] and old["pass"] == new["pass"] for old in planned) or any(
                not is_need_met(planned[j], new) for _, j in needs
            ):
                new["pass"] += 1
            planned.append(new)
        return planned

    def packet(self, client, seq, values):
        """The packet, with what the operations on hosts found."""
        pairs = {}
        for k in self.cold:
            if k not in self.late:
                was = values[k]
                pairs[k] = (was, new_value(self.ops[k], was, total_of(needs_of(self.ops[k]), pairs)))
        planned = self.plan()
        for k, op in zip(self.hot, planned):
            op["bias"] = total_of([(which, j) for which, j in needs_of(self.ops[k]) if j in self.cold], pairs)
        return {"client": client, "seq": seq, "ops": planned, "passes": max(op["pass"] for op in planned)}

    def reply(self, values, answer):
        pairs, answer = [], list(answer)
        for k, op in enumerate(self.ops):
            if k in self.hot:
                pairs.append(answer.pop(0))
            else:
                pairs.append((values[k], new_value(op, values[k], total_of(needs_of(op), pairs))))
        return pairs


def run_operation(op, registers, pairs):
    was = registers.get(op["place"], 0)
    now = new_value(op["op"], was, wrap(op["bias"] + total_of(op["needs"], pairs)))
    registers[op["place"]] = now
    return was, now


def replay(packet, registers):
    pairs = []
    for op in packet["ops"]:
        pairs.append(run_operation(op, registers, pairs))
    return pairs


def intent_text(floor, packet, halves):
    acts = {"read": 0, "put": 1, "add": 2, "choose": 3}
    text = struct.pack(">BBBBQ", 0x49, 1, 0, 0, floor)
    text += struct.pack(">BBBBIBBBB", 0x50, 1, packet["client"], 0, packet["seq"], packet["passes"], halves, len(packet["ops"]), 0)
    for op in packet["ops"]:
        stage, array, cell = op["place"]
        numbers = op["op"][2:-1] if op["op"][0] != "read" else []
        text += struct.pack(">BBBBHBBq", op["pass"], stage, array, acts[op["op"][0]], cell, len(op["needs"]), 0, op["bias"])
        text += b"".join(struct.pack(">q", n) for n in numbers)
        text += b"".join(struct.pack(">BB", j, which == "moved") for which, j in op["needs"])
    return text


def outcome_text(seq, number, pairs):
    text = struct.pack(">BBBBIQ", 0x4F, 1, len(pairs), 0, seq, number)
    return text + b"".join(struct.pack(">qq", was, now) for was, now in pairs)


def first_order(logs, first):
    """The first order of the logged packets that fits, as a list of (client, place of the intent), or None.

    A log is a list of intents (floor, packet) and a list of outcomes (seq, number, pairs).
    """
    tasks = [(c, k) for c, (intents, _) in enumerate(logs) for k in range(len(intents))]
    fixed = {}
    for c, k in tasks:
        if k < len(logs[c][1]):
            number = logs[c][1][k][1]
            if not 1 <= number <= len(tasks) or number in fixed:
                return None
            fixed[number] = (c, k)
    free = [task for task in tasks if task not in fixed.values()]
    for order in itertools.permutations(free):
        left, registers, chosen = list(order), dict(first), []
        for number in range(1, len(tasks) + 1):
            c, k = fixed[number] if number in fixed else left.pop(0)
            floor, packet = logs[c][0][k]
            pairs = replay(packet, registers)
            if number <= floor or (number in fixed and pairs != logs[c][1][k][2]):
                break
            chosen.append((c, k))
        else:
            return chosen
    return None


class Client:
    def __init__(self, items):
        self.items, self.at, self.refused, self.last = items, 0, 0, (0, 0)
        self.intents, self.outcomes = [], []
        self.again()

    def again(self):
        self.phase, self.seen, self.reply, self.installed = "ready", [], None, 0
        self.stamp = None

    def next_item(self):
        self.at, self.refused = self.at + 1, 0
        self.again()

    def is_finished(self):
        return self.at == len(self.items)

    def values(self):
        script = self.items[self.at]
        return {k: value for k, (value, _) in zip(script.cold, self.seen)}

    def greatest(self):
        return max([self.last] + [stamp for _, stamp in self.seen])


class Switch:
    def __init__(self, registers):
        self.registers, self.next = registers, 1
        self.waiting, self.slots, self.boxes, self.held = {}, {}, {}, {}


class Run:
    """A run. `events` has what each move did, for pictures: the actor's word and then a list of words and numbers."""

    def __init__(self, session):
        self.session = session
        self.shape = session["shape"]
        places = {row[0]: tuple(row[1:]) for row in session["layout"]}
        self.places = places
        values = dict(map(tuple, session["tuples"]))
        self.first = {place: values[tuple_id] for tuple_id, place in places.items()}
        self.store = {tuple_id: (value, (0, 0)) for tuple_id, value in values.items() if tuple_id not in places}
        self.locks = {tuple_id: {} for tuple_id in self.store}
        self.clients = [
            Client([item if item == "lose" else Script(item, places) for item in items]) for items in session["clients"]
        ]
        self.switch = Switch(dict(self.first))
        self.history = {}
        self.ends, self.refusals, self.trace, self.events = {}, {}, [], []

    def is_finished(self):
        return self.switch is not None and all(client.is_finished() for client in self.clients)

    def halves_of(self, packet):
        return {op["place"][0] >= self.shape["split"] for op in packet["ops"]}

    # clients

    def end_try(self, number, client):
        client.refused += 1
        if client.refused == self.session["tries"]:
            self.ends[number, client.at + 1] = "abort"
            client.next_item()
        else:
            client.again()

    def ask(self, number, client, op):
        exclusive = op[0] != "read"
        holders = [other for other, mode in self.locks[op[1]].items() if other != number and (exclusive or mode)]
        if not holders:
            self.locks[op[1]][number] = exclusive
            client.seen.append(self.store[op[1]])
            client.phase = "locking"
            return ["grant", op[1], "exclusive" if exclusive else "shared"]
        self.refusals[number, client.at + 1] = (op[1], min(holders), len(self.trace))
        told = ["refuse", op[1], min(holders)]
        if client.seen:
            client.phase = "aborting"
        else:
            self.end_try(number, client)
        return told

    def release(self, number, client, script):
        client.seen.pop()
        tuple_id = script.ops[script.cold[len(client.seen)]][1]
        del self.locks[tuple_id][number]
        if not client.seen:
            self.end_try(number, client)
        return ["release", tuple_id]

    def decide(self, number, client, script):
        above = client.greatest()
        client.last = client.stamp = (above[0], above[1] + 1)
        client.reply = script.reply(client.values(), [])
        self.history[number, client.at + 1] = (client.stamp, client.reply)
        client.phase = "installing"
        return ["decide", client.stamp]

    def log_intent(self, number, client, script):
        packet = script.packet(number, client.at + 1, client.values())
        client.intents.append((client.greatest()[0], packet))
        client.phase = "logged"
        return ["intent", client.greatest()[0]]

    def take_answer(self, number, client, script):
        given, pairs = self.switch.boxes.pop(number)
        client.outcomes.append((client.at + 1, given, pairs))
        client.last = client.stamp = (given, 0)
        client.reply = script.reply(client.values(), pairs)
        self.history[number, client.at + 1] = (client.stamp, client.reply)
        told = ["answer", client.stamp]
        client.phase = "installing"
        if not script.cold:
            client.next_item()
        return told

    def install(self, number, client, script):
        k = script.cold[client.installed]
        tuple_id = script.ops[k][1]
        self.store[tuple_id] = (client.reply[k][1], max(self.store[tuple_id][1], client.stamp))
        del self.locks[tuple_id][number]
        client.installed += 1
        if client.installed == len(script.cold):
            client.next_item()
        return ["install", tuple_id]

    def lose(self, number, client):
        self.switch = None
        self.history = {item: entry for item, entry in self.history.items() if entry[1] is not None}
        client.next_item()
        return ["lose"]

    def client_turn(self, number):
        client = self.clients[number]
        if client.is_finished():
            return None
        item = client.items[client.at]
        if item == "lose":
            return self.lose(number, client) if self.switch else None
        if client.phase == "aborting":
            return self.release(number, client, item)
        if client.phase == "installing":
            return self.install(number, client, item)
        if client.phase == "logged":
            if not self.switch:
                return None
            self.switch.waiting[number] = {"packet": client.intents[-1][1], "pass": 1, "number": None, "pairs": {}}
            client.phase = "waiting"
            return ["post"]
        if client.phase == "waiting":
            return self.take_answer(number, client, item) if self.switch and number in self.switch.boxes else None
        if len(client.seen) < len(item.cold):
            return self.ask(number, client, item.ops[item.cold[len(client.seen)]])
        return self.log_intent(number, client, item) if item.hot else self.decide(number, client, item)

    # the switch

    def port_turn(self, number):
        switch = self.switch
        if not switch or number not in switch.waiting or 0 in switch.slots:
            return None
        flight = switch.waiting[number]
        packet = flight["packet"]
        halves = self.halves_of(packet)
        if flight["pass"] == 1:
            if any(half in switch.held for half in halves):
                return None
            flight["number"], switch.next = switch.next, switch.next + 1
            self.history[number, packet["seq"]] = ((flight["number"], 0), None)
            if packet["passes"] > 1:
                switch.held.update({half: number for half in halves})
        elif flight["pass"] == packet["passes"]:
            switch.held = {half: holder for half, holder in switch.held.items() if holder != number}
        switch.slots[0] = switch.waiting.pop(number)
        return ["enter", flight["number"], flight["pass"], packet["passes"]]

    def stage_turn(self, stage):
        switch, last = self.switch, self.shape["stages"] - 1
        if not switch or stage not in switch.slots or (stage != last and stage + 1 in switch.slots):
            return None
        flight = switch.slots.pop(stage)
        packet = flight["packet"]
        due = [k for k, op in enumerate(packet["ops"]) if op["pass"] == flight["pass"] and op["place"][0] == stage]
        for k in due:
            flight["pairs"][k] = run_operation(packet["ops"][k], switch.registers, flight["pairs"])
        told = ["visit", packet["client"], flight["number"], flight["pass"], len(due)]
        if stage != last:
            switch.slots[stage + 1] = flight
        elif flight["pass"] < packet["passes"]:
            flight["pass"] += 1
            switch.waiting[packet["client"]] = flight
        else:
            pairs = [flight["pairs"][k] for k in range(len(packet["ops"]))]
            switch.boxes[packet["client"]] = (flight["number"], pairs)
        return told

    def recover(self):
        if self.switch:
            return None
        logs = [(client.intents, client.outcomes) for client in self.clients]
        order = first_order(logs, self.first)
        self.switch = Switch(dict(self.first))
        for number, (c, k) in enumerate(order, 1):
            client, (_, packet) = self.clients[c], logs[c][0][k]
            pairs = replay(packet, self.switch.registers)
            if k == len(client.outcomes):
                self.history[c, packet["seq"]] = ((number, 0), None)
                self.switch.boxes[c] = (number, pairs)
                client.phase = "waiting"
        self.switch.next = len(order) + 1
        return ["recover"]

    # runs

    def turn(self, word):
        told = (
            self.recover()
            if word == "r"
            else self.client_turn(int(word[1:])) if word[0] == "c" else self.port_turn(int(word[1:])) if word[0] == "p" else self.stage_turn(int(word[1:]))
        )
        if told:
            self.trace.append(word)
            self.events.append((word, told))
        return bool(told)

    def drive(self, words=None):
        numbers = range(len(self.clients))
        rota = ["r", *(f"c{c}" for c in numbers), *(f"p{c}" for c in numbers), *(f"s{s}" for s in reversed(range(self.shape["stages"])))]
        listed = self.session["schedule"].split(" ") if self.session["schedule"] else []
        for word in listed if words is None else words:
            if self.is_finished():
                return self
            self.turn(word)
        while not self.is_finished():
            for word in rota:
                if not self.is_finished():
                    self.turn(word)
        return self

    def value_now(self, tuple_id):
        if tuple_id in self.places:
            return self.switch.registers.get(self.places[tuple_id], 0)
        return self.store[tuple_id][0]

    def log_texts(self):
        """Each client's log: its records in the order in which they were appended."""
        texts = []
        for client in self.clients:
            text = b""
            for k, (floor, packet) in enumerate(client.intents):
                text += intent_text(floor, packet, sum(1 + half for half in self.halves_of(packet)))
                if k < len(client.outcomes):
                    text += outcome_text(*client.outcomes[k])
            texts.append(text)
        return texts


def reply_line(run, number, seq):
    item = run.clients[number].items[seq - 1]
    if item == "lose":
        return f"c{number} {seq} lose"
    if run.ends.get((number, seq)) == "abort":
        tuple_id, holder, at = run.refusals[number, seq]
        return f"c{number} {seq} abort t{tuple_id} c{holder} @{at}"
    stamp, reply = run.history[number, seq]
    return f"c{number} {seq} {item.kind} {stamp[0]}.{stamp[1]} " + " ".join(f"{was}>{now}" for was, now in reply)


def report_of(run):
    items = [(number, seq) for number, client in enumerate(run.clients) for seq in range(1, len(client.items) + 1)]
    entries = sorted((stamp, number, seq) for (number, seq), (stamp, _) in run.history.items())
    tuples = [tuple_id for tuple_id, _ in run.session["tuples"]]
    lines = [f"replies {len(items)}", *(reply_line(run, number, seq) for number, seq in items)]
    lines += [f"history {len(entries)}", *(f"{stamp[0]}.{stamp[1]} c{number} {seq}" for stamp, number, seq in entries)]
    lines += [f"tuples {len(tuples)}", *(f"t{tuple_id} {run.value_now(tuple_id)}" for tuple_id in tuples)]
    lines.append(" ".join(["schedule", *run.trace]))
    return "\n".join(lines) + "\n"


def report(session):
    return report_of(Run(session).drive())


def hot_rows(session, k):
    """The k most used tuples, each with its uses."""
    uses = {tuple_id: 0 for tuple_id, _ in session["tuples"]}
    for items in session["clients"]:
        for item in items:
            for op in [] if item == "lose" else item:
                uses[op[1]] += 1
    return sorted(uses.items(), key=lambda row: (-row[1], row[0]))[:k]


def hot(session, k):
    """What `hot K` prints."""
    rows = hot_rows(session, k)
    return "".join([f"hot {len(rows)}\n"] + [f"t{tuple_id} {uses}\n" for tuple_id, uses in rows])


def passes_in(session, places):
    """The passes of all transactions with these tuples in the switch."""
    total = 0
    for items in session["clients"]:
        for item in items:
            if item != "lose":
                total += max((op["pass"] for op in Script(item, places).plan()), default=0)
    return total


def layout(session, k):
    """What `layout K` prints."""
    shape = session["shape"]
    arrays = [(stage, array) for stage in range(shape["stages"]) for array in range(shape["arrays"])]
    tuples = [tuple_id for tuple_id, _ in hot_rows(session, min(k, len(arrays) * shape["cells"]))]
    plain = {tuple_id: (*arrays[i // shape["cells"]], i % shape["cells"]) for i, tuple_id in enumerate(tuples)}
    scripts = [{op[1] for op in item} for items in session["clients"] for item in items if item != "lose"]
    filled = {array: [] for array in arrays}
    greedy = {}
    for tuple_id in tuples:
        free = [array for array in arrays if len(filled[array]) < shape["cells"]]
        best = min(free, key=lambda array: (sum(1 for script in scripts if tuple_id in script and script & set(filled[array])), array))
        greedy[tuple_id] = (*best, len(filled[best]))
        filled[best].append(tuple_id)
    plain_passes, greedy_passes = passes_in(session, plain), passes_in(session, greedy)
    places, passes = (plain, plain_passes) if plain_passes < greedy_passes else (greedy, greedy_passes)
    lines = [f"layout {len(tuples)}\n"] + ["t%d %d %d %d\n" % (tuple_id, *places[tuple_id]) for tuple_id in tuples]
    return "".join(lines + [f"passes {passes} plain {plain_passes}\n"])


def recovered(session, records, torn=()):
    """What `recover` prints for these records of each client, (intents, outcomes), and clients whose logs are torn."""
    run = Run(session)
    order = first_order(records, run.first)
    registers, lines = dict(run.first), [f"order {len(order)}"]
    for number, (c, k) in enumerate(order, 1):
        packet = records[c][0][k][1]
        pairs = " ".join(f"{was}>{now}" for was, now in replay(packet, registers))
        lines.append(f"{number} c{c} {packet['seq']} {pairs}")
    lines.append(f"registers {len(run.places)}")
    lines += [f"t{tuple_id} {registers[run.places[tuple_id]]}" for tuple_id in sorted(run.places)]
    lines += [f"next {len(order) + 1}", " ".join(["torn", *(f"c{c}" for c in torn)])]
    return "\n".join(lines) + "\n"


def records_in_front(run, client, length):
    """The records that stand whole in this many bytes of a client's log, and whether what follows is torn."""
    intents, outcomes, at = [], [], 0
    for k, (floor, packet) in enumerate(client.intents):
        text = len(intent_text(floor, packet, sum(1 + half for half in run.halves_of(packet))))
        if at + text > length:
            return (intents, outcomes), at < length
        intents.append((floor, packet))
        at += text
        if k < len(client.outcomes):
            text = len(outcome_text(*client.outcomes[k]))
            if at + text > length:
                return (intents, outcomes), at < length
            outcomes.append(client.outcomes[k])
            at += text
    return (intents, outcomes), False
