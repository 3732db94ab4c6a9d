#!/usr/bin/env python3
"""Draws a run as a space-time diagram.

usage: tools/picture.py SESSION < REPORT > run.svg

SESSION is a session's file, and REPORT what `p4db run` prints for it. Only the report's last line is used: the schedule,
which is the list of the moves. Moves go from left to right, one a column. There is a lane for each client, one for the
port and one for each stage of the switch. In a client's lane the band is an item from its first move to its last, the
bars under it are locks on tuples of hosts from grant to release (filled: exclusive, open: shared), a cross is a refusal
with a line to the lock that was in the way, and a dot is a decision or an answer with its stamp. A packet is a line from its
client to the port, through the stages pass by pass, and back. A loss and a recovery are lines through all lanes.
"""
import json
import pathlib
import sys
from xml.sax.saxutils import escape

sys.path.insert(0, str(pathlib.Path(__file__).resolve().parent.parent / "cases"))
sys.dont_write_bytecode = True
from model import Run

MOST = 2000
COLUMN, LEFT, GAP = 18, 74, 12
BAND, ROW, LOCK, STAGE = 12, 12, 11, 20
LIGHT = ["#0969da", "#bf5b04", "#1a7f37", "#8250df", "#bf3989", "#0f7480", "#7d6608", "#57606a"]
DARK = ["#58a6ff", "#f0883e", "#56d364", "#bc8cff", "#f778ba", "#39c5cf", "#e3b341", "#b1bac4"]
SHAPES = """
  text { font: 9px ui-monospace, Menlo, Consolas, 'DejaVu Sans Mono', monospace; stroke-width: 2.5px; paint-order: stroke; }
  .name { font-weight: 600; font-size: 11px; } .small { font-size: 7.5px; }
  .grid { stroke-width: 0.5; } .band { opacity: 0.22; } .exclusive { opacity: 0.75; }
  .shared { fill: none; stroke-width: 1.2; } .packet { fill: none; stroke-width: 1.6; }
  .reach { fill: none; stroke-width: 0.8; stroke-dasharray: 2 2; }
  .refusal { stroke-width: 1.4; fill: none; } .points { stroke-width: 0.8; stroke-dasharray: 3 2; }
  .loss { stroke-width: 1.6; } .recovery { stroke-width: 1.2; stroke-dasharray: 5 3; }
"""


def colours(paper, ink, faint, line, lane, bad, clients):
    """The rules of one scheme of colours."""
    rules = [
        f".paper {{ fill: {paper}; }} text {{ fill: {ink}; stroke: {lane}; }} .faint {{ fill: {faint}; }} .grid {{ stroke: {line}; }}",
        f".lane {{ fill: {lane}; }} .refusal, .points, .loss {{ stroke: {bad}; }} .end {{ fill: {bad}; }} .recovery {{ stroke: {ink}; }}",
    ]
    for c, colour in enumerate(clients):
        rules.append(f".k{c} .own, .own.k{c}, .k{c} .band, .k{c} .exclusive {{ fill: {colour}; }}")
        rules.append(f".k{c} .shared, .k{c} .packet, .k{c} .reach {{ stroke: {colour}; }}")
    return "\n".join(f"  {rule}" for rule in rules)


STYLE = "\n".join(
    [
        SHAPES.strip("\n"),
        colours("#ffffff", "#1f2328", "#6e7781", "#d0d7de", "#f6f8fa", "#cf222e", LIGHT),
        "  @media (prefers-color-scheme: dark) {",
        colours("#0d1117", "#e6edf3", "#8b949e", "#30363d", "#161b22", "#ff7b72", DARK),
        "  }",
    ]
)


def width_of(text):
    return 5.6 * len(text) + 4


def column(at):
    """The middle of a move's column."""
    return LEFT + COLUMN * at + COLUMN / 2


class Rows:
    """Rows in which spans are put so that none overlaps another: each goes into the first row with room."""

    def __init__(self):
        self.ends = []

    def place(self, start, end):
        for row, taken in enumerate(self.ends):
            if taken <= start:
                self.ends[row] = end
                return row
        self.ends.append(end)
        return len(self.ends) - 1


class Layers:
    """What is drawn: shapes first, and texts over them."""

    def __init__(self):
        self.shapes, self.texts = [], []

    def shape(self, text):
        self.shapes.append(text)

    def text(self, x, y, text, style="", anchor=""):
        kind = f' class="{style}"' if style else ""
        where = f' text-anchor="{anchor}"' if anchor else ""
        self.texts.append(f'<text{kind} x="{x:g}" y="{y:g}"{where}>{escape(text)}</text>')


class Lane:
    def __init__(self, name, style):
        self.name, self.style = name, style
        self.items, self.locks, self.marks, self.refusals = [], [], [], []
        self.labels, self.bars = Rows(), Rows()

    def lay_out(self, top):
        self.top = top
        self.middle = top + BAND / 2 + 2
        self.items = [(*item, self.labels.place(item[0] - COLUMN / 2, item[0] - COLUMN / 2 + width_of(item[2]))) for item in self.items]
        self.marks = [(x, text, self.labels.place(x, x + width_of(text))) for x, text in self.marks]
        placed = []
        for start, end, text, mode in sorted(self.locks):
            placed.append((start, end, text, mode, self.bars.place(start - 2, max(end, start + width_of(text)) + 4)))
        self.locks = placed
        self.under = top + BAND + 4 + ROW * len(self.labels.ends)
        self.bottom = self.under + LOCK * len(self.bars.ends) + 4

    def lock_at(self, x, tuple_id):
        """Where the bar of a lock on the tuple lies at that move."""
        for start, end, text, _, row in self.locks:
            if text == f"t{tuple_id}" and start <= x <= end:
                return self.under + LOCK * row + 4
        return self.middle


class Picture:
    def __init__(self, session, words):
        self.run = Run(session)
        self.cut = len(words) > MOST
        for word in words[:MOST]:
            if not self.run.turn(word):
                sys.exit(f"picture: {word} is no move of this session after {len(self.run.trace)} moves: is it the session of this report?")
        self.lanes = [Lane(f"c{c}", f"k{c}") for c in range(len(self.run.clients))]
        self.numbers, self.packets, self.lines = Rows(), {}, []
        self.labels, self.notes = [], Rows()
        self.gather()

    # what happened, lane by lane

    def gather(self):
        open_locks, items, present = {}, {}, [1] * len(self.lanes)
        shadow = Run(self.run.session)
        for at, (word, told) in enumerate(self.run.events):
            x = column(at)
            if word[0] == "c":
                c = int(word[1:])
                items.setdefault((c, present[c]), [x, x])[1] = x
                self.client_event(c, x, told, open_locks)
                shadow.turn(word)
                present[c] = shadow.clients[c].at + 1
            else:
                shadow.turn(word)
                self.switch_event(word, x, told)
        end = column(len(self.run.events) - 1) if self.run.events else LEFT
        for (c, tuple_id), (x, mode) in open_locks.items():
            self.lanes[c].locks.append((x, end, f"t{tuple_id}", mode))
        for (c, seq), (first, last) in sorted(items.items()):
            item = self.run.clients[c].items[seq - 1]
            self.lanes[c].items.append((first, last, f"{seq} {item if item == 'lose' else item.kind}"))

    def client_event(self, c, x, told, open_locks):
        lane, kind = self.lanes[c], told[0]
        if kind == "grant":
            open_locks[c, told[1]] = (x, told[2])
        elif kind == "refuse":
            lane.refusals.append((x, told[1], told[2]))
        elif kind in ("release", "install"):
            start, mode = open_locks.pop((c, told[1]))
            lane.locks.append((start, x, f"t{told[1]}", mode))
        elif kind in ("decide", "answer"):
            lane.marks.append((x, f"{told[1][0]}.{told[1][1]}"))
            if kind == "answer" and self.packets.get(c):
                self.packets.pop(c).append(("answer", x))
        elif kind == "post":
            self.packets[c] = [("post", x)]
            self.lines.append((c, self.packets[c]))
        elif kind == "lose":
            self.switch_event("lose", x, told)

    def switch_event(self, word, x, told):
        if told[0] in ("lose", "recover"):
            self.lines.append((None, [(told[0], x)]))
            if told[0] == "lose":
                for steps in self.packets.values():
                    steps.append(("lost", x))
            self.packets = {}
        elif told[0] == "enter":
            c = int(word[1:])
            text = f"#{told[1]}" if told[3] == 1 else f"#{told[1]} {told[2]}/{told[3]}"
            self.labels.append((c, x, text, self.numbers.place(x, x + width_of(text))))
            self.packets[c].append(("stage", 0, x))
        elif told[0] == "visit":
            stage, c = int(word[1:]), told[1]
            last = stage == self.run.shape["stages"] - 1
            self.packets[c].append(("out", x) if last else ("stage", stage + 1, x))

    # the drawing

    def lay_out(self):
        y = 34
        for lane in self.lanes:
            lane.lay_out(y)
            y = lane.bottom + GAP
        self.port = y
        self.stage_top = self.port + 10 * max(1, len(self.lanes)) + ROW * max(1, len(self.numbers.ends)) + 10
        self.bottom = self.stage_top + STAGE * self.run.shape["stages"] + 8
        longest = max([0] + [x + width_of(text) for lane in self.lanes for x, text, _ in lane.marks])
        self.right = max(column(len(self.run.events)), longest, LEFT + 220) + 8

    def port_row(self, c):
        return self.port + 10 * c + 5

    def stage_row(self, stage):
        return self.stage_top + STAGE * stage + STAGE / 2

    def steps_of(self, c, steps):
        """The corners of a packet's line, and the reaches between the switch and its client."""
        lane, corners, reaches = self.lanes[c], [], []
        y = self.port_row(c)
        for step in steps:
            x = step[-1]
            if step[0] == "post":
                reaches.append(f"M{x} {lane.middle} V{y}")
                corners.append(f"M{x} {y}")
            elif step[0] == "stage":
                y = self.stage_row(step[1])
                corners.append(f"H{x} V{y}")
            elif step[0] == "out":
                y = self.port_row(c)
                corners.append(f"H{x} V{y}")
            elif step[0] == "answer":
                corners.append(f"H{x}")
                reaches.append(f"M{x} {y} V{lane.middle}")
            else:
                corners.append(f"H{x}")
        if steps[-1][0] not in ("answer", "lost"):
            corners.append(f"H{column(len(self.run.events) - 1) + 4}")
        return " ".join(corners), " ".join(reaches)

    def draw_axis(self, out):
        for at, word in enumerate(self.run.trace):
            x = column(at)
            out.text(x, 24, word, "faint", "middle")
            if at % 10 == 0:
                out.text(x, 12, str(at), "faint", "middle")
                out.shape(f'<path class="grid" d="M{x - COLUMN / 2} 28 V{self.bottom}"/>')

    def draw_ground(self, out, top, height):
        out.shape(f'<rect class="lane" x="4" y="{top}" width="{self.right - 8:g}" height="{height}" rx="3"/>')

    def draw_lanes(self, out):
        for lane in self.lanes:
            self.draw_ground(out, lane.top - 4, lane.bottom - lane.top + 4)
            out.text(12, lane.top + 11, lane.name, f"name own {lane.style}")
            out.shape(f'<g class="{lane.style}">')
            self.draw_lane(out, lane)
            out.shape("</g>")

    def draw_lane(self, out, lane):
        own, under = f"own {lane.style}", lane.top + BAND + 10
        for first, last, text, row in lane.items:
            x = first - COLUMN / 2 + 1
            out.shape(f'<rect class="band" x="{x}" y="{lane.top}" width="{last - first + COLUMN - 2}" height="{BAND}" rx="3"/>')
            out.text(x + 2, under + ROW * row, text)
        for start, end, text, mode, row in lane.locks:
            y = lane.under + LOCK * row
            out.shape(f'<rect class="{mode}" x="{start}" y="{y + 1}" width="{max(end - start, 3)}" height="4" rx="1.5"/>')
            out.text(start + 1, y + 12.5, text, f"{own} small")
        for x, text, row in lane.marks:
            out.shape(f'<circle class="own" cx="{x}" cy="{lane.middle - 2}" r="4"/>')
            out.text(x + 3, under + ROW * row, text, own)

    def draw_refusals(self, out):
        for lane in self.lanes:
            for x, tuple_id, holder in lane.refusals:
                y, to = lane.middle - 2, self.lanes[holder].lock_at(x, tuple_id)
                out.shape(f'<path class="points" d="M{x} {y} V{to}"/><circle class="end" cx="{x}" cy="{to}" r="2.4"/>')
                cross = f"M{x - 4} {y - 4} l8 8 m0 -8 l-8 8"
                out.shape(f'<path class="refusal" d="{cross}"><title>t{tuple_id} is held by c{holder}</title></path>')

    def draw_switch(self, out):
        self.draw_ground(out, self.port - 2, self.stage_top - self.port)
        out.text(12, self.port + 11, "port", "name")
        for stage in range(self.run.shape["stages"]):
            y = self.stage_top + STAGE * stage
            self.draw_ground(out, y + 1, STAGE - 2)
            out.text(12, y + 14, f"s{stage}", "name")
            out.text(38, y + 13, "left" if stage < self.run.shape["split"] else "right", "faint")
        for c, x, text, row in self.labels:
            out.text(x + 3, self.port + 10 * len(self.lanes) + ROW * row + 10, text, f"own k{c}")
        for c, steps in self.lines:
            if c is None:
                self.draw_loss(out, *steps[0])
            else:
                line, reaches = self.steps_of(c, steps)
                out.shape(f'<g class="k{c}"><path class="reach" d="{reaches}"/><path class="packet" d="{line}"/></g>')

    def draw_loss(self, out, kind, x):
        is_lost = kind == "lose"
        out.shape(f'<path class="{"loss" if is_lost else "recovery"}" d="M{x} 28 V{self.bottom}"/>')
        text = "switch lost" if is_lost else "recovered"
        out.text(x + 3, self.bottom + 10 + ROW * self.notes.place(x, x + width_of(text)), text)

    def text(self):
        self.lay_out()
        height = self.bottom + (48 if self.cut else 32)
        size = f'width="{self.right:g}" height="{height:g}" viewBox="0 0 {self.right:g} {height:g}"'
        head = [f'<svg xmlns="http://www.w3.org/2000/svg" {size}>', f"<style>\n{STYLE}\n</style>", f'<rect class="paper" width="{self.right:g}" height="{height:g}"/>']
        out = Layers()
        self.draw_lanes(out)
        self.draw_switch(out)
        self.draw_axis(out)
        self.draw_refusals(out)
        if self.cut:
            out.text(12, height - 6, f"only the first {MOST} moves are shown")
        return "\n".join([*head, *out.shapes, *out.texts, "</svg>"]) + "\n"


def main():
    if len(sys.argv) != 2:
        sys.exit(__doc__.split("\n\n")[1])
    session = json.loads(pathlib.Path(sys.argv[1]).read_bytes())
    lines = sys.stdin.read().splitlines()
    if not lines or not lines[-1].startswith("schedule"):
        sys.exit("picture: standard input has no report: its last line is no schedule")
    sys.stdout.write(Picture(session, lines[-1].split()[1:]).text())


if __name__ == "__main__":
    main()
