#!/usr/bin/env python3
"""Draws a trace as one SVG file, readable in light and dark:

    ./trace SCRIPT.json | tools/timeline.py > picture.svg        (or: tools/timeline.py TRACE > picture.svg)

Turns go from left to right, and each party has a lane. Boxes are steps, dots are turns in which the party had nothing to
do. A bar joins an entry from where it was taken to where it was used. An arrow leads from a signal, or from a bell that
control rings, to the poll that finds it. A ring round a dot of control is a wait for an entry that is in flight. A
worker that has stopped has a cross behind its last step.
"""
import re
import sys
from html import escape

WIDTH, GAP, HEIGHT, LEFT, TOP = 34, 12, 74, 92, 46

STYLE = """
svg { --ink: #1b1f24; --soft: #6b7480; --paper: #ffffff; --lane: #f1f4f7; --guest: #8e5bb5; --control: #b5651d;
      --worker: #1f7a4d; --entry: #2f6fb3; --wrong: #c0392b; }
@media (prefers-color-scheme: dark) {
svg { --ink: #e6e9ee; --soft: #97a1ad; --paper: #14171b; --lane: #1f242a; --guest: #c79be8; --control: #e6a15f;
      --worker: #6fcf9b; --entry: #7db4ea; --wrong: #ff7b6b; } }
text { font: 11px ui-monospace, monospace; fill: var(--ink); }
.soft { fill: var(--soft); } .title { font-size: 12px; font-weight: bold; }
.paper { fill: var(--paper); } .lane { fill: var(--lane); }
.guest { fill: var(--guest); } .control { fill: var(--control); } .worker { fill: var(--worker); }
.box text { fill: var(--paper); text-anchor: middle; }
.dot { fill: var(--soft); } .wait { fill: none; stroke: var(--control); stroke-width: 1.5; }
.entry { fill: var(--entry); opacity: .85; } .label { fill: var(--entry); text-anchor: middle; }
.open { stroke: var(--entry); stroke-width: 2; stroke-dasharray: 3 3; }
.arrow { stroke: var(--soft); stroke-width: 1.3; fill: none; marker-end: url(#head); } .head { fill: var(--soft); }
.stop { stroke: var(--wrong); stroke-width: 2.5; } .why { fill: var(--wrong); }
"""

LINE = re.compile(r"(\d+) (guest|control|worker \d+) (.*)")

# the word that stands in a step's box
SHORT = {"store": "st", "signal": "sig", "poll": "poll", "event": "ev", "sweep": "swp", "serve": "srv", "use": "use",
         "device": "dev", "answer": "ans", "take": "take", "claim": "clm", "release": "rel", "add": "add", "delete": "del",
         "listen": "lis", "unlisten": "unl", "ring": "ring", "pending": "pend", "unpending": "unp", "queue": "que",
         "table": "tab", "region": "reg", "log": "log"}


class Turn:
    """A line of a trace: its number, its party and what it did."""

    def __init__(self, number, party, step):
        self.number, self.party, self.step = number, party, step
        self.words = step.split()
        # a step of control that is no answer names its request before it
        self.done = self.words[2:] if self.words[0] == "request" else self.words
        self.passed = step == "pass"

    def short(self):
        if self.step == "take nothing":
            return "none"
        return SHORT.get(self.done[0], self.done[0][:4])


def read(lines):
    """The turns of a trace, and why each worker has stopped that has."""
    turns, stops = [], {}
    for line in lines:
        found = LINE.match(line)
        if found:
            turns.append(Turn(int(found[1]), found[2], found[3]))
        elif line.startswith("stop "):
            _, worker, why = line.rstrip("\n").split(" ", 2)
            stops["worker " + worker] = why
        elif line.strip():
            sys.exit("timeline: this is no line of a trace: " + line.rstrip("\n"))
    return turns, stops


def lanes_of(turns, stops):
    parties = {turn.party for turn in turns} | {"guest", "control"} | set(stops)
    return sorted(parties, key=lambda p: -2 if p == "guest" else -1 if p == "control" else int(p.split()[1]))


def places_of(turns):
    """The middle of each turn, from the left; a turn without a step is narrow."""
    places, x = [], LEFT
    for turn in turns:
        width = GAP if turn.passed else WIDTH
        places.append(x + width / 2)
        x += width
    return places, x


class Picture:
    def __init__(self, turns, stops):
        self.turns, self.stops = turns, stops
        self.lanes = lanes_of(turns, stops)
        self.x, self.right = places_of(turns)
        self.right = max(self.right, LEFT + 200) + 24
        self.parts = []

    def y(self, party):
        return TOP + HEIGHT * self.lanes.index(party) + HEIGHT / 2

    def add(self, text):
        self.parts.append(text)

    def draw_lanes(self):
        for party in self.lanes:
            y = self.y(party)
            self.add(f'<rect class="lane" x="{LEFT - 6}" y="{y - HEIGHT / 2 + 5}" width="{self.right - LEFT}" '
                     f'height="{HEIGHT - 10}" rx="6"/><text class="title" x="10" y="{y + 4}">{party}</text>')

    def draw_turns(self):
        # control passes only where it has no request left, or where the step at hand waits
        steps = [turn.number for turn in self.turns if turn.party == "control" and not turn.passed]
        last = max(steps, default=-1)
        for turn, x in zip(self.turns, self.x):
            y = self.y(turn.party)
            note = f"<title>turn {turn.number}, {turn.party}: {escape(turn.step)}</title>"
            if turn.passed:
                waits = turn.party == "control" and turn.number < last
                ring = f'<circle class="wait" cx="{x:.1f}" cy="{y}" r="5"/>' if waits else ""
                self.add(f'<g>{note}<circle class="dot" cx="{x:.1f}" cy="{y}" r="2"/>{ring}</g>')
                continue
            kind = turn.party.split()[0]
            self.add(f'<g class="box">{note}<rect class="{kind}" x="{x - WIDTH / 2 + 2:.1f}" y="{y - 11}" '
                     f'width="{WIDTH - 4}" height="22" rx="4"/><text x="{x:.1f}" y="{y + 4}">{turn.short()}</text></g>')
            self.add(f'<text class="soft" x="{x:.1f}" y="{TOP - 8}" text-anchor="middle">{turn.number}</text>')

    def draw_entries(self):
        """An entry's bar goes from its take to its use; one that was not used ends open."""
        taken = {}
        for turn, x in zip(self.turns, self.x):
            if turn.words[0] == "take" and turn.step != "take nothing":
                taken[turn.party] = (x, turn.words[1], turn.words[3])
            elif turn.words[0] == "use" and turn.party in taken:
                start, queue, number = taken.pop(turn.party)
                self.bar(turn.party, start, x, queue, number, turn.step != "use refused")
        for party, (start, queue, number) in taken.items():
            self.bar(party, start, self.right - 14, queue, number, False)

    def bar(self, party, start, end, queue, number, used):
        y = self.y(party) + 19
        name = f"queue {queue} entry {number}"
        if used:
            self.add(f'<rect class="entry" x="{start:.1f}" y="{y - 2}" width="{end - start:.1f}" height="4" rx="2"/>')
        else:
            self.add(f'<line class="open" x1="{start:.1f}" y1="{y}" x2="{end:.1f}" y2="{y}"/>')
            name += ", not used"
        self.add(f'<text class="label" x="{(start + end) / 2:.1f}" y="{y + 14}">{name}</text>')

    def draw_arrows(self):
        """From each signal of an event to the first poll of it behind."""
        waiting = {}
        for turn, x in zip(self.turns, self.x):
            if turn.done[0] in ("signal", "ring"):
                waiting.setdefault(turn.done[1], []).append((turn.party, x))
            elif turn.done[0] == "poll":
                for party, start in waiting.pop(turn.done[1], []):
                    self.arrow(start, self.y(party) + 12, x, self.y(turn.party) - 13)
        # a bell has a number of its own where control rings it, and none where it is polled
        bells = [(x, turn) for turn, x in zip(self.turns, self.x) if turn.done[0] == "ring"]
        for turn, x in zip(self.turns, self.x):
            if turn.step == "poll bell":
                before = [start for start, ringing in bells if start < x and ringing.done[1] in waiting]
                if before:
                    self.arrow(before[-1], self.y("control") + 12, x, self.y(turn.party) - 13)
                    bells = [bell for bell in bells if bell[0] != before[-1]]

    def arrow(self, x, y, to_x, to_y):
        middle = (y + to_y) / 2
        self.add(f'<path class="arrow" d="M{x:.1f} {y:.1f} C{x:.1f} {middle:.1f} {to_x:.1f} {middle:.1f} {to_x:.1f} {to_y:.1f}"/>')

    def draw_stops(self):
        for party, why in self.stops.items():
            steps = [x for turn, x in zip(self.turns, self.x) if turn.party == party and not turn.passed]
            x, y = (steps[-1] if steps else LEFT) + WIDTH / 2 + 8, self.y(party)
            self.add(f'<path class="stop" d="M{x - 5:.1f} {y - 5} l10 10 m0 -10 l-10 10"/>'
                     f'<text class="why" x="{x + 10:.1f}" y="{y - 12}">stopped: {escape(why)}</text>')

    def svg(self):
        self.draw_lanes()
        self.draw_entries()
        self.draw_arrows()
        self.draw_turns()
        self.draw_stops()
        height = TOP + HEIGHT * len(self.lanes) + 26
        foot = "boxes are steps, dots passes, rings waits; arrows lead from a signal to its poll, bars from take to use"
        return "\n".join([
            f'<svg xmlns="http://www.w3.org/2000/svg" width="{self.right:.0f}" height="{height}" '
            f'viewBox="0 0 {self.right:.0f} {height}" role="img" aria-label="the turns of a run">',
            "<!-- made by tools/timeline.py from a trace -->",
            f"<style>{STYLE}</style>",
            '<defs><marker id="head" viewBox="0 0 8 8" refX="7" refY="4" markerWidth="7" markerHeight="7" orient="auto">'
            '<path class="head" d="M0 0 L8 4 L0 8 z"/></marker></defs>',
            f'<rect class="paper" width="{self.right:.0f}" height="{height}"/>',
            f'<text class="soft" x="10" y="{TOP - 8}">turn</text>',
            *self.parts,
            f'<text class="soft" x="10" y="{height - 10}">{foot}</text>',
            "</svg>"])


def main():
    if len(sys.argv) > 2 or (len(sys.argv) == 2 and sys.argv[1].startswith("-")):
        sys.exit(__doc__)
    lines = open(sys.argv[1], encoding="utf-8") if len(sys.argv) == 2 else sys.stdin
    turns, stops = read(lines)
    if not turns:
        sys.exit("timeline: a trace has a line for each turn, and there is none")
    print(Picture(turns, stops).svg())


if __name__ == "__main__":
    main()
