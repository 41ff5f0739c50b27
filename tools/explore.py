#!/usr/bin/env python3
"""Plays a script under many random schedules, and tells what may happen:

    tools/explore.py SCRIPT.json [--runs N] [--seed S] [--turns T]

Each run gives T random turns to the guest, to control and to the workers, and then the script's own rounds, so that what
is left comes to rest. Runs are put together whose text is the same but for its first line, which counts turns. Of each
group its size is printed, one schedule that leads to it, as short as it could be made by leaving turns out, and the
text. Lines that all groups have are printed once, at the end: they don't depend on the schedule.

It wants the proved program (cd crates/share && rt run makes it), or another one by --program PATH.
"""
import argparse
import json
import os
import random
import subprocess
import sys
from collections import OrderedDict

TOP = os.path.dirname(os.path.dirname(os.path.abspath(__file__)))


class Player:
    """Plays a script under a schedule, and keeps what it has played."""

    def __init__(self, program, script):
        self.program, self.script, self.known = program, script, {}
        self.plays = 0

    def text(self, schedule):
        key = tuple(schedule)
        if key not in self.known:
            self.plays += 1
            played = dict(self.script, schedule=schedule)
            done = subprocess.run([self.program], input=json.dumps(played).encode(), capture_output=True)
            if done.returncode != 0:
                sys.exit(f"explore: the program ended with status {done.returncode}: {done.stderr.decode().strip()}")
            self.known[key] = done.stdout.decode().split("\n", 1)[1]
        return self.known[key]


def parties_of(script):
    masks = script.get("masks", [4294967295])
    return list(range(2 + len(masks)))


def random_schedule(chance, parties, turns):
    """Turns in which some parties are more eager than others, so that also long delays come up."""
    eager = [chance.choice((1, 1, 3, 10)) for _ in parties]
    return chance.choices(parties, weights=eager, k=turns)


def shortened(player, schedule, text):
    """The schedule with turns left out as long as the outcome stays: first large pieces, then single turns."""
    size = max(1, len(schedule) // 2)
    while True:
        at, changed = 0, False
        while at < len(schedule):
            less = schedule[:at] + schedule[at + size:]
            if player.text(less) == text:
                schedule, changed = less, True
            else:
                at += size
        if size > 1:
            size //= 2
        elif not changed:
            return schedule


def told(schedule):
    """A schedule in words, equal turns put together."""
    if not schedule:
        return "none: the rounds alone lead to it"
    names, parts = {0: "guest", 1: "control"}, []
    for party in schedule:
        name = names.get(party, f"worker {party - 2}")
        if parts and parts[-1][0] == name:
            parts[-1][1] += 1
        else:
            parts.append([name, 1])
    return ", ".join(name if count == 1 else f"{name} x{count}" for name, count in parts)


def progress(done, of, what):
    if sys.stderr.isatty():
        print(f"\r{what} {done} of {of}", end="" if done < of else "\n", file=sys.stderr, flush=True)


def explore(player, runs, seed, turns):
    chance, parties = random.Random(seed), parties_of(player.script)
    groups = OrderedDict()
    for run in range(runs):
        schedule = random_schedule(chance, parties, turns)
        groups.setdefault(player.text(schedule), []).append(schedule)
        progress(run + 1, runs, "run")
    found = []
    for number, (text, schedules) in enumerate(sorted(groups.items(), key=lambda group: -len(group[1]))):
        found.append((len(schedules), shortened(player, min(schedules, key=len), text), text))
        progress(number + 1, len(groups), "shortened")
    return found


def report(found, runs):
    lists = [text.splitlines() for _, _, text in found]
    shared = [line for line in lists[0] if all(line in lines for lines in lists)]
    print(f"{runs} runs, {len(found)} outcome{'s' if len(found) > 1 else ''}")
    for number, (count, schedule, text) in enumerate(found):
        print(f"\noutcome {number + 1}: {count} runs\n  turns: {told(schedule)}\n  \"schedule\": {json.dumps(schedule)}")
        for line in text.splitlines():
            if line not in shared:
                print("  " + line)
    print("\nin every run")
    for line in shared:
        print("  " + line)


def main():
    words = argparse.ArgumentParser(description=__doc__, formatter_class=argparse.RawDescriptionHelpFormatter)
    words.add_argument("script")
    words.add_argument("--runs", type=int, default=200)
    words.add_argument("--seed", type=int, default=1)
    words.add_argument("--turns", type=int, default=60)
    words.add_argument("--program", default=os.path.join(TOP, "crates", "share", "out", "share"))
    asked = words.parse_args()
    if not os.access(asked.program, os.X_OK):
        sys.exit("explore: there is no proved program yet; it is made by: cd crates/share && rt run")
    with open(asked.script, encoding="utf-8") as file:
        script = json.load(file)
    script.setdefault("rounds", 0)
    script["rounds"] = max(int(script["rounds"]), 40) if isinstance(script["rounds"], int) else script["rounds"]
    report(explore(Player(asked.program, script), asked.runs, asked.seed, asked.turns), asked.runs)


if __name__ == "__main__":
    main()
