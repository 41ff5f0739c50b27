#!/usr/bin/env python3
"""What an entry costs: tools/cost.py PROGRAM [make]

Counts instructions by callgrind (Debian's package valgrind), as the slope between two sizes, which is free of noise. Plays
the scripts of tools/make_script.py with 1000 and 4000 entries, then the same with an empty schedule, which are read and not
played; with `make` the generated scripts of these sizes. PROGRAM is the proved program, crates/share/out/share. Prints the
total and the functions that cost most.
"""
import json
import os
import re
import subprocess
import sys
import tempfile

SIZES = (1000, 4000)
HERE = os.path.dirname(os.path.abspath(__file__))


def counts(program, words, script, folder):
    """Instructions by function of one run."""
    out = os.path.join(folder, "callgrind.out")
    with open(script) as text:
        subprocess.run(["valgrind", "--tool=callgrind", f"--callgrind-out-file={out}", program, *words],
                       stdin=text, stdout=subprocess.DEVNULL, stderr=subprocess.DEVNULL)
    lines = subprocess.run(["callgrind_annotate", "--threshold=100", out], capture_output=True, text=True).stdout
    found = {}
    for line in lines.splitlines():
        match = re.match(r"\s*([\d,]+) \(\s*[\d.]+%\)\s+(.*)$", line.rstrip())
        if match:
            name = re.sub(r"\[.*\]$", "", match[2]).strip()
            found[name] = found.get(name, 0) + int(match[1].replace(",", ""))
    return found


def script(entries, is_played, folder):
    """The file of a script with so many entries."""
    text = subprocess.run([sys.executable, os.path.join(HERE, "make_script.py"), str(entries)],
                          capture_output=True, text=True, check=True).stdout
    whole = json.loads(text)
    if not is_played:
        whole["schedule"] = []
    path = os.path.join(folder, "script.json")
    with open(path, "w") as file:
        json.dump(whole, file, separators=(",", ":"))
    return path


def slopes(program, kind, folder):
    """Instructions an entry, by function, the greatest first."""
    runs = []
    for entries in SIZES:
        if kind == "make":
            runs.append(counts(program, ["make", str(entries)], os.devnull, folder))
        else:
            runs.append(counts(program, [], script(entries, kind == "whole", folder), folder))
    few, many = runs
    rows = [((many[name] - few.get(name, 0)) / (SIZES[1] - SIZES[0]), name) for name in many]
    return sorted(rows, reverse=True)


def main():
    if len(sys.argv) not in (2, 3) or sys.argv[2:] not in ([], ["make"]):
        sys.exit(__doc__)
    kinds = ["make"] if sys.argv[2:] else ["whole", "empty"]
    with tempfile.TemporaryDirectory() as folder:
        for kind in kinds:
            for cost, name in slopes(sys.argv[1], kind, folder)[:24]:
                print(f"{kind} {cost:8.0f} instructions an entry  {name[:100]}")


if __name__ == "__main__":
    main()
