#!/usr/bin/env python3
"""Compares docs/script.schema.json with the program: an input must fit the schema exactly where the program takes it for a
script (every exit status but 2).

    tools/check_schema.py [--changes N] [--seed S] [--program PATH]

It reads all examples, the refused inputs of crates/vub_rows/src/refusals.rt, and N random changes of the examples (2000).
What JSON Schema can't say is looked at here: numbers written with a point, an exponent or a sign are none; a text with a
lone surrogate is no JSON for the program; a directory's names are counted in bytes, and differ.
It wants python3-jsonschema, and the proved program (cd crates/share && rt run makes it).
"""
import argparse
import copy
import glob
import json
import os
import random
import re
import subprocess
import sys

try:
    from jsonschema import Draft202012Validator
except ImportError:
    sys.exit("check_schema: skipped, since python3-jsonschema is not there")

TOP = os.path.dirname(os.path.dirname(os.path.abspath(__file__)))


class NoNumber(dict):
    """A number that is written with a point, an exponent, or as -0. It fits no form of the schema."""

    def __init__(self, text):
        super().__init__({"\0": text})


def read(text):
    """The tree of a text as the program reads it, or None where it is no JSON."""
    def whole(digits):
        return NoNumber(digits) if digits == "-0" else int(digits)

    def other(digits):
        if float(digits) in (float("inf"), float("-inf")):
            raise ValueError("out of range")
        return NoNumber(digits)

    def refused(word):
        raise ValueError(word)

    try:
        tree = json.loads(text, parse_int=whole, parse_float=other, parse_constant=refused)
        json.dumps(tree, ensure_ascii=False).encode("utf-8")
        return [tree]
    except (ValueError, RecursionError):
        return None


def are_names_sound(entries):
    """Names of a directory differ, and have at most 255 bytes each."""
    names = [entry["name"] for entry in entries]
    return (len(set(names)) == len(names) and all(len(name.encode()) <= 255 for name in names)
            and all(are_names_sound(entry["entries"]) for entry in entries if "entries" in entry))


def fits(schema, text):
    found = read(text)
    if found is None or not schema.is_valid(found[0]):
        return False
    service = found[0].get("service")
    return not isinstance(service, dict) or are_names_sound(service.get("dir", []))


def is_taken(program, text):
    done = subprocess.run([program], input=text.encode("utf-8", "surrogatepass"), capture_output=True)
    if done.returncode not in (0, 2, 3):
        sys.exit(f"check_schema: the program ended with status {done.returncode}: {done.stderr.decode().strip()}")
    return done.returncode != 2


def refused_inputs():
    """The inputs of the tables of refusals, each behind the line of the one before."""
    with open(os.path.join(TOP, "crates", "vub_rows", "src", "refusals.rt"), encoding="utf-8") as file:
        tables = re.findall(r'r#"(.*?)"#', file.read(), re.S)
    return [it.rstrip("\n") for table in tables for it in re.split(r"^> .*\n", table, flags=re.M) if it.strip()]


LEAVES = [0, 1, 255, 65535, 65536, 4294967295, 4294967296, 18446744073709551615, 18446744073709551616, -1, None, True,
          False, "", "0x0", "0x", "0xA", "0xffffffff", "0x100000000", "0x0000000100000000", "00", "0g", "abc", [], {},
          "echo", [0], {"event": 0}, {"dir": []}, {"name": "a", "hex": ""}, {"name": "..", "hex": ""}, "store", "signal"]


def parts(tree, path=()):
    """The paths of all parts of a tree."""
    yield path
    if isinstance(tree, dict):
        for key, value in tree.items():
            yield from parts(value, path + (key,))
    elif isinstance(tree, list):
        for number, value in enumerate(tree):
            yield from parts(value, path + (number,))


def changed(chance, tree):
    """The tree with one part replaced, left out, doubled or renamed."""
    tree = copy.deepcopy(tree)
    path = chance.choice([path for path in parts(tree) if path])
    whole = tree
    for step in path[:-1]:
        whole = whole[step]
    last, kind = path[-1], chance.randrange(5)
    if kind == 0:
        del whole[last]
    elif kind == 1 and isinstance(whole, list):
        whole.insert(last, copy.deepcopy(whole[last]))
    elif kind == 2 and isinstance(whole, dict):
        whole[chance.choice(["a", "name", "hex", "entries", "size", last + "x"])] = whole.pop(last)
    else:
        whole[last] = copy.deepcopy(chance.choice(LEAVES))
    return tree


def main():
    words = argparse.ArgumentParser(description=__doc__, formatter_class=argparse.RawDescriptionHelpFormatter)
    words.add_argument("--changes", type=int, default=2000)
    words.add_argument("--seed", type=int, default=1)
    words.add_argument("--program", default=os.path.join(TOP, "crates", "share", "out", "share"))
    asked = words.parse_args()
    if not os.access(asked.program, os.X_OK):
        sys.exit("check_schema: skipped, since there is no proved program yet (cd crates/share && rt run)")
    with open(os.path.join(TOP, "docs", "script.schema.json"), encoding="utf-8") as file:
        tree = json.load(file)
    Draft202012Validator.check_schema(tree)
    schema = Draft202012Validator(tree)
    texts = [open(path, encoding="utf-8").read() for path in sorted(glob.glob(os.path.join(TOP, "examples", "*.json")))]
    given = len(texts)
    refused = refused_inputs()
    chance, trees = random.Random(asked.seed), [json.loads(text) for text in texts if json.loads(text)]
    texts += refused
    for _ in range(asked.changes):
        tree = chance.choice(trees)
        for _ in range(chance.choice([1, 1, 1, 2])):
            tree = changed(chance, tree) or {"rounds": 0}
        texts.append(json.dumps(tree))
    wrong, scripts = 0, 0
    for number, text in enumerate(texts):
        taken = is_taken(asked.program, text)
        scripts += taken
        if fits(schema, text) != taken:
            wrong += 1
            print(f"the program says {'script' if taken else 'no script'}, and the schema not: {text[:300]}")
        if sys.stderr.isatty():
            print(f"\r{number + 1} of {len(texts)}", end="", file=sys.stderr)
    print(f"{given} examples, {len(refused)} refused inputs, {asked.changes} changes: "
          f"{scripts} scripts, {len(texts) - scripts} others, {wrong} differences")
    sys.exit(1 if wrong else 0)


if __name__ == "__main__":
    main()
