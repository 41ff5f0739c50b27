#!/usr/bin/env python3
"""Checks that each block of code in docs/LIBRARY.md stands in the sources that it quotes, line for line."""
import pathlib
import re
import sys

top = pathlib.Path(__file__).resolve().parent.parent
quoted = [*sorted((top / "crates/example_device/src").glob("*.rt")), top / "crates/vub_daemon_rows/src/two_queues.rt"]
sources = [path.read_text() for path in quoted]
blocks = re.findall(r"^```rust\n(.*?)^```$", (top / "docs/LIBRARY.md").read_text(), re.M | re.S)
missing = [block for block in blocks if not any(block in source for source in sources)]
for block in missing:
    print("not in the sources:\n" + block)
print(f"{len(blocks)} blocks, {len(missing)} differ")
sys.exit(1 if missing or not blocks else 0)
