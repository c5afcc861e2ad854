#!/usr/bin/env python3
"""mirlocals.py [N]: the N functions of the crates that are proved here with the most locals in their MIR, and their sums by crate.

A function's `Lts` module of the proof costs as its locals count (docs/TIMES.md)."""
import collections
import glob
import json
import os
import sys

ROOT = os.path.join(os.path.dirname(os.path.abspath(__file__)), "..")
rows, sums = [], collections.Counter()
for path in glob.glob(os.path.join(ROOT, "crates/*/out/rlib/*.rlib/toolchain/mir.json")):
    crate = path.split("/crates/")[1].split("/")[0]
    with open(path, encoding="utf-8") as it:
        functions = json.load(it)
    for name, body in functions.items():
        if name.startswith(crate + "::"):
            rows.append((len(body["locals"]), name))
            sums[crate] += len(body["locals"])
for count, name in sorted(rows, reverse=True)[:int(sys.argv[1]) if len(sys.argv) > 1 else 60]:
    print(count, name)
print(" ".join(f"{crate} {count}" for crate, count in sums.most_common(60)))
