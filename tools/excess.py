#!/usr/bin/env python3
"""excess.py CRATE [N]: where a check of the crate spent its time, from what `rt check --jobs 1` left in out/incremental of its folder.

Each file there is a module of the proof, and what it took is the gap behind the file before it. First the sums by kind of module, then
the N (25) modules that took the most beyond what their size explains: a search that an answer would spare, or a function to rewrite."""
import collections
import os
import re
import sys

ROOT = os.path.join(os.path.dirname(os.path.abspath(__file__)), "..")
SECONDS_A_BYTE = 1.7e-6
KINDS = ("Lts", "Proof", "Layout", "Tie", "Statement", "Answers", "Symbol", "Named", "Given", "Goals")


def kind_of(name):
    words = [re.sub(r"[-0-9].*", "", it) for it in name.split(".")]
    return next((it for it in reversed(words) if it in KINDS), "other")


def main(crate, most=25):
    files = []
    for folder, _, names in os.walk(os.path.join(ROOT, "crates", crate, "out", "incremental")):
        for name in names:
            if name.endswith(".oantt"):
                it = os.stat(os.path.join(folder, name))
                files.append((it.st_mtime, name[:-len(".oantt")], it.st_size))
    files.sort()
    kinds, rows = collections.Counter(), []
    for (before, _, _), (behind, name, size) in zip(files, files[1:]):
        took = behind - before
        kinds[kind_of(name)] += took
        rows.append((took - SECONDS_A_BYTE * size, took, size / 1e6, name.removeprefix("Rattle-")))
    print(" ".join(f"{kind} {seconds:.0f}" for kind, seconds in kinds.most_common()))
    for beyond, took, size, name in sorted(rows, reverse=True)[:most]:
        print(f"{beyond:6.1f} of {took:6.1f} s {size:6.2f} MB {name}")


if __name__ == "__main__":
    main(sys.argv[1], *map(int, sys.argv[2:]))
