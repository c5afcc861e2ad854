#!/usr/bin/env python3
"""paths.py: how many ways lead down from the crates of crates.txt, in all, and from those with the most."""
import functools
import os

ROOT = os.path.join(os.path.dirname(os.path.abspath(__file__)), "..")
below = {}
with open(os.path.join(ROOT, "crates.txt"), encoding="utf-8") as lines:
    for line in lines:
        head, colon, libraries = line.split("#")[0].partition(":")
        if colon:
            below[head.split()[0]] = libraries.split()


@functools.lru_cache(None)
def ways(crate):
    return 1 + sum(ways(low) for low in below[crate] if low in below)


print(sum(map(ways, below)), "ways")
for count, crate in sorted(((ways(it), it) for it in below), reverse=True)[:25]:
    print(f"{count:8} {crate}")
