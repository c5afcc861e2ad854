#!/usr/bin/env python3
"""rtfast.py WORD..: `rt WORD..`, which finds the libraries below a crate, and each one's stamp, once. Call it in the crate's folder.

It judges as `rt` does."""
import sys

from rt_parts import load

rt = load()
Crate = rt["rtlib"].Crate
of_crate, stamps = Crate.stamp, {}


def stamp(crate):
    if crate.folder not in stamps:
        stamps[crate.folder] = of_crate(crate)
    return stamps[crate.folder]


Crate.stamp = stamp
sys.exit(rt["main"](sys.argv[1:]))
