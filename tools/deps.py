#!/usr/bin/env python3
"""deps.py CRATE..: the libraries that the text of each crate names, for its line of crates.txt."""
import os
import re
import sys

ROOT = os.path.join(os.path.dirname(os.path.abspath(__file__)), "..")
CRATES = os.path.join(ROOT, "crates")
OF_THE_KIT = {"indexmap", "thiserror", "unicode_ident", "unicode_normalization", "atomic_table"}
names = set(os.listdir(CRATES)) | OF_THE_KIT
for crate in sys.argv[1:]:
    found = set()
    for folder, folders, files in os.walk(os.path.join(CRATES, crate)):
        folders[:] = [it for it in folders if it not in ("out", "must-fail")]
        for file in files:
            if file.endswith((".rt", ".antt")):
                with open(os.path.join(folder, file), encoding="utf-8") as it:
                    found.update(re.findall(r"Rattle\.([a-z_0-9]+)\b|\b([a-z_0-9]+)::", it.read()))
    print(crate + ":", " ".join(sorted(names & {word for pair in found for word in pair} - {crate})))
