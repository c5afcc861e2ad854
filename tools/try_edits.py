#!/usr/bin/env python3
"""try_edits.py CRATE [NAME..]: tries the edits of a crate, those of the gate and those of bench/edits, one by one by `rt check` over the
libraries that stand in the folders `out/` here, and says of each whether it was refused, and where. `rt must-fail` and `rt ci` judge: this
is quicker. The crate's files are as they were behind it, also where it is interrupted."""
import glob
import os
import re
import subprocess
import sys

ROOT = os.path.dirname(os.path.dirname(os.path.abspath(__file__)))
sys.path.insert(0, os.path.join(ROOT, "bench"))
sys.dont_write_bytecode = True
from edits import misfit  # noqa: E402


def pairs(edit):
    """(file, old text, new text) of each change."""
    file = old = None
    with open(edit, encoding="utf-8") as it:
        for line in it.read().split("\n"):
            word, _, rest = line.partition(":")
            if word == "file":
                file = rest.strip()
            elif word == "old":
                old = rest.removeprefix(" ")
            elif word == "new":
                yield file, old, rest.removeprefix(" ")


def try_edit(folder, edit):
    kept = {}
    try:
        for file, old, new in pairs(edit):
            path = os.path.join(folder, file)
            with open(path, encoding="utf-8") as it:
                text = it.read()
            kept.setdefault(path, text)
            with open(path, "w", encoding="utf-8") as it:
                it.write(text.replace(old, new))
        return subprocess.run(["rt", "check"], cwd=folder, stdout=subprocess.PIPE, stderr=subprocess.STDOUT, text=True)
    finally:
        for path, text in kept.items():
            with open(path, "w", encoding="utf-8") as it:
                it.write(text)


def main(crate, names):
    folder = os.path.join(ROOT, "crates", crate)
    edits = sorted(glob.glob(f"{folder}/must-fail/*.edit") + glob.glob(f"{ROOT}/bench/edits/{crate}/*.edit"))
    passed = 0
    for edit in edits:
        name = os.path.basename(edit)[:-len(".edit")]
        if names and name not in names:
            continue
        why = misfit(crate, edit)
        if why:
            print(f"{name}: {why}")
            continue
        ran = try_edit(folder, edit)
        told = [it[:200] for it in ran.stdout.split("\n") if re.search(r"error|not proved|may .*overflow", it)]
        passed += not ran.returncode
        print(f"{name}: {'refused' if ran.returncode else 'NOT REFUSED'} {' | '.join(told[:3])}", flush=True)
    return 1 if passed else 0


if __name__ == "__main__":
    sys.exit(main(sys.argv[1], sys.argv[2:]))
