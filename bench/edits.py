#!/usr/bin/env python3
"""Tries the wrong bodies that the gate leaves out.

python3 bench/edits.py CRATE..    tries those of bench/edits/CRATE by `rt must-fail`, beside the crate's own
python3 bench/edits.py            says of every edit, here and in the gate, whether it still fits the text that it changes

The gate tries few edits of a crate whose proof takes minutes, since each crate with edits is proved a second time before they are tried.
The others stand here, in the same form. Each was refused when it was written, but for those whose names begin with `untried_`; one that no
longer fits says nothing and is to be mended.
"""
import os
import shutil
import subprocess
import sys

ROOT = os.path.dirname(os.path.dirname(os.path.abspath(__file__)))
EDITS = os.path.join(ROOT, "bench", "edits")
CRATES = os.path.join(ROOT, "crates")


def edits_of(crate):
    """The paths of the crate's edits here, in the order of their names."""
    return edits_in(os.path.join(EDITS, crate))


def edits_in(folder):
    if not os.path.isdir(folder):
        return []
    return [os.path.join(folder, name) for name in sorted(os.listdir(folder)) if name.endswith(".edit")]


def misfit(crate, edit):
    """What is wrong with the edit for the crate's text as it stands, or None."""
    path, texts = None, {}
    with open(edit, encoding="utf-8") as lines:
        for line in lines.read().split("\n"):
            if line.startswith("file: "):
                path = os.path.join(ROOT, "crates", crate, line[len("file: "):].strip())
                if not os.path.isfile(path):
                    return f"there is no file {path}"
                if path not in texts:
                    with open(path, encoding="utf-8") as text:
                        texts[path] = text.read()
            elif line.startswith("old: "):
                old = line[len("old: "):]
                found = texts[path].count(old)
                if found != 1:
                    return f"its old text is there {found} times, and not once"
            elif line.startswith("new:"):
                texts[path] = texts[path].replace(old, line[len("new:"):].removeprefix(" "))
    return None if texts else "it names no file"


def look_at_all():
    """Says of each edit whether it fits; the status is 1 if one does not."""
    wrong, count = 0, 0
    for crate in sorted({*os.listdir(EDITS), *os.listdir(CRATES)}):
        for edit in edits_of(crate) + edits_in(os.path.join(CRATES, crate, "must-fail")):
            count += 1
            why = misfit(crate, edit)
            if why:
                wrong += 1
                print(f"{crate}/{os.path.basename(edit)}: {why}")
    print(f"{count} edits, {wrong} that do not fit")
    return 1 if wrong else 0


def try_edits(crates):
    """Puts the crates' edits beside those of the gate, tries them all, and takes them away again."""
    put = []
    try:
        for crate in crates:
            folder = os.path.join(ROOT, "crates", crate, "must-fail")
            if not os.path.isdir(folder):
                os.mkdir(folder)
                put.append(folder)
            for edit in edits_of(crate):
                to = os.path.join(folder, os.path.basename(edit))
                if os.path.exists(to):
                    sys.exit(f"{to} stands in the gate already")
                put.append(to)
                shutil.copyfile(edit, to)
        return subprocess.run(["rt", "must-fail", *crates], cwd=ROOT).returncode
    finally:
        for it in reversed(put):
            if os.path.isdir(it):
                os.rmdir(it)
            elif os.path.exists(it):
                os.remove(it)


def main(crates):
    lacking = [it for it in crates if not os.path.isdir(os.path.join(EDITS, it))]
    if lacking:
        sys.exit(f"bench/edits has no folder {lacking[0]}")
    return try_edits(crates) if crates else look_at_all()


if __name__ == "__main__":
    sys.exit(main(sys.argv[1:]))
