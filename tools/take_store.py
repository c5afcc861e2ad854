#!/usr/bin/env python3
"""take_store.py [CRATE..]: puts the libraries that `rt ci` has kept on this machine for these texts into the folders `out/` here, so that
`rt check` begins with them: all, or those of the crates and of what they stand on. They count for no gate."""
import os
import shutil
import sys

from rt_parts import load

ROOT = os.path.dirname(os.path.dirname(os.path.abspath(__file__)))
rt = load()
rtlib = rt["rtlib"]


def all_crates():
    made = rtlib.Crate.__init__

    def make(crate, *given, **named):
        made(crate, *given, **named)
        rt["read_files"](crate)

    rtlib.Crate.__init__ = make
    rtlib.Crate.has_tests = lambda crate: False
    rt["Crate"].allowed = rt["handles_of"](ROOT)
    return rt["crates_of"](ROOT)


def take(kept, crate):
    """Whether the crate's library stands here now; one that stands already is left."""
    folder, key, stamp = os.path.dirname(crate.rlib), kept.key(crate), crate.stamp()
    marks = {f"{folder}/stamp": stamp, f"{folder}/from_store": key}
    if not (os.path.isdir(crate.rlib) and all(rtlib.text_of(file) == text for file, text in marks.items())):
        if not os.path.isdir(kept.place(crate, False, key)):
            return False
        shutil.rmtree(folder, ignore_errors=True)
        os.makedirs(folder)
        if not kept.give(crate, False, key):
            return False
        for file, text in marks.items():
            with open(file, "w", encoding="utf-8") as it:
                it.write(text)
    kept.is_built(crate)
    return True


def main(wanted):
    os.chdir(ROOT)
    crates = all_crates()
    kept = rt["Kept"](crates)
    names = {it.name for it in crates if not wanted or it.name in wanted}
    names.update(low.name for it in crates if it.name in wanted for low in it.below())
    taken, lacking = set(), []
    for crate in crates:
        if crate.is_program or crate.name not in names or any(low.name not in taken for low in crate.below()):
            continue
        if take(kept, crate):
            taken.add(crate.name)
        else:
            lacking.append(crate.name)
    print(f"{len(taken)} stand here; lacking, the first on each way: {' '.join(lacking) or 'none'}")


if __name__ == "__main__":
    main(sys.argv[1:])
