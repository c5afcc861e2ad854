"""`rt` as a module, for the tools that use parts of it which are its own (of the kit `rattle-kit-13f`; a later kit may need another)."""
import os
import shutil
import sys

sys.dont_write_bytecode = True


def load():
    """The names of `rt`, in which the libraries below a crate are found once."""
    path = os.path.realpath(shutil.which("rt"))
    names = {"__name__": "rt", "__file__": path}
    with open(path, encoding="utf-8") as it:
        exec(compile(it.read(), path, "exec"), names)
    found = {}

    def below(crate):
        if crate.folder not in found:
            libraries = []
            for low in crate.deps:
                libraries += [it for it in [*low.below(), low] if it not in libraries]
            found[crate.folder] = libraries
        return list(found[crate.folder])

    names["rtlib"].Crate.below = below
    return names
