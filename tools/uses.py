#!/usr/bin/env python3
"""uses.py [ROOT]: each name that a `use Rattle.CRATE.specs..{..}` takes from a module that doesn't define it, a line each, and so for names
behind a module's dotted name. Constructors, fields and what a module passes on are among its names. Compare before and after a move."""
import functools
import glob
import os
import re
import sys

ROOT = sys.argv[1] if len(sys.argv) > 1 else os.path.join(os.path.dirname(os.path.abspath(__file__)), "..")
CRATES = os.path.join(ROOT, "crates") + "/"
NAMES = set(os.listdir(CRATES))
USE = re.compile(r"\buse\s+(Rattle\.[\w.+\-]+?)(?:\.\{([^}]*)\})?(?:\s+as\s+([\w\-]+))?\s*(?=;|\n|$)")
WORD = r"[A-Za-z0-9_'\-]"


def read(path):
    with open(path, encoding="utf-8") as it:
        return it.read()


def file_of(path):
    """The file of a module of definitions, also where it is named through another crate; None for anything else."""
    _, crate, *rest = (path + "..").split(".")[:-2] if path.count(".") > 1 else ("", "", "")
    if rest[:1] != ["specs"] or len(rest) < 2:
        return None
    rest = rest[1:]
    while rest and rest[0] in NAMES and not os.path.isdir(f"{CRATES}{crate}/specs/{rest[0]}"):
        crate, rest = rest[0], rest[1:]
    if not rest or crate not in NAMES or rest[0] in ("declared", "contracts"):
        return None
    return f"{crate}/specs/{'/'.join(rest)}.antt"


@functools.lru_cache(None)
def names_in(file):
    """The names that a file of definitions has; None where there is no such file."""
    if not os.path.exists(CRATES + file):
        return None
    text = read(CRATES + file)
    public = "\n".join(line for line in text.split("\n") if " pub " in " " + line)
    names = set(re.findall(r"^[ \t]*(?:(?:abbrev|unfoldable|opaque|instance) )?(?:pub )?(?:(?:data|record|type|infixl|infixr) )?([^\s:({]+)(?= :| \(| \{)", public, re.M))
    names.update(re.findall(r"^[ \t]+(?:pub )?([^\s:({]+) :", text, re.M))
    for passed in re.finditer(r"^pub " + USE.pattern, text, re.M):
        names.update(re.sub(r".*\s+as\s+", "", it.strip()) for it in (passed[2] or "").split(","))
    return names


def strangers(text):
    """(module, name) of each name that a text takes from a module of definitions, and whether the module has it."""
    for use in USE.finditer(text):
        file = file_of(use[1])
        if file is None:
            continue
        names = names_in(file)
        if use[2] is not None:
            for name in filter(None, (re.sub(r"\s+as\s+.*", "", it.strip()) for it in use[2].split(","))):
                holds = name in names if names is not None else os.path.exists(f"{CRATES}{file[:-5]}/{name}.antt")
                yield use[1], name, holds
        elif names is not None:
            alias = use[3] or use[1].split(".")[-1]
            for name in sorted(set(re.findall(r"(?<![A-Za-z0-9_'.\-])" + re.escape(alias) + r"\.([A-Za-z_]" + WORD + "*)", text))):
                yield use[1], name, name in names


count = 0
for path in sorted(glob.glob(CRATES + "**/*.antt", recursive=True) + glob.glob(CRATES + "**/*.rt", recursive=True)):
    if "/out/" not in path:
        for module, name, holds in strangers(read(path)):
            count += 1
            if not holds:
                print(path[len(CRATES):], module, name)
print(count, "names")
