#!/usr/bin/env python3
"""definitions.py: what docs/DEFINITIONS.md lacks: files that it names and that aren't there, files of definitions that it doesn't name, and
rows that stand above a row whose file they cite (but for files that cite each other)."""
import glob
import os
import re

ROOT = os.path.join(os.path.dirname(os.path.abspath(__file__)), "..")
CRATES = os.path.join(ROOT, "crates") + "/"
NAMES = set(os.listdir(CRATES))


def read(path):
    with open(path, encoding="utf-8") as it:
        return it.read()


def files_of(text):
    """The files of definitions that a text names, as `crate/specs/X.antt`: `X.antt` in quotes, behind its crate or another file of it."""
    crate, files = None, []
    for named, file in re.findall(r"(?:\b([a-z_0-9]+) )?`([A-Z]\w*)\.antt`", text):
        crate = named if named in NAMES else crate
        if crate:
            files.append(f"{crate}/specs/{file}.antt")
    return files


def cited(file):
    """The files that a file's `use` lines name, also through other crates."""
    found = set()
    for path in re.findall(r"\buse Rattle\.([\w.]+)", read(CRATES + file)):
        crate, *rest = path.split(".")
        if rest[:1] != ["specs"]:
            continue
        rest = rest[1:]
        while rest and rest[0] in NAMES and not os.path.exists(f"{CRATES}{crate}/specs/{rest[0]}.antt"):
            crate, rest = rest[0], rest[1:]
        if rest and os.path.exists(f"{CRATES}{crate}/specs/{rest[0]}.antt"):
            found.add(f"{crate}/specs/{rest[0]}.antt")
    return found


text = read(os.path.join(ROOT, "docs/DEFINITIONS.md"))
rows = [(number, files_of(line.split(" | ")[1])) for number, line in enumerate(text.split("\n"), 1) if line.startswith("| ") and line.count(" | ") > 1]
there = [(number, file) for number, files in rows for file in files if os.path.exists(CRATES + file)]
first = {}
for number, file in there:
    first.setdefault(file, number)
uses = {file: cited(file) for file in first}
for number, files in rows:
    for file in files:
        if file not in uses:
            print(f"line {number}: there is no file {file}")
for number, file in there:
    for low in sorted(uses[file]):
        if first.get(low, 0) > number and file not in uses[low]:
            print(f"line {number}: {file} stands above {low}, line {first[low]}")
named = set(files_of(text))
for path in sorted(glob.glob(CRATES + "*/specs/*.antt")):
    file = path[len(CRATES):]
    if file not in named and not file.endswith("/Lib.antt"):
        print(f"not named: {file}")
