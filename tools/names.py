#!/usr/bin/env python3
"""names.py [ROOT] [--all]: the definitions (crates/*/specs) whose names stand in more than one crate, or twice in one. A star stands where the crate's code has the name too.

A row: name, crates that define it, definitions that the code of their crate doesn't have, the places. Those with the most stand first. A name is listed as doubled (more than 1) where two definitions mirror no code, or where one does beside another of its own crate. With --all, each definition a line, as `crate/specs/F.antt:LINE NAME`.

Definitions are seen at any indentation, within `module .. where`, `mutual` and `abbrev mutual`; fields of records and constructors of data types aren't definitions, nor are names of `let` and `where`, which have no `pub`.
"""
import collections
import glob
import os
import re
import sys

HERE = os.path.join(os.path.dirname(os.path.abspath(__file__)), "..")
DEFINES = re.compile(r"(?:(?:abbrev|unfoldable|opaque) )?pub (?:(data|record|type|infixl|infixr|use|mod) )?([^\s:({]+)")
HOLDS = re.compile(r"module\b|(?:abbrev |unfoldable |opaque )?mutual$")


def definitions(lines):
    """(line number, name) of each definition of a file: of lines that start with `pub`, those that stand at the left or only in modules and blocks of mutual definitions."""
    around, found = [], []
    for number, line in enumerate(lines, 1):
        text = line.strip()
        if not text or text.startswith("--"):
            continue
        indent = len(line) - len(line.lstrip())
        while around and around[-1][0] >= indent:
            around.pop()
        name = DEFINES.match(text)
        if name and name[1] not in ("use", "mod") and all(holds for _, holds in around):
            found.append((number, name[2]))
        around.append((indent, bool(HOLDS.match(text))))
    return found


def words_of_code(text):
    """What a file of code names, with how often: functions, types, constants, modules, fields and variants."""
    words = collections.Counter(re.findall(r"\b(?:fn|struct|enum|trait|type|const|static|mod)\s+(\w+)", text))
    words.update(re.findall(r"^\s+(?:pub(?:\(\w+\))? )?(\w+):", text, re.M))
    words.update(re.findall(r"^\s+([A-Z]\w*)(?:,|\(| \{)", text, re.M))
    return words


def read(root):
    """name: [(crate, file, line)], and crate: words of its code."""
    crates = os.path.join(os.path.abspath(root), "crates") + "/"
    defined, coded = collections.defaultdict(list), collections.defaultdict(collections.Counter)
    for path in sorted(glob.glob(crates + "*/specs/**/*.antt", recursive=True)):
        file = path[len(crates):]
        with open(path, encoding="utf-8") as lines:
            for number, name in definitions(lines):
                defined[name].append((file.split("/")[0], file, number))
    for path in glob.glob(crates + "*/src/**/*.rt", recursive=True):
        with open(path, encoding="utf-8") as it:
            coded[path[len(crates):].split("/")[0]].update(words_of_code(it.read()))
    return defined, coded


def main():
    roots = [a for a in sys.argv[1:] if not a.startswith("--")]
    defined, coded = read(roots[0] if roots else HERE)
    if "--all" in sys.argv:
        for file, number, name in sorted((file, number, name) for name, places in defined.items() for _, file, number in places):
            print(f"{file}:{number} {name}")
        return
    rows = []
    for name, places in defined.items():
        if len(places) > 1:
            crates = collections.Counter(crate for crate, _, _ in places)
            over = {crate: max(0, many - coded[crate][name]) for crate, many in crates.items()}
            alone = sum(over.values()) + sum(over[crate] == 1 < many for crate, many in crates.items())
            rows.append((-alone, -len(crates), name, "; ".join(f"{file}:{number}" + "*" * (coded[crate][name] > 0) for crate, file, number in places)))
    print(f"{sum(map(len, defined.values()))} definitions, {sum(row[1] < -1 for row in rows)} names in more than one crate, {sum(row[1] == -1 for row in rows)} twice in one, {sum(row[0] < -1 for row in rows)} of them doubled")
    for row in sorted(rows):
        print(row[2], -row[1], -row[0], row[3])


if __name__ == "__main__":
    main()
