#!/usr/bin/env python3
"""Makes the tables of rows and the cases of crates/acceptance anew, and says where they stand otherwise. It writes nothing there.

rows.py                 all tables; the status is 1 where a row, a case, or what acceptance prints of them, differs
rows.py TABLE..         these: sources, values, programs, cases
rows.py --print TABLE   writes a table as it is made to standard output (of cases: those that differ)

What is asked stands in the tables themselves, written by hand: sources, operands, programs with their acts and budgets, words and trees; but for
the cases of wrappers, which rows_wrappers.py makes whole. What is wanted is made here from it. So a new row is a line with anything as its answer,
and this says what it must be.
"""
import difflib
import os
import sys

sys.dont_write_bytecode = True
import rows_cases  # noqa: E402
import rows_programs  # noqa: E402
import rows_sources  # noqa: E402
import rows_values  # noqa: E402
import rows_wrappers  # noqa: E402
from model.runner import deep  # noqa: E402
from room import ROOT  # noqa: E402

ACCEPTANCE = os.path.join(ROOT, "crates/acceptance")


def read(name):
    with open(os.path.join(ACCEPTANCE, name), encoding="utf-8", newline="") as it:
        return it.read()


class Lines:
    """A table of a row a line."""

    def __init__(self, file, made):
        self.file, self.made = file, made

    def make(self):
        """The table, what acceptance prints of it, and what is wrong with its rows that want what isn't given."""
        lines, told, faults, count = [], [], [], 0
        for line in read(self.file).split("\n"):
            if not line or line.startswith("#"):
                lines.append(line)
                continue
            count += 1
            new, fault, differs = self.made(line)
            lines.append(new)
            if fault is not None:
                told.append(fault)
            if not differs:
                faults.append("this row wants what is given: " + line)
        told.append("%d rows, %d of them not as wanted" % (count, len(told)))
        return {self.file: "\n".join(lines)}, told, faults


class Programs:
    """The table of programs, whose rows have many lines."""

    def make(self):
        text, told, faults = rows_programs.make(read(rows_programs.FILE))
        return {rows_programs.FILE: text}, told, faults


class Cases:
    """The cases, each in a file of its own. What those of wrappers ask is made too."""

    def make(self):
        files, told, faults = {}, [], []
        names = {it for it in os.listdir(os.path.join(ACCEPTANCE, "data")) if it.endswith(".case")} | set(rows_wrappers.CASES)
        for name in sorted(names):
            asked = rows_wrappers.asked(name) if name in rows_wrappers.CASES else read("data/" + name)
            files["data/" + name], fault, wrong = rows_cases.make(name, asked)
            if name in rows_wrappers.CASES:
                wrong += rows_wrappers.wrong(name, files["data/" + name])
            told += ["%s: %s" % (name, fault)] if fault else []
            faults += ["%s: %s" % (name, wrong)] if wrong else []
        told.append("%d cases, %d of them not as wanted" % (len(names), len(told)))
        return files, told, faults


# In the order in which acceptance reads them.
TABLES = {"cases": Cases(), "sources": Lines("data/expressions.rows", rows_sources.made), "values": Lines("data/values.rows", rows_values.made), "programs": Programs()}


def differences(name, made):
    standing = read(name) if os.path.exists(os.path.join(ACCEPTANCE, name)) else ""
    if standing == made:
        return []
    return list(difflib.unified_diff(standing.split("\n"), made.split("\n"), name, "as it is made", lineterm="", n=0))


def main(words):
    names = [it for it in words if it != "--print"] or list(TABLES)
    if unknown := [it for it in names if it not in TABLES]:
        sys.exit("no table " + unknown[0])
    told, wrong = [], 0
    for name in names:
        files, lines, faults = TABLES[name].make()
        told += lines
        for file, text in files.items():
            shown = differences(file, text)
            if "--print" in words:
                if len(files) == 1 or shown:
                    sys.stdout.write(text)
                continue
            wrong += bool(shown)
            print("\n".join(shown[:200]) if shown else "", end="\n" if shown else "")
        for fault in faults:
            wrong += 1
            print("%s: %s" % (name, fault))
        if "--print" not in words:
            print("%s: %s" % (name, lines[-1]), flush=True)
    if names == list(TABLES) and "--print" not in words:
        shown = differences("stdout", "\n".join(told) + "\n")
        wrong += bool(shown)
        if shown:
            print("\n".join(shown))
        print("all as they are made" if not wrong else "%d files differ" % wrong)
    return 1 if wrong else 0


if __name__ == "__main__":
    sys.exit(deep(lambda: main(sys.argv[1:])))
