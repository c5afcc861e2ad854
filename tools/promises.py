#!/usr/bin/env python3
"""promises.py [CRATE..]: what the crates promise, as one page on standard output: the `//!` head of each, in the order of crates.txt."""
import os
import re
import sys

ROOT = os.path.join(os.path.dirname(os.path.abspath(__file__)), "..")


def head(crate):
    """The lines of a crate's head."""
    for root in ("lib.rt", "main.rt"):
        path = os.path.join(ROOT, "crates", crate, "src", root)
        if os.path.exists(path):
            lines = []
            with open(path, encoding="utf-8") as it:
                for line in it:
                    if not line.startswith("//!"):
                        break
                    lines.append(line[3:].removeprefix(" ").rstrip("\n"))
            return lines
    return []


def rendered(lines):
    """A head whose own titles stand below the crate's; links to items are their names."""
    code = False
    for line in lines:
        code ^= line.startswith("```")
        if not code:
            line = re.sub(r"\[`([^`\]]+)`\](\([^)]*\))?", r"`\1`", line)
        yield "###" + line if line.startswith("# ") and not code else line


def main(wanted):
    with open(os.path.join(ROOT, "crates.txt"), encoding="utf-8") as lines:
        for line in lines:
            crate = re.match(r"([a-z_0-9]+)[^:#]*:", line)
            if line.startswith("## ") and not wanted:
                print(line)
            elif crate and (not wanted or crate[1] in wanted):
                print("\n".join([f"### {crate[1]}", "", *rendered(head(crate[1])), ""]))


if __name__ == "__main__":
    main(sys.argv[1:])
