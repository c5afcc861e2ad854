#!/usr/bin/env python3
"""Runs the runs that the documents show, and says which of them the program writes otherwise.

python3 bench/documents.py [PROGRAM]    (crates/pytest_run/out/pytest_run, which ./pytest_run builds, where none is named)

A run stands in a block between ``` whose commands begin with `$ `: what `cat FILE` shows is the file, and what stands behind
`./pytest_run WORDS` is what the program must write in a folder with the files above it in the block.
"""
import os
import re
import subprocess
import sys
import tempfile

ROOT = os.path.dirname(os.path.dirname(os.path.abspath(__file__)))
DOCUMENTS = ["README.md", "docs/USAGE.md", "docs/FIXTURES.md"]


def commands(text):
    """Each block's commands, as pairs of the command and what stands behind it."""
    for block in re.findall(r"^```\n(\$ .*?)^```$", text, re.M | re.S):
        yield [part.partition("\n")[::2] for part in re.split(r"^\$ ", block, flags=re.M)[1:]]


def faults(program, document):
    """The commands of a document that write something else."""
    with open(os.path.join(ROOT, document), encoding="utf-8") as it:
        blocks = list(commands(it.read()))
    for block in blocks:
        with tempfile.TemporaryDirectory() as folder:
            for command, shown in block:
                first, *words = command.split()
                if first == "cat":
                    path = os.path.join(folder, words[0])
                    os.makedirs(os.path.dirname(path), exist_ok=True)
                    with open(path, "w", encoding="utf-8") as it:
                        it.write(shown)
                else:
                    ran = subprocess.run([program, *words], cwd=folder, stdout=subprocess.PIPE, text=True)
                    if ran.stdout != shown:
                        yield command, ran.stdout
    if not blocks:
        yield "no run", ""


def main(words):
    program = os.path.abspath(words[0] if words else os.path.join(ROOT, "crates/pytest_run/out/pytest_run"))
    wrong = [(document, *it) for document in DOCUMENTS for it in faults(program, document)]
    for document, command, written in wrong:
        print(f"{document}: {command} writes\n{written}")
    print(f"{len(wrong)} runs not as the documents show them")
    return 1 if wrong else 0


if __name__ == "__main__":
    sys.exit(main(sys.argv[1:]))
