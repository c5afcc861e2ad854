#!/usr/bin/env python3
"""compare_sources.py PROGRAM COUNT SEED: the verdict on hostile sources, of the model and of the code.

Sources are those of `python3 -m model.langfuzz --tokens COUNT SEED`: mutated programs, odd numbers and literals, brackets, blanks, nesting
at 97 to 103. PROGRAM is crates/acceptance, as `rt run` builds it: it is run in a folder that has nothing but an `expressions.rows` of these
sources and an empty `values.rows`.
Compared is whether a source has a tree, and if not the kind of its first fault with line and column. A source that is no UTF-8 is left
out. `python3 -m model.langfuzz --tokens COUNT SEED --program pytest_run` compares the whole program's reports of the same sources, byte by
byte, in which a fault has no column."""
import collections
import os
import subprocess
import sys
import tempfile

sys.dont_write_bytecode = True
from model import lex, parse  # noqa: E402
from model.api import FAULT_TEXT, SourceFault  # noqa: E402
from model.langfuzz import Hostile, known  # noqa: E402

program, count, seed = os.path.abspath(sys.argv[1]), int(sys.argv[2]), int(sys.argv[3])
sys.setrecursionlimit(100000)


def by_model(data):
    """`a tree`, or the first fault."""
    try:
        parse.parse(lex.tokens(lex.decode(data)))
        return "a tree"
    except SourceFault as fault:
        return "%s@%d:%d" % (FAULT_TEXT[fault.kind], fault.line, fault.column)


def by_program(texts):
    rows = "".join("read\t%s\t?\n" % text.replace("\n", "␊") for text in texts)
    with tempfile.TemporaryDirectory() as room:
        with open(os.path.join(room, "expressions.rows"), "wb") as file:
            file.write(rows.encode())
        open(os.path.join(room, "values.rows"), "wb").close()
        done = subprocess.run([program], cwd=room, stdin=subprocess.DEVNULL, stdout=subprocess.PIPE, check=True)
    told = done.stdout.decode().split("\n", 1)[1]  # the first line counts the cases: none
    heads = ["read, %s: " % text.replace("\n", "␊") for text in texts] + ["%d rows, " % len(texts)]
    for head, next_head in zip(heads, heads[1:]):
        assert told.startswith(head), (head, told[:200])
        given, told = told[len(head):].split("\n" + next_head, 1)  # a tree may have a text of several lines
        told = next_head + told
        yield "a tree" if given[:1] in ("", " ") else given


def main():
    cases, left_out = [], 0
    for k in range(seed, seed + count):
        case = Hostile(k).case()
        data = case.files["test_a.py"]
        try:
            text = data.decode()
        except UnicodeDecodeError:
            left_out += 1
            continue
        if "␊" in text:
            left_out += 1
            continue
        cases.append((k, case, text))
    kinds, differing, later = collections.Counter(), 0, 0
    for (k, case, text), given in zip(cases, by_program([text for _, _, text in cases])):
        want = by_model(text.encode())
        kinds[want.split("@")[0]] += 1
        if given == want:
            continue
        if known("accepted", case, None):
            later += 1
            continue
        differing += 1
        print("---- seed %d: the model has %s, the program %s\n%s" % (k, want, given, text))
    for kind, n in kinds.most_common():
        print("%7d %s" % (n, kind))
    print("%d sources, %d left out (no UTF-8), %d compared: %d differ; %d more differ by a character of a later version of Unicode than CPython's"
          % (count, left_out, len(cases), differing, later))
    return 1 if differing else 0


sys.exit(main())
