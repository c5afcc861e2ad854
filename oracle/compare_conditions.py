#!/usr/bin/env python3
"""Explanations of random conditions by a built program against the model's.

compare_conditions.py COUNT SEED --program PATH    COUNT conditions (2000), 40 in a file; each that differs is told by its source and both blocks; the last line counts
compare_conditions.py COUNT SEED --tell            what the model says of them, without a program
compare_conditions.py 40 SEED --show               one file and its report

Nested calls, chains, short circuits, attributes, methods, values past 240 characters, messages that change what is shown, asserts in loops,
in what a test calls, under a `try`, and in a module that is imported (those are not explained).
"""
import argparse
import collections
import os
import random
import re
import sys

from model.runner import deep
from room import by_model, by_program

PER = 40
PRE = '''
class Box:
    size = 3
    def __init__(self, x):
        self.x = x
        self.next = None
    def get(self, n=0):
        return self.x + n
    def set(self, x):
        self.x = x
        return x
    def me(self):
        return self
    def boom(self):
        raise ValueError("boom")
g = [1, 2]
def f(a, b=2):
    return a + b
def same(x):
    return x
def push(x):
    g.append(x)
    return x
def long(n):
    return "x" * n
def wide(n):
    return list(range(n))
def lie(x):
    return 0
def boom(x):
    raise KeyError(x)
def make(x):
    b = Box(x)
    b.next = Box(x + 1)
    return b
def fun():
    return f
'''


class Conditions:
    def __init__(self, r):
        self.r = r

    def num(self, d):
        r = self.r
        if d <= 0 or r.random() < .15:
            return r.choice(["0", "1", "2", "3", "n", "a", "b", "-1", "7", "10"])
        k = r.randrange(17)
        down = d - 1
        if k == 0:
            return "f(%s)" % self.num(down)
        if k == 1:
            return "f(%s, %s)" % (self.num(down), self.num(down))
        if k == 2:
            return "f(%s, b=%s)" % (self.num(down), self.num(down))
        if k == 3:
            return "f(b=%s, a=%s)" % (self.num(down), self.num(down))
        if k == 4:
            return "box.get(%s)" % self.num(down)
        if k == 5:
            return r.choice(["box.x", "box.size", "box.next.x", "box.next.get()", "box.me().x", "box.me().next.get(n=1)", "Box.size", "len(g)", "len(xs)"])
        if k == 6:
            return "same(%s)" % self.num(down)
        if k == 7:
            return "%s %s %s" % (self.num(down), r.choice(["+", "-", "*", "//", "%", "&", "|", "**" if r.random() < .1 else "+"]), self.num(down))
        if k == 8:
            return "(%s)" % self.num(down)
        if k == 9:
            return "%s%s" % (r.choice(["-", "+", "~"]), self.num(0).lstrip("-"))
        if k == 10:
            return "xs[%s]" % r.choice(["0", "1", "-1", "n"])
        if k == 11:
            return "(%s if %s else %s)" % (self.num(down), self.part(down), self.num(down))
        if k == 12:
            return "len(%s)" % self.seq(down)
        if k == 13:
            return "push(%s)" % self.num(down)
        if k == 14:
            return 'd["k"]'
        if k == 15:
            return r.choice(["lie(box)", "lie(f)", "lie(Box)", "lie(None)", "fun()(1, 2)", "box.set(4)", "make(a).next.x", "abs(-2)", "max([1, a])", "min(a, b)", "sum(xs)", "int(\"4\")", "divmod(7, 2)[0]"])
        return "%s.%s" % (r.choice(["box", "make(n)", "box.me()", "same(box)"]), r.choice(["x", "get()", "get(%s)" % self.num(down), "size", "next.x", "set(%s)" % self.num(down)]))

    def seq(self, d):
        r = self.r
        if d <= 0:
            return r.choice(["long(240)", "long(241)", "wide(90)", "xs", "g", "[]", "[1, 2]", "(1, 2)", '"ab"', "s", '""', "{}", "d", "()", "(1,)", '"it\'s"', '"\\xe9\\n"'])
        k = r.randrange(9)
        down = d - 1
        if k == 0:
            return "[%s, %s]" % (self.num(down), self.num(down))
        if k == 1:
            return "(%s, %s)" % (self.num(down), self.seq(down))
        if k == 2:
            return '{"k": %s}' % self.num(down)
        if k == 3:
            return "xs[%s]" % r.choice(["1:", ":1", "::2", ":", "a:b"])
        if k == 4:
            return "same(%s)" % self.seq(down)
        if k == 5:
            return r.choice(["long(237)", "long(238)", "long(239)", "long(240)", "long(241)", "long(300)", "wide(60)", "wide(79)", "wide(80)", "wide(200)", "[long(150), long(150)]", "long(5000)"])
        if k == 6:
            return r.choice(["s.upper()", 's.split(",")', "sorted(xs)", "list(xs)", "d.keys()", "g.copy()", '"a,b".split(",")', "[s, None, True]", "d.items()", "tuple(xs)", "str(box)", "repr(s)", "[[xs], {1: (g, s)}]"])
        if k == 7:
            return "xs + [%s]" % self.num(down)
        return self.seq(0)

    def any(self, d):
        k = self.r.randrange(10)
        if k < 5:
            return self.num(d)
        if k < 8:
            return self.seq(d)
        return self.r.choice(["None", "True", "False", "f", "Box", "len", "box", "box.next", "box.get", "same(f)", "same(Box)", "make(1)", "isinstance(a, int)", "same", "fun()", "int", "pytest", "ValueError", 'ValueError("v")'])

    def cmp(self, d):
        r = self.r
        k = r.randrange(7)
        down = d - 1
        if k == 0:
            ops = ["<", "<=", ">", ">=", "==", "!="]
            return " ".join([self.num(down)] + ["%s %s" % (r.choice(ops), self.num(down)) for _ in range(r.randint(1, 3))])
        if k == 1:
            return "%s %s %s" % (self.any(down), r.choice(["==", "!=", "is", "is not"]), self.any(down))
        if k == 2:
            return "%s %s %s" % (self.any(down), r.choice(["in", "not in"]), self.seq(down))
        if k == 3:
            return "%s == %s == %s" % (self.any(down), self.any(down), self.any(down))
        if k == 4:
            return "%s < %s" % (self.num(down), self.num(down))
        if k == 5:
            return "%s == %s" % (self.seq(down), self.seq(down))
        return "%s == %s" % (self.num(down), self.num(down))

    def cond(self, d):
        r = self.r
        if d <= 0:
            return r.choice(["a", "b", "n", "xs", "lie(a)", "same(0)", "True", "False", "None", "a < b", "a == b", "box.x", "s"])
        k = r.randrange(15)
        down = d - 1
        if k < 4:
            return self.cmp(d)
        if k == 4:
            return "not %s" % (self.cond(down) if r.random() < .4 else "(%s)" % self.cond(down))
        if k == 5:
            return " and ".join(self.part(down) for _ in range(r.randint(2, 4)))
        if k == 6:
            return " or ".join(self.part(down) for _ in range(r.randint(2, 4)))
        if k == 7:
            return "(%s)" % self.cond(down)
        if k == 8:
            return "lie(%s)" % self.any(down)
        if k == 9:
            return "same(%s)" % self.cmp(down)
        if k == 10:
            return self.any(d)
        if k == 11:
            return "%s and %s or %s" % (self.part(down), self.part(down), self.part(down))
        if k == 12:
            return "%s if %s else %s" % (self.part(down), self.part(down), self.cond(down))
        if k == 13:
            return r.choice(["boom(1)", "box.boom()", "lie(boom(2))", 'a == boom("k")', "1 // 0 == 1", "box.none", "a and boom(1)", "a or boom(1)", "xs[9]"])
        return "not not %s" % self.part(down)

    def part(self, d):
        t = self.cond(d)
        return "(%s)" % t if self.r.random() < .35 or " if " in t or t.startswith("not") or " or " in t or " and " in t else t

    def message(self):
        r = self.r
        k = r.randrange(18)
        if k < 7:
            return ""
        return [', "told"', ", %s" % self.any(2), ", box.set(99)", ", xs.append(5)", ", g.clear()", ", boom(3)", ", long(300)", ', "a\\nb"', ", f(1, a)", ", box.next.set(55)", ', ""', ", None"][r.randrange(12)]


def body(r, number):
    """The lines of one test, and those of a function of the imported module that it calls (or none)."""
    g = Conditions(r)
    d = r.choice([1, 2, 2, 3, 3, 4])
    head = ["n = %d" % r.choice([0, 0, 1, 2]), "a = n + %d" % r.randint(0, 3), "b = %d" % r.randint(0, 4), 's = "%s"' % r.choice(["", "q", "a,b"]), "xs = %s" % r.choice(["[]", "[3]", "[1, 2, 3]", "[0, 4]"]),
            'd = {"k": n}', "box = make(%d)" % r.randint(0, 5)]
    one = "assert %s%s" % (g.cond(d), g.message())
    k = r.random()
    if k < .70:
        return head + [one], []
    if k < .80:
        return head + ["for i in [3, 2, 1, 0]:", "    a = i", "    " + one], []
    if k < .86:
        return head + ["try:", "    " + one, "except AssertionError as e:", "    print(str(e))", "    raise ValueError(str(e))"], []
    if k < .91:
        return head + ["assert %s" % g.cond(1), one], []
    if k < .95:
        return ["again(%d)" % r.randint(0, 3)], []
    return ["helper.check_%d()" % number], ["def check_%d():" % number] + ["    " + x for x in head + [one]] + [""]


def again(r):
    g = Conditions(r)
    return ["def again(n):", "    a = n", "    b = 1", '    s = "x"', "    xs = [n, 2]", '    d = {"k": n}', "    box = make(n)", "    assert n == 0 or again(n - 1) == %s%s" % (g.num(2), g.message()), "    return n", ""]


def project(seed, count):
    r = random.Random(seed)
    lines, helper = ["import pytest", "import helper"] + PRE.split("\n") + again(r), ["import pytest"] + PRE.split("\n")
    for k in range(count):
        own, others = body(r, k)
        lines += ["def test_%d():" % k] + ["    " + x for x in own] + [""]
        helper += others
    return [], {"test_a.py": ("\n".join(lines) + "\n").encode("utf-8"), "helper.py": ("\n".join(helper) + "\n").encode("utf-8")}


def blocks(output):
    """The text of each test's block and its line of the summary, and the rest."""
    found, rest, at = {}, [], None
    for line in output.decode("utf-8", "replace").split("\n"):
        title = re.fullmatch(r"_+ (test_\d+) _+", line)
        if title:
            at = title.group(1)
        elif line.startswith("====="):
            at = None
        summed = re.match(r"FAILED test_a\.py::(test_\d+) - ", line)
        name = summed.group(1) if summed else at
        if name is None:
            rest.append(line)
        else:
            found.setdefault(name, []).append(line)
    return {name: "\n".join(text) for name, text in found.items()}, "\n".join(rest)


def source_of(files, name):
    text = files["test_a.py"].decode("utf-8")
    start = text.index("def %s():" % name)
    out = text[start:text.index("\n\n", start)]
    called = re.search(r"helper\.(check_\d+)\(\)", out)
    if called:
        text = files["helper.py"].decode("utf-8")
        start = text.index("def %s():" % called.group(1))
        out += "\n" + text[start:text.index("\n\n", start)]
    return out


def go():
    parser = argparse.ArgumentParser(description=__doc__.split("\n")[0])
    parser.add_argument("count", type=int)
    parser.add_argument("seed", type=int)
    parser.add_argument("--program")
    parser.add_argument("--tell", action="store_true")
    parser.add_argument("--show", action="store_true")
    parser.add_argument("--most", type=int, default=10)
    given = parser.parse_args()
    program = given.program and os.path.abspath(given.program)
    found, bad, done, seed = collections.Counter(), 0, 0, given.seed
    while done < given.count:
        count = min(PER, given.count - done)
        words, files = project(seed, count)
        wanted, status = by_model(words, files)
        mine, rest = blocks(wanted)
        if "ERROR" in rest:
            raise SystemExit("seed %d: the file isn't loaded\n%s" % (seed, rest))
        for text in mine.values():
            told = [line for line in text.split("\n") if line.startswith("E   ")]
            found["failed"] += 1
            found["explained"] += any("assert " in line for line in told)
            found["with where or and"] += any(line.startswith(("E    +", "E     ")) for line in told)
            found["with a message in front"] += told[0].startswith("E   AssertionError: ") and len(told) > 1
            found["shortened"] += any("..." in line for line in told)
            found["another exception"] += not told[0].startswith(("E   assert", "E   AssertionError"))
        if given.show:
            print(files["test_a.py"].decode("utf-8"))
            print(files["helper.py"].decode("utf-8"))
            print(wanted.decode("utf-8"))
        if program is not None:
            got, came = by_program(program, words, files)
            if (got, came) != (wanted, status):
                yours, other = blocks(got)
                names = sorted(n for n in set(mine) | set(yours) if mine.get(n) != yours.get(n))
                bad += max(1, len(names))
                if not names:
                    print("==== seed %d: the rest differs, status %d and %d\n---- model\n%s\n---- program\n%s" % (seed, status, came, rest, other))
                for name in names[:max(0, given.most)]:
                    print("==== seed %d, %s\n%s\n---- model\n%s\n---- program\n%s" % (seed, name, source_of(files, name), mine.get(name, "passed"), yours.get(name, "passed")))
                given.most -= len(names)
        done += count
        seed += 1
    if given.tell:
        for what, n in found.most_common():
            print("%7d %s" % (n, what))
    print("%d conditions, %d of them failed, %d explained; %d differ" % (done, found["failed"], found["explained"], bad))
    return 1 if bad else 0


if __name__ == "__main__":
    sys.exit(deep(go))
