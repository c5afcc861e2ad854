#!/usr/bin/env python3
"""Random programs of the language: the model against the program, and the model against CPython.

    python3 -m model.langfuzz COUNT SEED [--level small|full] [--program PATH] [--cpython] [--steps]
                             [--show] [--keep N] [--quick] [--refused] [--known]
    python3 -m model.langfuzz --tokens COUNT SEED [--program PATH] [--cpython] [...]

A case is made by its own seed (SEED, SEED + 1, ..), so `1 N` makes case N of a longer run again.

--level small   the small language: names, calls by position, and/or/not, comparisons, if-else, unary -,
                + - * // %, + on texts, assignments, if/while/def, return, global, assert, print, len, str.
--level full    the whole language: containers, methods, try, for, classes, defaults, imports of a sibling, pytest.raises ..
--program PATH  writes the tree, runs PATH there (20 s at most) and compares bytes and status with the model.
                `ERROR: not built` of the program alone is counted apart (--refused shows these); `not built` of the
                model alone is a difference.
--cpython       each test function is called in CPython too: printed text, class of the exception, and the message
                where the program's own code made the exception. What meets a limit that CPython hasn't (128 bits,
                65,536 elements, 200 calls, steps) is left aside from there on. With --tokens: what the model reads
                must compile.
--steps         each case again with step limits at the model's own step counts: n, n - 1, and some below. With
                --program compared; without, the model is asked whether n suffices and n - 1 doesn't.
--tokens        hostile sources: mutated ones, odd numbers and literals, brackets, blanks, nesting at 97 to 103.
--known         show the differences that were reported before, too (see `known`).
--keep N        show at most N cases of each kind of difference (3); --quick doesn't minimise; --show prints all cases.

Single process; nothing is written outside a temporary folder.
"""
import ast
import difflib
import io
import os
import random
import re
import resource
import shutil
import signal
import subprocess
import sys
import tempfile
import time
import traceback
import types
import unicodedata
import warnings

sys.dont_write_bytecode = True
HERE = os.path.dirname(os.path.abspath(__file__))
sys.path.insert(0, os.path.dirname(HERE))

# ====================================================================================== generator: parts

(TERNARY, OR, AND, NOT, COMPARE, BITOR, XOR, BAND, SHIFT, SUM, PROD, UNARY, POWER, PRIMARY, ATOM) = range(15)
MAX = 2 ** 127 - 1
EDGES = ["170141183460469231731687303715884105727", "170141183460469231731687303715884105726",
         "-170141183460469231731687303715884105727", "-170141183460469231731687303715884105727 - 1",
         "85070591730234615865843651857942052864", "85070591730234615865843651857942052863",
         "9223372036854775807", "9223372036854775808", "18446744073709551616", "18446744073709551615",
         "13043817825332782212", "-9223372036854775808", "4294967296", "2147483648", "65536", "65537"]
TEXTS = ["", "a", "b", "ab", "abc", "x y", "0", "7", "12", " 5 ", "-3", "it's", 'say "q"', "a\tb", "l1\nl2", "back\\slash",
         "end\n", "Mixed Case", "assert x", "aXbXc", "....", "# no", "100", "zzz", "(", "%d", "{}", "\x01\x7f", "a,b,c",
         "both ' and \"", "\r", "é", "naïve", "中文", "😀", "λx"]
COMMON_TEXTS = ["", "a", "b", "ab", "abc", "x y", "0", "7", "12", " 5 ", "-3", "it's", 'say "q"', "a\tb", "l1\nl2",
                "back\\slash", "Mixed Case", "aXbXc", "....", "# no", "100", "zzz", "(", "\x01\x7f", "a,b,c", "中文", "😀",
                "both ' and \""]
BUILTIN_EXC = ["ValueError", "KeyError", "IndexError", "TypeError", "RuntimeError", "LookupError", "ArithmeticError",
               "ZeroDivisionError", "NotImplementedError", "AssertionError", "AttributeError", "NameError", "ImportError",
               "OverflowError", "Exception"]
CATCH_EXC = BUILTIN_EXC + ["BaseException", "MemoryError", "RecursionError", "ModuleNotFoundError", "UnboundLocalError"]
POOLS = {"int": ["a", "b", "c", "n", "m", "x", "y", "z", "total"], "str": ["s", "t", "u", "word"],
         "bool": ["p", "q", "flag"], "none": ["nil"], "any": ["v", "w"], "range": ["rng"]}


class Fn:
    """A function that can be called: params are (name, type, whether it has a default)."""

    def __init__(self, name, params, ret, cost, top=None):
        self.name, self.params, self.ret, self.cost = name, params, ret, cost
        self.top = top            # for a recursion: the argument with which it goes (top) deep


class Cls:
    def __init__(self, name, params, fields, methods, cost):
        self.name, self.params, self.fields, self.methods, self.cost = name, params, fields, methods, cost


class Ctx:
    """Where a statement stands."""

    def __init__(self, fn, ret, ill, limit):
        self.vars = []           # (name, type), the latest last
        self.fn, self.ret, self.ill, self.limit = fn, ret, ill, limit
        self.loop = 0            # loops around it
        self.cond = False        # within an `if`, so that what follows isn't dead
        self.cont = False        # whether `continue` ends
        self.mult = 1
        self.cost = [0]
        self.fixed = []          # names not to be assigned
        self.handler = None      # the name of the exception and whether it may be shown, within `except`
        self.depth = 0
        self.cls = None

    def inner(self, **more):
        c = Ctx.__new__(Ctx)
        c.__dict__.update(self.__dict__)
        c.vars = list(self.vars)
        c.fixed = list(self.fixed)
        c.depth = self.depth + 1
        c.__dict__.update(more)
        return c

    def spend(self, n):
        self.cost[0] += n * self.mult

    def room(self, n):
        return self.cost[0] + n * self.mult < self.limit


class Case:
    def __init__(self, words, files, seed):
        self.words, self.files, self.seed = words, files, seed     # files: path -> bytes


class Gen:
    def __init__(self, seed, level, common=False):
        self.r = random.Random("langfuzz %s %d %d" % (level, seed, common))
        self.seed, self.full, self.common = seed, level == "full", common
        self.n = 0

    # ------------------------------------------------------------------ small helpers
    def chance(self, p):
        return self.r.random() < p

    def pick(self, weighted):
        total = 0.0
        for w, _ in weighted:
            total += w
        x = self.r.random() * total
        for w, f in weighted:
            x -= w
            if x < 0:
                return f
        return weighted[-1][1]

    def fresh(self):
        self.n += 1
        return self.n

    def par(self, e, least):
        text, prec = e
        if prec < least or (self.noisy and self.chance(0.05)) or (least == PRIMARY and text[0].isdigit()):
            return "(" + text + ")"
        return text

    def sp(self):
        """The blanks beside an operator."""
        if self.noisy and self.chance(0.1):
            return self.r.choice(["", "", "  ", "\t"])
        return " "

    # ------------------------------------------------------------------ literals
    def lit_int(self):
        r, x = self.r, self.r.random()
        if x < 0.55:
            return (str(r.choice([0, 1, 1, 2, 2, 3, 3, 4, 5, 7, 9])), ATOM)
        if x < 0.75:
            return (str(r.randrange(10, 300)), ATOM)
        if x < (0.77 if self.common else 0.84):
            t = r.choice(EDGES)
            return (t, SUM if " - " in t else UNARY if t[0] == "-" else ATOM)
        if x < 0.92:
            n = r.randrange(0, 5000)
            return (r.choice(["0x%x", "0X%X", "0o%o", "%d", "0b" + bin(n)[2:] + "%.0s"]) % n, ATOM)
        if x < 0.95:
            return (r.choice(["1_000", "0x_ff", "0", "00", "0_0", "12_34_5"]), ATOM)
        return (str(r.randrange(0, 2 ** r.choice([16, 31, 40, 63] + ([] if self.common else [64, 100, 126])))), ATOM)

    def spell(self, text):
        """A literal of this text."""
        r = self.r
        style = r.random()
        quote = '"' if self.chance(0.7) else "'"
        if style < 0.05 and "\\" not in text and "\r" not in text and '"""' not in text and not text.endswith('"') \
                and all(ord(x) >= 32 or x in "\n\t" for x in text):
            return r.choice(["", "r", "R"]) + '"""' + text + '"""'
        if style < 0.1 and "\\" not in text and quote not in text and all(ord(x) >= 32 for x in text):
            return r.choice("rR") + quote + text + quote
        out = []
        for ch in text:
            if ch == quote or ch == "\\":
                out.append("\\" + ch)
            elif ch in "\n\r\t" and not (ch == "\t" and self.chance(0.3)):
                out.append({"\n": "\\n", "\r": "\\r", "\t": "\\t"}[ch])
            elif ord(ch) < 32 and ch != "\t" or ord(ch) == 127:
                out.append("\\x%02x" % ord(ch))
            elif self.noisy and self.chance(0.04):
                n = ord(ch)
                out.append("\\x%02x" % n if n < 256 and self.chance(0.5) else "\\%03o" % n if n < 512 and self.chance(0.3)
                           else "\\u%04x" % n if n < 65536 else "\\U%08x" % n)
            else:
                out.append(ch)
        if self.noisy and self.chance(0.03):
            out.insert(r.randrange(len(out) + 1), "\\\n")
        return quote + "".join(out) + quote

    def lit_str(self):
        t = self.spell(self.r.choice(COMMON_TEXTS if self.common else TEXTS))
        if self.chance(0.04):
            more = self.spell(self.r.choice(["", "z", "q1"]))
            t += self.r.choice([" ", ""] if more[0] != t[-1] and more[0] in "'\"" else [" "]) + more
        return (t, ATOM)

    # ------------------------------------------------------------------ names
    def visible(self, c, t):
        return [n for n, vt in c.vars if vt == t]

    def var(self, c, t):
        names = self.visible(c, t)
        return self.r.choice(names) if names else None

    def bind(self, c, name, t):
        c.vars[:] = [v for v in c.vars if v[0] != name]
        c.vars.append((name, t))

    def pool(self, t):
        if isinstance(t, str):
            return POOLS[t]
        kind = t[0]
        if kind == "list":
            return ["xs", "ys", "zs"] if t[1] == "int" else ["ws", "ts"] if t[1] == "str" else ["ls", "ks"]
        if kind == "dict":
            return ["d", "e1"] if t[1] == "str" else ["dd", "e2"]
        if kind == "tuple":
            return ["tt" + str(len(t[1])) + (t[1][0] if t[1] and isinstance(t[1][0], str) else "")[:1]]
        return ["o_" + t[1].name.lower()]

    def may_assign(self, c, n):
        return n not in c.fixed and (not c.fn or n in self.declared or not (n.startswith("g") or n == "CONST"))

    def local_name(self, c, t):
        names = [n for n in self.pool(t) if n not in c.fixed]
        return self.r.choice(names) if names else "v%d" % self.fresh()

    def fns(self, c, t):
        return [f for f in self.functions if f.ret == t and c.room(f.cost + 5)]

    # ------------------------------------------------------------------ expressions: (text, precedence)
    def simple_type(self, c):
        return self.r.choice(["int", "int", "int", "str", "str", "bool", "none"])

    def some_type(self, c):
        if not self.full or self.chance(0.45):
            return self.simple_type(c)
        k = self.r.random()
        if k < 0.35:
            return ("list", self.r.choice(["int", "int", "str", ("list", "int"), "any"]))
        if k < 0.5:
            return ("tuple", tuple(self.r.choice([("int",), ("int", "int"), ("str", "int"), ("int", "str", "bool"), ()])))
        if k < 0.7:
            return ("dict", self.r.choice(["str", "int"]), self.r.choice(["int", "int", "str", ("list", "int")]))
        if k < 0.75:
            return "range"
        if self.classes and k < 0.9:
            return ("obj", self.r.choice(self.classes))
        return "int"

    def shown_type(self, c):
        """A type whose values look alike everywhere."""
        while True:
            t = self.some_type(c)
            if not self.common or t[0] != "obj":
                return t

    def e(self, c, t, d=None):
        if d is None:
            d = self.r.choice([0, 1, 1, 2, 2, 3])
        if c.ill and self.chance(0.05):
            t = self.shown_type(c)
        if t == "any":
            t = self.shown_type(c)
        kind = t if isinstance(t, str) else t[0]
        return getattr(self, "e_" + kind)(c, t, d)

    def text(self, c, t, d=None):
        return self.e(c, t, d)[0]

    def leaf(self, c, t, made):
        name = self.var(c, t)
        if name is not None and self.chance(0.75):
            return (name, ATOM)
        return made()

    def ternary(self, c, t, d):
        a, b, x = self.e(c, t, d - 1), self.e(c, "bool", d - 1), self.e(c, t, d - 1)
        return ("%s if %s else %s" % (self.par(a, OR), self.par(b, OR), self.par(x, TERNARY)), TERNARY)

    def either(self, c, t, d):
        a, b = self.e(c, t, d - 1), self.e(c, t, d - 1)
        if self.chance(0.5):
            return ("%s and %s" % (self.par(a, AND), self.par(b, NOT)), AND)
        return ("%s or %s" % (self.par(a, OR), self.par(b, AND)), OR)

    def group(self, c, t, d):
        text = self.text(c, t, d - 1)
        if self.noisy and self.chance(0.15):
            return ("(\n" + " " * self.r.randrange(0, 9) + text + self.r.choice(["", "  # c", "\n"]) + "\n)", ATOM)
        return ("(" + text + ")", ATOM)

    def args(self, c, f, d):
        """The text of fitting arguments."""
        r = self.r
        params = list(f.params)
        out = []
        if f.top is not None:
            top = r.choice([0, 1, 2, 3, 4, 5, 6]) if not f.cost else r.choice(f.top)
            out.append(str(top))
            params = params[1:]
        named = []
        for name, t, default in params:
            if default and self.chance(0.4):
                named.append(None)
                continue
            e = self.text(c, t, d - 1)
            if self.full and (named or self.chance(0.15)):
                named.append("%s=%s" % (name, e))
            else:
                out.append(e)
        named = [x for x in named if x]
        r.shuffle(named)
        return ", ".join(out + named) + ("," if self.noisy and out + named and self.chance(0.05) else "")

    def call(self, c, t, d):
        fs = self.fns(c, t)
        if not fs:
            return self.leaf_of(c, t)
        f = self.r.choice(fs)
        c.spend(f.cost + 2)
        return ("%s(%s)" % (f.name, self.args(c, f, d)), PRIMARY)

    def leaf_of(self, c, t):
        return self.e(c, t, 0)

    def binary(self, c, op, prec, lt, rt, d):
        a, b = self.e(c, lt, d - 1), self.e(c, rt, d - 1)
        return ("%s%s%s%s%s" % (self.par(a, prec), self.sp(), op, self.sp(), self.par(b, prec + 1)), prec)

    def e_int(self, c, t, d):
        if d <= 0:
            return self.leaf(c, "int", self.lit_int)
        r = self.r
        num = lambda: "bool" if self.chance(0.06) else "int"
        opts = [(9, lambda: self.binary(c, r.choice("+-"), SUM, num(), num(), d)),
                (4, lambda: self.binary(c, "*", PROD, num(), num(), d)),
                (3, lambda: self.divided(c, d)),
                (2, lambda: ("-" + self.par(self.e(c, num(), d - 1), UNARY), UNARY)),
                (2, lambda: ("len(%s)" % self.text(c, "str", d - 1), PRIMARY)),
                (5, lambda: self.call(c, "int", d)),
                (1.5, lambda: self.ternary(c, "int", d)), (1, lambda: self.either(c, "int", d)),
                (1, lambda: self.group(c, "int", d)), (6, lambda: self.leaf(c, "int", self.lit_int))]
        if self.full:
            opts += [(1, lambda: self.binary(c, r.choice("&"), BAND, num(), num(), d)),
                     (1, lambda: self.binary(c, "|", BITOR, num(), num(), d)),
                     (1, lambda: self.binary(c, "^", XOR, num(), num(), d)),
                     (1, lambda: self.shifted(c, d)), (1, lambda: self.power(c, d)),
                     (1, lambda: (r.choice("+~") + self.par(self.e(c, num(), d - 1), UNARY), UNARY)),
                     (10, lambda: self.int_of(c, d))]
        return self.pick(opts)()

    def divided(self, c, d):
        a = self.e(c, "int", d - 1)
        b = self.e(c, "int", d - 1) if self.chance(0.3) else (str(self.r.choice([1, 2, 3, 5, 7, 10, 64])), ATOM)
        if self.chance(0.15):
            b = ("-" + self.par(b, UNARY), UNARY)
        return ("%s %s %s" % (self.par(a, PROD), self.r.choice(["//", "%"]), self.par(b, UNARY)), PROD)

    def shifted(self, c, d):
        a = self.e(c, "int", d - 1)
        n = self.r.choice([0, 1, 2, 3, 8, 63] if self.common else [0, 1, 2, 3, 8, 63, 64, 126, 127, 128, 200])
        b = (str(n), ATOM) if self.chance(0.85) else self.e(c, "int", d - 1)
        return ("%s %s %s" % (self.par(a, SHIFT), self.r.choice(["<<", ">>", ">>"]), self.par(b, SUM)), SHIFT)

    def power(self, c, d):
        a = self.e(c, "int", d - 1)
        b = (str(self.r.choice([0, 1, 2, 2, 3, 5] + ([] if self.common else [63, 64, 126, 127]))), ATOM)
        if not self.common and self.chance(0.15):
            b = self.e(c, "int", d - 1)
        return ("%s ** %s" % (self.par(a, PRIMARY), self.par(b, UNARY)), POWER)

    def int_of(self, c, d):
        """Numbers that come from containers, objects and built-in functions."""
        r = self.r
        li, ls = ("list", "int"), ("list", "str")
        k = r.randrange(20)
        sub = lambda t: self.par(self.e(c, t, d - 1), PRIMARY)
        if k < 3:
            return ("%s[%s]" % (sub(li), self.index(c, d)), PRIMARY)
        if k < 5:
            return ("%s[%s]" % (sub(("dict", "str", "int")), self.key(c, d)), PRIMARY)
        if k == 5:
            return ("%s.get(%s, %s)" % (sub(("dict", "str", "int")), self.key(c, d), self.text(c, "int", d - 1)), PRIMARY)
        if k == 6:
            return ("%s(%s)" % (r.choice(["sum", "min", "max", "len"]), self.text(c, li, d - 1)), PRIMARY)
        if k == 7:
            return ("%s(%s, %s)" % (r.choice(["min", "max"]), self.text(c, "int", d - 1), self.text(c, "int", d - 1)), PRIMARY)
        if k == 8:
            return ("abs(%s)" % self.text(c, "int", d - 1), PRIMARY)
        if k == 9:
            return ("ord(%s)" % self.spell(r.choice(["a", "Z", "0", "é" if not self.common else "z"])), PRIMARY)
        if k == 10:
            return ("int(%s)" % (self.text(c, r.choice(["int", "bool"]), d - 1) if self.chance(0.5)
                                 else self.spell(r.choice(["12", " -7 ", "+3", "x", "", "1 2", "007"]))), PRIMARY)
        if k == 11:
            return ("%s.%s(%s)" % (sub("str"), r.choice(["find", "count"]), self.text(c, "str", d - 1)), PRIMARY)
        if k == 12:
            return ("%s.%s(%s)" % (sub(li), r.choice(["index", "count", "count"]), self.text(c, "int", d - 1)), PRIMARY)
        if k == 13:
            return ("divmod(%s, %s)[%s]" % (self.text(c, "int", d - 1), r.choice(["2", "3", "-5", self.text(c, "int", d - 1)]),
                                            r.choice("01")), PRIMARY)
        if k == 14:
            return ("%s[%s]" % (sub(("tuple", ("int", "int"))), r.choice(["0", "1", "-1", "-2", "0", "2"])), PRIMARY)
        if k == 15:
            return ("len(%s)" % self.text(c, self.container(c), d - 1), PRIMARY)
        if k == 16:
            return ("%s.pop(%s)" % (self.var(c, li) or "[4, 5]", r.choice(["", "", "0", "-1", "1"])), PRIMARY)
        if k == 17:
            return ("%s[%s]" % (sub("range"), self.index(c, d)), PRIMARY)
        if self.classes:
            return self.of_object(c, "int", d)
        return self.leaf(c, "int", self.lit_int)

    def of_object(self, c, t, d):
        """A field or a method of an object."""
        r = self.r
        cls = r.choice(self.classes)
        o = self.par(self.e(c, ("obj", cls), d - 1), PRIMARY)
        ways = [(o + "." + n, 0) for n, ft in cls.fields if ft == t]
        ways += [(m, 1) for m in cls.methods if m.ret == t and c.room(m.cost + 5)]
        if not ways:
            return self.leaf_of(c, t)
        way, is_method = r.choice(ways)
        if not is_method:
            return (way, PRIMARY)
        c.spend(way.cost + 2)
        return ("%s.%s(%s)" % (o, way.name, self.args(c, way, d)), PRIMARY)

    def index(self, c, d):
        if self.chance(0.85):
            return self.r.choice(["0", "0", "0", "-1", "-1", "1", "True" if self.chance(0.5) else "-2"])
        return self.text(c, "int", d - 1)

    def key(self, c, d):
        if self.chance(0.8):
            return self.spell(self.r.choice(["a", "b", "k"]))
        return self.text(c, "str", d - 1)

    def container(self, c):
        r = self.r
        return r.choice([("list", "int"), ("list", "str"), ("dict", "str", "int"), ("tuple", ("int", "int")), "range", "str",
                         ("list", "any"), ("list", ("list", "int"))])

    def e_str(self, c, t, d):
        if d <= 0:
            return self.leaf(c, "str", self.lit_str)
        opts = [(6, lambda: self.binary(c, "+", SUM, "str", "str", d)),
                (5, lambda: ("str(%s)" % self.text(c, self.shown_type(c), d - 1), PRIMARY)),
                (4, lambda: self.call(c, "str", d)), (1, lambda: self.ternary(c, "str", d)),
                (1, lambda: self.either(c, "str", d)), (1, lambda: self.group(c, "str", d)),
                (6, lambda: self.leaf(c, "str", self.lit_str)), (0.4, lambda: self.repeated(c, "str", d))]
        if self.full:
            opts += [(8, lambda: self.str_of(c, d)), (1, lambda: self.repeated(c, "str", d))]
        return self.pick(opts)()

    def repeated(self, c, t, d):
        a, b = self.e(c, t, d - 1), (self.r.choice(["0", "1", "2", "3", "-1", "True"]), PROD)
        if self.chance(0.3):
            a, b = b, a
        return ("%s * %s" % (self.par(a, PROD), self.par(b, UNARY)), PROD)

    def str_of(self, c, d):
        r = self.r
        k = r.randrange(13)
        s = lambda: self.par(self.e(c, "str", d - 1), PRIMARY)
        if k < 2:
            return ("%s[%s]" % (s(), self.index(c, d)), PRIMARY)
        if k < 4:
            return ("%s[%s]" % (s(), self.slice(c, d)), PRIMARY)
        if k < 6:
            return ("%s.%s()" % (s(), r.choice(["upper", "lower", "strip"])), PRIMARY)
        if k == 6:
            return ("%s.replace(%s, %s)" % (s(), self.text(c, "str", 0), self.text(c, "str", 0)), PRIMARY)
        if k == 7:
            return ("%s.join(%s)" % (self.spell(r.choice(["", ",", "--"])), self.text(c, ("list", "str"), d - 1)), PRIMARY)
        if k == 8:
            return ("chr(%s)" % r.choice(["97", "0x41", "10", "48"] + ([] if self.common else ["0x1F600", "-1", "0xD800"])), PRIMARY)
        if k == 9:
            return ("repr(%s)" % self.text(c, self.shown_type(c), d - 1), PRIMARY)
        if k == 10:
            return ("%s[%s]" % (self.par(self.e(c, ("list", "str"), d - 1), PRIMARY), self.index(c, d)), PRIMARY)
        if k == 11:
            return ("%s[%s]" % (self.par(self.e(c, ("dict", "int", "str"), d - 1), PRIMARY), self.text(c, "int", 0)), PRIMARY)
        if self.classes:
            return self.of_object(c, "str", d)
        return self.leaf(c, "str", self.lit_str)

    def slice(self, c, d):
        r = self.r
        part = lambda: r.choice(["", "", "0", "1", "2", "-1", "-2", "5", "None", "True"]) if self.chance(0.9) else self.text(c, "int", d - 1)
        out = part() + ":" + part()
        if self.chance(0.4):
            out += ":" + r.choice(["", "1", "2", "-1", "-2", "3", "0" if self.chance(0.3) else "-3"])
        return out

    def e_bool(self, c, t, d):
        r = self.r
        if d <= 0:
            return self.leaf(c, "bool", lambda: (r.choice(["True", "False"]), ATOM))
        opts = [(8, lambda: self.compared(c, d)),
                (3, lambda: ("not " + self.par(self.e(c, self.some_type(c), d - 1), NOT), NOT)),
                (4, lambda: self.either(c, "bool", d)), (2, lambda: self.call(c, "bool", d)),
                (0.7, lambda: self.ternary(c, "bool", d)), (0.7, lambda: self.group(c, "bool", d)),
                (2, lambda: self.leaf(c, "bool", lambda: (r.choice(["True", "False"]), ATOM)))]
        if self.full:
            opts += [(5, lambda: self.bool_of(c, d))]
        return self.pick(opts)()

    def compared(self, c, d):
        r = self.r
        if self.chance(0.75):
            t = r.choice(["int", "int", "int", "str"])
            if self.full and self.chance(0.15):
                t = r.choice([("list", "int"), ("tuple", ("int", "int")), ("list", "str"), ("tuple", ("str", "int"))])
            ops = ["==", "!=", "<", "<=", ">", ">="]
        else:
            t = None
            ops = ["==", "!="]
        part = lambda: self.par(self.e(c, t or self.shown_type(c), d - 1), BITOR)
        out = part()
        for _ in range(r.choice([1, 1, 1, 1, 1, 2, 2, 3])):
            out += "%s%s%s%s" % (self.sp(), r.choice(ops), self.sp(), part())
        return (out, COMPARE)

    def bool_of(self, c, d):
        r = self.r
        k = r.randrange(9)
        if k < 2:
            t, of = r.choice([("int", ("list", "int")), ("str", "str"), ("str", ("dict", "str", "int")), ("int", "range"),
                              ("str", ("list", "str")), ("int", ("tuple", ("int", "int"))), (("list", "int"), ("list", ("list", "int")))])
            return ("%s %s %s" % (self.par(self.e(c, t, d - 1), BITOR), r.choice(["in", "not in"]),
                                  self.par(self.e(c, of, d - 1), BITOR)), COMPARE)
        if k == 2:
            t = r.choice([("list", "int"), ("dict", "str", "int"), "none"])
            return ("%s %s %s" % (self.par(self.e(c, t, 0), BITOR), r.choice(["is", "is not"]),
                                  r.choice(["None", "True", self.par(self.e(c, ("list", "int"), 0), BITOR)])), COMPARE)
        if k == 3:
            return ("isinstance(%s, %s)" % (self.text(c, self.some_type(c), d - 1),
                                            r.choice(["int", "str", "bool", "list", "tuple", "dict", "(int, str)", "(bool, list)",
                                                      "Exception", "()"] + [x.name for x in self.classes])), PRIMARY)
        if k == 4:
            return ("%s.%s(%s)" % (self.par(self.e(c, "str", d - 1), PRIMARY), r.choice(["startswith", "endswith"]),
                                   self.text(c, "str", 0)), PRIMARY)
        if k == 5:
            return ("%s(%s)" % (r.choice(["all", "any"]), self.text(c, self.container(c), d - 1)), PRIMARY)
        if k == 6:
            return ("bool(%s)" % self.text(c, self.some_type(c), d - 1), PRIMARY)
        if k == 7:
            return ("%s.isdigit()" % self.par(self.e(c, "str", d - 1), PRIMARY), PRIMARY)
        if self.classes and self.chance(0.5):
            return ("hasattr(%s, %s)" % (self.text(c, ("obj", r.choice(self.classes)), 0), self.spell(r.choice(["x", "y", "nope", "get"]))), PRIMARY)
        return ("callable(%s)" % r.choice(["len", "5", '"s"'] + [f.name for f in self.functions[:2]]), PRIMARY)

    def e_none(self, c, t, d):
        if d > 0 and self.chance(0.4):
            return self.call(c, "none", d)
        if d > 0 and self.chance(0.2):
            return ("print(%s)" % self.text(c, self.shown_type(c), d - 1), PRIMARY)
        return self.leaf(c, "none", lambda: ("None", ATOM))

    def e_range(self, c, t, d):
        n = lambda: self.text(c, "int", 0) if self.chance(0.15) else str(self.r.choice([0, 1, 2, 3, 5, 6, -2]))
        if self.chance(0.3):
            name = self.var(c, "range")
            if name:
                return (name, ATOM)
        k = self.r.random()
        if k < 0.5:
            return ("range(%s)" % n(), PRIMARY)
        if k < 0.8:
            return ("range(%s, %s)" % (n(), n()), PRIMARY)
        return ("range(%s, %s, %s)" % (n(), n(), self.r.choice(["1", "2", "-1", "-2", "3", "3", "0" if self.chance(0.3) else "4"])), PRIMARY)

    def elements(self, c, t, d, most=4):
        return [self.text(c, t, d - 1) for _ in range(self.r.choice([0, 1, 2, 2, 2, 3, 3, most]))]

    def e_list(self, c, t, d):
        r = self.r
        el = t[1]
        if d <= 0 and self.chance(0.8):
            name = self.var(c, t)
            if name:
                return (name, ATOM)
        k = r.random()
        d = max(d, 1)
        if k < 0.45 or (d <= 1 and k < 0.7):
            xs = self.elements(c, el, d)
            return ("[" + ", ".join(xs) + ("," if xs and self.chance(0.08) else "") + "]", ATOM)
        if k < 0.55:
            return self.binary(c, "+", SUM, t, t, d)
        if k < 0.6:
            return self.repeated(c, t, d)
        if k < 0.7:
            return ("%s[%s]" % (self.par(self.e(c, t, d - 1), PRIMARY), self.slice(c, d)), PRIMARY)
        if k < 0.75:
            return ("%s.copy()" % self.par(self.e(c, t, d - 1), PRIMARY), PRIMARY)
        if el == "int" and k < 0.85:
            return (r.choice(["list(%s)" % self.text(c, "range", d - 1), "sorted(%s)" % self.text(c, t, d - 1),
                              "sorted(%s, reverse=%s)" % (self.text(c, t, d - 1), r.choice(["True", "False"]) if self.common else self.text(c, "bool", 0)),
                              "list(reversed(%s))" % self.text(c, t, d - 1),
                              "list(%s.values())" % self.par(self.e(c, ("dict", "str", "int"), d - 1), PRIMARY)]), PRIMARY)
        if el == "str" and k < 0.9:
            return (r.choice(["list(%s)" % self.text(c, "str", d - 1), "sorted(%s)" % self.text(c, t, d - 1),
                              "%s.split(%s)" % (self.par(self.e(c, "str", d - 1), PRIMARY), r.choice(['""' if self.chance(0.2) else '"X"', "", '","', '" "'])),
                              "list(%s.keys())" % self.par(self.e(c, ("dict", "str", "int"), d - 1), PRIMARY),
                              "list(%s)" % self.text(c, ("dict", "str", "int"), d - 1)]), PRIMARY)
        if el == "any" and k < 0.85:
            return (r.choice(["list(enumerate(%s))" % self.text(c, self.container(c), d - 1),
                              "list(zip(%s, %s))" % (self.text(c, self.container(c), d - 1), self.text(c, self.container(c), d - 1)),
                              "list(%s.items())" % self.par(self.e(c, ("dict", "str", "int"), d - 1), PRIMARY)]), PRIMARY)
        if k < 0.95:
            fs = self.fns(c, t)
            if fs:
                return self.call(c, t, d)
        name = self.var(c, t)
        if name:
            return (name, ATOM)
        xs = self.elements(c, el, d)
        return ("[" + ", ".join(xs) + "]", ATOM)

    def e_tuple(self, c, t, d):
        name = self.var(c, t)
        if name and self.chance(0.5):
            return (name, ATOM)
        xs = [self.text(c, x, d - 1) for x in t[1]]
        if len(xs) == 2 and t[1] == ("int", "int") and self.chance(0.2):
            return ("divmod(%s, %s)" % (self.text(c, "int", d - 1), self.r.choice(["2", "3", "-4"])), PRIMARY)
        if self.chance(0.08):
            return ("tuple(%s)" % self.text(c, ("list", "int"), d - 1), PRIMARY)
        return ("(" + ", ".join(xs) + ("," if len(xs) == 1 else "") + ")", ATOM)

    def e_dict(self, c, t, d):
        r = self.r
        name = self.var(c, t)
        if name and self.chance(0.6):
            return (name, ATOM)
        k = r.random()
        if k < 0.1 and d > 0:
            return ("dict(%s)" % self.text(c, t, d - 1), PRIMARY)
        if k < 0.15:
            return ("dict()", PRIMARY)
        keys = [self.key(c, 0) if t[1] == "str" else self.r.choice(["1", "0", "True", "-2", "2", "7"]) for _ in range(r.choice([0, 1, 2, 2, 3]))]
        if self.chance(0.04):
            keys.append(r.choice(["None", "(1, 2)", "()", '("a", (1, True))', "[1]" if self.chance(0.4) else "False"]))
        return ("{" + ", ".join("%s: %s" % (x, self.text(c, t[2], d - 1)) for x in keys) + "}", ATOM)

    def e_obj(self, c, t, d):
        name = self.var(c, t)
        if name and self.chance(0.8):
            return (name, ATOM)
        cls = t[1]
        if not c.room(cls.cost + 5):
            return (name, ATOM) if name else ("None", ATOM)
        c.spend(cls.cost + 2)
        return ("%s(%s)" % (cls.name, self.args(c, Fn(cls.name, cls.params, t, 1), d)), PRIMARY)

    # ------------------------------------------------------------------ deliberate errors
    def bad(self, c):
        """An expression that raises."""
        r = self.r
        i = lambda: self.par(self.e(c, "int", 0), UNARY)
        s = lambda: self.par(self.e(c, "str", 0), UNARY)
        small = [lambda: r.choice(["nobody", "undefined_name", "unknown"]), lambda: "%s // 0" % i(), lambda: "%s %% 0" % i(),
                 lambda: "%s + %s" % (i(), s()), lambda: "%s + %s" % (s(), i()), lambda: "%s - %s" % (s(), s()),
                 lambda: "-%s" % s(), lambda: "%s < %s" % (i(), s()), lambda: "%s >= %s" % (s(), i()), lambda: "None < None",
                 lambda: "(%s)()" % i(), lambda: "%s()" % s(), lambda: "None + %s" % i(), lambda: "len(%s)" % i(), lambda: "len()",
                 lambda: "len(%s, %s)" % (s(), s()), lambda: "None()", lambda: "%s * %s" % (s(), s()), lambda: "%s // %s" % (s(), i()),
                 lambda: "len(None)", lambda: "-None", lambda: "True + None", lambda: "print * 2", lambda: "len - 1"]
        if self.functions:
            f = r.choice(self.functions)
            many = len(f.params) + 1
            small += [lambda: "%s(%s)" % (f.name, ", ".join(["1"] * many)),
                      lambda: "%s + 1" % f.name, lambda: "%s < 2" % f.name, lambda: "-%s" % f.name]
            if f.params and not f.params[0][2]:
                small += [lambda: "%s()" % f.name]
        if not self.common:
            small += [lambda: "%d + %s" % (MAX, r.choice(["1", "True", str(MAX)])), lambda: "-%d - 2" % MAX, lambda: "%d * 2" % (2 ** 126),
                      lambda: "-(-%d - 1)" % MAX, lambda: "(-%d - 1) // -1" % MAX, lambda: "%d * %d" % (2 ** 64, 2 ** 63),
                      lambda: "%d * -%d * 2" % (2 ** 64, 2 ** 62), lambda: "(-%d - 1) %% -1 + 1 // 0" % MAX, lambda: "print < print",
                      lambda: "str + 1", lambda: "str()", lambda: "str(1, 2)", lambda: "print == print and nobody"]
        if not self.full:
            return r.choice(small)()
        full = [lambda: "[1, 2][%s]" % r.choice(["5", "-3", '"a"', "None", "2"]), lambda: "{}[%s]" % self.text(c, "str", 0),
                lambda: '{"a": 1}["zz"]', lambda: "(1,)[1]", lambda: '"abc"[3]', lambda: "5[0]", lambda: "None[0]",
                lambda: "{[1]: 2}", lambda: "[1] + (2,)", lambda: "[1] < [\"a\"]", lambda: "(1, 2) < [1]", lambda: "1 in 5", lambda: '1 in "a"',
                lambda: "[] in {}", lambda: "None.x", lambda: "(5).y", lambda: "[1].nope", lambda: 'int("x")', lambda: "int(None)",
                lambda: "min([])", lambda: "max(())", lambda: 'sum(["a"])', lambda: 'sorted([1, "a"])', lambda: "divmod(1, 0)",
                lambda: 'ord("ab")', lambda: "abs(\"a\")", lambda: '"a".split("")', lambda: '",".join([1])', lambda: "[].pop()",
                lambda: "[1].pop(4)", lambda: "[1].remove(9)", lambda: "[1].index(9)", lambda: "(1,).index(9)", lambda: '{}.pop("a")',
                lambda: "range(0, 1, 0)", lambda: "[1, 2][::0]", lambda: "1 << -1", lambda: "1 >> -2", lambda: "~None", lambda: '"a" & 1',
                lambda: "{} < {}", lambda: "range(3)[3]", lambda: "len(5)", lambda: "list(5)", lambda: "tuple(None)", lambda: "all(3)",
                lambda: "isinstance(1, 1)", lambda: "getattr(1, 2)", lambda: 'getattr(5, "nope")', lambda: "zip(1, [2])", lambda: "enumerate(7)",
                lambda: "range(\"a\")", lambda: 'print("x", sep=1)', lambda: "reversed(5)", lambda: 'hasattr([], 1)', lambda: "bool(1, 2)",
                lambda: "[1].append()", lambda: "[3].insert(\"a\", 1)", lambda: "[].extend(5)", lambda: "{}[1:2]", lambda: "5[1:2]", lambda: '[1]["a":]',
                lambda: '{(1, []): 2}', lambda: '"abc"["a"]', lambda: "[1].sort(1)", lambda: "{}.get([])", lambda: "{}.setdefault([], 1)"]
        if self.classes:
            cls = r.choice(self.classes)
            full += [lambda: "%s(%s)" % (cls.name, ", ".join(["1"] * (len(cls.params) + 1))), lambda: "%s.nope" % cls.name,
                     lambda: "%s.%s()" % (self.text(c, ("obj", cls), 0), "nope"), lambda: "%s + 1" % self.text(c, ("obj", cls), 0),
                     lambda: "%s()" % self.text(c, ("obj", cls), 0)]
            if cls.methods:
                full += [lambda: "%s.%s()" % (cls.name, cls.methods[0].name)]
        if self.functions and f.params:
            full += [lambda: "%s(zzz=1)" % f.name, lambda: "%s(1, %s=2)" % (f.name, f.params[0][0])]
        if not self.common:
            full += [lambda: "chr(-1)", lambda: "chr(0xD800)", lambda: "2 ** 127", lambda: "2 ** -1", lambda: "1 << 127", lambda: '"a" * 65537',
                     lambda: "[0] * 65536 + [1]", lambda: "range(70000)", lambda: "1 << 200", lambda: "3 ** 81", lambda: "(-2) ** 128", lambda: "list()",
                     lambda: '"a".startswith(("a",))', lambda: "min(1, 2, 3)", lambda: "[1].sort(reverse=True)", lambda: "dict([])", lambda: "{}.setdefault(1)",
                     lambda: "range(3)[0:1]", lambda: "{} | {}", lambda: "sorted([[1], [2]])", lambda: 'int("1_0")', lambda: "sorted([None])",
                     lambda: "sum([%d, 1])" % MAX, lambda: "abs(-%d - 1)" % MAX, lambda: 'int("9" * 60)', lambda: "len.x", lambda: '"%d" % 5', lambda: '"" % 5']
        return r.choice(small + full + full)()

    # ------------------------------------------------------------------ simple statements
    def s_assign(self, c):
        r = self.r
        t = self.some_type(c)
        value = self.text(c, t)
        mine = [n for n, vt in c.vars if vt == t and self.may_assign(c, n)]
        name = r.choice(mine) if mine and self.chance(0.5) else self.local_name(c, t)
        if c.ill and self.chance(0.06):
            name = r.choice(["g0", "g1", "f0", "len", "print", "test_a", name])
        targets = [name]
        if self.chance(0.08):
            targets.append(self.local_name(c, t))
        for x in targets:
            self.bind(c, x, t)
        if self.full and self.chance(0.05) and self.var(c, ("list", "int")) and t == "int":
            targets.insert(r.randrange(len(targets) + 1), "%s[%s]" % (self.var(c, ("list", "int")), r.choice(["0", "-1"])))
        return "%s%s=%s%s" % ((self.sp() + "=" + self.sp()).join(targets), self.sp(), self.sp(), value)

    def s_aug(self, c):
        r = self.r
        ints = [n for n in self.visible(c, "int") if self.may_assign(c, n)]
        strs = [n for n in self.visible(c, "str") if self.may_assign(c, n)]
        if strs and self.chance(0.3):
            return "%s += %s" % (r.choice(strs), self.text(c, "str"))
        if not ints:
            return self.s_assign(c)
        name = r.choice(ints)
        k = r.random()
        if k < 0.5:
            return "%s %s %s" % (name, r.choice(["+=", "-="]), self.text(c, "int"))
        if k < 0.65:
            return "%s *= %s" % (name, self.text(c, "int", 0))
        if k < 0.9 or (self.common and not self.full):
            return "%s %s %s" % (name, r.choice(["//=", "%="]), r.choice(["2", "3", "7", "-4", self.text(c, "int", 0)]))
        if not self.full and self.chance(0.6):
            return "%s += %s" % (name, self.text(c, "int"))
        return "%s %s %s" % (name, r.choice(["&=", "|=", "^=", "<<=", ">>=", "**="]), r.choice(["1", "2", "3", "0"]))

    def s_print(self, c):
        args = [self.text(c, self.shown_type(c)) for _ in range(self.r.choice([0, 1, 1, 1, 2, 2, 3]))]
        if not self.common and not self.full and self.chance(0.03):
            args.append(self.r.choice(["print", "len", "str"] + [f.name for f in self.functions]))
        if not self.common and self.full and self.chance(0.06):
            args.append(self.r.choice(["print", "int", "ValueError"] + [f.name for f in self.functions] + [x.name for x in self.classes]))
        if self.full and self.chance(0.1):
            args.append(self.r.choice(['sep="-"', 'end=""', 'sep="", end="|\\n"', "sep=None"]))
        return "print(%s)" % ", ".join(args)

    def s_probe(self, c):
        """Shows names."""
        names = [n for n, t in c.vars if not (self.common and t[0] == "obj") and n not in ("self",)]
        if not names:
            return self.s_print(c)
        r = self.r
        recent = names[-6:]
        args = r.sample(recent, min(len(recent), r.choice([1, 2, 3, 4])))
        if self.full:
            for n, t in c.vars[-8:]:
                if t[0] in ("list", "tuple") or t == "str":
                    args.append("%s[%s]" % (n, self.slice(c, 0)))
                    break
        return "print(%s)" % ", ".join(args)

    def s_alias(self, c):
        """A second name of a list, and a change through one of them."""
        li = ("list", "int")
        xs = self.var(c, li)
        if not xs:
            self.bind(c, "xs", li)
            return "xs = [%s]" % ", ".join(self.text(c, "int", 0) for _ in range(3))
        ys = self.r.choice([n for n in ["xs", "ys", "zs"] if n != xs] or ["ys"])
        if xs in c.fixed or ys in c.fixed:
            return self.s_probe(c)
        self.bind(c, ys, li)
        change = self.r.choice(["%s += [%s]", "%s *= 2", "%s.append(%s)", "%s = %s + [1]", "%s[0] = %s", "%s[-1] += %s", "%s.insert(-2, %s)"])
        args = tuple([ys] + [self.text(c, "int", 0)] * (change.count("%s") - 1)) if "= %s +" not in change else (ys, ys)
        return "%s = %s; %s; print(%s, %s, %s is %s)" % (ys, xs, change % args, xs, ys, xs, ys)

    def s_call(self, c):
        fs = [f for f in self.functions if c.room(f.cost + 5)]
        if not fs:
            return self.s_print(c)
        f = self.r.choice(fs)
        c.spend(f.cost + 2)
        args = self.args(c, f, self.r.choice([1, 2]))
        if self.chance(0.1) and "cb" not in c.fixed:
            return "cb = %s; %s" % (f.name, self.r.choice(["cb(%s)", "print(cb(%s))"]) % args)
        return "%s(%s)" % (f.name, args)

    def s_deep(self, c):
        """A deep recursion."""
        fs = [f for f in self.functions if f.top is not None and c.room(1500) and (f.cost < 500 or self.wild)]
        if not fs or c.mult > 1:
            return self.s_print(c)
        f = self.r.choice(fs)
        c.spend(1500)
        n = self.r.choice([50, 120, 150] if self.common else [50, 150, 195, 196, 197, 198, 199, 200, 201, 250, 1000])
        rest = [self.text(c, t, 1) for _, t, _ in f.params[1:]]
        call = "%s(%s)" % (f.name, ", ".join([str(n)] + rest))
        return self.r.choice(["%s", "print(%s)", "a = %s"][:2]) % call

    def s_extreme(self, c):
        """Sizes at their limits."""
        if c.mult > 1 or not c.room(300):
            return self.s_print(c)
        c.spend(300)
        r = self.r
        n = r.choice([65535, 65536, 65537, 32768, 70000])
        half = r.choice(['"ab"', '"é"', '"xyz"'])
        return r.choice([
            's = "x" * %d; t = s + "y"' % n, "s = %s; t = s * 32768; print(len(t)); u = t + t" % half, 'print(len("%s" * %d))' % ("ab", n // 2),
            'assert "x" * %d == "x" * %d + "y", "long"' % (n, n - 1), 'assert "x" * %d < "x" * %d' % (n, n), 'assert False, "m" * %d' % n,
            'assert False, "assert " + "m" * %d' % (n - 7), 'print("p" * 65536, "q" * 65536)', 's = str("z" * %d); assert s != s' % n,
            's = "1"\n', 'assert not "x" * 0, %s' % self.text(c, "int", 1), 'assert 0, "\\n" * 3', 'assert 0, "a\\n\\nb\\n"', 'assert 0, "\\r\\x00"',
            "a = %d - 1 + 1; b = -a - 1; print(a, b, b // -2, b %% -7, a * -1 - 1)" % MAX, "assert %d == -%d - 1" % (MAX, MAX)]).strip("\n")

    def pure(self, c, t):
        return self.leaf(c, t, self.lit_int if t == "int" else self.lit_str)[0]

    def s_assert(self, c):
        r = self.r
        k = r.random()
        if k < 0.55:
            a, s = "(" + self.pure(c, "int") + ")", self.pure(c, "str")
            test = r.choice(["%s == %s" % (a, a), "%s <= %s" % (a, a), "len(%s) >= 0" % s, "%s or True" % a, "not None", "1 < 2 < 3",
                             "%s == %s" % (s, s), "%s - %s == 0" % (a, a), "str(%s) != %s or %s" % (a, a, "True"), "not (%s != %s)" % (a, a)])
        else:
            test = self.text(c, "bool")
        out = "assert " + test
        if self.chance(0.4):
            out += ", " + self.text(c, r.choice(["str", "str", "str", self.shown_type(c)]), r.choice([0, 1, 2]))
        return out

    def s_bad(self, c):
        return self.r.choice(["%s", "a = %s", "print(%s)", "assert %s", "%s"]) % self.bad(c)

    def s_failing(self, c):
        """The last statement of a test that fails."""
        r = self.r
        k = r.random()
        if k < 0.25:
            return "assert False"
        if k < 0.5:
            return "assert %s, %s" % (r.choice(["False", "0", '""', "None", "1 > 2", "not 1"]), self.text(c, r.choice(["str", "str", "int", "any"]), 1))
        if k < 0.7:
            return self.s_bad(c)
        if self.failers and k < 0.9:
            return "%s(%s)" % (r.choice(self.failers), self.text(c, "int", 0))
        return self.s_deep(c) if k < 0.95 else "assert %s" % self.text(c, "bool")

    def s_full(self, c):
        """Simple statements of the full language."""
        r = self.r
        li, ds = ("list", "int"), ("dict", "str", "int")
        xs, d = self.var(c, li), self.var(c, ds)
        xs = xs if xs not in c.fixed else None
        d = d if d not in c.fixed else None
        ways = []
        if xs:
            ways += [lambda: "%s.append(%s)" % (xs, self.text(c, "int")), lambda: "%s[%s] = %s" % (xs, self.index(c, 1), self.text(c, "int")),
                     lambda: "%s[%s] %s %s" % (xs, self.index(c, 1), r.choice(["+=", "-=", "*="]), self.text(c, "int", 1)),
                     lambda: "del %s[%s]" % (xs, self.index(c, 1)), lambda: "%s.insert(%s, %s)" % (xs, self.index(c, 1), self.text(c, "int", 1)),
                     lambda: "%s.extend(%s)" % (xs, self.text(c, li, 1)), lambda: "%s.reverse()" % xs, lambda: "%s.sort()" % xs,
                     lambda: "%s += %s" % (xs, self.text(c, li, 1)), lambda: "%s *= %s" % (xs, r.choice(["0", "1", "2"])),
                     lambda: "%s.remove(%s)" % (xs, self.text(c, "int", 0)), lambda: "%s.clear()" % xs, lambda: "print(%s)" % xs,
                     lambda: "%s.pop()" % xs]
        if d:
            ways += [lambda: "%s[%s] = %s" % (d, self.key(c, 1), self.text(c, "int")), lambda: "del %s[%s]" % (d, self.key(c, 1)),
                     lambda: "%s[%s] += %s" % (d, self.key(c, 1), self.text(c, "int", 1)), lambda: "%s.update(%s)" % (d, self.text(c, ds, 1)),
                     lambda: "%s.pop(%s%s)" % (d, self.key(c, 1), r.choice(["", ", 0"])), lambda: "print(%s.setdefault(%s, %s))" % (d, self.key(c, 1), self.text(c, "int", 1)),
                     lambda: "print(%s)" % d]
        ways += [lambda: self.unpacking(c), lambda: self.unpacking(c)]
        names = [n for n, _ in c.vars if self.may_assign(c, n) and n != "self"]
        if names and c.fn and (c.depth == 0 or self.chance(0.05)):
            ways.append(lambda: self.deleted(c, r.choice(names)))
        objs = [(n, t[1]) for n, t in c.vars if not isinstance(t, str) and t[0] == "obj" and t[1].fields]
        if objs:
            o, cls = r.choice(objs)
            n, ft = r.choice(cls.fields)
            ways += [lambda: "%s.%s = %s" % (o, n, self.text(c, ft)), lambda: "print(%s.%s)" % (o, n)]
            if ft == "int":
                ways += [lambda: "%s.%s %s %s" % (o, n, r.choice(["+=", "-=", "//="]), self.text(c, "int", 1))]
            if self.chance(0.1):
                ways += [lambda: "del %s.%s" % (o, n), lambda: "%s.extra = 1" % o]
            ms = [m for m in cls.methods if c.room(m.cost + 5)]
            if ms:
                ways += [lambda: self.method_call(c, o, r.choice(ms))]
        if self.sibling and self.chance(0.2):
            ways += [lambda: self.import_(c)]
        if c.handler:
            e, show = c.handler
            if e and show:
                ways += [lambda: "print(%s)" % r.choice([e, e + ".args", "str(%s)" % e, "repr(%s)" % e])] * 3
            if self.chance(0.3):
                ways += [lambda: "raise"]
        return r.choice(ways)()

    def method_call(self, c, o, m):
        c.spend(m.cost + 2)
        return "%s.%s(%s)" % (o, m.name, self.args(c, m, 1))

    def deleted(self, c, name):
        if self.chance(0.7):
            return self.s_print(c)
        c.vars[:] = [v for v in c.vars if v[0] != name]
        return "del " + name

    def unpacking(self, c):
        r = self.r
        k = r.random()
        both = ("x", "int") in c.vars and ("y", "int") in c.vars
        if k < 0.4:
            text = r.choice(["x, y = %s, %s" % (self.text(c, "int", 1), self.text(c, "int", 1)),
                             "x, y = %s" % self.text(c, ("tuple", ("int", "int")), 1), "x, y = [1, 2]", "x, y = y, x" if both else "y, x = (3, 4)"])
            self.bind(c, "x", "int"), self.bind(c, "y", "int")
            return text
        if k < 0.7:
            text = "s, n = %s" % self.text(c, ("tuple", ("str", "int")), 1)
            self.bind(c, "s", "str"), self.bind(c, "n", "int")
            return text
        if k < 0.85:
            text = r.choice(["x, = [%s]" % self.text(c, "int", 0), "x, = (1,)", "x, = 5,"])
            self.bind(c, "x", "int")
            return text
        if c.ill or self.chance(0.15):
            return r.choice(["x, y = %s" % self.text(c, ("list", "int"), 1), "s, t = %s" % self.text(c, "str", 0), "x, y = 5", "a, b = {}"])
        return r.choice(["x, y, z = range(3)", 'a, b = {"k": 1, "j": 2}', 's, t = "uv"', "x = y = 3"])

    def import_(self, c):
        r = self.r
        names = [f.name for f in self.sibling_fns] + ["CONST"]
        k = r.random()
        if k < 0.3:
            return "import helper as h%d" % self.fresh()
        if k < 0.5:
            return "import helper"
        if k < 0.85:
            return "from helper import %s as k%d" % (r.choice(names), self.fresh())
        if k < 0.9:
            return "from helper import " + r.choice(names)
        return r.choice(["from helper import missing", "import nowhere", "from helper import CONST as k9, LOG as k8", "from helper import (CONST, LOG,)"])

    def raised(self, c):
        r = self.r
        if self.errors and self.chance(0.5):
            name = r.choice(self.errors)
        else:
            name = r.choice(BUILTIN_EXC)
        k = r.random()
        if k < 0.2:
            return "raise " + name
        if k < 0.9:
            args = [self.text(c, self.shown_type(c), r.choice([0, 1])) for _ in range(r.choice([0, 1, 1, 1, 2]))]
            return "raise %s(%s)" % (name, ", ".join(args))
        if c.handler and c.handler[0]:
            return "raise " + c.handler[0]
        return r.choice(["raise", "raise 5", "raise None", 'raise "x"', "raise int", "raise ValueError(1)(2)"])

    def simple(self, c):
        """The text of one simple statement."""
        c.spend(4)
        opts = [(14, self.s_assign), (6, self.s_aug), (9, self.s_print), (4, self.s_call), (3, self.s_assert), (0.7, lambda c: "pass"),
                (0.5 if not c.ill else 2, self.s_bad if c.fn else self.s_print), (0.4, self.s_deep if c.fn else self.s_print)]
        if c.loop and c.cond:
            opts.append((3, lambda c: "break"))
            if c.cont or self.wild:
                opts.append((2, lambda c: "continue"))
        if c.fn and c.cond:
            opts.append((2, self.s_return))
        opts.append((3, self.s_probe))
        if c.fn and not self.common:
            opts.append((0.25, self.s_extreme))
        if self.full:
            opts.append((12, self.s_full))
            opts.append((1.5, self.s_alias if c.fn else self.s_probe))
            if c.fn and (c.cond or self.chance(0.15)):
                opts.append((2, self.raised))
        return self.pick(opts)(c)

    def s_return(self, c):
        if c.ret is None or c.ret == "none":
            return "return" if self.chance(0.6) else "return " + self.text(c, "none", 1)
        return "return " + self.text(c, c.ret)

    # ------------------------------------------------------------------ blocks
    def indent(self, ind):
        return ind + " " * (self.r.choice([1, 2, 3, 8]) if self.noisy and self.chance(0.08) else self.unit)

    def block(self, c, ind, out, n, header):
        """`header` and a block of about n statements."""
        if self.chance(0.06):
            out.append(ind + header + " " + "; ".join(self.simple(c) for _ in range(self.r.choice([1, 1, 2]))) + (";" if self.chance(0.1) else ""))
            if "\n" not in out[-1]:
                return
            out.pop()
        out.append(ind + header)
        inner = self.indent(ind)
        self.statements(c, inner, out, n)

    def statements(self, c, ind, out, n):
        for _ in range(max(1, n)):
            self.statement(c, ind, out)

    def statement(self, c, ind, out):
        if self.noisy and self.chance(0.06):
            out.append(self.r.choice(["", ind + "# note", "  ", ind + "    # odd", "# left"]))
        if c.depth < 4 and c.room(40) and self.chance(0.3):
            opts = [(6, self.if_), (4, self.while_)]
            if self.full:
                opts += [(6, self.for_), (5, self.try_), (1, self.with_)]
            self.pick(opts)(c, ind, out)
            return
        text = self.simple(c)
        if self.full and c.fn and self.chance(0.12) and "\n" not in text and not text.startswith(("return", "from", "import")):
            out += [ind + "try: " + text, ind + "except %s: print(%d)" % (self.r.choice(["LookupError", "Exception", "(TypeError, ValueError)", "LookupError"]), self.fresh())]
            return
        if self.chance(0.05):
            text += self.r.choice(["; ", ";"]) + self.simple(c)
        if self.noisy and self.chance(0.03):
            text += self.r.choice(["  # c", " ", "\t", " #", ";"])
        if self.noisy and " + " in text and self.chance(0.05) and "#" not in text and "\n" not in text and "'" not in text and '"' not in text:
            text = text.replace(" + ", " + \\\n ", 1)
        out.append(ind + text)

    def leave(self, c, inner):
        """Names bound in a block are mostly forgotten behind it."""
        if self.chance(0.07):
            for name, t in inner.vars:
                if (name, t) not in c.vars and self.chance(0.5):
                    self.bind(c, name, t)

    def if_(self, c, ind, out):
        c.spend(4)
        r = self.r
        n = lambda: r.choice([1, 1, 2, 3])
        inner = c.inner(cond=True)
        self.block(inner, ind, out, n(), "if %s:" % self.text(c, "bool" if self.chance(0.85) else self.some_type(c)))
        for _ in range(r.choice([0, 0, 0, 1, 1, 2])):
            self.block(c.inner(cond=True), ind, out, n(), "elif %s:" % self.text(c, "bool"))
        if self.chance(0.45):
            self.block(c.inner(cond=True), ind, out, n(), "else:")
        self.leave(c, inner)

    def while_(self, c, ind, out):
        r = self.r
        c.spend(4)
        i = r.choice(["i", "j", "k"])
        if i in c.fixed or (i, "int") in c.vars and c.loop:
            i = "i%d" % self.fresh()
        kind = r.random()
        if kind < 0.62:
            times = r.choice([0, 1, 2, 3, 3, 4, 5])
            first = self.chance(0.5)
            out.append(ind + "%s = 0" % i)
            self.bind(c, i, "int")
            inner = c.inner(loop=c.loop + 1, cont=first, cond=False, mult=c.mult * max(1, times))
            inner.fixed.append(i)
            step = r.choice(["%s += 1", "%s = %s + 1"])
            step = step % ((i,) * step.count("%s"))
            out.append(ind + "while %s:" % r.choice(["%s < %d" % (i, times), "%s != %d" % (i, times), "not %s >= %d" % (i, times), "%d > %s and True" % (times, i)]))
            body = self.indent(ind)
            if first:
                out.append(body + step)
            self.statements(inner, body, out, r.choice([1, 2, 2, 3]))
            if not first:
                out.append(body + step)
        elif kind < 0.72:
            times = r.choice([50, 200, 300] if not self.long else [300, 1000, 5000])
            if not c.room(times * 6) and not self.long:
                return self.statement(c.inner(depth=9), ind, out)
            c.spend(times * 6)
            out.append(ind + "%s = %d" % (i, times))
            self.bind(c, i, "int")
            out.append(ind + "while %s:" % i)
            out.append(self.indent(ind) + r.choice(["%s -= 1", "%s = %s - 1", "%s += -1"]).replace("%s", i))
        elif kind < 0.85 or not self.wild:
            inner = c.inner(loop=c.loop + 1, cont=False, cond=False)
            out.append(ind + "while %s:" % r.choice(["True", "1", '"go"']))
            body = self.indent(ind)
            self.statements(inner, body, out, r.choice([1, 2]))
            out.append(body + "break")
        else:
            inner = c.inner(loop=c.loop + 1, cont=True, cond=False)
            self.block(inner, ind, out, r.choice([1, 2]), "while %s:" % self.text(c, "bool"))

    def for_(self, c, ind, out):
        r = self.r
        c.spend(4)
        k = r.random()
        inner = c.inner(loop=c.loop + 1, cont=True, cond=False, mult=c.mult * 3)
        li, ds = ("list", "int"), ("dict", "str", "int")
        fixed = None
        if k < 0.3:
            i = r.choice([x for x in ["i", "j", "k", "x"] if x not in c.fixed])
            head = "for %s in %s:" % (i, self.text(c, "range", 1))
            self.bind(inner, i, "int")
        elif k < 0.45:
            fixed = self.var(c, li)
            i = r.choice(["a", "x"])
            head = "for %s in %s:" % (i, fixed or self.text(c, li, 1))
            self.bind(inner, i, "int")
        elif k < 0.55:
            head = "for ch in %s:" % self.text(c, "str", 1)
            self.bind(inner, "ch", "str")
        elif k < 0.65:
            fixed = self.var(c, ds)
            head = "for s in %s:" % (fixed or self.text(c, ds, 1))
            self.bind(inner, "s", "str")
        elif k < 0.75:
            head = "for s, n in %s:" % self.eager("%s.items()" % self.par(self.e(c, ds, 1), PRIMARY))
            self.bind(inner, "s", "str"), self.bind(inner, "n", "int")
        elif k < 0.85:
            head = "for m, x in %s:" % self.eager("enumerate(%s)" % self.text(c, li, 1))
            self.bind(inner, "m", "int"), self.bind(inner, "x", "int")
        elif k < 0.92:
            head = "for x, s in %s:" % self.eager("zip(%s, %s)" % (self.text(c, li, 1), self.text(c, ("list", "str"), 1)))
            self.bind(inner, "x", "int"), self.bind(inner, "s", "str")
        elif k < 0.96 and self.var(c, li):
            head = "for %s[0] in %s:" % (self.var(c, li), self.text(c, "range", 0))
        else:
            head = r.choice(["for x in 1, 2, 3:", "for x in (4, 5):", "for x, y in [(1, 2), (3, 4)]:", "for x in 5:" if c.ill else "for x in [7, 8]:", "for x, y in [1]:" if self.chance(0.2) else "for x, y in ((5, 6),):",
                             "for x in [3]:", "for x, in [[1], [2]]:"])
        for name in [fixed] + re.findall(r"\b(?:xs|ys|zs|d|e1)\b", head):
            if name:
                inner.fixed.append(name)
        if fixed and self.chance(0.05) and fixed in [n for n, t in c.vars if t == ds]:
            out.append(ind + head)
            out.append(self.indent(ind) + '%s[s + "1"] = 1' % fixed)
            return
        self.block(inner, ind, out, r.choice([1, 2, 2]), head)

    def eager(self, text):
        """An iterator that CPython may make lazily, where the body could change what it goes over."""
        return "list(%s)" % text if self.common and re.search(r"\b(?!enumerate|zip|items)[a-zA-Z_]", text) else text

    def try_(self, c, ind, out):
        r = self.r
        c.spend(4)
        inner = c.inner()
        out.append(ind + "try:")
        body = self.indent(ind)
        self.statements(inner, body, out, r.choice([1, 2]))
        if self.chance(0.5):
            out.append(body + (self.raised(inner) if self.chance(0.6) else self.s_bad(inner)))
        kind = r.random()
        if kind < 0.85:
            for _ in range(r.choice([1, 1, 1, 2, 2, 3])):
                self.except_(c, ind, out)
            if self.chance(0.08):
                h = c.inner(handler=(None, False), cond=True)
                self.block(h, ind, out, r.choice([1, 2]), "except:")
            if self.chance(0.25):
                self.block(c.inner(), ind, out, 1, "else:")
        if kind >= 0.85 or self.chance(0.3):
            self.block(c.inner(cond=self.chance(0.2)), ind, out, r.choice([1, 2]), "finally:")
        self.leave(c, inner)

    def except_(self, c, ind, out):
        r = self.r
        cls = r.choice(self.errors) if self.errors and self.chance(0.35) else r.choice(CATCH_EXC)
        show = not self.common or cls in self.errors or cls in ("KeyError", "AssertionError")
        if self.chance(0.15):
            cls = "(%s, %s)" % (cls, r.choice(CATCH_EXC))
            show = not self.common
        elif self.chance(0.02):
            cls = r.choice(["5", "(ValueError, 5)", "int", "None", "()", "nobody"])
        name = None
        if self.chance(0.6):
            name = r.choice(["e", "err", "e", "err", "a" if self.chance(0.2) else "e"])
            cls += " as " + name
        h = c.inner(handler=(name, show), cond=True)
        if name:
            h.vars = [v for v in h.vars if v[0] != name]
            h.fixed.append(name)
        self.block(h, ind, out, r.choice([1, 1, 2]), "except %s:" % cls)
        if name and self.chance(0.95):
            c.vars[:] = [v for v in c.vars if v[0] != name]

    def with_(self, c, ind, out):
        r = self.r
        c.spend(4)
        cls = r.choice(self.errors) if self.errors and self.chance(0.4) else r.choice(CATCH_EXC)
        match = ""
        if not self.common and self.chance(0.25):
            match = ", match=" + self.spell(r.choice(["a", "^x", "m.*", "b+$", "\\(", "(", "division"]))
        inner = c.inner(cond=False)
        out.append(ind + "with pytest.raises(%s%s)%s:" % (cls, match, " as info" if self.chance(0.5) else ""))
        body = self.indent(ind)
        if self.chance(0.4):
            self.statements(inner, body, out, 1)
        out.append(body + (("raise %s(%s)" % (cls, self.text(c, "str", 0))) if self.chance(0.8) else self.s_bad(inner)))

    # ------------------------------------------------------------------ definitions
    def params(self, defaults):
        out = []
        count = self.r.choice([0, 1, 1, 2, 2, 3])
        for k in range(count):
            t = self.some_type(None) if self.full else self.r.choice(["int", "int", "str", "bool"])
            if t == "none" or t[0] == "obj":
                t = "int"
            out.append(("p%d" % k, t, defaults and (self.chance(0.3) or (out and out[-1][2]))))
        return out

    def header(self, c, name, params):
        parts = []
        for n, t, default in params:
            parts.append(n if not default else "%s=%s" % (n, self.text(c, t, 0)) if self.chance(0.9) else "%s: int = %s" % (n, self.text(c, t, 0)))
        text = ", ".join(parts) + ("," if parts and self.noisy and self.chance(0.05) else "")
        return "def %s(%s)%s:" % (name, text, " -> None" if self.full and self.chance(0.05) else "")

    def function(self, mod, out):
        r = self.r
        name = "f%d" % len(self.functions)
        params = self.params(self.full)
        ret = r.choice(["int", "int", "int", "str", "str", "bool", "none"])
        if self.full and self.chance(0.25):
            ret = r.choice([("list", "int"), ("list", "str"), ("dict", "str", "int"), ("tuple", ("int", "int"))])
        c = Ctx(True, ret, self.chance(0.08), 600)
        c.vars = [v for v in mod.vars] + [(n, t) for n, t, _ in params]
        out.append(self.header(mod, name, params))
        ind = self.indent("")
        self.declare(c, ind, out)
        self.statements(c, ind, out, r.choice([1, 2, 3, 4]))
        if ret != "none" or self.chance(0.3):
            out.append(ind + self.s_return(c))
        out.append("")
        self.declared = []
        self.functions.append(Fn(name, params, ret, c.cost[0]))

    def declare(self, c, ind, out):
        """`global`, now and then."""
        gs = [n for n, _ in c.vars if n.startswith("g")]
        self.declared = []
        if gs and self.chance(0.5):
            self.declared = sorted(set(self.r.sample(gs, self.r.choice([1, 1, min(2, len(gs))]))))
            out.append(ind + "global " + ", ".join(self.declared))

    def recursion(self, mod, out):
        r = self.r
        name = "f%d" % len(self.functions)
        u = " " * self.unit
        kind = r.randrange(4)
        top = [0, 1, 2, 3, 5, 8]
        if kind == 0:
            out += ["def %s(n):" % name, u + "if n %s:" % r.choice(["<= 0", "< 1", "== 0"]), u * 2 + "return %s" % r.choice(["0", "1"]),
                    u + "return %s" % r.choice(["1 + %s(n - 1)", "%s(n - 1) + n", "n * %s(n - 1)", "%s(n - 1) - 1"]) % name, ""]
            self.functions.append(Fn(name, [("n", "int", False)], "int", 90, top))
        elif kind == 1:
            out += ["def %s(n, s):" % name, u + "if n > 0:", u * 2 + "return %s(n - 1, s + %s)" % (name, r.choice(['"."', "str(n)"])), u + "return s", ""]
            self.functions.append(Fn(name, [("n", "int", False), ("s", "str", False)], "str", 100, top))
        elif kind == 2:
            out += ["def %s(n):" % name, u + "if n < 2: return n", u + "return %s(n - 1) + %s(n - 2)" % (name, name), ""]
            self.functions.append(Fn(name, [("n", "int", False)], "int", 500, [0, 1, 3, 5, 7]))
        else:
            other = name + "b"
            out += ["def %s(n):" % name, u + "return n == 0 or %s(n - 1)" % other, "", "def %s(n):" % other,
                    u + "return n != 0 and %s(n - 1)" % name, ""]
            self.functions.append(Fn(name, [("n", "int", False)], "bool", 90, top))

    def failer(self, mod, out):
        """A function that fails at some depth."""
        r = self.r
        name = "fail%d" % len(self.failers)
        u = " " * self.unit
        c = Ctx(True, "none", False, 100)
        c.vars = list(mod.vars) + [("n", "int")]
        k = r.random()
        out.append("def %s(n):" % name)
        if self.failers and k < 0.4:
            out.append(u + r.choice(["return %s(n + 1)", "x = %s(n); return x", "assert %s(n)", "print(%s(n))"]) % r.choice(self.failers))
        elif k < 0.7:
            out.append(u + r.choice(["assert n < n, %s" % self.text(c, "str", 1), "assert n != n", "assert not 1, n", "assert None, None", "assert False, %s" % self.text(c, "int", 1)]))
        elif self.full and k < 0.85:
            out.append(u + self.raised(c))
        else:
            out.append(u + self.s_bad(c))
        out.append("")
        self.failers.append(name)

    def class_(self, mod, out):
        r = self.r
        name = "C%d" % len(self.classes)
        u = " " * self.unit
        out.append(r.choice(["class %s:", "class %s():"]) % name)
        fields, methods = [], []
        c = Ctx(False, None, False, 60)
        c.vars = list(mod.vars)
        if self.chance(0.6):
            out.append(u + "k = " + self.text(c, "int", 1))
            fields.append(("k", "int"))
        params = []
        if self.chance(0.8):
            params = [("x", "int", False)] + ([("y", "str", self.chance(0.5))] if self.chance(0.5) else [])
            out.append(u + "def __init__(self, %s):" % ", ".join(n if not df else n + '="dflt"' for n, _, df in params))
            for n, t, _ in params:
                out.append(u * 2 + "self.%s = %s" % (n, n))
                fields.append((n, t))
            if self.chance(0.3):
                out.append(u * 2 + "self.log = []")
                fields.append(("log", ("list", "int")))
        ints = [n for n, t in fields if t == "int"]
        for j in range(r.choice([0, 1, 2])):
            m = ["get", "add", "show"][j]
            ret = r.choice(["int", "str"])
            ps = [("p0", "int", False)] if self.chance(0.5) else []
            mc = Ctx(True, ret, False, 200)
            mc.vars = list(mod.vars) + [(n, t) for n, t, _ in ps]
            out.append(u + "def %s(%s):" % (m, ", ".join(["self"] + [n for n, _, _ in ps])))
            if ints and self.chance(0.6):
                out.append(u * 2 + "self.%s %s %s" % (r.choice(ints), r.choice(["+=", "-=", "="]), self.text(mc, "int", 1)))
            if self.chance(0.4):
                self.statements(mc, u * 2, out, 1)
            if ints and ret == "int":
                out.append(u * 2 + "return self.%s + %s" % (r.choice(ints), self.par(self.e(mc, "int", 1), SUM + 1)))
            else:
                out.append(u * 2 + "return " + self.text(mc, ret, 1))
            methods.append(Fn(m, ps, ret, mc.cost[0] + 8))
        if not params and not methods and not fields:
            out.append(u + "pass")
        out.append("")
        self.classes.append(Cls(name, params, fields, methods, 12))

    def error_class(self, mod, out):
        r = self.r
        name = "Err%d" % len(self.errors)
        u = " " * self.unit
        out.append("class %s(%s):" % (name, r.choice(self.errors + ["Exception", "ValueError", "KeyError", "LookupError"])))
        if self.chance(0.25):
            out += [u + "def __init__(self, %s):" % r.choice(["a=1", "a=1, b=2"]), u * 2 + "self.code = a"]
        elif self.chance(0.2):
            out.append(u + "code = 3")
        else:
            out.append(u + "pass")
        out.append("")
        self.errors.append(name)

    def test(self, mod, out, name):
        r = self.r
        c = Ctx(True, None, self.chance(0.2), 2500)
        c.vars = list(mod.vars)
        params = "x" if self.level_params and self.chance(0.004) else ""
        out.append("def %s(%s):" % (name, params))
        ind = self.indent("")
        self.declare(c, ind, out)
        self.statements(c, ind, out, r.choice([1, 2, 3, 4, 6, 8]))
        k = r.random()
        if self.full and k < 0.04:
            out.append(ind + r.choice(["pytest.skip(%s)", "pytest.fail(%s)"]) % r.choice(['"why"', '""', 'str(1)']))
        elif k < 0.42:
            if self.chance(0.8):
                out.append(ind + (self.s_probe(c) if self.chance(0.7) else self.s_print(c)))
            out.append(ind + self.s_failing(c))
        elif k < 0.5:
            out.append(ind + self.s_return(c))
        out.append("")
        self.declared = []

    # ------------------------------------------------------------------ files and words
    def fresh_file(self):
        self.functions, self.classes, self.errors, self.failers, self.declared = [], [], [], [], []
        self.sibling_fns = []

    def module_head(self, mod, out, n):
        for k in range(n):
            t = self.some_type(mod) if self.chance(0.5) else "int"
            if t[0] == "obj":
                t = "int"
            out.append("g%d = %s" % (k, self.text(mod, t, self.r.choice([0, 0, 1] if self.full else [0, 0, 1, 2]))))
            self.bind(mod, "g%d" % k, t)

    def source(self):
        """The test file."""
        r = self.r
        out = []
        mod = Ctx(False, None, False, 300)
        if self.full:
            out.append("import pytest")
        if self.sibling:
            for _ in range(r.choice([1, 1, 2])):
                out.append(r.choice(["import helper", "import helper as h", "from helper import CONST, %s" % self.sibling_fns[0].name,
                                     "from helper import CONST as k0"]))
                if "CONST, " in out[-1]:
                    self.functions.append(self.sibling_fns[0])
                    self.bind(mod, "CONST", "int")
        self.module_head(mod, out, r.choice([0, 1, 2, 3]))
        out.append("")
        if self.full:
            for _ in range(r.choice([0, 0, 1, 2])):
                self.error_class(mod, out)
            for _ in range(r.choice([0, 1, 1, 2])):
                self.class_(mod, out)
        for _ in range(r.choice([0, 1, 2, 2, 3, 4])):
            (self.recursion if self.chance(0.25) else self.function)(mod, out)
        for _ in range(r.choice([0, 0, 1, 2])):
            self.failer(mod, out)
        if self.chance(0.25):
            self.statements(mod.inner(depth=2), "", out, r.choice([1, 2]))
        names = r.sample(["test_a", "test_b", "test_c", "test_1", "testX", "test", "test_long_name", "test_é"], r.choice([1, 2, 2, 3, 3, 4]))
        if self.common or not self.chance(0.1):
            names = [n for n in names if n.isascii()] or ["test_a"]
        for name in names:
            self.test(mod, out, name)
            if self.chance(0.04):
                out.append(r.choice(["%s_2 = %s" % (name, name), "test_n = 5", "%s = %s" % (name, name), "test_p = print", "testy = None"]))
            if self.chance(0.02):
                out += ["if True:", "    def test_in():", "        assert 1"]
        if self.full and not self.common and self.chance(0.12):
            inner = []
            for name in ["test_m", "test_n"][:r.choice([1, 2])]:
                self.test(mod, inner, name)
            inner = [re.sub(r"^def (test_[mn])\((x?)\)", r"def \1(self, \2)" if self.chance(0.2) else r"def \1(self)", x) for x in inner]
            out += ["class TestK:"] + [" " * self.unit + x if x else x for x in inner]
        if not self.common and self.chance(0.01):
            out.append(r.choice(["pytestmark = 1", "nobody", "1 // 0", "print(__name__)"]))
        return out

    def helper(self):
        """The sibling module."""
        out = ["CONST = %d" % self.r.randrange(9), "LOG = []", 'print("helper")']
        mod = Ctx(False, None, False, 200)
        self.bind(mod, "CONST", "int")
        for _ in range(self.r.choice([1, 2])):
            self.function(mod, out)
        for f in self.functions:
            f.name = "h" + f.name[1:]
        text = re.sub(r"\bf(\d)\b", r"h\1", "\n".join(out))
        if not self.common and self.chance(0.05):
            text += "\n" + self.r.choice(["1 // 0", "x = = 1", "import test_a", "raise ValueError('helper')"])
        self.sibling_fns = self.functions
        self.functions = []
        return text.split("\n")

    def finish(self, lines):
        r = self.r
        while lines and not lines[-1]:
            lines.pop()
        text = "\n".join(lines) + "\n"
        if self.noisy:
            if self.chance(0.08):
                text = text[:-1]
            if self.chance(0.06) and '"""' not in text:
                text = text.replace("\n", "\r\n")
            if self.chance(0.03):
                text = "\ufeff" + text
        return text.encode("utf-8")

    def settings(self):
        self.noisy = self.chance(0.4)
        self.wild = not self.common and self.chance(0.15)
        self.long = not self.common and self.chance(0.12)
        self.unit = self.r.choice([4, 4, 4, 4, 2, 1, 3, 8])
        self.level_params = not self.common
        self.sibling = self.full and self.chance(0.35)
        self.fresh_file()

    def words(self, name):
        r = self.r
        out = []
        limit = None
        if self.wild or self.long:
            limit = r.choice([50, 200, 500, 1000, 3000])
        elif self.chance(0.15):
            limit = r.choice([1, 5, 20] if self.chance(0.1) else [50, 100, 300, 1000, 100000])
        if limit is not None:
            out.append(["--step-limit=%d" % limit] if self.chance(0.8) else ["--step-limit", str(limit)])
        if self.chance(0.25):
            out.append([r.choice(["-v", "--verbose", "-vv"])])
        if self.chance(0.3):
            out.append(["--tb=" + r.choice(["short", "line", "no", "line"])])
        k = r.random()
        if k < 0.12:
            out.append([r.choice(["-x", "--exitfirst", "-xv"])])
        elif k < 0.24:
            out.append(["--maxfail=%d" % r.choice([0, 1, 2, 2, 3])])
        if self.chance(0.06):
            out.append([r.choice(["--collect-only", "--co"])])
        if self.chance(0.03) and not any("x" in w[0] for w in out):
            out.append(r.choice([["-n0"], ["-n", "2", "--dist=no"], ["--dist=no"]]))
        if self.chance(0.02):
            out.append([r.choice(["--tb=long", "-q", "--maxfail", "--step-limit=0", "-k=", "--maxfail=-1", "-m", "--setup-show"])])
        out.append([name] if self.chance(0.98) else r.choice([["./" + name], [], ["nothere.py"], [name, name], ["--", name]]))
        r.shuffle(out)
        return [w for part in out for w in part]

    def case(self):
        self.settings()
        files = {}
        if self.sibling:
            files["helper.py"] = self.finish(self.helper())
            self.fresh_file_but_sibling()
        name = "test_a.py" if self.common or self.chance(0.93) else self.r.choice(["a_test.py", "mod.py", "t.py", "test_é.py"])
        files[name] = self.finish(self.source())
        return Case(self.words(name), files, self.seed)

    def fresh_file_but_sibling(self):
        kept = self.sibling_fns
        self.fresh_file()
        self.sibling_fns = kept


# ====================================================================================== hostile sources

NUMBERS = ["0", "00", "0_0", "01", "1_", "1__0", "_1", "0x", "0xg", "0x_f", "0xF_f", "0b2", "0b_1", "0b12", "0o8", "0o_7", "0o17", "1.", ".5", "1.5",
           "1e5", "1e", "1e+", "1E-3", "1j", "1J", "1jx", "01j", "01.5", "01e5", "0x1.5", "1if", "1or", "0x1for", "1and 2", "12a", "0xfor 1", "1_000", "0B1",
           "0O7", "0XAb", str(2 ** 127 - 1), str(2 ** 127), "0x" + "f" * 32, "0x7" + "f" * 31, "0" * 50, "1" * 40, "1_2_3", "1_a", "0_", "0x1_", "9.e", "0.", "0e0", "0b", "1..x",
           "١", "１", "²", "0x1\u00e9", "1\u0301", "0b1_0_1", "0o", "00x1", "0xx1", "1 .real"]
LITERALS = ['""', "''", '"a', "'a", '"a\\"', '"""', "'''", '"""a""', "'''a'''", '"\\x4"', '"\\x41"', '"\\xzz"', '"\\u12"', '"\\u0041"', '"\\ud800"', '"\\U0010ffff"', '"\\U00110000"',
            '"\\N{DASH}"', '"\\7"', '"\\777"', '"\\8"', '"\\q"', '"\\\n"', "r'\\'", "r'\\''", "R'\\x'", "b'a'", "u'a'", "f'a'", "rb'a'", "Br'a'", "fR'{a}'", "x'a'", "rr'a'", '"a" "b"', '"a"\'b\'', "'\\\\'",
            '"""\n"""', '"\n"', '"a\\\r\nb"', '"\t"', '"\x00"', '"é"', '"\u2028"', '"\x0c"', "r'", "rb", "'''\\'''", '"" ""', '"a"1', "1'a'", '"a"b', "''''", '"""""', '""""""', "'''''''", "\"'\"", "u''", "F'''a'''"]
SIGNS = list("()[]{},:.;=@+-*/%&|^~<>!?$`\\#\"'") + ["**", "//", "<<", ">>", "<=", ">=", "==", "!=", "->", "+=", "-=", "*=", "/=", "//=", "%=", "**=", "<<=", ">>=", "&=", "|=", "^=", ":=", "@=",
                                                       "...", "<>", "=>", "++", "--", "===", "&&", "||", "!", ".."]
WORDS = ("False None True and as assert async await break class continue def del elif else except finally for from global if import in is "
         "lambda nonlocal not or pass raise return try while with yield match case print self _ __ x").split()
ODD = ["\t", " ", "\n", "\r", "\r\n", "\f", "\v", "\x00", "\ufeff", "\u00a0", "\u2028", "\u3000", "é", "e\u0301", "ﬁ", "µ", "μ", "ª", "℘", "·", "a·", "Å", "K", "𝐱", "中", "😀", "\u200d", "٣", "_\u0301", "\x7f", "\\\n",
       "\\", "\\ \n", "\\\r\n", "#", "# é\n", ";", ";;", "\n\n", "\n    ", "\n\t", "\n  ", "\n        ", ""]


class Hostile:
    def __init__(self, seed, common=False):
        self.r = random.Random("hostile %d" % seed)
        self.seed = seed

    def nested(self):
        """Nesting near its limits."""
        r = self.r
        n = r.choice([97, 98, 99, 99, 100, 100, 101, 101, 102, 103])
        k = r.randrange(20)
        if k == 0:
            e = "(" * n + "1" + ")" * n
        elif k == 1:
            e = "-" * n + "1"
        elif k == 2:
            e = "not " * n + "1"
        elif k == 3:
            e = "+".join(["1"] * n)
        elif k == 4:
            e = "str(" * n + "1" + ")" * n
        elif k == 5:
            e = "1 if 1 else " * n + "2"
        elif k == 6:
            e = " and ".join(["1"] * n)
        elif k == 7:
            e = " < ".join(["1"] * n)
        elif k == 8:
            e = "f" + "()" * n
        elif k == 9:
            e = "1" + " + (1" * n + ")" * n
        elif k == 10:
            e = "x" + ".a" * n
        elif k == 11:
            e = "[" * n + "]" * n
        elif k == 12:
            e = "x" + "[0]" * n
        elif k == 13:
            e = "2" + " ** 1" * n
        elif k == 14:
            m = n // 2
            e = "(-" * m + "1" + ")" * m
        elif k == 15:
            e = "1 * " * n + "-1"
        elif k == 16:
            e = "1 if " * n + "1" + " else 2" * n
        elif k in (17, 18):
            lines = []
            for d in range(n):
                lines.append(" " * d + r.choice(["if 1:", "if 1:", "while 1:"] if k == 17 else ["if 1:", "if 0: pass\n%selse:" % (" " * d)]))
            lines.append(" " * n + r.choice(["pass", "x = (1)", "assert 1"]))
            text = "\n".join(lines) + "\n"
            if self.r.random() < 0.5:
                return "def test_a():\n" + "".join(" " + x + "\n" for x in text.split("\n")[:-1])
            return text + "def test_a(): pass\n"
        else:
            e = "not -(" * (n // 3) + "1" + ")" * (n // 3) + " + 1" * (n % 5)
        tail = r.choice(["", "", "", " + 1", " if 1 else 2", "\n    x = 2", ")", " <", " and 1", " * 2"])
        head = r.choice(["x = ", "x = y = ", "assert ", "return ", "", "x += ", "print(", "if "])
        if head == "print(":
            e += ")"
        if head == "if ":
            tail += ": pass"
        return "def test_a():\n    %s%s%s\n" % (head, e, tail)

    def mutate(self, t):
        r = self.r
        k = r.randrange(20)
        if not t:
            return r.choice(ODD)
        i = r.randrange(len(t))
        spans = None
        if k == 0:
            return t[:i] + t[i + 1:]
        if k == 1:
            return t[:i] + r.choice(SIGNS) + t[i:]
        if k == 2:
            return t[:i] + r.choice(ODD) + t[i:]
        if k == 3:
            return t[:i] + r.choice(ODD + SIGNS) + t[i + 1:]
        if k == 4 and i + 1 < len(t):
            return t[:i] + t[i + 1] + t[i] + t[i + 2:]
        if k == 5:
            j = min(len(t), i + r.choice([2, 5, 20, 200]))
            return t[:i] + t[j:]
        if k == 6:
            j = min(len(t), i + r.choice([2, 5, 20, 100]))
            return t[:j] + t[i:j] + t[j:]
        if k in (7, 8):
            lines = t.split("\n")
            j = r.randrange(len(lines))
            x = lines[j]
            lines[j] = r.choice([" " + x, x[1:] if x[:1] == " " else x, "\t" + x, "    " + x, x.lstrip(), "  " + x, x.replace("    ", "\t", 1), " \t" + x, x[2:] if x[:2] == "  " else x])
            return "\n".join(lines)
        if k == 9:
            lines = t.split("\n")
            j = r.randrange(len(lines))
            if r.random() < 0.5:
                del lines[j]
            elif j + 1 < len(lines):
                lines[j], lines[j + 1] = lines[j + 1], lines[j]
            return "\n".join(lines)
        if k == 10:
            return t[:i]
        if k in (11, 12):
            spans = list(re.finditer(r"\b[0-9][0-9a-zA-Z_]*", t))
            new = r.choice(NUMBERS)
        elif k in (13, 14):
            spans = list(re.finditer(r'"[^"\n]*"|\'[^\'\n]*\'', t))
            new = r.choice(LITERALS)
        elif k in (15, 16):
            spans = list(re.finditer(r"[a-zA-Z_]\w*", t))
            new = r.choice(WORDS + ["ﬁ", "é", "e\u0301x", "µ", "a·b", "x2", "__name__", "中", "x\u200d"])
        elif k == 17:
            spans = list(re.finditer(r"[-+*/%<>=!&|^~]+|[()\[\]{},:;.]", t))
            new = r.choice(SIGNS)
        elif k == 18:
            return r.choice([t.replace("\n", "\r\n"), t.replace("\n", "\r"), t.rstrip("\n"), "\ufeff" + t, t + "\n\n  \n", "\n" + t, " " + t, t + "# end", t + "\\", t + "    ", t.replace("    ", "\t"), "\ufeff\ufeff" + t,
                             t.replace(" ", "  "), t + "x = (", t.replace("\n", " \n", 3), t.replace(":\n", ": # c\n"), t.replace(" = ", " \\\n= ", 2)])
        if spans:
            m = r.choice(spans)
            return t[:m.start()] + new + t[m.end():]
        return t[:i] + r.choice(WORDS) + t[i:]

    def text(self):
        r = self.r
        k = r.random()
        if k < 0.12:
            t = self.nested()
        else:
            gen = Gen(r.randrange(10 ** 9), "small" if r.random() < 0.8 else "full")
            gen.settings()
            gen.sibling = False
            gen.noisy = r.random() < 0.7
            lines = gen.source()
            if r.random() < 0.7 and len(lines) > 14:
                starts = [n for n, x in enumerate(lines) if x[:1].strip() and not x.startswith("#")]
                start = r.choice(starts)
                lines = lines[start:start + r.choice([3, 6, 12])]
                if r.random() < 0.6:
                    lines += ["", "def test_z():", "    assert %s, %s" % (r.choice(NUMBERS + ["1", "x"] * 9), r.choice(LITERALS + ['"m"'] * 30))]
            t = "\n".join(lines) + "\n"
        change = self.gentle if r.random() < 0.4 else self.mutate
        for _ in range(r.choice([0, 1, 1, 1, 1, 2, 2, 3, 5])):
            t = change(t)
        return t

    def gentle(self, t):
        """A change that mostly leaves a source that is read."""
        r = self.r
        k = r.randrange(12)
        lines = t.split("\n")
        if k < 3:
            spans = list(re.finditer(r"\b[0-9]+\b", t))
            new = r.choice(["0x1F", "0B11", "0o_17", "1_0", "00", "0_0", "0XaB_c", "0x7" + "f" * 31, str(2 ** 127 - 1), str(2 ** 127), "0x0000_1", "12_3", "(1)", "((2))", "--3", "0xFfor 1", "7if 1else 2"])
        elif k < 6:
            spans = list(re.finditer(r'"[^"\\\n]*"', t))
            new = r.choice(['""', "''", '"\\x41"', '"\\u0041"', '"\\101"', '"\\q"', "r'\\'x'", "R'\\d'", '"a" "b"', "'a'\n", '"""x"""', "\'\'\'x\ny\'\'\'", '"a\\\nb"', '"\\0"', '"\\777"', '"\\U0001f600"', '"\t"', '"\x0c"', '"é"',
                            '"\\a\\b\\f\\v"', "'\\\''", '"\\""', '"\x00"', '"\u2028"', "r\"\"\"\\\"\"\"\"", '"\r"', '"\\\r\n"', 'r"\\\n"', "('a'\n 'b')", '"\\N"', '"\\8"', '"\\x4g"'])
        elif k == 6:
            spans = list(re.finditer(r" (?=[-+*/%<>=]+ )|(?<=,) |(?<=[(])|(?=[)])", t))
            new = r.choice(["  ", "\t", "", " \\\n", "\\\n  \t", " \\\r\n ", "\n" if r.random() < 0.3 else " ", "# c\n" if r.random() < 0.3 else " "])
        elif k == 7:
            j = r.randrange(len(lines))
            lines.insert(j, r.choice(["", "   ", "# é", "\t# tab", " \t", "        # in", "\\\n", "  \\\n", "pass", "pass;", ";", "\x0c"]))
            return "\n".join(lines)
        elif k == 8:
            j = r.randrange(len(lines))
            lines[j] += r.choice([" ", "\t", "  # c", "#", ";", " ;", "\\", " \r", "\\\n"])
            return "\n".join(lines)
        elif k == 9:
            spans = list(re.finditer(r"\b(?:[a-z]|g\d|test_\w+)\b", t))
            m = r.choice(spans) if spans else None
            new = r.choice(["é", "a·", "μ", "µ", "ﬁ", "中x", "_", "__x", "x2", "℘", "ℼ", "Å", "K", "e\u0301"])
            return re.sub(r"\b%s\b" % re.escape(m.group()), new, t) if m else t
        elif k == 10:
            return r.choice([t.replace("\n", "\r\n"), "\ufeff" + t, t.rstrip("\n"), t + "\n  \n", t + "# end", t + "   ", "\n\n" + t, t + "\n\\\n", t.replace("    ", "  "), t.replace(":\n", ":  # c\n"), t + "\\"])
        else:
            spans = list(re.finditer(r"(?<=[=(] )?\b[a-z]\b(?! =)", t))
            n = r.choice([1, 2, 50, 98, 99, 100])
            new = "(" * n + "1" + ")" * n
        if not spans:
            return t
        m = r.choice(spans)
        return t[:m.start()] + new + t[m.end():]

    def case(self):
        r = self.r
        data = self.text().encode("utf-8", "surrogatepass")
        if r.random() < 0.02 and data:
            i = r.randrange(len(data))
            data = data[:i] + r.choice([b"\xff", b"\xc3", b"\xed\xa0\x80", b"\xf4\x90\x80\x80", b"\xc0\x80", b"\x80"]) + data[i:]
        words = ["test_a.py"]
        if r.random() < 0.3:
            words.insert(0, r.choice(["--tb=line", "-v", "--collect-only"]))
        words.insert(0, "--step-limit=3000")
        return Case(words, {"test_a.py": data}, self.seed)


# ====================================================================================== the model

NOT_BUILT = (b"ERROR: not built\n", 4)
SMALL_BUILTINS = ("print", "len", "str")


class Model:
    """The report by the model, and the steps of each activity of its last run."""

    def __init__(self):
        from model import collect, interp, lex, parse, runner
        self.lex, self.parse, self.runner, self.collect = lex, parse, runner, collect
        self.features = runner.Features()
        log = self.log = []          # (what, steps, how it ended)

        class Watched(interp.World):
            def call(world, f, args, budget):
                ended = super().call(f, args, budget)
                log.append(("call", ended.steps, type(ended.out).__name__))
                return ended

            def run_module(world, path, budget):
                ended = super().run_module(path, budget)
                log.append(("load", ended.steps, type(ended.out).__name__))
                return ended

        self.World = Watched

    def report(self, words, files):
        """(bytes, status)"""
        self.log.clear()
        kept = self.collect.World
        self.collect.World = self.World
        try:
            done = self.runner.Run(words, files, self.features).result()
            return (done.output, done.status)
        finally:
            self.collect.World = kept

    def tree_of(self, data):
        """(tokens, tree), or the SourceFault."""
        try:
            toks = self.lex.tokens(self.lex.decode(data), self.features)
            return toks, self.parse.parse(toks, self.features)
        except self.lex.SourceFault as fault:
            return fault


# ====================================================================================== the program

class Program:
    def __init__(self, path):
        self.path = os.path.abspath(path)
        base = "/dev/shm" if os.path.isdir("/dev/shm") and os.access("/dev/shm", os.W_OK) else None
        self.folder = tempfile.mkdtemp(prefix="langfuzz", dir=base)
        self.held = {}

    def report(self, words, files):
        """(bytes, status), or a text."""
        for path in list(self.held):
            if path not in files:
                os.unlink(os.path.join(self.folder, path))
                del self.held[path]
        for path, data in files.items():
            if self.held.get(path) != data:
                with open(os.path.join(self.folder, path), "wb") as f:
                    f.write(data)
                self.held[path] = data
        try:
            done = subprocess.run([self.path] + words, cwd=self.folder, stdin=subprocess.DEVNULL, stdout=subprocess.PIPE, stderr=subprocess.PIPE, timeout=20)
        except subprocess.TimeoutExpired:
            return "no end within 20 seconds"
        if done.returncode < 0 or done.returncode in (12, 13, 14, 101) or done.stderr:
            return "status %d, error output %r" % (done.returncode, done.stderr[:300])
        return (done.stdout, done.returncode)

    def close(self):
        shutil.rmtree(self.folder, ignore_errors=True)


# ====================================================================================== CPython

class Aside(Exception):
    """What CPython doesn't do is reached."""


class TooLong(BaseException):
    pass


LIMITS = ("whole number out of range", "sequence too long", "nesting too deep", "call depth exceeded", "elements cannot be sorted")


class Side:
    """One side's account of a file: what each part (load, then tests) printed and how it ended."""

    def __init__(self):
        self.parts = []        # (name, printed, class or None, message or None)


def model_side(files, main, small, budget=200000):
    """By the model's World, without rewriting. `aside` is the text where something came that CPython doesn't do."""
    from model import interp, values as V
    state = {"aside": None, "own": False}

    class Recorder(interp.World):
        def __init__(w):
            super().__init__(None)
            if small:
                w.builtins = {n: w.builtins[n] for n in SMALL_BUILTINS}

        def err(w, cls, text):
            if text in LIMITS:
                state["aside"] = state["aside"] or text
            if text.startswith("'range' object has no attribute") and text.split("'")[3] in ("count", "index"):
                state["aside"] = state["aside"] or "methods of range"
            e = super().err(cls, text)
            e.exc.own_text = True
            return e

        def key_error(w, key):
            e = super().key_error(key)
            e.exc.own_text = False
            return e

        def binary(w, op, a, b):
            if op == "**" and V.is_number(a) and V.is_number(b) and b < 0:
                state["aside"] = state["aside"] or "** by a negative number"
            elif op == "%" and isinstance(a, str):
                state["aside"] = state["aside"] or "% on a text"
            elif op == "|" and isinstance(a, V.PDict) and isinstance(b, V.PDict):
                state["aside"] = state["aside"] or "| on dicts"
            return super().binary(op, a, b)

        def aug(w, s, fr):
            return super().aug(s, fr)

        def compare(w, op, a, b):
            if op in ("is", "is not") and type(a) is type(b) and isinstance(a, (int, str, V.PTuple)) and not isinstance(a, bool):
                state["aside"] = state["aside"] or "is on values"
            if op in ("==", "!=") and (isinstance(a, V.Method) or isinstance(a, V.Builtin) and a.receiver is not V.NODEF):
                state["aside"] = state["aside"] or "== on methods"
            return super().compare(op, a, b)

    w = Recorder()
    side = Side()
    for path, data in files.items():
        w.add_source(path, data, False)

    def told(name, out):
        printed = w.take_printed()
        kind = type(out).__name__
        if kind == "Exhausted":
            state["aside"] = state["aside"] or "steps"
        if state["aside"]:
            return
        if kind == "Val":
            side.parts.append((name, printed, None, None))
            return
        exc = out.exc
        text = None if getattr(exc, "own_text", False) else w.message(exc).text
        side.parts.append((name, printed, exc.cls.name, text))

    if w.fault(main) is not None:
        side.parts.append(("<syntax>", "", w.fault(main).kind, None))
        return side, None
    out = w.run_module(main, budget).out
    told("<load>", out)
    if state["aside"] or type(out).__name__ != "Val":
        return side, state["aside"]
    tests = [(n, v) for n, v in w.names(main) if n.startswith("test") and isinstance(v, V.Function)]
    for name, f in tests:
        told(name, w.call(f, [], budget).out)
        if state["aside"]:
            break
    return side, state["aside"]


class Skipped(BaseException):
    pass


class Failed(BaseException):
    pass


class Raises:
    def __init__(self, expected, match):
        self.expected, self.match, self.info = expected, match, types.SimpleNamespace()

    def __enter__(self):
        return self.info

    def __exit__(self, kind, value, trace):
        if kind is None:
            raise Failed("DID NOT RAISE")
        if not issubclass(kind, self.expected):
            return False
        self.info.value = value
        if self.match is not None and not re.search(self.match, str(value)):
            raise AssertionError("pattern")
        return True


def pytest_shim():
    m = types.ModuleType("pytest")

    def raises(expected, match=None):
        for x in expected if isinstance(expected, tuple) else (expected,):
            if not (isinstance(x, type) and issubclass(x, BaseException)):
                raise TypeError("raises")
        return Raises(expected, match)

    def skip(reason=""):
        raise Skipped(reason)

    def fail(reason=""):
        raise Failed(reason)

    m.raises, m.skip, m.fail = raises, skip, fail
    return m


PLAIN_NAMES = ("abs divmod ord chr bool len callable isinstance getattr hasattr int str repr list tuple dict range enumerate zip reversed sorted all any "
               "sum min max BaseException Exception ArithmeticError OverflowError ZeroDivisionError AssertionError AttributeError ImportError "
               "ModuleNotFoundError LookupError IndexError KeyError MemoryError NameError UnboundLocalError RuntimeError NotImplementedError "
               "RecursionError SyntaxError TypeError ValueError").split()


def plain_reprs(text):
    """Addresses and modules are no part of the language's reprs."""
    text = re.sub(r"<(?:test_a|helper)\.(\w+) object at 0x[0-9a-f]+>", r"<\1 object>", text)
    text = re.sub(r"<bound method \w+\.(\w+) of <\w+ object>>", r"<bound method \1>", text)
    text = re.sub(r"<function (?:\w+\.)?(\w+) at 0x[0-9a-f]+>", r"<function \1>", text)
    return re.sub(r"<class '(?:test_a|helper)\.(\w+)'>", r"<class '\1'>", text)


def cpython_side(files, main, small, count):
    """The first `count` parts by CPython."""
    import builtins
    side = Side()
    buffer = io.StringIO()
    modules = {"pytest": pytest_shim()}
    failed = {}

    def show(_, *args, sep=None, end=None):
        text = io.StringIO()
        print(*args, sep=sep, end=end, file=text)
        buffer.write(text.getvalue())

    def import_(name, globals=None, locals=None, fromlist=(), level=0):
        if name in failed:
            raise failed[name]
        if name not in modules:
            if name + ".py" not in files:
                raise ModuleNotFoundError(name)
            m = types.ModuleType(name)
            modules[name] = m
            m.__dict__["__builtins__"] = names
            try:
                exec(compiled(name + ".py"), m.__dict__)
            except BaseException as wrong:
                failed[name] = wrong
                del modules[name]
                raise
        return modules[name]

    def compiled(path):
        return compile(files[path].decode("utf-8-sig"), path, "exec", dont_inherit=True)

    names = {n: getattr(builtins, n) for n in (SMALL_BUILTINS if small else PLAIN_NAMES)}
    names["print"] = types.MethodType(show, None or 0)      # no function of the sources
    if not small:
        names["__import__"] = import_
        names["__build_class__"] = builtins.__build_class__

    def part(name, call):
        hits = [0]

        def ring(*_):
            hits[0] += 1
            if hits[0] > 50:
                os.write(2, b"langfuzz: CPython doesn't end\n")
                os._exit(70)
            raise TooLong()

        kept = signal.signal(signal.SIGALRM, ring)
        signal.setitimer(signal.ITIMER_REAL, 5, 0.5)
        depth = sys.getrecursionlimit()
        sys.setrecursionlimit(3000)
        exc = None
        try:
            call()
        except BaseException as wrong:
            exc = wrong
        finally:
            signal.setitimer(signal.ITIMER_REAL, 0)
            signal.signal(signal.SIGALRM, kept)
            sys.setrecursionlimit(depth)
        printed = plain_reprs(buffer.getvalue())
        buffer.seek(0)
        buffer.truncate()
        if exc is None:
            side.parts.append((name, printed, None, None))
        else:
            try:
                text = plain_reprs(str(exc))
            except BaseException as wrong:
                text = repr(wrong)
            side.parts.append((name, printed, type(exc).__name__, text))
        return exc is None

    module = types.ModuleType("test_a")
    scope = module.__dict__
    scope["__builtins__"] = names
    modules[main[:-3]] = module
    try:
        code = compiled(main)
    except SyntaxError as wrong:
        side.parts.append(("<syntax>", "", "SyntaxError", str(wrong)))
        return side
    if count and part("<load>", lambda: exec(code, scope)) and count > 1:
        tests = [(n, v) for n, v in scope.items() if n.startswith("test") and isinstance(v, types.FunctionType)]
        for name, f in tests[:count - 1]:
            part(name, f)
    return side


def cpython_difference(files, main, small):
    """(difference or None, why the rest was left aside or None, parts compared)"""
    with warnings.catch_warnings():
        warnings.simplefilter("ignore")
        mine, aside = model_side(files, main, small)
        theirs = cpython_side(files, main, small, len(mine.parts))
    if not aside and len(mine.parts) != len(theirs.parts):
        return "parts: model %r, CPython %r" % ([p[0] for p in mine.parts], [p[0] for p in theirs.parts]), aside, 0
    for a, b in zip(mine.parts, theirs.parts):
        if a[0] != b[0]:
            return "names: model %r, CPython %r" % (a[:1], b[:1]), aside, 0
        if a[2] != b[2]:
            return "%s ends: model %r, CPython %r" % (a[0], a[2:], b[2:]), aside, 0
        if a[1] != b[1]:
            return "%s prints:\n%s" % (a[0], unified(a[1], b[1], "model", "CPython")), aside, 0
        if a[2] is not None and a[3] is not None and a[3] != b[3]:
            return "%s message: model %r, CPython %r" % (a[0], a[3], b[3]), aside, 0
    return None, aside, len(mine.parts)


def unified(a, b, an, bn):
    return "\n".join(difflib.unified_diff(a.split("\n"), b.split("\n"), an, bn, lineterm="", n=1))


# ====================================================================================== minimising

class Reducer:
    """Smaller words and files while `holds(words, files)` stays true."""

    def __init__(self, holds, most=700, seconds=45):
        self.holds, self.left, self.end = holds, most, time.time() + seconds

    def ask(self, words, files):
        if self.left <= 0 or time.time() > self.end:
            return False
        self.left -= 1
        try:
            return self.holds(words, files)
        except Exception:
            return False

    def run(self, words, files):
        self.words, self.files = list(words), dict(files)
        changed = True
        while changed and self.left > 0:
            changed = self.reduce_words() | self.reduce_files()
        return self.words, self.files

    def reduce_words(self):
        changed = False
        k = 0
        while k < len(self.words):
            fewer = self.words[:k] + self.words[k + 1:]
            if self.ask(fewer, self.files):
                self.words = fewer
                changed = True
            else:
                k += 1
        return changed

    def reduce_files(self):
        changed = False
        for path in sorted(self.files):
            if len(self.files) > 1:
                fewer = {p: d for p, d in self.files.items() if p != path}
                if self.ask(self.words, fewer):
                    self.files = fewer
                    changed = True
                    continue
            changed |= self.reduce_text(path)
        return changed

    def put(self, path, data):
        new = dict(self.files)
        new[path] = data
        if data != self.files[path] and self.ask(self.words, new):
            self.files = new
            return True
        return False

    def reduce_text(self, path):
        changed = self.chunks(path, b"\n")
        while True:
            at = 0
            better = False
            while True:
                ways = list(reductions(self.files[path]))
                while at < len(ways) and not self.put(path, ways[at]):
                    at += 1
                if at >= len(ways):
                    break
                better = changed = True
            if not better or self.left <= 0:
                break
        try:
            ast.parse(self.files[path])
        except (SyntaxError, ValueError):
            changed |= self.chunks(path, None)
        return changed

    def chunks(self, path, sep):
        """Leaves out runs of lines, or of bytes."""
        changed = False
        data = self.files[path]
        parts = data.split(sep) if sep else [data[k:k + 1] for k in range(len(data))]
        join = sep or b""
        size = max(1, len(parts) // 2)
        while size >= 1:
            k = 0
            while k < len(parts):
                fewer = parts[:k] + parts[k + size:]
                if self.put(path, join.join(fewer)):
                    parts = fewer
                    changed = True
                else:
                    k += size
            size //= 2
        return changed


def reductions(data):
    """Smaller sources, the boldest first; by the places of CPython's tree."""
    with warnings.catch_warnings():
        warnings.simplefilter("ignore")
        try:
            tree = ast.parse(data)
        except (SyntaxError, ValueError, RecursionError, MemoryError):
            return
    if data.startswith(b"\xef\xbb\xbf"):
        yield data[3:]
        return
    if b"\r" in data:
        yield data.replace(b"\r\n", b"\n")
    lines = data.split(b"\n")
    starts = [0]
    for x in lines:
        starts.append(starts[-1] + len(x) + 1)

    def span(n):
        return starts[n.lineno - 1] + n.col_offset, starts[n.end_lineno - 1] + n.end_col_offset

    def swap(a, b, new):
        return data[:a] + new + data[b:]

    def without(n):
        a, b = span(n)
        if getattr(n, "decorator_list", None):
            a = starts[n.decorator_list[0].lineno - 1]
        first, last = data.rfind(b"\n", 0, a) + 1, data.find(b"\n", b)
        last = len(data) if last < 0 else last
        rest = data[b:last].split(b"#")[0].strip()
        if not data[first:a].strip() and not rest:
            return first, min(len(data), last + 1)
        return None

    bodies = []
    for node in ast.walk(tree):
        for name in ("body", "orelse", "finalbody", "handlers"):
            body = getattr(node, name, None)
            if isinstance(body, list) and body:
                bodies.append((node, name, body))
    for node, name, body in bodies:
        for s in body:
            whole = without(s)
            if whole is not None and (len(body) > 1 or isinstance(node, ast.Module) or name == "handlers"):
                yield swap(whole[0], whole[1], b"")
            elif not isinstance(s, (ast.Pass, ast.ExceptHandler)):
                yield swap(*span(s), b"pass")
        if name in ("orelse", "finalbody") and not isinstance(node, ast.IfExp):
            before = (node.handlers[-1].body[-1] if getattr(node, "handlers", None) and (name == "orelse" or not node.orelse) else (node.orelse or node.body)[-1] if name == "finalbody" else node.body[-1])
            a, b = span(before)[1], span(body[-1])[1]
            yield swap(a, b, b"")
    for node, name, body in bodies:
        if isinstance(node, ast.Module) or name == "handlers":
            continue
        if isinstance(node, (ast.If, ast.While, ast.For, ast.Try, ast.With)):
            a, b = without(node) or (None, None)
            if a is not None and body[0].lineno == node.lineno:
                yield swap(a, b, b" " * node.col_offset + data[span(body[0])[0]:span(body[-1])[1]] + b"\n")
            elif a is not None and span(body[0])[0] == starts[body[0].lineno - 1] + body[0].col_offset and body[0].lineno > node.lineno:
                inside = data[starts[body[0].lineno - 1]:span(body[-1])[1]].split(b"\n")
                cut = body[0].col_offset - node.col_offset
                yield swap(a, b, b"\n".join(x[cut:] if not x[:cut].strip() else x for x in inside) + b"\n")
    for node in ast.walk(tree):
        if isinstance(node, ast.Assert) and node.msg is not None:
            yield swap(span(node.test)[1], span(node.msg)[1], b"")
        if isinstance(node, ast.Assign) and len(node.targets) > 1:
            yield swap(span(node.targets[0])[0], span(node.targets[1])[0], b"")
        if isinstance(node, ast.Call):
            for k, a in enumerate(node.args):
                if len(node.args) > 1:
                    lo, hi = (span(node.args[k - 1])[1], span(a)[1]) if k else (span(a)[0], span(node.args[1])[0])
                    yield swap(lo, hi, b"")
                else:
                    yield swap(*span(a), b"")
        if isinstance(node, ast.expr) and hasattr(node, "lineno") and not isinstance(getattr(node, "ctx", None), (ast.Store, ast.Del)):
            a, b = span(node)
            text = data[a:b]
            kids = [n for n in ast.iter_child_nodes(node) if isinstance(n, ast.expr)]
            for n in kids:
                x, y = span(n)
                if not (isinstance(node, ast.Call) and n is node.func):
                    yield swap(a, b, data[x:y])
                    yield swap(a, b, b"(" + data[x:y] + b")")
            if isinstance(node, (ast.Compare, ast.BoolOp)):
                parts = [node.left] + node.comparators if isinstance(node, ast.Compare) else node.values
                if len(parts) > 2:
                    yield swap(span(parts[0])[0], span(parts[1])[0], b"")
                    yield swap(span(parts[-2])[1], span(parts[-1])[1], b"")
            if len(text) > 1:
                for new in (b"0", b"1", b'""', b"None"):
                    if not isinstance(node, ast.Constant) or type(node.value) is type(ast.literal_eval(new.decode())):
                        yield swap(a, b, new)


# ====================================================================================== running

def known(kind, case, got):
    """The name of a difference that was reported, or None."""
    if kind == "accepted":
        text = "".join(d.decode("utf-8", "ignore") for d in case.files.values())
        if any(c in "\u200c\u200d\u30fb\uff65" or unicodedata.category(c) == "Cn" for c in text):
            return "a later version of Unicode than CPython's"
    return None


class Bench:
    def __init__(self, args):
        self.args = args
        self.model = Model()
        self.program = Program(args.program) if args.program else None
        self.kinds = {}
        self.bad = 0

    # ---- program against model
    def both(self, words, files):
        """(kind or None, model's answer, program's answer)"""
        want = self.model.report(words, files)
        got = self.program.report(words, files)
        if got == want:
            return None, want, got
        if isinstance(got, str):
            return "crash: " + re.sub(r"\d+", "N", got)[:60], want, got
        if got == NOT_BUILT:
            return "refused", want, got
        if want == NOT_BUILT:
            return "accepted", want, got
        return "differs", want, got

    def signature(self, kind, want, got):
        if isinstance(got, str) or kind in ("refused", "accepted"):
            return kind
        a = want[0].decode("utf-8", "replace").split("\n")
        b = got[0].decode("utf-8", "replace").split("\n")
        if want[1] != got[1] and 4 in (want[1], got[1]):
            return "status %d, not %d: %s / %s" % (got[1], want[1], a[0][:40], b[0][:40])
        classes = lambda lines: [re.sub(r"'.*|\d+", "", x[4:])[:40].split(": ") for x in lines if x.startswith("E   ")]
        for x, y in zip(classes(a), classes(b)):
            if x != y:
                return "exception: %s, not %s" % (": ".join(y), ": ".join(x))
        frames = lambda lines: [x for x in lines if re.match(r"\S+\.py:\d+: ", x)]
        if frames(a) != frames(b):
            return "frames" + (", lengths" if len(frames(a)) != len(frames(b)) else "")
        if want[1] != got[1]:
            return "status %d, not %d" % (got[1], want[1])
        letters = lambda lines: [x for x in lines if re.match(r"\S+\.py(::\S+)? [.FEsxXA-Z]+$", x)]
        if letters(a) != letters(b):
            return "progress"
        return "text" + (", lines" if len(a) != len(b) else "")

    def compare_program(self, case, count):
        kind, want, got = self.both(case.words, case.files)
        if want == NOT_BUILT:
            count("not built by both" if got == NOT_BUILT else "not built by the model")
        if kind is None:
            return
        if kind == "refused":
            count("not built by the program alone")
        name = known(kind, case, got)
        if name is not None and not self.args.known:
            count("known difference: " + name)
            return
        if kind == "refused" and not self.args.refused:
            return
        self.difference(case, kind, self.signature(kind, want, got), lambda w, f: self.same_kind(w, f, kind, self.signature(kind, want, got)),
                        lambda w, f: self.explain(w, f))

    def same_kind(self, words, files, kind, signature):
        k, want, got = self.both(words, files)
        return k == kind and (kind != "differs" or self.signature(k, want, got) == signature)

    def explain(self, words, files):
        kind, want, got = self.both(words, files)
        if isinstance(got, str):
            return "model status %d\n%s\nprogram: %s" % (want[1], want[0].decode("utf-8", "replace"), got)
        return "status: model %d, program %d\n%s" % (want[1], got[1], unified(want[0].decode("utf-8", "replace"), got[0].decode("utf-8", "replace"), "model", "program"))

    def difference(self, case, kind, signature, holds, explain):
        fatal = kind != "refused"
        self.bad += fatal
        seen = self.kinds[signature] = self.kinds.get(signature, 0) + 1
        if seen > self.args.keep:
            return
        words, files = case.words, case.files
        if not self.args.quick:
            words, files = Reducer(holds).run(words, files)
        print("---- seed %d: %s (%s)" % (case.seed, kind, signature))
        show_case(words, files)
        try:
            print(explain(words, files))
        except Exception:
            print(traceback.format_exc())
        sys.stdout.flush()

    # ---- steps
    def with_limits(self, case, count):
        """The case with step limits at the model's own counts."""
        words = [w for w in case.words if not w.startswith("--step-limit")]
        if len(words) < len(case.words) and "--step-limit" in case.words:
            at = case.words.index("--step-limit")
            words = case.words[:at] + case.words[at + 2:]
        first = self.model.report(words + ["--step-limit=20000"], case.files)
        log = list(self.model.log)
        loads = [s for what, s, _ in log if what == "load"]
        calls = [s for what, s, end in log if what == "call" and end != "Exhausted" and s > 0]
        least = max(loads + [1])
        r = random.Random("limits %d" % case.seed)
        limits = []
        for s in r.sample(calls, min(2, len(calls))):
            limits += [s, s - 1, r.randrange(1, s + 1)]
        for limit in limits:
            if limit < 1:
                continue
            limited = Case(words + ["--step-limit=%d" % limit], case.files, case.seed)
            count("step limits")
            if self.program is not None:
                self.compare_program(limited, count)
                continue
            self.model.report(limited.words, limited.files)
            for what, s, end in self.model.log:
                if s > limit or (end == "Exhausted" and s != limit):
                    self.bad += 1
                    print("---- seed %d: steps %d of %d end as %s" % (case.seed, s, limit, end))
                    show_case(limited.words, limited.files)
        # the first call by itself: n suffices, n - 1 doesn't
        if self.program is None and log and calls:
            for k, (what, s, end) in enumerate(log):
                if what == "call" and end != "Exhausted" and s > least:
                    for limit, ends in ((s, end), (s - 1, "Exhausted")):
                        self.model.report(words + ["--step-limit=%d" % limit], case.files)
                        got = self.model.log
                        firsts = [x for x in got if x[0] == "call"]
                        mine = [x for x in log if x[0] == "call"]
                        if firsts and mine and mine[0] == (what, s, end) and firsts[0] != (what, min(s, limit), ends):
                            self.bad += 1
                            print("---- seed %d: with limit %d the first call gives %r, had %r" % (case.seed, limit, firsts[0], mine[0]))
                            show_case(words, case.files)
                    break
        return first

    # ---- CPython
    def compare_cpython(self, case, count):
        small = self.args.level == "small"
        main = [p for p in case.files if p != "helper.py"][0]
        wrong, aside, parts = cpython_difference(case.files, main, small)
        count("parts compared", parts)
        if aside:
            count("left aside: " + aside)
        if wrong is None:
            return
        signature = re.sub(r"\d+", "N", re.sub(r"^[^< ]\S* ", "test ", wrong.split("\n")[0]))[:90]
        def kind_of(text):
            """Which part of a test's account differs, and the classes at its end."""
            line = text.split("\n")[0]
            return ("<syntax>" in line, re.findall(r"\b(?:ends|prints|message|parts|names)\b", line)[:1], re.findall(r"[(]'?(\w+)", line) if " ends" in line else None)

        head = kind_of(wrong)

        def holds(words, files):
            if main not in files:
                return False
            w, _, _ = cpython_difference(files, main, small)
            return w is not None and kind_of(w) == head

        self.difference(case, "CPython", signature, holds, lambda w, f: cpython_difference(f, main, small)[0])

    def compare_compiling(self, case, count):
        """What the model reads must compile."""
        data = case.files["test_a.py"]
        got = self.model.tree_of(data)
        if not isinstance(got, tuple):
            count("model: " + got.kind)
            return
        count("model: reads it")

        def refusal(data):
            with warnings.catch_warnings():
                warnings.simplefilter("ignore")
                try:
                    compile(data, "test_a.py", "exec", dont_inherit=True)
                except (SyntaxError, ValueError, MemoryError, RecursionError) as wrong:
                    text = str(wrong)
                    for known in ("too many statically nested blocks", "global declaration", "null bytes", "too complex", "__debug__"):
                        if known in text:
                            return None
                    return text
            return None

        wrong = refusal(data)
        # A lone \r is no line end, and a backslash joins lines, also the last one with nothing
        if wrong is not None and (re.search(rb"\r(?!\n)", data) or "unexpected EOF" in wrong and re.search(rb"\\\r?\n\s*$", data)):
            count("known: lone \\r, or a backslash at the end")
            return
        if wrong is not None:
            self.difference(case, "compiles not", "compiles not: " + re.sub(r"\d+", "N", wrong)[:70],
                            lambda w, f: isinstance(self.model.tree_of(f["test_a.py"]), tuple) and refusal(f["test_a.py"]) is not None,
                            lambda w, f: refusal(f["test_a.py"]))


def show_case(words, files):
    print("words: %s" % " ".join(words))
    for path, data in sorted(files.items()):
        text = data.decode("utf-8", "backslashreplace")
        print("#### %s" % path)
        for n, line in enumerate(text.split("\n"), 1):
            odd = not all(c.isprintable() for c in line)
            print("%3d %s" % (n, repr(line)[1:-1] if odd else line))


class Args:
    level, program, cpython, steps, tokens, show, keep, quick, refused, known = "small", None, False, False, False, False, 3, False, False, False


def read_args(words):
    args, plain = Args(), []
    words = list(words)
    while words:
        w = words.pop(0)
        name, eq, value = w.partition("=")
        if name in ("--level", "--program", "--keep"):
            if not eq:
                value = words.pop(0)
            setattr(args, name[2:], {"--keep": int}.get(name, str)(value))
        elif w in ("--cpython", "--steps", "--tokens", "--show", "--quick", "--refused", "--known"):
            setattr(args, w[2:], True)
        elif w.lstrip("-").isdigit():
            plain.append(int(w))
        else:
            sys.exit("unknown word: " + w)
    if len(plain) != 2 or args.level not in ("small", "full"):
        sys.exit(__doc__)
    return args, plain[0], plain[1]


def go(words):
    args, count, seed = read_args(words)
    counts = {}

    def add(what, n=1):
        counts[what] = counts.get(what, 0) + n

    bench = Bench(args)
    start = time.time()
    try:
        for k in range(seed, seed + count):
            if args.tokens:
                case = Hostile(k).case()
            else:
                case = Gen(k, args.level, args.cpython).case()
            if args.show:
                print("==== seed %d" % k)
                show_case(case.words, case.files)
            try:
                if args.cpython:
                    (bench.compare_compiling if args.tokens else bench.compare_cpython)(case, add)
                elif args.steps:
                    bench.with_limits(case, add)
                elif bench.program is not None:
                    bench.compare_program(case, add)
                else:
                    out, status = bench.model.report(case.words, case.files)
                    add("status %d" % status)
                    if out == NOT_BUILT[0]:
                        add("not built")
                    if args.show:
                        print(out.decode("utf-8", "replace") + "status %d" % status)
            except Exception:
                bench.bad += 1
                print("---- seed %d: the harness or the model fails\n%s" % (k, traceback.format_exc()))
                show_case(case.words, case.files)
    finally:
        if bench.program is not None:
            bench.program.close()
    for what in sorted(counts):
        print("%7d %s" % (counts[what], what))
    for signature, n in sorted(bench.kinds.items(), key=lambda x: -x[1]):
        print("%7d differ as: %s" % (n, signature))
    print("%d cases, %d differences, %.0f seconds" % (count, bench.bad, time.time() - start))
    return 1 if bench.bad else 0


if __name__ == "__main__":
    soft, hard = resource.getrlimit(resource.RLIMIT_STACK)
    resource.setrlimit(resource.RLIMIT_STACK, (hard if hard != resource.RLIM_INFINITY else 512 * 1024 * 1024, hard))
    sys.exit(go(sys.argv[1:]))
