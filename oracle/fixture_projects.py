"""Random projects with fixtures, yields, finalizers, parameters and command lines with --setup-show; workers are rare (they are refused).

project(seed) -> (words, files): a list of texts, and a dict of paths to bytes.
by_model_fuzz(seed) -> the same by the model's own generator, with what isn't built left out.
"""
import random

from model.fuzz import Gen
from model.runner import Features

NAMES = ["a", "b", "c", "d", "e", "f", "g"]
SCOPES = ["session", "module", "class", "function"]
# The scope that a name has mostly: broad names are asked for by narrow ones.
USUAL = {"a": "function", "b": "function", "c": "class", "d": "class", "e": "module", "f": "module", "g": "session"}
EXC = ["ValueError", "KeyError", "RuntimeError", "AssertionError", "IndexError", "TypeError"]
FOLDERS = ["sub/", "sub/deep/", "sub/deep/er/", "other/"]
TESTS = ["test_a.py", "test_b.py", "c_test.py", "test_d.py"]


class Project:
    def __init__(self, seed):
        self.r = random.Random(seed)
        self.n = 0
        self.wild = self.r.choice([0.2, 0.6, 1.0, 1.5])

    def chance(self, p):
        return self.r.random() < p

    def rare(self, p):
        return self.r.random() < p * self.wild

    def some(self, xs):
        return self.r.choice(xs)

    def fresh(self):
        self.n += 1
        return self.n

    # ---------------------------------------------------------------- bodies

    def tell(self):
        return self.some(['print("p%d")' % self.fresh()] * 4 + ['print("p%d", end="")' % self.fresh(), "print(len(LOG), len(KEEP))", 'print("\\xe9 %d")' % self.fresh(), "print()",
                                                              'print("two\\nlines %d")' % self.fresh()])

    def boom(self):
        n = self.fresh()
        return self.some(['raise %s("m%d")' % (self.some(EXC), n)] * 4 + ["1 // 0", "{}[%d]" % n, "undefined_%d" % n, "assert len(LOG) == %d" % (100 + n), 'assert LOG == [%d], "why %d"' % (n, n),
                                                                        "raise Own(%d)" % n, 'raise AssertionError("assert m%d")' % n, 'raise KeyError("l%d\\nmore")' % n, "deep(3)", "rec(0)", "None.x",
                                                                        'with pytest.raises(KeyError): pass'])

    def action(self):
        k = self.r.random()
        if k < 0.40:
            return [self.tell()]
        if k < 0.62:
            return [self.boom()]
        if k < 0.68:
            return [self.some(['pytest.skip("s%d")' % self.fresh(), "pytest.skip()"])]
        if k < 0.72:
            return ['pytest.fail("f%d")' % self.fresh()]
        if k < 0.76:
            return ["while True:", "    pass"]
        if k < 0.84:
            return ["LOG.append(%d)" % self.fresh()]
        if k < 0.90:
            return ["try:", "    " + self.boom(), "except %s as x:" % self.some(EXC + ["Exception"]), "    " + self.some(["print(x)", "raise", 'raise Own("again")', "pass", "KEEP.append(x)"])]
        if k < 0.94:
            return ["if len(LOG) > %d:" % self.some([0, 1, 3]), "    " + self.some([self.boom(), self.tell()])]
        return ["pass"]

    def quiet(self):
        return [self.some([self.tell(), "LOG.append(%d)" % self.fresh(), "pass"])]

    def value(self, args):
        got = [x for x in args if x not in ("self", "request")]
        n = self.fresh()
        forms = ["%d" % n, "[%d]" % n, '"v%d"' % n, "LOG", "{%d: %d}" % (n, n), "None"]
        if got:
            forms += [got[0], "[%s]" % ", ".join(got), "[%s, %d]" % (got[0], n), "{1: %s}" % got[-1]] * 2
        if "self" in args:
            forms.append("self")
        if "request" in args:
            forms += ["request", "[request.fixturename, request.scope]", "getattr(request, \"param\", 5)"]
        return self.some(forms)

    # ---------------------------------------------------------------- parameters

    def row(self):
        """One value of a list."""
        v = self.some(["1", "2", "-7", "True", "None", '"p"', '"q1"', '"a b"', '"x::y"', '"\\n\xe9"', "LOG", "[1]", "(1, 2)", "fin0", "Own", "int", "len", "{}", "%d" % self.fresh()])
        if not self.chance(0.2):
            return v
        more = [v] if not self.rare(0.05) else self.some([[], [v, "8"]])
        if self.chance(0.5):
            more.append("id=" + self.some(['"i"', '"i"', '"j1"', '""', '"\u20ac"']))
        if self.chance(0.5):
            more.append("marks=" + self.some(["pytest.mark.xfail", "pytest.mark.skip", '[pytest.mark.slow, pytest.mark.xfail(reason="row")]', "[]", 'pytest.mark.usefixtures("c")']))
        return "pytest.param(%s)" % ", ".join(more)

    def rows(self):
        return "[%s]" % ", ".join(self.row() for _ in range(self.some([1, 2, 2, 2, 3, 3, 4] if not self.rare(0.06) else [0, 0, 9])))

    def ids(self, word):
        return [word + self.some(['["m", "n", "m"]', '["r"]', '("m", "m", "m", "m", "m")', "[]", "None"])] if self.chance(0.15) else []

    def parametrize(self, names, free):
        """A `parametrize` with some of the names; sometimes with one that is taken, or that nobody asks for."""
        got = [free.pop() for _ in range(self.some([1, 1, 1, 2])) if free]
        if not got or self.rare(0.02):
            got.append(self.some(["k", "nope", "request"] + names))
        if len(got) == 1 and self.chance(0.8):
            return ["@pytest.mark.parametrize(%s)" % ", ".join(['"%s"' % got[0], self.rows()] + self.ids("ids="))]
        rows = []
        for _ in range(self.some([1, 2, 2, 3])):
            rows.append("(%s,)" % ", ".join(self.some(["1", '"s"', "LOG", "[2]", "None", "%d" % self.fresh()]) for _ in range(len(got) + self.rare(0.02))))
        shown = self.some(['"%s"' % ", ".join(got), '"%s"' % ",".join(got), "[%s]" % ", ".join('"%s"' % one for one in got)])
        return ["@pytest.mark.parametrize(%s)" % ", ".join([shown, "[%s]" % ", ".join(rows)] + self.ids("ids="))]

    def request_lines(self, test=False):
        out = []
        for _ in range(self.some([0, 1, 1, 2, 3])):
            out.append("request.addfinalizer(%s)" % self.some(["fin0", "fin1", "fin2", "fin3", "fin0", "fin1", "LOG.clear", "7" if self.rare(0.1) else "fin1"]))
        if self.chance(0.3):
            out.append("print(request.fixturename, request.scope)")
        if self.chance(0.15):
            out.append("KEEP.append(request)")
        if self.rare(0.03):
            out.append(self.some(["request.param", 'print(hasattr(request, "param"))', "request.addfinalizer()", "request.nope"]))
        return out

    def kept(self):
        """Something about a request that was kept."""
        return ["if KEEP:"] + ["    " + x for x in [self.some(["KEEP[0].addfinalizer(fin0)", "KEEP[-1].addfinalizer(fin1)", "print(KEEP[-1])", "print(KEEP == KEEP[:1])"])]]

    def rest(self, name):
        """What stands behind a yield."""
        out = ['print("down %s")' % name] if self.chance(0.85) else []
        if self.rare(0.25):
            out += self.action()
        if self.rare(0.05):
            out += self.kept()
        if self.rare(0.05):
            out.append("yield %d" % self.fresh())
            out += self.quiet()
        return out or ["pass"]

    def yields(self, name, args):
        """A yield in one of its places, and what stands around it."""
        one = self.some(["yield %s" % self.value(args)] * 6 + ["yield", "got = yield %s" % self.value(args), "got = yield", "return (yield %s)" % self.value(args)])
        k = self.r.random()
        inner = [one] + ([] if one.startswith("return") else (["print(got)"] if one.startswith("got") and self.chance(0.5) else []) + self.rest(name))
        if k < 0.55:
            return inner
        if k < 0.65:
            return ["try:"] + ["    " + x for x in inner] + ["finally:"] + ["    " + x for x in (self.action() if self.rare(0.3) else self.quiet())]
        if k < 0.75:
            out = ["try:"] + ["    " + x for x in inner] + ["except %s as x:" % self.some(EXC + ["Exception", "BaseException"])]
            out += ["    " + self.some(['print("caught", x)', "raise", "raise Own(5)", "pass"])]
            if self.chance(0.4):
                out += ["else:"] + ["    " + x for x in self.quiet()]
            if self.chance(0.4):
                out += ["finally:"] + ["    " + x for x in self.quiet()]
            return out + (self.quiet() if self.chance(0.4) else [])
        if k < 0.87:
            out = ["if %s:" % self.some(["True", "LOG", "not LOG", "len(LOG) < 3", "KEEP == []"])] + ["    " + x for x in inner]
            if self.chance(0.8):
                out += ["else:"] + ["    " + x for x in self.yields(name, args)[:3] if not x.startswith((" ", "try", "if", "else", "except", "finally"))] + ["    yield %d" % self.fresh()]
            return out + (self.rest(name) if self.chance(0.5) else [])
        if k < 0.93:
            return ["try:", "    if True:"] + ["        " + x for x in inner] + ["    print(\"in\")", "finally:", "    print(\"out\")"]
        if self.rare(0.2):
            return self.some([["for k in [1]:"] + ["    " + x for x in inner], ["with pytest.raises(KeyError):"] + ["    " + x for x in inner], ["while True:", "    yield 1"]])
        return inner

    def fixture(self, name, indent, method, at_root):
        opts = []
        scope = USUAL[name] if not self.rare(0.06) else self.some(SCOPES)
        if scope != "function" or self.chance(0.1):
            opts.append('scope="%s"' % scope)
        if self.chance(0.15):
            opts.append("autouse=True")
        bound = name
        if self.chance(0.1):
            opts.append('name="%s"' % name)
            bound = self.some(["fx%d" % self.fresh(), "_hidden", "testing", "pytest_no" if self.rare(0.02) else "other"])
        has_params = self.chance(0.14)
        if has_params:
            opts.append("params=%s" % self.rows())
            opts += self.ids("ids=")
        deco = self.some(["@pytest.fixture", "@pytest.fixture()"]) if not opts else "@pytest.fixture(%s)" % ", ".join(opts)
        args = [self.some(["self"] * 9 + ["this"])] if method else []
        for other in self.r.sample(NAMES, self.some([0, 0, 1, 1, 2, 3])):
            if other > name or self.rare(0.03):
                args.append(other)
        if name not in args and not at_root and self.chance(0.3):
            args.append(name)
        if name not in args and self.rare(0.02):
            args.append(name)
        if self.rare(0.03):
            args.append(self.some(["nope", "nothing"]))
        if self.chance(0.4) or (has_params and self.chance(0.8)):
            args.append("request")
        if method and "self" not in args:
            args = [args[0]] + [x for x in args[1:]]
        self.r.shuffle(args) if not method else None
        if self.chance(0.08):
            args.append(self.some(["k=1", "a=2" if "a" not in args else "k=2", "request=3" if "request" not in args else "k=3"]))
        clean = [x for x in args if "=" not in x and x != "this"]
        lines = [deco, "def %s(%s):" % (bound, ", ".join(args))]
        body = ['print("up %s")' % name]
        if "request" in clean:
            body += self.request_lines()
            if has_params and self.chance(0.8):
                body.append(self.some(["print(request.param)", "LOG.append(request.param)", "print(repr(request.param))", "assert request.param"]))
        if "self" in clean and self.chance(0.4):
            body.append(self.some(["self.mark_%s = %d" % (name, self.fresh()), 'print(hasattr(self, "mark_a"))']))
        got = [x for x in clean if x not in ("self", "request")]
        if got and self.chance(0.3):
            body.append(self.some(["print(%s)", "assert %s != -1", "LOG.append(%s)"]) % self.some(got))
        if self.rare(0.15):
            body += self.action()
        if self.rare(0.03):
            body += self.kept()
        if self.chance(0.65):
            body += self.yields(name, clean)
        elif self.rare(0.06):
            body += ["if False:", "    yield"]
        else:
            body.append("return " + self.value(clean))
        lines += ["    " + x for x in body] + [""]
        return [indent + x if x else "" for x in lines]

    # ---------------------------------------------------------------- tests

    def marks(self):
        out = []
        k = self.r.random()
        if k < 0.06:
            out.append(self.some(['@pytest.mark.skip(reason="later")', "@pytest.mark.skip"]))
        elif k < 0.10:
            out.append('@pytest.mark.skipif(%s, reason="cond")' % self.some(["True", "False"]))
        elif k < 0.22:
            opts = []
            if self.chance(0.3):
                opts.append(self.some(["True", "False"]))
            if self.chance(0.4):
                opts.append('reason="why"')
            if self.chance(0.3):
                opts.append("strict=True")
            if self.chance(0.4):
                opts.append("raises=%s" % self.some(EXC + ["(ValueError, KeyError)", "BaseException", "Own"]))
            out.append("@pytest.mark.xfail" + ("(%s)" % ", ".join(opts) if opts else ""))
        if self.chance(0.12):
            out.append("@pytest.mark.%s" % self.some(["slow", "fast", "nice"]))
        while self.chance(0.2):
            out.append("@pytest.mark.usefixtures(%s)" % ", ".join('"%s"' % x for x in self.r.sample(NAMES + (["nope", "request"] if self.rare(0.1) else []), self.some([0, 1, 1, 2]))))
        self.r.shuffle(out)
        return out

    def test(self, name, indent, method):
        args = self.r.sample(NAMES, self.some([0, 1, 1, 2, 2, 3]))
        if self.chance(0.2):
            args.append("request")
        if self.rare(0.03):
            args.append("nope")
        self.r.shuffle(args)
        marks = self.marks()
        free = self.r.sample(NAMES, 2) + ["x", "y"] if self.chance(0.15) else ["x", "y", "z"]
        while self.chance(0.22):
            before = list(free)
            marks.insert(self.some([0, len(marks)]), *self.parametrize(args, free))
            args += [one for one in before if one not in free + args]
        lines = marks + ["def %s(%s):" % (name, ", ".join((["self"] if method else []) + args + (["k=1"] if self.chance(0.04) else [])))]
        body = ['print("in %s")' % name] if self.chance(0.8) else []
        if "request" in args:
            body += self.request_lines(True)
        got = [x for x in args if x not in ("request", "nope")]
        if got and self.chance(0.5):
            one = self.some(got)
            body.append(self.some(["print(%s)", "assert %s == %d" % ("%s", self.fresh()), "assert not %s", "LOG.append(%s)", "assert %s is LOG", "print(repr(%s))"]) % one)
        if len(got) > 1 and self.chance(0.2):
            body.append("assert %s == %s" % (got[0], got[1]))
        if method and self.chance(0.2):
            body.append(self.some(["print(self.mark_a)", 'print(hasattr(self, "mark_c"))', "self.mark_b = 1"]))
        if self.rare(0.3):
            body += self.action()
        if self.rare(0.05):
            body += self.kept()
        if self.rare(0.02):
            body.append(self.some(["fx()", "yield 1", "a()", "other()"]))
        lines += ["    " + x for x in body or ["pass"]] + [""]
        return [indent + x if x else "" for x in lines]

    def test_class(self, name):
        lines = []
        if self.chance(0.2):
            lines.append("@pytest.mark.%s" % self.some(["slow", "usefixtures('c')", "usefixtures('e', 'a')", "skip", "xfail", "parametrize('a', [1, 2])", "parametrize('g', [1], ids=['class'])"]))
        lines.append("class %s:" % name)
        if self.chance(0.15):
            lines.append("    pytestmark = %s" % self.some(["pytest.mark.nice", "[pytest.mark.usefixtures('d')]", "[pytest.mark.usefixtures('b'), pytest.mark.usefixtures('g')]"]))
        for one in self.r.sample(NAMES, self.some([0, 0, 1, 1, 2])):
            lines += self.fixture(one, "    ", True, False)
        for j in range(self.some([1, 2, 2, 3])):
            lines += self.test("test_m%d" % j, "    ", True)
        return lines + [""]

    # ---------------------------------------------------------------- files

    def top(self):
        return ["import pytest", "", "LOG = []", "KEEP = []", "", "class Own(ValueError):", "    pass", "", "def fin0():", '    print("fin0")', "", "def fin1():"] + \
            ["    " + x for x in self.action()] + ['    print("fin1")', "", "def fin2():", "    " + self.boom(), "", "def fin3():", "    if KEEP:", "        KEEP[-1].addfinalizer(fin0)", '    print("fin3")', "",
                                                  "def deep(n):", "    if n == 0:", '        raise Own("deep")', "    deep(n - 1)", "", "def rec(n):", "    rec(n + 1)", ""]

    def conftest(self, at_root):
        lines = self.top()
        for name in self.r.sample(NAMES, len(NAMES) if at_root and self.chance(0.9) else self.some([0, 1, 2, 3])):
            lines += self.fixture(name, "", False, at_root)
        if self.rare(0.01):
            lines += ["def pytest_runtest_setup(item):", "    pass", ""]
        if self.rare(0.01):
            lines.append(self.boom())
        return lines

    def module(self, tools):
        lines = self.top()
        if tools and self.chance(0.3):
            lines += [self.some(["from tools import LOG", "from tools import a", "from tools import a as b", "from tools import c", "import tools", "from tools import fin0 as fin1"]), ""]
        if self.chance(0.12):
            lines += ["pytestmark = %s" % self.some(["pytest.mark.slow", "[pytest.mark.fast, pytest.mark.usefixtures('b')]", "pytest.mark.usefixtures('e', 'f')", "pytest.mark.xfail", "pytest.mark.parametrize('c', [1, LOG])"]), ""]
        for name in self.r.sample(NAMES, self.some([0, 0, 1, 2, 3])):
            lines += self.fixture(name, "", False, False)
        for k in range(self.some([1, 2, 3])):
            if self.chance(0.35):
                lines += self.test_class("Test%s%d" % (self.some(["A", "B"]), k))
            else:
                lines += self.test("test_%d" % k, "", False)
        if self.chance(0.1):
            lines += self.fixture(self.some(NAMES), "", False, False)
        if self.rare(0.02):
            lines.append(self.some(["def broken(:", self.boom(), "x = = 1"]))
        return lines

    def project(self):
        files, tools = {}, self.chance(0.25)
        for folder in [""] + self.r.sample(FOLDERS, self.some([0, 1, 1, 2, 3])):
            if folder == "" or self.chance(0.7):
                files[folder + "conftest.py"] = self.conftest(folder == "")
            for _ in range(self.some([1, 1, 2])):
                files[folder + self.some(TESTS)] = self.module(tools)
        if tools:
            files["tools.py"] = self.top() + self.fixture("a", "", False, False) + self.fixture("c", "", False, False)
        if self.rare(0.05):
            files["test_chain.py"] = self.chain()
        return {p: ("\n".join(lines) + "\n").encode("utf-8") for p, lines in files.items()}

    def chain(self):
        """A long chain of fixtures."""
        n = self.some([10, 60, 150])
        lines = ["import pytest", ""]
        for k in range(n):
            scope = SCOPES[min(3, k * 4 // n)]
            lines += ['@pytest.fixture(scope="%s")' % scope, "def x%d(%s):" % (k, "x%d" % (k - 1) if k else ""),
                      "    yield %s" % ("x%d + 1" % (k - 1) if k else "0"), "    " + (self.boom() if self.chance(0.02) else "pass"), ""]
        lines += ["def test_chain(x%d):" % (n - 1), "    assert x%d == %d" % (n - 1, self.some([n - 1, n])), ""]
        return lines

    # ---------------------------------------------------------------- words

    def words(self, files):
        words = ["--step-limit=%d" % self.some([300, 1000, 5000, 5000])]
        if self.chance(0.45):
            words.append("--setup-show")
        if self.chance(0.2):
            words.append("-v")
        if self.chance(0.3):
            words.append(self.some(["-x", "--maxfail=1", "--maxfail=2", "--maxfail=2", "--maxfail=3", "--maxfail=5"]))
        if self.chance(0.12):
            words.append("--tb=" + self.some(["line", "no", "short"]))
        if self.chance(0.05):
            words.append("--collect-only")
        if self.chance(0.12):
            words += ["-k", self.some(["test_0", "not test_1", "sub or a", "slow", "TestA and not m1", "m0 or m2", "1]", "p or q1", "not 1"])]
        if self.chance(0.08):
            words += ["-m", self.some(["slow", "not slow", "fast or slow", "usefixtures", "not xfail"])]
        if self.chance(0.25):
            tests = sorted(p for p in files if p.endswith(".py") and not p.endswith(("conftest.py", "tools.py")))
            for _ in range(self.some([1, 2, 2, 3])):
                p = self.some(tests)
                words.append(self.some([p, p, p + "::" + self.some(["test_0", "test_1", "test_0[1]", "test_0[p]", "test_1[2-1]", "TestA0", "TestB1::test_m0", "TestA1", "TestA1::test_m0[1]"]), p.rsplit("/", 1)[0] if "/" in p else ".", "conftest.py"]))
        if self.chance(0.05):
            words.append("--ignore=" + self.some(["sub", "test_a.py", "./other/"]))
        if self.rare(0.01):
            words += ["-n", "2"]
        return words


def project(seed):
    made = Project(seed)
    files = made.project()
    return made.words(files), files


def by_model_fuzz(seed):
    """Of the model's own generator; what it writes of workers is taken out again."""
    gen = Gen(seed, Features())
    texts = gen.project()
    words = gen.words(texts)
    while "-n" in words:
        at = words.index("-n")
        del words[at:at + 2]
    return words, {p: t.encode("utf-8") for p, t in texts.items()}
