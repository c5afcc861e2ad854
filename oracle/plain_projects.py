"""Random projects and command lines for collection and the whole report, without fixtures and parameters.

project(seed) -> (words, files): a list of texts, and a dict of paths to bytes."""
import random
import re

EXCEPTIONS = ["ValueError", "KeyError", "RuntimeError", "AssertionError", "IndexError", "TypeError"]
CLASSES = EXCEPTIONS + ["Exception", "BaseException", "(ValueError, KeyError)", "Own"]
FOLDERS = ["sub/", "sub/deep/", "other/", "pkg/", "a b/", "zz/"]
PASSED_OVER = ["build/", ".hidden/", "x.egg/", "node_modules/", "sub/__pycache__/", "sub/.x/"]
TEST_FILES = ["test_a.py", "test_b.py", "c_test.py", "test_d.py", "test_.py", "_test.py"]
OTHER_FILES = ["helper.py", "util.py", "__init__.py", "helper.py", "tests.py", "Test_x.py", "testx.py"]
TEXT_FILES = ["data.txt", "test_a.txt", "test_a"]
CUSTOM = ["slow", "fast", "nice", "test_0"]


class Project:
    def __init__(self, seed):
        self.r = random.Random(seed)
        self.count = 0
        # Some projects are plain, so that most of what they have runs.
        self.wild = self.r.choice([0.0, 0.3, 1.0])
        self.paths = []
        self.texts = {}

    def chance(self, p):
        return self.r.random() < p

    def rare(self, p):
        return self.r.random() < p * self.wild

    def fresh(self):
        self.count += 1
        return self.count

    def some(self, values):
        return self.r.choice(values)

    # ---------------------------------------------------------------- statements

    def text(self):
        return self.some(["p%d" % self.fresh(), "p%d" % self.fresh(), "two\\nlines", "", "\\xe9 \\u2603", " x ", "a\\n", "\\n", "\\t"])

    def prints(self):
        return self.some(['print("p%d")' % self.fresh(), 'print("p%d")' % self.fresh(), 'print("p%d", end="")' % self.fresh(),
                          'print("%s")' % self.text(), 'print("a", %d, sep="-")' % self.fresh(), "print()", "print(len(LOG))",
                          "print(__name__)", 'print("%s", end="%s")' % (self.text(), self.text())])

    def raises(self):
        n = self.fresh()
        e = self.some(EXCEPTIONS)
        return self.some(['raise %s("m%d")' % (e, n), 'raise %s("m%d")' % (e, n), "raise %s" % e, "raise %s()" % e,
                          'raise %s("%s")' % (e, self.text()), "raise %s(%d, 2)" % (e, n), 'raise Own("own %d")' % n, "raise Own",
                          'raise AssertionError("assert %d")' % n, "undefined_%d" % n, "1 // 0", "[][0]", '{}["k"]', '"a" + 1', "None.x",
                          "boom()", "deep(%d)" % self.some([1, 3]), "raise KeyError(KeyError('k'))"])

    def asserts(self):
        return self.some(["assert 1 == %d" % self.some([1, 2]), "assert len(LOG) < %d" % self.some([1, 2, 9]), 'assert False, "why"',
                          'assert False, "why\\nmore"', "assert [], 5", "assert None", 'assert "", ""', "assert LOG, LOG",
                          'assert 1 == 1, "no"'])

    def compound(self):
        e, f = self.some(EXCEPTIONS), self.some(EXCEPTIONS)
        return self.some([
            ["try:", "    " + self.raises(), "except %s as e:" % e, '    print("caught")'],
            ["try:", "    " + self.raises(), "except %s as e:" % e, "    raise e"],
            ["try:", "    " + self.raises(), "except %s:" % e, "    raise %s(\"again\")" % f],
            ["try:", "    " + self.simple(), "finally:", "    " + self.prints()],
            ["try:", "    " + self.raises(), "except:", "    raise"],
            ["with pytest.raises(%s):" % e, "    " + self.simple()],
            ["with pytest.raises(%s) as info:" % e, "    " + self.raises(), "print(info.value)"],
            ["with pytest.raises(%s, match=\"m.*\"):" % e, "    " + self.raises()],
            ["for k in range(%d):" % self.some([2, 5]), "    LOG.append(k)"],
            ["if len(LOG) > %d:" % self.some([0, 1, 3]), "    " + self.simple()],
            ["while True:", "    pass"],
            ["n = 0", "while n < %d:" % self.some([5, 50, 400]), "    n = n + 1"],
        ])

    def simple(self):
        k = self.r.random()
        if k < 0.30:
            return self.prints()
        if k < 0.50:
            return self.raises()
        if k < 0.62:
            return self.asserts()
        if k < 0.68:
            return self.some(['pytest.skip("s%d")' % self.fresh(), 'pytest.skip("")', "pytest.skip()", 'pytest.fail("f%d")' % self.fresh(),
                              'pytest.fail("f\\ng")', "pytest.fail()"])
        if k < 0.80:
            return "LOG.append(%d)" % self.fresh()
        if k < 0.84:
            return self.some(["boom()", "rec(0)", "LOG.clear()", "return", "return 5", "LOG = 3"])
        return "pass"

    def quiet(self):
        return self.some([self.prints(), "pass", "LOG.append(%d)" % self.fresh(), "assert 1 == 1"])

    def body(self, method):
        out = []
        for _ in range(self.some([1, 1, 2, 3])):
            k = self.r.random()
            if k < 0.40:
                out.append(self.quiet())
            elif k < 0.80:
                out.append(self.simple())
            else:
                out += self.compound()
        if method and self.chance(0.3):
            out.insert(0, self.some(["self.x = 1", 'print(hasattr(self, "x"))', 'assert not hasattr(self, "x")\nself.x = 1'.split("\n")[0],
                                     "self.count = 3", "print(self.count)", "self.items.append(1)", "print(len(self.items))"]))
        return out

    # ---------------------------------------------------------------- marks

    def condition(self):
        return self.some(["True", "False", "True", "False", "len(LOG) > 0", "not LOG", "len(LOG) == 0"] +
                         (["0", "1", '""', "LOG", "None", "len"] if self.rare(0.1) else []))

    def mark(self):
        r = self.r
        k = r.random()
        name = "pytest.mark."
        if k < 0.15:
            return name + self.some(["skip", "skip", 'skip(reason="later")', 'skip(reason="later")', "skip()"] +
                                   (['skip("placed")', "skip(reason=5)"] if self.rare(0.1) else []))
        if k < 0.32:
            reason = self.some(['reason="cond"', 'reason="cond"', 'reason=""'] + (["x=1"] if self.rare(0.2) else []))
            if self.rare(0.03):
                return name + "skipif(%s)" % reason
            if self.chance(0.2):
                return name + "skipif(%s)" % self.condition()
            return name + "skipif(%s, %s)" % (self.condition(), reason)
        if k < 0.65:
            options = []
            if self.chance(0.35):
                options.append(self.condition())
            if self.chance(0.4):
                options.append(self.some(['reason="why"', 'reason="why"', 'reason="two\\nlines"', 'reason=""'] + (["reason=7"] if self.rare(0.1) else [])))
            if self.chance(0.4):
                options.append("strict=" + self.some(["True", "True", "False"] + (["1", '""'] if self.rare(0.1) else [])))
            if self.chance(0.4):
                options.append("raises=" + self.some(CLASSES + ["None"]))
            if options:
                return name + "xfail(%s)" % ", ".join(options)
            return name + self.some(["xfail", "xfail()"])
        if self.rare(0.05):
            return name + self.some(['usefixtures("a")', 'parametrize("x", [1, 2])', "usefixtures()"])
        return name + self.some([self.some(CUSTOM), self.some(CUSTOM), self.some(CUSTOM) + "(1, k=2)"])

    def marks(self):
        return [self.mark() for _ in range(self.some([0, 0, 0, 1, 1, 2]))]

    def pytestmark(self):
        k = self.r.random()
        if k < 0.4:
            value = self.mark()
        elif k < 0.9:
            value = "[%s]" % ", ".join(self.some([self.mark(), self.mark(), "5", "None", '"x"', "pytest.mark", "pytest"])
                                        for _ in range(self.some([0, 1, 2])))
        else:
            value = self.some(["5", "None", "(pytest.mark.slow,)", "pytest.mark"])
        return "pytestmark = " + value

    # ---------------------------------------------------------------- definitions

    def test(self, name, indent, method):
        lines = ["@" + m for m in self.marks()]
        args = []
        if method and not self.rare(0.04):
            args.append("request" if self.rare(0.05) else "self")
        if self.rare(0.10):
            args.append(self.some(["z", "nope", "z, y", "self"]))
        if self.rare(0.02):
            args.append("request")
        if self.chance(0.06):
            args.append(self.some(["k=1", "k=LOG", "request=1"]))
        lines.append("def %s(%s):" % (name, ", ".join(dict.fromkeys(args))))
        lines += ["    " + x for x in self.body(method)]
        return [indent + x for x in lines] + [""]

    def test_class(self, name):
        lines = ["@" + m for m in (self.marks() if self.chance(0.3) else [])]
        base = self.some(["", "", "", "", "(Base)" if self.rare(0.2) else "", "(ValueError)" if self.rare(0.5) else "", "(Own)" if self.rare(0.3) else ""])
        lines.append("class %s%s:" % (name, base))
        start = len(lines)
        if self.chance(0.2):
            lines.append("    " + self.pytestmark())
        if self.chance(0.3):
            lines.append("    " + self.some(["count = 0", "items = []", 'print("class")', "test_value = 3", "test_len = len"]))
        if self.rare(0.1):
            lines += ["    def __init__(self%s):" % self.some(["", ", x"]), "        self.y = 1", ""]
        for _ in range(self.some([0, 1, 2, 2, 3])):
            lines += self.test("test_m%d" % self.some([0, 1, 2]), "    ", True)
        if self.chance(0.1):
            lines += ["    def helper(self):", "        pass", ""]
        if self.rare(0.01):
            lines += ["    class TestInner:", "        def test_inner(self):", "            pass", ""]
        if self.rare(0.02):
            lines += ["    test_again = test_0"]
        if self.chance(0.05):
            lines += ["    test_again = boom"]
        if len(lines) == start:
            lines.append("    pass")
        return lines + [""]

    def top(self):
        return [self.some(["import pytest", "import pytest", "import pytest", "from pytest import mark, skip\nimport pytest"]), "", "LOG = []", "", "class Own(ValueError):", "    pass", "", "class Base:", "    def test_base(self):",
                "        pass", "", "def boom():", "    " + self.some([self.some(['raise ValueError("boom")', "raise Own(1)"]), self.raises().replace("boom()", "pass")]), "",
                "def deep(n):", "    if n == 0:", "        boom()", "    deep(n - 1)", "", "def rec(n):", "    rec(n + 1)", ""]

    def dotted(self, path):
        name = path[:-3]
        return (name[:-9] if name.endswith("/__init__") else name).replace("/", ".")

    def found(self, name, path):
        """The file that an import of a name finds from a file."""
        here = path.rsplit("/", 1)[0] + "/" if "/" in path else ""
        tail = name.replace(".", "/")
        for place in [here + tail + "/__init__.py", here + tail + ".py", tail + "/__init__.py", tail + ".py"]:
            if place in self.paths:
                return place
        return None

    def imports(self, path):
        modules = [p for p in self.paths if p.endswith(".py") and " " not in p and "-" not in p]
        out = []
        for _ in range(self.some([0, 0, 1, 1, 2])):
            other = None
            if modules and not self.rare(0.06):
                other = self.some(modules)
                name = self.dotted(other)
                if self.chance(0.4):
                    name = name.split(".")[-1]
            else:
                name = self.some(["missing", "sub.missing", "pkg", "os", "sub"])
            if name in ("", "__init__") or name.startswith(".") or "egg" in name:
                continue
            texts = self.texts.get(other, "") if other else ""
            if not self.rare(0.3):
                # Names that the module has.
                has = [n for n in ("LOG", "boom", "test_0", "test_1", "TestA0", "TestB1", "Own", "Base") if n in texts]
                if has and other == self.found(name, path):
                    one = self.some(has)
                    out.append("from %s import %s%s" % (name, one, self.some(["", "", " as test_q", " as TestQ"])))
                continue
            line = self.some(["import %s as other" % name, "from %s import LOG" % name, "from %s import boom, Own as Other" % name,
                              "from %s import test_0 as test_q" % name, "from %s import test_0" % name, "from %s import TestA0" % name, "from %s import pytestmark" % name,
                              "from %s import boom" % name, "import %s as other" % name,
                              "from %s import %s" % (name.rsplit(".", 1)[0], name.rsplit(".", 1)[-1]) if "." in name else "import " + name,
                              "from %s import nothing" % name if self.rare(0.2) else "import %s as other2" % name])
            if self.chance(0.35):
                out += ["try:", "    " + line, "except %s:" % self.some(["ImportError", "Exception", "ImportError", "AttributeError", "SyntaxError"]),
                        "    " + self.some(['print("no import")', "pass", "other = None", "raise"])]
            else:
                out.append(line)
        return out

    def load_actions(self):
        """What a module does while it is loaded, besides definitions."""
        out = []
        if self.chance(0.25):
            out.append(self.prints())
        if self.rare(0.06):
            out.append(self.some([self.raises(), 'pytest.skip("whole file")', "rec(0)", "boom()", "deep(2)", 'pytest.fail("load")']))
        if self.rare(0.03):
            out += self.compound()
        if self.rare(0.02):
            out += ["while True:", "    pass"]
        return out

    def faults(self):
        """A line that is no Python of the language."""
        return self.some(["def broken(:", "x = = 1", "assert (1 ==", '"not closed', "\tx = 1", "x = 1.5", "lambda: 1", "return 5", "if True:",
                          "x = $", "def f(a, a): pass", "  x = 1", "0x", "import a.b", "x = 'a\\N{DASH}'", "class C: pass", ")", "[1, 2", "break",
                          "99999999999999999999999999999999999999999", "async def f(): pass", "f'{x}'", "x: int = 3", "raise X from Y"])

    def module(self, path, tests):
        lines = self.top()
        lines += self.imports(path)
        lines += self.load_actions()
        if self.chance(0.12):
            lines += [self.pytestmark(), ""]
        for k in range(self.some([0, 1, 2, 3, 4]) if tests else self.some([0, 0, 1])):
            if self.chance(0.3):
                lines += self.test_class("Test" + self.some(["A", "B", ""]) + str(k))
            elif self.chance(0.06):
                lines += self.some([["test_x = 3"], ["test_len = len"], ["TestX = 4"], ["TestV = ValueError"], ["TestStr = str"], ["test_again = boom"],
                                    ["TestAgain = Base"], ["test_own = Own"], ["test_bound = Base().test_base"], ["TestMark = pytest.mark.slow"]])
            elif self.chance(0.05):
                lines += ["if %s:" % self.some(["True", "LOG", "1 == 1"])] + self.test("test_%d" % k, "    ", False)
            elif self.chance(0.05):
                lines += ["for k in range(2):"] + self.test("test_%d" % k, "    ", False)
            else:
                lines += self.test(self.some(["test_%d" % k, "test_%d" % k, "test_%d" % k, "test", "testing", "test_0"]), "", False)
        if self.chance(0.08):
            lines += ["class Helper:", "    def test_no(self):", "        pass", ""]
        if self.rare(0.06):
            lines.append(self.some(["LOG = None", "test_z = boom", "TestZ = Base"] +
                                   [line for name, line in (("test_0", "del test_0"), ("test_0", "test_0 = None"), ("test_0", "test_1 = test_0"),
                                                            ("TestB1", "TestA0 = TestB1"), ("test_1", "test_x = test_1"))
                                    if any(" %s(" % name in x or " %s:" % name in x for x in lines)]))
        if self.rare(0.03):
            lines += ["@pytest.fixture", "def fix():", "    return 1", ""]
        if self.rare(0.04):
            lines.insert(self.r.randrange(len(lines) + 1), self.faults())
        if self.rare(0.04):
            lines.append(self.raises())
        return lines

    def encoded(self, lines):
        text = "\n".join(lines) + "\n"
        if self.rare(0.03):
            text = text.replace("\n", "\r\n")
        if self.rare(0.03):
            text = text.rstrip("\n")
        data = text.encode("utf-8")
        if self.rare(0.02):
            data = b"\xef\xbb\xbf" + data
        if self.rare(0.02):
            at = self.r.randrange(len(data) + 1)
            data = data[:at] + self.some([b"\xff", b"\xc3", b"\xe2\x98", b"\x80", b"\xed\xa0\x80", b"\xc0\x80"]) + data[at:]
        if self.rare(0.02):
            data = b""
        return data

    def conftest(self):
        lines = self.top() + self.imports("conftest.py")
        if self.chance(0.3):
            lines.append(self.prints())
        if self.rare(0.05):
            lines.append(self.some([self.raises(), 'pytest.skip("c")', "rec(0)", self.faults(), "while True: pass", 'print("out")\nraise Own("x")']))
        if self.rare(0.03):
            lines.append(self.some(["def pytest_foo():\n    pass", "pytest_x = 1", "pytest_plugins = []", "@pytest.fixture\ndef a():\n    pass"]))
        if self.chance(0.2):
            lines += self.test("test_0", "", False)
        if self.rare(0.1):
            lines.append(self.pytestmark())
        return lines

    def project(self):
        folders = [""] + self.r.sample(FOLDERS, self.some([0, 0, 1, 2, 3]))
        if self.rare(0.2):
            folders.append(self.some(PASSED_OVER))
        if self.rare(0.05):
            folders.append(self.some(["test_d.py/", "x.py/"]))
        names = {}
        for folder in folders:
            for _ in range(self.some([0, 1, 1, 2, 3]) if folder else self.some([1, 1, 2, 3])):
                names[folder + self.some(TEST_FILES)] = "tests"
            for _ in range(self.some([0, 0, 1, 1])):
                names[folder + self.some(OTHER_FILES)] = "other"
            if self.chance(0.35):
                names[folder + "conftest.py"] = "conftest"
            if self.chance(0.1):
                names[folder + self.some(TEXT_FILES)] = "text"
        # A folder and a file of one name can't both be.
        names = {p: k for p, k in names.items() if not any(q.startswith(p + "/") for q in names)}
        self.paths = sorted(names)
        files = {}
        for path in sorted(self.paths, key=lambda p: self.r.random()):
            kind = names[path]
            if kind == "tests":
                files[path] = self.encoded(self.module(path, True))
            elif kind == "other":
                files[path] = self.encoded(self.module(path, self.chance(0.3)))
            elif kind == "conftest":
                files[path] = self.encoded(self.conftest())
            else:
                files[path] = b"text \xff\n"
            self.texts[path] = files[path].decode("utf-8", "replace")
        return {path: files[path] for path in self.paths}

    # ---------------------------------------------------------------- words

    def expression(self):
        return self.some(["test_0", "test_1", "not test_1", "sub or a", "TestA and not m1", "slow", "not slow", "a", "TEST", "m0", "test_a.py",
                          "sub and not (m0 or test_1)", "", "  ", "xfail", "not xfail and not skip", "other", "[x]", "a b", "skipif or xfail",
                          "not not test", "(test_0)", "Own"] +
                         (["(", "test_0 or", "not", "and", "a )", "\xe9", "a,b", "test_0 test_1", "()", "(" * 101 + "a", "not " * 100 + "a",
                           "not " * 101 + "a"] if self.rare(0.5) else []))

    def mark_expression(self):
        return self.some(["slow", "not slow", "fast or slow", "xfail", "skip", "nice and not fast", "slo", "SLOW", "skipif", "", "not (slow or fast)"] +
                         (["or", "(slow", "slow)", "slow fast"] if self.rare(0.5) else []))

    def node(self, path):
        text = self.texts.get(path, "")
        known = re.findall(r"^(?:def|class) (test\w*|Test\w*)", text, re.M)
        for one in re.findall(r"^class (Test\w*)[^\n]*\n((?: [^\n]*\n|\n)*)", text, re.M):
            known += [one[0] + "::" + name for name in re.findall(r"^    def (test\w*)", one[1], re.M)]
        if known and not self.rare(0.4):
            return path + "::" + self.some(known)
        return path + "::" + self.some(["test_0", "test_1", "test_2", "TestA0", "TestB1", "TestA1::test_m0", "TestB0::test_m1", "TestA0::test_m0", "test",
                                        "testing", "TestA2"] + (["", "nothing", "TestA0::", "TestA0::nothing", "boom", "Base", "Base::test_base", "test_0[x]",
                                        "test_0::x", "Own", "LOG", "::test_0"] if self.rare(0.6) else []))

    def path_word(self, files):
        tests = sorted(p for p in files if p.endswith(".py"))
        path = self.some(tests) if tests else "test_a.py"
        k = self.r.random()
        if k < 0.35:
            word = path
        elif k < 0.65:
            word = self.node(path)
        elif k < 0.85:
            word = path.rsplit("/", 1)[0] if "/" in path else "."
        elif self.wild:
            word = self.some(["nothing.py", "nothing", "..", "/", "sub/..", "../x", "/test_a.py", "nothing.py::test_0", "sub::test_0", "", "./", "-", "data.txt",
                              "sub//", "./.", "././test_a.py", "test_a.py/", "sub/./test_a.py", "test_a.py::test_0::", "::", "::test_0", "su", "test_a"])
        else:
            word = "."
        if self.chance(0.1):
            word = "./" + word
        if self.chance(0.1) and not word.endswith("/") and "::" not in word:
            word += "/"
        return word

    def words(self, files):
        out = ["--step-limit=%d" % self.some([60, 300, 1000, 5000, 5000])]
        if self.chance(0.25):
            out.append(self.some(["-v", "--verbose"]))
        k = self.r.random()
        if k < 0.2:
            out.append(self.some(["-x", "--exitfirst", "--maxfail=1", "--maxfail=2", "--maxfail=3", "--maxfail=0", "-xv"]))
        if self.chance(0.2):
            out.append("--tb=" + self.some(["line", "no", "short"]))
        if self.chance(0.12):
            out.append(self.some(["--collect-only", "--co"]))
        if self.chance(0.25):
            out += ["-k", self.expression()]
        if self.chance(0.15):
            out += ["-m", self.mark_expression()]
        for _ in range(self.some([0, 0, 0, 0, 1, 1, 2]) if self.chance(0.3) else 0):
            out.append("--ignore=" + self.some(["sub", "test_a.py", "./other/", "sub/deep", "pkg", "sub/test_a.py", ".", "", "nothing", "su", "./test_b.py", "sub/"]))
        if self.chance(0.5):
            for _ in range(self.some([1, 1, 1, 2, 2, 3, 4])):
                out.append(self.path_word(files))
            if self.chance(0.2):
                out.append(self.some(out))
        if self.rare(0.06):
            out.append(self.some(["-n", "--tb", "--tb=long", "-q", "--maxfail=-1", "--maxfail=65537", "--step-limit=0", "-n9", "--setup-show", "-n2", "--generated=1,3",
                                  "--dist=no", "--dist=load", "-k", "--co=1", "-vq", "--ignore", "--generated=1", "-n=0", "-n0"]))
        if self.rare(0.04):
            out += ["-n", "2", "--dist=no"]
        if self.chance(0.5):
            if not any(w in ("-k", "-m", "-n") for w in out):
                self.r.shuffle(out)
        if self.rare(0.05):
            out = out + ["--"] + [self.path_word(files)]
        return out


def project(seed):
    made = Project(seed)
    files = made.project()
    return made.words(files), files
