"""Random projects of hooks: wrappers that end in each way at each place, several deep, plain implementations with values, in conftests of
folders within one another."""
from model.fuzz import EXC, Gen
from model.runner import Features

PHASES = ["pytest_runtest_setup", "pytest_runtest_call", "pytest_runtest_teardown"]
CAUGHT = EXC + ["Exception", "BaseException", "(ValueError, KeyError)"]


class Hooked(Gen):
    def some(self, things):
        return self.r.choice(things)

    def ends(self):
        """A statement that may end a body."""
        if self.chance(0.4):
            return self.some(["pass", 'return "w%d"' % self.fresh(), 'print("p%d")' % self.fresh()])
        return self.some([self.boom(), "return", "return None", 'return "v%d"' % self.fresh(), "return [%d]" % self.fresh(), "return 0",
                          "return False", 'pytest.skip("s%d")' % self.fresh(), 'pytest.fail("f%d")' % self.fresh(), "while True: pass",
                          "assert 1 == 2", "raise KEEP[0]", "return KEEP", "KEEP.append(item)" if self.chance(0.3) else "pass", self.action()])

    def does(self, often):
        return [self.ends()] if self.chance(often) else []

    def caught(self):
        """A `try` around a `yield`."""
        lines = ["try:", "    got = yield"]
        if self.chance(0.5):
            lines += ["    print(got)"]
        if self.chance(0.3):
            lines += ["    " + it for it in self.does(0.8)]
        if self.chance(0.75):
            lines += ["except %s as e:" % self.some(CAUGHT), '    print("caught %d", str(e))' % self.fresh()]
            lines += ["    " + self.some(["raise", "raise e", self.boom(), "KEEP.append(e)", "got = e", "pass", self.ends()])]
            if self.chance(0.2):
                lines += ["else:", '    print("else %d")' % self.fresh()]
            if self.chance(0.2):
                lines += ["finally:", '    print("out %d")' % self.fresh(), *("    " + it for it in self.does(0.2))]
        else:
            lines += ["finally:", '    print("out %d")' % self.fresh(), *("    " + it for it in self.does(0.3))]
        return lines

    def goes_on(self):
        """What a wrapper does from its `yield` on."""
        k = self.r.random()
        if k < 0.25:
            return ["return (yield)"]
        if k < 0.45:
            return ["got = yield", "print(got)", *self.does(0.5), self.some(["return got", "return", "return got + [1]", "pass"])]
        if k < 0.55:
            return ["yield", *self.does(0.7)]
        if k < 0.6:
            return ["yield", 'print("again %d")' % self.fresh(), "yield"]
        if k < 0.63:
            return self.does(0.5)
        return self.caught() + self.does(0.3)

    def hook(self, name):
        wrapper = self.chance(0.6)
        flags = [it for it, often in (("wrapper=True", wrapper), ("tryfirst=True", self.chance(0.3)), ("trylast=True", self.chance(0.3))) if often]
        args = self.some([["item"], ["item"], []] if not name.endswith("teardown") else [["item"], ["item", "nextitem"], ["nextitem", "item"], ["nextitem"], []])
        lines = ["@pytest.hookimpl(%s)" % ", ".join(flags)] if flags or self.chance(0.2) else []
        lines.append("def %s(%s):" % (name, ", ".join(args + (["more=%d" % self.fresh()] if self.chance(0.1) else []))))
        body = ['print("in %d")' % self.fresh()]
        if "item" in args:
            body.append(self.some(["print(item.name)", "print(item.nodeid)", "print(item in SEEN)", "SEEN.append(item)", "pass"]))
        if "nextitem" in args:
            body.append(self.some(["print(nextitem is None)", "print(nextitem in SEEN)", "SEEN.append(nextitem)", "pass"]))
        body += self.does(0.08)
        body += self.goes_on() if wrapper else self.does(0.5)
        body = [it for it in body if "item" in args or it != "KEEP.append(item)"]
        return lines + ["    " + it for it in body] + [""]

    def conftest(self, root=False):
        lines = ["import pytest", "", "LOG = []", "SEEN = []", "KEEP = [ValueError(\"kept\")]", ""]
        for name in self.r.sample(PHASES, self.some([1, 1, 2, 3])):
            lines += self.hook(name)
        for name in ["a", "b"] if root else self.r.sample("ab", self.some([0, 0, 1])):
            lines += ["@pytest.fixture(%s)" % self.some(["", 'scope="module"', 'scope="session"', "autouse=True"]), "def %s():" % name,
                      '    print("up %s")' % name, *("    " + it for it in ([self.action()] if self.chance(0.3) else [])),
                      "    yield %d" % self.fresh(), '    print("down %s")' % name, *("    " + it for it in ([self.action()] if self.chance(0.3) else [])), ""]
        return lines

    def module(self):
        lines = ["import pytest", "", "LOG = []", ""]
        for k in range(self.some([1, 2, 2, 3])):
            if self.chance(0.2):
                lines.append(self.some(['@pytest.mark.skip(reason="no")', "@pytest.mark.xfail", "@pytest.mark.xfail(strict=True)", "@pytest.mark.xfail(raises=ValueError)",
                                        "@pytest.mark.slow"]))
            args = self.some(["", "", "", "a", "b", "a, b", "nothing" if self.chance(0.1) else ""])
            lines += ["def test_%d(%s):" % (k, args), '    print("test %d")' % self.fresh(), "    " + self.some(["pass", "pass", self.action(), self.boom()]), ""]
        return lines

    def words(self, files):
        words = ["--step-limit=%d" % self.some([300, 1000])]
        for word, often in (("--setup-show", 0.3), ("-v", 0.2), ("-x", 0.1), ("--maxfail=2", 0.1), ("--tb=short", 0.1), ("--tb=line", 0.05)):
            if self.chance(often):
                words.append(word)
        if self.chance(0.15):
            words.append(self.some([it for it in sorted(files) if not it.endswith("conftest.py")]))
        return words


def project(seed):
    gen = Hooked(seed, Features())
    texts = gen.project()
    return gen.words(texts), {path: text.encode("utf-8") for path, text in texts.items()}
