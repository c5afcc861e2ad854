"""python3 -m model.fuzz COUNT SEED [--program PATH] [--features a,b] [--unbuilt WORDS] [--workers] [--show]

`--unbuilt workers`: these are refused by `ERROR: not built` (by default what the program refuses today;
`--unbuilt ""`: nothing is). `--workers`: each project has more files, and asks for 1 to 8 workers.

Random projects for the runner: fixtures of all scopes with overriding, parameters, yields and faults, hooks and
wrappers, marks, classes, words. Each is run through the model, which asserts the journal laws; with `--program`
the bytes and the status are compared too (with workers for some lawful assignment)."""
import os
import random
import shutil
import subprocess
import sys
import tempfile
import threading
import traceback

from .runner import UNBUILT, Run, check_report, features_of, unbuilt_of

NAMES = ["a", "b", "c", "d", "e"]
EXC = ["ValueError", "KeyError", "RuntimeError", "AssertionError", "IndexError"]


class Gen:
    def __init__(self, seed, features):
        self.r = random.Random(seed)
        self.features = features
        self.n = 0

    def chance(self, p):
        return self.r.random() < p

    def fresh(self):
        self.n += 1
        return self.n

    def boom(self):
        return 'raise %s("m%d")' % (self.r.choice(EXC), self.fresh())

    def action(self):
        """One statement of a body."""
        k = self.r.random()
        if k < 0.55:
            return 'print("p%d")' % self.fresh()
        if k < 0.65:
            return self.boom()
        if k < 0.70:
            return 'pytest.skip("s%d")' % self.fresh()
        if k < 0.73:
            return 'pytest.fail("f%d")' % self.fresh()
        if k < 0.75:
            return "while True: pass"
        if k < 0.80:
            return "assert 1 == %d" % self.r.choice([1, 2])
        if k < 0.85:
            return "LOG.append(%d)" % self.fresh()
        if k < 0.90:
            return "print(len(LOG))"
        return "pass"

    def value(self):
        return self.r.choice(["0", "1", "1", '"x"', '"x"', '"y1"', "None", "True", "[1]", "(2, 3)", "len", "int",
                              '"\\xe9"', '"a\\n"', '"::"', '"[z]"', "-5", "fin0", "{}"])

    def marks_of_param(self):
        return self.r.choice(["pytest.mark.skip", "pytest.mark.xfail", "[pytest.mark.slow, pytest.mark.fast]",
                              'pytest.mark.skip(reason="r")', "pytest.mark.usefixtures('a')"])

    def params(self):
        out = []
        for _ in range(self.r.choice([0, 1, 2, 2, 2, 3]) if self.chance(0.15) else self.r.choice([1, 2, 2, 3])):
            v = self.value()
            if self.chance(0.2):
                extra = ""
                if self.chance(0.5):
                    extra += ', id="%s"' % self.r.choice(["i", "j", "i1", "i"])
                if self.chance(0.5):
                    extra += ", marks=" + self.marks_of_param()
                v = "pytest.param(%s%s)" % (v, extra)
            out.append(v)
        return out

    def fixture(self, name, indent, method, root=False):
        r = self.r
        opts = []
        scopes = ["session", "module", "class", "function"] + (["package"] if self.features.package_scope else [])
        usual = {"a": "function", "b": r.choice(["function", "class"]), "c": r.choice(["class", "module"]),
                 "d": "package" if self.features.package_scope and self.chance(0.5) else "module", "e": "session"}
        scope = usual[name] if self.chance(0.92) else r.choice(scopes)
        if scope != "function" or self.chance(0.2):
            opts.append('scope="%s"' % scope)
        has_params = self.chance(0.3)
        if has_params:
            opts.append("params=[%s]" % ", ".join(self.params()))
            if self.chance(0.2):
                opts.append('ids=["q", "q"]')
        if self.chance(0.2):
            opts.append("autouse=True")
        bound = name
        if self.chance(0.1):
            opts.append('name="%s"' % name)
            bound = "fx%d" % self.fresh()
        lines = ["@pytest.fixture" + ("(%s)" % ", ".join(opts) if opts else "")]
        args = ["self"] if method else []
        for other in r.sample(NAMES, r.choice([0, 0, 1, 1, 2])):
            if other > name or self.chance(0.02):
                args.append(other)
        if name not in args and self.chance(0.02 if root else 0.15):
            args.append(name)
        if self.features.builtin_fixtures and self.chance(0.1):
            args.append(r.choice(["monkeypatch", "capsys"]))
        if has_params or self.chance(0.3):
            args.append("request")
        if self.chance(0.1):
            args.append("k=1")
        lines.append("def %s(%s):" % (bound, ", ".join(args)))
        body = ['print("up %s")' % name]
        if "request" in args:
            if self.chance(0.5):
                body.append("request.addfinalizer(fin%d)" % r.choice([0, 1, 2]))
            if has_params and self.chance(0.5):
                body.append("print(request.param)")
            if self.chance(0.3):
                body.append("print(request.fixturename, request.scope)")
            if self.chance(0.1):
                body.append("KEEP.append(request)")
        if "monkeypatch" in args:
            body.append('monkeypatch.setitem(PATCHED, "k%d", %d)' % (r.choice([1, 2]), self.fresh()))
        if self.chance(0.15):
            body.append(self.action())
        if self.chance(0.6):
            body.append("yield %d" % self.fresh())
            body.append('print("down %s")' % name)
            if self.chance(0.25):
                body.append(self.action())
            if self.chance(0.08):
                body.append("yield 2")
        elif self.chance(0.07):
            body.append("if False:")
            body.append("    yield")
        else:
            body.append("return %d" % self.fresh())
        lines += ["    " + x for x in body] + [""]
        return [indent + x if x else "" for x in lines]

    def item_marks(self, args):
        r = self.r
        lines = []
        k = r.random()
        if k < 0.08:
            lines.append('@pytest.mark.skip(reason="later")')
        elif k < 0.12:
            lines.append('@pytest.mark.skipif(%s, reason="cond")' % r.choice(["True", "False"]))
        elif k < 0.25:
            opts = []
            if self.chance(0.3):
                opts.append(r.choice(["True", "False"]))
            if self.chance(0.4):
                opts.append('reason="why"')
            if self.chance(0.3):
                opts.append("strict=True")
            if self.chance(0.4):
                opts.append("raises=%s" % r.choice(EXC + ["(ValueError, KeyError)", "BaseException"]))
            lines.append("@pytest.mark.xfail" + ("(%s)" % ", ".join(opts) if opts else ""))
        if self.chance(0.15):
            lines.append("@pytest.mark.%s" % r.choice(["slow", "fast", "nice"]))
        if self.chance(0.12):
            lines.append('@pytest.mark.usefixtures("%s")' % r.choice(NAMES))
        if self.features.dist_groups and self.chance(0.3):
            lines.append('@pytest.mark.xdist_group("%s")' % r.choice(["g", "h"]))
        return lines

    def parametrize(self, args, taken):
        r = self.r
        free = [n for n in ["x", "y", "x", "y"] + (NAMES if self.chance(0.1) else ["z", "w"]) if n not in taken]
        free = sorted(set(free))
        k = r.choice([1, 1, 2])
        names = r.sample(free, k)
        taken.extend(names)
        ids = ', ids=["m", "n", "m"]' if self.chance(0.15) else ""
        if k == 1:
            rows = self.params()
        else:
            rows = ["(%s, %s)" % (self.value(), self.value()) for _ in range(r.choice([1, 2, 2]))]
            if self.chance(0.04):
                rows.append("(1,)")
        for n in names:
            if n not in args and not self.chance(0.02):
                args.append(n)
        return '@pytest.mark.parametrize("%s", [%s]%s)' % (", ".join(names), ", ".join(rows), ids)

    def test(self, name, indent, method, plain=False):
        r = self.r
        args = []
        for n in r.sample(NAMES, r.choice([0, 1, 1, 2, 2])):
            args.append(n)
        lines = self.item_marks(args)
        taken = []
        while self.chance(0.25) and len(taken) < 3:
            lines.append(self.parametrize(args, taken))
        r.shuffle(lines)
        if self.features.builtin_fixtures and self.chance(0.15):
            args.append(r.choice(["monkeypatch", "capsys"]))
        has_request = self.chance(0.15)
        if has_request:
            args.append("request")
        if self.chance(0.02):
            args.append("nope")
        lines.append("def %s(%s):" % (name, ", ".join((["self"] if method else []) + args)))
        body = ['print("in %s")' % name]
        if has_request:
            body.append("request.addfinalizer(fin%d)" % r.choice([0, 1, 2]))
        if "capsys" in args:
            body.append("assert capsys.readouterr().out != 1")
        if "monkeypatch" in args:
            body.append('monkeypatch.setattr(PATCH, "z", 1)')
        if args and args[0] not in ("request",) and self.chance(0.3):
            body.append("print(%s)" % args[0])
        if self.chance(0.4):
            body.append(self.action())
        if self.chance(0.05):
            body.append("KEEP[0].addfinalizer(fin0)")
        lines += ["    " + x for x in body] + [""]
        return [indent + x if x else "" for x in lines]

    def top(self):
        lines = ["import pytest", "", "LOG = []", "KEEP = []", "PATCHED = {}", "", "class Patch:", "    pass", "", "PATCH = Patch()", "",
                 "def fin0():", '    print("fin0")', "",
                 "def fin1():", '    print("fin1")', "    %s" % self.action(), "",
                 "def fin2():", "    %s" % self.boom(), ""]
        return lines

    def hook(self, name):
        r = self.r
        lines = []
        wrapper = self.chance(0.5)
        opts = []
        if wrapper:
            opts.append("wrapper=True")
        if self.chance(0.3):
            opts.append("tryfirst=True")
        if self.chance(0.3):
            opts.append("trylast=True")
        if opts:
            lines.append("@pytest.hookimpl(%s)" % ", ".join(opts))
        if name == "pytest_make_parametrize_id":
            lines.append("def %s(%s):" % (name, r.choice(["val", "val, argname", "argname, val"])))
            body = ["if val == %s:" % r.choice(["1", '"x"', "None"]),
                    "    return %s" % r.choice(['"hook"', '"h1"', "None", "5" if self.chance(0.1) else '"hh"'])]
        else:
            args = r.choice(["item", "item", ""])
            if name.endswith("teardown"):
                args = r.choice(["item", "item, nextitem", "nextitem", ""])
            lines.append("def %s(%s):" % (name, args))
            body = ['print("hook %d")' % self.fresh()]
            if "nextitem" in args:
                body.append("print(nextitem is None)")
            elif args:
                body.append(r.choice(["print(item.name)", "print(item.nodeid)", "pass"]))
            if self.chance(0.12):
                body.append(self.action())
        if wrapper:
            k = r.random()
            n = self.fresh()
            if k < 0.35:
                body.append("return (yield)")
            elif k < 0.5:
                body += ["try:", "    got = yield", "except %s:" % r.choice(EXC + ["Exception", "BaseException"]),
                         '    print("swallowed %d")' % n]
            elif k < 0.65:
                body += ["try:", "    return (yield)", "finally:", '    print("out %d")' % n]
            elif k < 0.75:
                body += ["try:", "    yield", "except Exception as e:", "    raise e"]
            elif k < 0.8:
                body += ["got = yield", "print(got)", "return got"]
            elif k < 0.85:
                body += ["yield", self.action()]
            elif k < 0.88:
                body += ["yield", "yield"]
            elif k < 0.91:
                body += [] if name != "pytest_make_parametrize_id" else ["return None"]
            else:
                body += ["yield"]
        lines += ["    " + x for x in body] + [""]
        return lines

    def conftest(self, root=False):
        lines = self.top()
        for name in self.r.sample(NAMES, 5 if root and self.chance(0.9) else self.r.choice([0, 1, 2, 3])):
            lines += self.fixture(name, "", False, root)
        hooks = ["pytest_runtest_setup", "pytest_runtest_call", "pytest_runtest_teardown", "pytest_make_parametrize_id"]
        if self.chance(0.5):
            for name in self.r.sample(hooks, self.r.choice([1, 1, 2, 3])):
                lines += self.hook(name)
        if self.chance(0.01):
            lines += ["def pytest_foo():", "    pass", ""]
        if self.chance(0.01):
            lines += [self.boom()]
        return lines

    def module(self):
        r = self.r
        lines = self.top()
        if self.chance(0.1):
            lines += ["pytestmark = %s" % r.choice([
                "pytest.mark.slow", "[pytest.mark.fast, pytest.mark.usefixtures('b')]",
                "pytest.mark.parametrize('x', [1, 2])", "pytest.mark.xfail"]), ""]
        for name in r.sample(NAMES, r.choice([0, 0, 1, 2, 3])):
            lines += self.fixture(name, "", False)
        for k in range(r.choice([1, 2, 3])):
            if self.chance(0.3):
                if self.chance(0.2):
                    lines.append("@pytest.mark.%s" % r.choice(["slow", "usefixtures('c')", "skip", "xfail"]))
                lines.append("class Test%s%d:" % (r.choice(["A", "B"]), k))
                if self.chance(0.15):
                    lines.append("    pytestmark = %s" % r.choice(["pytest.mark.nice", "[pytest.mark.usefixtures('d')]"]))
                if self.chance(0.4):
                    lines += self.fixture(r.choice(NAMES), "    ", True)
                for j in range(r.choice([1, 2])):
                    lines += self.test("test_m%d" % j, "    ", True)
            else:
                lines += self.test("test_%d" % k, "", False)
        if self.chance(0.03):
            lines.append("def broken(:")
        if self.chance(0.02):
            lines.append(self.boom())
        return lines

    def project(self):
        files = {}
        dirs = [""] + self.r.sample(["sub/", "sub/deep/", "other/"], self.r.choice([0, 1, 2]))
        for d in dirs:
            if d == "" or self.chance(0.6):
                files[d + "conftest.py"] = self.conftest(d == "")
            for k in range(self.r.choice([1, 1, 2])):
                name = self.r.choice(["test_a.py", "test_b.py", "c_test.py", "test_d.py"])
                files[d + name] = self.module()
        return {p: "\n".join(lines) + "\n" for p, lines in files.items()}

    def words(self, files):
        r = self.r
        words = ["--step-limit=%d" % r.choice([300, 1000, 5000])]
        if self.chance(0.35):
            words.append("--setup-show")
        if self.chance(0.2):
            words.append("-v")
        k = r.random()
        if k < 0.15:
            words.append(r.choice(["-x", "--maxfail=2", "--maxfail=3"]))
        elif k < 0.4:
            words += ["-n", str(r.choice([1, 2, 3]))]
            if self.features.dist_groups and self.chance(0.7):
                words.append("--dist=" + r.choice(["load", "loadscope", "loadgroup", "loadfile"]))
        if self.chance(0.1):
            words.append("--tb=" + r.choice(["line", "no", "short"]))
        if self.chance(0.1):
            words.append("--collect-only")
        if self.chance(0.12):
            words += ["-k", r.choice(["test_0", "not test_1", "sub or a", "slow", "TestA and not m1", "x", "[x]"])]
        if self.chance(0.08):
            words += ["-m", r.choice(["slow", "not slow", "fast or slow", "xfail", "parametrize"])]
        if self.features.last_failed and self.chance(0.3):
            words.append(r.choice(["--lf", "--ff", "--sw"]))
        if self.chance(0.25):
            tests = [p for p in files if not p.endswith("conftest.py")]
            for _ in range(r.choice([1, 2])):
                p = r.choice(tests)
                k = r.random()
                if k < 0.5:
                    words.append(p)
                elif k < 0.7:
                    words.append(p + "::" + r.choice(["test_0", "test_1", "TestA0", "TestB1::test_m0"]))
                else:
                    words.append(p.rsplit("/", 1)[0] if "/" in p else ".")
        if self.chance(0.06):
            words.append("--ignore=" + r.choice(["sub", "test_a.py", "./other/"]))
        return words


def on_workers(gen, files, words):
    """More files, and words that ask for 1 to 8 workers and for no maxfail."""
    for d in sorted({p.rsplit("/", 1)[0] + "/" if "/" in p else "" for p in files}):
        for k in range(gen.r.choice([0, 1, 3])):
            files["%stest_e%d.py" % (d, k)] = "\n".join(gen.module()) + "\n"
    kept = []
    for word in words:
        if word == "-x" or word.startswith("--maxfail") or word == "--collect-only":
            continue
        if kept and kept[-1] == "-n":
            kept.pop()
            continue
        kept.append(word)
    return ["-n", str(gen.r.randint(1, 8))] + kept


def compare_program(program, words, files, features, more):
    folder = tempfile.mkdtemp(prefix="fuzz")
    try:
        for path, data in files.items():
            full = os.path.join(folder, path)
            os.makedirs(os.path.dirname(full), exist_ok=True)
            with open(full, "wb") as f:
                f.write(data)
        try:
            done = subprocess.run([program] + words, cwd=folder, stdout=subprocess.PIPE, stderr=subprocess.PIPE,
                                  timeout=120)
        except subprocess.TimeoutExpired:
            return "no end within 120 seconds"
        found, near = check_report(words, files, done.stdout, done.returncode, features, **more)
        if found:
            return None
        return "model status %d\n%s\nprogram status %d\n%s" % (
            near.status, near.output.decode("utf-8"), done.returncode, done.stdout.decode("utf-8", "replace"))
    finally:
        shutil.rmtree(folder, ignore_errors=True)


def go(args):
    program, names, show, workers, plain, unbuilt = None, [], False, False, [], UNBUILT
    at = 0
    while at < len(args):
        if args[at] == "--program":
            program = os.path.abspath(args[at + 1])
            at += 2
        elif args[at] == "--features":
            names = args[at + 1].split(",")
            at += 2
        elif args[at] == "--unbuilt":
            unbuilt = unbuilt_of(args[at + 1])
            at += 2
        elif args[at] == "--show":
            show = True
            at += 1
        elif args[at] == "--workers":
            workers = True
            at += 1
        else:
            plain.append(int(args[at]))
            at += 1
    count, seed = plain
    features = features_of(names)
    bad = 0
    for k in range(seed, seed + count):
        gen = Gen(k, features)
        texts = gen.project()
        words = gen.words(texts)
        if workers:
            words = on_workers(gen, texts, words)
        files = {p: t.encode("utf-8") for p, t in texts.items()}
        try:
            more = {"unbuilt": unbuilt}
            done = Run(words, files, features, **more).result()
            wrong = None
            if program is not None:
                wrong = compare_program(program, words, files, features, more)
        except Exception:
            wrong = traceback.format_exc()
            done = None
        if show:
            print("seed", k, words)
            for p, t in sorted(texts.items()):
                print("#### " + p)
                for n, line in enumerate(t.split("\n"), 1):
                    print("%3d %s" % (n, line))
            if done is not None:
                print(done.output.decode("utf-8"), done.status)
        if wrong:
            bad += 1
            print("seed %d differs: %s\n%s" % (k, words, wrong))
    print("%d passed, %d failed" % (count - bad, bad))
    return 1 if bad else 0


if __name__ == "__main__":
    threading.stack_size(512 * 1024 * 1024)
    box = []
    thread = threading.Thread(target=lambda: box.append(go(sys.argv[1:])))
    thread.start()
    thread.join()
    sys.exit(box[0] if box else 70)
