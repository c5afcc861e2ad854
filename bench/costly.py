#!/usr/bin/env python3
"""Runs the built program on tests that ask for far more than their steps pay, and says how long each takes and how much memory.

python3 bench/costly.py [PROGRAM]    (crates/pytest_run/out/pytest_run, which ./pytest_run builds, where none is named)

No operator, call or method is to make more than its cost within the budget lets it, or a constant more. Each case is a file with one test,
which runs under the default step limit, or the one that is named with it, and ends as its name says: `StepLimit`, an error of the language,
or passed. One that takes more than a second of a processor or 128 MB (a key of a million steps is 80), or ends otherwise, is marked by `!`,
and the status is 1 then. What is known to make more is marked by `?`. A case that runs for more than a minute is stopped.
"""
import os
import resource
import subprocess
import sys
import tempfile

SECONDS, MEGABYTES, MOST_SECONDS = 1.0, 128, 60

LEVELS = """\
def levels(n):
    x = (0,)
    i = 0
    while i < n:
        x = (x, x)
        i += 1
    return x
"""

LISTS = """\
def levels(n):
    x = [0]
    i = 0
    while i < n:
        x = [x, x]
        i += 1
    return x
"""

NEARLY = """\
def test():
    t = "a" * 65536
    p = "a" * 32767 + "b"
"""

# what it shows: (the words before the file's name, the file, a piece of what is written)
CASES = {
    "a key of 60 shared levels is stored": ([], LEVELS + """\
def test():
    d = {}
    d[levels(60)] = 1
""", "StepLimit"),
    "a key of 60 shared levels is read": ([], LEVELS + """\
def test():
    d = {}
    d[levels(60)]
""", "StepLimit"),
    "a key of 60 shared levels is deleted": ([], LEVELS + """\
def test():
    d = {}
    del d[levels(60)]
""", "StepLimit"),
    "a key of 60 shared levels is looked for": ([], LEVELS + """\
def test():
    assert levels(60) not in {}
""", "StepLimit"),
    "a key of 60 shared levels in a display": ([], LEVELS + """\
def test():
    d = {1: 1, levels(60): 1}
""", "StepLimit"),
    "keys that each use the budget, in a display": ([], LEVELS + """\
def test():
    t = levels(18)
    d = {(1, t): 1, (2, t): 1, (3, t): 1, (4, t): 1, (5, t): 1, (6, t): 1, (7, t): 1, (8, t): 1}
""", "StepLimit"),
    "a key of 60 shared levels in get": ([], LEVELS + """\
def test():
    d = {}
    d.get(levels(60))
""", "StepLimit"),
    "a key of 60 shared levels in pop": ([], LEVELS + """\
def test():
    d = {}
    d.pop(levels(60), 0)
""", "StepLimit"),
    "a key of 60 shared levels in setdefault": ([], LEVELS + """\
def test():
    d = {}
    d.setdefault(levels(60), 0)
""", "StepLimit"),
    "a key of 19 shared levels in 200 steps": (["--step-limit=400"], LEVELS + """\
def test():
    d = {}
    d[levels(19)] = 1
""", "StepLimit"),
    "60 shared levels are equal": ([], LEVELS + """\
def test():
    assert levels(60) == levels(60)
""", "StepLimit"),
    "60 shared levels in order": ([], LEVELS + """\
def test():
    assert levels(60) <= levels(60)
""", "StepLimit"),
    "the text of 60 shared levels": ([], LISTS + """\
def test():
    str(levels(60))
""", "sequence too long"),
    "the repr of 60 shared levels in an assert": ([], LISTS + """\
def test():
    assert not levels(60)
""", "1 failed"),
    "a long text joined with itself": ([], """\
def test():
    x = "a" * 65536
    "".join([x] * 65536)
""", "sequence too long"),
    "a long text between empty ones": ([], """\
def test():
    ("a" * 65536).join([""] * 65536)
""", "sequence too long"),
    "numbers sorted, the greatest first": ([], """\
def test():
    x = sorted(range(40000, 0, -1))
    assert x[0] == 1
""", "1 passed"),
    "numbers sorted that are in order": ([], """\
def test():
    x = sorted(range(40000))
    assert x[0] == 0
""", "1 passed"),
    "numbers sorted that are mixed": ([], """\
def test():
    x = []
    n = 1
    i = 0
    while i < 10000:
        n = (n * 1103515245 + 12345) % 2147483648
        x.append(n)
        i += 1
    y = sorted(x)
    assert y[0] <= y[1]
""", "1 passed"),
    "numbers sorted by `sort`": ([], """\
def test():
    x = list(range(40000, 0, -1))
    x.sort()
    assert x[0] == 1
""", "1 passed"),
    "the characters of a text sorted": ([], """\
def test():
    x = sorted("zyx" * 13000)
    assert x[0] == "x"
""", "1 passed"),
    "numbers sorted beyond the budget": (["--step-limit=200"], """\
def test():
    sorted(range(65536, 0, -1))
""", "StepLimit"),
    "a number that isn't in a range, 10,000 times": ([], """\
def test():
    r = range(65536)
    i = 0
    while i < 10000:
        assert -1 not in r
        i += 1
""", "1 passed"),
    "a number in a range, 10,000 times": ([], """\
def test():
    r = range(0, 655360, 10)
    i = 0
    while i < 10000:
        assert 655350 in r
        i += 1
""", "1 passed"),
    "a part that a text nearly has": ([], NEARLY + """\
    i = 0
    while i < 10:
        assert p not in t
        i += 1
""", "1 passed"),
    "a part that a text nearly has, found": ([], NEARLY + """\
    i = 0
    while i < 10:
        assert t.find(p) == -1
        i += 1
""", "1 passed"),
    "a part that a text nearly has, counted": ([], NEARLY + """\
    i = 0
    while i < 10:
        assert t.count(p) == 0
        i += 1
""", "1 passed"),
    "a part that a text nearly has, replaced": ([], NEARLY + """\
    t.replace(p, "")
""", "1 passed"),
    "a part that a text nearly has, split by": ([], NEARLY + """\
    t.split(p)
""", "1 passed"),
    "a tuple of one long text as a key": ([], """\
def test():
    x = "a" * 65536
    d = {}
    d[tuple([x] * 500)] = 1
""", "1 passed"),
}

# a text in a key is copied, for one step whatever its length
KNOWN = {"a tuple of one long text as a key"}


def run(program, words, source):
    """The text that the program writes on a file with this source."""
    with tempfile.TemporaryDirectory() as folder:
        with open(os.path.join(folder, "test_case.py"), "w", encoding="utf-8") as file:
            file.write(source)
        process = subprocess.Popen([program, *words, "test_case.py"], cwd=folder, stdout=subprocess.PIPE)
        try:
            text, _ = process.communicate(timeout=MOST_SECONDS)
            return text.decode()
        except subprocess.TimeoutExpired:
            process.kill()
            process.communicate()
            return "stopped"


def measured(program, words, source):
    """The text, the seconds of a processor and the megabytes at most: in a child, whose own children are these alone."""
    reading, writing = os.pipe()
    child = os.fork()
    if child == 0:
        told = run(program, words, source)
        used = resource.getrusage(resource.RUSAGE_CHILDREN)
        with os.fdopen(writing, "w", encoding="utf-8") as pipe:
            pipe.write(f"{used.ru_utime + used.ru_stime}\n{used.ru_maxrss / 1024}\n{told}")
        os._exit(0)
    os.close(writing)
    with os.fdopen(reading, encoding="utf-8") as pipe:
        seconds, memory, told = pipe.read().split("\n", 2)
    os.waitpid(child, 0)
    return told, float(seconds), float(memory)


def main():
    root = os.path.dirname(os.path.dirname(os.path.abspath(__file__)))
    program = os.path.abspath(sys.argv[1] if len(sys.argv) > 1 else os.path.join(root, "crates/pytest_run/out/pytest_run"))
    wrong = 0
    for name, (words, source, piece) in CASES.items():
        told, seconds, memory = measured(program, words, source)
        bad = piece not in told or seconds > SECONDS or memory > MEGABYTES
        wrong += bad and name not in KNOWN
        mark = "?" if bad and name in KNOWN else "!" if bad else " "
        end = "" if piece in told else f"    not {piece}: {told.strip().splitlines()[-1] if told.strip() else ''}"
        print(f"{mark} {name:50} {seconds:8.3f} s {memory:8.1f} MB{end}", flush=True)
    sys.exit(1 if wrong else 0)


main()
