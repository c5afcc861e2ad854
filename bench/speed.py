#!/usr/bin/env python3
"""Times the built program beside the Python that runs this script, on tests that only compute.

python3 bench/speed.py [PROGRAM]    (crates/pytest_run/out/pytest_run, which ./pytest_run builds, where none is named)

Each file has one test. The program runs it as `PROGRAM --step-limit N FILE`; Python executes the same file and calls the test. Of both the
processor time is taken (of user code, so that a busy machine tells nearly the same as a quiet one), the best of seven runs in turn, and
that of an empty test is taken off, so that what is left is the test's own.
"""
import os
import resource
import subprocess
import sys
import tempfile

STEPS = 10 ** 8
RUNS = 7

EMPTY = """\
def test_empty():
    assert 0 == 0
"""

CASES = {
    "a loop of arithmetic": """\
def test_loop():
    total = 0
    i = 0
    while i < 1000000:
        total = (total + i * i) %% 1000003
        i += 1
    assert total == %d
""" % (sum(i * i for i in range(1000000)) % 1000003),
    "fib(24), 8 times": """\
def fib(n):
    if n < 2:
        return n
    return fib(n - 1) + fib(n - 2)

def test_fib():
    i = 0
    while i < 8:
        assert fib(24) == 46368
        i += 1
""",
    "branches": """\
def test_branches():
    evens = 0
    odds = 0
    i = 0
    while i < 500000:
        if i % 2 == 0:
            evens = evens + 1
        elif i % 3 == 0 and i > 10:
            odds = odds + 3
        else:
            odds = odds + 1
        i = i + 1
    assert evens == 250000
""",
    "strings joined and split": """\
def test_strings():
    words = ["alpha", "beta", "gamma", "delta"]
    total = 0
    i = 0
    while i < 100000:
        line = ",".join(words)
        parts = line.split(",")
        words = [parts[3], parts[0], parts[1], parts[2]]
        total += len(line)
        i += 1
    assert total == 2200000
    assert words == ["alpha", "beta", "gamma", "delta"]
""",
    "a dict of counts": """\
def test_counts():
    words = "the cat and the dog and the bird".split()
    counts = {}
    i = 0
    while i < 40000:
        for word in words:
            counts[word] = counts.get(word, 0) + 1
        i += 1
    assert counts == {"the": 120000, "cat": 40000, "and": 80000, "dog": 40000, "bird": 40000}
""",
}

CALLS = """
for name, test in list(globals().items()):
    if name.startswith("test"):
        test()
"""


def spent(words, folder):
    """The processor seconds of one run."""
    before = resource.getrusage(resource.RUSAGE_CHILDREN).ru_utime
    done = subprocess.run(words, cwd=folder, stdout=subprocess.PIPE, stderr=subprocess.STDOUT, text=True)
    if done.returncode != 0:
        sys.exit(f"{' '.join(words)} ended with {done.returncode}:\n{done.stdout}")
    return resource.getrusage(resource.RUSAGE_CHILDREN).ru_utime - before


def times(program, folder, text):
    """The best times of the program and of Python, whose runs take turns."""
    with open(os.path.join(folder, "test_case.py"), "w") as file:
        file.write(text)
    with open(os.path.join(folder, "plain.py"), "w") as file:
        file.write(text + CALLS)
    ours, theirs = [], []
    for _ in range(RUNS):
        ours.append(spent([program, "--step-limit", str(STEPS), "test_case.py"], folder))
        theirs.append(spent([sys.executable, "plain.py"], folder))
    return min(ours), min(theirs)


def main():
    top = os.path.dirname(os.path.dirname(os.path.abspath(__file__)))
    program = os.path.abspath(sys.argv[1]) if len(sys.argv) > 1 else os.path.join(top, "crates/pytest_run/out/pytest_run")
    if not os.access(program, os.X_OK):
        sys.exit(f"{program} isn't there: run ./pytest_run once, which builds it")
    with tempfile.TemporaryDirectory() as folder:
        base = times(program, folder, EMPTY)
        print(f"{'':24} {'program':>10} {'Python':>10}   ratio")
        for name, text in CASES.items():
            ours, theirs = times(program, folder, text)
            ours, theirs = ours - base[0], theirs - base[1]
            print(f"{name:24} {ours:9.3f}s {theirs:9.3f}s {ours / theirs:7.1f}")


main()
