#!/usr/bin/env python3
"""Times workers beside one thread on the made-up tree and on files whose tests take long, and beside pytest and pytest-xdist on the made-up
files written out, where these are installed.

python3 bench/workers.py [PROGRAM [FILES [WORKERS]]]    (crates/pytest_run/out/pytest_run, 4,000 files and 4 workers where they aren't named)

Time is what a clock on the wall tells, the best of five runs in turn, so nothing else should run. Fails where on one of the two the workers take
more than 0.6 of one thread's time, or write another status or another last line. On the made-up tree, whose tests take no time, they do: each
collects all files again.
"""
import importlib.util
import os
import subprocess
import sys
import tempfile
import time

ROOT = os.path.dirname(os.path.dirname(os.path.abspath(__file__)))
sys.path.insert(0, os.path.join(ROOT, "oracle"))
sys.dont_write_bytecode = True
from model.tree import generated_tree  # noqa: E402

RUNS = 5
SEED = 1


def run(words, folder):
    """(seconds, the last line, the status)"""
    begun = time.monotonic()
    done = subprocess.run(words, cwd=folder, stdin=subprocess.DEVNULL, stdout=subprocess.PIPE, stderr=subprocess.STDOUT)
    return time.monotonic() - begun, done.stdout.decode().strip().split("\n")[-1], done.returncode


def best(words, folder, runs=RUNS):
    return min(run(words, folder) for _ in range(runs))


LONG_TEST = """def test_%d():
    total = 0
    for i in range(40000):
        total = total + i * 3 - i // 2
    assert total > 0
"""


def write_long_tests(folder):
    """16 files of ten tests that take some 20 milliseconds each."""
    for number in range(16):
        with open(os.path.join(folder, "test_%02d.py" % number), "w", encoding="utf-8") as it:
            it.write("\n\n".join(LONG_TEST % test for test in range(10)))


def compared(program, words, workers, folder):
    """Whether the workers do as one thread does, in at most 0.6 of its time."""
    alone = best([program, *words], folder)
    shared = best([program, "-n", str(workers), *words], folder)
    print("%8.2f s  one thread: %s" % (alone[0], alone[1]))
    print("%8.2f s  %d workers: %s" % (shared[0], workers, shared[1]))
    ratio = shared[0] / alone[0]
    print("%8.2f    of one thread's time, on %d processors" % (ratio, os.cpu_count()))
    return alone[1:] == shared[1:] and ratio <= 0.6


def beside_pytest(files, workers):
    if importlib.util.find_spec("pytest") is None:
        return print("pytest isn't installed here")
    with tempfile.TemporaryDirectory() as folder:
        for path, text in generated_tree(SEED, files).items():
            with open(os.path.join(folder, path), "wb") as it:
                it.write(text)
        python = [sys.executable, "-m", "pytest", "-q", "-p", "no:cacheprovider"]
        print("%8.2f s  pytest" % best(python, folder, 1)[0])
        if importlib.util.find_spec("xdist") is not None:
            print("%8.2f s  pytest -n %d --dist loadfile" % (best([*python, "-n", str(workers), "--dist", "loadfile"], folder, 1)[0], workers))


def main(program, files, workers):
    program = os.path.abspath(program)
    with tempfile.TemporaryDirectory() as folder:
        made_up = compared(program, ["--generated=%d,%d" % (SEED, files)], workers, folder)
        write_long_tests(folder)
        long = compared(program, [], workers, folder)
    beside_pytest(files, workers)
    return 0 if made_up and long else 1


if __name__ == "__main__":
    given = sys.argv[1:]
    sys.exit(main(given[0] if given else os.path.join(ROOT, "crates/pytest_run/out/pytest_run"), int(given[1]) if given[1:] else 4000, int(given[2]) if given[2:] else 4))
