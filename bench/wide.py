#!/usr/bin/env python3
"""Runs the built program on wide and deep trees, and says how much time and memory each takes, and how both grow.

python3 bench/wide.py [PROGRAM [NAME ..]]    (crates/pytest_run/out/pytest_run, which ./pytest_run builds, where none is named;
                                              the tables whose titles have one of these names in them, or all)

A row of a table has a size, the processor time of the run, by how much it grew from the row above for each doubling of the size (2.0 is
linear, 4.0 its square), the most memory that it held, the same growth of that, its ratio to the size of all sources and its part for each
item, its status and the last line of its report. A run that is refused, as of what is not built, that ends by a signal, or is stopped after
five minutes, ends its table.
"""
import math
import os
import shutil
import subprocess
import sys
import tempfile
import time

sys.dont_write_bytecode = True
from collection import files_with_a_shared_module, one_file_of_failures, write  # noqa: E402

LIMIT = 300  # seconds for one run
REFUSED = 4


def chain_of_fixtures(count):
    """Each asks for the one before; a test asks for the last."""
    text = "import pytest\n@pytest.fixture\ndef f0():pass\n"
    text += "".join("@pytest.fixture\ndef f%d(f%d):pass\n" % (k, k - 1) for k in range(1, count))
    return {"test_a.py": text + "def test_a(f%d):pass\n" % (count - 1)}


def unasked_fixtures(count):
    """The same chain, of which the test asks for the first alone."""
    return {path: text.replace("def test_a(f%d)" % (count - 1), "def test_a(f0)") for path, text in chain_of_fixtures(count).items()}


def two_files_of_tests(count):
    """The tests of each are methods of a class, so that both are within a MiB."""
    return {"test_%s.py" % name: "class Test:\n" + "".join(" def test%d(self):\n  pass\n" % k for k in range(count // 2)) for name in "ab"}


def brackets_in_blocks(count):
    """So many open brackets in each statement of so many blocks; half as many open lists in a value."""
    lines = [" " * k + "if True:" for k in range(count)]
    lines += [" " * count + "x = " + "(" * count + "1" + ")" * count, " " * count + "y = " + "[" * count + "]" * count]
    text = "\n".join([*lines, "def test_a():", " assert y == x", ""])
    return {"test_a.py": text, "test_b.py": text}


def calls_in_calls(count):
    text = "def f(n):\n if n == 0:\n  return 0\n return f(n - 1)\ndef test_a():\n assert f(%d) == 0\n" % count
    return {"test_a.py": text, "test_b.py": text}


# what is run: (name, the words, the tree by its size, how many items it has, the sizes)
WORKERS = ["-n", "2"]
CASES = [
    ("brackets in blocks", [], brackets_in_blocks, lambda count: 2, [25, 50, 99]),
    ("brackets in blocks, by workers", WORKERS, brackets_in_blocks, lambda count: 2, [25, 50, 99]),
    ("calls in calls", [], calls_in_calls, lambda count: 2, [50, 100, 198]),
    ("calls in calls, by workers", WORKERS, calls_in_calls, lambda count: 2, [50, 100, 198]),
    ("a chain of fixtures", [], chain_of_fixtures, lambda count: 1, [1000, 2000, 4000, 8000, 16000, 26000]),
    ("fixtures that no test asks for", [], unasked_fixtures, lambda count: 1, [3250, 6500, 13000, 26000]),
    ("tests of two files", [], two_files_of_tests, lambda count: count, [8192, 16384, 32768, 65536]),
    ("failing tests of one file", [], one_file_of_failures, lambda count: count, [2500, 5000, 10000, 20000]),
    ("files that import one module", [], files_with_a_shared_module, lambda count: count, [512, 1024, 2048, 4095]),
]


def peak(process):
    """The most memory that a process held so far, in KB; 0 where it has ended."""
    try:
        with open("/proc/%d/status" % process, encoding="ascii") as file:
            return next((int(it.split()[1]) for it in file if it.startswith("VmHWM:")), 0)
    except OSError:
        return 0


class Taken:
    """What a run took, with its status and its last line: processor seconds, and KB, looked for every few milliseconds. (The system's own
    count of them begins with what this script holds.)"""

    def __init__(self, program, words, folder):
        with tempfile.TemporaryFile() as output:
            child = subprocess.Popen([program, *words], cwd=folder, stdin=subprocess.DEVNULL, stdout=output, stderr=subprocess.STDOUT)
            begun, done, self.memory = time.monotonic(), 0, 0
            while not done:
                self.memory = max(self.memory, peak(child.pid))
                if time.monotonic() - begun > LIMIT:
                    child.kill()
                time.sleep(0.005)
                done, status, used = os.wait4(child.pid, os.WNOHANG)
            child.returncode = self.status = os.waitstatus_to_exitcode(status)
            output.seek(max(0, os.fstat(output.fileno()).st_size - 200))
            self.said = output.read().decode("utf-8", "replace").rstrip("\n").split("\n")[-1].strip("= ")
        self.seconds = used.ru_utime + used.ru_stime


def taken(program, words, files):
    folder = tempfile.mkdtemp(prefix="wide-")
    try:
        write(folder, files)
        return Taken(program, words, folder)
    finally:
        shutil.rmtree(folder, ignore_errors=True)


def growth(value, size, before):
    """By how much a value grew for each doubling of the size, where both can be told."""
    if before is None or before[0] <= 0 or value <= 0:
        return "    "
    return "%4.1f" % ((value / before[0]) ** (1 / math.log2(size / before[1])))


def table(program, name, words, tree, items, sizes):
    print(name)
    before = None
    for size in sizes:
        files = tree(size)
        run = taken(program, words, files)
        bytes_ = sum(len(it.encode()) for it in files.values())
        print("%9d %8.2f s %s %8d KB %s  %5.1f times %7.2f KB an item   status %d, %s" % (
            size, run.seconds, growth(run.seconds, size, before and (before.seconds, before.size)),
            run.memory, growth(run.memory, size, before and (before.memory, before.size)),
            run.memory * 1024 / bytes_, run.memory / items(size), run.status, run.said), flush=True)
        if run.status < 0 or run.status == REFUSED:
            return
        before, before.size = run, size


def main():
    top = os.path.dirname(os.path.dirname(os.path.abspath(__file__)))
    program = os.path.abspath(sys.argv[1]) if len(sys.argv) > 1 else os.path.join(top, "crates/pytest_run/out/pytest_run")
    if not os.access(program, os.X_OK):
        sys.exit(f"{program} isn't there: run ./pytest_run once, which builds it")
    for case in CASES:
        if len(sys.argv) <= 2 or any(it in case[0] for it in sys.argv[2:]):
            table(program, *case)


if __name__ == "__main__":
    main()
