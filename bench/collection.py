#!/usr/bin/env python3
"""Times the built program on trees of many files, on files of many tests and on tests of many rows, and says how the time grows.

python3 bench/collection.py [PROGRAM [NAME ..]]    (crates/pytest_run/out/pytest_run, which ./pytest_run builds, where none is named;
                                                    the tables whose titles have one of these names in them, or all)

A row of the table has a size, the processor time of a run (the best of two), that of `--collect-only` on the same tree, and the growth:
by how much the time grew from the row above for each doubling of the size. 2.0 is linear, 4.0 is its square.
"""
import math
import os
import resource
import shutil
import subprocess
import sys
import tempfile

RUNS = 2
LIMIT = 300  # seconds for one run

ONE = "def test_one():\n    assert 2 == 2\n"


def files_of_one_test(count):
    return {"d%02d/test_%04d.py" % (k // 100, k): ONE for k in range(count)}


def flat_files(count):
    return {"test_%04d.py" % k: ONE for k in range(count)}


def files_with_a_shared_module(count):
    text = "from helper import check\n\ndef test_one():\n    check(2)\n"
    return {"helper.py": "def check(x):\n    assert x == 2\n", **{"test_%04d.py" % k: text for k in range(count)}}


def one_file(count):
    return {"test_a.py": "".join("def test%d():pass\n" % k for k in range(count))}


def one_file_of_classes(count):
    return {"test_a.py": "".join("class Test%d:\n def test_a(self):pass\n def test_b(self):pass\n" % k for k in range(count // 2))}


def one_file_of_marks(count):
    return {"test_a.py": "import pytest\nm=pytest.mark.m1\n" + "".join("@m\ndef test%d():pass\n" % k for k in range(count))}


def one_file_of_failures(count):
    return {"test_a.py": "".join("def test%d():\n assert 0\n" % k for k in range(count))}


def rows_of_numbers(count):
    return {"test_a.py": "import pytest\n@pytest.mark.parametrize('x',list(range(%d)))\ndef test_a(x):pass\n" % count}


def rows_of_equal_ids(count):
    return {"test_a.py": "import pytest\n@pytest.mark.parametrize('x',[0]*%d)\ndef test_a(x):pass\n" % count}


def rows_of_two_lists(count):
    return {"test_a.py": "import pytest\n@pytest.mark.parametrize('x',list(range(%d)))\n@pytest.mark.parametrize('y',list(range(100)))\ndef test_a(x,y):pass\n" % (count // 100)}


def rows_of_one_fixture(count):
    return {"test_a.py": "import pytest\n@pytest.fixture(scope='session',params=list(range(%d)))\ndef a(request):return request.param\ndef test_a(a):pass\n" % count}


def tests_of_fifty_parameters(count):
    fixture = "import pytest\n@pytest.fixture(scope='session',params=list(range(50)))\ndef a(request):\n yield request.param\n"
    return {"conftest.py": fixture, "test_a.py": "".join("def test%d(a):pass\n" % k for k in range(count // 50))}


def no_words(count, files):
    return []


def each_file(count, files):
    return sorted(files)


def each_test(count, files):
    return ["test_a.py::test%d" % k for k in range(count)]


def half_by_keyword(count, files):
    return ["-k", "not (1 or 3) or test5"]


def by_marks(count, files):
    return ["-m", "m1 and not m2"]


def verbose(count, files):
    return ["-v"]


# what is timed: (name, the tree by its size, the words, the sizes)
FILES = [500, 1000, 2000, 4000]
TESTS = [1000, 5000, 20000, 50000]
CASES = [
    ("files of one test, in folders", files_of_one_test, no_words, FILES + [4096]),
    ("files of one test, in one folder", flat_files, no_words, FILES + [4096]),
    ("files that import one module", files_with_a_shared_module, no_words, FILES),
    ("files of one test, each named by a word", flat_files, each_file, FILES),
    ("tests of one file", one_file, no_words, TESTS),
    ("tests of one file, with -v", one_file, verbose, TESTS),
    ("tests in classes of one file", one_file_of_classes, no_words, [1000, 5000, 20000, 30000]),
    ("marked tests of one file, by -m", one_file_of_marks, by_marks, [1000, 5000, 20000, 40000]),
    ("tests of one file, by -k", one_file, half_by_keyword, TESTS),
    ("tests of one file, each named by a word", one_file, each_test, [500, 1000, 2000, 4000]),
    ("rows of one test", rows_of_numbers, no_words, [1000, 10000, 65000]),
    ("rows of one test, with equal ids", rows_of_equal_ids, no_words, [1000, 10000, 65000]),
    ("rows of one test, of two lists", rows_of_two_lists, no_words, [1000, 10000, 65000]),
    ("rows of one test, by parameters of a session fixture", rows_of_one_fixture, no_words, [1000, 10000, 65000]),
    ("items of a session fixture with 50 parameters", tests_of_fifty_parameters, no_words, [1000, 10000, 50000]),
    ("failing tests of one file", one_file_of_failures, no_words, [1000, 5000, 20000, 38000]),
]


def write(folder, files):
    for path, text in files.items():
        full = os.path.join(folder, path)
        os.makedirs(os.path.dirname(full), exist_ok=True)
        with open(full, "w", encoding="utf-8") as file:
            file.write(text)


def spent():
    """The processor time of the programs that were run so far."""
    used = resource.getrusage(resource.RUSAGE_CHILDREN)
    return used.ru_utime + used.ru_stime


def best(words, folder):
    """The least processor time and the last line of the output, or None where it takes too long."""
    times = []
    for _ in range(RUNS):
        before = spent()
        try:
            done = subprocess.run(words, cwd=folder, stdout=subprocess.PIPE, stderr=subprocess.STDOUT, timeout=LIMIT)
        except subprocess.TimeoutExpired:
            return None, "more than %d s" % LIMIT
        times.append(spent() - before)
        text = done.stdout.decode("utf-8", "replace")
        if done.returncode not in (0, 1):
            return None, "status %d: %s" % (done.returncode, text[-200:].strip())
        if times[0] > 5:
            break
    return min(times), text.rstrip("\n").split("\n")[-1].strip("= ")


def growth(size, taken, before):
    if before is None or not before[1] or size == before[0]:
        return ""
    return "%6.1f" % ((taken / before[1]) ** (1 / math.log2(size / before[0])))


def table(program, name, tree, words, sizes):
    print(name)
    before = None
    for size in sizes:
        folder = tempfile.mkdtemp(prefix="collection-")
        try:
            files = tree(size)
            write(folder, files)
            given = words(size, files)
            taken, said = best([program] + given, folder)
            if taken is None:
                print("%9d %s" % (size, said))
                break
            listed, _ = best([program, "--collect-only"] + given, folder)
            print("%9d %8.3f s %8.3f s %s   %s" % (size, taken, listed or -1, growth(size, taken, before) or "      ", said))
            sys.stdout.flush()
            before = (size, taken)
        finally:
            shutil.rmtree(folder, ignore_errors=True)


def main():
    top = os.path.dirname(os.path.dirname(os.path.abspath(__file__)))
    program = os.path.abspath(sys.argv[1]) if len(sys.argv) > 1 else os.path.join(top, "crates/pytest_run/out/pytest_run")
    if not os.access(program, os.X_OK):
        sys.exit(f"{program} isn't there: run ./pytest_run once, which builds it")
    chosen = sys.argv[2:]
    for name, tree, words, sizes in CASES:
        if not chosen or any(part in name for part in chosen):
            table(program, name, tree, words, sizes)


if __name__ == "__main__":
    main()
