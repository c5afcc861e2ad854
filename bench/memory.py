#!/usr/bin/env python3
"""Refuses memory to the built program, at one point after another of a run of 100 tests, and says how its runs end.

python3 bench/memory.py [PROGRAM [POINTS]]    (crates/pytest_run/out/pytest_run, which ./pytest_run builds, and 1,000 where none is named)

Each run has a limit on the memory of its process (`ulimit -v`). The limits go in equal steps from the least with which the program answers
`--version` to the least with which it writes its whole report, both of which are looked for first. Below that a run must end with status
12 and with a prefix of the report, and say why on standard error; one that ends otherwise is named, and the script's status is 1. The C
library asks the system for a page at a time here, so that a step more is a point more at which memory is refused.
"""
import os
import resource
import shutil
import subprocess
import sys
import tempfile

sys.dont_write_bytecode = True
PAGE = 4096
MOST = 1 << 32  # bytes: more than any of these runs needs
WANT_OF_MEMORY = 12
ENVIRONMENT = {"MALLOC_TOP_PAD_": "0"}

TESTS = """\
import pytest

@pytest.fixture(scope="module")
def coins():
    coins = []
    yield coins
    assert coins == ["all"], "coins are left"

@pytest.fixture
def coin(coins):
    coins.append(len(coins))
    yield coins[-1]
    coins.pop()
""" + "".join("""
def test_%d(coin):
    print("coin", coin)
    rows = list(range(1000))
    text = "x" * %d
    assert text.upper() + str(coin) == {"a": text, "b": [coin, "X" * %d + "0"]}["b"][1]
""" % (k, k, k + k // 90) for k in range(100))


class Ended:
    """A run under a limit of so many bytes."""

    def __init__(self, program, words, folder, limit):
        done = subprocess.run(
            [program, *words], cwd=folder, env=ENVIRONMENT, stdin=subprocess.DEVNULL, stdout=subprocess.PIPE, stderr=subprocess.PIPE,
            preexec_fn=lambda: resource.setrlimit(resource.RLIMIT_AS, (limit, limit)))
        self.limit, self.status, self.output, self.said = limit, done.returncode, done.stdout, done.stderr

    def is_as(self, other):
        return (self.status, self.output) == (other.status, other.output)

    def is_refused_as_it_must(self, whole):
        """Whether it ended for want of memory, with a prefix of the report, and said so."""
        return self.status == WANT_OF_MEMORY and whole.output.startswith(self.output) and len(self.said.splitlines()) == 1


def least(ends_well, low, high):
    """The least multiple of a page in these bounds for which this holds, where it holds for all above."""
    while high - low > PAGE:
        middle = (low + high) // 2 // PAGE * PAGE
        if ends_well(middle):
            high = middle
        else:
            low = middle
    return high


def points(first, last, count):
    """Limits in equal steps, whole pages, each once."""
    return sorted({(first + (last - first) * k // count) // PAGE * PAGE for k in range(count)})


def tried(program, folder, count):
    """Whether each run ends as it must; what came is printed."""
    whole = Ended(program, [], folder, MOST)
    version = Ended(program, ["--version"], folder, MOST)
    if whole.status not in (0, 1) or version.status != 0:
        sys.exit("it ends with %d, and with %d for --version, with ample memory" % (whole.status, version.status))
    starts = least(lambda limit: Ended(program, ["--version"], folder, limit).is_as(version), 0, MOST)
    ends = least(lambda limit: Ended(program, [], folder, limit).is_as(whole), starts, MOST)
    print("%d bytes of report, status %d; it starts with %d KB and ends with %d KB" % (len(whole.output), whole.status, starts // 1024, ends // 1024))
    runs = [Ended(program, [], folder, it) for it in points(starts, ends, count)]
    refused = [it for it in runs if it.is_refused_as_it_must(whole)]
    wrong = [it for it in runs if not it.is_refused_as_it_must(whole) and not it.is_as(whole)]
    print("%d points: %d ended for want of memory, %d of them with a part of the report written; %d wrote all; %d otherwise" % (
        len(runs), len(refused), sum(bool(it.output) for it in refused), len(runs) - len(refused) - len(wrong), len(wrong)))
    for it in wrong[:20]:
        print("%d KB: status %d, %d bytes written, %r" % (it.limit // 1024, it.status, len(it.output), it.said[-200:]))
    return not wrong


def main():
    top = os.path.dirname(os.path.dirname(os.path.abspath(__file__)))
    program = os.path.abspath(sys.argv[1]) if len(sys.argv) > 1 else os.path.join(top, "crates/pytest_run/out/pytest_run")
    if not os.access(program, os.X_OK):
        sys.exit(f"{program} isn't there: run ./pytest_run once, which builds it")
    folder = tempfile.mkdtemp(prefix="memory-")
    try:
        with open(os.path.join(folder, "test_a.py"), "w", encoding="utf-8") as file:
            file.write(TESTS)
        return 0 if tried(program, folder, int(sys.argv[2]) if len(sys.argv) > 2 else 1000) else 1
    finally:
        shutil.rmtree(folder, ignore_errors=True)


if __name__ == "__main__":
    sys.exit(main())
