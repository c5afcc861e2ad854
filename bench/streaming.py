#!/usr/bin/env python3
"""streaming.py PROGRAM: shows that PROGRAM (crates/pytest_run/out/pytest_run, or out/unproved/pytest_run) writes its report as it becomes known: it
runs two files with slow tests, reads the pipe, and says when each piece came. Fails where the first dot came in the last third of the run, or
the head behind the first test."""
import os
import subprocess
import sys
import tempfile
import time

SLOW = "def test_{}():\n    n = 0\n    while n < 90000:\n        n += 1\n    assert n == 90000\n"


def main(program):
    with tempfile.TemporaryDirectory() as folder:
        for name in ("a", "b", "c"):
            with open(f"{folder}/test_{name}.py", "w", encoding="utf-8") as it:
                it.write(SLOW.format(name))
        begun = time.monotonic()
        run = subprocess.Popen([os.path.abspath(program)], cwd=folder, stdout=subprocess.PIPE)
        pieces = []
        while True:
            piece = os.read(run.stdout.fileno(), 65536)
            if not piece:
                break
            pieces.append((time.monotonic() - begun, piece))
        run.wait()
        whole = time.monotonic() - begun
    text = b"".join(piece for _, piece in pieces)
    for at, piece in pieces:
        print(f"{at:6.2f} s  {piece!r}")
    print(f"{whole:6.2f} s  the end, status {run.returncode}")
    head = next(at for at, piece in pieces if b"collected 3 items" in piece)
    dot = next(at for at, piece in pieces if b"test_a.py ." in piece)
    fine = run.returncode == 0 and text.count(b" .") == 3 and head < dot and dot < whole * 2 / 3
    print("as it becomes known" if fine else "NOT as it becomes known")
    return 0 if fine else 1


if __name__ == "__main__":
    sys.exit(main(sys.argv[1]))
