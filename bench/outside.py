#!/usr/bin/env python3
"""Runs the built program where the outside of a run fails, and says whether it ends as it must: by the stated status, with a prefix of the
report or with nothing, and with one line on standard error.

python3 bench/outside.py [PROGRAM]    (crates/pytest_run/out/pytest_run, which ./pytest_run builds, where none is named)
"""
import os
import shutil
import subprocess
import sys
import tempfile

TEST = "def test_one():\n    assert 2 == 2\n"
NOBODY = 65534  # as whom the program is run where this script's user may read everything


def run(program, words, folder, output=subprocess.PIPE):
    """What a run wrote, its status, and what it said on standard error."""
    done = subprocess.run([program, *words], cwd=folder, stdin=subprocess.DEVNULL, stdout=output, stderr=subprocess.PIPE,
                          user=NOBODY if os.geteuid() == 0 else None)
    return done.stdout or b"", done.returncode, done.stderr.decode()


def full_disk(program, folder):
    with open("/dev/full", "wb") as full:
        return run(program, [], folder, full), (b"", 14, "pytest_run: cannot write the report\n")


def pipe_that_is_closed(program, folder):
    end, pipe = os.pipe()
    os.close(end)
    with os.fdopen(pipe, "wb") as pipe:
        return run(program, [], folder, pipe), (b"", 14, "pytest_run: cannot write the report\n")


def folder_that_cannot_be_listed(program, folder):
    os.makedirs(os.path.join(folder, "above/locked"))
    os.chmod(os.path.join(folder, "above/locked"), 0)
    return run(program, [], folder), (b"", 13, "pytest_run: cannot read above/locked\n")


def file_that_cannot_be_read(program, folder):
    os.mkdir(os.path.join(folder, "above"))
    shutil.copy(os.path.join(folder, "test_a.py"), os.path.join(folder, "above/test_b.py"))
    os.chmod(os.path.join(folder, "above/test_b.py"), 0)
    return run(program, [], folder), (b"", 13, "pytest_run: cannot read above/test_b.py\n")


def word_that_is_no_text(program, folder):
    return run(program, [b"test_a.py", b"\xff"], folder), (b"ERROR: a word is not UTF-8\n", 4, "")


CASES = [full_disk, pipe_that_is_closed, folder_that_cannot_be_listed, file_that_cannot_be_read, word_that_is_no_text]


def main():
    top = os.path.dirname(os.path.dirname(os.path.abspath(__file__)))
    program = os.path.abspath(sys.argv[1]) if len(sys.argv) > 1 else os.path.join(top, "crates/pytest_run/out/pytest_run")
    if not os.access(program, os.X_OK):
        sys.exit(f"{program} isn't there: run ./pytest_run once, which builds it")
    wrong = 0
    for case in CASES:
        room = tempfile.mkdtemp(prefix="outside-")
        try:
            os.chmod(room, 0o755)
            copy, folder = os.path.join(room, "program"), os.path.join(room, "folder")
            shutil.copy(program, copy)
            os.chmod(copy, 0o755)
            os.mkdir(folder)
            with open(os.path.join(folder, "test_a.py"), "w", encoding="utf-8") as file:
                file.write(TEST)
            came, wanted = case(copy, folder)
        finally:
            shutil.rmtree(room, ignore_errors=True)
        wrong += came != wanted
        print("%s: %s" % (case.__name__.replace("_", " "), "as it must" if came == wanted else "wanted %r but got %r" % (wanted, came)), flush=True)
    return 1 if wrong else 0


if __name__ == "__main__":
    sys.exit(main())
