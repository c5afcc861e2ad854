"""What the scripts here share: the model's report, the program's report in a folder of its own, and files on a disk."""
import os
import shutil
import subprocess
import sys
import tempfile

sys.dont_write_bytecode = True
from model.runner import Features, Run  # noqa: E402

ROOT = os.path.dirname(os.path.dirname(os.path.abspath(__file__)))


def by_model(words, files, draws=None):
    """(bytes, status) of the model, for a list of texts and a dict of paths to bytes; with workers, by the worker that draws each group."""
    done = Run(words, files, Features()).result(draws)
    return done.output, done.status


def by_program(program, words, files, seconds=60):
    """(bytes, status) of a program that is run in a folder with these files."""
    folder = tempfile.mkdtemp(prefix="project-")
    try:
        for path, data in files.items():
            full = os.path.join(folder, path)
            os.makedirs(os.path.dirname(full), exist_ok=True)
            with open(full, "wb") as it:
                it.write(data)
        try:
            done = subprocess.run([program, *words], cwd=folder, stdin=subprocess.DEVNULL, stdout=subprocess.PIPE, stderr=subprocess.PIPE, timeout=seconds)
        except subprocess.TimeoutExpired:
            return b"no end within %d seconds\n" % seconds, -1
        return done.stdout + done.stderr, done.returncode
    finally:
        shutil.rmtree(folder, ignore_errors=True)
