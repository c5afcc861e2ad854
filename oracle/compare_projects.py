#!/usr/bin/env python3
"""The program's bytes and status against the model's, over random projects.

compare_projects.py COUNT SEED --program PATH    each project that differs is made smaller and told; the last line counts them
compare_projects.py COUNT SEED --tell            what the projects have, by the model alone
compare_projects.py 1 SEED --show                one project, its words and the model's report
    --kind fixtures|hooks|model|plain
                                    projects of fixture_projects.py (fixtures), of hook_projects.py (hooks), of the model's own generator
                                    without workers (model), of plain_projects.py, without fixtures (plain); fixtures where it isn't given

Workers, whose assignment is open, are compared by `python3 -m model.fuzz`.
"""
import argparse
import collections
import os
import sys
import traceback
import time

import fixture_projects
import hook_projects
import plain_projects
import room
from model.runner import Features, Run, check_report, deep

MOST_TRIES = 1500


class ModelFault(Exception):
    pass


MAKERS = {
    "fixtures": fixture_projects.project,
    "hooks": hook_projects.project,
    "model": fixture_projects.by_model_fuzz,
    "plain": plain_projects.project,
}


def whole(words, files):
    try:
        return Run(words, files, Features()).result()
    except Exception:
        raise ModelFault(traceback.format_exc())


def by_model(words, files):
    done = whole(words, files)
    return done.output, done.status


by_program = room.by_program


def is_told(program, words, files):
    """Whether the model can tell what the program told; with workers by some way to share the files among them."""
    output, status = by_program(program, words, files)
    try:
        return check_report(words, files, output, status, Features())[0]
    except Exception:
        raise ModelFault(traceback.format_exc())


def differs(program, words, files):
    try:
        return not is_told(program, words, files)
    except ModelFault:
        return False


class Smaller:
    """Takes words, files and lines away as long as the two still differ."""

    def __init__(self, program, words, files):
        self.program = program
        self.words = words
        self.files = dict(files)
        self.tries = 0
        self.until = time.monotonic() + 60

    def holds(self, words, files):
        self.tries += 1
        if self.tries > MOST_TRIES or time.monotonic() > self.until:
            return False
        return differs(self.program, words, files)

    def fewer(self, parts, still):
        """A short list of those parts for which `still` holds."""
        size = max(1, len(parts) // 2)
        while True:
            at = 0
            while at < len(parts):
                left = parts[:at] + parts[at + size:]
                if still(left):
                    parts = left
                else:
                    at += size
            if size == 1:
                return parts
            size //= 2

    def once(self):
        paths = self.fewer(sorted(self.files), lambda ps: self.holds(self.words, {p: self.files[p] for p in ps}))
        self.files = {p: self.files[p] for p in paths}
        self.words = self.fewer(self.words, lambda ws: self.holds(ws, self.files))
        for path in list(self.files):
            lines = self.files[path].splitlines(keepends=True)
            lines = self.fewer(lines, lambda ls: self.holds(self.words, {**self.files, path: b"".join(ls)}))
            self.files[path] = b"".join(lines)

    def go(self):
        while True:
            before = (list(self.words), dict(self.files))
            self.once()
            if before == (self.words, self.files) or self.tries > MOST_TRIES or time.monotonic() > self.until:
                return self.words, self.files


def show(words, files):
    print("words:", words)
    for path in sorted(files):
        print(">>> " + path)
        print(files[path].decode("utf-8", "backslashreplace"), end="" if files[path].endswith(b"\n") else "<no line end>\n")


def tell_difference(program, seed, words, files):
    words, files = Smaller(program, words, files).go()
    wanted, wanted_status = by_model(words, files)
    got, status = by_program(program, words, files)
    print("==== seed %d differs; as small as it was made:" % seed)
    show(words, files)
    print("---- model, status %d" % wanted_status)
    print(wanted.decode("utf-8", "replace"), end="")
    print("---- program, status %d" % status)
    print(got.decode("utf-8", "replace"), end="")
    sys.stdout.flush()


TOLD = ["' not found", "SyntaxError", "StepLimit", "stopping after", "Captured stdout setup", "Captured stdout call", "Captured stdout teardown", "XPASS(strict)", "recursive dependency",
        "ScopeMismatch", "ERROR at setup", "ERROR at teardown", "did not yield", "more than one 'yield'", "fixture is torn down", "TEARDOWN S", "TEARDOWN M", "TEARDOWN C", "TEARDOWN F",
        "maximum recursion", "+  where"]


def traits(done):
    text = done.output.decode("utf-8")
    out = ["status %d" % done.status]
    if text.startswith("ERROR: "):
        out.append(" ".join(text.split()[:3]))
    elif text.startswith("ImportError while"):
        out.append("conftest fault")
    else:
        last = text.rstrip("\n").split("\n")[-1].strip("= ")
        out += [" ".join(w for w in part.split() if not w[0].isdigit()) for part in last.split(", ")]
        out += ["text: " + what for what in TOLD if what in text]
    return out


def events(done, found):
    for journal in done.journals:
        for e in journal:
            found["events: " + e[0] + (" with a raise" if e[0] == "Down" and e[2] else "")] += 1


def go():
    parser = argparse.ArgumentParser(description=__doc__.split("\n")[0])
    parser.add_argument("count", type=int)
    parser.add_argument("seed", type=int)
    parser.add_argument("--program")
    parser.add_argument("--kind", choices=sorted(MAKERS), default="fixtures")
    parser.add_argument("--tell", action="store_true")
    parser.add_argument("--show", action="store_true")
    parser.add_argument("--most", type=int, default=10, help="the number of differences after which the rest is only counted")
    given = parser.parse_args()
    program = given.program and os.path.abspath(given.program)
    bad = faults = 0
    found = collections.Counter()
    for seed in range(given.seed, given.seed + given.count):
        words, files = MAKERS[given.kind](seed)
        try:
            done = whole(words, files)
        except ModelFault as fault:
            faults += 1
            print("==== seed %d: the model's own fault\n%s" % (seed, fault))
            continue
        wanted = done.output, done.status
        found.update(traits(done))
        events(done, found)
        if given.show:
            show(words, files)
            print(wanted[0].decode("utf-8"), end="")
            print("status", wanted[1])
        if program is not None and not is_told(program, words, files):
            bad += 1
            if bad <= given.most:
                tell_difference(program, seed, words, files)
            else:
                print("==== seed %d differs" % seed)
    if given.tell:
        for what, n in found.most_common():
            print("%7d %s" % (n, what))
    print("%d as the model says, %d differ, %d model faults" % (given.count - bad - faults, bad, faults))
    return 1 if bad or faults else 0


if __name__ == "__main__":
    sys.exit(deep(go))
