"""The report of a list of words over a tree of files and lawful reports with workers.

main(words, files, assignment=None, features=Features()) -> (bytes, status)
report(...) -> Result, the same with the journals and the saved cache
check_report(words, files, output, status, features) -> (found, Result): whether output and status are a Report for
    some lawful A, and the Result of that A, or else of the dealt one
deep(call) -> call() on a thread with a large stack, for deep sources

Result.journals has one list of events per session: ("Up" or "UpFailed", n, definition, param, node, bases),
("DownBegins", n), ("Down", n, raised), ("CallBegins", node, given), ("CallEnds", node)."""
import sys
from dataclasses import dataclass, field

from . import api
from .collect import Collector, Refused
from .lastfailed import choose, next_cache, read_cache, write_cache
from .markexpr import option_expr
from .report import (ItemReport, PhaseEnd, NOT_RUN, encode, head, progress, sections, summary)
from .session import Session
from .tree import generated_tree, load_files
from .words import Asked, UsageFault, read_words

sys.setrecursionlimit(1000000)


@dataclass
class Features(api.Features):
    last_failed: bool = False
    dist_groups: bool = False


ALL = ["package_scope", "fstrings", "builtin_fixtures", "last_failed", "dist_groups"]


# What the program refuses as not built today; where a part joins the program, its word goes.
UNBUILT = ()


def unbuilt_of(words):
    """The parts that the words, by commas, name; none of them for no word."""
    return tuple(it for it in words.split(",") if it)


def features_of(names):
    return Features(**{n: True for n in names})


@dataclass
class Result:
    output: bytes
    status: int
    journals: list = field(default_factory=list)   # one list of events per session
    saved: object = None                           # bytes saved to the keeper, or None
    assignment: object = None                      # the A that was used, or None without workers
    sessions: list = field(default_factory=list)   # finished Session objects
    groups: int = 0
    workers: int = 0


class NotBuilt(Exception):
    """What is refused as long as it isn't built: the text `not built`, status 4."""


class Run:
    """One list of words over one tree; sessions are kept by their list of groups.

    `unbuilt` names what isn't built: what asks for it is refused by `ERROR: not built`."""

    def __init__(self, words, files, features, cache=None, rewrite=True, unbuilt=UNBUILT):
        self.unbuilt = unbuilt
        self.words = list(words)
        self.tree = files
        self.features = features
        self.cache_bytes = cache
        self.rewrite = rewrite
        self.kept = {}
        self.early = None      # Result of a refusal
        try:
            self.prepare()
        except NotBuilt:
            self.early = usage("not built")
        except Asked as asked:
            self.early = Result(asked.text.encode("utf-8"), 0)
        except UsageFault as fault:
            self.early = usage(fault.text)
        except Refused as refused:
            if refused.text is not None:
                self.early = usage(refused.text)
            else:
                self.early = Result(encode(refused.lines), 4)

    def prepare(self):
        self.options = read_words(self.words, self.features)
        exprs = []
        for option, text in (("-k", self.options.keyword), ("-m", self.options.marks)):
            try:
                exprs.append(option_expr(option, text))
            except ValueError as wrong:
                raise UsageFault(str(wrong))
        self.exprs = exprs
        self.refuse_words()
        tree = self.tree
        if self.options.generated is not None:
            tree = generated_tree(*self.options.generated)
        self.files = load_files(tree)
        self.cache = ([], None)
        if self.features.last_failed and self.options.generated is None:
            self.cache = read_cache(self.cache_bytes)
        self.collected = self.collect()
        self.refuse_collected()
        self.chosen = choose(self.options, self.cache, self.collected.items)
        dropped = len(self.collected.items) - len(self.chosen)
        self.selected = len(self.chosen)
        self.deselected = self.collected.deselected + dropped
        self.runs = not self.options.collect_only and not self.collected.errors
        self.groups = []
        self.workers = 0
        if self.runs and self.options.asks_workers and self.chosen:
            self.groups = groups(self.options.dist, self.chosen)
            self.workers = min(self.options.workers, len(self.groups))

    def refuse_words(self):
        options = self.options
        if "workers" in self.unbuilt and options.asks_workers:
            raise NotBuilt()

    def refuse_collected(self):
        """The conditions on what was collected, behind the refusals of collection."""
        if "ids" in self.unbuilt and any(it.hook == "pytest_make_parametrize_id" for it in self.collected.impls):
            raise NotBuilt()

    def collect(self):
        self.collector = Collector(self.files, self.options, self.exprs, self.features, self.rewrite)
        self.collector.asks_for_ids = "ids" not in self.unbuilt
        return self.collector.collect()

    def fresh(self):
        """A Collected that no session has used and its chosen items, in the same order."""
        if not self.kept:
            return self.collected, self.chosen
        collected = self.collect()
        return collected, choose(self.options, self.cache, collected.items)

    def session(self, numbers):
        """A session over the chosen items with these numbers, in a world of its own."""
        key = tuple(numbers)
        if key not in self.kept:
            collected, chosen = self.fresh()
            session = Session(collected, self.options)
            reports = session.run([chosen[k] for k in numbers])
            self.kept[key] = (session, reports)
        return self.kept[key]

    def dealt(self):
        return [g % self.workers for g in range(len(self.groups))] if self.workers else None

    def lawful(self, assignment):
        if len(assignment) != len(self.groups):
            return False
        for g, w in enumerate(assignment):
            if not 0 <= w < self.workers or (g < self.workers and w != g):
                return False
        return True

    def result(self, assignment=None):
        if self.early is not None:
            return self.early
        options, collected = self.options, self.collected
        errors = collected.errors
        sessions, reports, places, stopped, ran = [], [], [], False, []
        if options.collect_only:
            ends = [PhaseEnd(NOT_RUN)] * 3
            reports = [ItemReport(i.node_id, i.title, i.file, *ends, [], ("", "", "")) for i in self.chosen]
        elif errors:
            pass
        elif not self.workers:
            session, reports = self.session(range(len(self.chosen)))
            sessions = [session]
            stopped = session.stopped
            ran = reports
        else:
            if assignment is None:
                assignment = self.dealt()
            assert self.lawful(assignment), "the assignment doesn't meet Share"
            by_group = {}
            for w in range(self.workers):
                mine = [g for g in range(len(self.groups)) if assignment[g] == w]
                numbers = [k for g in mine for k in self.groups[g]]
                session, done = self.session(numbers)
                sessions.append(session)
                at = 0
                for g in mine:
                    by_group[g] = done[at:at + len(self.groups[g])]
                    at += len(self.groups[g])
            for g in range(len(self.groups)):
                for r in by_group[g]:
                    reports.append(r)
                    places.append((g, assignment[g]))
            ran = reports
        lines = head(options, self.selected, self.deselected, len(errors), self.workers)
        lines += progress(options, reports, places)
        lines += sections(options, errors, reports)
        lines += summary(options, errors, reports, self.selected, self.deselected, stopped, options.sw)
        if errors:
            status = 2
        elif stopped and options.sw:
            status = 2
        elif any(r.bad for r in ran):
            status = 1
        elif self.selected == 0:
            status = 5
        else:
            status = 0
        saved = None
        if self.features.last_failed and options.generated is None:
            after = next_cache(options, self.cache, [(r.node_id, r.bad) for r in ran])
            if after != self.cache:
                saved = write_cache(after)
        return Result(encode(lines), status, [s.events for s in sessions], saved,
                      assignment if self.workers else None, sessions, len(self.groups), self.workers)


def usage(text):
    return Result(encode(["ERROR: " + text]), 4)


def groups(dist, items):
    """Lists of places of items."""
    out = []
    keys = []
    for place, item in enumerate(items):
        if dist == "loadfile":
            key = item.file
        elif dist == "load":
            key = None
        elif dist == "loadscope":
            key = (item.file, item.class_name)
        else:
            assert dist == "loadgroup"
            key = item.group
        if key is not None and key in keys:
            out[keys.index(key)].append(place)
        else:
            keys.append(key)
            out.append([place])
    return out


def report(words, files, assignment=None, features=None, cache=None, rewrite=True):
    run = Run(words, files, features or Features(), cache, rewrite)
    return run.result(assignment)


def main(words, files, assignment=None, features=None):
    """(bytes, status). With workers and no assignment the groups are dealt by turns."""
    done = report(words, files, assignment, features)
    return (done.output, done.status)


# ------------------------------------------------------------------ is this output a Report?

MOST_TRIED = 2000


def printed_workers(output):
    out = []
    for line in output.decode("utf-8", "replace").split("\n"):
        if line.endswith("]") and " [gw" in line:
            name = line[line.rindex(" [gw") + 4:-1]
            if name.isdigit():
                out.append(int(name))
    return out


def check_report(words, files, output, status, features=None, cache=None, rewrite=True, unbuilt=UNBUILT):
    """A tuple (found, Result): found is True where (output, status) is a Report for some lawful A;
    the Result is the one for that A, or for the dealt one."""
    run = Run(words, files, features or Features(), cache, rewrite, unbuilt)
    first = run.result()
    if (first.output, first.status) == (output, status):
        return (True, first)
    if run.early is not None or not run.workers or run.options.generated is not None:
        return (False, first)
    for assignment in candidates(run, output):
        one = run.result(assignment)
        if (one.output, one.status) == (output, status):
            return (True, one)
    return (False, first)


def candidates(run, output):
    """The assignment that the printed names give; without -v and --setup-show they give it exactly.
    With these, then all others where they are few."""
    total = len(run.groups)
    free = total - run.workers
    guess = guess_assignment(run, output)
    if guess is not None and run.lawful(guess):
        yield guess
    if not (run.options.verbose or run.options.setup_show):
        return
    if run.workers ** free > MOST_TRIED:
        return
    for code in range(run.workers ** free):
        rest = []
        for _ in range(free):
            rest.append(code % run.workers)
            code //= run.workers
        one = list(range(run.workers)) + rest
        if one != guess:
            yield one


def guess_assignment(run, output):
    """By the lines of progress: without -v and --setup-show each group has a known number of lines;
    else the first line with a group's first node id behind that of the group before."""
    lines = output.decode("utf-8", "replace").split("\n")
    try:
        at = lines.index("") + 1
    except ValueError:
        return None
    out = []
    plain = not run.options.verbose and not run.options.setup_show
    for g, numbers in enumerate(run.groups):
        items = [run.chosen[k] for k in numbers]
        if plain:
            count = 1 + sum(1 for a, b in zip(items, items[1:]) if a.file != b.file)
        else:
            start = (" " * 8 if run.options.setup_show else "") + items[0].node_id + " "
            while at < len(lines) and not lines[at].startswith(start):
                at += 1
            count = 1
        if at >= len(lines) or " [gw" not in lines[at]:
            return None
        name = lines[at][lines[at].rindex(" [gw") + 4:-1]
        if not name.isdigit():
            return None
        out.append(int(name))
        at += count
    return out


def deep(call):
    """call() on a thread whose stack is large enough for deep sources; its value, or what it raised."""
    import threading
    box = []

    def body():
        try:
            box.append((True, call()))
        except BaseException as wrong:
            box.append((False, wrong))

    threading.stack_size(512 * 1024 * 1024)
    thread = threading.Thread(target=body)
    thread.start()
    thread.join()
    good, value = box[0]
    if not good:
        raise value
    return value


def folder_files(top):
    """The files below a folder, links not followed; names that aren't UTF-8 left out."""
    import os
    out = {}
    for here, dirs, names in os.walk(top):
        dirs[:] = [d for d in dirs if not os.path.islink(os.path.join(here, d))]
        for name in names:
            full = os.path.join(here, name)
            path = os.path.relpath(full, top).replace(os.sep, "/")
            try:
                path.encode("utf-8")
            except UnicodeEncodeError:
                continue
            if os.path.islink(full) or not os.path.isfile(full) or not path.endswith(".py"):
                continue
            with open(full, "rb") as f:
                out[path] = f.read()
    return out
