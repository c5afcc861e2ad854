"""Rows of value_tests on modules: what is collected of a module and what its marks say, and how a phase ends, by the model of pytest.

How a row spells a module and its marks the pages `modules` and `marks` of value_tests say.
"""
from model import collect
from model.collect import Fail
from model.runner import Features, Run
from model.session import Session

PATH = "a/b c/test_m.py"


def mark(spelled):
    if spelled == "3":
        return "3"
    if spelled.startswith("["):
        return "[" + mark(spelled[1:-1]) + "]"
    word, opens, rest = spelled.partition("(")
    if not opens:
        return "pytest.mark." + word
    parts = [part.partition("=") for part in rest[:-1].split("&") if part]
    return "pytest.mark.%s(%s)" % (word, ", ".join(key + equals + ('"%s"' % value if key == "reason" else value) for key, equals, value in parts))


def marks(spelled):
    return [mark(it) for it in spelled.split(",") if it]


def source(words):
    """The module that a row spells, in Python."""
    lines = ["import pytest"]
    for word in words.split(" "):
        kind, _, rest = word.partition(":")
        name, _, more = rest.partition(":")
        indent = "    " if kind in ("m", "i", "q", "Q") else ""
        if kind in ("f", "m", "c"):
            lines += [indent + "@" + it for it in reversed(marks(more))]
        lines += [indent + it for it in {
            "f": ["def %s(): pass" % name], "m": ["def %s(self): pass" % name], "c": ["class %s:" % name, "    pass"],
            "e": ["class %s(Exception):" % name, "    pass"], "x": [name + " = KeyError"], "k": [name + " = str"], "a": [name + " = " + more],
            "q": ["pytestmark = [%s]" % ", ".join(marks(rest))], "Q": ["pytestmark = " + mark(rest)],
            "p": ["pytestmark = [%s]" % ", ".join(marks(rest))], "P": ["pytestmark = " + mark(rest)],
        }.get(kind, [name + " = 3"])]
    return "\n".join(lines) + "\n"


def collected(words):
    run = Run([], {PATH: source(words).encode()}, Features(), unbuilt=())
    assert run.early is None and not run.collected.errors, (words, source(words))
    return run, Session(run.collected, run.options)


def names_of(collector, item):
    """The names that `-m` and `-k` ask for."""
    seen, real, kept = [], collect.matches, collector.exprs
    try:
        collect.matches = lambda expr, names, whole: seen.append(list(names)) or True
        collector.exprs = ["x", "x"]
        collector.accepts(item)
    finally:
        collect.matches, collector.exprs = real, kept
    return seen[1], seen[0]


def commas(texts):
    return "".join(it + "," for it in texts)


def item_told(collector, session, item):
    for_marks, for_keywords = names_of(collector, item)
    skip, xfail = session.skip_reason(item), session.xfail_mark(item)
    told = "" if xfail is None else ("strict " if session.strict(xfail) else "xfail ") + \
        ("raises " if xfail.kwargs.get("raises") is not None else "") + session.reason_of(xfail)
    return "|".join([item.node_id, item.part, item.title, commas(for_marks), commas(for_keywords), "" if skip is None else "skip " + skip, told]) + ";"


def items_told(words):
    run, session = collected(words)
    collector = run.collector
    classes = [name for name, _ in collector.world.names(PATH) if name in collector.file_names[PATH]]
    return "".join(item_told(collector, session, it) for it in collector.file_items[PATH]) + "|" + commas(classes)


def verdict_told(phase, spelled, raised):
    phases = {"set-up": "setup", "call": "call", "teardown": "teardown"}
    if phase not in phases:
        return verdict_told("teardown", spelled, raised)
    run, session = collected("f:test_a:" + spelled)
    thrown = [(session.world.make_exception(it, "x"), []) for it in raised.split(",") if it]
    return session.phase_end(phases[phase], run.collected.items[0], Fail(thrown) if thrown else None).kind
