"""The cases of crates/acceptance/data in which wrappers of a hook end in each way at each place: one case a hook, made whole from here.

Each test of such a case is a row: how its wrappers end, the one of the folder `sub` and, where there are two, the one of `sub/deep`, and how the
test, its set-up or its teardown ends. One deep each wrapper meets each end; two deep each wrapper meets each other one, and each of the two each
end. All notes what it does, and behind all of this a test for each row compares its notes with what the rule of hook calls says of them
(RULE, pluggy's documentation, "Wrappers"), which is a project's own short code and knows nothing of the model. What the phase then raises stands
in the report that the model makes; here it is compared with the rule too.
"""
import re

LIMIT = 1000

ENDS = ["value", "raised", "skipped", "exhausted"]
WAYS = ["hands_on", "nothing", "value", "changed", "again", "swallows", "raises_before", "skips_before", "fails_before", "exhausts_before",
        "no_yield", "raises_behind", "skips_behind", "fails_behind", "exhausts_behind", "yields_twice"]
ONE = [["%s-%s" % (way, end) for end in ENDS] for way in WAYS]
TWO = [["%s-%s-%s" % (way, other, ENDS[(n + k) % len(ENDS)]) for k, other in enumerate(WAYS)] for n, way in enumerate(WAYS)]


def written(rows):
    return "".join("    %s,\n" % ", ".join('"%s"' % it for it in some) for some in rows)


PARTS = '''\
import pytest

# What was noted, row by row.
LOG = {}

ONE = [
%s]

TWO = [
%s]

def row_of(item):
    return item.name.split("[")[1].split("]")[0]

def way_of(item, n):
    return row_of(item).split("-")[n]

def note(row, what):
    if row not in LOG:
        LOG[row] = []
    LOG[row].append(what)

# How a test, its set-up or its teardown ends.
def ends(row):
    end = row.split("-")[-1]
    if end == "raised":
        raise ValueError("inner")
    if end == "skipped":
        pytest.skip("skipped inner")
    if end == "exhausted":
        while True:
            pass

# How a wrapper ends, before or behind its `yield`.
def ends_at(way, place):
    if way == "raises_" + place:
        raise KeyError(place)
    if way == "skips_" + place:
        pytest.skip("skipped " + place)
    if way == "fails_" + place:
        pytest.fail("failed " + place)
    if way == "exhausts_" + place:
        while True:
            pass

def gives(way, got):
    if way == "nothing":
        return None
    if way == "value":
        return "own"
    if way == "changed":
        return [got]
    return got
''' % (written(ONE), written(TWO))

RULE = '''\
STOPS = {"raises_before": "'before'", "skips_before": "skipped before", "fails_before": "failed before",
         "exhausts_before": "step limit of %d reached", "no_yield": "hook wrapper did not yield"}
BEHIND = {"raises_behind": "'behind'", "skips_behind": "skipped behind", "fails_behind": "failed behind",
          "exhausts_behind": "step limit of %d reached", "yields_twice": "hook wrapper yielded twice"}
INNER = {"raised": "inner", "skipped": "skipped inner", "exhausted": "step limit of %d reached"}

# What a wrapper that goes on ends with.
def gone_on(way, how, what):
    if way in BEHIND:
        return ["raised", BEHIND[way]]
    if how == "raised" and way != "swallows":
        return [how, what]
    if how == "raised":
        return ["gave", "swallowed"]
    if way == "nothing":
        return ["gave", None]
    if way == "value":
        return ["gave", "own"]
    if way == "changed":
        return ["gave", [what]]
    return ["gave", what]

# A hook call: wrappers, the first outermost, each with its number and its way, around what is called else and its end. What is noted, and the end.
def called(wrappers, inner, end):
    if wrappers == []:
        return [inner, end]
    n = wrappers[0][0]
    way = wrappers[0][1]
    if way in STOPS:
        return [[n + " in"], ["raised", STOPS[way]]]
    rest = called(wrappers[1:], inner, end)
    how = rest[1][0]
    what = rest[1][1]
    return [[n + " in"] + rest[0] + [n + " got " + str(what)], gone_on(way, how, what)]

def end_of(word):
    if word in INNER:
        return ["raised", INNER[word]]
    return ["gave", ["plain"]]

# The wrappers of a row.
def wrappers_of(words):
    if len(words) == 2:
        return [["sub", words[0]]]
    return %s

def of_row(row, inner):
    words = row.split("-")
    return called(wrappers_of(words), inner, end_of(words[-1]))
''' % (LIMIT, LIMIT, LIMIT, "%s")

SAID = {"setup": '''
# A test follows where its set-up raised nothing; a fixture that came up goes down.
def said(row):
    notes, end = of_row(row, ["plain", "up"])
    came_up = "up" in notes and row.split("-")[-1] == "value"
    if end[0] == "gave":
        notes = notes + ["test"]
    if came_up:
        return notes + ["down"]
    return notes
''', "call": '''
# Its fixture goes down whatever ends.
def said(row):
    notes, end = of_row(row, ["plain", "test"])
    return notes + ["down"]
''', "teardown": '''
# The teardown is done behind the hook call where that didn't reach it.
def said(row):
    notes, end = of_row(row, ["plain", "down"])
    if "down" in notes:
        return ["test"] + notes
    return ["test"] + notes + ["down"]
'''}

WRAPPER = '''\
import pytest
from parts import ends_at, gives, note, row_of, way_of

@pytest.hookimpl(wrapper=True%s)
def pytest_runtest_%s(item):
    row = row_of(item)
    way = way_of(item, %d)
    note(row, "%s in")
    ends_at(way, "before")
    if way == "no_yield":
        return "early"
    try:
        got = yield
        note(row, "%s got " + str(got))
    except BaseException as e:
        note(row, "%s got " + str(e))
        if way == "again":
            raise e
        if way in ["hands_on", "nothing", "value", "changed"]:
            raise
        got = "swallowed"
    ends_at(way, "behind")
    if way == "yields_twice":
        yield
    return gives(way, got)
'''

TOP = '''\
import pytest
from parts import ends, note, row_of

def pytest_runtest_%s(item):
    if item.nodeid[:4] == "sub/":
        note(row_of(item), "plain")
    return "plain"
'''

FIXTURES = {"setup": '''
@pytest.fixture
def ended(row):
    note(row, "up")
    ends(row)
    yield
    note(row, "down")
''', "call": '''
@pytest.fixture
def ended(row):
    yield
    note(row, "down")
''', "teardown": '''
@pytest.fixture
def ended(row):
    yield
    note(row, "down")
    ends(row)
'''}

TESTS = '''\
import pytest
from parts import %s, ends, note

@pytest.mark.usefixtures("ended")
@pytest.mark.parametrize("row", %s)
def test_%s(row):
    note(row, "test")
%s'''

COMPARED = '''\
import pytest
from parts import LOG, ONE, TWO
from rule import said

@pytest.mark.parametrize("row", ONE)
def test_notes_of_one(row):
    assert LOG[row] == said(row)

@pytest.mark.parametrize("row", TWO)
def test_notes_of_two(row):
    assert LOG[row] == said(row)
'''

# By the hook: how the wrappers of `sub` and of `sub/deep` stand, and which of the two is the outer one. Of plain ones it is the one that was
# registered later.
ORDER = {"setup": ("", "", ("deep", "sub")), "call": (", tryfirst=True", "", ("sub", "deep")), "teardown": ("", ", trylast=True", ("sub", "deep"))}
PLACES = {"sub": 0, "deep": 1}
CASES = {"wrappers_around_%s.case" % hook: hook for hook in ORDER}


def rule_of(hook):
    outer, inner = ORDER[hook][2]
    return RULE % '[["%s", words[%d]], ["%s", words[%d]]]' % (outer, PLACES[outer], inner, PLACES[inner]) + SAID[hook]


def tests_of(hook, name, rows):
    return TESTS % (rows, rows, name, "    ends(row)\n" if hook == "call" else "")


def files_of(hook):
    sub, deep, _ = ORDER[hook]
    return {
        "conftest.py": TOP % hook + FIXTURES[hook],
        "parts.py": PARTS,
        "rule.py": rule_of(hook),
        "sub/conftest.py": WRAPPER % (sub, hook, 0, "sub", "sub", "sub"),
        "sub/deep/conftest.py": WRAPPER % (deep, hook, 1, "deep", "deep", "deep"),
        "sub/deep/test_two.py": tests_of(hook, "two", "TWO"),
        "sub/test_one.py": tests_of(hook, "one", "ONE"),
        "test_said.py": COMPARED,
    }


def asked(name):
    """The case of a hook, with nothing of what is wanted."""
    hook = CASES[name]
    lines = ["Wrappers around pytest_runtest_%s end in each way at each place, one and two deep; what each row notes is as the rule says." % hook]
    lines += [">>> words", "--tb=line", "--step-limit=%d" % LIMIT]
    for path, text in files_of(hook).items():
        lines += [">>> file " + path, *text.split("\n")[:-1]]
    return "".join(it + "\n" for it in [*lines, ">>> stdout", ">>> journal", ">>> status 1"])


class ByRule:
    """What the rule says of a report: the letters of each file, the text of each exception, in order, and that of the first of each test."""

    def __init__(self, hook):
        self.hook, self.letters, self.texts, self.firsts = hook, {}, [], []
        names = {}
        exec(PARTS.replace("import pytest\n", "") + rule_of(hook), names)
        for path, test, rows in (("sub/deep/test_two.py", "test_two", names["TWO"]), ("sub/test_one.py", "test_one", names["ONE"])):
            self.letters[path] = ""
            for row in rows:
                self.take("%s::%s[%s]" % (path, test, row), path, self.raised(names, row))
        self.letters["test_said.py"] = "." * len(names["ONE"] + names["TWO"])

    def raised(self, names, row):
        """What the phase raises: what the hook call does, and behind it what the teardown does where that didn't reach it."""
        notes, end = names["of_row"](row, ["inner"])
        behind = names["end_of"](row.split("-")[-1]) if self.hook == "teardown" and "inner" not in notes else ["gave", None]
        return [text for how, text in (end, behind) if how == "raised"]

    def take(self, name, path, raised):
        bad = "F" if self.hook == "call" else "E"
        letter = "" if not raised else "s" if len(raised) == 1 and raised[0].startswith("skipped") else bad
        self.letters[path] += "." + letter if self.hook == "teardown" else letter or "."
        if letter == bad:
            self.texts += raised
            self.firsts.append((name, raised[0]))


def wrong(name, case):
    """What of the report of a case isn't as the rule says."""
    rule, lines = ByRule(CASES[name]), case[case.index("\n>>> stdout\n"):].split("\n")
    letters = dict(it.split(" ") for it in lines if re.fullmatch(r"\S+\.py [.FEs]+", it))
    texts = [found[1] for it in lines if (found := re.fullmatch(r"\S+:\d+: (?:[A-Z]\w+: )?(.*)", it))]
    firsts = [(found[1], found[2]) for it in lines if (found := re.fullmatch(r"(?:FAILED|ERROR) (\S+) - (?:[A-Z]\w+: )?(.*)", it))]
    pairs = (("letters", letters, rule.letters), ("exceptions", texts, rule.texts), ("summary", firsts, rule.firsts))
    return "".join("%s: %s in the report, %s by the rule\n" % (told, came, said) for told, came, said in pairs if came != said)
