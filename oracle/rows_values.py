"""Rows on values, which value_tests reads: what is done and its operands stand in the table, what is given is made here.

Values, exceptions and costs are the model's. Where a part of Python says the same, it is asked too, and a difference is an error: what
a call's parameters are given, and whether a pattern is found. How a row is spelled the pages of value_tests say. Made without the model
are `throw`, `change`, `push`, `bind` and `search`, each in a line from what the word means.
"""
import re

import rows_modules
from model import builtins_ as B
from model import values as V
from model.interp import EXCEPTIONS, UNBOUND_NAMES, Exhaust, Iter, LangRaise, World
from model.ops import NotOrdered
from model.values import NODEF, Class, Function, Instance, Module, PDict, PList, PRange, PTuple

PICTURES = str.maketrans("␁␉␊␋␌␍␟␡", "\1\t\n\x0b\x0c\r\x1f\x7f")
PICTURED = str.maketrans("\1\t\n\x0b\x0c\r\x1f\x7f", "␁␉␊␋␌␍␟␡")
MUCH = 10 ** 12
BOUND = [name for name, _ in EXCEPTIONS if name not in UNBOUND_NAMES]


class Values(World):
    """A world without sources, and the operands of a row."""

    def __init__(self, spelled=""):
        super().__init__()
        self.budget = MUCH
        self.values = []
        for part in spelled.split("|") if spelled else []:
            self.values.append(self.value(part))

    def at(self, *places):
        """Of one place the operand there; else as the model has it, the place of an index."""
        if len(places) == 2:
            return super().at(*places)
        return self.values[places[0]] if places[0] < len(self.values) else None

    def taken(self, count):
        at = max(0, len(self.values) - count)
        taken = self.values[at:]
        del self.values[at:]
        return taken

    def value(self, part):
        """The value that a part spells."""
        if part in ("None", "True", "False"):
            return {"None": None, "True": True, "False": False}[part]
        if re.fullmatch(r"[+-]?\d+", part):
            return int(part)
        kind, rest = part[:1], part[1:]
        return self.MAKERS[kind](self, rest) if kind in self.MAKERS else rest

    def dict(self, rest):
        items, made = self.taken(2 * int(rest)), PDict()
        for key, value in zip(items[::2], items[1::2]):
            try:
                made.d.setdefault(self.key(key), [key, None])[1] = value
            except LangRaise:
                pass
        return made

    def exception(self, rest):
        count, blank, name = rest.partition(" ")
        if blank:
            return self.make_exc(self.class_by(name), self.taken(int(count)))
        return Instance(self.class_by(rest))

    def class_by(self, name):
        return self.classes.get(name, self.classes["NameError"])

    def repeated(self, rest):
        return self.binary("*", self.values.pop(), int(rest))

    def own_list(self, _rest):
        made = PList([1])
        made.items.append(made)
        return made

    def nested(self, rest):
        value = 1
        for _ in range(int(rest)):
            value = PTuple([value])
        return value

    def nested_exception(self, rest):
        value = 7
        for _ in range(int(rest)):
            value = self.make_exc(self.classes["KeyError"], [value])
        return value

    def full_dict(self, rest):
        made = PDict()
        for n in range(int(rest)):
            made.d[self.key(n)] = [n, None]
        return made

    MAKERS = {
        "@": lambda self, rest: self.at(int(rest)),
        "R": lambda self, rest: PRange(range(*map(int, rest.split(",")))),
        "L": lambda self, rest: PList(self.taken(int(rest))),
        "T": lambda self, rest: PTuple(self.taken(int(rest))),
        "D": dict, "X": exception, "*": repeated, "O": own_list, "(": nested, "!": nested_exception, "K": full_dict,
        "N": lambda self, rest: PList(range(int(rest) - 1, -1, -1)),
        "S": lambda self, rest: " " * int(rest),
        "F": lambda self, rest: Function(rest, "test_a.py", 3, [], False, None, None, None),
        "M": lambda self, rest: Module(rest, rest),
        "B": lambda self, rest: self.builtins["print"],
        "C": lambda self, rest: self.builtins[rest] if rest in B.TYPES else self.class_by(rest),
    }

    # ---- what is told
    def repr200(self, value):
        return V.repr_(value, 200).text

    def raised(self, exc):
        args = exc.args
        if exc.cls.name == "KeyError" and args:
            return "KeyError: " + self.repr200(args[0])
        return exc.cls.name + ": " + V.message(exc).text

    def ended(self, run, budget=MUCH, of=0):
        """What is told of a run within a budget, of which `of` steps are not its own: its value, or the exception, and the cost."""
        self.steps, self.budget = 0, budget + of
        try:
            text = self.repr200(run())
        except LangRaise as wrong:
            text = self.raised(wrong.exc)
        except Exhaust:
            return "exhausted"
        return "%s %d" % (text, self.steps - of)

    def shown(self, value):
        return "%s|%s|%s|%s" % (V.kind(value), self.repr200(value), V.str_(value, 200).text, word(V.truth(value)))


def word(holds):
    return "true" if holds else "false"


def length_told(shown):
    return "%d %s %s" % (len(shown.text), word(shown.cut), word(shown.deep))


# ---- what has a cost
def operator(act, op, operands):
    on = Values(operands)
    left, right = on.at(0), on.at(1)
    if act == "unary":
        return on.ended(lambda: on.unary(op, left), of=1)
    if act == "compare":
        return on.ended(lambda: on.compare(op, left, right), of=1)
    if act == "binary":
        return on.ended(lambda: on.binary(op, left, right), of=1)

    def augmented():
        made = on.binary(op, left, right)
        if op in "+*" and isinstance(left, PList):
            left.items[:] = made.items
            return left
        return made

    told = on.ended(augmented, of=1)
    return on.repr200(left) + " " + told


def item(act, _rest, operands):
    on = Values(operands)
    of, at, value = on.at(0), on.at(1), on.at(2)
    if act == "item":
        return on.ended(lambda: on.subscript(of, at), of=1)
    if act == "slice":
        return on.ended(lambda: on.slice(of, [at, value, on.at(3)]), of=1)

    def changed():
        on.store_item(of, at, value) if act == "store" else on.delete_item(of, at)
        return of

    return on.ended(changed, of=1)


GROUPS = {"text": B.TEXT_METHODS, "list": B.LIST_METHODS, "tuple": B.TUPLE_METHODS, "dict": B.DICT_METHODS, "call": {**B.FUNCTIONS, **B.TYPES}}


def call(act, named, operands, budget=MUCH):
    group, _, name = act.partition(".")
    if name not in GROUPS.get(group, {}):
        return None
    on = Values(operands)
    args, given = list(on.values), {}
    for part in named.split("|"):
        key, equals, spelled = part.partition("=")
        if equals:
            given[key] = on.value(spelled)
    told = on.ended(lambda: GROUPS[group][name](on, args, given), budget)
    told = "".join(on.printed) + told
    return told + " " + on.repr200(args[0] if args else None) if group in ("list", "dict") else told


# ---- what has none
def tested(on, run):
    on.steps = 0
    try:
        told = "yes" if run() else "no"
    except NotOrdered:
        told = "not ordered"
    except LangRaise:
        told = "too deep"
    except Exhaust:
        return "exhausted"
    return "%s %d" % (told, on.steps)


def compared(on, rest):
    on.budget = int(rest)
    a, b = on.at(0), on.at(1)
    return tested(on, lambda: on.equal(a, b)) + ", " + tested(on, lambda: on.three(a, b) < 0)


def turn_told(on, place):
    """What a turn gives, and whether there may be another."""
    try:
        value = place.turn()
    except LangRaise as wrong:
        return on.raised(wrong.exc), False
    return ("-", False) if value is NODEF else (on.repr200(value), True)


def turns(on, by):
    try:
        place = Iter(on, on.at(0))
    except LangRaise as wrong:
        return on.raised(wrong.exc)
    if by:
        place.turn()
        try:
            on.store_item(on.at(0), on.at(1), None) if by == "store" else on.delete_item(on.at(0), on.at(1))
        except LangRaise:
            pass
        return turn_told(on, place)[0]
    told = ""
    for _ in range(9):
        text, goes_on = turn_told(on, place)
        told += text
        if not goes_on:
            break
        told += " "
    return told


def thrown(on, text):
    args = on.values[:1] or ([text] if text else [])
    return on.shown(on.make_exc(on.classes["NameError"], args))


def pushed(on, _rest):
    on.at(0).items.append(on.at(1))
    return on.repr200(on.at(0))


def order(on, _rest):
    d = on.at(0)
    on.delete_item(d, on.at(1))
    on.store_item(d, on.at(2), on.at(3))
    on.store_item(d, on.at(4), on.at(5))
    return on.repr200(d)


def own(on, _rest):
    """An exception of a class that stands on KeyError: of which classes it is an instance."""
    look, key = on.classes["LookupError"], on.classes["KeyError"]
    mine, other = Class("Missing", "test_a.py", 1, key), Class("Other", "test_a.py", 1)
    exc = on.make_exc(mine, on.values)
    return " ".join([on.shown(exc), *(word(V.is_a(exc, it)) for it in (look, mine, other, PTuple([other, key])))])


def chain(_on, rest):
    first = last = Class("C", "test_a.py", 1)
    for _ in range(int(rest)):
        last = Class("C", "test_a.py", 1, last)
    return "%s %s" % (word(V.is_a(Instance(last), first)), word(not last.is_exception))


def within(rest, operands):
    budget, _, spelled = rest.partition(" ")
    act, _, named = spelled.partition(" ")
    return call(act, named, operands, int(budget))


ON_OPERANDS = {
    "show": lambda on, _rest: on.shown(on.at(0)),
    "cut": lambda on, rest: length_told(V.repr_(on.at(0), int(rest))),
    "message": lambda on, rest: length_told(V.message(on.at(0), int(rest))),
    "budget": compared, "throw": thrown, "change": lambda on, rest: on.shown(rest), "push": pushed, "for": turns,
    "key": lambda on, rest: on.ended(lambda: on.store_item(on.at(0), on.at(1), on.at(2)), int(rest), of=1),
    "order": order, "own": own, "chain": chain,
}


# ---- names
def named(_rest, name):
    on = Values()
    return on.shown(on.builtins.get(name))


def bound(wanted, spelled):
    names = {}
    for n, name in enumerate(spelled.split("|"), 1):
        names[name] = n
    return "%s %s" % (names.get(wanted, "-"), next(iter(names.values()), "-"))


def classes_of(on, cls):
    exc = on.make_exc(cls, [])
    return " ".join(name for name in BOUND if V.is_a(exc, on.classes[name]))


def below(_rest, name):
    on = Values()
    return classes_of(on, on.classes[name]) if name in BOUND else "no class"


def under(_rest, name):
    on = Values()
    return classes_of(on, Class("Own", "test_a.py", 1, on.classes[name]))


# ---- arguments, imports, patterns
def arguments(params, spelled):
    on = Values()
    pairs = [(name, int(default) if equals else NODEF) for name, equals, default in (it.partition("=") for it in params.split())]
    args = [int(it) for it in spelled.split() if "=" not in it]
    given = {name: int(value) for name, value in (it.split("=") for it in spelled.split() if "=" in it)}
    got = on.bind(pairs, args, given) if len(given) == spelled.count("=") else None
    told = "wrong" if got is None else " ".join(map(str, got))
    by_cpython(params, spelled, told)
    return told


def by_cpython(params, spelled, told):
    """The same call in CPython, where it can be written there."""
    names = ", ".join(params.split())
    try:
        space = {}
        exec("def f(%s):\n    return [%s]" % (names, ", ".join(it.split("=")[0] for it in params.split())), space)
        made = compile("f(%s)" % ", ".join(spelled.split()), "row", "eval")
    except SyntaxError:
        return
    try:
        said = " ".join(map(str, eval(made, space)))
    except TypeError:
        said = "wrong"
    assert said == told, ("CPython gives otherwise", params, spelled, said, told)


def imported(rest, spelled):
    importer, _, dotted = rest.partition(" ")
    on = Values()
    on.sources = {it: None for it in spelled.split()}
    return on.find_module(importer, dotted.split(".")) or "-"


def read(pattern):
    try:
        return B.read_pattern(Values(), pattern)
    except LangRaise:
        return None


def pattern(_rest, spelled):
    return "unsupported pattern" if read(spelled) is None else "pattern"


def found(_rest, spelled):
    written, _, text = spelled.partition("|")
    units = read(written)
    if units is None:
        return "unsupported pattern"
    holds = B.pattern_found(units, text)
    for_python = written[:-1] + r"\Z" if written.endswith("$") and not written.endswith(r"\$") else written
    assert holds == bool(re.search(for_python, text)), ("CPython finds otherwise", spelled)
    return "yes" if holds else "no"


def search(rest, spelled):
    written, _, text = spelled.partition("|")
    cost = len(written) * len(text)
    if cost > int(rest):
        return "exhausted"
    return "%s %d" % ("found" if B.pattern_found(read(written), text) else "not found", cost)


ON_TEXTS = {"name": named, "bind": bound, "below": below, "under": under, "arguments": arguments, "import": imported, "pattern": pattern,
            "found": found, "search": search, "within": within}
OPERATORS = {
    "binary": "+ - * // % ** << >> & ^ |".split(), "augmented": "+ - * // % ** << >> & ^ |".split(), "unary": "- + ~".split(),
    "compare": ["==", "!=", "<", "<=", ">", ">=", "in", "not in", "is", "is not"],
}


def answer(act, operands):
    """What an act gives on its operands, or None where it is no act."""
    first, _, rest = act.partition(" ")
    if rest in OPERATORS.get(first, ()):
        return operator(first, rest, operands)
    if first in ("item", "slice", "store", "delete"):
        return item(first, rest, operands)
    if "." in first:
        return call(first, rest, operands)
    if first == "collect":
        return rows_modules.items_told(operands)
    if first == "phase":
        return rows_modules.verdict_told(rest, *operands.partition(" ")[::2])
    if first in ON_TEXTS:
        return ON_TEXTS[first](rest, operands)
    if first in ON_OPERANDS:
        return ON_OPERANDS[first](Values(operands), rest)
    return None


def made(line):
    """A row's line with what is wanted made anew, what is told of it if it wants what isn't given, and whether it wants that if it is to."""
    asked, _, want = line.rpartition("\t")
    act, _, operands = asked.partition("\t")
    if "\t" not in asked:
        return line, line + ": no row", True
    given = answer(act.removeprefix("wrong "), operands.translate(PICTURES))
    given = "no row" if given is None else given
    if act.startswith("wrong "):
        return line, "%s, %s: %s" % (act, operands, given), given != want.translate(PICTURES)
    return "%s\t%s" % (asked, given.translate(PICTURED)), None, True
