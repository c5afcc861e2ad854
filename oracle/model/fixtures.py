"""Nodes, fixture definitions, visibility, closure."""
from dataclasses import dataclass, field

SCOPES = ["session", "package", "module", "class", "function"]
LETTERS = {"session": "S", "package": "P", "module": "M", "class": "C", "function": "F"}
INDENT = {"session": 0, "package": 2, "module": 4, "class": 6, "function": 8}


def rank(scope):
    return SCOPES.index(scope)


@dataclass
class Node:
    kind: str      # Session, Directory, File, Class, Item
    parent: int    # the root is its own parent
    path: str      # directory or file path, where it has one
    name: str = ""


@dataclass
class FixtureDef:
    number: int
    name: str
    scope: str
    autouse: bool
    args: list          # names, without `request` and a method's first
    node: int
    function: object
    method: bool        # stands at a class
    takes_request: bool
    params: object      # None, or a list of raw parameter sets
    raw: object = None  # the fixture definition of the language
    builtin: str = None


class Fault(Exception):
    """A fixture fault: its text behind `E   `."""

    def __init__(self, kind, text):
        Exception.__init__(self, text)
        self.kind = kind
        self.text = text


@dataclass
class Closed:
    start: list     # the names with which the closure starts, bound ones too
    defs: list      # numbers of definitions, or None with a fault
    fault: object   # Fault or None


class Table:
    def __init__(self):
        self.nodes = [Node("Session", 0, "")]
        self.defs = []
        self.by_name = {}      # name -> numbers of definitions
        self.autouse = []
        self.chains = {}       # node -> its chain; a node's parent never changes
        self.by_key = {("Session", ""): 0}

    def node(self, kind, parent, path, name=""):
        """A new node, or the one that is there (Items are always new)."""
        key = (kind, path, name)
        if kind == "Directory" and path == "":
            return 0
        if kind != "Item" and key in self.by_key:
            return self.by_key[key]
        self.nodes.append(Node(kind, parent, path, name))
        if kind != "Item":
            self.by_key[key] = len(self.nodes) - 1
        return len(self.nodes) - 1

    def add(self, **fields):
        d = FixtureDef(number=len(self.defs), **fields)
        self.defs.append(d)
        self.by_name.setdefault(d.name, []).append(d)
        if d.autouse:
            self.autouse.append(d)
        return d

    def chain(self, at):
        """The node and those above it, inmost first, the root last."""
        if at not in self.chains:
            out = [at]
            while out[-1] != 0:
                out.append(self.nodes[out[-1]].parent)
            self.chains[at] = out
        return self.chains[at]

    def depth(self, at):
        return len(self.chain(at))

    def visible(self, d, at):
        return self.defs[d].node in self.chain(at)

    def nearest(self, name, at, beyond=None):
        best = None
        chain = self.chain(at)
        for d in self.by_name.get(name, []):
            if d.node not in chain:
                continue
            place = (self.depth(d.node), d.number)
            if beyond is not None:
                b = self.defs[beyond]
                if not place < (self.depth(b.node), b.number):
                    continue
            if best is None or place > best[0]:
                best = (place, d.number)
        return None if best is None else best[1]

    def request(self, d, name, at):
        """The definition that a name means for a definition, without regard to bound names."""
        if name == self.defs[d].name:
            return self.nearest(name, at, d)
        return self.nearest(name, at)

    def reached(self, d, at, bound):
        """The definitions that d reaches by one request or more."""
        seen = []
        todo = [d]
        while todo:
            one = todo.pop()
            for name in self.defs[one].args:
                if name in bound:
                    continue
                to = self.request(one, name, at)
                if to is not None and to not in seen:
                    seen.append(to)
                    todo.append(to)
        return seen

    def closure(self, at, bound, uses, args):
        auto = [d for d in self.autouse if self.visible(d.number, at)]
        auto.sort(key=lambda d: (self.depth(d.node), d.number))
        start = []
        for name in [d.name for d in auto] + list(uses) + list(args):
            if name not in start:
                start.append(name)
        entries = []  # ("def", number) or ("name", text)

        def enter_name(name):
            if name in bound or name == "request":
                return
            d = self.nearest(name, at)
            entry = ("name", name) if d is None else ("def", d)
            if entry not in entries:
                entries.append(entry)

        for name in start:
            enter_name(name)
        place = 0
        while place < len(entries):
            kind, d = entries[place]
            place += 1
            if kind == "name":
                continue
            for name in self.defs[d].args:
                if name == self.defs[d].name and name not in bound:
                    outer = self.nearest(name, at, d)
                    if outer is not None and ("def", outer) not in entries:
                        entries.append(("def", outer))
                else:
                    enter_name(name)
        for kind, d in entries:
            fault = self.fault_of(kind, d, at, bound)
            if fault is not None:
                return Closed(start, None, fault)
        numbers = [d for _, d in entries]
        numbers.sort(key=lambda d: rank(self.defs[d].scope))
        return Closed(start, numbers, None)

    def fault_of(self, kind, d, at, bound):
        if kind == "name":
            return Fault("Unknown", "fixture '%s' not found" % d)
        one = self.defs[d]
        alone = one.name in one.args and one.name not in bound and self.nearest(one.name, at, d) is None
        if alone or d in self.reached(d, at, bound):
            return Fault("Recursive", "recursive dependency involving fixture '%s' detected" % one.name)
        for name in one.args:
            if name in bound:
                scope = "function"
            else:
                to = self.request(d, name, at)
                if to is None:
                    continue
                scope = self.defs[to].scope
            if rank(scope) > rank(one.scope):
                return Fault(
                    "ScopeMismatch",
                    "ScopeMismatch: scope '%s' fixture '%s' requests scope '%s' fixture '%s'"
                    % (one.scope, one.name, scope, name),
                )
        return None

    def scope_node(self, d, item):
        """The node on which an instance of d stands for an item's node."""
        scope = self.defs[d].scope
        if scope == "session":
            return 0
        if scope == "package":
            at = self.defs[d].node
            while self.nodes[at].kind not in ("Directory", "Session"):
                at = self.nodes[at].parent
            return at
        if scope == "function":
            return item
        chain = self.chain(item)
        if scope == "class":
            for at in chain:
                if self.nodes[at].kind == "Class":
                    return at
            return item
        for at in chain:
            if self.nodes[at].kind == "File":
                return at
        raise AssertionError("an item without a file")
