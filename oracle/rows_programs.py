"""Rows on programs, which machine_tests reads: sources, acts and budgets stand in the table, what comes of them is the model's.

How a row is spelled the page of machine_tests says.
"""
from model import api
from model.interp import World

FILE = "stdin"


def calls_told(trace):
    """The open calls, outermost first; those that are alike, one behind the other, as one."""
    told = []
    for path, line, name in (tuple(it)[:3] for it in trace):
        call = "%s:%s:%s" % (path, line, name)
        if told and told[-1][1] == call:
            told[-1][0] += 1
        else:
            told.append([1, call])
    return "".join(" %s" % call if times == 1 else " %d*%s" % (times, call) for times, call in told)


class Play:
    """A world of a row's sources, and the body that is out in it."""

    def __init__(self, sources):
        self.world, self.out = World(), None
        for path, text, explains in sources:
            if not self.world.has_source(path):
                self.world.add_source(path, text.replace("␍", "\r").replace("␂", "\ufeff").encode(), explains)

    def module(self, path):
        module = self.world.modules.get(path)
        return module if module is not None and module.state in ("loaded", "running") else None

    def values(self, spelled):
        """The values that are spelled behind the path of a module; none where it isn't loaded."""
        path, _, rest = spelled.partition(" ")
        module, found = self.module(path), []
        for word in rest.split() if module is not None else []:
            try:
                found.append(int(word))
            except ValueError:
                found.append(module.names.get(word))
        return found

    def repr(self, value):
        return self.world.repr(value, 200).text

    def ended(self, out, steps):
        if isinstance(out, api.Val):
            return "gives %s, %d steps" % (self.repr(out.value), steps)
        if isinstance(out, api.Raised):
            text = self.world.message(out.exc, 4000).text
            return "raises %s, %d steps,%s" % (self.world.kind(out.exc) + (": " + text if text else ""), steps, calls_told(out.trace))
        return "exhausted, %d steps,%s" % (steps, calls_told(out.trace))

    def begun(self, begun):
        if isinstance(begun.out, api.Yielded):
            self.out = begun.out.frozen
            return "yields %s, %d steps" % (self.repr(begun.out.value), begun.steps)
        return self.ended(begun.out, begun.steps)

    def sent(self, sent, budget):
        out, self.out = self.out, None
        return self.begun(self.world.resume(out, sent, budget))

    def load(self, path, budget):
        if not self.world.has_source(path) or self.world.fault(path) is not None:
            return "no code"
        ended = self.world.run_module(path, budget)
        return self.ended(ended.out, ended.steps)

    def call(self, spelled, budget):
        values = self.values(spelled)
        if not values:
            return "no name"
        ended = self.world.call(values[0], values[1:], budget)
        return self.ended(ended.out, ended.steps)

    def begin(self, spelled, budget):
        self.out = None
        values = self.values(spelled)
        if not values:
            return "no name"
        if not getattr(getattr(values[0], "func", values[0]), "yields", False):
            return self.call(spelled, budget)
        return self.begun(self.world.begin(values[0], values[1:], budget))

    def send(self, spelled, budget):
        if self.out is None:
            return "no frame"
        return self.sent(api.Val((self.values(spelled) or [None])[0]), budget)

    def throw(self, spelled, budget):
        if self.out is None:
            return "no frame"
        values = self.values(spelled)
        return self.sent(self.world.call(values[0], values[1:], 1000).out, budget)

    def abandon(self, _spelled, _budget):
        told, self.out = "no frame" if self.out is None else "given up", None
        return told

    def names(self, path, _budget):
        if self.module(path) is None:
            return "no module"
        return ", ".join("%s = %s" % (name, self.repr(value)) for name, value in self.world.names(path))

    def fault(self, path, _budget):
        fault = self.world.fault(path) if self.world.has_source(path) else None
        if fault is None:
            return "no fault"
        return "not UTF-8 at %d" % fault.line if fault.kind == "NotUtf8" else "%s at %d:%d" % (fault.text, fault.line, fault.column)

    def line(self, spelled, _budget):
        path, _, number = spelled.partition(" ")
        text = self.world.line(path, int(number))
        return "no line" if text is None else "|%s|" % text

    ACTS = {it.__name__: it for it in (load, call, begin, send, throw, abandon, names, fault, line)}

    def done(self, what, budget):
        """What is told of an act, and what it printed, in lines."""
        word, _, rest = what.partition(" ")
        told = self.ACTS[word](self, rest, budget) if word in self.ACTS else "no act"
        lines = (told + "\n" + self.world.take_printed()).split("\n")
        return [it.replace("\r", "␍").replace("\ufeff", "␂") for it in (lines if lines[-1] else lines[:-1])]


class Row:
    def __init__(self, name):
        self.name, self.head, self.sources, self.acts = name, [], [], []

    def take(self, line):
        """Takes a line behind the row's own: what stands before the acts, and of these the budgets with what is wanted."""
        word, _, rest = line.removeprefix(">>> ").partition(" ")
        if not line.startswith(">>> "):
            if self.acts:
                budgets = self.acts[-1][1]
                if not budgets:
                    budgets.append([None, []])
                budgets[-1][1].append(line)
            else:
                self.head.append(line)
                if self.sources:
                    self.sources[-1][1] += line + "\n"
        elif word in ("file", "explained"):
            self.head.append(line)
            self.sources.append([rest, "", word == "explained"])
        elif word == "within":
            self.acts[-1][1].append([int(rest), []])
        else:
            self.acts.append([line.removeprefix(">>> "), []])

    def came(self, at, budget):
        """What comes of an act within a budget, behind those before it."""
        play = Play(self.sources)
        for what, budgets in self.acts[:at]:
            play.done(what, (budgets[0][0] or 0) if budgets else 0)
        return play.done(self.acts[at][0], budget or 0)

    def made(self):
        """The row's lines made anew, and what is told of it: where it first wants something else, and only if it is to."""
        lines, fault = [">>> row " + self.name, *self.head], None
        for at, (what, budgets) in enumerate(self.acts):
            lines.append(">>> " + what)
            for budget, want in budgets:
                came = self.came(at, budget)
                if fault is None and came != want and self.name.startswith("wrong"):
                    fault = "%s: %s within %d wants\n%s\nbut gives\n%s\n" % (self.name, what, budget or 0, "\n".join(want), "\n".join(came))
                lines += [] if budget is None else [">>> within %d" % budget]
                lines += want if self.name.startswith("wrong") else came
        return lines, fault if self.acts else self.name + ": no acts"


def make(text):
    rows, before = [], []
    for line in text.split("\n")[:-1]:
        if line.startswith(">>> row "):
            rows.append(Row(line.removeprefix(">>> row ")))
        elif rows:
            rows[-1].take(line)
        else:
            before.append(line)
    lines, told, faults = before, [], []
    for row in rows:
        new, fault = row.made()
        lines += new
        if fault is not None:
            told.append(fault)
        elif row.name.startswith("wrong"):
            faults.append("this row wants what is given: " + row.name)
    told.append("%d rows, %d of them not as wanted" % (len(rows), len(told)))
    return "\n".join(lines) + "\n", told, faults
