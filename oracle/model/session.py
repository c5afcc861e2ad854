"""Demand, down, the three phases, one session."""
from dataclasses import dataclass, field

from . import values
from .api import Val, Raised, Exhausted, Yielded
from .collect import (Fail, HookRunner, def_frame, exception_text, frames_of, positional, step_limit, tell)
from .fixtures import INDENT, LETTERS, rank
from .hooks import Impl, order, hook_call
from .report import (ItemReport, PhaseEnd, Told, letter, NOT_RUN, PASSED, SKIPPED, XFAILED, XPASSED, STRICT, RAISED)


@dataclass
class Live:
    n: int
    d: int
    param: object
    node: int
    bases: list
    keeps: set
    value: object = None
    failed: object = None      # (exception, trace) of a failed set-up
    frozen: object = None
    request: object = None
    text_id: object = None
    patch: object = None       # a monkeypatch object


class Session:
    def __init__(self, collected, options):
        self.collected = collected
        self.world = collected.world
        self.table = collected.table
        self.options = options
        self.limit = options.step_limit
        self.live = []
        self.count = 0
        self.events = []
        self.bad = 0
        self.stopped = False
        self.answered = []
        self.lines = []
        self.met = {}

    # -------------------------------------------------------------- activities

    def thrown(self, out):
        if isinstance(out, Exhausted):
            return (step_limit(self.world, self.limit), out.trace)
        return (out.exc, out.trace)

    def own(self, function, kind, text):
        return (self.world.make_exception(kind, text), def_frame(function))

    # -------------------------------------------------------------- demand

    def find(self, d, node):
        for one in self.live:
            if one.d == d and one.node == node:
                return one
        return None

    def demand(self, d, item, own):
        """("value", Live) or ("fail", list of (exception, trace))."""
        # What was answered for this item and still stands is answered again: its bases stand as well, or it would have gone down.
        before = self.met.get((id(item), d))
        if before is not None and any(it is before for it in self.live):
            return ("value", before)
        kind, answer = self.demand_anew(d, item, own)
        if kind == "value":
            self.met[id(item), d] = answer
        return (kind, answer)

    def demand_anew(self, d, item, own):
        definition = self.table.defs[d]
        got = {}
        bases = []
        for name in definition.args:
            if name in item.bound_names:
                got[name] = item.bound[name]
                continue
            to = self.table.request(d, name, item.node)
            kind, answer = self.demand(to, item, own)
            if kind == "fail":
                return (kind, answer)
            got[name] = answer.value
            if answer.n not in bases:
                bases.append(answer.n)
            # What the base kept when it answered.
            got.setdefault(("keeps",), set()).update({answer.n} | answer.keeps)
        keeps = got.get(("keeps",), set())
        node = self.table.scope_node(d, item.node)
        param, value, text_id = item.params.get(d, (None, None, None))
        there = self.find(d, node)
        if there is not None and there.param == param:
            if there.failed is not None:
                return ("fail", [there.failed])
            return ("value", there)
        if there is not None:
            wrong = self.down_all(self.dependents(there.n))
            if wrong:
                return ("fail", wrong)
        return self.set_up(definition, item, own, node, param, value, text_id, got, bases, keeps)

    def set_up(self, definition, item, own, node, param, value, text_id, got, bases, keeps):
        n = self.count
        self.count += 1
        one = Live(n, definition.number, param, node, bases, set(keeps), text_id=text_id)
        made = (n, definition.number, param, node, list(bases))
        if definition.builtin is not None:
            if definition.builtin == "monkeypatch":
                one.value = self.world.make_monkeypatch()
                one.patch = one.value
            else:
                one.value = self.world.make_capsys()
            return self.up(one, made, definition)
        function = definition.function
        if definition.takes_request:
            one.request = self.world.make_request(definition.name, definition.scope, value, param is not None)
        args = positional(function, definition.method, own, one.request, lambda name: got[name])
        if function.yields:
            out = self.world.begin(function, args, self.limit).out
        else:
            out = self.world.call(function, args, self.limit).out
        if isinstance(out, Yielded):
            one.value = out.value
            one.frozen = out.frozen
            return self.up(one, made, definition)
        if isinstance(out, Val) and not function.yields:
            one.value = out.value
            return self.up(one, made, definition)
        if isinstance(out, Val):
            one.failed = self.own(function, "ValueError", "fixture '%s' did not yield" % definition.name)
        else:
            one.failed = self.thrown(out)
        self.live.append(one)
        self.events.append(("UpFailed",) + made)
        return ("fail", [one.failed])

    def up(self, one, made, definition):
        self.live.append(one)
        self.events.append(("Up",) + made)
        line = " " * INDENT[definition.scope] + "SETUP    " + LETTERS[definition.scope] + " " + definition.name
        if one.text_id is not None:
            line += "[" + one.text_id + "]"
        if definition.args:
            line += " (fixtures used: " + ", ".join(sorted(set(definition.args))) + ")"
        self.show(line)
        return ("value", one)

    def show(self, line):
        if self.options.setup_show:
            self.lines.append(line)

    # -------------------------------------------------------------- down

    def dependents(self, n):
        return [m for m in self.live if m.n == n or n in m.keeps]

    def not_on(self, chain):
        first = [m for m in self.live if m.node not in chain]
        numbers = {m.n for m in first}
        return [m for m in self.live if m.n in numbers or (m.keeps & numbers)]

    def down_all(self, dying):
        """All are done; the list of what was raised."""
        ordered = sorted(dying, key=lambda m: (-rank(self.table.defs[m.d].scope), -m.n))
        wrong = []
        for one in ordered:
            wrong.extend(self.down(one))
        return wrong

    def down(self, one):
        definition = self.table.defs[one.d]
        wrong = []
        self.events.append(("DownBegins", one.n))
        if one.request is not None:
            self.world.close_request(one.request)
        if one.patch is not None:
            self.world.undo_patch(one.patch)
        if one.frozen is not None:
            out = self.world.resume(one.frozen, Val(None), self.limit).out
            one.frozen = None
            if isinstance(out, Yielded):
                self.world.abandon(out.frozen)
                wrong.append(self.own(definition.function, "Failed", "fixture function has more than one 'yield'"))
            elif not isinstance(out, Val):
                wrong.append(self.thrown(out))
        if one.request is not None:
            wrong.extend(self.finalize(one.request))
        self.events.append(("Down", one.n, bool(wrong)))
        self.live.remove(one)
        if one.failed is None:
            line = " " * INDENT[definition.scope] + "TEARDOWN " + LETTERS[definition.scope] + " " + definition.name
            if one.text_id is not None:
                line += "[" + one.text_id + "]"
            self.show(line)
        return wrong

    def finalize(self, request):
        wrong = []
        while True:
            taken = self.world.take_finalizer(request)
            if taken is None:
                return wrong
            out = self.world.call(taken[1], [], self.limit).out
            if not isinstance(out, Val):
                wrong.append(self.thrown(out))

    # -------------------------------------------------------------- marks

    def reason_of(self, mark):
        reason = mark.kwargs.get("reason")
        if reason is None and mark.name == "skip" and mark.args:
            reason = mark.args[0]
        return reason if isinstance(reason, str) else ""

    def condition_of(self, mark):
        """(given, value)"""
        if mark.args:
            return (True, mark.args[0])
        if "condition" in mark.kwargs:
            return (True, mark.kwargs["condition"])
        return (False, None)

    def skip_reason(self, item):
        """The reason where the item is skipped by a mark or has no rows, else None."""
        if item.empty:
            return ""
        for mark in item.marks:
            if mark.name == "skipif":
                given, value = self.condition_of(mark)
                if given and self.world.truth(value):
                    return self.reason_of(mark)
        for mark in item.marks:
            if mark.name == "skip":
                return self.reason_of(mark)
        return None

    def xfail_mark(self, item):
        for mark in item.marks:
            if mark.name == "xfail":
                given, value = self.condition_of(mark)
                if not given or self.world.truth(value):
                    return mark
        return None

    # -------------------------------------------------------------- phases

    def hooks_for(self, item, name, builtins, named):
        chain = self.table.chain(item.node)
        impls = [i for i in self.collected.impls if i.hook == name and i.node in chain]
        runner = HookRunner(self.world, self.limit, named)
        end = hook_call(order(builtins + impls), runner, False)
        return end.value if end.kind == "raised" else None

    def token(self, item):
        if item is None:
            return None
        if item.token is None:
            item.token = self.world.make_item(item.name, item.node_id)
        return item.token

    def phase_end(self, phase, item, fail):
        """What a phase has come to, by what was raised in it."""
        mark = self.xfail_mark(item)
        if fail is None:
            if phase == "call" and mark is not None:
                if self.strict(mark):
                    frame = frames_of(self.world, def_frame(item.function))[0]
                    return PhaseEnd(STRICT, frame=frame, reason=self.reason_of(mark))
                return PhaseEnd(XPASSED)
            return PhaseEnd(PASSED)
        if len(fail.thrown) == 1:
            exc, trace = fail.thrown[0]
            if self.world.is_a(exc, self.world.exc_class("Skipped")):
                return PhaseEnd(SKIPPED)
            if phase != "teardown" and mark is not None and self.covers(mark, exc):
                return PhaseEnd(XFAILED)
        return PhaseEnd(RAISED, self.told(item, fail))

    def strict(self, mark):
        return self.world.truth(mark.kwargs.get("strict", False))

    def covers(self, mark, exc):
        raises = mark.kwargs.get("raises")
        if raises is None:
            return True
        return self.world.is_a(exc, raises)

    def told(self, item, fail):
        if fail.fault is not None:
            exc, trace = fail.thrown[0]
            return [Told(frames_of(self.world, trace), fail.fault)]
        return [tell(self.world, exc, trace) for exc, trace in fail.thrown]

    def outcome_line(self, item, phase, kind):
        c = letter(phase, kind)
        if c == "":
            return
        line = " " * 8 + item.node_id
        if phase != "teardown" and item.closed.fault is None:
            names = sorted({self.table.defs[d].name for d in item.closed.defs})
            if names:
                line += " (fixtures used: " + ", ".join(names) + ")"
        self.show(line + " " + c)

    def count_bad(self, end):
        if end.kind in (RAISED, STRICT):
            self.bad += 1

    def reached(self):
        return self.options.maxfail > 0 and self.bad >= self.options.maxfail

    def run_item(self, item, following):
        world = self.world
        self.lines = []
        self.met = {}
        captured = ["", "", ""]
        own = world.make_instance(item.class_value) if item.class_value is not None else None
        given = {}
        requests = []

        # set-up
        def skip():
            reason = self.skip_reason(item)
            if reason is None:
                return None
            return Fail([self.own(item.function, "Skipped", reason)])

        def demand_closure():
            fault = item.closed.fault
            if fault is not None:
                return Fail([self.own(item.function, "Failed", fault.text)], fault.text)
            for d in item.closed.defs:
                kind, answer = self.demand(d, item, own)
                if kind == "fail":
                    return Fail(answer)
                given[d] = answer.value
                if answer.n not in self.answered:
                    self.answered.append(answer.n)
            return None

        builtins = [Impl(0, False, True, False, 0, skip), Impl(1, False, False, False, 0, demand_closure)]
        world.take_printed()
        fail = self.hooks_for(item, "pytest_runtest_setup", builtins, {"item": self.token(item)})
        set_up = self.phase_end("setup", item, fail)
        captured[0] = world.take_printed()
        self.count_bad(set_up)
        self.outcome_line(item, "setup", set_up.kind)

        # call
        def call_test():
            values_of = {}
            for name in item.args:
                if name in item.bound_names:
                    if name not in item.bound:
                        return self.wrong_arguments(item)
                    values_of[name] = item.bound[name]
                    continue
                d = self.table.nearest(name, item.node)
                if d is None or d not in given:
                    return self.wrong_arguments(item)
                values_of[name] = given[d]
            request = None
            if item.takes_request:
                request = world.make_request(None, "function", None, False)
                requests.append(request)
            args = positional(item.function, item.class_name is not None, own, request, lambda n: values_of[n])
            out = world.call(item.function, args, self.limit).out
            return None if isinstance(out, Val) else Fail([self.thrown(out)])

        called = PhaseEnd(NOT_RUN)
        if set_up.kind == PASSED:
            self.events.append(("CallBegins", item.node, list(self.answered)))
            builtins = [Impl(2, False, False, False, 0, call_test)]
            fail = self.hooks_for(item, "pytest_runtest_call", builtins, {"item": self.token(item)})
            self.events.append(("CallEnds", item.node))
            called = self.phase_end("call", item, fail)
            captured[1] = world.take_printed()
            self.count_bad(called)
            self.outcome_line(item, "call", called.kind)

        # teardown
        if self.reached():
            following = None
        was_reached = []

        def leave():
            was_reached.append(True)
            wrong = []
            for request in requests:
                world.close_request(request)
                wrong.extend(self.finalize(request))
            chain = [] if following is None else self.table.chain(following.node)
            wrong.extend(self.down_all(self.not_on(chain)))
            self.answered = []
            return Fail(wrong) if wrong else None

        builtins = [Impl(3, False, False, False, 0, leave)]
        named = {"item": self.token(item), "nextitem": self.token(following)}
        fail = self.hooks_for(item, "pytest_runtest_teardown", builtins, named)
        if not was_reached:
            fail = joined(fail, leave())
        down = self.phase_end("teardown", item, fail)
        if down.kind == RAISED and self.options.maxfail > 0 and not self.reached() \
                and self.bad + 1 >= self.options.maxfail:
            more = self.down_all(list(self.live))
            if more:
                fail = joined(fail, Fail(more))
                down = self.phase_end("teardown", item, fail)
        captured[2] = world.take_printed()
        self.count_bad(down)
        self.outcome_line(item, "teardown", down.kind)
        return ItemReport(item.node_id, item.title, item.file, set_up, called, down, self.lines, tuple(captured))

    def wrong_arguments(self, item):
        return Fail([self.own(item.function, "TypeError", "wrong arguments for " + item.function.name)])

    def run(self, items):
        """The reports; a prefix of the items where maxfail was reached."""
        reports = []
        for place, item in enumerate(items):
            following = items[place + 1] if place + 1 < len(items) else None
            reports.append(self.run_item(item, following))
            if self.reached():
                self.stopped = True
                break
        lawful(self.events)
        assert not self.live, "instances are left"
        return reports


def joined(fail, more):
    if more is None:
        return fail
    if fail is None:
        return more
    if fail.fault is not None:
        return Fail(fail.thrown + more.thrown)
    return Fail(fail.thrown + more.thrown)


# ------------------------------------------------------------------ what holds of a journal


def lawful(events):
    """Asserts that a journal is lawful, on the list of events alone."""
    ups = {}
    for place, e in enumerate(events):
        if e[0] in ("Up", "UpFailed"):
            assert e[1] not in ups, ("(a) twice up", e)
            ups[e[1]] = place
    depends = {}

    def all_bases(n):
        if n not in depends:
            depends[n] = set()
            for b in events[ups[n]][5]:
                depends[n] |= {b} | all_bases(b)
        return depends[n]

    begins, downs = {}, {}
    for place, e in enumerate(events):
        if e[0] == "DownBegins":
            assert e[1] in ups and ups[e[1]] < place and e[1] not in begins, ("(a) DownBegins", e)
            begins[e[1]] = place
            after = events[place + 1] if place + 1 < len(events) else None
            assert after is not None and after[0] == "Down" and after[1] == e[1], ("(a) not followed by Down", e)
        elif e[0] == "Down":
            before = events[place - 1] if place else None
            assert before is not None and before[0] == "DownBegins" and before[1] == e[1], ("(a) Down alone", e)
            assert e[1] not in downs
            downs[e[1]] = place
    for n in ups:
        assert n in downs, ("(e) left up", n)
        for b in events[ups[n]][5]:
            assert b in ups and events[ups[b]][0] == "Up" and ups[b] < ups[n], ("(b)", n, b)
    for m in ups:
        for n in all_bases(m):
            if ups[m] < begins[n]:
                assert downs[m] < begins[n], ("(c)", n, m)
    called = set()
    for place, e in enumerate(events):
        if e[0] == "CallBegins":
            assert e[1] not in called, ("(d) twice", e)
            called.add(e[1])
            after = events[place + 1] if place + 1 < len(events) else None
            assert after is not None and after[0] == "CallEnds" and after[1] == e[1], ("(d) CallEnds", e)
            for n in e[2]:
                assert n in ups and ups[n] < place
                if downs[n] > place:
                    continue
                assert any(downs[n] < downs[b] < place for b in all_bases(n)), ("(d) gone", e, n)
        elif e[0] == "CallEnds":
            before = events[place - 1] if place else None
            assert before is not None and before[0] == "CallBegins" and before[1] == e[1]
