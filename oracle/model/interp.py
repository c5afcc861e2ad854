"""Meaning and steps.  class World is the interface for the runner (documented in api.py)."""
from __future__ import annotations
from .api import (Features, SourceFault, Val, Raised, Exhausted, Yielded, Ended, Begun, Shown)
from . import values as V
from .values import (PList, PTuple, PDict, PRange, Function, Method, Builtin, Class, Module, Instance, FixtureDef, Mark,
                     HookImpl, MarkMaker, Param, Request, RaisesObj, Info, Item, Monkeypatch, Capsys, NODEF, kind,
                     is_number, truth)
from . import builtins_ as B
from .ops import Ops
from . import ops as OPS
from .lex import decode, tokens, source_lines
from .parse import parse, walk_stmts, global_names
from .explain import explain

MAX_CALLS = 200

# ---- choices (docs/DECISIONS.md)
SAME_SYNTAX_ERROR = True      # a further import of a file with a source fault raises the same exception
EMPTY_PREFIX_OK = True        # `from m import x` works where m is no module but m.x is
RUNNER_CALL_COUNTS = True     # the runner's own call is one of the 200

EXCEPTIONS = [('BaseException', None), ('Exception', 'BaseException'), ('Skipped', 'BaseException'),
              ('Failed', 'BaseException'), ('StepLimit', 'BaseException'),
              ('ArithmeticError', 'Exception'), ('OverflowError', 'ArithmeticError'),
              ('ZeroDivisionError', 'ArithmeticError'), ('AssertionError', 'Exception'),
              ('AttributeError', 'Exception'), ('ImportError', 'Exception'), ('ModuleNotFoundError', 'ImportError'),
              ('LookupError', 'Exception'), ('IndexError', 'LookupError'), ('KeyError', 'LookupError'),
              ('MemoryError', 'Exception'), ('NameError', 'Exception'), ('UnboundLocalError', 'NameError'),
              ('RuntimeError', 'Exception'), ('NotImplementedError', 'RuntimeError'),
              ('RecursionError', 'RuntimeError'), ('SyntaxError', 'Exception'), ('TypeError', 'Exception'),
              ('ValueError', 'Exception')]
UNBOUND_NAMES = ('Skipped', 'Failed', 'StepLimit')


class LangRaise(Exception):
    """An exception of the language on its way."""
    def __init__(self, exc):
        self.exc = exc


class Exhaust(Exception):
    def __init__(self, trace):
        self.trace = trace


class Frame:
    def __init__(self, path, name, line, module, locals_, code_locals, kind_):
        self.path = path
        self.name = name
        self.line = line
        self.module = module
        self.locals = locals_            # dict of names (for module and class frames: the names themselves)
        self.code_locals = code_locals   # set of local names (functions)
        self.kind = kind_                # 'module' | 'class' | 'function'
        self.cls = None
        self.comps = []                  # scopes of running comprehensions


class Frozen:
    def __init__(self, gen, frame):
        self.gen = gen
        self.frame = frame
        self.spent = False


class Source:
    def __init__(self, path, rewritten):
        self.path = path
        self.rewritten = rewritten
        self.fault = None
        self.lines = None
        self.tree = None


class World(Ops):
    def __init__(self, features: Features = None):
        self.features = features or Features()
        self.sources = {}
        self.modules = {}          # path -> Module
        self.printed = []
        self.frames = []
        self.handled = []
        self.steps = 0
        self.budget = 0
        self.calls = 0
        self.classes = {}
        self.builtins = {}
        for name, base in EXCEPTIONS:
            c = Class(name, base=self.classes.get(base))
            c.root = True
            self.classes[name] = c
            if name not in UNBOUND_NAMES:
                self.builtins[name] = c
        for name, fn in B.FUNCTIONS.items():
            self.builtins[name] = Builtin(name, fn)
        for name, fn in B.TYPES.items():
            self.builtins[name] = Class(name, ctor=fn)
        self.pytest = B.pytest_module()
        self._pytest_fixture = self.pytest.names['fixture']
        self.capture_result = Class('CaptureResult')

    # =================================================================== sources
    def add_source(self, path, data, rewritten):
        assert path not in self.sources
        s = Source(path, rewritten)
        self.sources[path] = s
        try:
            text = decode(data)
            s.lines = source_lines(text)
            s.tree = parse(tokens(text, self.features), self.features)
        except SourceFault as f:
            s.fault = f

    def has_source(self, path):
        return path in self.sources

    def paths(self):
        return list(self.sources)

    def fault(self, path):
        return self.sources[path].fault

    def line(self, path, n):
        s = self.sources.get(path)
        if s is None or s.lines is None or not 1 <= n <= len(s.lines):
            return None
        return s.lines[n - 1]

    # =================================================================== steps, traces, errors
    def charge(self, n):
        if self.steps + n > self.budget:
            self.steps = self.budget
            raise Exhaust(self.trace())
        self.steps += n

    def trace(self):
        return [(f.path, f.line, f.name) for f in self.frames]

    def make_exc(self, cls, args):
        e = Instance(cls)
        e.names['args'] = PTuple(args)
        return e

    def throw(self, exc):
        """The raise of `exc` here: an exception keeps the trace with which it was first raised."""
        if exc.trace is None:
            exc.trace = self.trace()
        return LangRaise(exc)

    def err(self, cls, text):
        return self.throw(self.make_exc(self.classes[cls], [text]))

    def key_error(self, key):
        return self.throw(self.make_exc(self.classes['KeyError'], [key]))

    # =================================================================== activities
    def activity(self, budget, frames, run):
        """Runs run(); gives (outcome, steps), an outcome being Val, Raised, Exhausted or what run() gives."""
        saved = (self.frames, self.handled, self.steps, self.budget, self.calls)
        self.frames, self.handled, self.steps, self.budget, self.calls = frames, [], 0, budget, 0
        try:
            try:
                out = run()
            except LangRaise as e:
                out = Raised(e.exc, list(e.exc.trace))
            except Exhaust as e:
                out = Exhausted(e.trace)
                self.fail_exhausted(e.trace, budget)
            return out, self.steps
        finally:
            self.frames, self.handled, self.steps, self.budget, self.calls = saved

    def at_def(self, func, cls, text):
        """An error that the runner makes: the one frame of the function concerned, at its `def`."""
        exc = self.make_exc(self.classes[cls], [text])
        exc.trace = [(func.path, func.line, func.name)]
        return Raised(exc, list(exc.trace))

    def fits(self, f, args):
        """The runner's own check of a call of a Function or Method: an outcome or None."""
        func = f.func if isinstance(f, Method) else f
        args = [f.self] + list(args) if isinstance(f, Method) else args
        if self.bind(func.defaults, args, {}) is None:
            return self.at_def(func, 'TypeError', f'wrong arguments for {func.name}')
        return None

    def call(self, f, args, budget):
        if isinstance(f, (Function, Method)):
            func = f.func if isinstance(f, Method) else f
            if func.yields:
                return Ended(self.at_def(func, 'TypeError', f'yield function {func.name} cannot be called'), 0)
            bad = self.fits(f, args)
            if bad:
                return Ended(bad, 0)
        out, steps = self.activity(budget, [], lambda: Val(self.call_value(f, list(args), {}, runner=True)))
        return Ended(out, steps)

    def run_module(self, path, budget):
        m = self.modules.get(path)
        if m and m.state == 'loaded':
            return Ended(Val(m), 0)
        if m and m.state == 'failed':
            return Ended(Raised(m.failure, list(m.failure.trace)), 0)
        if self.sources[path].fault:
            raise ValueError('run_module: the source has a fault')
        out, steps = self.activity(budget, [], lambda: Val(self.load(path)))
        return Ended(out, steps)

    def fail_exhausted(self, trace, budget):
        exc = None
        for m in self.modules.values():
            if m.state == 'running':
                if exc is None:
                    exc = self.make_exc(self.classes['StepLimit'], [f'step limit of {budget} reached'])
                    exc.trace = list(trace)
                m.state, m.failure = 'failed', exc

    def names(self, path):
        m = self.modules.get(path)
        return list(m.names.items()) if m else []

    def begin(self, f, args, budget):
        if isinstance(f, Method):
            f, args = f.func, [f.self] + list(args)
        bad = self.fits(f, args)
        if bad:
            return Begun(bad, 0)
        locals_ = dict(zip([n for n, _ in f.defaults], self.bind(f.defaults, list(args), {})))
        frame = self.function_frame(f, locals_)
        gen = self.gen_body(f.code.body, frame)
        return self.advance(Frozen(gen, frame), None, budget)

    def resume(self, frozen, sent, budget):
        assert not frozen.spent
        frozen.spent = True
        if isinstance(sent, Raised):
            sent.exc.trace = list(sent.trace)
        return self.advance(Frozen(frozen.gen, frozen.frame), sent, budget)

    def abandon(self, frozen):
        assert not frozen.spent
        frozen.spent = True
        frozen.gen.close()

    def advance(self, frozen, sent, budget):
        def run():
            if RUNNER_CALL_COUNTS:
                self.calls = 1
            try:
                value = frozen.gen.send(sent)
            except StopIteration as e:
                return Val(e.value)
            return Yielded(value, frozen)
        out, steps = self.activity(budget, [frozen.frame], run)
        return Begun(out, steps)

    # =================================================================== the runner's small calls
    def take_printed(self):
        t = ''.join(self.printed)
        self.printed = []
        return t

    def make_text(self, s):
        return s

    def make_list(self, values):
        return PList(values)

    def make_exception(self, class_name, text):
        return self.make_exc(self.classes[class_name], [text])

    def make_request(self, name, scope, param=None, has_param=False):
        return Request(name, scope, param, has_param)

    def make_item(self, name, nodeid):
        return Item(name, nodeid)

    def make_instance(self, cls):
        return Instance(cls)

    def make_monkeypatch(self):
        return Monkeypatch()

    def make_capsys(self):
        return Capsys()

    def undo_patch(self, v):
        B.undo(v)

    def close_request(self, v):
        v.closed = True

    def take_finalizer(self, v):
        return (True, v.finalizers.pop()) if v.finalizers else None

    def exc_class(self, name):
        return self.classes[name]

    def exc_class_name(self, v):
        return v.cls.name

    def is_a(self, v, classes):
        return V.is_a(v, classes)

    def message(self, exc, most=V.MAX_LEN):
        return V.message(exc, most)

    def repr(self, v, most=V.MAX_LEN):
        return V.repr_(v, most)

    def truth(self, v):
        return truth(v)

    def same_object(self, a, b):
        return V.same_object(a, b)

    def kind(self, v):
        return kind(v)

    # =================================================================== calls
    def bind(self, params, args, named):
        """One value per parameter, or None where the call doesn't fit."""
        names = [n for n, _ in params]
        if len(args) > len(params):
            return None
        got = dict(zip(names, args))
        for n, v in named.items():
            if n not in names or n in got:
                return None
            got[n] = v
        out = []
        for n, d in params:
            if n in got:
                out.append(got[n])
            elif d is not NODEF:
                out.append(d)
            else:
                return None
        return out

    def function_frame(self, f, locals_):
        code = f.code
        if not hasattr(code, 'code_locals'):
            code.code_locals = local_names(code)
            code.globals = global_names(code.body)
        fr = Frame(f.path, f.name, f.line, f.module, locals_, code.code_locals, 'function')
        return fr

    def call_function(self, f, args, named, runner=False):
        if f.yields:
            raise self.err('TypeError', f'yield function {f.name} cannot be called')
        values = self.bind(f.defaults, args, named)
        if values is None:
            raise B.wrong(self, f.name)
        counted = RUNNER_CALL_COUNTS or not runner
        if counted and self.calls >= MAX_CALLS:
            raise self.err('RecursionError', 'call depth exceeded')
        fr = self.function_frame(f, dict(zip([n for n, _ in f.defaults], values)))
        self.frames.append(fr)
        self.calls += counted
        try:
            sig = self.block(f.code.body, fr)
        finally:
            self.calls -= counted
            self.frames.pop()
        return sig[1] if sig else None

    def call_value(self, f, args, named, runner=False):
        """The call itself, its step being taken already."""
        if isinstance(f, Function):
            return self.call_function(f, args, named, runner)
        if isinstance(f, Method):
            return self.call_function(f.func, [f.self] + args, named, runner)
        if isinstance(f, Builtin):
            if f.receiver is not NODEF:
                args = [f.receiver] + args
            return f.fn(self, args, named)
        if isinstance(f, Class):
            if f.ctor:
                return f.ctor(self, args, named)
            return self.instantiate(f, args, named, runner)
        if isinstance(f, Mark) and not f.called:
            return B.call_mark(self, f, args, named)
        raise self.err('TypeError', f"'{kind(f)}' object is not callable")

    def instantiate(self, cls, args, named, runner=False):
        v = Instance(cls)
        init = cls.find('__init__')
        if cls.is_exception:
            v.names['args'] = PTuple(args)
            if init is NODEF and named:
                raise B.wrong(self, cls.name)
        elif init is NODEF and (args or named):
            raise B.wrong(self, cls.name)
        if init is not NODEF:
            if isinstance(init, Function):
                self.call_function(init, [v] + args, named, runner)
            else:
                if isinstance(init, Class):
                    self.charge(1)
                self.call_value(init, args, named, runner)
        return v

    # =================================================================== attributes
    def read_attr(self, v, name):
        """The value, or NODEF."""
        if isinstance(v, Instance):
            if name in v.names:
                return v.names[name]
            x = v.cls.find(name)
            return Method(x, v) if isinstance(x, Function) else x
        if isinstance(v, Module):
            return v.names.get(name, NODEF)
        if isinstance(v, Class):
            return v.find(name)
        table = None
        if isinstance(v, str):
            table = B.TEXT_METHODS
        elif isinstance(v, PList):
            table = B.LIST_METHODS
        elif isinstance(v, PDict):
            table = B.DICT_METHODS
        elif isinstance(v, PTuple):
            table = B.TUPLE_METHODS
        elif isinstance(v, Monkeypatch):
            table = B.MONKEYPATCH_METHODS
        elif isinstance(v, Capsys):
            table = B.CAPSYS_METHODS
        if table is not None:
            return Builtin(name, table[name], v) if name in table else NODEF
        if isinstance(v, MarkMaker):
            return Mark(name)
        if isinstance(v, Request):
            if name == 'param':
                return v.param if v.has_param else NODEF
            if name == 'fixturename':
                return v.name
            if name == 'scope':
                return v.scope
            if name == 'addfinalizer':
                return Builtin(name, B.r_addfinalizer, v)
        if isinstance(v, Info) and name == 'value':
            return v.value
        if isinstance(v, Item) and name in ('name', 'nodeid'):
            return v.name if name == 'name' else v.nodeid
        return NODEF

    def no_attr(self, v, name):
        return self.err('AttributeError', f"'{kind(v)}' object has no attribute '{name}'")

    def get_attr(self, v, name):
        x = self.read_attr(v, name)
        if x is NODEF:
            raise self.no_attr(v, name)
        return x

    def set_attr(self, v, name, x):
        if not isinstance(v, (Instance, Class, Module)):
            raise self.no_attr(v, name)
        v.names[name] = x

    def del_attr(self, v, name):
        if not isinstance(v, (Instance, Class, Module)) or name not in v.names:
            raise self.no_attr(v, name)
        del v.names[name]

    # =================================================================== names
    def load_name(self, name, fr):
        for scope in reversed(fr.comps):
            if name in scope:
                if scope[name] is NODEF:
                    raise self.err('UnboundLocalError', f"local variable '{name}' is unbound")
                return scope[name]
        if fr.kind == 'function' and name in fr.code_locals:
            if name in fr.locals:
                return fr.locals[name]
            raise self.err('UnboundLocalError', f"local variable '{name}' is unbound")
        if fr.kind == 'class' and name in fr.locals:
            return fr.locals[name]
        if name in fr.module.names:
            return fr.module.names[name]
        if name in self.builtins:
            return self.builtins[name]
        raise self.err('NameError', f"name '{name}' is not defined")

    def name_table(self, name, fr):
        if fr.kind == 'function' and name not in fr.code_locals:
            return fr.module.names
        return fr.locals

    def store_name(self, name, v, fr):
        self.name_table(name, fr)[name] = v

    def del_name(self, name, fr):
        table = self.name_table(name, fr)
        if name not in table:
            if fr.kind == 'function' and name in fr.code_locals:
                raise self.err('UnboundLocalError', f"local variable '{name}' is unbound")
            raise self.err('NameError', f"name '{name}' is not defined")
        del table[name]

    # =================================================================== expressions
    def eval(self, e, fr, obs=None):
        v = self.eval_inner(e, fr, obs)
        if obs is not None:
            obs[id(e)] = v
        return v

    def eval_inner(self, e, fr, obs):
        k = e.kind
        if k == 'Name':
            return self.load_name(e.name, fr)
        if k in ('Num', 'Const'):
            return e.value
        if k == 'Text':
            self.too_long(len(e.value))
            return e.value
        if k == 'Paren':
            return self.eval(e.x, fr, obs)
        if k in ('Tuple', 'List'):
            items = [self.eval(x, fr, obs) for x in e.items]
            self.charge(len(items))
            self.too_long(len(items))
            return PTuple(items) if k == 'Tuple' else PList(items)
        if k == 'Dict':
            pairs = []
            for a, b in e.pairs:
                kv = self.eval(a, fr, obs)
                pairs.append((kv, self.eval(b, fr, obs)))
            self.charge(len(pairs))
            d = PDict()
            for a, b in pairs:
                self.dict_store(d, a, b)
            return d
        if k == 'Call':
            f = self.eval(e.f, fr, obs)
            args, named = [], {}
            for name, a in e.args:
                v = self.eval(a, fr, obs)
                if name is None:
                    args.append(v)
                else:
                    named[name] = v
            self.charge(1)
            return self.call_value(f, args, named)
        if k == 'Attr':
            return self.get_attr(self.eval(e.x, fr, obs), e.name)
        if k == 'Sub':
            a = self.eval(e.x, fr, obs)
            return self.subscript(a, self.eval(e.index, fr, obs))
        if k == 'Slice':
            a = self.eval(e.x, fr, obs)
            parts = [None if p is None else self.eval(p, fr, obs) for p in e.parts]
            return self.slice(a, parts)
        if k == 'BinOp':
            a = self.eval(e.left, fr, obs)
            return self.binary(e.op, a, self.eval(e.right, fr, obs))
        if k == 'UnOp':
            return self.unary(e.op, self.eval(e.x, fr, obs))
        if k == 'Not':
            return not truth(self.eval(e.x, fr, obs))
        if k in ('And', 'Or'):
            for n, x in enumerate(e.items):
                v = self.eval(x, fr, obs)
                if truth(v) != (k == 'And'):
                    return v
            return v
        if k == 'IfElse':
            c = truth(self.eval(e.cond, fr, obs))
            return self.eval(e.then if c else e.other, fr, obs)
        if k == 'Compare':
            a = self.eval(e.first, fr, obs)
            r = True
            for op, x in e.rest:
                b = self.eval(x, fr, obs)
                r = self.compare(op, a, b)
                if not r:
                    return r
                a = b
            return r
        if k == 'FText':
            parts = []
            for p in e.parts:
                if isinstance(p, str):
                    parts.append(p)
                    continue
                v = self.eval(p[1], fr)
                self.charge(1)
                t = B.shown(self, V.str_(v) if p[2] == 's' else V.repr_(v))
                self.charge(len(t))
                parts.append(t)
            t = ''.join(parts)
            self.too_long(len(t))
            return t
        if k in ('ListComp', 'DictComp'):
            return self.comprehension(e, fr)
        raise AssertionError(k)

    def comprehension(self, e, fr):
        out = PList([]) if e.kind == 'ListComp' else PDict()
        first = self.eval(e.clauses[0][2], fr)
        scope = {}
        for c in e.clauses:
            if c[0] == 'for':
                for n in c[1][0]:
                    scope[n] = NODEF
        depth = len(fr.comps)
        fr.comps.append(scope)

        def run(n):
            if n == len(e.clauses):
                if e.kind == 'ListComp':
                    v = self.eval(e.elt, fr)
                    self.charge(1)
                    self.too_long(len(out.items) + 1)
                    out.items.append(v)
                else:
                    kv = self.eval(e.key, fr)
                    v = self.eval(e.value, fr)
                    self.charge(1)
                    self.dict_store(out, kv, v)
                return
            c = e.clauses[n]
            if c[0] == 'if':
                if truth(self.eval(c[1], fr)):
                    run(n + 1)
                return
            names, unpack = c[1]
            it = Iter(self, first if n == 0 else self.eval(c[2], fr))
            while True:
                got = it.turn()
                if got is NODEF:
                    return
                self.charge(1)
                if unpack:
                    for name, v in zip(names, self.unpack(got, len(names))):
                        scope[name] = v
                else:
                    scope[names[0]] = got
                run(n + 1)

        try:
            run(0)
        finally:
            del fr.comps[depth:]
        return out

    def unpack(self, v, n):
        xs = self.elements(v)
        if len(xs) != n:
            raise self.err('ValueError', f'expected {n} values, got {len(xs)}')
        return xs

    # =================================================================== statements
    # A signal is None, ('break',), ('continue',) or ('return', value); ('return', ..) has the value second.
    def block(self, body, fr):
        for s in body:
            sig = self.stmt(s, fr)
            if sig is not None:
                return sig
        return None

    def start(self, s, fr):
        fr.line = s.line
        self.charge(1)

    def assign(self, target, v, fr):
        """target: a Target node"""
        if target.unpack:
            for t, x in zip(target.items, self.unpack(v, len(target.items))):
                self.assign_single(t, x, fr)
        else:
            self.assign_single(target.items[0], v, fr)

    def assign_single(self, t, v, fr):
        if t.kind == 'Name':
            self.store_name(t.name, v, fr)
        elif t.kind == 'Attr':
            self.set_attr(self.eval(t.x, fr), t.name, v)
        else:
            a = self.eval(t.x, fr)
            self.store_item(a, self.eval(t.index, fr), v)

    def stmt(self, s, fr):
        self.start(s, fr)
        k = s.kind
        if k == 'Expr':
            self.eval(s.value, fr)
        elif k == 'Assign':
            v = self.eval(s.value, fr)
            for t in s.targets:
                self.assign(t, v, fr)
        elif k == 'Aug':
            self.aug(s, fr)
        elif k == 'Return':
            return ('return', None if s.value is None else self.eval(s.value, fr))
        elif k == 'Pass' or k == 'Global':
            pass
        elif k == 'Break':
            return ('break',)
        elif k == 'Continue':
            return ('continue',)
        elif k == 'Raise':
            self.raise_(s, fr)
        elif k == 'Assert':
            self.assert_(s, fr)
        elif k == 'Del':
            t = s.target
            if t.kind == 'Name':
                self.del_name(t.name, fr)
            elif t.kind == 'Attr':
                self.del_attr(self.eval(t.x, fr), t.name)
            else:
                a = self.eval(t.x, fr)
                self.delete_item(a, self.eval(t.index, fr))
        elif k == 'Import':
            m = self.import_module(s.names, fr)
            self.store_name(s.alias or s.names[0], m, fr)
        elif k == 'From':
            self.from_import(s, fr)
        elif k == 'If':
            body = self.if_arm(s, fr)
            return self.block(body, fr) if body else None
        elif k == 'While':
            while True:
                fr.line = s.line
                if not truth(self.eval(s.test, fr)):
                    return None
                self.charge(1)
                sig = self.block(s.body, fr)
                if sig == ('break',):
                    return None
                if sig is not None and sig != ('continue',):
                    return sig
        elif k == 'For':
            it = Iter(self, self.eval(s.iter, fr))
            while True:
                fr.line = s.line
                v = it.turn()
                if v is NODEF:
                    return None
                self.charge(1)
                self.assign(s.target, v, fr)
                sig = self.block(s.body, fr)
                if sig is not None and sig[0] == 'break':
                    return None
                if sig is not None and sig[0] != 'continue':
                    return sig
        elif k == 'Try':
            return self.try_plain(s, fr)
        elif k == 'With':
            return self.with_(s, fr)
        elif k == 'Def':
            self.def_(s, fr)
        elif k == 'Class':
            self.class_(s, fr)
        else:
            raise AssertionError(k)
        return None

    def if_arm(self, s, fr):
        for (test, body), line in zip(s.arms, s.lines):
            fr.line = line
            if truth(self.eval(test, fr)):
                return body
        return s.orelse

    def aug(self, s, fr):
        t = s.target
        if t.kind == 'Name':
            old = self.load_name(t.name, fr)
        elif t.kind == 'Attr':
            x = self.eval(t.x, fr)
            old = self.get_attr(x, t.name)
        else:
            x = self.eval(t.x, fr)
            i = self.eval(t.index, fr)
            old = self.subscript(x, i)
        v = self.binary(s.op, old, self.eval(s.value, fr))
        if OPS.INPLACE_LIST_ADD and s.op in '+*' and isinstance(old, PList):
            old.items[:] = v.items
            v = old
        if t.kind == 'Name':
            self.store_name(t.name, v, fr)
        elif t.kind == 'Attr':
            self.set_attr(x, t.name, v)
        else:
            self.store_item(x, i, v)

    def raise_(self, s, fr):
        if s.value is None:
            if not self.handled:
                raise self.err('RuntimeError', 'no exception to raise')
            raise self.throw(self.handled[-1])
        v = self.eval(s.value, fr)
        if V.is_exc_class(v):
            v = self.instantiate(v, [], {})
        if not V.is_exception(v):
            raise self.err('TypeError', 'exceptions must derive from BaseException')
        raise self.throw(v)

    def assert_(self, s, fr):
        rewritten = fr.module.rewritten
        obs = {} if rewritten else None
        if truth(self.eval(s.test, fr, obs)):
            return
        m = None if s.msg is None else self.eval(s.msg, fr)
        if rewritten:
            args = [explain(s.test, obs, s.msg is not None, m)]
        else:
            args = [] if s.msg is None else [m]
        raise self.throw(self.make_exc(self.classes['AssertionError'], args))

    # ---- try; twice, plain and as a Python generator (so that a yield may stand in the body)
    def try_plain(self, s, fr):
        sig, exc = None, None
        try:
            sig = self.block(s.body, fr)
        except LangRaise as e:
            exc = e.exc
        return self.try_rest(s, fr, sig, exc)

    def try_gen(self, s, fr):
        sig, exc = None, None
        try:
            sig = yield from self.gen_block(s.body, fr)
        except LangRaise as e:
            exc = e.exc
        return self.try_rest(s, fr, sig, exc)

    def try_rest(self, s, fr, sig, exc):
        """What follows the body, which ended with the signal or the exception."""
        if exc is not None:
            if s.handlers:
                sig, exc = self.protect(lambda: self.handlers(s, exc, fr), exc)
        elif sig is None and s.orelse:
            sig, exc = self.protect(lambda: self.block(s.orelse, fr), None)
        if s.final:
            if exc is not None:
                self.handled.append(exc)
            try:
                fsig = self.block(s.final, fr)
            finally:
                if exc is not None:
                    self.handled.pop()
            if fsig is not None:
                return fsig
        if exc is not None:
            raise LangRaise(exc)
        return sig

    def protect(self, run, exc):
        """(signal, exception) of run(); NOMATCH leaves `exc`"""
        try:
            sig = run()
        except LangRaise as e:
            return None, e.exc
        if sig is NOMATCH:
            return None, exc
        return sig, None

    def handlers(self, s, exc, fr):
        self.handled.append(exc)
        try:
            for h in s.handlers:
                if h.cls is not None:
                    fr.line = s.line
                    c = self.eval(h.cls, fr)
                    if not B.exc_classes(c):
                        raise self.err('TypeError', 'exceptions must derive from BaseException')
                    if not V.is_a(exc, c):
                        continue
                if h.name is None:
                    return self.block(h.body, fr)
                self.store_name(h.name, exc, fr)
                try:
                    sig = self.block(h.body, fr)
                except LangRaise:
                    self.name_table(h.name, fr).pop(h.name, None)
                    raise
                self.name_table(h.name, fr).pop(h.name, None)      # not where the activity is exhausted
                return sig
            return NOMATCH
        finally:
            self.handled.pop()

    def with_(self, s, fr):
        r = self.eval(s.value, fr)
        if not isinstance(r, RaisesObj):
            raise self.err('TypeError', 'bad context')
        info = Info()
        if s.name is not None:
            self.store_name(s.name, info, fr)
        try:
            self.block(s.body, fr)
        except LangRaise as e:
            exc = e.exc
            if not V.is_a(exc, r.classes):
                raise
        else:
            exc = None
        fr.line = s.line
        if exc is None:
            raise self.err('Failed', 'DID NOT RAISE ' + B.shown(self, V.repr_(r.classes)))
        info.value = exc
        if r.pattern is not None:
            m = B.shown(self, V.message(exc))
            self.charge(len(r.pattern) * len(m))
            if not B.pattern_found(r.units, m):
                raise self.err('AssertionError', f'pattern {V.text_repr(r.pattern)} not found in {V.text_repr(m)}')
        return None

    # ---- definitions
    def def_(self, s, fr):
        decorators = [self.eval(d, fr) for d in s.decorators]
        defaults = [(p.name, NODEF if p.default is None else self.eval(p.default, fr)) for p in s.params]
        yields = any(x.kind == 'YieldStmt' for x in walk_stmts(s.body))
        f = Function(s.name, fr.path, s.def_line, defaults, yields, fr.cls if fr.kind == 'class' else None, s, fr.module)
        self.store_name(s.name, self.decorate(decorators, f), fr)

    def class_(self, s, fr):
        decorators = [self.eval(d, fr) for d in s.decorators]
        base = None
        if s.base is not None:
            base = self.eval(s.base, fr)
            if not V.is_exc_class(base):
                raise self.err('TypeError', 'exceptions must derive from BaseException')
        c = Class(s.name, fr.path, s.class_line, base)
        inner = Frame(fr.path, s.name, s.line, fr.module, c.names, None, 'class')
        inner.cls = c
        self.frames.append(inner)
        try:
            self.block(s.body, inner)
        finally:
            self.frames.pop()
        self.store_name(s.name, self.decorate(decorators, c), fr)

    def decorate(self, decorators, v):
        for d in reversed(decorators):
            v = self.apply(d, v)
        return v

    def apply(self, d, v):
        bad = lambda: self.err('TypeError', 'bad decorator')
        if d is self.pytest_fixture:
            d = FixtureDef(None, 'function', None, False, None, None)
        if isinstance(d, FixtureDef) and d.function is None and isinstance(v, Function):
            return FixtureDef(v, d.scope, d.params, d.autouse, d.ids, d.name)
        if isinstance(d, Mark):
            if not d.called and d.name in ('parametrize', 'skipif'):
                raise bad()
            if isinstance(v, (Function, Class)):
                v.marks.append(d)
                return v
            if isinstance(v, FixtureDef):
                return v
        if isinstance(d, HookImpl) and isinstance(v, Function):
            v.hookimpl = d
            return v
        raise bad()

    @property
    def pytest_fixture(self):
        return self._pytest_fixture

    # ---- imports
    def find_module(self, importer, dotted):
        tail = '/'.join(dotted)
        here = importer.rsplit('/', 1)[0] + '/' if '/' in importer else ''
        for base in (here, ''):
            for path in (f'{base}{tail}/__init__.py', f'{base}{tail}.py'):
                if path in self.sources:
                    return path
        return None

    def get_module(self, importer, dotted):
        """Loads every prefix that is a module and then the module; None where there is none."""
        m = None
        for n in range(1, len(dotted) + 1):
            if dotted[:n] == ['pytest']:
                m = self.pytest
                continue
            p = self.find_module(importer, dotted[:n])
            m = None if p is None else self.load(p)
        return m

    def load(self, path):
        m = self.modules.get(path)
        if m is None:
            src = self.sources[path]
            parts = path[:-3].split('/')
            if parts[-1] == '__init__':
                parts.pop()
            m = Module(path, '.'.join(parts), src.rewritten)
            if src.fault:
                f = src.fault
                e = self.err('SyntaxError', f'{f.text} ({path}, line {f.line})')
                if SAME_SYNTAX_ERROR:
                    m.state, m.failure = 'failed', e.exc
                    self.modules[path] = m
                raise e
            self.modules[path] = m
        if m.state in ('loaded', 'running'):
            return m
        if m.state == 'failed':
            raise LangRaise(m.failure)
        m.state = 'running'
        fr = Frame(path, '<module>', 1, m, m.names, None, 'module')
        self.frames.append(fr)
        try:
            self.block(self.sources[path].tree.body, fr)
            m.state = 'loaded'
        except LangRaise as e:
            m.state, m.failure = 'failed', e.exc
            raise
        finally:
            self.frames.pop()
        return m

    def import_module(self, dotted, fr):
        m = self.get_module(fr.path, dotted)
        if m is None:
            raise self.err('ModuleNotFoundError', f"No module named '{'.'.join(dotted)}'")
        return m

    def from_import(self, s, fr):
        m = self.get_module(fr.path, s.module)
        if m is None and not EMPTY_PREFIX_OK:
            raise self.err('ModuleNotFoundError', f"No module named '{'.'.join(s.module)}'")
        for name, alias in s.names:
            if m is not None and name in m.names:
                v = m.names[name]
            elif m is self.pytest:
                raise self.err('ImportError', f"cannot import name '{name}'")
            else:
                v = self.get_module(fr.path, s.module + [name])
                if v is None and m is None:
                    raise self.err('ModuleNotFoundError', f"No module named '{'.'.join(s.module)}'")
                if v is None:
                    raise self.err('ImportError', f"cannot import name '{name}'")
            self.store_name(alias or name, v, fr)

    # =================================================================== yield functions
    def gen_body(self, body, fr):
        sig = yield from self.gen_block(body, fr)
        return sig[1] if sig else None

    def gen_block(self, body, fr):
        for s in body:
            sig = yield from self.gen_stmt(s, fr)
            if sig is not None:
                return sig
        return None

    def gen_stmt(self, s, fr):
        if s.kind == 'YieldStmt':
            self.start(s, fr)
            v = None if s.value.value is None else self.eval(s.value.value, fr)
            got = yield v
            fr.line = s.line
            if isinstance(got, Raised):
                raise LangRaise(got.exc)
            x = got.value
            for t in s.targets:
                self.assign(t, x, fr)
            return ('return', x) if s.ret else None
        if s.kind == 'If':
            self.start(s, fr)
            body = self.if_arm(s, fr)
            if body:
                return (yield from self.gen_block(body, fr))
            return None
        if s.kind == 'Try':
            self.start(s, fr)
            return (yield from self.try_gen(s, fr))
        return self.stmt(s, fr)


NOMATCH = ('nomatch',)


def local_names(code):
    """Names of a function that are assigned, bound by for, except, with, import or del in it, and its parameters,
    unless global."""
    out = {p.name for p in code.params}

    def target(t):
        for e in t.items:
            if e.kind == 'Name':
                out.add(e.name)

    for s in walk_stmts(code.body):
        k = s.kind
        if k in ('Assign', 'YieldStmt'):
            for t in s.targets:
                target(t)
        elif k == 'Aug':
            if s.target.kind == 'Name':
                out.add(s.target.name)
        elif k == 'For':
            target(s.target)
        elif k == 'Del':
            if s.target.kind == 'Name':
                out.add(s.target.name)
        elif k == 'Import':
            out.add(s.alias or s.names[0])
        elif k == 'From':
            for n, a in s.names:
                out.add(a or n)
        elif k == 'With':
            if s.name:
                out.add(s.name)
        elif k == 'Try':
            for h in s.handlers:
                if h.name:
                    out.add(h.name)
    return out - global_names(code.body)


class Iter:
    """Where a `for` is."""
    def __init__(self, w, of):
        self.w = w
        self.of = of
        self.next = 0
        if w.length(of) is None:
            raise w.err('TypeError', f"'{kind(of)}' object is not iterable")
        self.length = w.length(of)
        self.keys_of = None

    def turn(self):
        w, of, i = self.w, self.of, self.next
        if isinstance(of, PDict):
            if len(of.d) != self.length:
                raise w.err('RuntimeError', 'dictionary changed size during iteration')
            if i >= self.length:
                return NODEF
            self.next += 1
            for n, e in enumerate(of.d.values()):
                if n == i:
                    return e[0]
        if i >= w.length(of):
            return NODEF
        self.next += 1
        if isinstance(of, str):
            return of[i]
        if isinstance(of, PRange):
            return of.r[i]
        return of.items[i]
