"""Values, truth, repr, message.  Heap objects are plain Python objects compared by identity."""
from __future__ import annotations
from .api import Shown

MAX_LEVEL = 100
MAX_LEN = 65536
NODEF = object()          # no default


class PList:
    def __init__(self, items):
        self.items = list(items)


class PTuple:
    def __init__(self, items):
        self.items = tuple(items)


class PDict:
    def __init__(self):
        self.d = {}            # key as plain data -> [key value, value]

    def pairs(self):
        return [(k, v) for k, v in self.d.values()]

    def keys(self):
        return [k for k, _ in self.d.values()]

    def get(self, keyvalue, default=None):
        """For the runner: keys that are None, bool, int or str."""
        k = ('n',) if keyvalue is None else ('s', keyvalue) if isinstance(keyvalue, str) else ('i', int(keyvalue))
        e = self.d.get(k)
        return e[1] if e else default


class PRange:
    def __init__(self, r):
        self.r = r


class Function:
    def __init__(self, name, path, line, defaults, yields, cls, code, module):
        self.name = name
        self.path = path
        self.line = line
        self.defaults = defaults       # list of (name, default value or NODEF)
        self.yields = yields
        self.marks = []
        self.hookimpl = None
        self.cls = cls
        self.code = code               # the Def node
        self.module = module

    @property
    def params(self):
        return [(n, d is not NODEF) for n, d in self.defaults]


class Method:
    def __init__(self, func, self_):
        self.func = func
        self.self = self_


class Builtin:
    """name; fn(world, args, kwargs) with the receiver first for methods"""
    def __init__(self, name, fn, receiver=NODEF):
        self.name = name
        self.fn = fn
        self.receiver = receiver


class Class:
    def __init__(self, name, path=None, line=0, base=None, ctor=None):
        self.name = name
        self.path = path
        self.line = line
        self.base = base
        self.names = {}
        self.marks = []
        self.ctor = ctor            # int, str, bool, list, tuple, dict
        self.root = None            # set for built-in exceptions

    @property
    def is_exception(self):
        return any(c.root for c in self.chain())

    def chain(self):
        c = self
        while c is not None:
            yield c
            c = c.base

    def find(self, name):
        for c in self.chain():
            if name in c.names:
                return c.names[name]
        return NODEF


class Module:
    def __init__(self, path, name, rewritten=False):
        self.path = path
        self.names = {'__name__': name}
        self.rewritten = rewritten
        self.state = 'new'          # new, running, loaded, failed
        self.failure = None


class Instance:
    def __init__(self, cls):
        self.cls = cls
        self.names = {}
        self.trace = None

    @property
    def args(self):
        a = self.names.get('args')
        return a.items if isinstance(a, PTuple) else ()


class FixtureDef:
    """`function` is None for a fixture value that was applied to nothing."""
    def __init__(self, function, scope, params, autouse, ids, name):
        self.function = function
        self.scope = scope
        self.params = params
        self.autouse = autouse
        self.ids = ids
        self.name = name


class Mark:
    def __init__(self, name, args=(), kwargs=None, called=False):
        self.name = name
        self.args = list(args)
        self.kwargs = dict(kwargs or {})
        self.called = called


class HookImpl:
    def __init__(self, wrapper, tryfirst, trylast):
        self.wrapper = wrapper
        self.tryfirst = tryfirst
        self.trylast = trylast


class MarkMaker:
    """pytest.mark"""


class Param:
    def __init__(self, values, id, marks):
        self.values = values
        self.id = id
        self.marks = marks


class Request:
    def __init__(self, name, scope, param, has_param):
        self.name = name
        self.scope = scope
        self.param = param
        self.has_param = has_param
        self.finalizers = []
        self.closed = False


class RaisesObj:
    def __init__(self, classes, pattern, units):
        self.classes = classes       # Class or PTuple
        self.pattern = pattern       # text or None
        self.units = units


class Info:
    def __init__(self):
        self.value = NODEF


class Item:
    def __init__(self, name, nodeid):
        self.name = name
        self.nodeid = nodeid


class Monkeypatch:
    def __init__(self):
        self.saved = []


class Capsys:
    pass


KINDS = {PList: 'list', PTuple: 'tuple', PDict: 'dict', PRange: 'range', Function: 'function', Method: 'method',
         Builtin: 'builtin', Class: 'type', Module: 'module', FixtureDef: 'fixture', Mark: 'mark', HookImpl: 'mark',
         MarkMaker: 'mark', Param: 'param', Request: 'request', RaisesObj: 'raises', Info: 'info', Item: 'item',
         Monkeypatch: 'monkeypatch', Capsys: 'capsys'}


def kind(v):
    if v is None:
        return 'NoneType'
    if isinstance(v, bool):
        return 'bool'
    if isinstance(v, int):
        return 'int'
    if isinstance(v, str):
        return 'str'
    if isinstance(v, Instance):
        return v.cls.name
    return KINDS[type(v)]


def is_number(v):
    return isinstance(v, int)


def is_exception(v):
    return isinstance(v, Instance) and v.cls.is_exception


def is_exc_class(v):
    return isinstance(v, Class) and v.is_exception


def truth(v):
    if v is None or v is False:
        return False
    if isinstance(v, int):
        return v != 0
    if isinstance(v, str):
        return v != ''
    if isinstance(v, (PList, PTuple)):
        return len(v.items) > 0
    if isinstance(v, PDict):
        return len(v.d) > 0
    if isinstance(v, PRange):
        return len(v.r) > 0
    return True


def same_object(a, b):
    """`is`"""
    if a is None or b is None:
        return a is b
    if isinstance(a, (bool, int, str)) or isinstance(b, (bool, int, str)):
        return kind(a) == kind(b) and type(a) is type(b) and a == b
    return a is b


def is_a(v, classes):
    if isinstance(classes, PTuple):
        return any(is_a(v, c) for c in classes.items)
    c = classes
    if isinstance(v, Instance):
        return any(x is c for x in v.cls.chain())
    if c.ctor is None:
        return False
    k = kind(v)
    return k == c.name or (k == 'bool' and c.name == 'int')


class _Cut(Exception):
    pass


class _Out:
    def __init__(self, most):
        self.most = most
        self.parts = []
        self.n = 0
        self.cut = False
        self.deep = False

    def put(self, s):
        if self.n + len(s) > self.most:
            self.parts.append(s[:self.most - self.n])
            self.n = self.most
            self.cut = True
            raise _Cut()
        self.parts.append(s)
        self.n += len(s)

    def put_deep(self):
        if self.n < self.most:
            self.deep = True
        self.put('...')


def text_repr(s):
    q = '"' if "'" in s and '"' not in s else "'"
    out = [q]
    for c in s:
        if c == q or c == '\\':
            out.append('\\' + c)
        elif c == '\n':
            out.append('\\n')
        elif c == '\r':
            out.append('\\r')
        elif c == '\t':
            out.append('\\t')
        elif ord(c) < 32 or ord(c) == 127:
            out.append('\\x%02x' % ord(c))
        else:
            out.append(c)
    out.append(q)
    return ''.join(out)


def _repr(v, out, level, open_):
    if level > MAX_LEVEL:
        out.put_deep()
        return
    if v is None or isinstance(v, (bool, int)):
        out.put(str(v))
    elif isinstance(v, str):
        out.put(text_repr(v))
    elif isinstance(v, (PList, PTuple, PDict)):
        a, b = {PList: '[]', PTuple: '()', PDict: '{}'}[type(v)]
        if any(o is v for o in open_):
            out.put(a + '...' + b)
            return
        open_.append(v)
        out.put(a)
        if isinstance(v, PDict):
            for n, (k, x) in enumerate(v.pairs()):
                if n:
                    out.put(', ')
                _repr(k, out, level + 1, open_)
                out.put(': ')
                _repr(x, out, level + 1, open_)
        else:
            for n, x in enumerate(v.items):
                if n:
                    out.put(', ')
                _repr(x, out, level + 1, open_)
            if isinstance(v, PTuple) and len(v.items) == 1:
                out.put(',')
        out.put(b)
        open_.pop()
    elif isinstance(v, PRange):
        r = v.r
        out.put(f'range({r.start}, {r.stop})' if r.step == 1 else f'range({r.start}, {r.stop}, {r.step})')
    elif isinstance(v, Function):
        out.put(f'<function {v.name}>')
    elif isinstance(v, Method):
        out.put(f'<bound method {v.func.name}>')
    elif isinstance(v, Builtin):
        out.put(f'<built-in function {v.name}>')
    elif isinstance(v, Class):
        out.put(f"<class '{v.name}'>")
    elif isinstance(v, Module):
        out.put(f"<module '{v.path}'>")
    elif is_exception(v):
        out.put(v.cls.name + '(')
        for n, x in enumerate(v.args):
            if n:
                out.put(', ')
            _repr(x, out, level + 1, open_)
        out.put(')')
    else:
        out.put(f'<{kind(v)} object>')


def _message(exc, out, level):
    """The message of `exc`, which stands at `level`."""
    if level > MAX_LEVEL:
        out.put_deep()
        return
    args = exc.args
    if not args:
        return
    if len(args) > 1:
        out.put('(')
        for n, x in enumerate(args):
            if n:
                out.put(', ')
            _repr(x, out, level + 1, [])
        out.put(')')
        return
    a = args[0]
    if any(c.name == 'KeyError' and c.root for c in exc.cls.chain()):
        _repr(a, out, level + 1, [])
    elif level + 1 > MAX_LEVEL:
        out.put_deep()
    elif isinstance(a, str):
        out.put(a)
    elif is_exception(a):
        _message(a, out, level + 1)
    else:
        _repr(a, out, level + 1, [])


def _shown(fill, most):
    out = _Out(most)
    try:
        fill(out)
    except _Cut:
        pass
    return Shown(''.join(out.parts), out.cut, out.deep)


def repr_(v, most=MAX_LEN):
    return _shown(lambda out: _repr(v, out, 1, []), most)


def message(exc, most=MAX_LEN):
    return _shown(lambda out: _message(exc, out, 1), most)


def str_(v, most=MAX_LEN):
    if isinstance(v, str):
        return Shown(v[:most], len(v) > most, False)
    if is_exception(v):
        return message(v, most)
    return repr_(v, most)


def kind_in(v, kinds):
    return not isinstance(v, Instance) and kind(v) in kinds
