"""Collection and selection."""
from dataclasses import dataclass, field

from . import api, values
from .api import Val, Raised, Exhausted, Yielded
from .fixtures import Table
from .hooks import HOOKS, Impl, order, hook_call, Ended
from .interp import World
from .markexpr import matches
from .params import RowFault, escape_id, unique_ids, mark_faults, product, regroup
from .report import CollectReport, Frame, Told
from .tree import all_directories, directories, is_test_name, parent, plain_path, walk

MOST_ITEMS = 65536


class Refused(Exception):
    """A refusal of collection: a usage text, or the lines of a conftest fault."""

    def __init__(self, text=None, lines=None):
        Exception.__init__(self, text or lines)
        self.text = text
        self.lines = lines


@dataclass
class ParamSet:
    values: list
    id: object        # text or None until it is made
    marks: list


@dataclass
class Item:
    node_id: str
    title: str
    name: str             # the function's bound name with its id
    file: str
    node: int             # an Item node of the table
    part: str             # what stands behind the path in the node id
    plain_part: str       # the same without `[id]`
    class_name: object    # bound name of the class or None
    class_node: object
    class_value: object
    function: object
    args: list
    takes_request: bool
    bound: dict           # name -> value of the row
    bound_names: list     # all names that `parametrize` binds
    params: dict          # number of definition -> (number, value, id)
    marks: list
    empty: bool
    closed: object        # Closed of fixtures.py
    file_node: int
    group: object = None  # the text of its xdist_group
    token: object = None  # the `item` object of the language, made once


@dataclass
class Collected:
    world: object
    table: object
    impls: list
    reached: list          # items in the order of rule 14, before selection
    items: list            # selected
    deselected: int
    errors: list           # CollectReport
    features: object = None


# ------------------------------------------------------------------ telling exceptions


def frames_of(world, trace):
    return [Frame(f, n, name, world.line(f, n)) for f, n, name in trace]


def exception_text(world, exc):
    name = world.exc_class_name(exc)
    shown = world.message(exc, 65536)
    message = shown.text
    if shown.cut:
        message = message[:65533] + "..."
    if message == "":
        return name
    if is_assertion(world, exc) and message.startswith("assert "):
        return message
    return name + ": " + message


def is_assertion(world, exc):
    """The built-in class itself; a class of the sources below it is another class."""
    return exc.cls is world.exc_class("AssertionError")


def tell(world, exc, trace):
    return Told(frames_of(world, trace), exception_text(world, exc))


def limit_text(limit):
    return "step limit of %d reached" % limit


def step_limit(world, limit):
    return world.make_exception("StepLimit", limit_text(limit))


def def_frame(function):
    return [(function.path, function.line, function.name)]


def told_fault(world, path, fault):
    source = None if fault.kind == "NotUtf8" else world.line(path, fault.line)
    return Told([Frame(path, fault.line, "<module>", source)], "SyntaxError: " + fault.text)


# ------------------------------------------------------------------ arguments


def arguments(function, method):
    """Parameters without default, other than `request` and a method's first."""
    params = function.params[1:] if method else function.params
    return [n for n, has_default in params if not has_default and n != "request"]


def takes_request(function, method):
    params = function.params[1:] if method else function.params
    return any(n == "request" and not has_default for n, has_default in params)


def positional(function, method, own, request, value_of):
    """The arguments of the runner's call, in order of the parameters without default."""
    out = []
    params = function.params
    if method:
        out.append(own)
        params = params[1:]
    for name, has_default in params:
        if has_default:
            continue
        out.append(request if name == "request" else value_of(name))
    return out


# ------------------------------------------------------------------ marks


def marks_of_value(value):
    """`pytestmark`: a mark or a list of marks; anything else is passed over."""
    if isinstance(value, values.Mark):
        return [value]
    if isinstance(value, values.PList):
        return [m for m in value.items if isinstance(m, values.Mark)]
    return []


def sequence(value):
    if isinstance(value, (values.PList, values.PTuple)):
        return list(value.items)
    return list(value)


def mark_names(mark):
    names = mark.args[0]
    if isinstance(names, str):
        return [n.strip(" \t\n\r\f\v") for n in names.split(",")]
    return sequence(names)


def mark_sets(mark):
    names = mark.args[0]
    single = isinstance(names, str) and len(mark_names(mark)) == 1
    rows = sequence(mark.args[1])
    ids = mark.kwargs.get("ids")
    ids = [] if ids is None else sequence(ids)
    out = []
    for k, row in enumerate(rows):
        given = ids[k] if k < len(ids) else None
        if isinstance(row, values.Param):
            one = ParamSet(list(row.values), row.id if row.id is not None else given, list(row.marks))
        elif single or not isinstance(row, (values.PList, values.PTuple)):
            one = ParamSet([row], given, [])
        else:
            one = ParamSet(sequence(row), given, [])
        out.append(one)
    return out


def fixture_sets(definition):
    if definition.params is None:
        return None
    ids = [] if definition.ids is None else sequence(definition.ids)
    out = []
    for k, row in enumerate(sequence(definition.params)):
        given = ids[k] if k < len(ids) else None
        if isinstance(row, values.Param):
            out.append(ParamSet(list(row.values), row.id if row.id is not None else given, list(row.marks)))
        else:
            out.append(ParamSet([row], given, []))
    return out


# ------------------------------------------------------------------ the collector


class FileFault(Exception):
    def __init__(self, told):
        Exception.__init__(self, told.text)
        self.told = told


class Collector:
    def __init__(self, files, options, exprs, features, rewrite=True):
        self.files = files
        self.paths = [p for p, _ in files]
        self.options = options
        self.exprs = exprs
        self.features = features
        self.limit = options.step_limit
        self.world = World(features)
        self.table = Table()
        self.impls = []
        self.registered = 4
        self.rewrite = rewrite
        self.file_items = {}
        self.file_names = {}   # path -> parts behind `::` that name a class
        self.errors = {}
        self.conftests = []
        self.row_faults = False    # whether a file's rows gave a fault
        self.asks_for_ids = True   # as long as the hook for ids is not built, it is not asked

    # -------------------------------------------------------------- words

    def read_paths(self):
        """Each word as (word, file part or directory, part behind `::` or None)."""
        dirs = all_directories(self.paths)
        known = set(self.paths)
        out = []
        for word in self.options.paths or [""]:
            given, colons, part = word.partition("::")
            path = plain_path(given)
            if given.startswith("/") or ".." in path.split("/"):
                raise Refused("not found: " + word)
            if colons:
                if path not in known:
                    raise Refused("not found: " + word)
                out.append((word, path, part))
            elif path in known or path in dirs:
                out.append((word, path, None))
            else:
                raise Refused("not found: " + word)
        return out

    def explicit_files(self):
        known = set(self.paths)
        out = set()
        for word in self.options.paths:
            path = plain_path(word.partition("::")[0])
            if path in known:
                out.add(path)
        return out

    def files_of(self, path, known):
        if path in known:
            return [path]
        ignore = {plain_path(p) for p in self.options.ignore}
        return walk(self.paths, path, ignore)

    # -------------------------------------------------------------- the whole

    def collect(self):
        targets = self.read_paths()
        known = set(self.paths)
        explicit = self.explicit_files()
        for path, data in self.files:
            name = path.split("/")[-1]
            code = is_test_name(path) or name == "conftest.py" or path in explicit
            self.world.add_source(path, data, code and self.rewrite)
        if self.features.builtin_fixtures:
            self.add_builtins()
        test_files = []
        for word, path, part in targets:
            for file in self.files_of(path, known):
                if file not in test_files:
                    test_files.append(file)
        conftests = self.conftests = self.load_conftests(test_files)
        texts = {}
        for file in test_files:
            self.world.take_printed()
            told = self.load(file)
            texts[file] = self.world.take_printed()
            if told is not None:
                self.errors[file] = CollectReport(file, told, texts[file])
        for path in conftests:
            self.add_module_fixtures(path, self.directory_node(parent(path)))
        for file in test_files:
            self.file_items[file] = []
            if file in self.errors:
                continue
            self.add_definitions(file)
        # Tests are read as they are behind all loads, before the hook for ids is asked for any.
        tests = {file: self.tests_of(file) for file in test_files if file not in self.errors}
        for file in test_files:
            if file in self.errors:
                continue
            try:
                self.file_items[file] = [item for test in tests[file] for item in self.items_of_test(*test)]
            except FileFault as fault:
                self.row_faults = True
                text = texts[file] + self.world.take_printed()
                self.errors[file] = CollectReport(file, fault.told, text)
                self.file_items[file] = []
            self.world.take_printed()
        taken = []
        seen = set()
        missing = None
        for word, path, part in targets:
            for file in self.files_of(path, known):
                found = part is None or file in self.errors
                for item in self.file_items[file]:
                    if part is not None and part not in (item.part, item.plain_part, item.class_name):
                        continue
                    found = True
                    if id(item) not in seen:
                        seen.add(id(item))
                        taken.append(item)
                if not found and part not in self.file_names[file] and missing is None:
                    missing = word
        if len(taken) > MOST_ITEMS:
            raise Refused("too many items")
        if missing is not None:
            raise Refused("not found: " + missing)
        errors = [self.errors[f] for f in test_files if f in self.errors]
        reached = regroup(
            taken,
            self.keys_of,
            lambda i: parent(i.file),
            lambda i: i.file,
            lambda i: None if i.class_node is None else i.class_node,
            self.features.package_scope,
        )
        selected = [i for i in reached if self.accepts(i)]
        return Collected(self.world, self.table, self.impls, reached, selected,
                         len(reached) - len(selected), errors, self.features)

    def keys_of(self, item):
        out = []
        for d, (number, value, text) in item.params.items():
            out.append((self.table.defs[d].scope, d, number))
        return out

    def accepts(self, item):
        if self.exprs[0] is not None:
            names = [d.split("/")[-1] for d in directories(item.file) if d != ""]
            names.append(item.file.split("/")[-1])
            if item.class_name is not None:
                names.append(item.class_name)
            names.append(item.name)
            names.extend(m.name for m in item.marks)
            if not matches(self.exprs[0], names, False):
                return False
        if self.exprs[1] is not None:
            if not matches(self.exprs[1], [m.name for m in item.marks], True):
                return False
        return True

    # -------------------------------------------------------------- loading

    def load(self, path):
        """Load one module; None, or what is told of its fault."""
        fault = self.world.fault(path)
        if fault is not None:
            return told_fault(self.world, path, fault)
        out = self.world.run_module(path, self.limit).out
        if isinstance(out, Raised):
            return tell(self.world, out.exc, out.trace)
        if isinstance(out, Exhausted):
            return tell(self.world, step_limit(self.world, self.limit), out.trace)
        return None

    def load_conftests(self, test_files):
        done = []
        for file in test_files:
            for d in directories(file):
                path = d + "/conftest.py" if d else "conftest.py"
                if path not in self.paths or path in done:
                    continue
                done.append(path)
                told = self.load(path)
                if told is None:
                    told = self.conftest_hooks(path)
                if told is not None:
                    self.refuse_conftest(path, told)
        return done

    def refuse_conftest(self, path, told):
        from .report import told_lines
        lines = ["ImportError while loading conftest '%s'." % path] + told_lines(told)
        raise Refused(lines=lines)

    def conftest_hooks(self, path):
        """Register the hooks of a conftest; what is told of its first fault, or None."""
        found = []
        for name, value in self.world.names(path):
            if not name.startswith("pytest_") or not isinstance(value, values.Function):
                continue
            frames = frames_of(self.world, def_frame(value))
            if name not in HOOKS:
                return Told(frames, "ValueError: unknown hook '%s'" % name)
            for arg, has_default in value.params:
                if not has_default and arg not in HOOKS[name]:
                    return Told(frames, "ValueError: hook '%s' has no argument '%s'" % (name, arg))
            mark = value.hookimpl
            wrapper = mark is not None and bool(mark.wrapper)
            if value.yields and not wrapper:
                return Told(frames, "ValueError: hook '%s' yields" % name)
            found.append(Impl(0, wrapper, mark is not None and bool(mark.tryfirst),
                              mark is not None and bool(mark.trylast), 0, value, name))
        node = self.directory_node(parent(path))
        for impl in found:
            impl.registered = self.registered
            self.registered += 1
            impl.node = node
            self.impls.append(impl)
        return None

    # -------------------------------------------------------------- nodes and definitions

    def directory_node(self, path):
        if path == "":
            return 0
        return self.table.node("Directory", self.directory_node(parent(path)), path)

    def file_node(self, path):
        return self.table.node("File", self.directory_node(parent(path)), path)

    def add_builtins(self):
        for name in ("monkeypatch", "capsys"):
            self.table.add(name=name, scope="function", autouse=False, args=[], node=0, function=None,
                           method=False, takes_request=False, params=None, builtin=name)

    def add_fixture(self, name, definition, node, method):
        function = definition.function
        self.table.add(
            name=definition.name if definition.name is not None else name,
            scope=definition.scope,
            autouse=bool(definition.autouse),
            args=arguments(function, method),
            node=node,
            function=function,
            method=method,
            takes_request=takes_request(function, method),
            params=fixture_sets(definition),
            raw=definition,
        )

    def add_module_fixtures(self, path, node):
        for name, value in self.world.names(path):
            if isinstance(value, values.FixtureDef) and value.function is not None:
                self.add_fixture(name, value, node, False)

    def test_class(self, name, value):
        return (name.startswith("Test") and isinstance(value, values.Class) and value.path is not None
                and not value.is_exception and "__init__" not in value.names)

    def add_definitions(self, file):
        node = self.file_node(file)
        # A conftest named by a word of its own has its definitions at its directory already.
        if file.split("/")[-1] != "conftest.py":
            self.add_module_fixtures(file, node)
        self.file_names[file] = set()
        for name, value in self.world.names(file):
            if self.test_class(name, value):
                self.file_names[file].add(name)
                at = self.table.node("Class", node, file, name)
                for inner, v in value.names.items():
                    if isinstance(v, values.FixtureDef) and v.function is not None:
                        self.add_fixture(inner, v, at, True)

    # -------------------------------------------------------------- items

    def tests_of(self, file):
        """The tests of a file, each with what its items are made of."""
        node = self.file_node(file)
        out = []
        module_marks = []
        for name, value in self.world.names(file):
            if name == "pytestmark":
                module_marks = marks_of_value(value)
        for name, value in self.world.names(file):
            if name.startswith("test") and isinstance(value, values.Function):
                out.append(self.test_of(file, node, node, None, None, name, value, [], module_marks))
            elif self.test_class(name, value):
                at = self.table.node("Class", node, file, name)
                class_marks = marks_of_value(value.names.get("pytestmark")) + list(value.marks)
                for inner, v in value.names.items():
                    if inner.startswith("test") and isinstance(v, values.Function):
                        out.append(self.test_of(file, node, at, name, value, inner, v, class_marks, module_marks))
        return out

    def test_of(self, file, file_node, at, class_name, class_value, name, function, class_marks, module_marks):
        own_marks = list(function.marks) + class_marks + module_marks
        uses = []
        for m in own_marks:
            if m.name == "usefixtures":
                uses.extend(a for a in m.args)
        # A bare `parametrize` (in a `pytestmark` or in `param(marks=)`) has no names and no rows.
        marks = [m for m in own_marks if m.name == "parametrize" and m.args]
        mark_lists = [(mark_names(m), mark_sets(m)) for m in marks]
        return (file, file_node, at, class_name, class_value, name, function, class_marks, module_marks, uses, mark_lists)

    def items_of_test(self, file, file_node, at, class_name, class_value, name, function, class_marks, module_marks,
                      uses, mark_lists):
        method = class_name is not None
        args = arguments(function, method)
        names_of = [n for n, sets in mark_lists]
        bound = []
        for names in names_of:
            bound.extend(n for n in names if n not in bound)
        closed = self.table.closure(at, bound, uses, args)
        try:
            lists = self.sets_of(file_node, closed, mark_lists, uses, args, function)
            sizes = [len(sets) for _, _, sets in lists]
            rows = product(sizes)
        except RowFault as fault:
            raise FileFault(Told(frames_of(self.world, def_frame(function)), "ValueError: " + fault.text))
        prefix = class_name + "::" if method else ""
        part = prefix + name
        out = []

        def item(suffix, row_bound, params, row_marks, empty):
            node = self.table.node("Item", at, file)
            all_marks = list(function.marks) + row_marks + class_marks + module_marks
            full = part + suffix
            out.append(Item(
                node_id=file + "::" + full, title=(class_name + "." if method else "") + name + suffix,
                name=name + suffix, file=file, node=node, part=full, plain_part=part, class_name=class_name,
                class_node=at if method else None, class_value=class_value, function=function, args=args,
                takes_request=takes_request(function, method), bound=row_bound, bound_names=bound,
                params=params, marks=all_marks, empty=empty, closed=closed, file_node=file_node,
                group=group_of(all_marks)))

        if not lists:
            item("", {}, {}, [], False)
            return out
        if not rows:
            item("[NOTSET]", {}, {}, [], True)
            return out
        for row in rows:
            row_bound, params, row_marks, ids = {}, {}, [], []
            for (kind, what, sets), k in zip(lists, row):
                one = sets[k]
                ids.append(one.id)
                row_marks.extend(one.marks)
                if kind == "fixture":
                    params[what] = (k, one.values[0] if one.values else None, one.id)
                else:
                    for n, v in zip(what, one.values):
                        row_bound[n] = v
            item("[" + "-".join(ids) + "]", row_bound, params, row_marks, False)
        return out

    def sets_of(self, file_node, closed, mark_lists, uses, args, function):
        """The lists of parameter sets with their ids: fixtures, then marks."""
        lists = []
        if closed.fault is None:
            known = list(closed.start)
            for d in closed.defs:
                known.extend(self.table.defs[d].args)
        else:
            known = list(args) + list(uses)
        mark_faults([(n, [len(s.values) for s in sets]) for n, sets in mark_lists], known)
        if closed.fault is None:
            for d in closed.defs:
                raw = self.table.defs[d]
                if raw.params is not None:
                    sets = [ParamSet(list(s.values), s.id, list(s.marks)) for s in raw.params]
                    lists.append(("fixture", d, sets))
        for names, sets in mark_lists:
            lists.append(("mark", names, sets))
        for kind, what, sets in lists:
            for number, one in enumerate(sets):
                if one.id is None:
                    # A fixture's `param` may have several values; its name serves for each.
                    names = [self.table.defs[what].name] * len(one.values) if kind == "fixture" else what
                    texts = [self.value_id(file_node, v, n, number, function) for n, v in zip(names, one.values)]
                    one.id = "-".join(texts)
                one.id = escape_id(one.id)
            for one, made in zip(sets, unique_ids([s.id for s in sets])):
                one.id = made
        return lists

    def value_id(self, file_node, value, name, number, function):
        made = self.hook_id(file_node, value, name, function)
        if made is not None:
            return made
        if value is None or value is True or value is False:
            return str(value)
        if isinstance(value, int):
            return str(value)
        if isinstance(value, str):
            return value
        if isinstance(value, (values.Function, values.Class)):
            return value.name
        return name + str(number)

    def hook_id(self, file_node, value, name, function):
        chain = self.table.chain(file_node)
        impls = [i for i in self.impls if i.hook == "pytest_make_parametrize_id" and i.node in chain]
        if not impls or not self.asks_for_ids:
            return None
        runner = HookRunner(self.world, self.limit, {"val": value, "argname": name})
        end = hook_call(order(impls), runner, True)
        if end.kind == "raised":
            exc, trace = end.value.thrown[0]
            raise FileFault(tell(self.world, exc, trace))
        if end.value is None:
            return None
        if not isinstance(end.value, str):
            raise FileFault(Told(frames_of(self.world, def_frame(function)), "TypeError: id is not a text"))
        return end.value


def group_of(marks):
    for m in marks:
        if m.name == "xdist_group":
            value = m.args[0] if m.args else m.kwargs.get("name")
            return value if isinstance(value, str) else None
    return None


# ------------------------------------------------------------------ hook implementations of conftests


class Fail:
    """What a phase or hook raised: a list of (exception, trace); `fault` is the text of a fixture fault."""

    def __init__(self, thrown, fault=None):
        self.thrown = thrown
        self.fault = fault


class HookRunner:
    """Runs implementations of conftests; built-in ones are Python callables."""

    def __init__(self, world, limit, named):
        self.world = world
        self.limit = limit
        self.named = named

    def args(self, function):
        return [self.named[n] for n, has_default in function.params if not has_default]

    def failed(self, out):
        if isinstance(out, Exhausted):
            return Fail([(step_limit(self.world, self.limit), out.trace)])
        return Fail([(out.exc, out.trace)])

    def own(self, function, kind, text):
        return Fail([(self.world.make_exception(kind, text), def_frame(function))])

    def call(self, impl):
        if not isinstance(impl.code, values.Function):
            fail = impl.code()
            return ("gave", None) if fail is None else ("raised", fail)
        out = self.world.call(impl.code, self.args(impl.code), self.limit).out
        if isinstance(out, Val):
            return ("gave", out.value)
        return ("raised", self.failed(out))

    def begin(self, impl):
        f = impl.code
        if not f.yields:
            out = self.world.call(f, self.args(f), self.limit).out
        else:
            out = self.world.begin(f, self.args(f), self.limit).out
        if isinstance(out, Yielded):
            return ("yielded", out.frozen)
        if isinstance(out, Val):
            return ("raised", self.own(f, "RuntimeError", "hook wrapper did not yield"))
        return ("raised", self.failed(out))

    def resume(self, impl, frozen, inner):
        f = impl.code
        if inner.kind == "raised":
            exc, trace = inner.value.thrown[0]
            sent = Raised(exc, trace)
        elif inner.kind == "list":
            sent = Val(self.world.make_list(list(inner.value)))
        else:
            sent = Val(inner.value)
        out = self.world.resume(frozen, sent, self.limit).out
        if isinstance(out, Yielded):
            self.world.abandon(out.frozen)
            return Ended("raised", self.own(f, "RuntimeError", "hook wrapper yielded twice"))
        if isinstance(out, Val):
            return Ended("gave", out.value)
        if isinstance(out, Raised) and inner.kind == "raised" and out.exc is inner.value.thrown[0][0]:
            return inner
        return Ended("raised", self.failed(out))
