"""Rows on sources, which expression_tests reads: what is done and the text stand in the table, what is wanted is made here.

Trees are those of CPython's `ast`, with the line and column of each part; whether there is one, and first faults, the model says. `blocks`
is by hand, since no text has so many indents."""
import ast

from model import lex, parse
from model.api import FAULT_TEXT, SourceFault

OPS = {ast.Add: "+", ast.Sub: "-", ast.Mult: "*", ast.FloorDiv: "//", ast.Mod: "%", ast.Pow: "**", ast.LShift: "<<", ast.RShift: ">>",
       ast.BitAnd: "&", ast.BitOr: "|", ast.BitXor: "^", ast.USub: "-", ast.UAdd: "+", ast.Invert: "~", ast.Not: "not", ast.And: "and",
       ast.Or: "or", ast.Eq: "==", ast.NotEq: "!=", ast.Lt: "<", ast.LtE: "<=", ast.Gt: ">", ast.GtE: ">=", ast.In: "in",
       ast.NotIn: "not in", ast.Is: "is", ast.IsNot: "is not"}

STATEMENTS = {ast.Expr: "do", ast.Assign: "assign", ast.AugAssign: "change", ast.Return: "return", ast.Raise: "raise",
              ast.Assert: "assert", ast.Delete: "del", ast.Global: "global", ast.Pass: "pass", ast.Break: "break", ast.Continue: "continue",
              ast.Import: "import", ast.ImportFrom: "from", ast.If: "choose", ast.While: "while", ast.For: "for", ast.Try: "try", ast.With: "with",
              ast.FunctionDef: "def", ast.ClassDef: "class"}


def place(node, lines):
    line = lines[node.lineno - 1].encode()
    return "@%d:%d" % (node.lineno, len(line[:node.col_offset].decode()) + 1)


def shown(e, lines):
    """An expression as the program tells it: behind a blank, in parentheses if it has parts."""
    def all_of(es):
        return "".join(shown(x, lines) for x in es)

    def maybe(x):
        return " _" if x is None else shown(x, lines)

    def form(word, *parts):
        return " (" + word + place(e, lines) + "".join(parts) + ")"

    if isinstance(e, ast.Name):
        return " " + e.id + place(e, lines)
    if isinstance(e, ast.Constant):
        assert e.value is None or type(e.value) in (bool, int, str)
        return " " + ("'%s'" % e.value if isinstance(e.value, str) else str(e.value)) + place(e, lines)
    if isinstance(e, ast.Tuple):
        return form("tuple", all_of(e.elts))
    if isinstance(e, ast.List):
        return form("list", all_of(e.elts))
    if isinstance(e, ast.Dict):
        return form("dict", all_of(e.keys), " :", all_of(e.values))
    if isinstance(e, ast.Attribute):
        return form(".", shown(e.value, lines), " " + e.attr)
    if isinstance(e, ast.Call):
        names = " _" * len(e.args) + "".join(" " + k.arg + place(k, lines) for k in e.keywords)
        return form("call", shown(e.func, lines), all_of(e.args), all_of([k.value for k in e.keywords]), " :", names)
    if isinstance(e, ast.Subscript) and isinstance(e.slice, ast.Slice):
        return form("[:]", shown(e.value, lines), maybe(e.slice.lower), maybe(e.slice.upper), maybe(e.slice.step))
    if isinstance(e, ast.Subscript):
        return form("[]", shown(e.value, lines), shown(e.slice, lines))
    if isinstance(e, ast.UnaryOp):
        return form(OPS[type(e.op)], shown(e.operand, lines))
    if isinstance(e, ast.BinOp):
        return form(OPS[type(e.op)], shown(e.left, lines), shown(e.right, lines))
    if isinstance(e, ast.Compare):
        return form("cmp", shown(e.left, lines), "".join(" " + OPS[type(op)] for op in e.ops), all_of(e.comparators))
    if isinstance(e, ast.BoolOp):
        return form(OPS[type(e.op)], all_of(e.values))
    if isinstance(e, ast.Yield):
        return form("yield", maybe(e.value))
    assert isinstance(e, ast.IfExp), e
    return form("if", shown(e.body, lines), shown(e.test, lines), shown(e.orelse, lines))


def maybe_name(name):
    return " _" if name is None else " " + name


def branches(s, lines):
    """The branches of an `if`, and the block behind `else`. CPython has an `elif` as an `if` there."""
    told = " (if" + place(s, lines) + shown(s.test, lines) + block(s.body, lines) + ")"
    if s.orelse and lines[s.orelse[0].lineno - 1].encode()[s.orelse[0].col_offset:].startswith(b"elif"):
        return told + branches(s.orelse[0], lines)
    return told + block(s.orelse, lines)


def parts(s, lines):
    """The parts of a statement, in the order of the text."""
    def maybe(x):
        return " _" if x is None else shown(x, lines)

    def target(t):
        return " (," + "".join(shown(x, lines) for x in t.elts) + ")" if isinstance(t, ast.Tuple) else shown(t, lines)

    def named(nodes, told):
        return "".join(" (" + told(x)[0] + place(x, lines) + told(x)[1] + ")" for x in nodes)

    def definition():
        return place(s, lines) + " (@" + "".join(shown(x, lines) for x in s.decorator_list) + ") " + s.name

    if isinstance(s, ast.Expr):
        return shown(s.value, lines)
    if isinstance(s, ast.Assign):
        return "".join(target(t) for t in s.targets) + shown(s.value, lines)
    if isinstance(s, ast.AugAssign):
        return shown(s.target, lines) + " " + OPS[type(s.op)] + "=" + shown(s.value, lines)
    if isinstance(s, ast.Return):
        return maybe(s.value)
    if isinstance(s, ast.Raise):
        return maybe(s.exc)
    if isinstance(s, ast.Assert):
        return shown(s.test, lines) + maybe(s.msg)
    if isinstance(s, ast.Delete):
        return "".join(shown(x, lines) for x in s.targets)
    if isinstance(s, ast.Global):
        return "".join(" " + name for name in s.names)
    if isinstance(s, ast.Import):
        return "".join(" " + name for name in s.names[0].name.split(".")) + maybe_name(s.names[0].asname)
    if isinstance(s, ast.ImportFrom):
        return "".join(" " + name for name in s.module.split(".")) + named(s.names, lambda x: (x.name, maybe_name(x.asname)))
    if isinstance(s, ast.If):
        return branches(s, lines)
    if isinstance(s, ast.While):
        return shown(s.test, lines) + block(s.body, lines)
    if isinstance(s, ast.For):
        return target(s.target) + shown(s.iter, lines) + block(s.body, lines)
    if isinstance(s, ast.Try):
        handlers = named(s.handlers, lambda x: ("except", maybe(x.type) + maybe_name(x.name) + block(x.body, lines)))
        return block(s.body, lines) + handlers + block(s.orelse, lines) + block(s.finalbody, lines)
    if isinstance(s, ast.With):
        item, = s.items
        return shown(item.context_expr, lines) + maybe_name(item.optional_vars and item.optional_vars.id) + block(s.body, lines)
    if isinstance(s, ast.FunctionDef):
        defaults = dict(zip(reversed([x.arg for x in s.args.args]), reversed(s.args.defaults)))
        params = named(s.args.args, lambda x: (x.arg, maybe(x.annotation) + maybe(defaults.get(x.arg))))
        return definition() + params + maybe(s.returns) + block(s.body, lines)
    if isinstance(s, ast.ClassDef):
        return definition() + maybe(s.bases[0] if s.bases else None) + block(s.body, lines)
    assert isinstance(s, (ast.Pass, ast.Break, ast.Continue)), s
    return ""


def start(s, lines):
    """Where a statement begins: CPython has a definition at its word, and not at the `@` before it."""
    decorators = getattr(s, "decorator_list", [])
    line = decorators[0].lineno if decorators else 0
    return "@%d:%d" % (line, lines[line - 1].index("@") + 1) if decorators else place(s, lines)


def statements(body, lines):
    """Statements as the program tells them, each in parentheses behind a blank."""
    return "".join(" (" + STATEMENTS[type(s)] + start(s, lines) + parts(s, lines) + ")" for s in body)


def block(body, lines):
    return " {" + statements(body, lines) + "}"


def by_cpython(text):
    return statements(ast.parse(text).body, text.split("\n"))


def by_model(text):
    """`a tree`, or the first fault."""
    try:
        parse.parse(lex.tokens(text))
        return "a tree"
    except SourceFault as fault:
        return "%s@%d:%d" % (FAULT_TEXT[fault.kind], fault.line, fault.column)


def nested(inner, levels, blocks=0, head="", line=""):
    front, back = inner.split("…")
    lines = [" " * n + head for n in range(blocks)]
    return "\n".join(lines + [" " * blocks + line + front * levels + "a" + back * levels]) + "\n"


BY_HAND = {"blocks 100": "a tree", "blocks 101": "nesting too deep@101:101"}


def answer(act, text):
    """What an act gives for a text, or None where it is no act."""
    word, *numbers = act.split(" ")
    numbers = [int(it) for it in numbers if it.isdigit()]
    source = text.replace("␊", "\n")
    if word == "read":
        verdict = by_model(source)
        return by_cpython(source) if verdict == "a tree" else verdict
    if word == "repeat":
        return by_model(source * numbers[0])
    if word == "nest" and len(numbers) == 1:
        return by_model(nested(text, numbers[0]))
    if word == "nest":
        head, line, inner = text.split("␊")
        return by_model(nested(inner, *numbers, head, line))
    return BY_HAND.get(act)


def made(line):
    """A row's line with what is wanted made anew, and what is told of it: of a row that begins with `wrong`, what is given in its place."""
    asked, _, want = line.rpartition("\t")
    act, _, text = asked.partition("\t")
    wrong = act.startswith("wrong ")
    given = answer(act.removeprefix("wrong "), text)
    if given is None:
        given = "no row"
    if wrong:
        return line, "%s, %s: %s" % (act, text, given), given != want
    return "%s\t%s" % (asked, given), None, True
