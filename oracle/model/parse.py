"""Tokens to the tree.

Every parse function consumes tokens in order of text and stops at the first token at which no reading goes on
(the grammar is LL enough for that: targets are read as the expressions of their tokens).
Levels: every expression node has `.h`, its height in levels; a parse function is given the level `L` at which its
node stands if nothing wraps it; a token that wraps a left operand checks L + height(left).
"""
from __future__ import annotations
from .api import SourceFault, Features
from .lex import Token

MAX_LEVEL = 100
UNSUPPORTED = set('async await lambda nonlocal for with from * ** := @ / /= @= ...'.split())
AUG = {'+=': '+', '-=': '-', '*=': '*', '//=': '//', '%=': '%', '**=': '**', '<<=': '<<', '>>=': '>>', '&=': '&',
       '|=': '|', '^=': '^'}
COMPARE = {'==', '!=', '<', '<=', '>', '>=', 'in', 'is'}


# Is a tuple in parentheses two levels (parentheses, tuple)? (docs/DECISIONS.md)
# An assignment target counts as the expression of its tokens for Nesting.


class Node:
    """kind plus fields; at = (line, column)"""
    def __init__(self, kind, at, **fields):
        self.kind = kind
        self.at = at
        self.h = 1
        self.__dict__.update(fields)

    def __repr__(self):
        inner = ', '.join(f'{k}={v!r}' for k, v in self.__dict__.items() if k not in ('kind', 'at', 'h'))
        return f'{self.kind}({inner})'

    @property
    def line(self):
        return self.at[0]


def height(*parts):
    return 1 + max([p.h for p in parts if p is not None], default=0)


def parse(tokens, features: Features = None):
    return Parser(tokens, features or Features()).module()


class Parser:
    def __init__(self, tokens, features):
        self.toks = tokens
        self.i = 0
        self.features = features

    # -- tokens
    @property
    def tok(self):
        return self.toks[self.i]

    def is_op(self, *ops):
        t = self.tok
        return t.kind == 'OP' and t.value in ops

    def peek_op(self, n, op):
        k = self.i + n
        return k < len(self.toks) and self.toks[k].kind == 'OP' and self.toks[k].value == op

    def fail(self):
        t = self.tok
        kind = 'Unsupported' if t.kind == 'OP' and t.value in UNSUPPORTED else 'Unexpected'
        raise SourceFault(kind, t.line, t.column)

    def nesting(self, t=None):
        t = t or self.tok
        raise SourceFault('Nesting', t.line, t.column)

    def check(self, depth, t=None):
        if depth > MAX_LEVEL:
            self.nesting(t)

    def take(self):
        t = self.tok
        self.i += 1
        return t

    def op(self, value):
        if not self.is_op(value):
            self.fail()
        return self.take()

    def kind(self, kind):
        if self.tok.kind != kind:
            self.fail()
        return self.take()

    def at(self):
        return (self.tok.line, self.tok.column)

    # -- module and statements
    def module(self):
        body = []
        at = self.at()
        while self.tok.kind != 'END':
            self.stmt(body)
        node = Node('Module', at, body=body)
        context(node, self.features)
        return node

    def stmt(self, out):
        t = self.tok
        if t.kind == 'OP':
            f = {'if': self.if_, 'while': self.while_, 'for': self.for_, 'try': self.try_, 'with': self.with_,
                 'def': self.def_, 'class': self.class_, '@': self.decorated}.get(t.value)
            if f:
                out.append(f())
                return
        self.simples(out)

    def simples(self, out):
        out.append(self.simple())
        while True:
            if self.is_op(';'):
                self.take()
                if self.tok.kind == 'NEWLINE':
                    self.take()
                    return
                out.append(self.simple())
                continue
            self.kind('NEWLINE')
            return

    def block(self):
        out = []
        if self.tok.kind == 'NEWLINE':
            self.take()
            self.kind('INDENT')
            self.stmt(out)
            while self.tok.kind != 'DEDENT':
                if self.tok.kind == 'END':
                    self.fail()
                self.stmt(out)
            self.take()
        else:
            self.simples(out)
        return out

    def simple(self):
        t = self.tok
        at = self.at()
        if t.kind == 'OP':
            v = t.value
            if v in ('pass', 'break', 'continue'):
                self.take()
                return Node(v.capitalize(), at)
            if v == 'return':
                return self.return_()
            if v == 'raise':
                self.take()
                value = None
                if self.tok.kind != 'NEWLINE' and not self.is_op(';'):
                    value = self.expr(1)
                return Node('Raise', at, value=value)
            if v == 'assert':
                self.take()
                test = self.expr(1)
                msg = None
                if self.is_op(','):
                    self.take()
                    msg = self.expr(1)
                return Node('Assert', at, test=test, msg=msg)
            if v == 'del':
                self.take()
                return Node('Del', at, target=self.single())
            if v == 'global':
                self.take()
                names = [(self.at(), self.kind('NAME').value)]
                while self.is_op(','):
                    self.take()
                    names.append((self.at(), self.kind('NAME').value))
                return Node('Global', at, names=[n for _, n in names], name_ats=[a for a, _ in names])
            if v == 'yield':
                y = self.yield_()
                return Node('YieldStmt', at, targets=[], value=y, ret=False, yield_at=y.at)
            if v == 'import':
                return self.import_()
            if v == 'from':
                return self.from_()
        return self.assign_or_expr()

    def yield_(self):
        at = self.at()
        self.op('yield')
        value = None
        if self.starts_expr():
            value = self.exprs(1)
        return Node('Yield', at, value=value)

    def starts_expr(self):
        """Whether an expression may start at this token; a token that starts none is judged by what follows."""
        t = self.tok
        if t.kind in ('NAME', 'NUMBER', 'TEXT', 'FBEGIN'):
            return True
        return t.kind == 'OP' and t.value in ('not', '-', '+', '~', '(', '[', '{', 'True', 'False', 'None')

    def return_(self):
        at = self.at()
        self.take()
        if self.tok.kind == 'NEWLINE' or self.is_op(';'):
            return Node('Return', at, value=None)
        if self.is_op('(') and self.peek_op(1, 'yield'):
            self.take()
            y = self.yield_()
            self.op(')')
            if self.tok.kind != 'NEWLINE' and not self.is_op(';'):
                self.fail()
            return Node('YieldStmt', at, targets=[], value=y, ret=True, yield_at=y.at)
        return Node('Return', at, value=self.exprs(1))

    def dotted(self):
        names = [self.kind('NAME').value]
        while self.is_op('.'):
            self.take()
            names.append(self.kind('NAME').value)
        return names

    def import_(self):
        at = self.at()
        self.take()
        names = self.dotted()
        alias = None
        if self.is_op('as'):
            self.take()
            alias = self.kind('NAME').value
        return Node('Import', at, names=names, alias=alias)

    def from_(self):
        at = self.at()
        self.take()
        module = self.dotted()
        self.op('import')
        paren = False
        if self.is_op('('):
            self.take()
            paren = True
        names = []
        while True:
            name = self.kind('NAME').value
            alias = None
            if self.is_op('as'):
                self.take()
                alias = self.kind('NAME').value
            names.append((name, alias))
            if self.is_op(','):
                self.take()
                if paren and self.is_op(')'):
                    break
                continue
            break
        if paren:
            self.op(')')
        return Node('From', at, module=module, names=names)

    # -- assignment and expression statements.
    def assign_or_expr(self):
        """A target is read as the expression of its tokens, and counts as that one; `=` may follow where it is a target."""
        at = self.at()
        targets = []
        while True:
            if targets and self.is_op('yield'):
                y = self.yield_()
                return Node('YieldStmt', at, targets=targets, value=y, ret=False, yield_at=y.at)
            e = self.exprs(1)
            items = e.items if e.kind == 'Tuple' else [e]
            if self.is_op('='):
                if not all(is_single(x) for x in items) or e.kind == 'Tuple' and not items:
                    self.fail()
                self.take()
                targets.append(Node('Target', items[0].at, items=items, unpack=e.kind == 'Tuple'))
                continue
            if self.tok.kind == 'OP' and self.tok.value in AUG and not targets and is_single(e):
                op = AUG[self.take().value]
                value = self.expr(1)
                return Node('Aug', at, target=e, op=op, value=value)
            if targets:
                return Node('Assign', at, targets=targets, value=e)
            return Node('Expr', at, value=e)

    def starts_primary(self):
        t = self.tok
        if t.kind in ('NAME', 'NUMBER', 'TEXT', 'FBEGIN'):
            return True
        return t.kind == 'OP' and t.value in ('(', '[', '{', 'True', 'False', 'None')

    def single(self, L=1):
        """A target alone (for, del). What is no target yet must become a part of one, so it stands one level deeper."""
        if not self.starts_primary():
            self.fail()
        e = self.atom(L if self.tok.kind == 'NAME' else L + 1)
        while True:
            if self.is_op('.') or self.is_op('['):
                e = self.suffix(e, L, aim=True)
            elif self.is_op('('):
                e = self.suffix(e, L + 1)
            else:
                break
        if not is_single(e):
            self.fail()
        return e

    def target(self, ends):
        items = [self.single()]
        comma = False
        at = items[0].at
        while self.is_op(','):
            if not comma:
                self.check(1 + items[0].h)
            self.take()
            comma = True
            if self.is_op(ends):
                break
            items.append(self.single(2))
        return Node('Target', at, items=items, unpack=comma)

    # -- compound statements
    def if_(self):
        at = self.at()
        self.take()
        arms = []
        test = self.expr(1)
        self.op(':')
        arms.append((test, self.block()))
        lines = [at[0]]
        while self.is_op('elif'):
            lines.append(self.at()[0])
            self.take()
            test = self.expr(1)
            self.op(':')
            arms.append((test, self.block()))
        orelse = None
        if self.is_op('else'):
            self.take()
            self.op(':')
            orelse = self.block()
        return Node('If', at, arms=arms, orelse=orelse, lines=lines)

    def while_(self):
        at = self.at()
        self.take()
        test = self.expr(1)
        self.op(':')
        return Node('While', at, test=test, body=self.block())

    def for_(self):
        at = self.at()
        self.take()
        target = self.target('in')
        self.op('in')
        it = self.exprs(1)
        self.op(':')
        return Node('For', at, target=target, iter=it, body=self.block())

    def try_(self):
        at = self.at()
        self.take()
        self.op(':')
        body = self.block()
        handlers, orelse, final = [], None, None
        if self.is_op('finally'):
            self.take()
            self.op(':')
            final = self.block()
        elif self.is_op('except'):
            while self.is_op('except'):
                hat = self.at()
                self.take()
                cls, name = None, None
                if not self.is_op(':'):
                    cls = self.expr(1)
                    if self.is_op('as'):
                        self.take()
                        name = self.kind('NAME').value
                self.op(':')
                handlers.append(Node('Except', hat, cls=cls, name=name, body=self.block()))
            if self.is_op('else'):
                self.take()
                self.op(':')
                orelse = self.block()
            if self.is_op('finally'):
                self.take()
                self.op(':')
                final = self.block()
        else:
            self.fail()
        return Node('Try', at, body=body, handlers=handlers, orelse=orelse, final=final)

    def with_(self):
        at = self.at()
        self.take()
        e = self.expr(1)
        name = None
        if self.is_op('as'):
            self.take()
            name = self.kind('NAME').value
        self.op(':')
        return Node('With', at, value=e, name=name, body=self.block())

    def decorated(self):
        at = self.at()
        decorators = []
        while self.is_op('@'):
            self.take()
            decorators.append(self.expr(1))
            self.kind('NEWLINE')
        if self.is_op('def'):
            return self.def_(decorators, at)
        if self.is_op('class'):
            return self.class_(decorators, at)
        self.fail()

    def def_(self, decorators=(), at=None):
        def_line = self.at()
        at = at or def_line
        self.take()
        name = self.kind('NAME').value
        self.op('(')
        params = []
        while not self.is_op(')'):
            pat = self.at()
            pname = self.kind('NAME').value
            default = annotation = None
            if self.is_op(':'):
                self.take()
                annotation = self.expr(1)
            if self.is_op('='):
                self.take()
                default = self.expr(1)
            params.append(Node('Param', pat, name=pname, default=default, annotation=annotation))
            if self.is_op(','):
                self.take()
                continue
            if not self.is_op(')'):
                self.fail()
        self.op(')')
        returns = None
        if self.is_op('->'):
            self.take()
            returns = self.expr(1)
        self.op(':')
        return Node('Def', at, def_line=def_line[0], name=name, params=params, decorators=list(decorators),
                    returns=returns, body=self.block())

    def class_(self, decorators=(), at=None):
        class_line = self.at()
        at = at or class_line
        self.take()
        name = self.kind('NAME').value
        base = None
        if self.is_op('('):
            self.take()
            if not self.is_op(')'):
                base = self.expr(1)
            self.op(')')
        self.op(':')
        return Node('Class', at, class_line=class_line[0], name=name, base=base, decorators=list(decorators),
                    body=self.block())

    # -- expressions
    def exprs(self, L):
        """expr {"," expr} [","] ; a comma makes a tuple at L whose elements are at L + 1"""
        at = self.at()
        first = self.expr(L)
        if not self.is_op(','):
            return first
        self.check(L + first.h)
        items = [first]
        while self.is_op(','):
            self.take()
            if not self.starts_expr():
                break
            items.append(self.expr(L + 1))
        return make_tuple(items)

    def expr(self, L):
        return self.rest_ifelse(self.or_(L), L)

    def rest_ifelse(self, e, L):
        if self.is_op('if'):
            self.check(max(L + e.h, L + 1))
            self.take()
            cond = self.or_(L + 1)
            self.op('else')
            self.check(L + 1)
            other = self.expr(L + 1)
            n = Node('IfElse', e.at, then=e, cond=cond, other=other)
            n.h = height(e, cond, other)
            return n
        return e

    def or_(self, L):
        return self.rest_or(self.and_(L), L)

    def rest_or(self, e, L):
        return self.nary(e, L, 'or', 'Or', self.and_)

    def and_(self, L):
        return self.rest_and(self.not_(L), L)

    def rest_and(self, e, L):
        return self.nary(e, L, 'and', 'And', self.not_)

    def nary(self, e, L, op, kind, part):
        if not self.is_op(op):
            return e
        items = [e]
        self.check(max(L + e.h, L + 1))
        while self.is_op(op):
            self.take()
            items.append(part(L + 1))
        n = Node(kind, e.at, items=items)
        n.h = height(*items)
        return n

    def not_(self, L):
        if self.is_op('not'):
            at = self.at()
            self.check(L + 1)
            self.take()
            x = self.not_(L + 1)
            n = Node('Not', at, x=x)
            n.h = height(x)
            return n
        return self.compare(L)

    def compare(self, L):
        return self.rest_compare(self.bitor(L), L)

    def rest_compare(self, e, L):
        rest = []
        while True:
            t = self.tok
            if t.kind != 'OP' or (t.value not in COMPARE and t.value != 'not'):
                break
            if not rest:
                self.check(max(L + e.h, L + 1))
            self.take()
            op = t.value
            if op == 'not':
                self.op('in')
                op = 'not in'
            elif op == 'is' and self.is_op('not'):
                self.take()
                op = 'is not'
            rest.append((op, self.bitor(L + 1)))
        if not rest:
            return e
        n = Node('Compare', e.at, first=e, rest=rest)
        n.h = height(e, *[x for _, x in rest])
        return n

    def left(self, e, L, ops, part):
        while self.tok.kind == 'OP' and self.tok.value in ops:
            self.check(max(L + e.h, L + 1))
            op = self.take().value
            r = part(L + 1)
            n = Node('BinOp', e.at, op=op, left=e, right=r)
            n.h = height(e, r)
            e = n
        return e

    def bitor(self, L):
        return self.rest_bitor(self.xor(L), L)

    def rest_bitor(self, e, L):
        return self.left(e, L, ('|',), self.xor)

    def xor(self, L):
        return self.rest_xor(self.band(L), L)

    def rest_xor(self, e, L):
        return self.left(e, L, ('^',), self.band)

    def band(self, L):
        return self.rest_band(self.shift(L), L)

    def rest_band(self, e, L):
        return self.left(e, L, ('&',), self.shift)

    def shift(self, L):
        return self.rest_shift(self.sum(L), L)

    def rest_shift(self, e, L):
        return self.left(e, L, ('<<', '>>'), self.sum)

    def sum(self, L):
        return self.rest_sum(self.prod(L), L)

    def rest_sum(self, e, L):
        return self.left(e, L, ('+', '-'), self.prod)

    def prod(self, L):
        return self.rest_prod(self.unary(L), L)

    def rest_prod(self, e, L):
        return self.left(e, L, ('*', '//', '%'), self.unary)

    def unary(self, L):
        if self.is_op('-', '+', '~'):
            at = self.at()
            self.check(L + 1)
            op = self.take().value
            x = self.unary(L + 1)
            n = Node('UnOp', at, op=op, x=x)
            n.h = height(x)
            return n
        return self.rest_power(self.primary(L), L)

    def rest_power(self, e, L):
        if self.is_op('**'):
            self.check(max(L + e.h, L + 1))
            self.take()
            r = self.unary(L + 1)
            n = Node('BinOp', e.at, op='**', left=e, right=r)
            n.h = height(e, r)
            return n
        return e

    def primary(self, L):
        e = self.atom(L)
        while self.is_op('.', '(', '['):
            e = self.suffix(e, L)
        return e

    def suffix(self, e, L, aim=False):
        self.check(L + e.h)
        if self.is_op('.'):
            self.take()
            name = self.kind('NAME').value
            n = Node('Attr', e.at, x=e, name=name)
            n.h = height(e)
        elif self.is_op('('):
            self.take()
            args = self.args(L + 1)
            self.op(')')
            n = Node('Call', e.at, f=e, args=args)
            n.h = height(e, *[a for _, a in args])
        else:
            self.take()
            n = self.index(e, L, aim)
            self.op(']')
        return n

    def index(self, e, L, aim=False):
        """With `aim` a target is read: a slice is none, so from its `:` on it stands one level deeper."""
        parts = [None, None, None]
        is_slice = False
        if not self.is_op(':'):
            parts[0] = self.expr(L + 1)
        if self.is_op(':'):
            is_slice = True
            L += aim
            self.check(L + e.h)
            if parts[0] is not None:
                self.check(L + parts[0].h)
            self.take()
            if not self.is_op(']') and not self.is_op(':'):
                parts[1] = self.expr(L + 1)
            if self.is_op(':'):
                self.take()
                if not self.is_op(']'):
                    parts[2] = self.expr(L + 1)
        if is_slice:
            n = Node('Slice', e.at, x=e, parts=parts)
        else:
            n = Node('Sub', e.at, x=e, index=parts[0])
        n.h = height(e, *parts)
        return n

    def args(self, L):
        """list of (name or None, expr)"""
        out = []
        while not self.is_op(')'):
            at = self.at()
            if self.tok.kind == 'NAME' and self.peek_op(1, '='):
                self.check(L)
                name = self.take().value
                self.take()
                e = self.expr(L)
                out.append((name, e))
                e.arg_at = at
            else:
                e = self.expr(L)
                e.arg_at = at
                out.append((None, e))
            if self.is_op(','):
                self.take()
                continue
            if not self.is_op(')'):
                self.fail()
        return out

    def atom(self, L):
        t = self.tok
        at = self.at()
        ok = self.starts_primary()
        if not ok:
            self.fail()
        self.check(L)
        if t.kind == 'NAME':
            self.take()
            return Node('Name', at, name=t.value)
        if t.kind == 'NUMBER':
            self.take()
            return Node('Num', at, value=t.value)
        if t.kind in ('TEXT', 'FBEGIN'):
            return self.texts(L)
        v = t.value
        if v in ('True', 'False', 'None'):
            self.take()
            return Node('Const', at, value={'True': True, 'False': False, 'None': None}[v])
        if v == '(':
            self.take()
            if self.is_op(')'):
                self.take()
                return Node('Tuple', at, items=[])
            e = self.exprs(L + 1)
            self.op(')')
            n = Node('Paren', at, x=e)
            n.h = height(e)
            return n
        if v == '[':
            self.take()
            items = []
            while not self.is_op(']'):
                items.append(self.expr(L + 1))
                if self.features.fstrings and len(items) == 1 and self.is_op('for'):
                    loops = self.comp(L + 1)
                    self.op(']')
                    n = Node('ListComp', at, elt=items[0], clauses=loops)
                    n.h = height(items[0], *[c[2] if c[0] == 'for' else c[1] for c in loops])
                    return n
                if self.is_op(','):
                    self.take()
                    continue
                if not self.is_op(']'):
                    self.fail()
            self.op(']')
            n = Node('List', at, items=items)
            n.h = height(*items)
            return n
        # '{'
        self.take()
        pairs = []
        while not self.is_op('}'):
            k = self.expr(L + 1)
            self.op(':')
            val = self.expr(L + 1)
            pairs.append((k, val))
            if self.features.fstrings and len(pairs) == 1 and self.is_op('for'):
                loops = self.comp(L + 1)
                self.op('}')
                n = Node('DictComp', at, key=k, value=val, clauses=loops)
                n.h = height(k, val, *[c[2] if c[0] == 'for' else c[1] for c in loops])
                return n
            if self.is_op(','):
                self.take()
                continue
            if not self.is_op('}'):
                self.fail()
        self.op('}')
        n = Node('Dict', at, pairs=pairs)
        n.h = height(*[x for p in pairs for x in p])
        return n

    def comp(self, L):
        """clauses: ('for', Target-names, expr) or ('if', expr); iterables and conditions at L"""
        out = []
        while True:
            if self.is_op('for'):
                self.take()
                names = [self.kind('NAME').value]
                unpack = False
                while self.is_op(','):
                    self.take()
                    unpack = True
                    if self.is_op('in'):
                        break
                    names.append(self.kind('NAME').value)
                self.op('in')
                out.append(('for', (names, unpack), self.or_(L)))
            elif out and self.is_op('if'):
                self.take()
                out.append(('if', self.or_(L)))
            else:
                return out

    def texts(self, L):
        at = self.at()
        parts = []          # str or ('field', expr, conv)
        is_f = False
        hs = []
        while self.tok.kind in ('TEXT', 'FBEGIN'):
            if self.tok.kind == 'TEXT':
                parts.append(self.take().value)
                continue
            is_f = True
            self.take()
            while self.tok.kind != 'FEND':
                if self.tok.kind == 'FPART':
                    parts.append(self.take().value)
                elif self.tok.kind == 'FOPEN':
                    self.check(L + 1)
                    self.take()
                    e = self.exprs(L + 1)
                    conv = 's'
                    if self.tok.kind == 'FCONV':
                        conv = self.take().value
                    self.kind('FCLOSE')
                    parts.append(('field', e, conv))
                    hs.append(e)
                else:
                    self.fail()
            self.take()
        if not is_f:
            return Node('Text', at, value=''.join(parts))
        n = Node('FText', at, parts=parts)
        n.h = height(*hs)
        return n


def make_tuple(items):
    n = Node('Tuple', items[0].at, items=items)
    n.h = height(*items)
    return n


def is_single(e):
    return e.kind in ('Name', 'Attr', 'Sub')


# ---- Context
def context(module, features):
    """Raises the first Context fault in order of the text."""
    found = []

    def bad(at):
        found.append(at)

    # scope: 'module' | 'class' | 'func' | 'classfunc'
    def block(body, where, loop, yield_ok):
        for s in body:
            stmt(s, where, loop, yield_ok)

    def exprs_of(e, comp_bad):
        """walks an expression"""
        if e is None:
            return
        k = e.kind
        if k == 'Call':
            exprs_of(e.f, comp_bad)
            named = set()
            for name, a in e.args:
                if name is None:
                    if named:
                        bad(a.arg_at)
                else:
                    if name in named:
                        bad(a.arg_at)
                    named.add(name)
                exprs_of(a, comp_bad)
        elif k in ('ListComp', 'DictComp'):
            if comp_bad:
                bad(e.at)
            for x in ([e.elt] if k == 'ListComp' else [e.key, e.value]):
                exprs_of(x, comp_bad)
            for c in e.clauses:
                exprs_of(c[2] if c[0] == 'for' else c[1], comp_bad)
        elif k == 'FText':
            for p in e.parts:
                if not isinstance(p, str):
                    exprs_of(p[1], comp_bad)
        elif k in ('Tuple', 'List', 'And', 'Or'):
            for x in e.items:
                exprs_of(x, comp_bad)
        elif k == 'Target':
            for x in e.items:
                exprs_of(x, comp_bad)
        elif k == 'Dict':
            for a, b in e.pairs:
                exprs_of(a, comp_bad)
                exprs_of(b, comp_bad)
        elif k in ('Paren', 'Not', 'UnOp', 'Attr'):
            exprs_of(e.x, comp_bad)
        elif k == 'BinOp':
            exprs_of(e.left, comp_bad)
            exprs_of(e.right, comp_bad)
        elif k == 'Compare':
            exprs_of(e.first, comp_bad)
            for _, x in e.rest:
                exprs_of(x, comp_bad)
        elif k == 'IfElse':
            exprs_of(e.then, comp_bad)
            exprs_of(e.cond, comp_bad)
            exprs_of(e.other, comp_bad)
        elif k == 'Sub':
            exprs_of(e.x, comp_bad)
            exprs_of(e.index, comp_bad)
        elif k == 'Slice':
            exprs_of(e.x, comp_bad)
            for p in e.parts:
                exprs_of(p, comp_bad)

    def stmt(s, where, loop, yield_ok):
        k = s.kind
        in_func = where in ('func',)
        cb = where == 'class'
        if k == 'YieldStmt':
            if s.ret and not in_func:
                bad(s.at)
            if not in_func or not yield_ok:
                bad(s.yield_at)
            for t in s.targets:
                exprs_of(t, cb)
            exprs_of(s.value.value, cb)
        elif k == 'Return':
            if not in_func:
                bad(s.at)
            exprs_of(s.value, cb)
        elif k in ('Break', 'Continue'):
            if not loop:
                bad(s.at)
        elif k == 'Global':
            if not in_func:
                bad(s.at)
        elif k == 'Import':
            if len(s.names) > 1 and s.alias is None:
                bad(s.at)
        elif k in ('Expr', 'Raise'):
            exprs_of(s.value, cb)
        elif k == 'Assign':
            for t in s.targets:
                exprs_of(t, cb)
            exprs_of(s.value, cb)
        elif k == 'Aug':
            exprs_of(s.target, cb)
            exprs_of(s.value, cb)
        elif k == 'Assert':
            exprs_of(s.test, cb)
            exprs_of(s.msg, cb)
        elif k == 'Del':
            exprs_of(s.target, cb)
        elif k == 'If':
            for test, body in s.arms:
                exprs_of(test, cb)
                block(body, where, loop, yield_ok)
            if s.orelse:
                block(s.orelse, where, loop, yield_ok)
        elif k == 'While':
            exprs_of(s.test, cb)
            block(s.body, where, True, False)
        elif k == 'For':
            exprs_of(s.target, cb)
            exprs_of(s.iter, cb)
            block(s.body, where, True, False)
        elif k == 'Try':
            block(s.body, where, loop, yield_ok)
            for n, h in enumerate(s.handlers):
                if h.cls is None and n + 1 < len(s.handlers):
                    bad(h.at)
                exprs_of(h.cls, cb)
                block(h.body, where, loop, False)
            if s.orelse:
                block(s.orelse, where, loop, False)
            if s.final:
                block(s.final, where, loop, False)
        elif k == 'With':
            exprs_of(s.value, cb)
            block(s.body, where, loop, False)
        elif k == 'Def':
            if in_func:
                bad(s.at)
            for d in s.decorators:
                exprs_of(d, cb)
            globs = global_names(s.body)
            seen = set()
            had_default = False
            for p in s.params:
                if p.name in seen or p.name in globs or (had_default and p.default is None):
                    bad(p.at)
                seen.add(p.name)
                exprs_of(p.annotation, False)
                if p.default is not None:
                    had_default = True
                    exprs_of(p.default, cb)
            exprs_of(s.returns, False)
            block(s.body, 'func', False, True)
        elif k == 'Class':
            if in_func or where == 'class':
                bad(s.at)
            for d in s.decorators:
                exprs_of(d, cb)
            exprs_of(s.base, cb)
            block(s.body, 'func_class' if in_func else 'class', False, False)

    block(module.body, 'module', False, False)
    if found:
        line, column = min(found)
        raise SourceFault('Context', line, column)


def walk_stmts(body):
    """All statements of a body, nested blocks too, but not those of nested functions and classes."""
    for s in body:
        yield s
        if s.kind == 'If':
            for _, b in s.arms:
                yield from walk_stmts(b)
            if s.orelse:
                yield from walk_stmts(s.orelse)
        elif s.kind in ('While', 'For', 'With'):
            yield from walk_stmts(s.body)
        elif s.kind == 'Try':
            yield from walk_stmts(s.body)
            for h in s.handlers:
                yield from walk_stmts(h.body)
            if s.orelse:
                yield from walk_stmts(s.orelse)
            if s.final:
                yield from walk_stmts(s.final)


def global_names(body):
    out = set()
    for s in walk_stmts(body):
        if s.kind == 'Global':
            out.update(s.names)
    return out
