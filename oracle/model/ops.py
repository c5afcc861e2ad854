"""Operators with their costs.  `Ops` is a part of World: it needs self.charge(n) and self.err(class, text).

Costs are charged as the work goes on and every change of the heap comes last, so that an exhausted operator
changes nothing, and one that raises has charged what it compared, tested, visited and used up to there.
"""
from __future__ import annotations
from . import values as V
from .values import PList, PTuple, PDict, PRange, Instance, Function, Class, kind, is_number, MAX_LEVEL, MAX_LEN
from .lex import MAX_INT, MIN_INT

# ---- choices (docs/DECISIONS.md)
ORDER_ERROR_OUTER = True      # T, T of an order error are the kinds of the operator's operands, not of the inner pair
INPLACE_LIST_ADD = True       # `xs += ys` changes the list itself
BOOL_BITOPS = True            # `True & False` is a bool


class NotOrdered(Exception):
    def __init__(self, a, b):
        self.a, self.b = a, b


class Ops:
    # ---- numbers
    def number(self, n):
        if not MIN_INT <= n <= MAX_INT:
            raise self.err('OverflowError', 'whole number out of range')
        return n

    def too_long(self, n):
        if n > MAX_LEN:
            raise self.err('MemoryError', 'sequence too long')

    # ---- keys
    def key(self, v):
        """The key as plain data; each use of a tuple costs one per element of it and of the tuples in it."""
        return self._key(v, 1)

    def _key(self, v, level):
        if level > MAX_LEVEL:
            raise self.err('RecursionError', 'nesting too deep')
        if v is None:
            return ('n',)
        if isinstance(v, int):
            return ('i', int(v))
        if isinstance(v, str):
            return ('s', v)
        if isinstance(v, PTuple):
            out = []
            for x in v.items:
                self.charge(1)
                out.append(self._key(x, level + 1))
            return ('t', tuple(out))
        if isinstance(v, (Function, Class, Instance)):
            return ('o', v)
        raise self.err('TypeError', f"unhashable type: '{kind(v)}'")

    # ---- equality and order
    def equal(self, a, b, level=1):
        if is_number(a) and is_number(b):
            return a == b
        if isinstance(a, str) and isinstance(b, str):
            if len(a) != len(b):
                return False
            for x, y in zip(a, b):
                self.charge(1)
                if x != y:
                    return False
            return True
        if (isinstance(a, PList) and isinstance(b, PList)) or (isinstance(a, PTuple) and isinstance(b, PTuple)):
            if len(a.items) != len(b.items):
                return False
            for x, y in zip(list(a.items), list(b.items)):
                self.charge(1)
                self.level(level + 1)
                if not self.equal(x, y, level + 1):
                    return False
            return True
        if isinstance(a, PDict) and isinstance(b, PDict):
            if len(a.d) != len(b.d):
                return False
            for k, x in a.pairs():
                key = self.key(k)
                self.charge(1)
                if key not in b.d:
                    return False
                self.level(level + 1)
                if not self.equal(x, b.d[key][1], level + 1):
                    return False
            return True
        if isinstance(a, PRange) and isinstance(b, PRange):
            if len(a.r) != len(b.r):
                return False
            for x, y in zip(a.r, b.r):
                self.charge(1)
                if x != y:
                    return False
            return True
        return V.same_object(a, b)

    def level(self, level):
        if level > MAX_LEVEL:
            raise self.err('RecursionError', 'nesting too deep')

    def three(self, a, b, level=1):
        """-1, 0, 1 by the first differing pair; NotOrdered."""
        if is_number(a) and is_number(b):
            return (a > b) - (a < b)
        if isinstance(a, str) and isinstance(b, str):
            for x, y in zip(a, b):
                self.charge(1)
                if x != y:
                    return -1 if x < y else 1
            return (len(a) > len(b)) - (len(a) < len(b))
        if (isinstance(a, PList) and isinstance(b, PList)) or (isinstance(a, PTuple) and isinstance(b, PTuple)):
            for x, y in zip(list(a.items), list(b.items)):
                self.charge(1)
                self.level(level + 1)
                if self.ordered_kinds(x, y):
                    c = self.three(x, y, level + 1)
                    if c:
                        return c
                elif not self.equal(x, y, level + 1):
                    raise NotOrdered(x, y)
            return (len(a.items) > len(b.items)) - (len(a.items) < len(b.items))
        raise NotOrdered(a, b)

    def ordered_kinds(self, a, b):
        return (is_number(a) and is_number(b)) or any(isinstance(a, t) and isinstance(b, t) for t in (str, PList, PTuple))

    def order(self, op, a, b):
        try:
            c = self.three(a, b)
        except NotOrdered as e:
            x, y = (a, b) if ORDER_ERROR_OUTER else (e.a, e.b)
            raise self.err('TypeError', f"'{op}' not supported between instances of '{kind(x)}' and '{kind(y)}'")
        return {'<': c < 0, '<=': c <= 0, '>': c > 0, '>=': c >= 0}[op]

    # ---- comparing operators (the one step of the operator included)
    def compare(self, op, a, b):
        self.charge(1)
        if op == 'is':
            return V.same_object(a, b)
        if op == 'is not':
            return not V.same_object(a, b)
        if op == '==':
            return self.equal(a, b)
        if op == '!=':
            return not self.equal(a, b)
        if op == 'in':
            return self.contains(op, a, b)
        if op == 'not in':
            return not self.contains(op, a, b)
        return self.order(op, a, b)

    def contains(self, op, a, b):
        if isinstance(b, (PList, PTuple)):
            for x in list(b.items):
                self.charge(1)
                if self.equal(a, x):
                    return True
            return False
        if isinstance(b, PRange):
            return is_number(a) and int(a) in b.r
        if isinstance(b, PDict):
            return self.key(a) in b.d
        if isinstance(b, str):
            if not isinstance(a, str):
                raise self.err('TypeError', f"unsupported operand type(s) for {op}: '{kind(a)}' and 'str'")
            self.charge(len(b))
            return a in b
        raise self.err('TypeError', f"'{kind(b)}' object is not iterable")

    # ---- binary and unary
    def binary(self, op, a, b):
        self.charge(1)
        if is_number(a) and is_number(b):
            return self.arith(op, a, b)
        if op == '+':
            for t in (str, PList, PTuple):
                if isinstance(a, t) and isinstance(b, t):
                    n = self.length(a) + self.length(b)
                    self.too_long(n)
                    self.charge(n)
                    return a + b if t is str else t(list(a.items) + list(b.items))
        if op == '*':
            seq, n = (a, b) if is_number(b) else (b, a)
            if is_number(n) and isinstance(seq, (str, PList, PTuple)):
                n = max(0, int(n))
                total = self.length(seq) * n
                self.too_long(total)
                self.charge(total)
                if total == 0:
                    n = 0
                return seq * n if isinstance(seq, str) else type(seq)(list(seq.items) * n)
        raise self.err('TypeError', f"unsupported operand type(s) for {op}: '{kind(a)}' and '{kind(b)}'")

    def arith(self, op, a, b):
        bools = isinstance(a, bool) and isinstance(b, bool)
        a, b = int(a), int(b)
        if op == '+':
            return self.number(a + b)
        if op == '-':
            return self.number(a - b)
        if op == '*':
            return self.number(a * b)
        if op in ('//', '%'):
            if b == 0:
                raise self.err('ZeroDivisionError', 'division by zero')
            return self.number(a // b if op == '//' else a % b)
        if op in ('**', '<<', '>>'):
            if b < 0:
                raise self.err('ValueError', 'negative count')
            if op == '>>':
                return a >> min(b, 200)
            if op == '<<':
                return self.number(0 if a == 0 else a << min(b, 400))
            if a in (0, 1):
                return 1 if b == 0 else a
            if a == -1:
                return 1 if b % 2 == 0 else -1
            return self.number(a ** min(b, 300))
        r = a & b if op == '&' else a | b if op == '|' else a ^ b
        return bool(r) if BOOL_BITOPS and bools else r

    def unary(self, op, a):
        self.charge(1)
        if not is_number(a):
            raise self.err('TypeError', f"bad operand type for unary {op}: '{kind(a)}'")
        a = int(a)
        return self.number(-a if op == '-' else a if op == '+' else ~a)

    # ---- sequences
    def length(self, v):
        """The length of a text, list, tuple, dict or range, or None."""
        if isinstance(v, str):
            return len(v)
        if isinstance(v, (PList, PTuple)):
            return len(v.items)
        if isinstance(v, PDict):
            return len(v.d)
        if isinstance(v, PRange):
            return len(v.r)
        return None

    def elements(self, v):
        """The elements of an iterable, now."""
        if isinstance(v, str):
            return list(v)
        if isinstance(v, (PList, PTuple)):
            return list(v.items)
        if isinstance(v, PDict):
            return v.keys()
        if isinstance(v, PRange):
            return list(v.r)
        raise self.err('TypeError', f"'{kind(v)}' object is not iterable")

    def at(self, v, i):
        """The place of index i (a number)."""
        if not is_number(i):
            raise self.err('TypeError', 'index must be a number')
        i = int(i)
        n = self.length(v)
        if i < 0:
            i += n
        if not 0 <= i < n:
            raise self.err('IndexError', 'index out of range')
        return i

    def subscript(self, a, i):
        self.charge(1)
        if isinstance(a, PDict):
            k = self.key(i)
            if k not in a.d:
                raise self.key_error(i)
            return a.d[k][1]
        if isinstance(a, (PList, PTuple)):
            return a.items[self.at(a, i)]
        if isinstance(a, str):
            return a[self.at(a, i)]
        if isinstance(a, PRange):
            return a.r[self.at(a, i)]
        raise self.err('TypeError', f"'{kind(a)}' object is not subscriptable")

    def slice(self, a, parts):
        self.charge(1)
        if not isinstance(a, (str, PList, PTuple)):
            raise self.err('TypeError', f"'{kind(a)}' object is not subscriptable")
        for p in parts:
            if p is not None and not is_number(p):
                raise self.err('TypeError', 'index must be a number')
        nums = [None if p is None else int(p) for p in parts]
        if nums[2] == 0:
            raise self.err('ValueError', 'slice step is zero')
        s = slice(*nums)
        r = a[s] if isinstance(a, str) else a.items[s]
        self.charge(len(r))
        return r if isinstance(a, str) else type(a)(r)

    def store_item(self, a, i, v):
        self.charge(1)
        if isinstance(a, PDict):
            self.dict_store(a, i, v)
        elif isinstance(a, PList):
            a.items[self.at(a, i)] = v
        else:
            raise self.err('TypeError', f"'{kind(a)}' object is not subscriptable")

    def dict_store(self, d, k, v):
        key = self.key(k)
        if key in d.d:
            d.d[key][1] = v
        else:
            self.too_long(len(d.d) + 1)
            d.d[key] = [k, v]

    def delete_item(self, a, i):
        self.charge(1)
        if isinstance(a, PDict):
            k = self.key(i)
            if k not in a.d:
                raise self.key_error(i)
            del a.d[k]
        elif isinstance(a, PList):
            del a.items[self.at(a, i)]
        else:
            raise self.err('TypeError', f"'{kind(a)}' object is not subscriptable")
