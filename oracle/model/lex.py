"""Source text to tokens."""
from __future__ import annotations
import unicodedata
from dataclasses import dataclass
from typing import Any
from .api import SourceFault, Features

MAX_INT = 2 ** 127 - 1
MIN_INT = -2 ** 127

KEYWORDS = set('''False None True and as assert async await break class continue def del elif else except
finally for from global if import in is lambda nonlocal not or pass raise return try while with yield'''.split())

OPERATORS = ['**=', '//=', '>>=', '<<=', '...', '**', '//', '>>', '<<', '>=', '==', '!=', '->', '+=', '-=', '*=',
             '/=', '%=', '&=', '|=', '^=', ':=', '@=', '<=', '+', '-', '*', '/', '%', '&', '|', '^', '~', '<', '>',
             '(', ')', '[', ']', '{', '}', ',', ':', '.', ';', '=', '@']
OPERATORS.sort(key=lambda o: -len(o))
OPEN = {'(': ')', '[': ']', '{': '}'}
CLOSE = {')': '(', ']': '[', '}': '{'}
MAX_OPEN = 100


@dataclass
class Token:
    kind: str        # NAME NUMBER TEXT OP NEWLINE INDENT DEDENT END FBEGIN FPART FOPEN FCONV FCLOSE FEND
    value: Any       # name, number, text, operator or keyword, 'r'/'s' for FCONV
    line: int
    column: int
    start: int = 0
    end: int = 0


def decode(data: bytes) -> str:
    """UTF-8; one byte order mark skipped."""
    try:
        text = data.decode('utf-8')
    except UnicodeDecodeError as e:
        raise SourceFault('NotUtf8', data[:e.start].count(b'\n') + 1, 0)
    if text.startswith('\ufeff'):
        text = text[1:]
    return text


def source_lines(text: str):
    """The lines of a source without their ends. The last line may lack its end."""
    parts = text.split('\n')
    if parts[-1] == '':
        parts.pop()
        return [p[:-1] if p.endswith('\r') else p for p in parts]
    last = parts.pop()
    return [p[:-1] if p.endswith('\r') else p for p in parts] + [last]


def is_start(c):
    return c == '_' or c.isidentifier()


def is_continue(c):
    return ('a' + c).isidentifier()


def tokens(text: str, features: Features = None):
    return Lexer(text, features or Features()).run()


class Lexer:
    def __init__(self, text, features):
        self.text = text
        self.features = features
        self.out = []
        self.brackets = []      # (char, position)
        self.indents = [0]
        self.starts = [0]
        for i, c in enumerate(text):
            if c == '\n':
                self.starts.append(i + 1)

    def pos(self, i):
        lo, hi = 0, len(self.starts) - 1
        while lo < hi:
            mid = (lo + hi + 1) // 2
            if self.starts[mid] <= i:
                lo = mid
            else:
                hi = mid - 1
        return lo + 1, i - self.starts[lo] + 1

    def fault(self, kind, i):
        line, column = self.pos(i)
        return SourceFault(kind, line, column)

    def put(self, kind, value, start, end):
        line, column = self.pos(start)
        self.out.append(Token(kind, value, line, column, start, end))

    def line_end(self, i, limit=None):
        """Length of the line end at i, or 0."""
        t = self.text
        if t.startswith('\n', i):
            return 1
        if t.startswith('\r\n', i):
            return 2
        return 0

    def skip_blanks_and_joins(self, i):
        t = self.text
        while i < len(t):
            if t[i] in ' \t':
                i += 1
            elif t[i] == '\\' and self.line_end(i + 1):
                i += 1 + self.line_end(i + 1)
            else:
                break
        return i

    def run(self):
        t = self.text
        n = len(t)
        i = 0
        fresh = True             # at the start of a logical line
        while True:
            if fresh:
                # a line that may start a statement
                j = i
                tab = None
                spaces = 0
                while j < n and t[j] in ' \t':
                    if t[j] == '\t' and tab is None:
                        tab = j
                    if t[j] == ' ' and tab is None:
                        spaces += 1
                    j += 1
                j = self.skip_blanks_and_joins(j)
                if j < n and t[j] == '#':
                    while j < n and not self.line_end(j):
                        j += 1
                if j >= n:
                    i = n
                    break
                if self.line_end(j):
                    i = j + self.line_end(j)
                    continue
                # a statement starts at j
                if tab is not None:
                    raise self.fault('Tab', tab)
                if spaces > self.indents[-1]:
                    self.indents.append(spaces)
                    if len(self.indents) > MAX_OPEN:
                        raise self.fault('Nesting', j)
                    self.put('INDENT', None, j, j)
                elif spaces < self.indents[-1]:
                    if spaces not in self.indents:
                        raise self.fault('Dedent', j)
                    while self.indents[-1] > spaces:
                        self.indents.pop()
                        self.put('DEDENT', None, j, j)
                i = j
                fresh = False
                continue
            i = self.skip_blanks_and_joins(i)
            if i < n and t[i] == '#':
                while i < n and not self.line_end(i):
                    i += 1
            if i >= n:
                break
            k = self.line_end(i)
            if k:
                if not self.brackets:
                    self.put('NEWLINE', None, i, i + k)
                    fresh = True
                i += k
                continue
            i = self.one(i, n, False)
        if self.brackets:
            raise self.fault('Unclosed', self.brackets[-1][1])
        if not fresh:
            self.put('NEWLINE', None, n, n)
        while len(self.indents) > 1:
            self.indents.pop()
            self.put('DEDENT', None, n, n)
        self.put('END', None, n, n)
        return self.out

    # one token at i, which is no blank, comment or line end
    def one(self, i, limit, in_field):
        t = self.text
        c = t[i]
        if is_start(c):
            j = i + 1
            while j < limit and is_continue(t[j]):
                j += 1
            name = t[i:j]
            if j < limit and t[j] in '\'"':
                low = name.lower()
                if low == 'r' and len(name) == 1:
                    return self.literal(i, j, True, limit)
                if name in ('f', 'F') and self.features.fstrings:
                    if in_field:
                        raise self.fault('Unsupported', i)
                    return self.fliteral(i, j, limit)
                if low in ('b', 'u', 'f', 'br', 'rb', 'fr', 'rf'):
                    raise self.fault('Unsupported', i)
            if unicodedata.normalize('NFKC', name) != name:
                raise self.fault('NotNfkc', i)
            self.put('OP' if name in KEYWORDS else 'NAME', name, i, j)
            return j
        if c in '0123456789':
            return self.number(i, limit)
        if c == '.' and i + 1 < limit and t[i + 1] in '0123456789':
            raise self.fault('Unsupported', i)      # a number that begins with its point
        if c in '\'"':
            return self.literal(i, i, False, limit)
        for op in OPERATORS:
            if t.startswith(op, i) and i + len(op) <= limit:
                if op in OPEN:
                    self.brackets.append((op, i))
                    if len(self.brackets) > MAX_OPEN:
                        raise self.fault('Nesting', i)
                elif op in CLOSE:
                    if not self.brackets or self.brackets[-1][0] != CLOSE[op]:
                        raise self.fault('Mismatch', i)
                    self.brackets.pop()
                self.put('OP', op, i, i + len(op))
                return i + len(op)
        raise self.fault('Character', i)

    def number(self, i, limit):
        t = self.text
        bad = self.fault('NumberForm', i)

        def at(k):
            return t[k] if k < limit else ''

        def digits(k, allowed, lead):
            """('_'? digit)* from k; gives the end and the digits"""
            got = ''
            if lead and at(k) == '_' and at(k + 1) != '' and at(k + 1) in allowed:
                k += 1
            if at(k) == '' or at(k) not in allowed:
                return k, got
            while True:
                if at(k) != '' and at(k) in allowed:
                    got += at(k)
                    k += 1
                elif at(k) == '_' and at(k + 1) != '' and at(k + 1) in allowed:
                    k += 1
                else:
                    return k, got

        if at(i) == '0' and at(i + 1) != '' and at(i + 1) in 'xXoObB':
            base, allowed = {'x': (16, '0123456789abcdefABCDEF'), 'o': (8, '01234567'), 'b': (2, '01')}[at(i + 1).lower()]
            j, got = digits(i + 2, allowed, True)
            if not got:
                raise bad
            if at(j) != '' and is_continue(at(j)):      # digits of another base, '_', letters
                raise bad
            value = int(got, base)
        else:
            j, got = digits(i, '0123456789', False)
            c = at(j)
            if c == '.':
                raise self.fault('Unsupported', i)
            if c != '' and c in 'eE':
                k = j + 1
                if at(k) != '' and at(k) in '+-':
                    k += 1
                if at(k) != '' and at(k) in '0123456789':
                    raise self.fault('Unsupported', i)
            if c != '' and c in 'jJ' and not (at(j + 1) != '' and is_continue(at(j + 1))):
                raise self.fault('Unsupported', i)
            if c != '' and is_continue(c):
                raise bad
            if got[0] == '0' and got.strip('0') != '':
                raise bad
            value = int(got)
        if value > MAX_INT:
            raise self.fault('NumberRange', i)
        self.put('NUMBER', value, i, j)
        return j

    def scan(self, start, q, limit):
        """The end of a literal whose quote stands at q: (body start, body end, end). Unterminated at `start`."""
        t = self.text
        quote = t[q]
        triple = t[q:q + 3] == quote * 3 and q + 3 <= limit
        i = q + (3 if triple else 1)
        body = i
        while True:
            if i >= limit:
                raise self.fault('Unterminated', start)
            if t[i] == '\\':
                if i + 1 >= limit:
                    raise self.fault('Unterminated', start)
                i += 1 + (self.line_end(i + 1) or 1)
            elif not triple and self.line_end(i):
                raise self.fault('Unterminated', start)
            elif triple and t.startswith(quote * 3, i) and i + 3 <= limit:
                return body, i, i + 3
            elif not triple and t[i] == quote:
                return body, i, i + 1
            else:
                i += 1

    def literal(self, start, q, raw, limit):
        body, stop, end = self.scan(start, q, limit)
        t = self.text
        out = []
        i = body
        while i < stop:
            k = self.line_end(i)
            if k:
                out.append('\n')
                i += k
            elif t[i] == '\\':
                if raw:
                    k = self.line_end(i + 1)
                    out.append('\\')
                    out.append('\n' if k else t[i + 1])
                    i += 1 + (k or 1)
                else:
                    i = self.escape(i, stop, out)
            else:
                out.append(t[i])
                i += 1
        self.put('TEXT', ''.join(out), start, end)
        return end

    def escape(self, i, stop, out):
        """The escape whose backslash stands at i."""
        t = self.text
        k = self.line_end(i + 1)
        if k:
            return i + 1 + k
        c = t[i + 1]
        simple = {'\\': '\\', "'": "'", '"': '"', 'a': '\a', 'b': '\b', 'f': '\f', 'n': '\n', 'r': '\r',
                  't': '\t', 'v': '\v'}
        if c in simple:
            out.append(simple[c])
            return i + 2
        if c in '01234567':
            j = i + 1
            while j < stop and j < i + 4 and t[j] in '01234567':
                j += 1
            out.append(chr(int(t[i + 1:j], 8)))
            return j
        if c in 'xuU':
            count = {'x': 2, 'u': 4, 'U': 8}[c]
            j = i + 2
            hexa = t[j:min(j + count, stop)]
            if len(hexa) < count or any(h not in '0123456789abcdefABCDEF' for h in hexa):
                raise self.fault('Escape', i)
            value = int(hexa, 16)
            if 0xD800 <= value <= 0xDFFF or value > 0x10FFFF:
                raise self.fault('Escape', i)
            out.append(chr(value))
            return j + count
        if c == 'N':
            raise self.fault('Unsupported', i)
        out.append('\\')
        out.append(c)
        return i + 2

    # ---- f-strings
    def fliteral(self, start, q, limit):
        body, stop, end = self.scan(start, q, limit)
        t = self.text
        self.put('FBEGIN', None, start, body)
        run = []
        run_start = body
        i = body

        def flush(upto):
            nonlocal run
            if run:
                self.put('FPART', ''.join(run), run_start, upto)
                run = []

        while i < stop:
            c = t[i]
            k = self.line_end(i)
            if not run:
                run_start = i
            if k:
                run.append('\n')
                i += k
            elif c == '\\':
                if i + 1 < stop and t[i + 1] in '{}':
                    run.append('\\')
                    i += 1
                else:
                    i = self.escape(i, stop, run)
            elif c == '{':
                if i + 1 < stop and t[i + 1] == '{':
                    run.append('{')
                    i += 2
                else:
                    flush(i)
                    i = self.field(i, stop)
            elif c == '}':
                if i + 1 < stop and t[i + 1] == '}':
                    run.append('}')
                    i += 2
                else:
                    raise self.fault('FString', i)
            else:
                run.append(c)
                i += 1
        flush(stop)
        self.put('FEND', None, stop, end)
        return end

    def field_closes(self, i, stop):
        """Whether the field whose '{' stands at i is closed before `stop`: a scan by characters."""
        t = self.text
        depth = 0
        i += 1
        while i < stop:
            c = t[i]
            if c in '\'"':
                try:
                    i = self.scan(i, i, stop)[2]
                except SourceFault:
                    return False
                continue
            if c in '([{':
                depth += 1
            elif c in ')]':
                depth = max(0, depth - 1)
            elif c == '}':
                if depth == 0:
                    return True
                depth -= 1
            i += 1
        return False

    def field(self, opening, stop):
        t = self.text
        try:
            return self.field_inner(opening, stop)
        except SourceFault as fault:
            here = self.pos(opening)
            if (fault.line, fault.column) == here:
                raise
            if not self.field_closes(opening, stop):
                raise self.fault('FString', opening)
            raise

    def field_inner(self, opening, stop):
        t = self.text
        self.brackets.append(('{', opening))
        if len(self.brackets) > MAX_OPEN:
            raise self.fault('Nesting', opening)
        base = len(self.brackets)
        self.put('FOPEN', None, opening, opening + 1)
        i = opening + 1
        while True:
            if i >= stop:
                raise self.fault('FString', opening)
            c = t[i]
            if c in ' \t':
                i += 1
                continue
            if c == '\\' or c == '#' or self.line_end(i):
                raise self.fault('FString', i)
            if c == '}' and len(self.brackets) == base:
                self.brackets.pop()
                self.put('FCLOSE', None, i, i + 1)
                return i + 1
            if c == '!' and not t.startswith('!=', i):
                if len(self.brackets) == base and i + 2 < stop and t[i + 1] in 'rs' and t[i + 2] == '}':
                    self.put('FCONV', t[i + 1], i, i + 2)
                    i += 2
                    continue
                raise self.fault('Character', i)
            if c == ':' and len(self.brackets) == base:
                raise self.fault('Unsupported', i)
            if c in '\'"' or (c in 'rR' and i + 1 < stop and t[i + 1] in '\'"'):
                q = i if c in '\'"' else i + 1
                body, end_body, end = self.scan(i, q, stop)
                for k in range(body, end_body):
                    if t[k] == '\\' or self.line_end(k):
                        raise self.fault('FString', k)
            i = self.one(i, stop, True)
