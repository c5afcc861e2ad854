"""The explanation of a failed assert.  `obs` maps id(node) -> value for the parts evaluated."""
from __future__ import annotations
from . import values as V

# Parentheses around one expression show what that expression shows (docs/DECISIONS.md).
PAREN_TRANSPARENT = True


def shown(value):
    s = V.repr_(value, 240)
    return s.text[:237] + '...' if s.cut else s.text


def show(e, obs):
    """(text, facts); a fact is (text, facts)"""
    k = e.kind
    if k == 'Paren' and PAREN_TRANSPARENT:
        return show(e.x, obs)
    if k == 'Name' and V.kind_in(obs[id(e)], ('function', 'type', 'module', 'builtin')):
        return e.name, []
    if k == 'Call':
        v = shown(obs[id(e)])
        ft, ff = show(e.f, obs)
        facts = list(ff)
        parts = []
        for name, a in e.args:
            t, fs = show(a, obs)
            parts.append(t if name is None else f'{name}={t}')
            facts += fs
        return v, [(f'{v} = {ft}({", ".join(parts)})', facts)]
    if k == 'Attr':
        v = shown(obs[id(e)])
        t, fs = show(e.x, obs)
        return v, [(f'{v} = {t}.{e.name}', fs)]
    if k == 'Compare':
        operands = [e.first] + [x for _, x in e.rest]
        ops = [op for op, _ in e.rest]
        last = max(n for n, x in enumerate(operands) if id(x) in obs)
        lt, lf = show(operands[last - 1], obs)
        rt, rf = show(operands[last], obs)
        return f'{lt} {ops[last - 1]} {rt}', lf + rf
    if k in ('And', 'Or'):
        texts, facts = [], []
        for x in e.items:
            if id(x) in obs:
                t, fs = show(x, obs)
                texts.append(t)
                facts += fs
        return '(' + f' {k.lower()} '.join(texts) + ')', facts
    if k == 'Not':
        t, fs = show(e.x, obs)
        return 'not ' + t, fs
    if k == 'UnOp':
        t, fs = show(e.x, obs)
        return e.op + t, fs
    if k == 'BinOp':
        lt, lf = show(e.left, obs)
        rt, rf = show(e.right, obs)
        return f'({lt} {e.op} {rt})', lf + rf
    return shown(obs[id(e)]), []


def explain(cond, obs, has_message, message):
    text, facts = show(cond, obs)
    lines = ['assert ' + text]

    def put(facts, depth):
        for n, (t, inner) in enumerate(facts):
            lines.append(' +' + '  ' * depth + ('where ' if n == 0 else 'and   ') + t)
            put(inner, depth + 1)

    put(facts, 1)
    out = '\n'.join(lines)
    if has_message:
        m = message if isinstance(message, str) else shown(message)
        out = m + '\n' + out
    return out
