"""Expressions of `-k` and `-m`."""

IDENT = set("abcdefghijklmnopqrstuvwxyzABCDEFGHIJKLMNOPQRSTUVWXYZ0123456789_:+-.[]\\/")
DEPTH = 100


class Bad(Exception):
    def __init__(self, column):
        Exception.__init__(self, "column %d" % column)
        self.column = column


class Nesting(Exception):
    pass


def tokens(text):
    """(kind, text, column); kinds: ( ) ident or and not bad end."""
    out = []
    at = 0
    while at < len(text):
        c = text[at]
        if c in " \t":
            at += 1
        elif c in "()":
            out.append((c, c, at + 1))
            at += 1
        elif c in IDENT:
            start = at
            while at < len(text) and text[at] in IDENT:
                at += 1
            name = text[start:at]
            kind = name if name in ("or", "and", "not") else "ident"
            out.append((kind, name, start + 1))
        else:
            out.append(("bad", c, at + 1))
            at += 1
    out.append(("end", "", len(text) + 1))
    return out


def read_expr(text):
    """A tree of tuples; raises Bad(column) or Nesting."""
    toks = tokens(text)
    place = 0

    def peek():
        return toks[place][0]

    def take():
        nonlocal place
        place += 1

    def expr(opened):
        parts = [and_expr(opened)]
        while peek() == "or":
            take()
            parts.append(and_expr(opened))
        return ("or", parts)

    def and_expr(opened):
        parts = [not_expr(opened)]
        while peek() == "and":
            take()
            parts.append(not_expr(opened))
        return ("and", parts)

    def not_expr(opened):
        kind, name, column = toks[place]
        if kind == "not":
            if opened + 1 > DEPTH:
                raise Nesting()
            take()
            return ("not", not_expr(opened + 1))
        if kind == "(":
            if opened + 1 > DEPTH:
                raise Nesting()
            take()
            inner = expr(opened + 1)
            if peek() != ")":
                raise Bad(toks[place][2])
            take()
            return inner
        if kind == "ident":
            take()
            return ("ident", name)
        raise Bad(column)

    tree = expr(0)
    if peek() != "end":
        raise Bad(toks[place][2])
    return tree


def ascii_lower(text):
    return "".join(chr(ord(c) + 32) if "A" <= c <= "Z" else c for c in text)


def matches(tree, names, whole):
    kind = tree[0]
    if kind == "or":
        return any(matches(t, names, whole) for t in tree[1])
    if kind == "and":
        return all(matches(t, names, whole) for t in tree[1])
    if kind == "not":
        return not matches(tree[1], names, whole)
    if whole:
        return tree[1] in names
    wanted = ascii_lower(tree[1])
    return any(wanted in ascii_lower(n) for n in names)


def option_expr(option, text):
    """The tree or None; raises (usage text) through ValueError."""
    if text.strip(" \t") == "":
        return None
    try:
        return read_expr(text)
    except Bad as bad:
        raise ValueError("wrong expression in %s at column %d" % (option, bad.column))
    except Nesting:
        raise ValueError("expression in %s too deep" % option)
