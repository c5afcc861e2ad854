"""Rows, ids, regrouping."""

MOST = 65536


class RowFault(Exception):
    def __init__(self, kind, text):
        Exception.__init__(self, text)
        self.kind = kind
        self.text = text


def escape_id(text):
    out = []
    for c in text:
        n = ord(c)
        if c == "\n":
            out.append("\\n")
        elif c == "\t":
            out.append("\\t")
        elif c == "\r":
            out.append("\\r")
        elif c == "\\":
            out.append("\\\\")
        elif 32 <= n < 127:
            out.append(c)
        elif n <= 0xFF:
            out.append("\\x%02x" % n)
        elif n <= 0xFFFF:
            out.append("\\u%04x" % n)
        else:
            out.append("\\U%08x" % n)
    return "".join(out)


def unique_ids(ids):
    count = {}
    for one in ids:
        count[one] = count.get(one, 0) + 1
    made = set()
    numbers = {}
    out = []
    for one in ids:
        if count[one] == 1:
            out.append(one)
            continue
        n = numbers.get(one, 0)
        while True:
            with_number = one + ("_" if one and one[-1] in "0123456789" else "") + str(n)
            n += 1
            if with_number not in count and with_number not in made:
                break
        numbers[one] = n
        made.add(with_number)
        out.append(with_number)
    return out


def mark_faults(marks, known):
    """`marks`: list of (names, widths of rows). Raises the first fault but TooMany."""
    earlier = []
    for names, widths in marks:
        for w in widths:
            if w != len(names):
                raise RowFault("Width", "expected %d values, got %d" % (len(names), w))
        here = list(earlier)
        for name in names:
            if name in here:
                raise RowFault("Duplicate", "duplicate parameter '%s'" % name)
            here.append(name)
        for name in names:
            if name not in known:
                raise RowFault("NoArgument", "no argument '%s'" % name)
        earlier = here


def product(sizes):
    """Lists of numbers, the first size the outermost loop; RowFault past 65,536."""
    total = 1
    for size in sizes:
        total *= size
    if total > MOST:
        raise RowFault("TooMany", "too many items")
    rows = [[]]
    for size in sizes:
        rows = [row + [k] for row in rows for k in range(size)]
    return rows


def group_stably(items, key):
    """Items with equal keys together, keys in order of first appearance."""
    order = []
    groups = {}
    for item in items:
        k = key(item)
        if k not in groups:
            groups[k] = []
            order.append(k)
        groups[k].append(item)
    return [item for k in order for item in groups[k]]


def by_stretch(items, place, key):
    """Within each run of items with one `place`, group stably; None is no place."""
    out = []
    at = 0
    while at < len(items):
        end = at + 1
        where = place(items[at])
        while end < len(items) and where is not None and place(items[end]) == where:
            end += 1
        out.extend(group_stably(items[at:end], key))
        at = end
    return out


def regroup(items, keys_of, directory_of, file_of, class_of, package_scope):
    """`keys_of(item)` is a list of (scope, fixture, number)."""

    def key(scope):
        return lambda item: tuple((f, n) for s, f, n in keys_of(item) if s == scope)

    out = group_stably(items, key("session"))
    if package_scope:
        out = by_stretch(out, directory_of, key("package"))
    out = by_stretch(out, file_of, key("module"))
    out = by_stretch(out, class_of, key("class"))
    return out
