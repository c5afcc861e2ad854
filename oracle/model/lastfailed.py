"""The cache of failed tests."""
import json


DEPTH = 127   # serde_json's own limit of nesting


def whole(text):
    n = int(text)
    if abs(n) >= 18 * 10 ** 307:
        raise ValueError("number out of range")
    return n


def real(text):
    x = float(text)
    if x in (float("inf"), float("-inf")):
        raise ValueError("number out of range")
    return x


def check(value, depth):
    if isinstance(value, str):
        value.encode("utf-8")     # a lone surrogate raises UnicodeEncodeError, a ValueError
    elif isinstance(value, (list, dict)):
        if depth + 1 > DEPTH:
            raise ValueError("too deep")
        for one in value:
            check(one, depth + 1)
        if isinstance(value, dict):
            for one in value.values():
                check(one, depth + 1)


def read_cache(data):
    """(list of ids, id or None)"""
    if data is None:
        return ([], None)
    try:
        value = json.loads(data.decode("utf-8"), parse_constant=bad_constant, parse_int=whole, parse_float=real)
        check(value, 0)
    except (ValueError, RecursionError):
        return ([], None)
    if not isinstance(value, dict):
        return ([], None)
    failed = []
    if isinstance(value.get("failed"), list):
        for one in value["failed"]:
            if isinstance(one, str) and one not in failed:
                failed.append(one)
    stepwise = value.get("stepwise")
    return (failed, stepwise if isinstance(stepwise, str) else None)


def bad_constant(name):
    raise ValueError(name)


def write_cache(cache):
    failed, stepwise = cache
    return json.dumps({"failed": failed, "stepwise": stepwise}, ensure_ascii=False,
                      separators=(",", ":")).encode("utf-8")


def choose(options, cache, items):
    failed, stepwise = cache
    out = list(items)
    listed = [i for i in out if i.node_id in failed]
    if options.lf:
        if listed:
            out = listed
    elif options.ff:
        out = listed + [i for i in out if i.node_id not in failed]
    if options.sw and stepwise is not None:
        for place, item in enumerate(out):
            if item.node_id == stepwise:
                out = out[place:]
                break
    return out


def next_cache(options, cache, ran):
    """`ran` is a list of (node id, failed or had an error)."""
    failed, stepwise = cache
    if not ran:
        return cache
    bad = []
    for name, wrong in ran:
        if wrong and name not in bad:
            bad.append(name)
    ran_ids = {name for name, _ in ran}
    out = [name for name in failed if name not in ran_ids or name in bad]
    out += [name for name in bad if name not in out]
    if options.sw:
        stepwise = bad[0] if bad else None
    return (out, stepwise)
