"""Hook order and hook calls."""
from dataclasses import dataclass

HOOKS = {
    "pytest_runtest_setup": ["item"],
    "pytest_runtest_call": ["item"],
    "pytest_runtest_teardown": ["item", "nextitem"],
    "pytest_make_parametrize_id": ["val", "argname"],
}


@dataclass
class Impl:
    registered: int
    wrapper: bool
    first: bool
    last: bool
    node: int
    code: object      # a function of the language, or a Python callable of the runner
    hook: str = ""


def class_of(impl):
    """0 tryfirst, 1 plain, 2 trylast; with both flags tryfirst counts."""
    if impl.first:
        return 0
    return 2 if impl.last else 1


def order(impls):
    """Wrappers first, outermost first; then the others in the order in which they run."""

    def key(impl):
        c = class_of(impl)
        return (not impl.wrapper, c, impl.registered if c == 2 else -impl.registered)

    return sorted(impls, key=key)


class Ended:
    """The end of a hook call: `list` (values), `gave` (one value or None) or `raised`."""

    def __init__(self, kind, value):
        self.kind = kind
        self.value = value


def hook_call(impls, runner, first_only):
    """`impls` in order. The runner has:
    call(impl) -> ("gave", value or None) or ("raised", fail)
    begin(impl) -> ("yielded", frozen) or ("raised", fail)
    resume(impl, frozen, Ended) -> Ended"""
    if impls and impls[0].wrapper:
        kind, got = runner.begin(impls[0])
        if kind == "raised":
            return Ended("raised", got)
        inner = hook_call(impls[1:], runner, first_only)
        return runner.resume(impls[0], got, inner)
    values = []
    for impl in impls:
        kind, got = runner.call(impl)
        if kind == "raised":
            return Ended("raised", got)
        if got is not None:
            if first_only:
                return Ended("gave", got)
            values.append(got)
    if first_only:
        return Ended("gave", None)
    return Ended("list", values)
