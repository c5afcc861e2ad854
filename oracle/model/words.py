"""The command line, plain and slow."""
from dataclasses import dataclass, field

from .info import HELP, VERSION


class UsageFault(Exception):
    """A refusal of the words; `text` stands behind `ERROR: `."""

    def __init__(self, text):
        Exception.__init__(self, text)
        self.text = text


class Asked(Exception):
    """Words that ask for a text in place of a run."""

    def __init__(self, text):
        Exception.__init__(self, text)
        self.text = text


@dataclass
class Options:
    paths: list = field(default_factory=list)
    keyword: str = ""
    marks: str = ""
    maxfail: int = 0
    tb: str = "short"
    workers: int = 0
    dist: str = "loadfile"
    ignore: list = field(default_factory=list)
    collect_only: bool = False
    setup_show: bool = False
    verbose: bool = False
    step_limit: int = 1000000
    generated: tuple = None
    # by the feature last_failed
    lf: bool = False
    ff: bool = False
    sw: bool = False

    @property
    def asks_workers(self):
        return self.workers > 0 and self.dist != "no" and not self.collect_only


DIGITS = "0123456789"


def number(text, low, high):
    """One to nine ASCII digits within bounds, else None."""
    if not 1 <= len(text) <= 9:
        return None
    for c in text:
        if c not in DIGITS:
            return None
    n = int(text)
    if n < low or n > high:
        return None
    return n


def generated_value(text):
    parts = text.split(",")
    if len(parts) != 2:
        return None
    seed = number(parts[0], 0, 65535)
    files = number(parts[1], 1, 4000)
    if seed is None or files is None:
        return None
    return (seed, files)


FLAGS = {
    "--exitfirst": "exitfirst",
    "--verbose": "verbose",
    "--collect-only": "collect_only",
    "--co": "collect_only",
    "--setup-show": "setup_show",
}
INFOS = {"--help": HELP, "--version": VERSION}
KEPT_FLAGS = {
    "--lf": "lf",
    "--last-failed": "lf",
    "--ff": "ff",
    "--failed-first": "ff",
    "--sw": "sw",
    "--stepwise": "sw",
}
VALUED = {
    "--maxfail": "maxfail",
    "--tb": "tb",
    "--numprocesses": "workers",
    "--dist": "dist",
    "--ignore": "ignore",
    "--step-limit": "step_limit",
    "--generated": "generated",
}
SHORT_VALUED = {"k": "keyword", "m": "marks", "n": "workers"}


def read_value(what, text, features):
    """The value of a setting, or None where it is invalid."""
    if what in ("keyword", "marks", "ignore"):
        return text
    if what == "maxfail":
        return number(text, 0, 65536)
    if what == "tb":
        return text if text in ("short", "line", "no") else None
    if what == "workers":
        return number(text, 0, 8)
    if what == "dist":
        known = ["loadfile", "no"]
        if features.dist_groups:
            known += ["load", "loadscope", "loadgroup"]
        return text if text in known else None
    if what == "step_limit":
        return number(text, 1, 100000000)
    if what == "generated":
        return generated_value(text)
    raise AssertionError(what)


def apply_flag(options, what):
    if what == "exitfirst":
        options.maxfail = 1
    else:
        setattr(options, what, True)


def apply_value(options, what, value):
    if what == "ignore":
        options.ignore.append(value)
    else:
        setattr(options, what, value)


def read_words(words, features):
    """Options, or for the first word that is one a UsageFault or what is Asked; behind them a fault of `-n`."""
    options = Options()
    flags = dict(FLAGS)
    if features.last_failed:
        flags.update(KEPT_FLAGS)
    at = 0
    total = len(words)

    def next_value(spelled):
        nonlocal at
        if at >= total or words[at].startswith("-"):
            raise UsageFault("argument %s: expected one argument" % spelled)
        value = words[at]
        at += 1
        return value

    def setting(spelled, what, text):
        value = read_value(what, text, features)
        if value is None:
            raise UsageFault("argument %s: invalid value: '%s'" % (spelled, text))
        apply_value(options, what, value)

    while at < total:
        word = words[at]
        at += 1
        if word == "--":
            options.paths.extend(words[at:])
            break
        if not word.startswith("-") or word == "-":
            options.paths.append(word)
            continue
        if word.startswith("--"):
            name, equals, text = word.partition("=")
            if name in flags:
                if equals:
                    raise UsageFault("argument %s: takes no value" % name)
                apply_flag(options, flags[name])
            elif name in INFOS:
                if equals:
                    raise UsageFault("argument %s: takes no value" % name)
                raise Asked(INFOS[name])
            elif name in VALUED:
                if not equals:
                    text = next_value(name)
                setting(name, VALUED[name], text)
            else:
                raise UsageFault("unrecognized arguments: %s" % word)
            continue
        place = 1
        while place < len(word):
            letter = word[place]
            place += 1
            if letter == "x":
                apply_flag(options, "exitfirst")
            elif letter == "v":
                apply_flag(options, "verbose")
            elif letter in SHORT_VALUED:
                spelled = "-" + letter
                rest = word[place:]
                if rest == "":
                    text = next_value(spelled)
                elif rest.startswith("="):
                    text = rest[1:]
                else:
                    text = rest
                setting(spelled, SHORT_VALUED[letter], text)
                break
            else:
                raise UsageFault("unrecognized arguments: %s" % word)
    if options.asks_workers and options.maxfail > 0:
        raise UsageFault("-n cannot be used with -x or --maxfail")
    if options.sw:
        if options.asks_workers:
            raise UsageFault("-n cannot be used with --stepwise")
        options.maxfail = 1
    return options
