"""The report, byte for byte Everything here is text; `main` encodes."""
from dataclasses import dataclass, field

NOT_RUN = "NotRun"
PASSED = "Passed"
SKIPPED = "Skipped"
XFAILED = "Xfailed"
XPASSED = "Xpassed"
STRICT = "StrictXpassed"
RAISED = "Raised"


@dataclass
class Frame:
    file: str
    line: int
    name: str
    source: object  # str (stripped here when shown) or None


@dataclass
class Told:
    frames: list
    text: str


@dataclass
class PhaseEnd:
    kind: str
    told: list = field(default_factory=list)  # for RAISED
    frame: object = None                      # for STRICT
    reason: str = ""                          # for STRICT


@dataclass
class ItemReport:
    node_id: str
    title: str
    file: str
    setup: PhaseEnd
    call: PhaseEnd
    teardown: PhaseEnd
    shown_lines: list
    captured: tuple  # three texts

    @property
    def failed(self):
        return self.call.kind in (RAISED, STRICT)

    @property
    def errors(self):
        return (self.setup.kind == RAISED) + (self.teardown.kind == RAISED)

    @property
    def bad(self):
        return self.failed or self.errors > 0


@dataclass
class CollectReport:
    file: str
    told: Told
    captured: str


def title_line(fill, text):
    n = max(1, (80 - len(text) - 2) // 2)
    line = fill * n + " " + text + " " + fill * n
    if len(line) < 80:
        line += fill
    return line


def plural(n, one, many):
    return "%d %s" % (n, one if n == 1 else many)


def head(options, selected, deselected, errors, workers):
    lines = [title_line("=", "test session starts")]
    line = "collected " + plural(selected + deselected, "item", "items")
    if errors:
        line += " / " + plural(errors, "error", "errors")
    if deselected:
        line += " / %d deselected / %d selected" % (deselected, selected)
    lines.append(line)
    if workers:
        lines.append("%s [%s]" % (plural(workers, "worker", "workers"), plural(selected, "item", "items")))
    lines.append("")
    return lines


def letter(phase, kind):
    """The letter of a phase's outcome, or '' for none."""
    if kind == NOT_RUN:
        return ""
    if kind == PASSED:
        return "." if phase == "call" else ""
    if kind == SKIPPED:
        return "s"
    if kind == XFAILED:
        return "x"
    if kind == XPASSED:
        return "X"
    if kind == STRICT:
        return "F"
    assert kind == RAISED
    return "F" if phase == "call" else "E"


WORDS = {".": "PASSED", "F": "FAILED", "E": "ERROR", "s": "SKIPPED", "x": "XFAIL", "X": "XPASS"}


def outcome_letters(report):
    out = [letter("setup", report.setup.kind), letter("call", report.call.kind),
           letter("teardown", report.teardown.kind)]
    return [c for c in out if c]


def progress(options, reports, places):
    """`places` is empty or a list of (group, worker), one per report."""
    lines = progress_lines(options, reports, places)
    if lines:
        lines.append("")
    return lines


def progress_lines(options, reports, places):
    if options.generated is not None:
        return []
    if options.collect_only:
        return [r.node_id for r in reports]
    lines = []
    last = None  # (group, file) of the open line of letters
    for number, report in enumerate(reports):
        group, worker = places[number] if places else (None, None)
        suffix = "" if worker is None else " [gw%d]" % worker
        if options.setup_show:
            for line in report.shown_lines:
                lines.append(line + suffix)
        elif options.verbose:
            for c in outcome_letters(report):
                lines.append("%s %s%s" % (report.node_id, WORDS[c], suffix))
        else:
            text = "".join(outcome_letters(report))
            if last == (group, report.file):
                lines[-1] = (lines[-1][0] + text, suffix)
            else:
                lines.append((report.file + " " + text, suffix))
                last = (group, report.file)
    return [x if isinstance(x, str) else x[0] + x[1] for x in lines]


def strict_line(end):
    if end.reason == "":
        return "[XPASS(strict)]"
    return "[XPASS(strict)] " + end.reason


def first_line(text):
    return text.split("\n")[0]


def told_lines(told):
    lines = []
    for f in told.frames:
        lines.append("%s:%d: in %s" % (f.file, f.line, f.name))
        if f.source is not None:
            lines.append("    " + f.source.strip(" \t"))
    for line in told.text.split("\n"):
        lines.append("E   " + line)
    return lines


def one_line(told):
    last = told.frames[-1] if told.frames else None
    text = first_line(told.text)
    if last is None:
        return text
    return "%s:%d: %s" % (last.file, last.line, text)


def captured_lines(title, text):
    if text == "":
        return []
    body = text if text.endswith("\n") else text + "\n"
    return [title_line("-", title)] + body.split("\n")[:-1]


def item_block(options, title, end, captured):
    """`captured` is a list of (phase name, text)."""
    if options.tb == "line":
        if end.kind == STRICT:
            return ["%s:%d: %s" % (end.frame.file, end.frame.line, first_line(strict_line(end)))]
        return [one_line(t) for t in end.told]
    lines = [title_line("_", title)]
    if end.kind == STRICT:
        lines.append(strict_line(end))
    else:
        for t in end.told:
            lines.extend(told_lines(t))
    for phase, text in captured:
        lines.extend(captured_lines("Captured stdout" + (" " + phase if phase else ""), text))
    return lines


def sections(options, errors, reports):
    if options.tb == "no":
        return []
    blocks = []
    for e in errors:
        end = PhaseEnd(RAISED, [e.told])
        blocks.append(item_block(options, "ERROR collecting " + e.file, end, [("", e.captured)]))
    failures = []
    for r in reports:
        names = ["setup", "call", "teardown"]
        pairs = list(zip(names, r.captured))
        if r.setup.kind == RAISED:
            blocks.append(item_block(options, "ERROR at setup of " + r.title, r.setup, pairs[:1]))
        if r.failed:
            failures.append(item_block(options, r.title, r.call, pairs[:2]))
        if r.teardown.kind == RAISED:
            blocks.append(item_block(options, "ERROR at teardown of " + r.title, r.teardown, pairs))
    lines = []
    if blocks:
        lines.append(title_line("=", "ERRORS"))
        for b in blocks:
            lines.extend(b)
    if failures:
        lines.append(title_line("=", "FAILURES"))
        for b in failures:
            lines.extend(b)
    return lines


def end_text(end):
    if end.kind == STRICT:
        return first_line(strict_line(end))
    return first_line(end.told[0].text)


def summary(options, errors, reports, selected, deselected, stopped, sw=False):
    lines = []
    failed = ["FAILED %s - %s" % (r.node_id, end_text(r.call)) for r in reports if r.failed]
    wrong = ["ERROR %s - %s" % (e.file, first_line(e.told.text)) for e in errors]
    for r in reports:
        if r.setup.kind == RAISED:
            wrong.append("ERROR %s - %s" % (r.node_id, end_text(r.setup)))
        if r.teardown.kind == RAISED:
            wrong.append("ERROR %s - %s" % (r.node_id, end_text(r.teardown)))
    if failed or wrong:
        lines.append(title_line("=", "short test summary info"))
        lines.extend(failed)
        lines.extend(wrong)
    if errors:
        lines.append(title_line("!", "Interrupted: %s during collection" % plural(len(errors), "error", "errors")))
    elif stopped and sw:
        lines.append(title_line("!", "Interrupted: Test failed, continuing from this test next run."))
    elif stopped:
        lines.append(title_line("!", "stopping after %d failures" % options.maxfail))
    lines.append(title_line("=", last_text(options, errors, reports, selected, deselected)))
    return lines


def last_text(options, errors, reports, selected, deselected):
    if options.collect_only:
        total = selected + deselected
        if selected == 0 and deselected == 0:
            text = "no tests collected"
        elif selected == 0:
            text = "no tests collected (%d deselected)" % deselected
        elif deselected == 0:
            text = "%s collected" % plural(selected, "test", "tests")
        else:
            text = "%d/%d tests collected (%d deselected)" % (selected, total, deselected)
        if errors:
            text += ", " + plural(len(errors), "error", "errors")
        return text
    letters = [c for r in reports for c in outcome_letters(r)]
    counts = [
        (letters.count("F"), "failed"),
        (letters.count("."), "passed"),
        (letters.count("s"), "skipped"),
        (deselected, "deselected"),
        (letters.count("x"), "xfailed"),
        (letters.count("X"), "xpassed"),
    ]
    parts = ["%d %s" % (n, name) for n, name in counts if n]
    n = letters.count("E") + len(errors)
    if n:
        parts.append(plural(n, "error", "errors"))
    return ", ".join(parts) if parts else "no tests ran"


def encode(lines):
    return "".join(line + "\n" for line in lines).encode("utf-8")
