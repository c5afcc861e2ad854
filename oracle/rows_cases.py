"""The cases of crates/acceptance/data: words, files, what the outside does and who draws what stand in them, what is written and the status are the
model's.

By hand is what the outside does: a tree that fails has nothing written and status 13; behind the put that fails, each of which takes so many
bytes, what the puts before it took is written, and the status is 14. A put that takes 65,536 bytes takes a whole piece: the first of them the
head, the second what the first test gives. Where each call fails in turn, acceptance compares these runs with the whole one, and nothing more
is told here. A case with parts keeps them, where the model's report has them in order. A case with ends has the status, the count and the
digest of its runs made anew: of one run, or of one for each prefix of its last file. A case with a journal has made anew how many of its
fixtures came up and how many failed to. By hand is too that a wrong case in which each call fails makes none, and what is said of a word that
is no text.
"""
from itertools import groupby

from model.runner import Features, Run
from room import by_model

MIB = 1 << 20
PIECE = 1 << 16
SIZES = {"empty files": 0, "files of a MiB": MIB, "files of a MiB and a byte": MIB + 1}


def lines_of(text):
    return text.split("\n")[:-1]


def digest(outputs):
    """The number that acceptance makes of what runs write."""
    made = 0
    for byte in b"".join(it + b"\0" for it in outputs):
        made = (made * 31 + byte) % 2**32
    return made


class Case:
    """A case in its sections: a heading with its lines, the first without one."""

    def __init__(self, text):
        self.sections = [("", [])]
        for line in lines_of(text):
            if line.startswith(">>> "):
                self.sections.append((line.removeprefix(">>> "), []))
            else:
                self.sections[-1][1].append(line)

    def of(self, heading):
        return [lines for head, lines in self.sections if head == heading]

    def is_case(self):
        return self.sections[-1][0].startswith("status ")

    def outside(self):
        """The numbers that are told of the outside. What is run anew, and what a fault is, is told without one."""
        lines = (it.rpartition(" ") for it in sum(self.of("outside"), []))
        return {told: int(number) for told, _, number in lines if number.isdigit()}

    def files(self):
        files = {}
        for heading, lines in self.sections:
            word, _, path = heading.partition(" ")
            if word == "file":
                files[path] = "".join(it + "\n" for it in lines).encode()
            elif word == "bytes":
                files[path] = bytes(int(it) for line in lines for it in line.split())
            elif word == "times":
                text = "".join(it + "\n" for it in lines)
                files[next(reversed(files))] += "".join(text.replace("#", str(n)) for n in range(int(path))).encode()
        for told, count in self.outside().items():
            if told in SIZES:
                files.update({"a%d.py" % n: b"#" * SIZES[told] for n in range(count)})
        return files

    def came(self):
        """What is written, and the status."""
        words, outside, told = sum(self.of("words"), []), self.outside(), sum(self.of("outside"), [])
        if "a word is no text" in told:
            return "ERROR: a word is not UTF-8\n", 4
        if "sink fails" in outside and outside["sink takes"] >= PIECE:
            return self.before_the_tests(words, outside["sink fails"]), 14
        output, status = by_model(words, self.files(), [int(it) for it in sum(self.of("draws"), [])] or None)
        memory = "the fault is want of memory" in told
        if "tree fails" in outside:
            return "", 12 if memory else 13
        if "sink fails" in outside:
            return output[:outside["sink takes"] * (outside["sink fails"] - 1)].decode(), 12 if memory else 14
        return output.decode(), status

    def before_the_tests(self, words, fails):
        """What the puts before the first two took, each a whole piece: nothing, and the head. No test runs behind them, and none for it here."""
        output, _ = by_model([*words, "--collect-only"], self.files())
        return output[:output.index(b"\n\n") + 2].decode() if fails == 2 else ""

    def ends(self):
        """What its runs come to, a line for those of one status that follow one another."""
        words, files = sum(self.of("words"), []), self.files()
        runs = [files]
        if "each prefix" in sum(self.of("outside"), []):
            path, data = list(files.items())[-1]
            runs = ({**files, path: data[:size]} for size in range(len(data) + 1))
        ends = (by_model(words, it) for it in runs)
        for status, group in groupby(ends, lambda it: it[1]):
            outputs = [output for output, _ in group]
            yield "%d %d %d" % (status, len(outputs), digest(outputs))

    def journal(self):
        """How many fixtures came up, and how many failed to. The model's session asserts that its journal is lawful."""
        journals = Run(sum(self.of("words"), []), self.files(), Features()).result().journals
        events = [it[0] for it in sum(journals, [])]
        return ["%d up, %d failed" % (events.count("Up"), events.count("UpFailed"))]

    def made_of(self, heading, output):
        """The lines of a section that the model makes, or None."""
        if heading == "stdout":
            return lines_of(output)
        if heading == "ends":
            return list(self.ends())
        return self.journal() if heading == "journal" else None

    def has_all(self, output):
        """Whether the output is what is wanted, or has all parts of it in order."""
        wanted = self.of("stdout")
        if wanted and any(lines_of(output) != it for it in wanted):
            return False
        lines, at = lines_of(output), 0
        for part in self.of("part"):
            starts = [n for n in range(at, len(lines)) if lines[n:n + len(part)] == part]
            if not starts:
                return False
            at = starts[0] + len(part)
        return True

    def fault(self, output, status):
        """What acceptance tells of it."""
        if not self.has_all(output):
            return "wanted\n%sbut got\n%s" % ("".join(it + "\n" for lines in self.of("stdout") + self.of("part") for it in lines), output)
        wanted = int(self.sections[-1][0].removeprefix("status "))
        if wanted != status:
            return "wanted status %d but got %d\n" % (wanted, status)
        for heading in ("journal", "ends"):
            wanted = "".join(it + "\n" for it in sum(self.of(heading), []))
            came = "".join(it + "\n" for it in self.made_of(heading, output)) if wanted else ""
            if wanted != came:
                return "wanted %s\n%sbut got\n%s" % (heading, wanted, came)
        return "it makes no such call\n" if any(it.startswith("each ") and it.endswith(" fails") for it in sum(self.of("outside"), [])) else ""

    def made(self, output, status):
        lines = list(self.sections[0][1])
        for heading, own in self.sections[1:]:
            if heading.startswith("status "):
                heading = "status %d" % status
            made = self.made_of(heading, output)
            lines += [">>> " + heading, *(own if made is None else made)]
        return "".join(it + "\n" for it in lines)


def make(name, text):
    """The case made anew, what acceptance tells of it, and what is wrong with it that no output mends."""
    case = Case(text)
    if not case.is_case():
        return text, "it is no case\n", ""
    output, status = case.came()
    told = case.fault(output, status)
    if name.startswith("wrong_"):
        return text, told, "" if told else "this case wants what is given"
    made = case.made(output, status)
    return made, "", "" if Case(made).has_all(output) else "its parts are not in the report:\n" + output
