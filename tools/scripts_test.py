#!/usr/bin/env python3
"""Tests of ./pytest_run and ./try_run, in a copy of a few crates, with a stand-in for `rt`. They take seconds, and prove nothing.

python3 tools/scripts_test.py [TEST..]    (as Scripts.test_a_try)
"""
import os
import shutil
import signal
import subprocess
import sys
import tempfile
import time
import unittest

ROOT = os.path.dirname(os.path.dirname(os.path.abspath(__file__)))

# pytest_run stands on the first four; no program stands on `law`.
CRATES = """\
# A line for each crate.

## Base
seq:
texts: seq  # and none beside it
law: seq
## Program
upper: texts kit_crate
core: seq upper
pytest_run: core seq
"""

# Does what `rt` does for the scripts, in place of proofs: it notes each library that it makes, and refuses one whose lower ones
# aren't there. The files of the folder STAND_IN say which crate fails or goes on for ever.
STAND_IN = r'''#!/usr/bin/env bash
set -u
crate=${PWD##*/}
note() { echo "$*" >>"$STAND_IN/log"; }
hang() { [ ! -e "$STAND_IN/hangs_$crate" ] || { touch "$STAND_IN/hung"; sleep 60; }; }
fail() { [ ! -e "$STAND_IN/fails_$crate" ] || { echo "stand-in: $crate is refused" >&2; exit 1; }; }
text() { cat src/*.rt; }
stands_on_built() {
    local low
    for low in $(sed -n "s/#.*//; s/^$crate: //p" ../../crates.txt); do
        [ ! -d "../$low" ] || [ -e "../$low/out/made" ] || { echo "stand-in: $low doesn't stand" >&2; exit 1; }
    done
}
write_program() {
    cat >"$1" <<'PROGRAM'
#!/usr/bin/env bash
[ "$*" != --version ] || exit 0
[ "${!#}" != test_wait.py ] || sleep 60
echo "in $PWD"
for word in "$@"; do echo "<$word>"; done
cat
[ $# -eq 0 ] || exit 5
PROGRAM
    chmod +x "$1"
}
case $1 in
lib)
    [ "$2" = --jobs ] && [ "$3" -gt 0 ] || exit 2
    stands_on_built
    hang
    fail
    [ "$(cat out/made 2>/dev/null)" = "$(text)" ] && exit 0
    note "lib $crate"
    mkdir -p out && text >out/new && mv out/new out/made
    ;;
run)
    stands_on_built
    note "$*"
    hang
    fail
    mkdir -p out && write_program out/new && mv out/new "out/$crate" && "out/$crate"
    ;;
try)
    note try
    fail
    made=$(mktemp -d) && write_program "$made/program"
    hang
    "$made/program" "${@: -1}"
    ;;
esac
'''


def heeds_signals():
    """Whoever runs these tests in the background may have told them to pass over an interrupt."""
    signal.signal(signal.SIGINT, signal.SIG_DFL)
    signal.signal(signal.SIGTERM, signal.SIG_DFL)


class Scripts(unittest.TestCase):
    def setUp(self):
        self.folder = tempfile.mkdtemp()
        self.addCleanup(shutil.rmtree, self.folder, ignore_errors=True)
        self.top, self.notes, self.here = (os.path.join(self.folder, it) for it in ("the tree", "notes", "a folder"))
        for folder in (self.top, self.notes, self.here, os.path.join(self.folder, "bin")):
            os.mkdir(folder)
        for script in ("pytest_run", "try_run", "crates.sh", "HANDLES"):
            shutil.copy(os.path.join(ROOT, script), self.top)
        self.write("crates.txt", CRATES)
        for crate in ("seq", "texts", "law", "upper", "core", "pytest_run"):
            self.write(f"crates/{crate}/src/{'main' if crate == 'pytest_run' else 'lib'}.rt", f"// {crate}\n")
        stand_in = os.path.join(self.folder, "bin", "rt")
        with open(stand_in, "w", encoding="utf-8") as it:
            it.write(STAND_IN)
        os.chmod(stand_in, 0o755)
        self.around = {**os.environ, "PATH": f"{self.folder}/bin:{os.environ['PATH']}", "STAND_IN": self.notes}

    def write(self, path, text):
        path = os.path.join(self.top, path)
        os.makedirs(os.path.dirname(path), exist_ok=True)
        with open(path, "w", encoding="utf-8") as it:
            it.write(text)

    def says(self, what):
        """The stand-in is told to do otherwise: `fails_CRATE`, `hangs_CRATE`."""
        open(os.path.join(self.notes, what), "w").close()

    def unsay(self, what):
        os.remove(os.path.join(self.notes, what))

    def noted(self):
        """What the stand-in has made since this was asked last, in order."""
        path = os.path.join(self.notes, "log")
        if not os.path.exists(path):
            return []
        with open(path, encoding="utf-8") as it:
            lines = it.read().splitlines()
        os.remove(path)
        return lines

    def run_it(self, script, *words, given="", folder=None):
        if not script.startswith("/"):
            script = os.path.join(self.top, script)
        return subprocess.run([script, *words], cwd=folder or self.here, env=self.around, input=given, capture_output=True, text=True, timeout=300, preexec_fn=heeds_signals)

    def interrupt(self, script, sent):
        """Begins the script, sends it the signal where the stand-in goes on for ever, and gives its status and what it said."""
        began = subprocess.Popen([os.path.join(self.top, script), "w"], cwd=self.here, env=self.around, stdin=subprocess.DEVNULL, stdout=subprocess.PIPE, stderr=subprocess.PIPE, text=True, preexec_fn=heeds_signals)
        hung = os.path.join(self.notes, "hung")
        until = time.monotonic() + 200
        while not os.path.exists(hung) and time.monotonic() < until:
            time.sleep(0.02)
        os.remove(hung)
        began.send_signal(sent)
        out, said = began.communicate(timeout=200)
        return began.returncode, out, said

    def is_swept(self):
        """Whether no folder of a build is left."""
        out = os.path.join(self.top, "out")
        return not os.path.isdir(out) or all(it == "unproved" for it in os.listdir(out))

    ALL = ["lib seq", "lib texts", "lib upper", "lib core", "run --jobs 1"]
    WORDS = ["-k", "one or two", "", "*", "a  b", "$HOME", "\\", "'"]
    WRITTEN = "".join(f"<{it}>\n" for it in WORDS)

    def test_the_first_run_is_that_of_the_second(self):
        for times in range(2):
            ran = self.run_it("pytest_run", *self.WORDS, given="from outside\n")
            self.assertEqual(ran.stdout, f"in {self.here}\n{self.WRITTEN}from outside\n")
            self.assertEqual(ran.returncode, 5)
            self.assertEqual(self.noted(), [] if times else self.ALL)
            self.assertEqual(ran.stderr != "", times == 0)
            self.assertTrue(self.is_swept())

    def test_no_word_and_status_zero(self):
        ran = self.run_it("pytest_run")
        self.assertEqual((ran.stdout, ran.returncode), (f"in {self.here}\n", 0))

    def test_through_a_link_and_the_search_path(self):
        link = os.path.join(self.folder, "bin", "tests")
        os.symlink(os.path.join(self.top, "pytest_run"), link)
        ran = self.run_it(link, "x")
        self.assertEqual((ran.stdout, ran.returncode), (f"in {self.here}\n<x>\n", 5))
        self.assertIn("tests: ", ran.stderr)
        found = subprocess.run(["bash", "-c", "tests y"], cwd=self.top, env=self.around, stdin=subprocess.DEVNULL, capture_output=True, text=True)
        self.assertEqual((found.stdout, found.stderr), (f"in {self.top}\n<y>\n", ""))
        self.assertEqual(self.noted(), self.ALL)

    def test_a_crate_that_fails(self):
        self.says("fails_upper")
        ran = self.run_it("pytest_run", "w")
        self.assertEqual((ran.stdout, ran.returncode), ("", 3))
        self.assertIn("upper could not be proved or built:\nstand-in: upper is refused\n", ran.stderr)
        self.assertEqual(self.noted(), ["lib seq", "lib texts"])
        self.assertTrue(self.is_swept())
        self.unsay("fails_upper")
        ran = self.run_it("pytest_run", "w")
        self.assertEqual((ran.stdout, ran.returncode), (f"in {self.here}\n<w>\n", 5))
        self.assertEqual(self.noted(), ["lib upper", "lib core", "run --jobs 1"])

    def test_the_program_fails(self):
        self.says("fails_pytest_run")
        ran = self.run_it("pytest_run", "w")
        self.assertEqual((ran.stdout, ran.returncode), ("", 3))
        self.assertIn("pytest_run could not be proved or built:\nstand-in: pytest_run is refused\n", ran.stderr)
        self.unsay("fails_pytest_run")
        self.assertEqual(self.run_it("pytest_run", "w").returncode, 5)
        self.assertEqual(self.noted(), [*self.ALL, "run --jobs 1"])

    def test_an_interrupted_build_goes_on(self):
        for crate, sent, before in (("core", signal.SIGINT, self.ALL[:3]), ("pytest_run", signal.SIGTERM, self.ALL[3:])):
            self.says(f"hangs_{crate}")
            status, out, said = self.interrupt("pytest_run", sent)
            self.assertEqual((status, out), (130, ""))
            self.assertIn("interrupted; the next call goes on from here", said)
            self.assertEqual(self.noted(), before)
            self.assertTrue(self.is_swept())
            self.unsay(f"hangs_{crate}")
        ran = self.run_it("pytest_run", "w")
        self.assertEqual((ran.stdout, ran.returncode), (f"in {self.here}\n<w>\n", 5))
        self.assertEqual(self.noted(), self.ALL[4:])

    def test_what_makes_a_build_again(self):
        self.run_it("pytest_run")
        self.noted()
        for path, made in (("law/src/lib.rt", []), ("core/data/test_a.py", []), ("core/src/lib.rt", ["lib core", "run --jobs 1"])):
            self.write(f"crates/{path}", "changed\n")
            ran = self.run_it("pytest_run", "w")
            self.assertEqual((ran.stdout, ran.returncode), (f"in {self.here}\n<w>\n", 5))
            self.assertEqual(self.noted(), made, path)

    def test_without_the_toolchain(self):
        self.around["PATH"] = os.path.join(self.folder, "tools")
        os.mkdir(self.around["PATH"])
        for name in ("bash", "readlink", "dirname", "env", "find", "nproc"):
            os.symlink(shutil.which(name), os.path.join(self.around["PATH"], name))
        for script in ("pytest_run", "try_run"):
            ran = self.run_it(script, "w")
            self.assertEqual((ran.stdout, ran.returncode), ("", 3))
            self.assertEqual(ran.stderr, f"{script}: no command rt: the Rattle toolchain is not installed\n")

    UNPROVED = "try_run: this program is NOT PROVED; ./pytest_run proves it and runs it\n"

    def test_a_try(self):
        for times in range(2):
            ran = self.run_it("try_run", *self.WORDS, given="from outside\n")
            self.assertEqual(ran.stdout, f"in {self.here}\n{self.WRITTEN}from outside\n")
            self.assertEqual(ran.returncode, 5)
            self.assertEqual(self.noted(), [] if times else ["try"])
            self.assertTrue(ran.stderr.endswith(self.UNPROVED))
            self.assertEqual(ran.stderr == self.UNPROVED, times == 1)
            self.assertTrue(self.is_swept())
        self.write("crates/core/src/lib.rt", "changed\n")
        self.assertEqual(self.run_it("try_run", "w").returncode, 5)
        self.assertEqual(self.noted(), ["try"])

    def test_a_try_runs_the_proved_program(self):
        self.run_it("pytest_run")
        self.assertEqual(self.noted(), self.ALL)
        ran = self.run_it("try_run", "w")
        self.assertEqual((ran.stdout, ran.stderr, ran.returncode), (f"in {self.here}\n<w>\n", "", 5))
        self.assertEqual(self.noted(), [])

    def test_a_try_that_fails(self):
        self.says("fails_pytest_run")
        ran = self.run_it("try_run", "w")
        self.assertEqual((ran.stdout, ran.returncode), ("", 3))
        self.assertIn("the program could not be made:\nstand-in: pytest_run is refused\n", ran.stderr)
        self.assertTrue(self.is_swept())

    def test_a_try_is_interrupted(self):
        self.says("hangs_pytest_run")
        # The executable isn't whole for as long as the stand-in hangs.
        with open(os.path.join(self.folder, "bin", "rt"), "r+", encoding="utf-8") as it:
            text = it.read().replace('made=$(mktemp -d) && write_program "$made/program"\n    hang', 'hang\n    made=$(mktemp -d) && write_program "$made/program"')
            it.seek(0)
            it.write(text)
        status, out, _ = self.interrupt("try_run", signal.SIGINT)
        self.assertEqual((status, out), (130, ""))
        self.assertTrue(self.is_swept())
        self.unsay("hangs_pytest_run")
        self.assertEqual(self.run_it("try_run", "w").returncode, 5)
        self.assertEqual(self.noted(), ["try", "try"])


if __name__ == "__main__":
    sys.exit(unittest.main())
