"""The gate, .ci/run, in a folder where every tool is a few lines: it is green where all of them are, and red, without
its last line, where any of them fails, is killed or says less than it should."""
import os
import pathlib
import subprocess
import tempfile
import textwrap
import time
import unittest

TOP = pathlib.Path(__file__).resolve().parent.parent

# The words of `rt ci` where all is well.
OK = """\
rt: one proved
rt: one: trying its must-fail edits (3)
rt: must-fail one/wrong.edit: refused, as it must be: ./proofs/f/Answers.antt:3:5: error: `returns`: it is not
rt: ok; handles allowed: none; must-fail edits: 3 refused; every proof and must-fail edit was done in this run
12 passed, 0 failed"""

# What each tool does where nothing is wrong, by the place of its script.
TOOLS = {
    "bin/rt": f"""
        [ "$*" = ci ] || exit 2
        cat <<'END'\n{textwrap.indent(OK, " " * 8)}\n        END""",
    "bin/cargo": "",
    "bin/cc": "",
    "bin/c++": "",
    "rust/compare.sh": "echo compared",
    "examples/run.sh": "echo examples",
    "python/test.sh": "echo tested",
}

# It is given the words of rt.
REFUSED = """\
import sys
if "rt: must-fail one/wrong.edit: refused" not in sys.stdin.read():
    sys.exit(1)
print("3 refused, 0 not")
"""

RIGHT = "import unittest\nclass A(unittest.TestCase):\n def test(self): pass\n"


class Gate(unittest.TestCase):
    def setUp(self):
        folder = tempfile.TemporaryDirectory()
        self.addCleanup(folder.cleanup)
        self.top = pathlib.Path(folder.name)
        for name in [".ci/run", "rust/proved.sh"]:
            self.write(name, (TOP / name).read_text(encoding="utf-8"))
        for name, script in TOOLS.items():
            self.tool(name, script)
        self.write("tools/test_right.py", RIGHT)
        self.write("tools/tidy.py", "")
        self.write("tools/layers.py", "")
        self.write("tools/refused.py", REFUSED)

    def write(self, name, text):
        path = self.top / name
        path.parent.mkdir(parents=True, exist_ok=True)
        path.write_text(text, encoding="utf-8")

    def tool(self, name, script):
        self.write(name, f"#!/usr/bin/env bash\n{textwrap.dedent(script)}\n")
        (self.top / name).chmod(0o755)

    def run_gate(self, meanwhile=lambda gate: None):
        """The exit status, and what was written to standard output, line by line."""
        place = {**os.environ, "PATH": f"{self.top}/bin:{os.environ['PATH']}", "TMPDIR": str(self.top / "tmp")}
        (self.top / "tmp").mkdir(exist_ok=True)
        with subprocess.Popen(["bash", self.top / ".ci/run"], env=place, stdin=subprocess.DEVNULL, text=True,
                              stdout=subprocess.PIPE, stderr=subprocess.PIPE) as gate:
            meanwhile(gate)
            # A part that was not ended would hold the pipe open, and so fail by its time.
            said = gate.communicate(timeout=20)[0]
        self.assertEqual(list((self.top / "tmp").iterdir()), [], "nothing is left behind")
        return gate.returncode, said.split("\n")[:-1]

    def assert_red(self, last=None, meanwhile=lambda gate: None):
        status, lines = self.run_gate(meanwhile)
        self.assertNotEqual(status, 0)
        self.assertFalse([line for line in lines if line.endswith("passed, 0 failed") and line[0].isdigit()])
        if last:
            self.assertIn(last, lines[-2:])  # what a part took may stand behind its last word

    def assert_ended(self):
        """The process that left its number has ended; who has to ask for its status may not have done so."""
        process = pathlib.Path("/proc", (self.top / "alone").read_text(encoding="utf-8").strip(), "stat")
        try:
            state = process.read_text(encoding="utf-8").rpartition(")")[2].split()[0]
        except FileNotFoundError:
            return
        self.assertEqual(state, "Z")

    def test_green(self):
        status, lines = self.run_gate()
        self.assertEqual(status, 0)
        self.assertEqual(lines[-1], "12 passed, 0 failed")
        for line in ["rt ci: 12 passed, 0 failed", "3 refused, 0 not", "compared", "examples", "tested"]:
            self.assertEqual(lines.count(line), 1)

    def test_a_step_that_fails(self):
        for name, script in TOOLS.items():
            if name.endswith(".sh"):
                with self.subTest(name):
                    self.tool(name, "echo broken; exit 1")
                    self.assert_red(last="broken")
                    self.tool(name, script)

    def test_a_step_that_is_killed(self):
        for name, script in TOOLS.items():
            if name.endswith(".sh"):
                with self.subTest(name):
                    self.tool(name, "kill -9 $$")
                    self.assert_red()
                    self.tool(name, script)

    def say(self, words, end=""):
        self.tool("bin/rt", f"cat <<'END'\n{words}\nEND\n{end}")

    def test_rt(self):
        failed = "rt: FAILED: one\n11 passed, 1 failed"
        for words, end in [(OK, "exit 1"), (OK, "kill -9 $$"), ("rt: one proved", "kill -9 $$"),
                           (f"rt: run rt fmt in the crate's folder\nrt: one NOT PROVED\n{failed}", "exit 1"),
                           (f"rt: one NOT PROVED\n{failed}", ""),
                           (f"rt: must-fail one/wrong.edit: NOT REFUSED: the crate is still proved\n{failed}", "exit 1"),
                           (OK.replace("12 passed, 0 failed", "11 passed, 1 failed"), ""),
                           (OK.replace("12 passed, 0 failed", ""), ""),
                           (OK.replace("rt: ok; ", "rt: one passed; "), ""),
                           (OK.replace("0 failed", "0 failed (one and the crates below alone: not the gate)"), "")]:
            with self.subTest(words=words, end=end):
                self.say(words, end)
                self.assert_red()

    def test_an_edit_that_could_not_be_tried(self):
        bad = "rt: must-fail one/gone.edit: BAD EDIT: an 'old:' text is in src/lib.rt 0 times, and not once\n"
        for told in ["3 refused, 1 bad;", "3 refused, 12 bad;", "0 refused, 3 bad;", "3 refused, 1 of them only by a limit, 1 bad;"]:
            with self.subTest(told):
                self.say(bad + OK.replace("3 refused;", told))
                self.assert_red()

    def test_rt_is_asked_for_all_of_it(self):
        self.tool("bin/rt", f"echo \"$PWD:$*\" >>asked\n{textwrap.dedent(TOOLS['bin/rt'])}")
        self.assertEqual(self.run_gate()[0], 0)
        self.assertEqual((self.top / "asked").read_text(encoding="utf-8"), f"{self.top.resolve()}:ci\n")

    def test_a_tool_that_is_not_there(self):
        (self.top / "rust/compare.sh").unlink()
        self.assert_red()

    def test_the_tools_own_tests(self):
        self.write("tools/test_wrong.py", RIGHT.replace("pass", "self.fail()"))
        self.assert_red()

    def test_tidy(self):
        self.write("tools/tidy.py", "raise SystemExit(1)")
        self.assert_red()

    def test_a_tool_that_finds_a_fault(self):
        for name in ("tools/tidy.py", "tools/layers.py"):
            with self.subTest(name):
                self.write(name, "raise SystemExit(1)")
                self.assert_red()
                self.write(name, "")

    def test_edits(self):
        for said, end in [("2 refused, 1 not", "sys.exit(1)"), ("2 refused, 1 not", ""), ("", ""),
                          ("3 refused, 0 not", "sys.exit(1)"), ("so far", "import os; os.kill(os.getpid(), 9)")]:
            with self.subTest((said, end)):
                self.write("tools/refused.py", f"import sys\nprint({said!r}, flush=True)\n{end}\n")
                self.assert_red()

    def test_an_edit_that_is_refused_elsewhere_ends_it_and_stands_last(self):
        self.write("tools/refused.py", "print('one/wrong: REFUSED ELSEWHERE')\nraise SystemExit(1)\n")
        self.tool("rust/compare.sh", "echo $$ >alone")
        self.assert_red(last="one/wrong: REFUSED ELSEWHERE")
        self.assertFalse((self.top / "alone").exists())

    def test_a_gate_that_is_ended_ends_what_it_runs(self):
        for name in ("bin/rt", "rust/compare.sh"):
            with self.subTest(name):
                self.tool(name, "echo $$ >alone; sleep 60")

                def end(gate):
                    alone = self.top / "alone"
                    while gate.poll() is None and not (alone.exists() and alone.stat().st_size):
                        time.sleep(0.1)
                    gate.terminate()

                self.assert_red(meanwhile=end)
                self.assert_ended()
                (self.top / "alone").unlink()
                self.tool(name, TOOLS[name])


if __name__ == "__main__":
    unittest.main()
