"""tools/refused.py counts an edit as refused only where rt says that it was, and that its check failed first where the
edit says, and it tells what else is wrong."""
import contextlib
import io
import pathlib
import tempfile
import unittest

import refused

CODE = """\
//! A crate.

fn f(n: usize) -> usize
    ensures { result ≡ n }
{
    n
}

#[cycle(both)]
#[tactic(
    auto,
)]
pub fn g(n: usize) -> usize {
    h(n)
}

impl Two {
    // how many
    pub(crate) fn many(self) -> usize {
        2
    }
}

pub fn again(n: usize) -> usize {
    if n == 0 { 0 } else { again(n - 1) }
}
"""

EDIT = "# first: {}\nfile: src/lib.rt\nold: 1\nnew: 2\n"


class Refused(unittest.TestCase):
    def setUp(self):
        folder = tempfile.TemporaryDirectory()
        self.addCleanup(folder.cleanup)
        self.top = pathlib.Path(folder.name)
        self.write("crates.txt", "# all of them\none:\ntwo staticlib: one # and no more\nthree:\n")
        for file in ("one/src/lib.rt", "one/src/more.rt", "two/src/lib.rt"):
            self.write(f"crates/{file}", CODE)
        self.write("crates/one/proofs/+again/Invariants.antt", "")

    def write(self, name, text):
        path = self.top / name
        path.parent.mkdir(parents=True, exist_ok=True)
        path.write_text(text, encoding="utf-8")
        return path

    def edit(self, first="proofs/f", name="one/wrong", text=EDIT):
        crate, _, name = name.partition("/")
        return self.write(f"crates/{crate}/must-fail/{name}.edit", text.format(first))

    def told(self, place="./proofs/f/Answers.antt:3:5: error: `returns`: it is not", name="one/wrong"):
        """What rt says of an edit that is refused there."""
        return f"rt: must-fail {name}.edit: refused, as it must be: {place}\n"

    def read(self, words, *wanted):
        """The exit status, and the lines printed."""
        out = io.StringIO()
        with contextlib.redirect_stdout(out):
            status = refused.main(["refused.py", *wanted], words, self.top)
        return status, out.getvalue().split("\n")[:-1]

    def assert_not(self, fault, words, *wanted):
        status, lines = self.read(words, *wanted)
        self.assertEqual(status, 1)
        self.assertTrue(lines[0].startswith(fault), lines)
        self.assertFalse([line for line in lines if line.endswith(" refused, 0 not")])
        return lines

    def test_refused(self):
        self.edit()
        words = f"== one\nrt: one proved\n{self.told()}rt: ok; handles allowed: none\n2 passed, 0 failed\n"
        self.assertEqual(self.read(words), (0, ["1 refused, 0 not"]))

    def test_places(self):
        for first, place in [
            ("proofs/Laws.antt", "./proofs/Laws.antt:9:9: error: `law`: no"),
            ("specs/Laws.antt", "specs/Laws.antt:9:9: error: `law`: no"),
            ("proofs/f", "proofs/f/Proof.antt:9:9: error: `returns`: no"),
            ("proofs/+both", "./proofs/+both/Answers.antt:9:9: error: `returns`: no"),
            ("proofs/more/f", "note: ./proofs/more/f/Invariants.antt:9:9: no"),
            ("proofs/f", "note: src/lib.rt:3:1: it is not proved that .."),
            ("proofs/f", "note: src/lib.rt:6:5: it is not proved that .."),
            ("proofs/+both", "note: src/lib.rt:9:1: it is not proved that .."),
            ("proofs/+both", "note: src/lib.rt:14:5: it is not proved that .."),
            ("proofs/Two/many", "note: src/lib.rt:20:9: it is not proved that .."),
            ("proofs/+again", "note: src/lib.rt:25:5: it is not proved that .."),
            ("proofs/more/again", "note: src/more.rt:25:5: it is not proved that .."),
            ("src/lib.rt:1", "src/lib.rt:1:1: error: before every function"),
        ]:
            with self.subTest(place):
                self.edit(first)
                self.assertEqual(self.read(self.told(place)), (0, ["1 refused, 0 not"]))

    def test_refused_elsewhere(self):
        self.edit("proofs/g")
        lines = self.assert_not("one/wrong: REFUSED ELSEWHERE: first in proofs/f, and not in proofs/g: ", self.told())
        self.assertEqual(lines[1:], ["0 refused, 1 not"])

    def test_an_edit_that_does_not_say_where(self):
        self.edit(text="file: src/lib.rt\nold: 1\nnew: 2\n")
        self.assert_not("one/wrong: REFUSED ELSEWHERE: first in proofs/f, and it has no line '# first:': ", self.told())

    def test_what_rt_says_of_what_does_not_count(self):
        self.edit()
        for said in [
            "NOT REFUSED: the crate is still proved with this edit (one that ..)",
            "BAD EDIT: an 'old:' text is in src/lib.rt 0 times, and not once",
            "NOT TRIED: its check ended with status 3, so nothing is known of it: run this again",
            "refused, as it must be (only because a proof file names what the edit took away, so ..): proofs/f/Answers.antt:3:5: no",
            "refused, as it must be (only by a limit of the prover, which gave no verdict, ..): proofs/f/Answers.antt:3:5: no",
            "refused, as it must be",
        ]:
            with self.subTest(said):
                self.assert_not(f"one/wrong: NOT REFUSED for what is wrong in it: {said}",
                                f"rt: must-fail one/wrong.edit: {said}\n")

    def test_an_edit_of_which_rt_says_nothing(self):
        self.edit()
        for words in ["", "rt: one proved\n2 passed, 0 failed\n", self.told(name="two/wrong"), self.told(name="one/wrongs"),
                      f"it said '{self.told()}'"]:
            with self.subTest(words):
                self.assert_not("one/wrong: NOT TRIED: rt says nothing of it", words)

    def test_an_edit_that_is_not_whole(self):
        first, file, old, new = "# first: proofs/f\n", "file: src/lib.rt\n", "old: 1\n", "new: 2\n"
        for text in ["", first, file + old + new + old, file + old, file + new, old + new, file + old + old + new, file,
                     file + old + new + "New: 2\n", "first: proofs/f\n" + file + old + new, file + old + new[:-1]]:
            with self.subTest(text):
                self.edit(text=text)
                self.assert_not("one/wrong: BAD EDIT", self.told())

    def test_an_edit_of_more_than_one_file(self):
        self.edit(text=EDIT + "# what is put may be empty\nold: 3\nnew:\n\nfile: specs/Laws.antt\nold: 1\nnew: 2\n")
        self.assertEqual(self.read(self.told()), (0, ["1 refused, 0 not"]))

    def test_each_edit_is_told_by_itself_and_in_order(self):
        for name in ["one/b", "two/a", "one/a", "one/c"]:
            self.edit(name=name)
        words = self.told(name="two/a") + self.told("src/more.rt:3:1: error: no", "one/c") + self.told(name="one/b")
        status, lines = self.read(words)
        self.assertEqual([line.partition(": ")[0] for line in lines], ["one/a", "one/c", "2 refused, 2 not"])
        self.assertEqual(status, 1)
        self.assertEqual(self.read(words, "two"), (0, ["1 refused, 0 not"]))
        self.assert_not("there is no such crate: four", words, "four")
        self.assert_not("there is no edit", words, "three")

    def test_no_edits_at_all(self):
        self.assert_not("there is no edit", "")

    def test_what_rt_would_never_try(self):
        for name in ["four/must-fail/wrong.edit", "one/must-fail/wrong.edti", "one/must-fail/wrong.md",
                     "one/refused/wrong.edit"]:
            with self.subTest(name):
                self.edit()
                other = self.write(f"crates/{name}", EDIT)
                self.assert_not(f"no edit that rt tries: crates/{name}", self.told())
                other.unlink()


if __name__ == "__main__":
    unittest.main()
