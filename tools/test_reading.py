"""tools/reading.py names each definition after those that it uses, says what their files say of them, and fails where
the page is not current. The page of this repository is."""
import contextlib
import io
import pathlib
import tempfile
import unittest

import reading

PAGE = """\
# Reading

## The call

<!-- reading: crates/house/src/lib.rt -->
<!-- end -->

## What is claimed

<!-- reading: crates/house/specs/Claim.antt
     crates/house/specs/Other.antt -->
old
<!-- end -->

## In all

<!-- reading in all -->
<!-- end -->
"""

WRITTEN = """\
# Reading

## The call

<!-- reading: crates/house/src/lib.rt -->

| | file | lines | what it has |
|---|---|---|---|
| 1 | `crates/house/src/lib.rt` | 4 | The call |
| 2 | `crates/ground/specs/Deep.antt` | 1 | what is deep, in two lines |
| 3 | `crates/house/specs/Call.antt` | 3 | what is called |

Types, declared in the code: `Stand` (`crates/ground/src/spot.rt`), `Plan` (`crates/house/src/lib.rt`).

<!-- end -->

## What is claimed

<!-- reading: crates/house/specs/Claim.antt
     crates/house/specs/Other.antt -->

| | file | lines | what it has |
|---|---|---|---|
| 4 | `crates/house/specs/Claim.antt` | 1 | what is claimed |
| 5 | `crates/house/specs/Other.antt` | 1 | another claim |

<!-- end -->

## In all

<!-- reading in all -->

| | files | lines | of all lines |
|---|---|---|---|
| The call | 2 | 4 | 0.24 |
| What is claimed | 2 | 2 | 0.12 |
| together | 4 | 6 | 0.35 |
| all of `specs/` | 7 | 17 | |

<!-- end -->
"""

FILES = {
    "docs/READING.md": PAGE,
    "crates/house/src/lib.rt": "// The call.\npub struct Plan {}\n// Rattle.house.specs.Unread\n"
                               "ghost use Rattle.house.specs.Call.{called};\n",
    "crates/house/specs/Call.antt": "use Rattle.ground.specs.Deep as D\n"
                                    "use Rattle.ground.specs.declared.spot.Stand.TheVariants.{At}\n"
                                    "use Rattle.house.specs.declared.Plan.{Plan} -- Rattle.house.specs.Unread\n",
    "crates/house/specs/Claim.antt": "use Rattle.house.specs.Call.{called}\n",
    "crates/house/specs/Other.antt": "use Rattle.std.specs.Prelude.{List}\n",
    "crates/house/specs/Unread.antt": "one\n",
    "crates/house/specs/Lib.antt": "-- what is called\npub mod Call\n-- what is claimed\npub mod Claim\n"
                                   "-- another claim\npub mod Other\n",
    "crates/ground/specs/Deep.antt": "deep\n",
    "crates/ground/specs/Lib.antt": "\n-- what is deep,\n-- in two lines\npub mod Deep\n",
    "crates/ground/src/spot.rt": "pub enum Stand {}\n",
}


class Written(unittest.TestCase):
    def setUp(self):
        folder = tempfile.TemporaryDirectory()
        self.addCleanup(folder.cleanup)
        self.top = pathlib.Path(folder.name)
        for name, text in FILES.items():
            self.write(name, text)

    def write(self, name, text):
        path = self.top / name
        path.parent.mkdir(parents=True, exist_ok=True)
        path.write_text(text, encoding="utf-8")

    def page(self):
        return (self.top / reading.PAGE).read_text(encoding="utf-8")

    def run_tool(self, *words):
        with contextlib.redirect_stdout(io.StringIO()):
            return reading.main(["reading.py", *words], self.top)

    def assert_fault(self, words):
        with self.assertRaises(SystemExit) as ended:
            self.run_tool()
        self.assertIn(words, ended.exception.code)
        self.assertEqual(self.page(), PAGE)

    def test_the_page(self):
        self.assertEqual(self.run_tool(), 0)
        self.assertEqual(self.page(), WRITTEN)
        self.assertEqual(self.run_tool("--check"), 0)

    def test_a_page_that_is_not_current_is_a_failure_and_stays(self):
        self.assertEqual(self.run_tool("--check"), 1)
        self.assertEqual(self.page(), PAGE)
        self.run_tool()
        self.write("crates/ground/specs/Deep.antt", "deep\ndeeper\n")
        self.assertEqual(self.run_tool("--check"), 1)
        self.assertEqual(self.page(), WRITTEN)

    def test_a_file_that_is_not_there(self):
        self.write("crates/house/specs/Other.antt", "use Rattle.ground.specs.Gone.{gone}\n")
        self.assert_fault("crates/ground/specs/Gone.antt is not there")

    def test_a_file_of_which_nothing_is_said(self):
        self.write("crates/ground/specs/Lib.antt", "-- what is deep\n\npub mod Deep\n")
        self.assert_fault("crates/ground/specs/Lib.antt says nothing of Deep.antt")

    def test_a_type_that_is_not_declared(self):
        self.write("crates/ground/src/spot.rt", "pub enum Standing {}\n")
        self.assert_fault("crates/ground/src/spot.rt declares no Stand")

    def test_no_table(self):
        with self.assertRaises(reading.Fault):
            reading.written("# Reading\n", self.top)


class Stored(unittest.TestCase):
    def test_the_page_is_current(self):
        with contextlib.redirect_stdout(io.StringIO()):
            self.assertEqual(reading.main(["reading.py", "--check"]), 0, "docs/READING.md: python3 tools/reading.py")


if __name__ == "__main__":
    unittest.main()
