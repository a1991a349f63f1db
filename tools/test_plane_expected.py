"""What rt holds the program `plane_test` to is what tools/plane_expected.py prints."""
import pathlib
import unittest

import plane_expected

STORED = pathlib.Path(__file__).parent.parent / "crates" / "plane_test" / "stdout"


class Stored(unittest.TestCase):
    def test_output_is_that_of_the_tool(self):
        self.assertEqual(STORED.read_text(), "".join(f"{line}\n" for line in plane_expected.lines()))


if __name__ == "__main__":
    unittest.main()
