"""The stored inputs of the printing program are what tools/queries.py writes, and each has its output."""
import unittest

import queries


class Stored(unittest.TestCase):
    def test_inputs_are_those_of_the_tool(self):
        for name, text in queries.inputs().items():
            self.assertEqual((queries.PRINT / name).read_bytes(), text, name)

    def test_every_stored_input_is_written_by_the_tool_and_has_an_output(self):
        stored = {f"runs/{path.name}" for path in (queries.PRINT / "runs").glob("*.in")}
        self.assertEqual(stored | {"stdin"}, set(queries.inputs()))
        for name in stored:
            self.assertTrue((queries.PRINT / name).with_suffix(".out").is_file(), name)


if __name__ == "__main__":
    unittest.main()
