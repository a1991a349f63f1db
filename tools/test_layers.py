"""tools/layers.py finds what a crate names and nothing else, says where crates.txt or the picture is not current, and
draws each crate and each line once."""
import contextlib
import io
import pathlib
import tempfile
import unittest
import xml.etree.ElementTree as Xml

import layers

SVG = "{http://www.w3.org/2000/svg}"


class Layers(unittest.TestCase):
    def setUp(self):
        folder = tempfile.TemporaryDirectory()
        self.addCleanup(folder.cleanup)
        self.top = pathlib.Path(folder.name)
        (self.top / "docs").mkdir()
        self.write("low/src/lib.rt", "// The lowest.\n// It has no code.\n//\n// More.\n")
        self.write("middle/src/lib.rt", "// The middle.\nfn one() { low::two(1) }\n")
        self.write("side/src/lib.rt", "// The side.\nghost use Rattle.low.specs.Two.{two};\n")
        self.write("high/src/main.rt", "// The highest.\nuse middle::one;\nfn main() { one(); io::put(1); low::two(2) }\n")
        (self.top / "crates.txt").write_text("high: middle side\nmiddle: low\nside: low\nlow:\n", encoding="utf-8")

    def write(self, name, text):
        path = self.top / "crates" / name
        path.parent.mkdir(parents=True, exist_ok=True)
        path.write_text(text, encoding="utf-8")

    def run_tool(self, *words):
        with contextlib.redirect_stdout(io.StringIO()) as said:
            status = layers.main(["layers.py", *words], self.top)
        return status, said.getvalue()

    def listed(self):
        self.run_tool()
        return (self.top / "crates.txt").read_text(encoding="utf-8")

    def test_what_is_named_is_listed_each_crate_behind_those_that_it_names(self):
        self.assertEqual(self.listed(), "low:\nmiddle: low\nhigh: low middle io\nside: low\n")

    def test_a_name_in_a_proof_counts_and_one_in_a_comment_does_not(self):
        self.write("middle/src/lib.rt", "// low::two is not called.\nfn one() {}\n")
        self.write("middle/proofs/one/Proof.antt", "use Rattle.side.specs.Three.{three}\n")
        self.assertEqual(self.listed(), "low:\nside: low\nmiddle: side\nhigh: low middle io\n")

    def test_a_module_that_is_called_as_a_crate_is_does_not_count(self):
        self.write("side/src/lib.rt", "mod low;\nfn one() { low::two(1) }\n")
        self.write("middle/src/lib.rt", "use side::low;\nfn one() { low::two(1) }\n")
        self.assertEqual(self.listed(), "side:\nmiddle: side\nlow:\nhigh: middle low io\n")
        self.write("middle/src/lib.rt", "use side::{low, up as io};\nfn one() { low::two(io::put(1)) }\n")
        self.assertEqual(self.listed(), "side:\nmiddle: side\nlow:\nhigh: middle low io\n")

    def test_a_static_library_stays_one(self):
        text = (self.top / "crates.txt").read_text(encoding="utf-8").replace("high:", "high staticlib:")
        (self.top / "crates.txt").write_text(text, encoding="utf-8")
        self.assertEqual(self.listed(), "low:\nmiddle: low\nhigh staticlib: low middle io\nside: low\n")

    def test_a_circle_is_told(self):
        self.write("low/src/lib.rt", "fn two() { middle::one() }\n")
        with self.assertRaises(SystemExit) as ended:
            self.run_tool()
        self.assertIn("in a circle: high, low, middle, side", ended.exception.code)

    def test_what_is_current_passes_and_what_is_not_is_told_and_stays(self):
        self.run_tool()
        self.assertEqual(self.run_tool("--check"), (0, ""))
        for name in ("crates.txt", "docs/layers.svg"):
            path = self.top / name
            text = path.read_text(encoding="utf-8")
            path.write_text(text + "\n", encoding="utf-8")
            self.assertEqual(self.run_tool("--check"), (1, f"{name}: is not what the crates say\n"))
            self.assertEqual(path.read_text(encoding="utf-8"), text + "\n")
            path.write_text(text, encoding="utf-8")

    def test_no_picture_is_told(self):
        self.run_tool()
        (self.top / "docs/layers.svg").unlink()
        self.assertEqual(self.run_tool("--check"), (1, "docs/layers.svg: is not what the crates say\n"))

    def test_each_crate_has_its_box_and_its_lines_go_to_what_nothing_else_leads_to(self):
        self.run_tool()
        svg = Xml.parse(self.top / "docs/layers.svg").getroot()
        boxes = {box.get("id"): box.find(f"{SVG}title").text for box in svg.iter(f"{SVG}g") if box.get("id")}
        said = {"low": "The lowest. It has no code.", "middle": "The middle.", "side": "The side.", "high": "The highest."}
        self.assertEqual(boxes, said)
        self.assertEqual(len(list(svg.iter(f"{SVG}path"))), 3)  # high to middle, middle to low, side to low
        heights = {box.get("id"): int(box.find(f"{SVG}rect").get("y")) for box in svg.iter(f"{SVG}g") if box.get("id")}
        self.assertLess(heights["high"], heights["middle"])
        self.assertEqual(heights["middle"], heights["side"])
        self.assertLess(heights["side"], heights["low"])


if __name__ == "__main__":
    unittest.main()
