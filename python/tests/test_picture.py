"""The pictures, parsed: every row of the list is in them, and where it should be."""

import math
import os
import pathlib
import unittest
from xml.etree import ElementTree

from house import EXAMPLES, ONE_CELL, Plan, Q, Stand, q_and
from manopluea import picture, sheet

SVG = "{http://www.w3.org/2000/svg}"
CATHEDRAL = Plan.open(EXAMPLES / "cathedral.plan")
NAVE = Stand(1961, 7348)


def drawn(plan, *stands, shut=(), reach=None, named=False):
    views = [
        picture.View(stand, plan.list(stand, shut, reach), f"s{n}" if named else "") for n, stand in enumerate(stands)
    ]
    return Drawn(plan, picture.svg(plan, views, shut, reach)), views


class Drawn:
    """A picture as it was parsed, in the plan's own coordinates."""

    def __init__(self, plan, text):
        self.root = ElementTree.fromstring(text)
        self.text = text.decode("utf-8")
        self.floor = self.root.find(f"{SVG}g[@id='floor']")
        used = [plan.corners[at] for cell in plan.cells for at in cell.corners]
        self.left, self.top = min(x for x, _ in used), max(y for _, y in used)
        self.scale = float(self.floor.get("transform")[len("scale(") : -1])

    def group(self, name):
        return self.floor.find(f"{SVG}g[@id='{name}']")

    def back(self, x, y):
        """From the floor's group to the plan: y upwards."""
        return float(x) + self.left, self.top - float(y)

    def ends(self, line):
        return [self.back(line.get(f"x{end}"), line.get(f"y{end}")) for end in "12"]

    def points(self, polygon):
        return [self.back(*pair.split(",")) for pair in polygon.get("points").split()]

    def rows(self):
        """Of each row's group the title, the wall and the stretch seen."""
        for row in self.group("rows"):
            wall, stretch = row.findall(f"{SVG}line")
            yield row.find(f"{SVG}title").text, self.ends(wall), self.ends(stretch), row


class Rows(unittest.TestCase):
    def hold(self, plan, *stands, **asked):
        """Every row of the lists is there, in its order, from end to end of its wall, which is exact."""
        found, views = drawn(plan, *stands, **asked)
        expected = [(view, row) for view in views for row in view.listing.rows]
        rows = list(found.rows())
        self.assertEqual(len(rows), len(expected))
        for (view, row), (title, wall, stretch, group) in zip(expected, rows):
            said = sheet.sentence(plan, row, asked.get("shut", ()))
            self.assertEqual(title, f"{view.name}: {said}" if view.name else said)
            self.assertTrue(said.startswith(f"{row.face} {row.right} {row.left} {row.out}: face {row.face}, "))
            self.assertEqual(wall, [plan.corners[at] for at in plan.ends(row.face)])
            self.assertEqual(group.get("stroke-dasharray") is not None, row.out == 1)
            position = plan.position(view.stand)
            for cut, limit in zip(stretch, (row.right, row.left)):
                self.near_line(cut, wall)
                self.near_line(cut, [position, plan.corners[limit]])
        return found, views

    def near_line(self, spot, line):
        """Within a millionth of the distances."""
        (ax, ay), (bx, by) = line
        value = (bx - ax) * (spot[1] - ay) - (by - ay) * (spot[0] - ax)
        self.assertLess(abs(value), 1e-6 * math.dist(*line) * (math.dist(line[0], spot) + math.dist(*line)))

    def test_plan_q(self):
        found, _ = self.hold(Q, Stand(6, 3))
        self.assertEqual([wall for _, wall, stretch, _ in found.rows()], [stretch for _, _, stretch, _ in found.rows()])

    def test_a_shut_door_and_a_reach(self):
        found, _ = self.hold(Q, Stand(6, 3), shut=[0], reach=3)
        title, wall, _, _ = list(found.rows())[2]
        self.assertTrue(title.endswith("; in reach; door 0"), title)
        self.assertEqual(wall, [(10, 10), (0, 0)])

    def test_a_wall_that_is_seen_in_part(self):
        found, _ = self.hold(q_and(30, 11), Stand(6, 3))
        _, wall, (right, left), _ = list(found.rows())[2]
        self.assertEqual(wall, [(30, 11), (0, 10)])
        self.assertEqual(left, (0, 10))
        self.assertNotEqual(right, (30, 11))

    def test_offsets_doorways_and_several_stands(self):
        self.hold(Q, Stand(-4, -7, 2), Stand(5, 5), Stand(3, 6), named=True)

    def test_larger_cells(self):
        found, _ = self.hold(ONE_CELL, Stand(5, 5))
        (cell,) = found.group("cells")
        self.assertEqual(found.points(cell), ONE_CELL.corners)

    def test_the_cathedral(self):
        self.hold(CATHEDRAL, NAVE)
        self.hold(CATHEDRAL, NAVE, Stand(-5782, -2864), shut=[1, 7, 58], reach=6000, named=True)

    def test_far_from_the_origin(self):
        """The numbers of the floor are the same there: they are counted from the plan's own corner."""
        here, _ = self.hold(CATHEDRAL, NAVE, shut=[1])
        far = [(x + 500_000_000, y - 500_000_000) for x, y in CATHEDRAL.corners]
        moved = Plan(far, CATHEDRAL.cells, CATHEDRAL.doors)
        there, _ = self.hold(moved, Stand(NAVE.x + 500_000_000, NAVE.y - 500_000_000), shut=[1])
        for group in ("cells", "areas", "rays"):
            texts = [ElementTree.tostring(found.group(group)) for found in (here, there)]
            self.assertEqual(*texts)


class Parts(unittest.TestCase):
    def test_y_goes_upwards(self):
        found, _ = drawn(Q, Stand(6, 3))
        dot = found.root.find(f"{SVG}circle[@class='stand']")
        x, y = float(dot.get("cx")) / found.scale, float(dot.get("cy")) / found.scale
        self.assertEqual((x, y), (6, 7))  # 3 mm above the lower edge of a square of 10
        self.assertEqual(dot.find(f"{SVG}title").text, "stand (6, 3)")

    def test_cells_walls_and_doors(self):
        shut = [1, 7]
        found, _ = drawn(CATHEDRAL, NAVE, shut=shut)
        cells = [found.points(cell) for cell in found.group("cells")]
        self.assertEqual(cells, [[CATHEDRAL.corners[at] for at in cell.corners] for cell in CATHEDRAL.cells])
        walls = [found.ends(wall) for wall in found.group("walls")]
        faces = [face for face in range(CATHEDRAL.face_count) if CATHEDRAL.neighbour(face) == 65535]
        self.assertEqual(walls, [[CATHEDRAL.corners[at] for at in CATHEDRAL.ends(face)] for face in faces])
        seen = {row.face for row in CATHEDRAL.list(NAVE, shut).rows}
        for face, wall in zip(faces, found.group("walls")):
            title = wall.find(f"{SVG}title")
            said = None if title is None else title.text
            self.assertEqual(said is None, face in seen)
            self.assertTrue(said is None or said.startswith(f"face {face}, side ") and said.endswith("; not seen"))
        for number, door in enumerate(found.group("doors")):
            self.assertEqual(
                found.ends(door), [CATHEDRAL.corners[at] for at in CATHEDRAL.ends(CATHEDRAL.doors[number])]
            )
            state, colour = ("shut", "#d7191c") if number in shut else ("open", "#14913a")
            self.assertEqual((door.get("class"), door.get("stroke")), (state, colour))
            self.assertTrue(door.find(f"{SVG}title").text.startswith(f"door {number}, {state}: face "))

    def test_the_area_of_plan_q(self):
        """All of it from (6, 3); with the door shut, the half below it."""
        for shut, expected in (((), 100), ((0,), 50)):
            found, _ = drawn(Q, Stand(6, 3), shut=shut)
            points = found.points(found.group("areas").find(f"{SVG}polygon"))
            pairs = zip(points, points[1:] + points[:1])
            self.assertEqual(sum(ax * by - ay * bx for (ax, ay), (bx, by) in pairs) / 2, expected)

    def test_the_area_ends_at_the_reach(self):
        found, _ = drawn(CATHEDRAL, NAVE, reach=6000)
        areas = found.group("areas")
        clip = areas.find(f"{SVG}clipPath")
        self.assertEqual(areas.find(f"{SVG}polygon").get("clip-path"), f"url(#{clip.get('id')})")
        circle = clip.find(f"{SVG}circle")
        self.assertEqual(found.back(circle.get("cx"), circle.get("cy")), (1961, 7348))
        self.assertEqual(circle.get("r"), "6000")

    def test_the_scale(self):
        for plan, stand, length, label in ((Q, Stand(6, 3), 1, "1 mm"), (CATHEDRAL, NAVE, 2000, "2 m")):
            found, _ = drawn(plan, stand)
            legend = found.root.find(f"{SVG}g[@id='legend']")
            path = legend.find(f"{SVG}path[@id='scale']").get("d")
            across = float(path.split("h")[1].split("v")[0])
            self.assertAlmostEqual(across, length * found.scale, places=5)
            self.assertEqual(legend.find(f"{SVG}text").text, label)

    def test_the_file_says_what_is_not_proved(self):
        found, _ = drawn(Q, Stand(6, 3))
        said = "are drawn, not proved."
        self.assertIn(said, found.root.find(f"{SVG}desc").text)
        self.assertTrue(any(said in (text.text or "") for text in found.root.iter(f"{SVG}text")))

    def test_a_long_corridor_and_the_widest_floor_are_drawn(self):
        for corners in ([(0, 0), (536870912, 0), (536870912, 10), (0, 10)], [(0, 0), (1, 0), (1, 1), (0, 1)]):
            plan = Plan(corners, Q.cells, Q.doors)
            found = Drawn(plan, picture.svg(plan, []))
            box = [float(number) for number in found.root.get("viewBox").split()]
            self.assertLessEqual(max(box), 4100)
            self.assertEqual(len(found.group("cells")), 2)


class Stored(unittest.TestCase):
    """The plans and pictures of the repository are what their commands make."""

    def test_plan_q_is_document_01s(self):
        self.assertEqual((EXAMPLES / "plan-q.plan").read_bytes(), Q.write())

    def test_the_cathedral_is_the_benchmarks(self):
        made = pathlib.Path(os.environ["MANOPLUEA_CATHEDRAL"]).read_bytes()
        self.assertEqual((EXAMPLES / "cathedral.plan").read_bytes(), made)


if __name__ == "__main__":
    unittest.main()
