"""A plan and what is seen in it, as SVG.

Walls, rows and limits are the library's. Where a limit's ray meets a wall is worked out here, for the picture alone, in
floating point: the library computes no such point, and nothing is proved of it.
"""

from __future__ import annotations

import math
from typing import Dict, FrozenSet, Iterable, List, NamedTuple, Optional, Sequence, Tuple
from xml.etree import ElementTree

from . import sheet, words
from .plan import Listing, Plan, Row, Stand
from .records import WALL

_NOT_PROVED = "Cut points, where a limit's ray meets a wall, are drawn, not proved."

#: In pixels: the plan's longer side, its shorter side at least where the longer one need not exceed the most, and what
#: is left free around it.
_LONGER, _SHORTER, _MOST, _MARGIN = 1000, 60, 4000, 30

#: In pixels: what lies below the plan has so much room, and is so wide.
_LEGEND = 640, 70

_BLUE, _GREEN, _RED, _ORANGE = "#1f5fd0", "#14913a", "#d7191c", "#f08000"
_GREY, _PALE, _FAINT = "#c4c4c4", "#d9e7fb", "#7fa9e6"

Spot = Tuple[float, float]


class View(NamedTuple):
    """What is seen from a stand, which may have a name in the picture."""

    stand: Stand
    listing: Listing
    name: str = ""


def svg(plan: Plan, views: Sequence[View], shut: Iterable[int] = (), reach: Optional[int] = None) -> bytes:
    """The picture of an accepted plan while these doors are shut, with what is seen from each stand."""
    picture = _Picture(plan, views, frozenset(shut), reach)
    picture.draw_areas()
    picture.draw_cells()
    picture.draw_rays()
    picture.draw_walls()
    picture.draw_rows()
    picture.draw_doors()
    picture.draw_stands()
    picture.draw_legend()
    ElementTree.indent(picture.root)
    return ElementTree.tostring(picture.root, encoding="utf-8", xml_declaration=True) + b"\n"


class _Picture:
    """The floor stands in a group of its own, in whole millimetres from the plan's upper left: a corner's place there
    is exact, and its numbers are small however far the plan is from the origin of its grid. A renderer may hold them in
    single precision. The group is scaled to pixels; letters and dots stand outside of it.
    """

    def __init__(self, plan: Plan, views: Sequence[View], shut: FrozenSet[int], reach: Optional[int]):
        self.plan, self.views, self.shut, self.reach = plan, views, shut, reach
        used = {at for cell in plan.cells for at in cell.corners}
        xs, ys = zip(*(plan.corners[at] for at in used))
        self.left, self.top = min(xs), max(ys)
        width, height = max(xs) - self.left, self.top - min(ys)
        longer, shorter = max(width, height), min(width, height)
        self.scale = min(max(_LONGER, _SHORTER * longer / shorter), _MOST) / longer  # pixels a millimetre
        self.width = max(width * self.scale, _LEGEND[0])
        self.bottom = height * self.scale
        whole = self.width + 2 * _MARGIN, self.bottom + 2 * _MARGIN + _LEGEND[1]
        box = f"{-_MARGIN} {-_MARGIN} {_number(whole[0])} {_number(whole[1])}"
        size = {name: _number(value) for name, value in zip(("width", "height"), whole)}
        self.root = ElementTree.Element("svg", {"xmlns": "http://www.w3.org/2000/svg", "viewBox": box, **size})
        _add(self.root, "title").text = self._title()
        _add(self.root, "desc").text = (
            f"In the group floor x goes to the right and y downwards, in millimetres from ({self.left}, {self.top}). "
            f"Walls, rows and limits are the proved listing's. {_NOT_PROVED}"
        )
        paper = {"x": -_MARGIN, "y": -_MARGIN, **size, "fill": "white"}
        _add(self.root, "rect", paper)
        self.floor = _add(self.root, "g", {"id": "floor", "transform": f"scale({_number(self.scale)})"})
        self.spots = [self._spot(plan.position(view.stand)) for view in views]

    def _title(self) -> str:
        stands = words.listed(view.stand for view in self.views) if self.views else "nowhere"
        rows = words.count(sum(len(view.listing.rows) for view in self.views), "row")
        return f"Seen from {stands}: {rows}"

    def _spot(self, point: Tuple[int, int]) -> Tuple[int, int]:
        x, y = point
        return x - self.left, self.top - y

    def _corner(self, number: int) -> Tuple[int, int]:
        return self._spot(self.plan.corners[number])

    def _ends(self, face: int) -> List[Tuple[int, int]]:
        return [self._corner(at) for at in self.plan.ends(face)]

    def _width(self, pixels: float) -> str:
        return _number(pixels / self.scale)

    def _group(self, name: str, colour: str, pixels: float):
        """A group of lines of the floor."""
        style = {"fill": "none", "stroke": colour, "stroke-width": self._width(pixels), "stroke-linecap": "round"}
        return _add(self.floor, "g", {"id": name, **style})

    def _dashes(self, row: Row) -> Dict[str, str]:
        dashes = f"{self._width(6)} {self._width(6)}"
        return {"stroke-dasharray": dashes, "stroke-linecap": "butt"} if row.out else {}

    def _cuts(self, spot: Spot, row: Row) -> List[Spot]:
        """Where the rays to a row's right and left limit meet its wall."""
        ends = self._ends(row.face)
        return [_cut(spot, self._corner(limit), ends) for limit in (row.right, row.left)]

    def draw_areas(self):
        """The rows stand around the stand in their order, so that their stretches bound what is seen."""
        areas = _add(self.floor, "g", {"id": "areas", "fill": _PALE, "fill-opacity": "0.75"})
        for number, (view, spot) in enumerate(zip(self.views, self.spots)):
            points = [cut for row in view.listing.rows for cut in self._cuts(spot, row)]
            area = _add(areas, "polygon", {"points": " ".join(map(_pair, points))})
            if self.reach is not None:
                circle = {"cx": spot[0], "cy": spot[1], "r": self.reach}
                clip = _add(areas, "clipPath", {"id": f"reach{number}"})
                _add(clip, "circle", circle)
                area.set("clip-path", f"url(#reach{number})")
                dots = {"stroke-dasharray": f"{self._width(1)} {self._width(4)}", "stroke-width": self._width(1)}
                _add(areas, "circle", {**circle, "fill": "none", "stroke": _FAINT, **dots})

    def draw_cells(self):
        cells = self._group("cells", _GREY, 0.6)
        for cell in self.plan.cells:
            _add(cells, "polygon", {"points": " ".join(_pair(self._corner(at)) for at in cell.corners)})

    def draw_rays(self):
        """One ray for each limit of a stand, as far as the farther of the walls that it bounds."""
        rays = self._group("rays", _FAINT, 0.4)
        for view, spot in zip(self.views, self.spots):
            far: Dict[int, Spot] = {}
            for row in view.listing.rows:
                for limit, cut in zip((row.right, row.left), self._cuts(spot, row)):
                    if limit not in far or math.dist(spot, cut) > math.dist(spot, far[limit]):
                        far[limit] = cut
            for cut in far.values():
                _line(rays, spot, cut)

    def draw_walls(self):
        walls = self._group("walls", "black", 1.4)
        seen = {row.face for view in self.views for row in view.listing.rows}
        for face in range(self.plan.face_count):
            if self.plan.neighbour(face) == WALL:
                wall = _line(walls, *self._ends(face))
                if face not in seen:
                    _add(wall, "title").text = f"face {face}, {words.side(self.plan, face)}; not seen"

    def draw_rows(self):
        """Each wall of the listing from end to end, and the stretch of it that is seen broader."""
        rows = self._group("rows", _BLUE, 1.8)
        broad = {"stroke-width": self._width(4), "class": "stretch"}
        for view, spot in zip(self.views, self.spots):
            for row in view.listing.rows:
                group = _add(rows, "g", {"class": "row", **self._dashes(row)})
                said = sheet.sentence(self.plan, row, self.shut)
                _add(group, "title").text = f"{view.name}: {said}" if view.name else said
                _line(group, *self._ends(row.face), {"class": "wall"})
                _line(group, *self._cuts(spot, row), broad)

    def draw_doors(self):
        doors = self._group("doors", _GREEN, 2)
        for door, face in enumerate(self.plan.doors):
            state, colour = ("shut", _RED) if door in self.shut else ("open", _GREEN)
            ends = self._ends(face)
            line = _line(doors, *ends, {"stroke": colour, "class": state})
            _add(line, "title").text = f"door {door}, {state}: face {face}, {words.side(self.plan, face)}"
            # Beside the middle of its line, at a right angle to it.
            (x1, y1), (x2, y2) = ends
            away = 9 / math.dist(*ends)
            beside = (y2 - y1) * away, (x1 - x2) * away + 3
            style = {"fill": colour, "font-size": 10, "text-anchor": "middle"}
            self._letter(str(door), ((x1 + x2) / 2, (y1 + y2) / 2), beside, style)

    def draw_stands(self):
        for view, spot in zip(self.views, self.spots):
            x, y = (at * self.scale for at in spot)
            dot = _add(
                self.root, "circle", {"class": "stand", "cx": x, "cy": y, "r": 4, "fill": _ORANGE, "stroke": "white"}
            )
            _add(dot, "title").text = f"stand {view.name or view.stand}"
            if view.name:
                self._letter(view.name, spot, (6, -5), {})

    def draw_legend(self):
        """The scale, what the colours mean, and what is not proved."""
        top = self.bottom + _MARGIN
        back = {
            "x": -_MARGIN,
            "y": top - 10,
            "width": self.width + 2 * _MARGIN,
            "height": _LEGEND[1] + 10,
            "fill": "white",
        }
        legend = _add(self.root, "g", {"id": "legend"})
        _add(legend, "rect", back)
        length = _round_length(_LEGEND[0] / 4 / self.scale)
        end = length * self.scale
        bar = {"id": "scale", "d": f"M0 {_number(top)}v8h{_number(end)}v-8", "fill": "none", "stroke": "black"}
        _add(legend, "path", bar)
        _text(legend, end + 8, top + 8, _length(length))
        for at, meaning, colour, width, more in (
            (0, "seen wall", _BLUE, 4, {}),
            (105, "out of reach", _BLUE, 4, {"stroke-dasharray": "6 6"}),
            (225, "wall", "black", 1.4, {}),
            (305, "open door", _GREEN, 2, {}),
            (415, "shut door", _RED, 2, {}),
            (525, "limit", _FAINT, 1, {}),
        ):
            _line(legend, (at, top + 28), (at + 24, top + 28), {"stroke": colour, "stroke-width": width, **more})
            _text(legend, at + 30, top + 32, meaning)
        _text(legend, 0, top + 54, _NOT_PROVED)

    def _letter(self, text: str, spot: Spot, beside: Spot, style: dict):
        """A name, so many pixels beside a spot of the floor."""
        x, y = (at * self.scale + pixels for at, pixels in zip(spot, beside))
        halo = {"stroke": "white", "stroke-width": 2, "paint-order": "stroke"}
        _text(self.root, x, y, text, {**style, **halo})


def _cut(spot: Spot, limit: Spot, ends: Sequence[Spot]) -> Spot:
    """Where the ray from a spot to a limit meets the line of a wall: at the limit itself, where that is its end."""
    if limit in ends:
        return limit
    (ax, ay), (bx, by) = ends
    dx, dy = limit[0] - spot[0], limit[1] - spot[1]
    along, turn = (ax - spot[0]) * (by - ay) - (ay - spot[1]) * (bx - ax), dx * (by - ay) - dy * (bx - ax)
    return spot[0] + along * dx / turn, spot[1] + along * dy / turn


def _round_length(most: float) -> int:
    """The longest of 1, 2 or 5 with noughts that is no longer, in millimetres."""
    power = 10 ** max(math.floor(math.log10(most)), 0)
    return max((step * power for step in (1, 2, 5) if step * power <= most), default=1)


def _length(millimetres: int) -> str:
    for unit, size in (("km", 1_000_000), ("m", 1000)):
        if millimetres >= size:
            return f"{millimetres // size} {unit}"
    return f"{millimetres} mm"


def _number(value) -> str:
    return str(value) if isinstance(value, int) else f"{value:.9g}"


def _pair(spot: Spot) -> str:
    return f"{_number(spot[0])},{_number(spot[1])}"


def _add(parent, tag: str, attributes: Optional[dict] = None):
    kept = {name: value if isinstance(value, str) else _number(value) for name, value in (attributes or {}).items()}
    return ElementTree.SubElement(parent, tag, kept)


def _line(parent, first: Spot, second: Spot, attributes: Optional[dict] = None):
    (x1, y1), (x2, y2) = first, second
    return _add(parent, "line", {"x1": x1, "y1": y1, "x2": x2, "y2": y2, **(attributes or {})})


def _text(parent, x: float, y: float, text: str, attributes: Optional[dict] = None):
    style = {"x": x, "y": y, "font-family": "sans-serif", "font-size": 12, **(attributes or {})}
    _add(parent, "text", style).text = text
