"""Which walls a laser scanner sees from a stand: the proved library of Manopluea for Python.

    >>> import manopluea
    >>> plan = manopluea.Plan(
    ...     corners=[(0, 0), (10, 0), (10, 10), (0, 10)],
    ...     cells=[((0, 1, 2), (manopluea.WALL, manopluea.WALL, 1)), ((0, 2, 3), (0, manopluea.WALL, manopluea.WALL))],
    ...     doors=[2],
    ... )
    >>> print(plan.list(manopluea.Stand(6, 3)), end="")
    rows 4 crossings 1
    0 0 1 0
    1 1 2 0
    4 2 3 0
    5 3 0 0
    >>> plan.list(manopluea.Stand(11, 5))
    Traceback (most recent call last):
    manopluea.refusal.Refusal: the stand (11, 5) is in no cell of the plan; its corners have x from 0 to 10 and y from \
0 to 10 (refused 10)

Each call is one of include/manopluea.h, which has its promise. A refusal is raised as Refusal, with `number`, `place`
and `words`. Nothing is decided in Python.
"""

from .library import LibraryError
from .plan import MOST_STANDS, Counts, Drawing, Footing, Listing, Plan, Row, Stand, printed
from .records import POLYGONS, TRIANGLES, WALL, Cell
from .refusal import Number, Refusal

__all__ = [
    "MOST_STANDS",
    "POLYGONS",
    "TRIANGLES",
    "WALL",
    "Cell",
    "Counts",
    "Drawing",
    "Footing",
    "LibraryError",
    "Listing",
    "Number",
    "Plan",
    "Refusal",
    "Row",
    "Stand",
    "printed",
]
