//! Plans of larger cells at the ends of what there may be, each with a stand in
//! it and as many doors as a plan may have. No free line that is seen from there is
//! beyond the longest reach. All but the longest lists are accepted.

use super::floors::OCTAGON;
use super::mesh::Spot;
use crate::calls::{Plan, POLYGONS, WALL};
use crate::paper::{Cell, CELLS, CORNERS, DOORS};

/// A plan whose lists are as long as they can be: pairs of octagons side by side
/// with a line between them, every pair in the same place. So it is refused, and for
/// nothing else.
pub fn longest_lists() -> (Plan, Spot) {
    let octagon = |by: i64| OCTAGON.map(|[x, y]| [10 * (x + by), 10 * y]);
    let mut spots = [octagon(0), octagon(4)].concat();
    spots.resize(*CORNERS.end(), [0, 0]);
    let left: Vec<u16> = (0..8).collect();
    // Its corners 4 and 5 are corners 1 and 0 of the left one.
    let right: Vec<u16> = vec![8, 9, 10, 11, 1, 0, 14, 15];
    let pairs = 0..*CELLS.end() as u16 / 2;
    let cells = pairs.flat_map(|pair| {
        let (here, there) = (2 * pair, 2 * pair + 1);
        [cell(&left, &[(0, there)]), cell(&right, &[(4, here)])]
    });
    let doors = 0..*DOORS.end() as u16;
    let plan = Plan {
        corners: coordinates(&spots),
        cells: cells.flatten().collect(),
        doors: doors.map(|pair| 16 * pair).collect(),
        kind: POLYGONS,
    };
    (plan, [1, 1])
}

/// A plan with as many corners, cells and doors as there may be, and with more faces than
/// so many triangles have: squares side by side, of which the first are one cell each, and
/// the others two.
pub fn fullest() -> (Plan, Spot) {
    let (wide, high) = (31, 63);
    let squares = wide * high;
    let whole = 2 * squares - CELLS.end();
    let rows = 0..=high as i64;
    let spots = rows.flat_map(|y| (0..=wide as i64).map(move |x| [10 * x, 10 * y]));
    // The first cell of a square has its sides in the south and east, the last one has
    // those in the north and west.
    let first = |square: usize| (square + square.saturating_sub(whole)) as u16;
    let last = |square: usize| first(square + 1) - 1;
    let mut cells = Vec::new();
    for square in 0..squares {
        let (x, y) = (square % wide, square / wide);
        let south = if y > 0 { last(square - wide) } else { WALL };
        let west = if x > 0 { first(square - 1) } else { WALL };
        let north = if y + 1 < high {
            first(square + wide)
        } else {
            WALL
        };
        let east = if x + 1 < wide { last(square + 1) } else { WALL };
        let a = (y * (wide + 1) + x) as u16;
        let c = a + wide as u16 + 2;
        let (b, d, here, there) = (a + 1, c - 1, first(square), last(square));
        if here == there {
            let sides = [(0, south), (1, east), (2, north), (3, west)];
            cells.extend(cell(&[a, b, c, d], &sides));
        } else {
            cells.extend(cell(&[a, b, c], &[(0, south), (1, east), (2, there)]));
            cells.extend(cell(&[a, c, d], &[(0, here), (1, north), (2, west)]));
        }
    }
    // The sides in the east of the first cells.
    let doors = (0..*DOORS.end() as u16).map(|door| 4 * (door / 30 * 31 + door % 30) + 1);
    let plan = Plan {
        corners: coordinates(&spots.collect::<Vec<Spot>>()),
        cells,
        doors: doors.collect(),
        kind: POLYGONS,
    };
    (plan, [5, 5])
}

/// Cells down one ray, every second of them with as many sides as it may have,
/// which all come before the one that the ray leaves by.
///
/// The ray goes east between corners in the north and corners in the south, and
/// the lines that it crosses go from one to the other in turn. Where a cell has
/// one corner in the north, it reaches down between its two in the south, to five
/// corners of its own.
pub fn longest_fans() -> (Plan, Spot) {
    let deep = [
        [-100, -300],
        [-50, -340],
        [0, -350],
        [50, -340],
        [100, -300],
    ];
    let count = (CORNERS.end() - 2) / (2 + deep.len());
    let mut spots = vec![[-500, 0]];
    let north = spots.len() as u16;
    spots.extend((0..count as i64).map(|i| [250 * i, 250]));
    let south = spots.len() as u16;
    spots.extend((0..=count as i64).map(|i| [250 * i - 125, -250]));
    let own = spots.len() as u16;
    spots.extend((0..count as i64).flat_map(|i| deep.map(|[x, y]| [250 * i + x, y])));
    // Cell 0 is the stand's; then come a large one and a triangle in turn.
    let mut cells = cell(&[0, south, north], &[(1, 1)]);
    let mut lines = vec![1];
    for i in 0..count as u16 {
        let (large, triangle) = (1 + 2 * i, 2 + 2 * i);
        let (n, s, d) = (north + i, south + i, own + 5 * i);
        let is_last = usize::from(i) + 1 == count;
        let after = if is_last { WALL } else { triangle };
        let corners = [s, d, d + 1, d + 2, d + 3, d + 4, s + 1, n];
        cells.extend(cell(&corners, &[(6, after), (7, large - 1)]));
        if !is_last {
            cells.extend(cell(&[s + 1, n + 1, n], &[(0, triangle + 1), (2, large)]));
            // After the first three there are eleven faces a pair.
            lines.extend([3 + 11 * i + 6, 3 + 11 * i + 8]);
        }
    }
    let plan = Plan {
        corners: coordinates(&spots),
        cells,
        doors: lines.split_off(lines.len() - DOORS.end()),
        kind: POLYGONS,
    };
    (plan, [-250, 0])
}

/// Cells one behind the other, each seen through the one before: it hands on two
/// lines, of which the first leads into the next cell and the last is a wall.
///
/// All but the stand's have their right corner in common; their left corners lie
/// one behind the other, and each is seen a little further right. Cells behind the walls,
/// that nothing leads to, bring the faces above what triangles can have: from one tip to
/// three walls each, which bulge towards the right corner.
pub fn most_splits() -> (Plan, Spot) {
    let count = CORNERS.end() - 4;
    let wide = 100 * (count as i64 + 1);
    let (right, south, tip, left) = (0, 1, 2, 3);
    let mut spots = vec![[0, 0], [-wide / 2, -2 * wide], [-wide, 100 * wide]];
    spots.extend((0..=count as i64).map(|i| [100 * i - wide, i * (i + 1) / 2]));
    let mut cells = cell(&[south, right, left], &[(1, 1)]);
    for i in 0..count as u16 {
        let (here, after) = (1 + i, 2 + i);
        let is_last = usize::from(here) == count;
        let lines = [(2, here - 1), (0, if is_last { WALL } else { after })];
        cells.extend(cell(&[right, left + i + 1, left + i], &lines));
    }
    for wall in (0..count as u16 - 2).step_by(3) {
        let first = left + wall;
        cells.extend(cell(&[tip, first, first + 1, first + 2, first + 3], &[]));
    }
    // The last lines that lead into a cell.
    let lines = count - DOORS.end()..count;
    let plan = Plan {
        corners: coordinates(&spots),
        cells,
        doors: lines.map(|cell| 3 * cell as u16).collect(),
        kind: POLYGONS,
    };
    (plan, [-wide / 2, -wide])
}

/// The numbers of a cell between walls but for these sides and neighbours.
fn cell(corners: &[u16], lines: &[(usize, u16)]) -> Vec<u16> {
    let mut neighbours = vec![WALL; corners.len()];
    for &(side, there) in lines {
        neighbours[side] = there;
    }
    let cell = Cell {
        corners: corners.into(),
        neighbours: neighbours.into(),
    };
    cell.numbers(POLYGONS)
}

fn coordinates(spots: &[Spot]) -> Vec<i32> {
    spots
        .iter()
        .flatten()
        .map(|&number| number as i32)
        .collect()
}
