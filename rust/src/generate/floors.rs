//! The families of floors. No two cells of a floor overlap, but for those of ramps that
//! wind more than once; others that do are in `overlaps`.

use super::dice::Dice;
use super::mesh::{side_value, Mesh, Spot};
use crate::paper::{CELLS, COORDINATES, CORNERS};
use std::collections::BTreeMap;

/// The end of the coordinate range.
pub const EDGE: i64 = *COORDINATES.end();

/// A random floor of a random family.
pub fn random(dice: &mut Dice) -> Mesh {
    let mut mesh = match dice.below(100) {
        0..=2 => one_cell(dice),
        3..=17 => jittered_grid(dice),
        18..=33 => incremental(dice),
        34..=42 => fan(dice),
        43..=57 => rooms(dice),
        58..=65 => random_corridor(dice),
        66..=72 => random_fence(dice),
        73..=83 => ramp(dice),
        84..=92 => tiles(dice),
        93..=96 => rays(dice),
        _ => random_cathedral(dice),
    };
    build_inside(&mut mesh, dice);
    finish(&mut mesh, dice);
    mesh
}

/// A floor whose lines are worth standing on: between cells of every size, or all towards
/// one corner or core.
pub fn with_lines(dice: &mut Dice) -> Mesh {
    let mut mesh = if dice.percent(60) {
        tiles(dice)
    } else {
        ramp(dice)
    };
    finish(&mut mesh, dice);
    mesh
}

/// A floor most of whose lines go along the axes.
pub fn straight(dice: &mut Dice) -> Mesh {
    let mut mesh = rooms(dice);
    finish(&mut mesh, dice);
    mesh
}

/// A floor of 2,048 corners and 3,000 cells. So many cells at most are taken
/// out as pillars; the rest of the surplus goes at one end, whose corners then
/// are in no cell.
pub fn largest(pillars: usize, dice: &mut Dice) -> Mesh {
    without_overlap(|| {
        let mut mesh = grid(&even(31, 1_000), &even(63, 1_000), 300, dice);
        let surplus = mesh.cells.len() - CELLS.end();
        let pillars = pillars.min(surplus);
        let rest = mesh.cells.len() - (surplus - pillars);
        let mut keep = vec![true; rest];
        keep[..pillars].fill(false);
        dice.shuffle(&mut keep);
        keep.resize(mesh.cells.len(), false);
        mesh.keep_cells(&keep);
        flip_some(&mut mesh, dice, 500);
        mesh
    })
}

/// The deepest floor: a stand in it, and as many cells as a plan may have, all
/// of them on the one ray that goes west from there.
///
/// Two fans share a column of corners, one fan from a tip right of it and one
/// from a tip left of it. The ray passes above the column and below the tips,
/// so it meets each line of the right fan, the lowest first, and then each line
/// of the left fan, the highest first. All of them are in the longest reach.
pub fn deepest() -> (Mesh, Spot) {
    let column = (*CELLS.end() - 2) / 2;
    let step = 50;
    let ray = step * column as i64;
    let high = ray + step;
    // The line from a tip to the foot of the column then has a spot at every
    // millimetre of its height, so that some are as high as the ray.
    let wide = high;
    let mut corners: Vec<Spot> = (0..column as i64).map(|i| [0, step * i]).collect();
    corners.extend([[wide, high], [-wide, high]]);
    corners.extend([[2 * wide, 0], [-2 * wide, 0], [-3 * wide, high]]);
    let (right, left) = (column, column + 1);
    let [east, west, far] = [column + 2, column + 3, column + 4];
    let mut cells = vec![[0, east, right]];
    cells.extend((1..column).map(|i| [right, i, i - 1]));
    cells.push([right, left, column - 1]);
    cells.extend((1..column).rev().map(|i| [left, i - 1, i]));
    cells.extend([[left, west, 0], [left, far, west]]);
    (Mesh::of_cells(corners, &cells), [wide, ray])
}

/// A fan of slivers round one tip, of as many corners as a plan may have: the boxes of all
/// cells meet.
pub fn one_fan() -> Mesh {
    let lines = CORNERS.end() - 2;
    let last = lines as i64 + 1;
    let mut corners = vec![[0, 0]];
    corners.extend((0..last).map(|i| [last * last - i * i, 4_000 * i]));
    let cells: Vec<_> = (1..=lines).map(|at| [0, at, at + 1]).collect();
    Mesh::of_cells(corners, &cells)
}

/// Two fans of slivers: as many cells as a plan may have, and the boxes of all but one of
/// them meet.
///
/// A row of corners goes from west to east, up and down in turn. From each of its lines
/// there is a cell to a tip in the north and one to a tip in the south, both west of all.
pub fn two_fans() -> Mesh {
    let lines = CELLS.end() / 2 - 1;
    let mut corners = vec![[-1_000, 20_000], [-1_000, -20_000], [-3_000, 0]];
    let (north, south, west, first) = (0, 1, 2, 3);
    corners.extend((0..=lines as i64).map(|i| [100 * i, 10 * (i % 2)]));
    let mut cells = vec![[west, south, north], [first, north, south]];
    for at in first..first + lines {
        cells.extend([[north, at, at + 1], [south, at + 1, at]]);
    }
    Mesh::of_cells(corners, &cells)
}

fn one_cell(dice: &mut Dice) -> Mesh {
    let size = scale(dice);
    loop {
        let corners = vec![spot(dice, size), spot(dice, size), spot(dice, size)];
        let mesh = Mesh::of_cells(corners, &[[0, 1, 2]]);
        if !mesh.cells.is_empty() {
            return mesh;
        }
    }
}

/// A grid whose corners are moved, sometimes so far that cells fall out. Where cells come
/// to lie on top of others for that, it is drawn again.
fn jittered_grid(dice: &mut Dice) -> Mesh {
    let (columns, rows) = (1 + some(6, dice), 1 + some(6, dice));
    // Twenty columns of the largest step still lie within the limits.
    let step = dice.pick(&[6, 20, 1_000, 40_000_000]);
    let jitter = step * dice.pick(&[0, 10, 30, 45]) / 100;
    let mut mesh = without_overlap(|| grid(&even(columns, step), &even(rows, step), jitter, dice));
    if mesh.cells.is_empty() {
        return one_cell(dice);
    }
    flip_some(&mut mesh, dice, 3 * columns * rows);
    mesh
}

/// Draws until no two cells overlap.
fn without_overlap(mut draw: impl FnMut() -> Mesh) -> Mesh {
    loop {
        let mesh = draw();
        if !mesh.overlaps() {
            return mesh;
        }
    }
}

/// Cell corners at these x and y, moved at random; each square is parted by
/// one of its diagonals.
fn grid(xs: &[i64], ys: &[i64], jitter: i64, dice: &mut Dice) -> Mesh {
    let mut corners = Vec::new();
    for &y in ys {
        for &x in xs {
            let (dx, dy) = (dice.between(-jitter, jitter), dice.between(-jitter, jitter));
            corners.push([x + dx, y + dy]);
        }
    }
    let mut cells = Vec::new();
    for row in 0..ys.len() - 1 {
        for column in 0..xs.len() - 1 {
            let a = row * xs.len() + column;
            let d = a + xs.len();
            cells.extend(part_square([a, a + 1, d + 1, d], dice));
        }
    }
    Mesh::of_cells(corners, &cells)
}

/// Two cells of a square, along either diagonal.
fn part_square([a, b, c, d]: [usize; 4], dice: &mut Dice) -> [[usize; 3]; 2] {
    if dice.percent(50) {
        [[a, b, c], [a, c, d]]
    } else {
        [[a, b, d], [b, c, d]]
    }
}

/// Equal steps around zero.
fn even(steps: usize, step: i64) -> Vec<i64> {
    let half = steps as i64 / 2;
    (0..=steps as i64).map(|i| (i - half) * step).collect()
}

/// Corners put one by one into a square, inside cells and onto
/// lines, with diagonals turned in between.
fn incremental(dice: &mut Dice) -> Mesh {
    let size = scale(dice);
    let base = vec![[-size, -size], [size, -size], [size, size], [-size, size]];
    let mut mesh = Mesh::of_cells(base, &[[0, 1, 2], [0, 2, 3]]);
    for _ in 0..some(40, dice) {
        if dice.percent(70) {
            let cell = dice.below(mesh.cells.len());
            if let Some(at) = spot_inside(&mesh, cell, dice) {
                mesh.split_cell(cell, at);
            }
        } else {
            let face = dice.below(mesh.across.len());
            if let Some(at) = spot_on_line(&mesh, face, dice) {
                mesh.split_line(face, at);
            }
        }
        flip_some(&mut mesh, dice, 2);
    }
    mesh
}

/// Cells around one hub, out to corners at random distances.
fn fan(dice: &mut Dice) -> Mesh {
    let size = scale(dice);
    let mut rim: Vec<Spot> = (0..3 + some(20, dice)).map(|_| spot(dice, size)).collect();
    rim.retain(|at| *at != [0, 0]);
    rim.sort_by(|&a, &b| by_angle(a, b));
    let count = rim.len();
    let cells: Vec<[usize; 3]> = (0..count)
        .map(|i| [0, 1 + i, 1 + (i + 1) % count])
        .collect();
    let corners = [vec![[0, 0]], rim].concat();
    let mesh = Mesh::of_cells(corners, &cells);
    if mesh.cells.is_empty() {
        return one_cell(dice);
    }
    mesh
}

/// Order of spots around zero, beginning at the positive x axis.
fn by_angle(a: Spot, b: Spot) -> std::cmp::Ordering {
    let lower = |at: Spot| at[1] < 0 || (at[1] == 0 && at[0] < 0);
    lower(a)
        .cmp(&lower(b))
        .then(0.cmp(&side_value([0, 0], a, b)))
}

/// A grid of straight walls with narrow gaps: many corners in line, and lines
/// walled but for one opening, often of a millimetre.
fn rooms(dice: &mut Dice) -> Mesh {
    let (columns, rows) = (2 + some(6, dice), 2 + some(6, dice));
    let (xs, ys) = (uneven(columns, dice), uneven(rows, dice));
    let mut mesh = grid(&xs, &ys, 0, dice);
    for _ in 0..dice.below(4) {
        let axis = dice.below(2);
        let at = if axis == 0 {
            dice.pick(&xs)
        } else {
            dice.pick(&ys)
        };
        wall_along(&mut mesh, axis, at, dice);
    }
    mesh
}

/// Steps of a millimetre between larger ones.
fn uneven(steps: usize, dice: &mut Dice) -> Vec<i64> {
    let mut at = 0;
    let mut all = vec![0];
    for _ in 0..steps {
        at += match dice.below(4) {
            0 => 1,
            1 => dice.between(2, 5),
            2 => dice.between(6, 40),
            _ => 12,
        };
        all.push(at);
    }
    all
}

/// Walls every line at a coordinate but one, mostly the shortest.
fn wall_along(mesh: &mut Mesh, axis: usize, at: i64, dice: &mut Dice) {
    let mut lines = mesh.free_lines();
    lines.retain(|&face| {
        let (a, b) = mesh.ends(face);
        mesh.corners[a][axis] == at && mesh.corners[b][axis] == at
    });
    let length = |face: usize| {
        let (a, b) = mesh.ends(face);
        (mesh.corners[a][1 - axis] - mesh.corners[b][1 - axis]).abs()
    };
    lines.sort_by_key(|&face| length(face));
    if !lines.is_empty() {
        let gap = if dice.percent(70) {
            0
        } else {
            dice.below(lines.len())
        };
        lines.remove(gap);
    }
    for face in lines {
        mesh.cut(face);
    }
}

fn random_corridor(dice: &mut Dice) -> Mesh {
    let sections = 1 + some(40, dice);
    let step = dice.pick(&[1, 3, 50, 10_000]);
    let width = dice.pick(&[2, 7, 40, 10_000]);
    let swing = dice.pick(&[0, 0, 1, width / 2]);
    corridor(sections, step, width, swing, dice)
}

/// A strip of two cells a section; its two walls swing by up to a distance.
pub fn corridor(sections: usize, step: i64, width: i64, swing: i64, dice: &mut Dice) -> Mesh {
    let mut corners = Vec::new();
    let mut cells = Vec::new();
    for i in 0..=sections {
        let x = i as i64 * step;
        corners.push([x, -dice.between(0, swing)]);
        corners.push([x, width + dice.between(0, swing)]);
    }
    for i in 0..sections {
        let (a, d) = (2 * i, 2 * i + 1);
        cells.extend(part_square([a, a + 2, d + 2, d], dice));
    }
    Mesh::of_cells(corners, &cells)
}

fn random_fence(dice: &mut Dice) -> Mesh {
    let posts = 2 + some(12, dice);
    let layers = 1 + some(8, dice);
    fence(posts, layers, dice.pick(&[2, 3, 10, 1_000]))
}

/// A room before a fence, and a wide floor of many layers behind it.
///
/// Every post parts the cone that comes through the room, every second field
/// of the fence is wall, and each gap's cone passes all layers on its own.
pub fn fence(posts: usize, layers: usize, step: i64) -> Mesh {
    let half = posts as i64 * step;
    let mut corners = vec![[-2 * half, -half], [2 * half, -half]];
    corners.extend((0..posts as i64).map(|i| [(2 * i - posts as i64 + 1) * step / 2, 0]));
    for layer in 1..=layers as i64 {
        let y = layer * step;
        corners.extend([[-2 * half - 2 * y, y], [2 * half + 2 * y, y]]);
    }
    let (first, last) = (2, posts + 1);
    let (left, right) = (posts + 2, posts + 3);
    let mut cells = vec![[0, 1, last], [last, right, left]];
    for post in first..last {
        cells.extend([[0, post + 1, post], [post, post + 1, left]]);
    }
    for layer in 1..layers {
        let (a, b) = (left + 2 * layer - 2, right + 2 * layer - 2);
        cells.extend([[a, b, b + 2], [a, b + 2, a + 2]]);
    }
    let mut mesh = Mesh::of_cells(corners, &cells);
    for face in mesh.free_lines() {
        let (a, b) = mesh.ends(face);
        let field = a.min(b);
        let on_fence = (first..=last).contains(&a) && (first..=last).contains(&b);
        if on_fence && field % 2 == 0 {
            mesh.cut(face);
        }
    }
    mesh
}

/// Eight directions around a core, any two neighbours less than half a turn
/// apart even when two between them are left out.
const AROUND: [Spot; 8] = [
    [4, 0],
    [3, 3],
    [0, 4],
    [-3, 3],
    [-4, 0],
    [-3, -3],
    [0, -4],
    [3, -3],
];

/// How a ramp winds around its core.
struct Winding {
    around: Vec<Spot>,
    sections: usize,
    /// Places where sections begin and end, all the way.
    stations: usize,
    /// Stations that have corners of their own; the others use them again, so
    /// that cells lie on top of each other with the same corners.
    own: usize,
}

impl Winding {
    fn number(&self, station: usize) -> usize {
        station % self.stations % self.own
    }

    fn towards(&self, station: usize) -> Spot {
        self.around[station % self.around.len()]
    }

    /// On a ring the last section ends where the first begins.
    fn is_ring(&self) -> bool {
        self.stations == self.sections
    }
}

/// Cells that wind around a core, once at most. The ends are walls, or join into a ring.
fn ramp(dice: &mut Dice) -> Mesh {
    let around = directions(dice);
    let turn = around.len();
    let part = 1 + dice.below(turn);
    let sections = dice.pick(&[turn, part]);
    wind(around, sections, sections == turn && dice.percent(70), dice)
}

/// Cells that wind around a core more than once, and so lie on top of each other, now and
/// then with a wall between two turns.
pub fn wound(dice: &mut Dice) -> Mesh {
    let around = directions(dice);
    let turn = around.len();
    let turns = 2 + dice.below(2);
    let is_ring = dice.percent(50);
    let surplus = if is_ring { 0 } else { dice.below(turn) };
    let mut mesh = wind(around, turn * turns - surplus, is_ring, dice);
    if dice.percent(30) {
        mesh.cut(dice.below(mesh.across.len()));
    }
    mesh
}

/// The directions that sections of a ramp begin in.
fn directions(dice: &mut Dice) -> Vec<Spot> {
    match dice.below(3) {
        0 => vec![AROUND[0], AROUND[3], AROUND[5]],
        1 => AROUND.iter().copied().step_by(2).collect(),
        _ => AROUND.to_vec(),
    }
}

fn wind(around: Vec<Spot>, sections: usize, is_ring: bool, dice: &mut Dice) -> Mesh {
    let stations = sections + usize::from(!is_ring);
    let own = dice.pick(&[around.len().min(stations), stations]);
    let winding = Winding {
        around,
        sections,
        stations,
        own,
    };
    if dice.percent(50) {
        ramp_round_corner(&winding, dice)
    } else {
        ramp_round_core(&winding, dice)
    }
}

/// A ramp round a single corner: one cell a section.
fn ramp_round_corner(winding: &Winding, dice: &mut Dice) -> Mesh {
    let size = dice.between(1, 20);
    let mut mesh = Mesh::default();
    mesh.corners.push([0, 0]);
    for station in 0..winding.own {
        let far = size * dice.between(1, 3);
        mesh.corners.push(times(winding.towards(station), far));
    }
    let rim = |station: usize| 1 + winding.number(station);
    for section in 0..winding.sections {
        let cell = mesh.add_cell([0, rim(section), rim(section + 1)]);
        if section > 0 {
            mesh.join(cell, Some(cell - 1));
        }
    }
    if winding.is_ring() {
        mesh.join(0, Some(3 * winding.sections - 1));
    }
    mesh
}

/// A ramp round a core with a width of its own: two cells a section.
fn ramp_round_core(winding: &Winding, dice: &mut Dice) -> Mesh {
    let size = dice.between(1, 20);
    let mut mesh = Mesh::default();
    for station in 0..winding.own {
        let to = winding.towards(station);
        mesh.corners.push(times(to, size * dice.between(1, 2)));
        mesh.corners.push(times(to, size * dice.between(3, 9)));
    }
    let inner = |station: usize| 2 * winding.number(station);
    let outer = |station: usize| inner(station) + 1;
    for section in 0..winding.sections {
        let (here, there) = (section, section + 1);
        let first = mesh.add_cell([inner(here), outer(here), outer(there)]);
        let second = mesh.add_cell([inner(here), outer(there), inner(there)]);
        mesh.join(first + 2, Some(second));
        if section > 0 {
            mesh.join(first, Some(first - 2));
        }
    }
    if winding.is_ring() {
        mesh.join(0, Some(6 * winding.sections - 2));
    }
    mesh
}

pub fn times(at: Spot, factor: i64) -> Spot {
    [at[0] * factor, at[1] * factor]
}

/// The corners of an octagon, in a square of four by four.
pub const OCTAGON: [Spot; 8] = [
    [2, -1],
    [2, 1],
    [1, 2],
    [-1, 2],
    [-2, 1],
    [-2, -1],
    [-1, -2],
    [1, -2],
];

/// Octagons side by side, each parted into triangles, and between every four of
/// them a diamond. Merged again these are cells of every size up to the largest.
fn tiles(dice: &mut Dice) -> Mesh {
    let (columns, rows) = (1 + dice.below(4), 1 + dice.below(4));
    let [wide, high] = [(); 2].map(|()| dice.pick(&[1, 2, 6, 100]));
    let mut numbers = BTreeMap::new();
    let mut number = |x: i64, y: i64| {
        let count = numbers.len();
        *numbers.entry([x, y]).or_insert(count)
    };
    let mut cells = Vec::new();
    for (column, row) in (0..columns).flat_map(|column| (0..rows).map(move |row| (column, row))) {
        let [x, y] = [column, row].map(|step| 4 * step as i64);
        cells.extend(part(
            OCTAGON.map(|at| number(x + at[0], y + at[1])).to_vec(),
            dice,
        ));
        if column > 0 && row > 0 {
            let diamond = [[-2, -3], [-1, -2], [-2, -1], [-3, -2]];
            cells.extend(part(
                diamond.map(|at| number(x + at[0], y + at[1])).to_vec(),
                dice,
            ));
        }
    }
    let jitter = dice.pick(&[0, 0, 10, 30]);
    let mut corners = vec![[0, 0]; numbers.len()];
    for ([x, y], number) in numbers {
        let moved = |size: i64, dice: &mut Dice| size * dice.between(-jitter, jitter) / 100;
        corners[number] = [x * wide + moved(wide, dice), y * high + moved(high, dice)];
    }
    let mut mesh = Mesh::of_cells(corners, &cells);
    if dice.percent(30) {
        flip_some(&mut mesh, dice, cells.len());
    }
    mesh
}

/// The corners of a cell that zero is the only whole spot inside of.
const AROUND_ZERO: [Spot; 3] = [[-1, -1], [1, 0], [0, 1]];

/// Layers of cells between three rays from zero, where the stand is: every corner
/// lies on a limit, but for the tips of the last layers.
fn rays(dice: &mut Dice) -> Mesh {
    let mut corners = AROUND_ZERO.to_vec();
    let mut cells = vec![[0, 1, 2]];
    for (right, left) in [(0, 1), (1, 2), (2, 0)] {
        let (mut near, mut far) = ([right, left], [1, 1]);
        for _ in 0..dice.below(5) {
            far = far.map(|far| far + dice.between(1, 3));
            let first = corners.len();
            corners.push(times(AROUND_ZERO[right], far[0]));
            corners.push(times(AROUND_ZERO[left], far[1]));
            let next = [first, first + 1];
            cells.extend(part_square([near[1], near[0], next[0], next[1]], dice));
            near = next;
        }
        if dice.percent(60) {
            let [a, b] = near.map(|corner| corners[corner]);
            cells.push([near[1], near[0], corners.len()]);
            corners.push([a[0] + b[0], a[1] + b[1]]);
        }
    }
    Mesh::of_cells(corners, &cells)
}

/// Triangles that a convex cell is parted into, cut off at random corners.
pub fn part(mut corners: Vec<usize>, dice: &mut Dice) -> Vec<[usize; 3]> {
    let mut cells = Vec::new();
    while corners.len() > 2 {
        let first = dice.below(corners.len());
        corners.rotate_left(first);
        cells.push([corners[0], corners[1], corners[2]]);
        corners.remove(1);
    }
    cells
}

fn random_cathedral(dice: &mut Dice) -> Mesh {
    let (columns, rows) = (8 + dice.below(8), 8 + dice.below(8));
    cathedral(columns, rows, 40, dice)
}

/// A wide floor with a pillar in every third square of every third row.
pub fn cathedral(columns: usize, rows: usize, jitter: i64, dice: &mut Dice) -> Mesh {
    let mut mesh = grid(&even(columns, 500), &even(rows, 500), jitter, dice);
    // With a jitter this small no cell falls out: two cells a square.
    let keep: Vec<bool> = (0..mesh.cells.len())
        .map(|cell| {
            let (column, row) = (cell / 2 % columns, cell / 2 / columns);
            column % 3 != 1 || row % 3 != 1
        })
        .collect();
    mesh.keep_cells(&keep);
    mesh
}

/// Walls and pillars inside a floor, and corners parted along the walls.
fn build_inside(mesh: &mut Mesh, dice: &mut Dice) {
    let walls = dice.pick(&[0, 0, 0, 5, 10, 30]);
    for face in mesh.free_lines() {
        if dice.percent(walls) {
            mesh.cut(face);
        }
    }
    let pillars = dice.pick(&[0, 0, 0, 10, 25]);
    let mut keep: Vec<bool> = mesh.cells.iter().map(|_| !dice.percent(pillars)).collect();
    let spared = dice.below(keep.len());
    keep[spared] = true;
    mesh.keep_cells(&keep);
    for _ in 0..dice.pick(&[0, 0, 1, 5]) {
        mesh.part_corner(dice.below(mesh.corners.len()));
    }
    for _ in 0..dice.pick(&[0, 0, 1, 3]) {
        let twin = dice.pick(&mesh.corners);
        let size = mesh.extent();
        let unused = if dice.percent(50) {
            twin
        } else {
            spot(dice, size)
        };
        mesh.corners.push(unused);
    }
}

/// Place, size and numbers of a floor.
pub fn finish(mesh: &mut Mesh, dice: &mut Dice) {
    if dice.percent(30) {
        mesh.drop_unused_corners();
    }
    let most = EDGE / mesh.extent().max(1);
    match dice.below(10) {
        0 => mesh.map_corners(|at| times(at, most)),
        1 => {
            let factor = dice.between(1, most);
            mesh.map_corners(|at| times(at, factor));
        }
        _ => {}
    }
    match dice.below(10) {
        0 => push_to_edge(mesh, dice),
        1..=3 => {
            let room = (EDGE - mesh.extent()).min(1_000);
            let by = spot(dice, room);
            mesh.map_corners(|at| [at[0] + by[0], at[1] + by[1]]);
        }
        _ => {}
    }
    if dice.percent(70) {
        mesh.renumber(dice);
    }
}

/// Moves the floor until it touches the end of the coordinate range.
fn push_to_edge(mesh: &mut Mesh, dice: &mut Dice) {
    let mut by = [0, 0];
    for (axis, by) in by.iter_mut().enumerate() {
        let along = mesh.corners.iter().map(|corner| corner[axis]);
        *by = if dice.percent(50) {
            EDGE - along.max().unwrap_or(0)
        } else {
            -EDGE - along.min().unwrap_or(0)
        };
    }
    mesh.map_corners(|at| [at[0] + by[0], at[1] + by[1]]);
}

/// A map that keeps every side value, while coordinates grow to the limit:
/// what was a small side value then is one of long, nearly parallel vectors.
pub fn slant(extent: i64, dice: &mut Dice) -> impl Fn(Spot) -> Spot {
    let extent = extent.max(1);
    let most = EDGE / extent - 1;
    let most = dice.pick(&[most, most.isqrt()]);
    let along = dice.between(0, most);
    let up = dice.between(0, (EDGE - extent) / (extent * (1 + along)));
    let (along, up) = (dice.pick(&[along, -along]), dice.pick(&[up, -up]));
    move |at| {
        let x = at[0] + along * at[1];
        [x, at[1] + up * x]
    }
}

/// Fills a floor up with cells beside it, and with corners in no cell, up to a cell and a
/// corner limit. Where there is no room for so many cells, there are none.
pub fn fill_up(mesh: &mut Mesh, corners: bool, cells: bool, dice: &mut Dice) {
    if cells {
        add_hall(mesh, CELLS.end() - mesh.cells.len(), dice);
    }
    while corners && mesh.corners.len() < *CORNERS.end() {
        mesh.corners.push(mesh.corners[0]);
    }
}

/// Adds a hall of so many cells west or east of a floor, if there is room for it.
fn add_hall(mesh: &mut Mesh, count: usize, dice: &mut Dice) {
    // The wider it is, the fewer corners it has.
    let columns = 20;
    let rows = count.div_ceil(2 * columns);
    let (wide, high) = (columns as i64, rows as i64);
    let least = |axis: usize| mesh.corners.iter().map(|at| at[axis]).min().unwrap_or(0);
    let most = |axis: usize| mesh.corners.iter().map(|at| at[axis]).max().unwrap_or(0);
    let mut sides = [least(0) - wide, most(0)].into_iter();
    let west = sides.find(|west| (-EDGE..=EDGE - wide).contains(west));
    let corners = mesh.corners.len() + (columns + 1) * (rows + 1);
    let Some(west) = west.filter(|_| corners <= *CORNERS.end()) else {
        return;
    };
    let south = least(1).min(EDGE - high);
    let xs: Vec<i64> = (0..=wide).map(|x| west + x).collect();
    let ys: Vec<i64> = (0..=high).map(|y| south + y).collect();
    let mut hall = grid(&xs, &ys, 0, dice);
    let mut keep = vec![true; count];
    keep.resize(hall.cells.len(), false);
    hall.keep_cells(&keep);
    mesh.add(&hall);
}

fn flip_some(mesh: &mut Mesh, dice: &mut Dice, tries: usize) {
    for _ in 0..tries {
        mesh.flip(dice.below(mesh.across.len()));
    }
}

/// A count below a usual one, now and then up to three times as many.
fn some(usual: usize, dice: &mut Dice) -> usize {
    let most = if dice.percent(10) { 3 * usual } else { usual };
    dice.below(most)
}

/// A size for a floor: small ones put many corners in line.
fn scale(dice: &mut Dice) -> i64 {
    dice.pick(&[3, 10, 10, 100, 10_000, 1_000_000, EDGE])
}

pub fn spot(dice: &mut Dice, size: i64) -> Spot {
    [dice.between(-size, size), dice.between(-size, size)]
}

/// A random spot strictly inside a cell, if one is found.
pub fn spot_inside(mesh: &Mesh, cell: usize, dice: &mut Dice) -> Option<Spot> {
    let [a, b, c] = mesh.cells[cell].map(|corner| mesh.corners[corner]);
    (0..4).find_map(|_| {
        let weights = [dice.between(1, 9), dice.between(1, 9), dice.between(1, 9)];
        let all: i64 = weights.iter().sum();
        let mix = |i: usize| (weights[0] * a[i] + weights[1] * b[i] + weights[2] * c[i]) / all;
        let at = [mix(0), mix(1)];
        let inside =
            side_value(a, b, at) > 0 && side_value(b, c, at) > 0 && side_value(c, a, at) > 0;
        inside.then_some(at)
    })
}

/// A random spot strictly inside a line, if there is one.
pub fn spot_on_line(mesh: &Mesh, face: usize, dice: &mut Dice) -> Option<Spot> {
    let (a, b) = mesh.ends(face);
    spot_between([mesh.corners[a], mesh.corners[b]], dice)
}

/// A random spot strictly between two, if there is one.
pub fn spot_between(ends: [Spot; 2], dice: &mut Dice) -> Option<Spot> {
    let (steps, _) = steps_between(ends);
    (steps > 1).then(|| spot_at(ends, dice.between(1, steps - 1)))
}

/// The spot so many steps on from the first of two towards the second; it is
/// beyond them where there are not so many.
pub fn spot_at(ends: [Spot; 2], count: i64) -> Spot {
    let ([x, y], (_, [dx, dy])) = (ends[0], steps_between(ends));
    [x + dx * count, y + dy * count]
}

/// From one spot to another: how many whole steps, and one of them.
pub fn steps_between([a, b]: [Spot; 2]) -> (i64, Spot) {
    let (dx, dy) = (b[0] - a[0], b[1] - a[1]);
    let steps = greatest_divisor(dx.abs(), dy.abs());
    (steps, [dx, dy].map(|n| n / steps.max(1)))
}

/// Multiplies a floor, as far as the limits leave room, so that there are spots
/// strictly inside every line.
pub fn spread(mesh: &mut Mesh, dice: &mut Dice) {
    let most = EDGE / mesh.extent().max(1);
    let factor = dice.pick(&[2, 2, 3, 4, 6]).min(most);
    mesh.map_corners(|at| times(at, factor));
}

/// Turns a floor, as far as the limits leave room, so that lines along the axes have
/// whole lengths still, and spots at whole distances whose nearest point is no spot.
pub fn turn(mesh: &mut Mesh, dice: &mut Dice) {
    let [a, b] = dice.pick(&[[4, 3], [3, 4], [-4, 3], [12, 5], [-15, 8]]);
    if mesh.extent() <= EDGE / (a + b).max(b - a) {
        mesh.map_corners(|[x, y]| [a * x - b * y, b * x + a * y]);
    }
}

pub fn greatest_divisor(a: i64, b: i64) -> i64 {
    if b == 0 {
        a
    } else {
        greatest_divisor(b, a % b)
    }
}
