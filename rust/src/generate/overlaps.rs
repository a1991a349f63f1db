//! Floors with cells on top of others, and floors whose cells just do not lie so: that
//! touch in a corner, in a point or along a line without being neighbours.

use super::dice::Dice;
use super::floors::{self, part, times, EDGE, OCTAGON};
use super::mesh::{side_value, Mesh, Spot};

/// A random floor of these.
pub fn random(dice: &mut Dice) -> Mesh {
    let mut mesh = match dice.below(100) {
        0..=24 => floors::wound(dice),
        25..=61 => pairs(dice),
        62..=69 => by_a_hair(dice),
        70..=97 => laid_on(dice),
        _ => all_on_top(dice),
    };
    if dice.percent(50) {
        mesh.share_corners();
    }
    floors::finish(&mut mesh, dice);
    mesh
}

/// Pairs of cells, each with corners of its own, one pair beside the other.
fn pairs(dice: &mut Dice) -> Mesh {
    let mut mesh = Mesh::default();
    let beside = dice.percent(50);
    for number in 0..dice.pick(&[1, 1, 2, 3, 6]) {
        let [one, mut other] = pair(beside, dice);
        if dice.percent(15) {
            let by = [dice.between(-1, 1), dice.between(-1, 1)];
            move_by(&mut other, by);
        }
        for cell in [one, other] {
            let triangles = part((0..cell.len()).collect(), dice);
            let mut piece = Mesh::of_cells(cell, &triangles);
            piece.map_corners(|[x, y]| [x + 100 * number, y]);
            mesh.add(&piece);
        }
    }
    mesh
}

/// A cell, and one on top of it or beside it, or beside it for sure.
fn pair(beside: bool, dice: &mut Dice) -> [Vec<Spot>; 2] {
    let shape = shape(dice);
    let cell: Vec<Spot> = shape.iter().map(|&at| times(at, 6)).collect();
    let [a, b, c] = [0, 1, 2].map(|corner| shape[corner]);
    let centre = [0, 1].map(|axis| 2 * (a[axis] + b[axis] + c[axis]));
    let [from, to] = [0, 1].map(|corner| cell[corner]);
    let [dx, dy] = [to[0] - from[0], to[1] - from[1]];
    let way = if beside {
        6 + dice.below(3)
    } else {
        dice.below(9)
    };
    let mut other = match way {
        0 => cell.clone(),
        // Inside, half as large.
        1 => map(&cell, |at, axis| (at + centre[axis]) / 2),
        // Turned over: a triangle and this are a star of David.
        2 => map(&cell, |at, axis| 2 * centre[axis] - at),
        3 => return cross(),
        // Somewhere about.
        4 => {
            let by = [dice.between(-40, 40), dice.between(-40, 40)];
            map(&cell, |at, axis| at + by[axis])
        }
        // Some corner of it on some corner.
        5 => {
            let [here, there] = [dice.pick(&cell), dice.pick(&cell)];
            map(&cell, |at, axis| at + there[axis] - here[axis])
        }
        // Beyond a corner.
        6 => map(&cell, |at, axis| 2 * from[axis] - at),
        // Beyond a side, of which it has the whole or a part.
        7 => {
            let steps = dice.pick(&[0, 0, 1, -4, 6, 7]);
            let by = [dx, dy].map(|by| by / 6 * steps);
            map(&cell, |at, axis| from[axis] + to[axis] + by[axis] - at)
        }
        // Beyond a side, with a tip on it.
        _ => {
            let tip = [from[0] + dx / 2, from[1] + dy / 2];
            let beyond = |part: i64| [tip[0] + dy + dx / 2 * part, tip[1] - dx + dy / 2 * part];
            vec![tip, beyond(-1), beyond(1)]
        }
    };
    let first = dice.below(other.len());
    other.rotate_left(first);
    [cell, other]
}

/// The corners of a convex cell, counter-clockwise.
fn shape(dice: &mut Dice) -> Vec<Spot> {
    match dice.below(6) {
        0 => vec![[0, 0], [4, 0], [0, 4]],
        1 => vec![[-3, -1], [2, -2], [1, 3]],
        // So narrow that its box says little.
        2 => vec![[0, 0], [6, 5], [5, 6]],
        3 => vec![[-2, -2], [3, -1], [2, 2], [-1, 3]],
        4 => vec![[0, -3], [2, -2], [3, 1], [1, 3], [-2, 0]],
        _ => OCTAGON.to_vec(),
    }
}

/// A wide cell and a high one, neither of which has a corner in the other.
fn cross() -> [Vec<Spot>; 2] {
    let wide = vec![[-18, -6], [18, -6], [18, 6], [-18, 6]];
    let high = wide.iter().map(|&[x, y]: &Spot| [-y, x]).collect();
    [wide, high]
}

fn map(cell: &[Spot], by: impl Fn(i64, usize) -> i64) -> Vec<Spot> {
    cell.iter()
        .map(|at| [0, 1].map(|axis| by(at[axis], axis)))
        .collect()
}

fn move_by(cell: &mut [Spot], by: Spot) {
    cell.iter_mut()
        .for_each(|at| *at = [at[0] + by[0], at[1] + by[1]]);
}

/// Two cells of which a side of the one all but meets a corner of the other: no spot is
/// nearer to its line.
fn by_a_hair(dice: &mut Dice) -> Mesh {
    let size = dice.pick(&[10, 1_000, EDGE, EDGE]);
    loop {
        let [a, b, c, d, e] = [(); 5].map(|()| floors::spot(dice, size));
        let value = dice.pick(&[1, -1]);
        let (Some(tip), true) = (beside(a, b, value), side_value(a, b, c) > 0) else {
            continue;
        };
        let beyond = side_value(a, b, d) < 0 && side_value(a, b, e) < 0;
        if beyond && side_value(tip, d, e) > 0 {
            let corners = vec![a, b, c, tip, d, e];
            return Mesh::of_cells(corners, &[[0, 1, 2], [3, 4, 5]]);
        }
    }
}

/// The spot beside a line between two that has this side value, 1 or -1, if no spot is
/// strictly within the line.
fn beside(a: Spot, b: Spot, value: i64) -> Option<Spot> {
    let [dx, dy] = [b[0] - a[0], b[1] - a[1]];
    // Euclid's steps, and of each how many times dx it is, but for a multiple of dy.
    let (mut step, mut times) = ([dx, dy], [1, 0]);
    while step[1] != 0 {
        let quotient = step[0] / step[1];
        step = [step[1], step[0] - quotient * step[1]];
        times = [times[1], times[0] - quotient * times[1]];
    }
    (step[0].abs() == 1 && dy != 0).then(|| {
        let y = value * step[0] * times[0];
        let x = (dx * y - value) / dy;
        let too_far = (dx * x + dy * y).div_euclid(dx * dx + dy * dy);
        [a[0] + x - too_far * dx, a[1] + y - too_far * dy]
    })
}

/// A floor of any family with one to three more cells between its corners.
fn laid_on(dice: &mut Dice) -> Mesh {
    let mut mesh = floors::random(dice);
    for _ in 0..1 + dice.below(3) {
        let cell = dice.below(mesh.cells.len());
        let copy = mesh.cells[cell];
        let any = [(); 3].map(|()| dice.below(mesh.corners.len()));
        let [a, b, c] = any;
        let turned = [[a, b, c], [a, c, b]];
        let between = turned.into_iter().find(|&cell| mesh.is_positive(cell));
        mesh.add_cell(between.filter(|_| dice.percent(70)).unwrap_or(copy));
    }
    mesh
}

/// Hundreds of cells, all in the same place but for a few.
fn all_on_top(dice: &mut Dice) -> Mesh {
    let mut mesh = floors::random(dice);
    while mesh.cells.len() < 300 {
        mesh.add_cell(mesh.cells[0]);
    }
    mesh
}
