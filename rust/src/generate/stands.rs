//! Stands: inside cells, in line with corners, by the boxes of cells, and everything
//! a tablet could send by mistake. Those on the lines of a plan are in `lines`.

use super::dice::Dice;
use super::floors::{spot_inside, spot_on_line};
use super::mesh::{side_value, Mesh, Spot};
use crate::calls::Stand;
use crate::paper::COORDINATES;

/// A stand for a floor: mostly a good one, as a point or as an offset.
pub fn random(mesh: &Mesh, dice: &mut Dice) -> Stand {
    if dice.percent(12) {
        return unusual(mesh, dice);
    }
    let at = match dice.below(10) {
        0 => in_line(mesh, dice),
        1 => on_border(mesh, dice),
        2 => beside_corner(mesh, dice),
        3 => by_box(mesh, dice),
        _ => inside(mesh, dice),
    };
    as_stand(mesh, at, dice)
}

/// The spot a stand means, or one nearby where it means none.
pub fn near(mesh: &Mesh, stand: Stand) -> Spot {
    let clamp = |number: f64| (number as i64).clamp(*COORDINATES.start(), *COORDINATES.end());
    match stand {
        Stand::Point(x, y) => [clamp(x), clamp(y)],
        Stand::Offset(corner, dx, dy) => {
            let from = mesh.corners.get(usize::from(corner)).unwrap_or(&[0, 0]);
            [from[0] + clamp(dx), from[1] + clamp(dy)]
        }
    }
}

/// A stand moved as the corners are by a linear map.
pub fn mapped(stand: Stand, map: impl Fn(Spot) -> Spot) -> Stand {
    match stand {
        Stand::Point(x, y) => {
            let [x, y] = mapped_numbers([x, y], map);
            Stand::Point(x, y)
        }
        Stand::Offset(corner, dx, dy) => {
            let [dx, dy] = mapped_numbers([dx, dy], map);
            Stand::Offset(corner, dx, dy)
        }
    }
}

/// The two numbers of a stand, moved as the corners are by a linear map.
/// Numbers that mean no spot stay as they are.
pub fn mapped_numbers(at: [f64; 2], map: impl Fn(Spot) -> Spot) -> [f64; 2] {
    let whole = |n: f64| n.fract() == 0.0 && n.abs() <= *COORDINATES.end() as f64;
    if at.into_iter().all(whole) {
        map(at.map(|n| n as i64)).map(|n| n as f64)
    } else {
        at
    }
}

/// A spot strictly inside some cell, or a corner where no cell has one.
pub fn inside(mesh: &Mesh, dice: &mut Dice) -> Spot {
    (0..8)
        .find_map(|_| spot_inside(mesh, dice.below(mesh.cells.len()), dice))
        .unwrap_or(mesh.corners[0])
}

/// A spot from which two corners lie one behind the other.
fn in_line(mesh: &Mesh, dice: &mut Dice) -> Spot {
    let (near, far) = (dice.pick(&mesh.corners), dice.pick(&mesh.corners));
    let times = dice.between(1, 3);
    [0, 1].map(|i| near[i] + times * (near[i] - far[i]))
}

pub fn on_border(mesh: &Mesh, dice: &mut Dice) -> Spot {
    let face = dice.below(mesh.across.len());
    match spot_on_line(mesh, face, dice) {
        Some(at) if dice.percent(70) => at,
        _ => dice.pick(&mesh.corners),
    }
}

fn beside_corner(mesh: &Mesh, dice: &mut Dice) -> Spot {
    let at = dice.pick(&mesh.corners);
    [at[0] + dice.between(-1, 1), at[1] + dice.between(-1, 1)]
}

/// A spot by the box of some cell, which goes from the least to the greatest x and y of its
/// corners: at a corner of the box, on its edge, a millimetre inside or outside that, or in
/// it where the cell is not.
fn by_box(mesh: &Mesh, dice: &mut Dice) -> Spot {
    let [a, b, c] = dice.pick(&mesh.cells).map(|corner| mesh.corners[corner]);
    let ends = [0, 1].map(|axis| {
        let [a, b, c] = [a[axis], b[axis], c[axis]];
        [a.min(b).min(c), a.max(b).max(c)]
    });
    let anywhere = |dice: &mut Dice| ends.map(|[low, high]| dice.between(low, high));
    let mut at = anywhere(dice);
    let axis = dice.below(2);
    let edge = dice.pick(&ends[axis]);
    match dice.below(5) {
        0 => at = ends.map(|ends| dice.pick(&ends)),
        1 | 2 => at[axis] = edge,
        3 => at[axis] = edge + dice.pick(&[-1, 1]),
        _ => {
            let sides = [[a, b], [b, c], [c, a]];
            let is_beside = |at: &Spot| sides.iter().any(|&[a, b]| side_value(a, b, *at) < 0);
            let mut spots = (0..8).map(|_| anywhere(dice));
            at = spots.find(is_beside).unwrap_or(at);
        }
    }
    at
}

/// A spot as a stand: a point, or an offset.
pub fn as_stand(mesh: &Mesh, at: Spot, dice: &mut Dice) -> Stand {
    if dice.percent(70) {
        Stand::Point(at[0] as f64, at[1] as f64)
    } else {
        as_offset(mesh, at, dice)
    }
}

/// The same spot as an offset, which the offset's own limits may forbid.
fn as_offset(mesh: &Mesh, at: Spot, dice: &mut Dice) -> Stand {
    let corner = dice.below(mesh.corners.len());
    let from = mesh.corners[corner];
    Stand::Offset(
        corner as u16,
        (at[0] - from[0]) as f64,
        (at[1] - from[1]) as f64,
    )
}

/// A stand with one number, or the corner, that mostly is not accepted.
fn unusual(mesh: &Mesh, dice: &mut Dice) -> Stand {
    let at = inside(mesh, dice);
    let (mut x, mut y) = (at[0] as f64, at[1] as f64);
    let odd = odd_number(x, dice);
    if dice.percent(50) {
        x = odd;
    } else {
        y = odd;
    }
    let count = mesh.corners.len() as u16;
    match dice.below(4) {
        0 => Stand::Offset(dice.below(usize::from(count)) as u16, x, y),
        1 => Stand::Offset(dice.pick(&[count, u16::MAX, 0]), x, y),
        _ => Stand::Point(x, y),
    }
}

fn odd_number(near: f64, dice: &mut Dice) -> f64 {
    let edge = *COORDINATES.end() as f64;
    match dice.below(12) {
        0 => near + 0.5,
        1 => -0.0,
        2 => f64::NAN,
        3 => dice.pick(&[f64::INFINITY, f64::NEG_INFINITY]),
        4 => dice.pick(&[edge, -edge]),
        5 => dice.pick(&[edge + 1.0, -edge - 1.0, edge + 0.5]),
        6 => dice.pick(&[1e18, -1e300, f64::MAX, f64::MIN]),
        7 => dice.pick(&[5e-324, f64::MIN_POSITIVE, -5e-324]),
        8 => f64::from_bits(near.to_bits() ^ 1),
        9 => {
            dice.pick(&[
                4_294_967_296.0,
                -4_294_967_296.0,
                9_223_372_036_854_775_808.0,
            ]) + near
        }
        10 => f64::from_bits(dice.word()),
        _ => near + 0.999,
    }
}
