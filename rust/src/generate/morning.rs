//! The stands of a morning, as a list of numbers.

use super::dice::Dice;
use super::mesh::{Mesh, Spot};
use super::stands::{as_stand, inside, mapped_numbers, on_border, random as random_stand};
use crate::calls::{Stand, MOST_STANDS, POINT};

/// A floor of more cells is a large one: each of its stands takes long.
const LARGE: usize = 400;

/// Stands for a floor, three numbers each; now and then the list is cut within
/// a stand.
pub fn random(mesh: &Mesh, dice: &mut Dice) -> Vec<f64> {
    let count = count(mesh, dice);
    let all_refused = dice.percent(10);
    let mut list: Vec<f64> = (0..count)
        .flat_map(|_| match dice.below(100) {
            _ if all_refused => refused(mesh, dice).numbers(),
            0..=6 => unusual(mesh, dice),
            7..=13 => refused(mesh, dice).numbers(),
            _ => random_stand(mesh, dice).numbers(),
        })
        .collect();
    if dice.percent(4) {
        let length = list.len() + dice.pick(&[0, 3]);
        list.resize(length.saturating_sub(1 + dice.below(2)), POINT);
    }
    list
}

/// Puts some of the stands where a spot is found for them.
pub fn put(
    list: &mut [f64],
    mesh: &Mesh,
    spot: impl Fn(&mut Dice) -> Option<Spot>,
    dice: &mut Dice,
) {
    let (stands, _) = list.as_chunks_mut();
    for numbers in stands {
        if dice.percent(40) {
            if let Some(at) = spot(dice) {
                *numbers = as_stand(mesh, at, dice).numbers();
            }
        }
    }
}

/// Moves each stand of a list as the corners are by a linear map.
pub fn map(list: &mut [f64], map: impl Fn(Spot) -> Spot) {
    let (stands, _) = list.as_chunks_mut();
    for [_, x, y] in stands {
        [*x, *y] = mapped_numbers([*x, *y], &map);
    }
}

/// Mostly a few stands. As many as there may be, and about as many, come up now
/// and then, on a large floor less often.
fn count(mesh: &Mesh, dice: &mut Dice) -> usize {
    let every = if mesh.cells.len() > LARGE { 100 } else { 20 };
    if dice.below(every) == 0 {
        let most = MOST_STANDS;
        let counts = [6, 12, most - 1, most, most, most + 1, most + 2, 2 * most];
        return dice.pick(&counts);
    }
    match dice.below(20) {
        0 | 1 => 0,
        2..=4 => 1,
        _ => 2 + dice.below(4),
    }
}

/// A stand that is refused: not whole, on a border, or outside.
fn refused(mesh: &Mesh, dice: &mut Dice) -> Stand {
    let point = |[x, y]: Spot| Stand::Point(x as f64, y as f64);
    match dice.below(3) {
        0 => {
            let [x, y] = inside(mesh, dice);
            Stand::Point(x as f64 + 0.5, y as f64)
        }
        1 => point(on_border(mesh, dice)),
        _ => point([mesh.extent() + 1, dice.between(-9, 9)]),
    }
}

/// A spot inside as a point or as an offset from corner 0, with a first number
/// that mostly is that of neither.
fn unusual(mesh: &Mesh, dice: &mut Dice) -> [f64; 3] {
    let [x, y] = inside(mesh, dice);
    let [from_x, from_y] = dice.pick(&[[0, 0], mesh.corners[0]]);
    let corners = mesh.corners.len() as f64;
    let first = match dice.below(10) {
        0 => -0.0,
        1 => f64::NAN,
        2 => dice.pick(&[f64::INFINITY, f64::NEG_INFINITY, 1e300, -1e300]),
        3 => dice.pick(&[0.5, -0.5, 5e-324, -5e-324]),
        4 => dice.pick(&[POINT.next_up(), POINT.next_down(), -1.5]),
        5 => dice.pick(&[-2.0, -65_535.0, -65_536.0]),
        // Of the last corner, and one beyond it.
        6 => dice.pick(&[corners - 1.0, corners]),
        // Of no corner, but of corner 0 or of a point where high bits are lost.
        7 => dice.pick(&[65_535.0, 65_536.0]),
        8 => dice.pick(&[
            4_294_967_295.0,
            4_294_967_296.0,
            18_446_744_073_709_551_616.0,
        ]),
        _ => f64::from_bits(dice.word()),
    };
    [first, (x - from_x) as f64, (y - from_y) as f64]
}
