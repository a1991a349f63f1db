//! Reaches: not stated, refused, the shortest and the longest, and such as leave some
//! line just in reach or just out of it.

use super::dice::Dice;
use super::mesh::{side_value, Spot};
use crate::calls::Reach;
use crate::paper::{Point, SquaredDistance, REACHES};

/// A reach for a stand at a spot: mostly about as long as one of these lines is far.
pub fn random(q: Spot, lines: &[[Spot; 2]], dice: &mut Dice) -> Reach {
    let (least, most) = (*REACHES.start(), *REACHES.end());
    Reach::Stated(match dice.below(20) {
        0..=6 => return Reach::NotStated,
        7 | 8 => wrong(dice),
        9 => dice.pick(&[least, most]),
        10 | 11 => {
            let size = dice.pick(&[10, 100, 10_000]);
            dice.between(1, size) as u64
        }
        _ => just_at(q, lines, dice).unwrap_or_else(|| any(dice)),
    })
}

/// A reach that is longer than another, or the same. What is not stated is the
/// longest of all.
pub fn longer(reach: Reach, q: Spot, lines: &[[Spot; 2]], dice: &mut Dice) -> Reach {
    let Reach::Stated(reach) = reach else {
        return Reach::NotStated;
    };
    let other = match dice.below(6) {
        0 | 1 => return Reach::NotStated,
        2 => *REACHES.end(),
        3 => reach.saturating_add(1),
        4 => any(dice),
        _ => just_at(q, lines, dice).unwrap_or(reach),
    };
    Reach::Stated(other.max(reach))
}

fn any(dice: &mut Dice) -> u64 {
    dice.between(1, *REACHES.end() as i64) as u64
}

/// A number that is no reach: beside the ends, any larger one, and such as are a
/// reach where high bits are lost.
fn wrong(dice: &mut Dice) -> u64 {
    let most = *REACHES.end();
    match dice.below(8) {
        0 | 1 => 0,
        2 | 3 => most + 1,
        4 => u64::MAX,
        5 => dice.word() | (2 * most),
        6 => (1 << 63) + any(dice),
        _ => (1 << 32) + any(dice),
    }
}

/// The distance of one of the lines in whole millimetres, one less or one more, where
/// that is a reach.
fn just_at(q: Spot, lines: &[[Spot; 2]], dice: &mut Dice) -> Option<u64> {
    let point = |[x, y]: Spot| Point { x, y };
    (0..8).find_map(|_| {
        let ends = (!lines.is_empty()).then(|| dice.pick(lines))?;
        let floor = SquaredDistance::new(point(q), ends.map(point)).floor();
        let reach = dice.pick(&[floor.saturating_sub(1), floor, floor, floor + 1]);
        REACHES.contains(&reach).then_some(reach)
    })
}

/// A spot beside a line, at most about as far from it as a reach can be.
pub fn beside(ends: [Spot; 2], dice: &mut Dice) -> Spot {
    let [a, b] = ends;
    let somewhere = dice.between(0, 1_000);
    let part = dice.pick(&[0, 1_000, somewhere, somewhere]);
    let far = dice.pick(&[3, 30, 1_000, *REACHES.end() as i64]);
    let at = [0, 1].map(|axis| {
        let on_line = a[axis] + (b[axis] - a[axis]) * part / 1_000;
        on_line + dice.between(-far, far)
    });
    if dice.percent(60) {
        at_whole_distance(ends, at).unwrap_or(at)
    } else {
        at
    }
}

/// A spot at a whole distance from the line through two ends, a little right of
/// another; none where the line is of no whole length.
fn at_whole_distance([a, b]: [Spot; 2], [x, y]: Spot) -> Option<Spot> {
    let (dx, dy) = (b[0] - a[0], b[1] - a[1]);
    let length = (dx * dx + dy * dy).isqrt();
    if length * length != dx * dx + dy * dy {
        return None;
    }
    let mut spots = (0..32).map(|by| [x + by, y]);
    spots.find(|&at| side_value(a, b, at) % length == 0)
}
