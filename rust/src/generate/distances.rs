//! Floors of such a size that a drawing just is possible, or just is not: some corner is
//! as far from the stand as one may be to be drawn, or a millimetre or two farther.

use super::dice::Dice;
use super::mesh::Spot;
use crate::calls::{Plan, Query, Stand};
use crate::paper::{Floor, View, COORDINATES, MOST_OFFSET};

/// A linear map that keeps all turns: what lies left of a line before it lies left after.
#[derive(Clone, Copy, Debug)]
pub struct Map {
    /// How often x and y go into the new x, and into the new y.
    x: Spot,
    y: Spot,
}

impl Map {
    pub fn of(self, [x, y]: Spot) -> Spot {
        [self.x, self.y].map(|[along, across]| along * x + across * y)
    }

    /// The same, and then a quarter turn.
    fn turned(self) -> Map {
        Map {
            x: self.y.map(|times| -times),
            y: self.x,
        }
    }
}

/// A map after which some corner is at the end of what can be drawn from a stand at a
/// spot, if one is found. Mostly no other of the corners that matter is farther then.
pub fn random(corners: &[Spot], those: &[Spot], q: Spot, dice: &mut Dice) -> Option<Map> {
    let from_stand = |at: &Spot| [at[0] - q[0], at[1] - q[1]];
    let map = (0..24).find_map(|_| {
        let way = [(); 2].map(|()| dice.between(-9, 9));
        let spots = || those.iter().map(from_stand);
        let last = spots().max_by_key(|&at| along(way, at).abs())?;
        let by = dice.pick(&[-1, 0, 0, 0, 1, 1, 1, 2, 2, 2]);
        let far = (MOST_OFFSET + by) * dice.pick(&[1, -1]);
        let x = onto(last, far, way)?;
        let across = [-way[1], way[0]];
        let wide = spots().map(|at| along(across, at).abs()).max()?;
        let most = MOST_OFFSET / wide.max(1);
        // In the other axis it is as wide as can be drawn, or far less, or too wide.
        let sizes = [most, most, most, most / 2, most / 50, 3, 1, 2 * most];
        let size = dice.pick(&sizes).max(1) * along(x, way).signum();
        let map = Map {
            x,
            y: across.map(|times| size * times),
        };
        let is_within = |&at: &Spot| map.of(at).iter().all(|n| COORDINATES.contains(n));
        (size != 0 && corners.iter().all(is_within)).then_some(map)
    })?;
    Some(if dice.percent(50) { map.turned() } else { map })
}

/// The corners that matter to a drawing from a stand: mostly the limits of what is seen
/// with every door open, or the ends of the sides around it, which is all that is seen
/// where the reach is short; now and then all corners.
pub fn those_that_matter(plan: &Plan, stand: Stand, dice: &mut Dice) -> Vec<Spot> {
    let floor = Floor::check(plan.lists());
    let view = floor.as_ref().ok().and_then(|floor| {
        let query = Query::without_reach(0, stand);
        Some((floor, View::new(floor, query).ok()?))
    });
    let numbers: Vec<u16> = match (view, dice.below(10)) {
        (Some((_, view)), 0..=4) => {
            let rows = view.list().rows;
            rows.into_iter().map(|[_, right, ..]| right).collect()
        }
        (Some((floor, view)), 5..=7) => {
            let faces = view.around().into_iter();
            faces.map(|face| floor.ends(face)[0]).collect()
        }
        _ => (0..plan.corners.len() as u16 / 2).collect(),
    };
    let (spots, _) = plan.corners.as_chunks::<2>();
    let spot = |number: u16| spots[usize::from(number)].map(i64::from);
    numbers.into_iter().map(spot).collect()
}

/// How far along a way a spot is, times the length of the way.
fn along(way: Spot, at: Spot) -> i64 {
    way[0] * at[0] + way[1] * at[1]
}

/// How often x and y go into a new x that is this one at a spot, and grows about in a way.
fn onto([x, y]: Spot, far: i64, way: Spot) -> Option<Spot> {
    let (divisor, [of_x, _]) = parts(x, y);
    let value = along(way, [x, y]);
    if value == 0 || far % divisor != 0 {
        return None;
    }
    let [times_x, times_y] = way.map(|part| far * part / value);
    if y == 0 {
        return Some([far / x, times_y]);
    }
    // They can be exchanged for each other in these steps.
    let step = (y / divisor).abs();
    let over = (of_x * (far / divisor) - times_x).rem_euclid(step);
    let times_x = times_x + if 2 * over > step { over - step } else { over };
    Some([times_x, (far - times_x * x) / y])
}

/// The greatest divisor of two numbers, not below zero, and how often each goes into it.
fn parts(a: i64, b: i64) -> (i64, Spot) {
    let (mut rest, mut times) = ([a, b], [[1, 0], [0, 1]]);
    while rest[1] != 0 {
        let quotient = rest[0] / rest[1];
        let next = |two: Spot| [two[1], two[0] - quotient * two[1]];
        rest = next(rest);
        let [of_a, of_b] = [0, 1].map(|part| next([times[0][part], times[1][part]]));
        times = [[of_a[0], of_b[0]], [of_a[1], of_b[1]]];
    }
    let sign = if rest[0] < 0 { -1 } else { 1 };
    (sign * rest[0], times[0].map(|part| sign * part))
}

#[cfg(test)]
mod tests {
    use super::*;

    #[test]
    fn divisors_and_their_parts() {
        let mut dice = Dice::new(1);
        for size in [3, 30, 1 << 30] {
            for _ in 0..1_000 {
                let [a, b] = [(); 2].map(|()| dice.between(-size, size));
                let (divisor, [of_a, of_b]) = parts(a, b);
                assert_eq!(of_a * a + of_b * b, divisor);
                assert!(divisor >= 0 && (divisor > 0 || (a, b) == (0, 0)));
                assert!(divisor == 0 || a % divisor == 0 && b % divisor == 0);
            }
        }
    }

    /// A map keeps all turns, and puts some corner where it is asked for.
    #[test]
    fn a_map_keeps_turns_and_puts_a_corner_at_the_end() {
        let mut dice = Dice::new(2);
        let corners = [[0, 0], [10, 0], [10, 10], [0, 10], [-6, 17], [14, 17]];
        let (q, mut found, mut at_the_end) = ([6, 3], 0, 0);
        for _ in 0..1_000 {
            let Some(map) = random(&corners, &corners, q, &mut dice) else {
                continue;
            };
            assert!(map.x[0] * map.y[1] - map.x[1] * map.y[0] > 0, "{map:?}");
            let spots = corners.map(|at| map.of([at[0] - q[0], at[1] - q[1]]));
            let most = [0, 1].map(|axis| spots.map(|at| at[axis].abs()).into_iter().max());
            found += 1;
            let ends = MOST_OFFSET - 1..=MOST_OFFSET + 2;
            at_the_end += usize::from(most.iter().flatten().any(|most| ends.contains(most)));
        }
        assert!(found > 900 && at_the_end > 700, "{found} {at_the_end}");
    }
}
