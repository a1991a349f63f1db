//! "The car park ramp", request A7 of document 02: which cells lie on top of others.
//!
//! Every cell is held against every other one. Of two whose boxes meet, the one is cut
//! off at each side of the other, and what is left of it in the end is what they have in
//! common. Its corners are fractions.

use super::plan::{product, Floor, Point};

/// The least cell of any two that overlap: that have a point strictly inside both.
pub fn least_overlapping(floor: &Floor) -> Option<usize> {
    let shapes: Vec<Shape> = (0..floor.cell_count())
        .map(|cell| Shape::of(floor, cell))
        .collect();
    let mut common = Common::default();
    // With a lower one it would have been found before.
    (0..shapes.len()).find(|&cell| {
        let (shape, higher) = (&shapes[cell], &shapes[cell + 1..]);
        let mut higher = higher.iter();
        higher.any(|other| shape.overlaps(other, &mut common))
    })
}

/// A cell: its box, and its sides and corners.
struct Shape {
    /// The least and the greatest coordinates of its corners.
    low: Point,
    high: Point,
    border: Vec<Edge>,
}

/// Where a side of a convex cell begins, or of what is left of one, and its line.
#[derive(Clone, Copy)]
struct Edge {
    from: Fraction,
    along: Straight,
}

/// The point (x/w, y/w), with w above 0.
///
/// It is a corner, or two lines of the plan meet there: never does a line go through
/// fractions. So a and b of a line are 2^30 at most and c is 2^60, x and y are 2^91 at
/// most and w is 2^61, and a line's value is below 2^123.
#[derive(Clone, Copy)]
struct Fraction {
    x: i128,
    y: i128,
    w: i128,
}

/// The line of the points with a·x + b·y + c = 0. On its left the sum is above 0.
#[derive(Clone, Copy)]
struct Straight {
    a: i128,
    b: i128,
    c: i128,
}

impl Shape {
    fn of(floor: &Floor, cell: usize) -> Shape {
        let ends = |face| floor.ends(face).map(|corner| floor.corner(corner));
        let border: Vec<[Point; 2]> = floor.faces(cell).map(ends).collect();
        let xs = || border.iter().map(|[from, _]| from.x);
        let ys = || border.iter().map(|[from, _]| from.y);
        let corner = |x: Option<i64>, y: Option<i64>| Point {
            x: x.expect("a cell has corners"),
            y: y.expect("a cell has corners"),
        };
        Shape {
            low: corner(xs().min(), ys().min()),
            high: corner(xs().max(), ys().max()),
            border: border
                .iter()
                .map(|&[from, to]| Edge::new(from, to))
                .collect(),
        }
    }

    /// Whether some point is strictly inside both. It is then strictly inside both boxes.
    fn overlaps(&self, other: &Shape, common: &mut Common) -> bool {
        self.low.x < other.high.x
            && other.low.x < self.high.x
            && self.low.y < other.high.y
            && other.low.y < self.high.y
            && common.has_inside(self, other)
    }
}

/// What two cells have in common, as far as the one is cut off at sides of the other. The
/// same memory serves for all pairs.
#[derive(Default)]
struct Common {
    border: Vec<Edge>,
    cut: Vec<Edge>,
}

impl Common {
    /// Whether it has an inside. It has as long as a corner of what is left is strictly
    /// left of the next side: near that corner there are points inside, and left of it too.
    fn has_inside(&mut self, one: &Shape, other: &Shape) -> bool {
        self.border.clone_from(&one.border);
        other.border.iter().all(|side| {
            let mut corners = self.border.iter().map(|edge| edge.from);
            let goes_on = corners.any(|corner| side.along.value(corner) > 0);
            if goes_on {
                self.cut_off(side.along);
            }
            goes_on
        })
    }

    /// Cuts off all right of a line; corners on it stay.
    fn cut_off(&mut self, line: Straight) {
        self.cut.clear();
        let first = line.value(self.border[0].from);
        let mut here = first;
        for (at, &edge) in self.border.iter().enumerate() {
            let next = self.border.get(at + 1);
            let there = next.map_or(first, |next| line.value(next.from));
            let on_line = |from| Edge { from, along: line };
            match (here.signum(), there.signum()) {
                (1, -1) => self.cut.extend([edge, on_line(edge.along.meets(line))]),
                (-1, 1) => self.cut.push(Edge {
                    from: edge.along.meets(line),
                    ..edge
                }),
                // From here on the border goes along the line.
                (0, -1) => self.cut.push(on_line(edge.from)),
                (0 | 1, _) => self.cut.push(edge),
                _ => {}
            }
            here = there;
        }
        std::mem::swap(&mut self.border, &mut self.cut);
    }
}

impl Edge {
    fn new(from: Point, to: Point) -> Edge {
        let [x, y] = [from.x, from.y].map(i128::from);
        let (a, b) = (from.y - to.y, to.x - from.x);
        Edge {
            from: Fraction { x, y, w: 1 },
            along: Straight {
                a: a.into(),
                b: b.into(),
                c: -(product(a, from.x) + product(b, from.y)),
            },
        }
    }
}

impl Straight {
    /// Above 0 for a point left of the line, 0 for one on it.
    fn value(self, at: Fraction) -> i128 {
        self.a * at.x + self.b * at.y + self.c * at.w
    }

    /// Where it meets a line that is not parallel to it.
    fn meets(self, other: Straight) -> Fraction {
        let w = self.a * other.b - other.a * self.b;
        let x = self.b * other.c - other.b * self.c;
        let y = self.c * other.a - other.c * self.a;
        let sign = w.signum();
        Fraction {
            x: sign * x,
            y: sign * y,
            w: sign * w,
        }
    }
}

#[cfg(test)]
mod tests {
    use super::*;
    use crate::brute;
    use crate::calls::WALL;
    use crate::examples::polygons;
    use crate::generate::Dice;
    use crate::paper::COORDINATES;

    /// A convex cell of 3 to 8 corners: what some random spots span.
    fn convex(size: i32, dice: &mut Dice) -> Vec<[i32; 2]> {
        let turn = |a: [i32; 2], b: [i32; 2], c: [i32; 2]| {
            let [a, b, c] = [a, b, c].map(|at| at.map(i128::from));
            brute::cross(brute::minus(b, a), brute::minus(c, a))
        };
        loop {
            let spot = |dice: &mut Dice| {
                [(); 2].map(|()| dice.between(-i64::from(size), size.into()) as i32)
            };
            let mut hull: Vec<[i32; 2]> = Vec::new();
            let mut spots: Vec<_> = (0..3 + dice.below(8)).map(|_| spot(dice)).collect();
            spots.sort_unstable();
            // Lower border from west to east, then the upper one back.
            for way in [spots.clone(), spots.into_iter().rev().collect()] {
                let kept = hull.len();
                for at in way {
                    while hull.len() >= kept + 2
                        && turn(hull[hull.len() - 2], hull[hull.len() - 1], at) <= 0
                    {
                        hull.pop();
                    }
                    hull.push(at);
                }
                hull.pop();
            }
            if (3..=8).contains(&hull.len()) {
                return hull;
            }
        }
    }

    fn sides(cell: &[[i32; 2]]) -> Vec<[brute::Spot; 2]> {
        let spot = |at: &[i32; 2]| at.map(i128::from);
        let next = cell.iter().cycle().skip(1);
        cell.iter()
            .zip(next)
            .map(|(a, b)| [spot(a), spot(b)])
            .collect()
    }

    /// The part in common against the separating side, on cells that mostly meet.
    #[test]
    fn cells_overlap_exactly_where_no_side_is_between_them() {
        let edge = *COORDINATES.end() as i32;
        let mut counts = [0; 2];
        for number in 0..40_000 {
            let dice = &mut Dice::for_case(7, number);
            let size = dice.pick(&[1, 2, 3, 5, 20, 1_000_000, edge / 2, edge]);
            let [one, mut other] = [(); 2].map(|()| convex(size, dice));
            if size < edge {
                let by = [(); 2].map(|()| dice.between(0, size.into()) as i32);
                other
                    .iter_mut()
                    .for_each(|at| *at = [at[0] + by[0], at[1] + by[1]]);
            }
            let corners = [&one[..], &other].concat();
            let [first, second] = [&one, &other].map(|cell| vec![WALL; cell.len()]);
            let count = one.len() as u16;
            let numbers: Vec<u16> = (0..corners.len() as u16).collect();
            let (low, high) = numbers.split_at(count.into());
            let plan = polygons(&corners, &[(low, &first), (high, &second)]);
            let floor = Floor::agreeing(plan.lists()).expect("both are convex");
            let expected = brute::overlap(&sides(&one), &sides(&other));
            let found = least_overlapping(&floor);
            assert_eq!(found, expected.then_some(0), "{one:?} {other:?}");
            counts[usize::from(expected)] += 1;
        }
        assert!(counts.iter().all(|&count| count > 5_000), "{counts:?}");
    }
}
