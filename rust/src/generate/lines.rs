//! Stands on the lines of a plan: in doorways, on free lines, on walls, at the ends
//! of lines and beyond them; and stands beside lines.

use super::dice::Dice;
use super::floors::{spot_at, spot_between};
use super::mesh::{side_value, Spot};
use super::reaches;
use crate::calls::{Plan, WALL};
use crate::paper::{cut_cells, SIDES};

/// The lines of a plan that passes the check.
pub struct Lines {
    /// Of each cell its spots.
    cells: Vec<Vec<Spot>>,
    all: Vec<[Spot; 2]>,
    doors: Vec<[Spot; 2]>,
    /// The free sides of cells, by their corner count.
    free: [Vec<[Spot; 2]>; *SIDES.end() + 1],
    walls: Vec<[Spot; 2]>,
}

/// A spot on a line.
#[derive(Clone, Copy)]
pub struct OnLine {
    pub at: Spot,
    /// Of the line.
    pub ends: [Spot; 2],
    /// The door that it was looked for.
    pub door: Option<usize>,
}

impl OnLine {
    fn new(at: Spot, ends: [Spot; 2]) -> OnLine {
        OnLine {
            at,
            ends,
            door: None,
        }
    }

    /// The same after all spots are mapped.
    pub fn mapped(self, map: impl Fn(Spot) -> Spot) -> OnLine {
        OnLine {
            at: map(self.at),
            ends: self.ends.map(map),
            ..self
        }
    }
}

impl Lines {
    pub fn new(plan: &Plan) -> Lines {
        let (spots, _) = plan.corners.as_chunks::<2>();
        let spot = |corner: u16| spots[usize::from(corner)].map(i64::from);
        let (cells, _) = cut_cells(plan.kind, &plan.cells);
        let (mut all, mut walls) = (Vec::new(), Vec::new());
        let mut free: [Vec<_>; *SIDES.end() + 1] = Default::default();
        for cell in &cells {
            for (side, &neighbour) in cell.neighbours.iter().enumerate() {
                let ends = cell.ends(side).map(spot);
                all.push(ends);
                match neighbour {
                    WALL => walls.push(ends),
                    _ => free[cell.corners.len()].push(ends),
                }
            }
        }
        let doors = plan.doors.iter().map(|&face| all[usize::from(face)]);
        let cells = cells.iter();
        Lines {
            cells: cells
                .map(|cell| cell.corners.iter().map(|&corner| spot(corner)).collect())
                .collect(),
            doors: doors.collect(),
            all,
            free,
            walls,
        }
    }

    /// Some lines of any kind, a door's among them as often as all others.
    pub fn some(&self, door: usize, dice: &mut Dice) -> Vec<[Spot; 2]> {
        let mut some: Vec<[Spot; 2]> = (0..8).map(|_| dice.pick(&self.all)).collect();
        if let Some(&own) = self.doors.get(door) {
            some.extend([own; 8]);
        }
        some
    }

    /// A spot beside some line of these, inside a cell if one is found.
    pub fn beside(&self, lines: &[[Spot; 2]], dice: &mut Dice) -> Option<Spot> {
        (0..6)
            .map(|_| reaches::beside(dice.pick(lines), dice))
            .find(|&at| self.cells.iter().any(|cell| is_inside(cell, at)))
    }

    /// A random spot on a line, if one is found: mostly strictly within a door's
    /// line or another free one.
    pub fn random(&self, dice: &mut Dice) -> Option<OnLine> {
        match dice.below(20) {
            0..=8 => self.in_doorway(dice).or_else(|| self.within_free(dice)),
            9..=15 => self.within_free(dice),
            16 | 17 => within_some(&self.walls, dice),
            // An end, and a step beyond it.
            18 => self.free_side(dice).map(|ends| OnLine::new(ends[0], ends)),
            _ => self
                .free_side(dice)
                .map(|ends| OnLine::new(spot_at(ends, -1), ends)),
        }
    }

    fn in_doorway(&self, dice: &mut Dice) -> Option<OnLine> {
        (0..8).find_map(|_| {
            let door = (!self.doors.is_empty()).then(|| dice.below(self.doors.len()))?;
            let ends = self.doors[door];
            let on_line = OnLine::new(spot_between(ends, dice)?, ends);
            Some(OnLine {
                door: Some(door),
                ..on_line
            })
        })
    }

    fn within_free(&self, dice: &mut Dice) -> Option<OnLine> {
        (0..8).find_map(|_| {
            let ends = self.free_side(dice)?;
            Some(OnLine::new(spot_between(ends, dice)?, ends))
        })
    }

    /// A free side of a cell of any corner count: large cells are few.
    fn free_side(&self, dice: &mut Dice) -> Option<[Spot; 2]> {
        let sizes = self.free.iter().map(Vec::as_slice);
        let sizes: Vec<_> = sizes.filter(|lines| !lines.is_empty()).collect();
        (!sizes.is_empty()).then(|| {
            let lines = dice.pick(&sizes);
            dice.pick(lines)
        })
    }
}

fn within_some(lines: &[[Spot; 2]], dice: &mut Dice) -> Option<OnLine> {
    (0..8).find_map(|_| {
        let ends = (!lines.is_empty()).then(|| dice.pick(lines))?;
        Some(OnLine::new(spot_between(ends, dice)?, ends))
    })
}

fn is_inside(cell: &[Spot], at: Spot) -> bool {
    let ends = cell.iter().zip(cell.iter().cycle().skip(1));
    ends.into_iter().all(|(&a, &b)| side_value(a, b, at) > 0)
}
