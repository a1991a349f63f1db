//! Larger cells: triangles of a floor merged across free lines, as long as what
//! comes of it is strictly convex.

use super::dice::Dice;
use super::mesh::{side_value, Mesh};
use crate::calls::{Plan, POLYGONS, TRIANGLES, WALL};
use crate::paper::{cut_cells, Cell, SIDES};

/// A floor whose cells are made of one or more triangles of a mesh.
pub struct Merged<'a> {
    mesh: &'a Mesh,
    cells: Vec<Union>,
    /// The cell that each triangle is part of.
    owners: Vec<usize>,
}

/// A cell, or none where it was merged into another.
#[derive(Clone, Default)]
struct Union {
    triangles: Vec<usize>,
    /// The faces of the mesh on its border, counter-clockwise.
    border: Vec<usize>,
}

impl<'a> Merged<'a> {
    /// Each triangle a cell of its own.
    fn new(mesh: &'a Mesh) -> Merged<'a> {
        let triangles = 0..mesh.cells.len();
        let alone = |triangle| Union {
            triangles: vec![triangle],
            border: vec![3 * triangle, 3 * triangle + 1, 3 * triangle + 2],
        };
        Merged {
            mesh,
            cells: triangles.clone().map(alone).collect(),
            owners: triangles.collect(),
        }
    }

    /// Merges all that can be, in a random order. The lines of doors stay.
    pub fn whole(mesh: &'a Mesh, doors: &[usize], dice: &mut Dice) -> Merged<'a> {
        let mut merged = Merged::new(mesh);
        // What two cells are not, three can be: strictly convex.
        while merged.merge_some(doors, 100, dice) {}
        merged.numbered()
    }

    /// Merges some of what can be, and gives cells and sides other numbers.
    pub fn random(mesh: &'a Mesh, doors: &[usize], dice: &mut Dice) -> Merged<'a> {
        let mut merged = Merged::new(mesh);
        let chance = dice.pick(&[20, 60, 90, 100]);
        merged.merge_some(doors, chance, dice);
        if dice.percent(50) {
            merged.merge_some(doors, chance, dice);
        }
        if dice.percent(70) {
            dice.shuffle(&mut merged.cells);
            for Union { border, .. } in &mut merged.cells {
                let first = dice.below(border.len().max(1));
                border.rotate_left(first);
            }
        }
        merged.numbered()
    }

    /// Tries every line once; whether some cells were merged.
    fn merge_some(&mut self, doors: &[usize], chance: usize, dice: &mut Dice) -> bool {
        let mut lines = self.mesh.free_lines();
        dice.shuffle(&mut lines);
        let mut some = false;
        for face in lines {
            let other = self.mesh.across[face].expect("the line is free");
            let is_door = doors.contains(&face) || doors.contains(&other);
            if !is_door && dice.percent(chance) {
                some |= self.merge(face, other);
            }
        }
        some
    }

    /// Merges the cells on both sides of a line, if that gives a cell.
    fn merge(&mut self, face: usize, other: usize) -> bool {
        let [here, there] = [face, other].map(|face| self.owners[face / 3]);
        if here == there {
            return false;
        }
        let border = [self.around(here, face), self.around(there, other)].concat();
        if !self.is_cell(&border) {
            return false;
        }
        let Union { triangles, .. } = std::mem::take(&mut self.cells[there]);
        for &triangle in &triangles {
            self.owners[triangle] = here;
        }
        self.cells[here].triangles.extend(triangles);
        self.cells[here].border = border;
        true
    }

    /// The border of a cell from behind one of its faces round to before it.
    fn around(&self, cell: usize, face: usize) -> Vec<usize> {
        let border = &self.cells[cell].border;
        let at = border.iter().position(|&own| own == face);
        let at = at.expect("a line to another cell is on the border");
        [&border[at + 1..], &border[..at]].concat()
    }

    fn is_cell(&self, border: &[usize]) -> bool {
        let count = border.len();
        let at = |side: usize| self.mesh.corners[self.mesh.ends(border[side % count]).0];
        SIDES.contains(&count)
            && (0..count).all(|side| {
                let (a, b) = (at(side), at(side + 1));
                (side + 2..side + count).all(|other| side_value(a, b, at(other)) > 0)
            })
    }

    /// What was merged into other cells has no number.
    fn numbered(mut self) -> Merged<'a> {
        self.cells.retain(|cell| !cell.border.is_empty());
        for (number, cell) in self.cells.iter().enumerate() {
            for &triangle in &cell.triangles {
                self.owners[triangle] = number;
            }
        }
        self
    }

    /// The cell that a triangle of the mesh is part of.
    pub fn cell_with(&self, triangle: usize) -> usize {
        self.owners[triangle]
    }

    /// The face of the mesh that each face of the plan is.
    pub fn faces(&self) -> Vec<usize> {
        let borders = self.cells.iter().map(|cell| &cell.border);
        borders.flatten().copied().collect()
    }

    /// The plan with these faces of the mesh as doors.
    pub fn plan(&self, doors: &[usize]) -> Plan {
        let mut numbers = vec![0; self.mesh.across.len()];
        for (face, number) in self.faces().into_iter().zip(0..) {
            numbers[face] = number;
        }
        let start = |&face: &usize| self.mesh.ends(face).0 as u16;
        let neighbour = |&face: &usize| {
            self.mesh.across[face].map_or(WALL, |other| self.owners[other / 3] as u16)
        };
        let cells = self.cells.iter().map(|cell| Cell {
            corners: cell.border.iter().map(start).collect(),
            neighbours: cell.border.iter().map(neighbour).collect(),
        });
        Plan {
            cells: cells.flat_map(|cell| cell.numbers(POLYGONS)).collect(),
            doors: doors.iter().map(|&face| numbers[face]).collect(),
            kind: POLYGONS,
            ..self.mesh.plan(&[])
        }
    }
}

/// A plan of triangles with its cells in the other kind. None where some cell
/// is none, or where the list is not cut into whole cells.
pub fn in_other_kind(plan: &Plan) -> Option<Plan> {
    let kind = match plan.kind {
        TRIANGLES => POLYGONS,
        POLYGONS => TRIANGLES,
        _ => return None,
    };
    let (cells, []) = cut_cells(plan.kind, &plan.cells) else {
        return None;
    };
    let all = cells.iter().all(|cell| cell.corners.len() == 3);
    all.then(|| Plan {
        cells: cells.iter().flat_map(|cell| cell.numbers(kind)).collect(),
        kind,
        ..plan.clone()
    })
}
