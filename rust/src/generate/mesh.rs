//! A floor under construction: corners, cells and the links between faces.
//!
//! Every step keeps what the plan check asks for: cells of positive side
//! value, and links that answer each other along the same two corners. Where no two
//! cells overlap it keeps that too, but for a cell that is added.

use super::dice::Dice;
use crate::calls::{Plan, Refusal, TRIANGLES, WALL};
use crate::paper::Floor;

pub type Spot = [i64; 2];

#[derive(Clone, Debug, Default)]
pub struct Mesh {
    pub corners: Vec<Spot>,
    pub cells: Vec<[usize; 3]>,
    /// The opposite of each face, or none for a wall.
    pub across: Vec<Option<usize>>,
}

/// The side value of three spots. The coordinate limits keep it in 64 bits.
pub fn side_value(a: Spot, b: Spot, c: Spot) -> i64 {
    (b[0] - a[0]) * (c[1] - a[1]) - (b[1] - a[1]) * (c[0] - a[0])
}

/// The side after a face's side, in the same cell.
fn next(face: usize) -> usize {
    face / 3 * 3 + (face + 1) % 3
}

impl Mesh {
    /// Links cells wherever two of them have the same two corners reversed.
    /// Cells that are not of positive side value are left out.
    pub fn of_cells(corners: Vec<Spot>, cells: &[[usize; 3]]) -> Mesh {
        let mut mesh = Mesh {
            corners,
            ..Mesh::default()
        };
        for &cell in cells {
            if mesh.is_positive(cell) {
                mesh.add_cell(cell);
            }
        }
        mesh.link_equal_lines();
        mesh
    }

    fn link_equal_lines(&mut self) {
        let mut lines: Vec<(usize, usize, usize)> = (0..self.across.len())
            .map(|face| {
                let (a, b) = self.ends(face);
                (a.min(b), a.max(b), face)
            })
            .collect();
        lines.sort_unstable();
        for pair in lines.windows(2) {
            let same_line = pair[0].0 == pair[1].0 && pair[0].1 == pair[1].1;
            if same_line && self.ends(pair[0].2).0 == self.ends(pair[1].2).1 {
                self.join(pair[0].2, Some(pair[1].2));
            }
        }
    }

    /// Adds a cell between walls, and gives back its first face.
    pub fn add_cell(&mut self, cell: [usize; 3]) -> usize {
        self.cells.push(cell);
        self.across.extend([None; 3]);
        self.across.len() - 3
    }

    pub fn is_positive(&self, [a, b, c]: [usize; 3]) -> bool {
        side_value(self.corners[a], self.corners[b], self.corners[c]) > 0
    }

    /// Joins two faces into a free line, or makes one face a wall.
    pub fn join(&mut self, face: usize, other: Option<usize>) {
        self.across[face] = other;
        if let Some(other) = other {
            self.across[other] = Some(face);
        }
    }

    /// Puts a wall into a free line, on both sides.
    pub fn cut(&mut self, face: usize) {
        if let Some(other) = self.across[face].take() {
            self.across[other] = None;
        }
    }

    pub fn ends(&self, face: usize) -> (usize, usize) {
        (self.start(face), self.start(next(face)))
    }

    fn start(&self, face: usize) -> usize {
        self.cells[face / 3][face % 3]
    }

    fn apex(&self, face: usize) -> usize {
        self.start(next(next(face)))
    }

    /// One face of every free line.
    pub fn free_lines(&self) -> Vec<usize> {
        (0..self.across.len())
            .filter(|&face| self.across[face].is_some_and(|other| face < other))
            .collect()
    }

    /// Turns the diagonal of the two cells at a free line, where they form a
    /// strictly convex quadrangle.
    pub fn flip(&mut self, face: usize) {
        let Some(other) = self.across[face] else {
            return;
        };
        let (a, b) = self.ends(face);
        let (v, w) = (self.apex(face), self.apex(other));
        let (first, second) = ([a, w, v], [w, b, v]);
        if !self.is_positive(first) || !self.is_positive(second) {
            return;
        }
        let outer =
            |mesh: &Mesh, face: usize| (mesh.across[next(face)], mesh.across[next(next(face))]);
        let (b_to_v, v_to_a) = outer(self, face);
        let (a_to_w, w_to_b) = outer(self, other);
        let (one, two) = (face / 3 * 3, other / 3 * 3);
        self.cells[one / 3] = first;
        self.cells[two / 3] = second;
        self.join(one, a_to_w);
        self.join(one + 1, Some(two + 2));
        self.join(one + 2, v_to_a);
        self.join(two, w_to_b);
        self.join(two + 1, b_to_v);
    }

    /// Puts a corner strictly inside a cell, which becomes three.
    pub fn split_cell(&mut self, cell: usize, at: Spot) {
        let [a, b, c] = self.cells[cell];
        let p = self.corners.len();
        self.corners.push(at);
        let first = 3 * cell;
        let (b_to_c, c_to_a) = (self.across[first + 1], self.across[first + 2]);
        self.cells[cell] = [a, b, p];
        let second = self.add_cell([b, c, p]);
        let third = self.add_cell([c, a, p]);
        self.join(second, b_to_c);
        self.join(third, c_to_a);
        self.join(first + 1, Some(second + 2));
        self.join(second + 1, Some(third + 2));
        self.join(third + 1, Some(first + 2));
    }

    /// Puts a corner onto a line, whose cells are halved.
    pub fn split_line(&mut self, face: usize, at: Spot) {
        let p = self.corners.len();
        self.corners.push(at);
        let other = self.across[face];
        let (near, far) = self.halve(face, p);
        if let Some(other) = other {
            let (back_near, back_far) = self.halve(other, p);
            self.join(near, Some(back_far));
            self.join(far, Some(back_near));
        }
    }

    /// Halves the cell of a face at a corner on it; gives back the faces of
    /// the two halves of the line, walls for now.
    fn halve(&mut self, face: usize, p: usize) -> (usize, usize) {
        let (a, b) = self.ends(face);
        let v = self.apex(face);
        let (b_to_v, v_to_a) = (self.across[next(face)], self.across[next(next(face))]);
        let first = face / 3 * 3;
        self.cells[face / 3] = [a, p, v];
        let second = self.add_cell([p, b, v]);
        self.across[first] = None;
        self.join(first + 1, Some(second + 2));
        self.join(first + 2, v_to_a);
        self.join(second + 1, b_to_v);
        (first, second)
    }

    /// Keeps only the marked cells; lines to the others become walls, so that
    /// what was removed stands as a pillar.
    pub fn keep_cells(&mut self, keep: &[bool]) {
        for cell in (0..self.cells.len()).filter(|&cell| !keep[cell]) {
            (3 * cell..3 * cell + 3).for_each(|face| self.cut(face));
        }
        let kept: Vec<usize> = (0..self.cells.len()).filter(|&cell| keep[cell]).collect();
        self.reorder_cells(&kept, &vec![0; kept.len()]);
    }

    /// Lays the cells in a new order, each turned by some sides. Cells that
    /// are not in the order go; nothing may be linked to them.
    fn reorder_cells(&mut self, order: &[usize], turns: &[usize]) {
        let mut new_face = vec![0; self.across.len()];
        for (number, (&cell, &turn)) in order.iter().zip(turns).enumerate() {
            for side in 0..3 {
                new_face[3 * cell + (side + turn) % 3] = 3 * number + side;
            }
        }
        let old_faces = order
            .iter()
            .zip(turns)
            .flat_map(|(&cell, &turn)| (0..3).map(move |side| 3 * cell + (side + turn) % 3));
        let starts: Vec<usize> = old_faces.clone().map(|face| self.start(face)).collect();
        self.across = old_faces
            .map(|face| self.across[face].map(|other| new_face[other]))
            .collect();
        self.cells = starts.chunks_exact(3).map(|c| [c[0], c[1], c[2]]).collect();
    }

    /// Gives cells, sides and corners other numbers.
    pub fn renumber(&mut self, dice: &mut Dice) {
        let mut order: Vec<usize> = (0..self.cells.len()).collect();
        dice.shuffle(&mut order);
        let turns: Vec<usize> = order.iter().map(|_| dice.below(3)).collect();
        self.reorder_cells(&order, &turns);
        let mut numbers: Vec<usize> = (0..self.corners.len()).collect();
        dice.shuffle(&mut numbers);
        let old = self.corners.clone();
        for (corner, &number) in numbers.iter().enumerate() {
            self.corners[number] = old[corner];
        }
        for corner in self.cells.iter_mut().flatten() {
            *corner = numbers[*corner];
        }
    }

    /// Gives the cells around a corner that hang together there a corner of
    /// their own, with equal coordinates.
    pub fn part_corner(&mut self, corner: usize) {
        let mut faces = 0..self.across.len();
        if let Some(face) = faces.find(|&face| self.start(face) == corner) {
            let own = self.corners.len();
            self.corners.push(self.corners[corner]);
            self.give_own_corner(face, own);
        }
    }

    /// Walks both ways round the corner where a face starts, over free lines.
    fn give_own_corner(&mut self, face: usize, own: usize) {
        let mut waiting = vec![face];
        while let Some(face) = waiting.pop() {
            if self.start(face) == own {
                continue;
            }
            self.cells[face / 3][face % 3] = own;
            let before = next(next(face));
            waiting.extend(self.across[face].map(next));
            waiting.extend(self.across[before]);
        }
    }

    /// Corners that are in no cell are legal, and get lost here.
    pub fn drop_unused_corners(&mut self) {
        let mut number = vec![None; self.corners.len()];
        let mut kept = Vec::new();
        for corner in self.cells.iter_mut().flatten() {
            let new = *number[*corner].get_or_insert_with(|| {
                kept.push(self.corners[*corner]);
                kept.len() - 1
            });
            *corner = new;
        }
        self.corners = kept;
    }

    /// Adds the cells of another floor, with the corners that they have there.
    pub fn add(&mut self, other: &Mesh) {
        let (corners, faces) = (self.corners.len(), self.across.len());
        self.corners.extend(&other.corners);
        let cells = other.cells.iter();
        self.cells
            .extend(cells.map(|cell| cell.map(|corner| corners + corner)));
        let across = other.across.iter();
        self.across
            .extend(across.map(|other| other.map(|other| faces + other)));
    }

    /// Makes one corner of all that are at the same spot. No cells become neighbours.
    pub fn share_corners(&mut self) {
        let spots = &self.corners;
        for corner in self.cells.iter_mut().flatten() {
            let at = spots.iter().position(|&spot| spot == spots[*corner]);
            *corner = at.expect("it is at its own spot");
        }
    }

    /// Whether two of its cells overlap, where it has no more than a plan may have.
    pub fn overlaps(&self) -> bool {
        let checked = Floor::check(self.plan(&[]).lists());
        matches!(checked, Err(Refusal::Overlap(_)))
    }

    /// Largest distance of a coordinate from zero.
    pub fn extent(&self) -> i64 {
        self.corners
            .iter()
            .flatten()
            .map(|n| n.abs())
            .max()
            .unwrap_or(0)
    }

    pub fn map_corners(&mut self, map: impl Fn(Spot) -> Spot) {
        self.corners.iter_mut().for_each(|at| *at = map(*at));
    }

    /// The plan with these faces as doors, in triangles.
    pub fn plan(&self, doors: &[usize]) -> Plan {
        let neighbour = |face: usize| self.across[face].map_or(WALL, |other| (other / 3) as u16);
        Plan {
            corners: self.corners.iter().flatten().map(|&n| n as i32).collect(),
            cells: (0..self.cells.len())
                .flat_map(|cell| {
                    let [a, b, c] = self.cells[cell].map(|corner| corner as u16);
                    let faces = [3 * cell, 3 * cell + 1, 3 * cell + 2];
                    let [x, y, z] = faces.map(neighbour);
                    [a, b, c, x, y, z]
                })
                .collect(),
            doors: doors.iter().map(|&face| face as u16).collect(),
            kind: TRIANGLES,
        }
    }
}
