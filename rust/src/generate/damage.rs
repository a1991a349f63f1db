//! Damage to plans and files.

use super::dice::Dice;
use super::floors::greatest_divisor;
use crate::calls::{Plan, POLYGONS, TRIANGLES, WALL};
use crate::paper::{cut_cells, CELLS, COORDINATES, CORNERS, DOORS, SIDES};

/// Damages a plan in one way, now and then in two.
pub fn damage_plan(plan: &mut Plan, dice: &mut Dice) {
    damage_once(plan, dice);
    if dice.percent(15) {
        damage_once(plan, dice);
    }
}

fn damage_once(plan: &mut Plan, dice: &mut Dice) {
    match dice.below(20) {
        0 => change_coordinate(plan, dice),
        1 => change_cell_number(plan, dice),
        2 => turn_cell_over(plan, dice),
        3 | 4 => change_neighbour(plan, dice),
        5..=8 => damage_doors(plan, dice),
        9 => cut_list(plan, dice),
        10 => lengthen_list(plan, dice),
        11 => count_at_limit(plan, dice),
        12 => change_kind_of_list(plan, dice),
        13 | 14 => change_count_of_corners(plan, dice),
        15 => repeat_corner(plan, dice),
        16 | 17 => straighten_corner(plan, dice),
        _ => make_star(plan, dice),
    }
}

/// Where the numbers of a whole cell are in the list: first the corners, then
/// as many neighbours.
#[derive(Clone, Copy)]
struct Place {
    at: usize,
    count: usize,
}

impl Place {
    fn neighbour(self, side: usize) -> usize {
        self.at + self.count + side
    }
}

/// The whole cells that the list begins with.
fn places(plan: &Plan) -> Vec<Place> {
    let (cells, _) = cut_cells(plan.kind, &plan.cells);
    let head = usize::from(plan.kind == POLYGONS);
    let mut at = 0;
    cells
        .iter()
        .map(|cell| {
            let count = cell.corners.len();
            let place = Place {
                at: at + head,
                count,
            };
            at += head + 2 * count;
            place
        })
        .collect()
}

fn some_cell(plan: &Plan, dice: &mut Dice) -> Option<Place> {
    let places = places(plan);
    (!places.is_empty()).then(|| dice.pick(&places))
}

fn change_coordinate(plan: &mut Plan, dice: &mut Dice) {
    let edge = *COORDINATES.end() as i32;
    let new = match dice.below(3) {
        0 => dice.word() as i32,
        1 => dice.pick(&[0, edge, -edge]),
        _ => dice.pick(&[edge + 1, -edge - 1, i32::MAX, i32::MIN]),
    };
    replace(&mut plan.corners, new, dice);
}

/// Any number of the list: a corner, a neighbour or a count.
fn change_cell_number(plan: &mut Plan, dice: &mut Dice) {
    let (corners, cells) = (plan.corners.len() / 2, places(plan).len());
    let new = match dice.below(4) {
        0 => dice.word() as u16,
        1 => dice.pick(&[corners as u16, cells as u16, WALL, WALL - 1]),
        2 => dice.below(corners.max(1)) as u16,
        _ => dice.below(cells.max(1)) as u16,
    };
    replace(&mut plan.cells, new, dice);
}

/// Two corners of a cell change places: a triangle lies on its back then, a
/// larger cell is no longer convex.
fn turn_cell_over(plan: &mut Plan, dice: &mut Dice) {
    if let Some(Place { at, count }) = some_cell(plan, dice) {
        plan.cells.swap(at, at + 1 + dice.below(count - 1));
    }
}

/// A neighbour that does not answer: walled from one side, another cell, or
/// the cell itself.
fn change_neighbour(plan: &mut Plan, dice: &mut Dice) {
    let places = places(plan);
    if places.is_empty() {
        return;
    }
    let cell = dice.below(places.len());
    let new = match dice.below(4) {
        0 => WALL,
        1 => cell as u16,
        2 => places.len() as u16,
        _ => dice.below(places.len()) as u16,
    };
    let place = places[cell];
    plan.cells[place.neighbour(dice.below(place.count))] = new;
}

/// The same list in another kind, mostly in none that there is.
fn change_kind_of_list(plan: &mut Plan, dice: &mut Dice) {
    let any = dice.word() as u16;
    plan.kind = dice.pick(&[
        TRIANGLES,
        POLYGONS,
        0,
        1,
        3,
        4,
        11,
        13,
        258,
        268,
        u16::MAX,
        any,
    ]);
}

/// A count of corners that no cell may have, or one that the cell has not.
fn change_count_of_corners(plan: &mut Plan, dice: &mut Dice) {
    let place = some_cell(plan, dice).filter(|_| plan.kind == POLYGONS);
    if let Some(Place { at, count }) = place {
        let count = count as u16;
        let (least, most) = (*SIDES.start() as u16, *SIDES.end() as u16);
        let wrong = [
            least - 1,
            most + 1,
            0,
            1,
            u16::MAX,
            256 + count,
            count - 1,
            count + 1,
        ];
        plan.cells[at - 1] = dice.pick(&wrong);
    }
}

/// A corner of a cell in place of another, or beside itself.
fn repeat_corner(plan: &mut Plan, dice: &mut Dice) {
    if dice.percent(50) {
        if let Some(Place { at, count }) = some_cell(plan, dice) {
            plan.cells[at + dice.below(count)] = plan.cells[at + dice.below(count)];
        }
    } else {
        widen_cell(plan, dice, |_, [corner, _], _| Some(corner));
    }
}

/// One more corner within a side, where there is a spot for one.
fn straighten_corner(plan: &mut Plan, dice: &mut Dice) {
    widen_cell(plan, dice, |corners, ends, dice| {
        let [Some(a), Some(b)] = ends.map(|corner| {
            let (spots, _) = corners.as_chunks::<2>();
            spots
                .get(usize::from(corner))
                .map(|spot| spot.map(i64::from))
        }) else {
            return None;
        };
        let by = [b[0] - a[0], b[1] - a[1]];
        let steps = greatest_divisor(by[0].abs(), by[1].abs());
        let number = corners.len() / 2;
        if steps < 2 || number >= *CORNERS.end() {
            return None;
        }
        let step = dice.between(1, steps - 1);
        corners.extend([0, 1].map(|axis| (a[axis] + by[axis] / steps * step) as i32));
        Some(number as u16)
    });
}

/// Puts one more corner between the ends of a wall of some cell, where there
/// are both. Doors on the faces after it move on with them, so that nothing else
/// is wrong.
fn widen_cell(
    plan: &mut Plan,
    dice: &mut Dice,
    corner: impl FnOnce(&mut Vec<i32>, [u16; 2], &mut Dice) -> Option<u16>,
) {
    if plan.kind != POLYGONS {
        return;
    }
    let mut walls = Vec::new();
    let mut faces = 0;
    for place in places(plan) {
        for side in (0..place.count).filter(|_| place.count < *SIDES.end()) {
            if plan.cells[place.neighbour(side)] == WALL {
                walls.push((place, side, faces + side));
            }
        }
        faces += place.count;
    }
    if walls.is_empty() {
        return;
    }
    let (Place { at, count }, side, face) = dice.pick(&walls);
    let ends = [side, (side + 1) % count].map(|corner| plan.cells[at + corner]);
    if let Some(corner) = corner(&mut plan.corners, ends, dice) {
        plan.cells[at - 1] += 1;
        plan.cells.insert(at + count + side, WALL);
        plan.cells.insert(at + side + 1, corner);
        for door in &mut plan.doors {
            *door += u16::from((face + 1..faces).contains(&usize::from(*door)));
        }
    }
}

/// A cell of 5, 7 or 8 corners between walls with its corners in the order of a
/// star: each turns left, and yet it is not convex.
fn make_star(plan: &mut Plan, dice: &mut Dice) {
    let mut stars = places(plan);
    stars.retain(|place| [5, 7, 8].contains(&place.count));
    if stars.is_empty() {
        return repeat_corner(plan, dice);
    }
    let Place { at, count } = dice.pick(&stars);
    let step = if count == 8 { 3 } else { 2 };
    let corners = plan.cells[at..at + count].to_vec();
    // On top of the plan, so that no neighbour is missed.
    plan.cells.push(count as u16);
    plan.cells
        .extend((0..count).map(|i| corners[i * step % count]));
    plan.cells.extend(vec![WALL; count]);
}

/// A door that is there already, named from either face; on a wall; on no
/// face; or on any face.
fn damage_doors(plan: &mut Plan, dice: &mut Dice) {
    let faces = Faces::of(plan);
    let count = faces.0.len();
    let new = match dice.below(5) {
        0 if !plan.doors.is_empty() => dice.pick(&plan.doors),
        1 if !plan.doors.is_empty() => faces.other(dice.pick(&plan.doors)),
        2 => faces.some_wall(dice),
        3 => dice.pick(&[count as u16, WALL, WALL - 1]),
        _ => dice.below(count.max(1)) as u16,
    };
    if dice.percent(50) {
        replace(&mut plan.doors, new, dice);
    } else {
        let at = dice.below(plan.doors.len() + 1);
        plan.doors.insert(at, new);
    }
}

/// Of each face its cell, its two ends and its neighbour.
struct Faces(Vec<(u16, [u16; 2], u16)>);

impl Faces {
    fn of(plan: &Plan) -> Faces {
        let (cells, _) = cut_cells(plan.kind, &plan.cells);
        let mut faces = Vec::new();
        for (cell, number) in cells.iter().zip(0..) {
            let sides = cell.neighbours.iter().enumerate();
            faces.extend(sides.map(|(side, &there)| (number, cell.ends(side), there)));
        }
        Faces(faces)
    }

    /// The face on the other side of a line, or the same face where none
    /// answers.
    fn other(&self, face: u16) -> u16 {
        let answers = |&(cell, [a, b], neighbour): &(u16, [u16; 2], u16)| {
            let other = self
                .0
                .iter()
                .position(|&side| side == (neighbour, [b, a], cell));
            other.map(|other| other as u16)
        };
        let found = self.0.get(usize::from(face)).and_then(answers);
        found.unwrap_or(face)
    }

    fn some_wall(&self, dice: &mut Dice) -> u16 {
        let walls: Vec<u16> = (0..)
            .zip(&self.0)
            .filter(|(_, &(_, _, neighbour))| neighbour == WALL)
            .map(|(face, _)| face)
            .collect();
        if walls.is_empty() {
            0
        } else {
            dice.pick(&walls)
        }
    }
}

fn cut_list(plan: &mut Plan, dice: &mut Dice) {
    let short = 1 + dice.below(6);
    match dice.below(4) {
        0 => plan
            .corners
            .truncate(plan.corners.len().saturating_sub(short)),
        1 => plan.cells.truncate(plan.cells.len().saturating_sub(short)),
        2 => plan.cells.truncate(dice.below(plan.cells.len() + 1)),
        _ => plan.doors.truncate(plan.doors.len().saturating_sub(short)),
    }
}

fn lengthen_list(plan: &mut Plan, dice: &mut Dice) {
    for _ in 0..1 + dice.below(6) {
        let number = dice.word();
        match dice.below(3) {
            0 => plan.corners.push(number as i32 % 100),
            1 => plan.cells.push(number as u16 % 4),
            _ => plan.doors.push(number as u16 % 8),
        }
    }
}

/// A count at a limit or one beyond it, the numbers themselves repeated.
fn count_at_limit(plan: &mut Plan, dice: &mut Dice) {
    match dice.below(8) {
        0 => plan.corners.truncate(2 * (CORNERS.start() - 1)),
        1 => plan.corners.truncate(2 * CORNERS.start()),
        2 => repeat_to(&mut plan.corners, 2 * CORNERS.end()),
        3 => repeat_to(&mut plan.corners, 2 * (CORNERS.end() + 1)),
        4 => plan.cells.clear(),
        5 => repeat_cells(plan, CELLS.end() + dice.below(2)),
        6 => repeat_to(&mut plan.doors, *DOORS.end()),
        _ => repeat_to(&mut plan.doors, DOORS.end() + 1),
    }
}

fn repeat_cells(plan: &mut Plan, count: usize) {
    let (cells, _) = cut_cells(plan.kind, &plan.cells);
    if !cells.is_empty() {
        let repeated = cells.iter().cycle().take(count.max(cells.len()));
        plan.cells = repeated.flat_map(|cell| cell.numbers(plan.kind)).collect();
    }
}

fn repeat_to<T: Copy + Default>(list: &mut Vec<T>, length: usize) {
    let period = list.len();
    while list.len() < length {
        let number = if period == 0 {
            T::default()
        } else {
            list[list.len() - period]
        };
        list.push(number);
    }
}

fn replace<T: Copy>(list: &mut [T], new: T, dice: &mut Dice) {
    if !list.is_empty() {
        list[dice.below(list.len())] = new;
    }
}

/// Damages the bytes of a file in one way.
pub fn damage_file(file: &mut Vec<u8>, dice: &mut Dice) {
    match dice.below(9) {
        0 => file.truncate(dice.below(file.len() + 1)),
        1 => file.truncate(file.len().saturating_sub(1 + dice.below(3))),
        2 => file.extend((0..1 + dice.below(12)).map(|i| i as u8)),
        3 => flip_bytes(file, dice),
        4 => change_length(file, dice),
        5 => change_kind(file, dice),
        _ => rearrange_records(file, dice),
    }
}

fn flip_bytes(file: &mut [u8], dice: &mut Dice) {
    for _ in 0..1 + dice.below(3) {
        if !file.is_empty() {
            let at = dice.below(file.len());
            file[at] ^= 1 << dice.below(8);
        }
    }
}

fn change_length(file: &mut [u8], dice: &mut Dice) {
    if let Some(&at) = records(file).get(dice.below(3)) {
        let length = u32::from_le_bytes([file[at], file[at + 1], file[at + 2], file[at + 3]]);
        let new = match dice.below(4) {
            0 => dice.pick(&[0, 1, u32::MAX, u32::MAX - 5, 1 << 31]),
            1 => dice.word() as u32,
            _ => length.wrapping_add_signed(dice.pick(&[-12, -8, -2, -1, 1, 2, 8, 12])),
        };
        file[at..at + 4].copy_from_slice(&new.to_le_bytes());
    }
}

fn change_kind(file: &mut [u8], dice: &mut Dice) {
    if let Some(&at) = records(file).get(dice.below(3)) {
        let kind = dice.pick(&[0, 1, 2, 3, 4, 5, 12, 12, 257, 513, 524, u16::MAX]);
        file[at + 4..at + 6].copy_from_slice(&kind.to_le_bytes());
    }
}

/// Records in another order, one left out, or one there twice.
fn rearrange_records(file: &mut Vec<u8>, dice: &mut Dice) {
    let starts = records(file);
    let mut parts: Vec<Vec<u8>> = starts
        .iter()
        .enumerate()
        .map(|(i, &at)| {
            let end = starts.get(i + 1).copied().unwrap_or(file.len());
            file[at..end].to_vec()
        })
        .collect();
    if parts.is_empty() {
        return;
    }
    let at = dice.below(parts.len());
    match dice.below(3) {
        0 => dice.shuffle(&mut parts),
        1 => {
            parts.remove(at);
        }
        _ => parts.insert(at, parts[at].clone()),
    }
    *file = parts.concat();
}

/// Where the records of a file begin, as far as their lengths hold.
fn records(file: &[u8]) -> Vec<usize> {
    let mut starts = Vec::new();
    let mut at = 0;
    while at + 6 <= file.len() {
        starts.push(at);
        let length = u32::from_le_bytes([file[at], file[at + 1], file[at + 2], file[at + 3]]);
        at += 6 + length as usize;
    }
    starts
}
