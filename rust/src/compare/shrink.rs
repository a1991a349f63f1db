//! Making a failing trial smaller while it still fails.

use super::{Asked, AskedOfBytes, Trial};
use crate::calls::{Plan, Reach, Stand, POINT, POLYGONS, WALL};
use crate::generate::{in_other_kind, query_record, Ceiling, Given, Room, Scene};
use crate::paper::{self, cut_cells, Cell, SIDES};

/// A trial that fails is run again so often at most.
const MOST_RUNS: usize = 40_000;

/// The smallest trial found that still fails.
pub fn smallest(mut trial: Trial, fails: impl Fn(&Trial) -> bool) -> Trial {
    let mut runs = 0;
    let mut still_fails = |smaller: &Trial| {
        runs += 1;
        runs <= MOST_RUNS && fails(smaller)
    };
    loop {
        let found = smaller_trials(&trial).find(&mut still_fails);
        match found {
            Some(smaller) => trial = smaller,
            None => return trial,
        }
    }
}

/// Smaller trials, those that leave out most first. Each has fewer parts, or
/// numbers nearer to zero, so that this comes to an end.
fn smaller_trials(trial: &Trial) -> Box<dyn Iterator<Item = Trial> + '_> {
    match trial {
        Trial::Lists(scene, asked) => Box::new(
            smaller_scenes(scene.clone())
                .map(|scene| Trial::Lists(scene, asked.clone()))
                .chain(
                    simpler_asked(asked)
                        .into_iter()
                        .map(|asked| Trial::Lists(scene.clone(), asked)),
                ),
        ),
        Trial::Bytes(bytes, asked) => Box::new(
            smaller_inputs(bytes, asked)
                .chain(smaller_bytes(bytes))
                .map(|bytes| Trial::Bytes(bytes, asked.clone()))
                .chain(
                    simpler_asked_of_bytes(asked)
                        .into_iter()
                        .map(|asked| Trial::Bytes(bytes.clone(), asked)),
                ),
        ),
    }
}

fn simpler_asked(asked: &Asked) -> Vec<Asked> {
    match asked {
        Asked::Write { bytes } if *bytes != Room::Exact => {
            vec![Asked::Write { bytes: Room::Exact }]
        }
        &Asked::List { table, ceiling } => {
            let rooms = simpler_rooms([table]).map(|[table]| Asked::List { table, ceiling });
            let ceilings = simpler_ceilings(ceiling).into_iter();
            rooms
                .chain(ceilings.map(|ceiling| Asked::List { table, ceiling }))
                .collect()
        }
        &Asked::ListStands { room, ceiling } => {
            let rooms = simpler_rooms(room).map(|room| Asked::ListStands { room, ceiling });
            let ceilings = simpler_ceilings(ceiling).into_iter();
            rooms
                .chain(ceilings.map(|ceiling| Asked::ListStands { room, ceiling }))
                .collect()
        }
        &Asked::Change { shut, given, table } => {
            let change = |given, table| Asked::Change { shut, given, table };
            let mut simpler = Vec::new();
            if given != Given::True {
                simpler.push(change(Given::True, table));
            }
            if table != Room::Exact {
                simpler.push(change(given, Room::Exact));
            }
            simpler
        }
        &Asked::Draw { offsets } => simpler_rooms([offsets])
            .map(|[offsets]| Asked::Draw { offsets })
            .collect(),
        &Asked::EitherKind {
            shut,
            given,
            ceiling,
        } => {
            let either = |given, ceiling| Asked::EitherKind {
                shut,
                given,
                ceiling,
            };
            let givens = (given != Given::True).then(|| either(Given::True, ceiling));
            let ceilings = simpler_ceilings(ceiling).into_iter();
            givens
                .into_iter()
                .chain(ceilings.map(|ceiling| either(given, ceiling)))
                .collect()
        }
        Asked::Demand2 { directions } if directions.len() > 1 => directions
            .iter()
            .map(|&d| Asked::Demand2 {
                directions: vec![d],
            })
            .collect(),
        Asked::Longer { reach } => simpler_reaches(*reach)
            .into_iter()
            .map(|reach| Asked::Longer { reach })
            .collect(),
        _ => Vec::new(),
    }
}

/// None stated, or a number nearer to zero.
fn simpler_reaches(reach: Reach) -> Vec<Reach> {
    let nearer = match reach {
        Reach::NotStated => return Vec::new(),
        Reach::Stated(0) => Vec::new(),
        Reach::Stated(number) => vec![number / 2, number - number.div_ceil(8)],
    };
    let nearer = nearer.into_iter().map(Reach::Stated);
    [Reach::NotStated].into_iter().chain(nearer).collect()
}

/// None, or a number nearer to zero. One that is told by a listing's crossings stays so,
/// whatever becomes of the plan; of a morning's stands it is told by one before.
fn simpler_ceilings(ceiling: Ceiling) -> Vec<Ceiling> {
    let nearer = match ceiling {
        Ceiling::None => return Vec::new(),
        Ceiling::Number(0) => Vec::new(),
        Ceiling::Number(number) => [number / 2, number - number.div_ceil(8)]
            .map(Ceiling::Number)
            .to_vec(),
        Ceiling::Beside { at: 0, .. } => Vec::new(),
        Ceiling::Beside { at, by } => [at / 2, at - 1]
            .map(|at| Ceiling::Beside { at, by })
            .to_vec(),
    };
    [Ceiling::None].into_iter().chain(nearer).collect()
}

fn simpler_asked_of_bytes(asked: &AskedOfBytes) -> Vec<AskedOfBytes> {
    match *asked {
        AskedOfBytes::Read { lists } => simpler_rooms(lists)
            .map(|lists| AskedOfBytes::Read { lists })
            .collect(),
        AskedOfBytes::Print => Vec::new(),
    }
}

/// One of the rooms exact.
fn simpler_rooms<const N: usize>(rooms: [Room; N]) -> impl Iterator<Item = [Room; N]> {
    (0..N)
        .filter(move |&i| rooms[i] != Room::Exact)
        .map(move |i| {
            let mut simpler = rooms;
            simpler[i] = Room::Exact;
            simpler
        })
}

/// One way to make a scene smaller.
#[derive(Clone, Copy)]
enum Step {
    /// Leave out the cells, the doors, or the stands of the morning, from one
    /// number up to another.
    DropCells(usize, usize),
    DropDoors(usize, usize),
    DropStands(usize, usize),
    /// Leave out numbers behind the last whole cell, from one place to another.
    DropRest(usize, usize),
    /// Leave out a corner that is in no cell.
    DropCorner(usize),
    /// Leave a corner of a cell out of it.
    NarrowCell(usize, usize),
    /// Put triangles in the kind that document 01 has.
    TakeOldKind,
    ClearBit(u32),
    /// Move the whole scene by these numbers, or divide it by one.
    MoveBack([i64; 2]),
    Divide(i64),
    /// Give a coordinate, or a number of the stand or of the morning's stands,
    /// another value.
    SetCoordinate(usize, i32),
    SetStand(f64, f64),
    SetNumber(usize, f64),
    SetReach(Reach),
    /// Leave out the last number of a list, which then may not be whole.
    ShortenCorners,
    ShortenCells,
    ShortenDoors,
    ShortenStands,
}

fn smaller_scenes(scene: Scene) -> impl Iterator<Item = Scene> {
    steps(&scene)
        .into_iter()
        .map(move |step| take_step(&scene, step))
}

fn steps(scene: &Scene) -> Vec<Step> {
    let plan = &scene.plan;
    // Stands first: what each costs is the listing of the whole plan.
    let mut steps: Vec<Step> = blocks(scene.stands.len() / 3)
        .map(|(from, to)| Step::DropStands(from, to))
        .collect();
    let (cells, rest) = cut_cells(plan.kind, &plan.cells);
    steps.extend(blocks(cells.len()).map(|(from, to)| Step::DropCells(from, to)));
    steps.extend(blocks(rest.len()).map(|(from, to)| Step::DropRest(from, to)));
    steps.extend(blocks(plan.doors.len()).map(|(from, to)| Step::DropDoors(from, to)));
    steps.extend(corners_of_larger(&cells));
    if plan.kind == POLYGONS && in_other_kind(plan).is_some() {
        steps.push(Step::TakeOldKind);
    }
    steps.extend(unused_corners(scene).map(Step::DropCorner));
    steps.extend(
        (0..64)
            .filter(|bit| scene.setting >> bit & 1 == 1)
            .map(Step::ClearBit),
    );
    let reaches = simpler_reaches(scene.reach);
    steps.extend(reaches.into_iter().map(Step::SetReach));
    steps.extend(nearer_to_zero(scene));
    steps.extend(simpler_coordinates(scene));
    steps.extend(simpler_stands(scene));
    steps.extend(simpler_numbers(scene));
    if !plan.corners.is_empty() {
        steps.push(Step::ShortenCorners);
    }
    if !plan.cells.is_empty() {
        steps.push(Step::ShortenCells);
    }
    if !plan.doors.is_empty() {
        steps.push(Step::ShortenDoors);
    }
    if !scene.stands.is_empty() {
        steps.push(Step::ShortenStands);
    }
    steps
}

fn take_step(scene: &Scene, step: Step) -> Scene {
    let mut smaller = scene.clone();
    match step {
        Step::DropCells(from, to) => drop_cells(&mut smaller, from, to),
        Step::DropDoors(from, to) => drop_doors(&mut smaller, from, to),
        Step::DropStands(from, to) => drop(smaller.stands.drain(3 * from..3 * to)),
        Step::DropRest(from, to) => drop_rest(&mut smaller.plan, from, to),
        Step::DropCorner(corner) => drop_corner(&mut smaller, corner),
        Step::NarrowCell(cell, corner) => narrow_cell(&mut smaller, cell, corner),
        Step::TakeOldKind => {
            smaller.plan = in_other_kind(&scene.plan).unwrap_or(smaller.plan);
        }
        Step::ClearBit(bit) => smaller.setting &= !(1 << bit),
        Step::MoveBack(by) => map_scene(&mut smaller, |n, axis| n - by[axis]),
        Step::Divide(by) => {
            map_scene(&mut smaller, |n, _| n / by);
            if let Reach::Stated(number) = scene.reach {
                smaller.reach = Reach::Stated(number / by as u64);
            }
        }
        Step::SetCoordinate(at, new) => smaller.plan.corners[at] = new,
        Step::SetStand(x, y) => {
            smaller.stand = match scene.stand {
                Stand::Point(..) => Stand::Point(x, y),
                Stand::Offset(corner, ..) => Stand::Offset(corner, x, y),
            }
        }
        Step::SetNumber(at, new) => smaller.stands[at] = new,
        Step::SetReach(reach) => smaller.reach = reach,
        Step::ShortenCorners => smaller.plan.corners.truncate(scene.plan.corners.len() - 1),
        Step::ShortenCells => smaller.plan.cells.truncate(scene.plan.cells.len() - 1),
        Step::ShortenDoors => smaller.plan.doors.truncate(scene.plan.doors.len() - 1),
        Step::ShortenStands => smaller.stands.truncate(scene.stands.len() - 1),
    }
    smaller
}

/// Parts of a list to leave out: halves, quarters, and so on down to one.
fn blocks(count: usize) -> impl Iterator<Item = (usize, usize)> {
    let sizes = std::iter::successors(Some(count.div_ceil(2)), |size| {
        (*size > 1).then(|| size.div_ceil(2))
    });
    sizes.flat_map(move |size| {
        (0..count)
            .step_by(size.max(1))
            .map(move |from| (from, count.min(from + size)))
    })
}

/// Lines to the cells that go become walls, and doors on those lines go too.
fn drop_cells(scene: &mut Scene, from: usize, to: usize) {
    let gone = |cell| (from..to).contains(&cell);
    wall_off(scene, |cell, _, there| gone(cell) || gone(there));
    let firsts = firsts(&scene.plan);
    move_doors(&mut scene.plan, firsts[to], firsts[to] - firsts[from]);
    let by = (to - from) as u16;
    change_cells(&mut scene.plan, |cells| {
        cells.drain(from..to);
        for there in cells.iter_mut().flat_map(|cell| cell.neighbours.to_mut()) {
            if *there != WALL && usize::from(*there) >= to {
                *there -= by;
            }
        }
    });
}

/// The lines of a cell at one of its corners become walls, and the corner goes.
fn narrow_cell(scene: &mut Scene, cell: usize, corner: usize) {
    let (cells, _) = cut_cells(scene.plan.kind, &scene.plan.cells);
    let at = cells[cell].corners[corner];
    wall_off(scene, |here, ends, there| {
        ends.contains(&at) && (here == cell || there == cell)
    });
    let face = firsts(&scene.plan)[cell] + corner;
    move_doors(&mut scene.plan, face + 1, 1);
    change_cells(&mut scene.plan, |cells| {
        cells[cell].corners.to_mut().remove(corner);
        cells[cell].neighbours.to_mut().remove(corner);
    });
}

/// Makes walls of lines, told by the cell of a side, its ends and its neighbour,
/// and drops the doors there.
fn wall_off(scene: &mut Scene, is_meant: impl Fn(usize, [u16; 2], usize) -> bool) {
    let mut walled = Vec::new();
    change_cells(&mut scene.plan, |cells| {
        for (number, cell) in cells.iter_mut().enumerate() {
            for side in 0..cell.corners.len() {
                let there = usize::from(cell.neighbours[side]);
                let wall = is_meant(number, cell.ends(side), there);
                walled.push(wall);
                if wall {
                    cell.neighbours.to_mut()[side] = WALL;
                }
            }
        }
    });
    for door in (0..scene.plan.doors.len()).rev() {
        if walled.get(usize::from(scene.plan.doors[door])) == Some(&true) {
            drop_doors(scene, door, door + 1);
        }
    }
}

/// Changes the whole cells of the list.
fn change_cells(plan: &mut Plan, change: impl FnOnce(&mut Vec<Cell<'_>>)) {
    let (mut cells, rest) = cut_cells(plan.kind, &plan.cells);
    change(&mut cells);
    let numbers = cells.iter().flat_map(|cell| cell.numbers(plan.kind));
    plan.cells = numbers.chain(rest.iter().copied()).collect();
}

/// The first face of each whole cell, and the count of faces.
fn firsts(plan: &Plan) -> Vec<usize> {
    let (cells, _) = cut_cells(plan.kind, &plan.cells);
    let mut firsts = vec![0];
    for cell in cells {
        firsts.push(firsts[firsts.len() - 1] + cell.corners.len());
    }
    firsts
}

/// Doors from a face on are moved to lower faces.
fn move_doors(plan: &mut Plan, from: usize, by: usize) {
    for face in &mut plan.doors {
        if usize::from(*face) >= from {
            *face -= by as u16;
        }
    }
}

fn drop_rest(plan: &mut Plan, from: usize, to: usize) {
    let (_, rest) = cut_cells(plan.kind, &plan.cells);
    let whole = plan.cells.len() - rest.len();
    plan.cells.drain(whole + from..whole + to);
}

/// The corners of cells that have more than they must.
fn corners_of_larger(cells: &[Cell<'_>]) -> Vec<Step> {
    let larger = |(_, cell): &(usize, &Cell<'_>)| cell.corners.len() > *SIDES.start();
    cells
        .iter()
        .enumerate()
        .filter(larger)
        .flat_map(|(number, cell)| {
            (0..cell.corners.len()).map(move |corner| Step::NarrowCell(number, corner))
        })
        .collect()
}

/// The doors go, and their bits of the setting.
fn drop_doors(scene: &mut Scene, from: usize, to: usize) {
    scene.plan.doors.drain(from..to);
    let bits = |n: usize| u64::MAX.checked_shl(n as u32).unwrap_or(0);
    let above = (scene.setting & bits(to)).checked_shr((to - from) as u32);
    scene.setting = scene.setting & !bits(from) | above.unwrap_or(0);
    if scene.door >= to {
        scene.door -= to - from;
    }
}

fn unused_corners(scene: &Scene) -> impl Iterator<Item = usize> {
    let mut used = vec![false; scene.plan.corners.len() / 2];
    let (cells, _) = cut_cells(scene.plan.kind, &scene.plan.cells);
    for corner in cells.iter().flat_map(|cell| cell.corners.iter()) {
        if let Some(used) = used.get_mut(usize::from(*corner)) {
            *used = true;
        }
    }
    (0..used.len()).rev().filter(move |&corner| !used[corner])
}

fn drop_corner(scene: &mut Scene, corner: usize) {
    let moved = |old: u16| old - u16::from(usize::from(old) > corner);
    scene.plan.corners.drain(2 * corner..2 * corner + 2);
    change_cells(&mut scene.plan, |cells| {
        let numbers = cells.iter_mut().flat_map(|cell| cell.corners.to_mut());
        numbers.for_each(|number| *number = moved(*number));
    });
    each_stand(scene, |stand| match stand {
        Stand::Point(..) => stand,
        Stand::Offset(from, dx, dy) => Stand::Offset(moved(from), dx, dy),
    });
}

/// Changes the scene's stand, and each of its morning that means one.
fn each_stand(scene: &mut Scene, change: impl Fn(Stand) -> Stand) {
    scene.stand = change(scene.stand);
    let (stands, _) = scene.stands.as_chunks_mut();
    for numbers in stands {
        if let Some(stand) = paper::stand_of(*numbers) {
            // A number that is the same stays as it is written: minus zero too.
            let changed = numbers.iter_mut().zip(change(stand).numbers());
            changed
                .filter(|(old, new)| **old != *new)
                .for_each(|(old, new)| *old = new);
        }
    }
}

/// The whole scene moved so that its least coordinates are zero, or divided.
fn nearer_to_zero(scene: &Scene) -> Vec<Step> {
    let corners = &scene.plan.corners;
    let least = [0, 1].map(|axis| {
        let along = corners.iter().skip(axis).step_by(2);
        along.copied().min().map_or(0, i64::from)
    });
    let mut steps = Vec::new();
    if least != [0, 0] {
        steps.push(Step::MoveBack(least));
    }
    for by in [1_000, 10, 2] {
        if corners.iter().any(|&n| i64::from(n).abs() >= by) {
            steps.push(Step::Divide(by));
        }
    }
    steps
}

/// Maps every coordinate, and each stand that is a point of whole numbers.
fn map_scene(scene: &mut Scene, map: impl Fn(i64, usize) -> i64) {
    for (i, number) in scene.plan.corners.iter_mut().enumerate() {
        *number = map(i64::from(*number), i % 2) as i32;
    }
    // Beyond this no double has a fraction, nor is any within the limits.
    let whole = |n: f64| n.fract() == 0.0 && n.abs() < (1u64 << 53) as f64;
    each_stand(scene, |stand| match stand {
        Stand::Point(x, y) if whole(x) && whole(y) => {
            Stand::Point(map(x as i64, 0) as f64, map(y as i64, 1) as f64)
        }
        _ => stand,
    });
}

/// One coordinate zero, or half as far from zero.
fn simpler_coordinates(scene: &Scene) -> Vec<Step> {
    let corners = scene.plan.corners.iter().enumerate();
    corners
        .filter(|(_, &n)| n != 0)
        .flat_map(|(at, &n)| [Step::SetCoordinate(at, 0), Step::SetCoordinate(at, n / 2)])
        .collect()
}

/// One number of the stand zero, or half as far from zero.
fn simpler_stands(scene: &Scene) -> Vec<Step> {
    let (Stand::Point(x, y) | Stand::Offset(_, x, y)) = scene.stand;
    simpler_number(x)
        .map(|x| Step::SetStand(x, y))
        .chain(simpler_number(y).map(|y| Step::SetStand(x, y)))
        .collect()
}

/// One number of the morning's stands likewise; points stay points.
fn simpler_numbers(scene: &Scene) -> Vec<Step> {
    let numbers = scene.stands.iter().enumerate();
    numbers
        .filter(|&(at, &n)| at % 3 != 0 || n != POINT)
        .flat_map(|(at, &n)| simpler_number(n).map(move |new| Step::SetNumber(at, new)))
        .collect()
}

/// Zero, and half the number without its fraction.
fn simpler_number(n: f64) -> impl Iterator<Item = f64> {
    let zero = (n != 0.0).then_some(0.0);
    let half = (n.is_finite() && n.abs() >= 2.0).then(|| (n / 2.0).trunc());
    [zero, half].into_iter().flatten()
}

/// Inputs whose records are sound, made smaller as scenes.
fn smaller_inputs(bytes: &[u8], asked: &AskedOfBytes) -> Box<dyn Iterator<Item = Vec<u8>>> {
    let scenes = |setting, stand, file: &[u8]| {
        let plan = paper::decode(file).ok()?;
        Some(smaller_scenes(Scene {
            plan,
            setting,
            stand,
            reach: Reach::NotStated,
            door: 0,
            stands: Vec::new(),
        }))
    };
    match asked {
        AskedOfBytes::Read { .. } => {
            let scenes = scenes(0, Stand::Point(0.0, 0.0), bytes);
            let files = scenes.into_iter().flatten();
            Box::new(files.map(|scene| paper::encode(scene.plan.lists())))
        }
        AskedOfBytes::Print => {
            let scenes =
                paper::query(bytes).and_then(|(setting, stand, file)| scenes(setting, stand, file));
            Box::new(scenes.into_iter().flatten().map(|scene| {
                let query = query_record(scene.setting, scene.stand);
                [query, paper::encode(scene.plan.lists())].concat()
            }))
        }
    }
}

/// Bytes left out, or made zero.
fn smaller_bytes(bytes: &[u8]) -> impl Iterator<Item = Vec<u8>> + '_ {
    let fewer = blocks(bytes.len()).map(|(from, to)| [&bytes[..from], &bytes[to..]].concat());
    let not_zero = (0..bytes.len()).filter(|&at| bytes[at] != 0);
    fewer.chain(not_zero.map(|at| {
        let mut smaller = bytes.to_vec();
        smaller[at] = 0;
        smaller
    }))
}
