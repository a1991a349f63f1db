//! The seeded generator: from a seed and a case number to everything the
//! public calls are asked with.

mod ceilings;
mod damage;
mod dice;
mod distances;
mod extremes;
mod floors;
mod lines;
mod merge;
mod mesh;
mod morning;
mod overlaps;
mod reaches;
mod stands;

pub use ceilings::Ceiling;
pub use dice::Dice;
pub use extremes::{fullest, longest_fans, longest_lists, most_splits};
pub use floors::{
    cathedral, corridor, deepest, fence, largest, one_fan, spot_at, steps_between, two_fans,
    OCTAGON,
};
pub use lines::{Lines, OnLine};
pub use merge::{in_other_kind, Merged};
pub use mesh::{Mesh, Spot};
pub use stands::inside;

use crate::calls::{Listing, Morning, Plan, Query, Reach, Stand, ROW};
use crate::paper::{self, Direction, Floor, View, DOORS, MOST_INPUT, REACHES};
use std::io::{self, Write};

/// A plan seen from a stand under a setting, as far as a reach goes, with a door to
/// be changed, and the stands of a morning there.
#[derive(Clone, Debug)]
pub struct Scene {
    pub plan: Plan,
    pub setting: u64,
    pub stand: Stand,
    pub reach: Reach,
    pub door: usize,
    /// Three numbers a stand, where none is missing.
    pub stands: Vec<f64>,
}

impl Scene {
    pub fn query(&self) -> Query {
        Query {
            setting: self.setting,
            stand: self.stand,
            reach: self.reach,
        }
    }

    /// The listing of the scene's own stand.
    pub fn listing(&self, ceiling: Ceiling) -> Listing {
        Listing {
            query: self.query(),
            ceiling: ceiling.number(|| self.true_crossings([self.stand])),
        }
    }

    /// The morning of the scene's stands.
    pub fn morning(&self, ceiling: Ceiling) -> Morning {
        let (stands, _) = self.stands.as_chunks();
        let stands = stands.iter().copied().filter_map(paper::stand_of);
        Morning {
            setting: self.setting,
            reach: self.reach,
            ceiling: ceiling.number(|| self.true_crossings(stands)),
        }
    }

    /// The crossings of each of these stands that is listed where there is no ceiling,
    /// as the paper program counts them.
    fn true_crossings(&self, stands: impl IntoIterator<Item = Stand>) -> Vec<u64> {
        let Ok(floor) = Floor::check(self.plan.lists()) else {
            return Vec::new();
        };
        let views = stands.into_iter().map(|stand| {
            let query = Query {
                stand,
                ..self.query()
            };
            View::new(&floor, query)
        });
        views.flatten().map(|view| view.list().crossings).collect()
    }

    /// The true list of a query, as the paper program has it; a row of zeros where
    /// there is none.
    fn true_numbers(&self, query: Query) -> Vec<u16> {
        let mut table = vec![0; ROW * (self.plan.corners.len() / 2)];
        let reply = paper::list(self.plan.lists(), query.without_ceiling(), &mut table);
        match reply.number {
            0 => table.truncate(ROW * reply.values[0] as usize),
            _ => table = vec![0; ROW],
        }
        table
    }
}

/// How long lent memory is, against what the call asks for.
#[derive(Clone, Copy, Debug, PartialEq, Eq)]
pub enum Room {
    Empty,
    OneShort,
    Exact,
    Longer(usize),
}

impl Room {
    pub fn length(self, asked: usize) -> usize {
        match self {
            Room::Empty => 0,
            Room::OneShort => asked.saturating_sub(1),
            Room::Exact => asked,
            Room::Longer(by) => asked + by,
        }
    }
}

/// The list given to a door change, against the true one.
#[derive(Clone, Copy, Debug, PartialEq, Eq)]
pub enum Given {
    True,
    Empty,
    /// The last numbers are missing.
    Cut(usize),
    /// The first numbers come once more.
    Lengthened(usize),
    /// The number at a place, counted round, is another.
    Changed {
        at: usize,
        by: u16,
    },
    /// The first row has moved to the end.
    Turned,
    /// The fourth number of every row is missing.
    Unmarked,
    /// The list is the true one of a query that states no reach.
    Unlimited,
}

impl Given {
    /// The list for a scene.
    pub fn numbers(self, scene: &Scene) -> Vec<u16> {
        let mut numbers = scene.true_numbers(scene.query());
        let count = numbers.len();
        match self {
            Given::True => {}
            Given::Empty => numbers.clear(),
            Given::Cut(by) => numbers.truncate(count.saturating_sub(by)),
            Given::Lengthened(by) => numbers.extend_from_within(..by.min(count)),
            Given::Changed { at, by } => {
                if count > 0 {
                    numbers[at % count] = numbers[at % count].wrapping_add(by);
                }
            }
            Given::Turned => numbers.rotate_left(ROW.min(count)),
            Given::Unmarked => {
                let (rows, _) = numbers.as_chunks::<ROW>();
                numbers = rows.iter().flat_map(|row| row[..3].to_vec()).collect();
            }
            Given::Unlimited => {
                let query = Query::without_reach(scene.setting, scene.stand);
                numbers = scene.true_numbers(query);
            }
        }
        numbers
    }
}

/// Everything one case asks the public calls.
pub struct Case {
    pub scene: Scene,
    /// The wished state of the scene's door.
    pub shut: bool,
    pub given: Given,
    pub table: Room,
    /// Of the listing.
    pub ceiling: Ceiling,
    /// The table and the replies of a morning.
    pub morning: [Room; 2],
    pub morning_ceiling: Ceiling,
    /// The offsets of a drawing.
    pub offsets: Room,
    /// A plan file for the reader, often a damaged one.
    pub file: Vec<u8>,
    pub lists: [Room; 3],
    pub bytes: Room,
    /// Standard input for the printing program.
    pub input: Vec<u8>,
    pub directions: Vec<Direction>,
    /// A reach that is as long as the scene's, or longer.
    pub longer: Reach,
}

/// One in so many cases is of the largest size: they take the longest.
const LARGEST_EVERY: usize = 400;

/// One in so many cases is filled up to a limit of corners or cells.
const FULL_EVERY: usize = 300;

/// So many cases in a hundred have stands on lines of the plan.
const ON_LINES: usize = 30;

/// So many cases in a hundred have a floor that is turned.
const TURNED: usize = 15;

/// So many cases in a hundred have a floor with cells on top of others, or with cells that
/// just are not.
const ON_TOP: usize = 8;

/// So many cases in a hundred have a floor of such a size that some corner is about as far
/// from the stand as one may be to be drawn.
const DISTANT: usize = 15;

/// A floor whose coordinates go farther is so large that hardly any stand has a line
/// in reach, where it is not beside one.
const BEYOND_REACH: i64 = 4 * *REACHES.end() as i64;

/// The case with this number in the run with this seed.
pub fn case(seed: u64, number: u64) -> Case {
    let dice = &mut Dice::for_case(seed, number);
    // The morning has dice of its own, and so have stands on lines, reaches with turned
    // floors and stands beside lines, ceilings, cells on top of others, and drawings: one
    // of them changes nothing of what the other dice give.
    let aside = &mut Dice::for_case(!seed, number);
    let other = &mut Dice::for_case(seed ^ 1 << 63, number);
    let far = &mut Dice::for_case(seed ^ 1 << 62, number);
    let tablet = &mut Dice::for_case(seed ^ 1 << 61, number);
    let upon = &mut Dice::for_case(seed ^ 1 << 60, number);
    let screen = &mut Dice::for_case(seed ^ 1 << 59, number);
    let mut mesh = floor(dice);
    let on_lines = other.percent(ON_LINES);
    if on_lines && other.percent(40) {
        mesh = floors::with_lines(other);
    }
    if on_lines && other.percent(70) {
        floors::spread(&mut mesh, other);
    }
    let turned = far.percent(TURNED);
    if turned {
        if !on_lines && far.percent(60) {
            mesh = floors::straight(far);
        }
        floors::turn(&mut mesh, far);
    }
    if upon.percent(ON_TOP) {
        mesh = overlaps::random(upon);
    }
    let mut stand = stands::random(&mesh, dice);
    let mut stands = morning::random(&mesh, aside);
    if dice.percent(15) {
        let map = floors::slant(mesh.extent(), dice);
        mesh.map_corners(&map);
        stand = stands::mapped(stand, &map);
        morning::map(&mut stands, &map);
    }
    let mut plan = plan(&mesh, dice);
    let lines = Lines::new(&plan);
    let mut on_line = on_lines.then(|| lines.random(other)).flatten();
    if let Some(OnLine { at, .. }) = on_line {
        stand = stands::as_stand(&mesh, at, other);
    }
    if on_lines {
        let on_some = |dice: &mut Dice| lines.random(dice).map(|on_line| on_line.at);
        morning::put(&mut stands, &mesh, on_some, other);
    }
    let mut near = lines.some(far.below(plan.doors.len() + 1), far);
    let beside = turned || mesh.extent() > BEYOND_REACH && far.percent(70);
    if beside && on_line.is_none() {
        near.truncate(1 + far.below(3));
        if let Some(at) = lines.beside(&near, far) {
            stand = stands::as_stand(&mesh, at, far);
        }
        let beside = |dice: &mut Dice| lines.beside(&near, dice);
        morning::put(&mut stands, &mesh, beside, far);
        // These are to be at the end of a reach, before all others.
        near = near.repeat(8);
    }
    // After all that has a say in where the stand is.
    let distant = screen.percent(DISTANT).then(|| {
        let q = stands::near(&mesh, stand);
        let those = distances::those_that_matter(&plan, stand, screen);
        distances::random(&mesh.corners, &those, q, screen)
    });
    let distant = distant.flatten();
    if let Some(map) = distant {
        let map = |at| map.of(at);
        mesh.map_corners(map);
        let (spots, _) = plan.corners.as_chunks_mut::<2>();
        for at in spots {
            *at = map(at.map(i64::from)).map(|number| number as i32);
        }
        stand = stands::mapped(stand, map);
        morning::map(&mut stands, map);
        on_line = on_line.map(|on_line| on_line.mapped(map));
    }
    let mut directions = directions(&mesh, stand, dice);
    if let Some(OnLine { at, ends, .. }) = on_line {
        directions.extend(ends.map(|end| just_beside(at, end, other)));
        directions.retain(|d| (d.x, d.y) != (0, 0));
    }
    if dice.percent(20) {
        damage::damage_plan(&mut plan, dice);
    }
    let mut setting = setting(plan.doors.len(), dice);
    let (mut door, mut shut) = wish(plan.doors.len(), setting, dice);
    // Damage can leave fewer doors.
    let own = on_line.and_then(|on_line| on_line.door);
    if let Some(own) = own.filter(|&own| own < plan.doors.len().min(64)) {
        if other.percent(20) {
            setting ^= 1 << own;
        }
        if other.percent(40) {
            (door, shut) = (own, other.percent(50));
        }
    }
    near.extend(lines.some(door, far));
    if let Some(map) = distant {
        near.iter_mut().flatten().for_each(|at| *at = map.of(*at));
    }
    let q = stands::near(&mesh, some_stand(stand, &stands, far));
    let reach = reaches::random(q, &near, far);
    let longer = reaches::longer(reach, q, &near, far);
    let scene = Scene {
        plan,
        setting,
        stand,
        reach,
        door,
        stands,
    };
    let mut given = given(dice);
    if far.percent(4) {
        given = far.pick(&[Given::Unmarked, Given::Unlimited]);
    }
    Case {
        shut,
        given,
        table: room(dice),
        ceiling: ceilings::random(tablet),
        morning: [room(aside), room(aside)],
        morning_ceiling: ceilings::random(tablet),
        offsets: room(screen),
        file: file(&scene, dice),
        lists: [room(dice), room(dice), room(dice)],
        bytes: room(dice),
        input: input(&scene, dice),
        directions,
        longer,
        scene,
    }
}

/// Mostly the stand itself, now and then one of a morning's.
fn some_stand(stand: Stand, stands: &[f64], dice: &mut Dice) -> Stand {
    let (stands, _) = stands.as_chunks();
    if stands.is_empty() || dice.percent(75) {
        return stand;
    }
    paper::stand_of(dice.pick(stands)).unwrap_or(stand)
}

/// A random floor, now and then of the largest size.
pub fn floor(dice: &mut Dice) -> Mesh {
    if dice.below(LARGEST_EVERY) == 0 {
        let pillars = dice.pick(&[0, 60, 900]);
        return floors::largest(pillars, dice);
    }
    let mut mesh = floors::random(dice);
    if dice.below(FULL_EVERY) == 0 {
        let corners = dice.percent(50);
        let cells = !corners || dice.percent(30);
        floors::fill_up(&mut mesh, corners, cells, dice);
    }
    mesh
}

/// The floor's plan with doors: as triangles in either kind, or with some of
/// them merged.
fn plan(mesh: &Mesh, dice: &mut Dice) -> Plan {
    let doors = doors(mesh, dice);
    let triangles = || mesh.plan(&doors);
    match dice.below(10) {
        0..=3 => triangles(),
        4 => in_other_kind(&triangles()).expect("triangles come in either kind"),
        _ => Merged::random(mesh, &doors, dice).plan(&doors),
    }
}

/// Doors on free lines, each named from either face.
pub fn doors(mesh: &Mesh, dice: &mut Dice) -> Vec<usize> {
    let mut lines = mesh.free_lines();
    dice.shuffle(&mut lines);
    let most = lines.len().min(*DOORS.end());
    let count = match dice.below(5) {
        0 => 0,
        1 => most,
        2 => dice.below(most + 1),
        _ => most.min(1 + dice.below(4)),
    };
    lines.truncate(count);
    for face in &mut lines {
        if dice.percent(50) {
            *face = mesh.across[*face].unwrap_or(*face);
        }
    }
    lines
}

fn setting(doors: usize, dice: &mut Dice) -> u64 {
    let known = if doors >= 64 { !0 } else { (1 << doors) - 1 };
    if known != !0 && dice.percent(4) {
        let anywhere = doors + dice.below(64 - doors);
        let high = dice.pick(&[doors, 63, anywhere]);
        return dice.word() & known | 1 << high;
    }
    known
        & match dice.below(10) {
            0..=2 => 0,
            3 => !0,
            4 => dice.word(),
            _ => dice.word() & dice.word() & dice.word(),
        }
}

/// A door and its wished state, mostly such that it can be changed.
fn wish(doors: usize, setting: u64, dice: &mut Dice) -> (usize, bool) {
    if doors == 0 || dice.percent(5) {
        let door = dice.pick(&[doors, 63, 64, 65_535, usize::MAX]);
        return (door, dice.percent(50));
    }
    let door = dice.below(doors);
    // A damaged plan may have more doors than the setting has bits.
    let is_shut = setting.checked_shr(door as u32).unwrap_or(0) & 1 == 1;
    let stays = dice.percent(8);
    (door, if stays { is_shut } else { !is_shut })
}

fn given(dice: &mut Dice) -> Given {
    match dice.below(20) {
        0 => Given::Empty,
        1 => Given::Cut(dice.pick(&[1, 2, ROW, 2 * ROW])),
        2 => Given::Lengthened(dice.pick(&[1, ROW])),
        3 => Given::Changed {
            at: dice.below(1_000),
            by: dice.pick(&[1, u16::MAX, 256]),
        },
        4 => Given::Turned,
        _ => Given::True,
    }
}

fn room(dice: &mut Dice) -> Room {
    match dice.below(20) {
        0 => Room::Empty,
        1 | 2 => Room::OneShort,
        3..=11 => Room::Exact,
        _ => Room::Longer(dice.pick(&[1, 2, 7, 100, 3_000])),
    }
}

fn file(scene: &Scene, dice: &mut Dice) -> Vec<u8> {
    let mut file = paper::encode(scene.plan.lists());
    if dice.percent(30) {
        damage::damage_file(&mut file, dice);
    }
    file
}

fn input(scene: &Scene, dice: &mut Dice) -> Vec<u8> {
    let mut query = query_record(scene.setting, scene.stand);
    let mut plan = paper::encode(scene.plan.lists());
    match dice.below(12) {
        0 => damage::damage_file(&mut query, dice),
        1 => damage::damage_file(&mut plan, dice),
        _ => {}
    }
    let mut input = [query, plan].concat();
    match dice.below(100) {
        0 => input.resize(MOST_INPUT + dice.pick(&[0, 1, 2, MOST_INPUT]), 0),
        1 => input.truncate(dice.below(40)),
        _ => {}
    }
    input
}

/// Writes the inputs of a seed's first cases, each after its length in four bytes.
pub fn write_inputs(seed: u64, count: u64, out: &mut impl Write) -> io::Result<()> {
    for number in 0..count {
        let input = case(seed, number).input;
        out.write_all(&(input.len() as u32).to_le_bytes())?;
        out.write_all(&input)?;
    }
    Ok(())
}

/// The query record of the printing program.
pub fn query_record(setting: u64, stand: Stand) -> Vec<u8> {
    let (kind, corner, x, y) = match stand {
        Stand::Point(x, y) => (4u16, Vec::new(), x, y),
        Stand::Offset(corner, dx, dy) => (5, corner.to_le_bytes().to_vec(), dx, dy),
    };
    let body = [
        setting.to_le_bytes().to_vec(),
        corner,
        x.to_le_bytes().to_vec(),
        y.to_le_bytes().to_vec(),
    ]
    .concat();
    [
        (body.len() as u32).to_le_bytes().to_vec(),
        kind.to_le_bytes().to_vec(),
        body,
    ]
    .concat()
}

/// Directions of any size; some pass a corner as closely as can be.
fn directions(mesh: &Mesh, stand: Stand, dice: &mut Dice) -> Vec<Direction> {
    let q = stands::near(mesh, stand);
    let mut all: Vec<Direction> = (0..6).map(|_| direction(mesh, q, dice)).collect();
    all.retain(|d| (d.x, d.y) != (0, 0));
    all
}

fn direction(mesh: &Mesh, q: Spot, dice: &mut Dice) -> Direction {
    if dice.percent(60) {
        let size = dice.pick(&[1, 5, 1_000, 1 << 31, 1 << 60]);
        return Direction {
            x: dice.between(-size, size),
            y: dice.between(-size, size),
        };
    }
    let c = dice.pick(&mesh.corners);
    just_beside(q, c, dice)
}

/// A direction from one spot that passes another as closely as can be, or meets
/// it.
fn just_beside(q: Spot, c: Spot, dice: &mut Dice) -> Direction {
    // So far beyond the spot, a unit more or less passes just beside it.
    let far = 1 << 30;
    Direction {
        x: (c[0] - q[0]) * far + dice.between(-1, 1),
        y: (c[1] - q[1]) * far + dice.between(-1, 1),
    }
}

#[cfg(test)]
mod tests {
    use super::*;
    use crate::calls::{Refusal, POLYGONS, TRIANGLES};
    use crate::paper::{cut_cells, CELLS, COORDINATES, CORNERS};

    fn meshes(count: u64) -> impl Iterator<Item = (Mesh, Dice)> {
        (0..count).map(|number| {
            let mut dice = Dice::for_case(8, number);
            (floor(&mut dice), dice)
        })
    }

    #[test]
    fn undamaged_plans_pass_the_check() {
        for (number, (mut mesh, mut dice)) in meshes(3_000).enumerate() {
            if number % 2 == 0 {
                let map = floors::slant(mesh.extent(), &mut dice);
                mesh.map_corners(&map);
            }
            for _ in 0..3 {
                let checked = Floor::check(plan(&mesh, &mut dice).lists());
                assert!(checked.is_ok(), "floor {number}: {:?}", checked.err());
            }
        }
    }

    #[test]
    fn cells_of_every_size_come_up_and_doors_between_them() {
        let mut sizes = [0; 9];
        let mut doors = [[0; 9]; 9];
        for (mesh, mut dice) in meshes(3_000) {
            let plan = plan(&mesh, &mut dice);
            let floor = Floor::check(plan.lists()).expect("it passes the check");
            let size = |cell| floor.faces(cell).len();
            (0..floor.cell_count()).for_each(|cell| sizes[size(cell)] += 1);
            for door in 0..floor.doors().len() {
                let [a, b] = floor
                    .door_faces(door)
                    .map(|face| size(floor.cell_with(face)));
                doors[a.min(b)][a.max(b)] += 1;
            }
        }
        assert!(sizes[3..].iter().all(|&count| count > 100), "{sizes:?}");
        for (least, doors) in doors.iter().enumerate().skip(3) {
            let some = doors[least..].iter().all(|&count| count > 0);
            assert!(
                some,
                "between {least} corners and as many or more: {doors:?}"
            );
        }
    }

    /// Kinds, counts of corners and cuts that are refused.
    #[test]
    fn lists_of_every_kind_come_up() {
        let (mut triangles, mut polygons, mut either, mut neither) = (0, 0, 0, [0; 5]);
        let (mut counts, mut cut) = ([0; 5], 0);
        for number in 0..8_000 {
            let Plan { cells, kind, .. } = case(8, number).scene.plan;
            let (whole, rest) = cut_cells(kind, &cells);
            triangles += usize::from(kind == TRIANGLES);
            polygons += usize::from(kind == POLYGONS);
            let all_triangles = whole.iter().all(|cell| cell.corners.len() == 3);
            either += usize::from(kind == POLYGONS && rest.is_empty() && all_triangles);
            for (at, wrong) in [0, 1, 3, 13, u16::MAX].iter().enumerate() {
                neither[at] += usize::from(kind == *wrong);
            }
            if kind == POLYGONS {
                for (at, wrong) in [0, 2, 9, 1, u16::MAX].iter().enumerate() {
                    counts[at] += usize::from(rest.first() == Some(wrong));
                }
                let count = rest.first().copied().unwrap_or(0);
                cut += usize::from((3..=8).contains(&count));
            }
        }
        assert!(triangles > 1_000 && polygons > 1_000 && either > 500);
        assert!(neither.iter().all(|&count| count > 0), "{neither:?}");
        assert!(counts.iter().all(|&count| count > 0), "{counts:?}");
        assert!(cut > 20, "{cut}");
    }

    #[test]
    fn floors_of_every_kind_come_up() {
        let (mut parted, mut at_edges, mut largest) = (0, 0, 0);
        for (mesh, _) in meshes(3_000) {
            let mut corners = mesh.corners.clone();
            corners.sort_unstable();
            corners.dedup();
            parted += usize::from(corners.len() < mesh.corners.len());
            at_edges += usize::from(mesh.extent() == *COORDINATES.end());
            let sizes = (mesh.corners.len(), mesh.cells.len());
            largest += usize::from(sizes == (*CORNERS.end(), *CELLS.end()));
        }
        assert!(parted > 100 && at_edges > 100 && largest > 2);
    }

    /// Cells on top of each other, in plans that are wrong in no other way and in such as
    /// are; and cells that touch and are no neighbours.
    #[test]
    fn overlaps_of_every_kind_come_up() {
        let (mut plans, mut places, mut larger, mut at_edges, mut touching) = (0, 0, 0, 0, 0);
        let mut damaged = [0; 7];
        for number in 0..12_000 {
            let plan = case(8, number).scene.plan;
            let lists = plan.lists();
            let floor = Floor::agreeing(lists);
            match Floor::check(lists).err() {
                Some(Refusal::Overlap(place)) => {
                    let floor = floor.unwrap_or_else(|_| panic!("case {number} overlaps only"));
                    plans += 1;
                    places += usize::from(place > 0);
                    larger += usize::from(floor.faces(place).len() > 3);
                    let edge = *COORDINATES.end() as i32;
                    at_edges += usize::from(plan.corners.iter().any(|n| n.abs() == edge));
                }
                Some(refusal) if Dice::for_case(8 ^ 1 << 60, number).percent(ON_TOP) => {
                    damaged[refusal.number() as usize] += 1;
                }
                None => touching += usize::from(touches(&floor.expect("it is accepted"))),
                _ => {}
            }
        }
        let counts = [plans, places, larger, at_edges, touching];
        println!("{counts:?} {damaged:?}");
        assert!(counts.iter().all(|&count| count > 50), "{counts:?}");
        assert!(damaged[1..].iter().all(|&count| count > 2), "{damaged:?}");
    }

    /// Whether some corner is strictly within a side: the cells there are no neighbours.
    fn touches(floor: &Floor) -> bool {
        let mut faces = (0..floor.cell_count()).flat_map(|cell| floor.faces(cell));
        let corners = floor.corners();
        corners.len() < 50
            && faces.any(|face| {
                let mut corners = corners.iter();
                corners.any(|&at| paper::is_within(floor, face, at))
            })
    }

    /// Stands on the edge of the box of a cell that is looked at before the one they are
    /// found in, and stands strictly in such a box: inside a cell, on a side, on another
    /// border, and outside.
    #[test]
    fn stands_by_boxes_of_every_kind_come_up() {
        let (mut on_edge, mut in_box) = ([0; 4], [0; 4]);
        for number in 0..4_000 {
            let scene = case(8, number).scene;
            let lists = scene.plan.lists();
            let reply = paper::find(lists, scene.setting, scene.stand);
            let [cell, on_side, ..] = reply.values;
            let kind = match reply.number {
                0 => on_side as usize,
                9 => 2,
                10 => 3,
                _ => continue,
            };
            let floor = Floor::check(lists).expect("it passed the check");
            let q = paper::millimetres(&floor, scene.stand).expect("it is accepted");
            let cells = match reply.number {
                0 => cell as usize,
                _ => floor.cell_count(),
            };
            let places = || (0..cells).map(|cell| place_in_box(&floor, cell, [q.x, q.y]));
            on_edge[kind] += usize::from(places().any(|place| place == 0));
            in_box[kind] += usize::from(places().any(|place| place > 0));
        }
        println!("{on_edge:?} {in_box:?}");
        let mut counts = on_edge.iter().chain(&in_box);
        assert!(counts.all(|&count| count > 20), "{on_edge:?} {in_box:?}");
    }

    /// How far a spot is inside a cell's box: 0 on its edge, and less outside.
    fn place_in_box(floor: &Floor, cell: usize, at: Spot) -> i64 {
        let corners = floor
            .faces(cell)
            .map(|face| floor.corner(floor.ends(face)[0]));
        let spots: Vec<Spot> = corners.map(|corner| [corner.x, corner.y]).collect();
        let depth = |axis: usize| {
            let along = || spots.iter().map(|spot| spot[axis]);
            let [low, high] = [along().min(), along().max()].map(|end| end.expect("of a cell"));
            (at[axis] - low).min(high - at[axis])
        };
        depth(0).min(depth(1))
    }

    #[test]
    fn inputs_of_every_kind_come_up() {
        let (mut longer, mut longest, mut cut, mut wrong_kind) = (0, 0, 0, 0);
        for number in 0..4_000 {
            let input = case(8, number).input;
            longer += usize::from(input.len() > MOST_INPUT);
            longest += usize::from(input.len() == MOST_INPUT);
            cut += usize::from(input.len() < 30);
            wrong_kind += usize::from(input.len() >= 30 && ![4, 5].contains(&input[4]));
        }
        assert!(longer > 10 && longest > 4 && cut > 10 && wrong_kind > 10);
    }

    #[test]
    fn mornings_of_every_kind_come_up() {
        let mut counts = [0; 34];
        let (mut uneven, mut minus_zero, mut not_a_number) = (0, 0, 0);
        for number in 0..4_000 {
            let stands = case(8, number).scene.stands;
            counts[(stands.len() / 3).min(33)] += 1;
            uneven += usize::from(!stands.len().is_multiple_of(3));
            let first = || stands.iter().step_by(3);
            minus_zero += first().filter(|n| n.to_bits() == 1 << 63).count();
            not_a_number += first().filter(|n| n.is_nan()).count();
        }
        assert!(counts[..6].iter().all(|&count| count > 100), "{counts:?}");
        assert!(counts[31..].iter().all(|&count| count > 10), "{counts:?}");
        assert!(uneven > 50 && minus_zero > 20 && not_a_number > 20);
    }
}
