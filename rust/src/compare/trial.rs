//! One trial: something asked of both implementors, and what must hold of
//! their answers.

use super::{Call, Ceilings, Drawings, Tally};
use crate::calls::{
    Calls, DoorChange, Listing, Morning, Plan, Query, Reach, Refusal, Reply, DRAWN, ROW,
};
use crate::generate::{in_other_kind, Ceiling, Given, Room, Scene};
use crate::paper::{self, Direction, Floor, Listed, Offset, Place, Row, View, MOST_OFFSET};
use std::fmt::Debug;

/// What is asked about a scene.
#[derive(Clone, Debug)]
pub enum Asked {
    Check,
    Write {
        bytes: Room,
    },
    Find,
    /// The listing up to a ceiling: the one without it, or refused where that has more
    /// crossings.
    List {
        table: Room,
        ceiling: Ceiling,
    },
    /// The scene's morning, with its table and its replies: what the single
    /// calls reply, stand by stand.
    ListStands {
        room: [Room; 2],
        ceiling: Ceiling,
    },
    Change {
        shut: bool,
        given: Given,
        table: Room,
    },
    /// The drawing of what the scene's own stand sees: of the listing's rows, or refused
    /// where a limit of them is too far.
    Draw {
        offsets: Room,
    },
    /// What is written and read again is what was written.
    RoundTrip,
    /// A plan of triangles has the same replies, rows and counts in either kind.
    EitherKind {
        shut: bool,
        given: Given,
        ceiling: Ceiling,
    },
    /// Every direction is held by one row, and walks to its face.
    Demand2 {
        directions: Vec<Direction>,
    },
    /// A door change is a listing under the new setting.
    Demand3,
    /// With a reach that is as long or longer, rows in reach stand as they are, and
    /// each row out of reach is one or more.
    Longer {
        reach: Reach,
    },
}

/// What is asked about bytes.
#[derive(Clone, Debug)]
pub enum AskedOfBytes {
    Read { lists: [Room; 3] },
    Print,
}

#[derive(Clone, Debug)]
pub enum Trial {
    Lists(Scene, Asked),
    Bytes(Vec<u8>, AskedOfBytes),
}

/// The two implementors compared.
#[derive(Clone, Copy)]
pub struct Both<'a> {
    pub left: &'a dyn Calls,
    pub right: &'a dyn Calls,
}

/// Nothing, or what went wrong.
pub type Outcome = Result<(), String>;

impl Both<'_> {
    /// The answer of both implementors, if it is the same.
    fn ask<T: PartialEq + Debug>(self, ask: impl Fn(&dyn Calls) -> T) -> Result<T, String> {
        same(ask(self.left), ask(self.right))
    }
}

fn same<T: PartialEq + Debug>(left: T, right: T) -> Result<T, String> {
    if left == right {
        Ok(left)
    } else {
        Err(format!("left:  {left:?}\nright: {right:?}"))
    }
}

impl Trial {
    pub fn run(&self, both: Both<'_>, tally: &mut Tally) -> Outcome {
        match self {
            Trial::Lists(scene, asked) => run_scene(scene, asked, both, tally),
            Trial::Bytes(bytes, asked) => run_bytes(bytes, asked, both, tally),
        }
    }
}

/// Whether the printing program prints what the paper program does.
pub fn run_program(input: &[u8], program: impl Fn(&[u8]) -> Vec<u8>) -> Outcome {
    same(text(paper::print(input)), text(program(input))).map(drop)
}

fn run_scene(scene: &Scene, asked: &Asked, both: Both<'_>, tally: &mut Tally) -> Outcome {
    let lists = scene.plan.lists();
    match asked {
        Asked::Check => {
            let reply = both.ask(|calls| calls.check(lists))?;
            tally.count(Call::Check, lists.kind, reply.number);
        }
        Asked::Write { bytes } => {
            let room = bytes.length(paper::encode(lists).len());
            let (reply, _) = both.ask(|calls| write(calls, &scene.plan, room))?;
            tally.count(Call::Write, lists.kind, reply.number);
        }
        Asked::Find => {
            let reply = both.ask(|calls| calls.find(lists, scene.setting, scene.stand))?;
            tally.count(Call::Find, lists.kind, reply.number);
            let [_, on_side, ..] = reply.values;
            tally.sides.found += u64::from(on_side == 1);
        }
        &Asked::List { table, ceiling } => {
            let listing = scene.listing(ceiling);
            let left = both.ask(|calls| list(calls, scene, listing, table))?;
            tally.count(Call::List, lists.kind, left.0.number);
            tally.reaches.stated += u64::from(scene.reach.is_stated());
            if let Some(most) = listing.ceiling {
                tally.ceilings.stated += 1;
                up_to(scene, most, left, table, both, tally)?;
            }
        }
        &Asked::ListStands { room, ceiling } => {
            let morning = scene.morning(ceiling);
            let left = both.ask(|calls| list_stands(calls, scene, morning, room))?;
            tally.count(Call::ListStands, lists.kind, left.reply.number);
            tally.reaches.stated += u64::from(scene.reach.is_stated());
            tally.ceilings.stated += u64::from(morning.ceiling.is_some());
            if left.reply.number == 0 {
                let left = same(left, single_calls(both.right, scene, morning, room))?;
                let (own, _) = left.replies.as_chunks();
                let count = own.len().min(scene.stands.len() / 3);
                tally.count_stands(&own[..count], morning.ceiling);
            }
        }
        Asked::Change { shut, given, table } => {
            let given = given.numbers(scene);
            let (reply, _) = both.ask(|calls| change(calls, scene, &given, *shut, *table))?;
            tally.count(Call::Change, lists.kind, reply.number);
            tally.reaches.stated += u64::from(scene.reach.is_stated());
        }
        &Asked::Draw { offsets } => {
            let left = both.ask(|calls| draw(calls, scene, offsets))?;
            tally.count(Call::Draw, lists.kind, left.0.number);
            tally.reaches.stated += u64::from(scene.reach.is_stated());
            drawn(scene, left, offsets, both, tally)?;
        }
        Asked::RoundTrip => round_trip(&scene.plan, both)?,
        &Asked::EitherKind {
            shut,
            given,
            ceiling,
        } => either_kind(scene, shut, given, ceiling, both, tally)?,
        Asked::Demand2 { directions } => demand_2(scene, directions, both, tally)?,
        Asked::Demand3 => demand_3(scene, both, tally)?,
        &Asked::Longer { reach } => longer(scene, reach, both, tally)?,
    }
    Ok(())
}

fn run_bytes(bytes: &[u8], asked: &AskedOfBytes, both: Both<'_>, tally: &mut Tally) -> Outcome {
    match asked {
        AskedOfBytes::Read { lists } => {
            let room = read_room(bytes, lists);
            let (reply, _) = both.ask(|calls| read(calls, bytes, room))?;
            tally.count(Call::Read, kind_of_file(bytes), reply.number);
        }
        AskedOfBytes::Print => {
            let printed = both.ask(|calls| text(calls.print(bytes)))?;
            let kind = file_behind_query(bytes).map_or(0, kind_of_file);
            tally.count(Call::Print, kind, printed_number(&printed));
        }
    }
    Ok(())
}

/// What lent memory holds before a call: no number is likely to be written
/// over by the same number.
fn lent<T>(length: usize, number: impl Fn(u32) -> T) -> Vec<T> {
    (0..length as u32)
        .map(|i| number(i.wrapping_mul(2_654_435_761) ^ 0x5a5a_a5a5))
        .collect()
}

fn lent_words(length: usize) -> Vec<u16> {
    lent(length, |number| (number >> 16) as u16)
}

/// The bits of single-precision numbers of every kind: minus zero, infinities, what is no
/// number with a payload, quiet or not, what is next to zero, and any other.
fn lent_singles(length: usize) -> Vec<u32> {
    lent(length, |number| match number % 8 {
        0 => 1 << 31,
        1 => 0x7f80_0000 | number & 1 << 31,
        2 => 0x7f80_0001 | number & 0x803f_ffff,
        3 => 0x7fc0_0000 | number & 0x803f_ffff,
        4 => number & 0x807f_ffff,
        _ => number,
    })
}

// Each call below is made with lent memory of a length, and gives back its
// reply with all that memory after it.

fn write(calls: &dyn Calls, plan: &Plan, room: usize) -> (Reply, Vec<u8>) {
    let mut file = lent(room, |number| (number >> 24) as u8);
    (calls.write(plan.lists(), &mut file), file)
}

/// The kind of what is read is the one that the reply says.
fn read(calls: &dyn Calls, file: &[u8], room: [usize; 3]) -> (Reply, Plan) {
    let mut lists = Plan {
        corners: lent(room[0], |number| number as i32),
        cells: lent_words(room[1]),
        doors: lent_words(room[2]),
        kind: 0,
    };
    let reply = calls.read(file, &mut lists.corners, &mut lists.cells, &mut lists.doors);
    let [.., kind, _] = reply.values;
    lists.kind = u16::try_from(kind).unwrap_or(0);
    (reply, lists)
}

fn list(calls: &dyn Calls, scene: &Scene, listing: Listing, room: Room) -> (Reply, Vec<u16>) {
    let mut table = lent_for_listing(scene, room);
    let reply = calls.list(scene.plan.lists(), listing, &mut table);
    (reply, table)
}

/// A table for a listing of the scene, before a call.
fn lent_for_listing(scene: &Scene, room: Room) -> Vec<u16> {
    lent_words(room.length(table_asked(scene)))
}

/// What a call for a morning leaves.
#[derive(Debug, PartialEq)]
struct Left {
    reply: Reply,
    table: Vec<u16>,
    replies: Vec<u64>,
}

fn list_stands(calls: &dyn Calls, scene: &Scene, morning: Morning, room: [Room; 2]) -> Left {
    let (mut table, mut replies) = lent_for_morning(scene, room);
    let (lists, stands) = (scene.plan.lists(), &scene.stands);
    let reply = calls.list_stands(lists, morning, stands, &mut table, &mut replies);
    Left {
        reply,
        table,
        replies,
    }
}

/// A table and replies for the scene's morning, before a call.
fn lent_for_morning(scene: &Scene, [table, replies]: [Room; 2]) -> (Vec<u16>, Vec<u64>) {
    let count = scene.stands.len() / 3;
    (
        lent_words(table.length(count * table_asked(scene))),
        lent(replies.length(3 * count), u64::from),
    )
}

fn change(
    calls: &dyn Calls,
    scene: &Scene,
    given: &[u16],
    shut: bool,
    room: Room,
) -> (Reply, Vec<u16>) {
    let mut table = lent_for_listing(scene, room);
    let asked = DoorChange {
        query: scene.query(),
        given,
        door: scene.door,
        shut,
    };
    (calls.change(scene.plan.lists(), asked, &mut table), table)
}

/// The offsets as bits: what is no number equals nothing.
fn draw(calls: &dyn Calls, scene: &Scene, room: Room) -> (Reply, Vec<u32>) {
    let lent = lent_singles(room.length(offsets_asked(scene)));
    let mut offsets: Vec<f32> = lent.into_iter().map(f32::from_bits).collect();
    let reply = calls.draw(scene.plan.lists(), scene.query(), &mut offsets);
    (reply, offsets.into_iter().map(f32::to_bits).collect())
}

/// The length of the offsets that a drawing asks for.
fn offsets_asked(scene: &Scene) -> usize {
    DRAWN * (scene.plan.corners.len() / 2)
}

/// The length of the table a listing asks for.
fn table_asked(scene: &Scene) -> usize {
    ROW * (scene.plan.corners.len() / 2)
}

/// Lengths of the lent lists; for a broken file, of any small lists.
fn read_room(file: &[u8], rooms: &[Room; 3]) -> [usize; 3] {
    let asked = match paper::decode(file) {
        Ok(plan) => [plan.corners.len(), plan.cells.len(), plan.doors.len()],
        Err(_) => [8, 12, 2],
    };
    [0, 1, 2].map(|i| rooms[i].length(asked[i]))
}

/// The kind of a file's second record, or 0 where there is none.
fn kind_of_file(file: &[u8]) -> u16 {
    let second = paper::take_record(file).and_then(|(_, _, rest)| paper::take_record(rest));
    second.map_or(0, |(kind, ..)| kind)
}

/// The plan file behind the query of an input.
fn file_behind_query(input: &[u8]) -> Option<&[u8]> {
    paper::query(input).map(|(_, _, file)| file)
}

fn text(printed: Vec<u8>) -> String {
    String::from_utf8(printed).unwrap_or_else(|fault| format!("not text: {:?}", fault.as_bytes()))
}

/// The reply number behind what was printed.
fn printed_number(printed: &str) -> u32 {
    match printed.strip_prefix("refused ") {
        Some(rest) => rest
            .split(' ')
            .next()
            .and_then(|number| number.parse().ok())
            .unwrap_or(u32::MAX),
        None => 0,
    }
}

/// The listing of a scene's plan for a query, or the refusal's number.
fn listed(calls: &dyn Calls, scene: &Scene, query: Query) -> Result<Listed, u32> {
    listed_of(list(calls, scene, query.without_ceiling(), Room::Exact))
}

fn listed_of((reply, table): (Reply, Vec<u16>)) -> Result<Listed, u32> {
    if reply.number != 0 {
        return Err(reply.number);
    }
    let (rows, _) = table.as_chunks::<ROW>();
    let count = (reply.values[0] as usize).min(rows.len());
    Ok(Listed {
        rows: rows[..count].to_vec(),
        crossings: reply.values[1],
    })
}

/// What a listing up to a ceiling leaves is what the one without it does, or the
/// refusal and the table as it was lent, exactly where that one has more crossings.
fn up_to(
    scene: &Scene,
    most: u64,
    left: (Reply, Vec<u16>),
    room: Room,
    both: Both<'_>,
    tally: &mut Tally,
) -> Outcome {
    let all = list(both.right, scene, scene.query().without_ceiling(), room);
    let (Reply { number, values, .. }, _) = all;
    let [_, crossings, ..] = values;
    let expected = if number == 0 && crossings > most {
        (Refusal::Ceiling.into(), lent_for_listing(scene, room))
    } else {
        all
    };
    same(left, expected)?;
    let ceilings = &mut tally.ceilings;
    if number == 0 {
        ceilings.equal += u64::from(crossings == most);
        ceilings.one_more += u64::from(crossings.checked_sub(1) == Some(most));
        ceilings.one_fewer += u64::from(crossings + 1 == most);
    }
    if number == 0 && crossings > most || number == Refusal::Room.number() {
        count_exceeding(scene, most, number == 0, ceilings)?;
    }
    Ok(())
}

/// Counts a listing that may have more crossings than a ceiling, by what else it could
/// be taken for.
fn count_exceeding(scene: &Scene, most: u64, has_room: bool, ceilings: &mut Ceilings) -> Outcome {
    let floor = Floor::check(scene.plan.lists()).map_err(wrongly_listed)?;
    let view = View::new(&floor, scene.query()).map_err(wrongly_listed)?;
    let cells = view.crossings_around();
    let exceeds = |crossings: u64| crossings > most;
    if !has_room {
        ceilings.without_room += u64::from(exceeds(cells.iter().flatten().sum()));
        return Ok(());
    }
    let by_side = cells.iter().flatten().any(|&side| exceeds(side));
    let by_cell = cells.iter().any(|cell| exceeds(cell.iter().sum()));
    ceilings.by_sides += u64::from(!by_side);
    ceilings.by_cells += u64::from(!by_cell);
    Ok(())
}

/// What a drawing leaves is the listing's reply with the offsets of its rows' limits; or its
/// refusal, or that of a limit that is too far, and the offsets as they were lent.
fn drawn(
    scene: &Scene,
    left: (Reply, Vec<u32>),
    room: Room,
    both: Both<'_>,
    tally: &mut Tally,
) -> Outcome {
    let listing = scene.query().without_ceiling();
    let (reply, table) = both.ask(|calls| list(calls, scene, listing, room))?;
    let mut offsets = lent_singles(room.length(offsets_asked(scene)));
    let refused = reply.number;
    if refused == 0 || refused == Refusal::Room.number() {
        let floor = Floor::check(scene.plan.lists()).map_err(wrongly_listed)?;
        let view = View::new(&floor, scene.query()).map_err(wrongly_listed)?;
        count_drawing(&floor, &view, refused == 0, &mut tally.drawings);
        let q = view.stand();
        let rows = listed_of((reply, table)).map_or(Vec::new(), |listed| listed.rows);
        let limits = rows.iter().flat_map(|&row| paper::limits(&floor, q, row));
        let limits: Vec<Offset> = limits.collect();
        if limits.iter().any(|limit| limit.is_far()) {
            return same(left, (Refusal::Far.into(), offsets)).map(drop);
        }
        let singles = limits.iter().flat_map(|limit| [limit.x, limit.y]);
        let bits: Vec<u32> = singles.map(single_bits).collect();
        put(&mut offsets, &bits);
    }
    same(left, (reply, offsets)).map(drop)
}

/// The bits of a whole number as one of single precision, put together by hand: a sign,
/// how many bits it has, and those after the first.
fn single_bits(number: i64) -> u32 {
    let size = number.unsigned_abs();
    let Some(last) = size.checked_ilog2() else {
        return 0;
    };
    let after_first = (size << 24 >> (last + 1)) as u32 & 0x7f_ffff;
    u32::from(number < 0) << 31 | (127 + last) << 23 | after_first
}

/// Counts a drawing by how far its rows' limits are, and by what else could be taken for
/// that.
fn count_drawing(floor: &Floor, view: &View<'_>, has_room: bool, drawings: &mut Drawings) {
    let (rows, q) = (view.list().rows, view.stand());
    let far = |offset: &Offset| offset.x.abs().max(offset.y.abs());
    let of_rows = |is_meant: fn(&&Row) -> bool| -> Vec<Offset> {
        let rows = rows.iter().filter(is_meant);
        rows.flat_map(|&row| paper::limits(floor, q, row)).collect()
    };
    let limits = of_rows(|_| true);
    let farthest = limits.iter().map(far).max().unwrap_or(0);
    let is_far = |offset: Offset| offset.is_far();
    if farthest > MOST_OFFSET && !has_room {
        drawings.without_room += 1;
    } else if farthest > MOST_OFFSET {
        drawings.one_beyond += u64::from(farthest == MOST_OFFSET + 1);
        drawings.two_beyond += u64::from(farthest == MOST_OFFSET + 2);
        let in_x = limits.iter().any(|&limit| is_far(Offset { y: 0, ..limit }));
        let in_y = limits.iter().any(|&limit| is_far(Offset { x: 0, ..limit }));
        drawings.by_x += u64::from(!in_y);
        drawings.by_y += u64::from(!in_x);
        let in_reach = of_rows(|row| row[3] == 0);
        drawings.out_of_reach += u64::from(!in_reach.into_iter().any(is_far));
        drawings.from_sides += u64::from(is_on_side(view));
    } else if has_room {
        let has_zero = |limit: &Offset| limit.x == 0 || limit.y == 0;
        drawings.zeros += u64::from(limits.iter().any(has_zero));
        drawings.farthest += u64::from(farthest == MOST_OFFSET);
        let mut corners = floor.corners().iter();
        drawings.unnamed += u64::from(corners.any(|&corner| is_far(Offset::new(q, corner))));
        let mut ends = rows.iter().flat_map(|row| floor.ends(row[0]));
        let end_is_far = |end: u16| is_far(Offset::new(q, floor.corner(end)));
        drawings.ends += u64::from(ends.any(end_is_far));
    }
}

/// What single calls give for a morning, stand by stand: their rows one after
/// another, their replies and counts, and the sums.
fn single_calls(calls: &dyn Calls, scene: &Scene, morning: Morning, room: [Room; 2]) -> Left {
    let (mut rows, mut own, mut crossings) = (Vec::new(), Vec::new(), 0);
    let (stands, _) = scene.stands.as_chunks();
    for &numbers in stands {
        match single_call(calls, scene, morning, numbers) {
            Ok(listed) => {
                own.push([0, listed.rows.len() as u64, listed.crossings]);
                crossings += listed.crossings;
                rows.extend(listed.rows);
            }
            Err(number) => own.push([number.into(), 0, 0]),
        }
    }
    let (mut table, mut replies) = lent_for_morning(scene, room);
    put(&mut table, rows.as_flattened());
    put(&mut replies, own.as_flattened());
    Left {
        reply: Reply::done([rows.len() as u64, crossings]),
        table,
        replies,
    }
}

/// The listing of one stand, given by three numbers, or the refusal's number.
fn single_call(
    calls: &dyn Calls,
    scene: &Scene,
    morning: Morning,
    numbers: [f64; 3],
) -> Result<Listed, u32> {
    let stand = paper::stand_of(numbers).ok_or(Refusal::Stand.number())?;
    listed_of(list(calls, scene, morning.listing(stand), Room::Exact))
}

/// Puts numbers at the beginning of lent memory, as far as it goes.
fn put<T: Copy>(lent: &mut [T], numbers: &[T]) {
    let length = numbers.len().min(lent.len());
    lent[..length].copy_from_slice(&numbers[..length]);
}

/// Reading what was written returns the lists, and writing what was read
/// returns the bytes.
fn round_trip(plan: &Plan, both: Both<'_>) -> Outcome {
    let room = paper::encode(plan.lists()).len();
    let (reply, file) = both.ask(|calls| write(calls, plan, room))?;
    if reply.number != 0 {
        return Ok(());
    }
    let lengths = [plan.corners.len(), plan.cells.len(), plan.doors.len()];
    let (_, lists) = both.ask(|calls| read(calls, &file, lengths))?;
    same(plan, &lists)?;
    let (_, again) = both.ask(|calls| write(calls, &lists, room))?;
    same(file, again)?;
    Ok(())
}

/// What a call on a plan of triangles leaves is the same in either kind: for
/// the check, finding, the listing, a morning, the door change and a drawing. One of
/// the implementors is asked in each.
fn either_kind(
    scene: &Scene,
    shut: bool,
    given: Given,
    ceiling: Ceiling,
    both: Both<'_>,
    tally: &mut Tally,
) -> Outcome {
    let Some(plan) = in_other_kind(&scene.plan) else {
        return Ok(());
    };
    let other = &Scene {
        plan,
        ..scene.clone()
    };
    let given = given.numbers(scene);
    let (listing, morning) = (scene.listing(ceiling), scene.morning(ceiling));
    let room = Room::Exact;
    let ask = |calls: &dyn Calls, scene: &Scene| {
        (
            calls.check(scene.plan.lists()),
            calls.find(scene.plan.lists(), scene.setting, scene.stand),
            list(calls, scene, listing, room),
            list_stands(calls, scene, morning, [room; 2]),
            change(calls, scene, &given, shut, room),
            draw(calls, scene, room),
        )
    };
    same(ask(both.left, scene), ask(both.right, other))?;
    tally.either += 1;
    Ok(())
}

fn demand_2(scene: &Scene, directions: &[Direction], both: Both<'_>, tally: &mut Tally) -> Outcome {
    let Ok(listed) = both.ask(|calls| listed(calls, scene, scene.query()))? else {
        return Ok(());
    };
    tally.rows += listed.rows.len() as u64;
    tally.crossings += listed.crossings;
    let floor = Floor::check(scene.plan.lists()).map_err(wrongly_listed)?;
    let view = View::new(&floor, scene.query()).map_err(wrongly_listed)?;
    within_bounds(&floor, view.place(), &listed)?;
    for row in &listed.rows {
        let far = u16::from(!view.is_in_reach(row[0]));
        same(far, row[3])?;
        tally.reaches.rows += u64::from(far);
    }
    for &d in directions {
        if !view.meets_corner(d) {
            held_once(&view, &listed.rows, d)?;
            tally.directions += 1;
            tally.sides.directions += u64::from(is_on_side(&view));
        }
    }
    Ok(())
}

fn is_on_side(view: &View<'_>) -> bool {
    matches!(view.place(), Place::Within(_))
}

fn wrongly_listed(refusal: Refusal) -> String {
    format!("listed, where the paper program has {refusal:?}")
}

/// Rows never outnumber corners; crossings never exceed rows times the cells that
/// are not entered at the stand: all but one, or from a side all but two.
fn within_bounds(floor: &Floor, place: Place, listed: &Listed) -> Outcome {
    let (corners, cells) = (floor.corners().len(), floor.cell_count());
    let (rows, crossings) = (listed.rows.len(), listed.crossings);
    let entered = match place {
        Place::Inside(_) => 1,
        Place::Within(_) => 2,
    };
    if rows > corners || crossings > (rows * (cells - entered)) as u64 {
        return Err(format!(
            "{rows} rows, {crossings} crossings with {corners} corners, {cells} cells, from {place:?}"
        ));
    }
    Ok(())
}

fn held_once(view: &View<'_>, rows: &[Row], d: Direction) -> Outcome {
    let holding: Vec<&Row> = rows
        .iter()
        .filter(|[_, right, left, _]| view.between(*right, d, *left))
        .collect();
    let end = view.walk(d).map(|walk| walk.end);
    match holding[..] {
        [row] if Some(row[0]) == end => Ok(()),
        _ => Err(format!(
            "{d:?} is held by the rows {holding:?}, and walks to the face {end:?}"
        )),
    }
}

/// The door change gives what a fresh listing gives, and what the paper's
/// routes and runs give; out of reach a door's change changes nothing. From a side it
/// is refused for a door there.
fn demand_3(scene: &Scene, both: Both<'_>, tally: &mut Tally) -> Outcome {
    let Ok(before) = both.ask(|calls| listed(calls, scene, scene.query()))? else {
        return Ok(());
    };
    if scene.door >= scene.plan.doors.len() {
        return Ok(());
    }
    let query = Query {
        setting: scene.setting ^ 1 << scene.door,
        ..scene.query()
    };
    let shut = query.setting >> scene.door & 1 == 1;
    let given = before.rows.as_flattened();
    let change_to =
        |shut| both.ask(|calls| listed_of(change(calls, scene, given, shut, Room::Exact)));
    let floor = Floor::check(scene.plan.lists()).map_err(wrongly_listed)?;
    let old = View::new(&floor, scene.query()).map_err(wrongly_listed)?;
    if old.is_in_doorway(scene.door) {
        let refused = Err(Refusal::Line.number());
        same(change_to(shut)?, refused.clone()).map(drop)?;
        same(change_to(!shut)?, refused).map(drop)?;
        tally.sides.own_doors += 1;
        return Ok(());
    }
    let new = View::new(&floor, query).map_err(wrongly_listed)?;
    same(old.place(), new.place())?;
    let fresh = both.ask(|calls| listed(calls, scene, query))?;
    let faces = floor.door_faces(scene.door);
    let by_runs = paper::change_by_runs(&old, &new, &before.rows, faces, shut);
    same(&fresh, &Ok(by_runs))?;
    if !old.is_in_reach(faces[0]) {
        same(&fresh, &Ok(before.clone()))?;
    }
    same(fresh, change_to(shut)?).map(drop)?;
    tally.changes += 1;
    tally.sides.changes += u64::from(is_on_side(&old));
    let has_row = |&[face, _, _, far]: &Row| far == 1 && faces.contains(&face);
    tally.reaches.changes += u64::from(before.rows.iter().any(has_row));
    Ok(())
}

/// The rows of a listing in those of one with a reach that is as long or longer: a row
/// in reach is there as it is; a row out of reach is one or more, which go on from its
/// right limit to its left one. Where no reach is stated nothing is out of it.
fn longer(scene: &Scene, reach: Reach, both: Both<'_>, tally: &mut Tally) -> Outcome {
    let is_longer = match (scene.reach, reach) {
        (_, Reach::NotStated) => true,
        (Reach::Stated(near), Reach::Stated(far)) => near <= far,
        (Reach::NotStated, Reach::Stated(_)) => false,
    };
    if !is_longer {
        return Ok(());
    }
    let query = Query {
        reach,
        ..scene.query()
    };
    let near = both.ask(|calls| listed(calls, scene, scene.query()))?;
    let far = both.ask(|calls| listed(calls, scene, query))?;
    let (Ok(near), Ok(far)) = (near, far) else {
        return Ok(());
    };
    if !refines(&near.rows, &far.rows) || far.crossings < near.crossings {
        return Err(format!("{near:?}\nwith {reach:?}: {far:?}"));
    }
    let is_far = |row: &Row| row[3] != 0;
    if reach == Reach::NotStated && far.rows.iter().any(is_far) {
        return Err(format!("out of no reach: {far:?}"));
    }
    tally.reaches.longer += u64::from(scene.reach.is_stated());
    tally.reaches.further += u64::from(far.crossings > near.crossings);
    Ok(())
}

/// Whether rows with a longer reach are these, each out of reach as one or more.
fn refines(near: &[Row], far: &[Row]) -> bool {
    let mut rest = far.iter();
    let mut is_kept = |&[face, right, left, mark]: &Row| {
        let Some(first) = rest.next() else {
            return false;
        };
        if mark == 0 {
            return *first == [face, right, left, 0];
        }
        let mut last = first;
        while last[2] != left {
            match rest.next() {
                Some(next) if next[1] == last[2] => last = next,
                _ => return false,
            }
        }
        first[1] == right
    };
    near.iter().all(&mut is_kept) && rest.next().is_none()
}
