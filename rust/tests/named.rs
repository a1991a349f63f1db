//! The named cases: each reply is the one the documents give, of the paper
//! program and of the proved library, and both leave the same lent memory. No query
//! here states a reach or a ceiling; `reach.rs` and `ceiling.rs` have those that do.

use manopluea_compare::both::{both, FILL};
use manopluea_compare::calls::{
    DoorChange, Lists, Morning, Plan, Query, Reply, Stand, POINT, POLYGONS, ROW, TRIANGLES, WALL,
};
use manopluea_compare::examples::{
    all, hall, one_cell, plan_q, plan_q_as_one_cell, polygons, row_of_cells, widest, Example,
};
use manopluea_compare::generate::{
    fullest, in_other_kind, largest, longest_fans, longest_lists, most_splits, query_record, Dice,
};
use manopluea_compare::paper::{cut_cells, encode};

/// The end of the coordinate range.
const LIMIT: i32 = 536_870_912;

fn find_under(plan: &Plan, setting: u64, stand: Stand) -> Reply {
    both(|calls| calls.find(plan.lists(), setting, stand))
}

/// With every door open.
fn find(plan: &Plan, stand: Stand) -> Reply {
    find_under(plan, 0, stand)
}

fn list(plan: &Plan, setting: u64, stand: Stand, room: usize) -> (Reply, Vec<u16>) {
    both(|calls| {
        let mut table = vec![u16::from(FILL); room];
        let listing = Query::without_reach(setting, stand).without_ceiling();
        (calls.list(plan.lists(), listing, &mut table), table)
    })
}

/// Rows of these lines. With no reach stated, each is in reach.
fn in_reach(lines: &[[u16; 3]]) -> Vec<u16> {
    let rows = lines.iter();
    rows.flat_map(|&[face, right, left]| [face, right, left, 0])
        .collect()
}

/// Reads into lists of these lengths, whose kind becomes the one that is read; a
/// refusal leaves them as they were.
fn read(file: &[u8], [n, m, k]: [usize; 3]) -> (Reply, Plan) {
    let before = Plan {
        corners: vec![i32::from(FILL); n],
        cells: vec![u16::from(FILL); m],
        doors: vec![u16::from(FILL); k],
        kind: 0,
    };
    let (reply, lists) = both(|calls| {
        let mut lists = before.clone();
        let reply = calls.read(file, &mut lists.corners, &mut lists.cells, &mut lists.doors);
        lists.kind = reply.values[3] as u16;
        (reply, lists)
    });
    if reply.number != 0 {
        assert_eq!(lists, before, "a refusal wrote");
    }
    (reply, lists)
}

fn write(plan: &Plan, room: usize) -> (Reply, Vec<u8>) {
    let before = vec![FILL; room];
    let (reply, file) = both(|calls| {
        let mut file = before.clone();
        (calls.write(plan.lists(), &mut file), file)
    });
    if reply.number != 0 {
        assert_eq!(file, before, "a refusal wrote");
    }
    (reply, file)
}

/// The reader's reply for a plan that passes the check with this one.
fn read_reply(checked: Reply, plan: &Plan) -> Reply {
    let [corners, cells, doors, ..] = checked.values;
    let numbers = plan.cells.len() as u64;
    Reply::done([corners, cells, doors, plan.kind.into(), numbers])
}

/// The check's reply, which finding, the writer and the reader share where it
/// is a refusal of the plan.
fn check(plan: &Plan) -> Reply {
    let reply = both(|calls| calls.check(plan.lists()));
    let file = encode(plan.lists());
    assert_eq!(write(plan, file.len()).0, reply, "writer");
    if reply.number == 0 {
        assert_eq!(write(plan, file.len()).1, file);
    } else {
        let stand = Stand::Point(f64::NAN, 0.0);
        assert_eq!(find_under(plan, !0, stand), reply, "finding");
    }
    let lengths = [plan.corners.len(), plan.cells.len(), plan.doors.len()];
    let (read, lists) = read(&file, lengths);
    if reply.number == 0 {
        assert_eq!(read, read_reply(reply, plan), "reader");
        assert_eq!(lists, *plan);
    } else {
        assert_eq!(read, reply, "reader");
    }
    reply
}

/// So many cells between walls, all on one place, and so many corners.
fn stack(corners: usize, cells: usize) -> Plan {
    let mut plan = Plan {
        corners: vec![0, 0, 9, 0, 0, 9],
        cells: [0, 1, 2, WALL, WALL, WALL].repeat(cells),
        doors: vec![],
        kind: TRIANGLES,
    };
    plan.corners.resize(2 * corners, 0);
    plan
}

/// A straight strip of so many cells, with a door on each of the first lines.
/// Corner i lies on the lower wall where i is even; line i is face 3i + 1.
fn strip(cells: u16, doors: u16) -> Plan {
    let corners = (0..i32::from(cells) + 2).flat_map(|i| [10 * i, 100 * (i % 2)]);
    let cell = |i: u16| {
        let before = if i == 0 { WALL } else { i - 1 };
        let after = if i + 1 == cells { WALL } else { i + 1 };
        if i.is_multiple_of(2) {
            [i, i + 2, i + 1, WALL, after, before]
        } else {
            [i, i + 1, i + 2, before, after, WALL]
        }
    };
    Plan {
        corners: corners.collect(),
        cells: (0..cells).flat_map(cell).collect(),
        doors: (0..doors).map(|i| 3 * i + 1).collect(),
        kind: TRIANGLES,
    }
}

/// A plan of triangles in the other kind.
fn other_kind(plan: &Plan) -> Plan {
    in_other_kind(plan).expect("it is of triangles")
}

#[test]
fn coordinates_at_the_limit_and_beyond() {
    for (at, corner) in [(2, 1), (4, 2), (5, 2), (7, 3)] {
        let mut plan = plan_q();
        plan.corners[at] = LIMIT;
        assert_eq!(check(&plan), Reply::done([4, 2, 1]), "number {at}");
        plan.corners[at] = LIMIT + 1;
        assert_eq!(check(&plan), Reply::refused(3, corner), "number {at}");
    }
    for at in [0, 1] {
        let mut plan = plan_q();
        plan.corners[at] = -LIMIT;
        assert_eq!(check(&plan), Reply::done([4, 2, 1]), "number {at}");
        plan.corners[at] = -LIMIT - 1;
        assert_eq!(check(&plan), Reply::refused(3, 0), "number {at}");
    }
    for beyond in [i32::MIN, i32::MAX] {
        let mut plan = plan_q();
        plan.corners[6] = beyond;
        assert_eq!(check(&plan), Reply::refused(3, 3));
        plan.corners[3] = beyond;
        assert_eq!(check(&plan), Reply::refused(3, 1));
    }
}

#[test]
fn cells_on_their_back_flat_or_of_missing_corners() {
    for (cell, corners, place) in [
        (0, [0, 2, 1], 0),
        (0, [0, 1, 0], 0),
        (0, [0, 1, 4], 0),
        (1, [0, 3, 2], 1),
        (1, [0, 2, WALL], 1),
    ] {
        let mut plan = plan_q();
        plan.cells[6 * cell..6 * cell + 3].copy_from_slice(&corners);
        assert_eq!(check(&plan), Reply::refused(4, place), "{corners:?}");
    }
}

#[test]
fn neighbours_that_do_not_answer() {
    for (at, neighbour, face) in [
        // Itself, a missing cell, and the number before wall.
        (5, 0, 2),
        (5, 2, 2),
        (5, WALL - 1, 2),
        // A cell that has no such side reversed.
        (3, 1, 0),
        (10, 0, 4),
        // A wall whose other side still names this cell.
        (5, WALL, 3),
        (9, WALL, 2),
    ] {
        let mut plan = plan_q();
        plan.cells[at] = neighbour;
        assert_eq!(check(&plan), Reply::refused(5, face), "{neighbour} at {at}");
    }
}

#[test]
fn doors_that_are_wrong() {
    let reply = |doors: &[u16]| {
        let mut plan = plan_q();
        plan.doors = doors.to_vec();
        check(&plan)
    };
    assert_eq!(reply(&[]), Reply::done([4, 2, 0]));
    assert_eq!(reply(&[2]), Reply::done([4, 2, 1]));
    assert_eq!(reply(&[3]), Reply::done([4, 2, 1]));
    // Named twice, from the other face, on a wall, beyond the faces.
    assert_eq!(reply(&[2, 2]), Reply::refused(6, 1));
    assert_eq!(reply(&[2, 3]), Reply::refused(6, 1));
    assert_eq!(reply(&[3, 2]), Reply::refused(6, 1));
    assert_eq!(reply(&[2, 0]), Reply::refused(6, 1));
    assert_eq!(reply(&[0, 2, 3]), Reply::refused(6, 0));
    assert_eq!(reply(&[6]), Reply::refused(6, 0));
    assert_eq!(reply(&[WALL]), Reply::refused(6, 0));
}

#[test]
fn counts_at_each_limit_and_beyond() {
    let reply = |corners, cells| check(&stack(corners, cells));
    assert_eq!(reply(3, 1), Reply::done([3, 1, 0]));
    assert_eq!(reply(2_048, 1), Reply::done([2_048, 1, 0]));
    let largest = check(&largest(0, &mut Dice::new(1)).plan(&[]));
    assert_eq!(largest, Reply::done([2_048, 3_000, 0]));
    // Of so many, but all in the same place.
    assert_eq!(reply(3, 3_000), Reply::refused(17, 0));
    assert_eq!(reply(2_048, 3_000), Reply::refused(17, 0));
    for (corners, cells) in [
        (0, 1),
        (2, 1),
        (2_049, 1),
        (3, 0),
        (3, 3_001),
        (20_000, 9_000),
    ] {
        let reply = reply(corners, cells);
        assert_eq!(
            reply,
            Reply::refused(2, 0),
            "{corners} corners, {cells} cells"
        );
    }
    let doors = |count| check(&strip(100, count));
    assert_eq!(doors(0), Reply::done([102, 100, 0]));
    assert_eq!(doors(64), Reply::done([102, 100, 64]));
    assert_eq!(doors(65), Reply::refused(2, 0));
}

#[test]
fn lists_that_are_no_multiples() {
    for cut in 1..6 {
        let mut plan = plan_q();
        plan.cells.truncate(12 - cut);
        assert_eq!(check(&plan), Reply::refused(1, 0));
        // The frame comes before the size.
        plan.doors = vec![2; 65];
        assert_eq!(check(&plan), Reply::refused(1, 0));
    }
    let mut plan = plan_q();
    plan.corners.pop();
    assert_eq!(check(&plan), Reply::refused(1, 0));
    for kind in [TRIANGLES, POLYGONS] {
        let empty = Plan {
            corners: vec![],
            cells: vec![],
            doors: vec![],
            kind,
        };
        assert_eq!(check(&empty), Reply::refused(2, 0));
    }
}

#[test]
fn plan_q_cut_at_every_length() {
    let file = encode(plan_q().lists());
    assert_eq!(file.len(), 76);
    for end in 0..file.len() {
        let (reply, _) = read(&file[..end], [8, 12, 1]);
        assert_eq!(reply, Reply::refused(1, 0), "cut at {end}");
    }
    let done = Reply::done([4, 2, 1, TRIANGLES.into(), 12]);
    assert_eq!(read(&file, [8, 12, 1]), (done, plan_q()));
}

#[test]
fn plan_q_with_every_byte_changed() {
    let file = encode(plan_q().lists());
    let (mut changed, mut taken) = (0, 0);
    for at in 0..file.len() {
        let flips = (0..8).map(|bit| file[at] ^ 1 << bit);
        for byte in flips.chain([0, 255]) {
            let mut other = file.clone();
            other[at] = byte;
            // Room for more than is there, for as much, and for less.
            for room in [[20, 40, 9], [8, 12, 1], [7, 12, 1], [8, 11, 1], [8, 12, 0]] {
                let (reply, lists) = read(&other, room);
                if reply.number == 0 {
                    let plan = Plan {
                        corners: lists.corners[..8].to_vec(),
                        cells: lists.cells[..12].to_vec(),
                        doors: lists.doors[..1].to_vec(),
                        kind: lists.kind,
                    };
                    assert_eq!(write(&plan, other.len()).1, other, "byte {at} is {byte}");
                    taken += 1;
                }
                changed += 1;
            }
        }
    }
    assert_eq!(changed, 76 * 10 * 5);
    assert!(taken > 300, "{taken}");
}

#[test]
fn files_with_wrong_frames() {
    let file = encode(plan_q().lists());
    let room = [8, 12, 1];
    // The three records begin at 0, 38 and 68.
    let records = [&file[..38], &file[38..68], &file[68..]];
    for at in [0, 38, 68] {
        for length in [u32::MAX, u32::MAX - 5, 0x8000_0000, 0x7fff_ffff] {
            let mut other = file.clone();
            other[at..at + 4].copy_from_slice(&length.to_le_bytes());
            assert_eq!(
                read(&other, room).0,
                Reply::refused(1, 0),
                "{length} at {at}"
            );
        }
    }
    for extra in [1, 2, 6, 8] {
        let longer = [file.clone(), vec![0; extra]].concat();
        assert_eq!(
            read(&longer, room).0,
            Reply::refused(1, 0),
            "{extra} too many"
        );
    }
    for order in [
        vec![0, 2, 1],
        vec![1, 0, 2],
        vec![1, 2, 0],
        vec![2, 0, 1],
        vec![2, 1, 0],
        vec![0, 1],
        vec![0, 1, 2, 2],
        vec![0, 0, 1, 2],
        vec![],
    ] {
        let other: Vec<u8> = order.iter().flat_map(|&i| records[i]).copied().collect();
        assert_eq!(read(&other, room).0, Reply::refused(1, 0), "{order:?}");
    }
    // Bodies that are no multiples of 8, 12 and 2.
    for (at, body, by) in [(0, 32, 4), (38, 24, 6), (68, 2, 1)] {
        let mut other = file.clone();
        other.splice(at + 6..at + 6 + by, []);
        other[at] = (body - by) as u8;
        assert_eq!(read(&other, room).0, Reply::refused(1, 0), "body at {at}");
    }
    // Bodies of no bytes: no doors are right, no corners are too few.
    let no_doors = [records[0], records[1], &[0, 0, 0, 0, 3, 0]].concat();
    let done = Reply::done([4, 2, 0, TRIANGLES.into(), 12]);
    assert_eq!(read(&no_doors, room).0, done);
    let no_corners = [&[0, 0, 0, 0, 1, 0], records[1], records[2]].concat();
    assert_eq!(read(&no_corners, room).0, Reply::refused(2, 0));
}

#[test]
fn room_for_the_reader_the_writer_and_the_listing() {
    let file = encode(plan_q().lists());
    for room in [[7, 12, 1], [8, 11, 1], [8, 12, 0], [0, 0, 0]] {
        assert_eq!(read(&file, room).0, Reply::refused(11, 0), "{room:?}");
    }
    let done = Reply::done([4, 2, 1, TRIANGLES.into(), 12]);
    assert_eq!(read(&file, [9, 14, 3]).0, done);
    for room in [0, 1, 75] {
        assert_eq!(write(&plan_q(), room).0, Reply::refused(11, 0), "{room}");
    }
    let (reply, longer) = write(&plan_q(), 80);
    assert_eq!(reply, Reply::done([4, 2, 1]));
    assert_eq!(longer, [file, vec![FILL; 4]].concat());
    let beside = Stand::Point(6.0, 3.0);
    for room in [0, 12, 15] {
        let fill = vec![u16::from(FILL); room];
        assert_eq!(
            list(&plan_q(), 1, beside, room),
            (Reply::refused(11, 0), fill)
        );
    }
    let (reply, table) = list(&plan_q(), 1, beside, 17);
    assert_eq!(reply, Reply::done([3, 0, 0]));
    let fill = u16::from(FILL);
    let seen = in_reach(&[[0, 0, 1], [1, 1, 2], [2, 2, 0]]);
    assert_eq!(table, [seen, vec![fill; 5]].concat());
    // The stand comes before the room.
    let corner = Stand::Point(0.0, 0.0);
    assert_eq!(list(&plan_q(), 1, corner, 15).0, Reply::refused(9, 0));
}

#[test]
fn settings_with_high_bits() {
    let beside = Stand::Point(10.0, 1.0);
    let bit = 1 << 63;
    // The door on line 63 is shut, and nothing is seen behind it.
    let (reply, _) = list(&strip(100, 64), bit, beside, 408);
    assert_eq!(reply, Reply::done([66, 63, 0]));
    assert_eq!(
        list(&strip(100, 64), 0, beside, 408).0,
        Reply::done([102, 99, 0])
    );
    assert_eq!(
        list(&strip(100, 64), !0, beside, 408).0,
        Reply::done([3, 0, 0])
    );
    for (doors, setting) in [(63, bit), (63, !0), (0, 1), (0, bit), (1, 2), (62, 1 << 62)] {
        let (reply, _) = list(&strip(100, doors), setting, beside, 408);
        assert_eq!(
            reply,
            Reply::refused(7, 0),
            "{doors} doors, setting {setting:#x}"
        );
    }
    // The setting comes before the stand, and after the plan.
    let nowhere = Stand::Point(f64::NAN, 0.5);
    assert_eq!(
        list(&strip(100, 63), bit, nowhere, 0).0,
        Reply::refused(7, 0)
    );
    assert_eq!(
        list(&strip(100, 65), bit, nowhere, 0).0,
        Reply::refused(2, 0)
    );
}

#[test]
fn finding_is_given_the_setting() {
    let beside = Stand::Point(10.0, 1.0);
    let bit = 1 << 63;
    for setting in [0, 1, bit, !0] {
        let reply = find_under(&strip(100, 64), setting, beside);
        assert_eq!(reply, Reply::done([0]), "{setting:#x}");
    }
    // It comes before the stand, whatever that is, and after the plan.
    for stand in [
        beside,
        Stand::Point(f64::NAN, 0.5),
        Stand::Point(20.0, 0.0),
        Stand::Point(0.0, 900.0),
        Stand::Point(15.0, 50.0),
        Stand::Offset(65_535, 1.0, 1.0),
    ] {
        for (doors, setting) in [(63, bit), (63, !0), (0, 1), (0, bit), (1, 2), (62, 1 << 62)] {
            let reply = find_under(&strip(100, doors), setting, stand);
            assert_eq!(reply, Reply::refused(7, 0), "{doors}, {setting:#x}");
        }
        let reply = find_under(&strip(100, 65), bit, stand);
        assert_eq!(reply, Reply::refused(2, 0));
    }
}

/// Numbers, and whether each is accepted as millimetres.
fn numbers() -> Vec<(f64, bool)> {
    let limit = f64::from(LIMIT);
    let mut numbers = vec![
        (0.0, true),
        (-0.0, true),
        (f64::NAN, false),
        (-f64::NAN, false),
    ];
    for sign in [1.0, -1.0] {
        for (number, accepted) in [
            (0.5, false),
            (1.0, true),
            (limit, true),
            (limit + 1.0, false),
            (limit - 1.0, true),
            (limit.next_up(), false),
            (limit.next_down(), false),
            ((limit + 1.0).next_up(), false),
            ((limit + 1.0).next_down(), false),
            (limit + 0.5, false),
            (1.0f64.next_up(), false),
            (1.0f64.next_down(), false),
            (4_503_599_627_370_495.5, false),
            (9_007_199_254_740_992.0, false),
            (9_223_372_036_854_775_808.0, false),
            (18_446_744_073_709_551_616.0, false),
            (1e300, false),
            (f64::MAX, false),
            (f64::MIN_POSITIVE, false),
            (f64::from_bits(1), false),
            (f64::INFINITY, false),
        ] {
            numbers.push((sign * number, accepted));
        }
    }
    // NaNs of every kind: quiet, signalling, with a sign, with other bits.
    for bits in [
        0x7ff0_0000_0000_0001,
        0x7fff_ffff_ffff_ffff,
        0xfff4_0000_0000_0000,
    ] {
        numbers.push((f64::from_bits(bits), false));
    }
    numbers
}

#[test]
fn numbers_of_a_stand() {
    let plan = plan_q();
    for (number, accepted) in numbers() {
        for stand in [
            Stand::Point(number, 3.0),
            Stand::Point(6.0, number),
            Stand::Point(number, number),
            Stand::Offset(0, number, 3.0),
            Stand::Offset(0, 6.0, number),
        ] {
            let reply = find(&plan, stand);
            assert_eq!(reply.number != 8, accepted, "{stand:?}");
            let (listed, _) = list(&plan, 0, stand, 16);
            assert_eq!(
                (listed.number, listed.place),
                (reply.number, 0),
                "{stand:?}"
            );
        }
    }
    // Minus zero reads as 0; both are on the wall below.
    assert_eq!(find(&plan, Stand::Point(6.0, -0.0)), Reply::refused(9, 0));
    assert_eq!(find(&plan, Stand::Point(6.0, 0.0)), Reply::refused(9, 0));
}

#[test]
fn offsets() {
    let limit = f64::from(LIMIT);
    let plan = widest();
    let reply = |corner, dx, dy| find(&plan, Stand::Offset(corner, dx, dy));
    assert_eq!(reply(2, -1.0, -2.0), Reply::done([0, 0, 0]));
    assert_eq!(reply(2, -2.0, -1.0), Reply::done([1, 0, 0]));
    // The sum passes a limit by one; the offset alone does.
    assert_eq!(reply(2, 1.0, -2.0), Reply::refused(8, 0));
    assert_eq!(reply(2, -2.0, 1.0), Reply::refused(8, 0));
    assert_eq!(reply(0, -1.0, 2.0), Reply::refused(8, 0));
    assert_eq!(reply(0, 2.0, -1.0), Reply::refused(8, 0));
    assert_eq!(reply(0, limit + 1.0, 5.0), Reply::refused(8, 0));
    assert_eq!(reply(2, -limit - 1.0, -5.0), Reply::refused(8, 0));
    // At the limits themselves.
    assert_eq!(reply(0, limit, limit), Reply::done([0, 1, 2]));
    assert_eq!(reply(2, -limit, -limit + 1.0), Reply::done([1, 0, 0]));
    assert_eq!(reply(0, 0.0, -0.0), Reply::refused(9, 0));
    // The corner is the count, or 65,535.
    assert_eq!(reply(3, 1.0, -2.0), Reply::done([1, 0, 0]));
    assert_eq!(reply(4, 1.0, -2.0), Reply::refused(8, 0));
    assert_eq!(reply(65_535, 1.0, -2.0), Reply::refused(8, 0));
    // A corner in no cell, at the edge.
    let mut plan = plan_q();
    plan.corners.extend([-LIMIT, 0]);
    let reply = |dx, dy| find(&plan, Stand::Offset(4, dx, dy));
    assert_eq!(reply(limit, 1.0), Reply::refused(9, 0));
    assert_eq!(reply(limit + 1.0, 1.0), Reply::refused(8, 0));
    assert_eq!(reply(-1.0, 1.0), Reply::refused(8, 0));
    assert_eq!(reply(-0.0, 1.0), Reply::refused(10, 0));
    let (listed, table) = list(&plan_q(), 0, Stand::Offset(2, -4.0, -7.0), 16);
    assert_eq!(listed, Reply::done([4, 1, 0]));
    assert_eq!(table, SEEN);
}

#[test]
fn stands_on_corners_and_lines_and_beside_them() {
    let at = |x: i32, y: i32| find(&plan_q(), Stand::Point(f64::from(x), f64::from(y)));
    // Corners and walls.
    for [x, y] in [
        [0, 0],
        [10, 0],
        [10, 10],
        [0, 10],
        [5, 0],
        [10, 5],
        [0, 5],
        [1, 0],
        [9, 10],
    ] {
        assert_eq!(at(x, y), Reply::refused(9, 0), "({x}, {y})");
    }
    // The free line, from end to end; with its door shut it is a wall too.
    for x in 1..10 {
        assert_eq!(at(x, x), Reply::done([0, 1, 2]), "({x}, {x})");
        let stand = Stand::Point(x.into(), x.into());
        let shut = find_under(&plan_q(), 1, stand);
        assert_eq!(shut, Reply::refused(9, 0), "({x}, {x})");
    }
    // A millimetre off them.
    for [x, y] in [
        [-1, 0],
        [0, -1],
        [11, 0],
        [10, 11],
        [-1, 10],
        [5, -1],
        [5, 11],
        [11, 5],
        [-1, 5],
    ] {
        assert_eq!(at(x, y), Reply::refused(10, 0), "({x}, {y})");
    }
    for [x, y] in [[2, 1], [9, 8], [9, 1], [5, 1], [9, 5], [6, 5], [5, 4]] {
        assert_eq!(at(x, y), Reply::done([0, 0, 0]), "({x}, {y})");
    }
    for [x, y] in [[1, 2], [8, 9], [1, 9], [1, 5], [5, 9], [5, 6], [4, 5]] {
        assert_eq!(at(x, y), Reply::done([1, 0, 0]), "({x}, {y})");
    }
}

/// Wherever the stand is.
#[test]
fn no_cell_is_found_where_some_overlap() {
    let five = find(&stack(3, 5), Stand::Point(2.0, 2.0));
    assert_eq!(five, Reply::refused(17, 0));
    // A cell elsewhere, one that has (2, 2) on its border, then two that hold it.
    let plan = Plan {
        corners: vec![90, 90, 99, 90, 90, 99, 2, 0, 9, 2, 2, 9, 0, 0, 9, 0, 0, 9],
        cells: [[0, 1, 2], [3, 4, 5], [6, 7, 8], [6, 7, 8]]
            .iter()
            .flat_map(|&[a, b, c]| [a, b, c, WALL, WALL, WALL])
            .collect(),
        doors: vec![],
        kind: TRIANGLES,
    };
    for at in [[2.0, 2.0], [0.0, 0.0], [50.0, 50.0], [92.0, 92.0]] {
        let found = find(&plan, Stand::Point(at[0], at[1]));
        assert_eq!(found, Reply::refused(17, 1), "{at:?}");
    }
}

#[test]
fn the_twelve_examples() {
    for example in all() {
        let in_other_kind = Example {
            plan: other_kind(&example.plan),
            ..example.clone()
        };
        for example in [example, in_other_kind] {
            let listed = both(|calls| example.ask(calls));
            assert_eq!(listed, example.expected, "example {}", example.letter);
        }
    }
}

/// The strip is crossed from end to end, and every corner gives a row.
#[test]
fn the_longest_strip() {
    let beside = Stand::Point(10.0, 1.0);
    let (reply, _) = list(&strip(2_046, 64), 0, beside, 4 * 2_048);
    assert_eq!(reply, Reply::done([2_048, 2_045, 0]));
}

/// What a call for a morning leaves.
#[derive(Debug, PartialEq)]
struct Left {
    reply: Reply,
    table: Vec<u16>,
    replies: Vec<u64>,
}

impl Left {
    /// Lent memory of these lengths after a call that replies this and writes
    /// these rows and stands' own replies.
    fn new(reply: Reply, [table, replies]: [usize; 2], rows: &[u16], own: &[[u64; 3]]) -> Left {
        let mut left = Left {
            reply,
            table: vec![u16::from(FILL); table],
            replies: vec![u64::from(FILL); replies],
        };
        left.table[..rows.len()].copy_from_slice(rows);
        left.replies[..3 * own.len()].copy_from_slice(own.as_flattened());
        left
    }

    /// A refusal leaves lent memory of these lengths as it was.
    fn refused(number: u32, place: u32, room: [usize; 2]) -> Left {
        Left::new(Reply::refused(number, place), room, &[], &[])
    }
}

fn list_stands(plan: &Plan, setting: u64, stands: &[f64], room: [usize; 2]) -> Left {
    both(|calls| {
        let mut left = Left::refused(0, 0, room);
        let (table, replies) = (&mut left.table, &mut left.replies);
        let morning = Morning::under(setting);
        left.reply = calls.list_stands(plan.lists(), morning, stands, table, replies);
        left
    })
}

/// The lengths of a table and of replies that are just enough.
fn enough(plan: &Plan, stands: &[f64]) -> [usize; 2] {
    let table = 4 * (plan.corners.len() / 2) * (stands.len() / 3);
    [table, stands.len()]
}

/// The stand of examples a and c, and what is listed for it.
const BESIDE: [f64; 3] = [POINT, 6.0, 3.0];
const SEEN: [u16; 16] = [0, 0, 1, 0, 1, 1, 2, 0, 4, 2, 3, 0, 5, 3, 0, 0];

#[test]
fn mornings_of_any_count_of_stands() {
    let plan = plan_q();
    for count in [0, 1, 2, 31, 32] {
        let stands = BESIDE.repeat(count);
        let own = vec![[0, 4, 1]; count];
        let reply = Reply::done([4 * count as u64, count as u64, 0]);
        let [table, replies] = enough(&plan, &stands);
        // What lies beyond what is written keeps its values.
        for room in [
            [table, replies],
            [table + 1, replies + 1],
            [table + 40, replies + 40],
        ] {
            let expected = Left::new(reply, room, &SEEN.repeat(count), &own);
            assert_eq!(
                list_stands(&plan, 0, &stands, room),
                expected,
                "{count} stands"
            );
        }
    }
    for count in [33, 34, 64, 1_000] {
        let stands = BESIDE.repeat(count);
        let room = enough(&plan, &stands);
        let expected = Left::refused(2, 0, room);
        assert_eq!(
            list_stands(&plan, 0, &stands, room),
            expected,
            "{count} stands"
        );
    }
}

/// One stand for each reply that a stand can have: its number, and the three
/// numbers given.
const OF_EACH_REPLY: [(u64, [f64; 3]); 4] = [
    (0, BESIDE),
    (8, [POINT, 6.5, 3.0]),
    (9, [POINT, 5.0, 0.0]),
    (10, [POINT, 11.0, 5.0]),
];

#[test]
fn each_reply_of_a_stand_at_the_first_a_middle_and_the_last_place() {
    let plan = plan_q();
    for first in OF_EACH_REPLY {
        for middle in OF_EACH_REPLY {
            for last in OF_EACH_REPLY {
                let asked = [first, middle, last];
                let stands = asked.map(|(_, numbers)| numbers).concat();
                let own = asked.map(|(number, _)| match number {
                    0 => [0, 4, 1],
                    _ => [number, 0, 0],
                });
                let accepted = asked.iter().filter(|(number, _)| *number == 0).count();
                let reply = Reply::done([4 * accepted as u64, accepted as u64, 0]);
                let room = enough(&plan, &stands);
                assert_eq!(
                    list_stands(&plan, 0, &stands, room),
                    Left::new(reply, room, &SEEN.repeat(accepted), &own),
                    "{asked:?}"
                );
            }
        }
    }
}

#[test]
fn a_morning_where_every_stand_is_refused() {
    let plan = plan_q();
    let refused = &OF_EACH_REPLY[1..];
    for count in [1, 31, 32] {
        let asked: Vec<_> = refused.iter().cycle().take(count).collect();
        let stands: Vec<f64> = asked.iter().flat_map(|(_, numbers)| *numbers).collect();
        let own: Vec<_> = asked.iter().map(|&&(number, _)| [number, 0, 0]).collect();
        let [table, replies] = enough(&plan, &stands);
        let room = [table, replies];
        let expected = Left::new(Reply::done([0; 3]), room, &[], &own);
        assert_eq!(list_stands(&plan, 0, &stands, room), expected);
        // No row is written, and room for every stand is asked for all the same.
        for room in [[table - 1, replies], [table, replies - 1], [0, 0]] {
            let expected = Left::refused(11, 0, room);
            assert_eq!(list_stands(&plan, 0, &stands, room), expected);
        }
    }
}

#[test]
fn room_for_a_morning() {
    let plan = plan_q();
    let stands = BESIDE.repeat(2);
    for room in [
        [31, 6],
        [32, 5],
        [31, 5],
        [24, 6],
        [16, 6],
        [32, 3],
        [0, 6],
        [32, 0],
        [0, 0],
    ] {
        let expected = Left::refused(11, 0, room);
        assert_eq!(list_stands(&plan, 0, &stands, room), expected);
    }
    // With the door shut three rows are due, and room for four is asked for.
    let shut = in_reach(&[[0, 0, 1], [1, 1, 2], [2, 2, 0]]).repeat(2);
    let expected = Left::new(Reply::done([6, 0, 0]), [32, 6], &shut, &[[0, 3, 0]; 2]);
    assert_eq!(list_stands(&plan, 1, &stands, [32, 6]), expected);
    let expected = Left::refused(11, 0, [31, 6]);
    assert_eq!(list_stands(&plan, 1, &stands, [31, 6]), expected);
    // No stands ask for no room.
    let expected = Left::new(Reply::done([0; 3]), [0, 0], &[], &[]);
    assert_eq!(list_stands(&plan, 1, &[], [0, 0]), expected);
}

#[test]
fn points_and_offsets_in_one_morning() {
    let plan = plan_q();
    // The same spot each time, from every corner and as a point.
    let stands = [
        [2.0, -4.0, -7.0],
        BESIDE,
        [0.0, 6.0, 3.0],
        [3.0, 6.0, -7.0],
        BESIDE,
        [1.0, -4.0, 3.0],
        [-0.0, 6.0, 3.0],
    ]
    .concat();
    let room = enough(&plan, &stands);
    let expected = Left::new(
        Reply::done([28, 7, 0]),
        room,
        &SEEN.repeat(7),
        &[[0, 4, 1]; 7],
    );
    assert_eq!(list_stands(&plan, 0, &stands, room), expected);
}

#[test]
fn first_numbers_of_a_stand() {
    let plan = plan_q();
    let reply = |numbers: &[f64; 3]| {
        let left = list_stands(&plan, 0, numbers, [16, 3]);
        assert_eq!((left.reply.number, left.reply.place), (0, 0));
        left.replies[0]
    };
    // Corner 0 is at zero: what is read as 0 or as a point is listed.
    for first in [POINT, 0.0, -0.0] {
        assert_eq!(reply(&[first, 6.0, 3.0]), 0, "{first:?}");
    }
    for first in [1.0, 2.0, 3.0] {
        assert_eq!(reply(&[first, 6.0, 3.0]), 10, "{first:?}");
    }
    for first in [4.0, 5.0, 65_534.0, 65_535.0, 65_536.0, 65_537.0] {
        assert_eq!(reply(&[first, 6.0, 3.0]), 8, "{first:?}");
    }
    for first in [
        -2.0,
        -3.0,
        -1.5,
        -0.5,
        0.5,
        POINT.next_up(),
        POINT.next_down(),
    ] {
        assert_eq!(reply(&[first, 6.0, 3.0]), 8, "{first:?}");
    }
    // A number of a stand that is not accepted as millimetres is that of no
    // corner either.
    for (first, _) in numbers().into_iter().filter(|(_, accepted)| !accepted) {
        assert_eq!(reply(&[first, 6.0, 3.0]), 8, "{first:?}");
    }
    for (number, accepted) in numbers() {
        for stand in [
            [POINT, number, 3.0],
            [POINT, 6.0, number],
            [0.0, number, 3.0],
            [0.0, 6.0, number],
        ] {
            assert_eq!(reply(&stand) != 8, accepted, "{stand:?}");
        }
    }
}

#[test]
fn a_morning_is_refused_by_the_lowest_number() {
    let refused = |plan: &Plan, setting, stands: &[f64], number, place| {
        for room in [enough(plan, stands), [0, 0]] {
            let expected = Left::refused(number, place, room);
            assert_eq!(list_stands(plan, setting, stands, room), expected);
        }
    };
    let [most, too_many] = [32, 33].map(|count| BESIDE.repeat(count));
    let plan = plan_q();
    // Lengths that are no multiples of three, with too many stands too.
    for length in [1, 2, 4, 5, 94, 95, 97, 98, 100] {
        refused(&plan, 2, &vec![POINT; length], 1, 0);
    }
    let mut unframed = plan_q();
    unframed.corners.pop();
    refused(&unframed, 2, &too_many, 1, 0);
    refused(&unframed, 2, &[], 1, 0);
    let mut two_corners = plan_q();
    two_corners.corners.truncate(4);
    refused(&two_corners, 2, &most[1..], 1, 0);
    refused(&two_corners, 2, &most, 2, 0);
    let mut beyond = plan_q();
    beyond.corners[5] = LIMIT + 1;
    refused(&beyond, 2, &too_many, 2, 0);
    refused(&beyond, 2, &most, 3, 2);
    let mut on_its_back = plan_q();
    on_its_back.cells.swap(6, 7);
    refused(&on_its_back, 2, &too_many, 2, 0);
    refused(&on_its_back, 2, &most, 4, 1);
    let mut unanswered = plan_q();
    unanswered.cells[9] = WALL;
    refused(&unanswered, 2, &most, 5, 2);
    let mut on_a_wall = plan_q();
    on_a_wall.doors.push(0);
    refused(&on_a_wall, 4, &most, 6, 1);
    refused(&on_a_wall, 4, &[], 6, 1);
    refused(&plan, 2, &too_many, 2, 0);
    refused(&plan, 2, &most, 7, 0);
    refused(&plan, 2, &[], 7, 0);
    // The setting comes before the stands, which are not looked at.
    refused(&plan, 2, &[f64::NAN; 96], 7, 0);
}

/// Each stand's part of a morning is what a call for it alone leaves in a table
/// of four numbers a corner, and the sums are those of the single calls.
#[test]
fn a_morning_equals_single_calls() {
    let plan = hall();
    let spots = (-1..32).flat_map(|y| (-11..12).map(move |x| [x, y].map(f64::from)));
    let stands: Vec<Stand> = spots
        .enumerate()
        .map(|(at, [x, y])| match at % 3 {
            0 => Stand::Point(x, y),
            // From corner 1 at (10, 0), and from corner 4 at (-10, 20).
            1 => Stand::Offset(1, x - 10.0, y),
            _ => Stand::Offset(4, x + 10.0, y - 20.0),
        })
        .collect();
    for setting in 0..8 {
        for stands in stands.chunks(32) {
            let (mut rows, mut own, mut crossings) = (Vec::new(), Vec::new(), 0);
            for &stand in stands {
                let (reply, table) = list(&plan, setting, stand, 24);
                rows.extend_from_slice(&table[..4 * reply.values[0] as usize]);
                own.push([u64::from(reply.number), reply.values[0], reply.values[1]]);
                crossings += reply.values[1];
            }
            let numbers: Vec<f64> = stands.iter().flat_map(|stand| stand.numbers()).collect();
            let room = enough(&plan, &numbers).map(|length| length + 5);
            let sums = Reply::done([rows.len() as u64 / 4, crossings, 0]);
            let expected = Left::new(sums, room, &rows, &own);
            assert_eq!(list_stands(&plan, setting, &numbers, room), expected);
        }
    }
}

/// As many rows as a morning can have, in a table that they fill: their count
/// is beyond what 16 bits hold.
#[test]
fn the_fullest_morning() {
    let plan = strip(2_046, 64);
    let stand = Stand::Point(10.0, 1.0);
    let stands = stand.numbers().repeat(32);
    let room = enough(&plan, &stands);
    assert_eq!(room, [262_144, 96]);
    let (_, rows) = list(&plan, 0, stand, 4 * 2_048);
    let own = [[0, 2_048, 2_045]; 32];
    let reply = Reply::done([65_536, 65_440, 0]);
    let expected = Left::new(reply, room, &rows.repeat(32), &own);
    assert_eq!(list_stands(&plan, 0, &stands, room), expected);
    let short = [262_143, 96];
    assert_eq!(
        list_stands(&plan, 0, &stands, short),
        Left::refused(11, 0, short)
    );
}

#[test]
fn the_printing_program_refuses_its_query_first() {
    let printed = |input: &[u8]| {
        String::from_utf8(both(|calls| calls.print(input))).expect("it prints letters and digits")
    };
    let query = query_record(0, Stand::Point(6.0, 3.0));
    let input = [query, encode(plan_q().lists())].concat();
    for end in 0..input.len() {
        assert_eq!(printed(&input[..end]), "refused 1 0\n", "cut at {end}");
    }
    let mut long = input.clone();
    long.resize(65_536, 0);
    assert_eq!(printed(&long), "refused 1 0\n");
    long.push(0);
    assert_eq!(printed(&long), "refused 2 0\n");
    let mut other_kind = input;
    other_kind[4] = 5;
    assert_eq!(printed(&other_kind), "refused 1 0\n");
}

/// The numbers of the listing, without the rest of the table.
fn rows(plan: &Plan, setting: u64, stand: Stand) -> Vec<u16> {
    let (reply, mut table) = list(plan, setting, stand, ROW * plan.corners.len() / 2);
    assert_eq!(reply.number, 0);
    table.truncate(ROW * usize::try_from(reply.values[0]).expect("rows are few"));
    table
}

/// The change's reply and table; a refusal leaves the table as it was.
fn change(plan: &Plan, asked: DoorChange<'_>) -> (Reply, Vec<u16>) {
    let before = vec![u16::from(FILL); ROW * plan.corners.len() / 2];
    let (reply, table) = both(|calls| {
        let mut table = before.clone();
        (calls.change(plan.lists(), asked, &mut table), table)
    });
    if reply.number != 0 {
        assert_eq!(table, before, "a refusal wrote");
    }
    (reply, table)
}

/// Changes a door from the true list and compares with a fresh listing.
fn toggle(plan: &Plan, setting: u64, stand: Stand, door: usize) -> Vec<u16> {
    let bit = 1 << door;
    let asked = DoorChange {
        query: Query::without_reach(setting, stand),
        given: &rows(plan, setting, stand),
        door,
        shut: setting & bit == 0,
    };
    let changed = change(plan, asked);
    let fresh = list(plan, setting ^ bit, stand, changed.1.len());
    assert_eq!(changed, fresh, "door {door} of setting {setting:b}");
    rows(plan, setting ^ bit, stand)
}

#[test]
fn a_door_that_fills_two_adjacent_rows() {
    let (plan, stand) = (hall(), Stand::Point(0.0, 5.0));
    let open = rows(&plan, 0, stand);
    let shut = toggle(&plan, 0, stand, 0);
    let (shut, _) = shut.as_chunks::<ROW>();
    let on_the_door: Vec<usize> = (0..shut.len()).filter(|&i| shut[i][0] == 10).collect();
    assert_eq!(on_the_door.len(), 2, "one row for each route: {shut:?}");
    assert_eq!(on_the_door[0] + 1, on_the_door[1], "side by side: {shut:?}");
    assert_eq!(toggle(&plan, 1, stand, 0), open);
}

#[test]
fn a_door_that_is_not_seen_and_the_doors_of_the_stands_own_cell() {
    let (plan, stand) = (hall(), Stand::Point(0.0, 5.0));
    // Behind the two shut doors of the stand's cell nothing changes.
    assert_eq!(toggle(&plan, 0b110, stand, 0), rows(&plan, 0b110, stand));
    for setting in 0..8 {
        for door in 0..3 {
            toggle(&plan, setting, stand, door);
        }
    }
    assert_eq!(rows(&plan, 0b110, stand).len(), 3 * ROW);
}

#[test]
fn sixty_four_doors_one_after_another() {
    let (plan, stand) = (strip(100, 64), Stand::Point(10.0, 1.0));
    let mut setting = 0;
    // From the far end to the near one, then opened in the other order.
    for door in (0..64).rev().chain(0..64) {
        toggle(&plan, setting, stand, door);
        setting ^= 1 << door;
    }
    assert_eq!(setting, 0);
}

#[test]
fn changes_that_are_refused() {
    let (plan, stand) = (hall(), Stand::Point(0.0, 5.0));
    let truth = rows(&plan, 0, stand);
    let shutting = DoorChange {
        query: Query::without_reach(0, stand),
        given: &truth,
        door: 0,
        shut: true,
    };
    let untrue = |given: &[u16]| {
        let asked = DoorChange { given, ..shutting };
        assert_eq!(change(&plan, asked).0, Reply::refused(13, 0));
    };
    for place in 0..truth.len() {
        for number in [truth[place].wrapping_sub(1), truth[place] + 1] {
            let mut given = truth.clone();
            given[place] = number;
            untrue(&given);
        }
    }
    untrue(&[]);
    untrue(&truth[..truth.len() - ROW]);
    untrue(&truth[..truth.len() - 1]);
    untrue(&[&truth[..], &truth[..ROW]].concat());
    untrue(&[&truth[..], &[0, 0]].concat());
    untrue(&rows(&plan, 0, Stand::Point(-9.0, 10.0)));
    untrue(&rows(&plan, 1, stand));
    // Reply 12 comes before 13.
    for (setting, door, shut) in [(0, 3, true), (0, 64, false), (0, 0, false), (1, 0, true)] {
        let asked = DoorChange {
            query: Query::without_reach(setting, stand),
            given: &[],
            door,
            shut,
        };
        assert_eq!(change(&plan, asked).0, Reply::refused(12, 0));
    }
    let no_door = DoorChange {
        door: usize::MAX,
        ..shutting
    };
    assert_eq!(change(&plan, no_door).0, Reply::refused(12, 0));
    let no_such_bit = DoorChange {
        query: Query::without_reach(8, stand),
        ..shutting
    };
    assert_eq!(change(&plan, no_such_bit).0, Reply::refused(7, 0));
}

#[test]
fn cells_of_several_sizes() {
    let plan = row_of_cells();
    assert_eq!(check(&plan), Reply::done([14, 4, 3]));
    assert_eq!(plan.cells.len(), 7 + 9 + 17 + 11);
    // Strictly inside each, on each line, and on a wall.
    let at = |x: i32, y: i32| find(&plan, Stand::Point(x.into(), y.into()));
    for (cell, x) in [(0, 5), (1, 15), (2, 35), (3, 55)] {
        assert_eq!(at(x, 0), Reply::done([cell]), "{x}");
    }
    for (cell, side, x) in [(0, 1, 10), (1, 1, 20), (2, 3, 50)] {
        assert_eq!(at(x, 0), Reply::done([cell, 1, side]), "{x}");
    }
    for [x, y] in [[10, 10], [20, -10], [35, 20], [25, 15], [65, 5]] {
        assert_eq!(at(x, y), Reply::refused(9, 0), "({x}, {y})");
    }
    for [x, y] in [[-1, 0], [35, 21], [25, 16], [15, 11], [71, 0]] {
        assert_eq!(at(x, y), Reply::refused(10, 0), "({x}, {y})");
    }
    // Through all of them: corners 5 and 10 are outside the cone that comes
    // through the second line, and take no part.
    let (reply, table) = list(&plan, 0, Stand::Point(5.0, 0.0), 56);
    assert_eq!(reply, Reply::done([12, 3]));
    let expected = [
        [0, 0, 1],
        [3, 1, 3],
        [8, 3, 6],
        [9, 6, 7],
        [15, 7, 11],
        [16, 11, 12],
        [17, 12, 13],
        [18, 13, 8],
        [11, 8, 9],
        [12, 9, 4],
        [5, 4, 2],
        [2, 2, 0],
    ];
    assert_eq!(table[..48], in_reach(&expected));
}

/// Faces are numbered in the order of the list, so the places behind a larger
/// cell are moved by its sides.
#[test]
fn places_in_larger_cells() {
    let plan = row_of_cells();
    let refused = |change: &dyn Fn(&mut Plan), number, place| {
        let mut wrong = plan.clone();
        change(&mut wrong);
        assert_eq!(check(&wrong), Reply::refused(number, place));
    };
    // The neighbours of the last cell begin at place 39 of the list, its faces
    // at 15; those of the octagon at 25 and 7.
    refused(&|plan| plan.cells[43] = WALL, 5, 10);
    refused(&|plan| plan.cells[43] = 3, 5, 10);
    refused(&|plan| plan.cells[39] = 2, 5, 15);
    refused(&|plan| plan.cells[40] = 4, 5, 16);
    refused(&|plan| plan.cells[42] = WALL - 1, 5, 18);
    refused(&|plan| plan.cells[32] = WALL, 5, 4);
    refused(&|plan| plan.cells[28] = WALL, 5, 19);
    refused(&|plan| plan.cells[35] = 14, 4, 3);
    refused(&|plan| plan.cells[35] = WALL, 4, 3);
    refused(&|plan| plan.cells.swap(17, 18), 4, 2);
    // Doors: the same line from both faces, walls, and beyond the last face.
    refused(&|plan| plan.doors = vec![4, 1, 14], 6, 2);
    refused(&|plan| plan.doors = vec![10, 19], 6, 1);
    refused(&|plan| plan.doors = vec![19, 10], 6, 1);
    refused(&|plan| plan.doors = vec![1, 18], 6, 1);
    refused(&|plan| plan.doors = vec![20], 6, 0);
    refused(&|plan| plan.doors = vec![1, 4, 10, WALL], 6, 3);
}

#[test]
fn doors_between_cells_of_different_size() {
    let plan = row_of_cells();
    for x in [5, 15, 35, 55] {
        for y in [-4, 0, 3] {
            let stand = Stand::Point(x.into(), y.into());
            for setting in 0..8 {
                for door in 0..3 {
                    toggle(&plan, setting, stand, door);
                }
            }
        }
    }
    // The door is seen from the octagon's face 10, and from the other's 19.
    let shut = |x| rows(&plan, 0b100, Stand::Point(x, 0.0));
    assert!(shut(35.0).chunks(ROW).any(|row| row == [10, 7, 8, 0]));
    assert!(shut(55.0).chunks(ROW).any(|row| row == [19, 8, 7, 0]));
}

#[test]
fn plan_q_as_one_cell_of_four_corners() {
    let plan = plan_q_as_one_cell();
    assert_eq!(check(&plan), Reply::done([4, 1, 0]));
    let seen = in_reach(&[[0, 0, 1], [1, 1, 2], [2, 2, 3], [3, 3, 0]]);
    // The second stand is on what was the line between two triangles.
    for stand in [
        Stand::Point(6.0, 3.0),
        Stand::Point(5.0, 5.0),
        Stand::Offset(2, -4.0, -7.0),
    ] {
        let (reply, table) = list(&plan, 0, stand, 16);
        assert_eq!((reply, &table[..]), (Reply::done([4, 0]), &seen[..]));
    }
    let left = list_stands(&plan, 0, &[BESIDE, [POINT, 5.0, 5.0]].concat(), [32, 6]);
    let expected = Left::new(
        Reply::done([8, 0]),
        [32, 6],
        &seen.repeat(2),
        &[[0, 4, 0]; 2],
    );
    assert_eq!(left, expected);
    let at = |x, y| find(&plan, Stand::Point(x, y)).number;
    assert_eq!([at(0.0, 0.0), at(6.0, 0.0), at(10.0, 9.0)], [9; 3]);
    assert_eq!([at(11.0, 5.0), at(5.0, -1.0), at(-1.0, 11.0)], [10; 3]);
    assert_eq!(list(&plan, 1, Stand::Point(6.0, 3.0), 16).0.number, 7);
}

#[test]
fn counts_of_corners_that_no_cell_has() {
    let plan = row_of_cells();
    let (cells, _) = cut_cells(plan.kind, &plan.cells);
    let mut at = 0;
    for cell in cells {
        for count in [0, 1, 2, 9, 10, 255, 256, 259, u16::MAX] {
            let mut wrong = plan.clone();
            wrong.cells[at] = count;
            assert_eq!(check(&wrong), Reply::refused(1, 0), "{count} at {at}");
            // The frame comes before the size.
            wrong.doors = vec![2; 65];
            assert_eq!(check(&wrong), Reply::refused(1, 0), "{count} at {at}");
        }
        at += 1 + 2 * cell.corners.len();
    }
    // As many numbers as such a cell would have.
    for count in [0, 1, 2, 9] {
        let spots: Vec<[i32; 2]> = (0..count).map(|i| [i, i * i]).collect();
        let mut wrong = one_cell(&spots);
        wrong.corners.extend([90, 0, 90, 90, 0, 90]);
        assert_eq!(check(&wrong), Reply::refused(1, 0), "{count} corners");
    }
    for count in 3..=8 {
        let spots: Vec<[i32; 2]> = (0..count).map(|i| [i, i * i]).collect();
        let done = Reply::done([count as u64, 1, 0]);
        assert_eq!(check(&one_cell(&spots)), done, "{count} corners");
    }
}

#[test]
fn lists_of_larger_cells_cut_anywhere() {
    let plan = row_of_cells();
    let ends = [0, 7, 16, 33, 44];
    for end in 0..plan.cells.len() {
        let mut cut = plan.clone();
        cut.cells.truncate(end);
        let number = match end {
            0 => 2,
            _ if ends.contains(&end) => 5,
            _ => 1,
        };
        assert_eq!(check(&cut).number, number, "cut at {end}");
        cut.doors = vec![2; 65];
        let number = if ends.contains(&end) { 2 } else { 1 };
        assert_eq!(check(&cut).number, number, "cut at {end}");
    }
    // What is left over, however much it is, and a count alone.
    for rest in [
        &[0][..],
        &[3],
        &[8],
        &[3, 0, 1, 2, WALL, WALL],
        &[WALL; 6],
        &[2, 0, 1, WALL, WALL],
    ] {
        let mut longer = plan.clone();
        longer.cells.extend(rest);
        assert_eq!(check(&longer), Reply::refused(1, 0), "{rest:?}");
    }
    let mut uneven = plan;
    uneven.corners.pop();
    assert_eq!(check(&uneven), Reply::refused(1, 0));
}

#[test]
fn kinds_that_there_are_not() {
    let triangles = plan_q();
    let larger = row_of_cells();
    let refused = Reply::refused(1, 0);
    for kind in (0..=u16::MAX).filter(|kind| ![TRIANGLES, POLYGONS].contains(kind)) {
        // The list that would pass if the high byte were left out.
        let plan = match kind % 256 {
            POLYGONS => &larger,
            _ => &triangles,
        };
        let lists = Lists {
            kind,
            ..plan.lists()
        };
        assert_eq!(both(|calls| calls.check(lists)), refused, "kind {kind}");
    }
    for kind in [0, 1, 3, 11, 13, 258, 268, 514, 3_074, 32_770, u16::MAX] {
        for plan in [&triangles, &larger] {
            let wrong = Plan {
                kind,
                ..plan.clone()
            };
            assert_eq!(check(&wrong), refused, "kind {kind}");
            let empty = Plan {
                cells: vec![],
                ..wrong.clone()
            };
            assert_eq!(check(&empty), refused, "kind {kind}");
            let stand = Stand::Point(6.0, 3.0);
            let (reply, table) = list(&wrong, 1 << 63, stand, 0);
            assert_eq!((reply, table), (refused, vec![]), "kind {kind}");
            let room = [56, 3];
            let left = list_stands(&wrong, 1 << 63, &BESIDE, room);
            assert_eq!(left, Left::refused(1, 0, room), "kind {kind}");
            let asked = DoorChange {
                query: Query::without_reach(0, stand),
                given: &[],
                door: 99,
                shut: true,
            };
            assert_eq!(change(&wrong, asked).0, refused, "kind {kind}");
        }
    }
}

/// A list is cut as the kind says, whatever it was made for.
#[test]
fn lists_in_the_kind_of_the_other() {
    let swapped = |plan: Plan, kind| check(&Plan { kind, ..plan });
    // Plan Q as larger cells would begin with a count of 0.
    assert_eq!(swapped(plan_q(), POLYGONS), Reply::refused(1, 0));
    assert_eq!(swapped(row_of_cells(), TRIANGLES), Reply::refused(1, 0));
    assert_eq!(
        swapped(plan_q_as_one_cell(), TRIANGLES),
        Reply::refused(1, 0)
    );
    // Six cells of three corners are seven of six numbers, all of them wrong.
    let six = other_kind(&stack(3, 6));
    assert_eq!(six.cells.len(), 42);
    assert_eq!(swapped(six, TRIANGLES), Reply::refused(4, 0));
}

#[test]
fn cells_that_are_not_strictly_convex() {
    let square = [[0, 0], [10, 0], [10, 10], [0, 10]];
    let refused = |spots: &[[i32; 2]]| {
        for turn in 0..spots.len() {
            let mut spots = spots.to_vec();
            spots.rotate_left(turn);
            assert_eq!(check(&one_cell(&spots)), Reply::refused(4, 0), "{spots:?}");
        }
    };
    assert_eq!(check(&one_cell(&square)), Reply::done([4, 1, 0]));
    // A straight corner, in each side.
    for (side, between) in [[5, 0], [10, 5], [5, 10], [0, 5]].iter().enumerate() {
        let mut spots = square.to_vec();
        spots.insert(side + 1, *between);
        refused(&spots);
    }
    // Just beside it on the inside, and on the outside.
    refused(&[[0, 0], [5, 1], [10, 0], [10, 10], [0, 10]]);
    let outside = one_cell(&[[0, 0], [5, -1], [10, 0], [10, 10], [0, 10]]);
    assert_eq!(check(&outside), Reply::done([5, 1, 0]));
    // Two corners in one place, neighbours and others.
    refused(&[[0, 0], [10, 0], [10, 0], [10, 10], [0, 10]]);
    refused(&[[0, 0], [10, 0], [10, 10], [0, 0], [0, 10]]);
    // On its back, crossed, and with a corner turned in.
    refused(&[[0, 10], [10, 10], [10, 0], [0, 0]]);
    refused(&[[0, 0], [10, 10], [10, 0], [0, 10]]);
    refused(&[[0, 0], [10, 0], [2, 2], [0, 10]]);
    // Every corner on one line, and the ends of the coordinates.
    refused(&[[0, 0], [1, 1], [2, 2], [3, 3]]);
    let [low, high] = [-LIMIT, LIMIT];
    let widest = [[low, low], [high, low], [high, high], [low, high]];
    assert_eq!(check(&one_cell(&widest)), Reply::done([4, 1, 0]));
    refused(&[[low, low], [0, low], [high, low], [high, high]]);
    refused(&[[low, low], [high, low], [high, high], [0, 0]]);
    let wide = [[low, low], [high, low], [high, high], [-1, 0]];
    assert_eq!(check(&one_cell(&wide)), Reply::done([4, 1, 0]));
}

/// Each corner turns left, and yet some are not left of every side.
#[test]
fn stars_are_refused() {
    let corners = [
        [40, 10],
        [20, 40],
        [-20, 40],
        [-40, 10],
        [-40, -20],
        [-20, -40],
        [20, -40],
        [40, -20],
    ];
    for (count, step) in [(5, 2), (7, 2), (7, 3), (8, 3)] {
        let spots: Vec<[i32; 2]> = (0..count).map(|i| corners[i]).collect();
        let done = Reply::done([count as u64, 1, 0]);
        assert_eq!(check(&one_cell(&spots)), done);
        let star: Vec<[i32; 2]> = (0..count).map(|i| spots[i * step % count]).collect();
        let turns = (0..count).all(|i| {
            let [a, b, c] = [0, 1, 2].map(|on| star[(i + on) % count]);
            (b[0] - a[0]) * (c[1] - a[1]) - (b[1] - a[1]) * (c[0] - a[0]) > 0
        });
        assert!(turns, "{star:?}");
        assert_eq!(check(&one_cell(&star)), Reply::refused(4, 0));
    }
}

#[test]
fn equal_and_missing_corner_numbers() {
    let plan = plan_q_as_one_cell();
    for at in 1..5 {
        for number in [4, 5, WALL - 1, WALL] {
            let mut wrong = plan.clone();
            wrong.cells[at] = number;
            assert_eq!(check(&wrong), Reply::refused(4, 0), "{number} at {at}");
        }
        for other in (1..5).filter(|&other| other != at) {
            let mut wrong = plan.clone();
            wrong.cells[at] = wrong.cells[other];
            assert_eq!(check(&wrong), Reply::refused(4, 0), "{other} at {at}");
        }
    }
    // The least wrong cell is the place.
    let mut wrong = row_of_cells();
    wrong.cells[34] = wrong.cells[35];
    assert_eq!(check(&wrong), Reply::refused(4, 3));
    wrong.cells[8] = 14;
    assert_eq!(check(&wrong), Reply::refused(4, 1));
}

/// Corners of the larger cell lie on both limits and do not replace them, also
/// where both ends of one side do.
#[test]
fn corners_of_larger_cells_on_limits() {
    let corners = [
        [0, -20],
        [10, 0],
        [-10, 0],
        [20, 10],
        [10, 18],
        [-10, 18],
        [-20, 10],
    ];
    let near: (&[u16], &[u16]) = (&[0, 1, 2], &[WALL, 1, WALL]);
    let seen = |far: &[u16]| {
        let mut neighbours = vec![WALL; far.len()];
        neighbours[0] = 0;
        let plan = polygons(&corners, &[near, (far, &neighbours)]);
        let (reply, table) = list(&plan, 0, Stand::Point(0.0, -10.0), 28);
        assert_eq!((reply.number, reply.values[1]), (0, 1), "{far:?}");
        let (rows, _) = table[..ROW * reply.values[0] as usize].as_chunks::<ROW>();
        let line = |&[face, right, left, far]: &[u16; ROW]| {
            assert_eq!(far, 0);
            [face, right, left]
        };
        let lines: Vec<[u16; 3]> = rows.iter().map(line).collect();
        assert_eq!((lines[0], lines[lines.len() - 1]), ([0, 0, 1], [2, 2, 0]));
        lines[1..lines.len() - 1].to_vec()
    };
    // Two corners on the limits, and two between them.
    let hexagon = seen(&[2, 1, 3, 4, 5, 6]);
    assert_eq!(hexagon, [[5, 1, 4], [6, 4, 5], [7, 5, 2]]);
    // Both ends of one side on the limits.
    assert_eq!(seen(&[2, 1, 3, 6]), [[5, 1, 2]]);
    // One on a limit.
    assert_eq!(seen(&[2, 1, 3, 5]), [[5, 1, 5], [6, 5, 2]]);
    assert_eq!(seen(&[2, 1, 4, 6]), [[4, 1, 4], [5, 4, 2]]);
    assert_eq!(seen(&[2, 1, 3]), [[5, 1, 2]]);
    assert_eq!(seen(&[2, 1, 6]), [[4, 1, 2]]);
    assert_eq!(seen(&[2, 1, 4, 5]), [[4, 1, 4], [5, 4, 5], [6, 5, 2]]);
}

/// The record of the cells cut at every byte, its length with it.
#[test]
fn a_record_of_larger_cells_cut_at_every_byte() {
    let plan = row_of_cells();
    let file = encode(plan.lists());
    let (first, length) = (6 + 8 * 14, 2 * plan.cells.len());
    let body = first + 6;
    let (head, rest) = (&file[..first], &file[body + length..]);
    let room = [28, 44, 3];
    for end in 0..length {
        let record = [&(end as u32).to_le_bytes(), &file[first + 4..body + end]].concat();
        let (reply, _) = read(&[head, &record, rest].concat(), room);
        let expected = match end {
            0 => Reply::refused(2, 0),
            14 => Reply::refused(5, 1),
            32 => Reply::refused(5, 4),
            66 => Reply::refused(5, 10),
            _ => Reply::refused(1, 0),
        };
        assert_eq!(reply, expected, "cut at {end}");
    }
    for end in 0..file.len() {
        assert_eq!(read(&file[..end], room).0, Reply::refused(1, 0), "{end}");
    }
    let done = Reply::done([14, 4, 3, POLYGONS.into(), 44]);
    assert_eq!(read(&file, room), (done, plan.clone()));
    // Any other kind of the record, and the old one.
    for kind in [0, 1, 2, 3, 4, 11, 13, 524, u16::MAX] {
        let mut other = file.clone();
        other[first + 4..body].copy_from_slice(&u16::to_le_bytes(kind));
        assert_eq!(read(&other, room).0, Reply::refused(1, 0), "kind {kind}");
    }
}

#[test]
fn larger_cells_with_every_byte_changed() {
    let plan = plan_q_as_one_cell();
    let file = encode(plan.lists());
    let mut taken = 0;
    for at in 0..file.len() {
        let flips = (0..8).map(|bit| file[at] ^ 1 << bit);
        for byte in flips.chain([0, 255]) {
            let mut other = file.clone();
            other[at] = byte;
            for room in [[20, 40, 9], [8, 9, 0], [7, 9, 0], [8, 8, 0]] {
                let (reply, mut lists) = read(&other, room);
                if reply.number == 0 {
                    lists.corners.truncate(8);
                    lists.cells.truncate(9);
                    lists.doors.clear();
                    assert_eq!(write(&lists, other.len()).1, other, "byte {at} is {byte}");
                    taken += 1;
                }
            }
        }
    }
    assert!(taken > 100, "{taken}");
}

#[test]
fn the_fullest_plan() {
    let (plan, [x, y]) = fullest();
    assert_eq!(check(&plan), Reply::done([2_048, 3_000, 64]));
    // 906 cells of four corners, 2,094 of three.
    assert_eq!(plan.cells.len(), 9 * 906 + 7 * 2_094);
    let stand = Stand::Point(x as f64, y as f64);
    assert_eq!(find(&plan, stand), Reply::done([0]));
    for door in [0, 1, 62, 63] {
        toggle(&plan, 0, stand, door);
    }
    let file = encode(plan.lists());
    assert_eq!(write(&plan, file.len() - 1).0, Reply::refused(11, 0));
    assert_eq!(
        read(&file, [4_096, plan.cells.len() - 1, 64]).0,
        Reply::refused(11, 0)
    );
    // One cell more.
    let mut longer = plan;
    longer.cells.extend_from_within(..9);
    assert_eq!(check(&longer), Reply::refused(2, 0));
    longer.cells.push(3);
    assert_eq!(check(&longer), Reply::refused(1, 0));
}

/// No list could be longer. Its cells overlap, which is found before room is asked for.
#[test]
fn the_longest_lists() {
    let (plan, [x, y]) = longest_lists();
    assert_eq!(check(&plan), Reply::refused(17, 0));
    assert_eq!(plan.cells.len(), 17 * 3_000);
    let stand = Stand::Point(x as f64, y as f64);
    assert_eq!(find(&plan, stand), Reply::refused(17, 0));
    let file = encode(plan.lists());
    assert_eq!(write(&plan, file.len() - 1).0, Reply::refused(17, 0));
    assert_eq!(write(&plan, file.len()).0, Reply::refused(17, 0));
    for room in [[4_096, 17 * 3_000 - 1, 64], [4_096, 17 * 3_000, 64]] {
        assert_eq!(read(&file, room).0, Reply::refused(17, 0));
    }
    // It is too long for the printing program.
    let input = [query_record(0, stand), file].concat();
    assert_eq!(both(|calls| calls.print(&input)), b"refused 2 0\n");
    // One cell more.
    let mut longer = plan;
    longer.cells.extend_from_within(..17);
    assert_eq!(check(&longer), Reply::refused(2, 0));
    longer.cells.push(3);
    assert_eq!(check(&longer), Reply::refused(1, 0));
}

/// Every cell is entered down one ray, and in every second one the ray leaves by
/// the last side of the fan.
#[test]
fn the_longest_fans() {
    let (plan, [x, y]) = longest_fans();
    assert_eq!(check(&plan), Reply::done([2_046, 584, 64]));
    let stand = Stand::Point(x as f64, y as f64);
    let (reply, _) = list(&plan, 0, stand, 4 * 2_046);
    assert_eq!((reply.number, reply.values[1]), (0, 583));
    for door in [0, 1, 62, 63] {
        toggle(&plan, 0, stand, door);
    }
}

/// Each cell is entered through the first of two lines that the one before it
/// hands on.
#[test]
fn the_most_splits() {
    let (plan, [x, y]) = most_splits();
    assert_eq!(check(&plan), Reply::done([2_048, 2_726, 64]));
    let stand = Stand::Point(x as f64, y as f64);
    let (reply, _) = list(&plan, 0, stand, 4 * 2_048);
    assert_eq!(
        (reply.number, reply.values[..2].to_vec()),
        (0, vec![2_047, 2_044])
    );
    for door in [0, 1, 62, 63] {
        toggle(&plan, 0, stand, door);
    }
}

#[test]
fn counts_at_each_limit_in_larger_cells() {
    let reply = |corners, cells| check(&other_kind(&stack(corners, cells)));
    assert_eq!(reply(3, 1), Reply::done([3, 1, 0]));
    let largest = largest(0, &mut Dice::new(1)).plan(&[]);
    assert_eq!(check(&other_kind(&largest)), Reply::done([2_048, 3_000, 0]));
    assert_eq!(reply(2_048, 3_000), Reply::refused(17, 0));
    for (corners, cells) in [(2, 1), (2_049, 1), (3, 0), (3, 3_001), (20_000, 9_000)] {
        let reply = reply(corners, cells);
        assert_eq!(reply, Reply::refused(2, 0), "{corners}, {cells}");
    }
    let doors = |count| check(&other_kind(&strip(100, count)));
    assert_eq!(doors(64), Reply::done([102, 100, 64]));
    assert_eq!(doors(65), Reply::refused(2, 0));
}

/// A plan of triangles in either kind: check, finding, listing, morning and door
/// change leave the same.
#[test]
fn triangles_in_either_kind() {
    let strip = (strip(100, 64), [[10, 1], [500, 50], [5, 3], [0, 0]]);
    let hall = (hall(), [[0, 5], [-9, 10], [0, 10], [40, 0]]);
    let q = (plan_q(), [[6, 3], [3, 6], [5, 5], [11, 5]]);
    for (plan, spots) in [strip, hall, q] {
        let other = other_kind(&plan);
        assert_eq!(check(&plan), check(&other));
        let room = ROW * plan.corners.len() / 2;
        let mut stands = Vec::new();
        for [x, y] in spots {
            let stand = Stand::Point(x.into(), y.into());
            stands.extend(stand.numbers());
            assert_eq!(find(&plan, stand), find(&other, stand));
            for setting in [0, 1, 2, 1 << 63] {
                let listed = list(&plan, setting, stand, room);
                assert_eq!(listed, list(&other, setting, stand, room));
                let asked = |given| DoorChange {
                    query: Query::without_reach(setting, stand),
                    given,
                    door: 0,
                    shut: setting & 1 == 0,
                };
                let given = &listed.1[..ROW * listed.0.values[0] as usize];
                for given in [given, &[]] {
                    let changed = change(&plan, asked(given));
                    assert_eq!(changed, change(&other, asked(given)));
                }
            }
        }
        let room = enough(&plan, &stands);
        let left = list_stands(&plan, 1, &stands, room);
        assert_eq!(left, list_stands(&other, 1, &stands, room));
        // The file says which kind it is in.
        assert_ne!(encode(plan.lists()), encode(other.lists()));
    }
}

#[test]
fn the_printing_program_takes_either_kind() {
    let printed = |plan: &Plan, stand| {
        let input = [query_record(0, stand), encode(plan.lists())].concat();
        String::from_utf8(both(|calls| calls.print(&input))).expect("it prints letters and digits")
    };
    let beside = Stand::Point(6.0, 3.0);
    let as_printed = "rows 4 crossings 1\n0 0 1 0\n1 1 2 0\n4 2 3 0\n5 3 0 0\n";
    assert_eq!(printed(&plan_q(), beside), as_printed);
    assert_eq!(printed(&other_kind(&plan_q()), beside), as_printed);
    let in_one_cell = "rows 4 crossings 0\n0 0 1 0\n1 1 2 0\n2 2 3 0\n3 3 0 0\n";
    assert_eq!(printed(&plan_q_as_one_cell(), beside), in_one_cell);
    let mut wrong = row_of_cells();
    wrong.cells[43] = WALL;
    assert_eq!(printed(&wrong, beside), "refused 5 10\n");
    wrong.cells[0] = 2;
    assert_eq!(printed(&wrong, beside), "refused 1 0\n");
    wrong.kind = 6;
    assert_eq!(printed(&wrong, beside), "refused 1 0\n");
}

/// The stand of example h.
const IN_DOORWAY: Stand = Stand::Point(5.0, 5.0);

#[test]
fn the_doorway_of_plan_q() {
    let plan = plan_q();
    for stand in [IN_DOORWAY, Stand::Offset(2, -5.0, -5.0)] {
        assert_eq!(find(&plan, stand), Reply::done([0, 1, 2]));
        let listed = list(&plan, 0, stand, 16);
        assert_eq!(listed, (Reply::done([4, 0]), SEEN.to_vec()));
        assert_eq!(list(&plan, 0, stand, 15).0, Reply::refused(11, 0));
        // Shut, the line is a wall: example k's reply, and before the room.
        for room in [16, 15, 0] {
            assert_eq!(list(&plan, 1, stand, room).0, Reply::refused(9, 0));
        }
    }
    // Named from its other face the door shuts the same line.
    let mut other_face = plan_q();
    other_face.doors = vec![3];
    assert_eq!(find(&other_face, IN_DOORWAY), Reply::done([0, 1, 2]));
    let shut = find_under(&other_face, 1, IN_DOORWAY);
    assert_eq!(shut, Reply::refused(9, 0));
    let printed = |setting| {
        let input = [query_record(setting, IN_DOORWAY), encode(plan.lists())].concat();
        String::from_utf8(both(|calls| calls.print(&input))).expect("it prints letters and digits")
    };
    let rows = "0 0 1 0\n1 1 2 0\n4 2 3 0\n5 3 0 0\n";
    assert_eq!(printed(0), format!("rows 4 crossings 0\n{rows}"));
    assert_eq!(printed(1), "refused 9 0\n");
    assert_eq!(printed(2), "refused 7 0\n");
}

/// Without a door, and from end to end: strictly between the ends, on them, and
/// beyond them on the same line.
#[test]
fn a_free_line_without_a_door() {
    let mut plan = plan_q();
    plan.doors.clear();
    for x in 1..10 {
        let stand = Stand::Point(x.into(), x.into());
        assert_eq!(find(&plan, stand), Reply::done([0, 1, 2]), "{x}");
        let listed = list(&plan, 0, stand, 16);
        assert_eq!(listed, (Reply::done([4, 0]), SEEN.to_vec()), "{x}");
    }
    for (x, number) in [(0, 9), (10, 9), (-1, 10), (11, 10)] {
        let stand = Stand::Point(x.into(), x.into());
        assert_eq!(find(&plan, stand), Reply::refused(number, 0), "{x}");
        assert_eq!(list(&plan, 0, stand, 16).0.number, number, "{x}");
    }
    // A wall that goes straight on from a free line is none.
    let corners = [[0, 0], [10, 0], [0, 10], [0, -10], [20, 0], [20, 10]];
    let plan = polygons(
        &corners,
        &[
            (&[0, 1, 2], &[1, WALL, WALL]),
            (&[1, 0, 3], &[0, WALL, WALL]),
            (&[1, 4, 5], &[WALL, WALL, WALL]),
        ],
    );
    let at = |x: i32| find(&plan, Stand::Point(x.into(), 0.0));
    assert_eq!([1, 5, 9].map(at), [Reply::done([0, 1, 0]); 3]);
    assert_eq!([0, 10, 11, 15, 20].map(at), [Reply::refused(9, 0); 5]);
    assert_eq!([-1, 21].map(at), [Reply::refused(10, 0); 2]);
}

/// A cell's corners and neighbours, turned by some sides.
fn turned([corners, neighbours]: [[u16; 3]; 2], by: usize) -> Vec<u16> {
    let turn = |mut numbers: [u16; 3]| {
        numbers.rotate_left(by);
        numbers
    };
    [turn(corners), turn(neighbours)].concat()
}

/// The sides come in order after the one stood on, and the neighbour's after its
/// own, whatever their numbers in their cells are.
#[test]
fn sides_in_order_after_the_one_stood_on() {
    // The walls of plan Q in order from corner 0.
    let walls = [[0, 1], [1, 2], [2, 3], [3, 0]];
    for first in 0..3 {
        for second in 0..3 {
            let cells = [
                turned([[2, 0, 1], [1, WALL, WALL]], first),
                turned([[0, 2, 3], [0, WALL, WALL]], second),
            ];
            let plan = Plan {
                cells: cells.concat(),
                doors: vec![],
                ..plan_q()
            };
            let side = (3 - first) % 3;
            let found = find(&plan, IN_DOORWAY);
            assert_eq!(found, Reply::done([0, 1, side as u64]));
            let face = |cell: usize, on: usize, turn: usize| 3 * cell + (3 + on - turn) % 3;
            let faces = [
                face(0, 1, first),
                face(0, 2, first),
                face(1, 1, second),
                face(1, 2, second),
            ];
            let rows: Vec<u16> = faces
                .iter()
                .zip(walls)
                .flat_map(|(&face, [right, left])| [face as u16, right, left, 0])
                .collect();
            let listed = list(&plan, 0, IN_DOORWAY, 16);
            assert_eq!(listed, (Reply::done([4, 0]), rows));
        }
    }
}

/// The change's reply with a table of so many numbers, which a refusal leaves as
/// it was.
fn change_in(plan: &Plan, asked: DoorChange<'_>, room: usize) -> u32 {
    let before = vec![u16::from(FILL); room];
    let (reply, table) = both(|calls| {
        let mut table = before.clone();
        (calls.change(plan.lists(), asked, &mut table), table)
    });
    assert_ne!(reply.number, 0);
    assert_eq!((table, reply), (before, Reply::refused(reply.number, 0)));
    reply.number
}

/// The door of the line that is stood on is refused with 9: open or shut, to be
/// changed or as wished, before the room and before the given list.
#[test]
fn the_door_of_the_doorway_stays() {
    let plan = plan_q();
    let under = |setting| Query::without_reach(setting, IN_DOORWAY);
    let asked = DoorChange {
        query: under(0),
        given: &SEEN,
        door: 0,
        shut: true,
    };
    for shut in [true, false] {
        for given in [&SEEN[..], &SEEN[..12], &[]] {
            for setting in [0, 1] {
                let asked = DoorChange {
                    query: under(setting),
                    given,
                    shut,
                    ..asked
                };
                for room in [16, 17, 15, 0] {
                    assert_eq!(change_in(&plan, asked, room), 9);
                }
            }
        }
        // A door that does not exist is none that the stand is within.
        for door in [1, 2, 63, 64, 65_535, usize::MAX] {
            let asked = DoorChange {
                door,
                shut,
                ..asked
            };
            assert_eq!(change_in(&plan, asked, 16), 12, "{door}");
            assert_eq!(change_in(&plan, asked, 15), 11, "{door}");
        }
        let asked = DoorChange {
            query: under(2),
            shut,
            ..asked
        };
        assert_eq!(change_in(&plan, asked, 16), 7);
    }
    // From inside a cell it is changed as before.
    assert_eq!(toggle(&plan, 0, Stand::Point(5.0, 4.0), 0).len(), 3 * ROW);
}

/// Every line of the hall with its midpoint, and its door.
const LINES_OF_HALL: [([i32; 2], [u64; 2], Option<usize>); 5] = [
    ([5, 5], [0, 1], Some(1)),
    ([-5, 5], [0, 2], Some(2)),
    ([5, 15], [1, 1], None),
    ([-5, 15], [2, 1], None),
    ([0, 20], [3, 1], Some(0)),
];

/// From every line of the hall under every setting: the doors elsewhere are
/// changed, also those of the two cells at the line.
#[test]
fn other_doors_from_a_side() {
    let plan = hall();
    let mut changed = 0;
    for ([x, y], [cell, side], own) in LINES_OF_HALL {
        let stand = Stand::Point(x.into(), y.into());
        for setting in 0..8 {
            let is_shut = own.is_some_and(|door| setting >> door & 1 == 1);
            let found = find_under(&plan, setting, stand);
            if is_shut {
                assert_eq!(found, Reply::refused(9, 0), "({x}, {y})");
                continue;
            }
            assert_eq!(found, Reply::done([cell, 1, side]), "({x}, {y})");
            let given = rows(&plan, setting, stand);
            for door in 0..3 {
                if Some(door) == own {
                    for shut in [false, true] {
                        let asked = DoorChange {
                            query: Query::without_reach(setting, stand),
                            given: &given,
                            door,
                            shut,
                        };
                        assert_eq!(change_in(&plan, asked, 24), 9, "({x}, {y})");
                    }
                } else {
                    toggle(&plan, setting, stand, door);
                    changed += 1;
                }
            }
        }
    }
    assert_eq!(changed, 3 * 4 * 2 + 2 * 8 * 3);
    // On the far door, with a corner of the plan straight ahead: the wall behind it
    // is seen on its right and on its left.
    let (reply, table) = list(&plan, 0, Stand::Point(0.0, 20.0), 24);
    assert_eq!(reply, Reply::done([6, 4]));
    let expected = [
        [8, 4, 0],
        [0, 0, 2],
        [0, 2, 1],
        [3, 1, 3],
        [13, 3, 5],
        [14, 5, 4],
    ];
    assert_eq!(table, in_reach(&expected));
}

/// From the line between a triangle and a cell of four corners, through all the
/// others; corners 5 and 10 lie on the limits.
#[test]
fn a_line_between_larger_cells() {
    let plan = row_of_cells();
    let stand = Stand::Point(10.0, 0.0);
    let (reply, table) = list(&plan, 0, stand, 56);
    assert_eq!(reply, Reply::done([12, 2]));
    let expected = [
        [2, 2, 0],
        [0, 0, 1],
        [3, 1, 3],
        [8, 3, 6],
        [9, 6, 7],
        [15, 7, 11],
        [16, 11, 12],
        [17, 12, 13],
        [18, 13, 8],
        [11, 8, 9],
        [12, 9, 4],
        [5, 4, 2],
    ];
    assert_eq!(table[..48], in_reach(&expected));
    // With every other door shut: the sides of the two cells, and nothing more.
    let (reply, table) = list(&plan, 0b110, stand, 56);
    assert_eq!(reply, Reply::done([5, 0]));
    let expected = [[2, 2, 0], [0, 0, 1], [3, 1, 3], [4, 3, 4], [5, 4, 2]];
    assert_eq!(table[..20], in_reach(&expected));
    // From the line between the octagon, found first, and the cell of five.
    let stand = Stand::Point(50.0, 0.0);
    assert_eq!(find(&plan, stand), Reply::done([2, 1, 3]));
    let (reply, table) = list(&plan, 0b010, stand, 56);
    assert_eq!(reply, Reply::done([11, 0]));
    let octagon = [
        [11, 8, 9],
        [12, 9, 10],
        [13, 10, 4],
        [14, 4, 3],
        [7, 3, 5],
        [8, 5, 6],
        [9, 6, 7],
    ];
    let behind = [[15, 7, 11], [16, 11, 12], [17, 12, 13], [18, 13, 8]];
    let expected = [in_reach(&octagon), in_reach(&behind)].concat();
    assert_eq!(table[..44], expected);
    // Every door but the line's own, under every setting.
    for (x, own) in [(10, 0), (20, 1), (50, 2)] {
        for y in [-9, -1, 0, 4, 9] {
            let stand = Stand::Point(x.into(), y.into());
            for setting in (0..8).filter(|setting| setting >> own & 1 == 0) {
                for door in (0..3).filter(|&door| door != own) {
                    toggle(&plan, setting, stand, door);
                }
            }
        }
    }
}

/// Plan Q, and another cell between walls that has its corners at these spots.
fn plan_q_below(spots: [[i32; 2]; 3]) -> Plan {
    let mut plan = plan_q();
    plan.corners.extend(spots.as_flattened());
    plan.cells.extend([4, 5, 6, WALL, WALL, WALL]);
    plan
}

/// A cell that holds the stand strictly inside, on its wall or on its corner overlaps
/// those at the doorway.
#[test]
fn a_cell_on_top_of_a_doorway() {
    for spots in [
        [[-5, -5], [20, -5], [-5, 20]],
        [[5, 0], [20, 5], [5, 20]],
        [[5, 5], [20, 5], [5, 20]],
    ] {
        let plan = plan_q_below(spots);
        for setting in [0, 1] {
            let found = find_under(&plan, setting, IN_DOORWAY);
            assert_eq!(found, Reply::refused(17, 0), "{spots:?}");
            let (reply, _) = list(&plan, setting, IN_DOORWAY, 28);
            assert_eq!(reply, Reply::refused(17, 0), "{spots:?}");
            let asked = DoorChange {
                query: Query::without_reach(setting, IN_DOORWAY),
                given: &SEEN,
                door: 0,
                shut: setting == 0,
            };
            assert_eq!(change_in(&plan, asked, 27), 17, "{spots:?}");
        }
    }
}

/// Plan Q twice in the same place: two lines between the same corners.
#[test]
fn doorways_on_top_of_each_other() {
    let mut plan = plan_q();
    plan.cells
        .extend([0, 1, 2, WALL, WALL, 3, 0, 2, 3, 2, WALL, WALL]);
    plan.doors = vec![2, 9];
    assert_eq!(check(&plan), Reply::refused(17, 0));
    for setting in 0..5 {
        let found = find_under(&plan, setting, IN_DOORWAY);
        assert_eq!(found, Reply::refused(17, 0), "{setting}");
    }
    // They are two lines: a third door on one of them is wrong.
    plan.doors.push(3);
    assert_eq!(check(&plan), Reply::refused(6, 2));
}

#[test]
fn a_morning_with_stands_on_a_side() {
    let plan = plan_q();
    let asked: [([f64; 3], [u64; 3]); 10] = [
        ([POINT, 11.0, 5.0], [10, 0, 0]),
        ([POINT, 5.0, 5.0], [0, 4, 0]),
        ([POINT, 0.0, 0.0], [9, 0, 0]),
        ([2.0, -9.0, -9.0], [0, 4, 0]),
        (BESIDE, [0, 4, 1]),
        ([POINT, 6.0, -0.0], [9, 0, 0]),
        ([0.0, 9.0, 9.0], [0, 4, 0]),
        ([POINT, 5.5, 5.5], [8, 0, 0]),
        ([9.0, 5.0, 5.0], [8, 0, 0]),
        ([POINT, 1.0, 1.0], [0, 4, 0]),
    ];
    let stands: Vec<f64> = asked.iter().flat_map(|(numbers, _)| *numbers).collect();
    let own: Vec<[u64; 3]> = asked.iter().map(|(_, own)| *own).collect();
    let room = enough(&plan, &stands).map(|length| length + 2);
    let expected = Left::new(Reply::done([20, 1]), room, &SEEN.repeat(5), &own);
    assert_eq!(list_stands(&plan, 0, &stands, room), expected);
    // With the door shut they are refused, and the one inside is not.
    let own: Vec<[u64; 3]> = own
        .iter()
        .map(|&[number, _, crossings]| match (number, crossings) {
            (0, 0) => [9, 0, 0],
            (0, _) => [0, 3, 0],
            _ => [number, 0, 0],
        })
        .collect();
    let shut = in_reach(&[[0, 0, 1], [1, 1, 2], [2, 2, 0]]);
    let expected = Left::new(Reply::done([3, 0]), room, &shut, &own);
    assert_eq!(list_stands(&plan, 1, &stands, room), expected);
    // Room is asked for each, and a wrong setting refuses them all.
    let short = [room[0] - 3, room[1]];
    assert_eq!(
        list_stands(&plan, 0, &stands, short),
        Left::refused(11, 0, short)
    );
    assert_eq!(
        list_stands(&plan, 2, &stands, room),
        Left::refused(7, 0, room)
    );
}

/// From end to end of the coordinates, and a millimetre from the ends.
#[test]
fn a_doorway_from_end_to_end_of_the_coordinates() {
    let plan = widest();
    for at in [0, 1, LIMIT - 1, 1 - LIMIT, 12_345_678] {
        let stand = Stand::Point(at.into(), at.into());
        assert_eq!(find(&plan, stand), Reply::done([0, 1, 2]), "{at}");
        let listed = list(&plan, 0, stand, 16);
        assert_eq!(listed, (Reply::done([4, 0]), SEEN.to_vec()), "{at}");
        assert_eq!(find_under(&plan, 1, stand), Reply::refused(9, 0), "{at}");
    }
    for at in [LIMIT, -LIMIT] {
        let stand = Stand::Point(at.into(), at.into());
        assert_eq!(find(&plan, stand), Reply::refused(9, 0), "{at}");
    }
    // A line that is all but straight on: a millimetre beside it is inside.
    let limit = f64::from(LIMIT);
    let at = |x, y| find(&plan, Stand::Point(x, y));
    assert_eq!(at(limit - 1.0, limit - 2.0), Reply::done([0, 0, 0]));
    assert_eq!(at(limit - 2.0, limit - 1.0), Reply::done([1, 0, 0]));
}

/// From each line of a strip everything is seen through every other line.
#[test]
fn every_line_of_a_strip() {
    let plan = strip(100, 64);
    for line in [0, 1, 31, 62, 63, 64, 98] {
        let x = 10 * (line + 1) + 5;
        let stand = Stand::Point(x.into(), 50.0);
        let found = find(&plan, stand);
        assert_eq!(found, Reply::done([line as u64, 1, 1]), "line {line}");
        let (reply, _) = list(&plan, 0, stand, 408);
        assert_eq!(reply, Reply::done([102, 98]), "line {line}");
        for door in (0..64).filter(|&door| door != line as usize).step_by(9) {
            toggle(&plan, 0, stand, door);
            toggle(&plan, 1 << door, stand, door);
        }
    }
    let stand = Stand::Point(15.0, 50.0);
    let (reply, _) = list(&strip(2_046, 64), 0, stand, 4 * 2_048);
    assert_eq!(reply, Reply::done([2_048, 2_044, 0]));
}
