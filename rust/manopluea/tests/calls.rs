//! The calls, with plan Q and the measured examples.

#![cfg(feature = "calls")]

mod examples;

use examples::{plan_q, plan_q_as_one_cell, Expected};
use manopluea::{
    change, check, draw, find, list, list_stands, print, raw, read, stand_listed, write, Counts,
    DoorChange, Footing, Listed, Listing, Lists, Morning, Query, Reach, Read, Refusal, Stand,
    DRAWN, MOST_STANDS, POLYGONS, REPLY, ROW, TRIANGLES, WALL,
};

#[test]
fn the_twelve_examples_are_listed_or_refused() {
    for example in examples::all() {
        let lists = example.plan.lists();
        let mut table = vec![0; ROW * (lists.corners.len() / 2)];
        let answer = list(lists, example.query().without_ceiling(), &mut table);
        let found = match answer {
            Ok(listed) => Expected::Listed {
                rows: table.as_chunks().0[..listed.rows].to_vec(),
                crossings: listed.crossings,
            },
            Err(refusal) => Expected::Refused(refusal.number()),
        };
        assert_eq!(found, example.expected, "{}", example.letter);
    }
}

#[test]
fn a_written_plan_is_read_back() {
    let plan = plan_q();
    let all = Counts {
        corners: 4,
        cells: 2,
        doors: 1,
    };
    let mut file = [0; 76];
    assert_eq!(write(plan.lists(), &mut file), Ok(all));
    let (mut corners, mut cells, mut doors) = ([0; 8], [0; 12], [0; 1]);
    let read_back = Read {
        counts: all,
        kind: TRIANGLES,
        numbers: 12,
    };
    let answer = read(&file, &mut corners, &mut cells, &mut doors);
    assert_eq!(answer, Ok(read_back));
    assert_eq!(
        (&corners[..], &cells[..], &doors[..]),
        (&plan.corners[..], &plan.cells[..], &plan.doors[..])
    );
    let short = &mut file[..75];
    assert_eq!(write(plan.lists(), short), Err(Refusal::Room));
}

/// One cell of four corners: written, read back, and listed without a
/// crossing.
#[test]
fn a_plan_of_larger_cells_is_written_read_and_listed() {
    let plan = plan_q_as_one_cell();
    let counts = Counts {
        corners: 4,
        cells: 1,
        doors: 0,
    };
    let mut file = [0; 68];
    assert_eq!(write(plan.lists(), &mut file), Ok(counts));
    let (mut corners, mut cells) = ([0; 8], [0; 9]);
    let kind = POLYGONS;
    let answer = read(&file, &mut corners, &mut cells, &mut []);
    let numbers = 9;
    assert_eq!(
        answer,
        Ok(Read {
            counts,
            kind,
            numbers
        })
    );
    assert_eq!(cells[..], plan.cells[..]);
    let mut table = [7; 16];
    let seen = Listed {
        rows: 4,
        crossings: 0,
    };
    let listing = Query::without_reach(0, Stand::Point(6.0, 3.0)).without_ceiling();
    assert_eq!(list(plan.lists(), listing, &mut table), Ok(seen));
    assert_eq!(table, [0, 0, 1, 0, 1, 1, 2, 0, 2, 2, 3, 0, 3, 3, 0, 0]);
    let unknown = Lists {
        kind: 3,
        ..plan.lists()
    };
    assert_eq!(check(unknown), Err(Refusal::Frame));
}

#[test]
fn a_refusal_has_its_place() {
    let mut plan = plan_q();
    let found = find(plan.lists(), 2, Stand::Point(0.5, 0.0));
    assert_eq!(found, Err(Refusal::Setting));
    // A third cell on top of the second.
    plan.corners.extend([1, 8, 2, 8, 2, 9]);
    plan.cells.extend([4, 5, 6, WALL, WALL, WALL]);
    let found = find(plan.lists(), 2, Stand::Point(0.5, 0.0));
    assert_eq!(found, Err(Refusal::Overlap(1)));
    plan.doors.push(3);
    assert_eq!(check(plan.lists()), Err(Refusal::Door(1)));
    plan.cells[6..9].reverse();
    assert_eq!(check(plan.lists()), Err(Refusal::Cell(1)));
    plan.corners[5] = 536_870_913;
    assert_eq!(check(plan.lists()), Err(Refusal::Corner(2)));
}

#[test]
fn a_stand_is_inside_a_cell_or_on_a_side() {
    let plan = plan_q();
    let at = |setting, x, y| find(plan.lists(), setting, Stand::Point(x, y));
    assert_eq!(at(0, 3.0, 6.0), Ok(Footing::Inside { cell: 1 }));
    assert_eq!(at(0, 5.0, 5.0), Ok(Footing::Side { cell: 0, side: 2 }));
    assert_eq!(at(1, 5.0, 5.0), Err(Refusal::Line));
}

/// From (6, 3) the walls of plan Q are 3, 4, 7 and 6 mm away, and the line of
/// its door a little over 2.
#[test]
fn a_listing_ends_where_the_reach_does() {
    let plan = plan_q();
    let mut table = [7; 16];
    let mut within = |reach| {
        let query = Query {
            reach,
            ..Query::without_reach(0, Stand::Point(6.0, 3.0))
        };
        let answer = list(plan.lists(), query.without_ceiling(), &mut table);
        answer.map(|listed| (listed.crossings, table[..ROW * listed.rows].to_vec()))
    };
    let nothing = [0, 0, 1, 1, 1, 1, 2, 1, 2, 2, 0, 1].to_vec();
    assert_eq!(within(Reach::Stated(2)), Ok((0, nothing)));
    let below = [0, 0, 1, 0, 1, 1, 2, 1, 4, 2, 3, 1, 5, 3, 0, 1].to_vec();
    assert_eq!(within(Reach::Stated(3)), Ok((1, below)));
    let all = [0, 0, 1, 0, 1, 1, 2, 0, 4, 2, 3, 0, 5, 3, 0, 0].to_vec();
    assert_eq!(within(Reach::Stated(7)), Ok((1, all.clone())));
    assert_eq!(within(Reach::NotStated), Ok((1, all)));
    for wrong in [0, 262_145, u64::MAX] {
        assert_eq!(within(Reach::Stated(wrong)), Err(Refusal::Reach));
    }
}

/// From (6, 3) plan Q has one crossing. A listing that is refused for it leaves
/// the table alone.
#[test]
fn a_listing_has_no_more_crossings_than_its_ceiling() {
    let plan = plan_q();
    let seen = Listed {
        rows: 4,
        crossings: 1,
    };
    let query = Query::without_reach(0, Stand::Point(6.0, 3.0));
    for (ceiling, expected) in [
        (None, Ok(seen)),
        (Some(0), Err(Refusal::Ceiling)),
        (Some(1), Ok(seen)),
        (Some(u64::MAX), Ok(seen)),
    ] {
        let (mut table, listing) = ([7; 16], Listing { query, ceiling });
        assert_eq!(list(plan.lists(), listing, &mut table), expected);
        assert_eq!(table == [7; 16], expected.is_err(), "{ceiling:?}");
    }
}

/// From (6, 3) the four rows of plan Q go from corner 0 round to corner 0 again. With
/// corner 2 too far away nothing is drawn.
#[test]
fn a_drawing_has_the_limits_less_the_stand() {
    let mut plan = plan_q();
    let query = Query::without_reach(0, Stand::Point(6.0, 3.0));
    let seen = Listed {
        rows: 4,
        crossings: 1,
    };
    let mut offsets = [7.0; DRAWN * 4 + 1];
    assert_eq!(draw(plan.lists(), query, &mut offsets), Ok(seen));
    let (rows, rest) = offsets.as_chunks::<DRAWN>();
    let [a, b, c, d] = [[-6.0, -3.0], [4.0, -3.0], [4.0, 7.0], [-6.0, 7.0]];
    assert_eq!(rows.as_flattened(), [a, b, b, c, c, d, d, a].as_flattened());
    assert_eq!(rest, [7.0]);
    let short = &mut offsets[..DRAWN * 4 - 1];
    assert_eq!(draw(plan.lists(), query, short), Err(Refusal::Room));
    plan.corners[5] = 3 + 16_777_217;
    assert_eq!(draw(plan.lists(), query, &mut offsets), Err(Refusal::Far));
}

/// Offsets are told from points, whatever their corner; a stand that is
/// refused stops no other.
#[test]
fn a_morning_has_a_listing_or_a_refusal_for_each_stand() {
    let plan = plan_q();
    let stands = [
        Stand::Offset(u16::MAX, 6.0, 3.0),
        Stand::Point(6.0, 3.0),
        Stand::Point(11.0, 5.0),
        Stand::Offset(2, -4.0, -7.0),
    ];
    let seen = Listed {
        rows: 4,
        crossings: 1,
    };
    let both = Listed {
        rows: 8,
        crossings: 2,
    };
    let (mut table, mut replies) = ([7; 64], [7; 12]);
    let own = |replies: &[u64]| -> Vec<_> {
        let (own, _) = replies.as_chunks();
        own.iter().map(|&numbers| stand_listed(numbers)).collect()
    };
    let morning = Morning::under(0);
    let answer = list_stands(plan.lists(), morning, &stands, &mut table, &mut replies);
    assert_eq!(answer, Ok(both));
    let [stand, outside] = [Refusal::Stand, Refusal::Outside].map(Err);
    let [reach, ceiling] = [Refusal::Reach, Refusal::Ceiling].map(Err);
    assert_eq!(own(&replies), [stand, Ok(seen), outside, Ok(seen)]);
    let rows = [0, 0, 1, 0, 1, 1, 2, 0, 4, 2, 3, 0, 5, 3, 0, 0];
    assert_eq!(table[..32], [rows, rows].concat());
    assert_eq!(table[32..], [7; 32]);
    let none = Listed {
        rows: 0,
        crossings: 0,
    };
    let wrong = Morning {
        reach: Reach::Stated(0),
        ..morning
    };
    let answer = list_stands(plan.lists(), wrong, &stands, &mut table, &mut replies);
    assert_eq!(answer, Ok(none));
    assert_eq!(own(&replies), [stand, reach, reach, reach]);
    let low = Morning {
        ceiling: Some(0),
        ..morning
    };
    let answer = list_stands(plan.lists(), low, &stands, &mut table, &mut replies);
    assert_eq!(answer, Ok(none));
    assert_eq!(own(&replies), [stand, ceiling, outside, ceiling]);
    let short = &mut replies[1..];
    let answer = list_stands(plan.lists(), morning, &stands, &mut table, short);
    assert_eq!(answer, Err(Refusal::Room));
}

#[test]
fn a_door_is_shut_from_the_true_list_only() {
    let plan = plan_q();
    let mut asked = DoorChange {
        query: Query::without_reach(0, Stand::Point(6.0, 3.0)),
        given: &[0, 0, 1, 0, 1, 1, 2, 0, 4, 2, 3, 0, 5, 3, 0, 0],
        door: 0,
        shut: true,
    };
    let mut table = [7; 16];
    let shut = Listed {
        rows: 3,
        crossings: 0,
    };
    assert_eq!(change(plan.lists(), asked, &mut table), Ok(shut));
    assert_eq!(table, [0, 0, 1, 0, 1, 1, 2, 0, 2, 2, 0, 0, 7, 7, 7, 7]);
    asked.given = &[0, 0, 1, 0];
    assert_eq!(change(plan.lists(), asked, &mut table), Err(Refusal::Rows));
}

/// As many stands as a morning may have, and one more.
#[test]
fn a_morning_has_no_more_stands_than_the_most() {
    let plan = plan_q();
    let stands = [Stand::Point(6.0, 3.0); MOST_STANDS + 1];
    let mut table = vec![0; ROW * 4 * stands.len()];
    let mut replies = vec![0; 3 * stands.len()];
    let mut ask = |stands: &[Stand]| {
        let (lists, morning) = (plan.lists(), Morning::under(0));
        list_stands(lists, morning, stands, &mut table, &mut replies)
    };
    let all = Listed {
        rows: 4 * MOST_STANDS,
        crossings: MOST_STANDS as u64,
    };
    assert_eq!(ask(&stands[1..]), Ok(all));
    assert_eq!(ask(&stands), Err(Refusal::Size));
}

/// What the printing program prints for plan Q from (6, 3), and for nothing.
#[test]
fn an_answer_is_printed() {
    let mut input = [24, 0, 0, 0, 4, 0].to_vec();
    input.extend(0u64.to_le_bytes());
    input.extend([6.0f64, 3.0].map(f64::to_le_bytes).as_flattened());
    let mut file = [0; 76];
    write(plan_q().lists(), &mut file).expect("it has room");
    input.extend(file);
    let text = "rows 4 crossings 1\n0 0 1 0\n1 1 2 0\n4 2 3 0\n5 3 0 0\n";
    assert_eq!(print(&input), text.as_bytes());
    assert_eq!(print(&[]), b"refused 1 0\n");
}

/// The functions behind the calls, with a reply of one's own.
#[test]
fn a_raw_function_leaves_a_reply() {
    let mut reply = [u64::MAX; REPLY];
    raw::check(plan_q().lists(), &mut reply);
    assert_eq!(reply, [0, 0, 4, 2, 1, 0, 0]);
    assert_eq!(raw::answer(reply), Ok([4, 2, 1, 0, 0]));
}
