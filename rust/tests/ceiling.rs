//! "A ceiling for the tablet", request A13 of document 02: the named cases, of the paper
//! program and of the proved library; and both against the request's own words on the
//! plans of a seeded run.

use manopluea_compare::both::{
    both, list, list_each, list_stands, listed, refused_as_ever, room, Listed, FILL,
};
use manopluea_compare::calls::{
    Calls, DoorChange, Listing, Morning, Plan, Query, Reach, Refusal, Reply, Stand, POINT,
};
use manopluea_compare::examples::{
    hall, plan_q, plan_q_as_one_cell, row_of_cells, widest, STANDS_IN_Q,
};
use manopluea_compare::generate::{self, fence, in_other_kind, query_record, Ceiling, Dice};
use manopluea_compare::paper::{encode, Floor, Paper, Place, Row, View};

/// Numbers beyond the crossings of every listing: the largest, and such as are few where
/// high bits are lost or a sign is read.
const LARGE: [u64; 7] = [
    u64::MAX,
    u64::MAX - 1,
    1 << 63,
    (1 << 63) - 1,
    (1 << 63) + 1,
    1 << 32,
    (1 << 32) + 1,
];

fn at(x: i32, y: i32) -> Stand {
    Stand::Point(x.into(), y.into())
}

/// With every door open, and no reach.
fn from(x: i32, y: i32) -> Query {
    Query::without_reach(0, at(x, y))
}

fn up_to(ceiling: u64, query: Query) -> Listing {
    Listing {
        query,
        ceiling: Some(ceiling),
    }
}

/// The listing without a ceiling has so many crossings. It is refused up to every lower
/// ceiling, and up to this one and higher ones it is the same.
fn up_to_every_ceiling(plan: &Plan, query: Query, crossings: u64) {
    let unlimited = list(plan, query.without_ceiling());
    let (_, counted) = unlimited.as_ref().expect("it is listed without a ceiling");
    assert_eq!(*counted, crossings, "{query:?}");
    for ceiling in 0..crossings {
        let listed = list(plan, up_to(ceiling, query));
        assert_eq!(listed, Err(19), "{ceiling}, {query:?}");
    }
    for ceiling in (crossings..crossings + 3).chain(LARGE) {
        let listed = list(plan, up_to(ceiling, query));
        assert_eq!(listed, unlimited, "{ceiling}, {query:?}");
    }
}

/// Without a free line there is nothing to cross: in one cell, and where the only door is
/// shut. From the doorway the line stood on is not counted.
#[test]
fn a_ceiling_of_zero() {
    let (q, one_cell) = (plan_q(), plan_q_as_one_cell());
    let other = in_other_kind(&q).expect("it is of triangles");
    let shut = Query {
        setting: 1,
        ..from(6, 3)
    };
    for (plan, query, rows) in [
        (&one_cell, from(6, 3), 4),
        (&one_cell, from(5, 5), 4),
        (&q, shut, 3),
        (&other, shut, 3),
        (&q, from(5, 5), 4),
    ] {
        let (listed, crossings) = list(plan, up_to(0, query)).expect("there is no crossing");
        assert_eq!((listed.len(), crossings), (rows, 0), "{query:?}");
        up_to_every_ceiling(plan, query, 0);
    }
    for plan in [&q, &other] {
        for stand in [at(6, 3), at(3, 6), Stand::Offset(2, -4.0, -7.0)] {
            let query = Query::without_reach(0, stand);
            assert_eq!(list(plan, up_to(0, query)), Err(19), "{stand:?}");
        }
    }
}

/// As many crossings as the ceiling are allowed, one more are not; in either kind, as a
/// point and as an offset.
#[test]
fn as_many_crossings_one_fewer_and_one_more() {
    let other = |plan| in_other_kind(plan).expect("it is of triangles");
    let (q, hall) = (plan_q(), hall());
    for plan in [&q, &other(&q), &widest()] {
        up_to_every_ceiling(plan, from(6, 3), 1);
    }
    let from_corner_2 = Query::without_reach(0, Stand::Offset(2, -4.0, -7.0));
    up_to_every_ceiling(&q, from_corner_2, 1);
    for plan in [&hall, &other(&hall)] {
        for (x, y, crossings) in [(0, 5, 6), (7, 9, 5), (-7, 9, 5), (0, 17, 5), (0, 23, 5)] {
            up_to_every_ceiling(plan, from(x, y), crossings);
        }
        // With the far door shut.
        let shut = Query {
            setting: 1,
            ..from(0, 5)
        };
        up_to_every_ceiling(plan, shut, 4);
    }
    for x in [5, 15, 35, 60] {
        up_to_every_ceiling(&row_of_cells(), from(x, 0), 3);
    }
}

/// From (0, 5) the hall has three crossings through the line on the right and three
/// through the one on the left: they count together.
#[test]
fn the_ceiling_is_for_the_whole_listing() {
    let plan = hall();
    let floor = Floor::check(plan.lists()).expect("it passes the check");
    let view = View::new(&floor, from(0, 5)).expect("the stand is inside");
    assert_eq!(view.crossings_around(), [vec![0, 3, 3], vec![]]);
    for ceiling in [3, 4, 5] {
        assert_eq!(list(&plan, up_to(ceiling, from(0, 5))), Err(19));
    }
    assert!(list(&plan, up_to(6, from(0, 5))).is_ok());
}

/// From a side the crossings of both cells count together, and the line stood on is not
/// one of them.
#[test]
fn stands_on_a_side() {
    let (hall, row) = (hall(), row_of_cells());
    for (plan, x, y, by_side) in [
        (&hall, 5, 5, [&[1, 0][..], &[0, 2]]),
        (&hall, -5, 5, [&[0, 1], &[2, 0]]),
        (&hall, 5, 15, [&[1, 0], &[1, 1]]),
        (&hall, -5, 15, [&[0, 1], &[1, 1]]),
        (&hall, 0, 20, [&[2, 2], &[0, 0]]),
        (&row, 10, 0, [&[0, 0], &[0, 2, 0]]),
        (&row, 20, 0, [&[0, 1, 0], &[0, 0, 0, 1, 0, 0, 0]]),
        (&row, 50, 0, [&[0, 0, 0, 2, 0, 0, 0], &[0, 0, 0, 0]]),
    ] {
        let floor = Floor::check(plan.lists()).expect("it passes the check");
        let view = View::new(&floor, from(x, y)).expect("it is on a free side");
        assert!(matches!(view.place(), Place::Within(_)));
        assert_eq!(view.crossings_around(), by_side);
        let crossings = by_side.concat().iter().sum();
        up_to_every_ceiling(plan, from(x, y), crossings);
    }
    // One through each cell: neither exceeds 1, nor does any side, and both do.
    assert_eq!(list(&row, up_to(1, from(20, 0))), Err(19));
    let rows = list(&row, up_to(2, from(20, 0))).map(|(rows, _)| rows.len());
    assert_eq!(rows, Ok(14));
}

/// What a listing up to a ceiling leaves in a table of so many numbers.
fn in_room(plan: &Plan, listing: Listing, room: usize) -> Listed {
    listed(room, |calls, table| {
        calls.list(plan.lists(), listing, table)
    })
}

/// A table that is too short is refused before the crossings are counted, whatever the
/// ceiling; one that is long enough is left as it was, all of it.
#[test]
fn room_comes_before_the_ceiling() {
    let plan = hall();
    let room = room(&plan);
    for ceiling in [0, 5, 6, 7, u64::MAX] {
        let listing = up_to(ceiling, from(0, 5));
        for short in [0, 1, room - 4, room - 1] {
            assert_eq!(in_room(&plan, listing, short), Err(11), "{ceiling}");
        }
        let expected = if ceiling < 6 { Err(19) } else { Ok(6) };
        for long in [room, room + 1, 5 * room] {
            let rows = in_room(&plan, listing, long).map(|(rows, _)| rows.len());
            assert_eq!(rows, expected, "{ceiling}");
        }
    }
}

/// 19 is the last: a listing that is refused for anything else is refused for that with
/// every ceiling, the lowest too.
#[test]
fn every_other_refusal_comes_before_the_ceiling() {
    let plan = plan_q();
    let mut on_its_back = plan_q();
    on_its_back.cells.swap(0, 1);
    let mut no_neighbour = plan_q();
    no_neighbour.cells[9] = 7;
    let mut no_door = plan_q();
    no_door.doors[0] = 0;
    let mut half_a_corner = plan_q();
    half_a_corner.corners.pop();
    let mut no_cells = plan_q();
    no_cells.cells.clear();
    let mut beyond = plan_q();
    beyond.corners[3] = 536_870_913;
    let within = |reach, query| Query {
        reach: Reach::Stated(reach),
        ..query
    };
    let under = |setting, query| Query { setting, ..query };
    for (plan, query, expected) in [
        (&half_a_corner, from(6, 3), Refusal::Frame),
        (&no_cells, from(6, 3), Refusal::Size),
        (&beyond, from(6, 3), Refusal::Corner(1)),
        (&on_its_back, from(6, 3), Refusal::Cell(0)),
        (&no_neighbour, from(6, 3), Refusal::Neighbour(2)),
        (&no_door, from(6, 3), Refusal::Door(0)),
        (&plan, under(2, from(6, 3)), Refusal::Setting),
        (
            &plan,
            Query::without_reach(0, Stand::Point(6.5, 3.0)),
            Refusal::Stand,
        ),
        (&plan, within(0, from(6, 3)), Refusal::Reach),
        (&plan, within(262_145, from(11, 5)), Refusal::Reach),
        (&plan, from(6, 0), Refusal::Line),
        (&plan, under(1, from(5, 5)), Refusal::Line),
        (&plan, from(11, 5), Refusal::Outside),
    ] {
        for ceiling in [Some(0), Some(1), Some(u64::MAX), None] {
            let listing = Listing { query, ceiling };
            let reply = both(|calls| {
                let mut table = vec![u16::from(FILL); room(plan)];
                let reply = calls.list(plan.lists(), listing, &mut table);
                assert!(table.iter().all(|&number| number == FILL.into()));
                reply
            });
            assert_eq!(reply, Reply::from(expected), "{ceiling:?}");
        }
    }
    // And the ceiling itself, which has no place.
    let reply = both(|calls| calls.list(plan.lists(), up_to(0, from(6, 3)), &mut [0; 16]));
    assert_eq!(reply, Reply::refused(19, 0));
    assert_eq!(reply, Reply::from(Refusal::Ceiling));
}

/// Fewer lines are crossed where fewer are in reach. In the row of cells the doors are 5,
/// 15 and 45 mm from (5, 0).
#[test]
fn a_ceiling_with_a_reach() {
    let plan = row_of_cells();
    for (reach, crossings) in [
        (4, 0),
        (5, 1),
        (14, 1),
        (15, 2),
        (44, 2),
        (45, 3),
        (262_144, 3),
    ] {
        let query = Query {
            reach: Reach::Stated(reach),
            ..from(5, 0)
        };
        up_to_every_ceiling(&plan, query, crossings);
    }
    // A free line out of reach has a row, and is not crossed.
    let near = Query {
        reach: Reach::Stated(4),
        ..from(5, 0)
    };
    let rows = vec![[0, 0, 1, 0], [1, 1, 2, 1], [2, 2, 0, 0]];
    assert_eq!(list(&plan, up_to(0, near)), Ok((rows, 0)));
    assert_eq!(list(&plan, up_to(0, from(5, 0))), Err(19));
}

/// The floor that splits cones as often as we could make it: hundreds of thousands of
/// crossings, of which the last one tells.
#[test]
fn the_splitting_floor() {
    let mesh = fence(956, 545, 64);
    let plan = mesh.plan(&[]);
    let [x, y] = generate::inside(&mesh, &mut Dice::new(1)).map(|number| number as i32);
    let query = from(x, y);
    let unlimited = list(&plan, query.without_ceiling());
    let (rows, crossings) = unlimited.as_ref().expect("it is inside");
    assert!(rows.len() > 500 && *crossings > 100_000, "{crossings}");
    for ceiling in [0, 1_000, crossings - 1] {
        assert_eq!(list(&plan, up_to(ceiling, query)), Err(19), "{ceiling}");
    }
    for ceiling in [*crossings, crossings + 1, u64::MAX] {
        let listed = list(&plan, up_to(ceiling, query));
        assert_eq!(listed, unlimited, "{ceiling}");
    }
}

/// A list that the lower of two ceilings gives is the one that the higher gives.
#[test]
fn a_higher_ceiling_never_alters_a_list() {
    for (plan, spots) in [
        (hall(), [[0, 5], [7, 9], [0, 23], [5, 15]]),
        (row_of_cells(), [[5, 0], [35, -12], [20, 0], [50, 0]]),
    ] {
        for [x, y] in spots {
            for setting in 0..8 {
                let query = Query {
                    setting,
                    ..from(x, y)
                };
                let ceilings = (0..9).chain([u64::MAX]).map(Some).chain([None]);
                let all = ceilings.map(|ceiling| list(&plan, Listing { query, ceiling }));
                let given: Vec<Listed> = all.skip_while(|listed| *listed == Err(19)).collect();
                let (first, higher) = given.split_first().expect("without one it is given");
                assert!(higher.iter().all(|listed| listed == first), "{query:?}");
            }
        }
    }
}

/// The three numbers of stands that are points.
fn points(spots: &[[i32; 2]]) -> Vec<[f64; 3]> {
    spots
        .iter()
        .map(|&[x, y]| [POINT, x.into(), y.into()])
        .collect()
}

fn morning_up_to(ceiling: u64) -> Morning {
    Morning {
        ceiling: Some(ceiling),
        ..Morning::under(0)
    }
}

/// The rows of the listings from these spots in the hall, one behind the other.
fn rows_of(spots: &[[i32; 2]]) -> Vec<Row> {
    let listings = spots
        .iter()
        .map(|&[x, y]| list(&hall(), from(x, y).without_ceiling()));
    listings
        .flat_map(|listed| listed.expect("it is found").0)
        .collect()
}

/// Five crossings, six, and five: the stand between is refused, and the rows of the last
/// stand follow those of the first.
#[test]
fn one_stand_over_the_ceiling_between_two_that_are_not() {
    let spots = [[7, 9], [0, 5], [0, 23]];
    let (own, rows) = list_stands(&hall(), morning_up_to(5), &points(&spots));
    assert_eq!(own, [[0, 6, 5], [19, 0, 0], [0, 6, 5]]);
    assert_eq!(rows, rows_of(&[spots[0], spots[2]]));
    // At the first place, and at the last.
    let (own, rows) = list_stands(&hall(), morning_up_to(5), &points(&[[0, 5], [0, 23]]));
    assert_eq!(own, [[19, 0, 0], [0, 6, 5]]);
    assert_eq!(rows, rows_of(&[[0, 23]]));
    let (own, rows) = list_stands(&hall(), morning_up_to(5), &points(&[[0, 23], [0, 5]]));
    assert_eq!(own, [[0, 6, 5], [19, 0, 0]]);
    assert_eq!(rows, rows_of(&[[0, 23]]));
    // One more is enough for all three, one less for none of them.
    let (own, rows) = list_stands(&hall(), morning_up_to(6), &points(&spots));
    assert_eq!(own, [[0, 6, 5], [0, 6, 6], [0, 6, 5]]);
    assert_eq!(rows, rows_of(&spots));
    let (own, rows) = list_stands(&hall(), morning_up_to(4), &points(&spots));
    assert_eq!((own, rows), (vec![[19, 0, 0]; 3], vec![]));
}

/// Three, four and five crossings are twelve in all: each stand has the five for itself.
#[test]
fn stands_that_exceed_the_ceiling_only_together() {
    let spots = [[5, 5], [0, 20], [7, 9]];
    let (own, rows) = list_stands(&hall(), morning_up_to(5), &points(&spots));
    assert_eq!(own, [[0, 5, 3], [0, 6, 4], [0, 6, 5]]);
    assert_eq!(rows, rows_of(&spots));
    // As many as a morning may have, each with just as many crossings.
    let all = [[0, 5]; 32];
    let (own, rows) = list_stands(&hall(), morning_up_to(6), &points(&all));
    assert_eq!(own, [[0, 6, 6]; 32]);
    assert_eq!(rows, rows_of(&all));
}

/// One ceiling serves all stands, and each is answered as it would be alone; 8, 15, 9 and
/// 10 go before 19. Plan Q has one crossing from (6, 3) and none from its doorway.
#[test]
fn one_ceiling_for_a_morning() {
    let plan = plan_q();
    for setting in [0, 1] {
        for ceiling in [None, Some(0), Some(1), Some(2), Some(u64::MAX)] {
            for reach in [0, 1, 2, 3, 7].map(Reach::Stated) {
                let all = Morning {
                    setting,
                    reach,
                    ceiling,
                };
                let (own, rows) = list_stands(&plan, all, &STANDS_IN_Q);
                assert_eq!((own, rows), list_each(&plan, all, &STANDS_IN_Q), "{all:?}");
            }
        }
    }
    let numbers = |reach, ceiling| -> Vec<u64> {
        let all = Morning {
            reach,
            ceiling,
            ..Morning::under(0)
        };
        let (own, _) = list_stands(&plan, all, &STANDS_IN_Q);
        own.iter().map(|own| own[0]).collect()
    };
    assert_eq!(numbers(Reach::NotStated, Some(0)), [19, 8, 0, 9, 8, 10, 19]);
    assert_eq!(numbers(Reach::NotStated, Some(1)), [0, 8, 0, 9, 8, 10, 0]);
    assert_eq!(
        numbers(Reach::Stated(0), Some(0)),
        [15, 8, 15, 15, 8, 15, 15]
    );
    // The door is out of reach, and so it is not crossed.
    assert_eq!(numbers(Reach::Stated(2), Some(0)), [0, 8, 0, 9, 8, 10, 0]);
}

/// The call itself is not refused for a ceiling: only for the plan, the count of stands,
/// the setting and the room, as without one.
#[test]
fn a_ceiling_refuses_no_morning() {
    let plan = plan_q();
    assert_eq!(list_stands(&plan, morning_up_to(0), &[]), (vec![], vec![]));
    refused_as_ever(morning_up_to(0));
}

/// The door change and the printing program have no ceiling: they list what they listed,
/// however many crossings there are.
#[test]
fn no_other_call_has_a_ceiling() {
    let plan = hall();
    let query = from(0, 5);
    let (given, crossings) = list(&plan, query.without_ceiling()).expect("it is inside");
    assert_eq!((given.len(), crossings), (6, 6));
    let asked = DoorChange {
        query,
        given: given.as_flattened(),
        door: 0,
        shut: true,
    };
    let changed = listed(room(&plan), |calls, table| {
        calls.change(plan.lists(), asked, table)
    });
    let shut = Query {
        setting: 1,
        ..query
    };
    assert_eq!(changed, list(&plan, shut.without_ceiling()));
    let input = [query_record(0, query.stand), encode(plan.lists())].concat();
    let text = both(|calls| calls.print(&input));
    assert!(text.starts_with(b"rows 6 crossings 6\n"));
}

/// How often listings of a run came up.
#[derive(Debug, Default)]
struct Seen {
    /// Without a crossing.
    without: usize,
    /// With crossings, from inside a cell and from a side; and of these within a reach.
    from_inside: usize,
    from_sides: usize,
    with_reach: usize,
}

/// Refused exactly when the crossings of the listing without a ceiling exceed it, and else
/// that listing; so what is given is the same up to every higher ceiling. Every tenth plan
/// is put to the proved library too.
#[test]
fn a_ceiling_refuses_or_leaves_the_listing_anywhere() {
    let mut seen = Seen::default();
    for number in 0..6_000 {
        let scene = generate::case(41, number).scene;
        let lists = scene.plan.lists();
        let lent = vec![7; room(&scene.plan)];
        let ask = |ceiling| {
            let query = scene.query();
            let left = |calls: &dyn Calls| {
                let mut table = lent.clone();
                let reply = calls.list(lists, Listing { query, ceiling }, &mut table);
                (reply, table)
            };
            match number % 10 {
                0 => both(left),
                _ => left(&Paper),
            }
        };
        let unlimited = ask(None);
        let [_, crossings, ..] = unlimited.0.values;
        let around = [crossings.saturating_sub(1), crossings, crossings + 1];
        for ceiling in [&around[..], &[0, crossings / 2, 2 * crossings], &LARGE].concat() {
            let left = ask(Some(ceiling));
            if crossings > ceiling {
                assert_eq!(left, (Reply::refused(19, 0), lent.clone()), "{scene:?}");
            } else {
                assert_eq!(left, unlimited, "{scene:?}");
            }
        }
        if unlimited.0.number != 0 {
            continue;
        }
        let floor = Floor::check(lists).expect("it was listed");
        let view = View::new(&floor, scene.query()).expect("it was listed");
        match (crossings, view.place()) {
            (0, _) => seen.without += 1,
            (_, Place::Inside(_)) => seen.from_inside += 1,
            (_, Place::Within(_)) => seen.from_sides += 1,
        }
        seen.with_reach += usize::from(crossings > 0 && scene.reach.is_stated());
    }
    println!("{seen:?}");
    assert!(seen.without > 500 && seen.from_inside > 500, "{seen:?}");
    assert!(seen.from_sides > 200 && seen.with_reach > 300, "{seen:?}");
}

/// How often each ceiling was given to a listing, and to a morning.
#[test]
fn ceilings_of_every_kind_are_given() {
    let mut counts = [[0; 9]; 2];
    for number in 0..4_000 {
        let case = generate::case(42, number);
        for (counts, ceiling) in counts.iter_mut().zip([case.ceiling, case.morning_ceiling]) {
            let kind = match ceiling {
                Ceiling::None => 0,
                Ceiling::Number(0) => 1,
                Ceiling::Number(u64::MAX) => 2,
                Ceiling::Number(number) if number >= 1 << 32 => 3,
                Ceiling::Number(_) => 4,
                Ceiling::Beside { by: 0, .. } => 5,
                Ceiling::Beside { by: -1, .. } => 6,
                Ceiling::Beside { by: 1, .. } => 7,
                Ceiling::Beside { .. } => 8,
            };
            counts[kind] += 1;
        }
    }
    let counts = counts.as_flattened();
    assert!(counts.iter().all(|&count| count > 50), "{counts:?}");
}
