//! Stands on a side, request A4 of document 02: the paper program against the
//! request's own words, by brute force, on the plans of seeded runs. No reach is
//! stated, and no ceiling.

use manopluea_compare::brute::{cross, first_met, minus, Spot};
use manopluea_compare::calls::{DoorChange, Plan, Query, Reply, Stand, ROW, WALL};
use manopluea_compare::generate::{self, Dice, Lines, Merged, Scene};
use manopluea_compare::paper::{self, Direction, Floor, Place, Row, View};

/// A face of a checked plan, with all that the words ask about it.
struct Face {
    cell: u64,
    side: u64,
    ends: [Spot; 2],
    is_free: bool,
}

/// Every face, in the order of the numbers.
fn faces(floor: &Floor, setting: u64) -> Vec<Face> {
    let across = floor.across_under(setting).expect("the setting is right");
    let spot = |corner| {
        let at = floor.corner(corner);
        [at.x, at.y].map(i128::from)
    };
    (0..floor.cell_count())
        .flat_map(|cell| (0..).zip(floor.faces(cell)).map(move |face| (cell, face)))
        .map(|(cell, (side, face))| Face {
            cell: cell as u64,
            side,
            ends: floor.ends(face).map(spot),
            is_free: across[usize::from(face)] != WALL,
        })
        .collect()
}

impl Face {
    /// The side value of the ends and a spot.
    fn value(&self, q: Spot) -> i128 {
        let [a, b] = self.ends;
        cross(minus(b, a), minus(q, a))
    }

    /// On the line, and nearer to each end than the other end is.
    fn holds(&self, q: Spot) -> bool {
        let [a, b] = self.ends;
        let far = |a, b| {
            let [x, y] = minus(a, b);
            x * x + y * y
        };
        self.value(q) == 0 && q != a && q != b && far(a, q) < far(a, b) && far(b, q) < far(a, b)
    }
}

fn query(scene: &Scene) -> Query {
    Query::without_reach(scene.setting, scene.stand)
}

/// What finding has to reply, in the words of the request.
fn found(faces: &[Face], q: Spot) -> Result<[u64; 3], u32> {
    let cells = faces.chunk_by(|a, b| a.cell == b.cell);
    let least = |cell: &[Face]| cell.iter().map(|face| face.value(q)).min();
    if let Some(cell) = cells.clone().find(|cell| least(cell) > Some(0)) {
        return Ok([cell[0].cell, 0, 0]);
    }
    if let Some(face) = faces.iter().find(|face| face.is_free && face.holds(q)) {
        return Ok([face.cell, 1, face.side]);
    }
    let on_border = cells.into_iter().any(|cell| least(cell) == Some(0));
    Err(if on_border { 9 } else { 10 })
}

/// Scenes of a run whose plan and setting are right and whose stand is accepted.
fn each_scene(seed: u64, count: u64, mut look: impl FnMut(&Scene, &Floor, Spot)) {
    for number in 0..count {
        let scene = generate::case(seed, number).scene;
        let found = paper::find(scene.plan.lists(), scene.setting, scene.stand);
        if [0, 9, 10].contains(&found.number) {
            let floor = Floor::check(scene.plan.lists()).expect("it passed the check");
            let at = match scene.stand {
                Stand::Point(x, y) => [x, y],
                Stand::Offset(corner, dx, dy) => {
                    let from = floor.corner(corner);
                    [from.x as f64 + dx, from.y as f64 + dy]
                }
            };
            look(&scene, &floor, at.map(|number| number as i128));
        }
    }
}

/// How often each kind of stand on a line came up.
#[derive(Debug, Default)]
struct Stands {
    /// By the corner count of the cell that was found, and of its neighbour.
    on_side: [usize; 9],
    neighbour: [usize; 9],
    as_offset: usize,
    /// Refused: within the line of a shut door, within a wall, on a corner.
    refused: [usize; 3],
    outside_on_the_line: usize,
}

#[test]
fn stands_are_found_as_the_request_says() {
    let mut stands = Stands::default();
    each_scene(21, 20_000, |scene, floor, q| {
        let reply = paper::find(scene.plan.lists(), scene.setting, scene.stand);
        let faces = faces(floor, scene.setting);
        let expected = found(&faces, q);
        let [cell, on_side, side, ..] = reply.values;
        match expected {
            Ok(values) => assert_eq!((reply.number, [cell, on_side, side]), (0, values)),
            Err(number) => assert_eq!((reply.number, reply.values), (number, [0; 5])),
        }
        let holding: Vec<&Face> = faces.iter().filter(|face| face.holds(q)).collect();
        let is_corner = floor
            .corners()
            .iter()
            .any(|at| [at.x, at.y].map(i128::from) == q);
        match expected {
            Ok([cell, 1, side]) => {
                let across = floor.across_under(scene.setting).unwrap();
                let count = |cell| floor.faces(cell).len();
                let face = floor.faces(cell as usize).start + side as u16;
                let back = across[usize::from(face)];
                stands.on_side[count(cell as usize)] += 1;
                stands.neighbour[count(floor.cell_with(back))] += 1;
                stands.as_offset += usize::from(matches!(scene.stand, Stand::Offset(..)));
                // Its two faces: cells do not overlap, so no other line goes there.
                assert_eq!(holding.len(), 2, "{scene:?}");
            }
            Ok(_) => assert!(holding.is_empty(), "{scene:?}"),
            Err(9) => {
                let shut = holding.iter().any(|face| {
                    let first = floor.faces(face.cell as usize).start;
                    let face = first + face.side as u16;
                    (0..floor.doors().len()).any(|door| floor.door_faces(door).contains(&face))
                });
                let kind = match (shut, is_corner) {
                    (true, _) => 0,
                    (false, false) => 1,
                    (false, true) => 2,
                };
                stands.refused[kind] += 1;
            }
            Err(_) => {
                let on_line = |face: &Face| face.is_free && face.value(q) == 0;
                stands.outside_on_the_line += usize::from(faces.iter().any(on_line));
            }
        }
    });
    println!("{stands:?}");
    assert!(
        stands.on_side[3..].iter().all(|&count| count > 20),
        "{stands:?}"
    );
    assert!(
        stands.neighbour[3..].iter().all(|&count| count > 20),
        "{stands:?}"
    );
    assert!(
        stands.refused.iter().all(|&count| count > 100),
        "{stands:?}"
    );
    assert!(
        stands.as_offset > 500 && stands.outside_on_the_line > 20,
        "{stands:?}"
    );
}

/// How often the door change from a side came up, by its door.
#[derive(Debug, Default)]
struct Changes {
    /// A door whose line holds the stand, which is to change or is as wished,
    /// with a table that is long enough or not.
    own: [[usize; 2]; 2],
    other: usize,
    missing: usize,
}

#[test]
fn doors_are_changed_from_a_side_as_the_request_says() {
    let mut changes = Changes::default();
    each_scene(22, 20_000, |scene, floor, q| {
        let reply = paper::find(scene.plan.lists(), scene.setting, scene.stand);
        if reply.number != 0 {
            return;
        }
        let faces = faces(floor, scene.setting);
        let (on_side, corners) = (reply.values[1] == 1, floor.corners().len());
        let mut table = vec![0; ROW * corners];
        let listed = paper::list(
            scene.plan.lists(),
            query(scene).without_ceiling(),
            &mut table,
        );
        let given = &table[..ROW * listed.values[0] as usize];
        let line = floor.doors().get(scene.door).copied();
        let holds = line.is_some_and(|face| faces[usize::from(face)].holds(q));
        for shut in [false, true] {
            let is_shut = line.is_some() && scene.setting >> scene.door & 1 == 1;
            let stays = is_shut == shut;
            for (short, room) in [(0, ROW * corners), (1, ROW * corners - 1)] {
                let asked = DoorChange {
                    query: query(scene),
                    given,
                    door: scene.door,
                    shut,
                };
                let mut changed = vec![7; room];
                let reply = paper::change(scene.plan.lists(), asked, &mut changed);
                let expected = match (on_side && holds, short, line) {
                    (true, _, _) => 9,
                    (_, 1, _) => 11,
                    (_, _, Some(_)) if !stays => 0,
                    _ => 12,
                };
                assert_eq!(reply.number, expected, "{scene:?}");
                if on_side && holds {
                    changes.own[usize::from(stays)][short] += 1;
                }
            }
        }
        if on_side && holds {
            let [cell, _, side, ..] = reply.values;
            let found = floor.faces(cell as usize).start + side as u16;
            assert!(floor.door_faces(scene.door).contains(&found), "{scene:?}");
        }
        assert!(on_side || !holds, "{scene:?}");
        changes.other += usize::from(on_side && !holds && line.is_some());
        changes.missing += usize::from(on_side && line.is_none());
    });
    println!("{changes:?}");
    let own = changes.own.as_flattened();
    assert!(own.iter().all(|&count| count > 200), "{changes:?}");
    assert!(changes.other > 500 && changes.missing > 100, "{changes:?}");
}

/// The rows that hold a direction.
fn holding(floor: &Floor, rows: &[Row], q: Spot, d: Spot) -> Vec<Row> {
    let from_stand = |corner| {
        let at = floor.corner(corner);
        minus([at.x, at.y].map(i128::from), q)
    };
    let holds = |&&[_, right, left, _]: &&Row| {
        cross(from_stand(right), d) > 0 && cross(d, from_stand(left)) > 0
    };
    rows.iter().filter(holds).copied().collect()
}

/// Demand 2 by brute force: whatever direction is taken whose ray meets no corner,
/// one row holds it, on the first wall that it meets, which the walk ends at.
#[test]
fn one_row_holds_each_direction_from_a_side() {
    let (mut from_side, mut from_inside) = (0, 0);
    each_scene(23, 12_000, |scene, floor, q| {
        let Ok(view) = View::new(floor, query(scene)) else {
            return;
        };
        if floor.cell_count() > 150 {
            return;
        }
        let faces = faces(floor, scene.setting);
        let seen = |face: &Face| face.ends.map(|end| minus(end, q));
        let numbered = (0..).zip(&faces);
        let walls: Vec<(u16, [Spot; 2])> = numbered
            .filter(|(_, face)| !face.is_free)
            .map(|(number, face)| (number, seen(face)))
            .collect();
        let rows = view.list().rows;
        assert!(rows.len() <= floor.corners().len());
        let dice = &mut Dice::new(rows.len() as u64);
        let near = |dice: &mut Dice| {
            let at = dice.pick(floor.corners());
            let size = dice.pick(&[1, 1_000]);
            let [x, y] = minus([at.x, at.y].map(i128::from), q).map(|n| n as i64);
            let beside = [
                x * size + dice.between(-1, 1),
                y * size + dice.between(-1, 1),
            ];
            beside.map(|n| n.clamp(-1 << 31, 1 << 31))
        };
        for number in 0..40 {
            let [x, y] = match number % 2 {
                0 => [dice.between(-9, 9), dice.between(-9, 9)],
                _ => near(dice),
            };
            let d = Direction { x, y };
            if [x, y] == [0, 0] || view.meets_corner(d) {
                continue;
            }
            let held = holding(floor, &rows, q, [x, y].map(i128::from));
            let [row] = held[..] else {
                panic!("{d:?} is held by {held:?} in {scene:?}");
            };
            let walk = view.walk(d).expect("the ray meets no corner");
            assert_eq!(row[0], walk.end, "{d:?} in {scene:?}");
            let first = first_met(&walls, [x, y].map(i128::from));
            assert_eq!(first, Some(row[0]), "{d:?} in {scene:?}");
            match view.place() {
                Place::Inside(_) => from_inside += 1,
                Place::Within(_) => from_side += 1,
            }
        }
    });
    println!("{from_side} {from_inside}");
    assert!(
        from_side > 20_000 && from_inside > 20_000,
        "{from_side} {from_inside}"
    );
}

/// The rows in the words of the request, with nothing of the second program's
/// expansion: the other sides of the cell in order after the one stood on, then
/// the neighbour's, and of each the rows that a stand inside would have for it.
#[test]
fn the_order_of_the_rows_is_that_of_the_sides() {
    let mut compared = 0;
    each_scene(24, 8_000, |scene, floor, _| {
        let Ok(view) = View::new(floor, query(scene)) else {
            return;
        };
        let Place::Within(face) = view.place() else {
            return;
        };
        let across = floor.across_under(scene.setting).unwrap();
        let (mut rows, mut crossings) = (Vec::new(), 0);
        for stood_on in [face, across[usize::from(face)]] {
            let all: Vec<u16> = floor.faces(floor.cell_with(stood_on)).collect();
            let at = all.iter().position(|&own| own == stood_on).unwrap();
            for step in 1..all.len() {
                let side = all[(at + step) % all.len()];
                let [right, left] = floor.ends(side);
                let seen = view.expand(vec![[side, right, left]]);
                rows.extend(seen.rows);
                crossings += seen.crossings;
            }
        }
        let listing = view.list();
        assert_eq!((listing.rows, listing.crossings), (rows, crossings));
        compared += 1;
    });
    assert!(compared > 1_000, "{compared}");
}

fn stand_at([x, y]: [i64; 2]) -> Stand {
    Stand::Point(x as f64, y as f64)
}

/// From a line that is not merged away, larger cells list the walls of their
/// triangles within the same limits and in the same order round the stand.
#[test]
fn merged_cells_list_the_walls_of_their_triangles_from_a_side() {
    let (mut compared, mut fewer) = (0, 0);
    for number in 0..6_000 {
        let dice = &mut Dice::for_case(25, number);
        let mut mesh = generate::floor(dice);
        if mesh.extent() < 1 << 27 {
            mesh.map_corners(|at| at.map(|n| 2 * n));
        }
        let doors = generate::doors(&mesh, dice);
        let merged = Merged::random(&mesh, &doors, dice);
        let plan = merged.plan(&doors);
        let [small, large] = [&mesh.plan(&doors), &plan]
            .map(|plan: &Plan| Floor::check(plan.lists()).expect("it passes the check"));
        let numbers = merged.faces();
        let known = u64::MAX
            .checked_shl(doors.len() as u32)
            .map_or(!0, |bits| !bits);
        let lines = Lines::new(&plan);
        for _ in 0..3 {
            let setting = dice.word() & dice.word() & known;
            let Some(on_line) = lines.random(dice) else {
                continue;
            };
            let query = Query::without_reach(setting, stand_at(on_line.at));
            let view = |floor| View::new(floor, query);
            let (Ok(through_small), Ok(through_large)) = (view(&small), view(&large)) else {
                continue;
            };
            let (Place::Within(here), Place::Within(there)) =
                (through_small.place(), through_large.place())
            else {
                continue;
            };
            let line = numbers[usize::from(there)];
            let faces = [Some(line), mesh.across[line]];
            assert!(faces.contains(&Some(here.into())), "floor {number}");
            let (of_small, of_large) = (through_small.list(), through_large.list());
            let row = |[face, right, left, _]: Row| (numbers[usize::from(face)], right, left);
            let rows: Vec<_> = of_large.rows.into_iter().map(row).collect();
            let row = |[face, right, left, _]: Row| (usize::from(face), right, left);
            let mut expected: Vec<_> = of_small.rows.into_iter().map(row).collect();
            let first = expected.iter().position(|row| *row == rows[0]);
            expected.rotate_left(first.expect("the first wall is among them"));
            assert_eq!(rows, expected, "floor {number}");
            assert!(of_large.crossings <= of_small.crossings, "floor {number}");
            compared += 1;
            fewer += usize::from(of_large.crossings < of_small.crossings);
        }
    }
    println!("{compared} {fewer}");
    assert!(compared > 4_000 && fewer > 1_000, "{compared}, {fewer}");
}

/// Of a morning's first stand, of those between, and of its last: how often it is
/// on a side, and how often between two that are refused.
#[test]
fn stands_of_a_morning_are_on_sides_at_every_place() {
    let (mut on_side, mut between_refused) = ([0; 3], 0);
    for number in 0..6_000 {
        let scene = generate::case(26, number).scene;
        let lists = scene.plan.lists();
        let (stands, _) = scene.stands.as_chunks::<3>();
        if paper::check(lists).number != 0 || stands.len() > 32 {
            continue;
        }
        let replies = stands.iter().map(|&numbers| {
            let stand = paper::stand_of(numbers)?;
            Some(paper::find(lists, scene.setting, stand))
        });
        let is_on_side =
            |reply: &Option<Reply>| matches!(reply, Some(found) if found.values[1] == 1);
        let is_refused = |reply: &Option<Reply>| !matches!(reply, Some(found) if found.number == 0);
        let replies: Vec<Option<Reply>> = replies.collect();
        for (at, _) in replies
            .iter()
            .enumerate()
            .filter(|(_, reply)| is_on_side(reply))
        {
            let place = match at {
                0 => 0,
                _ if at + 1 < replies.len() => 1,
                _ => 2,
            };
            on_side[place] += 1;
            let around = place == 1 && is_refused(&replies[at - 1]) && is_refused(&replies[at + 1]);
            between_refused += usize::from(around);
        }
    }
    println!("{on_side:?} {between_refused}");
    assert!(on_side.iter().all(|&count| count > 100), "{on_side:?}");
    assert!(between_refused > 20, "{between_refused}");
}
