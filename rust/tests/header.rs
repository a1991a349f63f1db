//! The numbers of `include/manopluea.h` are those of the documents, and its stack
//! is enough for every function.

use manopluea::STACK;
use manopluea_compare::calls::{
    Query, Refusal, Reply, Stand, MOST_STANDS, MOST_TEXT, POINT, POLYGONS, REPLY, TRIANGLES, WALL,
};
use manopluea_compare::generate::{self, in_other_kind};
use manopluea_compare::paper::{
    self, encode, Direction, Floor, Place, View, CELLS, COORDINATES, CORNERS, DOORS, MOST_INPUT,
    MOST_OFFSET, REACHES, SIDES,
};
use manopluea_compare::stack::doorway;
use std::process::{Command, Output};

const HEADER: &str = include_str!("../../include/manopluea.h");

/// What the header defines a name as.
fn defined_text(name: &str) -> &'static str {
    HEADER
        .lines()
        .find_map(|line| {
            line.strip_prefix("#define MANOPLUEA_")?
                .strip_prefix(name)?
                .strip_prefix(' ')
        })
        .unwrap_or_else(|| panic!("MANOPLUEA_{name} is not defined"))
}

/// The number that the header defines under a name.
fn defined(name: &str) -> i64 {
    defined_text(name).parse().expect("it is a number")
}

#[test]
fn the_limits() {
    assert_eq!(defined("LEAST_CORNERS"), *CORNERS.start() as i64);
    assert_eq!(defined("MOST_CORNERS"), *CORNERS.end() as i64);
    assert_eq!(defined("LEAST_CELLS"), *CELLS.start() as i64);
    assert_eq!(defined("MOST_CELLS"), *CELLS.end() as i64);
    assert_eq!(defined("MOST_DOORS"), *DOORS.end() as i64);
    assert_eq!(defined("MOST_COORDINATE"), *COORDINATES.end());
    assert_eq!(defined("WALL"), i64::from(WALL));
    assert_eq!(defined("MOST_STANDS"), MOST_STANDS as i64);
    assert_eq!(defined_text("POINT"), format!("({POINT:?})"));
    assert_eq!(defined("MOST_INPUT"), MOST_INPUT as i64);
    assert_eq!(defined("LEAST_SIDES"), *SIDES.start() as i64);
    assert_eq!(defined("MOST_SIDES"), *SIDES.end() as i64);
    assert_eq!(defined("TRIANGLES"), i64::from(TRIANGLES));
    assert_eq!(defined("POLYGONS"), i64::from(POLYGONS));
    assert_eq!(defined("REPLY"), REPLY as i64);
    assert_eq!(defined("LEAST_REACH"), *REACHES.start() as i64);
    assert_eq!(defined("MOST_REACH"), *REACHES.end() as i64);
    assert_eq!(defined("MOST_OFFSET"), MOST_OFFSET);
    assert_eq!(defined("STACK"), STACK as i64);
}

/// No list could be longer, and only because its cells overlap is the plan refused.
#[test]
fn the_largest_file() {
    let (longest, _) = generate::longest_lists();
    let floor = Floor::agreeing(longest.lists()).expect("its cells agree along their lines");
    let counts = [
        floor.corners().len(),
        floor.cell_count(),
        floor.doors().len(),
    ];
    assert_eq!(counts, [CORNERS, CELLS, DOORS].map(|counts| *counts.end()));
    assert_eq!(longest.cells.len(), (1 + 2 * SIDES.end()) * CELLS.end());
    let refused = paper::check(longest.lists());
    assert_eq!(refused, Reply::from(Refusal::Overlap(0)));
    let most = encode(longest.lists()).len() as i64;
    assert_eq!(defined("MOST_FILE"), most);
}

/// As many rows as there are corners, each number as long as it can be.
#[test]
fn the_text_has_room_for_the_longest_answer() {
    assert_eq!(defined("TEXT"), MOST_TEXT as i64);
    let rows = *CORNERS.end();
    let (face, corner) = (SIDES.end() * CELLS.end() - 1, rows - 1);
    let row = format!("{face} {corner} {corner} 1\n");
    let crossings = rows * (CELLS.end() - 1);
    let first = format!("rows {rows} crossings {crossings}\n");
    assert!(first.len() + rows * row.len() <= MOST_TEXT);
}

#[test]
fn the_reply_numbers() {
    let refusals = [
        Refusal::Frame,
        Refusal::Size,
        Refusal::Corner(0),
        Refusal::Cell(0),
        Refusal::Neighbour(0),
        Refusal::Door(0),
        Refusal::Setting,
        Refusal::Stand,
        Refusal::Line,
        Refusal::Outside,
        Refusal::Room,
        Refusal::Change,
        Refusal::Rows,
        Refusal::Far,
        Refusal::Reach,
        Refusal::Overlap(0),
        Refusal::Ceiling,
    ];
    let expected = refusals.map(|refusal| {
        let name = format!("{refusal:?}").replace("(0)", "").to_uppercase();
        format!("{name} = {}", refusal.number())
    });
    let listed: Vec<&str> = HEADER
        .lines()
        .filter_map(|line| line.strip_prefix("    MANOPLUEA_"))
        .filter_map(|line| line.split([',', '/']).next().map(str::trim))
        .collect();
    assert_eq!(listed[0], "DONE = 0");
    assert_eq!(listed[1..], expected);
}

/// No plan has more than 3,000 cells, and no line of sight enters a cell twice.
#[test]
fn no_floor_is_deeper_than_the_deepest() {
    let (mesh, [x, y]) = generate::deepest();
    assert_eq!(mesh.cells.len(), *CELLS.end());
    let plan = mesh.plan(&[]);
    let other = in_other_kind(&plan).expect("it is of triangles");
    for plan in [plan, other] {
        let floor = Floor::check(plan.lists()).expect("the paper program accepts it");
        let query = Query::without_reach(0, Stand::Point(x as f64, y as f64));
        let view = View::new(&floor, query).expect("the stand is inside");
        let west = Direction { x: -1, y: 0 };
        assert!(!view.meets_corner(west));
        let walk = view.walk(west).expect("it ends at a wall");
        assert_eq!(walk.route.len(), CELLS.end() - 1);
    }
}

/// From a side two cells are not entered any more: all the others are.
#[test]
fn no_floor_is_deeper_from_a_side() {
    let (mesh, inside) = generate::deepest();
    let plan = mesh.plan(&[]);
    let [x, y] = doorway(&plan, inside).expect("a line leads on");
    let floor = Floor::check(plan.lists()).expect("the paper program accepts it");
    let query = Query::without_reach(0, Stand::Point(x as f64, y as f64));
    let view = View::new(&floor, query).expect("the stand is on a free side");
    assert!(matches!(view.place(), Place::Within(_)));
    let west = Direction { x: -1, y: 0 };
    assert!(!view.meets_corner(west));
    let walk = view.walk(west).expect("it ends at a wall");
    assert_eq!(walk.route.len(), CELLS.end() - 2);
}

/// Every function on the deepest floors known and on the fullest plan, in a process
/// of its own: a stack that ends there ends that process, not the tests.
fn on_stack(bytes: i64) -> Output {
    Command::new(env!("CARGO_BIN_EXE_manopluea-compare"))
        .args(["stack", &bytes.to_string()])
        .output()
        .expect("the program of this package starts")
}

#[test]
fn the_stack_is_enough_for_every_function() {
    let stated = defined("STACK");
    let asked = on_stack(stated);
    let [said, fault] =
        [asked.stdout, asked.stderr].map(|text| String::from_utf8_lossy(&text).into_owned());
    assert!(
        asked.status.success(),
        "on {stated} bytes: {}\nthe last of these was asked: {said}{fault}",
        asked.status
    );
}

/// A listing's own tables alone are larger than a sixteenth of what is stated.
#[test]
fn a_stack_that_is_too_small_is_noticed() {
    assert!(!on_stack(defined("STACK") / 16).status.success());
}
