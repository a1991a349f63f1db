//! Times of the public calls on four floors, of listings with a reach and up to a
//! ceiling there and of drawings, on two of them of finding less the check, on one of a
//! morning's stands and of its triangles merged into larger cells, and of the check alone on
//! two floors of slivers: of the proved library, of the second program and of plain Rust, side by side.

use crate::calls::{
    Calls, DoorChange, Listing, Lists, Morning, Plan, Query, Reach, Refusal, Stand, DRAWN,
    MOST_STANDS, ROW,
};
use crate::generate::{self, Dice, Merged, Mesh};
use crate::paper::{self, Paper, DOORS, REACHES};
use crate::plain;
use std::fmt::Write;
use std::hint::black_box;
use std::time::{Duration, Instant};

/// How long the calls are made over and over on each floor.
const TIME_EACH: Duration = Duration::from_secs(4);

/// Fewest rounds behind a median, for listings that take long.
const FEWEST_ROUNDS: usize = 51;

/// The floors on which finding is timed by itself.
const FLOORS_FINDING: [&str; 2] = ["cathedral", "largest"];

/// A ceiling that every floor's listing passes.
const CEILING: u64 = 1_000;

/// So many stands are tried for the one that sees through most lines.
const STANDS_TRIED: usize = 60;

/// A floor, and what is asked about it: every door is open, one is to be shut.
struct Floor {
    name: &'static str,
    plan: Plan,
    /// The stands tried, and which of them crosses most lines: it is the floor's own.
    tried: Vec<Stand>,
    best: usize,
    /// The true list.
    given: Vec<u16>,
    crossings: u64,
    door: usize,
    /// The same floor and doors, with every triangle merged that could be.
    merged: Plan,
    /// The longer of its two sides, in millimetres.
    size: u64,
}

impl Floor {
    fn stand(&self) -> Stand {
        self.tried[self.best]
    }

    /// The first of the stands tried, as many as a morning has.
    fn morning(&self) -> &[Stand] {
        &self.tried[..MOST_STANDS]
    }

    /// The stands tried, the floor's own before the others.
    fn best_first(&self) -> Vec<Stand> {
        let mut stands = self.tried.clone();
        stands[..=self.best].rotate_right(1);
        stands
    }

    /// With every door open, from the floor's stand.
    fn query(&self, reach: Reach) -> Query {
        Query {
            reach,
            ..Query::without_reach(0, self.stand())
        }
    }

    /// A tenth of the floor's size, that size, and the longest: no reach is longer,
    /// though a floor may be.
    fn reaches(&self) -> [u64; 3] {
        let most = *REACHES.end();
        [self.size / 10, self.size.min(most), most]
    }

    /// Its listing without a reach.
    fn listing(&self, ceiling: Option<u64>) -> Listing {
        Listing {
            query: self.query(Reach::NotStated),
            ceiling,
        }
    }
}

/// A call made on a floor.
type Call<'a> = Box<dyn FnMut() + 'a>;

/// Medians of one program on one floor, in nanoseconds a call.
struct Times {
    check: f64,
    find: f64,
    list: f64,
    /// The listing with the door shut.
    list_after: f64,
    change: f64,
}

impl Times {
    /// From the medians of `calls_on`, in its order.
    fn new([check, find, list, list_after, change]: [f64; 5]) -> Times {
        Times {
            check,
            find,
            list,
            list_after,
            change,
        }
    }

    /// All that a listing does once the stand's cell is known.
    fn expansion(&self) -> f64 {
        self.list - self.find
    }

    fn two_listings(&self) -> f64 {
        self.list + self.list_after
    }
}

/// Times the calls on each floor, the check on slivers, on the first floor, the cathedral, a
/// morning and the merged cells, and finding by itself; reports medians.
pub fn report(proved: &dyn Calls) -> String {
    let floors = floors();
    let calls = floors.iter().map(|floor| {
        let programs = [
            calls_of(floor, proved),
            calls_of(floor, &Paper),
            calls_on(floor, plain::check, plain::find, plain::list, plain::change),
        ];
        describe(floor, &medians(programs).map(Times::new))
    });
    let slivers = [
        ("one fan", generate::one_fan()),
        ("two fans", generate::two_fans()),
    ];
    let checks = slivers.map(|floor| report_slivers(floor, proved));
    let pairs = floors.iter().map(|floor| report_pairs(floor, proved));
    let text = calls.collect::<String>() + &pairs.collect::<String>() + &checks.concat();
    let reaches = floors.iter().map(|floor| report_reaches(floor, proved));
    let text = text + &reaches.collect::<String>();
    let ceilings = floors.iter().map(|floor| report_ceilings(floor, proved));
    let text = text + &ceilings.collect::<String>();
    let text = text + &report_all_drawn(&floors, proved);
    let text = text + &report_morning(&floors[0], proved) + "\n";
    let text = text + &report_merged(&floors[0], proved) + "\n";
    text + &report_found(&floors, proved)
}

/// A floor for another program: its plan file, and the stands tried on it as CSV, the one
/// that crosses most lines first. None where no floor has the name.
pub fn files(name: &str) -> Option<(Vec<u8>, String)> {
    let floor = floors().into_iter().find(|floor| floor.name == name)?;
    let mut stands = "x,y\n".to_string();
    for stand in floor.best_first() {
        let [_, x, y] = stand.numbers();
        writeln!(stands, "{x},{y}").expect("a string takes every line");
    }
    Some((paper::encode(floor.plan.lists()), stands))
}

/// The last part of the report alone: finding.
pub fn report_finding(proved: &dyn Calls) -> String {
    report_found(&floors(), proved)
}

/// Of the report drawings alone.
pub fn report_drawing(proved: &dyn Calls) -> String {
    report_all_drawn(&floors(), proved)
}

fn report_all_drawn(floors: &[Floor], proved: &dyn Calls) -> String {
    let floors = floors.iter();
    floors.map(|floor| report_drawn(floor, proved)).collect()
}

fn report_drawn(floor: &Floor, proved: &dyn Calls) -> String {
    let programs = [
        drawing_of(floor, proved),
        drawing_of(floor, &Paper),
        drawing_on(floor, plain::list, plain::draw),
    ];
    describe_drawn(floor, medians(programs))
}

fn report_found(floors: &[Floor], proved: &dyn Calls) -> String {
    let floors = floors.iter();
    let timed = floors.filter(|floor| FLOORS_FINDING.contains(&floor.name));
    let parts = timed.map(|floor| {
        let stands = outside(floor);
        let programs = [
            finding_of(floor, &stands, proved),
            finding_of(floor, &stands, &Paper),
            finding_on(floor, &stands, plain::list_stands),
        ];
        describe_found(floor, &stands, medians(programs))
    });
    parts.collect::<Vec<String>>().join("\n")
}

/// The check where no box tells of two cells that they do not overlap.
fn report_slivers((name, mesh): (&str, Mesh), proved: &dyn Calls) -> String {
    let plan = mesh.plan(&[]);
    let lists = plan.lists();
    let programs: [[Call<'_>; 1]; 3] = [
        [Box::new(|| {
            black_box(proved.check(lists));
        })],
        [Box::new(|| {
            black_box(Paper.check(lists));
        })],
        [Box::new(|| {
            black_box(plain::check(lists).is_ok());
        })],
    ];
    let times = medians(programs);
    let sizes = sizes(name, &plan);
    let check = line("check", 0, times.map(|[check]| check));
    format!("{sizes}\n{}{check}\n", columns())
}

/// The check with and without the comparison of cells: a last door that is no face is
/// found wrong just before it.
fn report_pairs(floor: &Floor, proved: &dyn Calls) -> String {
    let wrong = without_pairs(&floor.plan);
    let plans = [floor.plan.lists(), wrong.lists()];
    let programs: [[Call<'_>; 2]; 3] = [
        plans.map(|lists| -> Call<'_> {
            Box::new(move || {
                black_box(proved.check(lists));
            })
        }),
        plans.map(|lists| -> Call<'_> {
            Box::new(move || {
                black_box(Paper.check(lists));
            })
        }),
        plans.map(|lists| -> Call<'_> {
            Box::new(move || {
                black_box(plain::check(lists).is_ok());
            })
        }),
    ];
    let times = medians(programs);
    let [whole, before] = [0, 1].map(|call| times.map(|times| times[call]));
    let mut text = format!(
        "{}, the check with and without pairs\n{}",
        floor.name,
        columns()
    );
    text += &line("check", 0, whole);
    text += &line("refused for its last door", 0, before);
    text += &line("check / so refused", 2, against(whole, before));
    text + "\n"
}

/// The plan with its last door at no face.
fn without_pairs(plan: &Plan) -> Plan {
    let mut wrong = plan.clone();
    *wrong.doors.last_mut().expect("the floors have doors") = u16::MAX;
    wrong
}

fn report_reaches(floor: &Floor, proved: &dyn Calls) -> String {
    let programs = [
        reaches_of(floor, proved),
        reaches_of(floor, &Paper),
        reaches_on(floor, plain::find, plain::list),
    ];
    describe_reaches(floor, medians(programs))
}

fn report_ceilings(floor: &Floor, proved: &dyn Calls) -> String {
    let programs = [
        ceilings_of(floor, proved),
        ceilings_of(floor, &Paper),
        ceilings_on(floor, plain::check, plain::find, plain::list),
    ];
    describe_ceilings(floor, medians(programs))
}

fn report_morning(floor: &Floor, proved: &dyn Calls) -> String {
    let programs = [
        morning_of(floor, proved),
        morning_of(floor, &Paper),
        morning_on(floor, plain::list_stands, plain::list),
    ];
    describe_morning(floor, medians(programs))
}

fn report_merged(floor: &Floor, proved: &dyn Calls) -> String {
    let programs = [
        merged_of(floor, proved),
        merged_of(floor, &Paper),
        merged_on(floor, plain::check, plain::find, plain::list),
    ];
    describe_merged(floor, medians(programs))
}

/// Four floors, each from the stand that crosses most lines.
fn floors() -> Vec<Floor> {
    let dice = &mut Dice::new(1);
    let meshes = [
        ("cathedral", generate::cathedral(29, 39, 40, dice)),
        ("corridor", generate::corridor(1_000, 10, 100, 0, dice)),
        ("largest", generate::largest(60, dice)),
        // As many corners and cells as a plan may have. Every second field of
        // the fence is a gap, and sends a cone of its own through all layers.
        ("splitting", generate::fence(956, 545, 64)),
    ];
    meshes
        .into_iter()
        .map(|(name, mesh)| floor(name, &mesh, dice))
        .collect()
}

fn floor(name: &'static str, mesh: &Mesh, dice: &mut Dice) -> Floor {
    let doors = most_doors(mesh, dice);
    let plan = mesh.plan(&doors);
    // Checked once for all that is tried: that takes longer than most listings.
    let checked = paper::Floor::check(plan.lists()).expect("it passes the check");
    let tried: Vec<_> = (0..STANDS_TRIED)
        .map(|_| {
            let [x, y] = generate::inside(mesh, dice);
            let stand = Stand::Point(x as f64, y as f64);
            (stand, seen(&checked, Query::without_reach(0, stand)))
        })
        .collect();
    let (tried, listings): (Vec<Stand>, Vec<_>) = tried.into_iter().unzip();
    let (best, (given, crossings)) = listings
        .into_iter()
        .enumerate()
        .max_by_key(|(_, (_, crossings))| *crossings)
        .expect("some stand is tried");
    let stand = tried[best];
    // A door that is seen, so that the change changes something.
    let door = (0..plan.doors.len())
        .find(|door| seen(&checked, Query::without_reach(1 << door, stand)).0 != given)
        .expect("some door is seen");
    Floor {
        name,
        plan,
        tried,
        best,
        given,
        crossings,
        door,
        // Dice of its own, so that the floors after it stay what they were.
        merged: Merged::whole(mesh, &doors, &mut Dice::new(2)).plan(&doors),
        size: size(mesh),
    }
}

/// The longer side of the rectangle that a floor lies in.
fn size(mesh: &Mesh) -> u64 {
    let sides = [0, 1].map(|axis| {
        let along = || mesh.corners.iter().map(|corner| corner[axis]);
        along().max().unwrap_or(0) - along().min().unwrap_or(0)
    });
    sides[0].max(sides[1]) as u64
}

fn most_doors(mesh: &Mesh, dice: &mut Dice) -> Vec<usize> {
    let mut lines = mesh.free_lines();
    dice.shuffle(&mut lines);
    lines.truncate(*DOORS.end());
    lines
}

/// How many cells a plan has that passes the check.
fn cells(plan: &Plan) -> u64 {
    let [_, cells, ..] = paper::check(plan.lists()).values;
    cells
}

/// The rows and crossings that the second program lists.
fn listing(plan: &Plan, query: Query) -> (Vec<u16>, u64) {
    let checked = paper::Floor::check(plan.lists()).expect("it passes the check");
    seen(&checked, query)
}

/// The same of a plan that it has checked; none where the stand is refused.
fn seen(checked: &paper::Floor, query: Query) -> (Vec<u16>, u64) {
    let view = paper::View::new(checked, query);
    view.map_or_else(
        |_| (Vec::new(), 0),
        |view| {
            let listed = view.list();
            (listed.rows.concat(), listed.crossings)
        },
    )
}

fn table(plan: &Plan) -> Vec<u16> {
    vec![0; ROW * plan.corners.len() / 2]
}

fn offsets(plan: &Plan) -> Vec<f32> {
    vec![0.0; DRAWN * plan.corners.len() / 2]
}

fn calls_of<'a>(floor: &'a Floor, calls: &'a dyn Calls) -> [Call<'a>; 5] {
    calls_on(
        floor,
        |lists| calls.check(lists),
        |lists, setting, stand| calls.find(lists, setting, stand),
        |lists, listing, table| calls.list(lists, listing, table),
        |lists, change, table| calls.change(lists, change, table),
    )
}

/// The calls that are timed, in the order of `Times`. No answer has a use, and
/// a black box keeps each call from being left out for that.
fn calls_on<'a, Checked, Found, Listed>(
    floor: &'a Floor,
    check: impl Fn(Lists<'a>) -> Checked + 'a,
    find: impl Fn(Lists<'a>, u64, Stand) -> Found + 'a,
    list: impl Fn(Lists<'a>, Listing, &mut [u16]) -> Listed + Copy + 'a,
    change: impl Fn(Lists<'a>, DoorChange<'a>, &mut [u16]) -> Listed + 'a,
) -> [Call<'a>; 5] {
    let (lists, stand) = (floor.plan.lists(), floor.stand());
    let list_under = |setting| {
        let listing = Query::without_reach(setting, stand).without_ceiling();
        list_again(&floor.plan, listing, list)
    };
    let shutting = DoorChange {
        query: Query::without_reach(0, stand),
        given: &floor.given,
        door: floor.door,
        shut: true,
    };
    let mut changed = table(&floor.plan);
    [
        Box::new(move || {
            black_box(check(lists));
        }),
        Box::new(move || {
            black_box(find(lists, 0, stand));
        }),
        list_under(0),
        list_under(1 << floor.door),
        Box::new(move || {
            black_box(change(lists, shutting, &mut changed));
        }),
    ]
}

/// A listing, into the same table each time.
fn list_again<'a, Listed>(
    plan: &'a Plan,
    listing: Listing,
    list: impl Fn(Lists<'a>, Listing, &mut [u16]) -> Listed + 'a,
) -> Call<'a> {
    let mut table = table(plan);
    Box::new(move || {
        black_box(list(plan.lists(), listing, &mut table));
    })
}

fn morning_of<'a>(floor: &'a Floor, calls: &'a dyn Calls) -> [Call<'a>; 2] {
    morning_on(
        floor,
        |lists, morning, stands, table, replies| {
            calls.list_stands(lists, morning, stands, table, replies)
        },
        |lists, listing, table| calls.list(lists, listing, table),
    )
}

/// A morning's stands in one call, and in a call for each.
fn morning_on<'a, Listed>(
    floor: &'a Floor,
    together: impl Fn(Lists<'a>, Morning, &[f64], &mut [u16], &mut [u64]) -> Listed + 'a,
    list: impl Fn(Lists<'a>, Listing, &mut [u16]) -> Listed + 'a,
) -> [Call<'a>; 2] {
    let (lists, morning) = (floor.plan.lists(), Morning::under(0));
    let mut table = table(&floor.plan);
    [
        together_on(floor, floor.morning(), together),
        Box::new(move || {
            for &stand in floor.morning() {
                black_box(list(lists, morning.listing(stand), &mut table));
            }
        }),
    ]
}

fn reaches_of<'a>(floor: &'a Floor, calls: &'a dyn Calls) -> [Call<'a>; 5] {
    reaches_on(
        floor,
        |lists, setting, stand| calls.find(lists, setting, stand),
        |lists, listing, table| calls.list(lists, listing, table),
    )
}

/// Finding, a listing that states no reach, and one for each of the floor's.
fn reaches_on<'a, Found, Listed>(
    floor: &'a Floor,
    find: impl Fn(Lists<'a>, u64, Stand) -> Found + 'a,
    list: impl Fn(Lists<'a>, Listing, &mut [u16]) -> Listed + Copy + 'a,
) -> [Call<'a>; 5] {
    let list_within = |reach| {
        let listing = floor.query(reach).without_ceiling();
        list_again(&floor.plan, listing, list)
    };
    let [tenth, size, most] = floor
        .reaches()
        .map(|reach| list_within(Reach::Stated(reach)));
    [
        Box::new(move || {
            black_box(find(floor.plan.lists(), 0, floor.stand()));
        }),
        list_within(Reach::NotStated),
        tenth,
        size,
        most,
    ]
}

fn ceilings_of<'a>(floor: &'a Floor, calls: &'a dyn Calls) -> [Call<'a>; 5] {
    ceilings_on(
        floor,
        |lists| calls.check(lists),
        |lists, setting, stand| calls.find(lists, setting, stand),
        |lists, listing, table| calls.list(lists, listing, table),
    )
}

/// Check, finding, a listing without a ceiling, one that passes its ceiling, and one
/// that just keeps to it.
fn ceilings_on<'a, Checked, Found, Listed>(
    floor: &'a Floor,
    check: impl Fn(Lists<'a>) -> Checked + 'a,
    find: impl Fn(Lists<'a>, u64, Stand) -> Found + 'a,
    list: impl Fn(Lists<'a>, Listing, &mut [u16]) -> Listed + Copy + 'a,
) -> [Call<'a>; 5] {
    let lists = floor.plan.lists();
    let list_up_to = |ceiling| list_again(&floor.plan, floor.listing(ceiling), list);
    [
        Box::new(move || {
            black_box(check(lists));
        }),
        Box::new(move || {
            black_box(find(lists, 0, floor.stand()));
        }),
        list_up_to(None),
        list_up_to(Some(CEILING)),
        list_up_to(Some(floor.crossings)),
    ]
}

fn drawing_of<'a>(floor: &'a Floor, calls: &'a dyn Calls) -> [Call<'a>; 2] {
    drawing_on(
        floor,
        |lists, listing, table| calls.list(lists, listing, table),
        |lists, query, offsets| calls.draw(lists, query, offsets),
    )
}

/// A listing, and the drawing of its rows.
fn drawing_on<'a, Listed>(
    floor: &'a Floor,
    list: impl Fn(Lists<'a>, Listing, &mut [u16]) -> Listed + 'a,
    draw: impl Fn(Lists<'a>, Query, &mut [f32]) -> Listed + 'a,
) -> [Call<'a>; 2] {
    let (lists, query) = (floor.plan.lists(), floor.query(Reach::NotStated));
    let mut offsets = offsets(&floor.plan);
    [
        list_again(&floor.plan, floor.listing(None), list),
        Box::new(move || {
            black_box(draw(lists, query, &mut offsets));
        }),
    ]
}

fn merged_of<'a>(floor: &'a Floor, calls: &'a dyn Calls) -> [Call<'a>; 6] {
    merged_on(
        floor,
        |lists| calls.check(lists),
        |lists, setting, stand| calls.find(lists, setting, stand),
        |lists, listing, table| calls.list(lists, listing, table),
    )
}

/// Check, find and list with the floor in triangles, and then in merged cells.
fn merged_on<'a, Checked, Found, Listed>(
    floor: &'a Floor,
    check: impl Fn(Lists<'a>) -> Checked + Copy + 'a,
    find: impl Fn(Lists<'a>, u64, Stand) -> Found + Copy + 'a,
    list: impl Fn(Lists<'a>, Listing, &mut [u16]) -> Listed + Copy + 'a,
) -> [Call<'a>; 6] {
    let on = |plan: &'a Plan| -> [Call<'a>; 3] {
        let (lists, stand) = (plan.lists(), floor.stand());
        [
            Box::new(move || {
                black_box(check(lists));
            }),
            Box::new(move || {
                black_box(find(lists, 0, stand));
            }),
            list_again(plan, floor.listing(None), list),
        ]
    };
    let [[a, b, c], [d, e, f]] = [on(&floor.plan), on(&floor.merged)];
    [a, b, c, d, e, f]
}

/// As many stands as a morning has, each where the floor is and in no cell of it: all
/// cells have to be ruled out, and nothing is listed.
fn outside(floor: &Floor) -> Vec<Stand> {
    let corners = floor.plan.corners.as_chunks::<2>().0;
    let ends = [0, 1].map(|axis| {
        let along = || corners.iter().map(|corner| i64::from(corner[axis]));
        [along().min(), along().max()].map(|end| end.expect("a floor has corners"))
    });
    let mut dice = Dice::new(3);
    let spots = std::iter::repeat_with(|| ends.map(|[low, high]| dice.between(low, high)));
    spots
        .map(|[x, y]| Stand::Point(x as f64, y as f64))
        .filter(|&stand| plain::find(floor.plan.lists(), 0, stand) == Err(Refusal::Outside))
        .take(MOST_STANDS)
        .collect()
}

fn finding_of<'a>(floor: &'a Floor, stands: &[Stand], calls: &'a dyn Calls) -> [Call<'a>; 2] {
    finding_on(floor, stands, |lists, morning, stands, table, replies| {
        calls.list_stands(lists, morning, stands, table, replies)
    })
}

/// Stands in one call, and as many that are refused before they are looked for.
fn finding_on<'a, Listed>(
    floor: &'a Floor,
    stands: &[Stand],
    together: impl Fn(Lists<'a>, Morning, &[f64], &mut [u16], &mut [u64]) -> Listed + Copy + 'a,
) -> [Call<'a>; 2] {
    let refused = vec![Stand::Point(0.5, 0.5); stands.len()];
    [stands, &refused].map(|stands| together_on(floor, stands, together))
}

/// Stands of a floor in one call.
fn together_on<'a, Listed>(
    floor: &'a Floor,
    stands: &[Stand],
    together: impl Fn(Lists<'a>, Morning, &[f64], &mut [u16], &mut [u64]) -> Listed + 'a,
) -> Call<'a> {
    let (lists, morning) = (floor.plan.lists(), Morning::under(0));
    let numbers = numbers(stands);
    let mut tables = table(&floor.plan).repeat(stands.len());
    let mut replies = vec![0; numbers.len()];
    Box::new(move || {
        black_box(together(
            lists,
            morning,
            &numbers,
            &mut tables,
            &mut replies,
        ));
    })
}

fn numbers(stands: &[Stand]) -> Vec<f64> {
    stands.iter().flat_map(|stand| stand.numbers()).collect()
}

/// The median time of each call of each program. The programs take turns, so
/// that a machine that gets slower or faster does so for all of them. Each call checks its
/// plan, also of the second program, which elsewhere remembers a few.
fn medians<const CALLS: usize>(mut programs: [[Call<'_>; CALLS]; 3]) -> [[f64; CALLS]; 3] {
    paper::remember_no_plan();
    let mut samples = [(); 3].map(|()| [(); CALLS].map(|()| Vec::new()));
    let begin = Instant::now();
    while samples[0][0].len() < FEWEST_ROUNDS || begin.elapsed() < TIME_EACH {
        for call in 0..CALLS {
            for (calls, samples) in programs.iter_mut().zip(&mut samples) {
                let start = Instant::now();
                calls[call]();
                samples[call].push(start.elapsed());
            }
        }
    }
    samples.map(|samples| samples.map(median))
}

fn median(mut samples: Vec<Duration>) -> f64 {
    samples.sort_unstable();
    samples[samples.len() / 2].as_nanos() as f64
}

fn describe(floor: &Floor, times: &[Times; 3]) -> String {
    let crossings = floor.crossings as f64;
    let mut text = heading(floor);
    for (name, figure) in [
        ("check", (|of| of.check) as fn(&Times) -> f64),
        ("find", |of| of.find),
        ("list", |of| of.list),
        ("expansion (list - find)", Times::expansion),
        ("change", |of| of.change),
    ] {
        text += &line(name, 0, times.each_ref().map(figure));
    }
    let each = times.each_ref();
    let a_crossing = each.map(|of| of.expansion() / crossings);
    text += &line("expansion, a crossing", 2, a_crossing);
    let against_two = each.map(|of| of.change / of.two_listings());
    text += &line("change / two listings", 2, against_two);
    text.push('\n');
    text
}

/// Each listing with a reach against the one without, and its expansion likewise.
fn describe_reaches(floor: &Floor, times: [[f64; 5]; 3]) -> String {
    let mut text = format!("{}, reaches\n{}", floor.name, columns());
    let [find, none] = [0, 1].map(|call| times.map(|of| of[call]));
    text += &line("list, no reach", 0, none);
    let reaches = floor.reaches();
    for (at, reach) in reaches.into_iter().enumerate() {
        if reaches[..at].contains(&reach) {
            continue;
        }
        let (given, crossings) = listing(&floor.plan, floor.query(Reach::Stated(reach)));
        let (rows, _) = given.as_chunks::<ROW>();
        let far = rows.iter().filter(|&&[.., far]| far == 1).count();
        let list = times.map(|of| of[2 + at]);
        text += &format!(
            "reach {reach}: {} rows, {far} out of reach, {crossings} crossings\n",
            rows.len()
        );
        text += &line("list", 0, list);
        text += &line("  / no reach", 2, against(list, none));
        let [with, without] = [list, none].map(|list| [0, 1, 2].map(|i| list[i] - find[i]));
        text += &line("  expansion / no reach", 2, against(with, without));
    }
    text.push('\n');
    text
}

/// A listing that passes its ceiling against the check and against the listing without
/// one, and a listing that keeps to it against that one.
fn describe_ceilings(floor: &Floor, times: [[f64; 5]; 3]) -> String {
    let mut text = format!("{}, ceilings\n{}", floor.name, columns());
    let of = |call: usize| times.map(|of| of[call]);
    let [check, find, none, passed, kept] = [0, 1, 2, 3, 4].map(of);
    text += &line("check", 0, check);
    text += &line("find", 0, find);
    text += &line("list, no ceiling", 0, none);
    let crossings = floor.crossings;
    text += &format!("ceiling {CEILING}: refused, of {crossings} crossings\n");
    text += &line("list", 0, passed);
    text += &line("  / check", 2, against(passed, check));
    text += &line("  / no ceiling", 3, against(passed, none));
    text += &format!("ceiling {crossings}: listed\n");
    text += &line("list", 0, kept);
    text += &line("  / no ceiling", 2, against(kept, none));
    text.push('\n');
    text
}

fn describe_drawn(floor: &Floor, times: [[f64; 2]; 3]) -> String {
    let rows = floor.given.len() / ROW;
    let mut text = format!("{}, a drawing of {rows} rows\n{}", floor.name, columns());
    let [list, draw] = [0, 1].map(|call| times.map(|times| times[call]));
    text += &line("list", 0, list);
    text += &line("draw", 0, draw);
    text += &line("draw / list", 2, against(draw, list));
    text + "\n"
}

fn describe_morning(floor: &Floor, times: [[f64; 2]; 3]) -> String {
    let listings = floor
        .morning()
        .iter()
        .map(|&stand| listing(&floor.plan, Query::without_reach(0, stand)));
    let (rows, crossings) = listings.fold((0, 0), |(rows, crossings), listing| {
        (rows + listing.0.len() / ROW, crossings + listing.1)
    });
    let count = floor.morning().len();
    let mut text = format!(
        "{}, a morning: {count} stands; {rows} rows, {crossings} crossings\n{}",
        floor.name,
        columns(),
    );
    let [stands, listings] = [format!("{count} stands"), format!("{count} listings")];
    text += &line(&stands, 0, times.map(|[together, _]| together));
    text += &line(&listings, 0, times.map(|[_, each]| each));
    let against_each = times.map(|[together, each]| together / each);
    text + &line(&format!("{stands} / {listings}"), 2, against_each)
}

fn describe_merged(floor: &Floor, times: [[f64; 6]; 3]) -> String {
    let (given, crossings) = listing(&floor.merged, floor.query(Reach::NotStated));
    let mut text = format!(
        "{}, merged: {} cells of {} triangles; {} rows, {crossings} crossings, {:.2} of those \
         through triangles\n{}",
        floor.name,
        cells(&floor.merged),
        cells(&floor.plan),
        given.len() / ROW,
        crossings as f64 / floor.crossings as f64,
        columns(),
    );
    let [triangles, merged] = [0, 3].map(|first| {
        let of_each = times.each_ref();
        of_each.map(|of| [of[first], of[first + 1], of[first + 2]])
    });
    for (name, figure) in [
        ("check", (|[check, _, _]| check) as fn([f64; 3]) -> f64),
        ("find", |[_, find, _]| find),
        ("list", |[_, _, list]| list),
        ("expansion (list - find)", |[_, find, list]| list - find),
    ] {
        let (before, after) = (triangles.map(figure), merged.map(figure));
        text += &line(name, 0, after);
        text += &line("  merged / triangles", 2, against(after, before));
    }
    text
}

/// What the finding of one stand takes, the check left out, and how many side values it
/// works out in plain Rust: of stands that no cell holds, and of stands inside cells.
fn describe_found(floor: &Floor, stands: &[Stand], times: [[f64; 2]; 3]) -> String {
    let count = stands.len() as f64;
    let each = times.map(|[found, refused]| (found - refused) / count);
    let mut text = format!(
        "{}, finding: {count} stands in no cell\n{}",
        floor.name,
        columns()
    );
    text += &line("finding, a stand", 0, each);
    for (name, stands) in [("in no cell", stands), ("inside cells", floor.morning())] {
        let values = stands.iter().map(|&stand| side_values(floor, stand));
        let sum = values.fold([0, 0], |[all, boxed], values| {
            [all + values.without_boxes, boxed + values.with_boxes]
        });
        let [all, boxed] = sum.map(|sum| sum as f64 / count);
        text += &format!(
            "side values, {name}: {all:.1} of all cells, {boxed:.1} by boxes first: {:.4}\n",
            boxed / all
        );
    }
    text
}

/// The side values that finding a stand of a floor works out in plain Rust.
fn side_values(floor: &Floor, stand: Stand) -> plain::SideValues {
    plain::side_values(floor.plan.lists(), stand).expect("the stand is accepted")
}

/// The times of each program against others.
fn against(times: [f64; 3], others: [f64; 3]) -> [f64; 3] {
    [0, 1, 2].map(|program| times[program] / others[program])
}

fn heading(floor: &Floor) -> String {
    format!(
        "{}; {} rows, {} crossings\n{}",
        sizes(floor.name, &floor.plan),
        floor.given.len() / ROW,
        floor.crossings,
        columns(),
    )
}

/// How large a plan is that passes the check, and how many of its cells plain Rust
/// compares for that.
fn sizes(name: &str, plan: &Plan) -> String {
    let [corners, cells, doors, ..] = paper::check(plan.lists()).values;
    let pairs = plain::pairs(plan.lists()).expect("it passes the check");
    format!(
        "{name}: {corners} corners, {cells} cells, {doors} doors; {} pairs of cells looked at, {} \
         with boxes that meet",
        pairs.looked_at, pairs.meeting
    )
}

fn columns() -> String {
    format!(
        "{:<25}{:>11}{:>11}{:>11}{:>15}{:>14}\n",
        "nanoseconds", "proved", "second", "plain", "proved/second", "proved/plain",
    )
}

/// A figure of the three programs with so many decimal places, and its ratios.
fn line(name: &str, places: usize, [proved, second, plain]: [f64; 3]) -> String {
    let mut text = format!("{name:<25}");
    for figure in [proved, second, plain] {
        write!(text, "{figure:>11.places$}").expect("a string takes every figure");
    }
    text + &format!("{:>15.2}{:>14.2}\n", proved / second, proved / plain)
}

#[cfg(test)]
mod tests {
    use super::*;
    use crate::calls::{Refusal, Reply};
    use crate::proved::Proved;

    #[test]
    fn the_floors_are_of_their_sizes() {
        let sizes: Vec<_> = floors()
            .iter()
            .map(|floor| (floor.plan.corners.len() / 2, cells(&floor.plan)))
            .collect();
        assert_eq!(
            sizes,
            [
                (1_200, 2_002),
                (2_002, 2_000),
                (2_048, 3_000),
                (2_048, 3_000)
            ]
        );
    }

    /// The floor's own stand goes first, and the others keep their order.
    #[test]
    fn the_stands_are_those_tried() {
        for floor in floors() {
            let [first, all] =
                [floor.best_first(), floor.tried.clone()].map(|stands| numbers(&stands));
            let (own, others) = first.split_at(3);
            assert_eq!(own, floor.stand().numbers(), "{}", floor.name);
            let (before, after) = all.split_at(3 * floor.best);
            assert_eq!(others, [before, &after[3..]].concat(), "{}", floor.name);
            assert_eq!(all.len(), 3 * STANDS_TRIED, "{}", floor.name);
        }
    }

    /// A plan whose last door is no face is refused for just that.
    #[test]
    fn the_last_door_is_refused() {
        for floor in floors() {
            let wrong = without_pairs(&floor.plan);
            let refused = Reply::from(Refusal::Door(63));
            assert_eq!(Paper.check(wrong.lists()), refused, "{}", floor.name);
            assert_eq!(Proved.check(wrong.lists()), refused, "{}", floor.name);
        }
    }

    /// Slivers are accepted by each program, and the boxes of all of them meet, of the two
    /// fans all but one.
    #[test]
    fn the_slivers_are_checked_alike() {
        let floors = [
            (generate::one_fan(), [2_048, 2_046, 0], 2_046),
            (generate::two_fans(), [1_503, 3_000, 0], 2_999),
        ];
        for (mesh, counts, cells) in floors {
            let plan = mesh.plan(&[]);
            let lists = plan.lists();
            let counts = Reply::done(counts);
            assert_eq!(Paper.check(lists), counts);
            assert_eq!(Proved.check(lists), counts);
            let all = cells * (cells - 1) / 2;
            let pairs = plain::Pairs {
                looked_at: all,
                meeting: all,
            };
            assert_eq!(plain::pairs(lists), Ok(pairs));
        }
    }

    /// Each program finds each stand in the same cell or in none, and boxes leave few side
    /// values.
    #[test]
    fn the_stands_are_found_alike() {
        let floors = floors();
        let timed = floors.iter();
        for floor in timed.filter(|floor| FLOORS_FINDING.contains(&floor.name)) {
            assert_eq!(floor.morning().len(), MOST_STANDS);
            let lists = floor.plan.lists();
            let cells = cells(&floor.plan) as usize;
            for (&stand, holds) in outside(floor)
                .iter()
                .map(|stand| (stand, false))
                .chain(floor.morning().iter().map(|stand| (stand, true)))
            {
                let (found, looked_at) = match plain::find(lists, 0, stand) {
                    Ok(plain::Footing::Inside { cell }) if holds => {
                        (Reply::done([cell as u64]), cell + 1)
                    }
                    Err(Refusal::Outside) if !holds => (Reply::refused(10, 0), cells),
                    other => panic!("{}: {stand:?} is {other:?}", floor.name),
                };
                assert_eq!(Paper.find(lists, 0, stand), found, "{}", floor.name);
                assert_eq!(Proved.find(lists, 0, stand), found, "{}", floor.name);
                let values = side_values(floor, stand);
                assert_eq!(values.without_boxes, 3 * looked_at, "{}", floor.name);
                assert!(values.with_boxes <= 60, "{}", floor.name);
            }
        }
    }

    /// What each program leaves for a listing: the same.
    fn listed_alike(name: &str, plan: &Plan, listing: Listing) -> (Reply, Vec<u16>) {
        let lists = plan.lists();
        let [mut second, mut proved, mut plain] = [(); 3].map(|()| table(plan));
        let left = (Paper.list(lists, listing, &mut second), second);
        let reply = Proved.list(lists, listing, &mut proved);
        assert_eq!((reply, proved), left, "{name}");
        let reply = match plain::list(lists, listing, &mut plain) {
            Ok(counts) => Reply::done([counts.rows as u64, counts.crossings]),
            Err(refusal) => refusal.into(),
        };
        assert_eq!((reply, plain), left, "{name}");
        left
    }

    /// What is timed is the same work: each program lists the same rows.
    #[test]
    fn the_floors_are_listed_alike() {
        for floor in floors() {
            let stated = floor.reaches().map(Reach::Stated);
            for reach in [Reach::NotStated].into_iter().chain(stated) {
                let listing = floor.query(reach).without_ceiling();
                let (reply, _) = listed_alike(floor.name, &floor.plan, listing);
                assert_eq!(reply.number, 0, "{}", floor.name);
            }
            let unlimited = listing(&floor.plan, floor.query(Reach::NotStated));
            assert_eq!(unlimited, (floor.given, floor.crossings), "{}", floor.name);
        }
    }

    /// Each program draws the same, as many rows as are listed.
    #[test]
    fn the_floors_are_drawn_alike() {
        for floor in floors() {
            let (lists, query) = (floor.plan.lists(), floor.query(Reach::NotStated));
            let [mut second, mut proved, mut plain] = [(); 3].map(|()| offsets(&floor.plan));
            let reply = Reply::done([(floor.given.len() / ROW) as u64, floor.crossings]);
            assert_eq!(Paper.draw(lists, query, &mut second), reply);
            assert_eq!(Proved.draw(lists, query, &mut proved), reply);
            let counts = plain::draw(lists, query, &mut plain).expect("no corner is too far");
            let counts = Reply::done([counts.rows as u64, counts.crossings]);
            assert_eq!(counts, reply, "{}", floor.name);
            assert_eq!((&proved, &plain), (&second, &second), "{}", floor.name);
        }
    }

    /// Every floor passes the ceiling, and is listed where it has just as many
    /// crossings.
    #[test]
    fn the_ceilings_are_passed_and_kept_to() {
        for floor in floors() {
            let up_to = |ceiling| {
                let listing = floor.listing(Some(ceiling));
                listed_alike(floor.name, &floor.plan, listing)
            };
            for ceiling in [CEILING, floor.crossings - 1] {
                let refused = (Refusal::Ceiling.into(), table(&floor.plan));
                assert_eq!(up_to(ceiling), refused, "{}", floor.name);
            }
            let unlimited = listed_alike(floor.name, &floor.plan, floor.listing(None));
            assert_eq!(up_to(floor.crossings), unlimited, "{}", floor.name);
        }
    }

    /// With a tenth of a floor's size something is out of reach, and something not.
    #[test]
    fn the_reaches_are_of_three_kinds() {
        for floor in floors() {
            let [tenth, size, most] = floor.reaches();
            assert!(tenth < size && size <= most, "{}", floor.name);
            let (given, crossings) = listing(&floor.plan, floor.query(Reach::Stated(tenth)));
            let (rows, _) = given.as_chunks::<ROW>();
            let far = rows.iter().filter(|&&[.., far]| far == 1).count();
            assert!(far > 0 && far < rows.len(), "{}", floor.name);
            assert!(
                crossings > 0 && crossings < floor.crossings,
                "{}",
                floor.name
            );
            // With the longest there is nothing left that could be crossed.
            let (_, crossings) = listing(&floor.plan, floor.query(Reach::Stated(most)));
            assert_eq!(crossings, floor.crossings, "{}", floor.name);
        }
    }

    /// The merged floor has fewer cells, and the same walls are seen within the
    /// same limits, through fewer lines.
    #[test]
    fn the_merged_floor_lists_the_same_rows() {
        let floor = &floors()[0];
        let walls = |plan: &Plan| {
            let checked = paper::Floor::check(plan.lists()).expect("it passes the check");
            let (given, crossings) = listing(plan, floor.query(Reach::NotStated));
            let (rows, _) = given.as_chunks::<ROW>();
            let seen = rows.iter();
            let mut walls: Vec<_> = seen
                .map(|&[face, right, left, far]| (checked.ends(face), right, left, far))
                .collect();
            walls.sort_unstable();
            (walls, crossings)
        };
        let (triangles, merged) = (walls(&floor.plan), walls(&floor.merged));
        assert_eq!(merged.0, triangles.0);
        assert!(merged.1 < triangles.1);
        assert!(cells(&floor.merged) < cells(&floor.plan) / 2);
        let (reply, _) = listed_alike(floor.name, &floor.merged, floor.listing(None));
        assert_eq!(reply, Reply::done([merged.0.len() as u64, merged.1]));
    }

    /// Each program lists the same rows for a morning, and every stand has some.
    #[test]
    fn the_mornings_are_listed_alike() {
        let floor = &floors()[0];
        let (lists, stands) = (floor.plan.lists(), numbers(floor.morning()));
        let morning = Morning::under(0);
        let lent = || {
            (
                table(&floor.plan).repeat(MOST_STANDS),
                vec![0; stands.len()],
            )
        };
        let ask = |calls: &dyn Calls| {
            let (mut table, mut replies) = lent();
            let reply = calls.list_stands(lists, morning, &stands, &mut table, &mut replies);
            (reply, table, replies)
        };
        let (mut table, mut replies) = lent();
        let counts = plain::list_stands(lists, morning, &stands, &mut table, &mut replies);
        let counts = counts.expect("a floor can be listed");
        let reply = Reply::done([counts.rows as u64, counts.crossings]);
        let plain = (reply, table, replies);
        assert_eq!(ask(&Paper), plain);
        assert_eq!(ask(&Proved), plain);
        let (own, _) = plain.2.as_chunks();
        assert_eq!(own.len(), MOST_STANDS);
        assert!(own.iter().all(|&[number, rows, _]| number == 0 && rows > 0));
    }
}
