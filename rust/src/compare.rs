//! The comparison of two implementors of the public calls over a seeded run.

mod show;
mod shrink;
mod trial;

pub use shrink::smallest;
pub use trial::{Asked, AskedOfBytes, Both, Outcome, Trial};

use crate::calls::{Calls, Refusal, POLYGONS, TRIANGLES};
use crate::generate::{self, Case};
use std::fmt;
use std::num::NonZero;
use std::sync::atomic::{AtomicU64, Ordering};
use std::thread;

/// The printing program is a process for each input, so only one case in so
/// many is put to it.
const PROGRAM_EVERY: u64 = 50;

/// Reply numbers are below this one. There is no reply 16 or 18.
pub const NUMBERS: usize = 20;

/// How many public calls there are.
pub const CALLS: usize = 9;

/// How often each reply number came up, for each call.
#[derive(Clone, Debug, Default, PartialEq, Eq)]
pub struct Tally {
    pub cases: u64,
    /// By the kind of the plan's cells, then by call, then by reply number.
    pub replies: [[[u64; NUMBERS]; CALLS]; 3],
    /// Of a morning's first stand, of those between, and of its last: by their
    /// own reply's number.
    pub stands: [[u64; NUMBERS]; 3],
    /// Directions tried for demand 2, those that meet a corner left out.
    pub directions: u64,
    /// Door changes tried for demand 3.
    pub changes: u64,
    /// Plans of triangles that were put in the other kind too.
    pub either: u64,
    pub rows: u64,
    pub crossings: u64,
    pub sides: Sides,
    pub reaches: Reaches,
    pub ceilings: Ceilings,
    pub drawings: Drawings,
}

/// How often stands on a side came up.
#[derive(Clone, Copy, Debug, Default, PartialEq, Eq)]
pub struct Sides {
    /// In finding.
    pub found: u64,
    /// Of the directions of demand 2, and of the door changes of demand 3.
    pub directions: u64,
    pub changes: u64,
    /// Changes refused because the stand is strictly within the door's line.
    pub own_doors: u64,
}

/// How often reaches came up.
#[derive(Clone, Copy, Debug, Default, PartialEq, Eq)]
pub struct Reaches {
    /// Listings, mornings and door changes that state one.
    pub stated: u64,
    /// Of the rows, those out of reach.
    pub rows: u64,
    /// Of the door changes of demand 3, those of a door that has a row out of reach.
    pub changes: u64,
    /// Listings compared with one of a longer reach, and those of them that then
    /// cross more lines.
    pub longer: u64,
    pub further: u64,
}

/// How often ceilings came up.
#[derive(Clone, Copy, Debug, Default, PartialEq, Eq)]
pub struct Ceilings {
    /// Listings and mornings that have one.
    pub stated: u64,
    /// Of those listings, with just as many crossings, with one more, and with one fewer.
    pub equal: u64,
    pub one_more: u64,
    pub one_fewer: u64,
    /// Of the listings that have more crossings, those that are refused for their room;
    /// those where no side around the stand has more by itself; and those from a stand
    /// on a side where neither of its two cells has more by itself.
    pub without_room: u64,
    pub by_sides: u64,
    pub by_cells: u64,
    /// Mornings where a stand has more between two that are listed, and such as have
    /// more in all while none of their stands has.
    pub between: u64,
    pub in_all: u64,
}

/// How often drawings came up that are near to being refused for a far corner, or nearly
/// were not. Of a drawing the farthest is what any limit of its rows is away, in x or in y.
#[derive(Clone, Copy, Debug, Default, PartialEq, Eq)]
pub struct Drawings {
    /// Drawn with an offset of 0; and with the farthest just as far as can be.
    pub zeros: u64,
    pub farthest: u64,
    /// Refused, with the farthest one millimetre beyond that, and two beyond, which a
    /// single-precision number could have.
    pub one_beyond: u64,
    pub two_beyond: u64,
    /// Refused for x alone, and for y alone; for limits of rows out of reach alone; and from a
    /// side.
    pub by_x: u64,
    pub by_y: u64,
    pub out_of_reach: u64,
    pub from_sides: u64,
    /// Drawn though a corner that is no row's limit is too far; and though an end of a
    /// row's line is.
    pub unnamed: u64,
    pub ends: u64,
    /// Refused for their room where a corner is too far, too.
    pub without_room: u64,
}

/// The public calls, in the order of the tally.
#[derive(Clone, Copy, Debug)]
pub enum Call {
    Check,
    Read,
    Write,
    Find,
    List,
    ListStands,
    Change,
    Draw,
    Print,
}

const CALL_NAMES: [&str; CALLS] = [
    "check", "read", "write", "find", "list", "stands", "change", "draw", "print",
];

/// The kinds that cells come in, in the order of the tally; lists and files of
/// neither come last.
const KIND_NAMES: [&str; 3] = ["kind 2", "kind 12", "neither"];

/// The places of stands in a morning, in the order of the tally.
const PLACE_NAMES: [&str; 3] = ["first", "between", "last"];

impl Tally {
    pub fn count(&mut self, call: Call, kind: u16, number: u32) {
        let kind = match kind {
            TRIANGLES => 0,
            POLYGONS => 1,
            _ => 2,
        };
        // A number the paper does not know is a mismatch, or both agree on
        // it; the tally has no place for it.
        if let Some(count) = self.replies[kind][call as usize].get_mut(number as usize) {
            *count += 1;
        }
    }

    /// Counts the stands of a morning with or without a ceiling, by each one's own
    /// reply.
    fn count_stands(&mut self, replies: &[[u64; 3]], ceiling: Option<u64>) {
        for (at, &[number, ..]) in replies.iter().enumerate() {
            let place = match at {
                0 => 0,
                _ if at + 1 < replies.len() => 1,
                _ => 2,
            };
            if let Some(count) = self.stands[place].get_mut(number as usize) {
                *count += 1;
            }
        }
        let over = u64::from(Refusal::Ceiling.number());
        let is_between = |stands: &[[u64; 3]]| stands.iter().map(|own| own[0]).eq([0, over, 0]);
        self.ceilings.between += u64::from(replies.windows(3).any(is_between));
        let crossings = replies.iter().map(|own| own[2]).sum();
        let all_keep = !replies.iter().any(|own| own[0] == over);
        let in_all = all_keep && ceiling.is_some_and(|most: u64| most < crossings);
        self.ceilings.in_all += u64::from(in_all);
    }

    /// Both tallies as one.
    fn with(mut self, other: &Tally) -> Tally {
        let of_calls = self.replies.iter_mut().flatten();
        let sums = of_calls.chain(&mut self.stands).flatten();
        let of_calls = other.replies.iter().flatten();
        let counts = of_calls.chain(&other.stands).flatten();
        sums.zip(counts).for_each(|(sum, count)| *sum += count);
        self.cases += other.cases;
        self.directions += other.directions;
        self.changes += other.changes;
        self.either += other.either;
        self.rows += other.rows;
        self.crossings += other.crossings;
        self.sides.found += other.sides.found;
        self.sides.directions += other.sides.directions;
        self.sides.changes += other.sides.changes;
        self.sides.own_doors += other.sides.own_doors;
        self.reaches.stated += other.reaches.stated;
        self.reaches.rows += other.reaches.rows;
        self.reaches.changes += other.reaches.changes;
        self.reaches.longer += other.reaches.longer;
        self.reaches.further += other.reaches.further;
        self.ceilings.stated += other.ceilings.stated;
        self.ceilings.equal += other.ceilings.equal;
        self.ceilings.one_more += other.ceilings.one_more;
        self.ceilings.one_fewer += other.ceilings.one_fewer;
        self.ceilings.without_room += other.ceilings.without_room;
        self.ceilings.by_sides += other.ceilings.by_sides;
        self.ceilings.by_cells += other.ceilings.by_cells;
        self.ceilings.between += other.ceilings.between;
        self.ceilings.in_all += other.ceilings.in_all;
        self.drawings.zeros += other.drawings.zeros;
        self.drawings.farthest += other.drawings.farthest;
        self.drawings.one_beyond += other.drawings.one_beyond;
        self.drawings.two_beyond += other.drawings.two_beyond;
        self.drawings.by_x += other.drawings.by_x;
        self.drawings.by_y += other.drawings.by_y;
        self.drawings.out_of_reach += other.drawings.out_of_reach;
        self.drawings.from_sides += other.drawings.from_sides;
        self.drawings.unnamed += other.drawings.unnamed;
        self.drawings.ends += other.drawings.ends;
        self.drawings.without_room += other.drawings.without_room;
        self
    }

    /// How often a reply number came up in any call.
    pub fn of_number(&self, number: usize) -> u64 {
        let of_calls = self.replies.iter().flatten();
        of_calls.map(|replies| replies[number]).sum()
    }

    /// How often it was the reply of a morning's single stand.
    pub fn of_stands(&self, number: usize) -> u64 {
        self.stands.iter().map(|replies| replies[number]).sum()
    }
}

impl fmt::Display for Tally {
    fn fmt(&self, f: &mut fmt::Formatter<'_>) -> fmt::Result {
        for (name, of_calls) in KIND_NAMES.iter().zip(&self.replies) {
            write!(f, "{name:>7}")?;
            CALL_NAMES
                .iter()
                .try_for_each(|name| write!(f, "{name:>9}"))?;
            writeln!(f, "{:>9}", "all")?;
            for number in 0..NUMBERS {
                let replies = of_calls.map(|replies| replies[number]);
                let all: u64 = replies.iter().sum();
                if all > 0 {
                    write!(f, "{number:>7}")?;
                    replies
                        .iter()
                        .try_for_each(|count| write!(f, "{count:>9}"))?;
                    writeln!(f, "{all:>9}")?;
                }
            }
        }
        for (name, replies) in PLACE_NAMES.iter().zip(&self.stands) {
            let numbers = replies.iter().enumerate();
            let counts: Vec<String> = numbers
                .filter(|(_, &count)| count > 0)
                .map(|(number, count)| format!("{count} with {number}"))
                .collect();
            writeln!(f, "stands, {name}: {}", counts.join(", "))?;
        }
        writeln!(f, "cases {}", self.cases)?;
        writeln!(f, "rows {} crossings {}", self.rows, self.crossings)?;
        let refused = Refusal::Overlap(0).number() as usize;
        let overlaps = self.of_number(refused);
        writeln!(f, "cells that overlap: {overlaps} replies are {refused}")?;
        writeln!(f, "demand 2: {} directions", self.directions)?;
        writeln!(f, "demand 3: {} door changes", self.changes)?;
        let sides = &self.sides;
        writeln!(
            f,
            "on a side: {} stands found, {} of the directions, {} of the door changes; {} changes of \
             a door there refused",
            sides.found, sides.directions, sides.changes, sides.own_doors
        )?;
        let (reaches, refused) = (&self.reaches, Refusal::Reach.number() as usize);
        writeln!(
            f,
            "reach: {} queries state one; {} of the rows are out of it, and {} of the door changes \
             are of a door with such a row; {} replies and {} of single stands are {refused}",
            reaches.stated,
            reaches.rows,
            reaches.changes,
            self.of_number(refused),
            self.of_stands(refused)
        )?;
        writeln!(
            f,
            "with a longer reach: {} listings, {} of them with more crossings",
            reaches.longer, reaches.further
        )?;
        let (ceilings, refused) = (&self.ceilings, Refusal::Ceiling.number() as usize);
        writeln!(
            f,
            "ceiling: {} listings and mornings have one; {} listings have just as many crossings, \
             {} one more, {} one fewer; {} replies and {} of single stands are {refused}",
            ceilings.stated,
            ceilings.equal,
            ceilings.one_more,
            ceilings.one_fewer,
            self.of_number(refused),
            self.of_stands(refused)
        )?;
        writeln!(
            f,
            "over a ceiling: {} listings without room, {} by no side alone, {} from a side by neither \
             cell alone; {} mornings by a stand between two listed, {} in all and by no stand",
            ceilings.without_room,
            ceilings.by_sides,
            ceilings.by_cells,
            ceilings.between,
            ceilings.in_all
        )?;
        let (drawings, refused) = (&self.drawings, Refusal::Far.number() as usize);
        writeln!(
            f,
            "drawings: {} have an offset of 0, {} reach as far as can be drawn, {} are drawn though a \
             corner that is no limit is farther, {} of them an end of a row's line",
            drawings.zeros, drawings.farthest, drawings.unnamed, drawings.ends
        )?;
        writeln!(
            f,
            "too far to be drawn: {} replies are {refused}; {} for one millimetre, {} for two, {} in x \
             alone, {} in y alone, {} out of reach alone, {} from a side; {} without room",
            self.of_number(refused),
            drawings.one_beyond,
            drawings.two_beyond,
            drawings.by_x,
            drawings.by_y,
            drawings.out_of_reach,
            drawings.from_sides,
            drawings.without_room
        )?;
        writeln!(f, "in either kind: {} plans of triangles", self.either)
    }
}

/// A trial that failed, as small as it could be made.
#[derive(Debug)]
pub struct Mismatch {
    pub case: u64,
    pub trial: Trial,
    pub fault: String,
}

impl fmt::Display for Mismatch {
    fn fmt(&self, f: &mut fmt::Formatter<'_>) -> fmt::Result {
        writeln!(f, "mismatch in case {}, made smaller:", self.case)?;
        writeln!(f, "{}", self.trial)?;
        writeln!(f, "{}", self.fault)
    }
}

/// Runs the cases of a seed through both implementors. Where some do not
/// match, the first of them is given back.
pub fn compare(
    left: &dyn Calls,
    right: &dyn Calls,
    seed: u64,
    count: u64,
) -> Result<Tally, Box<Mismatch>> {
    let both = Both { left, right };
    let (tallies, failed) = on_all_processors(count, 1, |number, tally: &mut Tally| {
        let mut trials = trials(generate::case(seed, number)).into_iter();
        let failed = trials.find(|trial| trial.run(both, tally).is_err());
        tally.cases += 1;
        failed
    });
    match failed {
        Some((number, trial)) => Err(mismatch(number, trial, |trial| {
            trial.run(both, &mut Tally::default())
        })),
        None => Ok(tallies.iter().fold(Tally::default(), Tally::with)),
    }
}

/// Puts the inputs of some of a seed's cases to the printing program itself,
/// and gives back of how many. Where some do not match the paper program, the
/// first of them is given back.
pub fn compare_program(
    program: impl Fn(&[u8]) -> Vec<u8> + Sync,
    seed: u64,
    count: u64,
) -> Result<u64, Box<Mismatch>> {
    let run = |trial: &Trial| match trial {
        Trial::Bytes(input, AskedOfBytes::Print) => trial::run_program(input, &program),
        _ => Ok(()),
    };
    let (inputs, failed) = on_all_processors(count, PROGRAM_EVERY, |number, inputs: &mut u64| {
        let trial = Trial::Bytes(generate::case(seed, number).input, AskedOfBytes::Print);
        *inputs += 1;
        run(&trial).is_err().then_some(trial)
    });
    match failed {
        Some((number, trial)) => Err(mismatch(number, trial, run)),
        None => Ok(inputs.iter().sum()),
    }
}

/// Runs the cases 0, `every`, 2·`every`, .. below `count`, a thread for each
/// processor. Gives back what each thread has counted, and the trial that failed
/// in the least case, if any did, whichever thread met it.
fn on_all_processors<T: Default + Send>(
    count: u64,
    every: u64,
    run: impl Fn(u64, &mut T) -> Option<Trial> + Sync,
) -> (Vec<T>, Option<(u64, Trial)>) {
    let threads = thread::available_parallelism().map_or(1, NonZero::get) as u64;
    let least = AtomicU64::new(u64::MAX);
    let part = |first: u64| {
        let mut counted = T::default();
        let numbers = (first * every..count).step_by((threads * every) as usize);
        for number in numbers.take_while(|&number| number < least.load(Ordering::Relaxed)) {
            if let Some(trial) = run(number, &mut counted) {
                least.fetch_min(number, Ordering::Relaxed);
                return (counted, Some((number, trial)));
            }
        }
        (counted, None)
    };
    let (counted, failed): (Vec<T>, Vec<_>) = thread::scope(|scope| {
        let started: Vec<_> = (0..threads)
            .map(|first| scope.spawn(move || part(first)))
            .collect();
        started
            .into_iter()
            .map(|thread| thread.join().expect("a trial does not panic"))
            .unzip()
    });
    let failed = failed.into_iter().flatten();
    (counted, failed.min_by_key(|&(number, _)| number))
}

fn mismatch(case: u64, trial: Trial, run: impl Fn(&Trial) -> Outcome) -> Box<Mismatch> {
    let trial = smallest(trial, |smaller| run(smaller).is_err());
    let fault = run(&trial).expect_err("a trial is only made smaller while it fails");
    Box::new(Mismatch { case, trial, fault })
}

/// What a case asks: each call once, and the demands.
fn trials(case: Case) -> Vec<Trial> {
    let of_lists = [
        Asked::Check,
        Asked::Write { bytes: case.bytes },
        Asked::Find,
        Asked::List {
            table: case.table,
            ceiling: case.ceiling,
        },
        Asked::ListStands {
            room: case.morning,
            ceiling: case.morning_ceiling,
        },
        Asked::Change {
            shut: case.shut,
            given: case.given,
            table: case.table,
        },
        Asked::Draw {
            offsets: case.offsets,
        },
        Asked::RoundTrip,
        Asked::EitherKind {
            shut: case.shut,
            given: case.given,
            ceiling: case.ceiling,
        },
        Asked::Demand2 {
            directions: case.directions,
        },
        Asked::Demand3,
        Asked::Longer { reach: case.longer },
    ];
    let of_bytes = [
        Trial::Bytes(case.file, AskedOfBytes::Read { lists: case.lists }),
        Trial::Bytes(case.input, AskedOfBytes::Print),
    ];
    of_lists
        .into_iter()
        .map(|asked| Trial::Lists(case.scene.clone(), asked))
        .chain(of_bytes)
        .collect()
}
