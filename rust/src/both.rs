//! What the paper program and the proved library answer alike, for the tests that name
//! their cases: of each call its reply, and every number of lent memory.

use crate::calls::{Calls, Listing, Morning, Plan, Query, Reply, DRAWN, POINT, ROW};
use crate::examples::{plan_q, STANDS_IN_Q};
use crate::paper::{stand_of, Paper, Row};
use crate::proved::Proved;
use std::fmt::Debug;

/// What lent memory holds before a call, as a number of any width.
pub const FILL: u8 = 0xa5;

/// What both implementors answer.
pub fn both<T: PartialEq + Debug>(ask: impl Fn(&dyn Calls) -> T) -> T {
    let paper = ask(&Paper);
    assert_eq!(paper, ask(&Proved), "paper program, proved library");
    paper
}

/// Rows and crossings, or the number of the refusal.
pub type Listed = Result<(Vec<Row>, u64), u32>;

/// What a call that lists made of a table of so many numbers. What is not written
/// keeps its values, and a refusal has no place.
pub fn listed(room: usize, ask: impl Fn(&dyn Calls, &mut [u16]) -> Reply) -> Listed {
    let (reply, table) = both(|calls| {
        let mut table = vec![u16::from(FILL); room];
        (ask(calls, &mut table), table)
    });
    let written = ROW * reply.values[0] as usize;
    assert!(table[written..].iter().all(|&number| number == FILL.into()));
    if reply.number != 0 {
        assert_eq!(reply, Reply::refused(reply.number, 0));
        return Err(reply.number);
    }
    let (rows, _) = table[..written].as_chunks();
    Ok((rows.to_vec(), reply.values[1]))
}

/// The numbers of a table that is just long enough.
pub fn room(plan: &Plan) -> usize {
    ROW * (plan.corners.len() / 2)
}

/// The listing in such a table.
pub fn list(plan: &Plan, listing: Listing) -> Listed {
    listed(room(plan), |calls, table| {
        calls.list(plan.lists(), listing, table)
    })
}

/// What is drawn of a row: x and y of its right limit, then of its left one.
pub type DrawnRow = [f32; DRAWN];

/// Rows as they are drawn, and crossings, or the number of the refusal.
pub type Drawn = Result<(Vec<DrawnRow>, u64), u32>;

/// The bits of single-precision numbers that a call could change by handling them: what is
/// no number, quiet or not, infinities, minus zero, and what is next to zero.
pub const SINGLES: [u32; 9] = [
    0x7f80_0001,
    0x7fc1_2345,
    0xffa5_5a5a,
    0xffff_ffff,
    0x7f80_0000,
    0xff80_0000,
    0x8000_0000,
    0x0000_0001,
    0xa5a5_a5a5,
];

/// What a drawing made of offsets of so many numbers. What is not written keeps its bits,
/// and a refusal has no place.
pub fn drawn(plan: &Plan, query: Query, room: usize) -> Drawn {
    let lent = || SINGLES.into_iter().cycle().take(room);
    let (reply, bits) = both(|calls| {
        let mut offsets: Vec<f32> = lent().map(f32::from_bits).collect();
        let reply = calls.draw(plan.lists(), query, &mut offsets);
        let bits: Vec<u32> = offsets.into_iter().map(f32::to_bits).collect();
        (reply, bits)
    });
    let written = DRAWN * reply.values[0] as usize;
    assert!(bits[written..].iter().copied().eq(lent().skip(written)));
    if reply.number != 0 {
        assert_eq!(reply, Reply::refused(reply.number, 0));
        return Err(reply.number);
    }
    let numbers: Vec<f32> = bits[..written]
        .iter()
        .copied()
        .map(f32::from_bits)
        .collect();
    // Minus zero equals zero, so it is looked for here.
    assert!(numbers.iter().all(|&n| n != 0.0 || n.to_bits() == 0));
    assert_eq!(reply, Reply::done([reply.values[0], reply.values[1]]));
    let (rows, _) = numbers.as_chunks();
    Ok((rows.to_vec(), reply.values[1]))
}

/// The drawing in offsets that are just long enough.
pub fn draw(plan: &Plan, query: Query) -> Drawn {
    drawn(plan, query, DRAWN * (plan.corners.len() / 2))
}

/// The stands' own replies, each its number, row count and crossings, and all rows.
pub type Answers = (Vec<[u64; 3]>, Vec<Row>);

/// What a morning's stands are answered alone, by a listing for each. Each of them is a
/// point, or an offset from a corner that a plan can have.
pub fn list_each(plan: &Plan, morning: Morning, stands: &[[f64; 3]]) -> Answers {
    let (mut own, mut all) = (Vec::new(), Vec::new());
    for &numbers in stands {
        let stand = stand_of(numbers).expect("it is a point or an offset");
        own.push(match list(plan, morning.listing(stand)) {
            Ok((rows, crossings)) => {
                let count = rows.len() as u64;
                all.extend(rows);
                [0, count, crossings]
            }
            Err(number) => [number.into(), 0, 0],
        });
    }
    (own, all)
}

/// The answers of a morning with a table and replies that
/// are just long enough. What is not written keeps its values.
pub fn list_stands(plan: &Plan, morning: Morning, stands: &[[f64; 3]]) -> Answers {
    let (reply, table, replies) = both(|calls| {
        let mut table = vec![u16::from(FILL); room(plan) * stands.len()];
        let mut replies = vec![u64::from(FILL); 3 * stands.len()];
        let stands = stands.as_flattened();
        let reply = calls.list_stands(plan.lists(), morning, stands, &mut table, &mut replies);
        (reply, table, replies)
    });
    let (own, _) = replies.as_chunks();
    let sums = [1, 2].map(|at| own.iter().map(|own: &[u64; 3]| own[at]).sum());
    assert_eq!(reply, Reply::done(sums));
    let (rows, _) = table.as_chunks();
    let (rows, rest) = rows.split_at(sums[0] as usize);
    assert_eq!(rest, vec![[u16::from(FILL); ROW]; rest.len()]);
    (own.to_vec(), rows.to_vec())
}

/// Holds a morning in plan Q, whatever its reach and its ceiling, to the refusals that
/// every morning has: for its stands, its setting and its room. They leave lent memory
/// as it was.
pub fn refused_as_ever(morning: Morning) {
    let plan = plan_q();
    let refused = |setting, stands: &[f64], [table, replies]: [usize; 2]| {
        both(|calls| {
            let morning = Morning { setting, ..morning };
            let mut table = vec![u16::from(FILL); table];
            let mut replies = vec![u64::from(FILL); replies];
            let reply = calls.list_stands(plan.lists(), morning, stands, &mut table, &mut replies);
            assert!(table.iter().all(|&number| number == FILL.into()));
            assert!(replies.iter().all(|&number| number == FILL.into()));
            reply.number
        })
    };
    let stands = STANDS_IN_Q.as_flattened();
    assert_eq!(refused(0, stands, [16 * 7 - 1, 21]), 11);
    assert_eq!(refused(0, stands, [12 * 7, 21]), 11);
    assert_eq!(refused(0, stands, [16 * 7, 20]), 11);
    assert_eq!(refused(2, stands, [0, 0]), 7);
    assert_eq!(refused(0, &stands[1..], [0, 0]), 1);
    assert_eq!(refused(0, &[POINT; 99], [0, 0]), 2);
}
