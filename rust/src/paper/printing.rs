//! "Printing program". It states no reach, and no ceiling.

use super::file::{decode, take_record};
use super::plan::Floor;
use super::sight::{Listed, View};
use crate::calls::{Query, Refusal, Reply, Stand};
use std::fmt::Write;

/// Longer input is refused by SIZE, unread.
pub const MOST_INPUT: usize = 65_536;

/// What is printed for a standard input of a query record and a plan.
pub fn print(input: &[u8]) -> Vec<u8> {
    let text = match answer(input) {
        Ok(listing) => listing_text(&listing),
        Err(refusal) => {
            let Reply { number, place, .. } = refusal.into();
            format!("refused {number} {place}\n")
        }
    };
    text.into_bytes()
}

fn answer(input: &[u8]) -> Result<Listed, Refusal> {
    if input.len() > MOST_INPUT {
        return Err(Refusal::Size);
    }
    let (setting, stand, file) = query(input).ok_or(Refusal::Frame)?;
    let plan = decode(file)?;
    let floor = Floor::check(plan.lists())?;
    Ok(View::new(&floor, Query::without_reach(setting, stand))?.list())
}

/// Setting and stand of the query record, and the plan file after it.
pub fn query(input: &[u8]) -> Option<(u64, Stand, &[u8])> {
    let (kind, body, file) = take_record(input)?;
    let stand = match (kind, body.len()) {
        (4, 24) => Stand::Point(double(body, 8), double(body, 16)),
        (5, 26) => Stand::Offset(
            u16::from_le_bytes([body[8], body[9]]),
            double(body, 10),
            double(body, 18),
        ),
        _ => return None,
    };
    Some((u64::from_le_bytes(eight(body, 0)), stand, file))
}

fn double(body: &[u8], at: usize) -> f64 {
    f64::from_le_bytes(eight(body, at))
}

fn eight(body: &[u8], at: usize) -> [u8; 8] {
    body[at..at + 8].try_into().expect("eight bytes")
}

fn listing_text(listing: &Listed) -> String {
    let mut text = format!(
        "rows {} crossings {}\n",
        listing.rows.len(),
        listing.crossings
    );
    for [face, right, left, far] in &listing.rows {
        writeln!(text, "{face} {right} {left} {far}").expect("a string takes every line");
    }
    text
}
