//! "A morning's stands together", request A1 of document 02.

use super::plan::Floor;
use super::sight::{Listed, Row, View};
use crate::calls::{Lists, Morning, Refusal, Stand, MOST_STANDS, POINT, ROW};

/// What each stand of a morning is answered: its listing, or its refusal.
pub struct Answers(Vec<Result<Listed, Refusal>>);

impl Answers {
    /// Lists each stand. `table` and `replies` are the lengths lent for them.
    pub fn list(
        lists: Lists<'_>,
        morning: Morning,
        stands: &[f64],
        table: usize,
        replies: usize,
    ) -> Result<Answers, Refusal> {
        let (floor, stands) = lowest(Floor::check(lists), cut(stands))?;
        let across = floor.across_under(morning.setting)?;
        let (corners, count) = (floor.corners().len(), stands.len());
        if table < ROW * corners * count || replies < 3 * count {
            return Err(Refusal::Room);
        }
        let answer = |&numbers: &[f64; 3]| {
            let stand = stand_of(numbers).ok_or(Refusal::Stand)?;
            let view = View::through(&floor, across.clone(), stand, morning.reach)?;
            view.list().up_to(morning.ceiling)
        };
        Ok(Answers(stands.iter().map(answer).collect()))
    }

    /// The rows of all stands, in the order given.
    pub fn rows(&self) -> Vec<Row> {
        let listings = self.0.iter().flatten();
        listings
            .flat_map(|listing| &listing.rows)
            .copied()
            .collect()
    }

    /// Each stand's number, row count and crossings.
    pub fn replies(&self) -> Vec<[u64; 3]> {
        let own = |answer: &Result<Listed, Refusal>| match answer {
            Ok(listing) => [0, listing.rows.len() as u64, listing.crossings],
            Err(refusal) => [refusal.number().into(), 0, 0],
        };
        self.0.iter().map(own).collect()
    }
}

/// The stands of a list, three numbers each.
fn cut(list: &[f64]) -> Result<&[[f64; 3]], Refusal> {
    match list.as_chunks() {
        (_, [_, ..]) => Err(Refusal::Frame),
        (stands, []) if stands.len() > MOST_STANDS => Err(Refusal::Size),
        (stands, []) => Ok(stands),
    }
}

/// Both, or of two refusals the one with the lowest number.
fn lowest<A, B>(a: Result<A, Refusal>, b: Result<B, Refusal>) -> Result<(A, B), Refusal> {
    match (a, b) {
        (Ok(a), Ok(b)) => Ok((a, b)),
        (Err(a), Err(b)) if b.number() < a.number() => Err(b),
        (Err(refusal), _) | (_, Err(refusal)) => Err(refusal),
    }
}

/// The stand that three numbers of a list mean; none where the first is that
/// of no point and of no corner that a plan could have.
pub fn stand_of([first, x, y]: [f64; 3]) -> Option<Stand> {
    if first == POINT {
        return Some(Stand::Point(x, y));
    }
    // Only a whole number from 0 to 65,535 is the same again as a corner.
    let corner = first as u16;
    (f64::from(corner) == first).then_some(Stand::Offset(corner, x, y))
}
