//! The last answers of the plan check. Whoever compares asks about one plan call after
//! call, and the check is most of what a call takes. Its answer depends on the lists
//! alone, so where all of them are what they were, down to the last number, it is the
//! answer of before.

use super::plan::Floor;
use crate::calls::{Lists, Plan, Refusal};
use std::cell::RefCell;
use std::rc::Rc;

/// A plan as it was asked about, and the answer.
type Checked = (Plan, Result<Rc<Floor>, Refusal>);

struct Memory {
    /// The last plan checked comes first.
    last: Vec<Checked>,
    /// How many of them are kept.
    most: usize,
}

thread_local! {
    /// Few: a plan is asked about together with itself in the other kind, merged or
    /// damaged, and then not again.
    static MEMORY: RefCell<Memory> = const {
        RefCell::new(Memory { last: Vec::new(), most: 4 })
    };
}

/// From here on this thread checks a plan at every call, as a benchmark of the calls asks.
pub fn remember_no_plan() {
    MEMORY.set(Memory {
        last: Vec::new(),
        most: 0,
    });
}

/// The answer that is remembered, or else what `check` says.
pub fn remembered(
    lists: Lists<'_>,
    check: impl FnOnce(Lists<'_>) -> Result<Floor, Refusal>,
) -> Result<Rc<Floor>, Refusal> {
    let known = MEMORY.with_borrow(|memory| {
        let mut last = memory.last.iter();
        last.find(|(plan, _)| plan.lists() == lists)
            .map(|(_, answer)| answer.clone())
    });
    known.unwrap_or_else(|| {
        let answer = check(lists).map(Rc::new);
        let plan = Plan {
            corners: lists.corners.to_vec(),
            cells: lists.cells.to_vec(),
            doors: lists.doors.to_vec(),
            kind: lists.kind,
        };
        MEMORY.with_borrow_mut(|memory| {
            memory.last.insert(0, (plan, answer.clone()));
            memory.last.truncate(memory.most);
        });
        answer
    })
}

#[cfg(test)]
mod tests {
    use super::*;
    use crate::examples::plan_q;
    use std::cell::Cell;

    /// How often plans are checked where they are asked about in this order.
    fn checks<'a>(asked: impl IntoIterator<Item = &'a Plan>) -> usize {
        let count = Cell::new(0);
        for plan in asked {
            let answer = remembered(plan.lists(), |lists| {
                count.set(count.get() + 1);
                Floor::check_anew(lists)
            });
            let anew = Floor::check_anew(plan.lists());
            let counts = |floor: &Floor| (floor.corners().to_vec(), floor.doors().to_vec());
            assert_eq!(
                answer.map(|floor| counts(&floor)),
                anew.map(|floor| counts(&floor))
            );
        }
        count.get()
    }

    /// Plan Q, and plans that differ from it in one number of one list, in its kind or in
    /// the length of a list; some are refused.
    fn plans() -> [Plan; 6] {
        let mut plans = [(); 6].map(|()| plan_q());
        plans[1].corners[7] += 1;
        plans[2].cells[0] += 1;
        plans[3].doors[0] += 1;
        plans[4].kind = 12;
        plans[5].doors.clear();
        plans
    }

    #[test]
    fn a_plan_is_checked_once_while_it_is_among_the_last_four() {
        let [a, b, c, d, e, f] = &plans();
        assert_eq!(checks([a, a, a]), 1);
        assert_eq!(checks([a, b, c, d]), 3);
        assert_eq!(checks([a, b, c, d, a]), 0);
        assert_eq!(checks([e, f]), 2);
        assert_eq!(checks([c, d, e, f]), 0);
        assert_eq!(checks([a]), 1, "four were checked since");
    }

    #[test]
    fn a_refusal_is_remembered_too() {
        let [_, _, wrong, ..] = &plans();
        assert!(Floor::check_anew(wrong.lists()).is_err());
        assert_eq!(checks([wrong, wrong]), 1);
    }

    #[test]
    fn a_benchmark_checks_at_every_call() {
        remember_no_plan();
        assert_eq!(checks([&plan_q(), &plan_q()]), 2);
    }
}
