//! Calls of every planning entry, one in three of which wants the pair apart (T-05): those are of every kind that there
//! is, sound and damaged, with arcs closed and with none; more of them have strands from the source to the terminal, and
//! most a reach and an allowance at or beside where pairs apart begin, settle or end.

use crate::apart;
use crate::closed_random;
use crate::listing::{faults, ranking_within, risks_and_spans, Plan, REACH_MAX};
use crate::mesh::{arcs_of, set_of, Case, Request, CLOSED_BYTES};
use crate::random::{self, allowance, draw_reach, Dice, Steps};
use crate::trade::Shape;

/// One call in so many wants the pair apart.
pub const APART_EVERY: usize = 3;
/// So many of these in a hundred are on strands, and so many of the others on a line with bypasses; what is left is on
/// what any call may be on.
const STRANDS_PERCENT: usize = 25;
const BYPASSES_PERCENT: usize = 35;
/// So many sound ones in a hundred get a reach and an allowance for pairs apart; the others keep those for any pair.
const FITTING_PERCENT: usize = 75;

/// The first main that has a standby apart, by its rank; N where none has.
pub fn first_main(plan: &Plan) -> usize {
    plan.best.iter().position(Option::is_some).map_or(plan.ranking.len(), |before| before + 1)
}

/// An allowance at or beside N or J among pairs apart, or, mostly where some mains have no standby, where the first of
/// these pairs comes in.
fn fitting_allowance(dice: &mut Dice, plan: &Plan) -> u32 {
    let (n, first) = (plan.ranking.len(), first_main(plan));
    let before = dice.between(1, first);
    let at = match dice.below(10) {
        0..=5 if first > 1 => dice.pick(&[first - 1, first - 1, first, first + 1, before]),
        0..=7 => return allowance(dice, Steps { n, settled_at: plan.settled_at }),
        8 => n - 1,
        _ => n,
    };
    at.max(1) as u32
}

fn fit_request(dice: &mut Dice, case: &mut Case) {
    let arcs = arcs_of(&case.table);
    let endless = Request { reach: REACH_MAX, ..case.request };
    let open = ranking_within(usize::MAX, &arcs, case.closed_set(), &endless).expect("endless patience");
    let within = draw_reach(dice, &mut case.request, open);
    if !within.is_empty() {
        case.request.allowance = fitting_allowance(dice, &apart::plan(within, &arcs, risks_and_spans));
    }
}

/// Makes a call of any pair one of a pair apart.
fn want_apart(dice: &mut Dice, case: &mut Case) {
    case.apart = true;
    case.closed.get_or_insert_with(|| set_of(CLOSED_BYTES, &[]));
    if faults(case).is_empty() && dice.percent(FITTING_PERCENT) {
        fit_request(dice, case);
    }
}

/// A call that wants the pair apart, and the trade's shape that its mesh was drawn in, if any.
pub fn apart_case(dice: &mut Dice) -> (Case, Option<Shape>) {
    let shape = if dice.percent(STRANDS_PERCENT) {
        Some(Shape::Strands)
    } else if dice.percent(BYPASSES_PERCENT) {
        Some(Shape::Bypasses)
    } else {
        random::shape(dice)
    };
    let mut case = closed_random::case(dice, shape);
    want_apart(dice, &mut case);
    (case, shape)
}

/// A call of any planning entry, and the shape that its mesh was drawn in, if any.
pub fn case(dice: &mut Dice) -> (Case, Option<Shape>) {
    if dice.below(APART_EVERY) == 0 {
        return apart_case(dice);
    }
    let shape = random::shape(dice);
    (closed_random::case(dice, shape), shape)
}
