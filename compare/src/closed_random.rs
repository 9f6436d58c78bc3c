//! Random closed sets (T-06): works on the routes of an answer, on whole spans, on what matters to nobody and on all;
//! sets that are none; and sets on damaged calls and on those with blanks, which are refused for that first.

use crate::listing::{answer, faults, is_blank, is_of_a_blank, is_of_an_arc, ranking_within, Answer, Plan, Reply};
use crate::listing::{ARCS_MAX, REACH_MAX};
use crate::mesh::{arcs_of, mark, set_of, Arc, Case, Request, CLOSED_BYTES};
use crate::random::{self, allowance, draw_reach, steps, Dice};
use crate::trade::Shape;

/// So many calls in a hundred bring a closed set.
const CLOSED_PERCENT: usize = 50;
/// So many sets in a hundred have a length that is none, and so many others mark an arc past the table.
const NO_LENGTH_PERCENT: usize = 8;
const PAST_PERCENT: usize = 8;
/// The same for sets on damaged calls and on those with a blank, where that is to be told first.
const DAMAGED_NO_SET_PERCENT: usize = 30;
/// So many sound requests in a hundred are drawn anew for the open routes; the others stay those of all routes.
const FITTING_PERCENT: usize = 60;

// ---- The arcs closed on a sound call ----

/// So many arcs out of some; one may be chosen again.
fn some_of(dice: &mut Dice, arcs: &[usize], count: usize) -> Vec<usize> {
    (0..count).filter_map(|_| (!arcs.is_empty()).then(|| dice.pick(arcs))).collect()
}

/// A few of the arcs of one route, or all of them.
fn on_route(dice: &mut Dice, route: &[u8]) -> Vec<usize> {
    let arcs: Vec<usize> = route.iter().copied().map(usize::from).collect();
    match dice.below(4) {
        0 => arcs,
        1 => some_of(dice, &arcs, 3),
        _ => some_of(dice, &arcs, 1),
    }
}

/// Arcs of the main or of the standby that the call would be answered with, or of both.
fn on_reply(dice: &mut Dice, reply: &Reply) -> Vec<usize> {
    let (of_main, of_standby) = (on_route(dice, &reply.main.arcs), on_route(dice, &reply.standby.arcs));
    match dice.below(3) {
        0 => of_main,
        1 => of_standby,
        _ => [of_main, of_standby].concat(),
    }
}

/// Arcs of a few routes, whether in the answer or not.
fn on_routes(dice: &mut Dice, plan: &Plan) -> Vec<usize> {
    let routes = dice.between(1, 4);
    let mut arcs = Vec::new();
    for _ in 0..routes {
        let route = dice.below(plan.ranking.len());
        arcs.extend(on_route(dice, &plan.ranking[route].arcs));
    }
    arcs
}

/// Arcs that lie on no route: the answer stays.
fn on_no_route(dice: &mut Dice, arcs: &[Arc], plan: &Plan) -> Vec<usize> {
    let is_used = |arc: usize| plan.ranking.iter().any(|route| route.arcs.iter().any(|&on| usize::from(on) == arc));
    let unused: Vec<usize> = (0..arcs.len()).filter(|&arc| !is_used(arc)).collect();
    let count = dice.pick(&[1, 4, unused.len()]);
    some_of(dice, &unused, count)
}

/// What works close: all arcs in the span of one arc, the first of them alone, or all of them but the last; where its
/// span is not known, the arcs between its ends, whichever way they lead.
fn in_one_span(dice: &mut Dice, arcs: &[Arc], chosen: usize) -> Vec<usize> {
    let one = &arcs[chosen];
    let is_beside = |other: &Arc| {
        (other.tail, other.head) == (one.tail, one.head) || (other.tail, other.head) == (one.head, one.tail)
    };
    let is_in_it = |other: &Arc| if one.span == 0 { is_beside(other) } else { other.span == one.span };
    let mut together: Vec<usize> = (0..arcs.len()).filter(|&arc| is_in_it(&arcs[arc])).collect();
    match dice.below(3) {
        0 => together.truncate(1),
        1 if together.len() > 1 => drop(together.pop()),
        _ => (),
    }
    together
}

/// Each arc with the same chance, few of them or many.
fn scattered(dice: &mut Dice, arcs: usize) -> Vec<usize> {
    let percent = dice.pick(&[3, 10, 30, 60]);
    (0..arcs).filter(|_| dice.percent(percent)).collect()
}

/// The arcs closed on a call that has an answer without a set.
fn works(dice: &mut Dice, arcs: &[Arc], plan: &Plan, reply: &Reply) -> Vec<usize> {
    match dice.below(20) {
        0..=1 => Vec::new(),
        2 => (0..arcs.len()).collect(),
        3..=8 => on_reply(dice, reply),
        9..=11 => on_routes(dice, plan),
        12..=13 => on_no_route(dice, arcs, plan),
        14..=16 => {
            let on_reply = on_reply(dice, reply);
            in_one_span(dice, arcs, on_reply[0])
        }
        _ => scattered(dice, arcs.len()),
    }
}

/// Draws reach and allowance anew, to lie at or beside what the open routes have.
fn fit_request(dice: &mut Dice, case: &mut Case) {
    let endless = Request { reach: REACH_MAX, ..case.request };
    let open = ranking_within(usize::MAX, &arcs_of(&case.table), case.closed_set(), &endless);
    let within = draw_reach(dice, &mut case.request, open.expect("endless patience"));
    case.request.allowance = allowance(dice, steps(within));
}

// ---- Sets that are none ----

/// Cuts a set off or lengthens it with zeros; now and then to a length whose low 16 bits are those of a set's.
fn give_no_length(dice: &mut Dice, set: &mut Vec<u8>) {
    set.resize(dice.pick(&[0, 0, 15, 15, 15, 17, 17, 17, 1, 8, 32, 128, 65_536 + CLOSED_BYTES]), 0);
}

/// Marks arcs past the table, where a set has bits for them: the next one, the last one or any.
fn mark_past(dice: &mut Dice, set: &mut [u8], arcs: usize) {
    if arcs == ARCS_MAX {
        return;
    }
    for _ in 0..dice.pick(&[1, 1, 3]) {
        let any = dice.between(arcs, ARCS_MAX - 1);
        mark(set, dice.pick(&[arcs, ARCS_MAX - 1, any]));
    }
}

// ---- A set for a case ----

/// Brings a set to a call without a fault, and often a reach and an allowance that fit the routes it leaves open.
fn close_on_sound(dice: &mut Dice, case: &mut Case) {
    let arcs = arcs_of(&case.table);
    let closed = match answer(case) {
        Answer::Planned(plan, reply) => works(dice, &arcs, &plan, &reply),
        Answer::Refused(_) | Answer::Unpaired(..) => scattered(dice, arcs.len()),
    };
    let mut set = set_of(CLOSED_BYTES, &closed);
    if dice.percent(NO_LENGTH_PERCENT) {
        give_no_length(dice, &mut set);
    } else if dice.percent(PAST_PERCENT) {
        mark_past(dice, &mut set, arcs.len());
    }
    case.closed = Some(set);
    if dice.percent(FITTING_PERCENT) {
        fit_request(dice, case);
    }
}

/// Brings these arcs as a set to a call that is refused before its set is looked at, often as one that is none.
fn close_in_vain(dice: &mut Dice, case: &mut Case, arcs: usize, closed: &[usize]) {
    let mut set = set_of(CLOSED_BYTES, closed);
    if dice.percent(DAMAGED_NO_SET_PERCENT) {
        give_no_length(dice, &mut set);
    } else if dice.percent(DAMAGED_NO_SET_PERCENT) {
        mark_past(dice, &mut set, arcs);
    }
    case.closed = Some(set);
}

/// Brings a set to a damaged call, often one that closes the faulty arcs, and often one that is none.
fn close_on_damaged(dice: &mut Dice, case: &mut Case) {
    let arcs = arcs_of(&case.table).len().min(ARCS_MAX);
    let faulty: Vec<usize> =
        faults(case).into_iter().filter(|&fault| is_of_an_arc(fault)).map(|fault| fault as usize / 256).collect();
    let closed = match dice.below(4) {
        0 => scattered(dice, arcs),
        1 => some_of(dice, &faulty, 1),
        _ => faulty,
    };
    let in_set: Vec<usize> = closed.into_iter().filter(|&arc| arc < ARCS_MAX).collect();
    close_in_vain(dice, case, arcs, &in_set);
}

/// Brings a set to a call that is refused for a blank (T-09): one that closes all blanks or one, arcs here and there,
/// every arc or nothing; and often one that is none.
fn close_on_blank(dice: &mut Dice, case: &mut Case) {
    let arcs = arcs_of(&case.table);
    let blanks: Vec<usize> = (0..arcs.len()).filter(|&arc| is_blank(&arcs[arc])).collect();
    let closed = match dice.below(8) {
        0 => Vec::new(),
        1 => (0..arcs.len()).collect(),
        2..=3 => scattered(dice, arcs.len()),
        4 => some_of(dice, &blanks, 1),
        _ => blanks,
    };
    close_in_vain(dice, case, arcs.len(), &closed);
}

/// A case, its mesh in this shape, half of the time with a closed set.
pub fn case(dice: &mut Dice, shape: Option<Shape>) -> Case {
    let mut case = random::case(dice, shape);
    if dice.percent(CLOSED_PERCENT) {
        let close = match faults(&case).first() {
            None => close_on_sound,
            Some(&first) if is_of_a_blank(first) => close_on_blank,
            Some(_) => close_on_damaged,
        };
        close(dice, &mut case);
    }
    case
}
