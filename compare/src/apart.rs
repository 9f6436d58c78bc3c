//! T-05 read literally: of all pairs of routes those are kept that have only the two end nodes in common and no arc in
//! common, they are put in the order of 01's judgement, and best(j) is the first of them whose main has rank at most j.
//! Nothing here is clever either: no pair is passed over because of another.

use crate::listing::{has_spans, pair, risks_alone, risks_and_spans, Answer, Count, Pair, Plan, Reply, Route};
use crate::mesh::Arc;

/// The nodes that a route meets, its two ends first and last.
pub fn nodes_met(route: &[u8], arcs: &[Arc]) -> Vec<u8> {
    let mut nodes = vec![arcs[usize::from(route[0])].tail];
    nodes.extend(route.iter().map(|&arc| arcs[usize::from(arc)].head));
    nodes
}

/// What is common to two lists, in the order of the first.
fn in_both(one: &[u8], other: &[u8]) -> Vec<u8> {
    one.iter().copied().filter(|item| other.contains(item)).collect()
}

/// Whether two routes between the same ends, by the nodes that they meet, have only these ends in common.
fn meet_at_ends_alone(main: &[u8], standby: &[u8]) -> bool {
    in_both(main, standby) == [main[0], main[main.len() - 1]]
}

/// Whether two routes between the same ends, by their arcs, have only these ends in common and no arc.
pub fn are_apart(main: &[u8], standby: &[u8], arcs: &[Arc]) -> bool {
    meet_at_ends_alone(&nodes_met(main, arcs), &nodes_met(standby, arcs)) && in_both(main, standby).is_empty()
}

/// Every pair apart, the first by the judgement first.
pub fn pairs_apart(ranking: &[Route], arcs: &[Arc], count: Count) -> Vec<Pair> {
    let nodes: Vec<Vec<u8>> = ranking.iter().map(|route| nodes_met(&route.arcs, arcs)).collect();
    let mut pairs = Vec::new();
    for main in 1..=ranking.len() {
        for standby in 1..=ranking.len() {
            let have_common_arc = || !in_both(&ranking[main - 1].arcs, &ranking[standby - 1].arcs).is_empty();
            if meet_at_ends_alone(&nodes[main - 1], &nodes[standby - 1]) && !have_common_arc() {
                pairs.push(pair(count, ranking, main, standby));
            }
        }
    }
    pairs.sort();
    pairs
}

/// The plan among pairs apart over a ranking of at least one route, where so much counts as shared.
pub fn plan(ranking: Vec<Route>, arcs: &[Arc], count: Count) -> Plan {
    let pairs = pairs_apart(&ranking, arcs, count);
    let first_within = |j: usize| pairs.iter().find(|pair| pair.main <= j).copied();
    let best = (1..=ranking.len()).map(first_within).collect();
    Plan::settling(ranking, count, best)
}

/// The number that is returned where there is no pair to give: each exactly when T-05 says so.
pub fn refusal(plan: &Plan, allowance: usize) -> Option<u32> {
    let n = plan.ranking.len();
    let (of_all, within) = (plan.best[n - 1], plan.best[allowance.min(n) - 1]);
    let numbers = [(14, of_all.is_none() && allowance >= n), (15, within.is_none() && allowance < n)];
    let mut told = numbers.into_iter().filter(|number| number.1).map(|number| number.0);
    let first = told.next();
    assert!(told.next().is_none(), "14 and 15 do not come together");
    first
}

/// What a call is answered that wants the pair apart, where some route is within the reach.
pub fn answer(ranking: Vec<Route>, arcs: &[Arc], allowance: u32) -> Answer {
    let any = Plan::new(ranking.clone(), risks_and_spans);
    let plan = plan(ranking, arcs, risks_and_spans);
    plan.hold_to_what_is_said();
    if let Some(number) = refusal(&plan, allowance as usize) {
        return Answer::Unpaired(plan, number);
    }
    let reply = Reply::from_plan(&plan, allowance);
    hold_to_any_pair(&plan, &reply, &any, arcs, allowance);
    if !has_spans(arcs) {
        hold_to_risks_alone(&plan, &reply, arcs, allowance);
    }
    Answer::Planned(plan, reply)
}

/// Holds a plan among pairs apart to that among all pairs: the same floor; no step settled earlier; and the same reply
/// where the pair among all is apart. A failure is a fault of this program.
fn hold_to_any_pair(plan: &Plan, reply: &Reply, any: &Plan, arcs: &[Arc], allowance: u32) {
    let of_any = Reply::from_plan(any, allowance);
    assert!(plan.floor == any.floor, "the floor is that of all routes");
    assert!(plan.settled_at >= any.settled_at, "what settles among pairs apart settles among all");
    assert!(plan.best.iter().flatten().all(|pair| pair.main < pair.standby), "no route is apart from itself");
    assert!(
        !are_apart(&of_any.main.arcs, &of_any.standby.arcs, arcs) || of_any.bytes() == reply.bytes(),
        "where the pair among all is apart, it is the answer"
    );
}

/// Holds a reply to that by risks alone where no span is known, as T-03 says.
fn hold_to_risks_alone(plan_of_both: &Plan, reply: &Reply, arcs: &[Arc], allowance: u32) {
    let before = Reply::from_plan(&plan(plan_of_both.ranking.clone(), arcs, risks_alone), allowance);
    assert!(reply.bytes() == before.bytes(), "without spans the reply is as by risks alone");
}
