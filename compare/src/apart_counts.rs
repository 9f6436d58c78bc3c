//! What the random calls that want the pair apart have (T-05), counted from the calls themselves. Rows worked by hand
//! are left out, and a run of many such calls that does not meet one of these at all fails: it would say nothing of that.

use crate::apart::{are_apart, nodes_met, pairs_apart};
use crate::apart_random::first_main;
use crate::listing::{answer, closed_on, faults, is_of_a_blank, is_of_an_arc, risks_and_spans};
use crate::listing::{Answer, Plan, Reply, Route};
use crate::mesh::{arcs_of, marked, Arc, Case, CLOSED_BYTES};
use crate::tally::{Tally, MANY};

#[derive(Default)]
pub struct PairsApart {
    calls: usize,
    numbers: Tally,
    sets: Tally,
    pairs: Tally,
    beside_any: Tally,
    steps: Tally,
    unpaired: Tally,
}

fn is_one_arc(route: &Route) -> bool {
    route.arcs.len() == 1
}

/// Whether a node between the ends is on every route.
fn has_node_on_all(ranking: &[Route], arcs: &[Arc]) -> bool {
    let met: Vec<Vec<u8>> = ranking.iter().map(|route| nodes_met(&route.arcs, arcs)).collect();
    let inner = &met[0][1..met[0].len() - 1];
    inner.iter().any(|node| met.iter().all(|nodes| nodes.contains(node)))
}

/// Whether another pair apart within what was ranked, and not the same two routes, shares as many and is as long.
fn has_one_as_good(plan: &Plan, reply: &Reply, arcs: &[Arc]) -> bool {
    let best = plan.best[reply.ranked as usize - 1].expect("a pair");
    let is_other = |main, standby| ![(best.main, best.standby), (best.standby, best.main)].contains(&(main, standby));
    pairs_apart(&plan.ranking, arcs, risks_and_spans).iter().any(|pair| {
        (pair.shared, pair.total) == (best.shared, best.total)
            && pair.main <= reply.ranked as usize
            && is_other(pair.main, pair.standby)
    })
}

impl PairsApart {
    /// Counts a call that wants the pair apart.
    pub fn add(&mut self, case: &Case, answered: &Answer) {
        self.calls += 1;
        self.add_number(case, answered.number());
        if !faults(case).is_empty() {
            return;
        }
        let arcs = arcs_of(&case.table);
        self.add_set(case, answered, &answer(&case.without_set()));
        if let Answer::Planned(any_plan, any) = answer(&case.of_any_pair()) {
            self.add_beside_any(answered, &any_plan, &any, &arcs);
        }
        match answered {
            Answer::Planned(plan, reply) => {
                self.add_pair(plan, reply, &arcs);
                self.add_steps(plan, case.request.allowance as usize);
            }
            Answer::Unpaired(plan, number) => self.add_unpaired(plan, *number, case.request.allowance as usize, &arcs),
            Answer::Refused(_) => (),
        }
    }

    fn add_number(&mut self, case: &Case, number: u32) {
        let is_set = case.closed_set().len() == CLOSED_BYTES;
        self.numbers.add([
            ("settled", number == 0),
            ("stopped", number == 1),
            ("14", number == 14),
            ("15", number == 15),
            ("10", number == 10),
            ("16 by the length", number == 16 && !is_set),
            ("16 by an arc past the table", number == 16 && is_set),
            ("a blank", is_of_a_blank(number)),
            ("the fault of an arc", is_of_an_arc(number)),
            ("2 to 8", (2..=8).contains(&number)),
        ]);
    }

    /// Counts a call without a fault by what its set does to the answer.
    fn add_set(&mut self, case: &Case, answered: &Answer, before: &Answer) {
        let closed = case.closed_set();
        let is_closed_on = |route: &Route| !closed_on(&route.arcs, closed).is_empty();
        let pair_is_closed =
            matches!(before, Answer::Planned(_, reply) if is_closed_on(&reply.main) || is_closed_on(&reply.standby));
        let planned = matches!(answered, Answer::Planned(..));
        let unpaired = matches!(answered, Answer::Unpaired(..));
        self.sets.add([
            ("nothing", marked(closed).is_empty()),
            ("some arcs", !marked(closed).is_empty()),
            ("arcs of the pair that would be given, and another is", pair_is_closed && planned),
            ("and none is left", pair_is_closed && unpaired),
            ("nor a route", pair_is_closed && answered.number() == 10),
        ]);
    }

    fn add_pair(&mut self, plan: &Plan, reply: &Reply, arcs: &[Arc]) {
        let (main, standby) = (&reply.main, &reply.standby);
        let both_one = is_one_arc(main) && is_one_arc(standby);
        let spans = reply.common().spans;
        let best = plan.best[reply.ranked as usize - 1].expect("a pair");
        self.pairs.add([
            ("a main of one arc", is_one_arc(main)),
            ("a standby of one arc", is_one_arc(standby)),
            ("both of one arc", both_one),
            ("both of one arc in one span", both_one && !spans.is_empty()),
            ("a span shared", !spans.is_empty()),
            ("equal lengths", main.metres == standby.metres),
            ("the first of several as good", has_one_as_good(plan, reply, arcs)),
            ("more shared than the floor", reply.shared > reply.floor),
            ("spans in it and no risk shared", !spans.is_empty() && reply.common().risks == 0),
            ("a main behind the first that has a standby", best.main > first_main(plan)),
        ]);
    }

    /// Counts a call by how its answer stands to that of any pair.
    fn add_beside_any(&mut self, answered: &Answer, any_plan: &Plan, any: &Reply, arcs: &[Arc]) {
        let (main, standby) = (&any.main, &any.standby);
        let is_apart = are_apart(&main.arcs, &standby.arcs, arcs);
        let of_apart = match answered {
            Answer::Planned(plan, reply) => Some((plan, reply)),
            _ => None,
        };
        let has = |is_so: fn(&Reply, &Reply) -> bool| of_apart.is_some_and(|(_, reply)| is_so(reply, any));
        let total = |reply: &Reply| reply.main.metres + reply.standby.metres;
        self.beside_any.add([
            ("the same", is_apart),
            ("another, for two that meet", of_apart.is_some() && !is_apart && main != standby),
            ("another, for one route twice", of_apart.is_some() && main == standby && !is_one_arc(main)),
            ("another, for one arc twice", of_apart.is_some() && main == standby && is_one_arc(main)),
            ("none, for one arc twice", of_apart.is_none() && main == standby && is_one_arc(main)),
            ("more shared", has(|reply, any| reply.shared > any.shared)),
            (
                "as many shared, longer",
                of_apart.is_some_and(|(_, reply)| reply.shared == any.shared && total(reply) > total(any)),
            ),
            ("a later J", of_apart.is_some_and(|(plan, _)| plan.settled_at > any_plan.settled_at)),
            ("stopped where that is settled", has(|reply, any| !reply.settled && any.settled)),
            ("14 where that is settled", answered.number() == 14 && any.settled),
            ("15 where that is settled", answered.number() == 15 && any.settled),
        ]);
    }

    fn add_steps(&mut self, plan: &Plan, allowance: usize) {
        let (n, j, first) = (plan.ranking.len(), plan.settled_at, first_main(plan));
        let reaches_floor = plan.best[n - 1].is_some_and(|pair| pair.shared == plan.floor);
        self.steps.add([
            ("J = 1", j == 1),
            ("1 < J < N", 1 < j && j < n),
            ("J = N > 1", j == n && n > 1),
            ("the first main has a standby", first == 1),
            ("a later one is the first that has", first > 1),
            ("allowance at that one", first > 1 && allowance == first),
            ("allowance at J", allowance == j),
            ("one below J", allowance + 1 == j),
            ("at N", allowance == n),
            ("no pair apart at the floor", !reaches_floor),
        ]);
    }

    fn add_unpaired(&mut self, plan: &Plan, number: u32, allowance: usize, arcs: &[Arc]) {
        let n = plan.ranking.len();
        let is_14 = number == 14;
        let has_later = plan.best[n - 1].is_some();
        let one_node = has_node_on_all(&plan.ranking, arcs);
        let one_arc = n == 1 && is_one_arc(&plan.ranking[0]);
        self.unpaired.add([
            ("15 with a pair behind the allowance", !is_14 && has_later),
            ("just behind it", !is_14 && plan.best[allowance.min(n - 1)].is_some()),
            ("15 with none", !is_14 && !has_later),
            ("15 one below N", !is_14 && allowance + 1 == n),
            ("14 at N", is_14 && allowance == n),
            ("14 past N", is_14 && allowance > n),
            ("14 with one route", is_14 && n == 1),
            ("14 with one arc alone", is_14 && one_arc),
            ("14 with a node on every route", is_14 && one_node),
            ("14 with none on every route", is_14 && !one_node && !one_arc),
        ]);
    }

    pub fn print(&self) {
        println!("  random calls that want the pair apart {}", self.calls);
        self.numbers.print("their numbers");
        self.sets.print("closed on those without a fault");
        self.pairs.print("their pairs");
        self.beside_any.print("beside the pair that any would do for");
        self.steps.print("their steps");
        self.unpaired.print("without a pair");
    }

    pub fn has_met_all(&self) -> bool {
        let all = [&self.numbers, &self.sets, &self.pairs, &self.beside_any, &self.steps, &self.unpaired];
        // Each is asked, so that each tells what it misses.
        self.calls < MANY || all.iter().filter(|tally| !tally.has_met_all("pairs apart")).count() == 0
    }
}
