//! What the random cases have of spans (T-03), counted from the cases themselves. Rows worked by hand are left out, and
//! a run of many random cases that does not meet one of these at all fails: it would say nothing of that.

use crate::listing::{common, has_spans, risks_alone, Answer, Plan, Reply, Route, ARCS_MAX};
use crate::mender::{changes_of, is_clean, old_numbers, Change, Mend, Mended, PAST};
use crate::mesh::{arcs_of, Arc, Case, ARC_BYTES};
use crate::tally::{Tally, MANY};

/// As many spans as a risk field has bits.
const RISKS: usize = 64;

fn different_spans(arcs: &[Arc]) -> usize {
    let mut spans: Vec<u16> = arcs.iter().map(|arc| arc.span).filter(|&span| span != 0).collect();
    spans.sort_unstable();
    spans.dedup();
    spans.len()
}

// ---- Plans ----

/// The arcs of a route.
fn arcs_on(route: &Route, arcs: &[Arc]) -> Vec<Arc> {
    route.arcs.iter().map(|&arc| arcs[usize::from(arc)]).collect()
}

fn crosses_a_span_twice(route: &Route, arcs: &[Arc]) -> bool {
    arcs_on(route, arcs).iter().filter(|arc| arc.span != 0).count() > route.spans.len()
}

/// Whether the main crosses a span one way, and the standby the other.
fn meet_head_on(reply: &Reply, arcs: &[Arc]) -> bool {
    let is_back = |p: &Arc, q: &Arc| p.span != 0 && p.span == q.span && (p.tail, p.head) == (q.head, q.tail);
    let standby = arcs_on(&reply.standby, arcs);
    arcs_on(&reply.main, arcs).iter().any(|p| standby.iter().any(|q| is_back(p, q)))
}

/// Whether risks alone would have given another pair for the same allowance.
fn is_another_by_risks(plan: &Plan, reply: &Reply, allowance: u32) -> bool {
    let by_risks = Reply::from_plan(&Plan::new(plan.ranking.clone(), risks_alone), allowance);
    by_risks.main.arcs != reply.main.arcs || by_risks.standby.arcs != reply.standby.arcs
}

#[derive(Default)]
pub struct PlanSpans {
    cases: usize,
    meshes: Tally,
    replies: Tally,
}

impl PlanSpans {
    pub fn add(&mut self, case: &Case, answer: &Answer) {
        self.cases += 1;
        if let Answer::Planned(plan, reply) = answer {
            let arcs = arcs_of(&case.table);
            self.add_mesh(&arcs, plan);
            if has_spans(&arcs) {
                self.add_reply(&arcs, plan, reply, case.request.allowance);
            }
        }
    }

    fn add_mesh(&mut self, arcs: &[Arc], plan: &Plan) {
        let on_routes: Vec<Arc> = plan.ranking.iter().flat_map(|route| arcs_on(route, arcs)).collect();
        let has = |span| on_routes.iter().any(|arc| arc.span == span);
        self.meshes.add([
            ("without any, and answered as by risks alone", !has_spans(arcs)),
            ("with spans", has_spans(arcs)),
            ("some known and some not", has_spans(arcs) && arcs.iter().any(|arc| arc.span == 0)),
            ("span 1 on a route", has(1)),
            ("span 65535 on a route", has(65_535)),
            ("over 64 spans on routes", different_spans(&on_routes) > RISKS),
            ("over 64 spans in 128 arcs", arcs.len() == ARCS_MAX && different_spans(arcs) > RISKS),
        ]);
    }

    fn add_reply(&mut self, arcs: &[Arc], plan: &Plan, reply: &Reply, allowance: u32) {
        let both = reply.common();
        let all = common(&plan.ranking.iter().collect::<Vec<_>>());
        self.replies.add([
            ("share a span", !both.spans.is_empty()),
            ("spans and no risk", !both.spans.is_empty() && both.risks == 0),
            ("spans and risks", !both.spans.is_empty() && both.risks != 0),
            ("several spans", both.spans.len() > 1),
            ("a span not in the floor", both.spans.len() > all.spans.len()),
            ("have spans in the floor", !all.spans.is_empty()),
            ("cross a span twice", [&reply.main, &reply.standby].iter().any(|r| crosses_a_span_twice(r, arcs))),
            ("cross one in opposite directions", meet_head_on(reply, arcs)),
            ("are another pair than by risks alone", is_another_by_risks(plan, reply, allowance)),
        ]);
    }

    pub fn print(&self) {
        self.meshes.print("spans of random meshes planned");
        self.replies.print("replies to those with spans");
    }

    pub fn has_met_all(&self) -> bool {
        self.cases < MANY || (self.meshes.has_met_all("random meshes") & self.replies.has_met_all("replies"))
    }
}

// ---- Mends ----

#[derive(Default)]
pub struct MendSpans {
    cases: usize,
    inputs: Tally,
    kept: Tally,
}

impl MendSpans {
    pub fn add(&mut self, mend: &Mend, outcome: &Result<Mended, u32>) {
        self.cases += 1;
        if let Ok(mended) = outcome {
            self.add_input(&mend.input, mended);
            self.add_kept(mended);
        }
    }

    fn add_input(&mut self, input: &[u8], mended: &Mended) {
        let arcs = arcs_of(input);
        let (past, removed): (Vec<_>, Vec<_>) =
            changes_of(&mended.list).into_iter().partition(|change| change.reason == PAST);
        let any_in_span = |changes: &[Change]| {
            changes.iter().any(|change| arcs.get(usize::from(change.old)).is_some_and(|arc| arc.span != 0))
        };
        self.inputs.add([
            ("without any", !has_spans(&arcs)),
            ("with spans", has_spans(&arcs)),
            ("clean with spans", has_spans(&arcs) && is_clean(input)),
            ("removed with a span", any_in_span(&removed)),
            ("dropped past 128 with a span", any_in_span(&past)),
        ]);
    }

    fn add_kept(&mut self, mended: &Mended) {
        let arcs = arcs_of(&mended.table);
        let any = |is_so: fn(&Arc) -> bool| arcs.iter().any(is_so);
        let old = old_numbers(&mended.list, mended.table.len() / ARC_BYTES);
        let shifted = (0..).zip(&old).any(|(new, &old)| usize::from(old) != new && arcs[new].span != 0);
        self.kept.add([
            ("span 1", any(|arc| arc.span == 1)),
            ("span 65535", any(|arc| arc.span == 65_535)),
            ("byte 2 alone", any(|arc| arc.span != 0 && arc.span < 256)),
            ("byte 3 alone", any(|arc| arc.span != 0 && arc.span % 256 == 0)),
            ("both bytes", any(|arc| arc.span > 256 && arc.span % 256 != 0)),
            ("a span on an arc whose number shifts", shifted),
            ("over 64 spans in 128 arcs", arcs.len() == ARCS_MAX && different_spans(&arcs) > RISKS),
        ]);
    }

    pub fn print(&self) {
        self.inputs.print("spans of random inputs mended");
        self.kept.print("kept in them");
    }

    pub fn has_met_all(&self) -> bool {
        self.cases < MANY || (self.inputs.has_met_all("random inputs") & self.kept.has_met_all("kept arcs"))
    }
}
