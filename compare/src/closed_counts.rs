//! What the random calls around closed arcs have (T-06), counted from the calls themselves. Rows worked by hand are
//! left out, and a run of many such calls that does not meet one of these at all fails: it would say nothing of that.

use crate::blank_counts::routes_but_for_blanks;
use crate::listing::{answer, closed_on, faults, is_of_a_blank, is_of_an_arc, Answer, Plan, Reply, Route};
use crate::listing::{ARCS_MAX, REPLY_BYTES};
use crate::mesh::{arcs_of, is_marked, marked, Arc, Case, CLOSED_BYTES};
use crate::tally::{Tally, MANY};

/// A bit from here on stands in the later half of a set.
const LATER_HALF: usize = ARCS_MAX / 2;

#[derive(Default)]
pub struct ClosedSets {
    calls: usize,
    lengths: Tally,
    marks: Tally,
    refusals: Tally,
    blanks: Tally,
    answers: Tally,
    routes: Tally,
    steps: Tally,
    spans: Tally,
}

/// The number and the reply.
fn outcome(answer: &Answer) -> (u32, Vec<u8>) {
    (answer.number(), answer.buffer_after(vec![0; REPLY_BYTES]))
}

/// How many routes there are.
fn routes(answer: &Answer) -> usize {
    match answer {
        Answer::Planned(plan, _) | Answer::Unpaired(plan, _) => plan.ranking.len(),
        Answer::Refused(_) => 0,
    }
}

/// Whether a route crosses a span of which the table's first arc is closed.
fn lost_its_first_arc(route: &Route, arcs: &[Arc], closed: &[u8]) -> bool {
    let first = |span: u16| arcs.iter().position(|arc| arc.span == span).expect("an arc of the route");
    route.spans.iter().any(|&span| is_marked(closed, first(span)))
}

/// Whether a route takes one direction of a span, and the other is closed.
fn passes_a_closed_direction(route: &Route, arcs: &[Arc], closed: &[u8]) -> bool {
    let is_other_way = |p: &Arc, q: &Arc| p.span != 0 && p.span == q.span && (p.tail, p.head) == (q.head, q.tail);
    let closed: Vec<&Arc> = marked(closed).into_iter().map(|arc| &arcs[arc]).collect();
    route.arcs.iter().any(|&on| closed.iter().any(|other| is_other_way(&arcs[usize::from(on)], other)))
}

impl ClosedSets {
    /// Counts a call where it brings a set.
    pub fn add(&mut self, case: &Case, answered: &Answer) {
        let Some(closed) = &case.closed else { return };
        self.calls += 1;
        self.add_length(closed);
        if closed.len() == CLOSED_BYTES {
            self.add_marks(closed, arcs_of(&case.table).len());
        }
        self.add_refusal(case, closed, answered);
        if is_of_a_blank(answered.number()) {
            self.add_blank(case, closed, answered.number() as usize / 256);
        }
        if faults(case).is_empty() {
            self.add_answer(case, closed, answered, &answer(&case.without_set()));
        }
    }

    fn add_length(&mut self, closed: &[u8]) {
        let bytes = closed.len();
        self.lengths.add([
            ("0", bytes == 0),
            ("15", bytes == 15),
            ("16", bytes == 16),
            ("17", bytes == 17),
            ("others", ![0, 15, 16, 17].contains(&bytes)),
            ("with the low 16 bits of 16", bytes > 65_535 && bytes % 65_536 == 16),
        ]);
    }

    fn add_marks(&mut self, closed: &[u8], arcs: usize) {
        let marked = marked(closed);
        self.marks.add([
            ("none", marked.is_empty()),
            ("one arc", marked.len() == 1),
            ("several", marked.len() > 1),
            ("every arc", arcs > 0 && marked.iter().copied().eq(0..arcs)),
            ("arc 0", marked.contains(&0)),
            ("the table's last arc", arcs > 0 && marked.contains(&(arcs - 1))),
            ("arc 127 of 128", arcs == ARCS_MAX && marked.contains(&(ARCS_MAX - 1))),
            ("the next arc past the table", marked.contains(&arcs)),
            ("arc 127 past the table", arcs < ARCS_MAX && marked.contains(&(ARCS_MAX - 1))),
        ]);
    }

    fn add_refusal(&mut self, case: &Case, closed: &[u8], answered: &Answer) {
        let (faults, number) = (faults(case), answered.number());
        let names_arc = is_of_an_arc(number);
        let names_closed_arc = names_arc && is_marked(closed, number as usize / 256);
        let is_no_set = faults.contains(&16);
        let has_no_route = || matches!(answer(&case.without_set()), Answer::Refused(10));
        self.refusals.add([
            ("16 by the length", number == 16 && closed.len() != CLOSED_BYTES),
            ("16 by an arc past the table", number == 16 && closed.len() == CLOSED_BYTES),
            ("16 where there is no route", number == 16 && has_no_route()),
            ("2 to 8 before 16", (2..=8).contains(&number) && is_no_set),
            ("an arc before 16 by the length", names_arc && is_no_set && closed.len() != CLOSED_BYTES),
            ("an arc before 16 by one past the table", names_arc && is_no_set && closed.len() == CLOSED_BYTES),
            ("a closed arc", names_closed_arc),
            ("a closed arc before 16", names_closed_arc && is_no_set),
        ]);
    }

    /// Counts a call that is refused for a blank (T-09).
    fn add_blank(&mut self, case: &Case, closed: &[u8], arc: usize) {
        let (is_closed, is_no_set) = (is_marked(closed, arc), faults(case).contains(&16));
        self.blanks.add([
            ("a closed one", is_closed),
            ("an open one with others closed", !is_closed && !is_no_set && !marked(closed).is_empty()),
            ("with nothing closed", closed.len() == CLOSED_BYTES && marked(closed).is_empty()),
            ("before 16 by the length", is_no_set && closed.len() != CLOSED_BYTES),
            ("before 16 by an arc past the table", is_no_set && closed.len() == CLOSED_BYTES),
            ("a closed one before 16", is_closed && is_no_set),
            ("where 10 would follow", !is_no_set && routes_but_for_blanks(case).is_empty()),
        ]);
    }

    /// Counts a call without a fault by what its set does to the answer.
    fn add_answer(&mut self, case: &Case, closed: &[u8], answered: &Answer, plain: &Answer) {
        let marked = marked(closed);
        let is_same = outcome(answered) == outcome(plain);
        let (left, before) = (routes(answered), routes(plain));
        self.answers.add([
            ("the same with nothing closed", marked.is_empty() && is_same),
            ("the same with arcs on no route closed", !marked.is_empty() && left == before && left > 0 && is_same),
            ("the same with arcs on routes closed", left < before && is_same),
            ("another reply", left > 0 && !is_same),
            ("no route left", left == 0 && before > 0),
            (
                "no route left with every arc closed",
                left == 0 && before > 0 && marked.len() == arcs_of(&case.table).len(),
            ),
            ("no route even without it", before == 0),
        ]);
        if let (Answer::Planned(plan, reply), Answer::Planned(of_all, before)) = (answered, plain) {
            self.add_routes(closed, of_all, before);
            self.add_steps((plan, reply), (of_all, before));
            self.add_spans(&arcs_of(&case.table), closed, reply);
        }
    }

    /// Counts what is closed of the routes that there would be, and of the pair that would be given.
    fn add_routes(&mut self, closed: &[u8], of_all: &Plan, before: &Reply) {
        let is_on = |route: &Route| !closed_on(&route.arcs, closed).is_empty();
        let is_late = |route: &Route| closed_on(&route.arcs, closed).iter().any(|&arc| usize::from(arc) >= LATER_HALF);
        self.routes.add([
            ("the main", is_on(&before.main)),
            ("the standby alone", is_on(&before.standby) && !is_on(&before.main)),
            ("other routes alone", of_all.ranking.iter().any(is_on) && !is_on(&before.main) && !is_on(&before.standby)),
            ("some route from arc 64 on", of_all.ranking.iter().any(is_late)),
        ]);
    }

    /// Counts how the steps over open arcs differ from those over all.
    fn add_steps(&mut self, (plan, reply): (&Plan, &Reply), (of_all, before): (&Plan, &Reply)) {
        let is_same_pair = reply.main == before.main && reply.standby == before.standby;
        self.steps.add([
            ("J over 1", plan.settled_at > 1),
            ("another J", plan.settled_at != of_all.settled_at),
            ("the same pair with another ranked", is_same_pair && reply.ranked != before.ranked),
            ("a higher floor", plan.floor > of_all.floor),
            ("more shared", reply.shared > before.shared),
            ("stopped", !reply.settled),
            ("settled instead of stopped", reply.settled && !before.settled),
            ("stopped instead of settled", !reply.settled && before.settled),
        ]);
    }

    fn add_spans(&mut self, arcs: &[Arc], closed: &[u8], reply: &Reply) {
        let routes = [&reply.main, &reply.standby];
        let shared = reply.common().spans;
        let is_closed_in = |span: &u16| marked(closed).iter().any(|&arc| arcs[arc].span == *span);
        self.spans.add([
            (
                "cross a span whose first arc is closed",
                routes.iter().any(|route| lost_its_first_arc(route, arcs, closed)),
            ),
            (
                "cross one whose other direction is closed",
                routes.iter().any(|route| passes_a_closed_direction(route, arcs, closed)),
            ),
            ("share a span with a closed arc", shared.iter().any(is_closed_in)),
        ]);
    }

    pub fn print(&self) {
        println!("  random calls around closed arcs {}", self.calls);
        self.lengths.print("their sets of so many bytes");
        self.marks.print("those of 16 mark");
        self.refusals.print("refused among them");
        self.blanks.print("refused for a blank");
        self.answers.print("beside the answer without the set");
        self.routes.print("where routes are left, closed are arcs of");
        self.steps.print("their plans beside those without the set");
        self.spans.print("their replies");
    }

    pub fn has_met_all(&self) -> bool {
        let of_calls = [&self.lengths, &self.marks, &self.refusals, &self.blanks];
        let of_answers = [&self.answers, &self.routes, &self.steps, &self.spans];
        let all = [of_calls, of_answers].concat();
        // Each is asked, so that each tells what it misses.
        self.calls < MANY || all.iter().filter(|tally| !tally.has_met_all("calls around closed arcs")).count() == 0
    }
}
