//! What the random cases have of empty risk fields (T-09), counted from the cases themselves. Rows worked by hand are
//! left out, and a run of many random cases that does not meet one of these at all fails: it would say nothing of that.

use crate::listing::{is_blank, is_of_a_blank, is_of_an_arc, ranking_within, Answer, Plan, Reply, Route};
use crate::mender::{changes_of, is_clean, old_numbers, Mend, Mended, PAST};
use crate::mesh::{arcs_of, is_marked, Arc, Case, ARC_BYTES};
use crate::tally::{Tally, MANY};

/// Whether an arc has 0 metres and an empty risk field, which is no blank.
fn is_bare_patch(arc: &Arc) -> bool {
    arc.metres == 0 && arc.risks == 0
}

fn blanks(arcs: &[Arc]) -> Vec<usize> {
    (0..arcs.len()).filter(|&arc| is_blank(&arcs[arc])).collect()
}

// ---- Plans ----

/// The routes that a call with blanks would have were it not for T-09; a closed set of a length that is none is taken
/// for what it marks.
pub fn routes_but_for_blanks(case: &Case) -> Vec<Route> {
    ranking_within(usize::MAX, &arcs_of(&case.table), case.closed_set(), &case.request).expect("endless patience")
}

fn lies_on(arc: usize, route: &Route) -> bool {
    route.arcs.iter().any(|&on| usize::from(on) == arc)
}

#[derive(Default)]
pub struct PlanBlanks {
    cases: usize,
    /// Refused for a blank: all, and those around closed arcs; the highest arc that was named.
    calls: usize,
    around: usize,
    highest: usize,
    refused: Tally,
    lengths: Tally,
    behind: Tally,
    planned: Tally,
}

impl PlanBlanks {
    pub fn add(&mut self, case: &Case, answer: &Answer) {
        self.cases += 1;
        let arcs = arcs_of(&case.table);
        match answer {
            Answer::Refused(number) if is_of_a_blank(*number) => {
                self.add_refused(case, &arcs, *number as usize / 256);
                self.add_length(arcs[*number as usize / 256].metres);
            }
            Answer::Refused(number) => self.add_behind(&arcs, *number),
            Answer::Unpaired(..) => (),
            Answer::Planned(plan, reply) => self.add_planned(&arcs, plan, reply),
        }
    }

    /// Counts a call that is refused for a blank by which arc is named, and by what there is beside it.
    fn add_refused(&mut self, case: &Case, arcs: &[Arc], named: usize) {
        self.calls += 1;
        self.around += usize::from(case.closed.is_some());
        self.highest = self.highest.max(named);
        let (blanks, routes) = (blanks(arcs), routes_but_for_blanks(case));
        let is_open = |arc: &usize| !is_marked(case.closed_set(), *arc);
        let is_used = |arc: &usize| routes.iter().any(|route| lies_on(*arc, route));
        self.refused.add([
            ("arc 0", named == 0),
            ("the table's last", named + 1 == arcs.len()),
            ("with other blanks behind it", blanks.len() > 1),
            ("behind an arc of 0 metres without risks", arcs[..named].iter().any(is_bare_patch)),
            ("in a span", arcs[named].span != 0),
            ("in none that is known", arcs[named].span == 0),
            ("on a route", is_used(&named)),
            (
                "open, with all blanks on no route",
                !routes.is_empty() && blanks.iter().all(|b| is_open(b) && !is_used(b)),
            ),
            ("without a set where 10 would follow", case.closed.is_none() && routes.is_empty()),
        ]);
    }

    fn add_length(&mut self, metres: u32) {
        let [first, second, third, _] = metres.to_le_bytes().map(|byte| byte != 0);
        self.lengths.add([
            ("byte 0 alone", first && !second && !third),
            ("byte 1 alone", !first && second && !third),
            ("byte 2 alone", !first && !second && third),
            ("all three", first && second && third),
        ]);
    }

    /// Counts a call that is refused for something else, although it has a blank.
    fn add_behind(&mut self, arcs: &[Arc], number: u32) {
        let Some(&lowest) = blanks(arcs).first() else { return };
        let faulty = is_of_an_arc(number).then_some(number as usize / 256);
        self.behind.add([
            ("2 to 8", (2..=8).contains(&number)),
            ("a fault of a lower arc", faulty.is_some_and(|arc| arc < lowest)),
            ("of a higher one", faulty.is_some_and(|arc| arc > lowest)),
            ("of the blank arc itself", faulty == Some(lowest)),
        ]);
    }

    /// Counts what comes near a blank and is none.
    fn add_planned(&mut self, arcs: &[Arc], plan: &Plan, reply: &Reply) {
        let patches: Vec<usize> = (0..arcs.len()).filter(|&arc| is_bare_patch(&arcs[arc])).collect();
        let has_patch = |route: &Route| patches.iter().any(|&arc| lies_on(arc, route));
        let any = |is_so: fn(u64) -> bool| arcs.iter().any(|arc| arc.metres > 0 && is_so(arc.risks));
        self.planned.add([
            ("arcs of 0 metres without risks", !patches.is_empty()),
            ("such on a route", plan.ranking.iter().any(has_patch)),
            ("such on the main or the standby", has_patch(&reply.main) || has_patch(&reply.standby)),
            ("risk 0 alone on a longer arc", any(|risks| risks == 1)),
            ("risk 63 alone", any(|risks| risks == 1 << 63)),
            ("risks below 32 alone", any(|risks| risks >> 32 == 0)),
            ("risks from 32 on alone", any(|risks| risks as u32 == 0)),
        ]);
    }

    pub fn print(&self) {
        println!(
            "  random cases refused for a blank {}, around closed arcs {}, at most arc {}",
            self.calls, self.around, self.highest
        );
        self.refused.print("the blank that is named");
        self.lengths.print("used of its length");
        self.behind.print("told before a blank");
        self.planned.print("planned with");
    }

    pub fn has_met_all(&self) -> bool {
        let all = [&self.refused, &self.lengths, &self.behind, &self.planned];
        // Each is asked, so that each tells what it misses.
        self.cases < MANY || all.iter().filter(|tally| !tally.has_met_all("blanks")).count() == 0
    }
}

// ---- Mends ----

#[derive(Default)]
pub struct MendBlanks {
    cases: usize,
    inputs: Tally,
    kept: Tally,
}

impl MendBlanks {
    pub fn add(&mut self, mend: &Mend, outcome: &Result<Mended, u32>) {
        self.cases += 1;
        if let Ok(mended) = outcome {
            self.add_input(&mend.input, mended);
            self.add_kept(mended);
        }
    }

    fn add_input(&mut self, input: &[u8], mended: &Mended) {
        let arcs = arcs_of(input);
        let changes = changes_of(&mended.list);
        let lost = |is_past: bool| {
            let mut lost = changes.iter().filter(|change| (change.reason == PAST) == is_past);
            lost.any(|change| arcs.get(usize::from(change.old)).is_some_and(is_blank))
        };
        self.inputs.add([
            ("without any", !arcs.is_empty() && blanks(&arcs).is_empty()),
            ("with blanks", !blanks(&arcs).is_empty()),
            ("clean with blanks", is_clean(input) && !blanks(&arcs).is_empty()),
            ("removed for a fault", lost(false)),
            ("dropped past 128", lost(true)),
        ]);
    }

    fn add_kept(&mut self, mended: &Mended) {
        let arcs = arcs_of(&mended.table);
        let blanks = blanks(&arcs);
        let old = old_numbers(&mended.list, mended.table.len() / ARC_BYTES);
        self.kept.add([
            ("none of some arcs", blanks.is_empty() && !arcs.is_empty()),
            ("arc 0", blanks.first() == Some(&0)),
            ("others alone", blanks.first().is_some_and(|&first| first > 0)),
            ("one whose number shifts", blanks.iter().any(|&new| usize::from(old[new]) != new)),
            ("one in a span", blanks.iter().any(|&new| arcs[new].span != 0)),
            ("beside arcs of 0 metres without risks", !blanks.is_empty() && arcs.iter().any(is_bare_patch)),
        ]);
    }

    pub fn print(&self) {
        self.inputs.print("blanks of random inputs mended");
        self.kept.print("left in them");
    }

    pub fn has_met_all(&self) -> bool {
        self.cases < MANY || (self.inputs.has_met_all("blanks of inputs") & self.kept.has_met_all("blanks left"))
    }
}
