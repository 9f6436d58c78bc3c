//! The planner's answers held to each other (T-05): one mesh is asked at rising allowances, at each of them for a pair
//! apart and for any pair. What is held here is what a customer sees, and the listing has no say in it.

use crate::apart::are_apart;
use crate::apart_random::{apart_case, first_main};
use crate::ask::Given;
use crate::listing::{answer, faults, Answer, ALLOWANCE_MAX, REPLY_BYTES, ROUTE_BYTES};
use crate::mesh::{arcs_of, marked, number, Arc, Case};
use crate::random::Dice;
use crate::tally::{Tally, MANY};

/// So many of the allowances in a hundred are asked at, so that steps on the way are passed over now and then.
const KEPT_PERCENT: usize = 70;

/// The cases of one mesh, by rising allowance: at each one for a pair apart, and then one for any pair.
pub type Rise = Vec<Case>;

/// Most of the allowances at and beside what happens on the way: where the first pair apart comes in, J, and N; and the
/// largest.
fn allowances(dice: &mut Dice, case: &Case) -> Vec<u32> {
    let (first, j, n) = match answer(&case.with_allowance(ALLOWANCE_MAX)) {
        Answer::Planned(plan, _) | Answer::Unpaired(plan, _) => {
            (first_main(&plan), plan.settled_at, plan.ranking.len())
        }
        Answer::Refused(_) => (1, 1, 1),
    };
    let at = [1, first - 1, first, j - 1, j, j + 1, n - 1, n, dice.between(1, n)];
    let mut allowances: Vec<u32> = at.into_iter().filter(|&at| at > 0).map(|at| at as u32).collect();
    allowances.retain(|_| dice.percent(KEPT_PERCENT));
    allowances.push(ALLOWANCE_MAX);
    allowances.sort_unstable();
    allowances.dedup();
    allowances
}

/// The same call for any pair, of the entry that knows of no closed arcs where none is.
fn for_any_pair(case: &Case) -> Case {
    let any = case.of_any_pair();
    if marked(any.closed_set()).is_empty() {
        any.without_set()
    } else {
        any
    }
}

pub fn rise(dice: &mut Dice) -> Rise {
    let case = loop {
        let (case, _) = apart_case(dice);
        if faults(&case).is_empty() {
            break case;
        }
    };
    let asked = allowances(dice, &case).into_iter().map(|allowance| case.with_allowance(allowance));
    asked.flat_map(|case| [case.clone(), for_any_pair(&case)]).collect()
}

/// A pair as it is judged: shared count, total, then main and standby, each by its metres and its arcs.
#[derive(PartialEq, PartialOrd)]
struct Judged {
    shared: u8,
    total: u64,
    main: (u64, Vec<u8>),
    standby: (u64, Vec<u8>),
}

/// An answer as a customer reads it.
struct Told {
    number: u32,
    reply: Vec<u8>,
}

impl Told {
    fn of(given: &Given) -> Told {
        Told { number: given.numbers[0], reply: given.outputs[0][..REPLY_BYTES].to_vec() }
    }

    fn has_pair(&self) -> bool {
        self.number <= 1
    }

    fn floor(&self) -> u8 {
        self.reply[2]
    }

    fn ranked(&self) -> u64 {
        number(&self.reply[8..12])
    }

    fn judged(&self) -> Judged {
        let route =
            |arcs: u8, from: usize| self.reply[from..from + ROUTE_BYTES].iter().copied().take(arcs.into()).collect();
        let (main, standby) = (number(&self.reply[12..16]), number(&self.reply[16..20]));
        Judged {
            shared: self.reply[1],
            total: main + standby,
            main: (main, route(self.reply[3], 32)),
            standby: (standby, route(self.reply[4], 64)),
        }
    }

    /// Whether the pair is apart; two lists that are no arcs of the table are not.
    fn is_apart(&self, arcs: &[Arc]) -> bool {
        let Judged { main: (_, main), standby: (_, standby), .. } = self.judged();
        let are_arcs = |route: &[u8]| !route.is_empty() && route.iter().all(|&arc| usize::from(arc) < arcs.len());
        are_arcs(&main) && are_arcs(&standby) && are_apart(&main, &standby, arcs)
    }
}

/// What was held, counted.
#[derive(Default)]
pub struct Relations {
    rises: usize,
    steps: Tally,
    beside: Tally,
}

type Held = Result<(), &'static str>;

fn hold(holds: bool, what: &'static str) -> Held {
    holds.then_some(()).ok_or(what)
}

/// Holds the answer at an allowance to that at a smaller one.
fn hold_rise(before: &Told, after: &Told) -> Held {
    match before.number {
        0 => hold(after.number == 0 && after.reply == before.reply, "settled stays, byte for byte"),
        1 => {
            hold(after.has_pair(), "a pair found is never lost")?;
            hold(after.judged() <= before.judged(), "a larger allowance never gives a worse pair")?;
            hold(after.floor() == before.floor(), "the floor stays")?;
            hold(after.ranked() > before.ranked(), "more mains are ranked where it was stopped")
        }
        15 => hold([0, 1, 14, 15].contains(&after.number), "15 becomes a pair, or 14, or stays"),
        14 => hold(after.number == 14, "14 stays"),
        other => hold(after.number == other, "what has nothing to do with the allowance stays"),
    }
}

/// Holds the answer for a pair apart to that for any pair of the same call.
fn hold_beside(apart: &Told, any: &Told, arcs: &[Arc], allowance: u32) -> Held {
    if !any.has_pair() {
        return hold(apart.number == any.number, "where there is no pair at all, both are refused alike");
    }
    let same = apart.number == any.number && apart.reply == any.reply;
    hold(same || !any.is_apart(arcs), "where any pair is apart, both answers are the same")?;
    if !apart.has_pair() {
        return hold([14, 15].contains(&apart.number), "where there is a route, there is a pair, or 14 or 15");
    }
    hold(apart.is_apart(arcs), "the pair is apart")?;
    hold(apart.floor() == any.floor(), "the floor is that of all routes")?;
    hold(any.judged() <= apart.judged(), "no pair apart is better than the best of all")?;
    hold(any.ranked() <= apart.ranked(), "pairs apart are settled no earlier")?;
    hold(apart.number == 0 || apart.ranked() == u64::from(allowance), "stopped, the allowance is what was ranked")?;
    hold(apart.number == 1 || any.number == 0, "where pairs apart are settled, all are")
}

impl Relations {
    /// Holds the answers to one mesh; says which of its cases does not hold, and why.
    pub fn add(&mut self, rise: &Rise, given: &[Given]) -> Result<(), (usize, &'static str)> {
        let arcs = arcs_of(&rise[0].table);
        let told: Vec<Told> = given.iter().map(Told::of).collect();
        let apart: Vec<&Told> = told.iter().step_by(2).collect();
        for (place, two) in told.chunks(2).enumerate() {
            hold_beside(&two[0], &two[1], &arcs, rise[2 * place].request.allowance)
                .map_err(|what| (2 * place, what))?;
            self.add_beside(&two[0], &two[1], &arcs);
        }
        for (place, two) in apart.windows(2).enumerate() {
            hold_rise(two[0], two[1]).map_err(|what| (2 * place + 2, what))?;
            self.add_step(two[0], two[1]);
        }
        let last = apart[apart.len() - 1].number;
        hold([0, 10, 14].contains(&last), "an allowance of N or more settles or gives 14")
            .map_err(|what| (rise.len() - 2, what))?;
        self.rises += 1;
        Ok(())
    }

    fn add_step(&mut self, before: &Told, after: &Told) {
        let both = (before.number, after.number);
        let is_better = both == (1, 1) && after.judged() < before.judged();
        self.steps.add([
            ("15 to 15", both == (15, 15)),
            ("15 to stopped", both == (15, 1)),
            ("15 to settled", both == (15, 0)),
            ("15 to 14", both == (15, 14)),
            ("14 to 14", both == (14, 14)),
            ("stopped to a better pair", is_better),
            ("stopped to the same pair", both == (1, 1) && !is_better),
            ("stopped to settled", both == (1, 0)),
            ("settled to settled", both == (0, 0)),
            ("10 to 10", both == (10, 10)),
        ]);
    }

    fn add_beside(&mut self, apart: &Told, any: &Told, arcs: &[Arc]) {
        self.beside.add([
            ("any pair is apart, the same bytes", any.has_pair() && any.is_apart(arcs)),
            ("another pair", apart.has_pair() && !any.is_apart(arcs)),
            ("14", apart.number == 14),
            ("15", apart.number == 15),
            ("no route", apart.number == 10),
        ]);
    }

    pub fn print(&self) {
        println!("  meshes whose answers hold to each other {}", self.rises);
        self.steps.print("for a pair apart, from an allowance to the next");
        self.beside.print("beside the answer for any pair");
    }

    pub fn has_met_all(&self) -> bool {
        self.rises < MANY || (self.steps.has_met_all("rising allowances") & self.beside.has_met_all("any pair"))
    }
}
