//! Calls on meshes with routes of 31 arcs, the most that a route can have: every search then calls itself as often as it
//! ever does, one search within another, so that the stack which the driver measures is what a call takes at most. One
//! in three wants the pair apart (T-05); a route over all nodes is then apart from a straight arc alone, so these meshes
//! have such arcs, or ways that part a chain of all nodes in two.

use crate::apart_random::APART_EVERY;
use crate::listing::{has_spans, Answer, Reply, ALLOWANCE_MAX, REACH_MAX, REPLY_BYTES};
use crate::mesh::{arcs_of, marked, set_of, table_bytes, Arc, Case, Request, CLOSED_BYTES};
use crate::random::{arcs_between, chain, lengths, number_spans, rename_nodes, risks, Dice, Ends};
use crate::tally::{Tally, MANY};

/// The arcs of the longest routes, and so the hops of a chain of all nodes.
const LONGEST: usize = 31;
/// So many meshes in a hundred have spans that are known, and so many calls bring a closed set.
const SPANS_PERCENT: usize = 60;
const CLOSED_PERCENT: usize = 50;
/// So many of those that want the pair apart have ways that let it be; the others have none.
const WAYS_PERCENT: usize = 90;

/// A chain of all nodes with cables side by side on a few hops; now and then a hop passed over or walked back.
fn ends(dice: &mut Dice) -> Ends {
    let nodes = chain(LONGEST - 1);
    let mut ends: Ends = nodes.windows(2).map(|hop| (hop[0], hop[1])).collect();
    for _ in 0..dice.between(1, 5) {
        ends.push(ends[dice.below(LONGEST)]);
    }
    for _ in 0..dice.pick(&[0, 0, 1, 2]) {
        let at = dice.below(nodes.len() - 2);
        ends.push(dice.pick(&[(nodes[at], nodes[at + 2]), (nodes[at + 1], nodes[at]), (nodes[at + 2], nodes[at])]));
    }
    ends
}

/// What makes routes apart on such a chain: arcs straight from the source to the terminal, or one past the first part of
/// it and one past the rest.
fn ways_apart(dice: &mut Dice) -> Ends {
    let nodes = chain(LONGEST - 1);
    let (source, terminal) = (nodes[0], nodes[LONGEST]);
    let part = dice.between(2, LONGEST - 1);
    let in_two = vec![(source, nodes[part]), (nodes[part - 1], terminal)];
    let straight = vec![(source, terminal); dice.pick(&[1, 1, 2])];
    match dice.below(3) {
        0 => straight,
        1 => in_two,
        _ => [straight, in_two].concat(),
    }
}

/// Closes some cables that have others beside them, one of which stays open, so that the longest routes stay.
fn works(dice: &mut Dice, arcs: &[Arc]) -> Vec<usize> {
    let has_one_before =
        |place: usize| arcs[..place].iter().any(|arc| (arc.tail, arc.head) == (arcs[place].tail, arcs[place].head));
    let percent = dice.pick(&[0, 40, 100]);
    (0..arcs.len()).filter(|&place| has_one_before(place) && dice.percent(percent)).collect()
}

/// A case without a fault whose mesh has routes of 31 arcs.
pub fn case(dice: &mut Dice) -> Case {
    let apart = dice.below(APART_EVERY) == 0;
    let mut ends = ends(dice);
    if apart && dice.percent(WAYS_PERCENT) {
        ends.extend(ways_apart(dice));
    }
    let mut arcs = arcs_between(&ends);
    lengths(dice, &mut arcs);
    risks(dice, &mut arcs);
    if dice.percent(SPANS_PERCENT) {
        number_spans(dice, &mut arcs);
    }
    dice.shuffle(&mut arcs);
    let (source, terminal) = rename_nodes(dice, &mut arcs);
    let mut closed = dice.percent(CLOSED_PERCENT).then(|| set_of(CLOSED_BYTES, &works(dice, &arcs)));
    if apart {
        closed.get_or_insert_with(|| set_of(CLOSED_BYTES, &[]));
    }
    let few = dice.between(1, 40) as u32;
    let request = Request { source, terminal, reach: REACH_MAX, allowance: dice.pick(&[1, few, ALLOWANCE_MAX]) };
    Case { table: table_bytes(&arcs), closed, apart, reply_len: REPLY_BYTES, request }
}

fn is_longest(route: &[u8]) -> bool {
    route.len() == LONGEST
}

/// What these calls were, counted from their answers.
#[derive(Default)]
pub struct LongRoutes {
    cases: usize,
    with_longest: usize,
    any: Tally,
    apart: Tally,
}

impl LongRoutes {
    pub fn add(&mut self, case: &Case, answer: &Answer) {
        self.cases += 1;
        let (Answer::Planned(plan, _) | Answer::Unpaired(plan, _)) = answer else { return };
        self.with_longest += usize::from(plan.ranking.iter().any(|route| is_longest(&route.arcs)));
        match answer {
            _ if case.apart => self.add_apart(case, answer),
            Answer::Planned(_, reply) => self.add_any(case, reply),
            _ => (),
        }
    }

    fn add_any(&mut self, case: &Case, reply: &Reply) {
        let spanned = has_spans(&arcs_of(&case.table));
        let both = is_longest(&reply.main.arcs) && is_longest(&reply.standby.arcs);
        self.any.add([
            ("all", true),
            ("main and standby of 31 arcs", both),
            ("with spans", both && spanned),
            ("without", both && !spanned),
            ("with arcs closed", both && !marked(case.closed_set()).is_empty()),
            ("stopped", both && !reply.settled),
        ]);
    }

    fn add_apart(&mut self, case: &Case, answer: &Answer) {
        let (main, standby) = match answer {
            Answer::Planned(_, reply) => (&reply.main.arcs[..], &reply.standby.arcs[..]),
            _ => (&[][..], &[][..]),
        };
        let spanned = has_spans(&arcs_of(&case.table));
        let has_longest = is_longest(main) || is_longest(standby);
        self.apart.add([
            ("all", true),
            ("main of 31 arcs", is_longest(main)),
            ("standby of 31 arcs", is_longest(standby)),
            ("one of 31 with spans", has_longest && spanned),
            ("without", has_longest && !spanned),
            ("with arcs closed", has_longest && !marked(case.closed_set()).is_empty()),
            (
                "all nodes on one or the other",
                main.len() > 1 && standby.len() > 1 && main.len() + standby.len() > LONGEST,
            ),
            ("stopped", answer.number() == 1),
            ("14", answer.number() == 14),
            ("15", answer.number() == 15),
        ]);
    }

    pub fn print(&self) {
        println!("  cases with routes of 31 arcs {}", self.with_longest);
        self.any.print("for any pair");
        self.apart.print("for a pair apart");
    }

    /// Whether every case had routes of 31 arcs, and of many cases some were of each kind.
    pub fn has_met_all(&self) -> bool {
        let without = self.cases - self.with_longest;
        if without > 0 {
            println!("NOT MET: long routes: {without} cases have no route of 31 arcs");
        }
        without == 0
            && (self.cases < MANY || (self.any.has_met_all("long routes") & self.apart.has_met_all("long routes")))
    }
}
