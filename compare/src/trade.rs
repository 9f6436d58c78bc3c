//! Small meshes in the shapes of this trade, on which risks crowd: the ways into a building lie in a few ducts, those
//! over a river too, and cables side by side. Any two routes then share some risk, and mostly none lies on all. In two
//! of the shapes, where spans are known, it is a span that they share. The last two are for pairs that meet in no node
//! between the ends (T-05): in one there are such, in the other the shorter routes all meet.

use crate::listing::METRES_MAX;
use crate::mesh::Arc;
use crate::random::{chain, two_nodes, Dice, Ends};

#[derive(Clone, Copy)]
pub enum Shape {
    DuctsIntoTerminal,
    DuctsIntoNeighbours,
    DuctsAtBothEnds,
    River,
    TwoRivers,
    Ring,
    Cables,
    SeveralRisks,
    Bridge,
    Lanes,
    Strands,
    Bypasses,
}

/// Every shape, in the order in which it is counted, and its name there.
pub const SHAPES: [(Shape, &str); 12] = [
    (Shape::DuctsIntoTerminal, "ducts into the terminal"),
    (Shape::DuctsIntoNeighbours, "into its neighbours"),
    (Shape::DuctsAtBothEnds, "at both ends"),
    (Shape::River, "a river"),
    (Shape::TwoRivers, "two rivers"),
    (Shape::Ring, "a ring"),
    (Shape::Cables, "cables"),
    (Shape::SeveralRisks, "several risks an arc"),
    (Shape::Bridge, "a bridge"),
    (Shape::Lanes, "lanes"),
    (Shape::Strands, "strands"),
    (Shape::Bypasses, "bypasses"),
];

const SOURCE: u8 = 0;
const TERMINAL: u8 = 1;
/// The last node before the terminal where a ring has one, and the last before lanes.
const GATE: u8 = 31;
/// The two ends of a bridge.
const LEFT: u8 = 2;
const RIGHT: u8 = 3;
/// The middles of the lanes.
const LANES: [u8; 3] = [28, 29, 30];
/// The risk of the last duct, and of the last one of a second place; risks beside ducts are lower.
const LAST_DUCT: usize = 63;
const LAST_DUCT_ELSEWHERE: usize = 59;

// ---- The ends of the arcs ----

/// Which strip of land a node is on; the source is on the first, the terminal on the last.
fn strip_of(node: u8, strips: usize) -> usize {
    match node {
        SOURCE => 0,
        TERMINAL => strips - 1,
        _ => usize::from(node) % strips,
    }
}

/// Land in strips with a river between each and the next; no span leads over two rivers.
fn land(dice: &mut Dice, strips: usize) -> Ends {
    let nodes = dice.between(strips + 4, strips + 7);
    let spans = dice.between(3 * nodes / 2, 5 * nodes / 2);
    let mut ends = Ends::new();
    while ends.len() < 2 * spans {
        let (tail, head) = two_nodes(dice, nodes);
        if strip_of(tail, strips).abs_diff(strip_of(head, strips)) < 2 {
            ends.extend([(tail, head), (head, tail)]);
        }
    }
    ends
}

/// A ring, each node joined with the next and maybe with the next but one; from the node opposite the source three arcs
/// to the gate, and from there three to the terminal.
fn ring(dice: &mut Dice) -> Ends {
    let mut nodes = chain(dice.between(3, 5));
    nodes.pop(); // the terminal
    let mut ends = Ends::new();
    for hop in 1..=dice.between(1, 2) {
        for (place, &tail) in nodes.iter().enumerate() {
            let head = nodes[(place + hop) % nodes.len()];
            ends.extend([(tail, head), (head, tail)]);
        }
    }
    let opposite = nodes[nodes.len() / 2];
    ends.extend([(opposite, GATE); 3]);
    ends.extend([(GATE, TERMINAL); 3]);
    ends
}

/// A chain of a few hops with as many cables on each, and no more routes than are listed whole.
fn cables(dice: &mut Dice) -> Ends {
    let (cables, most_hops) = dice.pick(&[(2, 8), (3, 5), (4, 4)]);
    let hops = dice.between(2, most_hops);
    chain(hops - 1).windows(2).flat_map(|hop| vec![(hop[0], hop[1]); cables]).collect()
}

/// From the source to both ends of a bridge, over it both ways, and from both ends to the terminal; now and then with a
/// second cable.
fn bridge(dice: &mut Dice) -> Ends {
    let mut ends = Ends::new();
    for hop in [(SOURCE, LEFT), (SOURCE, RIGHT), (LEFT, RIGHT), (RIGHT, LEFT), (LEFT, TERMINAL), (RIGHT, TERMINAL)] {
        let cables = dice.pick(&[1, 1, 2]);
        ends.extend(vec![hop; cables]);
    }
    ends
}

/// Land with a gate in the terminal's place, and from there three lanes to the terminal, of two arcs each.
fn lanes(dice: &mut Dice) -> Ends {
    let gated = |node| if node == TERMINAL { GATE } else { node };
    let mut ends: Ends = land(dice, 1).into_iter().map(|(tail, head)| (gated(tail), gated(head))).collect();
    ends.extend(LANES.map(|middle| (GATE, middle)));
    ends.extend(LANES.map(|middle| (middle, TERMINAL)));
    ends
}

/// Strands that lead from the source to the terminal through nodes of their own, now and then with a second cable on a
/// hop; arcs across from one to another; and cables straight from the source to the terminal.
fn strands(dice: &mut Dice) -> Ends {
    let (mut ends, mut inner) = (Ends::new(), Vec::new());
    for _ in 0..dice.between(1, 3) {
        let first = 2 + inner.len() as u8;
        let own: Vec<u8> = (first..first + dice.between(1, 3) as u8).collect();
        let nodes = [&[SOURCE], &own[..], &[TERMINAL]].concat();
        for hop in nodes.windows(2) {
            let cables = dice.pick(&[1, 1, 1, 2]);
            ends.extend(vec![(hop[0], hop[1]); cables]);
        }
        inner.extend(own);
    }
    for _ in 0..dice.between(0, 5) {
        let (tail, head) = two_nodes(dice, inner.len() + 2);
        // None is a way into the source or out of the terminal, and none straight from the one to the other.
        if head != SOURCE && tail != TERMINAL && (tail, head) != (SOURCE, TERMINAL) {
            ends.push((tail, head));
        }
    }
    let straight = dice.pick(&[0, 1, 1, 2, 3]);
    ends.extend(vec![(SOURCE, TERMINAL); straight]);
    ends
}

/// A line through a few nodes, now and then with a second cable on a hop, and around nearly each node a bypass: where a
/// route has room for few bypasses, any two routes meet, and mostly no node is on all of them.
fn bypasses(dice: &mut Dice) -> Ends {
    let nodes = chain(dice.between(3, 5));
    let mut ends = Ends::new();
    for hop in nodes.windows(2) {
        let cables = dice.pick(&[1, 1, 1, 2]);
        ends.extend(vec![(hop[0], hop[1]); cables]);
    }
    for around in nodes.windows(3) {
        let cables = dice.pick(&[0, 1, 1, 1, 1, 1, 2]);
        ends.extend(vec![(around[0], around[2]); cables]);
    }
    ends
}

/// Whether an arc of a line leads to the next node, and is no bypass.
fn is_hop(arc: &Arc, last: u8) -> bool {
    let place = |node| match node {
        SOURCE => 0,
        TERMINAL => last,
        _ => node - 1,
    };
    place(arc.head) == place(arc.tail) + 1
}

// ---- Lengths ----

/// Makes each bypass of a line longer than any two hops, as far as an arc can be.
fn lengthen_bypasses(arcs: &mut [Arc]) {
    let last = arcs.iter().map(|arc| arc.tail.max(arc.head)).max().expect("arcs");
    let hops = arcs.iter().filter(|arc| is_hop(arc, last));
    let longest = hops.map(|arc| arc.metres).max().expect("hops");
    for arc in arcs.iter_mut().filter(|arc| !is_hop(arc, last)) {
        arc.metres = (2 * longest + 1 + arc.metres).min(METRES_MAX);
    }
}

// ---- Risks ----

/// The river is counted from that behind the first strip.
fn crosses(arc: &Arc, river: usize, strips: usize) -> bool {
    strip_of(arc.tail, strips) + strip_of(arc.head, strips) == 2 * river + 1
}

/// Lays ducts on the chosen arcs: arc after arc lies in all of them but one, each left out in turn.
fn lay(arcs: &mut [Arc], ducts: usize, last: usize, chosen: impl Fn(&Arc) -> bool) {
    let all = (1 << ducts) - 1;
    for (turn, arc) in arcs.iter_mut().filter(|arc| chosen(arc)).enumerate() {
        let left_out = 1 << (turn % ducts);
        arc.risks |= (all & !left_out) << (last + 1 - ducts);
    }
}

/// Two ducts for one way in and the other way out, and two for the rest: who does not cross the bridge lies in all.
fn lay_both_sides(arcs: &mut [Arc]) {
    for arc in arcs {
        match (arc.tail, arc.head) {
            (SOURCE, LEFT) | (RIGHT, TERMINAL) => arc.risks |= 0b11 << (LAST_DUCT - 1),
            (SOURCE, RIGHT) | (LEFT, TERMINAL) => arc.risks |= 0b11 << (LAST_DUCT_ELSEWHERE - 1),
            _ => (),
        }
    }
}

// ---- Spans ----

/// Makes the chosen arcs one span, by the number that the first of them has.
fn lay_span(arcs: &mut [Arc], chosen: impl Fn(&Arc) -> bool) {
    let number = arcs.iter().find(|arc| chosen(arc)).map_or(0, |arc| arc.span);
    arcs.iter_mut().filter(|arc| chosen(arc)).for_each(|arc| arc.span = number);
}

impl Shape {
    pub fn ends(self, dice: &mut Dice) -> Ends {
        match self {
            Shape::DuctsIntoTerminal | Shape::DuctsAtBothEnds | Shape::SeveralRisks => land(dice, 1),
            // An arc past the neighbours would be free of their ducts.
            Shape::DuctsIntoNeighbours => {
                let mut ends = land(dice, 1);
                ends.retain(|&ends| ends != (SOURCE, TERMINAL));
                ends
            }
            Shape::River => land(dice, 2),
            Shape::TwoRivers => land(dice, 3),
            Shape::Ring => ring(dice),
            Shape::Cables => cables(dice),
            Shape::Bridge => bridge(dice),
            Shape::Lanes => lanes(dice),
            Shape::Strands => strands(dice),
            Shape::Bypasses => bypasses(dice),
        }
    }

    /// The lengths that make the shape, where they do; they are drawn already.
    pub fn lay_lengths(self, arcs: &mut [Arc]) {
        if let Shape::Bypasses = self {
            lengthen_bypasses(arcs);
        }
    }

    /// The risks beside the ducts: one an arc out of few or many, or several.
    pub fn risks(self, dice: &mut Dice, arcs: &mut [Arc]) {
        let (risks, most) = match self {
            Shape::SeveralRisks => dice.pick(&[(12, 4), (24, 6), (64, 15)]),
            Shape::Cables => dice.pick(&[(3, 1), (6, 1), (12, 1), (64, 1)]),
            _ => dice.pick(&[(4, 1), (12, 1), (40, 1)]),
        };
        for arc in arcs {
            for _ in 0..dice.between(1, most) {
                arc.risks |= 1 << dice.below(risks);
            }
        }
    }

    pub fn lay_ducts(self, dice: &mut Dice, arcs: &mut [Arc]) {
        let ducts = dice.between(3, 4);
        match self {
            Shape::DuctsIntoTerminal => lay(arcs, ducts, LAST_DUCT, |arc| arc.head == TERMINAL),
            Shape::DuctsIntoNeighbours => {
                let neighbours: Vec<u8> = arcs.iter().filter(|arc| arc.head == TERMINAL).map(|arc| arc.tail).collect();
                lay(arcs, ducts, LAST_DUCT, |arc| arc.tail != TERMINAL && neighbours.contains(&arc.head));
            }
            Shape::DuctsAtBothEnds => {
                lay(arcs, ducts, LAST_DUCT, |arc| arc.head == TERMINAL);
                lay(arcs, ducts, LAST_DUCT_ELSEWHERE, |arc| arc.tail == SOURCE);
            }
            Shape::River => lay(arcs, ducts, LAST_DUCT, |arc| crosses(arc, 0, 2)),
            Shape::TwoRivers => {
                lay(arcs, ducts, LAST_DUCT, |arc| crosses(arc, 0, 3));
                lay(arcs, ducts, LAST_DUCT_ELSEWHERE, |arc| crosses(arc, 1, 3));
            }
            Shape::Ring => lay(arcs, 3, LAST_DUCT, |arc| arc.head == GATE),
            Shape::Bridge => lay_both_sides(arcs),
            Shape::Cables | Shape::SeveralRisks | Shape::Lanes | Shape::Strands | Shape::Bypasses => (),
        }
    }

    /// The spans that make the shape, where spans are known; the others are numbered already.
    pub fn lay_spans(self, arcs: &mut [Arc]) {
        match self {
            // The bridge is one span, whichever way it is crossed.
            Shape::Bridge => lay_span(arcs, |arc| [(LEFT, RIGHT), (RIGHT, LEFT)].contains(&(arc.tail, arc.head))),
            // Each lane lies in two of three spans, so any two lanes have one in common, and none is in all.
            Shape::Lanes => {
                for place in 0..LANES.len() {
                    let ends = [(GATE, LANES[place]), (LANES[(place + 1) % LANES.len()], TERMINAL)];
                    lay_span(arcs, |arc| ends.contains(&(arc.tail, arc.head)));
                }
            }
            // What leads straight to the terminal lies in one trench.
            Shape::Strands => lay_span(arcs, |arc| (arc.tail, arc.head) == (SOURCE, TERMINAL)),
            _ => (),
        }
    }
}
