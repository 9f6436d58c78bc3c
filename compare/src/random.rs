//! Random meshes and requests from a fixed seed, small enough to list, with what goes wrong in this trade; and blanks
//! left in them, and damage done to them, often in several places at once.

use crate::listing::{is_blank, ranking_within, risks_and_spans, Plan, Route};
use crate::listing::{ALLOWANCE_MAX, ARCS_MAX, METRES_MAX, REACH_MAX, REPLY_BYTES};
use crate::mesh::{arcs_of, table_bytes, torn_end, Arc, Case, Request, ARC_BYTES};
use crate::trade::{Shape, SHAPES};

/// So many meshes in a hundred have one of the trade's shapes.
const TRADE_PERCENT: usize = 25;
/// So many meshes in a hundred have spans that are known; in the others all are zero.
pub const SPANS_PERCENT: usize = 50;
/// So many cases in a hundred get blanks (T-09), and are refused for these where nothing is told before. The others
/// have none: where each arc may be blank, next to nothing is planned.
const BLANK_PERCENT: usize = 6;
/// A mesh with more routes than this, or more arcs to look at in listing them, loses an arc.
const FEW: Listable = Listable { routes: 300, patience: 5_000 };
/// The same for some meshes, since every pair of so many takes its time.
const MANY: Listable = Listable { routes: 1_000, patience: 20_000 };

#[derive(Clone, Copy)]
struct Listable {
    routes: usize,
    patience: usize,
}

/// The generator splitmix64: the same numbers on every machine.
pub struct Dice(u64);

impl Dice {
    pub fn new(seed: u64) -> Dice {
        Dice(seed)
    }

    pub fn roll(&mut self) -> u64 {
        self.0 = self.0.wrapping_add(0x9E37_79B9_7F4A_7C15);
        let mut z = self.0;
        z = (z ^ (z >> 30)).wrapping_mul(0xBF58_476D_1CE4_E5B9);
        z = (z ^ (z >> 27)).wrapping_mul(0x94D0_49BB_1331_11EB);
        z ^ (z >> 31)
    }

    pub fn below(&mut self, bound: usize) -> usize {
        (self.roll() % bound as u64) as usize
    }

    pub fn between(&mut self, low: usize, high: usize) -> usize {
        low + self.below(high - low + 1)
    }

    pub fn percent(&mut self, chance: usize) -> bool {
        self.below(100) < chance
    }

    pub fn pick<T: Copy>(&mut self, from: &[T]) -> T {
        from[self.below(from.len())]
    }

    pub fn shuffle<T>(&mut self, list: &mut [T]) {
        for last in (1..list.len()).rev() {
            list.swap(last, self.below(last + 1));
        }
    }
}

// ---- The shape of a mesh: the ends of its arcs, source 0 and terminal 1 ----

pub type Ends = Vec<(u8, u8)>;

pub fn two_nodes(dice: &mut Dice, nodes: usize) -> (u8, u8) {
    let tail = dice.below(nodes);
    let head = (tail + dice.between(1, nodes - 1)) % nodes;
    (tail as u8, head as u8)
}

/// Mostly as many as can still be listed.
fn few_nodes(dice: &mut Dice) -> usize {
    if dice.percent(30) {
        dice.between(2, 5)
    } else {
        dice.between(6, 8)
    }
}

fn scattered(dice: &mut Dice) -> Ends {
    let nodes = few_nodes(dice);
    let fewest = if dice.percent(10) { 0 } else { 2 * nodes };
    let arcs = dice.between(fewest, 4 * nodes);
    (0..arcs).map(|_| two_nodes(dice, nodes)).collect()
}

/// Both directions of each span, one after the other.
fn spans(dice: &mut Dice) -> Ends {
    let nodes = few_nodes(dice);
    let spans = dice.between(nodes - 1, 2 * nodes + 2);
    (0..spans)
        .flat_map(|_| {
            let (tail, head) = two_nodes(dice, nodes);
            [(tail, head), (head, tail)]
        })
        .collect()
}

/// An arc from each node to each other.
fn full(dice: &mut Dice) -> Ends {
    let nodes = dice.between(3, 8) as u8;
    (0..nodes).flat_map(|tail| (0..nodes).filter(move |&head| head != tail).map(move |head| (tail, head))).collect()
}

/// The nodes of a chain from the source to the terminal with `between` nodes on its way.
pub fn chain(between: usize) -> Vec<u8> {
    let mut nodes = vec![0];
    nodes.extend((0..between).map(|i| i as u8 + 2));
    nodes.push(1);
    nodes
}

/// Bundles of parallel arcs in a row.
fn parallel(dice: &mut Dice) -> Ends {
    let hops = dice.between(1, 4);
    let most = [ARCS_MAX, 17, 6, 4][hops - 1];
    let mut ends = Vec::new();
    for hop in chain(hops - 1).windows(2) {
        for _ in 0..dice.between(1, most) {
            ends.push((hop[0], hop[1]));
        }
    }
    ends
}

/// A long chain, up to all 32 nodes, with a few hops doubled, a few passed over and a few walked back.
fn long(dice: &mut Dice) -> Ends {
    let between = if dice.percent(40) { 30 } else { dice.between(6, 30) };
    let nodes = chain(between);
    let mut ends: Ends = nodes.windows(2).map(|hop| (hop[0], hop[1])).collect();
    for _ in 0..dice.between(0, 6) {
        let at = dice.below(nodes.len() - 2);
        ends.push(dice.pick(&[
            (nodes[at], nodes[at + 1]),
            (nodes[at], nodes[at + 2]),
            (nodes[at + 1], nodes[at]),
            (nodes[at + 2], nodes[at]),
        ]));
    }
    ends
}

/// A long chain with many cables on one hop, or on two: tables with over 64 arcs on routes that can still be listed.
fn bundled(dice: &mut Dice) -> Ends {
    let nodes = chain(dice.between(6, 30));
    let mut ends: Ends = nodes.windows(2).map(|hop| (hop[0], hop[1])).collect();
    let (bundles, most) = dice.pick(&[(1, ARCS_MAX - ends.len()), (1, ARCS_MAX - ends.len()), (2, 11)]);
    for _ in 0..bundles {
        let hop = ends[dice.below(nodes.len() - 1)];
        let more = dice.between(most / 2, most);
        ends.extend(vec![hop; more]);
    }
    ends
}

/// Few arcs that matter among many that mostly do not: tables as full as can be, with high arc numbers.
fn crowded(dice: &mut Dice) -> Ends {
    let mut ends = if dice.percent(50) { scattered(dice) } else { spans(dice) };
    let total = if dice.percent(50) { ARCS_MAX } else { dice.between(ends.len(), ARCS_MAX) };
    while ends.len() < total {
        let other = dice.between(8, 31) as u8;
        ends.push(dice.pick(&[(1, other), (other, 0), (other, 1), (other, other ^ 1), (0, other)]));
    }
    ends
}

// ---- Lengths and risks ----

pub fn lengths(dice: &mut Dice, arcs: &mut [Arc]) {
    let style = dice.below(12);
    for arc in arcs {
        arc.metres = match style {
            0 => 0,
            1 => 1_000,
            2 => dice.pick(&[0, 1]),
            3 => dice.pick(&[0, 0, 1_000]),
            4 => dice.pick(&[999, 1_000, 1_001, 1_999]),
            5 => dice.pick(&[METRES_MAX, METRES_MAX, METRES_MAX - 1]),
            6 => dice.pick(&[1_000, 2_000, 3_000]),
            7..=9 => dice.between(0, 20) as u32,
            _ => dice.between(0, METRES_MAX as usize) as u32,
        };
    }
}

pub fn risks(dice: &mut Dice, arcs: &mut [Arc]) {
    let style = dice.below(14);
    let common = 1 << dice.below(64);
    for (place, arc) in arcs.iter_mut().enumerate() {
        let one = 1 << dice.below(64);
        let of_few = 1 << dice.below(5);
        arc.risks = match style {
            0 => 0,
            1 => one,
            2 => 1 << (place % 64),
            3 => dice.roll() & (1 | 1 << 63),
            4 => dice.pick(&[u64::MAX, u64::MAX - 1, u64::MAX >> 1, one, 0]),
            5 => dice.roll(),
            6 => dice.roll() & dice.roll() & dice.roll(),
            7 => of_few | common,
            8 if arc.tail == 0 || arc.head == 1 => of_few | common, // ducts at the door
            8 => one,
            9..=11 => dice.roll() & dice.roll() & 0xFF << 56,
            _ => dice.pick(&[0, of_few, of_few | one]),
        };
    }
    fill_blanks(dice, arcs);
}

/// Gives a risk to each arc that T-09 would refuse; arcs of 0 metres keep their blank. In most meshes it is one and the
/// same for all: nearly every pair then shares it, and what else there is decides as it did where nothing was listed.
/// In the others it is one of each arc's own: who goes over the arc twice shares it, and few others do.
fn fill_blanks(dice: &mut Dice, arcs: &mut [Arc]) {
    let same = dice.below(64);
    let is_same = dice.percent(60);
    for (place, arc) in arcs.iter_mut().enumerate().filter(|(_, arc)| is_blank(arc)) {
        arc.risks = 1 << if is_same { same } else { place % 64 };
    }
}

/// D2's kind: what was listed is forgotten, and mostly only spans tell what is shared. In some meshes many arcs have 0
/// metres, or all, and with that the blank which T-09 leaves them.
fn forget_risks(dice: &mut Dice, arcs: &mut [Arc]) {
    let patch_percent = dice.pick(&[0, 0, 0, 60, 100]);
    for arc in arcs.iter_mut() {
        arc.risks = 0;
        arc.metres = if dice.percent(patch_percent) { 0 } else { arc.metres };
    }
    fill_blanks(dice, arcs);
}

/// Gives both directions of each span the same length and risks, as most tables have them.
fn pair_directions(arcs: &mut [Arc]) {
    for two in arcs.chunks_exact_mut(2) {
        if two[0].tail == two[1].head && two[0].head == two[1].tail {
            two[1].metres = two[0].metres;
            two[1].risks = two[0].risks;
        }
    }
}

// ---- Spans ----

/// Different span numbers, 1 and 65,535 often among the first. Their order wraps behind 65,535, and no step has a
/// divisor in common with that, so none comes twice. Numbers 1 or 256 apart mostly differ in one byte only, and those
/// 32,768 apart in the highest bit.
fn span_numbers(dice: &mut Dice, count: usize) -> Vec<u16> {
    let all = usize::from(u16::MAX);
    let anywhere = dice.below(all);
    let first = dice.pick(&[0, all - 1, anywhere]);
    let step = dice.pick(&[1, all - 1, 256, 32_768, 4_099]);
    (0..count).map(|place| 1 + ((first + place * step) % all) as u16).collect()
}

fn are_opposite(one: &Arc, other: &Arc) -> bool {
    one.tail == other.head && one.head == other.tail
}

/// The place of the first arc between the same two nodes, whichever way it leads.
fn first_between(arcs: &[Arc], arc: &Arc) -> usize {
    let is_between = |other: &Arc| are_opposite(other, arc) || (other.tail, other.head) == (arc.tail, arc.head);
    arcs.iter().position(is_between).expect("the arc itself")
}

/// The place of the first direction of a span, where its two arcs stand one after the other.
fn first_direction(arcs: &[Arc], place: usize) -> usize {
    let is_second = place % 2 == 1 && are_opposite(&arcs[place - 1], &arcs[place]);
    place - usize::from(is_second)
}

/// Numbers the spans: one for each two nodes; one for each two directions, where cables side by side are as many spans;
/// few in all, so that arcs far from each other are one span, and a route crosses it twice; one for each arc; or that
/// with some arcs in the span of another. Some may then be unknown.
pub fn number_spans(dice: &mut Dice, arcs: &mut [Arc]) {
    const MOST_FEW: usize = 8;
    let numbers = span_numbers(dice, arcs.len() + MOST_FEW);
    let kind = dice.below(5);
    let few = dice.between(1, MOST_FEW);
    let unknown_percent = dice.pick(&[0, 0, 10, 50]);
    for place in 0..arcs.len() {
        let number = match kind {
            0 => first_between(arcs, &arcs[place]),
            1 => first_direction(arcs, place),
            2 => dice.below(few),
            3 if dice.percent(30) => dice.below(arcs.len()),
            _ => place,
        };
        arcs[place].span = numbers[number];
    }
    for arc in arcs {
        if dice.percent(unknown_percent) {
            arc.span = 0;
        }
    }
}

// ---- Where it can be listed ----

/// Spreads the mesh over the 32 node numbers; returns those of source and terminal.
pub fn rename_nodes(dice: &mut Dice, arcs: &mut [Arc]) -> (u32, u32) {
    let mut names: Vec<u8> = (0..32).collect();
    dice.shuffle(&mut names);
    for arc in arcs {
        arc.tail = names[usize::from(arc.tail)];
        arc.head = names[usize::from(arc.head)];
    }
    (u32::from(names[0]), u32::from(names[1]))
}

/// Takes arcs away until all routes can be listed, and returns them in their ranking.
fn make_listable(dice: &mut Dice, arcs: &mut Vec<Arc>, request: &Request) -> Vec<Route> {
    let most = if dice.percent(3) { MANY } else { FEW };
    loop {
        match ranking_within(most.patience, arcs, &[], request) {
            Some(ranking) if ranking.len() <= most.routes => return ranking,
            _ => arcs.remove(dice.below(arcs.len())),
        };
    }
}

// ---- A sound case ----

fn any_ends(dice: &mut Dice) -> Ends {
    match dice.below(18) {
        0..=4 => scattered(dice),
        5..=8 => spans(dice),
        9..=10 => full(dice),
        11..=12 => parallel(dice),
        13 => long(dice),
        14..=15 => bundled(dice),
        _ => crowded(dice),
    }
}

/// Arcs with these ends, and nothing else of them known yet.
pub fn arcs_between(ends: &Ends) -> Vec<Arc> {
    ends.iter().map(|&(tail, head)| Arc { tail, head, span: 0, metres: 0, risks: 0 }).collect()
}

fn mesh(dice: &mut Dice, shape: Option<Shape>) -> (Vec<Arc>, u32, u32) {
    let ends = match shape {
        None => any_ends(dice),
        Some(shape) => shape.ends(dice),
    };
    let mut arcs = arcs_between(&ends);
    arcs.truncate(ARCS_MAX);
    lengths(dice, &mut arcs);
    match shape {
        None => risks(dice, &mut arcs),
        Some(shape) => {
            shape.lay_lengths(&mut arcs);
            shape.risks(dice, &mut arcs);
        }
    }
    if dice.percent(50) {
        pair_directions(&mut arcs);
    }
    if let Some(shape) = shape {
        // The two directions of a span need not lie in the same ducts.
        shape.lay_ducts(dice, &mut arcs);
    }
    if dice.percent(SPANS_PERCENT) {
        number_spans(dice, &mut arcs);
        match shape {
            None if dice.percent(40) => forget_risks(dice, &mut arcs),
            None => (),
            Some(shape) => shape.lay_spans(&mut arcs),
        }
    }
    if dice.percent(50) {
        dice.shuffle(&mut arcs);
    }
    let (source, terminal) = rename_nodes(dice, &mut arcs);
    (arcs, source, terminal)
}

/// A reach at, one below or one above a route's length, or a free one.
fn reach(dice: &mut Dice, ranking: &[Route]) -> u32 {
    if ranking.is_empty() {
        return dice.pick(&[0, 1, 10_000, REACH_MAX]);
    }
    let some = ranking[dice.below(ranking.len())].metres;
    let (shortest, longest) = (ranking[0].metres, ranking[ranking.len() - 1].metres);
    let free = dice.between(0, longest as usize + 1) as u32;
    let chosen = match dice.below(20) {
        0..=4 => some,
        5..=7 => some.saturating_sub(1),
        8 => some + 1,
        9 => shortest,
        10 => shortest.saturating_sub(1),
        11 => longest,
        12 => free,
        _ => REACH_MAX,
    };
    chosen.min(REACH_MAX)
}

/// N and J; both are 1 where there is no route, for what is drawn beside them.
#[derive(Clone, Copy)]
pub struct Steps {
    pub n: usize,
    pub settled_at: usize,
}

/// Draws the reach of a request, given all routes that any reach allows; returns those within it.
pub fn draw_reach(dice: &mut Dice, request: &mut Request, mut ranking: Vec<Route>) -> Vec<Route> {
    request.reach = reach(dice, &ranking);
    ranking.retain(|route| route.metres <= request.reach);
    ranking
}

/// The steps over a ranking.
pub fn steps(ranking: Vec<Route>) -> Steps {
    let n = ranking.len();
    let settled_at = if n == 0 { 1 } else { Plan::new(ranking, risks_and_spans).settled_at };
    Steps { n: n.max(1), settled_at }
}

/// An allowance at or beside N or J, one that is small, or the largest.
pub fn allowance(dice: &mut Dice, Steps { n, settled_at }: Steps) -> u32 {
    let at = match dice.below(16) {
        0..=2 => settled_at,
        3..=6 => settled_at - 1,
        7 => settled_at + 1,
        8 => n,
        9 => n - 1,
        10 => n + 1,
        11 => 1,
        12 => 2,
        13..=14 => dice.between(1, n),
        _ => ALLOWANCE_MAX as usize,
    };
    at.max(1) as u32
}

/// A buffer that a reply fits into, now and then one whose length needs more than 16 bits.
fn reply_len(dice: &mut Dice) -> usize {
    match dice.below(100) {
        0 => 70_000,
        1..=30 => dice.pick(&[97, 98, 100, 127, 128, 192, 256, 1_000, 4_096]),
        _ => REPLY_BYTES,
    }
}

/// A case with no fault; it may have no route.
fn sound(dice: &mut Dice, shape: Option<Shape>) -> Case {
    loop {
        let (mut arcs, source, terminal) = mesh(dice, shape);
        let mut request = Request { source, terminal, reach: REACH_MAX, allowance: ALLOWANCE_MAX };
        let ranking = make_listable(dice, &mut arcs, &request);
        let steps = steps(draw_reach(dice, &mut request, ranking));
        // No route, or a pair settled by the first main, says little; most of these are passed over.
        if steps.settled_at == 1 && dice.percent(70) {
            continue;
        }
        request.allowance = allowance(dice, steps);
        return Case { table: table_bytes(&arcs), closed: None, apart: false, reply_len: reply_len(dice), request };
    }
}

/// The first place of so many, the last or any.
fn some_place(dice: &mut Dice, count: usize) -> usize {
    let anywhere = dice.below(count);
    dice.pick(&[0, count - 1, anywhere])
}

// ---- Blanks (T-09) ----

/// Empties the risk field of one arc or of a few. One of 0 metres among them is no blank; now and then an arc gets a
/// length of which one byte alone is used, or the largest.
fn leave_blanks(dice: &mut Dice, case: &mut Case) {
    let mut arcs = arcs_of(&case.table);
    if arcs.is_empty() {
        return;
    }
    for _ in 0..dice.pick(&[1, 1, 2, 5]) {
        let place = some_place(dice, arcs.len());
        let arc = &mut arcs[place];
        arc.risks = 0;
        arc.metres = dice.pick(&[arc.metres, arc.metres, arc.metres, 1, 256, 65_536, METRES_MAX]);
    }
    case.table = table_bytes(&arcs);
    // Faults of arcs are told before a blank, and that no route is so short behind it.
    if dice.percent(12) {
        damage_arc(dice, case);
    }
    if dice.percent(20) {
        case.request.reach = dice.pick(&[0, 0, 1]);
    }
}

// ---- Damage ----

/// Gives an arc one of the faults that it can have; it may have others.
pub fn spoil(dice: &mut Dice, arc: &mut Arc) {
    match dice.below(4) {
        0 => arc.tail = dice.pick(&[32, 33, 64, 255]),
        1 => arc.head = dice.pick(&[32, 33, 64, 255]),
        2 => arc.head = arc.tail,
        _ => arc.metres = dice.pick(&[METRES_MAX + 1, 1 << 24, 1 << 31, u32::MAX]),
    }
}

fn damage_arc(dice: &mut Dice, case: &mut Case) {
    let mut arcs = arcs_of(&case.table);
    if arcs.is_empty() {
        return;
    }
    let place = some_place(dice, arcs.len());
    spoil(dice, &mut arcs[place]);
    case.table = [&table_bytes(&arcs), torn_end(&case.table)].concat();
}

fn lengthen(dice: &mut Dice, table: &mut Vec<u8>, bytes: usize) {
    while table.len() < bytes {
        // Mostly copies of what is there, so that the added bytes have no fault of their own.
        let byte = if table.len() >= ARC_BYTES { table[table.len() - ARC_BYTES] } else { dice.roll() as u8 };
        table.push(byte);
    }
}

fn damage_table(dice: &mut Dice, case: &mut Case) {
    let bytes = case.table.len();
    match dice.below(5) {
        0 => {
            let over = dice.pick(&[2_049, 2_064, 2_063, 4_096]);
            lengthen(dice, &mut case.table, over);
        }
        // A length whose low 16 bits are those of the sound table.
        1 => lengthen(dice, &mut case.table, bytes % 65_536 + 65_536),
        2 => {
            let torn = bytes + dice.between(1, 15);
            lengthen(dice, &mut case.table, torn);
        }
        3 => case.table.truncate(bytes.saturating_sub(dice.between(1, 15))),
        _ => case.table.clear(),
    }
}

fn damage_request(dice: &mut Dice, request: &mut Request) {
    let over = dice.pick(&[32, 33, 255, 256, 256 + request.source, 1 << 31, u32::MAX]);
    match dice.below(7) {
        0 => request.source = over,
        1 => request.terminal = over,
        2 => request.terminal = request.source,
        3 => (request.source, request.terminal) = (over, over),
        4 => request.reach = dice.pick(&[REACH_MAX + 1, 1 << 26, 1 << 31, u32::MAX]),
        5 => request.allowance = 0,
        _ => request.allowance = dice.pick(&[ALLOWANCE_MAX + 1, 1 << 20, 1 << 31, u32::MAX]),
    }
}

fn damage(dice: &mut Dice, case: &mut Case) {
    // Arcs alone: which of several is named, and with which of its faults?
    if dice.percent(25) {
        for _ in 0..dice.between(1, 5) {
            damage_arc(dice, case);
        }
        return;
    }
    for _ in 0..dice.between(1, 4) {
        match dice.below(8) {
            0 => case.reply_len = dice.pick(&[0, 0, 1, 31, 64, 95, 95]),
            1..=2 => damage_table(dice, case),
            3..=4 => damage_arc(dice, case),
            _ => damage_request(dice, &mut case.request),
        }
    }
}

// ---- What is compared ----

/// The trade's shape that a mesh is to be drawn in, if any.
pub fn shape(dice: &mut Dice) -> Option<Shape> {
    if dice.percent(TRADE_PERCENT) {
        Some(dice.pick(&SHAPES).0)
    } else {
        None
    }
}

/// A case without a closed set, its mesh in this shape.
pub fn case(dice: &mut Dice, shape: Option<Shape>) -> Case {
    let mut case = sound(dice, shape);
    if dice.percent(BLANK_PERCENT) {
        leave_blanks(dice, &mut case);
    }
    if dice.percent(25) {
        damage(dice, &mut case);
    }
    case
}

/// An input of the program: a case, now and then with damage that only an input can have.
pub fn input(dice: &mut Dice) -> (Vec<u8>, Option<Shape>) {
    let (mut input, shape) = loop {
        let shape = shape(dice);
        if let Some(input) = case(dice, shape).input() {
            break (input, shape);
        }
    };
    if dice.percent(4) {
        input.truncate(dice.below(16));
    } else if dice.percent(8) {
        input[dice.pick(&[2, 3, 12, 13, 14, 15])] = dice.pick(&[1, 128, 255]);
    }
    (input, shape)
}
