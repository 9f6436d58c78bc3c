//! Document 01 and the requests read literally: every route is listed and ranked, every pair is judged, and the answer is read off.
//! Nothing here is clever, so that it can be held against the document line by line.

use crate::apart;
use crate::mesh::{arcs_of, arcs_on_paper, is_marked, marked, number, Arc, Case, Request, ARC_BYTES, CLOSED_BYTES};
use std::ops::ControlFlow;

pub const TABLE_BYTES_MAX: usize = 2_048;
pub const ARCS_MAX: usize = TABLE_BYTES_MAX / ARC_BYTES;
pub const REPLY_BYTES: usize = 96;
pub const NODE_MAX: u32 = 31;
pub const METRES_MAX: u32 = 2_000_000;
pub const REACH_MAX: u32 = 62_000_000;
pub const ALLOWANCE_MAX: u32 = 1_000_000;
const SHARED_MAX: u32 = 64 + 31;
const REQUEST_BYTES: usize = 16;
pub const ROUTE_BYTES: usize = 32;
const NO_ARC: u8 = 255;

// ---- Routes and their ranking ----

#[derive(Clone, PartialEq, Eq, PartialOrd, Ord)]
pub struct Route {
    // The order of the fields is the ranking: by length, then by the first arc number that differs.
    pub metres: u32,
    pub arcs: Vec<u8>,
    pub risks: u64,
    /// The spans that it crosses and that are known, each once, by rising number.
    pub spans: Vec<u16>,
}

/// However often an arc of it lies in a span, that is one span.
fn spans_crossed(route: &[u8], arcs: &[Arc]) -> Vec<u16> {
    let mut spans: Vec<u16> = route.iter().map(|&arc| arcs[usize::from(arc)].span).collect();
    spans.sort_unstable();
    spans.dedup();
    spans.retain(|&span| span != 0);
    spans
}

/// The growth of routes depth first. It gives up when its patience, a number of arcs looked at, is at an end.
struct Growth<'a> {
    arcs: &'a [Arc],
    closed: &'a [u8],
    terminal: u8,
    reach: u32,
    patience: usize,
    routes: Vec<Route>,
}

impl Growth<'_> {
    fn grow(&mut self, node: u8, met: &[u8], route: &Route) -> ControlFlow<()> {
        if node == self.terminal {
            let spans = spans_crossed(&route.arcs, self.arcs);
            self.routes.push(Route { spans, ..route.clone() });
            return ControlFlow::Continue(());
        }
        for (place, arc) in self.arcs.iter().enumerate() {
            // A closed arc lies on no route (T-06).
            if arc.tail != node || met.contains(&arc.head) || is_marked(self.closed, place) {
                continue;
            }
            if self.patience == 0 {
                return ControlFlow::Break(());
            }
            self.patience -= 1;
            let mut longer = route.clone();
            longer.metres += arc.metres;
            longer.arcs.push(place as u8);
            longer.risks |= arc.risks;
            // No length is negative, so what is over the reach here has no route behind it.
            if longer.metres <= self.reach {
                self.grow(arc.head, &[met, &[arc.head]].concat(), &longer)?;
            }
        }
        ControlFlow::Continue(())
    }
}

/// All routes over open arcs in their ranking, or nothing where listing them takes more than `patience` arcs looked at.
pub fn ranking_within(patience: usize, arcs: &[Arc], closed: &[u8], request: &Request) -> Option<Vec<Route>> {
    let source = request.source as u8;
    let mut growth =
        Growth { arcs, closed, terminal: request.terminal as u8, reach: request.reach, patience, routes: Vec::new() };
    let none = Route { metres: 0, arcs: Vec::new(), risks: 0, spans: Vec::new() };
    if growth.grow(source, &[source], &none).is_break() {
        return None;
    }
    growth.routes.sort();
    Some(growth.routes)
}

/// Holds sound arcs to what lets number 11 go (docs/REQUESTS.md, T-10): whatever the reach, no path has more than 31 arcs
/// or passes 62,000,000 m, also over closed ones. So no number is there for a route that is too long.
fn hold_no_path_longer(arcs: &[Arc], request: &Request) {
    let endless = Request { reach: u32::MAX, ..*request };
    let paths = ranking_within(usize::MAX, arcs, &[], &endless).expect("endless patience");
    assert!(paths.iter().all(|path| path.arcs.len() <= 31), "a path has at most 31 arcs");
    assert!(paths.iter().all(|path| path.metres <= REACH_MAX), "no path is longer than the largest reach");
}

// ---- What routes share ----

/// The risks and the spans that lie on each of some routes.
pub struct Common {
    pub risks: u64,
    pub spans: Vec<u16>,
}

/// Of at least one route.
pub fn common(routes: &[&Route]) -> Common {
    let on_all = |span: &u16| routes.iter().all(|route| route.spans.contains(span));
    Common {
        risks: routes.iter().fold(u64::MAX, |common, route| common & route.risks),
        spans: routes[0].spans.iter().copied().filter(on_all).collect(),
    }
}

/// How much routes share: of two it is the shared count, of all the floor.
pub type Count = fn(&[&Route]) -> u32;

/// T-03: common risks, and the different spans that all of them cross.
pub fn risks_and_spans(routes: &[&Route]) -> u32 {
    let common = common(routes);
    common.risks.count_ones() + common.spans.len() as u32
}

/// 01 as it was before T-03: common risks alone.
pub fn risks_alone(routes: &[&Route]) -> u32 {
    routes.iter().fold(u64::MAX, |common, route| common & route.risks).count_ones()
}

// ---- Pairs, and when a reply is settled ----

/// A pair of ranks, from 1, with what it is judged by. The order of the fields is the judgement.
#[derive(Clone, Copy, PartialEq, Eq, PartialOrd, Ord)]
pub struct Pair {
    pub shared: u32,
    pub total: u32,
    pub main: usize,
    pub standby: usize,
}

pub struct Plan {
    pub ranking: Vec<Route>,
    pub floor: u32,
    /// best(1) to best(N); nothing where there is no such pair yet, which only a wish for one apart leaves open (T-05)
    pub best: Vec<Option<Pair>>,
    /// J, the least settled step
    pub settled_at: usize,
}

pub fn pair(count: Count, ranking: &[Route], main: usize, standby: usize) -> Pair {
    let (p, q) = (&ranking[main - 1], &ranking[standby - 1]);
    Pair { shared: count(&[p, q]), total: p.metres + q.metres, main, standby }
}

impl Plan {
    /// The plan over a ranking of at least one route, where so much counts as shared.
    pub fn new(ranking: Vec<Route>, count: Count) -> Plan {
        let n = ranking.len();
        let mut best: Vec<Pair> = Vec::new();
        for main in 1..=n {
            let of_main = (1..=n).map(|standby| pair(count, &ranking, main, standby)).min().expect("a standby");
            let so_far = best.last().copied().unwrap_or(of_main);
            best.push(so_far.min(of_main));
        }
        Plan::settling(ranking, count, best.into_iter().map(Some).collect())
    }

    /// The plan whose best pairs are these. The floor is that of all routes, and a step with no pair yet is settled only
    /// at N, as T-05 says.
    pub fn settling(ranking: Vec<Route>, count: Count, best: Vec<Option<Pair>>) -> Plan {
        let n = ranking.len();
        let floor = count(&ranking.iter().collect::<Vec<_>>());
        let is_last = |pair: Pair, j: usize| pair.shared == floor && 2 * ranking[j - 1].metres >= pair.total;
        let settled = |j: usize| j == n || best[j - 1].is_some_and(|pair| is_last(pair, j));
        let settled_at = (1..=n).find(|&j| settled(j)).expect("step N is settled");
        Plan { ranking, floor, best, settled_at }
    }

    /// Holds the listing to what 01 and the C header say of every plan; a failure is a fault of this program.
    pub fn hold_to_what_is_said(&self) {
        // In the order of a dictionary a list stands directly before one that it is the beginning of.
        let mut lists: Vec<&[u8]> = self.ranking.iter().map(|route| &route.arcs[..]).collect();
        lists.sort();
        assert!(lists.windows(2).all(|two| !two[1].starts_with(two[0])), "no route is the beginning of another");
        assert!(self.ranking.iter().all(|route| (1..=31).contains(&route.arcs.len())), "a route has 1 to 31 arcs");
        assert!(
            self.ranking.iter().all(|route| route.metres == 0 || route.risks != 0),
            "a route of more than 0 metres has a risk"
        );
        let mut best = self.best.iter().flatten();
        assert!(best.clone().all(|pair| pair.main <= pair.standby), "the main's rank never exceeds the standby's");
        assert!(best.clone().all(|pair| pair.shared >= self.floor), "no pair shares fewer than the floor");
        assert!(best.all(|pair| pair.shared <= SHARED_MAX), "no pair shares more than 64 risks and 31 spans");
        assert!(
            self.best[self.settled_at - 1] == self.best[self.ranking.len() - 1],
            "a settled pair is the first of all"
        );
    }
}

// ---- The reply ----

pub struct Reply {
    pub settled: bool,
    pub shared: u32,
    pub floor: u32,
    pub ranked: u32,
    pub main: Route,
    pub standby: Route,
}

impl Reply {
    /// The reply where there is a pair whose main is within the allowance.
    pub fn from_plan(plan: &Plan, allowance: u32) -> Reply {
        let ranked = plan.settled_at.min(allowance as usize);
        let pair = plan.best[ranked - 1].expect("a pair within the allowance");
        Reply {
            settled: plan.settled_at <= allowance as usize,
            shared: pair.shared,
            floor: plan.floor,
            ranked: ranked as u32,
            main: plan.ranking[pair.main - 1].clone(),
            standby: plan.ranking[pair.standby - 1].clone(),
        }
    }

    /// What both routes have, each kind by itself.
    pub fn common(&self) -> Common {
        common(&[&self.main, &self.standby])
    }

    pub fn verdict(&self) -> &'static str {
        if self.settled {
            "settled"
        } else {
            "stopped"
        }
    }

    pub fn bytes(&self) -> Vec<u8> {
        let Common { risks, spans } = self.common();
        let mut bytes = vec![u8::from(!self.settled), self.shared as u8, self.floor as u8];
        bytes.extend([self.main.arcs.len() as u8, self.standby.arcs.len() as u8, spans.len() as u8, 0, 0]);
        bytes.extend(self.ranked.to_le_bytes());
        bytes.extend(self.main.metres.to_le_bytes());
        bytes.extend(self.standby.metres.to_le_bytes());
        bytes.extend([0; 4]);
        bytes.extend(risks.to_le_bytes());
        for route in [&self.main, &self.standby] {
            let mut field = route.arcs.clone();
            field.resize(ROUTE_BYTES, NO_ARC);
            bytes.extend(field);
        }
        assert_eq!(bytes.len(), REPLY_BYTES);
        bytes
    }

    /// The three lines that the program prints.
    fn text(&self) -> String {
        let mut text = format!("{} {} {} {}\n", self.verdict(), self.shared, self.floor, self.ranked);
        for (name, route) in [("main", &self.main), ("standby", &self.standby)] {
            text += &format!("{name} {}", (route.metres + 999) / 1_000);
            for arc in &route.arcs {
                text += &format!(" {arc}");
            }
            text += "\n";
        }
        text
    }

    /// What 01 says of a reply in its worked cases, each fact in its words; and the common spans alone.
    pub fn facts(&self) -> Vec<String> {
        let Common { risks, spans } = self.common();
        vec![
            self.verdict().to_string(),
            format!("shared {}", self.shared),
            format!("field {risks}"),
            format!("spans {}", spans.len()),
            format!("floor {}", self.floor),
            format!("ranked {}", self.ranked),
            format!("main {}", arcs_on_paper(&self.main.arcs)),
            format!("standby {}", arcs_on_paper(&self.standby.arcs)),
            format!("total {}", self.main.metres + self.standby.metres),
        ]
    }
}

// ---- Numbers returned, and the order of checks ----

pub enum Answer {
    Refused(u32),
    /// There are routes, and no pair apart whose main is within the allowance: number 14 or 15 (T-05).
    Unpaired(Plan, u32),
    Planned(Plan, Reply),
}

impl Answer {
    pub fn number(&self) -> u32 {
        match self {
            Answer::Refused(number) | Answer::Unpaired(_, number) => *number,
            Answer::Planned(_, reply) => u32::from(!reply.settled),
        }
    }

    pub fn facts(&self) -> Vec<String> {
        match self {
            Answer::Refused(number) | Answer::Unpaired(_, number) => vec![format!("refused {number}")],
            Answer::Planned(_, reply) => reply.facts(),
        }
    }

    /// What a buffer holds after the call: written from its beginning on with a reply, untouched with a refusal.
    pub fn buffer_after(&self, mut before: Vec<u8>) -> Vec<u8> {
        if let Answer::Planned(_, reply) = self {
            before[..REPLY_BYTES].copy_from_slice(&reply.bytes());
        }
        before
    }
}

/// The numbers of faults that an arc can have, in order, and whether it has each.
pub fn arc_checks(arc: &Arc) -> [(u32, bool); 3] {
    [
        (20, u32::from(arc.tail) > NODE_MAX || u32::from(arc.head) > NODE_MAX),
        (21, arc.tail == arc.head),
        (22, arc.metres > METRES_MAX),
    ]
}

/// Whether a number tells a fault of an arc, which it says as well.
pub fn is_of_an_arc(number: u32) -> bool {
    (20..=22).contains(&(number % 256))
}

/// Whether an arc of more than 0 metres has an empty risk field (T-09). A span number does not fill it, and it is no
/// fault of the arc as T-01 and T-02 mean it: the mender leaves it for a person.
pub fn is_blank(arc: &Arc) -> bool {
    arc.metres > 0 && arc.risks == 0
}

/// The number that tells a blank, and says its arc as well.
pub fn of_blank(arc: usize) -> u32 {
    24 + 256 * arc as u32
}

pub fn is_of_a_blank(number: u32) -> bool {
    number % 256 == of_blank(0)
}

/// Whether a closed set has a length that is none, or marks an arc past the table (T-06).
fn is_no_set(set: &[u8], arcs: usize) -> bool {
    set.len() != CLOSED_BYTES || marked(set).iter().any(|&arc| arc >= arcs)
}

/// Which numbers apply before any route is looked for, in order: those of the call, then those of each arc, which say
/// the arc as well and come of closed arcs too, then that of the lowest blank, which does so too, then that of the
/// closed set.
pub fn faults(case: &Case) -> Vec<u32> {
    let r = &case.request;
    let of_call = [
        (2, case.table.len() > TABLE_BYTES_MAX),
        (3, case.table.len() % ARC_BYTES != 0),
        (4, case.reply_len < REPLY_BYTES),
        (5, r.source > NODE_MAX || r.terminal > NODE_MAX),
        (6, r.source == r.terminal),
        (7, r.reach > REACH_MAX),
        (8, r.allowance == 0 || r.allowance > ALLOWANCE_MAX),
    ];
    let mut checks = of_call.to_vec();
    let arcs = arcs_of(&case.table);
    for (place, arc) in arcs.iter().enumerate() {
        checks.extend(arc_checks(arc).map(|(number, holds)| (number + 256 * place as u32, holds)));
    }
    checks.extend(arcs.iter().position(is_blank).map(|lowest| (of_blank(lowest), true)));
    checks.push((16, case.closed.as_ref().is_some_and(|set| is_no_set(set, arcs.len()))));
    checks.iter().filter(|check| check.1).map(|check| check.0).collect()
}

/// Holds a reply to T-03's "tables with zero there answer as before": where no span is known, to that of 01 as it was.
fn hold_to_answer_before(plan: &Plan, reply: &Reply, allowance: u32) {
    let before = Reply::from_plan(&Plan::new(plan.ranking.clone(), risks_alone), allowance);
    assert!(reply.bytes() == before.bytes(), "without spans the reply is as before");
    assert!(reply.bytes()[5] == 0, "without spans none is common");
}

/// Holds a ranking to T-06 another way: no route lies on a closed arc, "numbers stay", and where nothing is closed it
/// is that of before. So it is the ranking over all arcs with every route struck out that a closed one lies on.
fn hold_to_open_arcs(ranking: &[Route], arcs: &[Arc], closed: &[u8], request: &Request) {
    let mut of_all = ranking_within(usize::MAX, arcs, &[], request).expect("endless patience");
    of_all.retain(|route| closed_on(&route.arcs, closed).is_empty());
    assert!(ranking == of_all, "the routes are those without a closed arc");
}

/// The arcs of a list that a set marks.
pub fn closed_on(arcs: &[u8], closed: &[u8]) -> Vec<u8> {
    arcs.iter().copied().filter(|&arc| is_marked(closed, usize::from(arc))).collect()
}

pub fn has_spans(arcs: &[Arc]) -> bool {
    arcs.iter().any(|arc| arc.span != 0)
}

pub fn answer(case: &Case) -> Answer {
    if let Some(&first) = faults(case).first() {
        return Answer::Refused(first);
    }
    let arcs = arcs_of(&case.table);
    hold_no_path_longer(&arcs, &case.request);
    let ranking = ranking_within(usize::MAX, &arcs, case.closed_set(), &case.request).expect("endless patience");
    if let Some(closed) = &case.closed {
        hold_to_open_arcs(&ranking, &arcs, closed, &case.request);
    }
    if ranking.is_empty() {
        return Answer::Refused(10);
    }
    if case.apart {
        return apart::answer(ranking, &arcs, case.request.allowance);
    }
    let plan = Plan::new(ranking, risks_and_spans);
    plan.hold_to_what_is_said();
    let reply = Reply::from_plan(&plan, case.request.allowance);
    if !has_spans(&arcs) {
        hold_to_answer_before(&plan, &reply, case.request.allowance);
    }
    Answer::Planned(plan, reply)
}

// ---- The program `routes` ----

/// The case that an input of the program asks for, or nothing where number 12 applies.
pub fn case_of_input(input: &[u8]) -> Option<Case> {
    if input.len() < REQUEST_BYTES {
        return None;
    }
    let (request, table) = input.split_at(REQUEST_BYTES);
    if number(&request[2..4]) != 0 || number(&request[12..16]) != 0 {
        return None;
    }
    let request = Request {
        source: u32::from(request[0]),
        terminal: u32::from(request[1]),
        reach: number(&request[4..8]) as u32,
        allowance: number(&request[8..12]) as u32,
    };
    Some(Case { table: table.to_vec(), closed: None, apart: false, reply_len: REPLY_BYTES, request })
}

pub fn answer_to_input(input: &[u8]) -> Answer {
    match case_of_input(input) {
        None => Answer::Refused(12),
        Some(case) => answer(&case),
    }
}

pub fn printed(answer: &Answer) -> String {
    match answer {
        Answer::Refused(number) | Answer::Unpaired(_, number) => format!("refused {number}\n"),
        Answer::Planned(_, reply) => reply.text(),
    }
}
