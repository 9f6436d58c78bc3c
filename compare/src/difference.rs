//! A difference made small and put on paper.

use crate::ask::Given;
use crate::listing::{answer, closed_on, is_blank, Answer, Plan, REPLY_BYTES};
use crate::mesh::{arcs_of, arcs_on_paper, marked, number, risks_on_paper, set_of, table_bytes, torn_end};
use crate::mesh::{Arc, Case, ARC_BYTES, CLOSED_BYTES};
use std::ops::Range;
use std::time::{Duration, Instant};

/// So much of a ranking is printed.
const ROUTES_SHOWN: usize = 60;
/// Smaller cases are looked for no longer than this.
const PATIENCE: Duration = Duration::from_secs(60);
/// At most so many parts of a table are taken out in turn, so that huge tables are first halved. A table that is mended
/// has up to so many arcs.
const PARTS: usize = 256;

const ROUTE_FIELDS: [(&str, usize, usize); 2] = [("arc numbers of main", 32, 64), ("arc numbers of standby", 64, 96)];

const REPLY_FIELDS: [(&str, usize, usize); 14] = [
    ("verdict", 0, 1),
    ("shared count", 1, 2),
    ("floor", 2, 3),
    ("arcs in main", 3, 4),
    ("arcs in standby", 4, 5),
    ("common spans", 5, 6),
    ("zero", 6, 8),
    ("ranked", 8, 12),
    ("metres of main", 12, 16),
    ("metres of standby", 16, 20),
    ("zero", 20, 24),
    ("shared risks", 24, 32),
    ROUTE_FIELDS[0],
    ROUTE_FIELDS[1],
];

/// N and J of a case that has a plan.
fn steps(case: &Case) -> Option<(i64, i64)> {
    match answer(case) {
        Answer::Planned(plan, _) | Answer::Unpaired(plan, _) => {
            Some((plan.ranking.len() as i64, plan.settled_at as i64))
        }
        Answer::Refused(_) => None,
    }
}

/// The smaller case as it is, and with allowances that lie beside its N and J as the former did beside the former's.
fn with_fitting_allowances(former: &Case, smaller: Case) -> Vec<Case> {
    let mut fitting = vec![smaller.clone()];
    if let (Some((n, j)), Some((smaller_n, smaller_j))) = (steps(former), steps(&smaller)) {
        let allowance = i64::from(former.request.allowance);
        for (beside, step) in [(allowance - n, smaller_n), (allowance - j, smaller_j)] {
            if beside.abs() <= 1 && step + beside > 0 {
                let mut case = smaller.clone();
                case.request.allowance = (step + beside) as u32;
                fitting.push(case);
            }
        }
    }
    fitting
}

/// The arcs to take out of a table: many at once, then fewer, then each.
fn parts(table: &[u8]) -> Vec<Range<usize>> {
    let arcs = table.len() / ARC_BYTES;
    let mut parts = Vec::new();
    let mut taken = arcs;
    while taken > 0 && arcs / taken <= PARTS {
        parts.extend((0..=arcs - taken).step_by(taken).map(|place| place..place + taken));
        taken /= 2;
    }
    parts
}

fn table_without(table: &[u8], part: &Range<usize>) -> Vec<u8> {
    [&table[..part.start * ARC_BYTES], &table[part.end * ARC_BYTES..]].concat()
}

/// The tables that are left when many arcs are taken out, then fewer, then each.
pub fn smaller_tables(table: &[u8]) -> Vec<Vec<u8>> {
    parts(table).iter().map(|part| table_without(table, part)).collect()
}

/// A set, as long as before, in which the arcs behind those taken out have their new numbers.
fn set_without(set: &[u8], part: &Range<usize>) -> Vec<u8> {
    let left = marked(set).into_iter().filter(|arc| !part.contains(arc));
    let renumbered: Vec<usize> = left.map(|arc| if arc < part.start { arc } else { arc - part.len() }).collect();
    set_of(set.len(), &renumbered)
}

fn cases_without_arcs(case: &Case) -> Vec<Case> {
    let without = |part: &Range<usize>| Case {
        table: table_without(&case.table, part),
        closed: case.closed.as_ref().map(|set| set_without(set, part)),
        ..case.clone()
    };
    parts(&case.table).iter().map(without).collect()
}

/// The case of the entry that takes any pair, where it wants one apart; without its set; with a set of 16 bytes where it
/// is longer; and with each arc opened.
fn cases_with_less_closed(case: &Case) -> Vec<Case> {
    let Some(set) = &case.closed else { return Vec::new() };
    let with = |set| Case { closed: Some(set), ..case.clone() };
    let mut cases: Vec<Case> = case.apart.then(|| case.of_any_pair()).into_iter().collect();
    cases.extend([case.without_set()].into_iter().filter(|without| without.closed != case.closed));
    if set.len() > CLOSED_BYTES {
        cases.push(with(set[..CLOSED_BYTES].to_vec()));
    }
    let marked = marked(set);
    cases.extend(marked.iter().map(|opened| {
        let others: Vec<usize> = marked.iter().copied().filter(|arc| arc != opened).collect();
        with(set_of(set.len(), &others))
    }));
    cases
}

/// The table with the same taken off all its arcs, where that changes any.
pub fn with_less_on_arcs(table: &[u8], take_off: impl Fn(&mut Arc)) -> Option<Vec<u8>> {
    let mut arcs = arcs_of(table);
    arcs.iter_mut().for_each(take_off);
    let less = [&table_bytes(&arcs), torn_end(table)].concat();
    (less != table).then_some(less)
}

/// The tables that are left when a risk is taken off all arcs, or a span. A risk stays where the arc would be blank
/// without it (T-09): that is told before what most cases differ in.
fn tables_with_less_on_arcs(table: &[u8]) -> Vec<Vec<u8>> {
    let without_risk = |risk: u32| {
        with_less_on_arcs(table, |arc| {
            let less = Arc { risks: arc.risks & !(1 << risk), ..*arc };
            *arc = if is_blank(&less) { *arc } else { less };
        })
    };
    let without_span = |span| with_less_on_arcs(table, |arc| arc.span = if arc.span == span { 0 } else { arc.span });
    let mut spans: Vec<u16> = arcs_of(table).iter().map(|arc| arc.span).collect();
    spans.sort_unstable();
    spans.dedup();
    (0..64).filter_map(without_risk).chain(spans.into_iter().filter_map(without_span)).collect()
}

/// What to try in place of a case: without many arcs, without one, with fewer of them closed, without a risk, without a
/// span, with the plainest buffer.
pub fn smaller_cases(case: &Case) -> Vec<Case> {
    let mut smaller = cases_without_arcs(case);
    smaller.extend(cases_with_less_closed(case));
    let with = |table| Case { table, ..case.clone() };
    smaller.extend(tables_with_less_on_arcs(&case.table).into_iter().map(with));
    let mut cases: Vec<Case> = smaller.into_iter().flat_map(|smaller| with_fitting_allowances(case, smaller)).collect();
    if case.reply_len > REPLY_BYTES {
        cases.push(Case { reply_len: REPLY_BYTES, ..case.clone() });
    }
    cases
}

/// Makes a case that differs smaller for as long as one of the smaller ones still differs; `find` tells which does.
pub fn smallest<C>(mut case: C, smaller: impl Fn(&C) -> Vec<C>, find: impl Fn(&[C]) -> Option<usize>) -> C {
    let started = Instant::now();
    while started.elapsed() < PATIENCE {
        let mut cases = smaller(&case);
        match find(&cases) {
            Some(place) => case = cases.swap_remove(place),
            None => break,
        }
    }
    case
}

fn field_on_paper(name: &str, bytes: &[u8]) -> String {
    match name {
        "shared risks" => risks_on_paper(number(bytes)),
        _ if bytes.len() == 32 => arcs_on_paper(bytes).replace(",255", ""),
        _ => number(bytes).to_string(),
    }
}

pub fn first_written(expected: &[u8], given: &[u8], from: usize) -> Option<usize> {
    (from..expected.len()).find(|&place| expected[place] != given[place])
}

/// The fields in which a buffer with a reply differs from what it should hold.
fn reply_differences(expected: &[u8], given: &[u8]) -> String {
    let mut text = String::new();
    for (name, from, to) in REPLY_FIELDS {
        let (right, wrong) = (&expected[from..to], &given[from..to]);
        if right != wrong {
            let (right, wrong) = (field_on_paper(name, right), field_on_paper(name, wrong));
            text += &format!("  {name} (from byte {from} on): {right} expected, {wrong} given\n");
        }
    }
    if let Some(place) = first_written(expected, given, REPLY_BYTES) {
        text += &format!("  byte {place} was written, past the reply\n");
    }
    text
}

fn refusal_differences(expected: &[u8], given: &[u8]) -> String {
    match first_written(expected, given, 0) {
        Some(place) => format!("  byte {place} of the buffer was written, with a refusal\n"),
        None => String::new(),
    }
}

fn ranking_on_paper(plan: &Plan) -> String {
    let mut text = format!("ranking, N = {}:\n", plan.ranking.len());
    for (place, route) in plan.ranking.iter().enumerate().take(ROUTES_SHOWN) {
        let best = plan.best[place].map_or("none".to_string(), |pair| {
            format!("({}, {}), shared {}, total {}", pair.main, pair.standby, pair.shared, pair.total)
        });
        text += &format!(
            "  {}. {} {} m {} spans {:?}; best({}) = {best}\n",
            place + 1,
            arcs_on_paper(&route.arcs),
            route.metres,
            risks_on_paper(route.risks),
            route.spans,
            place + 1
        );
    }
    if plan.ranking.len() > ROUTES_SHOWN {
        text += &format!("  and {} more\n", plan.ranking.len() - ROUTES_SHOWN);
    }
    text + &format!("floor {}, J = {}\n", plan.floor, plan.settled_at)
}

/// What is expected of a case, worked out.
pub fn expected_on_paper(answer: &Answer) -> String {
    match answer {
        Answer::Refused(number) => format!("expected: refused {number}\n"),
        Answer::Unpaired(plan, number) => format!("{}expected: refused {number}\n", ranking_on_paper(plan)),
        Answer::Planned(plan, reply) => format!("{}expected: {}\n", ranking_on_paper(plan), reply.facts().join("; ")),
    }
}

/// The closed arcs that a reply lies on, and none may (T-06).
fn closed_in_reply(closed: &[u8], reply: &[u8]) -> String {
    let mut text = String::new();
    for (name, from, to) in ROUTE_FIELDS {
        let on_route = closed_on(&reply[from..to], closed);
        if !on_route.is_empty() {
            text += &format!("  {name} that are closed: {}\n", arcs_on_paper(&on_route));
        }
    }
    text
}

/// What a call gave instead.
pub fn given_on_paper(case: &Case, expected: &Given, given: &Given) -> String {
    let mut text = format!("given: number {}, {} expected\n", given.numbers[0], expected.numbers[0]);
    let is_planned = |given: &Given| given.numbers[0] <= 1;
    let differences = if is_planned(expected) { reply_differences } else { refusal_differences };
    text += &differences(&expected.outputs[0], &given.outputs[0]);
    if is_planned(given) && case.reply_len >= REPLY_BYTES {
        text += &closed_in_reply(case.closed_set(), &given.outputs[0]);
    }
    text
}
