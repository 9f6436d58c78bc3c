//! The benchmark's cases (bench/cases.h), answered by listing where they can be listed.

use crate::apart;
use crate::listing::{ranking_within, risks_and_spans, Plan, Reply};
use crate::mesh::{arcs_of, number, Request, CLOSED_BYTES};

const HEAD_BYTES: usize = 24;
/// A mesh with more routes than this, or more arcs to look at in listing them, is passed over.
const ROUTES: usize = 2_500;
const PATIENCE: usize = 500_000;

/// What the benchmark asks: for a pair apart or for any, and whether a closed set is the end of each table.
#[derive(Clone, Copy)]
pub struct Asked {
    pub apart: bool,
    pub closed: bool,
}

/// Shared count, total, ranked and number of a case, or of a refusal the number alone; nothing where it is not listed.
fn answer(table: &[u8], closed: &[u8], request: &Request, asked: Asked) -> Option<[u32; 4]> {
    let arcs = arcs_of(table);
    let ranking = ranking_within(PATIENCE, &arcs, closed, request).filter(|ranking| ranking.len() <= ROUTES)?;
    let (n, allowance) = (ranking.len(), request.allowance as usize);
    if n == 0 {
        return Some([0, 0, 0, 10]);
    }
    let plan =
        if asked.apart { apart::plan(ranking, &arcs, risks_and_spans) } else { Plan::new(ranking, risks_and_spans) };
    if let Some(number) = apart::refusal(&plan, allowance) {
        return Some([0, 0, 0, number]);
    }
    let reply = Reply::from_plan(&plan, request.allowance);
    let total = reply.main.metres + reply.standby.metres;
    Some([reply.shared, total, reply.ranked, u32::from(!reply.settled)])
}

/// A line for each case, with its answer where it is one of those that are listed, each so many-th, and can be; else `-`.
pub fn answers(mut cases: &[u8], every: usize, asked: Asked) -> String {
    let mut lines = String::new();
    for place in 0.. {
        let Some((head, others)) = cases.split_at_checked(HEAD_BYTES) else { break };
        let field = |i: usize| number(&head[4 * i..4 * i + 4]) as u32;
        let (bytes, others) = others.split_at(field(0) as usize);
        let (table, closed) = bytes.split_at(bytes.len() - if asked.closed { CLOSED_BYTES } else { 0 });
        let request = Request { source: field(2), terminal: field(3), reach: field(4), allowance: field(5) };
        let found = if place % every == 0 { answer(table, closed, &request, asked) } else { None };
        lines += &found.map_or("-".to_string(), |fields| fields.map(|field| field.to_string()).join(" "));
        lines += "\n";
        cases = others;
    }
    lines
}
