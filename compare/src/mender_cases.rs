//! Tables mended by hand, byte by byte: what this program's own mender is held to before it judges the library's.

use crate::mender::{old_numbers, Mend, Mended};
use crate::mender_difference::outcome_on_paper;
use crate::mesh::{table_on_paper, ARC_BYTES};

/// An arc, or one record of the list.
type Record = [u8; 16];

// Arcs without a fault: 1,000 m with risk 0; 2,000,000 m with every risk; 0 m with risk 63; two of them at node 31.
const A: Record = [0, 1, 0, 0, 0xE8, 3, 0, 0, 1, 0, 0, 0, 0, 0, 0, 0];
const B: Record = [31, 0, 0, 0, 0x80, 0x84, 0x1E, 0, 255, 255, 255, 255, 255, 255, 255, 255];
const C: Record = [5, 31, 0, 0, 0, 0, 0, 0, 0, 0, 0, 0, 0, 0, 0, 128];

// C with a span number: in byte 2 alone, in byte 3 alone, in both.
const SPAN_1: Record = [5, 31, 1, 0, 0, 0, 0, 0, 0, 0, 0, 0, 0, 0, 0, 128];
const SPAN_256: Record = [5, 31, 0, 1, 0, 0, 0, 0, 0, 0, 0, 0, 0, 0, 0, 128];
const SPAN_65535: Record = [5, 31, 255, 255, 0, 0, 0, 0, 0, 0, 0, 0, 0, 0, 0, 128];
/// The other direction of the first of these.
const SPAN_1_BACK: Record = [31, 5, 1, 0, 0, 0, 0, 0, 0, 0, 0, 0, 0, 0, 0, 128];

// A without its risk, D2: 1,000 m; the same in a span; and 0 m without a risk, which is no blank.
const BLANK: Record = [0, 1, 0, 0, 0xE8, 3, 0, 0, 0, 0, 0, 0, 0, 0, 0, 0];
const BLANK_IN_SPAN: Record = [0, 1, 7, 0, 0xE8, 3, 0, 0, 0, 0, 0, 0, 0, 0, 0, 0];
const PATCH: Record = [0, 1, 0, 0, 0, 0, 0, 0, 0, 0, 0, 0, 0, 0, 0, 0];

// Arcs with one fault.
const NODE: Record = [32, 1, 0, 0, 0xE8, 3, 0, 0, 1, 0, 0, 0, 0, 0, 0, 0];
const ENDS: Record = [7, 7, 0, 0, 0xE8, 3, 0, 0, 1, 0, 0, 0, 0, 0, 0, 0];
const LENGTH: Record = [0, 1, 0, 0, 0x81, 0x84, 0x1E, 0, 1, 0, 0, 0, 0, 0, 0, 0];

fn lost(old: u8, reason: u8) -> Record {
    [old, 0, reason, 0, 255, 255, 0, 0, 0, 0, 0, 0, 0, 0, 0, 0]
}

fn with_span(mut arc: Record, span: u8) -> Record {
    arc[2] = span;
    arc
}

/// A call with what is said of it.
pub struct WorkedMend {
    name: &'static str,
    pub mend: Mend,
    outcome: Result<Mended, u32>,
    /// The old numbers of the arcs that are kept.
    old: Vec<u16>,
}

/// `kept` has the arcs of the mended table, each behind its old number.
fn row(name: &'static str, input: &[&[u8]], kept: &[(u16, Record)], list: &[Record]) -> WorkedMend {
    let table = kept.iter().flat_map(|&(_, arc)| arc).collect();
    WorkedMend {
        name,
        mend: Mend::fitting(input.concat()),
        outcome: Ok(Mended { table, list: list.concat() }),
        old: kept.iter().map(|&(old, _)| old).collect(),
    }
}

fn refused(name: &'static str, bytes: usize, table_size: usize, list_size: usize, number: u32) -> WorkedMend {
    let input = A.iter().copied().cycle().take(bytes).collect();
    WorkedMend { name, mend: Mend { input, table_size, list_size }, outcome: Err(number), old: Vec::new() }
}

fn clean() -> Vec<WorkedMend> {
    vec![
        row("an empty input", &[], &[], &[]),
        row("one arc", &[&C], &[(0, C)], &[]),
        row("three arcs at the limits", &[&A, &B, &C], &[(0, A), (1, B), (2, C)], &[]),
        row("equal arcs", &[&A, &A], &[(0, A), (1, A)], &[]),
    ]
}

/// T-03: bytes 2 and 3 hold a span, whatever it is. They are no fault, and come out as they went in.
fn with_spans() -> Vec<WorkedMend> {
    let one = |name, arc: Record| row(name, &[&A, &arc, &B], &[(0, A), (1, arc), (2, B)], &[]);
    // Arc k is A in span k + 1.
    let each_its_own: Vec<(u16, Record)> = (0..128).map(|k| (k, with_span(A, k as u8 + 1))).collect();
    let records: Vec<&[u8]> = each_its_own.iter().map(|(_, arc)| &arc[..]).collect();
    vec![
        one("span 1", SPAN_1),
        one("span 256", SPAN_256),
        one("span 65,535", SPAN_65535),
        row("both directions of a span", &[&SPAN_1, &SPAN_1_BACK], &[(0, SPAN_1), (1, SPAN_1_BACK)], &[]),
        row("128 arcs, each a span of its own", &records, &each_its_own, &[]),
        // Every arc behind the lost one moves up by one, and its span with it.
        row(
            "spans move with their arcs",
            &[&SPAN_256, &NODE, &SPAN_65535, &A, &SPAN_1],
            &[(0, SPAN_256), (2, SPAN_65535), (3, A), (4, SPAN_1)],
            &[lost(1, 1)],
        ),
    ]
}

/// T-09: a blank is left for a person. It is no reason, and comes out as it went in, with the numbers of all arcs.
fn with_blanks() -> Vec<WorkedMend> {
    let first = |arc| (0..128).map(|old| (old, arc)).collect::<Vec<_>>();
    let faulty = |name, mut arc: Record, reason| {
        arc[8] = 0;
        row(name, &[&BLANK, &arc, &A], &[(0, BLANK), (2, A)], &[lost(1, reason)])
    };
    vec![
        row("D2", &[&BLANK], &[(0, BLANK)], &[]),
        row("D2 in span 7", &[&BLANK_IN_SPAN], &[(0, BLANK_IN_SPAN)], &[]),
        row("an arc of 0 metres without a risk", &[&PATCH], &[(0, PATCH)], &[]),
        row("a blank between two arcs", &[&A, &BLANK, &B], &[(0, A), (1, BLANK), (2, B)], &[]),
        row("a blank behind a lost arc", &[&NODE, &A, &BLANK], &[(1, A), (2, BLANK)], &[lost(0, 1)]),
        row("a blank before a torn end", &[&BLANK, &BLANK[..15]], &[(0, BLANK)], &[lost(1, 6)]),
        faulty("a bad node in a blank", NODE, 1),
        faulty("equal ends in a blank", ENDS, 2),
        faulty("2,000,001 m in a blank", LENGTH, 3),
        row("128 blanks", &[&BLANK.repeat(128)], &first(BLANK), &[]),
        row("129 blanks", &[&BLANK.repeat(129)], &first(BLANK), &[lost(128, 5)]),
        row("a blank behind 128 kept", &[&A.repeat(128), &BLANK], &first(A), &[lost(128, 5)]),
    ]
}

/// One fault in the second of three arcs, or behind them.
fn one_fault() -> Vec<WorkedMend> {
    let removed = |name, arc: Record, reason| row(name, &[&A, &arc, &B], &[(0, A), (2, B)], &[lost(1, reason)]);
    let torn = |name, end: &[u8]| row(name, &[&A, &B, end], &[(0, A), (1, B)], &[lost(2, 6)]);
    let [_, _, rest @ ..] = A;
    let ends = |tail, head| [&[tail, head], &rest[..]].concat().try_into().expect("16 bytes");
    vec![
        removed("tail 32", NODE, 1),
        removed("tail 255", ends(255, 1), 1),
        removed("head 32", ends(1, 32), 1),
        removed("head 255", ends(0, 255), 1),
        removed("equal ends", ENDS, 2),
        removed("equal ends 0", ends(0, 0), 2),
        removed("2,000,001 m", LENGTH, 3),
        removed("a length of which only the highest byte is used", [0, 1, 0, 0, 0, 0, 0, 1, 1, 0, 0, 0, 0, 0, 0, 0], 3),
        removed("tail 32, with a span", with_span(NODE, 1), 1),
        removed("equal ends, with a span", with_span(ENDS, 1), 2),
        removed("2,000,001 m, with a span", with_span(LENGTH, 1), 3),
        torn("a torn end of 1 byte", &C[..1]),
        torn("a torn end of 15 bytes", &C[..15]),
        torn("a torn end that begins with a bad node", &NODE[..9]),
        row("1 byte in all", &[&A[..1]], &[], &[lost(0, 6)]),
        row("15 bytes in all", &[&A[..15]], &[], &[lost(0, 6)]),
        row("one arc, with a bad node", &[&NODE], &[], &[lost(0, 1)]),
    ]
}

/// Several faults in an arc, and several arcs with faults.
fn several_faults() -> Vec<WorkedMend> {
    let one = |name, arc: Record, reason| row(name, &[&A, &arc], &[(0, A)], &[lost(1, reason)]);
    vec![
        one("equal ends 32", [32, 32, 0, 0, 0xE8, 3, 0, 0, 1, 0, 0, 0, 0, 0, 0, 0], 1),
        one("every fault, with a span", [32, 32, 1, 1, 0x81, 0x84, 0x1E, 0, 1, 0, 0, 0, 0, 0, 0, 0], 1),
        one("a bad node and a bad length", [0, 32, 0, 0, 0x81, 0x84, 0x1E, 0, 1, 0, 0, 0, 0, 0, 0, 0], 1),
        one("every fault but a node's, with a span", [31, 31, 1, 1, 0x81, 0x84, 0x1E, 0, 1, 0, 0, 0, 0, 0, 0, 0], 2),
        row(
            "every reason but 5, with numbers that shift",
            &[&NODE, &A, &SPAN_256, &ENDS, &LENGTH, &B, &SPAN_1, &A, &NODE, &A[..3]],
            &[(1, A), (2, SPAN_256), (5, B), (6, SPAN_1), (7, A)],
            &[lost(0, 1), lost(3, 2), lost(4, 3), lost(8, 1), lost(9, 6)],
        ),
    ]
}

/// What stands at and behind 128 kept arcs.
fn past_128() -> Vec<WorkedMend> {
    let full = A.repeat(128);
    let kept: Vec<(u16, Record)> = (0..128).map(|old| (old, A)).collect();
    let behind = |name, more: &[&[u8]], list: &[Record]| row(name, &[&full, &more.concat()], &kept, list);
    let shifted: Vec<(u16, Record)> = (0..129).filter(|&old| old != 3).map(|old| (old, A)).collect();
    vec![
        behind("128 arcs", &[], &[]),
        behind("129 arcs", &[&A], &[lost(128, 5)]),
        behind("a bad node behind 128 kept", &[&NODE], &[lost(128, 1)]),
        behind("equal ends behind 128 kept", &[&ENDS], &[lost(128, 2)]),
        behind("a bad length behind 128 kept", &[&LENGTH], &[lost(128, 3)]),
        behind("a span behind 128 kept", &[&SPAN_1], &[lost(128, 5)]),
        behind("a torn end behind 128 kept", &[&B[..15]], &[lost(128, 6)]),
        behind(
            "each of these behind 128 kept",
            &[&SPAN_256, &NODE, &B, &LENGTH, &ENDS, &A, &C[..1]],
            &[lost(128, 5), lost(129, 1), lost(130, 5), lost(131, 3), lost(132, 2), lost(133, 5), lost(134, 6)],
        ),
        row("129 arcs, one with a bad node", &[&full[..48], &NODE, &full[48..]], &shifted, &[lost(3, 1)]),
        row(
            "130 arcs, one with a bad node",
            &[&full[..48], &NODE, &full[48..], &B],
            &shifted,
            &[lost(3, 1), lost(129, 5)],
        ),
        row(
            "a span in the 128th arc kept, and in the next",
            &[&NODE, &full[..127 * ARC_BYTES], &SPAN_256, &SPAN_65535],
            &(1..128).map(|old| (old, A)).chain([(128, SPAN_256)]).collect::<Vec<_>>(),
            &[lost(0, 1), lost(129, 5)],
        ),
    ]
}

/// Inputs as long as they may be.
fn longest() -> Vec<WorkedMend> {
    let all = |reason| (0..=255).map(|old| lost(old, reason)).collect::<Vec<_>>();
    let past = &all(5)[128..];
    let first = |arc| (0..128).map(|old| (old, arc)).collect::<Vec<_>>();
    let every_second: Vec<(u16, Record)> = (0..128).map(|new| (2 * new + 1, B)).collect();
    vec![
        row("4,096 bytes without a fault", &[&A.repeat(256)], &first(A), past),
        row("4,096 bytes, equal ends in every arc", &[&ENDS.repeat(256)], &[], &all(2)),
        row("4,096 bytes, a span in every arc", &[&SPAN_65535.repeat(256)], &first(SPAN_65535), past),
        row(
            "4,096 bytes, a bad length in every second arc",
            &[&[LENGTH, B].concat().repeat(128)],
            &every_second,
            &(0..128).map(|pair| lost(2 * pair, 3)).collect::<Vec<_>>(),
        ),
        row("4,095 bytes", &[&A.repeat(255), &A[..15]], &first(A), &[&past[..127], &[lost(255, 6)]].concat()),
    ]
}

fn sizes() -> Vec<WorkedMend> {
    let mut roomy = row("outputs longer than they must be", &[&SPAN_1, &NODE], &[(0, SPAN_1)], &[lost(1, 1)]);
    (roomy.mend.table_size, roomy.mend.list_size) = (100, 70_000);
    vec![
        roomy,
        refused("4,097 bytes", 4_097, 4_112, 4_112, 2),
        refused("4,112 bytes", 4_112, 4_112, 4_112, 2),
        refused("4,097 bytes with outputs one too short", 4_097, 4_111, 4_111, 2),
        refused("4,097 bytes without outputs", 4_097, 0, 0, 2),
        refused("a table one too short", 16, 15, 16, 13),
        refused("a list one too short", 16, 16, 15, 13),
        refused("a list one too short for 4,096 bytes", 4_096, 4_096, 4_095, 13),
        refused("a table that only the mended one would fit", 4_096, 2_048, 4_096, 13),
        refused("a table as long as the torn input", 17, 17, 32, 13),
        refused("a list one too short for a torn input", 17, 32, 31, 13),
        refused("1 byte without outputs", 1, 0, 0, 13),
    ]
}

pub fn all() -> Vec<WorkedMend> {
    [clean(), with_spans(), with_blanks(), one_fault(), several_faults(), past_128(), longest(), sizes()]
        .into_iter()
        .flatten()
        .collect()
}

/// With the table's arcs, too.
fn on_paper(outcome: &Result<Mended, u32>) -> String {
    let table = outcome.as_ref().map_or(String::new(), |mended| table_on_paper(&mended.table));
    outcome_on_paper(outcome) + &table
}

/// Holds this program's mender to every row; returns how many rows there are, or what is wrong.
pub fn hold_mender() -> Result<usize, String> {
    let rows = all();
    for row in &rows {
        let outcome = row.mend.outcome();
        if outcome != row.outcome {
            let (by_hand, given) = (on_paper(&row.outcome), on_paper(&outcome));
            return Err(format!("{}: by hand it is\n{by_hand}the mender gives\n{given}", row.name));
        }
        let list = outcome.map_or(Vec::new(), |mended| mended.list);
        let old = old_numbers(&list, row.old.len());
        if old != row.old {
            return Err(format!("{}: the old numbers are {:?}, the list gives {old:?}", row.name, row.old));
        }
    }
    Ok(rows.len())
}
