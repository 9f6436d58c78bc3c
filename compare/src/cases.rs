//! The cases that 01 works by hand, with what it or a later request says of each; and a few rows more.

use crate::apart_cases;
use crate::listing::REPLY_BYTES;
use crate::listing::{answer, answer_to_input, printed, ALLOWANCE_MAX, METRES_MAX, REACH_MAX};
use crate::mesh::{from_paper, table_bytes, Arc, Case, Request, CLOSED_BYTES};

pub const MESH_A: &str = "0: 0,1,1000,{0}; 1: 1,3,4000,{1}; 2: 0,2,4000,{2}; 3: 2,3,1000,{3}; 4: 1,2,1000,{4}";
pub const MESH_B: &str = "0: 0,3,1000,{0,1,2}; 1: 0,1,1000,{0}; 2: 0,2,1000,{1,2}; 3: 2,1,1000,{3}; 4: 1,3,1000,{1,2}";
pub const MESH_C: &str = "0: 0,1,1000,{0}; 1: 0,1,1000,{1}";
pub const ARC_D1: &str = "0: 0,1,1000,{0}";
pub const ARC_D2: &str = "0: 0,1,1000,{}";
pub const ARC_E2: &str = "0: 0,1,0,{}";

/// A case with what is said of it: facts in the words of `Answer::facts`, parted by semicolons.
pub struct Worked {
    pub name: &'static str,
    pub case: Case,
    pub said: &'static str,
}

/// An input of the program with the whole text that it prints.
pub struct WorkedText {
    pub name: &'static str,
    pub input: Vec<u8>,
    pub text: String,
}

pub fn request(source: u32, terminal: u32, reach: u32, allowance: u32) -> Request {
    Request { source, terminal, reach, allowance }
}

pub fn worked(name: &'static str, arcs: &[Arc], request: Request, said: &'static str) -> Worked {
    let case = Case { table: table_bytes(arcs), closed: None, apart: false, reply_len: REPLY_BYTES, request };
    Worked { name, case, said }
}

fn meshes() -> Vec<Worked> {
    let a = |reach, allowance| request(0, 3, reach, allowance);
    let plain = request(0, 1, 10_000, 1_000);
    let a1 = "settled; shared 0; floor 0; ranked 2; main [0,1]; standby [2,3]; total 10000";
    let a5 = "settled; shared 3; floor 3; ranked 1; main [0,4,3]; standby [0,4,3]";
    let on = |name, mesh: &str, request, said| worked(name, &from_paper(mesh), request, said);
    vec![
        on("A1", MESH_A, a(10_000, 1_000), a1),
        on("A2", MESH_A, a(10_000, 1), "stopped; shared 1; floor 0; ranked 1; main [0,4,3]; standby [0,1]; total 8000"),
        on("A3", MESH_A, a(10_000, 2), a1),
        on("A4", MESH_A, a(5_000, 1_000), a1),
        on("A5", MESH_A, a(4_999, 1_000), a5),
        on("A6", MESH_A, a(3_000, 1_000), a5),
        on("A6, one metre less", MESH_A, a(2_999, 1_000), "refused 10"),
        on(
            "B1",
            MESH_B,
            a(10_000, 9),
            "settled; main [0]; standby [2,3,4]; shared 2; field 6; floor 2; ranked 2; total 4000",
        ),
        on("C1", MESH_C, plain, "settled; main [0]; standby [1]; shared 0; ranked 1"),
        on("D1", ARC_D1, plain, "main [0]; standby [0]; shared 1; floor 1"),
        on("D2", ARC_D2, plain, "refused 24"),
        worked("E1", &[], plain, "refused 10"),
        on("E2", ARC_E2, request(0, 1, 0, 1_000), "main [0]; standby [0]; total 0"),
    ]
}

/// Tables and requests at a limit of 01, and one past it.
fn limits() -> Vec<Worked> {
    let far = request(0, 1, REACH_MAX, ALLOWANCE_MAX);
    let arc = |tail, head, metres| Arc { tail, head, span: 0, metres, risks: 1 };
    let full = vec![arc(0, 1, 1_000); 128];
    let cut = |name, bytes: usize, said| {
        let mut row = worked(name, &[&full[..], &full[..1]].concat(), far, said);
        row.case.table.truncate(bytes);
        row
    };
    let asked = |name, source, terminal, said| worked(name, &full, request(source, terminal, 10_000, 9), said);
    let longest: Vec<Arc> = (0..31).map(|node| arc(node, node + 1, METRES_MAX)).collect();
    let over_all = |name, reach, said| worked(name, &longest, request(0, 31, reach, 1), said);
    vec![
        cut("2,048 bytes of table", 2_048, "settled; main [0]; standby [0]"),
        cut("2,049 bytes of table", 2_049, "refused 2"),
        cut("2,047 bytes of table", 2_047, "refused 3"),
        worked("length 2,000,000", &[arc(0, 1, METRES_MAX)], far, "settled; total 4000000"),
        worked("length 2,000,001", &[arc(0, 1, METRES_MAX + 1)], far, "refused 22"),
        over_all("the longest route that there can be", REACH_MAX, "settled; total 124000000"),
        over_all("the longest route, a metre past the reach", REACH_MAX - 1, "refused 10"),
        worked("node 31", &[arc(0, 31, 5)], request(0, 31, 5, 1), "settled; total 10"),
        worked("node 32 in an arc", &[arc(0, 1, 5), arc(0, 32, 5)], far, "refused 276"),
        asked("source 32", 32, 1, "refused 5"),
        asked("terminal 32", 0, 32, "refused 5"),
        asked("source = terminal = 32", 32, 32, "refused 5"),
        asked("source = terminal", 7, 7, "refused 6"),
    ]
}

/// Arc 21 of a table of 22 is a metre too long.
fn arc_21_too_long() -> Case {
    let mut arcs = vec![Arc { tail: 0, head: 1, span: 0, metres: 5, risks: 1 }; 22];
    arcs[21].metres = METRES_MAX + 1;
    worked("", &arcs, request(0, 1, 10_000, 1_000), "").case
}

/// Which arc is named, and with which of its faults. A span, the last of an arc's numbers here, is none.
fn faulty_arcs() -> Vec<Worked> {
    let plain = request(0, 1, 10_000, 1_000);
    let arc = |tail, head, metres, span| Arc { tail, head, span, metres, risks: 1 };
    let one = |name, faulty, said| worked(name, &[arc(0, 1, 5, 0), faulty], plain, said);
    let mut last = vec![arc(0, 1, 5, 0); 128];
    last[127].metres = METRES_MAX + 1;
    let of_three = [arc(0, 1, 5, 0), arc(0, 1, METRES_MAX + 1, 1), arc(32, 1, 5, 0), arc(7, 7, 5, 0)];
    let behind_a_span = [arc(0, 1, 5, 0), arc(0, 1, 5, 1), arc(32, 1, 5, 0), arc(7, 7, 5, 0)];
    vec![
        one("an arc with every fault", arc(32, 32, METRES_MAX + 1, 1), "refused 276"),
        one("an arc with every fault but a node's", arc(31, 31, METRES_MAX + 1, 1), "refused 277"),
        one("an arc too long, with a span", arc(0, 31, METRES_MAX + 1, 1), "refused 278"),
        one("an arc with a span, off all routes", arc(0, 31, METRES_MAX, 1), "settled; main [0]; shared 1; spans 0"),
        worked("the lowest of three faulty arcs, with the last of the faults", &of_three, plain, "refused 278"),
        worked("the lower of two faulty arcs, behind one with a span", &behind_a_span, plain, "refused 532"),
        worked("the first of two faulty arcs", &[arc(0, 1, u32::MAX, 0), arc(255, 0, 5, 0)], plain, "refused 22"),
        worked("the last of 128 arcs", &last, plain, "refused 32534"),
        worked("a fault of the request before one of an arc", &last, request(0, 1, 10_000, 0), "refused 8"),
        Worked { name: "arc 21 a metre too long", case: arc_21_too_long(), said: "refused 5398" },
    ]
}

/// Rows that 01 does not work, for what its own rows let pass.
fn further() -> Vec<Worked> {
    let plain = request(0, 1, 10_000, 1_000);
    let on = |name, mesh: &str, said| worked(name, &from_paper(mesh), plain, said);
    vec![
        on(
            "equal totals, the earlier main met later",
            "0: 0,1,5000,{0}; 1: 0,1,5000,{1}; 2: 0,1,4000,{0,1}; 3: 0,1,6000,{2}",
            "settled; main [2]; standby [3]; ranked 2",
        ),
        on(
            "a loop of 0 metres at the source",
            "0: 0,2,0,{}; 1: 2,0,0,{}; 2: 2,1,7,{0}; 3: 0,1,7,{0}",
            "main [0,2]; standby [0,2]; shared 1; floor 1; ranked 1; total 14",
        ),
        on(
            "a partial route of equal length and more risks, none of them the main's, ranks before one with fewer",
            "0: 0,2,100,{5,6}; 1: 0,2,100,{6}; 2: 2,1,100,{6}; 3: 0,1,150,{7}",
            "settled; main [3]; standby [0,2]; shared 0; ranked 2; total 350",
        ),
        on(
            "a first pair that shares nothing is not the best one",
            "0: 0,1,1000,{0,2}; 1: 0,1,2000,{0}; 2: 0,1,2100,{2}; 3: 0,1,5000,{9}",
            "settled; main [1]; standby [2]; shared 0; ranked 3; total 4100",
        ),
        on("risks 0 and 63", "0: 0,1,1,{0,63}; 1: 0,1,2,{63}", "shared 1; floor 1; main [0]; standby [1]; ranked 2"),
    ]
}

// ---- Spans (T-03) ----

/// Mesh A, with a span of its own for each risk; and one risk on all arcs, which any two routes share.
const MESH_A_SPANS: &str = "0: 0,1,1000,{9} span 1; 1: 1,3,4000,{9} span 2; 2: 0,2,4000,{9} span 3; \
                            3: 2,3,1000,{9} span 4; 4: 1,2,1000,{9} span 5";

/// Three routes, all over arc 0.
const MESH_RISK_AND_SPAN: &str = "0: 0,2,1000,{7} span 300; 1: 2,1,1000,{0} span 8; 2: 2,1,1500,{1} span 9; \
                                  3: 2,1,1600,{7} span 8";

/// One arc in a span. The one route with itself: it crosses its span, so that is common, and on every route. Where no
/// risk is listed the span does not stand for one (T-09).
fn one_arc_in_a_span() -> Vec<Worked> {
    let on = |name, mesh: &str, said| worked(name, &from_paper(mesh), request(0, 1, 10_000, 1_000), said);
    let d1 = "settled; main [0]; standby [0]; shared 2; field 1; spans 1; floor 2; ranked 1; total 2000";
    vec![
        on("D1 in span 7", "0: 0,1,1000,{0} span 7", d1),
        on("D1 in span 1", "0: 0,1,1000,{0} span 1", d1),
        on("D1 in span 256", "0: 0,1,1000,{0} span 256", d1),
        on("D1 in span 32,768", "0: 0,1,1000,{0} span 32768", d1),
        on("D1 in span 65,535", "0: 0,1,1000,{0} span 65535", d1),
        on("D2 in span 7", "0: 0,1,1000,{} span 7", "refused 24"),
        on("D2 in span 1", "0: 0,1,1000,{} span 1", "refused 24"),
        on("D2 in span 256", "0: 0,1,1000,{} span 256", "refused 24"),
        on("D2 in span 32,768", "0: 0,1,1000,{} span 32768", "refused 24"),
        on("D2 in span 65,535", "0: 0,1,1000,{} span 65535", "refused 24"),
    ]
}

/// What spans do, and what zero does not. All arcs have one and the same risk: any two routes share it, so it says
/// nothing of them, and the floor has it too.
fn spans_alone() -> Vec<Worked> {
    let a = |reach, allowance| request(0, 3, reach, allowance);
    let plain = request(0, 1, 10_000, 1_000);
    let on = |name, mesh: &str, request, said| worked(name, &from_paper(mesh), request, said);
    vec![
        // Whatever shared a risk in A shares a span here, and what shared nothing shares no span.
        on(
            "A1 in spans",
            MESH_A_SPANS,
            a(10_000, 1_000),
            "settled; shared 1; field 512; spans 0; floor 1; ranked 2; main [0,1]; standby [2,3]; total 10000",
        ),
        on(
            "A2 in spans",
            MESH_A_SPANS,
            a(10_000, 1),
            "stopped; shared 2; field 512; spans 1; floor 1; ranked 1; main [0,4,3]; standby [0,1]; total 8000",
        ),
        on(
            "A5 in spans",
            MESH_A_SPANS,
            a(4_999, 1_000),
            "settled; shared 4; field 512; spans 3; floor 4; ranked 1; main [0,4,3]; standby [0,4,3]",
        ),
        // Zero is no span: [0] shares none with itself, and of the two routes it is the shorter.
        on(
            "zero is no span",
            "0: 0,1,1000,{0}; 1: 0,1,2000,{0} span 3",
            plain,
            "settled; shared 1; field 1; spans 0; floor 1; ranked 1; main [0]; standby [0]; total 2000",
        ),
        // Routes [0,1], [0,2] and [3], 2,000, 3,000 and 6,000 m; span 3 is on the first alone, and arc 0 on two. The
        // first with the second shares no span, 5,000 m; nor does the second with itself, 6,000 m, nor any other route
        // with the third. Twice 2,000 is less than 5,000, twice 3,000 is not: J is 2.
        on(
            "arcs of which no span is known share none",
            "0: 0,2,1000,{0}; 1: 2,1,1000,{0} span 3; 2: 2,1,2000,{0}; 3: 0,1,6000,{0}",
            plain,
            "settled; shared 1; field 1; spans 0; floor 1; ranked 2; main [0,1]; standby [0,2]; total 5000",
        ),
        on(
            "spans 1 and 65,535 are two",
            "0: 0,1,1000,{0} span 1; 1: 0,1,1000,{0} span 65535",
            plain,
            "settled; shared 1; field 1; spans 0; floor 1; ranked 1; main [0]; standby [1]; total 2000",
        ),
        on(
            "spans 1 and 65,535 on every route",
            "0: 0,2,1000,{0} span 65535; 1: 2,1,1000,{0} span 1",
            plain,
            "settled; shared 3; field 1; spans 2; floor 3; ranked 1; main [0,1]; standby [0,1]; total 4000",
        ),
        // 257 has the low byte of 1 and the high byte of 256. Equal lengths: the first that share no span are first.
        on(
            "spans alike in one byte are two",
            "0: 0,1,1000,{0} span 257; 1: 0,1,1000,{0} span 1; 2: 0,1,1000,{0} span 256",
            plain,
            "settled; shared 1; field 1; spans 0; floor 1; ranked 1; main [0]; standby [1]; total 2000",
        ),
        on(
            "spans alike but for the highest bit are two",
            "0: 0,1,1000,{0} span 1; 1: 0,1,1000,{0} span 32769",
            plain,
            "settled; shared 1; field 1; spans 0; floor 1; ranked 1; main [0]; standby [1]; total 2000",
        ),
    ]
}

/// Several arcs in one span.
fn spans_again() -> Vec<Worked> {
    let plain = request(0, 1, 10_000, 1_000);
    let on = |name, mesh: &str, request, said| worked(name, &from_paper(mesh), request, said);
    vec![
        // The ranking: [0,5] and [3,2] 2,000 m, [0,1,2] and [3,4,5] 3,000 m; N is 4. The first two have risks 0 to 3,
        // and share two or more with every route. [0,1,2] has risks 0 and 1, [3,4,5] has 2 and 3, and both cross span
        // 5, one from 1 to 2 and one from 2 to 1: shared 1. No risk is on all four, nor is the span: floor 0, J is N.
        on(
            "both directions of a span",
            "0: 0,1,1000,{0,1}; 1: 1,2,1000,{0} span 5; 2: 2,3,1000,{0,1}; \
             3: 0,2,1000,{2,3}; 4: 2,1,1000,{2} span 5; 5: 1,3,1000,{2,3}",
            request(0, 3, 10_000, 1_000),
            "settled; shared 1; field 0; spans 1; floor 0; ranked 4; main [0,1,2]; standby [3,4,5]; total 6000",
        ),
        // [0,1] crosses span 9 twice, 2,000 m; [2] once, 3,000 m. Every pair shares that one span and risk 0, and so
        // [0,1] with itself is the shortest. Were the span counted twice, [0,1] with [2] would share less.
        on(
            "a span crossed twice by one route",
            "0: 0,2,1000,{0} span 9; 1: 2,1,1000,{0} span 9; 2: 0,1,3000,{0} span 9",
            plain,
            "settled; shared 2; field 1; spans 1; floor 2; ranked 1; main [0,1]; standby [0,1]; total 4000",
        ),
        // [0,1,2] crosses spans 9, 8, 9 and [3,4,5] crosses 8, 9, 8: two spans in common, not six, nor four. Both are
        // on every route, and risk 0 is. Each with itself shares as much; the first is the shorter, 3,000 m.
        on(
            "two spans crossed again and again",
            "0: 0,2,1000,{0} span 9; 1: 2,3,1000,{0} span 8; 2: 3,1,1000,{0} span 9; \
             3: 0,4,1000,{0} span 8; 4: 4,5,1000,{0} span 9; 5: 5,1,2000,{0} span 8",
            plain,
            "settled; shared 3; field 1; spans 2; floor 3; ranked 1; main [0,1,2]; standby [0,1,2]; total 6000",
        ),
        // Two cables in one duct: each with itself shares its risk and the span, one with the other the span alone.
        on(
            "C1 in one span",
            "0: 0,1,1000,{0} span 7; 1: 0,1,1000,{1} span 7",
            plain,
            "settled; shared 1; field 0; spans 1; floor 1; ranked 1; main [0]; standby [1]; total 2000",
        ),
    ]
}

/// Risks and spans count alike.
fn spans_and_risks() -> Vec<Worked> {
    let plain = request(0, 1, 10_000, 1_000);
    let on = |name, mesh: &str, said| worked(name, &from_paper(mesh), plain, said);
    vec![
        // By risks alone [0] with [1] would share nothing. In one span they share 1; [0] with [2] shares nothing,
        // 6,000 m. That is the floor, but only at route 3, 5,000 m, is twice the length as long: J is N.
        on(
            "one span sold twice",
            "0: 0,1,1000,{0} span 4; 1: 0,1,1000,{1} span 4; 2: 0,1,5000,{2}",
            "settled; shared 0; spans 0; floor 0; ranked 3; main [0]; standby [2]; total 6000",
        ),
        // [0] with [1]: risk 0 and span 4, 3,000 m; [0] with [2]: risks 0 and 1, 4,000 m; [1] with [2]: risks 0 and 2,
        // 5,000 m; each with itself three or four. Only risk 0 is on all: floor 1, nobody comes down to it, J is N = 3.
        on(
            "a risk and a span against two risks",
            "0: 0,1,1000,{0,1} span 4; 1: 0,1,2000,{0,2} span 4; 2: 0,1,3000,{0,1,2} span 6",
            "settled; shared 2; field 1; spans 1; floor 1; ranked 3; main [0]; standby [1]; total 3000",
        ),
        // Fewest risks is not fewest shared. [0,1] with [2,3]: no risk, spans 1 and 2, so 2. [0,1] with [4]: risk 0,
        // so 1, 5,000 m; [2,3] with [4]: risk 1, so 1, 5,000 m too, behind it by its main. Each with itself 3, 3 and 2.
        // Nothing is on all: J is N = 3.
        on(
            "two spans against one risk",
            "0: 0,2,1000,{0} span 1; 1: 2,1,1000,{0} span 2; 2: 0,3,1000,{1} span 2; 3: 3,1,1000,{1} span 1; \
             4: 0,1,3000,{0,1}",
            "settled; shared 1; field 1; spans 0; floor 0; ranked 3; main [0,1]; standby [4]; total 5000",
        ),
        // Risk 7 and span 300 are on all three routes, [0,1] 2,000 m, [0,2] 2,500 m, [0,3] 2,600 m: floor 2. [0,1] with
        // [0,2] shares no more, 4,500 m; with [0,3] it shares span 8 too. Twice 2,000 is less than 4,500, twice 2,500
        // is not: J is 2.
        on(
            "a risk and a span on every route",
            MESH_RISK_AND_SPAN,
            "settled; shared 2; field 128; spans 1; floor 2; ranked 2; main [0,1]; standby [0,2]; total 4500",
        ),
    ]
}

/// The last of these as a whole reply, byte by byte.
fn reply_by_hand() -> (Case, Vec<u8>) {
    let row = worked("", &from_paper(MESH_RISK_AND_SPAN), request(0, 1, 10_000, 1_000), "");
    let mut reply = vec![0, 2, 2, 2, 2]; // settled; shared and floor; arcs in main and standby
    reply.extend([1, 0, 0]); // common spans: 300; zero
    reply.extend([2, 0, 0, 0, 0xD0, 7, 0, 0, 0xC4, 9, 0, 0]); // ranked; 2,000 m and 2,500 m
    reply.extend([0, 0, 0, 0]);
    reply.extend([128, 0, 0, 0, 0, 0, 0, 0]); // risk 7; no span is in this field
    for arcs in [[0, 1], [0, 2]] {
        reply.extend(arcs);
        reply.extend([255; 30]);
    }
    (row.case, reply)
}

/// 64 cables from 0 to 2, arc k of 1,000 + k metres in span k + 1; from 2 to 3 three ways of two arcs, P by node 4 of
/// 2,000 m in spans 100 and 101, Q by node 5 of 3,000 m in 100 and 102, R by node 6 of 5,000 m in 101 and 102; and from
/// 3 to 1 one arc of 1,000 m in span 65,535. 68 spans in all, those behind the cables with the highest numbers. Risk 0
/// is on every arc.
fn sixty_eight_spans() -> Vec<Arc> {
    let arc = |tail, head, metres, span| Arc { tail, head, span, metres, risks: 1 };
    let mut arcs: Vec<Arc> = (0..64).map(|k| arc(0, 2, 1_000 + k, k as u16 + 1)).collect();
    arcs.extend([arc(2, 4, 1_000, 100), arc(4, 3, 1_000, 101)]); // 64, 65: P
    arcs.extend([arc(2, 5, 1_000, 100), arc(5, 3, 2_000, 102)]); // 66, 67: Q
    arcs.extend([arc(2, 6, 1_000, 101), arc(6, 3, 4_000, 102)]); // 68, 69: R
    arcs.push(arc(3, 1, 1_000, 65_535)); // 70
    arcs
}

/// 98 cables from 0 to 1 and then one arc after the other up to node 31, each of 100 m with risk 0; arc k is in span
/// k + 1.
fn a_span_for_each_of_128() -> Vec<Arc> {
    let ends = (0..98).map(|_| (0, 1)).chain((1..31).map(|node| (node, node + 1)));
    ends.zip(1..).map(|((tail, head), span)| Arc { tail, head, span, metres: 100, risks: 1 }).collect()
}

/// More spans than a risk field has bits.
fn many_spans() -> Vec<Worked> {
    let far = request(0, 31, REACH_MAX, ALLOWANCE_MAX);
    let in_all: Vec<Arc> = (0..31)
        .map(|node| Arc { tail: node, head: node + 1, span: 500 + u16::from(node), metres: 1, risks: u64::MAX })
        .collect();
    let own: Vec<Arc> = (0..128).map(|k| Arc { tail: 0, head: 1, span: 65_535 - k, metres: 9, risks: 1 }).collect();
    vec![
        // Risk 0 and span 65,535 are on every route and no other is: floor 2. Two routes by one way share its two spans
        // beside these; by two ways one span, whichever two; by one cable that one more. So the least is 3, by two ways
        // and two cables: by P and Q, 4,000 + 5,000 m and a metre for the second cable. The main that ranks first is
        // arc 0 and P, the shortest of all. Nobody comes down to the floor: J is N = 64 * 3.
        worked(
            "68 spans, those in common with the highest numbers",
            &sixty_eight_spans(),
            request(0, 1, 10_000, 1_000),
            "settled; shared 3; field 1; spans 2; floor 2; ranked 192; total 9001; \
             main [0,64,65,70]; standby [1,66,67,70]",
        ),
        worked(
            "68 spans, one main tried",
            &sixty_eight_spans(),
            request(0, 1, 10_000, 1),
            "stopped; shared 3; field 1; spans 2; floor 2; ranked 1; total 9001; \
             main [0,64,65,70]; standby [1,66,67,70]",
        ),
        // At 4,001 m only P is in reach, by cables 0 and 1: spans 100, 101 and 65,535 are on both.
        worked(
            "68 spans, two routes in reach",
            &sixty_eight_spans(),
            request(0, 1, 4_001, 1_000),
            "settled; shared 4; spans 3; floor 4; ranked 2; main [0,64,65,70]; standby [1,64,65,70]; total 8001",
        ),
        // 98 routes of 31 arcs and 3,100 m, one for each cable. The 30 arcs behind the cables are on all of them, in
        // spans 99 to 128, and risk 0 is: floor 31, and two cables share no more.
        worked(
            "128 arcs in 128 spans, 30 on every route",
            &a_span_for_each_of_128(),
            far,
            "settled; shared 31; field 1; spans 30; floor 31; ranked 1; total 6200; \
             main [0,98,99,100,101,102,103,104,105,106,107,108,109,110,111,112,113,114,115,116,117,118,119,120,121,122,\
             123,124,125,126,127]; \
             standby [1,98,99,100,101,102,103,104,105,106,107,108,109,110,111,112,113,114,115,116,117,118,119,120,121,\
             122,123,124,125,126,127]",
        ),
        worked(
            "128 parallel arcs in 128 spans",
            &own,
            request(0, 1, 10_000, 1_000),
            "settled; shared 1; field 1; spans 0; floor 1; ranked 1; main [0]; standby [1]; total 18",
        ),
        // One route of 31 arcs, each in a span of its own and with every risk: 64 and 31.
        worked("as much shared as can be", &in_all, far, "settled; shared 95; spans 31; floor 95; ranked 1; total 62"),
    ]
}

/// The smallest meshes known on which a wrong short cut in the search finds a wrong pair, each named by the short cut.
fn short_cuts() -> Vec<Worked> {
    let on = |name, mesh: &str, terminal, allowance, said| {
        worked(name, &from_paper(mesh), request(0, terminal, 10_000, allowance), said)
    };
    vec![
        on(
            "partial routes compared by how many risks they share",
            "0: 0,1,2,{0}; 1: 0,1,3,{1}; 2: 1,2,5,{1}",
            2,
            2,
            "settled; main [0,2]; standby [1,2]; shared 1; floor 1; ranked 2; total 15",
        ),
        on(
            "a bound compared by its count alone",
            "0: 0,1,2,{0}; 1: 0,2,3,{0,1,3}; 2: 0,2,5,{0,1}",
            2,
            1_000,
            "settled; main [1]; standby [2]; shared 2; floor 2; ranked 2; total 8",
        ),
        on(
            "one shared risk too few asked for, where the length could still win",
            "0: 0,1,4,{1}; 1: 0,1,1,{0,1,2,3}; 2: 0,1,2,{0,1,2}; 3: 0,1,2,{0,3}",
            1,
            2,
            "stopped; main [2]; standby [3]; shared 1; floor 0; ranked 2; total 4",
        ),
        // [0,2] and [1,2], 7 and 8 m, with one risk on all arcs. At node 1 each beginning shares one span with the main
        // [0,2]; behind it arc 2 adds span 2, which [1] has already. So [0,2] shares two spans with itself, and one
        // with [1,2].
        on(
            "partial routes compared by how many spans they share",
            "0: 0,1,2,{0} span 1; 1: 0,1,3,{0} span 2; 2: 1,2,5,{0} span 2",
            2,
            2,
            "settled; main [0,2]; standby [1,2]; shared 2; field 1; spans 1; floor 2; ranked 2; total 15",
        ),
        // Risk 1 is on all arcs. Beside it each beginning shares one with the main [0,2] at node 1, [0] a risk and [1]
        // a span, and again it is [1] to which arc 2 adds nothing.
        on(
            "a risk weighed against a span by their number",
            "0: 0,1,2,{0,1}; 1: 0,1,3,{1} span 2; 2: 1,2,5,{1} span 2",
            2,
            2,
            "settled; main [0,2]; standby [1,2]; shared 2; field 2; spans 1; floor 2; ranked 2; total 15",
        ),
        // [3] 150 m, [0,2] and [1,2] 200 m: [3] shares the one risk with either and no span, and [0,2] ranks first.
        on(
            "a partial route of equal length with more spans, none of them the main's, ranks before one with fewer",
            "0: 0,2,100,{0} span 5; 1: 0,2,100,{0}; 2: 2,1,100,{0}; 3: 0,1,150,{0} span 7",
            1,
            1_000,
            "settled; main [3]; standby [0,2]; shared 1; field 1; spans 0; floor 1; ranked 2; total 350",
        ),
    ]
}

// ---- Closed arcs (T-06) ----

/// Sixteen times the same byte but for a few, from a place on; each by hand, lowest bit first.
fn set_but(same: u8, place: usize, bytes: &[u8]) -> Vec<u8> {
    let mut set = vec![same; CLOSED_BYTES];
    set[place..place + bytes.len()].copy_from_slice(bytes);
    set
}

/// A set of arcs 0 to 7, and later ones where more bytes than one are given.
pub fn set(first: &[u8]) -> Vec<u8> {
    set_but(0, 0, first)
}

fn around(name: &'static str, arcs: &[Arc], closed: Vec<u8>, request: Request, said: &'static str) -> Worked {
    let mut row = worked(name, arcs, request, said);
    row.case.closed = Some(closed);
    row
}

/// All rows above once more with nothing closed, and said of them what is said there.
fn with_nothing_closed() -> Vec<Worked> {
    let mut rows = without_set();
    rows.iter_mut().for_each(|row| row.case.closed = Some(set(&[])));
    rows
}

/// Of mesh A, whose routes are [0,4,3] 3,000 m, [0,1] 5,000 m and [2,3] 5,000 m.
fn closed_in_mesh_a() -> Vec<Worked> {
    let a = |reach, allowance| request(0, 3, reach, allowance);
    let on = |name, arcs, request, said| around(name, &from_paper(MESH_A), set(&[arcs]), request, said);
    // [0,1] and [2,3] are left and share nothing, 10,000 m, twice 5,000: step 1 is settled, where it was step 2.
    let without_4 = "settled; shared 0; floor 0; ranked 1; main [0,1]; standby [2,3]; total 10000";
    // [0,4,3] with [2,3] shares risk 3, which is on both: floor 1. 8,000 m is more than twice 3,000: J is N.
    let without_1 = "settled; shared 1; field 8; floor 1; ranked 2; main [0,4,3]; standby [2,3]; total 8000";
    let stopped = "stopped; shared 1; field 8; floor 1; ranked 1; main [0,4,3]; standby [2,3]; total 8000";
    // One route is left, with two risks.
    let without_0 = "settled; shared 2; field 12; floor 2; ranked 1; main [2,3]; standby [2,3]; total 10000";
    let without_3 = "settled; shared 2; field 3; floor 2; ranked 1; main [0,1]; standby [0,1]; total 10000";
    vec![
        on("A with arc 4 closed", 16, a(10_000, 1_000), without_4),
        on("A2 with arc 4 closed, no longer stopped", 16, a(10_000, 1), without_4),
        on("A4 with arc 4 closed", 16, a(5_000, 1_000), without_4),
        on("A5 with arc 4 closed, its only route", 16, a(4_999, 1_000), "refused 10"),
        on("A with arc 1 closed", 2, a(10_000, 1_000), without_1),
        on("A2 with arc 1 closed", 2, a(10_000, 1), stopped),
        on("A with arc 0 closed", 1, a(10_000, 1_000), without_0),
        on("A with arc 3 closed", 8, a(10_000, 1_000), without_3),
        on("A with all closed that leave the source, 0 and 2", 1 + 4, a(10_000, 1_000), "refused 10"),
        on("A with all closed that enter the terminal, 1 and 3", 2 + 8, a(10_000, 1_000), "refused 10"),
        on("A with all closed, however far the reach", 31, a(REACH_MAX, ALLOWANCE_MAX), "refused 10"),
    ]
}

/// Of other meshes: what is left keeps its number and changes its floor, its pair, its steps.
fn closed_elsewhere() -> Vec<Worked> {
    let on = |name, mesh: &str, arcs, request, said| around(name, &from_paper(mesh), set(&[arcs]), request, said);
    let b = request(0, 3, 10_000, 9);
    let within = |reach, allowance| request(0, 1, reach, allowance);
    let one_risk = "0: 0,1,1000,{0,5}; 1: 0,1,2000,{1,5}; 2: 0,1,3000,{2}";
    let detour = "0: 0,2,1000,{0}; 1: 2,1,1000,{1}; 2: 0,1,9000,{2}";
    let later = "0: 0,1,1000,{0}; 1: 0,1,1000,{1}; 2: 0,1,5000,{2}; 3: 0,1,3000,{0}";
    let c_0 = "settled; shared 1; field 2; floor 1; ranked 1; main [1]; standby [1]; total 2000";
    // [0] and [1,4] have the same three risks: [0] with itself shares no more, and is the shortest.
    let b_2 = "settled; shared 3; field 7; floor 3; ranked 1; main [0]; standby [0]; total 2000";
    // [1,4] with risks 0, 1 and 2, [2,3,4] with 1, 2 and 3: 5,000 m is more than twice 2,000.
    let b_0 = "settled; shared 2; field 6; floor 2; ranked 2; main [1,4]; standby [2,3,4]; total 5000";
    // Without the set no risk is on all. Now risk 5 is on both that are left; 3,000 m is more than twice 1,000.
    let risk_5 = "settled; shared 1; field 32; floor 1; ranked 2; main [0]; standby [1]; total 3000";
    // Without the set it is [0,1] twice, 2,000 m each.
    let longer = "settled; shared 1; field 4; floor 1; ranked 1; main [2]; standby [2]; total 18000";
    // Without the set [0] with [1] is settled at once. Now the ranking is [0], [3], [2], 1,000, 3,000 and 5,000 m;
    // [0] with [2] shares nothing, 6,000 m, which is twice 3,000: J is 2.
    let second = "settled; shared 0; floor 0; ranked 2; main [0]; standby [2]; total 6000";
    let first = "stopped; shared 0; floor 0; ranked 1; main [0]; standby [2]; total 6000";
    vec![
        on("C with arc 0 closed", MESH_C, 1, within(10_000, 1_000), c_0),
        on("B with arc 2 closed", MESH_B, 4, b, b_2),
        on("B with arc 0 closed", MESH_B, 1, b, b_0),
        on("a risk on every open route", one_risk, 4, within(10_000, 1_000), risk_5),
        on("both arcs of the shortest way closed, the other at the reach", detour, 3, within(9_000, 1_000), longer),
        on("both arcs of the shortest way closed, the other past the reach", detour, 3, within(8_999, 1), "refused 10"),
        on("a later J", later, 2, within(10_000, 2), second),
        on("a later J, past the allowance", later, 2, within(10_000, 1), first),
    ]
}

/// So many cables from 0 to 1, cable k with risk k modulo 64; those listed are 1,000 m long, the others 3,000 m.
fn cables(count: usize, short: &[usize]) -> Vec<Arc> {
    let metres = |cable| if short.contains(&cable) { 1_000 } else { 3_000 };
    (0..count).map(|k| Arc { tail: 0, head: 1, span: 0, metres: metres(k), risks: 1 << (k % 64) }).collect()
}

/// Which bit of which byte stands for an arc.
fn closed_bits() -> Vec<Worked> {
    let plain = request(0, 1, 10_000, 1_000);
    let on = |name, arcs: &[Arc], closed, said| around(name, arcs, closed, plain, said);
    let (eight, all, even) = (cables(8, &[0, 7]), cables(128, &[8, 120]), cables(128, &[]));
    // One of two short cables is closed; the other with the first of 3,000 m shares nothing. Their 4,000 m is more than
    // twice 1,000, and not more than twice 3,000: J is 2. Closing one that is long would leave the two short ones.
    vec![
        on("arc 0 of 8, the lowest bit", &eight, set(&[1]), "ranked 2; main [7]; standby [1]; total 4000"),
        on("arc 7 of 8, the highest bit", &eight, set(&[128]), "ranked 2; main [0]; standby [1]; total 4000"),
        on("arc 8 of 128", &all, set(&[0, 1]), "ranked 2; main [120]; standby [0]; total 4000"),
        on("arc 120 of 128", &all, set_but(0, 15, &[1]), "ranked 2; main [8]; standby [0]; total 4000"),
        // Two cables of 3,000 m are open, which share nothing, and twice 3,000 is their total: J is 1.
        on("all but 0, 1", &even, set_but(255, 0, &[0xFC]), "ranked 1; main [0]; standby [1]; total 6000"),
        on("all but 10, 13", &even, set_but(255, 1, &[0xDB]), "ranked 1; main [10]; standby [13]; total 6000"),
        on("all but 63, 64", &even, set_but(255, 7, &[0x7F, 0xFE]), "ranked 1; main [63]; standby [64]; total 6000"),
        on("all but 126, 127", &even, set_but(255, 15, &[0x3F]), "ranked 1; main [126]; standby [127]; total 6000"),
        on("all but 127", &even, set_but(255, 15, &[0x7F]), "shared 1; floor 1; ranked 1; main [127]; standby [127]"),
        on("all but 0", &even, set_but(255, 0, &[0xFE]), "shared 1; floor 1; ranked 1; main [0]; standby [0]"),
        on("all of 128", &even, set_but(255, 0, &[]), "refused 10"),
    ]
}

/// A span is one whichever of its arcs are closed, and an arc of it is open where its own bit says so.
fn closed_in_spans() -> Vec<Worked> {
    let on = |name, mesh: &str, arcs, terminal, said| {
        around(name, &from_paper(mesh), set(&[arcs]), request(0, terminal, 10_000, 1_000), said)
    };
    let three = "0: 0,1,500,{3} span 7; 1: 0,1,1000,{0} span 7; 2: 0,1,1000,{1} span 7";
    let four = &format!("{three}; 3: 0,1,3000,{{2}}");
    let mixed = "0: 0,1,500,{0} span 5; 1: 0,1,1000,{0} span 6; 2: 0,1,1000,{0} span 5";
    let both_ways = "0: 0,1,1000,{0,1}; 1: 1,2,1000,{0} span 5; 2: 2,3,1000,{0,1}; \
                     3: 0,2,1000,{2,3}; 4: 2,1,1000,{2} span 5; 5: 1,3,1000,{2,3}";
    // [1] and [2] have span 7 in common, on every route; each with itself its risk as well.
    let in_7 = "settled; shared 1; field 0; spans 1; floor 1; ranked 1; main [1]; standby [2]; total 2000";
    // [3] shares nothing with either, so nothing is on all. 4,000 m is more than twice 1,000: J is N = 3.
    let past_7 = "settled; shared 0; spans 0; floor 0; ranked 3; main [1]; standby [3]; total 4000";
    // [1] and [2] have risk 0 in common, and no span.
    let two = "settled; shared 1; field 1; spans 0; floor 1; ranked 1; main [1]; standby [2]; total 2000";
    // [0,5] and [3,2] 2,000 m with risks 0 to 3, and [3,4,5] 3,000 m with 2 and 3, which are on all: floor 2. [3,4,5]
    // with either shares these; with itself the span as well. 5,000 m is more than twice 2,000: J is N = 3.
    let back = "settled; shared 2; field 12; spans 0; floor 2; ranked 3; main [0,5]; standby [3,4,5]; total 5000";
    // [0,5] and [3,2] share all their risks with each other as with themselves.
    let neither = "settled; shared 4; field 15; spans 0; floor 4; ranked 1; main [0,5]; standby [0,5]; total 4000";
    // [0,1] and [0,3], 2,000 and 2,600 m: risk 7 and spans 8 and 300 are on both.
    let in_8 = "settled; shared 3; field 128; spans 2; floor 3; ranked 2; main [0,1]; standby [0,3]; total 4600";
    vec![
        on("the first arc of a span closed, the others share it", three, 1, 1, in_7),
        on("the first arc of a span closed, another goes round it", four, 1, 1, past_7),
        on("the first arc of one of two spans closed", mixed, 1, 1, two),
        on("one direction closed, the other open", both_ways, 2, 3, back),
        on("both directions closed", both_ways, 2 + 16, 3, neither),
        on("a span on every open route", MESH_RISK_AND_SPAN, 4, 1, in_8),
    ]
}

/// Sets that are none: number 16.
fn sets_that_are_none() -> Vec<Worked> {
    let plain = request(0, 3, 10_000, 1_000);
    let a = |name, closed| around(name, &from_paper(MESH_A), closed, plain, "refused 16");
    let bit_127 = || set_but(0, 15, &[128]);
    vec![
        a("a set of no byte", vec![]),
        a("a set of 15 bytes", vec![0; 15]),
        a("a set of 17 bytes", vec![0; 17]),
        a("a set of 65,552 bytes, 16 in its low 16 bits", vec![0; 65_552]),
        a("a set of 17 bytes, all of them arcs of the table", [set(&[16]), vec![0]].concat()),
        a("arc 5 of 5", set(&[32])),
        a("arc 8 of 5", set(&[0, 1])),
        a("arc 127 of 5", bit_127()),
        a("arcs 0 to 5 of 5", set(&[63])),
        a("all arcs of 5", set_but(255, 0, &[])),
        around("arc 127 of 127", &cables(127, &[]), bit_127(), request(0, 1, 10_000, 1_000), "refused 16"),
        // The short cable is the last, and closed: two of 3,000 m are the first.
        around(
            "arc 127 of 128",
            &cables(128, &[127]),
            bit_127(),
            request(0, 1, 10_000, 1_000),
            "settled; ranked 1; main [0]; standby [1]; total 6000",
        ),
        // Nothing leaves node 3: without a set, or with one, it is 10.
        around("16 before 10", &from_paper(MESH_A), vec![0; 15], request(3, 0, 10_000, 1_000), "refused 16"),
        around("10 behind 16", &from_paper(MESH_A), set(&[31]), request(3, 0, 10_000, 1_000), "refused 10"),
        around("arc 0 of an empty table", &[], set(&[1]), plain, "refused 16"),
        around("no byte with an empty table", &[], vec![], plain, "refused 16"),
    ]
}

/// What is told before 16, of closed arcs too.
fn faults_before_sets() -> Vec<Worked> {
    let plain = request(0, 3, 10_000, 1_000);
    let a = |name, closed, request, said| around(name, &from_paper(MESH_A), closed, request, said);
    let arc = |tail, head, metres| Arc { tail, head, span: 0, metres, risks: 1 };
    let behind_one = |name, faulty, closed, said| around(name, &[arc(0, 3, 5), faulty], closed, plain, said);
    let mut last = cables(128, &[]);
    last[127].metres = METRES_MAX + 1;
    let mut cut = a("a torn table, and 17 bytes", vec![0; 17], plain, "refused 3");
    cut.case.table.truncate(17);
    let mut short = a("a reply buffer of 95 bytes, and no byte", vec![], plain, "refused 4");
    short.case.reply_len = 95;
    vec![
        around("129 arcs, and 15 bytes", &cables(129, &[]), vec![0; 15], plain, "refused 2"),
        cut,
        short,
        a("source 32, and arc 127 of 5", set_but(0, 15, &[128]), request(32, 3, 10_000, 1_000), "refused 5"),
        a("source = terminal, and 15 bytes", vec![0; 15], request(3, 3, 10_000, 1_000), "refused 6"),
        a("a reach too far, and 17 bytes", vec![0; 17], request(0, 3, REACH_MAX + 1, 1_000), "refused 7"),
        a("no allowance, and no byte", vec![], request(0, 3, 10_000, 0), "refused 8"),
        behind_one("a closed arc with node 32", arc(0, 32, 5), set(&[2]), "refused 276"),
        behind_one("a closed arc with equal ends", arc(7, 7, 5), set(&[2]), "refused 277"),
        behind_one("a closed arc, too long", arc(0, 3, METRES_MAX + 1), set(&[2]), "refused 278"),
        behind_one("an arc too long, and 15 bytes", arc(0, 3, METRES_MAX + 1), vec![0; 15], "refused 278"),
        behind_one("an arc too long, and arc 2 of 2", arc(0, 3, METRES_MAX + 1), set(&[4]), "refused 278"),
        behind_one("a closed arc too long, and arc 2 of 2", arc(0, 3, METRES_MAX + 1), set(&[6]), "refused 278"),
        around("all of 128 closed, the last too long", &last, set_but(255, 0, &[]), plain, "refused 32534"),
    ]
}

// ---- Blanks (T-09) ----

/// Which arcs are blank, and which of several is named; wherever it lies.
fn blanks() -> Vec<Worked> {
    let plain = request(0, 1, 10_000, 1_000);
    let on = |name, mesh: &str, said| worked(name, &from_paper(mesh), plain, said);
    let asked = |name, mesh: &str, request, said| worked(name, &from_paper(mesh), request, said);
    let mut last = cables(128, &[]);
    last[127].risks = 0;
    let patched = "0: 0,2,0,{}; 1: 2,1,1000,{0}; 2: 0,1,2000,{1}";
    vec![
        on("a blank behind an arc of 0 metres", "0: 0,1,0,{}; 1: 0,1,1000,{}", "refused 280"),
        on(
            "the lowest of three",
            "0: 0,1,9,{0}; 1: 0,1,0,{}; 2: 0,1,9,{}; 3: 0,1,1,{} span 3; 4: 0,1,5,{}",
            "refused 536",
        ),
        on("the first of two", "0: 0,1,9,{}; 1: 0,1,1,{}", "refused 24"),
        worked("a blank in the last of 128 arcs", &last, plain, "refused 32536"),
        on("a blank beside an arc of the same ends", "0: 0,1,1000,{0}; 1: 0,1,1000,{}", "refused 280"),
        on("one direction of a span blank", "0: 0,1,1000,{0} span 7; 1: 1,0,1000,{} span 7", "refused 280"),
        on("a blank that nothing leads to", "0: 0,1,1000,{0}; 1: 5,6,1000,{}", "refused 280"),
        on("a blank past the reach", "0: 0,1,1000,{0}; 1: 0,1,10001,{}", "refused 280"),
        asked("D2, and no route so short", ARC_D2, request(0, 1, 999, 1_000), "refused 24"),
        asked("D2, and no route to there", ARC_D2, request(0, 2, 10_000, 1_000), "refused 24"),
        asked("D2, and no route back", ARC_D2, request(1, 0, 10_000, 1_000), "refused 24"),
        // [0,1] and [2], 1,000 and 2,000 m, share nothing; 3,000 m is more than twice 1,000: J is N.
        on("an arc of 0 metres on a route", patched, "settled; shared 0; floor 0; ranked 2; main [0,1]; standby [2]"),
        on("E2 in a span", "0: 0,1,0,{} span 7", "settled; shared 1; field 0; spans 1; floor 1; main [0]; standby [0]"),
    ]
}

/// One arc with a single bit of its risk field or of its length, each in turn. One risk is enough, and one bit of a
/// length within 2,000,000 m too much without any; a longer one is told as that.
fn blanks_byte_by_byte() -> Vec<Worked> {
    let far = request(0, 1, REACH_MAX, 1);
    let one = |name, metres, risks, said| worked(name, &[Arc { tail: 0, head: 1, span: 0, metres, risks }], far, said);
    let of_length = |bit| if bit <= 20 { "refused 24" } else { "refused 22" };
    let mut rows: Vec<Worked> =
        (0..64).map(|risk| one("one risk", METRES_MAX, 1 << risk, "settled; shared 1; floor 1; main [0]")).collect();
    rows.extend((0..32).map(|bit| one("one bit of a length, and no risk", 1 << bit, 0, of_length(bit))));
    rows.extend([
        one("2,000,000 m, and no risk", METRES_MAX, 0, "refused 24"),
        one("2,000,001 m, and no risk", METRES_MAX + 1, 0, "refused 22"),
    ]);
    rows
}

/// What is told before a blank: what is wrong with the call, and with any arc, be it the lower or the higher one.
fn blanks_among_faults() -> Vec<Worked> {
    let plain = request(0, 1, 10_000, 1_000);
    let arc = |tail, head, metres, risks| Arc { tail, head, span: 0, metres, risks };
    let blank = arc(0, 1, 1_000, 0);
    let two = |name, first, second, said| worked(name, &[first, second], plain, said);
    let asked = |name, source, terminal, reach, allowance, said| {
        worked(name, &[blank], request(source, terminal, reach, allowance), said)
    };
    let mut torn = worked("a blank, and a torn end", &[blank; 2], plain, "refused 3");
    torn.case.table.truncate(17);
    let mut short = worked("a blank, and a reply buffer of 95 bytes", &[blank], plain, "refused 4");
    short.case.reply_len = 95;
    vec![
        two("a blank before a node 32", blank, arc(32, 1, 5, 1), "refused 276"),
        two("a blank before equal ends", blank, arc(7, 7, 5, 1), "refused 277"),
        two("a blank before a length of 2,000,001 m", blank, arc(0, 1, METRES_MAX + 1, 1), "refused 278"),
        two("a blank behind a node 32", arc(0, 32, 5, 1), blank, "refused 20"),
        two("a blank behind equal ends", arc(7, 7, 5, 1), blank, "refused 21"),
        two("a blank behind a length of 2,000,001 m", arc(0, 1, METRES_MAX + 1, 1), blank, "refused 22"),
        two("a node 32 in a blank behind another", blank, arc(0, 32, 5, 0), "refused 276"),
        two("equal ends in a blank before another", arc(7, 7, 5, 0), blank, "refused 21"),
        worked("129 blanks", &[blank; 129], plain, "refused 2"),
        torn,
        short,
        asked("a blank, and source 32", 32, 1, 10_000, 1_000, "refused 5"),
        asked("a blank, and terminal 32", 0, 32, 10_000, 1_000, "refused 5"),
        asked("a blank, and source = terminal", 1, 1, 10_000, 1_000, "refused 6"),
        asked("a blank, and a reach too far", 0, 1, REACH_MAX + 1, 1_000, "refused 7"),
        asked("a blank, and no allowance", 0, 1, 10_000, 0, "refused 8"),
        asked("a blank, and too much of it", 0, 1, 10_000, ALLOWANCE_MAX + 1, "refused 8"),
    ]
}

/// Mesh A with one arc blank, each in turn: with nothing closed, with that arc closed, with all others, and with all.
fn blanks_in_mesh_a() -> Vec<Worked> {
    let said = ["refused 24", "refused 280", "refused 536", "refused 792", "refused 1048"];
    let mut rows = Vec::new();
    for (place, said) in said.into_iter().enumerate() {
        let mut arcs = from_paper(MESH_A);
        arcs[place].risks = 0;
        let a = |name, closed| around(name, &arcs, set(&[closed]), request(0, 3, 10_000, 1_000), said);
        rows.extend([
            a("A with a blank", 0),
            a("A with a blank, closed", 1 << place),
            a("A with a blank, the others closed", 31 - (1 << place)),
            a("A with a blank, all closed", 31),
        ]);
    }
    rows
}

/// A blank is told of closed arcs too, and before 16 and 10; an arc of 0 metres is none.
fn blanks_before_sets() -> Vec<Worked> {
    let plain = request(0, 1, 10_000, 1_000);
    let on = |name, mesh: &str, closed, said| around(name, &from_paper(mesh), closed, plain, said);
    let two = "0: 0,1,1000,{}; 1: 0,1,1000,{}; 2: 0,1,1000,{2}";
    let patch = "0: 0,1,0,{}; 1: 0,1,1000,{0}";
    let too_long = "0: 0,1,1000,{}; 1: 0,1,2000001,{0}";
    let mut last = cables(128, &[]);
    last[127].risks = 0;
    vec![
        on("D2, closed", ARC_D2, set(&[1]), "refused 24"),
        on("D2, and no byte", ARC_D2, vec![], "refused 24"),
        on("D2, and 15 bytes", ARC_D2, vec![0; 15], "refused 24"),
        on("D2, and 17 bytes", ARC_D2, vec![0; 17], "refused 24"),
        on("D2, and arc 1 of 1", ARC_D2, set(&[2]), "refused 24"),
        on("D2, closed, and arc 1 of 1", ARC_D2, set(&[3]), "refused 24"),
        on("D2, and arc 127 of 1", ARC_D2, set_but(0, 15, &[128]), "refused 24"),
        around("D2, no route and 15 bytes", &from_paper(ARC_D2), vec![0; 15], request(1, 0, 10_000, 9), "refused 24"),
        on("the lower of two blanks closed", two, set(&[1]), "refused 24"),
        on("the higher of two blanks closed", two, set(&[2]), "refused 24"),
        on("both blanks closed", two, set(&[3]), "refused 24"),
        around("the last of 128 blank, and closed", &last, set_but(0, 15, &[128]), plain, "refused 32536"),
        around("the last of 128 blank, and all closed", &last, set_but(255, 0, &[]), plain, "refused 32536"),
        on("a closed blank before an arc too long", too_long, set(&[1]), "refused 278"),
        on("a blank before a closed arc too long", too_long, set(&[2]), "refused 278"),
        on("a blank, an arc too long, and 15 bytes", too_long, vec![0; 15], "refused 278"),
        on("an arc of 0 metres closed", patch, set(&[1]), "settled; shared 1; main [1]; standby [1]; total 2000"),
        on("all but an arc of 0 metres closed", patch, set(&[2]), "settled; shared 0; main [0]; standby [0]; total 0"),
        on("an arc of 0 metres, and 15 bytes", patch, vec![0; 15], "refused 16"),
        on("an arc of 0 metres, and arc 2 of 2", patch, set(&[4]), "refused 16"),
    ]
}

/// The rows of calls without a closed set.
fn without_set() -> Vec<Worked> {
    let mut rows = meshes();
    rows.extend(limits());
    rows.extend(faulty_arcs());
    rows.extend(further());
    rows.extend(one_arc_in_a_span());
    rows.extend(spans_alone());
    rows.extend(spans_again());
    rows.extend(spans_and_risks());
    rows.extend(many_spans());
    rows.extend(short_cuts());
    rows.extend(blanks());
    rows.extend(blanks_byte_by_byte());
    rows.extend(blanks_among_faults());
    rows
}

pub fn all() -> Vec<Worked> {
    let mut rows = without_set();
    rows.extend(with_nothing_closed());
    rows.extend(closed_in_mesh_a());
    rows.extend(closed_elsewhere());
    rows.extend(closed_bits());
    rows.extend(closed_in_spans());
    rows.extend(sets_that_are_none());
    rows.extend(faults_before_sets());
    rows.extend(blanks_in_mesh_a());
    rows.extend(blanks_before_sets());
    rows.extend(apart_cases::all());
    rows
}

/// What a row's case prints, put to the program.
fn text_of(row: &Worked, text: String) -> WorkedText {
    WorkedText { name: row.name, input: row.case.input().expect("small nodes"), text }
}

/// Sixteen spans of 1,999 m in a row, case K's trap: kilometres are rounded once for a route, not for each span.
fn sixteen_spans() -> Vec<Arc> {
    (0..16).map(|node| Arc { tail: node, head: node + 1, span: 0, metres: 1_999, risks: 1 }).collect()
}

/// The arc of 0 metres is without a risk, the others have one.
fn kilometres() -> Vec<WorkedText> {
    let mut rows = Vec::new();
    for (metres, risks, km) in [(0, 0, 0), (1, 1, 1), (1_000, 1, 1), (1_001, 1, 2)] {
        let row = worked("K", &[Arc { tail: 0, head: 1, span: 0, metres, risks }], request(0, 1, 10_000, 1_000), "");
        rows.push(text_of(&row, format!("settled {risks} {risks} 1\nmain {km} 0\nstandby {km} 0\n")));
    }
    let row = worked("K, 31,984 m", &sixteen_spans(), request(0, 16, 31_984, 1_000), "");
    let arcs = "0 1 2 3 4 5 6 7 8 9 10 11 12 13 14 15";
    rows.push(text_of(&row, format!("settled 1 1 1\nmain 32 {arcs}\nstandby 32 {arcs}\n")));
    rows
}

/// Spans and blanks, as the program tells them.
fn one_arc_or_two() -> Vec<WorkedText> {
    let plain = request(0, 1, 10_000, 1_000);
    let on = |name, mesh: &str, text: &str| text_of(&worked(name, &from_paper(mesh), plain, ""), text.to_string());
    vec![
        on("D1 in span 7", "0: 0,1,1000,{0} span 7", "settled 2 2 1\nmain 1 0\nstandby 1 0\n"),
        on("D2", ARC_D2, "refused 24\n"),
        on("D2 in span 7", "0: 0,1,1000,{} span 7", "refused 24\n"),
        on("a blank behind an arc of 0 metres", "0: 0,1,0,{}; 1: 0,1,1000,{}", "refused 280\n"),
    ]
}

fn program_refusals(a1: &[u8]) -> Vec<WorkedText> {
    let changed = |name, place: usize, text: &str| {
        let mut input = a1.to_vec();
        input[place] = 1;
        WorkedText { name, input, text: text.to_string() }
    };
    let cut = |name, bytes: usize, text: &str| WorkedText { name, input: a1[..bytes].to_vec(), text: text.to_string() };
    let mut long = changed("spare request bytes before an oversize table", 15, "refused 12\n");
    long.input.resize(5_000, 0);
    vec![
        cut("no input", 0, "refused 12\n"),
        cut("15 bytes of input", 15, "refused 12\n"),
        cut("a request alone", 16, "refused 10\n"),
        cut("a torn arc", 17, "refused 3\n"),
        changed("request byte 2", 2, "refused 12\n"),
        changed("request byte 3", 3, "refused 12\n"),
        changed("request byte 12", 12, "refused 12\n"),
        changed("request byte 15", 15, "refused 12\n"),
        long,
        WorkedText {
            name: "arc 21 a metre too long",
            input: arc_21_too_long().input().expect("small nodes"),
            text: "refused 5398\n".to_string(),
        },
    ]
}

pub fn all_texts() -> Vec<WorkedText> {
    let a1 = meshes()[0].case.input().expect("small nodes");
    let text = "settled 0 0 2\nmain 5 0 1\nstandby 5 2 3\n".to_string();
    let mut rows = vec![WorkedText { name: "A1", input: a1.clone(), text }];
    rows.extend(one_arc_or_two());
    rows.extend(kilometres());
    rows.extend(program_refusals(&a1));
    rows
}

/// Holds the listing to every row; returns how many rows there are, or what is wrong.
pub fn hold_listing() -> Result<usize, String> {
    let (rows, texts) = (all(), all_texts());
    for row in &rows {
        let facts = answer(&row.case).facts();
        for said in row.said.split("; ") {
            if !facts.iter().any(|fact| fact == said) {
                let entry = match (row.case.apart, &row.case.closed) {
                    (true, _) => ", apart",
                    (false, Some(_)) => ", with a closed set",
                    (false, None) => "",
                };
                return Err(format!("{}{entry}: `{said}` is said, the listing gives {}", row.name, facts.join("; ")));
            }
        }
    }
    for row in &texts {
        let text = printed(&answer_to_input(&row.input));
        if text != row.text {
            return Err(format!("{}: the text is to be\n{}the listing gives\n{text}", row.name, row.text));
        }
    }
    let (case, reply) = reply_by_hand();
    let given = answer(&case).buffer_after(vec![0; REPLY_BYTES]);
    if given != reply {
        return Err(format!("by hand the reply is\n{reply:?}\nthe listing gives\n{given:?}"));
    }
    Ok(rows.len() + texts.len() + 1)
}
