//! Rows worked by hand for pairs that meet in no node between the ends (T-05).

use crate::cases::{request, set, worked, Worked, ARC_D1, ARC_D2, ARC_E2, MESH_A, MESH_B, MESH_C};
use crate::listing::{ALLOWANCE_MAX, REACH_MAX};
use crate::mesh::{from_paper, Arc, Request};

fn apart(name: &'static str, arcs: &[Arc], closed: Vec<u8>, request: Request, said: &'static str) -> Worked {
    let mut row = worked(name, arcs, request, said);
    row.case.closed = Some(closed);
    row.case.apart = true;
    row
}

/// From node 0 to node 1 with a reach of 10,000, nothing closed.
fn plain(name: &'static str, mesh: &str, allowance: u32, said: &'static str) -> Worked {
    apart(name, &from_paper(mesh), set(&[]), request(0, 1, 10_000, allowance), said)
}

/// Of mesh A, whose routes are [0,4,3] by nodes 1 and 2, 3,000 m, [0,1] by node 1 and [2,3] by node 2, 5,000 m each. Only
/// the last two are apart.
fn in_mesh_a() -> Vec<Worked> {
    let a = |name, closed, reach, allowance, said| {
        apart(name, &from_paper(MESH_A), set(&[closed]), request(0, 3, reach, allowance), said)
    };
    let a1 = "settled; shared 0; floor 0; ranked 2; main [0,1]; standby [2,3]; total 10000";
    let without_4 = "settled; shared 0; floor 0; ranked 1; main [0,1]; standby [2,3]; total 10000";
    vec![
        a("A1", 0, 10_000, 1_000, a1),
        a("A2, the main meets both others", 0, 10_000, 1, "refused 15"),
        a("A3", 0, 10_000, 2, a1),
        a("A4", 0, 5_000, 1_000, a1),
        a("A4, one main tried", 0, 5_000, 1, "refused 15"),
        a("A5, one route", 0, 4_999, 1_000, "refused 14"),
        a("A5, one route and one main", 0, 4_999, 1, "refused 14"),
        a("A6, one metre less", 0, 2_999, 1_000, "refused 10"),
        a("A with arc 4 closed", 16, 10_000, 1_000, without_4),
        a("A with arc 4 closed, one main tried", 16, 10_000, 1, without_4),
        // [0,4,3] and [2,3] are left, and meet in node 2.
        a("A with arc 1 closed", 2, 10_000, 1_000, "refused 14"),
        a("A with arc 1 closed, allowance N", 2, 10_000, 2, "refused 14"),
        a("A with arc 1 closed, allowance N - 1", 2, 10_000, 1, "refused 15"),
        a("A with arc 0 closed", 1, 10_000, 1_000, "refused 14"),
        a("A with arcs 0 and 2 closed", 5, 10_000, 1_000, "refused 10"),
        a("A with arc 5 of 5 closed", 32, 10_000, 1_000, "refused 16"),
    ]
}

/// Of the other meshes of 01.
fn in_01() -> Vec<Worked> {
    let b = |name, closed, allowance, said| {
        apart(name, &from_paper(MESH_B), set(&[closed]), request(0, 3, 10_000, allowance), said)
    };
    let c_0 = apart("C with arc 0 closed", &from_paper(MESH_C), set(&[1]), request(0, 1, 10_000, 9), "refused 14");
    vec![
        // [0] meets no node between the ends, and so is apart from both others.
        b("B1", 0, 9, "settled; main [0]; standby [2,3,4]; shared 2; field 6; floor 2; ranked 2; total 4000"),
        b("B, one main tried", 0, 1, "stopped; main [0]; standby [2,3,4]; shared 2; floor 2; ranked 1; total 4000"),
        // [1,4] and [2,3,4] are left, and take the same last arc.
        b("B with arc 0 closed", 1, 9, "refused 14"),
        b("B with arc 0 closed, one main tried", 1, 1, "refused 15"),
        plain("C1", MESH_C, 1_000, "settled; main [0]; standby [1]; shared 0; ranked 1"),
        c_0,
        plain("D1, an arc with itself", ARC_D1, 1_000, "refused 14"),
        plain("D1, one main tried", ARC_D1, 1, "refused 14"),
        plain("D2, blank before there is no pair", ARC_D2, 1_000, "refused 24"),
        apart("E1", &[], set(&[]), request(0, 1, 10_000, 1_000), "refused 10"),
        apart("E2", &from_paper(ARC_E2), set(&[]), request(0, 1, 0, 1_000), "refused 14"),
    ]
}

/// Arcs from the source to the terminal.
fn one_arc_each() -> Vec<Worked> {
    // Risk 0 is on both. [0] twice would be 2,000 m; [0] with [1] is 3,000 m, more than twice 1,000: J is N.
    let two = "0: 0,1,1000,{0}; 1: 0,1,2000,{0}";
    let two_lengths = "settled; shared 1; floor 1; ranked 2; main [0]; standby [1]; total 3000";
    let equal = "0: 0,1,5,{0}; 1: 0,1,5,{0}; 2: 0,1,5,{0}";
    // [0] 1,000 m and [1,2] 9,999 m by node 2.
    let detour = |name, reach, allowance, said| {
        let arcs = from_paper("0: 0,1,1000,{0}; 1: 0,2,5000,{0}; 2: 2,1,4999,{0}");
        apart(name, &arcs, set(&[]), request(0, 1, reach, allowance), said)
    };
    let long_way = "settled; shared 1; floor 1; ranked 2; main [0]; standby [1,2]; total 10999";
    // Two cables in one trench are two arcs, and their span is shared.
    let trench = "0: 0,1,1000,{0} span 7; 1: 0,1,1000,{1} span 7";
    let in_trench = "settled; shared 1; field 0; spans 1; floor 1; ranked 1; main [0]; standby [1]; total 2000";
    // By node 2 another way shares neither; 5,000 m is more than twice 2,000, and the third route is the last.
    let past_trench = "0: 0,1,1000,{1} span 7; 1: 0,1,2000,{2} span 7; 2: 0,2,2000,{0} span 8; 3: 2,1,2000,{0}";
    let past_it = "settled; shared 0; spans 0; floor 0; ranked 3; main [0]; standby [2,3]; total 5000";
    vec![
        plain("two cables, one of them twice is shorter", two, 1_000, two_lengths),
        plain("two cables, one main tried", two, 1, "stopped; shared 1; ranked 1; main [0]; standby [1]; total 3000"),
        plain("three cables alike", equal, 1_000, "settled; shared 1; ranked 1; main [0]; standby [1]; total 10"),
        plain("two cables in one span", trench, 1_000, in_trench),
        plain("two cables in one span, and another way", past_trench, 1_000, past_it),
        detour("an arc and a way round", 9_999, 1_000, long_way),
        detour("an arc and a way round past the reach", 9_998, 1_000, "refused 14"),
    ]
}

/// Two cables to node 2 and two on from there, 1 m each with a risk of its own, and a cable past it with three of these.
const MESH_NODE: &str = "0: 0,2,1,{0}; 1: 0,2,1,{1}; 2: 2,1,1,{2}; 3: 2,1,1,{3}; 4: 0,1,9,{0,1,2}";

/// By node 2 to node 3 twice, 3 m each; by node 2 alone, 6 m; by node 3 alone, 7 m.
const MESH_LATE: &str = "0: 0,2,1,{0}; 1: 2,3,1,{1}; 2: 2,3,1,{2}; 3: 3,1,1,{3}; 4: 2,1,5,{4}; 5: 0,3,6,{5}";

/// By node 2 alone [3,4] 2 m and [0,4] 11 m, by node 3 alone [5,6] 4 m and [5,2] 12 m, by both [3,1,6] 13 m, [3,1,2] 21 m,
/// [0,1,6] 22 m and [0,1,2] 30 m. Risk 0 is on all but the last.
const MESH_FLOOR: &str = "0: 0,2,10,{1}; 1: 2,3,10,{1}; 2: 3,1,10,{1}; \
                          3: 0,2,1,{0}; 4: 2,1,1,{0}; 5: 0,3,2,{0}; 6: 3,1,2,{0}";

/// Routes that meet.
fn meeting() -> Vec<Worked> {
    let within = |name, mesh: &str, reach, allowance, said| {
        apart(name, &from_paper(mesh), set(&[]), request(0, 1, reach, allowance), said)
    };
    let any = |name, mesh: &str, said| worked(name, &from_paper(mesh), request(0, 1, 10_000, 1_000), said);
    let both_ways = "0: 0,1,1000,{0,1}; 1: 1,2,1000,{0} span 5; 2: 2,3,1000,{0,1}; \
                     3: 0,2,1000,{2,3}; 4: 2,1,1000,{2} span 5; 5: 1,3,1000,{2,3}";
    let straight = "settled; shared 4; field 15; spans 0; floor 0; ranked 4; main [0,5]; standby [3,2]; total 4000";
    let two_spans = "0: 0,2,1000,{0} span 9; 1: 2,1,1000,{1}; 2: 0,3,1000,{2} span 9; 3: 3,1,1000,{3}";
    let one_trench = "settled; shared 1; field 0; spans 1; floor 1; ranked 1; main [0,1]; standby [2,3]; total 4000";
    let first = "stopped; shared 2; field 5; floor 0; ranked 1; main [0,2]; standby [4]; total 11";
    let second = "stopped; shared 1; field 1; floor 0; ranked 2; main [0,3]; standby [4]; total 11";
    let last = "settled; shared 1; field 1; floor 0; ranked 5; main [0,3]; standby [4]; total 11";
    let late = "stopped; shared 0; floor 0; ranked 3; main [0,4]; standby [5,3]; total 13";
    let late_last = "settled; shared 0; floor 0; ranked 4; main [0,4]; standby [5,3]; total 13";
    let over_floor = "settled; shared 1; field 1; floor 0; ranked 8; main [3,4]; standby [5,6]; total 6";
    let at_floor = "settled; shared 1; field 1; floor 1; ranked 2; main [3,4]; standby [5,6]; total 6";
    vec![
        // [0,2] with [1,3] shares nothing, 4 m, and meets in node 2. Each of the four by node 2 is apart from [4] alone:
        // with [0,2] it shares risks 0 and 2, with [0,3] risk 0, and [1,2] and [1,3] come behind. None is on all: J is N.
        any("any pair, one that meets in node 2", MESH_NODE, "shared 0; ranked 1; main [0,2]; standby [1,3]; total 4"),
        plain("a pair that meets in a node is out", MESH_NODE, 1_000, last),
        plain("that node, one main tried", MESH_NODE, 1, first),
        plain("that node, two mains tried", MESH_NODE, 2, second),
        plain("that node, all tried", MESH_NODE, 5, last),
        within("that node on every route", MESH_NODE, 8, 4, "refused 14"),
        within("that node on every route, one less than all tried", MESH_NODE, 8, 3, "refused 15"),
        // The first two mains meet nodes 2 and 3, and so every route. 13 m is more than twice 6: J is N.
        plain("the third main is the first with a standby, one tried", MESH_LATE, 1, "refused 15"),
        plain("the third main is the first with a standby, two tried", MESH_LATE, 2, "refused 15"),
        plain("the third main is the first with a standby, three tried", MESH_LATE, 3, late),
        plain("the third main is the first with a standby, all tried", MESH_LATE, 4, late_last),
        within("without its standby, three tried", MESH_LATE, 6, 3, "refused 14"),
        within("without its standby, two tried", MESH_LATE, 6, 2, "refused 15"),
        plain("one node on both routes", "0: 0,2,1,{0}; 1: 0,2,2,{1}; 2: 2,1,1,{2}", 2, "refused 14"),
        plain("one node on both routes, one tried", "0: 0,2,1,{0}; 1: 0,2,2,{1}; 2: 2,1,1,{2}", 1, "refused 15"),
        // Every pair apart shares risk 0, and no pair has to: the floor is 0, and only the last main settles. Of any
        // pairs [3,4] with [0,1,2] shares nothing, 32 m; route 6 of 21 m is the first that is half as long.
        any(
            "any pair, one that meets",
            MESH_FLOOR,
            "shared 0; floor 0; ranked 6; main [3,4]; standby [0,1,2]; total 32",
        ),
        plain("the floor is that of all routes", MESH_FLOOR, 1_000, over_floor),
        within("the floor of all routes within 29 m", MESH_FLOOR, 29, 1_000, at_floor),
        plain("a span on two that meet nowhere", two_spans, 1_000, one_trench),
        // [0,1,2] and [3,4,5] share the span alone, and meet in nodes 1 and 2, one the other way round.
        apart("a span both ways", &from_paper(both_ways), set(&[]), request(0, 3, 10_000, 1_000), straight),
        // [1,3] with [2] shares risk 0. What is in its way are nodes, not risks, and [2] has no such node.
        apart(
            "a bound kept without the nodes that were in the way",
            &from_paper("0: 1,2,5,{9}; 1: 0,1,2,{1,2}; 2: 0,2,3,{0}; 3: 1,2,1,{0,3}"),
            set(&[]),
            request(0, 2, 10_000, 2),
            "stopped; shared 0; floor 0; ranked 2; main [2]; standby [1,0]; total 10",
        ),
    ]
}

/// Routes through the first and the last node, and as long as they can be.
fn nodes() -> Vec<Worked> {
    let arc = |tail, head, metres, risk: u32| Arc { tail, head, span: 0, metres, risks: 1 << risk };
    let far = |source, terminal| request(source, terminal, REACH_MAX, ALLOWANCE_MAX);
    let by = |name, one, other, said| {
        let arcs = [arc(5, one, 1, 0), arc(one, 6, 1, 1), arc(5, other, 1, 2), arc(other, 6, 1, 3)];
        apart(name, &arcs, set(&[]), far(5, 6), said)
    };
    let two = "settled; shared 0; ranked 1; main [0,1]; standby [2,3]; total 4";
    let chain = |straight| {
        let mut arcs: Vec<Arc> = (0..31).map(|node| arc(31 - node, 30 - node, 1, 0)).collect();
        arcs.push(arc(31, 0, straight, 0));
        arcs
    };
    // 31 m over all nodes, and 40 or 5 m past them; either total is more than twice the shorter: J is N.
    let over_all = "settled; shared 1; floor 1; ranked 2; standby [31]; total 71; \
                    main [0,1,2,3,4,5,6,7,8,9,10,11,12,13,14,15,16,17,18,19,20,21,22,23,24,25,26,27,28,29,30]";
    let past_all = "settled; shared 1; floor 1; ranked 2; main [31]; total 36; \
                    standby [0,1,2,3,4,5,6,7,8,9,10,11,12,13,14,15,16,17,18,19,20,21,22,23,24,25,26,27,28,29,30]";
    // From node 0 by 1 to 15 and by 16 to 30 to node 31: 16 m each.
    let strand = |first: u8, risk| {
        let nodes = [&[0], &(first..first + 15).collect::<Vec<u8>>()[..], &[31]].concat();
        nodes.windows(2).map(|hop| arc(hop[0], hop[1], 1, risk)).collect::<Vec<Arc>>()
    };
    let strands = [strand(1, 1), strand(16, 2)].concat();
    let all_nodes = "settled; shared 0; ranked 1; total 32; main [0,1,2,3,4,5,6,7,8,9,10,11,12,13,14,15]; \
                     standby [16,17,18,19,20,21,22,23,24,25,26,27,28,29,30,31]";
    vec![
        by("nodes 0 and 31 between", 0, 31, two),
        by("node 0 on both routes", 0, 0, "refused 14"),
        by("node 31 on both routes", 31, 31, "refused 14"),
        apart("a main over all nodes", &chain(40), set(&[]), far(31, 0), over_all),
        apart("a standby over all nodes", &chain(5), set(&[]), far(31, 0), past_all),
        apart("all nodes on one route or the other", &strands, set(&[]), far(0, 31), all_nodes),
    ]
}

/// What is told before 14 and 15.
fn told_before() -> Vec<Worked> {
    let d1 = |name, request, closed, said| apart(name, &from_paper(ARC_D1), closed, request, said);
    let ask = |reach, allowance| request(0, 1, reach, allowance);
    let mut short = d1("D1, and a reply buffer of 95 bytes", ask(10_000, 9), set(&[]), "refused 4");
    short.case.reply_len = 95;
    let mut torn = d1("D1, and a torn end", ask(10_000, 9), set(&[]), "refused 3");
    torn.case.table.push(0);
    vec![
        short,
        torn,
        d1("D1, and source 32", request(32, 1, 10_000, 9), set(&[]), "refused 5"),
        d1("D1, and source = terminal", request(1, 1, 10_000, 9), set(&[]), "refused 6"),
        d1("D1, and a reach too far", ask(REACH_MAX + 1, 9), set(&[]), "refused 7"),
        d1("D1, and no allowance", ask(10_000, 0), set(&[]), "refused 8"),
        d1("D1, and 15 bytes", ask(10_000, 9), vec![0; 15], "refused 16"),
        d1("D1, and no byte", ask(10_000, 9), vec![], "refused 16"),
        d1("D1, and arc 1 of 1", ask(10_000, 9), set(&[2]), "refused 16"),
        d1("D1, closed", ask(10_000, 9), set(&[1]), "refused 10"),
        d1("D1, past the reach", ask(999, 9), set(&[]), "refused 10"),
        plain("equal ends beside one route", "0: 0,1,1000,{0}; 1: 7,7,5,{0}", 9, "refused 277"),
        plain("a blank beside one route", "0: 0,1,1000,{0}; 1: 7,8,5,{}", 9, "refused 280"),
    ]
}

pub fn all() -> Vec<Worked> {
    let mut rows = in_mesh_a();
    rows.extend(in_01());
    rows.extend(one_arc_each());
    rows.extend(meeting());
    rows.extend(nodes());
    rows.extend(told_before());
    rows
}
