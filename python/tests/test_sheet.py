"""Answers as text: the lines of `routes`, the sheets in words, and the least reach that would be better."""

import random
import unittest
from collections import Counter
from dataclasses import replace

from feshangul import answer, sheet, text, why

from .shared import A_SHEET, EXAMPLES, example, routes, small_mesh


def planned(written, **change):
    """The answer to the only request of a mesh, with some of its fields changed."""
    mesh = text.read(written, "mesh")
    (request,) = mesh.requests
    return answer.plan(mesh, replace(request, **change))


class Lines(unittest.TestCase):
    def test_an_example_gives_the_lines_of_its_comment(self):
        for path in sorted(EXAMPLES.glob("*.txt")):
            with self.subTest(path.name):
                comment = [line[3:] for line in example(path.name).splitlines() if line.startswith("#> ")]
                self.assertEqual(sheet.lines(planned(example(path.name))).splitlines(), comment)

    def test_a_refusal_is_one_line(self):
        self.assertEqual(sheet.lines(planned(example("A.txt"), reach=2999)), "refused 10\n")


# ---- whole sheets ----

K = "from 0 to 16 reach 40000 allowance 1\n" + "".join(f"{n}: {n},{n + 1},1999,{{63}}\n" for n in range(16))

K_SHEET = """\
From node 0 to node 16, each route within 40,000 m.
Settled after 1 main: no pair within this reach shares fewer, and none that shares as few is shorter. \
No larger allowance changes this pair.
Shared by both routes: 1 risk: risk 63; no known span.
On every route within this reach, and so in every pair: 1 risk: risk 63; no known span.
Both routes pass 15 sites (node 1, node 2, node 3, node 4, node 5, node 6, node 7, node 8, node 9, node 10, node 11, \
node 12, node 13, node 14, node 15) and 16 arcs of no known span, which are not counted (arc 0, arc 1, arc 2, arc 3, arc 4, \
arc 5, arc 6, arc 7, arc 8, arc 9, arc 10, arc 11, arc 12, arc 13, arc 14, arc 15).
Main: 31,984 m, 32 km: node 0, node 1, node 2, node 3, node 4, node 5, node 6, node 7, node 8, node 9, node 10, node 11, \
node 12, node 13, node 14, node 15, node 16.
  node 0 to node 1: 1,999 m by arc 0; risk 63
  node 1 to node 2: 1,999 m by arc 1; risk 63
  node 2 to node 3: 1,999 m by arc 2; risk 63
  node 3 to node 4: 1,999 m by arc 3; risk 63
  node 4 to node 5: 1,999 m by arc 4; risk 63
  node 5 to node 6: 1,999 m by arc 5; risk 63
  node 6 to node 7: 1,999 m by arc 6; risk 63
  node 7 to node 8: 1,999 m by arc 7; risk 63
  node 8 to node 9: 1,999 m by arc 8; risk 63
  node 9 to node 10: 1,999 m by arc 9; risk 63
  node 10 to node 11: 1,999 m by arc 10; risk 63
  node 11 to node 12: 1,999 m by arc 11; risk 63
  node 12 to node 13: 1,999 m by arc 12; risk 63
  node 13 to node 14: 1,999 m by arc 13; risk 63
  node 14 to node 15: 1,999 m by arc 14; risk 63
  node 15 to node 16: 1,999 m by arc 15; risk 63
Standby: the same route once more; it fails with the main.
Together 63,968 m.
"""

# The shorter two routes are the best pair already, but only the second main shows that nothing shorter shares as few.
HALL = """\
site A "Aachen"
site B "Bonn"
risk EIFEL "Eifel duct"
risk RHINE
risk HALL "Exchange hall"
span A B 70km EIFEL,HALL "Upper line"
span B A 95.5km RHINE,HALL
arc A B 99km RHINE,HALL
request A B reach 100km allowance 1
"""

# Any two routes share two risks, and one of them is on all three.
TRIANGLE = "from 0 to 1 reach 100 allowance 1000\n0: 0,1,10,{0,1,9}\n1: 0,1,20,{1,2,9}\n2: 0,1,30,{0,2,9}\n"

# Two spans between A and B, and between C and D; the one between B and C has a title, and so has the longer one to D.
PARALLEL = """\
site A
site B "Bonn"
site C
site D
risk R
risk S
risk T
risk U
risk V
span A B 5km S
span B A 6km T
span B C 1km R "Rhine bridge"
span D C 2km U
span C D 3km V "Harbour"
request D A reach 20km
"""


# Two cables from A to B in one trench, and a third way by C, of which one cable lies in a trench alone.
TRENCHES = """\
site A
site B "Bonn"
site C
risk N
risk S
risk H
risk R
trench AHR "Ahr valley"
trench HILLS
span A B 70km N in AHR
span A B 72km S in AHR
span A C 60km H in HILLS
span C B 60km R
request A B reach 500km
"""

# After the first arc, a patch of 0 m, three routes, of which any two share one risk more; what stands in the braces is a risk of
# the patch, or nothing.
FAN = """\
from 0 to 2 reach 100 allowance 9
0: 0,1,0,{{{}}} span 5
1: 1,2,10,{{0,1}} span 11
2: 1,2,20,{{1,2}} span 12
3: 1,2,30,{{0,2}} span 13
"""

# After the first arc, a patch with no risk, three routes, of which any two cross one span more.
WHEEL = """\
from 0 to 5 reach 100 allowance 9
0: 0,1,0,{} span 5
1: 1,2,1,{1} span 1
2: 2,5,1,{2} span 2
3: 1,3,2,{3} span 2
4: 3,5,2,{4} span 3
5: 1,4,3,{5} span 3
6: 4,5,3,{6} span 1
"""


# One route, which shares with itself the most that there can be: 64 risks and 31 spans.
MOST = "from 0 to 31 reach 31 allowance 1\n" + "".join(
    f"{n}: {n},{n + 1},1,{text.braced(range(64))} span {n + 1}\n" for n in range(31)
)


class Sheets(unittest.TestCase):
    maxDiff = None

    def assert_sheet(self, expected, written, **change):
        self.assertEqual(sheet.words(planned(written, **change)), expected)

    def test_a1_is_settled_with_nothing_shared(self):
        self.assert_sheet(A_SHEET, example("A.txt"))

    def test_a2_is_stopped_over_the_floor(self):
        self.assert_sheet(
            """\
From node 0 to node 3, each route within 10,000 m.
Stopped after 1 main, which is the allowance: a larger one may find a pair that shares fewer, 0 at best, \
or as few at less length. A larger allowance never gives a worse pair.
Shared by both routes: 1 risk: risk 0; no known span.
On every route within this reach: no risk and no known span.
Both routes pass 1 site (node 1) and 1 arc of no known span, which is not counted (arc 0).
Main: 3,000 m, 3 km: node 0, node 1, node 2, node 3.
  node 0 to node 1: 1,000 m by arc 0; risk 0
  node 1 to node 2: 1,000 m by arc 4; risk 4
  node 2 to node 3: 1,000 m by arc 3; risk 3
Standby: 5,000 m, 5 km: node 0, node 1, node 3.
  node 0 to node 1: 1,000 m by arc 0; risk 0
  node 1 to node 3: 4,000 m by arc 1; risk 1
Together 8,000 m.
""",
            example("A.txt"),
            allowance=1,
        )

    def test_a5_has_one_route_twice_with_three_risks_shared(self):
        self.assert_sheet(
            """\
From node 0 to node 3, each route within 4,999 m.
Settled after 1 main: no pair within this reach shares fewer, and none that shares as few is shorter. \
No larger allowance changes this pair.
Shared by both routes: 3 risks: risk 0, risk 3, risk 4; no known span.
On every route within this reach, and so in every pair: 3 risks: risk 0, risk 3, risk 4; no known span.
Both routes pass 2 sites (node 1, node 2) and 3 arcs of no known span, which are not counted (arc 0, arc 4, arc 3).
Main: 3,000 m, 3 km: node 0, node 1, node 2, node 3.
  node 0 to node 1: 1,000 m by arc 0; risk 0
  node 1 to node 2: 1,000 m by arc 4; risk 4
  node 2 to node 3: 1,000 m by arc 3; risk 3
Standby: the same route once more; it fails with the main.
Together 6,000 m.
""",
            example("A.txt"),
            reach=4999,
        )

    def test_d1_is_the_same_route_twice(self):
        self.assert_sheet(
            """\
From node 0 to node 1, each route within 10,000 m.
Settled after 1 main: no pair within this reach shares fewer, and none that shares as few is shorter. \
No larger allowance changes this pair.
Shared by both routes: 1 risk: risk 0; no known span.
On every route within this reach, and so in every pair: 1 risk: risk 0; no known span.
Both routes pass 1 arc of no known span, which is not counted (arc 0).
Main: 1,000 m, 1 km: node 0, node 1.
  node 0 to node 1: 1,000 m by arc 0; risk 0
Standby: the same route once more; it fails with the main.
Together 2,000 m.
""",
            example("D.txt"),
        )

    def test_e2_is_the_same_route_of_0_metres_twice_with_no_risk(self):
        self.assert_sheet(
            """\
From node 0 to node 1, each route within 0 m.
Settled after 1 main: no pair within this reach shares fewer, and none that shares as few is shorter. \
No larger allowance changes this pair.
Shared by both routes: no risk and no known span.
On every route within this reach: no risk and no known span.
Both routes pass 1 arc of no known span, which is not counted (arc 0).
Main: 0 m, 0 km: node 0, node 1.
  node 0 to node 1: 0 m by arc 0; no risk
Standby: the same route once more; it fails with the main.
Together 0 m.
""",
            example("E.txt"),
        )

    def test_case_k_rounds_sixteen_spans_of_1999_m_once_to_32_km(self):
        self.assert_sheet(K_SHEET, K)

    def test_a_refusal_is_told_with_its_number(self):
        self.assert_sheet(
            """\
From node 0 to node 3, each route within 2,999 m.
Refused, number 10: no route from source to terminal is within reach.
""",
            example("A.txt"),
            reach=2999,
        )

    def test_a_refusal_for_an_arc_is_told_with_its_line_and_what_mends_it(self):
        self.assert_sheet(
            """\
From node 0 to node 1, each route within 10 m.
Refused, number 277: arc 1, line 3: both ends are node 7.
`feshangul mend` takes such arcs out.
""",
            "from 0 to 1 reach 10 allowance 1\n0: 0,1,5,{}\n1: 7,7,5,{}\n",
        )

    def test_what_mends_each_fault_of_an_arc_is_told(self):
        for arc in ("32,1,5,{}", "7,7,5,{}", "0,1,2000001,{}"):
            with self.subTest(arc):
                found = planned(f"from 0 to 1 reach 10 allowance 1\n0: {arc}\n")
                self.assertEqual(sheet.words(found).splitlines()[2:], ["`feshangul mend` takes such arcs out."])

    def test_europe_within_1649_km_shares_the_rhine_bridge(self):
        found = planned(example("europe.txt"), reach=1_649_000)
        self.assertEqual(
            sheet.words(found) + why.words(found),
            """\
From London (LON) to Vienna (VIE), each route within 1,649,000 m.
Settled after 3 mains: no pair within this reach shares fewer, and none that shares as few is shorter. \
No larger allowance changes this pair.
Shared by both routes: 1 risk: Rhine bridge (RHINE); no span.
On every route within this reach, and so in every pair: 1 risk: Rhine bridge (RHINE); no span.
Both routes pass 1 site (Frankfurt (FRA)).
Main: 1,608,100 m, 1,609 km: London, Brussels, Frankfurt, Munich, Vienna.
  LON to BRU: 372,400 m by LON-BRU, arc 2; CHT, BEL
  BRU to FRA: 398,700 m by BRU-FRA, arc 10; BEL, RHINE
  FRA to MUN: 401,500 m by FRA-MUN, arc 16; MDOOR
  MUN to VIE: 435,500 m by MUN-VIE, arc 18; DANUBE
Standby: 1,648,675 m, 1,649 km: London, Amsterdam, Frankfurt, Vienna.
  LON to AMS: 481,250 m by LON-AMS, arc 4; NSEA
  AMS to FRA: 442,300 m by AMS-FRA, arc 12; RHINE
  FRA to VIE: 725,125 m by FRA-VIE, arc 20; BOHEMIA
Together 3,256,775 m.
The least reach at which fewer are shared is 1,702,050 m, 53,050 m more: 0 then.
""",
        )

    def test_a_pair_stopped_with_the_floor_met_can_only_get_shorter(self):
        self.assert_sheet(
            """\
From Aachen (A) to Bonn (B), each route within 100,000 m.
Stopped after 1 main, which is the allowance: no pair within this reach shares fewer; only the length could still get better. \
A larger allowance never gives a worse pair.
Shared by both routes: 1 risk: Exchange hall (HALL); no span.
On every route within this reach, and so in every pair: 1 risk: Exchange hall (HALL); no span.
Between the ends they pass no common site.
Main: 70,000 m, 70 km: Aachen, Bonn.
  A to B: 70,000 m by Upper line (A-B), arc 0; EIFEL, HALL
Standby: 95,500 m, 96 km: Aachen, Bonn.
  A to B: 95,500 m by B-A no. 2, arc 3; RHINE, HALL
Together 165,500 m.
""",
            HALL,
        )

    def test_a_pair_settled_over_the_floor_has_tried_every_route(self):
        self.assert_sheet(
            """\
From node 0 to node 1, each route within 100 m.
Settled after 3 mains: every route within this reach has been tried as main. No larger allowance changes this pair.
Shared by both routes: 2 risks: risk 1, risk 9; no known span.
On every route within this reach, and so in every pair: 1 risk.
Between the ends they pass no common site.
Main: 10 m, 1 km: node 0, node 1.
  node 0 to node 1: 10 m by arc 0; risk 0, risk 1, risk 9
Standby: 20 m, 1 km: node 0, node 1.
  node 0 to node 1: 20 m by arc 1; risk 1, risk 2, risk 9
Together 30 m.
""",
            TRIANGLE,
        )

    def test_spans_are_called_by_title_or_ends_and_parallel_ones_are_told_apart(self):
        self.assert_sheet(
            """\
From D to A, each route within 20,000 m.
Settled after 2 mains: no pair within this reach shares fewer, and none that shares as few is shorter. \
No larger allowance changes this pair.
Shared by both routes: 1 risk: R; 1 span: Rhine bridge (B-C).
On every route within this reach, and so in every pair: 1 risk: R; 1 span: Rhine bridge (B-C).
Both routes pass 2 sites (C, Bonn (B)).
Main: 8,000 m, 8 km: D, C, Bonn, A.
  D to C: 2,000 m by D-C no. 1, arc 6; U
  C to B: 1,000 m by Rhine bridge (B-C), arc 5; R
  B to A: 5,000 m by A-B no. 1, arc 1; S
Standby: 10,000 m, 10 km: D, C, Bonn, A.
  D to C: 3,000 m by Harbour (C-D), arc 9; V
  C to B: 1,000 m by Rhine bridge (B-C), arc 5; R
  B to A: 6,000 m by B-A no. 2, arc 2; T
Together 18,000 m.
""",
            PARALLEL,
        )

    def test_several_spans_are_told_in_the_mains_order(self):
        found = sheet.words(planned(PARALLEL, reach=8000)).splitlines()
        shared = "3 risks: R, S, U; 3 spans: D-C no. 1, Rhine bridge (B-C), A-B no. 1."
        self.assertEqual(found[2], f"Shared by both routes: {shared}")
        self.assertEqual(found[3], f"On every route within this reach, and so in every pair: {shared}")

    def test_a_span_that_both_routes_pass_in_other_directions_is_told(self):
        # The main goes S U V T and the standby S V U T; the patch between U and V is one span with two arcs. Whoever takes
        # S U T or S V T has all four risks, and shares two with each of these.
        self.assert_sheet(
            """\
From S to T, each route within 62,000,000 m, which sets no limit.
Settled after 4 mains: every route within this reach has been tried as main. No larger allowance changes this pair.
Shared by both routes: no risk; 1 known span: Patch (U-V).
On every route within this reach: no risk and no known span.
Both routes pass 2 sites (U, V).
Main: 20 m, 1 km: S, U, V, T.
  S to U: 10 m by S-U, arc 0; P, Q
  U to V: 0 m by Patch (U-V), arc 4; no risk
  V to T: 10 m by V-T, arc 3; P, Q
Standby: 20 m, 1 km: S, V, U, T.
  S to V: 10 m by S-V, arc 1; X, Y
  V to U: 0 m by Patch (U-V), arc 5; no risk
  U to T: 10 m by U-T, arc 2; X, Y
Together 40 m.
""",
            """\
site S
site U
site V
site T
risk P
risk Q
risk X
risk Y
arc S U 10 P,Q
arc S V 10 X,Y
arc U T 10 X,Y
arc V T 10 P,Q
span U V 0 - "Patch"
request S T
""",
        )

    def test_two_cables_in_one_trench_are_no_pair_where_there_is_another_way(self):
        # Without the trench the two cables would share nothing, at 142 km together. The ways are 70, 72 and 120 km long, and
        # twice each of the first two is less than the 190 km of the pair, so that all three are tried.
        self.assert_sheet(
            """\
From A to Bonn (B), each route within 500,000 m.
Settled after 3 mains: no pair within this reach shares fewer, and none that shares as few is shorter. \
No larger allowance changes this pair.
Shared by both routes: no risk and no span.
On every route within this reach: no risk and no span.
Between the ends they pass no common site.
Main: 70,000 m, 70 km: A, Bonn.
  A to B: 70,000 m by A-B no. 1 in Ahr valley (AHR), arc 0; N
Standby: 120,000 m, 120 km: A, C, Bonn.
  A to C: 60,000 m by A-C in HILLS, arc 4; H
  C to B: 60,000 m by C-B, arc 6; R
Together 190,000 m.
""",
            TRENCHES,
        )

    def test_a_trench_is_shared_by_name(self):
        # Within 119 km there are the two cables of the trench alone. One of them twice would share its risk too. Twice the first
        # is less than the 142 km of both, so that both are tried.
        self.assert_sheet(
            """\
From A to Bonn (B), each route within 119,000 m.
Settled after 2 mains: no pair within this reach shares fewer, and none that shares as few is shorter. \
No larger allowance changes this pair.
Shared by both routes: no risk; 1 span: Ahr valley (AHR).
On every route within this reach, and so in every pair: no risk; 1 span: Ahr valley (AHR).
Between the ends they pass no common site.
Main: 70,000 m, 70 km: A, Bonn.
  A to B: 70,000 m by A-B no. 1 in Ahr valley (AHR), arc 0; N
Standby: 72,000 m, 72 km: A, Bonn.
  A to B: 72,000 m by A-B no. 2 in Ahr valley (AHR), arc 2; S
Together 142,000 m.
""",
            TRENCHES,
            reach=119_000,
        )

    def test_d1_shares_its_span_beside_its_risk(self):
        self.assert_sheet(
            """\
From node 0 to node 1, each route within 10,000 m.
Settled after 1 main: no pair within this reach shares fewer, and none that shares as few is shorter. \
No larger allowance changes this pair.
Shared by both routes: 1 risk: risk 0; 1 span: span 7.
On every route within this reach, and so in every pair: 1 risk: risk 0; 1 span: span 7.
Between the ends they pass no common site.
Main: 1,000 m, 1 km: node 0, node 1.
  node 0 to node 1: 1,000 m by arc 0 in span 7; risk 0
Standby: the same route once more; it fails with the main.
Together 2,000 m.
""",
            "from 0 to 1 reach 10000 allowance 1000\n0: 0,1,1000,{0} span 7\n",
        )

    def test_what_is_shared_and_on_every_route_is_told_by_kind_where_the_reply_tells_it(self):
        for shared, floor, written in (
            ("1 risk: risk 1; 1 span: span 5", "1 risk or span", FAN.format("")),
            ("2 risks: risk 1, risk 9; 1 span: span 5", "2 risks or spans", FAN.format("9")),
            ("no risk; 2 spans: span 5, span 2", "1 span", WHEEL),
        ):
            with self.subTest(floor):
                found = sheet.words(planned(written)).splitlines()
                self.assertEqual(found[2], f"Shared by both routes: {shared}.")
                self.assertEqual(found[3], f"On every route within this reach, and so in every pair: {floor}.")

    def test_only_the_arcs_that_are_asked_about_have_to_have_a_known_span(self):
        # The span of the arc back is not known, and it is on no route: of the pair all is known, of every route not all.
        arcs = "0: 0,1,1,{0,1} span 1\n1: 0,1,1,{1,2} span 2\n2: 0,1,1,{0,2} span 3\n3: 1,0,1,{3}\n"
        found = sheet.words(planned("from 0 to 1 reach 9 allowance 9\n" + arcs)).splitlines()
        self.assertEqual(found[2], "Shared by both routes: 1 risk: risk 1; no span.")
        self.assertEqual(found[3], "On every route within this reach: no risk and no known span.")


class NamesOfSpans(unittest.TestCase):
    def test_a_span_is_called_by_its_trench_or_by_the_line_that_has_it_to_itself(self):
        mesh = text.read(
            """\
site A
site B
trench T
trench AHR "Ahr valley"
span A B 1 - in AHR "North"
span A B 1 - "South"
arc B A 1 - in T
arc A B 1 - in AHR
span B A 1 -
""",
            "mesh",
        )
        self.assertEqual([arc.span for arc in mesh.arcs], [1, 1, 2, 2, 3, 1, 4, 4])
        self.assertEqual([mesh.span(n) for n in range(1, 5)], ["Ahr valley (AHR)", "South (A-B)", "T", "B-A no. 5"])
        self.assertEqual([mesh.trench(n) and mesh.trench(n).name for n in range(5)], [None, "AHR", None, "T", None])

    def test_a_span_of_a_numbered_mesh_is_called_by_its_number(self):
        self.assertEqual(text.read(example("A.txt"), "A.txt").span(65_535), "span 65535")

    def test_both_directions_have_one_name_and_those_with_the_same_ends_are_numbered(self):
        mesh = text.read(
            """\
site A
site B
site C
span B A 1 -
arc A B 1 -
arc B C 1 -
span C A 1 - "Trunk"
arc A C 1 -
""",
            "mesh",
        )
        self.assertEqual(
            [mesh.cable(number) for number in range(7)],
            [
                "B-A no. 1",
                "B-A no. 1",
                "A-B no. 2",
                "B-C",
                "Trunk (C-A)",
                "Trunk (C-A)",
                "A-C no. 2",
            ],
        )

    def test_an_arc_of_a_numbered_mesh_is_called_by_its_number(self):
        self.assertEqual(text.read(example("A.txt"), "A.txt").cable(4), "arc 4")


# ---- why ----


def least_shared(ranking, reach, allowance):
    """How little a pair shares whose main is one of the first `allowance` routes within reach; None with no route."""
    within = [carried for metres, _, carried in ranking if metres <= reach]
    return min((len(main & standby) for main in within[:allowance] for standby in within), default=None)


def plainly(mesh, request):
    """The least better reach and what is then shared, tried at every length of a route; None where nothing is shared."""
    ranking = routes(mesh, request)
    now = least_shared(ranking, request.reach, request.allowance)
    if now == 0:
        return None
    for reach in sorted({metres for metres, _, _ in ranking if metres > request.reach}):
        shared = least_shared(ranking, reach, request.allowance)
        if now is None or shared < now:
            return reach, shared
    return None, None


class Why(unittest.TestCase):
    def test_the_least_reach_of_1000_random_meshes_is_that_of_a_plain_search(self):
        rng = random.Random(20)
        kinds = Counter()
        for number in range(1000):
            mesh = small_mesh(rng)
            request = mesh.requests[0]
            found, expected = answer.plan(mesh, request), plainly(mesh, request)
            with self.subTest(number):
                better = why.least_reach(found)
                self.assertEqual(better and (better.reach, better.shared), expected)
            kinds[found.verdict, "nothing shared" if expected is None else "none" if expected[0] is None else "better"] += 1
        self.assertEqual(
            sorted(kinds),
            [
                ("refused", "better"),
                ("refused", "none"),
                ("settled", "better"),
                ("settled", "none"),
                ("settled", "nothing shared"),
                ("stopped", "better"),
                ("stopped", "none"),
                ("stopped", "nothing shared"),
            ],
        )

    def test_europe_shares_nothing_from_1702050_m_on(self):
        mesh = text.read(example("europe.txt"), "europe.txt")
        for reach, shared in ((1_649_000, 1), (1_702_049, 1), (1_702_050, 0)):
            self.assertEqual(answer.plan(mesh, replace(mesh.requests[0], reach=reach)).shared, shared)

    def test_the_words_for_each_outcome(self):
        for expected, written, change in (
            ("No reach makes it fewer: the count is 0.\n", example("A.txt"), {}),
            ("The least reach at which fewer are shared is 120,000 m, 1,000 m more: 0 then.\n", TRENCHES, {"reach": 119_000}),
            ("The least reach at which fewer are shared is 5,000 m, 1 m more: 0 then.\n", example("A.txt"), {"reach": 4999}),
            (
                "The least reach at which fewer are shared is 5,000 m, 2,000 m more: 1 then.\n",
                example("A.txt"),
                {"reach": 3000, "allowance": 1},
            ),
            ("The least reach with a route is 3,000 m, 1 m more.\n", example("A.txt"), {"reach": 2999}),
            ("The least reach with a route is 3,000 m, 3,000 m more.\n", example("A.txt"), {"reach": 0}),
            ("The least reach with a route is 31 m, 31 m more.\n", MOST, {"reach": 0}),
            ("No reach brings a route: none leads from one to the other.\n", example("A.txt"), {"source": 3, "terminal": 0}),
            ("No larger reach shares fewer.\n", example("D.txt"), {}),
            ("No larger reach shares fewer.\n", HALL, {}),  # stopped, but the floor is met: no allowance helps either
            ("No larger reach shares fewer.\n", TRIANGLE, {"reach": 62_000_000}),
            ("No larger reach shares fewer with this allowance.\n", example("A.txt"), {"allowance": 1}),
            ("", example("A.txt"), {"allowance": 0}),
            ("", example("A.txt"), {"reach": 62_000_001}),
        ):
            with self.subTest(expected, **change):
                self.assertEqual(why.words(planned(written, **change)), expected)


if __name__ == "__main__":
    unittest.main()
