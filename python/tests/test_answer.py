"""Answers: what the package makes of the planner's replies, of damaged ones and of refusals."""

import random
import struct
import unittest
from concurrent.futures import ThreadPoolExecutor
from dataclasses import replace
from unittest import mock

import feshangul
from feshangul import answer, library, records, rules, text
from feshangul.fault import LibraryFault
from feshangul.mesh import Arc, Mesh, Request

from .shared import EXAMPLES, damaged, example, routes, small_mesh

A = text.read(example("A.txt"), "A.txt")
A1 = A.requests[0]

# The reply to A1, as docs/FORMATS.md has it: settled, 0 shared, floor 0, two arcs each, no span shared, ranked 2, 5,000 m each.
A1_REPLY = (
    struct.pack("<6B2x3I4xQ", 0, 0, 0, 2, 2, 0, 2, 5000, 5000, 0)
    + bytes([0, 1]).ljust(32, b"\xff")
    + bytes([2, 3]).ljust(32, b"\xff")
)


def planner_that_replies(number, reply=bytes(96)):
    """In place of the planner, one that replies so to every call."""
    fake = mock.Mock()
    fake.plan.return_value = (number, reply)
    return mock.patch("feshangul.answer.planner", return_value=fake)


def with_bytes(reply=A1_REPLY, **at):
    """A reply, that to A1 where none is given, with other bytes at these places: at_8=b"..", and so on."""
    reply = bytearray(reply)
    for place, put in at.items():
        start = int(place.removeprefix("at_"))
        reply[start : start + len(put)] = put
    return bytes(reply)


class Replies(unittest.TestCase):
    def assert_noticed(self, found, request):
        with self.assertRaises(LibraryFault) as raised:
            answer.plan(A, request)
        self.assertEqual(
            str(raised.exception),
            f"the library's reply does not fit this mesh (it has {found}): is it of another version?",
        )

    def test_the_planner_gives_the_reply_that_is_damaged_below(self):
        self.assertEqual(
            library.planner().plan(
                bytes.fromhex(
                    "00010000e80300000100000000000000"
                    "01030000a00f00000200000000000000"
                    "00020000a00f00000400000000000000"
                    "02030000e80300000800000000000000"
                    "01020000e80300001000000000000000"
                ),
                0,
                3,
                10000,
                1000,
            ),
            (0, A1_REPLY),
        )

    def test_a_reply_becomes_a_pair(self):
        with planner_that_replies(0, A1_REPLY):
            pair = answer.plan(A, A1)
        self.assertEqual((pair.verdict, pair.number, pair.shared, pair.floor, pair.ranked), ("settled", 0, 0, 0, 2))
        self.assertEqual((pair.main.arcs, pair.main.nodes, pair.main.metres, pair.main.risks), ((0, 1), (0, 1, 3), 5000, {0, 1}))
        self.assertEqual((pair.standby.arcs, pair.standby.nodes, pair.standby.risks), ((2, 3), (0, 2, 3), {2, 3}))
        self.assertEqual((pair.total, pair.shared_risks, pair.common_nodes), (10000, frozenset(), []))
        self.assertEqual((pair.main.spans, pair.shared_spans, pair.common_spans, pair.uncounted_arcs), (set(), set(), [], []))

    def test_a_reply_that_does_not_fit_the_mesh_is_noticed(self):
        for found, number, reply in (
            ("verdict 0 beside number 1", 1, A1_REPLY),
            ("verdict 1 beside number 0", 0, with_bytes(at_0=b"\x01")),
            ("verdict 7 beside number 0", 0, with_bytes(at_0=b"\x07")),
            ("1 shared where 0 are", 0, with_bytes(at_1=b"\x01")),
            ("0 shared where 0 are", 0, with_bytes(at_24=b"\x01")),
            ("1 shared where 0 are", 0, with_bytes(at_1=b"\x01", at_31=b"\x80")),
            ("0 shared where 2 are", 0, with_bytes(at_64=b"\x00\x01")),
            ("1 spans shared where 0 are", 0, with_bytes(at_5=b"\x01")),
            ("255 spans shared where 0 are", 0, with_bytes(at_5=b"\xff")),
            ("1 shared where 0 are", 0, with_bytes(at_1=b"\x01", at_5=b"\x01")),
            ("a floor of 1 over 0 shared", 0, with_bytes(at_2=b"\x01")),
            ("0 ranked", 0, with_bytes(at_8=b"\x00")),
            ("1001 ranked", 0, with_bytes(at_8=struct.pack("<I", 1001))),
            ("4294967295 ranked", 0, with_bytes(at_8=b"\xff\xff\xff\xff")),
            ("arc 5 from node 1", 0, with_bytes(at_33=b"\x05")),
            ("arc 255 from node 1", 0, with_bytes(at_33=b"\xff")),
            ("arc 255 from node 3", 0, with_bytes(at_3=b"\x03")),
            ("arc 3 from node 1", 0, with_bytes(at_33=b"\x03")),
            ("arc 1 from node 0", 0, with_bytes(at_32=b"\x01")),
            ("arc 0 from node 2", 0, with_bytes(at_65=b"\x00")),
            ("a route to node 0", 0, with_bytes(at_3=b"\x00")),
            ("a route to node 1", 0, with_bytes(at_3=b"\x01")),
            ("a route to node 2", 0, with_bytes(at_4=b"\x01")),
            ("a route of 5001 m", 0, with_bytes(at_12=struct.pack("<I", 5001))),
            ("a route of 6000 m", 0, with_bytes(at_16=struct.pack("<I", 6000))),
        ):
            with self.subTest(found), planner_that_replies(number, reply):
                self.assert_noticed(found, A1)

    def test_no_single_wrong_bit_leads_to_other_routes(self):
        # What is left unnoticed are bytes that say nothing (6-7, 20-23, behind a route) and a ranked within the allowance.
        with planner_that_replies(0, A1_REPLY):
            right = answer.plan(A, A1)
        for bit in range(8 * 96):
            reply = bytearray(A1_REPLY)
            reply[bit // 8] ^= 1 << bit % 8
            with self.subTest(bit), planner_that_replies(0, bytes(reply)):
                try:
                    found = answer.plan(A, A1)
                except LibraryFault:
                    continue
                self.assertEqual(replace(found, ranked=2), right)

    def test_a_route_over_the_reach_is_noticed(self):
        with planner_that_replies(0, A1_REPLY):
            self.assert_noticed("a route of 5000 m", replace(A1, reach=4999))

    def test_a_reply_to_another_mesh_is_noticed(self):
        other = text.read(example("B.txt"), "B.txt")
        with planner_that_replies(0, A1_REPLY), self.assertRaises(LibraryFault):
            answer.plan(other, other.requests[0])


# ---- spans ----

# Two routes, [0,1,2] and [0,3,4]: the span of arc 0, which is on both, is not known; arcs 1 and 3 lie in one span.
SPANS = text.read(
    """\
from 0 to 3 reach 100 allowance 9
0: 0,1,1,{5}
1: 1,2,1,{5} span 9
2: 2,3,1,{0} span 300
3: 1,4,2,{5} span 9
4: 4,3,2,{1} span 8
""",
    "spans",
)
# They share risk 5 and span 9, and there is no third: shared 2, floor 2, one of them a span. A route with itself would share
# four. Twice the 3 m of the first is less than their 8 m together, so both are tried.
SPANS_REPLY = (
    struct.pack("<6B2x3I4xQ", 0, 2, 2, 3, 3, 1, 2, 3, 5, 1 << 5)
    + bytes([0, 1, 2]).ljust(32, b"\xff")
    + bytes([0, 3, 4]).ljust(32, b"\xff")
)


def replied(mesh):
    """The number and the bytes that the planner gives for the only request of a mesh."""
    (r,) = mesh.requests
    return library.planner().plan(records.put_table(mesh.arcs), r.source, r.terminal, r.reach, r.allowance)


class Spans(unittest.TestCase):
    def test_the_planner_gives_the_reply_worked_by_hand(self):
        self.assertEqual(replied(SPANS), (0, SPANS_REPLY))

    def test_a_reply_becomes_a_pair_with_its_spans(self):
        pair = answer.plan(SPANS, SPANS.requests[0])
        self.assertEqual((pair.shared, pair.floor, pair.shared_risks, pair.shared_spans), (2, 2, {5}, {9}))
        self.assertEqual((pair.main.spans, pair.standby.spans), ({9, 300}, {9, 8}))
        self.assertEqual((pair.common_spans, pair.uncounted_arcs, pair.spans_known), ([9], [0], False))

    def test_a_reply_with_other_spans_is_noticed(self):
        for found, reply in (
            ("0 spans shared where 1 are", with_bytes(SPANS_REPLY, at_5=b"\x00")),
            ("2 spans shared where 1 are", with_bytes(SPANS_REPLY, at_5=b"\x02")),
            ("1 shared where 2 are", with_bytes(SPANS_REPLY, at_1=b"\x01", at_5=b"\x00")),  # the count without spans
            ("3 shared where 2 are", with_bytes(SPANS_REPLY, at_1=b"\x03", at_5=b"\x02")),
            ("2 shared where 2 are", with_bytes(SPANS_REPLY, at_24=b"\x00")),
            ("a floor of 3 over 2 shared", with_bytes(SPANS_REPLY, at_2=b"\x03")),
        ):
            with self.subTest(found), planner_that_replies(0, reply), self.assertRaises(LibraryFault) as raised:
                answer.plan(SPANS, SPANS.requests[0])
            self.assertIn(f"(it has {found})", str(raised.exception))

    def test_no_single_wrong_bit_leads_to_another_pair(self):
        # As with A1: bytes 6-7, 20-23 and those behind a route say nothing; ranked, and a floor no larger than what is
        # shared, cannot be held against the mesh without listing its routes.
        right = answer.plan(SPANS, SPANS.requests[0])
        for bit in range(8 * 96):
            reply = bytearray(SPANS_REPLY)
            reply[bit // 8] ^= 1 << bit % 8
            with self.subTest(bit), planner_that_replies(0, bytes(reply)):
                try:
                    found = answer.plan(SPANS, SPANS.requests[0])
                except LibraryFault:
                    continue
                self.assertEqual(replace(found, ranked=2, floor=2), right)

    def test_d1_shares_its_span_beside_its_risk_where_it_is_known(self):
        for span, shared in ((0, 1), (1, 2), (255, 2), (256, 2), (65_535, 2)):
            with self.subTest(span):
                mesh = Mesh((Arc(0, 1, 1000, frozenset({0}), span),))
                pair = answer.plan(mesh, Request(0, 1, 10_000, 1000))
                self.assertEqual((pair.number, pair.shared, pair.floor, pair.ranked), (0, shared, shared, 1))
                self.assertEqual((pair.shared_risks, len(pair.shared_spans)), ({0}, shared - 1))
                self.assertEqual(pair.uncounted_arcs, [] if span else [0])

    def test_a_span_crossed_twice_by_a_route_counts_once(self):
        mesh = text.read("from 0 to 2 reach 9 allowance 9\n0: 0,1,1,{0} span 7\n1: 1,2,1,{0} span 7\n", "mesh")
        pair = answer.plan(mesh, mesh.requests[0])
        self.assertEqual((pair.shared, pair.floor, pair.common_spans), (2, 2, [7]))

    def test_the_two_directions_of_a_span_are_one(self):
        # The main goes 0 1 2 3 and the standby 0 2 1 3, through span 7 one way and the other. They share its risk and no
        # other; the two shorter routes, 0 1 3 and 0 2 3, have all four, and so share two and a span with every other.
        arcs = "0: 0,1,10,{0,1} span 1\n1: 0,2,10,{2,3} span 2\n2: 1,3,10,{2,3} span 3\n3: 2,3,10,{0,1} span 4\n"
        mesh = text.read(f"from 0 to 3 reach 99 allowance 9\n{arcs}4: 1,2,1,{{9}} span 7\n5: 2,1,1,{{9}} span 7\n", "mesh")
        pair = answer.plan(mesh, mesh.requests[0])
        self.assertEqual((pair.main.arcs, pair.standby.arcs, pair.ranked), ((0, 4, 3), (1, 5, 2), 4))
        self.assertEqual((pair.shared, pair.floor, pair.common_spans, pair.spans_known), (2, 0, [7], True))

    def test_spans_are_told_in_the_mains_order(self):
        arcs = "0: 0,1,1,{0} span 9\n1: 1,2,1,{0} span 3\n2: 2,3,1,{0}\n3: 3,4,1,{0} span 9\n4: 4,5,1,{0} span 7\n"
        mesh = text.read(f"from 0 to 5 reach 9 allowance 9\n{arcs}", "mesh")
        pair = answer.plan(mesh, mesh.requests[0])
        self.assertEqual((pair.shared, pair.common_spans, pair.uncounted_arcs), (4, [9, 3, 7], [2]))

    def test_the_most_that_can_be_shared_is_95(self):
        arcs = tuple(Arc(n, n + 1, 1, frozenset(range(64)), n + 1) for n in range(31))
        pair = answer.plan(Mesh(arcs), Request(0, 31, 31, 1))
        self.assertEqual((pair.shared, pair.floor, len(pair.shared_spans)), (95, 95, 31))
        self.assertEqual(pair.shared, rules.SHARED_MAX)

    def test_numbers_of_spans_matter_only_as_equal_or_not(self):
        rng = random.Random(31)
        for number in range(200):
            mesh = small_mesh(rng)
            others = [0, *rng.sample(range(1, 65_536), 4)]
            renamed = dict(zip((0, 1, 2, 256, 65_535), others))
            other = replace(mesh, arcs=tuple(replace(arc, span=renamed[arc.span]) for arc in mesh.arcs))
            with self.subTest(number):
                self.assertEqual(replied(mesh), replied(other))

    def test_the_floor_and_what_is_shared_of_500_random_meshes_are_those_of_a_plain_listing(self):
        rng = random.Random(32)
        spans_on_every_route = 0
        for number in range(500):
            mesh = small_mesh(rng)
            request = mesh.requests[0]
            found = answer.plan(mesh, request)
            within = [carried for metres, _, carried in routes(mesh, request) if metres <= request.reach]
            with self.subTest(number):
                self.assertEqual(found.number == 10, not within)
                if within:
                    every = frozenset.intersection(*within)
                    self.assertEqual(found.floor, len(every))
                    self.assertEqual(found.shared, min(len(a & b) for a in within[: request.allowance] for b in within))
                    spans_on_every_route += any(kind == "span" for kind, _ in every)
        self.assertGreater(spans_on_every_route, 50)


class Refusals(unittest.TestCase):
    def assert_refused(self, number, words, mesh, request):
        found = answer.plan(mesh, request)
        self.assertIsInstance(found, answer.Refusal)
        self.assertEqual((found.verdict, found.number, found.words), ("refused", number, words))

    def test_the_planner_refuses_a_request_with_number_and_words(self):
        for number, words, change in (
            (5, "source or terminal is no node: nodes are 0 to 31", {"source": 32}),
            (5, "source or terminal is no node: nodes are 0 to 31", {"terminal": 255}),
            (6, "source and terminal are the same node", {"terminal": 0}),
            (7, "the reach is over 62,000,000 m", {"reach": 62_000_001}),
            (8, "the allowance is not 1 to 1,000,000", {"allowance": 0}),
            (8, "the allowance is not 1 to 1,000,000", {"allowance": 1_000_001}),
            (10, "no route from source to terminal is within reach", {"reach": 2999}),
            (10, "no route from source to terminal is within reach", {"source": 3, "terminal": 0}),
            (12, "the spare bytes of the request are not zero", {"spare": (1, 0)}),
            (12, "the spare bytes of the request are not zero", {"spare": (0, 1), "source": 40}),
        ):
            with self.subTest(change):
                self.assert_refused(number, words, A, replace(A1, **change))

    def test_a_table_that_is_too_long_is_refused(self):
        self.assert_refused(2, "the table has more than 128 arcs", Mesh((Arc(0, 1, 5, frozenset()),) * 129), A1)
        self.assert_refused(2, "the table has more than 128 arcs", Mesh((Arc(0, 1, 5, frozenset()),) * 60_000), A1)

    def test_a_torn_table_is_refused(self):
        # No mesh makes one, so the table is torn on its way to the planner.
        with mock.patch("feshangul.records.put_table", return_value=bytes(17)):
            self.assert_refused(3, "the table is no whole number of arcs", A, A1)

    def test_a_short_reply_buffer_is_refused(self):
        with mock.patch("feshangul.library.REPLY_BYTES", 95):
            self.assert_refused(4, "the reply buffer is under 96 bytes", A, A1)

    def test_a_faulty_arc_is_told_with_its_number_and_line(self):
        for reason, words, arc in (
            (20, "tail node 32 is over 31", "32,1,5,{}"),
            (20, "head node 255 is over 31", "0,255,5,{}"),
            (20, "tail node 40 is over 31", "40,40,4294967295,{} span 1"),
            (21, "both ends are node 7", "7,7,2000001,{}"),
            (22, "length 2,000,001 m is over 2,000,000", "0,1,2000001,{} span 3"),
            (22, "length 4,294,967,295 m is over 2,000,000", "0,1,4294967295,{}"),
        ):
            with self.subTest(arc):
                mesh = text.read(f"from 0 to 1 reach 10 allowance 1\n\n0: 0,1,5,{{}}\n# faulty:\n1: {arc}\n", "mesh")
                self.assert_refused(reason + 256, f"arc 1, line 5: {words}", mesh, mesh.requests[0])
                self.assertEqual(answer.plan(mesh, mesh.requests[0]).arc, 1)

    def test_the_lowest_faulty_arc_of_several_is_told(self):
        arcs = "0: 0,1,5,{} span 9\n1: 0,1,2000001,{}\n2: 40,1,5,{}\n3: 1,1,5,{}\n"
        mesh = text.read("from 0 to 1 reach 10 allowance 1\n" + arcs, "mesh")
        self.assert_refused(278, "arc 1, line 3: length 2,000,001 m is over 2,000,000", mesh, mesh.requests[0])

    def test_the_arc_and_its_line_are_told_by_their_own_numbers(self):
        comments = "#\n" * 7  # so that arc 21 stands on line 30
        arcs = "".join(f"{n}: 0,1,{5 if n < 21 else 2_000_001},{{}}\n" for n in range(22))
        mesh = text.read("from 0 to 1 reach 10 allowance 1\n" + comments + arcs, "mesh")
        self.assert_refused(5398, "arc 21, line 30: length 2,000,001 m is over 2,000,000", mesh, mesh.requests[0])

    def test_the_last_arc_of_the_largest_table_is_told(self):
        mesh = Mesh((Arc(0, 1, 5, frozenset()),) * 127 + (Arc(0, 1, 2_000_001, frozenset()),))
        self.assert_refused(32_534, "arc 127: length 2,000,001 m is over 2,000,000", mesh, A1)

    def test_a_faulty_arc_of_bytes_is_told_without_a_line(self):
        mesh = Mesh((Arc(3, 3, 5, frozenset()),))
        self.assert_refused(21, "arc 0: both ends are node 3", mesh, Request(0, 1))

    def test_a_number_that_is_not_known_is_a_refusal(self):
        for number in (9, 11, 13, 23, 25, 266, 279, 4_294_967_295):  # 9, 11 and 23 have ended; 266 is 10 with an arc
            with self.subTest(number), planner_that_replies(number):
                self.assert_refused(number, "a number that this version does not know", A, A1)

    def test_a_number_for_an_arc_without_that_fault_is_noticed(self):
        sound, equal, long = Arc(0, 1, 5, frozenset(), 1), Arc(1, 1, 2_000_001, frozenset()), Arc(0, 1, 2_000_001, frozenset())
        for number, *arcs in (
            (21, long),  # another fault
            (22, equal),  # not the first fault
            (278, long, sound),  # a sound arc
            (278, equal, long),  # not the lowest arc
            (534, sound, long),  # no arc
            (2**32 - 234, long),
            (22,),
        ):
            with self.subTest(number), planner_that_replies(number), self.assertRaises(LibraryFault) as raised:
                answer.plan(Mesh(tuple(arcs)), A1)
            self.assertIn(f"number {number}, which is not that of its arcs", str(raised.exception))


class Library(unittest.TestCase):
    def test_a_library_that_cannot_be_loaded_is_told(self):
        with self.assertRaises(LibraryFault) as raised:
            library.Loaded("/nonexistent/libfeshangul.so")
        self.assertRegex(str(raised.exception), "^the planner's library cannot be loaded: /nonexistent/libfeshangul.so: ")

    def test_a_library_without_the_planner_is_told(self):
        with self.assertRaises(LibraryFault):
            library.Loaded("libc.so.6")

    def test_a_program_that_cannot_be_started_is_told(self):
        with self.assertRaises(LibraryFault) as raised:
            library.Served(["/nonexistent/feshangul-serve"])
        self.assertRegex(str(raised.exception), "^the planner's program cannot be started: ")

    def test_a_program_that_ends_without_an_answer_is_told_with_its_status(self):
        for name, status in (("true", 0), ("false", 1)):
            with self.subTest(name):
                served = library.Served([name])
                self.addCleanup(served.close)
                with self.assertRaises(LibraryFault) as raised:
                    served.plan(bytes(16), 0, 1, 5, 1)
                self.assertEqual(str(raised.exception), f"the planner's program has ended with status {status}")

    def test_another_system_than_linux_is_told(self):
        with mock.patch("platform.system", return_value="Darwin"), self.assertRaises(LibraryFault) as raised:
            library.planner.__wrapped__()
        self.assertEqual(str(raised.exception), "the library is for Linux, and this is Darwin")

    def test_a_machine_without_an_emulator_is_told_what_to_install(self):
        machine = mock.patch("platform.machine", return_value="riscv64")
        with machine, mock.patch.object(library, "X86_64", False), mock.patch("shutil.which", return_value=None):
            with self.assertRaises(LibraryFault) as raised:
                library.planner.__wrapped__()
        self.assertEqual(
            str(raised.exception),
            "the planner is an x86-64 program and this machine is riscv64: install Debian's package qemu-user",
        )

    def test_threads_that_call_at_once_each_get_their_own_answer(self):
        rng = random.Random(20)
        meshes = [small_mesh(rng) for _ in range(100)]
        meshes += [damaged(rng, mesh) for mesh in meshes]
        one_by_one = [answer.plan(mesh, mesh.requests[0]) for mesh in meshes]
        with ThreadPoolExecutor(8) as pool:
            at_once = list(pool.map(lambda mesh: answer.plan(mesh, mesh.requests[0]), meshes))
        self.assertEqual(at_once, one_by_one)


class Package(unittest.TestCase):
    def test_a_mesh_is_read_and_planned_with_what_the_package_names(self):
        mesh = feshangul.read_mesh(EXAMPLES / "A.txt")
        pair = feshangul.plan(mesh, mesh.requests[0])
        self.assertEqual((pair.verdict, pair.main.metres, pair.standby.metres), ("settled", 5000, 5000))
        self.assertEqual(feshangul.parse_mesh(feshangul.write_mesh(mesh), "again"), mesh)

    def test_a_mesh_can_be_made_without_text(self):
        risk = frozenset({63})
        mesh = feshangul.Mesh((feshangul.Arc(0, 1, 7, risk), feshangul.Arc(0, 1, 9, risk)))
        pair = feshangul.plan(mesh, feshangul.Request(0, 1))
        self.assertEqual((pair.main.arcs, pair.standby.arcs, pair.shared_risks), ((0,), (0,), {63}))
        mesh = feshangul.Mesh((feshangul.Arc(0, 1, 7, risk, span=4), feshangul.Arc(0, 1, 9, risk, span=5)))
        pair = feshangul.plan(mesh, feshangul.Request(0, 1))
        self.assertEqual((pair.main.arcs, pair.standby.arcs, pair.shared_spans), ((0,), (1,), set()))

    def test_a_number_that_no_call_can_carry_is_told_with_the_true_ranges_and_not_cut(self):
        for change in ({"source": 2**32}, {"terminal": -1}, {"reach": 2**32 + 10_000}, {"allowance": 2**64}):
            with self.subTest(change), self.assertRaises(feshangul.InputFault) as raised:
                feshangul.plan(A, replace(A1, **change))
            self.assertEqual(
                str(raised.exception),
                "the request has a number that no call can carry: nodes are 0 to 31, the reach 0 to 62,000,000 m, "
                "the allowance 1 to 1,000,000",
            )

    def test_a_number_that_no_record_can_hold_is_told_with_the_true_ranges_and_not_cut(self):
        for faulty in (
            Arc(256, 1, 5, frozenset()),
            Arc(0, -1, 5, frozenset()),
            Arc(0, 1, 2**32, frozenset()),
            Arc(0, 1, 5, frozenset({64})),
            Arc(0, 1, 5, frozenset({-1})),
            Arc(0, 1, 5, frozenset(), 2**16),
            Arc(0, 1, 5, frozenset(), -1),
        ):
            with self.subTest(faulty), self.assertRaises(feshangul.InputFault) as raised:
                feshangul.plan(feshangul.Mesh((*A.arcs, faulty)), A1)
            self.assertEqual(
                str(raised.exception),
                "arc 5 has a number that no record can hold: nodes are 0 to 31, lengths 0 to 2,000,000 m, risks 0 to 63, "
                "spans 0 to 65,535",
            )

    def test_an_input_fault_is_a_fault(self):
        with self.assertRaises(feshangul.Fault) as raised:
            feshangul.parse_mesh("", "nothing")
        self.assertIsInstance(raised.exception, feshangul.InputFault)


if __name__ == "__main__":
    unittest.main()
