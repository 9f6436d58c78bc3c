"""Pairs apart, which meet in no building but the two ends: asked for as text and on the command line, planned by the library and
by the program beside it, on sheets and in JSON; and what every route goes through where there is none."""

import json
import random
import struct
import sys
import types
import unittest
from collections import Counter
from dataclasses import replace
from unittest import mock

import feshangul
from feshangul import answer, library, meeting, records, rules, sheet, text, why
from feshangul.fault import InputFault, LibraryFault
from feshangul.mesh import Arc, Mesh, Request

from .shared import (
    A_HEX,
    A_SHEET,
    EXAMPLES,
    RELEASE,
    CommandTest,
    Ran,
    call,
    damaged,
    example,
    partly_closed,
    routes,
    run,
    small_mesh,
)

A = text.read(example("A.txt"), "A.txt")
A1 = replace(A.requests[0], apart=True)
A_TABLE = bytes.fromhex(A_HEX)[16:]
A_ASKED = (0, 3, 10_000, 1000)
H = example("H.txt")
NOTHING = bytes(16)

HEAD = "from 0 to 1 reach {} allowance {} apart\n"
D1 = "0: 0,1,1000,{0}\n"
TRENCH = "0: 0,1,1000,{0} span 7\n1: 0,1,2000,{1} span 7\n"
CHAIN = "0: 0,2,1,{0}\n1: 0,2,2,{1}\n2: 2,1,1,{2}\n"
# By nodes 2 and 3 twice, 3 m; by node 2 alone, 6 m; by node 3 alone, 7 m.
LATE = "0: 0,2,1,{0}\n1: 2,3,1,{1}\n2: 2,3,1,{2}\n3: 3,1,1,{3}\n4: 2,1,5,{4}\n5: 0,3,6,{5}\n"
# Risk 0 is on all routes but [0,1,2], the longest, 30 m.
FLOOR = "0: 0,2,10,{1}\n1: 2,3,10,{1}\n2: 3,1,10,{1}\n3: 0,2,1,{0}\n4: 2,1,1,{0}\n5: 0,3,2,{0}\n6: 3,1,2,{0}\n"
# A line by nodes 2, 3 and 4, 4 m, and a bypass of 5 m around each: within 7 m a route has room for one of them.
BYPASSES = "0: 0,2,1,{0}\n1: 2,3,1,{0}\n2: 3,4,1,{0}\n3: 4,1,1,{0}\n4: 0,3,5,{0}\n5: 2,4,5,{0}\n6: 3,1,5,{0}\n"

NOWHERE = "meets in no building but the two ends"
ASKED_FOR = f"Asked for a pair that {NOWHERE}.\n"
MET = f"The pair {NOWHERE}, and no arc is on both routes.\n"
NO_14 = "Refused, number 14: any two routes within reach meet in a building between the ends, or are the same arc.\n"
NO_15 = "Refused, number 15: no main within the allowance has a standby that it meets in no building.\n"


def read(written):
    return text.read(written, "mesh")


def planned(arcs, reach=10_000, allowance=1000):
    """The answer to a request for a pair apart from node 0 to node 1."""
    mesh = read(HEAD.format(reach, allowance) + arcs)
    return answer.plan(mesh, mesh.requests[0])


def first_line(found):
    return sheet.lines(found).splitlines()[0]


# ---- a plain listing ----


def nodes_of(mesh, arcs):
    return [mesh.arcs[arcs[0]].tail, *(mesh.arcs[number].head for number in arcs)]


def are_apart(mesh, one, other):
    common = set(nodes_of(mesh, one)) & set(nodes_of(mesh, other))
    return common == {mesh.arcs[one[0]].tail, mesh.arcs[one[-1]].head} and not set(one) & set(other)


def listed(mesh, request):
    """The number and the reply of a sound request for a pair apart: every pair is listed, and judged as the rules say."""
    ranking = [route for route in routes(mesh, request) if route[0] <= request.reach]
    if not ranking:
        return 10, bytes(96)
    pairs = []  # shared, total, rank of the main and of the standby, from 1
    for main, p in enumerate(ranking, 1):
        for standby, q in enumerate(ranking, 1):
            if are_apart(mesh, p[1], q[1]):
                pairs.append((len(p[2] & q[2]), p[0] + q[0], main, standby))
    floor = len(frozenset.intersection(*(carried for _, _, carried in ranking)))

    def best(step):
        return min((pair for pair in pairs if pair[2] <= step), default=None)

    def is_settled(step):
        if step == len(ranking):
            return True
        pair = best(step)
        return pair is not None and pair[0] == floor and 2 * ranking[step - 1][0] >= pair[1]

    settled_at = next(step for step in range(1, len(ranking) + 1) if is_settled(step))
    ranked = min(settled_at, request.allowance)
    pair = best(ranked)
    if pair is None:
        return 14 if request.allowance >= len(ranking) else 15, bytes(96)
    number, (shared, _, main, standby) = int(settled_at > request.allowance), pair
    metres, arcs, carried = zip(ranking[main - 1], ranking[standby - 1])
    common = carried[0] & carried[1]
    risks, spans = sum(1 << n for kind, n in common if kind == "risk"), sum(kind == "span" for kind, _ in common)
    fields = (number, shared, floor, *map(len, arcs), spans, ranked, *metres, risks)
    return number, struct.pack("<6B2x3I4xQ", *fields) + b"".join(bytes(route).ljust(32, b"\xff") for route in arcs)


def replied(mesh, **change):
    """The number and the bytes that the planner gives for a pair apart on the only request of a mesh."""
    r = replace(mesh.requests[0], **change)
    asked = (r.source, r.terminal, r.reach, r.allowance)
    return library.planner().plan_apart(records.put_table(mesh.arcs), *asked, records.put_closed(mesh.closed))


def replied_for_any(mesh, **change):
    r = replace(mesh.requests[0], **change)
    asked = (r.source, r.terminal, r.reach, r.allowance)
    return library.planner().plan(records.put_table(mesh.arcs), *asked, records.put_closed(mesh.closed))


def random_meshes(seed, count):
    """Small meshes, some arcs closed in half of them, and more with an arc or two straight from source to terminal."""
    rng = random.Random(seed)
    for number in range(count):
        mesh = small_mesh(rng)
        r = mesh.requests[0]
        metres, risks, span = rng.randrange(0, 9000, 500), frozenset({rng.randrange(3)}), rng.choice((0, 1, 2))
        straight = (Arc(r.source, r.terminal, metres, risks, span),) * rng.choice((0, 0, 1, 2))
        request = replace(r, reach=rng.choice((r.reach, 62_000_000)), apart=True)
        mesh = replace(mesh, arcs=mesh.arcs + straight).with_requests(request)
        yield number, partly_closed(rng, mesh) if number % 2 else mesh


class Planned(unittest.TestCase):
    def test_1000_random_meshes_are_planned_as_a_plain_listing_says_to_the_last_byte(self):
        numbers = Counter()
        for number, mesh in random_meshes(50, 1000):
            with self.subTest(number, mesh=text.write(mesh)):
                expected = listed(mesh, mesh.requests[0])
                self.assertEqual(replied(mesh), expected)
            numbers[expected[0]] += 1
        self.assertEqual(sorted(numbers), [0, 1, 10, 14, 15])
        self.assertGreater(min(numbers.values()), 30, numbers)

    def test_at_rising_allowances_15_becomes_a_pair_or_14_and_what_is_settled_stays(self):
        steps = Counter()
        for number, mesh in random_meshes(51, 200):
            within = [route for route in routes(mesh, mesh.requests[0]) if route[0] <= mesh.requests[0].reach]
            answers = [replied(mesh, allowance=allowance) for allowance in (*range(1, len(within) + 2), 1_000_000)]
            for (before, reply), (after, later) in zip(answers, answers[1:]):
                with self.subTest(number, before=before, after=after):
                    if before == 15:
                        self.assertIn(after, (0, 1, 14, 15))
                    elif before == 1:
                        self.assertIn(after, (0, 1))
                        self.assertLessEqual(judged(later), judged(reply))
                    else:
                        self.assertEqual((after, later), (before, reply))
                steps[before, after] += 1
            if within:
                self.assertIn(answers[len(within) - 1][0], (0, 14))  # an allowance of N settles it, or tells 14
        expected = {(15, 15), (15, 1), (15, 14), (14, 14), (1, 1), (1, 0), (0, 0), (10, 10)}
        self.assertLessEqual(expected, set(steps))

    def test_where_the_pair_for_any_is_apart_both_entries_give_the_same_bytes(self):
        same = other = 0
        for number, mesh in random_meshes(52, 500):
            found = answer.plan(mesh, replace(mesh.requests[0], apart=False))
            if found.number in (0, 1) and are_apart(mesh, found.main.arcs, found.standby.arcs):
                same += 1
                with self.subTest(number):
                    self.assertEqual(replied(mesh), replied_for_any(mesh))
            else:
                other += replied(mesh) != replied_for_any(mesh)
        self.assertGreater(min(same, other), 100)

    def test_what_is_refused_before_is_refused_alike(self):
        rng = random.Random(53)
        for number in range(300):
            mesh = partly_closed(rng, damaged(rng, small_mesh(rng)))
            with self.subTest(number):
                found = replied_for_any(mesh)
                if found[0] > 1:
                    self.assertEqual(replied(mesh), found)

    def test_14_and_15_come_behind_all_other_numbers_and_write_nothing(self):
        past = b"\x02" + bytes(15)
        d1 = records.put_table((Arc(0, 1, 1000, frozenset({0})),))
        for number, table, asked, closed in (
            (14, d1, (0, 1, 10_000, 1), NOTHING),
            (14, d1, (0, 1, 10_000, 1_000_000), NOTHING),
            (10, d1, (0, 1, 999, 1), NOTHING),
            (10, d1, (0, 1, 10_000, 1), b"\x01" + bytes(15)),
            (16, d1, (0, 1, 10_000, 1), past),
            (16, d1, (0, 1, 10_000, 1), bytes(15)),
            (16, d1, (0, 1, 10_000, 1), b""),
            (24, d1[:8] + bytes(8), (0, 1, 10_000, 1), past),
            (21, b"\x01" + d1[1:], (0, 1, 10_000, 1), past),
            (8, d1, (0, 1, 10_000, 0), NOTHING),
            (7, d1, (0, 1, 62_000_001, 1), NOTHING),
            (6, d1, (1, 1, 10_000, 1), NOTHING),
            (5, d1, (0, 32, 10_000, 1), NOTHING),
            (3, d1[:-1], (0, 1, 10_000, 1), NOTHING),
            (2, d1 * 129, (0, 1, 10_000, 1), NOTHING),
        ):
            with self.subTest(number, closed=closed.hex()):
                self.assertEqual(library.planner().plan_apart(table, *asked, closed), (number, bytes(96)))

    def test_meshes_worked_by_hand(self):
        for arcs, reach, answers in (
            (D1, 10_000, {1: "refused 14", 1000: "refused 14"}),
            (TRENCH, 10_000, {1: "stopped 1 1 1", 2: "settled 1 1 2"}),
            (CHAIN, 10_000, {1: "refused 15", 2: "refused 14", 3: "refused 14"}),
            (LATE, 10_000, {1: "refused 15", 2: "refused 15", 3: "stopped 0 0 3", 4: "settled 0 0 4"}),
            (LATE, 6, {2: "refused 15", 3: "refused 14"}),
            (FLOOR, 10_000, {1: "stopped 1 0 1", 7: "stopped 1 0 7", 8: "settled 1 0 8"}),
            (FLOOR, 29, {1: "stopped 1 1 1", 2: "settled 1 1 2"}),
            (BYPASSES, 7, {3: "refused 15", 4: "refused 14"}),
            (BYPASSES, 10, {1: "refused 15", 1000: "settled 1 1 5"}),
        ):
            for allowance, line in answers.items():
                with self.subTest(line, arcs=arcs, allowance=allowance):
                    self.assertEqual(first_line(planned(arcs, reach, allowance)), line)

    def test_two_cables_in_one_trench_are_apart_and_share_it(self):
        pair = planned(TRENCH)
        self.assertEqual((pair.main.arcs, pair.standby.arcs, pair.shared_risks, pair.shared_spans), ((0,), (1,), set(), {7}))

    def test_the_example_has_the_answers_that_its_comment_tells(self):
        mesh = read(H)
        for change, lines in (
            ({}, "settled 1 0 5\nmain 2 0 3\nstandby 9 4\n"),
            ({"allowance": 1}, "stopped 2 0 1\nmain 2 0 2\nstandby 9 4\n"),
            ({"reach": 8999}, "refused 14\n"),
            ({"reach": 8999, "allowance": 3}, "refused 15\n"),
            ({"apart": False}, "settled 0 0 1\nmain 2 0 2\nstandby 2 1 3\n"),
        ):
            with self.subTest(change):
                self.assertEqual(sheet.lines(answer.plan(mesh, replace(mesh.requests[0], **change))), lines)

    def test_what_the_package_names_plans_apart(self):
        mesh = feshangul.Mesh(A.arcs)
        request = feshangul.Request(0, 3, 10_000, apart=True)
        pair = feshangul.plan(mesh, request)
        self.assertEqual((pair.main.arcs, pair.standby.arcs, pair.common_nodes), ((0, 1), (2, 3), []))
        refused = feshangul.plan(mesh.with_closed([1]), request)
        self.assertEqual((refused.number, feshangul.on_every_route(refused)), (14, feshangul.Meeting((2,))))
        self.assertIsNone(feshangul.on_every_route(pair))


def judged(reply):
    """What a pair is judged by, off a reply: shared count, total, then main and standby by metres and arcs."""
    fields = records.get_reply(reply)
    main, standby = (fields.main_metres, fields.main), (fields.standby_metres, fields.standby)
    return fields.shared, main[0] + standby[0], main, standby


# ---- replies, the library and the program beside it ----

A1_REPLY = (
    struct.pack("<6B2x3I4xQ", 0, 0, 0, 2, 2, 0, 2, 5000, 5000, 0)
    + bytes([0, 1]).ljust(32, b"\xff")
    + bytes([2, 3]).ljust(32, b"\xff")
)
# Mesh A with arc 1 closed, for any pair: both routes pass node 2 and arc 3.
G_REPLY = (
    struct.pack("<6B2x3I4xQ", 0, 1, 1, 3, 2, 0, 2, 3000, 5000, 1 << 3)
    + bytes([0, 4, 3]).ljust(32, b"\xff")
    + bytes([2, 3]).ljust(32, b"\xff")
)
D1_REPLY = struct.pack("<6B2x3I4xQ", 0, 1, 1, 1, 1, 0, 1, 1000, 1000, 1) + b"\0".ljust(32, b"\xff") * 2


class Replies(unittest.TestCase):
    def plan_with(self, number, reply, mesh, request):
        fake = mock.Mock()
        fake.plan.return_value = fake.plan_apart.return_value = (number, reply)
        with mock.patch("feshangul.answer.planner", return_value=fake):
            return answer.plan(mesh, request), fake

    def assert_noticed(self, found, number, reply, mesh, request):
        with self.assertRaises(LibraryFault) as raised:
            self.plan_with(number, reply, mesh, request)
        told = f"the library's reply does not fit this mesh (it has {found}): is it of another version?"
        self.assertEqual(str(raised.exception), told)

    def test_a_request_for_a_pair_apart_goes_to_its_own_entry_with_a_set_in_any_case(self):
        for closed, given in ((set(), NOTHING), ({4}, b"\x10" + bytes(15))):
            pair, fake = self.plan_with(0, A1_REPLY, A.with_closed(closed), A1)
            self.assertEqual(fake.plan_apart.call_args[0], (A_TABLE, *A_ASKED, given))
            self.assertEqual((fake.plan.call_count, pair.main.arcs), (0, (0, 1)))
        _, fake = self.plan_with(0, A1_REPLY, A, replace(A1, apart=False))
        self.assertEqual((fake.plan.call_count, fake.plan_apart.call_count), (1, 0))

    def test_the_planner_gives_the_reply_worked_by_hand(self):
        self.assertEqual(library.planner().plan_apart(A_TABLE, *A_ASKED, NOTHING), (0, A1_REPLY))

    def test_routes_that_meet_are_noticed(self):
        mesh = A.with_closed({1})
        self.assertEqual(self.plan_with(0, G_REPLY, mesh, replace(A1, apart=False))[0].common_nodes, [2])
        self.assert_noticed("node 2 on both routes", 0, G_REPLY, mesh, A1)
        d1 = Mesh((Arc(0, 1, 1000, frozenset({0})),))
        self.assert_noticed("arc 0 on both routes", 0, D1_REPLY, d1, Request(0, 1, apart=True))

    def test_14_and_15_where_any_pair_will_do_are_noticed(self):
        for number in (14, 15):
            found = f"number {number}, though any pair was asked for"
            self.assert_noticed(found, number, bytes(96), A, replace(A1, apart=False))
            self.assertEqual(self.plan_with(number, bytes(96), A, A1)[0].number, number)

    def test_14_and_15_where_an_arc_is_blank_are_noticed(self):
        blank = Mesh((*A.arcs, Arc(0, 3, 5, frozenset())))
        for number in (14, 15):
            self.assert_noticed(f"number {number}, though no risk is listed for some arc", number, bytes(96), blank, A1)


class Library(unittest.TestCase):
    ENTRIES = ("plan", "mend", "plan_around", "plan_apart")

    def test_the_call_is_that_of_the_header(self):
        entries = {f"feshangul_{name}": mock.Mock(return_value=15) for name in self.ENTRIES}
        with mock.patch("ctypes.CDLL", return_value=types.SimpleNamespace(**entries)):
            loaded = library.Loaded("libfeshangul.so")
        apart = entries["feshangul_plan_apart"]
        self.assertEqual(loaded.plan_apart(A_TABLE, *A_ASKED, NOTHING), (15, bytes(96)))
        self.assertEqual((apart.call_args[0][:4], apart.call_args[0][5:]), ((A_TABLE, 80, NOTHING, 16), (96, *A_ASKED)))
        self.assertEqual(len(apart.argtypes), 10)

    def test_a_library_of_an_older_release_is_told(self):
        old = types.SimpleNamespace(**{f"feshangul_{name}": mock.Mock() for name in self.ENTRIES[:-1]})
        with mock.patch("ctypes.CDLL", return_value=old), self.assertRaises(LibraryFault) as raised:
            library.Loaded("libfeshangul.so")
        self.assertRegex(str(raised.exception), "^the planner's library cannot be loaded: .*feshangul_plan_apart")


# A program in place of host/serve: it answers with the first 96 bytes of what came, and with how many came as its number.
ECHO = """
import sys
case = sys.stdin.buffer.read(int(sys.argv[1]))
sys.stdout.buffer.write(len(case).to_bytes(4, "little") + case[:96].ljust(96, b"."))
sys.stdout.flush()
"""


class Served(CommandTest):
    SETTINGS = {"FESHANGUL_SERVE": str(RELEASE / "feshangul-serve")}

    def echoed(self, length, *asked):
        served = library.Served([sys.executable, "-c", ECHO, str(length)])
        self.addCleanup(served.close)
        return served.plan_apart(*asked)

    def test_a_case_for_a_pair_apart_is_of_kind_3(self):
        table, closed = bytes(range(16)) * 2, bytes(range(100, 116))
        case = struct.pack("<8I", 3, 32, 16, 96, 0, 3, 10_000, 1000) + table + closed
        self.assertEqual(self.echoed(len(case), table, *A_ASKED, closed), (80, case.ljust(96, b".")))

    def test_a_table_that_is_too_long_is_cut_before_the_closed_set(self):
        head = struct.pack("<8I", 3, 2049, 16, 96, 0, 3, 10_000, 1000)
        number, reply = self.echoed(32 + 2049 + 16, bytes(65536), *A_ASKED, b"\xff" * 16)
        self.assertEqual((number, reply[:32]), (32 + 2049 + 16, head))

    def test_the_program_of_the_release_gives_the_same_replies(self):
        # On x86-64 the library is loaded, and this is the only test of the program; elsewhere both are the program.
        with mock.patch.dict("os.environ", self.SETTINGS):
            served = library.planner.__wrapped__()
        self.addCleanup(served.close)
        for number, mesh in random_meshes(54, 300):
            r = mesh.requests[0]
            table = records.put_table(mesh.arcs) + (b"" if number % 29 else b"\0")  # now and then torn
            closed = records.put_closed(mesh.closed)[: 15 if number % 31 == 0 else 16] + bytes(number % 37 == 0)
            with self.subTest(number):
                asked = (table, r.source, r.terminal, r.reach, r.allowance, closed)
                self.assertEqual(served.plan_apart(*asked), library.planner().plan_apart(*asked))
        self.assertEqual(served.plan_apart(bytes(65536), 0, 1, 5, 1, NOTHING), (2, bytes(96)))
        self.assertEqual(served.plan_apart(A_TABLE, *A_ASKED, NOTHING), (0, A1_REPLY))

    def test_the_program_of_the_release_gives_the_same_output(self):
        for words in (("plan", EXAMPLES / "H.txt", "--why"), ("plan", EXAMPLES / "G.txt", "--apart", "--why")):
            with self.subTest(words):
                self.assertEqual(run(*words, settings=self.SETTINGS), run(*words))


# ---- as text ----


class Written(unittest.TestCase):
    def assert_refused(self, message, written):
        with self.assertRaises(InputFault) as raised:
            read(written)
        self.assertEqual(str(raised.exception), f"mesh line {message}")

    def test_by_number_it_stands_behind_the_allowance(self):
        head = "from 0 to 1 reach 5 allowance 7"
        for written, request in (
            (head, Request(0, 1, 5, 7)),
            (f"{head} apart", Request(0, 1, 5, 7, apart=True)),
            (f"{head} apart spare 0,1", Request(0, 1, 5, 7, (0, 1), True)),
        ):
            with self.subTest(written):
                mesh = read(f"{written}\n0: 0,1,1,{{0}}\n")
                self.assertEqual(mesh.requests, (request,))
                self.assertEqual(text.write(mesh), f"{written}\n0: 0,1,1,{{0}}\n")

    def test_by_name_it_stands_last(self):
        sites = "site A\nsite apart\n"
        for written, given in (
            ("request A apart", {}),
            ("request A apart apart", {"apart": True}),
            ("request apart A reach 5m apart", {"source": 1, "terminal": 0, "reach": 5, "apart": True}),
            ("request A apart allowance 3 apart", {"allowance": 3, "apart": True}),
            ("request A apart reach 5m allowance 3 apart", {"reach": 5, "allowance": 3, "apart": True}),
        ):
            with self.subTest(written):
                mesh = read(f"{sites}{written} # a comment\n")
                self.assertEqual(mesh.requests, (Request(**{"source": 0, "terminal": 1} | given),))
                self.assertEqual(read(text.write(mesh)), mesh)
        self.assertTrue(text.write(mesh).endswith("request A apart reach 5m allowance 3 apart\n"))

    def test_what_cannot_be_read_is_told_with_its_line(self):
        end = "expected the end of the line, found"
        for message, written in (
            (f'1: {end} "apartment"', "from 0 to 1 reach 5 allowance 7 apartment\n"),
            (f'1: {end} "apart"', "from 0 to 1 reach 5 allowance 7 apart apart\n"),
            (f'1: {end} "apart"', "from 0 to 1 reach 5 allowance 7 spare 0,1 apart\n"),
            ('1: expected "allowance", found "apart"', "from 0 to 1 reach 5 apart allowance 7\n"),
            (f'3: {end} "Apart"', "site A\nsite B\nrequest A B Apart\n"),
            (f'3: {end} "allowance"', "site A\nsite B\nrequest A B apart allowance 7\n"),
            (f'3: {end} "reach"', "site A\nsite B\nrequest A B apart reach 7\n"),
        ):
            with self.subTest(written):
                self.assert_refused(message, written)

    def test_random_meshes_are_written_as_they_stand(self):
        for number, mesh in random_meshes(55, 200):
            with self.subTest(number):
                self.assertEqual(read(text.write(mesh)), mesh)
                self.assertIn(" apart\n", text.write(mesh))


# ---- the sheet ----

A_APART = A_SHEET.replace("10,000 m.\nSettled", f"10,000 m.\n{ASKED_FOR}Settled")
A_APART = A_APART.replace("and none that shares", "and no such pair that shares")
A_APART = A_APART.replace("Between the ends they pass no common site.\n", MET)


class Sheets(unittest.TestCase):
    maxDiff = None

    def sheet(self, found):
        return sheet.words(found) + meeting.words(found)

    def assert_refused(self, lines, found):
        request = found.request
        asked = f"From node {request.source} to node {request.terminal}, each route within {request.reach:,} m.\n"
        self.assertEqual(self.sheet(found), asked + ASKED_FOR + lines)

    def test_a1_says_that_it_was_asked_for_and_that_it_is_so(self):
        self.assertEqual(self.sheet(answer.plan(A, A1)), A_APART)

    def test_settled_over_the_floor_and_stopped(self):
        for found, verdict in (
            (planned(FLOOR), "Settled after 8 mains: every route within this reach has been tried as main. "),
            (
                planned(FLOOR, allowance=3),
                "Stopped after 3 mains, which is the allowance: a larger one may find such a pair that shares fewer, 0 at "
                "best, or as few at less length. ",
            ),
            (
                planned(TRENCH, allowance=1),
                "Stopped after 1 main, which is the allowance: no pair within this reach shares fewer; only the length could "
                "still get better. ",
            ),
        ):
            with self.subTest(verdict):
                lines = self.sheet(found).splitlines(keepends=True)
                self.assertEqual((lines[1], lines[2][: len(verdict)]), (ASKED_FOR, verdict))
                self.assertIn(MET, lines)

    def test_any_pair_has_its_sheet_of_before(self):
        found = answer.plan(A, replace(A1, apart=False))
        self.assertEqual((sheet.words(found), meeting.words(found)), (A_SHEET, ""))

    def test_14_tells_the_nodes_on_every_route(self):
        self.assert_refused(NO_14 + "Every route within this reach passes node 2.\n", planned(CHAIN))
        for nodes, told in (((0, 1, 2, 3, 4), "node 1, node 2 and node 3"), ((4, 2, 1, 0), "node 2 and node 1")):
            line = Mesh(tuple(Arc(tail, head, 1, frozenset({0})) for tail, head in zip(nodes, nodes[1:])))
            found = answer.plan(line, Request(nodes[0], nodes[-1], 9, apart=True))
            self.assert_refused(NO_14 + f"Every route within this reach passes {told}.\n", found)

    def test_14_tells_the_arc_that_is_the_only_route(self):
        for arcs, told in (
            (D1, "arc 0 from node 0 to node 1"),
            ("0: 0,1,20000,{0}\n1: 0,1,5,{0} span 9\n", "arc 1 in span 9 from node 0 to node 1"),
        ):
            self.assert_refused(NO_14 + f"The only route within this reach is {told}.\n", planned(arcs))

    def test_14_tells_where_nothing_is_on_every_route(self):
        told = "No site is on every route within this reach: which they meet in differs. A larger reach brings such a pair.\n"
        self.assert_refused(NO_14 + told, planned(BYPASSES, reach=7))
        self.assertEqual(planned(BYPASSES, reach=10).number, 0)

    def test_15_tells_to_raise_the_allowance(self):
        for allowance in (1, 2):
            told = f"Raise --allowance from {allowance}: a larger one finds such a pair, or tells by 14 that there is none."
            self.assert_refused(f"{NO_15}{told}\n", planned(LATE, allowance=allowance))

    def test_15_tells_that_no_allowance_helps_where_a_node_is_on_every_route(self):
        told = "Every route within this reach passes node 2: no allowance brings such a pair.\n"
        self.assert_refused(NO_15 + told, planned(CHAIN, allowance=1))

    def test_15_at_the_largest_allowance_tells_to_shorten_the_reach(self):
        # So many routes take too long to make, so the planner's 15 is another's.
        found = replace(planned(LATE, allowance=1), request=Request(0, 1, 10_000, 1_000_000, apart=True))
        self.assert_refused(
            NO_15 + "The allowance is the largest that there is: a shorter reach leaves fewer routes to try.\n", found
        )

    def test_by_name_sites_and_arcs_have_their_names(self):
        mesh = read(
            """\
site A "Aachen"
site B "Bonn"
site C "Cologne"
risk R
trench AHR "Ahr valley"
span A C 30km R
span A C 40km R
span C B 30km R in AHR
request A B apart
request A C reach 35km apart
"""
        )
        both = [self.sheet(answer.plan(mesh, request)).splitlines()[-1] for request in mesh.requests]
        self.assertEqual(both[0], "Every route within this reach passes Cologne (C).")
        self.assertEqual(both[1], "The only route within this reach is A-C no. 1, arc 0 from A to C.")


class Meetings(unittest.TestCase):
    def test_what_is_on_every_route_of_500_random_meshes_is_that_of_a_plain_listing(self):
        kinds = Counter()
        for number, mesh in random_meshes(56, 500):
            found = answer.plan(mesh, mesh.requests[0])
            met = meeting.on_every_route(found)
            with self.subTest(number, mesh=text.write(mesh)):
                if found.number not in (14, 15):
                    self.assertIsNone(met)
                    continue
                within = [arcs for metres, arcs, _ in routes(mesh, found.request) if metres <= found.request.reach]
                common = set.intersection(*({*nodes_of(mesh, arcs)[1:-1]} for arcs in within))
                self.assertEqual(met.nodes, tuple(node for node in nodes_of(mesh, within[0]) if node in common))
                self.assertEqual(met.arc, within[0][0] if within == [within[0][:1]] else None)
            kinds[found.number, bool(met.nodes), met.arc is not None] += 1
        self.assertEqual(sorted(kinds), [(14, False, True), (14, True, False), (15, True, False)])

    def test_where_routes_meet_now_here_and_now_there_nothing_is(self):
        for found in (planned(BYPASSES, reach=7), planned(BYPASSES, reach=7, allowance=3), planned(LATE, allowance=2)):
            self.assertEqual(meeting.on_every_route(found), meeting.Meeting())

    def test_another_refusal_is_not_asked_about(self):
        for change in ({"reach": 2999}, {"allowance": 0}, {"terminal": 0}):
            found = answer.plan(A, replace(A1, **change))
            self.assertEqual((meeting.on_every_route(found), meeting.words(found), meeting.data(found)), (None, "", None))


# ---- why ----


def least_shared(mesh, ranking, reach, allowance):
    """How little a pair apart shares whose main is one of the first `allowance` routes within reach; None with no such pair."""
    within = [(arcs, carried) for metres, arcs, carried in ranking if metres <= reach]
    pairs = ((p, q) for p in within[:allowance] for q in within if are_apart(mesh, p[0], q[0]))
    return min((len(p[1] & q[1]) for p, q in pairs), default=None)


# Two cables that share a risk, and a third that does not, 9 m.
LESS = "0: 0,1,5,{0}\n1: 0,1,6,{0}\n2: 0,1,9,{1}\n"


class Why(unittest.TestCase):
    def test_the_least_reach_of_300_random_meshes_is_that_of_a_plain_search(self):
        kinds = Counter()
        for number, mesh in random_meshes(57, 300):
            request = replace(mesh.requests[0], reach=mesh.requests[0].reach % 10_000)
            ranking = routes(mesh, request)
            now = least_shared(mesh, ranking, request.reach, request.allowance)
            expected = (None, None)
            for reach in sorted({metres for metres, _, _ in ranking if metres > request.reach}):
                shared = least_shared(mesh, ranking, reach, request.allowance)
                if shared is not None and (now is None or shared < now):
                    expected = reach, shared
                    break
            found = answer.plan(mesh, request)
            better = why.least_reach(found)
            with self.subTest(number, mesh=text.write(mesh)):
                self.assertEqual(better and (better.reach, better.shared), None if now == 0 else expected)
            kinds[found.number, better is None or better.reach is None] += 1
        self.assertLessEqual({(n, none) for n in (10, 14) for none in (True, False)}, set(kinds))

    def test_the_words_for_each_outcome(self):
        for told, found in (
            ("No reach makes it fewer: the count is 0.\n", answer.plan(A, A1)),
            ("The least reach with such a pair is 5,000 m, 1 m more.\n", answer.plan(A, replace(A1, reach=4999))),
            ("The least reach with such a pair is 5,000 m, 2,001 m more.\n", answer.plan(A, replace(A1, reach=2999))),
            ("The least reach with such a pair is 10 m, 3 m more.\n", planned(BYPASSES, reach=7)),
            ("No reach brings such a pair.\n", planned(CHAIN)),
            ("No reach brings such a pair.\n", planned(CHAIN, reach=1)),
            ("No reach brings such a pair with this allowance.\n", planned(CHAIN, allowance=1)),
            ("No reach brings such a pair with this allowance.\n", answer.plan(A, replace(A1, allowance=1))),
            ("No reach brings a route: none leads from one to the other.\n", answer.plan(A, replace(A1, source=3, terminal=0))),
            ("The least reach at which fewer are shared is 9 m, 1 m more: 0 then.\n", planned(LESS, reach=8)),
            ("No larger reach shares fewer.\n", planned(FLOOR)),
            ("", answer.plan(A, replace(A1, allowance=0))),
        ):
            with self.subTest(told):
                self.assertEqual(why.words(found), told)


# ---- the command ----

NAMED = "site A\nsite B\nsite C\nrisk R\nrisk S\nspan A B 1km R\nspan A C 1km S\nspan C B 2km S\n"


class Command(CommandTest):
    def test_the_option_asks_what_the_word_would(self):
        written = self.file(without_apart(H))
        self.assertEqual(call("plan", written, "--apart"), call("plan", EXAMPLES / "H.txt"))
        self.assertEqual(call("plan", EXAMPLES / "H.txt", "--apart"), call("plan", EXAMPLES / "H.txt"))
        self.assertNotEqual(call("plan", written), call("plan", EXAMPLES / "H.txt"))

    def test_the_exit_status_tells_the_answer(self):
        for status, words in (
            (0, ()),
            (1, ("--allowance", "1")),
            (3, ("--reach", "8999")),
            (3, ("--reach", "8999", "--allowance", "3")),
        ):
            with self.subTest(words):
                self.assertEqual(call("plan", EXAMPLES / "H.txt", *words).status, status)

    def test_the_sheet_of_a_refusal_tells_where_all_routes_meet_and_then_why(self):
        ran = run("plan", EXAMPLES / "H.txt", "--reach", "8999", "--why")
        self.assertEqual(
            ran,
            Ran(
                3,
                f"""\
refused 14

From node 0 to node 1, each route within 8,999 m.
{ASKED_FOR}{NO_14}Every route within this reach passes node 2.
The least reach with such a pair is 9,000 m, 1 m more.
""".encode(),
                b"",
            ),
        )

    def test_it_stands_for_every_request_and_equal_ones_are_answered_once(self):
        mesh = self.file(f"{NAMED}request A B\nrequest A B apart\nrequest B A\n")
        for words, asked in (((), [False, True, False]), (("--apart",), [True, True]), (("--request", "2"), [True])):
            with self.subTest(words):
                lines = call("plan", mesh, "--json", *words).output.splitlines()
                self.assertEqual([json.loads(line)["apart"] for line in lines], asked)

    def test_it_goes_around_what_is_closed(self):
        lines = call("plan", EXAMPLES / "A.txt", "--apart", "--closed", "4").output.decode().splitlines()
        self.assertEqual(lines[:3], ["settled 0 0 1", "main 5 0 1", "standby 5 2 3"])
        lines = call("plan", EXAMPLES / "G.txt", "--apart").output.decode().splitlines()
        self.assertEqual((lines[0], lines[-1]), ("refused 14", "Every route within this reach passes node 2."))

    def test_europe_meets_in_no_building(self):
        ran = call("plan", EXAMPLES / "europe.txt", "--apart")
        self.assertTrue(ran.output.startswith(b"settled 0 0 4\nmain 1649 4 12 20\nstandby 1703 0 6 14 18\n"))
        self.assertIn(MET, ran.output.decode())

    def test_bytes_have_no_place_for_it(self):
        told = 'expected a request for any pair, found "apart": the bytes that `routes` reads have no place for it'
        self.assert_told(call("bytes", EXAMPLES / "H.txt"), f"{EXAMPLES / 'H.txt'}: {told}")
        for command in ("bytes", "mend"):
            ran = call(command, EXAMPLES / "A.txt", "--apart")
            self.assertEqual((ran.status, ran.output), (2, b""))

    def test_mending_leaves_it_in_the_request(self):
        ran = call("mend", "-", stdin=(HEAD.format(9, 9) + "0: 7,7,1,{0}\n1: 0,1,1,{0}\n").encode())
        self.assertTrue(ran.output.decode().endswith(HEAD.format(9, 9) + "0: 0,1,1,{0}\n"))


def without_apart(written):
    return written.replace(" allowance 1000 apart\n", " allowance 1000\n")


class Json(CommandTest):
    def fields(self, *words):
        return json.loads(call("plan", "--json", *words).output)

    def test_what_was_asked_is_a_field_of_every_answer(self):
        for name, words, apart in (("A.txt", (), False), ("A.txt", ("--apart",), True), ("H.txt", (), True)):
            with self.subTest(name, words=words):
                fields = self.fields(EXAMPLES / name, *words)
                self.assertEqual(fields["apart"], apart)
                self.assertNotIn("on_every_route", fields)
        self.assertEqual(self.fields(EXAMPLES / "A.txt", "--apart", "--reach", "2999")["number"], 10)

    def test_14_and_15_tell_what_is_on_every_route(self):
        node = {"number": 2, "name": None, "title": None}
        for words, number in ((("--reach", "8999"), 14), (("--reach", "8999", "--allowance", "3"), 15)):
            fields = self.fields(EXAMPLES / "H.txt", *words)
            self.assertEqual((fields["number"], fields["on_every_route"]), (number, {"sites": [node], "arc": None}))
            self.assertEqual((fields["words"], fields["arc"], fields["line"]), (rules.REFUSALS[number], None, None))
        only = self.fields(EXAMPLES / "D.txt", "--apart")["on_every_route"]
        self.assertEqual((only["sites"], only["arc"]["number"], only["arc"]["metres"]), ([], 0, 1000))
        neither = self.fields(self.file(HEAD.format(7, 9) + BYPASSES))["on_every_route"]
        self.assertEqual(neither, {"sites": [], "arc": None})

    def test_why_is_a_field(self):
        self.assertEqual(self.fields(EXAMPLES / "H.txt", "--reach", "8999", "--why")["why"], {"reach": 9000, "shared": 1})
        self.assertEqual(self.fields(EXAMPLES / "D.txt", "--apart", "--why")["why"], {"reach": None, "shared": None})


if __name__ == "__main__":
    unittest.main()
