"""Arcs with no risk listed: refused by 24, told line by line on sheets and in JSON, and left by the mender for a person."""

import json
import random
import shutil
import unittest
from dataclasses import replace
from unittest import mock

import feshangul
from feshangul import answer, library, mending, names, records, rules, sheet, text, why
from feshangul.fault import LibraryFault
from feshangul.mesh import Arc, Mesh, Request

from .shared import COMMAND, EXAMPLES, CommandTest, Ran, call, damaged, example, partly_closed, routes, run, small_mesh

ASK = Request(0, 1, 10_000, 1000)
NONE = frozenset()
SOUND = Arc(0, 1, 1000, frozenset({0}))
BLANK = Arc(0, 1, 1000, NONE)
PATCH = Arc(0, 1, 0, NONE)
NODE, ENDS, LENGTH = (replace(SOUND, **fault) for fault in ({"head": 40}, {"head": 0}, {"metres": 2_000_001}))

HEAD = "from 0 to 1 reach 10000 allowance 1000\n"
D2 = f"{HEAD}0: 0,1,1000,{{}}\n"

TO_DO = """\
Ask the operator which risks touch each of them, and list these. One that is known to fail together with no other span gets a \
risk of its own, the same in both directions. 0 m is only for a patch inside a building.
`feshangul mend` leaves such arcs as they are.
"""

# Lines 5, 7, 8 and 11 have no risk; that of line 9 is 0 m long.
NAMED = """\
site A "Aachen"
site B "Bonn"
risk R
trench AHR "Ahr valley"
span A B 70km - in AHR
span A B 72km R in AHR
arc A B 80km - "Upper line"
arc B A 80km -
span A B 0m -
# by the river
span A B 90km -
request A B reach 100km
"""

NAMED_SHEET = f"""\
From Aachen (A) to Bonn (B), each route within 100,000 m.
Refused, number 24: arc 0, line 5: 70,000 m long, and no risk is listed.
No risk is listed for 4 spans or arcs:
  line 5: A-B no. 1 in Ahr valley (AHR), arcs 0 and 1
  line 7: Upper line (A-B), arc 4 from A to B
  line 8: B-A no. 4, arc 5 from B to A
  line 11: A-B no. 6, arcs 8 and 9
{TO_DO}"""


def read(written):
    return text.read(written, "mesh")


def planned(written):
    mesh = read(written)
    return answer.plan(mesh, mesh.requests[0])


def left(arcs):
    """How the mender tells that it leaves so many."""
    number = f"{arcs} arc{'' if arcs == 1 else 's'}"
    return f"Left for a person: {number} with no risk listed. The planner refuses such arcs, by 24, until their risks are listed."


def lowest_blank(mesh):
    """The number for the lowest arc of over 0 m with no risk; None where there is none. Listed anew from the request."""
    found = [number for number, arc in enumerate(mesh.arcs) if arc.metres != 0 and len(arc.risks) == 0]
    return 24 + 256 * found[0] if found else None


def blanked(rng, mesh):
    """The mesh with the risks of some arcs left out, few or many."""
    share = rng.choice((0, 0.1, 0.5))
    arcs = tuple(replace(arc, risks=NONE) if rng.random() < share else arc for arc in mesh.arcs)
    return replace(mesh, arcs=arcs)


# ---- the planner ----


class Refused(unittest.TestCase):
    def assert_refused(self, arc, mesh, request=ASK):
        found = answer.plan(mesh, request)
        self.assertEqual((found.verdict, found.number, found.arc), ("refused", 24 + 256 * arc, arc))
        return found

    def test_d2_is_refused_with_its_arc_and_line(self):
        found = planned(D2)
        self.assertEqual((found.verdict, found.number, found.arc, found.line), ("refused", 24, 0, 2))
        self.assertEqual(found.words, "arc 0, line 2: 1,000 m long, and no risk is listed")

    def test_without_lines_no_line_is_told(self):
        found = self.assert_refused(0, Mesh((BLANK,)))
        self.assertEqual((found.words, found.line), ("arc 0: 1,000 m long, and no risk is listed", None))

    def test_a_span_number_does_not_make_up_for_it(self):
        for span in (1, 255, 256, 65_535):
            with self.subTest(span):
                self.assert_refused(0, Mesh((replace(BLANK, span=span),)))

    def test_one_risk_is_enough_whichever(self):
        for risk in range(64):
            with self.subTest(risk):
                found = answer.plan(Mesh((replace(BLANK, risks=frozenset({risk})),)), ASK)
                self.assertEqual((found.number, found.shared_risks), (0, {risk}))

    def test_only_0_metres_may_be_blank(self):
        self.assertEqual(answer.plan(Mesh((PATCH,)), ASK).number, 0)
        for metres in (1, 255, 256, 65_536, 1 << 20, 2_000_000):
            with self.subTest(metres):
                self.assert_refused(0, Mesh((replace(PATCH, metres=metres),)), replace(ASK, reach=62_000_000))

    def test_a_patch_with_no_risk_is_answered_beside_others(self):
        found = answer.plan(Mesh((SOUND, PATCH, replace(PATCH, span=7))), ASK)
        self.assertEqual((found.number, found.shared, found.main.arcs, found.standby.arcs), (0, 0, (1,), (1,)))

    def test_the_lowest_of_several_is_named(self):
        self.assert_refused(2, Mesh((SOUND, PATCH, BLANK, SOUND, BLANK)))
        self.assert_refused(127, Mesh((SOUND,) * 127 + (BLANK,)))
        self.assert_refused(0, Mesh((BLANK,) * 128))

    def test_it_need_not_lie_on_any_route(self):
        self.assert_refused(1, Mesh((SOUND, replace(BLANK, tail=7, head=8))))
        self.assert_refused(1, Mesh((SOUND, replace(BLANK, metres=20_000))))  # past the reach

    def test_a_closed_arc_is_refused_too(self):
        for closed in ({1}, {0}, {0, 1}):
            with self.subTest(closed):
                self.assert_refused(1, Mesh((SOUND, BLANK)).with_closed(closed))

    def test_the_fault_of_any_arc_is_told_first(self):
        for fault, number in ((NODE, 20), (ENDS, 21), (LENGTH, 22)):
            for risks in (frozenset({0}), NONE):
                with self.subTest(number, risks=risks):
                    mesh = Mesh((BLANK, SOUND, replace(fault, risks=risks), BLANK))
                    found = answer.plan(mesh.with_closed({9}), ASK)
                    self.assertEqual((found.number, found.arc), (number + 512, 2))

    def test_it_comes_after_the_request_and_the_faults_and_before_16_and_10(self):
        blank, past = records.put_table((SOUND, BLANK)), b"\x04" + bytes(15)
        for number, table, asked in (
            (280, blank, (0, 1, 10_000, 1000)),
            (280, blank, (1, 0, 10_000, 1000)),  # where there is no route
            (280, blank, (0, 1, 0, 1)),
            (2, blank * 65, (0, 1, 10_000, 1000)),
            (3, blank + b"\0", (0, 1, 10_000, 1000)),
            (5, blank, (32, 1, 10_000, 1000)),
            (6, blank, (1, 1, 10_000, 1000)),
            (7, blank, (0, 1, 62_000_001, 1000)),
            (8, blank, (0, 1, 10_000, 0)),
            (512 + 21, blank + records.put_table((ENDS,)), (0, 1, 10_000, 1000)),
        ):
            for closed in (None, bytes(16), b"\x02" + bytes(15), past + bytes(1), past, bytes(15), b""):
                with self.subTest(number, asked=asked, closed=closed):
                    self.assertEqual(library.planner().plan(table, *asked, closed), (number, bytes(96)))

    def test_500_random_meshes_are_refused_exactly_where_a_plain_listing_finds_one(self):
        rng = random.Random(90)
        refused = 0
        for number in range(500):
            mesh = blanked(rng, small_mesh(rng))
            mesh = partly_closed(rng, mesh) if number % 2 else mesh
            request, expected = mesh.requests[0], lowest_blank(mesh)
            found = answer.plan(mesh, request)
            refused += expected is not None
            with self.subTest(number):
                if expected is not None:
                    self.assertEqual(found.number, expected)
                else:
                    within = [metres for metres, _, _ in routes(mesh, request) if metres <= request.reach]
                    self.assertEqual(found.number == 10, not within)
                    self.assertIn(found.number, (0, 1, 10))
        self.assertTrue(200 < refused < 400, refused)

    def test_300_random_meshes_with_something_else_wrong_are_refused_for_that(self):
        rng = random.Random(91)
        for number in range(300):
            mesh = small_mesh(rng)
            bad = damaged(rng, mesh)
            found = answer.plan(bad, bad.requests[0])
            with self.subTest(number):
                # whatever is damaged stands before 24, so it is told where risks are left out too
                if found.number % 256 != 24:
                    self.assertEqual(answer.plan(blanked(rng, bad), bad.requests[0]).number, found.number)

    def test_the_numbers_are_told_by_the_mesh(self):
        self.assertEqual(Mesh((SOUND, PATCH, BLANK, replace(BLANK, span=7), SOUND, BLANK)).blank, [2, 3, 5])
        self.assertEqual(read(NAMED).blank, [0, 1, 4, 5, 8, 9])
        self.assertEqual(Mesh().blank, [])
        for path in sorted(EXAMPLES.glob("*.txt")):
            self.assertEqual(read(example(path.name)).blank, [])

    def test_the_package_refuses_with_what_it_names(self):
        mesh = feshangul.parse_mesh(NAMED, "mesh")
        found = feshangul.plan(mesh, mesh.requests[0])
        self.assertIsInstance(found, feshangul.Refusal)
        self.assertEqual((found.number, found.mesh.blank), (24, [0, 1, 4, 5, 8, 9]))


class Replies(unittest.TestCase):
    def plan_with(self, number, mesh):
        fake = mock.Mock()
        fake.plan.return_value = (number, bytes(96))
        with mock.patch("feshangul.answer.planner", return_value=fake):
            return answer.plan(mesh, ASK)

    def assert_noticed(self, found, number, mesh):
        with self.assertRaises(LibraryFault) as raised:
            self.plan_with(number, mesh)
        self.assertEqual(
            str(raised.exception),
            f"the library's reply does not fit this mesh (it has {found}): is it of another version?",
        )

    def test_a_number_that_fits_is_taken(self):
        self.assertEqual(self.plan_with(280, Mesh((SOUND, BLANK))).arc, 1)

    def test_24_of_an_arc_that_is_not_the_lowest_blank_one_is_noticed(self):
        for number, *arcs in (
            (24,),  # no arc
            (24, SOUND),  # no blank
            (24, PATCH),
            (24, SOUND, BLANK),  # another
            (280, BLANK, BLANK),  # not the lowest
            (536, SOUND, BLANK),  # past the table
            (280, SOUND, BLANK, ENDS),  # a fault is told first
            (24, replace(LENGTH, risks=NONE)),
            (2**32 - 232, BLANK),
        ):
            with self.subTest(number, arcs=arcs):
                self.assert_noticed(f"number {number}, which is not that of its arcs", number, Mesh(tuple(arcs)))

    def test_what_only_comes_behind_24_is_noticed_where_an_arc_is_blank(self):
        # As a library of an older release would have it: settled, stopped, a closed set that does not fit, and no route.
        for number in (0, 1, 16, 10):
            for mesh in (Mesh((BLANK,)), Mesh((SOUND, BLANK)).with_closed({1}), Mesh((SOUND, BLANK)).with_closed({5})):
                with self.subTest(number, mesh=mesh):
                    self.assert_noticed(f"number {number}, though no risk is listed for some arc", number, mesh)

    def test_what_comes_before_24_is_taken(self):
        for number in (2, 3, 4, 5, 6, 7, 8):
            with self.subTest(number):
                self.assertEqual(self.plan_with(number, Mesh((BLANK,))).words, rules.REFUSALS[number])


# ---- the sheet ----


class Sheets(unittest.TestCase):
    maxDiff = None

    def test_d2_is_told_in_words(self):
        self.assertEqual(sheet.lines(planned(D2)), "refused 24\n")
        self.assertEqual(
            sheet.words(planned(D2)),
            f"""\
From node 0 to node 1, each route within 10,000 m.
Refused, number 24: arc 0, line 2: 1,000 m long, and no risk is listed.
No risk is listed for 1 arc:
  line 2: arc 0 from node 0 to node 1
{TO_DO}""",
        )

    def test_every_line_without_a_risk_is_told_and_not_only_the_named_one(self):
        arcs = "0: 0,1,5,{3}\n\n1: 0,1,6,{} span 9\n2: 0,1,0,{}\n3: 1,0,6,{} span 9\n4: 2,1,2000000,{}\n"
        self.assertEqual(
            sheet.words(planned(HEAD + arcs)),
            f"""\
From node 0 to node 1, each route within 10,000 m.
Refused, number 280: arc 1, line 4: 6 m long, and no risk is listed.
No risk is listed for 3 arcs:
  line 4: arc 1 in span 9 from node 0 to node 1
  line 6: arc 3 in span 9 from node 1 to node 0
  line 7: arc 4 from node 2 to node 1
{TO_DO}""",
        )

    def test_by_name_both_directions_of_a_line_are_told_at_once(self):
        self.assertEqual(sheet.words(planned(NAMED)), NAMED_SHEET)

    def test_a_closed_line_is_told_as_closed_and_as_without_a_risk(self):
        head, refused, count, first, *_ = sheet.words(planned(NAMED + "closed in AHR\n")).splitlines()[1:]
        self.assertEqual(
            [head, refused, count, first],
            [
                "Closed, and so on no route: A-B no. 1 in Ahr valley (AHR), arcs 0 and 1; A-B no. 2 in Ahr valley (AHR), "
                "arcs 2 and 3.",
                "Refused, number 24: arc 0, line 5: 70,000 m long, and no risk is listed.",
                "No risk is listed for 4 spans or arcs:",
                "  line 5: A-B no. 1 in Ahr valley (AHR), arcs 0 and 1",
            ],
        )

    def test_without_lines_arcs_are_told_by_number_alone(self):
        found = sheet.words(answer.plan(Mesh((SOUND, BLANK, BLANK)), ASK)).splitlines()
        self.assertEqual(
            found[1:5],
            [
                "Refused, number 280: arc 1: 1,000 m long, and no risk is listed.",
                "No risk is listed for 2 arcs:",
                "  arc 1 from node 0 to node 1",
                "  arc 2 from node 0 to node 1",
            ],
        )

    def test_100_of_them_are_a_line_each(self):
        arcs = "".join(f"{n}: 0,1,{n + 1},{{}}\n" for n in range(100))
        found = sheet.words(planned(HEAD + arcs)).splitlines()
        self.assertEqual(found[2], "No risk is listed for 100 arcs:")
        self.assertEqual(found[3:103], [f"  line {n + 2}: arc {n} from node 0 to node 1" for n in range(100)])
        self.assertEqual(found[103:], TO_DO.splitlines())
        self.assertLess(max(map(len, found[3:103])), 80)

    def test_64_spans_by_name_are_a_line_each(self):
        found = sheet.words(planned("site A\nsite B\nrequest A B\n" + "span A B 1km -\n" * 64)).splitlines()
        self.assertEqual(found[2], "No risk is listed for 64 spans or arcs:")
        self.assertEqual(found[66], "  line 67: A-B no. 64, arcs 126 and 127")

    def test_another_refusal_does_not_tell_them(self):
        for written in (D2 + "1: 7,7,5,{}\n", D2.replace("allowance 1000", "allowance 0")):
            found = sheet.words(planned(written))
            self.assertNotIn("No risk", found)

    def test_why_adds_nothing_to_a_refusal_by_24(self):
        self.assertEqual((why.least_reach(planned(D2)), why.words(planned(D2))), (None, ""))


# ---- as text ----


class Written(unittest.TestCase):
    def test_a_blank_is_read_and_written_by_number_and_by_name(self):
        self.assertEqual(text.write(read(D2)), D2)
        written = text.write(read(NAMED))
        self.assertIn("span A B 70km - in AHR\n", written)
        self.assertEqual(read(written), read(NAMED))

    def test_bytes_with_a_blank_get_names(self):
        mesh = records.get_mesh(records.put_request(ASK) + records.put_table((BLANK,)), "bytes")
        written = text.write(names.given(mesh, read(NAMED), "names.txt"))
        self.assertTrue(written.endswith("arc A B 1km -\nrequest A B reach 10km allowance 1000\n"))


# ---- the mender ----


class Mended(unittest.TestCase):
    def test_blanks_are_kept_as_they_are_and_no_change(self):
        for arcs in ((BLANK,), (SOUND, BLANK, PATCH), (BLANK,) * 128):
            found = mending.mend(Mesh(arcs))
            self.assertEqual((found.mesh.arcs, found.changes), (arcs, ()))
            self.assertEqual(mending.mend_table(records.put_table(arcs)).changes, ())

    def test_they_are_told_by_the_line_and_number_that_they_had(self):
        arcs = "0: 0,1,5,{}\n1: 7,7,5,{}\n\n2: 0,1,5,{0}\n3: 0,1,6,{} span 4\n4: 0,1,0,{}\n5: 0,40,5,{}\n6: 0,1,7,{}\n"
        self.assertEqual(
            mending.words(mending.mend(read(HEAD + arcs))),
            [
                "Mended: of 7 arcs 2 are lost.",
                "line 3, arc 1: lost: both ends are node 7",
                "line 8, arc 5: lost: head node 40 is over 31",
                "Arcs 2 to 4 are now arcs 1 to 3.",
                "Arc 6 is now arc 4.",
                left(3),
                "line 2, arc 0: no risk is listed",
                "line 6, arc 3: no risk is listed",
                "line 9, arc 6: no risk is listed",
            ],
        )

    def test_where_nothing_is_lost_they_are_told_too(self):
        found = mending.words(mending.mend(read(D2)))
        self.assertEqual(found, ["Nothing to mend: the only arc is clean.", left(1), "line 2, arc 0: no risk is listed"])

    def test_both_directions_of_a_line_are_told_at_once(self):
        self.assertEqual(
            mending.words(mending.mend(read(NAMED))),
            [
                "Nothing to mend: all 10 arcs are clean.",
                left(6),
                "line 5, arcs 0 and 1: no risk is listed",
                "line 7, arc 4: no risk is listed",
                "line 8, arc 5: no risk is listed",
                "line 11, arcs 8 and 9: no risk is listed",
            ],
        )

    def test_a_table_in_bytes_has_no_lines(self):
        found = mending.words(mending.mend_table(records.put_table((ENDS, SOUND, BLANK)) + b"torn"))
        self.assertEqual(found[-1], "arc 2: no risk is listed")

    def test_what_is_lost_is_not_told_as_without_a_risk(self):
        lost = [replace(fault, risks=NONE) for fault in (NODE, ENDS, LENGTH)]
        self.assertEqual(len(mending.words(mending.mend(Mesh(tuple(lost))))), 4)
        found = mending.mend(Mesh((SOUND,) * 128 + (BLANK,)))
        self.assertEqual((found.mesh.blank, len(found.changes), len(mending.words(found))), ([], 1, 2))


# ---- the command ----


class Command(CommandTest):
    def test_the_exit_status_is_that_of_a_refusal(self):
        ran = run("plan", self.file(D2))
        self.assertEqual((ran.status, ran.output.splitlines()[0], ran.errors), (3, b"refused 24", b""))
        self.assertEqual(run("plan", self.file(D2), "--json").status, 3)

    def test_the_sheet_follows_the_line_of_the_refusal(self):
        self.assertEqual(call("plan", self.file(NAMED), "--why"), Ran(3, f"refused 24\n\n{NAMED_SHEET}".encode(), b""))

    def test_closing_it_does_not_help(self):
        for words in (("--closed", "A B"), ("--closed", "in AHR"), ("--closed", "from A to B no. 1")):
            with self.subTest(words):
                ran = call("plan", self.file(NAMED), *words)
                self.assertEqual((ran.status, ran.output.splitlines()[0]), (3, b"refused 24"))
        ran = call("plan", self.file(D2), "--closed", "0,9")
        self.assertEqual(ran.output.splitlines()[0], b"refused 24")

    def test_every_request_of_a_mesh_is_refused(self):
        ran = call("plan", self.file(NAMED + "request B A\n"))
        self.assertEqual(ran.output.decode().count("refused 24\n"), 2)

    def test_what_the_example_of_d_tells_to_try(self):
        for risks, first in (("{}", "refused 24"), ("{} span 7", "refused 24"), ("{0} span 7", "settled 2 2 1")):
            with self.subTest(risks):
                written = example("D.txt").replace("1000,{0}", f"1000,{risks}")
                self.assertEqual(call("plan", "-", stdin=written.encode()).output.decode().splitlines()[0], first)

    def test_mending_leaves_it_and_planning_then_refuses_it(self):
        faulty = D2 + "1: 7,7,5,{}\n2: 0,1,5,{1}\n"
        ran = call("mend", "-", stdin=faulty.encode())
        self.assertEqual(
            ran,
            Ran(
                1,
                f"""\
# Mended: of 3 arcs 1 is lost.
# line 3, arc 1: lost: both ends are node 7
# Arc 2 is now arc 1.
# {left(1)}
# line 2, arc 0: no risk is listed
{D2}1: 0,1,5,{{1}}
""".encode(),
                b"",
            ),
        )
        self.assertEqual(call("plan", "-", stdin=ran.output).output.splitlines()[0], b"refused 24")
        again = call("mend", "-", stdin=ran.output)
        self.assertEqual((again.status, again.output.count(b"\n# line 7, arc 0: no risk is listed\n")), (0, 1))

    def test_a_mended_table_in_bytes_is_told_beside_it(self):
        table = records.put_table((SOUND, BLANK))
        errors = f"Nothing to mend: all 2 arcs are clean.\n{left(1)}\narc 1: no risk is listed\n"
        self.assertEqual(call("mend", "--bytes", "-", stdin=table), Ran(0, table, errors.encode()))

    def test_a_library_of_an_older_release_is_told(self):
        fake = mock.Mock()
        fake.plan.return_value = (0, bytes(96))
        with mock.patch("feshangul.answer.planner", return_value=fake):
            told = "the library's reply does not fit this mesh (it has number 0, though no risk is listed for some arc): "
            self.assert_told(call("plan", self.file(D2)), f"{told}is it of another version?")


class Json(CommandTest):
    maxDiff = None

    def fields(self, *words):
        return json.loads(call(*words, "--json").output)

    def test_a_refusal_has_every_blank_arc_with_its_line(self):
        fields = self.fields("plan", self.file(D2 + "\n1: 0,1,0,{}\n2: 1,0,7,{} span 4\n"))
        self.assertEqual((fields["verdict"], fields["number"], fields["arc"], fields["line"]), ("refused", 24, 0, 2))
        self.assertEqual(fields["words"], "arc 0, line 2: 1,000 m long, and no risk is listed")
        nodes = [{"number": n, "name": None, "title": None} for n in (0, 1, 4)]
        arc = {"name": None, "title": None, "risks": []}
        self.assertEqual(
            fields["blank"],
            [
                arc | {"number": 0, "span": None, "from": nodes[0], "to": nodes[1], "metres": 1000, "line": 2},
                arc | {"number": 2, "span": nodes[2], "from": nodes[1], "to": nodes[0], "metres": 7, "line": 5},
            ],
        )

    def test_by_name_they_have_their_names(self):
        fields = self.fields("plan", self.file(NAMED))
        self.assertEqual(
            [(arc["number"], arc["name"], arc["title"], arc["line"]) for arc in fields["blank"]],
            [
                (0, "A-B no. 1", None, 5),
                (1, "A-B no. 1", None, 5),
                (4, "A-B", "Upper line", 7),
                (5, "B-A no. 4", None, 8),
                (8, "A-B no. 6", None, 11),
                (9, "A-B no. 6", None, 11),
            ],
        )

    def test_another_refusal_has_them_too_and_an_answer_has_none(self):
        fields = self.fields("plan", self.file(D2 + "1: 7,7,5,{0}\n"))
        self.assertEqual((fields["number"], [arc["number"] for arc in fields["blank"]]), (277, [0]))
        for name in ("A.txt", "E.txt", "europe.txt"):
            self.assertEqual(self.fields("plan", EXAMPLES / name)["blank"], [])

    def test_why_is_null(self):
        self.assertIsNone(self.fields("plan", self.file(D2), "--why")["why"])

    def test_a_mended_mesh_has_old_and_new_numbers_and_lines(self):
        arcs = "0: 7,7,5,{}\n1: 0,1,5,{}\n2: 0,1,0,{}\n3: 0,1,5,{1}\n4: 0,1,5,{}\n"
        fields = self.fields("mend", self.file(HEAD + arcs))
        self.assertEqual(fields["blank"], [{"old": 1, "new": 0, "line": 3}, {"old": 4, "new": 3, "line": 6}])
        self.assertEqual([change["old"] for change in fields["changes"]], [0])

    def test_a_mended_table_in_bytes_has_no_lines(self):
        fields = self.fields("mend", "--bytes", self.file(records.put_table((ENDS, BLANK)), "table.bin"))
        self.assertEqual(fields["blank"], [{"old": 1, "new": 0, "line": None}])

    @unittest.skipUnless(shutil.which("jq"), "jq is not on this machine: Debian's package jq")
    def test_the_line_of_the_handbook_lists_the_lines_without_a_risk(self):
        pipe = """"$0" mend "$1" --json | jq -r '.blank[].line'"""
        ran = run(COMMAND, self.file(D2 + "1: 0,1,5,{3}\n2: 0,1,7,{}\n"), program=["sh", "-c", pipe])
        self.assertEqual(ran, Ran(0, b"2\n4\n", b""))


if __name__ == "__main__":
    unittest.main()
