"""The command as people use it: statuses, files, options, JSON, hostile words, and what it needs around it."""

import contextlib
import json
import os
import random
import re
import shutil
import subprocess
import sys
import unittest
from concurrent.futures import ThreadPoolExecutor
from unittest import mock

import feshangul
from feshangul import library, records
from feshangul.fault import LibraryFault

from .shared import (
    A_HEX,
    A_SHEET,
    COMMAND,
    EXAMPLES,
    RELEASE,
    REPOSITORY,
    CommandTest,
    Ran,
    call,
    damaged,
    example,
    run,
    small_mesh,
    without_comments,
)

A = EXAMPLES / "A.txt"
EUROPE = EXAMPLES / "europe.txt"

A_OUTPUT = f"settled 0 0 2\nmain 5 0 1\nstandby 5 2 3\n\n{A_SHEET}".encode()

# Two ways from A to B, settled after two mains; none to C.
NAMED = 'site A "Zürich"\nsite B\nsite C\nrisk R "Rhine"\nrisk S\nspan A B 1km R\nspan A B 3km S "Süd"\n'
SETTLED, STOPPED, REFUSED = "request A B\n", "request A B allowance 1\n", "request A C reach 9km\n"


def first_lines(ran):
    """The first line of the lines of each request."""
    return re.findall(r"^(?:settled|stopped|refused) [0-9 ]+$", ran.output.decode(), re.MULTILINE)


class Statuses(CommandTest):
    def test_the_exit_status_tells_the_answer(self):
        for status, words in (
            (0, ("plan", A)),
            (1, ("plan", A, "--allowance", "1")),
            (2, ("plan", self.folder / "none")),
            (2, ("plan",)),
            (3, ("plan", A, "--reach", "2999")),
        ):
            with self.subTest(words):
                self.assertEqual(run(*words).status, status)

    def test_the_highest_status_of_several_requests_counts(self):
        for status, requests in (
            (0, SETTLED + SETTLED.replace("A B", "B A")),
            (1, SETTLED + STOPPED),
            (1, STOPPED + SETTLED),
            (3, REFUSED + STOPPED + SETTLED),
            (3, SETTLED + REFUSED),
        ):
            with self.subTest(requests):
                self.assertEqual(call("plan", self.file(NAMED + requests)).status, status)

    def test_a_refusal_by_the_planner_is_an_answer_on_standard_output(self):
        self.assertEqual(
            call("plan", A, "--reach", "2999"),
            Ran(
                3,
                b"""\
refused 10

From node 0 to node 3, each route within 2,999 m.
Refused, number 10: no route from source to terminal is within reach.
""",
                b"",
            ),
        )

    def test_an_interrupt_ends_quietly_with_130(self):
        with mock.patch("feshangul.answer.planner", side_effect=KeyboardInterrupt):
            self.assertEqual(call("plan", A), Ran(130, b"", b""))

    def test_a_fault_at_the_second_request_leaves_standard_output_empty(self):
        fake = mock.Mock()
        fake.plan.side_effect = [(10, bytes(96)), LibraryFault("it broke")]
        with mock.patch("feshangul.answer.planner", return_value=fake):
            self.assert_told(call("plan", self.file(NAMED + SETTLED + REFUSED)), "it broke")


class WaysToRun(CommandTest):
    def test_plan_runs_from_any_folder_with_any_path(self):
        (self.folder / "my meshes").mkdir()
        shutil.copy(A, self.folder / "my meshes/mesh A.txt")
        ran = run("my meshes/mesh A.txt", program=[REPOSITORY / "plan"], folder=self.folder)
        self.assertEqual(ran, Ran(0, A_OUTPUT, b""))

    def test_the_command_runs_by_itself_through_a_link(self):
        (self.folder / "link").symlink_to(COMMAND)
        self.assertEqual(run("plan", A, program=[self.folder / "link"]), Ran(0, A_OUTPUT, b""))

    def test_the_package_runs_as_a_module(self):
        ran = run("plan", A, program=[sys.executable, "-m", "feshangul"], folder=REPOSITORY / "python")
        self.assertEqual(ran, Ran(0, A_OUTPUT, b""))

    def test_a_mesh_is_read_from_standard_input(self):
        self.assertEqual(run("plan", "-", stdin=A.read_bytes()), Ran(0, A_OUTPUT, b""))

    def test_bytes_and_text_and_plan_work_in_a_pipe(self):
        pipe = '"$0" bytes "$1" | "$0" text | "$0" plan -'
        self.assertEqual(run(COMMAND, A, program=["sh", "-c", pipe]), Ran(0, A_OUTPUT, b""))

    def test_four_runs_at_once_give_the_same_answers(self):
        alone = run("plan", EUROPE, "--why")
        with ThreadPoolExecutor(4) as pool:
            at_once = list(pool.map(lambda _: run("plan", EUROPE, "--why"), range(4)))
        self.assertEqual((alone.status, first_lines(alone)), (0, ["settled 0 0 4"]))
        self.assertEqual(at_once, [alone] * 4)

    def test_a_run_writes_nothing_to_disk(self):
        shutil.copy(A, self.folder / "A.txt")
        self.assertEqual(run("plan", "A.txt", folder=self.folder).status, 0)
        self.assertEqual(os.listdir(self.folder), ["A.txt"])


class HelpAndVersion(CommandTest):
    def test_help_names_every_command_and_option(self):
        for words, told in (
            (("--help",), ("usage: feshangul", "plan", "mend", "bytes", "text", "--version")),
            (
                ("plan", "--help"),
                (
                    "usage: feshangul plan",
                    "MESH",
                    "--request K",
                    "--from A",
                    "--to B",
                    "--reach LENGTH",
                    "--allowance N",
                    "--closed WHAT",
                    "--apart",
                    "--json",
                    "--why",
                    "0 settled, 1 stopped, 2 usage or input, 3 refused",
                ),
            ),
            (
                ("mend", "--help"),
                (
                    "usage: feshangul mend",
                    "MESH",
                    "--bytes",
                    "--json",
                    "0 nothing to mend, 1 something is lost, 2 usage or input, 3 refused by number",
                ),
            ),
            (
                ("bytes", "--help"),
                ("usage: feshangul bytes", "MESH", "--request K", "--from A", "--to B", "--reach LENGTH", "--allowance N"),
            ),
            (("text", "--help"), ("usage: feshangul text", "BYTES", "--names MESH")),
        ):
            with self.subTest(words):
                ran = call(*words)
                help_text = " ".join(ran.output.decode().split())  # however wide the lines are
                self.assertEqual((ran.status, ran.errors), (0, b""))
                for word in told:
                    self.assertIn(word, help_text)

    def test_version_is_that_of_the_header(self):
        self.assertEqual(run("--version"), Ran(0, b"feshangul 0.9.0\n", b""))
        header = (RELEASE / "feshangul.h").read_text(encoding="utf-8")
        self.assertIn(f'#define FESHANGUL_VERSION "{feshangul.__version__}"\n', header)

    def test_a_wrong_use_is_told_with_the_usage_and_nothing_on_standard_output(self):
        for words, found in (
            ((), "COMMAND"),
            (("frob",), "frob"),
            (("plan",), "MESH"),
            (("plan", A, "more"), "more"),
            (("plan", A, "--frob"), "--frob"),
            (("plan", A, "--rea", "5"), "--rea"),
            (("plan", A, "--from"), "--from"),
            (("text", "--json"), "--json"),
            (("mend",), "MESH"),
            (("mend", "--bytes"), "MESH"),
            (("mend", A, "more"), "more"),
            (("mend", A, "--why"), "--why"),
        ):
            with self.subTest(words):
                ran = call(*words)
                self.assertEqual((ran.status, ran.output), (2, b""))
                self.assertTrue(ran.errors.startswith(b"usage: feshangul"))
                self.assertIn(found, ran.errors.decode().splitlines()[-1])


# ---- requests ----


class Requests(CommandTest):
    def test_several_requests_are_answered_in_turn_with_a_blank_line_between(self):
        ran = call("plan", self.file("site A\nsite B\nsite C\nrequest A C reach 9km\nrequest B C\n"))
        self.assertEqual(
            ran,
            Ran(
                3,
                b"""\
refused 10

From A to C, each route within 9,000 m.
Refused, number 10: no route from source to terminal is within reach.

refused 10

From B to C, each route within 62,000,000 m, which sets no limit.
Refused, number 10: no route from source to terminal is within reach.
""",
                b"",
            ),
        )

    def test_why_follows_the_sheet(self):
        self.assertEqual(call("plan", A, "--why"), Ran(0, A_OUTPUT + b"No reach makes it fewer: the count is 0.\n", b""))

    def test_options_stand_for_that_field_of_every_request(self):
        mesh = self.file(NAMED + "request A B reach 5km allowance 7\nrequest B A\n")
        for words, asked in (
            ((), [("A", "B", 5000, 7), ("B", "A", 62_000_000, 1000)]),
            (("--reach", "4km"), [("A", "B", 4000, 7), ("B", "A", 4000, 1000)]),
            (("--allowance", "9"), [("A", "B", 5000, 9), ("B", "A", 62_000_000, 9)]),
            (("--to", "C"), [("A", "C", 5000, 7), ("B", "C", 62_000_000, 1000)]),
            (("--from", "B", "--to", "A", "--reach", "4000", "--allowance", "1"), [("B", "A", 4000, 1)]),
            (("--request", "2"), [("B", "A", 62_000_000, 1000)]),
            (("--request", "1", "--reach", "3500m"), [("A", "B", 3500, 7)]),
        ):
            with self.subTest(words):
                answers = map(json.loads, call("plan", mesh, "--json", *words).output.splitlines())
                self.assertEqual([(f["from"]["name"], f["to"]["name"], f["reach"], f["allowance"]) for f in answers], asked)

    def test_options_stand_for_fields_of_a_numbered_mesh_by_number(self):
        fields = json.loads(call("plan", A, "--json", "--from", "1", "--to", "2", "--reach", "1km").output)
        self.assertEqual((fields["from"]["number"], fields["to"]["number"], fields["reach"]), (1, 2, 1000))
        self.assertEqual([arc["number"] for arc in fields["main"]["arcs"]], [4])

    def test_equal_requests_are_answered_once(self):
        mesh = self.file(NAMED + SETTLED + STOPPED + SETTLED)
        self.assertEqual(first_lines(call("plan", mesh)), ["settled 0 0 2", "stopped 0 0 1"])
        self.assertEqual(first_lines(call("plan", mesh, "--allowance", "5")), ["settled 0 0 2"])

    def test_the_same_end_twice_is_refused_by_the_planner(self):
        self.assertEqual(first_lines(call("plan", EUROPE, "--to", "LON")), ["refused 6"])

    def test_a_mesh_without_a_request_needs_both_ends(self):
        mesh = self.file(NAMED)
        told = f'{mesh} has no request: add a line "request A B", or give --from and --to'
        for words in ((), ("--from", "A"), ("--to", "B", "--reach", "5km")):
            with self.subTest(words):
                self.assert_told(call("plan", mesh, *words), told)
        fields = json.loads(call("plan", mesh, "--from", "A", "--to", "B", "--json").output)
        self.assertEqual((fields["verdict"], fields["reach"], fields["allowance"]), ("settled", 62_000_000, 1000))

    def test_an_option_that_cannot_be_read_is_told(self):
        for message, words in (
            ('--from: expected a node from 0 to 31, found "256"', ("--from", "256")),
            ('--to: expected a node from 0 to 31, found "x"', ("--to", "x")),
            ('--to: expected the end of the line, found "7"', ("--to", "3 7")),
            ('--reach: expected the reach from 0 to 62,000,000 m, found "62000.001km"', ("--reach", "62000.001km")),
            ('--reach: expected the reach from 0 to 62,000,000 m, as 1200, 1200m or 1.2km, found "5x"', ("--reach", "5x")),
            ('--reach: expected the reach in whole metres, found "1.5"', ("--reach", "1.5")),
            ("--allowance: expected the allowance from 1 to 1,000,000, found 0", ("--allowance", "0")),
            ('--allowance: expected the allowance from 1 to 1,000,000, found "1000001"', ("--allowance", "1000001")),
            ('--allowance: expected the allowance from 1 to 1,000,000, found "-1"', ("--allowance=-1",)),
            ("--request: expected 1 to 1, found 2", ("--request", "2")),
            ("--request: expected 1 to 1, found 0", ("--request", "0")),
            ('--request: expected a request\'s place from 1 on, found "x"', ("--request", "x")),
        ):
            with self.subTest(words):
                self.assert_told(call("plan", A, *words), message)

    def test_an_end_that_a_named_mesh_does_not_have_is_told(self):
        for option, word, hint in (
            ("--from", "0", ""),
            ("--to", "lon", '; is "LON" meant?'),
            ("--to", "LON ", '; is "LON" meant?'),
        ):
            with self.subTest(word):
                told = f'{option}: expected a site of the mesh, found "{word}"{hint}'
                self.assert_told(call("plan", EUROPE, option, word), told)


# ---- JSON ----


def node(number):
    """A node, a risk or a span that has no name."""
    return {"number": number, "name": None, "title": None}


def arc(number, tail, head, metres, risks, span=None):
    """An arc of a mesh by number."""
    between = {"span": span, "from": node(tail), "to": node(head)}
    return node(number) | between | {"metres": metres, "risks": [node(risk) for risk in risks]}


A_JSON = {
    "verdict": "settled",
    "number": 0,
    "from": node(0),
    "to": node(3),
    "reach": 10000,
    "allowance": 1000,
    "apart": False,
    "closed": [],
    "blank": [],
    "shared": {"count": 0, "span_count": 0, "risks": [], "spans": [], "sites": [], "uncounted_arcs": []},
    "floor": 0,
    "ranked": 2,
    "metres": 10000,
    "main": {
        "metres": 5000,
        "kilometres": 5,
        "nodes": [node(0), node(1), node(3)],
        "arcs": [arc(0, 0, 1, 1000, [0]), arc(1, 1, 3, 4000, [1])],
    },
    "standby": {
        "metres": 5000,
        "kilometres": 5,
        "nodes": [node(0), node(2), node(3)],
        "arcs": [arc(2, 0, 2, 4000, [2]), arc(3, 2, 3, 1000, [3])],
    },
}

ZURICH = {"number": 0, "name": "A", "title": "Zürich"}
B = {"number": 1, "name": "B", "title": None}
C = {"number": 2, "name": "C", "title": ""}
RHINE = {"number": 0, "name": "R", "title": "Rhine"}
S = {"number": 1, "name": "S", "title": None}

SUD = {"number": 1, "name": "B-A", "title": "Süd"}  # a span that its line has to itself
LIMMAT = {"number": 2, "name": "LIM", "title": "Limmat"}  # and one that is a trench

ONE_WAY = """\
site A "Zürich"
site B
site C ""
site D
risk R "Rhine"
risk S
trench LIM "Limmat"
span B A 1.5km S,R "Süd"
arc B C 1 S
arc C D 2 R in LIM
request A D reach 9km
"""

D = {"number": 3, "name": "D", "title": None}
UNKNOWN = {"number": 2, "name": "B-C", "title": None, "span": None, "from": B, "to": C, "metres": 1, "risks": [S]}

ONE_ROUTE = {
    "metres": 1503,
    "kilometres": 2,
    "nodes": [ZURICH, B, C, D],
    "arcs": [
        {"number": 1, "name": "B-A", "title": "Süd", "span": SUD, "from": ZURICH, "to": B, "metres": 1500, "risks": [RHINE, S]},
        UNKNOWN,
        {"number": 3, "name": "C-D", "title": None, "span": LIMMAT, "from": C, "to": D, "metres": 2, "risks": [RHINE]},
    ],
}

ONE_WAY_JSON = {
    "verdict": "settled",
    "number": 0,
    "from": ZURICH,
    "to": D,
    "reach": 9000,
    "allowance": 1000,
    "apart": False,
    "closed": [],
    "blank": [],
    "shared": {
        "count": 4,
        "span_count": 2,
        "risks": [RHINE, S],
        "spans": [SUD, LIMMAT],
        "sites": [B, C],
        "uncounted_arcs": [UNKNOWN],
    },
    "floor": 4,
    "ranked": 1,
    "metres": 3006,
    "main": ONE_ROUTE,
    "standby": ONE_ROUTE,
}


class Json(CommandTest):
    maxDiff = None

    def fields(self, *words):
        ran = call("plan", "--json", *words)
        self.assertEqual(ran.errors, b"")
        return [json.loads(line) for line in ran.output.decode("utf-8").splitlines()]

    def test_a_numbered_mesh_has_numbers_and_no_names(self):
        self.assertEqual(self.fields(A), [A_JSON])

    def test_a_named_mesh_has_names_and_titles(self):
        self.assertEqual(self.fields(self.file(ONE_WAY)), [ONE_WAY_JSON])

    def test_a_span_of_a_numbered_mesh_has_its_number(self):
        (fields,) = self.fields(self.file("from 0 to 2 reach 9 allowance 9\n0: 0,1,1,{4} span 65535\n1: 1,2,0,{}\n"))
        shared = {"count": 2, "span_count": 1, "risks": [node(4)], "spans": [node(65_535)], "sites": [node(1)]}
        self.assertEqual(fields["shared"], shared | {"uncounted_arcs": [arc(1, 1, 2, 0, [])]})
        self.assertEqual(fields["main"]["arcs"], [arc(0, 0, 1, 1, [4], node(65_535)), arc(1, 1, 2, 0, [])])
        self.assertEqual(fields["floor"], 2)

    def test_parallel_lines_without_a_title_are_told_apart_by_name(self):
        (fields,) = self.fields(self.file("site A\nsite B\nrisk R\nrisk S\nspan A B 1 R\nspan B A 2 S\nrequest A B\n"))
        spans = [{"number": 1, "name": "A-B no. 1", "title": None}, {"number": 2, "name": "B-A no. 2", "title": None}]
        self.assertEqual([fields[role]["arcs"][0]["span"] for role in ("main", "standby")], spans)

    def test_a_refusal_has_words_and_where_it_is_one_arcs_fault_its_place(self):
        faulty = self.file("from 0 to 1 reach 10 allowance 1\n0: 0,1,5,{0}\n\n1: 7,7,5,{0}\n")
        given = {"apart": False, "closed": [], "blank": []}
        asked = {"from": node(0), "to": node(1), "reach": 10, "allowance": 1, **given}
        words = "arc 1, line 4: both ends are node 7"
        self.assertEqual(self.fields(faulty), [{"verdict": "refused", "number": 277, **asked, "words": words, "arc": 1, "line": 4}])
        asked = {"from": node(0), "to": node(3), "reach": 2999, "allowance": 1000, **given}
        words = "no route from source to terminal is within reach"
        self.assertEqual(
            self.fields(A, "--reach", "2999"),
            [{"verdict": "refused", "number": 10, **asked, "words": words, "arc": None, "line": None}],
        )

    def test_several_requests_are_a_line_each(self):
        found = self.fields(self.file(NAMED + SETTLED + STOPPED + REFUSED))
        self.assertEqual([(f["verdict"], f["number"]) for f in found], [("settled", 0), ("stopped", 1), ("refused", 10)])

    def test_why_is_a_field(self):
        for reach, expected in (
            ("10000", None),
            ("4999", {"reach": 5000, "shared": 0}),
            ("2999", {"reach": 3000, "shared": 3}),
        ):
            with self.subTest(reach):
                self.assertEqual(self.fields(A, "--why", "--reach", reach)[0]["why"], expected)
        self.assertEqual(self.fields(EXAMPLES / "D.txt", "--why")[0]["why"], {"reach": None, "shared": None})
        self.assertNotIn("why", self.fields(A)[0])

    @unittest.skipUnless(shutil.which("jq"), "jq is not on this machine: Debian's package jq")
    def test_jq_reads_each_line_as_json_does(self):
        meshes = (A, EUROPE, self.file(NAMED + SETTLED + STOPPED + REFUSED), self.file(ONE_WAY, "one.txt"))
        output = b"".join(call("plan", mesh, "--json", "--why").output for mesh in meshes)
        read = subprocess.run(["jq", "-c", "."], input=output, capture_output=True, check=True, timeout=60).stdout
        self.assertEqual([json.loads(line) for line in read.splitlines()], [json.loads(line) for line in output.splitlines()])
        self.assertEqual(output.count(b"\n"), 6)

    @unittest.skipUnless(shutil.which("jq"), "jq is not on this machine: Debian's package jq")
    def test_the_line_of_the_handbook_lists_the_sites_of_the_main(self):
        pipe = '"$0" "$1" --json | jq -r ".main.nodes[].name"'
        ran = run(REPOSITORY / "plan", EUROPE, program=["sh", "-c", pipe])
        self.assertEqual(ran, Ran(0, b"LON\nAMS\nFRA\nVIE\n", b""))


class Locales(CommandTest):
    """What other programs read is UTF-8 wherever it is written; a sheet is for the terminal that shows it."""

    def test_json_is_json_whatever_the_encoding_of_the_terminal(self):
        mesh = self.file(ONE_WAY)
        for encoding in ("ascii", "latin-1"):
            with self.subTest(encoding):
                ran = run("plan", mesh, "--json", settings={"PYTHONIOENCODING": encoding})
                self.assertEqual(json.loads(ran.output), ONE_WAY_JSON)

    def test_a_mesh_is_written_in_utf_8_whatever_the_encoding_of_the_terminal(self):
        mesh = self.file(NAMED + SETTLED)
        data = run("bytes", mesh).output
        for encoding in ("ascii", "latin-1"):
            with self.subTest(encoding):
                ran = run("text", "--names", mesh, stdin=data, settings={"PYTHONIOENCODING": encoding})
                self.assertIn('site A "Zürich"\n'.encode(), ran.output)

    def test_a_sheet_is_written_with_what_the_terminal_can_show(self):
        ran = run("plan", self.file(ONE_WAY), settings={"PYTHONIOENCODING": "ascii"})
        self.assertEqual(ran.status, 0)
        self.assertIn(rb"From Z\xfcrich (A) to D, each route within 9,000 m.", ran.output)


# ---- bytes and text ----


class BytesAndText(CommandTest):
    def test_bytes_of_mesh_a_are_those_written_out_by_hand(self):
        self.assertEqual(run("bytes", A), Ran(0, bytes.fromhex(A_HEX), b""))

    def test_text_of_those_bytes_is_mesh_a(self):
        bare = without_comments(example("A.txt")).encode()
        self.assertEqual(run("text", stdin=bytes.fromhex(A_HEX)), Ran(0, bare, b""))
        self.assertEqual(call("text", "-", stdin=bytes.fromhex(A_HEX)), Ran(0, bare, b""))
        self.assertEqual(call("text", self.file(bytes.fromhex(A_HEX), "A.bin")), Ran(0, bare, b""))

    def test_text_takes_the_names_of_a_mesh(self):
        bare = without_comments(example("europe.txt")).encode()
        self.assertEqual(run("text", "--names", EUROPE, stdin=run("bytes", EUROPE).output), Ran(0, bare, b""))

    def test_bytes_and_text_have_spans_by_number_and_by_name(self):
        mesh = self.file("site A\nsite B\ntrench T\narc A B 1 - in T\nspan A B 2m -\nrequest A B reach 9m allowance 1\n")
        data = call("bytes", mesh).output
        by_number = "from 0 to 1 reach 9 allowance 1\n0: 0,1,1,{} span 1\n1: 0,1,2,{} span 2\n2: 1,0,2,{} span 2\n"
        self.assertEqual(call("text", stdin=data), Ran(0, by_number.encode(), b""))
        by_name = mesh.read_bytes().replace(b" 1 -", b" 1m -")
        self.assertEqual(call("text", "--names", mesh, stdin=data), Ran(0, by_name, b""))
        self.assertEqual(call("bytes", "-", stdin=by_number.encode()).output, data)

    def test_a_mesh_of_an_older_release_with_used_spare_bytes_is_told_what_they_are_now(self):
        mesh = self.file("from 0 to 1 reach 9 allowance 1\n0: 0,1,1,{} spare 7\n")
        told = 'expected "span N", found "spare": these bytes of an arc are the number of its span now'
        for command in ("plan", "mend", "bytes"):
            self.assert_told(call(command, mesh), f"{mesh} line 2: {told}")

    def test_bytes_take_options_in_place_of_the_requests_fields(self):
        data = call("bytes", EUROPE, "--from", "PAR", "--to", "MUN", "--reach", "1km", "--allowance", "2").output
        self.assertEqual(data[:16].hex(), "01060000e80300000200000000000000")

    def test_bytes_are_of_one_request(self):
        mesh = self.file(NAMED + SETTLED + STOPPED)
        self.assert_told(call("bytes", mesh), f"{mesh}: expected one request, found 2: choose by --request")
        self.assertEqual(call("bytes", mesh, "--request", "2").output[:16].hex(), "00010000800bb2030100000000000000")
        self.assertEqual(call("bytes", mesh, "--allowance", "3").output[8:12].hex(), "03000000")

    def test_faulty_bytes_and_names_are_told(self):
        self.assert_told(call("text"), "standard input byte 0: expected a record of 16 bytes, found 0")
        torn = self.file(bytes(31), "torn.bin")
        self.assert_told(call("text", torn), f"{torn} byte 16: expected a record of 16 bytes, found 15")
        self.assert_told(call("text", "--names", A, stdin=bytes.fromhex(A_HEX)), f"{A} has no names")
        few = self.file("site A\nsite B\n")
        self.assert_told(call("text", "--names", few, stdin=bytes.fromhex(A_HEX)), f"{few} has no name for node 3")


# ---- files ----


class Files(CommandTest):
    def test_a_mesh_that_cannot_be_read_is_told(self):
        for file, why in (
            (self.folder / "none", "No such file or directory"),
            (self.folder, "Is a directory"),
            (self.file("") / "below", "Not a directory"),
            ("/proc/self/mem", "Input/output error"),
            ("/dev/zero", "longer than any mesh (1,048,576 bytes)"),
        ):
            for words in ("plan", "mend", "mend --bytes", "mend --json", "bytes", "text", "text --names"):
                with self.subTest(words, file=file):
                    self.assert_told(call(*words.split(), file, stdin=bytes.fromhex(A_HEX)), f"{file}: {why}")

    def test_a_file_that_may_not_be_read_is_told(self):
        mesh = self.file(A.read_bytes())
        mesh.chmod(0)
        with not_as_root():
            self.assert_told(call("plan", mesh), f"{mesh}: Permission denied")

    def test_a_missing_mesh_is_told_by_the_process_too(self):
        self.assert_told(run("plan", self.folder / "none"), f"{self.folder / 'none'}: No such file or directory")

    def test_the_longest_mesh_is_1_mib(self):
        filled = A.read_bytes().ljust(1 << 20, b"\n")
        self.assertEqual(call("plan", self.file(filled)), Ran(0, A_OUTPUT, b""))
        self.assert_told(call("plan", "-", stdin=filled + b"\n"), "standard input: longer than any mesh (1,048,576 bytes)")

    def test_an_empty_input_is_told(self):
        self.assert_told(call("plan", "-"), "standard input line 1: expected a mesh, found the end of the file")
        self.assert_told(run("plan", "-"), "standard input line 1: expected a mesh, found the end of the file")

    def test_a_closed_standard_input_is_an_empty_one(self):
        ran = run(sys.executable, COMMAND, "plan", "-", program=["sh", "-c", 'exec "$@" <&-', "sh"])
        self.assert_told(ran, "standard input line 1: expected a mesh, found the end of the file")

    def test_a_mesh_that_is_not_utf_8_is_read_where_it_can_be_and_told_where_not(self):
        title = NAMED.encode().replace("ü".encode(), b"\xfc") + REFUSED.encode()
        ran = call("plan", self.file(title))
        self.assertEqual((ran.status, ran.errors), (3, b""))
        self.assertIn("From Z\N{REPLACEMENT CHARACTER}rich (A) to C, ".encode(), ran.output)
        name = self.file(b"site \xff\n")
        self.assert_told(call("plan", name), f'{name} line 1: expected a site\'s name, found "\N{REPLACEMENT CHARACTER}"')
        utf_16 = self.file(A.read_text(encoding="utf-8").encode("utf-16"))
        self.assertEqual(call("plan", utf_16).status, 2)


@contextlib.contextmanager
def not_as_root():
    """Root may read every file, so that where root runs the tests this part is run by nobody."""
    if os.geteuid() != 0:
        yield
        return
    os.seteuid(65534)
    try:
        yield
    finally:
        os.seteuid(0)


class Output(CommandTest):
    def redirected(self, redirection, *words):
        shell = ["sh", "-c", f'exec "$@" {redirection}', "sh"]
        return run(sys.executable, COMMAND, *words, program=shell, stdin=bytes.fromhex(A_HEX))

    def test_a_closed_standard_output_is_told(self):
        for words in (("plan", A), ("mend", A), ("mend", "--bytes", "-"), ("bytes", A), ("text",), ("--help",)):
            with self.subTest(words):
                self.assert_told(self.redirected(">&-", *words), "standard output is closed")

    def test_a_full_disk_is_told(self):
        mend = (("mend", A), ("mend", A, "--json"), ("mend", "--bytes", "-"))
        for words in (("plan", A), ("plan", A, "--json"), *mend, ("bytes", A), ("text",)):
            with self.subTest(words):
                self.assert_told(self.redirected(">/dev/full", *words), "standard output: No space left on device")

    def test_a_full_disk_is_told_by_help_and_version_too(self):
        for words in (("--help",), ("--version",), ("plan", "--help"), ("mend", "--help")):
            with self.subTest(words):
                self.assert_told(self.redirected(">/dev/full", *words), "standard output: No space left on device")

    def test_a_pipe_that_nobody_reads_is_told(self):
        reader, writer = os.pipe()
        os.close(reader)
        self.addCleanup(os.close, writer)
        ran = run("plan", A, stdout=writer)
        self.assertEqual((ran.status, ran.errors), (2, b"feshangul: standard output: Broken pipe\n"))

    def test_a_fault_is_not_written_to_standard_output_where_standard_error_is_closed(self):
        for words in (("plan", self.folder / "none"), ("mend", self.folder / "none"), ("frob",), ("plan", A, "--frob")):
            with self.subTest(words):
                self.assertEqual(self.redirected("2>&-", *words), Ran(2, b"", b""))

    def test_a_fault_has_its_status_where_standard_error_is_full(self):
        for words in (("plan", self.folder / "none"), ("mend", "--bytes", self.folder / "none")):
            with self.subTest(words):
                self.assertEqual(self.redirected("2>/dev/full", *words), Ran(2, b"", b""))


# ---- hostile words ----

HOSTILE = ("\x1b[31mred", "\x1b]0;title\x07", "\x7f", "\x9b31m", "a\rb", "\x00", "\x08\x08", "\u202eback")
HEAD = "site A\nsite B\nrisk R\n"
PLACES_IN_A_MESH = (
    "{}",
    "site {}",
    "site A {}",
    "site A 1 {}",
    'site A "{}"',
    'site A "{}',
    "risk {}",
    'risk R "{}"',
    "trench {}",
    'trench T "{}"',
    "request {}",
    HEAD + "span {} B 1 -",
    HEAD + "span A {} 1 -",
    HEAD + "arc A B {} -",
    HEAD + "span A B 1 {}",
    HEAD + "span A B 1 R,{}",
    HEAD + 'span A B 1 R "{}"',
    HEAD + 'span A B 1 R "" {}',
    HEAD + "span A B 1 R in {}",
    HEAD + "trench T\narc A B 1 - in T {}",
    HEAD + "closed {}",
    HEAD + "closed A {}",
    HEAD + "closed from {}",
    HEAD + "closed from A {}",
    HEAD + "closed from A to {}",
    HEAD + "closed in {}",
    HEAD + "arc A B 1 -\nclosed A B {}",
    HEAD + "arc A B 1 -\nclosed A B no. {}",
    HEAD + 'arc A B 1 -\nclosed A B "{}"',
    HEAD + "request A {}",
    HEAD + "request A B reach {}",
    HEAD + "request A B allowance {}",
    HEAD + "request A B apart {}",
    HEAD + "{}",
    "from {}",
    "from 0 {}",
    "from 0 to {}",
    "from 0 to 1 reach {}",
    "from 0 to 1 reach 1 allowance {}",
    "from 0 to 1 reach 1 allowance 1 {}",
    "from 0 to 1 reach 1 allowance 1 spare {}",
    "from 0 to 1 reach 1 allowance 1 apart {}",
    "from 0 to 1 reach 1 allowance 1\n{}",
    "from 0 to 1 reach 1 allowance 1\nclosed {}",
    "from 0 to 1 reach 1 allowance 1\nclosed 0 {}",
    "from 0 to 1 reach 1 allowance 1\nclosed 0,{}",
    "from 0 to 1 reach 1 allowance 1\n0: 0,{}",
    "from 0 to 1 reach 1 allowance 1\n0: 0,1,{}",
    "from 0 to 1 reach 1 allowance 1\n0: 0,1,1,{{{}",
    "from 0 to 1 reach 1 allowance 1\n0: 0,1,1,{0} {}",
    "from 0 to 1 reach 1 allowance 1\n0: 0,1,1,{0} span {}",
    "from 0 to 1 reach 1 allowance 1\n0: 0,1,1,{0} spare {}",
)
PLACES_ON_THE_LINE = (
    "{}",
    "--{}",
    "plan MESH {}",
    "plan MESH --{}",
    "plan MESH --from {}",
    "plan MESH --to {}",
    "plan MESH --reach {}",
    "plan MESH --allowance {}",
    "plan MESH --request {}",
    "plan MESH --closed {}",
    "plan MESH --json={}",
    "plan MESH --apart={}",
    "mend MESH {}",
    "mend MESH --{}",
    "mend MESH --bytes={}",
)
PLACES_OF_A_FILE = ("plan {}", "mend {}", "mend --bytes {}", "bytes {}", "text {}", "text --names {}")


def raw_controls(ran):
    """What a terminal would obey, of all that was written."""
    written = (ran.output + ran.errors).decode("utf-8", errors="surrogateescape")
    return [c for c in written if c != "\n" and not c.isprintable()]


def words_with(place, word):
    return [str(EUROPE) if part == "MESH" else part.replace("{}", word) for part in place.split(" ")]


class HostileWords(CommandTest):
    def assert_harmless(self, ran):
        self.assertEqual(ran.status, 2)
        self.assertEqual(ran.output, b"")
        self.assertEqual(raw_controls(ran), [])

    def assert_short(self, ran):
        self.assert_harmless(ran)
        self.assertLess(len(ran.errors.decode().splitlines()[-1]), 400)

    def test_a_mesh_cannot_write_to_the_terminal(self):
        for place in PLACES_IN_A_MESH:
            for word in HOSTILE:
                with self.subTest(place, word=word):
                    self.assert_harmless(call("plan", "-", stdin=place.replace("{}", word).encode()))
                    self.assert_harmless(call("mend", "-", stdin=place.replace("{}", word).encode()))

    def test_the_command_line_cannot_write_to_the_terminal(self):
        for place in PLACES_ON_THE_LINE + PLACES_OF_A_FILE:
            for word in HOSTILE:
                with self.subTest(place, word=word):
                    self.assert_harmless(call(*words_with(place, word), stdin=bytes.fromhex(A_HEX)))

    def test_the_name_of_a_file_cannot_write_to_the_terminal(self):
        for word in HOSTILE:
            if "\x00" not in word:
                with self.subTest(word):
                    self.assert_harmless(call("plan", self.file("site", word)))
                    self.assert_harmless(call("plan", self.file(NAMED, word)))
                    self.assert_harmless(call("text", self.file(b"torn", word)))
                    self.assert_harmless(call("text", "--names", self.file(example("A.txt"), word), stdin=bytes.fromhex(A_HEX)))

    def test_a_name_that_is_not_utf_8_is_shown_in_marks(self):
        ran = run("plan", os.fsencode(self.folder) + b"/\xff\x9b[31m.txt")
        self.assert_harmless(ran)
        self.assert_told(ran, rf"{self.folder}/\xdcff\xdc9b[31m.txt: No such file or directory")
        self.assert_harmless(run("plan", A, b"\xff\x1b[31m"))

    def test_a_long_word_of_a_mesh_is_cut(self):
        for place in PLACES_IN_A_MESH:
            if '"{}"' not in place or "closed" in place:  # a title may be long, but has to be one that is there
                with self.subTest(place):
                    self.assert_short(call("plan", "-", stdin=place.replace("{}", "@" * 5000).encode()))

    def test_a_long_word_of_the_command_line_is_cut(self):
        for place in PLACES_ON_THE_LINE:
            with self.subTest(place):
                self.assert_short(call(*words_with(place, "@" * 5000)))
        self.assert_told(
            call("plan", EUROPE, "--to", "@" * 5000),
            f'--to: expected a site of the mesh, found "{"@" * 40}..."',
        )

    def test_a_long_word_with_spaces_on_the_command_line_is_cut(self):
        for place in PLACES_ON_THE_LINE:
            with self.subTest(place):
                self.assert_short(call(*words_with(place, "@ " * 2500)))

    def test_the_long_name_of_a_file_is_cut(self):
        # Its end is shown: there stands what tells one file from another.
        for place in PLACES_OF_A_FILE:
            with self.subTest(place):
                self.assert_short(call(*words_with(place, "@" * 5000), stdin=bytes.fromhex(A_HEX)))
        self.assert_told(call("plan", "@" * 5000), f"...{'@' * 200}: File name too long")


# ---- what the command needs around it ----


class Planner(CommandTest):
    def test_the_program_of_the_release_gives_the_same_output(self):
        settings = {"FESHANGUL_SERVE": str(RELEASE / "feshangul-serve")}
        self.assertEqual(run("plan", A, settings=settings), Ran(0, A_OUTPUT, b""))
        self.assertEqual(run("plan", EUROPE, "--why", "--json", settings=settings), run("plan", EUROPE, "--why", "--json"))

    def test_the_program_of_the_release_gives_the_same_replies(self):
        # On x86-64 the library is loaded, and this is the only test of the program; elsewhere both are the program.
        with mock.patch.dict(os.environ, FESHANGUL_SERVE=str(RELEASE / "feshangul-serve")):
            served = library.planner.__wrapped__()
        self.addCleanup(served.close)
        self.assertIsInstance(served, library.Served)
        rng = random.Random(20)
        for number in range(300):
            mesh = small_mesh(rng) if number % 3 else damaged(rng, small_mesh(rng))
            r = mesh.requests[0]
            table = records.put_table(mesh.arcs) + (b"" if number % 29 else b"\0")  # now and then torn
            with self.subTest(number):
                asked = (table, r.source, r.terminal, r.reach, r.allowance)
                self.assertEqual(served.plan(*asked), library.planner().plan(*asked))
        self.assertEqual(served.plan(bytes(65536), 0, 1, 5, 1), (2, bytes(96)))

    def test_a_program_that_is_not_there_is_told(self):
        ran = run("plan", A, settings={"FESHANGUL_SERVE": "/nonexistent"})
        self.assertEqual((ran.status, ran.output, ran.errors.count(b"\n")), (2, b"", 1))
        self.assertTrue(ran.errors.startswith(b"feshangul: the program "))

    @unittest.skipUnless(library.X86_64, "the library is loaded on x86-64 alone")
    def test_a_library_that_is_not_there_is_told(self):
        ran = run("plan", A, settings={"FESHANGUL_LIBRARY": "/nonexistent/libfeshangul.so"})
        self.assertEqual((ran.status, ran.output, ran.errors.count(b"\n")), (2, b"", 1))
        self.assertTrue(ran.errors.startswith(b"feshangul: the planner's library cannot be loaded: "))

    @unittest.skipUnless(library.X86_64, "the library is loaded on x86-64 alone")
    def test_the_library_of_the_release_can_be_named(self):
        ran = run("plan", A, settings={"FESHANGUL_LIBRARY": str(RELEASE / "libfeshangul.so")})
        self.assertEqual(ran, Ran(0, A_OUTPUT, b""))

    def test_bytes_and_text_need_no_planner(self):
        ran = run("bytes", A, settings={"FESHANGUL_SERVE": "/nonexistent"})
        self.assertEqual(ran, Ran(0, bytes.fromhex(A_HEX), b""))


if __name__ == "__main__":
    unittest.main()
