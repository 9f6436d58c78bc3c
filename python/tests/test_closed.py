"""Closed arcs: as text by number and by name, planned around by the library and by the program beside it, on sheets, in JSON
and on the command line. What mending does to them is in test_mend."""

import json
import random
import struct
import sys
import types
import unittest
from dataclasses import replace
from itertools import combinations
from unittest import mock

import feshangul
from feshangul import answer, library, names, records, sheet, text, why
from feshangul.fault import InputFault, LibraryFault
from feshangul.line import Line
from feshangul.mesh import Arc, Mesh

from .shared import A_HEX, EXAMPLES, RELEASE, CommandTest, Ran, call, damaged, example, partly_closed, routes, run, small_mesh

A = text.read(example("A.txt"), "A.txt")
A1 = A.requests[0]
A_TEXT = text.write(A)


def read(written):
    return text.read(written, "mesh")


def subsets(numbers):
    return [frozenset(some) for size in range(len(numbers) + 1) for some in combinations(numbers, size)]


class FaultTest(unittest.TestCase):
    def assert_refused(self, message, written):
        with self.assertRaises(InputFault) as raised:
            read(written)
        self.assertEqual(str(raised.exception), f"mesh line {message}")


# ---- by number ----


class ByNumber(FaultTest):
    def test_arcs_are_closed_by_lines_anywhere_below_the_request(self):
        request, *arcs = A_TEXT.splitlines(keepends=True)
        for written in (
            A_TEXT + "closed 1,3\n",
            A_TEXT + "closed 3\nclosed 1\n",
            request + "closed 3,1\n" + "".join(arcs),
            request + "".join(arcs[:2]) + " closed\t1 # works\n" + "".join(arcs[2:]) + "\nclosed  003",
            A_TEXT.replace("\n", "\r\n") + "closed 1 , 3\r\n",
        ):
            with self.subTest(written):
                mesh = read(written)
                self.assertEqual((mesh.arcs, mesh.closed), (A.arcs, {1, 3}))
                self.assertEqual(text.write(mesh), A_TEXT + "closed 1,3\n")

    def test_every_number_that_a_set_has_room_for_can_be_closed(self):
        every = f"{A_TEXT}closed {','.join(map(str, range(128)))}\n"
        self.assertEqual(read(every).closed, set(range(128)))
        self.assertEqual(text.write(read(every)), every)

    def test_a_mesh_knows_where_each_is_closed(self):
        mesh = read(A_TEXT + "closed 1\n\nclosed 9,3\n")
        self.assertEqual(mesh.closed_lines, {1: 7, 9: 9, 3: 9})
        self.assertEqual(mesh, A.with_closed([1, 3, 9]))  # which is no part of what the mesh is

    def test_what_cannot_be_read_is_told_with_its_line(self):
        arc = "expected a closed arc from 0 to 127, found"
        for message, closed in (
            (f"7: {arc} the end of the line", "closed\n"),
            (f'7: {arc} "128"', "closed 128\n"),
            (f'7: {arc} "-1"', "closed -1\n"),
            (f'7: {arc} "A"', "closed A B\n"),
            (f'7: {arc} "{{3}}"', "closed {3}\n"),
            (f"7: {arc} the end of the line", "closed 3,\n"),
            (f'7: {arc} ",7"', "closed 3,,7\n"),
            ('7: expected the end of the line, found "7"', "closed 3 7\n"),
            ("7: expected each closed arc once, found 3 again", "closed 3,1,3\n"),
            ("8: arc 3 is closed on line 7 already", "closed 3,1\nclosed 0,3\n"),
            ("9: arc 9 is closed on line 7 already", "closed 9\n\nclosed 9\n"),
            ('7: expected arc number 5, or "closed", found "close"', "close 3\n"),
            ('7: expected arc number 5, or "closed", found "closed3"', "closed3\n"),
        ):
            with self.subTest(closed):
                self.assert_refused(message, A_TEXT + closed)

    def test_the_request_stands_above(self):
        kinds = '"from", or one of "site", "risk", "trench", "span", "arc", "request"'
        self.assert_refused(f'1: expected {kinds}, found "closed"', "closed 3\n" + A_TEXT)

    def test_500_random_meshes_are_written_as_they_stand(self):
        rng = random.Random(60)
        for number in range(500):
            mesh = small_mesh(rng)
            closed = sorted(rng.sample(range(rng.choice((len(mesh.arcs), 128))), 1 + rng.randrange(len(mesh.arcs))))
            written = f"{text.write(mesh)}closed {','.join(map(str, closed))}\n"
            with self.subTest(number):
                self.assertEqual(text.write(read(written)), written)
                self.assertEqual(read(written), mesh.with_closed(closed))


# ---- by name ----

SITES = "site A\nsite B\nsite C\nsite D\ntrench T\ntrench EMPTY\n"
# Between A and B four lines: arcs 0 and 1, 2 and 3, 4, 5 and 6; between B and C one, arcs 7 and 8; from C to A arc 9.
LINES = 'span A B 1m - in T\nspan B A 2m - "Trunk"\narc B A 3m -\nspan A B 4m - "Trunk"\nspan B C 5m -\narc C A 6m - in T\n'
MESH = read(SITES + LINES)
IN = "site in\nsite from\nsite X\ntrench from\n"


class ByName(FaultTest):
    def test_what_each_line_closes(self):
        for closed, arcs in (
            ("A B", {0, 1, 2, 3, 4, 5, 6}),
            ("B A", {0, 1, 2, 3, 4, 5, 6}),
            ('A B "Trunk"', {2, 3, 5, 6}),
            ("A B no. 1", {0, 1}),
            ("A B no. 2", {2, 3}),
            ("B A no.3", {4}),
            ("A B no. 4", {5, 6}),
            ("B C", {7, 8}),
            ("C B no. 1", {7, 8}),
            ("A C", {9}),
            ("in T", {0, 1, 9}),
            ("from A to B", {0, 3, 5}),
            ("from B to A", {1, 2, 4, 6}),
            ('from A to B "Trunk"', {3, 5}),
            ("from B to A no. 3", {4}),
            ("from C to A", {9}),
        ):
            with self.subTest(closed):
                self.assertEqual(read(f"{SITES}{LINES}closed {closed}\n"), MESH.with_closed(arcs))
                self.assertEqual(read(f"{SITES}closed {closed}\n{LINES}"), MESH.with_closed(arcs))  # lines below too
                line = Line(closed)
                self.assertEqual((set(text.read_closed(line, MESH)), line.is_empty()), (arcs, True))

    def test_the_number_is_that_of_the_sheet(self):
        self.assertEqual([MESH.cable(arc) for arc in (0, 4)], ["A-B no. 1", "B-A no. 3"])

    def test_lines_close_more_and_more(self):
        mesh = read(f"{SITES}{LINES}closed B C\nclosed in T\nclosed from A to B no. 2\n")
        self.assertEqual(mesh, MESH.with_closed({0, 1, 3, 7, 8, 9}))
        self.assertEqual(mesh.closed_lines, {7: 13, 8: 13, 0: 14, 1: 14, 9: 14, 3: 15})

    def test_what_is_closed_is_written_wide_where_it_is_and_each_arc_once(self):
        for arcs, closed in (
            ({0, 1, 9}, ["in T"]),
            ({0, 1}, ["A B no. 1"]),
            ({9}, ["C A"]),
            ({0, 1, 2, 3, 4, 5, 6}, ["A B"]),
            ({0, 1, 2, 3, 4, 5, 6, 9}, ["in T", 'B A "Trunk"', "B A no. 3"]),
            ({2, 3, 5, 6}, ['B A "Trunk"']),
            ({2, 3}, ["B A no. 2"]),
            ({5, 6}, ["A B no. 4"]),
            ({4}, ["B A no. 3"]),
            ({0}, ["from A to B no. 1"]),
            ({1, 2, 4, 6}, ["from B to A"]),
            ({1, 2, 4}, ["from B to A no. 1", "from B to A no. 2", "B A no. 3"]),
            ({3, 5}, ['from A to B "Trunk"']),
            ({7}, ["from B to C"]),
            ({8}, ["from C to B"]),
            ({7, 8}, ["B C"]),
        ):
            with self.subTest(arcs):
                written = "".join(f"closed {line}\n" for line in closed)
                self.assertEqual(text.write(MESH.with_closed(arcs)), SITES + LINES + written)

    def test_all_1024_sets_of_closed_arcs_are_written_and_read_back(self):
        for closed in subsets(range(10)):
            with self.subTest(closed):
                mesh = MESH.with_closed(closed)
                self.assertEqual(read(text.write(mesh)), mesh)

    def test_closed_stands_before_the_requests(self):
        request = "request A C reach 9km allowance 1\n"
        written = f"{SITES}{LINES}closed B C\n{request}"
        self.assertEqual(text.write(read(f"{SITES}{LINES}{request}closed B C\n")), written)

    def test_a_site_called_in_or_from_stands_second(self):
        mesh = read(f"{IN}span in X 1m -\nspan from X 1m -\narc X in 1m -\narc X from 1m - in from\n")
        for closed, arcs in (("X in", {0, 1, 4}), ("X from no. 1", {2, 3}), ("in from", {5}), ("from from to X", {2})):
            with self.subTest(closed):
                self.assertEqual(text.read_closed(Line(closed), mesh), sorted(arcs))
                self.assertIn(f"\nclosed {closed}\n", text.write(mesh.with_closed(arcs)))
        for closed in subsets(range(6)):
            self.assertEqual(read(text.write(mesh.with_closed(closed))), mesh.with_closed(closed))

    def test_what_is_between_the_sites_called_in_and_from_is_closed_one_way_and_the_other(self):
        mesh = read(f"{IN}span in from 1m -\n").with_closed({0, 1})
        self.assertTrue(text.write(mesh).endswith("\nclosed from in to from\nclosed from from to in\n"))
        self.assertEqual(read(text.write(mesh)), mesh)

    def test_lines_that_no_text_has_are_closed_as_they_are_written(self):
        # Of the first line the ways there and back differ, and those of the second stand apart: each becomes two lines.
        none = frozenset()
        arcs = (Arc(0, 1, 5, none, 7, 0), Arc(0, 1, 5, none, 0, 1), Arc(1, 0, 6, none, 7, 0), Arc(1, 0, 5, none, 0, 1))
        mesh = replace(read("site A\nsite B\n"), arcs=arcs, cables=("first", None))
        order = [0, 2, 1, 3]  # line by line
        for closed in subsets(range(4)):
            with self.subTest(closed):
                back = read(text.write(mesh.with_closed(closed)))
                self.assertEqual([arc.metres for arc in back.arcs], [5, 6, 5, 5])
                self.assertEqual(back.closed, {order.index(number) for number in closed})

    def test_a_closed_number_past_the_table_is_not_written_by_name(self):
        with self.assertRaises(InputFault) as raised:
            text.write(MESH.with_closed({3, 10, 127}))
        told = "arc 127 is closed, and no span or arc has that number: it cannot be written by name"
        self.assertEqual(str(raised.exception), told)

    def test_what_cannot_be_read_is_told_with_its_line(self):
        site = 'expected a site that a line "site .." above declares, found'
        trench = 'expected a trench that a line "trench .." above declares, found'
        for message, closed in (
            ('expected two sites, or "in" and a trench, found the end of the line', ""),
            ("expected a site, found the end of the line", "A"),
            ('expected a site, found ",B"', "A,B"),
            (f'{site} "3"', "3,7"),
            (f'{site} "a"; is "A" meant?', "a B"),
            (f'{site} "T"', "A T"),
            ("expected two different sites", "A A"),
            ("expected two different sites", "from B to B"),
            ("expected a span or an arc between B and D, found none", "B D"),
            ("expected a span or an arc between D and A, found none", 'D A "Trunk"'),
            ("expected a span or an arc between D and A, found none", "from D to A no. 1"),
            (
                'expected the title of a span or an arc between A and B, found "trunk"; is "Trunk" meant?',
                'A B "trunk"',
            ),
            ('expected the title of a span or an arc between B and C, found "Trunk"', 'B C "Trunk"'),
            ('expected the title of a span or an arc between B and C, found ""', 'B C ""'),
            ("expected no. 1 to 4 of what is between B and A, found no. 5", "B A no. 5"),
            ("expected no. 1 to 4 of what is between A and B, found no. 0", "A B no. 0"),
            ('expected a number from 1 on, found "-1"', "A B no. -1"),
            ("expected a number from 1 on, found the end of the line", "A B no."),
            ('expected the end of the line, found "no"', "A B no 2"),
            ('expected the end of the line, found "no."', 'A B "Trunk" no. 1'),
            ('expected the end of the line, found ""Trunk""', 'A B no. 1 "Trunk"'),
            ("expected a quote at the end of the title, found the end of the line", 'A B "Trunk'),
            ("expected an arc from A to C, found the way back alone", "from A to C"),
            ("expected an arc from A to B, found the way back alone", "from A to B no. 3"),
            ('expected "to", found "B"', "from A B"),
            ('expected "to", found the end of the line', "from A"),
            ("expected a site, found the end of the line", "from A to"),
            (f'{trench} "A"', "in A"),
            (f'{trench} "TT"; is "T" meant?', "in TT"),
            ("expected a trench, found the end of the line", "in"),
            ('expected a span or an arc "in EMPTY", found none', "in EMPTY"),
            ('expected the end of the line, found "A"', "in T A B"),
            ('expected the end of the line, found ",C"', "A B,C"),
        ):
            with self.subTest(closed):
                self.assert_refused(f"13: {message}", f"{SITES}{LINES}closed {closed}\n")

    def test_names_are_declared_above(self):
        self.assert_refused(
            '2: expected a site that a line "site .." above declares, found "B"',
            "site A\nclosed A B\nsite B\nspan A B 1 -\n",
        )
        self.assert_refused(
            '3: expected a trench that a line "trench .." above declares, found "T"',
            "site A\nsite B\nclosed in T\ntrench T\nspan A B 1 - in T\n",
        )

    def test_what_is_closed_already_is_told(self):
        for message, closed in (
            ("14: B-C is closed on line 13 already", "closed B C\nclosed C B\n"),
            ("14: A-B no. 1 is closed on line 13 already", "closed in T\nclosed A B\n"),
            ("15: C-A is closed on line 13 already", "closed from C to A\n\nclosed in T\n"),
            ("14: Trunk (B-A) is closed on line 13 already", 'closed A B no. 2\nclosed A B "Trunk"\n'),
        ):
            with self.subTest(closed):
                self.assert_refused(message, SITES + LINES + closed)

    def test_500_random_tables_by_name_have_the_same_arcs_closed(self):
        rng = random.Random(61)
        named = read("".join(f"site N{n}\n" for n in range(8)) + "".join(f"risk R{n}\n" for n in range(64)))
        for number in range(500):
            mesh = small_mesh(rng)
            ways_back = tuple(replace(arc, tail=arc.head, head=arc.tail) for arc in mesh.arcs)
            both = tuple(arc for arcs in zip(mesh.arcs, ways_back) for arc in arcs)
            mesh = partly_closed(rng, replace(mesh, arcs=rng.choice((mesh.arcs, both))))
            back = read(text.write(names.given(mesh, named, "names.txt")))
            with self.subTest(number):
                self.assertEqual((back.closed, len(back.arcs)), (mesh.closed, len(mesh.arcs)))


class NamesForBytes(FaultTest):
    def test_what_is_closed_stays_and_what_the_names_close_is_left(self):
        named = read(SITES + LINES + "closed B C\n")
        request = replace(A1, source=0, terminal=2)
        same = Mesh(tuple(replace(arc, cable=None) for arc in named.arcs), (request,))
        other = replace(same, arcs=same.arcs[:-1])
        for mesh in (same, other):
            for closed in (set(), {0, 3}):
                given = names.given(mesh.with_closed(closed), named, "names.txt")
                self.assertEqual((given.closed, given.closed_lines), (closed, {}))

    def test_a_closed_number_past_the_table_is_told(self):
        mesh = Mesh((Arc(0, 1, 5, frozenset()),), (A1,)).with_closed({0, 1})
        with self.assertRaises(InputFault) as raised:
            names.given(mesh, MESH, "names.txt")
        told = "what the planner refuses cannot be written by name: arc 1: closed, but the table has only arc 0"
        self.assertEqual(str(raised.exception), told)


# ---- the planner ----

# Mesh A with arc 1 closed, as examples/G.txt works it: risk 3 shared, which is the floor, two mains, 3,000 and 5,000 m.
G_REPLY = (
    struct.pack("<6B2x3I4xQ", 0, 1, 1, 3, 2, 0, 2, 3000, 5000, 1 << 3)
    + bytes([0, 4, 3]).ljust(32, b"\xff")
    + bytes([2, 3]).ljust(32, b"\xff")
)
A_TABLE = bytes.fromhex(A_HEX)[16:]
A_ASKED = (0, 3, 10_000, 1000)


def replied(mesh, closed):
    """The number and the bytes that the planner gives for the only request of a mesh, around these bytes."""
    (r,) = mesh.requests
    return library.planner().plan(records.put_table(mesh.arcs), r.source, r.terminal, r.reach, r.allowance, closed)


class Planned(unittest.TestCase):
    def assert_listed(self, mesh):
        """What is planned is what a plain listing of the open routes says, as far as that goes without judging pairs."""
        request = mesh.requests[0]
        found = answer.plan(mesh, request)
        within = [(arcs, carried) for metres, arcs, carried in routes(mesh, request) if metres <= request.reach]
        self.assertEqual(found.number == 10, not within)
        if within:
            carried = [carried for _, carried in within]
            self.assertEqual(found.floor, len(frozenset.intersection(*carried)))
            self.assertEqual(found.shared, min(len(a & b) for a in carried[: request.allowance] for b in carried))
            self.assertTrue({found.main.arcs, found.standby.arcs} <= {arcs for arcs, _ in within})
        return found

    def test_the_set_is_16_bytes_lowest_bit_first(self):
        for closed, written in (
            ({0}, "01" + "00" * 15),
            ({3, 7}, "88" + "00" * 15),
            ({8, 9}, "0003" + "00" * 14),
            ({127}, "00" * 15 + "80"),
            (set(range(128)), "ff" * 16),
        ):
            with self.subTest(written):
                self.assertEqual(records.put_closed(closed).hex(), written)

    def test_the_planner_gives_the_reply_worked_by_hand(self):
        self.assertEqual(library.planner().plan(A_TABLE, *A_ASKED, b"\x02" + bytes(15)), (0, G_REPLY))

    def test_mesh_a_with_each_of_its_32_sets_is_planned_as_a_plain_listing_says(self):
        numbers = set()
        for closed in subsets(range(5)):
            with self.subTest(closed):
                numbers.add(self.assert_listed(A.with_closed(closed)).number)
        self.assertEqual(numbers, {0, 10})

    def test_mesh_a_with_some_arcs_closed(self):
        for closed, lines in (
            ({1}, "settled 1 1 2\nmain 3 0 4 3\nstandby 5 2 3\n"),
            ({4}, "settled 0 0 1\nmain 5 0 1\nstandby 5 2 3\n"),
            ({0}, "settled 2 2 1\nmain 5 2 3\nstandby 5 2 3\n"),
            ({2}, "settled 1 1 2\nmain 3 0 4 3\nstandby 5 0 1\n"),
            ({0, 2}, "refused 10\n"),
            ({1, 3}, "refused 10\n"),
        ):
            with self.subTest(closed):
                self.assertEqual(sheet.lines(answer.plan(A.with_closed(closed), A1)), lines)

    def test_500_random_meshes_are_planned_as_a_plain_listing_says(self):
        rng = random.Random(62)
        numbers, other = [], 0
        for number in range(500):
            mesh = small_mesh(rng)
            with self.subTest(number):
                found = self.assert_listed(partly_closed(rng, mesh))
                numbers.append(found.number)
                other += sheet.lines(found) != sheet.lines(answer.plan(mesh, mesh.requests[0]))
        self.assertEqual(set(numbers), {0, 1, 10})
        self.assertGreater(other, 100)

    def test_a_set_of_zeros_answers_as_before(self):
        rng = random.Random(63)
        for number in range(300):
            mesh = small_mesh(rng) if number % 3 else damaged(rng, small_mesh(rng))
            with self.subTest(number):
                self.assertEqual(replied(mesh, bytes(16)), replied(mesh, None))

    def test_closing_what_is_on_no_route_within_reach_answers_as_before(self):
        rng = random.Random(66)
        closed_some = 0
        for number in range(300):
            mesh = small_mesh(rng)
            request = mesh.requests[0]
            taken = {arc for metres, arcs, _ in routes(mesh, request) if metres <= request.reach for arc in arcs}
            closed = set(range(len(mesh.arcs))) - taken
            closed_some += bool(closed and taken)
            with self.subTest(number):
                self.assertEqual(replied(mesh, records.put_closed(closed)), replied(mesh, None))
        self.assertGreater(closed_some, 100)

    def test_closed_arcs_are_checked_for_faults(self):
        mesh = read(A_TEXT + "5: 7,7,5,{}\nclosed 5\n")
        found = answer.plan(mesh, A1)
        self.assertEqual((found.number, found.words, found.line), (5 * 256 + 21, "arc 5, line 7: both ends are node 7", 7))

    def test_sixteen_comes_after_the_faults_of_arcs_and_before_no_route(self):
        past, fault = b"\x40" + bytes(15), b"\x28" + A_TABLE[1:]
        for number, table, asked, closed in (
            (16, A_TABLE, A_ASKED, past),
            (16, A_TABLE, A_ASKED, bytes(15)),
            (16, A_TABLE, A_ASKED, bytes(17)),
            (16, A_TABLE, A_ASKED, b""),
            (16, A_TABLE, (3, 0, 10_000, 1000), past),
            (16, b"", A_ASKED, b"\x01" + bytes(15)),
            (16, A_TABLE * 25, A_ASKED, bytes(15) + b"\x80"),
            (10, A_TABLE, (3, 0, 10_000, 1000), b"\x1f" + bytes(15)),
            (20, fault, A_ASKED, past),
            (20, fault, A_ASKED, b""),
            (8, A_TABLE, (0, 3, 10_000, 0), past),
            (7, A_TABLE, (0, 3, 62_000_001, 1), bytes(17)),
            (6, A_TABLE, (3, 3, 10_000, 1), past),
            (5, A_TABLE, (0, 32, 10_000, 1), past),
            (3, A_TABLE[:-1], A_ASKED, past),
            (2, A_TABLE * 26, A_ASKED, bytes(17)),
        ):
            with self.subTest(number, closed=closed.hex()):
                self.assertEqual(library.planner().plan(table, *asked, closed), (number, bytes(96)))

    def test_a_closed_number_past_the_table_is_told_with_its_line_and_of_several_the_lowest(self):
        mesh = read(A_TEXT + "closed 2,127\nclosed 9\n\nclosed 8,10\n")
        found = answer.plan(mesh, A1)
        self.assertEqual((found.verdict, found.number, found.arc, found.line), ("refused", 16, 8, 10))
        self.assertEqual(found.words, "arc 8, line 10: closed, but the table has only arcs 0 to 4")

    def test_a_closed_number_past_the_table_is_told_without_a_line_where_there_is_none(self):
        for arcs, has in ((0, "no arc"), (1, "only arc 0"), (2, "only arcs 0 to 1")):
            with self.subTest(arcs):
                found = answer.plan(Mesh(A.arcs[:arcs]).with_closed({5}), A1)
                self.assertEqual((found.number, found.arc, found.line), (16, 5, None))
                self.assertEqual(found.words, f"arc 5: closed, but the table has {has}")

    def test_no_route_is_told_of_open_arcs(self):
        for closed, words in (
            (set(), "no route from source to terminal is within reach"),
            ({1}, "no route over open arcs from source to terminal is within reach"),
        ):
            self.assertEqual(answer.plan(A.with_closed(closed), replace(A1, reach=2999)).words, words)

    def test_a_number_that_no_set_can_hold_is_told_and_not_cut(self):
        for closed in ({128}, {0, 2**32}, {-1}):
            with self.subTest(closed), self.assertRaises(feshangul.InputFault) as raised:
                feshangul.plan(A.with_closed(closed), A1)
            told = "an arc is closed whose number no closed set can hold: arcs are 0 to 127"
            self.assertEqual(str(raised.exception), told)

    def test_what_the_package_names_plans_around(self):
        mesh = feshangul.Mesh(A.arcs, closed=frozenset({1}))
        self.assertEqual(mesh, feshangul.Mesh(A.arcs).with_closed([1]))
        self.assertEqual(feshangul.plan(mesh, A1).main.arcs, (0, 4, 3))


class Replies(unittest.TestCase):
    def plan_with(self, number, reply, closed):
        fake = mock.Mock()
        fake.plan.return_value = (number, reply)
        with mock.patch("feshangul.answer.planner", return_value=fake):
            return answer.plan(A.with_closed(closed), A1), fake.plan.call_args[0]

    def test_the_set_goes_to_the_planner_and_none_where_nothing_is_closed(self):
        self.assertEqual(self.plan_with(0, G_REPLY, set())[1], (A_TABLE, *A_ASKED, None))
        self.assertEqual(self.plan_with(0, G_REPLY, {1})[1], (A_TABLE, *A_ASKED, b"\x02" + bytes(15)))

    def test_a_closed_arc_on_a_route_is_noticed(self):
        for closed, arc in (({0}, 0), ({1, 4}, 4), ({2}, 2), ({3, 1}, 3)):
            with self.subTest(closed), self.assertRaises(LibraryFault) as raised:
                self.plan_with(0, G_REPLY, closed)
            told = f"the library's reply does not fit this mesh (it has arc {arc}, which is closed): is it of another version?"
            self.assertEqual(str(raised.exception), told)

    def test_sixteen_where_every_closed_arc_is_in_the_table_is_noticed(self):
        for closed in (set(), {4}):
            with self.subTest(closed), self.assertRaises(LibraryFault) as raised:
                self.plan_with(16, bytes(96), closed)
            self.assertIn("(it has number 16, which is not that of its closed arcs)", str(raised.exception))


class Library(unittest.TestCase):
    def test_where_nothing_is_closed_the_call_is_the_old_one(self):
        names_of_entries = ("plan", "mend", "plan_around", "plan_apart")
        entries = {f"feshangul_{name}": mock.Mock(return_value=7) for name in names_of_entries}
        with mock.patch("ctypes.CDLL", return_value=types.SimpleNamespace(**entries)):
            loaded = library.Loaded("libfeshangul.so")
        plan, around = entries["feshangul_plan"], entries["feshangul_plan_around"]
        self.assertEqual(loaded.plan(A_TABLE, *A_ASKED), (7, bytes(96)))
        self.assertEqual((plan.call_args[0][:2], plan.call_args[0][3:]), ((A_TABLE, 80), (96, *A_ASKED)))
        self.assertEqual(around.call_count, 0)
        self.assertEqual(loaded.plan(A_TABLE, *A_ASKED, bytes(16)), (7, bytes(96)))
        self.assertEqual((around.call_args[0][:4], around.call_args[0][5:]), ((A_TABLE, 80, bytes(16), 16), (96, *A_ASKED)))
        self.assertEqual(plan.call_count, 1)

    def test_a_library_of_an_older_release_is_told(self):
        old = types.SimpleNamespace(feshangul_plan=mock.Mock(), feshangul_mend=mock.Mock())
        with mock.patch("ctypes.CDLL", return_value=old), self.assertRaises(LibraryFault) as raised:
            library.Loaded("libfeshangul.so")
        self.assertRegex(str(raised.exception), "^the planner's library cannot be loaded: .*feshangul_plan_around")


# ---- served ----

# A program in place of host/serve: it answers with the first 96 bytes of what came, and with how many came as its number.
ECHO = """
import sys
case = sys.stdin.buffer.read(int(sys.argv[1]))
sys.stdout.buffer.write(len(case).to_bytes(4, "little") + case[:96].ljust(96, b"."))
sys.stdout.flush()
"""


class Served(CommandTest):
    SETTINGS = {"FESHANGUL_SERVE": str(RELEASE / "feshangul-serve")}

    def echoed(self, length, *asked):
        served = library.Served([sys.executable, "-c", ECHO, str(length)])
        self.addCleanup(served.close)
        return served.plan(*asked)

    def test_a_case_with_a_closed_set_is_of_kind_2(self):
        table, closed = bytes(range(16)) * 2, bytes(range(100, 116))
        case = struct.pack("<8I", 2, 32, 16, 96, 0, 3, 10_000, 1000) + table + closed
        self.assertEqual(self.echoed(len(case), table, *A_ASKED, closed), (80, case.ljust(96, b".")))

    def test_a_case_without_one_is_of_kind_0(self):
        case = struct.pack("<7I", 0, 16, 96, 0, 3, 10_000, 1000) + bytes(range(16))
        self.assertEqual(self.echoed(len(case), bytes(range(16)), *A_ASKED), (44, case.ljust(96, b".")))

    def test_a_table_that_is_too_long_is_cut_before_the_closed_set(self):
        head = struct.pack("<8I", 2, 2049, 16, 96, 0, 3, 10_000, 1000)
        number, reply = self.echoed(32 + 2049 + 16, bytes(65536), *A_ASKED, b"\xff" * 16)
        self.assertEqual((number, reply[:32]), (32 + 2049 + 16, head))

    def test_the_program_of_the_release_gives_the_same_replies(self):
        # On x86-64 the library is loaded, and this is the only test of the program; elsewhere both are the program.
        with mock.patch.dict("os.environ", self.SETTINGS):
            served = library.planner.__wrapped__()
        self.addCleanup(served.close)
        rng = random.Random(64)
        for number in range(300):
            mesh = partly_closed(rng, small_mesh(rng) if number % 3 else damaged(rng, small_mesh(rng)))
            r = mesh.requests[0]
            table = records.put_table(mesh.arcs) + (b"" if number % 29 else b"\0")  # now and then torn
            closed = records.put_closed(mesh.closed)[: 15 if number % 31 == 0 else 16] + bytes(number % 37 == 0)
            with self.subTest(number):
                asked = (table, r.source, r.terminal, r.reach, r.allowance, closed)
                self.assertEqual(served.plan(*asked), library.planner().plan(*asked))
        self.assertEqual(served.plan(bytes(65536), 0, 1, 5, 1, bytes(16)), (2, bytes(96)))
        self.assertEqual(served.plan(A_TABLE, *A_ASKED, b"\x02" + bytes(15)), (0, G_REPLY))

    def test_the_program_of_the_release_gives_the_same_output(self):
        words = ("plan", EXAMPLES / "G.txt", "--why")
        self.assertEqual(run(*words, settings=self.SETTINGS), run(*words))
        self.assertEqual(run(*words).output[: len(b"settled 1 1 2\n")], b"settled 1 1 2\n")


# ---- the sheet ----

G_SHEET = """\
From node 0 to node 3, each route within 10,000 m.
Closed, and so on no route: arc 1 from node 1 to node 3.
Settled after 2 mains: no pair within this reach shares fewer, and none that shares as few is shorter. \
No larger allowance changes this pair.
Shared by both routes: 1 risk: risk 3; no known span.
On every route within this reach, and so in every pair: 1 risk: risk 3; no known span.
Both routes pass 1 site (node 2) and 1 arc of no known span, which is not counted (arc 3).
Main: 3,000 m, 3 km: node 0, node 1, node 2, node 3.
  node 0 to node 1: 1,000 m by arc 0; risk 0
  node 1 to node 2: 1,000 m by arc 4; risk 4
  node 2 to node 3: 1,000 m by arc 3; risk 3
Standby: 5,000 m, 5 km: node 0, node 2, node 3.
  node 0 to node 2: 4,000 m by arc 2; risk 2
  node 2 to node 3: 1,000 m by arc 3; risk 3
Together 8,000 m.
"""


class Sheets(unittest.TestCase):
    maxDiff = None

    def planned(self, written, **change):
        mesh = read(written)
        return answer.plan(mesh, replace(mesh.requests[0], **change))

    def assert_closed(self, told, written):
        lines = sheet.words(self.planned(written)).splitlines()
        self.assertEqual(lines[1], f"Closed, and so on no route: {told}.")

    def test_what_is_closed_is_told_below_what_is_asked(self):
        self.assertEqual(sheet.words(self.planned(example("G.txt"))), G_SHEET)

    def test_where_nothing_is_closed_nothing_is_told(self):
        self.assertNotIn("Closed", sheet.words(self.planned(A_TEXT)))

    def test_a_refusal_tells_it_too(self):
        self.assertEqual(
            sheet.words(self.planned(A_TEXT + "closed 0,2\n")),
            """\
From node 0 to node 3, each route within 10,000 m.
Closed, and so on no route: arc 0 from node 0 to node 1; arc 2 from node 0 to node 2.
Refused, number 10: no route over open arcs from source to terminal is within reach.
""",
        )

    def test_a_closed_number_past_the_table_is_told_and_not_sent_to_be_mended(self):
        self.assertEqual(
            sheet.words(self.planned(A_TEXT + "closed 3,9\n")),
            """\
From node 0 to node 3, each route within 10,000 m.
Closed, and so on no route: arc 3 from node 2 to node 3; arc 9, which is past the table.
Refused, number 16: arc 9, line 7: closed, but the table has only arcs 0 to 4.
""",
        )

    def test_a_faulty_arc_that_is_closed_is_sent_to_be_mended(self):
        found = sheet.words(self.planned(A_TEXT + "5: 40,1,5,{} span 7\nclosed 5\n"))
        self.assertEqual(
            found.splitlines()[1:],
            [
                "Closed, and so on no route: arc 5 in span 7 from node 40 to node 1.",
                "Refused, number 1300: arc 5, line 7: tail node 40 is over 31.",
                "`feshangul mend` takes such arcs out.",
            ],
        )

    def test_by_name_a_line_is_told_once_with_its_arcs(self):
        for told, closed in (
            ("A-B no. 1 in T, arcs 0 and 1; C-A in T, arc 9 from C to A", "closed in T\n"),
            ("Trunk (B-A), arcs 2 and 3; Trunk (A-B), arcs 5 and 6", 'closed A B "Trunk"\n'),
            ("B-A no. 3, arc 4 from B to A; B-C, arc 8 from C to B", "closed A B no. 3\nclosed from C to B\n"),
        ):
            with self.subTest(closed):
                self.assert_closed(told, f"{SITES}{LINES}{closed}request A D\n")

    def test_only_open_arcs_have_to_have_a_known_span(self):
        arcs = "0: 0,1,1,{0,1} span 1\n1: 0,1,1,{1,2} span 2\n2: 0,1,1,{0,2} span 3\n3: 0,1,1,{3}\n"
        request = "from 0 to 1 reach 9 allowance 9\n"
        for closed, span in (("", "known span"), ("closed 3\n", "span")):
            found = sheet.words(self.planned(request + arcs + closed)).splitlines()
            self.assertIn(f"On every route within this reach: no risk and no {span}.", found)


class Why(unittest.TestCase):
    def test_the_least_reach_is_over_open_arcs(self):
        for told, closed, reach in (
            ("The least reach at which fewer are shared is 5,000 m, 1 m more: 1 then.\n", {1}, 4999),
            ("The least reach with a route is 5,000 m, 1 m more.\n", {4}, 4999),
            ("No reach brings a route: none leads from one to the other over open arcs.\n", {0, 2}, 4999),
            ("No larger reach shares fewer.\n", {1}, 10_000),
        ):
            with self.subTest(told):
                self.assertEqual(why.words(answer.plan(A.with_closed(closed), replace(A1, reach=reach))), told)

    def test_the_least_reach_with_a_route_of_200_random_meshes_is_the_shortest_open_one(self):
        rng = random.Random(65)
        refused = 0
        for number in range(200):
            mesh = partly_closed(rng, small_mesh(rng))
            found = answer.plan(mesh, replace(mesh.requests[0], reach=0))
            ranking = routes(mesh, mesh.requests[0])
            if found.number == 10:
                refused += 1
                with self.subTest(number):
                    self.assertEqual(why.least_reach(found).reach, ranking[0][0] if ranking else None)
        self.assertGreater(refused, 100)


# ---- the command ----


class Command(CommandTest):
    def lines(self, *words, stdin=b""):
        """The lines of the only request, and what the sheet says of closed arcs."""
        ran = call("plan", *words, stdin=stdin)
        self.assertEqual(ran.errors, b"")
        told = [line for line in ran.output.decode().splitlines() if line.startswith("Closed")]
        return ran.output.decode().split("\n\n")[0].splitlines(), told

    def test_the_example_is_planned_around_what_it_closes(self):
        lines, told = self.lines(EXAMPLES / "G.txt")
        self.assertEqual(lines, ["settled 1 1 2", "main 3 0 4 3", "standby 5 2 3"])
        self.assertEqual(told, ["Closed, and so on no route: arc 1 from node 1 to node 3."])

    def test_the_example_with_more_closed_is_what_its_comment_tells(self):
        for words, first in (
            (("--closed", "4"), ["settled 2 2 1", "main 5 2 3", "standby 5 2 3"]),
            (("--closed", "3"), ["refused 10"]),
            (("--closed", "5"), ["refused 16"]),
        ):
            with self.subTest(words):
                self.assertEqual(self.lines(EXAMPLES / "G.txt", *words)[0], first)
        without = example("G.txt").replace("\nclosed 1\n", "\n")
        self.assertEqual(self.lines("-", stdin=without.encode()), self.lines(EXAMPLES / "A.txt"))

    def test_the_option_closes_what_a_line_would(self):
        for words, line in (
            (("--closed", "1"), "closed 1"),
            (("--closed", "4,1"), "closed 1,4"),
            (("--closed", "4", "--closed", "1"), "closed 1\nclosed 4"),
        ):
            with self.subTest(words):
                written = self.file(f"{A_TEXT}{line}\n")
                self.assertEqual(call("plan", EXAMPLES / "A.txt", *words), call("plan", written))
                self.assertEqual(call("plan", written, *words), call("plan", written))  # closed twice is closed
        europe = (EXAMPLES / "europe.txt").read_text(encoding="utf-8")
        for words, line in (
            (("--closed", "LON AMS"), "closed LON AMS"),
            (("--closed", "from VIE to FRA", "--closed", "FRA MUN no. 1"), "closed FRA MUN\nclosed from VIE to FRA"),
        ):
            with self.subTest(words):
                written = self.file(f"{europe}{line}\n")
                self.assertEqual(call("plan", EXAMPLES / "europe.txt", "--why", *words), call("plan", "--why", written))

    def test_europe_without_the_north_sea_has_the_tunnel_on_every_route(self):
        lines, told = self.lines(EXAMPLES / "europe.txt", "--closed", "LON AMS")
        self.assertEqual(lines, ["settled 1 1 2", "main 1497 2 10 20", "standby 1703 0 6 14 18"])
        self.assertEqual(told, ["Closed, and so on no route: LON-AMS, arcs 4 and 5."])
        output = call("plan", EXAMPLES / "europe.txt", "--closed", "LON AMS").output.decode()
        self.assertIn("On every route within this reach, and so in every pair: 1 risk: Channel tunnel (CHT); no span.\n", output)

    def test_an_option_that_cannot_be_read_is_told(self):
        for mesh, word, message in (
            ("A.txt", "128", 'expected a closed arc from 0 to 127, found "128"'),
            ("A.txt", "", "expected a closed arc from 0 to 127, found the end of the line"),
            ("A.txt", "3 7", 'expected the end of the line, found "7"'),
            ("A.txt", "3,3", "expected each closed arc once, found 3 again"),
            ("europe.txt", "4,5", 'expected a site that a line "site .." above declares, found "4"'),
            ("europe.txt", "LON AMSS", 'expected a site that a line "site .." above declares, found "AMSS"; is "AMS" meant?'),
            ("europe.txt", "LON VIE", "expected a span or an arc between LON and VIE, found none"),
            ("europe.txt", "in KENT", 'expected a trench that a line "trench .." above declares, found "KENT"'),
            ("europe.txt", "LON AMS 3", 'expected the end of the line, found "3"'),
        ):
            with self.subTest(word):
                self.assert_told(call("plan", EXAMPLES / mesh, "--closed", word), f"--closed: {message}")

    def test_only_plan_closes(self):
        for command in ("bytes", "mend"):
            ran = call(command, EXAMPLES / "A.txt", "--closed", "1")
            self.assertEqual((ran.status, ran.output), (2, b""))

    def test_a_mesh_with_closed_arcs_is_not_written_as_bytes(self):
        told = "the bytes that `routes` reads have no place for them"
        mesh = EXAMPLES / "G.txt"
        self.assert_told(call("bytes", mesh), f"{mesh}: expected no closed arcs, found 1: {told}")
        mesh = self.file(f"{SITES}{LINES}closed in T\nrequest A C\n")
        self.assert_told(call("bytes", mesh), f"{mesh}: expected no closed arcs, found 3: {told}")

    def test_text_takes_the_names_of_a_mesh_and_not_what_it_closes(self):
        named = f"{SITES}{LINES}request A C reach 9km allowance 1\n"
        data = call("bytes", self.file(named)).output
        closed = self.file(f"{named}closed in T\n", "closed.txt")
        self.assertEqual(call("text", "--names", closed, stdin=data), Ran(0, named.encode(), b""))


class Json(CommandTest):
    maxDiff = None

    def fields(self, *words):
        return json.loads(call("plan", "--json", *words).output)

    def test_closed_arcs_are_told_as_those_of_a_route(self):
        open_fields = self.fields(EXAMPLES / "A.txt")
        fields = self.fields(EXAMPLES / "G.txt")
        self.assertEqual(fields["closed"], [open_fields["main"]["arcs"][1]])  # which is arc 1
        self.assertEqual([fields["closed"][0][field] for field in ("number", "metres")], [1, 4000])
        named = self.fields(self.file(f"{SITES}{LINES}closed B C\nrequest A D\n"))
        self.assertEqual([arc["name"] for arc in named["closed"]], ["B-C", "B-C"])
        self.assertEqual([(arc["from"]["name"], arc["to"]["name"]) for arc in named["closed"]], [("B", "C"), ("C", "B")])

    def test_a_closed_number_past_the_table_has_its_number_alone(self):
        fields = self.fields(self.file(A_TEXT + "closed 127\n"))
        nothing = dict.fromkeys(("name", "title", "span", "from", "to", "metres", "risks"))
        self.assertEqual(fields["closed"], [{"number": 127, **nothing}])
        self.assertEqual((fields["verdict"], fields["number"], fields["arc"], fields["line"]), ("refused", 16, 127, 7))
        self.assertEqual(fields["words"], "arc 127, line 7: closed, but the table has only arcs 0 to 4")

    def test_why_goes_around_it_too(self):
        self.assertEqual(self.fields(EXAMPLES / "G.txt", "--reach", "4999", "--why")["why"], {"reach": 5000, "shared": 1})


if __name__ == "__main__":
    unittest.main()
