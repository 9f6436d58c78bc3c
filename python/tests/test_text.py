"""Meshes as text: there and back, what may be written freely, and what is refused with which words."""

import random
import unittest
from dataclasses import replace
from decimal import Decimal

from feshangul import names, records, text
from feshangul.fault import InputFault
from feshangul.mesh import Arc, Request

from .shared import A_HEX, EXAMPLES, example, partly_closed, small_mesh, without_comments

NUMBERED = ("A.txt", "B.txt", "C.txt", "D.txt", "E.txt", "F.txt", "G.txt", "H.txt")


def as_bytes(mesh):
    (request,) = mesh.requests
    return records.put_request(request) + records.put_table(mesh.arcs)


class Examples(unittest.TestCase):
    def test_every_example_is_numbered_or_europe(self):
        self.assertEqual(sorted(path.name for path in EXAMPLES.glob("*.txt")), [*NUMBERED, "europe.txt"])

    def test_a_numbered_example_is_written_as_it_stands_and_so_is_that_of_its_bytes(self):
        for name in NUMBERED:
            with self.subTest(name):
                bare = without_comments(example(name))
                mesh = text.read(example(name), name)
                self.assertEqual(text.write(mesh), bare)
                back = records.get_mesh(as_bytes(mesh), name).with_closed(mesh.closed)  # which bytes have no place for
                back = back.with_requests(replace(back.requests[0], apart=mesh.requests[0].apart))  # nor for this
                self.assertEqual(text.write(back), bare)

    def test_europe_is_written_as_it_stands_and_so_is_that_of_its_bytes_with_its_names(self):
        bare = without_comments(example("europe.txt"))
        mesh = text.read(example("europe.txt"), "europe.txt")
        self.assertEqual(text.write(mesh), bare)
        self.assertEqual(text.write(names.given(records.get_mesh(as_bytes(mesh), "bytes"), mesh, "europe.txt")), bare)

    def test_mesh_a_is_the_bytes_written_out_by_hand(self):
        self.assertEqual(as_bytes(text.read(example("A.txt"), "A.txt")).hex(), A_HEX)
        back = records.get_mesh(bytes.fromhex(A_HEX), "bytes")
        self.assertEqual(text.write(back), without_comments(example("A.txt")))


# ---- random meshes by number: text and bytes made side by side from the same numbers ----


def put(number, width):
    return number.to_bytes(width, "little")


def any_node(rng):
    return rng.choice((rng.randrange(32), rng.randrange(32), rng.randrange(32), rng.choice((0, 1, 31, 32, 40, 255))))


def any_metres(rng):
    return rng.choice((0, 2_000_000, 4_294_967_295, rng.randrange(2_000_001), rng.randrange(2**32)))


def any_spare(rng, width):
    return rng.choice((0,) * 7 + (rng.randrange(256**width),))


def any_span(rng):
    return rng.choice((0, 0, 1, 2, 255, 256, 65_535, rng.randrange(65_536)))


def random_request(rng):
    source, terminal, reach, allowance = any_node(rng), any_node(rng), any_metres(rng), rng.randrange(2**32)
    low, high = any_spare(rng, 2), any_spare(rng, 4)
    line = f"from {source} to {terminal} reach {reach} allowance {allowance}"
    line += f" spare {low},{high}\n" if low or high else "\n"
    return line, put(source, 1) + put(terminal, 1) + put(low, 2) + put(reach, 4) + put(allowance, 4) + put(high, 4)


def random_arc(rng, number):
    tail, head, metres, span = any_node(rng), any_node(rng), any_metres(rng), any_span(rng)
    one_in = rng.randint(1, 64)
    risks = [risk for risk in range(64) if rng.randrange(one_in) == 0]
    line = f"{number}: {tail},{head},{metres},{{{','.join(map(str, risks))}}}"
    line += f" span {span}\n" if span else "\n"
    return line, put(tail, 1) + put(head, 1) + put(span, 2) + put(metres, 4) + put(sum(2**risk for risk in risks), 8)


def random_numbered(rng, arcs):
    made = [random_request(rng)] + [random_arc(rng, number) for number in range(arcs)]
    return "".join(line for line, _ in made), b"".join(record for _, record in made)


class RandomMeshesByNumber(unittest.TestCase):
    def test_500_are_the_bytes_made_beside_them_and_those_bytes_are_written_as_the_same_text(self):
        rng = random.Random(20)
        for number in range(500):
            arcs = {0: 0, 1: 128, 2: 129}.get(number % 50, rng.randrange(12))
            written, data = random_numbered(rng, arcs)
            with self.subTest(number):
                self.assertEqual(as_bytes(text.read(written, "mesh")), data)
                self.assertEqual(text.write(records.get_mesh(data, "bytes")), written)


# ---- random meshes by name, in the form in which they are written ----

TITLES = ("London", "Paris ring duct", "Halle # 4", "#", "", "Zürich Süd", "東京 駅", " - ", "reach 5km, {0}", "L'Étoile")
LETTERS = "ABCdef019_éΩ東"


def random_names(rng, count):
    """Different names, some of one letter, with every mark that a name may have."""
    found = set()
    while len(found) < count:
        rest = "".join(rng.choice(LETTERS + "./+-") for _ in range(rng.randrange(8)))
        found.add(rng.choice(LETTERS) + rest)
    return sorted(found)


def random_title(rng):
    return rng.choice(("", f' "{rng.choice(TITLES)}"'))


def random_degrees(rng, most):
    whole = rng.choice(("", "-")) + str(rng.randrange(most))
    digits = "".join(rng.choice("0123456789") for _ in range(rng.randint(0, 9)))
    return rng.choice((f"{whole}.{digits}" if digits else whole, str(most), f"-{most}"))


def random_site(rng, name):
    place = f" {random_degrees(rng, 90)} {random_degrees(rng, 180)}"
    return f"site {name}{random_title(rng)}{rng.choice(('', place))}\n"


def written_length(metres):
    return f"{metres}m" if metres < 1000 else f"{Decimal(metres) / 1000:f}km"


def random_length(rng, most):
    some = (rng.randrange(most + 1), rng.randrange(most // 1000) * 1000)
    return written_length(rng.choice((0, 999, 1000, 1001, 1200, most, *some)))


def random_span(rng, kind, sites, risks, trenches):
    # In the order of the risks' own lines, which is how they are written.
    touched = [risk for risk in risks if rng.random() < 0.2]
    tail, head = rng.sample(sites, 2)
    trench = f" in {rng.choice(trenches)}" if trenches and rng.random() < 0.4 else ""
    return f"{kind} {tail} {head} {random_length(rng, 2_000_000)} {','.join(touched) or '-'}{trench}{random_title(rng)}\n"


def random_asked(rng, sites):
    reach, allowance = random_length(rng, 62_000_000), rng.choice((1, 1000, 1_000_000, rng.randint(1, 1_000_000)))
    source, terminal = rng.sample(sites, 2)
    return f"request {source} {terminal} reach {reach} allowance {allowance}\n"


def random_named(rng, full):
    """A mesh and how many requests it has; a full one has every site, risk and arc that there may be."""
    sites = random_names(rng, 32 if full else rng.randint(2, 6))
    risks = random_names(rng, 64 if full else rng.randint(0, 6))
    trenches = random_names(rng, 128 if full else rng.choice((0, 1, 2, 5)))
    rng.shuffle(trenches)  # numbered as they are used, not as they are declared
    kinds = ["span"] * 50 + ["arc"] * 28 if full else [rng.choice(("span", "arc")) for _ in range(rng.randrange(12))]
    requests = rng.choice((0, 1, 1, 1, 2, 5))
    rng.shuffle(kinds)
    lines = [random_site(rng, name) for name in sites]
    lines += [f"risk {name}{random_title(rng)}\n" for name in risks]
    lines += [f"trench {name}{random_title(rng)}\n" for name in trenches]
    lines += [random_span(rng, kind, sites, risks, trenches) for kind in kinds]
    lines += [random_asked(rng, sites) for _ in range(requests)]
    return "".join(lines), requests


class RandomMeshesByName(unittest.TestCase):
    def test_500_are_written_as_they_stand_and_so_are_those_of_their_bytes_with_their_names(self):
        rng = random.Random(20)
        through_bytes = 0
        for number in range(500):
            written, requests = random_named(rng, number % 50 == 0)
            with self.subTest(number):
                mesh = text.read(written, "mesh")
                self.assertEqual(text.write(mesh), written)
                if requests == 1:
                    through_bytes += 1
                    back = names.given(records.get_mesh(as_bytes(mesh), "bytes"), mesh, "mesh")
                    self.assertEqual(text.write(back), written)
        self.assertGreater(through_bytes, 200)


class PlacesOfSites(unittest.TestCase):
    def test_latitude_and_longitude_are_kept_as_they_were_written(self):
        site = text.read('site LON "London" 51.50 -0.12\n', "mesh").sites[0]
        self.assertEqual(tuple(map(str, site.place)), ("51.50", "-0.12"))

    def test_a_site_with_seven_digits_behind_the_point_is_written_as_it_stands(self):
        for line in ("site A 51.4779280 -0.0014760\n", "site A 0.0000001 0\n", "site A 0.0000000 -0.0000000\n"):
            with self.subTest(line):
                self.assertEqual(text.write(text.read(line, "mesh")), line)

    def test_the_poles_and_the_edges_of_the_map_are_places(self):
        place = text.read("site A 90 -180\nsite B -90.0 180.0\n", "mesh").sites[1].place
        self.assertEqual(place, (Decimal(-90), Decimal(180)))


# ---- what a person may write otherwise ----

STRICT = "from 0 to 3 reach 10000 allowance 1000\n0: 0,1,1000,{0,7,63}\n1: 1,3,4000,{} span 7\n"
NAMED = (
    'site A\nsite B "Bern" 46.95 7.45\nrisk R\nrisk S\ntrench T "Aare"\n'
    'span A B 1.2km R,S in T "Trunk"\narc B A 0m - in T\nrequest A B reach 5km allowance 9\n'
)


class FreeForms(unittest.TestCase):
    def test_spaces_comments_and_line_ends_of_a_numbered_mesh_are_free(self):
        for free in (
            "# free spaces, comments and order\r\n\r\nfrom 0 to 3 reach 10000 allowance 1000\t# request\r\n"
            " 0 : 0 , 1 , 01000 , { 0 , 63 , 7 } # arc\n1:1,3,4000,{}span 7",
            "\ufefffrom 0 to 3 reach 10000 allowance 1000\n\n\n0: 0,1,1000,{7,0,63} span 0\n# between\n"
            "1: 1,3,4000,{ }  span  7\n\n",
            "\tfrom\t0\tto\t3\treach\t10km\tallowance\t1000\n0:\t0,1,1km,{63,7,0}\n1: 1,3,4000m,{}\tspan\t7#\n",
            "from 0000 to 0003 reach 000000010000 allowance 000000001000\n"
            "0: 0,1,1000,{0,7,00063} span 0000000\n000000000001: 1,3,4000,{} span 0000007\n",
        ):
            with self.subTest(free):
                self.assertEqual(text.write(text.read(free, "mesh")), STRICT)

    def test_spaces_comments_and_line_ends_of_a_named_mesh_are_free(self):
        for free in (
            NAMED.replace("\n", "\r\n"),
            "\ufeff" + NAMED.rstrip("\n"),
            NAMED.replace(" ", "\t").replace("\n", '  # comment "with one quote\n\n'),
            '#\n\nsite A\nrisk R\nrisk S\n  site B"Bern"46.95 7.45\ntrench  T"Aare"\n'
            'span A B 1200 S , R in  T"Trunk"\narc B A 0 -in T\nrequest A B reach 5000 allowance 09\n',
            'risk R\nsite A\nsite B "Bern" 46.95 7.45\nrequest A B reach 5000m allowance 9\nrisk S\n'
            'trench T "Aare"\nspan A B 1200m R,S in T "Trunk"\narc B A 0km - in T\n',
        ):
            with self.subTest(free):
                self.assertEqual(text.write(text.read(free, "mesh")), NAMED)

    def test_a_length_is_metres_or_kilometres(self):
        for written, metres in (
            ("1200", 1200),
            ("1200m", 1200),
            ("1.2km", 1200),
            ("0.5km", 500),
            ("1000.0", 1000),
            ("1000.000m", 1000),
            ("0001.2000km", 1200),
            ("0", 0),
            ("0km", 0),
            ("0.001km", 1),
            ("410.6km", 410_600),  # 410.6 * 1000 is less than that in binary fractions
            ("2000km", 2_000_000),
            ("2000000", 2_000_000),
        ):
            with self.subTest(written):
                mesh = text.read(f"site A\nsite B\nspan A B {written} -\nrequest A B reach {written}\n", "mesh")
                self.assertEqual((mesh.arcs[0].metres, mesh.requests[0].reach), (metres, metres))
                numbered = text.read(f"from 0 to 1 reach {written} allowance 1\n0: 0,1,{written},{{}}\n", "mesh")
                self.assertEqual((numbered.arcs[0].metres, numbered.requests[0].reach), (metres, metres))

    def test_every_metre_is_read_as_it_was_written_in_kilometres(self):
        rng = random.Random(20)
        for metres in rng.sample(range(62_000_001), 1000):
            mesh = text.read(f"from 0 to 1 reach {metres // 1000}.{metres % 1000:03}km allowance 1\n", "mesh")
            self.assertEqual(mesh.requests[0].reach, metres)

    def test_a_request_without_reach_and_allowance_has_no_limit_and_1000_mains(self):
        ends = "site A\nsite B\n"
        for line, asked in (
            ("request A B", Request(0, 1, 62_000_000, 1000)),
            ("request B A reach 62000km", Request(1, 0, 62_000_000, 1000)),
            ("request A B allowance 1000000", Request(0, 1, 62_000_000, 1_000_000)),
        ):
            with self.subTest(line):
                self.assertEqual(text.read(ends + line, "mesh").requests, (asked,))

    def test_words_of_the_form_may_be_names(self):
        declared = "site reach\nsite allowance\nrisk in\ntrench in\ntrench span\n"
        mesh = text.read(declared + "span reach allowance 5 in in in\nrequest allowance reach reach 9\n", "mesh")
        self.assertEqual(mesh.requests, (Request(1, 0, 9, 1000),))
        self.assertEqual((mesh.arcs[0].risks, mesh.span(mesh.arcs[0].span)), ({0}, "in"))

    def test_a_span_is_two_arcs_and_each_knows_its_line(self):
        mesh = text.read("site A\nsite B\nrisk R\n\nspan A B 7 R\narc B A 9 -\n", "mesh")
        self.assertEqual(
            [(a.tail, a.head, a.metres, set(a.risks), a.span, a.cable, a.line) for a in mesh.arcs],
            [
                (0, 1, 7, {0}, 1, 0, 5),
                (1, 0, 7, {0}, 1, 0, 5),
                (1, 0, 9, set(), 0, 1, 6),
            ],
        )

    def test_all_that_a_table_holds_can_be_written(self):
        sites = "".join(f"site S{n}\n" for n in range(32))
        risks = "".join(f"risk R{n}\n" for n in range(64))
        mesh = text.read(sites + risks + "span S0 S31 2000km R0,R63\n" * 64, "mesh")
        self.assertEqual((len(mesh.sites), len(mesh.risks), len(mesh.arcs)), (32, 64, 128))
        self.assertEqual({arc.span for arc in mesh.arcs}, set(range(1, 65)))


SPANS = """\
site A
site B
trench T
span A B 1 -
arc A B 1 -
trench U "upper"
trench V
arc A B 1 - in U
span A B 1 - in T "cable"
span A B 1 -
arc B A 1 - in U
span B A 1 - in T
span A B 1 -
"""


class SpansByName(unittest.TestCase):
    def test_spans_are_numbered_from_1_by_the_first_line_of_each(self):
        mesh = text.read(SPANS, "mesh")
        self.assertEqual([arc.span for arc in mesh.arcs], [1, 1, 0, 2, 3, 3, 4, 4, 2, 3, 3, 5, 5])
        self.assertEqual([(t.name, t.title, t.span) for t in mesh.trenches], [("T", None, 3), ("U", "upper", 2), ("V", None, 0)])

    def test_the_numbers_do_not_depend_on_where_a_trench_is_declared(self):
        mesh = text.read(SPANS, "mesh")
        written = text.write(mesh)
        self.assertTrue(written.startswith('site A\nsite B\ntrench T\ntrench U "upper"\ntrench V\nspan A B 1m -\n'))
        self.assertEqual(text.read(written, "again"), mesh)

    def test_lines_that_no_text_has_are_written_so_that_the_same_arcs_lie_in_the_same_spans(self):
        sites, none = text.read("site A\nsite B\n", "mesh"), frozenset()
        there = Arc(0, 1, 5, none, 7, 0)
        for arcs, written in (
            ((there, Arc(1, 0, 5, none, 7, 0)), 'span A B 5m - "first"\n'),
            ((there, Arc(1, 0, 6, none, 7, 0)), 'trench S7\narc A B 5m - in S7 "first"\narc B A 6m - in S7 "first"\n'),
            ((there, Arc(1, 0, 5, none, 8, 0)), 'trench S7\ntrench S8\narc A B 5m - in S7 "first"\narc B A 5m - in S8 "first"\n'),
            ((there, Arc(1, 0, 5, none, 0, 0)), 'trench S7\narc A B 5m - in S7 "first"\narc B A 5m - "first"\n'),
            ((there, Arc(1, 0, 5, none, 7, 1)), 'trench S7\narc A B 5m - in S7 "first"\narc B A 5m - in S7\n'),
            ((there,), 'trench S7\narc A B 5m - in S7 "first"\n'),
        ):
            with self.subTest(written):
                mesh = replace(sites, arcs=arcs, cables=("first", None)[: 1 + arcs[-1].cable])
                self.assertEqual(text.write(mesh), "site A\nsite B\n" + written)

    def test_the_numbers_are_bytes_2_and_3_of_the_records(self):
        table = records.put_table(text.read(SPANS, "mesh").arcs)
        self.assertEqual([table[at : at + 2].hex() for at in range(2, 80, 16)], ["0100", "0100", "0000", "0200", "0300"])

    def test_trenches_have_no_limit_but_that_of_arcs(self):
        trenches = "".join(f"trench T{n}\n" for n in range(1000))
        arcs = "".join(f"arc A B 1 - in T{n}\n" for n in range(999, 871, -1))
        mesh = text.read(f"site A\nsite B\n{trenches}{arcs}", "mesh")
        self.assertEqual([arc.span for arc in mesh.arcs], list(range(1, 129)))
        self.assertEqual(text.read(text.write(mesh), "again"), mesh)


# ---- what is refused ----

REQUEST = "from 0 to 3 reach 10000 allowance 1000\n"
KINDS = '"from", or one of "site", "risk", "trench", "span", "arc", "request"'
TO_LENGTH = "expected the length from 0 to 2,000,000 m"
TO_REACH = "expected the reach from 0 to 62,000,000 m"
FORMS = ", as 1200, 1200m or 1.2km"
NOW_SPAN = 'expected "span N", found "spare": these bytes of an arc are the number of its span now'

BY_NUMBER = (
    ("1: expected a mesh, found the end of the file", ""),
    ("3: expected a mesh, found the end of the file", "# only\n\n"),
    (f'2: expected {KINDS}, found "0:"', "# no request\n0: 0,1,1000,{0}\n"),
    ('1: expected the source node from 0 to 31, found "256"', "from 256 to 3 reach 1 allowance 1\n"),
    ('1: expected "to", found "3"', "from 0 3 reach 1 allowance 1\n"),
    ('1: expected the terminal node from 0 to 31, found "x"', "from 0 to x reach 1 allowance 1\n"),
    (f'1: {TO_REACH}, found "4294967296"', "from 0 to 3 reach 4294967296 allowance 1\n"),
    ('1: expected "allowance", found the end of the line', "from 0 to 3 reach 1\n"),
    ('1: expected the allowance from 1 to 1,000,000, found "-1"', "from 0 to 3 reach 1 allowance -1\n"),
    ('1: expected the end of the line, found "0:"', "from 0 to 3 reach 1 allowance 1 0: 0,1,1000,{0}\n"),
    ('1: expected ",", found the end of the line', "from 0 to 3 reach 1 allowance 1 spare 7\n"),
    ('4: expected arc number 1, or "closed", found "2:"', REQUEST + "0: 0,1,1000,{0}\n\n2: 1,3,4000,{1}\n"),
    ('3: expected arc number 1, or "closed", found "0:"', REQUEST + "0: 0,1,1000,{0}\n0: 1,3,4000,{1}\n"),
    ('3: expected arc number 1, or "closed", found "from"', REQUEST + "0: 0,1,1000,{0}\n" + REQUEST),
    ('2: expected ":", found "0,1,1000,{0}"', REQUEST + "0 0,1,1000,{0}\n"),
    ('2: expected the tail node from 0 to 31, found "256,1,1000,{0}"', REQUEST + "0: 256,1,1000,{0}\n"),
    ('2: expected the head node from 0 to 31, found "-1,1000,{0}"', REQUEST + "0: 0,-1,1000,{0}\n"),
    (f'2: {TO_LENGTH}, found "4294967296,{{0}}"', REQUEST + "0: 0,1,4294967296,{0}\n"),
    (f'2: {TO_LENGTH}, found "99999999999999999999,{{0}}"', REQUEST + "0: 0,1,99999999999999999999,{0}\n"),
    (f'2: {TO_LENGTH}{FORMS}, found "+1,{{0}}"', REQUEST + "0: 0,1,+1,{0}\n"),
    ('2: expected ",", found the end of the line', REQUEST + "0: 0,1,1000 # no risks\n"),
    ('2: expected the length in whole metres, found "1000.5,{0}"', REQUEST + "0: 0,1,1000.5,{0}\n"),
    ('2: expected "{", found "0"', REQUEST + "0: 0,1,1000,0\n"),
    ('2: expected a risk from 0 to 63, found "64}"', REQUEST + "0: 0,1,1000,{0,64}\n"),
    ('2: expected a risk from 0 to 63, found "}"', REQUEST + "0: 0,1,1000,{0,}\n"),
    ("2: expected each risk once, found 5 again", REQUEST + "0: 0,1,1000,{5,0,5}\n"),
    ('2: expected "," or "}", found the end of the line', REQUEST + "0: 0,1,1000,{0\n"),
    ('2: expected the span from 0 to 65,535, found "65536"', REQUEST + "0: 0,1,1000,{0} span 65536\n"),
    ('2: expected the span from 0 to 65,535, found "-1"', REQUEST + "0: 0,1,1000,{0} span -1\n"),
    ('2: expected the span from 0 to 65,535, found "x"', REQUEST + "0: 0,1,1000,{0} span x\n"),
    ("2: expected the span from 0 to 65,535, found the end of the line", REQUEST + "0: 0,1,1000,{0} span\n"),
    ('2: expected the end of the line, found ",2"', REQUEST + "0: 0,1,1000,{0} span 1,2\n"),
    (f"2: {NOW_SPAN}", REQUEST + "0: 0,1,1000,{0} spare 7\n"),
    (f"2: {NOW_SPAN}", REQUEST + "0: 0,1,1000,{0} spare 0\n"),
    (f"3: {NOW_SPAN}", REQUEST + "0: 0,1,1000,{0}\n1: 0,1,1000,{} spare\n"),
    ('1: expected 0 as spare bytes 2-3, found "65536,0"', REQUEST.rstrip() + " spare 65536,0\n"),
    ('1: expected the end of the line, found "span"', REQUEST.rstrip() + " span 7\n"),
    ('2: expected the end of the line, found "1:"', REQUEST + "0: 0,1,1000,{0} 1: 1,3,4000,{1}\n"),
    ('131: expected arc number 129, or "closed", found "x"', REQUEST + "".join(f"{n}: 0,1,1,{{}}\n" for n in range(129)) + "x\n"),
    ('1: expected 0 as spare bytes 12-15, found "4294967296"', REQUEST.rstrip() + " spare 0,4294967296\n"),
    (f'1: expected {KINDS}, found "sites"', "sites A\n"),
    ('2: expected arc number 0, or "closed", found "site"', REQUEST + "site A\n"),
)

HEAD = "site LONDON\nsite PARIS\nrisk TUNNEL\n"  # so that what follows stands on line 4
SITE = 'expected a site that a line "site .." above declares, found'
RISK = 'expected a risk that a line "risk .." above declares, found'
TRENCH = 'expected a trench that a line "trench .." above declares, found'
RISKS = 'expected risks, as CHT,PRING, or "-" for a patch of 0 m, found'
NAMED_KINDS = 'expected "site", "risk", "trench", "span", "arc", "closed" or "request"'
ARCS = "expected at most 128 arcs (a span is two), found arc 129"
NOT_CLOSED = "expected a quote at the end of the title, found the end of the line"
LATITUDE = "expected a latitude from -90 to 90, found"
TITLE_OR_LATITUDE = "expected a title in quotes, or a latitude from -90 to 90, found"
LONGITUDE = "expected a longitude from -180 to 180, found"

BY_NAME = (
    (f'4: {NAMED_KINDS}, found "link"', HEAD + "link LONDON PARIS 1 -\n"),
    (f'4: {NAMED_KINDS}, found "from"', HEAD + REQUEST),
    (f'4: {NAMED_KINDS}, found "sites"', HEAD + "sites ROME\n"),
    ("4: expected a trench's name, found the end of the line", HEAD + "trench\n"),
    ('4: expected a trench\'s name, found "-"', HEAD + "trench -\n"),
    ('5: trench "KENT" stands on line 4 already', HEAD + "trench KENT\ntrench KENT\n"),
    ('4: expected the end of the line, found "9"', HEAD + 'trench KENT "Kent" 9\n'),
    (f'5: {TRENCH} "DOVER"', HEAD + "trench KENT\nspan LONDON PARIS 1 - in DOVER\n"),
    (f'5: {TRENCH} "KNET"; is "KENT" meant?', HEAD + "trench KENT\narc LONDON PARIS 1 - in KNET\n"),
    (f'5: {TRENCH} "kent"; is "KENT" meant?', HEAD + 'trench KENT\nspan LONDON PARIS 1 TUNNEL in kent "Trunk"\n'),
    (f'4: {TRENCH} "TUNNEL"', HEAD + "span LONDON PARIS 1 - in TUNNEL\n"),
    (f'4: {TRENCH} "KENT"', HEAD + "span LONDON PARIS 1 - in KENT\ntrench KENT\n"),
    ("5: expected a trench, found the end of the line", HEAD + "trench KENT\nspan LONDON PARIS 1 - in\n"),
    ('5: expected a trench, found ""Kent""', HEAD + 'trench KENT\nspan LONDON PARIS 1 - in "Kent"\n'),
    ('5: expected the end of the line, found ",KENT"', HEAD + "trench KENT\nspan LONDON PARIS 1 - in KENT,KENT\n"),
    ('5: expected the end of the line, found "in"', HEAD + "trench KENT\nspan LONDON PARIS 1 - in KENT in KENT\n"),
    ('5: expected the end of the line, found "in"', HEAD + 'trench KENT\nspan LONDON PARIS 1 - "Trunk" in KENT\n'),
    ('5: expected the end of the line, found "inKENT"', HEAD + "trench KENT\nspan LONDON PARIS 1 - inKENT\n"),
    (f'5: {RISKS} the end of the line', HEAD + "trench KENT\nspan LONDON PARIS 1 TUNNEL,\n"),
    (f'5: {RISKS} "in"', HEAD + "trench KENT\nspan LONDON PARIS 1 in KENT\n"),
    ('4: expected the end of the line, found "span"', HEAD + "arc LONDON PARIS 1 - span 7\n"),
    ("4: expected a site's name, found the end of the line", HEAD + "site\n"),
    ('4: expected a risk\'s name, found "-"', HEAD + "risk -\n"),
    ('4: site "PARIS" stands on line 2 already', HEAD + "site PARIS\n"),
    ('6: risk "TUNNEL" stands on line 3 already', HEAD + "\n# again\nrisk TUNNEL\n"),
    ('33: expected at most 32 sites, found "S32" as one more', "".join(f"site S{n}\n" for n in range(33))),
    ('65: expected at most 64 risks, found "R64" as one more', "".join(f"risk R{n}\n" for n in range(65))),
    (f"132: {ARCS}", HEAD + "arc LONDON PARIS 1 -\n" * 129),
    (f"68: {ARCS}", HEAD + "span LONDON PARIS 1 -\n" * 65),
    (f"131: {ARCS}", HEAD + "arc LONDON PARIS 1 -\n" * 127 + "span LONDON PARIS 1 -\n"),
    (f'4: {SITE} "ROME"', HEAD + "span LONDON ROME 1 -\n"),
    (f'4: {SITE} "LODNON"; is "LONDON" meant?', HEAD + "arc PARIS LODNON 1 -\n"),
    (f'4: {SITE} "PARI"; is "PARIS" meant?', HEAD + "request PARI LONDON\n"),
    (f'2: {SITE} "PARIS"', "site LONDON\nspan LONDON PARIS 1 -\nsite PARIS\n"),
    (f'4: {RISK} "DUCT"', HEAD + "span LONDON PARIS 1 TUNNEL,DUCT\n"),
    (f'4: {RISK} "TUNEL"; is "TUNNEL" meant?', HEAD + "span LONDON PARIS 1 TUNEL\n"),
    (f'4: {RISK} "LONDON"', HEAD + "span LONDON PARIS 1 LONDON\n"),
    ("4: expected two different sites", HEAD + "span PARIS PARIS 1 -\n"),
    ("4: expected two different sites", HEAD + "arc LONDON LONDON 1 -\n"),
    ("4: expected two different sites", HEAD + "request LONDON LONDON\n"),
    ("4: expected a site, found the end of the line", HEAD + "span LONDON\n"),
    ('4: expected a site, found ","', HEAD + "request LONDON , PARIS\n"),
    (f'4: {TO_LENGTH}, found "2000001"', HEAD + "span LONDON PARIS 2000001 -\n"),
    (f'4: {TO_LENGTH}, found "2000.001km"', HEAD + "arc LONDON PARIS 2000.001km -\n"),
    (f'4: {TO_LENGTH}{FORMS}, found "12x"', HEAD + "span LONDON PARIS 12x -\n"),
    (f'4: {TO_LENGTH}{FORMS}, found "12.km"', HEAD + "span LONDON PARIS 12.km -\n"),
    (f'4: {TO_LENGTH}{FORMS}, found ".5km"', HEAD + "span LONDON PARIS .5km -\n"),
    (f'4: {TO_LENGTH}{FORMS}, found "1.2.3"', HEAD + "span LONDON PARIS 1.2.3 -\n"),
    (f'4: {TO_LENGTH}{FORMS}, found "-1"', HEAD + "span LONDON PARIS -1 -\n"),
    (f'4: {TO_LENGTH}{FORMS}, found "1e3"', HEAD + "span LONDON PARIS 1e3 -\n"),
    (f'4: {TO_LENGTH}{FORMS}, found "TUNNEL"', HEAD + "span LONDON PARIS TUNNEL\n"),
    (f"4: {TO_LENGTH}{FORMS}, found the end of the line", HEAD + "span LONDON PARIS\n"),
    ('4: expected the length in whole metres, found "410.6004km"', HEAD + "span LONDON PARIS 410.6004km -\n"),
    ('4: expected the length in whole metres, found "1000.5"', HEAD + "span LONDON PARIS 1000.5 -\n"),
    (f"4: {RISKS} the end of the line", HEAD + "span LONDON PARIS 1\n"),
    (f'4: {RISKS} ""Trunk""', HEAD + 'span LONDON PARIS 1 "Trunk"\n'),
    (f"4: {RISKS} the end of the line", HEAD + "span LONDON PARIS 1 TUNNEL,\n"),
    (f'4: {RISKS} "-"', HEAD + "span LONDON PARIS 1 TUNNEL,-\n"),
    ('4: expected each risk once, found "TUNNEL" again', HEAD + "span LONDON PARIS 1 TUNNEL,TUNNEL\n"),
    (f'4: {LATITUDE} "90.1"', HEAD + 'site ROME "Roma" 90.1 0\n'),
    (f'4: {TITLE_OR_LATITUDE} "-90.0001"', HEAD + "site ROME -90.0001 0\n"),
    (f'4: {TITLE_OR_LATITUDE} "Roma"', HEAD + "site ROME Roma\n"),
    (f'4: {SITE} "london"; is "LONDON" meant?', HEAD + "request london PARIS\n"),
    (f'4: {LONGITUDE} "180.5"', HEAD + "site ROME 41.9 180.5\n"),
    (f'4: {LONGITUDE} "-181"', HEAD + "site ROME 41.9 -181\n"),
    (f"4: {LONGITUDE} the end of the line", HEAD + "site ROME 41.9\n"),
    (r'4: expected a title that can be printed, found "Ro\x1b[31mma"', HEAD + 'site ROME "Ro\x1b[31mma"\n'),
    (r'4: expected a title that can be printed, found "Old\x09duct"', HEAD + 'risk DUCT "Old\tduct"\n'),
    (r'4: expected a title that can be printed, found "\x9b"', HEAD + 'span LONDON PARIS 1 - "\x9b"\n'),
    (f"4: {NOT_CLOSED}", HEAD + 'site ROME "Roma # not closed\n'),
    (f"4: {NOT_CLOSED}", HEAD + 'risk DUCT "Old duct\n'),
    (f"4: {NOT_CLOSED}", HEAD + 'span LONDON PARIS 1 - "Trunk # not closed\n'),
    (f"4: {NOT_CLOSED}", HEAD + 'arc LONDON PARIS 1 - "\n'),
    (f'4: {TO_REACH}, found "62000.001km"', HEAD + "request LONDON PARIS reach 62000.001km\n"),
    (f'4: {TO_REACH}, found "62000001"', HEAD + "request LONDON PARIS reach 62000001\n"),
    ('4: expected the reach in whole metres, found "0.0001km"', HEAD + "request LONDON PARIS reach 0.0001km\n"),
    (f"4: {TO_REACH}{FORMS}, found the end of the line", HEAD + "request LONDON PARIS reach\n"),
    ("4: expected the allowance from 1 to 1,000,000, found 0", HEAD + "request LONDON PARIS allowance 0\n"),
    ('4: expected the allowance from 1 to 1,000,000, found "1000001"', HEAD + "request LONDON PARIS allowance 1000001\n"),
    ('4: expected the end of the line, found "reach"', HEAD + "request LONDON PARIS allowance 9 reach 5km\n"),
    ('4: expected the end of the line, found "9"', HEAD + "site ROME 41.9 12.5 9\n"),
    ('4: expected the end of the line, found "9"', HEAD + 'risk DUCT "Old duct" 9\n'),
    ('4: expected the end of the line, found "TUNNEL"', HEAD + "span LONDON PARIS 1 - TUNNEL\n"),
    ('4: expected the end of the line, found ""more""', HEAD + 'arc LONDON PARIS 1 TUNNEL "Trunk" "more"\n'),
    ('4: expected the end of the line, found "{0}"', HEAD + "request LONDON PARIS reach 5km allowance 9 {0}\n"),
)


class RefusalTest(unittest.TestCase):
    def assert_refused(self, message, act, *given):
        with self.assertRaises(InputFault) as raised:
            act(*given)
        self.assertEqual(str(raised.exception), message)


class Refused(RefusalTest):
    def test_a_faulty_mesh_by_number_is_told_with_its_line(self):
        for message, faulty in BY_NUMBER:
            with self.subTest(faulty):
                self.assert_refused(f"mesh line {message}", text.read, faulty, "mesh")

    def test_a_faulty_mesh_by_name_is_told_with_its_line(self):
        for message, faulty in BY_NAME:
            with self.subTest(faulty):
                self.assert_refused(f"mesh line {message}", text.read, faulty, "mesh")

    def test_torn_bytes_are_told_with_their_place(self):
        for message, data in (
            ("0: expected a record of 16 bytes, found 0", ""),
            ("0: expected a record of 16 bytes, found 15", A_HEX[:30]),
            ("16: expected a record of 16 bytes, found 1", A_HEX[:34]),
            ("80: expected a record of 16 bytes, found 15", A_HEX[:190]),
        ):
            with self.subTest(data):
                self.assert_refused(f"standard input byte {message}", records.get_mesh, bytes.fromhex(data), "standard input")

    def test_a_long_word_is_cut_after_40_characters(self):
        self.assert_refused(
            f'mesh line 4: {SITE} "{"X" * 40}..."', text.read, HEAD + "request " + "X" * 500_000 + " PARIS\n", "mesh"
        )


PIECES = (
    '"',
    "#",
    "\n",
    " ",
    ",",
    "-",
    "{",
    "}",
    ":",
    ".",
    "0",
    "9",
    "9" * 30,
    "km",
    "m",
    "A",
    "é",
    "\t",
    "\r",
    "\x00",
    "\x85",
    "\u00a0",
    "\u0301",
    "\u0663",
    "\u2028",
    "\ufeff",
    "site ",
    "risk ",
    "trench ",
    "closed ",
    "no. ",
    "in ",
    "span ",
    "arc ",
    "request ",
    "reach ",
    "allowance ",
    "from ",
    "to ",
    "spare ",
)


def spoilt(rng, written):
    """A text with some characters cut out at one place, or something else put there, or both."""
    at = rng.randrange(len(written) + 1)
    return written[:at] + rng.choice(("", rng.choice(PIECES))) + written[at + rng.choice((0, 1, 2, 20)) :]


def closing_some(rng, written):
    """A mesh with some arcs closed, here and there; by number now and then one that the table does not have."""
    mesh = text.read(written, "mesh")
    if mesh.arcs and rng.random() < 0.5:
        mesh = partly_closed(rng, mesh)
    if not mesh.named and rng.random() < 0.2:
        mesh = mesh.with_closed([rng.randrange(len(mesh.arcs), 128)])
    return text.write(mesh)


class SpoiltMeshes(unittest.TestCase):
    def test_3000_spoilt_meshes_are_told_in_one_line_or_read_as_what_is_written_of_them(self):
        rng = random.Random(20)
        told = 0
        for number in range(3000):
            written = random_named(rng, False)[0] if number % 2 else random_numbered(rng, rng.randrange(6))[0]
            faulty = spoilt(rng, closing_some(rng, written))
            with self.subTest(faulty):
                try:
                    mesh = text.read(faulty, "mesh")
                except InputFault as fault:
                    told += 1
                    self.assertRegex(str(fault), "^mesh line [0-9]+: ")
                    self.assertTrue(str(fault).isprintable())
                else:
                    self.assertEqual(text.read(text.write(mesh), "again"), mesh)
        self.assertTrue(1000 < told < 2900, told)


# ---- names for bytes ----

SOUND = "from 0 to 1 reach 5 allowance 1\n"
TWO_NAMED = text.read('site A "Aachen"\nsite B\nsite C\nrisk R "Rhine"\nrisk S\n', "names.txt")


def with_ways_back(rng, mesh):
    """The mesh with the way back of an arc behind it, here and there."""
    arcs = [(a, replace(a, tail=a.head, head=a.tail)) if rng.random() < 0.5 else (a,) for a in mesh.arcs]
    return replace(mesh, arcs=tuple(a for some in arcs for a in some))


class NamesForBytes(RefusalTest):
    def given(self, numbered):
        return names.given(text.read(numbered, "mesh"), TWO_NAMED, "names.txt")

    def test_arcs_that_are_each_others_way_back_in_turn_become_a_span(self):
        named = self.given(
            "from 0 to 2 reach 5000 allowance 9\n"
            "0: 0,1,1200,{0,1} span 9\n1: 1,0,1200,{0,1} span 9\n"  # a span
            "2: 0,1,1200,{0,1} span 3\n3: 1,0,1200,{0,1} span 3\n4: 0,1,1200,{0,1}\n"  # its like, and a third way there
            "5: 1,2,7,{}\n6: 2,1,8,{}\n"  # two lengths
            "7: 1,2,7,{0}\n8: 2,1,7,{1}\n"  # two risks
            "9: 0,2,0,{}\n10: 0,2,0,{}\n"  # the same way twice
            "11: 0,2,5,{}\n12: 2,0,5,{}\n"  # a way back, and whether in the same span is not known
        )
        self.assertEqual(
            text.write(named),
            (
                'site A "Aachen"\nsite B\nsite C\nrisk R "Rhine"\nrisk S\n'
                "span A B 1.2km R,S\nspan A B 1.2km R,S\narc A B 1.2km R,S\n"
                "arc B C 7m -\narc C B 8m -\narc B C 7m R\narc C B 7m S\narc A C 0m -\narc A C 0m -\n"
                "arc A C 5m -\narc C A 5m -\n"
                "request A C reach 5km allowance 9\n"
            ),
        )

    def test_a_span_that_a_line_of_its_own_does_not_tell_becomes_a_trench(self):
        named = self.given(
            "from 0 to 2 reach 5000 allowance 9\n"
            "0: 0,1,5,{} span 700\n1: 1,0,5,{} span 700\n2: 1,2,5,{} span 700\n"  # both ways, and a third arc
            "3: 0,1,5,{} span 8\n"  # one way
            "4: 0,1,5,{} span 6\n5: 1,0,6,{} span 6\n"  # two lengths
            "6: 0,2,5,{} span 5\n7: 2,0,5,{} span 4\n"  # a way back in another span
            "8: 0,2,5,{} span 1\n9: 2,0,5,{} span 1\n"  # a span
        )
        written = text.write(named)
        self.assertEqual(
            written,
            (
                'site A "Aachen"\nsite B\nsite C\nrisk R "Rhine"\nrisk S\n'
                "trench S4\ntrench S5\ntrench S6\ntrench S8\ntrench S700\n"
                "span A B 5m - in S700\narc B C 5m - in S700\narc A B 5m - in S8\n"
                "arc A B 5m - in S6\narc B A 6m - in S6\narc A C 5m - in S5\narc C A 5m - in S4\nspan A C 5m -\n"
                "request A C reach 5km allowance 9\n"
            ),
        )
        self.assertEqual([arc.span for arc in text.read(written, "mesh").arcs], [1, 1, 1, 2, 3, 3, 4, 5, 6, 6])

    def test_trenches_are_called_as_in_the_mesh_that_has_the_names(self):
        # There span 1 is the trench S9 and span 2 that of a line; bytes with other arcs have the same spans.
        declared = 'site A\nsite B\ntrench S9 "Ninth"\ntrench S2\n'
        names_of = text.read(declared + "arc A B 5 - in S9\nspan A B 6 -\n", "names.txt")
        bytes_of = text.read(SOUND + "0: 1,0,5,{} span 2\n1: 0,1,7,{} span 1\n2: 0,1,7,{} span 9\n", "mesh")
        self.assertEqual(
            text.write(names.given(bytes_of, names_of, "names.txt")),
            'site A\nsite B\ntrench S9 "Ninth"\ntrench S2\ntrench S2_\ntrench S9_\n'
            "arc B A 5m - in S2_\narc A B 7m - in S9\narc A B 7m - in S9_\nrequest A B reach 5m allowance 1\n",
        )

    def test_500_random_tables_by_name_have_the_same_arcs_in_the_same_spans(self):
        rng = random.Random(33)
        named = text.read("".join(f"site N{n}\n" for n in range(8)) + "".join(f"risk R{n}\n" for n in range(64)), "names.txt")
        for number in range(500):
            mesh = with_ways_back(rng, small_mesh(rng))
            back = text.read(text.write(names.given(mesh, named, "names.txt")), "back")
            with self.subTest(number):
                self.assertEqual([replace(a, span=0, cable=None) for a in back.arcs], [replace(a, span=0) for a in mesh.arcs])
                renamed = {(0, 0)} | {(a.span, b.span) for a, b in zip(mesh.arcs, back.arcs)}
                self.assertEqual(len(renamed), len({a for a, _ in renamed}))
                self.assertEqual(len(renamed), len({b for _, b in renamed}))

    def test_a_mesh_without_arcs_gets_names_too(self):
        written = text.write(self.given("from 2 to 1 reach 0 allowance 1\n"))
        self.assertTrue(written.endswith("\nrisk S\nrequest C B reach 0m allowance 1\n"))

    def test_what_has_no_name_is_told(self):
        for message, numbered in (
            ("names.txt has no name for node 3", "from 0 to 3 reach 5 allowance 1\n"),
            ("names.txt has no name for node 255", "from 0 to 1 reach 5 allowance 1\n0: 3,255,1,{}\n"),
            ("names.txt has no name for risk 2", "from 0 to 1 reach 5 allowance 1\n0: 0,1,1,{0,2}\n"),
        ):
            with self.subTest(numbered):
                self.assert_refused(message, self.given, numbered)

    def test_names_are_not_taken_from_a_mesh_by_number(self):
        numbered = text.read(STRICT, "mesh")
        self.assert_refused("A.txt has no names", names.given, numbered, numbered, "A.txt")

    def test_what_the_planner_refuses_is_not_written_by_name(self):
        # What would be written could not be read again.
        refused = "what the planner refuses cannot be written by name"
        for message, numbered in (
            ("spare bytes that are not zero cannot be written by name", "from 0 to 1 reach 5 allowance 1 spare 1,0\n"),
            ("spare bytes that are not zero cannot be written by name", "from 0 to 1 reach 5 allowance 1 spare 0,1\n"),
            (f"{refused}: source and terminal are the same node", "from 1 to 1 reach 5 allowance 1\n"),
            (f"{refused}: the reach is over 62,000,000 m", "from 0 to 1 reach 62000001 allowance 1\n"),
            (f"{refused}: the allowance is not 1 to 1,000,000", "from 0 to 1 reach 5 allowance 0\n"),
            (f"{refused}: the allowance is not 1 to 1,000,000", "from 0 to 1 reach 5 allowance 1000001\n"),
            (f"{refused}: arc 1: both ends are node 2", SOUND + "0: 0,1,5,{}\n1: 2,2,5,{}\n"),
            (f"{refused}: arc 0: length 2,000,001 m is over 2,000,000", SOUND + "0: 0,1,2000001,{}\n"),
            (f"{refused}: the table has more than 128 arcs", SOUND + "".join(f"{n}: 0,1,5,{{}}\n" for n in range(129))),
        ):
            with self.subTest(numbered):
                self.assert_refused(message, self.given, numbered)


if __name__ == "__main__":
    unittest.main()
