"""Mending: each reason, old numbers, limits and torn ends, damaged replies, the words, and the command as people use it."""

import json
import os
import random
import re
import shutil
import struct
import subprocess
import sys
import types
import unittest
from collections import Counter
from dataclasses import replace
from unittest import mock

import feshangul
from feshangul import library, mending, records, rules, text
from feshangul.fault import LibraryFault
from feshangul.mesh import Arc, Mesh, Risk, Site, Trench

from .shared import A_HEX, COMMAND, EXAMPLES, RELEASE, CommandTest, Ran, call, example, run, without_comments

HEAD = "from 0 to 1 reach 10 allowance 1\n"
SOUND = Arc(0, 1, 5, frozenset({0, 63}))
NODE, ENDS, LENGTH = replace(SOUND, head=40), replace(SOUND, head=0), replace(SOUND, metres=2_000_001)
SPAN = replace(SOUND, span=0x0207)


def numbered(*arcs):
    """The text of a mesh with these arcs, each written without its number."""
    return HEAD + "".join(f"{number}: {arc}\n" for number, arc in enumerate(arcs))


def mended(*arcs):
    return mending.mend(Mesh(arcs))


def changes_of(found):
    return [(change.old, change.reason, change.new) for change in found.changes]


# ---- what the request says, listed plainly ----


def plainly(data):
    """The mended table and the list of what is lost."""
    table, listed = b"", b""
    for start in range(0, len(data), 16):
        record = data[start : start + 16]
        reason = reason_of(record, len(table) // 16)
        if reason:
            listed += struct.pack("<HBxH10x", start // 16, reason, 65535)
        else:
            table += record
    return table, listed


def reason_of(record, kept):
    if len(record) < 16:
        return 6
    if record[0] > 31 or record[1] > 31:
        return 1
    if record[0] == record[1]:
        return 2
    if int.from_bytes(record[4:8], "little") > 2_000_000:
        return 3
    return 5 if kept == 128 else 0


def random_table(rng):
    """A table of up to 257 arcs, clean or with faults here and there or everywhere, now and then with a torn end."""
    arcs = rng.choice((0, 1, 2, rng.randrange(20), rng.randrange(20), 127, 128, 129, rng.randrange(257), 255, 256, 257))
    faulty = rng.choice((0, 0.02, 0.2, 0.6))
    torn = rng.randrange(1, 16) if rng.random() < 0.3 else 0
    return b"".join(random_record(rng, faulty) for _ in range(arcs)) + rng.randbytes(torn)


def random_record(rng, faulty):
    tail, head = rng.sample(range(32), 2)
    risks = rng.choice((0, 1 << rng.randrange(64), rng.getrandbits(64) & rng.getrandbits(64) & rng.getrandbits(64)))
    span = rng.choice((0, 0, 1, 255, 256, 65535))
    record = bytearray(struct.pack("<BBHIQ", tail, head, span, rng.randrange(2_000_001), risks))
    for place, put in (
        (0, bytes([rng.choice((32, 40, 255))])),
        (1, bytes([rng.choice((32, 40, 255))])),
        (1, bytes([tail])),
        (4, struct.pack("<I", rng.choice((2_000_001, 2**31, 2**32 - 1)))),
    ):
        if rng.random() < faulty / 3:
            record[place : place + len(put)] = put
    return bytes(record)


class RandomTables(unittest.TestCase):
    def test_600_are_mended_as_a_plain_listing_of_the_request_says(self):
        rng = random.Random(20)
        seen = Counter()
        for number in range(600):
            data = random_table(rng)
            with self.subTest(number):
                found = mending.mend_table(data)
                if len(data) > 4096:
                    self.assertEqual(found.number, 2)
                    seen["refused"] += 1
                    continue
                self.assert_listed(found, *plainly(data))
            seen.update(change.reason for change in found.changes)
            seen["clean"] += not found.changes
        self.assertEqual(set(seen), {1, 2, 3, 5, 6, "clean", "refused"})
        self.assertGreater(min(seen.values()), 40)

    def assert_listed(self, found, table, listed):
        self.assertEqual(records.put_table(found.mesh.arcs), table)
        self.assertEqual(records.put_list(found.changes), listed)
        twice = mending.mend_table(table)
        self.assertEqual((twice.mesh, twice.changes), (found.mesh, ()))

    def test_the_library_gives_the_bytes_of_the_listing(self):
        rng = random.Random(21)
        for number in range(200):
            data = random_table(rng)
            with self.subTest(number):
                expected = (2, b"", b"") if len(data) > 4096 else (0, *plainly(data))
                self.assertEqual(library.planner().mend(data), expected)

    def test_every_old_number_is_got_back(self):
        rng = random.Random(22)
        for number in range(200):
            data = random_table(rng)[:4096]
            found = mending.mend_table(data)
            with self.subTest(number):
                lost = {change.old for change in found.changes}
                self.assertEqual({change.new for change in found.changes} - {None}, set())
                self.assertEqual(found.old_numbers, [old for old in range(len(data) // 16) if old not in lost])
                for new, (old, arc) in enumerate(zip(found.old_numbers, found.mesh.arcs)):
                    self.assertEqual(mending.old_number(found.changes, new), old)
                    self.assertEqual(arc, found.given.arcs[old])


# ---- one by one ----


class Reasons(unittest.TestCase):
    def test_each_reason_with_its_line_and_words_and_of_several_the_first(self):
        for reason, words, arc in (
            (1, "tail node 32 is over 31", "32,1,5,{}"),
            (1, "head node 255 is over 31", "0,255,5,{}"),
            (1, "tail node 40 is over 31", "40,40,4294967295,{} span 1"),
            (1, "head node 32 is over 31", "0,32,5,{} span 1"),
            (2, "both ends are node 7", "7,7,5,{}"),
            (2, "both ends are node 0", "0,0,2000001,{} span 3"),
            (3, "length 2,000,001 m is over 2,000,000", "0,1,2000001,{}"),
            (3, "length 4,294,967,295 m is over 2,000,000", "0,1,4294967295,{} span 3"),
        ):
            with self.subTest(arc):
                mesh = text.read(HEAD + f"\n0: 0,1,5,{{}}\n# faulty:\n1: {arc}\n2: 1,0,5,{{}}\n", "mesh")
                found = mending.mend(mesh)
                self.assertEqual(found.changes, (mending.Change(1, reason, None, 5, words),))
                self.assertEqual(found.mesh, replace(mesh, arcs=(mesh.arcs[0], mesh.arcs[2])))

    def test_the_span_of_a_kept_arc_is_kept(self):
        mesh = text.read(numbered("7,7,5,{} span 3", "31,0,2000000,{0,63} span 256", "0,1,5,{} span 65535"), "mesh")
        found = mending.mend(mesh)
        self.assertEqual(changes_of(found), [(0, 2, None)])
        self.assertEqual(text.write(found.mesh), numbered("31,0,2000000,{0,63} span 256", "0,1,5,{} span 65535"))

    def test_a_mesh_with_spans_is_clean(self):
        self.assertEqual(mended(SPAN, SOUND, SPAN).changes, ())

    def test_a_clean_mesh_is_left_as_it_is(self):
        for path in sorted(EXAMPLES.glob("*.txt")):
            with self.subTest(path.name):
                mesh = text.read(example(path.name), path.name)
                self.assertEqual(mending.mend(mesh), mending.Mended(mesh, mesh, ()))

    def test_a_mesh_of_no_arcs_is_clean(self):
        self.assertEqual(mended(), mending.Mended(Mesh(), Mesh(), ()))
        self.assertEqual(mending.mend_table(b""), mended())

    def test_all_arcs_may_be_lost(self):
        found = mended(NODE, ENDS, LENGTH)
        self.assertEqual((found.mesh.arcs, changes_of(found)), ((), [(0, 1, None), (1, 2, None), (2, 3, None)]))

    def test_the_request_is_not_mended(self):
        mesh = text.read("from 40 to 40 reach 4294967295 allowance 0 spare 1,2\n0: 7,7,5,{}\n", "mesh")
        self.assertEqual(mending.mend(mesh).mesh.requests, mesh.requests)

    def test_kept_arcs_keep_the_lines_on_which_they_stood(self):
        mesh = text.read(numbered("7,7,5,{}", "0,1,5,{}", "0,1,5,{} span 1"), "mesh")
        self.assertEqual([arc.line for arc in mending.mend(mesh).mesh.arcs], [3, 4])


class Limits(unittest.TestCase):
    def test_128_arcs_are_all_kept(self):
        self.assertEqual(mended(*[SOUND] * 128).changes, ())

    def test_arcs_past_128_kept_ones_are_lost(self):
        past = mending.Change(128, 5, None, None, "128 arcs are kept before it")
        self.assertEqual(mended(*[SOUND] * 129).changes, (past,))
        found = mended(*[SOUND] * 256)
        self.assertEqual(changes_of(found), [(old, 5, None) for old in range(128, 256)])
        self.assertEqual(found.old_numbers, list(range(128)))

    def test_lost_arcs_do_not_count_towards_128(self):
        self.assertEqual(changes_of(mended(NODE, *[SOUND] * 128)), [(0, 1, None)])
        self.assertEqual(changes_of(mended(*[SOUND] * 127, ENDS, SOUND, SOUND)), [(127, 2, None), (129, 5, None)])
        self.assertEqual(changes_of(mended(*[LENGTH] * 128, *[SOUND] * 128)), [(old, 3, None) for old in range(128)])

    def test_a_fault_is_looked_for_before_the_limit(self):
        found = mended(*[SOUND] * 128, NODE, ENDS, LENGTH, SOUND)
        self.assertEqual(changes_of(found), [(128, 1, None), (129, 2, None), (130, 3, None), (131, 5, None)])

    def test_arcs_with_and_without_a_span_count_alike(self):
        self.assertEqual(changes_of(mended(*[SOUND] * 127, SPAN, SPAN, SOUND)), [(128, 5, None), (129, 5, None)])

    def test_more_than_256_arcs_are_refused(self):
        words = "the table is over 4,096 bytes, which are 256 arcs"
        for arcs in (257, 60_000):
            mesh = Mesh((SOUND,) * arcs)
            self.assertEqual(mending.mend(mesh), mending.MendRefusal(mesh, 2, words))

    def test_4096_bytes_are_mended_and_4097_refused(self):
        data = records.put_table([SOUND] * 256)
        self.assertEqual(len(mending.mend_table(data).changes), 128)
        self.assertEqual(mending.mend_table(data + b"\0").number, 2)
        self.assertEqual(mending.mend_table(data[:-1]).changes[-1].reason, 6)

    def test_short_outputs_are_refused(self):
        for size, data, number in ((15, bytes(16), 13), (16, bytes(17), 13), (0, b"\0", 13), (0, b"", 0), (0, bytes(4097), 2)):
            with self.subTest(size=size, data=len(data)), mock.patch("feshangul.library.OUTPUT_BYTES", size):
                self.assertEqual(mending.mend_table(data).number, number)
        with mock.patch("feshangul.library.OUTPUT_BYTES", 15):
            self.assertEqual(mended(SOUND).words, "an output buffer is shorter than the table")

    def test_a_number_that_no_record_can_hold_is_told(self):
        with self.assertRaises(feshangul.InputFault):
            mended(replace(SOUND, tail=256))


class TornEnds(unittest.TestCase):
    def test_a_torn_end_is_lost_as_the_record_that_it_would_have_been(self):
        for whole in (0, 1, 3):
            for torn in (1, 2, 15):
                with self.subTest(whole=whole, torn=torn):
                    found = mending.mend_table(records.put_table([SOUND] * whole) + b"\xff" * torn)
                    words = f"torn off after {torn} of its 16 bytes"
                    self.assertEqual(found.changes, (mending.Change(whole, 6, None, None, words),))
                    self.assertEqual(found.mesh.arcs, (SOUND,) * whole)

    def test_a_torn_end_stands_behind_the_other_changes(self):
        found = mending.mend_table(records.put_table([NODE, SPAN]) + b"\0")
        self.assertEqual(changes_of(found), [(0, 1, None), (2, 6, None)])
        self.assertEqual(found.old_numbers, [1])

    def test_a_torn_end_past_the_limit_is_torn(self):
        found = mending.mend_table(records.put_table([SOUND] * 129) + b"\0")
        self.assertEqual(changes_of(found), [(128, 5, None), (129, 6, None)])


class Shifts(unittest.TestCase):
    def test_runs_of_arcs_that_shifted_by_the_same(self):
        for shifts, arcs in (
            ([], [SOUND, SPAN, SOUND]),
            ([], [SOUND, NODE]),
            ([(1, 1, 0, 0)], [NODE, SOUND]),
            ([(1, 3, 0, 2)], [NODE, SOUND, SPAN, SOUND]),
            ([(2, 3, 1, 2)], [SOUND, ENDS, SOUND, SOUND, LENGTH]),
            ([(1, 1, 0, 0), (4, 5, 1, 2)], [NODE, SOUND, NODE, NODE, SOUND, SOUND]),
        ):
            with self.subTest(arcs):
                self.assertEqual(mended(*arcs).shifts, shifts)


# ---- meshes with names ----


def named(*arcs):
    sites = tuple(Site(name, name * 2) for name in "ABC")
    return Mesh(arcs, (), True, sites, (Risk("R"),), ("first", None, "third"), (Trench("T", "trench", 9),))


class Named(unittest.TestCase):
    """By name no text is faulty, but a mesh that was made without one may be."""

    def test_names_and_titles_of_what_is_kept_are_kept(self):
        none = frozenset()
        arcs = [Arc(0, 1, 5, frozenset({0}), 4, cable=0), Arc(1, 0, 5, frozenset({0}), 4, cable=0)]
        arcs += [Arc(1, 1, 5, none, 6, cable=1), Arc(1, 2, 5, none, 9, cable=2), Arc(2, 99, 5, none, 9, cable=2)]
        found = mending.mend(named(*arcs))
        self.assertEqual(changes_of(found), [(2, 2, None), (4, 1, None)])
        self.assertEqual(
            text.write(found.mesh),
            'site A "AA"\nsite B "BB"\nsite C "CC"\nrisk R\ntrench T "trench"\n'
            'span A B 5m R "first"\narc B C 5m - in T "third"\n',
        )
        self.assertEqual([found.mesh.cable(arc) for arc in range(3)], ["first (A-B)", "first (A-B)", "third (B-C)"])
        self.assertEqual([found.mesh.span(arc.span) for arc in found.mesh.arcs], ["first (A-B)", "first (A-B)", "trench (T)"])

    def test_an_arc_that_lost_its_way_back_is_still_known_to_lie_in_its_span(self):
        none = frozenset()
        arcs = [Arc(0, 1, 5, none, 3, cable=0), Arc(1, 0, 2_000_001, none, 3, cable=0), Arc(1, 2, 1, none, cable=1)]
        found = mending.mend(replace(named(*arcs), cables=("first", None), trenches=()))
        written = text.write(found.mesh)
        self.assertTrue(written.endswith('risk R\ntrench S3\narc A B 5m - in S3 "first"\narc B C 1m -\n'))
        self.assertEqual([arc.span for arc in text.read(written, "mended").arcs], [1, 0])

    def test_both_directions_of_a_line_whose_span_is_not_known_are_written_as_two_arcs(self):
        none = frozenset()
        mesh = replace(named(Arc(0, 1, 5, none, cable=0), Arc(1, 0, 5, none, cable=0)), cables=("first",), trenches=())
        written = text.write(mending.mend(mesh).mesh)
        self.assertTrue(written.endswith('risk R\narc A B 5m - "first"\narc B A 5m - "first"\n'))
        self.assertEqual([arc.span for arc in text.read(written, "mended").arcs], [0, 0])

    def test_what_is_written_of_a_mended_mesh_is_read_back(self):
        none = frozenset()
        arcs = [Arc(0, 1, 5, none, 1, cable=0), Arc(1, 0, 5, none, 1, cable=0), Arc(1, 2, 2_000_001, none, cable=1)]
        arcs += [Arc(1, 2, 1, none, 9, cable=2), Arc(2, 0, 1, none, cable=3)]
        found = mending.mend(replace(named(*arcs), cables=("first", None, "third", None), trenches=(Trench("T", None, 9),)))
        renumbered = [replace(arc, span={9: 2}.get(arc.span, arc.span)) for arc in found.mesh.arcs]
        mesh = replace(found.mesh, arcs=tuple(renumbered), trenches=(Trench("T", None, 2),))
        self.assertEqual(text.read(text.write(found.mesh), "mended"), mesh)


# ---- what is closed ----


class Closed(unittest.TestCase):
    def test_what_is_closed_follows_its_arc(self):
        # Arcs 1, 2 and 5 are lost, so 0 stays 0, 3 and 4 become 1 and 2, and 6 becomes 3.
        mesh = text.read(numbered("0,1,1,{}", "7,7,5,{}", "0,40,5,{}", "0,1,2,{}", "0,1,3,{}", "9,9,5,{}", "0,1,4,{}"), "mesh")
        for closed, new, lost in (
            (set(), set(), []),
            ({0}, {0}, []),
            ({3, 6}, {1, 3}, []),
            ({0, 3, 4, 6}, {0, 1, 2, 3}, []),
            ({1, 4}, {2}, [1]),
            ({1, 2, 5}, set(), [1, 2, 5]),
            (set(range(7)), {0, 1, 2, 3}, [1, 2, 5]),
        ):
            with self.subTest(closed):
                found = mending.mend(mesh.with_closed(closed))
                self.assertEqual((found.mesh.closed, len(found.mesh.arcs)), (new, 4))
                self.assertEqual([change.old for change in found.changes if change.closed], lost)
                self.assertEqual(mending.mend(found.mesh).mesh, found.mesh)

    def test_the_same_arcs_of_300_random_meshes_are_closed_after_as_before(self):
        rng = random.Random(27)
        seen = Counter()
        for number in range(300):
            data = random_table(rng)[:4096]
            arcs = records.get_table(data[: len(data) // 16 * 16])
            closed = set(rng.sample(range(min(128, len(arcs))), rng.randrange(1 + min(128, len(arcs)))))
            found = mending.mend(Mesh(arcs).with_closed(closed))
            with self.subTest(number):
                self.assertEqual({found.old_numbers[new] for new in found.mesh.closed}, closed & set(found.old_numbers))
                lost = {change.old for change in found.changes if change.closed}
                self.assertEqual(lost, closed - set(found.old_numbers))
            seen["kept"] += bool(found.mesh.closed)
            seen["lost"] += bool(lost)
        self.assertGreater(min(seen.values()), 50)

    def test_a_number_that_no_arc_has_is_left_for_the_planner_to_refuse(self):
        mesh = text.read(numbered("7,7,5,{0}", "0,1,5,{0}", "0,1,6,{0}") + "closed 3,2,127\n", "mesh")
        found = mending.mend(mesh)
        self.assertEqual((found.mesh.closed, found.mesh.closed_lines), ({1, 3, 127}, {1: 5, 3: 5, 127: 5}))
        refused = feshangul.plan(found.mesh, found.mesh.requests[0])
        self.assertEqual((refused.number, refused.words), (16, "arc 3, line 5: closed, but the table has only arcs 0 to 1"))

    def test_lines_of_a_mesh_by_name_stay_closed(self):
        none = frozenset()
        arcs = [Arc(0, 1, 5, none, 1, cable=0), Arc(1, 1, 5, none, 2, cable=1), Arc(1, 2, 5, none, 9, cable=2)]
        found = mending.mend(named(*arcs).with_closed({1, 2}))
        self.assertEqual((found.mesh.closed, found.changes[0].closed), ({1}, True))
        self.assertTrue(text.write(found.mesh).endswith('arc B C 5m - in T "third"\nclosed in T\n'))

    def test_the_words_tell_a_closed_arc_that_is_lost(self):
        mesh = text.read(numbered("0,40,5,{0}", "0,1,5,{0}", "3,3,5,{0}") + "closed 0,1\n", "mesh")
        self.assertEqual(
            mending.words(mending.mend(mesh)),
            [
                "Mended: of 3 arcs 2 are lost.",
                "line 2, arc 0: lost: head node 40 is over 31; it was closed",
                "line 4, arc 2: lost: both ends are node 3",
                "Arc 1 is now arc 0.",
            ],
        )

    def test_the_command_prints_what_is_closed_with_its_new_number(self):
        faulty = numbered("0,1,5,{0}", "7,7,5,{0}", "0,1,6,{0}", "0,1,7,{0}") + "closed 3,1\n"
        clean = numbered("0,1,5,{0}", "0,1,6,{0}", "0,1,7,{0}") + "closed 2\n"
        told = "# Mended: of 4 arcs 1 is lost.\n# line 3, arc 1: lost: both ends are node 7; it was closed\n"
        ran = call("mend", "-", stdin=faulty.encode())
        self.assertEqual(ran, Ran(1, f"{told}# Arcs 2 to 3 are now arcs 1 to 2.\n{clean}".encode(), b""))
        again = call("mend", "-", stdin=ran.output)
        self.assertEqual(again, Ran(0, f"# Nothing to mend: all 3 arcs are clean.\n{clean}".encode(), b""))
        fields = json.loads(call("mend", "-", "--json", stdin=faulty.encode()).output)
        self.assertEqual(([change["closed"] for change in fields["changes"]], fields["mesh"]), ([True], clean))


# ---- damaged replies ----


def mender_that_replies(*reply):
    """In place of the library, one that replies so to every call."""
    fake = mock.Mock()
    fake.mend.return_value = reply
    return mock.patch("feshangul.mending.planner", return_value=fake)


# Of each reason but the fifth one, and a clean arc before, between and behind.
DATA = records.put_table([SOUND, NODE, SPAN, ENDS, SOUND, LENGTH, SOUND]) + b"torn"
TABLE, LIST = plainly(DATA)
PAST = records.put_table([SOUND] * 130)
PAST_TABLE, PAST_LIST = plainly(PAST)


def listing(*changes):
    """A list of such changes: old number, reason, and new number or None."""
    return b"".join(struct.pack("<HBxH10x", old, reason, 65535 if new is None else new) for old, reason, new in changes)


def flipped(data, bit):
    """The same bytes with one bit turned."""
    return bytes(byte ^ (1 << bit % 8 if place == bit // 8 else 0) for place, byte in enumerate(data))


class Replies(unittest.TestCase):
    def assert_noticed(self, found, table, listed, data=DATA):
        with mender_that_replies(0, table, listed), self.assertRaises(LibraryFault) as raised:
            mending.mend_table(data)
        self.assertRegex(
            str(raised.exception),
            rf"^the library's reply does not fit this mesh \(it has {found}\): is it of another version\?$",
        )

    def test_the_library_gives_the_replies_that_are_damaged_below(self):
        self.assertEqual(library.planner().mend(DATA), (0, TABLE, LIST))
        self.assertEqual(library.planner().mend(PAST), (0, PAST_TABLE, PAST_LIST))

    def test_every_single_wrong_bit_is_noticed(self):
        for bit in range(8 * len(TABLE)):
            with self.subTest(table=bit):
                self.assert_noticed("another arc than that of its number", flipped(TABLE, bit), LIST)
        for bit in range(8 * len(LIST)):
            with self.subTest(list=bit):
                self.assert_noticed(".*", TABLE, flipped(LIST, bit))

    def test_a_reply_that_does_not_fit_the_table_is_noticed(self):
        kept, listed = "other arcs than are to be kept", "another list than that of its arcs"
        arc = "another arc than that of its number"
        first, second, third, last = (LIST[start : start + 16] for start in range(0, len(LIST), 16))
        for found, table, changes in (
            ("a table of 63 bytes", TABLE[:-1], LIST),
            ("a list of 63 bytes", TABLE, LIST[:-1]),
            (kept, TABLE[:-16], LIST),
            (kept, TABLE + TABLE[:16], LIST),
            (kept, b"", LIST),
            (kept, DATA[:-4], b""),
            (kept, TABLE, b""),
            (kept, TABLE, LIST[16:]),
            (listed, TABLE, LIST[:-16]),  # the torn end is not told
            (listed, TABLE, LIST + listing((8, 6, None))),
            (listed, TABLE, LIST + last),
            (kept, TABLE, second + first + third + last),
            (listed, TABLE, LIST.replace(second, listing((3, 1, None)))),  # another reason
            (kept, TABLE, LIST.replace(second, listing((4, 2, None)))),  # another arc
            (kept, TABLE, LIST.replace(second, listing((3, 2, 2)))),  # a new number for what is lost
            (kept, TABLE[:16] + TABLE[32:], first + listing((2, 4, None)) + second + third + last),  # lost for its span
            (kept, TABLE[16:], listing((0, 3, None)) + LIST),  # lost without a fault
            (arc, TABLE[:18] + b"\0\0" + TABLE[20:], LIST),  # its span made zero, and not told
            (listed, TABLE[:18] + b"\0\0" + TABLE[20:], first + listing((2, 4, 1)) + second + third + last),  # as 0.4.0 did
        ):
            with self.subTest(found, changes=changes.hex()):
                self.assert_noticed(found, table, changes)

    def test_a_wrong_limit_is_noticed(self):
        for table, lost in (
            (PAST[: 129 * 16], (129,)),
            (PAST[: 127 * 16], (127, 128, 129)),
            (PAST[: 128 * 16], (127, 129)),
        ):
            with self.subTest(lost):
                changes = listing(*((old, 5, None) for old in lost))
                self.assert_noticed("other arcs than are to be kept", table, changes, PAST)

    def test_the_reply_to_another_table_is_noticed(self):
        rng = random.Random(23)
        tables = [random_table(rng)[:4096] for _ in range(60)]
        for number, (one, other) in enumerate(zip(tables, tables[1:])):
            with self.subTest(number), mender_that_replies(0, *plainly(other)):
                if plainly(one) != plainly(other):
                    self.assertRaises(LibraryFault, mending.mend_table, one)

    def test_a_number_that_is_not_known_is_a_refusal(self):
        for number in (1, 3, 20, 4_294_967_295):
            with self.subTest(number), mender_that_replies(number, b"", b""):
                found = mended(SOUND)
                self.assertEqual((found.number, found.words), (number, "a number that this version does not know"))


class Library(unittest.TestCase):
    def test_a_library_without_the_mender_is_told(self):
        old = types.SimpleNamespace(feshangul_plan=mock.Mock())
        with mock.patch("ctypes.CDLL", return_value=old), self.assertRaises(LibraryFault) as raised:
            library.Loaded("libfeshangul.so")
        self.assertRegex(str(raised.exception), "^the planner's library cannot be loaded: .*feshangul_mend")

    def test_a_program_that_ends_without_an_answer_is_told_with_its_status(self):
        served = library.Served(["false"])
        self.addCleanup(served.close)
        with self.assertRaises(LibraryFault) as raised:
            served.mend(bytes(16))
        self.assertEqual(str(raised.exception), "the planner's program has ended with status 1")

    def test_the_package_mends_with_what_it_names(self):
        mesh = feshangul.Mesh((SPAN, NODE, SOUND))
        found = feshangul.mend(mesh)
        self.assertIsInstance(found, feshangul.Mended)
        self.assertIsInstance(found.changes[0], feshangul.Change)
        self.assertEqual((found.number, found.mesh.arcs, found.old_numbers), (0, (SPAN, SOUND), [0, 2]))
        self.assertEqual(feshangul.mend_table(records.put_table(mesh.arcs)), found)
        self.assertIsInstance(feshangul.mend(feshangul.Mesh((SOUND,) * 257)), feshangul.MendRefusal)


# ---- served ----


def served_cases(data):
    """What the program of the release leaves of these cases."""
    program = [*library._emulator(), RELEASE / "feshangul-serve"]
    return subprocess.run(program, input=data, capture_output=True, timeout=60, check=False)


class Served(CommandTest):
    SETTINGS = {"FESHANGUL_SERVE": str(RELEASE / "feshangul-serve")}

    def test_the_program_of_the_release_mends_as_the_listing_says(self):
        # On x86-64 the library is loaded, and this is the only test of the program; elsewhere both are the program.
        with mock.patch.dict(os.environ, self.SETTINGS):
            served = library.planner.__wrapped__()
        self.addCleanup(served.close)
        self.assertIsInstance(served, library.Served)
        rng = random.Random(24)
        for number in range(200):
            data = random_table(rng)
            with self.subTest(number):
                self.assertEqual(served.mend(data), (2, b"", b"") if len(data) > 4096 else (0, *plainly(data)))
                self.assertEqual(served.plan(data[:32], 0, 1, 5, 1), library.planner().plan(data[:32], 0, 1, 5, 1))
        self.assertEqual(served.mend(bytes(1 << 20)), (2, b"", b""))

    def test_the_program_of_the_release_gives_the_same_output(self):
        mesh = self.file(numbered("7,7,5,{}", "0,1,5,{} span 9"))
        self.assertEqual(run("mend", mesh, settings=self.SETTINGS), run("mend", mesh))
        table = self.file(DATA, "table.bin")
        self.assertEqual(run("mend", "--bytes", table, settings=self.SETTINGS), run("mend", "--bytes", table))

    def test_an_answer_has_both_buffers_whole_and_zero_behind_what_is_written(self):
        done = served_cases(struct.pack("<4I", 1, len(DATA), 160, 144) + DATA)
        expected = struct.pack("<3I", 0, len(TABLE), len(LIST)) + TABLE.ljust(160, b"\0") + LIST.ljust(144, b"\0")
        self.assertEqual((done.returncode, done.stdout), (0, expected))

    def test_cases_of_both_kinds_follow_each_other_and_short_outputs_are_refused(self):
        plan = struct.pack("<7I", 0, 0, 96, 0, 1, 5, 1)
        done = served_cases(plan + struct.pack("<4I", 1, 16, 15, 16) + bytes(16) + plan + struct.pack("<4I", 1, 0, 0, 0))
        no_route, short = struct.pack("<I", 10) + bytes(96), struct.pack("<3I", 13, 0, 0) + bytes(31)
        self.assertEqual((done.returncode, done.stdout), (0, no_route + short + no_route + bytes(12)))

    def test_the_exit_status_tells_how_the_input_ended(self):
        case = struct.pack("<4I", 1, 16, 16, 16) + bytes(16)
        for status, data in (
            (0, b""),
            (0, case + case),
            (1, case + b"\1"),
            (1, case[:3]),
            (1, case[:15]),
            (1, case[:-1]),
            (2, struct.pack("<I", 4)),
            (2, struct.pack("<I", 2**32 - 1) + case),
            (2, struct.pack("<4I", 1, 65537, 16, 16)),
            (2, struct.pack("<4I", 1, 16, 65537, 16)),
            (2, struct.pack("<4I", 1, 16, 16, 65537)),
            (0, struct.pack("<4I", 1, 65536, 65536, 65536) + bytes(65536)),
        ):
            with self.subTest(data[:20].hex()):
                self.assertEqual(served_cases(data).returncode, status)


# ---- in words ----


class Words(unittest.TestCase):
    def assert_words(self, words, found):
        self.assertEqual(mending.words(found), words)

    def test_what_is_clean_is_told_in_one_line(self):
        for words, arcs in (
            ("there is no arc", 0),
            ("the only arc is clean", 1),
            ("all 2 arcs are clean", 2),
            ("all 128 arcs are clean", 128),
        ):
            self.assert_words([f"Nothing to mend: {words}."], mended(*[SOUND] * arcs))

    def test_the_summary_counts_what_is_lost(self):
        for words, arcs in (
            ("of 1 arc 1 is lost", [NODE]),
            ("of 2 arcs 1 is lost", [SOUND, ENDS]),
            ("of 2 arcs 2 are lost", [NODE, ENDS]),
            ("of 4 arcs 2 are lost", [SPAN, SPAN, NODE, ENDS]),
            ("of 130 arcs 2 are lost", [SOUND] * 130),
        ):
            with self.subTest(words):
                self.assertEqual(mending.words(mended(*arcs))[0], f"Mended: {words}.")

    def test_a_torn_end_is_told_beside_the_arcs(self):
        for words, arcs in (
            ("there is no arc", []),
            ("the only arc is clean", [SOUND]),
            ("all 2 arcs are clean", [SOUND, SPAN]),
            ("of 3 arcs 1 is lost", [SOUND, SPAN, ENDS]),
        ):
            with self.subTest(words):
                found = mending.mend_table(records.put_table(arcs) + b"torn")
                self.assertEqual(mending.words(found)[0], f"Mended: {words}; a torn end is lost.")
                self.assertEqual(mending.words(found)[-1], f"arc {len(arcs)}: lost: torn off after 4 of its 16 bytes")

    def test_each_change_and_each_run_is_a_line(self):
        sound = "0,1,5,{0}"
        arcs = (sound, "40,1,5,{0}", sound, "0,1,5,{0} span 7", "3,3,5,{0}", "0,1,2000001,{0}", sound)
        self.assert_words(
            [
                "Mended: of 7 arcs 3 are lost.",
                "line 3, arc 1: lost: tail node 40 is over 31",
                "line 6, arc 4: lost: both ends are node 3",
                "line 7, arc 5: lost: length 2,000,001 m is over 2,000,000",
                "Arcs 2 to 3 are now arcs 1 to 2.",
                "Arc 6 is now arc 3.",
            ],
            mending.mend(text.read(numbered(*arcs), "mesh")),
        )

    def test_arcs_past_the_limit_are_told(self):
        words = mending.words(mended(NODE, *[SOUND] * 129))
        self.assertEqual(words[2:], ["arc 129: lost: 128 arcs are kept before it", "Arcs 1 to 128 are now arcs 0 to 127."])


# ---- random meshes in text ----


def random_mesh(rng):
    """The text of a mesh with lines free here and there, how many arcs it has, and the line of each."""
    data = random_table(rng)[:4096]
    lines = [HEAD.rstrip()]
    where = []
    for number, a in enumerate(records.get_table(data[: len(data) // 16 * 16])):
        lines += [rng.choice(("", "# an arc", " \t"))] * (rng.random() < 0.1)
        span = f" span {a.span}" if a.span else ""
        lines.append(f"{number}: {a.tail},{a.head},{a.metres},{text.braced(a.risks)}{span}")
        where.append(len(lines))
    return "\n".join(lines) + "\n", where


def followed(comments, arcs):
    """Where each old number went, None where it is lost, by what the comments say alone."""
    now = list(range(arcs))
    for comment in comments:
        lost = re.fullmatch(r"# line [0-9]+, arc ([0-9]+): lost: .+", comment)
        run_of = re.fullmatch(r"# Arcs? ([0-9]+)(?: to ([0-9]+))? (?:is|are) now arcs? ([0-9]+)(?: to [0-9]+)?\.", comment)
        if lost:
            now[int(lost[1])] = None
        if run_of:
            first, new = int(run_of[1]), int(run_of[3])
            for old in range(first, int(run_of[2] or first) + 1):
                now[old] = new + old - first
    return now


class RandomMeshes(unittest.TestCase):
    def test_300_come_out_as_the_listing_says_and_the_comments_alone_tell_every_number(self):
        rng = random.Random(25)
        statuses = Counter()
        for number in range(300):
            written, where = random_mesh(rng)
            mesh = text.read(written, "mesh")
            table, listed = plainly(records.put_table(mesh.arcs))
            ran = call("mend", "-", stdin=written.encode())
            statuses[ran.status] += 1
            with self.subTest(number):
                self.assertEqual((ran.status, ran.errors), (1 if listed else 0, b""))
                self.assert_comments(ran.output.decode(), where, listed)
                self.assert_blanks(ran.output.decode(), where, mesh, listed)
                self.assertEqual(records.put_table(text.read(ran.output.decode(), "mended").arcs), table)
                again = call("mend", "-", stdin=ran.output)
                self.assertEqual(again.status, 0)
                self.assertEqual(without_comments(again.output.decode()), without_comments(ran.output.decode()))
        self.assertEqual(set(statuses), {0, 1})

    def assert_comments(self, output, where, listed):
        comments = [line for line in output.splitlines() if line.startswith("#")]
        self.assertTrue(output.startswith("".join(f"{comment}\n" for comment in comments) + "from "))
        reasons = {old: reason for old, reason, _ in struct.iter_unpack("<HBxH10x", listed)}
        told = [re.match("# line ([0-9]+), arc ([0-9]+): lost: ", comment) for comment in comments]
        self.assertEqual([(int(t[1]), int(t[2])) for t in told if t], [(where[old], old) for old in reasons])
        new_numbers, kept = [], 0
        for old in range(len(where)):
            new_numbers.append(None if old in reasons else kept)
            kept += old not in reasons
        self.assertEqual(followed(comments, len(where)), new_numbers)

    def assert_blanks(self, output, where, mesh, listed):
        lost = {old for old, _, _ in struct.iter_unpack("<HBxH10x", listed)}
        blank = [old for old, arc in enumerate(mesh.arcs) if arc.metres and not arc.risks and old not in lost]
        told = re.findall("^# line ([0-9]+), arc ([0-9]+): no risk is listed$", output, re.MULTILINE)
        self.assertEqual([(int(line), int(old)) for line, old in told], [(where[old], old) for old in blank])
        counted = re.findall("^# Left for a person: ([0-9]+) arc", output, re.MULTILINE)
        self.assertEqual(counted, [str(len(blank))] if blank else [])


# ---- the command ----

FAULTY = numbered("0,1,5,{0}", "7,7,5,{}", "0,1,5,{3} span 9")
MENDED = f"""\
# Mended: of 3 arcs 1 is lost.
# line 3, arc 1: lost: both ends are node 7
# Arc 2 is now arc 1.
{numbered("0,1,5,{0}", "0,1,5,{3} span 9")}""".encode()
TOLD = b"""\
Mended: of 7 arcs 3 are lost; a torn end is lost.
arc 1: lost: head node 40 is over 31
arc 3: lost: both ends are node 0
arc 5: lost: length 2,000,001 m is over 2,000,000
arc 7: lost: torn off after 4 of its 16 bytes
Arc 2 is now arc 1.
Arc 4 is now arc 2.
Arc 6 is now arc 3.
"""
LONG = numbered(*["0,1,5,{}"] * 257)
REFUSED = "refused, number 2: the table is over 4,096 bytes, which are 256 arcs"


class Command(CommandTest):
    def test_a_mesh_is_mended_from_a_file_or_standard_input(self):
        self.assertEqual(run("mend", self.file(FAULTY)), Ran(1, MENDED, b""))
        self.assertEqual(run("mend", "-", stdin=FAULTY.encode()), Ran(1, MENDED, b""))

    def test_a_mended_mesh_has_nothing_to_mend_and_is_planned(self):
        clean = b"# Nothing to mend: all 2 arcs are clean.\n" + without_comments(MENDED.decode()).encode()
        self.assertEqual(call("mend", "-", stdin=MENDED), Ran(0, clean, b""))
        self.assertEqual(call("mend", "-", stdin=clean), Ran(0, clean, b""))
        self.assertEqual(call("plan", "-", stdin=FAULTY.encode()).status, 3)
        self.assertEqual(call("plan", "-", stdin=MENDED).output.splitlines()[0], b"settled 0 0 1")

    def test_mend_and_plan_work_in_a_pipe(self):
        ran = run(COMMAND, self.file(FAULTY), program=["sh", "-c", '"$0" mend "$1" | "$0" plan -'])
        self.assertEqual((ran.status, ran.output.splitlines()[0], ran.errors), (0, b"settled 0 0 1", b""))

    def test_a_mesh_by_name_comes_out_by_name(self):
        bare = without_comments(example("europe.txt"))
        self.assertEqual(
            run("mend", EXAMPLES / "europe.txt", settings={"PYTHONIOENCODING": "ascii"}),
            Ran(0, f"# Nothing to mend: all 22 arcs are clean.\n{bare}".encode(), b""),
        )
        without_request = 'site A "Zürich"\nsite B\nrisk R\nspan A B 1km R\n'
        self.assertEqual(
            call("mend", "-", stdin=without_request.encode()),
            Ran(0, f"# Nothing to mend: all 2 arcs are clean.\n{without_request}".encode(), b""),
        )

    def test_a_mesh_of_no_arcs_is_clean(self):
        empty = f"# Nothing to mend: there is no arc.\n{HEAD}".encode()
        self.assertEqual(call("mend", "-", stdin=HEAD.encode()), Ran(0, empty, b""))

    def test_the_exit_status_tells_what_was_done(self):
        table = self.file(bytes(4097), "long.bin")
        for status, words in (
            (0, ("mend", EXAMPLES / "A.txt")),
            (0, ("mend", EXAMPLES / "A.txt", "--json")),
            (1, ("mend", self.file(FAULTY, "faulty.txt"))),
            (1, ("mend", self.file(FAULTY, "faulty.txt"), "--json")),
            (1, ("mend", "--bytes", self.file(bytes(5), "torn.bin"))),
            (2, ("mend", self.folder / "none")),
            (2, ("mend", self.file("from", "bad.txt"))),
            (2, ("mend",)),
            (3, ("mend", self.file(LONG, "long.txt"))),
            (3, ("mend", "--bytes", table)),
            (3, ("mend", "--bytes", "--json", table)),
        ):
            with self.subTest(words):
                self.assertEqual(run(*words).status, status)

    def test_a_refusal_is_told_and_nothing_printed(self):
        mesh, table = self.file(LONG), self.file(bytes(4097), "long.bin")
        self.assertEqual(call("mend", mesh), Ran(3, b"", f"feshangul: {mesh}: {REFUSED}\n".encode()))
        self.assertEqual(call("mend", "--bytes", table), Ran(3, b"", f"feshangul: {table}: {REFUSED}\n".encode()))
        self.assertEqual(call("mend", "-", stdin=LONG.encode()).errors, f"feshangul: standard input: {REFUSED}\n".encode())

    def test_the_name_of_a_refused_file_cannot_write_to_the_terminal(self):
        ran = call("mend", self.file(LONG, "\x1b[31mred"))
        self.assertEqual(ran, Ran(3, b"", rf"feshangul: {self.folder}/\x1b[31mred: {REFUSED}".encode() + b"\n"))

    def test_a_mesh_that_cannot_be_read_is_told_with_its_line(self):
        mesh = self.file(numbered("0,1,5,{}", "0,256,5,{}"))
        self.assert_told(call("mend", mesh), f'{mesh} line 3: expected the head node from 0 to 31, found "256,5,{{}}"')
        self.assert_told(call("mend", "-"), "standard input line 1: expected a mesh, found the end of the file")

    def test_a_library_of_another_version_is_told(self):
        with mender_that_replies(0, b"", b""):
            told = "the library's reply does not fit this mesh (it has other arcs than are to be kept): "
            self.assert_told(call("mend", self.file(FAULTY)), f"{told}is it of another version?")

    def test_an_interrupt_ends_quietly_with_130(self):
        with mock.patch("feshangul.mending.planner", side_effect=KeyboardInterrupt):
            self.assertEqual(call("mend", EXAMPLES / "A.txt"), Ran(130, b"", b""))


class TablesInBytes(CommandTest):
    def redirected(self, redirection, *words):
        return run(sys.executable, COMMAND, *words, program=["sh", "-c", f'exec "$@" {redirection}', "sh"], stdin=DATA)

    def test_the_table_is_printed_and_the_words_stand_beside_it(self):
        self.assertEqual(run("mend", "--bytes", self.file(DATA, "operator.bin")), Ran(1, TABLE, TOLD))
        self.assertEqual(run("mend", "--bytes", "-", stdin=DATA), Ran(1, TABLE, TOLD))

    def test_a_mended_table_has_nothing_to_mend(self):
        told = b"Nothing to mend: all 4 arcs are clean.\n"
        self.assertEqual(call("mend", "--bytes", "-", stdin=TABLE), Ran(0, TABLE, told))

    def test_an_empty_table_is_clean(self):
        self.assertEqual(call("mend", "--bytes", "-"), Ran(0, b"", b"Nothing to mend: there is no arc.\n"))
        closed = self.redirected("<&-", "mend", "--bytes", "-")
        self.assertEqual(closed, Ran(0, b"", b"Nothing to mend: there is no arc.\n"))

    def test_the_arcs_of_mesh_a_are_clean(self):
        arcs = bytes.fromhex(A_HEX)[16:]
        self.assertEqual(call("mend", "--bytes", "-", stdin=arcs), Ran(0, arcs, b"Nothing to mend: all 5 arcs are clean.\n"))

    def test_where_standard_error_is_closed_or_full_the_table_and_the_status_are_the_same(self):
        for redirection in ("2>&-", "2>/dev/full"):
            with self.subTest(redirection):
                self.assertEqual(self.redirected(redirection, "mend", "--bytes", "-"), Ran(1, TABLE, b""))

    def test_where_the_table_cannot_be_written_that_alone_is_told(self):
        self.assert_told(self.redirected(">/dev/full", "mend", "--bytes", "-"), "standard output: No space left on device")
        self.assert_told(self.redirected(">&-", "mend", "--bytes", "-"), "standard output is closed")

    def test_a_pipe_that_nobody_reads_is_told(self):
        reader, writer = os.pipe()
        os.close(reader)
        self.addCleanup(os.close, writer)
        ran = run("mend", "--bytes", "-", stdin=DATA, stdout=writer)
        self.assertEqual((ran.status, ran.errors), (2, b"feshangul: standard output: Broken pipe\n"))

    def test_any_bytes_are_mended_or_refused_and_write_nothing_to_the_terminal(self):
        rng = random.Random(26)
        for number in range(200):
            data = rng.randbytes(rng.choice((rng.randrange(100), rng.randrange(4097), rng.randrange(6000))))
            ran = call("mend", "--bytes", "-", stdin=data)
            with self.subTest(number):
                self.assertIn(ran.status, (0, 1) if len(data) <= 4096 else (3,))
                self.assertEqual([c for c in ran.errors.decode() if c != "\n" and not c.isprintable()], [])


class Json(CommandTest):
    maxDiff = None

    def fields(self, *words, stdin=b""):
        ran = call("mend", "--json", *words, stdin=stdin)
        self.assertEqual((ran.errors, ran.output.count(b"\n")), (b"", 1))
        return json.loads(ran.output)

    def test_a_mended_mesh_has_its_changes_and_what_is_left(self):
        self.assertEqual(
            self.fields(self.file(FAULTY)),
            {
                "number": 0,
                "arcs": 3,
                "kept": 2,
                "changes": [
                    {"old": 1, "reason": 2, "words": "both ends are node 7", "new": None, "line": 3, "closed": False},
                ],
                "blank": [],
                "old_numbers": [0, 2],
                "mesh": numbered("0,1,5,{0}", "0,1,5,{3} span 9"),
            },
        )

    def test_a_clean_mesh_has_no_changes(self):
        bare = without_comments(example("A.txt"))
        clean = {"number": 0, "arcs": 5, "kept": 5, "changes": [], "blank": [], "old_numbers": [0, 1, 2, 3, 4]}
        self.assertEqual(self.fields(EXAMPLES / "A.txt"), clean | {"mesh": bare})

    def test_a_table_in_bytes_is_told_in_hexadecimal(self):
        fields = self.fields("--bytes", "-", stdin=DATA)
        self.assertEqual((fields["arcs"], fields["kept"], fields["old_numbers"]), (7, 4, [0, 2, 4, 6]))
        torn = {"old": 7, "reason": 6, "words": "torn off after 4 of its 16 bytes", "new": None, "line": None, "closed": False}
        self.assertEqual(fields["changes"][-1], torn)
        self.assertEqual(bytes.fromhex(fields["table"]), TABLE)
        self.assertNotIn("mesh", fields)

    def test_a_refusal_has_its_number_and_words(self):
        words = "the table is over 4,096 bytes, which are 256 arcs"
        self.assertEqual(self.fields(self.file(LONG)), {"number": 2, "arcs": 257, "words": words})
        self.assertEqual(self.fields("--bytes", "-", stdin=bytes(4100)), {"number": 2, "arcs": 256, "words": words})

    def test_json_is_utf_8_whatever_the_encoding_of_the_terminal(self):
        mesh = self.file('site A "Zürich"\nsite B\nspan A B 1km -\n')
        ran = run("mend", "--json", mesh, settings={"PYTHONIOENCODING": "ascii"})
        self.assertEqual(json.loads(ran.output)["mesh"], mesh.read_text(encoding="utf-8"))

    @unittest.skipUnless(shutil.which("jq"), "jq is not on this machine: Debian's package jq")
    def test_the_line_of_the_handbook_lists_the_lines_of_what_is_lost(self):
        pipe = """"$0" mend "$1" --json | jq -r '.changes[].line'"""
        mesh = self.file(numbered("0,1,5,{}", "7,7,5,{}", "0,1,5,{3} span 9", "40,1,5,{}"))
        self.assertEqual(run(COMMAND, mesh, program=["sh", "-c", pipe]), Ran(0, b"3\n5\n", b""))

    @unittest.skipUnless(shutil.which("jq"), "jq is not on this machine: Debian's package jq")
    def test_the_mesh_of_the_object_is_one_to_plan(self):
        pipe = '"$0" mend "$1" --json | jq -r .mesh | "$0" plan -'
        ran = run(COMMAND, self.file(FAULTY), program=["sh", "-c", pipe])
        self.assertEqual(ran.output.splitlines()[0], b"settled 0 0 1")


if __name__ == "__main__":
    unittest.main()
