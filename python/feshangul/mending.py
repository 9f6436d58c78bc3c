"""A mesh mended: what the proved mender keeps of it, what is lost and what it leaves for a person, by number, by line and in
words."""

from __future__ import annotations

from bisect import bisect_left
from dataclasses import asdict, dataclass, replace
from itertools import groupby

from . import records, rules
from .fault import hold_reply
from .library import planner
from .mesh import Mesh


@dataclass(frozen=True)
class Change:
    """An arc that is lost, or a torn end: its old number, the reason (rules.MEND_REASONS), its new number, None for each since
    what is kept is kept as it was, the line where it stood, None where there are no lines, words, and whether it was closed."""

    old: int
    reason: int
    new: int | None
    line: int | None
    words: str
    closed: bool = False


@dataclass(frozen=True)
class Mended:
    """The mesh as it came, what is left of it, and the changes by rising old number: none where it was clean. Arcs with no risk
    listed are left as they are, for a person: `mesh.blank` tells them."""

    given: Mesh
    mesh: Mesh
    changes: tuple[Change, ...]

    number = 0

    @property
    def old_numbers(self):
        """For each arc of the mended mesh, in turn, the number that it had."""
        return _old_numbers(self.changes, len(self.mesh.arcs))

    @property
    def shifts(self):
        """The kept arcs that have another number, in runs of neighbours: each the first and last old number and the first
        and last new one. Whatever stands in no run and is not lost has the number that it had."""
        arcs = enumerate(self.old_numbers)  # new number, old number
        runs = [list(run) for shift, run in groupby(arcs, lambda arc: arc[1] - arc[0]) if shift]
        return [(run[0][1], run[-1][1], run[0][0], run[-1][0]) for run in runs]


@dataclass(frozen=True)
class MendRefusal:
    """A mesh that the mender does not take: the number, and the words for it."""

    given: Mesh
    number: int
    words: str


def mend(mesh):
    """Asks the proved mender for the mesh without its faulty arcs: a Mended or a MendRefusal."""
    return _mended(mesh, records.put_table(mesh.arcs))


def mend_table(sent):
    """The same for a table as operators send it: the bytes of its arcs and nothing before them, whose end may be torn."""
    whole = len(sent) - len(sent) % rules.RECORD_BYTES
    return _mended(Mesh(records.get_table(sent[:whole])), sent)


def old_number(changes, new):
    """The number that arc `new` of the mended mesh had: each arc lost at or before it puts it one further on."""
    for change in changes:
        if change.new is None and change.old <= new:
            new += 1
    return new


def _old_numbers(changes, kept):
    return [old_number(changes, new) for new in range(kept)]


def _mended(mesh, sent):
    """The reply is held against the mesh on the way, to the last byte: whatever fits is what the mender is proved to give."""
    number, table, listed = planner().mend(sent)
    if number != 0:
        return MendRefusal(mesh, number, rules.MEND_REFUSALS.get(number, "a number that this version does not know"))
    for what, found in (("table", table), ("list", listed)):
        hold_reply(len(found) % rules.RECORD_BYTES == 0, f"a {what} of {len(found)} bytes")
    kept = _old_numbers(records.get_list(listed), len(table) // rules.RECORD_BYTES)
    changes = _changes(mesh, len(sent) % rules.RECORD_BYTES, kept)
    mended = _with_kept(mesh, kept)
    hold_reply(listed == records.put_list(changes), "another list than that of its arcs")
    hold_reply(table == records.put_table(mended.arcs), "another arc than that of its number")
    return Mended(mesh, mended, changes)


def _changes(mesh, torn, kept):
    """What is lost where the arcs with these old numbers are kept: they have to be those with no reason to go."""
    reasons = [rules.mend_reason(arc, bisect_left(kept, old)) for old, arc in enumerate(mesh.arcs)]
    hold_reply(kept == [old for old, reason in enumerate(reasons) if not reason], "other arcs than are to be kept")
    lines = [arc.line for arc in mesh.arcs]
    if torn:
        reasons.append(rules.torn_reason(torn))
        lines.append(None)
    lost = ((old, *reason) for old, reason in enumerate(reasons) if reason)
    return tuple(Change(old, reason, None, lines[old], words, old in mesh.closed) for old, reason, words in lost)


def _with_kept(mesh, kept):
    """The mesh with no arcs but those with these old numbers, and with those of its lines that still have one."""
    arcs = [mesh.arcs[old] for old in kept]
    cables = sorted({arc.cable for arc in arcs} - {None})
    arcs = [replace(arc, cable=None if arc.cable is None else cables.index(arc.cable)) for arc in arcs]
    return replace(mesh.with_arcs(kept, arcs), cables=tuple(mesh.cables[cable] for cable in cables))


# ---- in words ----


def words(found):
    """What was lost, which numbers shifted, and what is left for a person, a line each."""
    if not found.changes:
        return [f"Nothing to mend: {_all_clean(found)}.", *_blank(found)]
    return [_summary(found), *map(_changed, found.changes), *(_shifted(*run) for run in found.shifts), *_blank(found)]


def _all_clean(found):
    arcs = len(found.given.arcs)
    return {0: "there is no arc", 1: "the only arc is clean"}.get(arcs, f"all {arcs} arcs are clean")


def _summary(found):
    arcs, kept = len(found.given.arcs), len(found.mesh.arcs)
    lost = f"of {arcs} arc{'' if arcs == 1 else 's'} {arcs - kept} {'is' if arcs - kept == 1 else 'are'} lost"
    torn = any(change.reason == rules.LOST_TORN for change in found.changes)
    return f"Mended: {lost if kept < arcs else _all_clean(found)}{'; a torn end is lost' if torn else ''}."


def _changed(change):
    return f"{_place(change.line, change.old)}: lost: {change.words}{'; it was closed' if change.closed else ''}"


def _place(line, *arcs):
    """Where an arc, or both arcs of a line, stood."""
    numbers = f"arc{'' if len(arcs) == 1 else 's'} {' and '.join(map(str, arcs))}"
    return numbers if line is None else f"line {line}, {numbers}"


def _shifted(first_old, last_old, first_new, last_new):
    if first_old == last_old:
        return f"Arc {first_old} is now arc {first_new}."
    return f"Arcs {first_old} to {last_old} are now arcs {first_new} to {last_new}."


def _blank(found):
    """The kept arcs with no risk listed, by the numbers that they had, as what is lost; both directions of a line at once."""
    blank = found.mesh.blank
    if not blank:
        return []
    arcs = f"{len(blank)} arc{'' if len(blank) == 1 else 's'} with no risk listed"
    told = [f"Left for a person: {arcs}. The planner refuses such arcs, by {rules.ARC_BLANK}, until their risks are listed."]
    old_numbers = found.old_numbers
    for numbers in found.mesh.by_line(blank):
        place = _place(found.mesh.arcs[numbers[0]].line, *(old_numbers[new] for new in numbers))
        told.append(f"{place}: no risk is listed")
    return told


# ---- as data ----


def data(found):
    """The same as plain dictionaries and lists, for JSON (docs/MESHES.md has each field)."""
    fields = {"number": found.number, "arcs": len(found.given.arcs)}
    if not isinstance(found, Mended):
        return fields | {"words": found.words}
    old_numbers = found.old_numbers
    return fields | {
        "kept": len(found.mesh.arcs),
        "changes": [asdict(change) for change in found.changes],
        "blank": [{"old": old_numbers[new], "new": new, "line": found.mesh.arcs[new].line} for new in found.mesh.blank],
        "old_numbers": old_numbers,
    }
