"""What a `closed` line closes, by number or by name, and the lines that close what is closed in a mesh (docs/MESHES.md).

Each kind of closing tells its arcs in a mesh, what is missing where it has none, and how it is written behind `closed`."""

from __future__ import annotations

from dataclasses import dataclass

from .fault import InputFault, hint, quoted

WORDS = ("in", "from")  # behind `closed` they are no sites: one that is called so stands second


@dataclass(frozen=True)
class Numbers:
    """Arcs by number, at least one. A number that no arc has is for the planner to refuse."""

    numbers: tuple[int, ...]

    def arcs(self, _mesh):
        return list(self.numbers)

    def written(self, _mesh):
        return ",".join(map(str, self.numbers))


@dataclass(frozen=True)
class InTrench:
    """All that lies in a trench."""

    name: str

    def arcs(self, mesh):
        (span,) = (trench.span for trench in mesh.trenches if trench.name == self.name)
        return [number for number, arc in enumerate(mesh.arcs) if arc.span == span != 0]

    def missing(self, _mesh):
        return f'expected a span or an arc "in {self.name}", found none'

    def written(self, _mesh):
        return f"in {self.name}"


@dataclass(frozen=True)
class Between:
    """All between two nodes, or from the one to the other alone; of these the lines with a title, or that at a place among
    them, from 1, where either is given."""

    one: int
    other: int
    one_way: bool = False
    title: str | None = None
    place: int | None = None

    def arcs(self, mesh):
        cables = mesh.cables_between(self.one, self.other)
        if self.title is not None:
            cables = [cable for cable in cables if mesh.cables[cable] == self.title]
        if self.place is not None:
            cables = cables[self.place - 1 : self.place]
        arcs = [number for number, arc in enumerate(mesh.arcs) if arc.cable in cables]
        return [number for number in arcs if not self.one_way or mesh.arcs[number].tail == self.one]

    def missing(self, mesh):
        cables = mesh.cables_between(self.one, self.other)
        one, other = mesh.short_site(self.one), mesh.short_site(self.other)
        if not cables:
            return f"expected a span or an arc between {one} and {other}, found none"
        titles = [mesh.cables[cable] for cable in cables if mesh.cables[cable] is not None]
        if self.title is not None and self.title not in titles:
            found = f"{quoted(self.title)}{hint(self.title, titles)}"
            return f"expected the title of a span or an arc between {one} and {other}, found {found}"
        if self.place is not None and not 1 <= self.place <= len(cables):
            return f"expected no. 1 to {len(cables)} of what is between {one} and {other}, found no. {self.place}"
        return f"expected an arc from {one} to {other}, found the way back alone"

    def written(self, mesh):
        one, other = mesh.short_site(self.one), mesh.short_site(self.other)
        ends = f"from {one} to {other}" if self.one_way else f"{one} {other}"
        title = "" if self.title is None else f' "{self.title}"'
        return f"{ends}{title}" if self.place is None else f"{ends} no. {self.place}"


def closings_of(mesh):
    """Closings of all that is closed in a mesh, no arc twice; by name a wide one in place of several narrow ones."""
    if not mesh.named:
        return [Numbers(tuple(sorted(mesh.closed)))] if mesh.closed else []
    if any(number >= len(mesh.arcs) for number in mesh.closed):
        raise InputFault(f"arc {max(mesh.closed)} is closed, and no span or arc has that number: it cannot be written by name")
    found, left = [], set(mesh.closed)
    for closing in _by_name(mesh):
        arcs = closing.arcs(mesh)
        if arcs and left.issuperset(arcs):
            found.append(closing)
            left.difference_update(arcs)
    return found


def _by_name(mesh):
    """All that may be needed: trenches; then, for each arc, all between its ends, its line, and one direction of these."""
    yield from (InTrench(trench.name) for trench in mesh.trenches)
    for number in sorted(mesh.closed):
        arc = mesh.arcs[number]
        for one, other in _written_ends(mesh, arc):
            yield from _of_line(mesh, arc.cable, one, other, False)
        yield from _of_line(mesh, arc.cable, arc.tail, arc.head, True)


def _of_line(mesh, cable, one, other, one_way):
    yield Between(one, other, one_way)
    if mesh.cables[cable] is not None:
        yield Between(one, other, one_way, title=mesh.cables[cable])
    yield Between(one, other, one_way, place=mesh.cables_between(one, other).index(cable) + 1)


def _written_ends(mesh, arc):
    """The two ends in an order that can be written both ways; none where they are called as both of WORDS."""
    orders = ((arc.tail, arc.head), (arc.head, arc.tail))
    return [ends for ends in orders if mesh.sites[ends[0]].name not in WORDS][:1]
