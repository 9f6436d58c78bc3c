"""A mesh: its arcs, the requests asked of it and, where it was written by name, the names."""

from __future__ import annotations

from dataclasses import dataclass, field, replace
from decimal import Decimal
from itertools import groupby

from . import rules


@dataclass(frozen=True)
class _Named:
    name: str
    title: str | None = None

    def __str__(self):
        return f"{self.title} ({self.name})" if self.title else self.name


@dataclass(frozen=True)
class Risk(_Named):
    """A risk that has a name."""


@dataclass(frozen=True)
class Site(_Named):
    """A node that has a name. `place` is its latitude and longitude, where they were given."""

    place: tuple[Decimal, Decimal] | None = None


@dataclass(frozen=True)
class Trench(_Named):
    """A span that has a name, since several lines may lie in it. `span` is its number, 0 while none does."""

    span: int = 0


@dataclass(frozen=True)
class Arc:
    """One direction of one span. Each field is as wide as its place in the record, not as narrow as the planner's range:
    what the planner refuses can be written too. `span` is the number of its span, 0 where that is not known: arcs with the
    same number lie in one span. `cable` tells which line of a named mesh it came from: two arcs with the same one are its
    two directions. `line` is for messages, and is no part of what the arc is."""

    tail: int
    head: int
    metres: int
    risks: frozenset[int]
    span: int = 0
    cable: int | None = None
    line: int | None = field(default=None, compare=False)


@dataclass(frozen=True)
class Request:
    """What is asked: two end nodes, how long a route may be in metres, how many mains may be tried, and whether the two routes
    have to be apart: they then meet in no node but the two ends, and have no arc in common."""

    source: int
    terminal: int
    reach: int = rules.REACH_MAX
    allowance: int = 1000
    spare: tuple[int, int] = (0, 0)
    apart: bool = False


@dataclass(frozen=True)
class Mesh:
    """Arcs by number and the requests asked of them. `named` tells whether sites and risks have names; `cables` has the
    title of each span or arc line of a named mesh, None where it has none. `closed` are the numbers of arcs that no route may
    take; one that no arc has can be among them, for the planner to refuse. `closed_lines` tells where each is closed, as far as
    lines do; it is for messages, and is no part of what the mesh is."""

    arcs: tuple[Arc, ...] = ()
    requests: tuple[Request, ...] = ()
    named: bool = False
    sites: tuple[Site, ...] = ()
    risks: tuple[Risk, ...] = ()
    cables: tuple[str | None, ...] = ()
    trenches: tuple[Trench, ...] = ()
    closed: frozenset[int] = frozenset()
    closed_lines: dict[int, int] = field(default_factory=dict, compare=False, repr=False)

    def with_requests(self, *requests):
        return replace(self, requests=requests)

    def with_closed(self, numbers, line=None):
        """The mesh with these arcs closed too, by a line where one says so."""
        lines = {} if line is None else dict.fromkeys(numbers, line)
        return replace(self, closed=self.closed.union(numbers), closed_lines=lines | self.closed_lines)

    def with_arcs(self, old_numbers, arcs):
        """The mesh with no arcs but these, which had these numbers. What is closed follows its arc; a number that no arc has
        stays as it is, since what it was meant for is not known."""
        new = {old: number for number, old in enumerate(old_numbers)}
        new |= {past: past for past in self.closed if past >= len(self.arcs)}
        closed = frozenset(new[old] for old in self.closed if old in new)
        lines = {new[old]: line for old, line in self.closed_lines.items() if old in new}
        return replace(self, arcs=tuple(arcs), closed=closed, closed_lines=lines)

    @property
    def open_arcs(self):
        return [arc for number, arc in enumerate(self.arcs) if number not in self.closed]

    @property
    def blank(self):
        """The numbers of the arcs with no risk listed, rising: the planner refuses them, but for those of 0 metres, which are
        not among these."""
        return [number for number, arc in enumerate(self.arcs) if rules.is_blank(arc)]

    def by_line(self, numbers):
        """These numbers, rising, with both directions of a line of a named mesh together; no arc has to have them."""
        return [tuple(some) for _, some in groupby(sorted(numbers), self._line_of)]

    def _line_of(self, number):
        return self.arcs[number].cable if self.named and number < len(self.arcs) else f"arc {number}"

    def site(self, node):
        """A node as people call it, with its short name."""
        return str(self.sites[node]) if self.named else f"node {node}"

    def short_site(self, node):
        return self.sites[node].name if self.named else f"node {node}"

    def place(self, node):
        """A node in a list of places: its title, where it has one."""
        return self.sites[node].title or self.sites[node].name if self.named else f"node {node}"

    def risk(self, number):
        """A risk as people call it, with its short name."""
        return str(self.risks[number]) if self.named else f"risk {number}"

    def short_risk(self, number):
        return self.risks[number].name if self.named else f"risk {number}"

    def cable(self, number):
        """What an arc goes by: the title of its line, else its two ends, told apart where several have the same ends; the
        arc's number where the mesh has no names."""
        return str(self.named_cable(number)) if self.named else f"arc {number}"

    def span(self, number):
        """A span as people call it: its trench, else the line that has it to itself; its number where the mesh has no names."""
        return str(self.named_span(number)) if self.named else f"span {number}"

    def trench(self, number):
        """The trench that a span is; None where it is none, or not known."""
        return next((trench for trench in self.trenches if trench.span == number != 0), None)

    def named_span(self, number):
        """The name and title of a span of a named mesh."""
        return self.trench(number) or self.named_cable([arc.span for arc in self.arcs].index(number))

    def named_cable(self, number):
        """The name and title of an arc's line in a named mesh."""
        arc = self.arcs[number]
        first = next(a for a in self.arcs if a.cable == arc.cable)  # both directions have one name
        ends, title = f"{self.sites[first.tail].name}-{self.sites[first.head].name}", self.cables[arc.cable]
        alike = self.cables_between(arc.tail, arc.head)
        return _Named(ends if title or len(alike) == 1 else f"{ends} no. {alike.index(arc.cable) + 1}", title)

    def cables_between(self, one, other):
        """The lines between two nodes, whichever way they go, in their order: `no. 1` is the first."""
        return sorted({a.cable for a in self.arcs if {a.tail, a.head} == {one, other}})
