"""A request planned: the planner's reply as routes over the mesh, or its refusal in words."""

from __future__ import annotations

from dataclasses import dataclass

from . import records, rules
from .fault import InputFault, hold_reply
from .library import planner
from .mesh import Mesh, Request

VERDICTS = {rules.SETTLED: "settled", rules.STOPPED: "stopped"}


@dataclass(frozen=True)
class Route:
    """A route by its arc numbers, with its nodes from source to terminal, its metres, its risks and those of its spans that
    are known."""

    arcs: tuple[int, ...]
    nodes: tuple[int, ...]
    metres: int
    risks: frozenset[int]
    spans: frozenset[int]

    @property
    def kilometres(self):
        return rules.kilometres(self.metres)


@dataclass(frozen=True)
class Pair:
    """An answer: the number returned (0 settled, 1 stopped) and what the reply says. `shared` counts risks and spans."""

    mesh: Mesh
    request: Request
    number: int
    shared: int
    floor: int
    ranked: int
    shared_risks: frozenset[int]
    shared_spans: frozenset[int]
    main: Route
    standby: Route

    @property
    def verdict(self):
        return VERDICTS[self.number]

    @property
    def total(self):
        return self.main.metres + self.standby.metres

    @property
    def common_nodes(self):
        """The nodes between the ends that both routes pass, in the main's order."""
        return [n for n in self.main.nodes[1:-1] if n in self.standby.nodes]

    @property
    def common_spans(self):
        """The spans that both routes cross, each once, in the main's order."""
        crossed = dict.fromkeys(self.mesh.arcs[arc].span for arc in self.main.arcs)
        return [span for span in crossed if span in self.shared_spans]

    @property
    def uncounted_arcs(self):
        """The arcs on both routes whose span is not known, in the main's order: a common span each, that `shared` leaves out."""
        return [arc for arc in self.main.arcs if arc in self.standby.arcs and not self.mesh.arcs[arc].span]

    @property
    def spans_known(self):
        """Whether both routes have a known span on every arc, so that no common one can be missing."""
        return all(self.mesh.arcs[arc].span for arc in self.main.arcs + self.standby.arcs)


@dataclass(frozen=True)
class Refusal:
    """A request that was refused: the number, the words for it and, where it is about one arc, that arc's number and the line
    where it stands or is closed."""

    mesh: Mesh
    request: Request
    number: int
    words: str
    arc: int | None = None
    line: int | None = None

    verdict = "refused"


def plan(mesh, request):
    """Asks the proved planner, and returns a Pair or a Refusal."""
    if any(request.spare):
        return Refusal(mesh, request, 12, rules.REFUSALS[12])  # the request record of `routes`; a call has no such bytes
    asked = (request.source, request.terminal, request.reach, request.allowance)
    if not all(0 <= number < 2**32 for number in asked):  # a call would carry another number
        ranges = f"nodes are {rules.NODE_RANGE}, the reach {rules.REACH_RANGE}, the allowance {rules.ALLOWANCE_RANGE}"
        raise InputFault(f"the request has a number that no call can carry: {ranges}")
    closed = records.put_closed(mesh.closed) if mesh.closed or request.apart else None
    entry = planner().plan_apart if request.apart else planner().plan
    number, data = entry(records.put_table(mesh.arcs), *asked, closed)
    if number in rules.BEHIND_BLANK:  # a library before T-09 returns these for blank arcs too
        hold_reply(not mesh.blank, f"number {number}, though no risk is listed for some arc")
    if number in (rules.NONE_APART, rules.NONE_APART_YET):
        hold_reply(request.apart, f"number {number}, though any pair was asked for")
    if number not in VERDICTS:
        return _refusal(mesh, request, number)
    return _pair(mesh, request, number, records.get_reply(data))


def _refusal(mesh, request, number):
    if number % rules.REASONS in rules.ARC_FAULTS:
        return _refusal_for_arc(mesh, request, number)
    if number % rules.REASONS == rules.ARC_BLANK:
        return _refusal_for_blank(mesh, request, number)
    if number == rules.CLOSED_FAULT:
        return _refusal_for_closed(mesh, request, number)
    if number == rules.NO_ROUTE and mesh.closed:
        return Refusal(mesh, request, number, rules.NO_OPEN_ROUTE)
    return Refusal(mesh, request, number, rules.REFUSALS.get(number, "a number that this version does not know"))


def _refusal_for_arc(mesh, request, number):
    """Says the fault of the arc that the number names, and holds the number against the mesh on the way."""
    arc, reason = divmod(number, rules.REASONS)
    faults = [rules.arc_fault(record) for record in mesh.arcs[: arc + 1]]
    named = faults.pop() if arc < len(mesh.arcs) else None
    hold_reply(named is not None and named[0] == reason and not any(faults), f"number {number}, which is not that of its arcs")
    return _refusal_at(mesh, request, number, named[1], arc, mesh.arcs[arc].line)


def _refusal_for_blank(mesh, request, number):
    """Of several blank arcs the lowest is named, and only where no arc has a fault."""
    arc = number // rules.REASONS
    fits = mesh.blank[:1] == [arc] and not any(map(rules.arc_fault, mesh.arcs))
    hold_reply(fits, f"number {number}, which is not that of its arcs")
    return _refusal_at(mesh, request, number, rules.blank_words(mesh.arcs[arc]), arc, mesh.arcs[arc].line)


def _refusal_for_closed(mesh, request, number):
    """The number does not say which closed arc is past the table; the mesh does, and the lowest is told."""
    past = min((arc for arc in mesh.closed if rules.closed_fault(arc, len(mesh.arcs))), default=None)
    hold_reply(past is not None, f"number {number}, which is not that of its closed arcs")
    words = rules.closed_fault(past, len(mesh.arcs))[1]
    return _refusal_at(mesh, request, number, words, past, mesh.closed_lines.get(past))


def _refusal_at(mesh, request, number, words, arc, line):
    place = f"arc {arc}" if line is None else f"arc {arc}, line {line}"
    return Refusal(mesh, request, number, f"{place}: {words}", arc, line)


def _pair(mesh, request, number, reply):
    """The reply is held against the mesh on the way, so that a library of another version, or a reply to another mesh, is
    noticed and no sheet is made of it."""
    main = _route(mesh, request, reply.main, reply.main_metres)
    standby = _route(mesh, request, reply.standby, reply.standby_metres)
    if request.apart:
        _hold_apart(main, standby)
    risks, spans = main.risks & standby.risks, main.spans & standby.spans
    common = len(risks) + len(spans)
    hold_reply(reply.verdict == number, f"verdict {reply.verdict} beside number {number}")
    hold_reply(reply.shared_risks == risks and reply.shared == common, f"{reply.shared} shared where {common} are")
    hold_reply(reply.shared_spans == len(spans), f"{reply.shared_spans} spans shared where {len(spans)} are")
    hold_reply(reply.floor <= reply.shared, f"a floor of {reply.floor} over {reply.shared} shared")
    hold_reply(1 <= reply.ranked <= request.allowance, f"{reply.ranked} ranked")
    return Pair(mesh, request, number, common, reply.floor, reply.ranked, risks, spans, main, standby)


def _hold_apart(main, standby):
    for kind, common in (
        ("node", [node for node in main.nodes[1:-1] if node in standby.nodes]),
        ("arc", [arc for arc in main.arcs if arc in standby.arcs]),
    ):
        hold_reply(not common, f"{kind} {common[0] if common else None} on both routes")


def _route(mesh, request, numbers, metres):
    nodes = [request.source]
    for number in numbers:
        hold_reply(number < len(mesh.arcs) and mesh.arcs[number].tail == nodes[-1], f"arc {number} from node {nodes[-1]}")
        hold_reply(number not in mesh.closed, f"arc {number}, which is closed")
        nodes.append(mesh.arcs[number].head)
    arcs = [mesh.arcs[number] for number in numbers]
    hold_reply(nodes[-1] == request.terminal, f"a route to node {nodes[-1]}")
    hold_reply(sum(a.metres for a in arcs) == metres <= request.reach, f"a route of {metres} m")
    risks, spans = frozenset().union(*(a.risks for a in arcs)), frozenset(a.span for a in arcs) - {0}
    return Route(tuple(numbers), tuple(nodes), metres, risks, spans)
