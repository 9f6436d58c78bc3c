"""Names for a mesh that has none: bytes carry numbers alone."""

from dataclasses import replace

from . import rules
from .fault import InputFault
from .mesh import Mesh, Trench


def given(mesh, named, where):
    """The mesh with the names of another, which `where` names in a message."""
    if not named.named:
        raise InputFault(f"{where} has no names")
    r = mesh.requests[0]
    _hold_named({r.source, r.terminal}.union(*({a.tail, a.head} for a in mesh.arcs)), "node", named.sites, where)
    _hold_named(set().union(*(a.risks for a in mesh.arcs)), "risk", named.risks, where)
    if any(r.spare):
        raise InputFault("spare bytes that are not zero cannot be written by name")
    fault = _fault(mesh)
    if fault:
        raise InputFault(f"what the planner refuses cannot be written by name: {fault}")
    if [replace(a, cable=None) for a in named.arcs] == list(mesh.arcs):
        # the same arcs: their lines and titles too, but what is closed is no name
        return replace(named, requests=mesh.requests, closed=mesh.closed, closed_lines={})
    arcs = _paired(mesh.arcs)
    cables = (None,) * (1 + max((a.cable for a in arcs), default=-1))
    return Mesh(arcs, mesh.requests, True, named.sites, named.risks, cables, named.trenches, mesh.closed)


def _hold_named(numbers, kind, known, where):
    if numbers and max(numbers) >= len(known):
        raise InputFault(f"{where} has no name for {kind} {max(numbers)}")


def _fault(mesh):
    """What the planner would refuse of a mesh whose nodes and risks have names, in words. That no risk is listed can be written
    by name, and is left to it."""
    r = mesh.requests[0]
    for number, holds in (
        (2, len(mesh.arcs) > rules.ARCS),
        (6, r.source == r.terminal),
        (7, r.reach > rules.REACH_MAX),
        (8, not 1 <= r.allowance <= rules.ALLOWANCE_MAX),
    ):
        if holds:
            return rules.REFUSALS[number]
    faults = [(number, rules.arc_fault(arc)) for number, arc in enumerate(mesh.arcs)]
    faults += [(number, rules.closed_fault(number, len(mesh.arcs))) for number in sorted(mesh.closed)]
    return next((f"arc {number}: {fault[1]}" for number, fault in faults if fault), None)


def _paired(arcs):
    """The arcs, with two in turn that are each other's way back in one span taken as one line."""
    found = []
    for arc in arcs:
        cable = 1 + max((a.cable for a in found), default=-1)
        if found and sum(a.cable == cable - 1 for a in found) == 1 and is_way_back(found[-1], arc):
            cable -= 1
        found.append(replace(arc, cable=cable))
    return tuple(found)


def is_way_back(one, other):
    """Whether two arcs are the two directions of a known span."""
    return one.span != 0 and replace(one, tail=one.head, head=one.tail, cable=other.cable) == other


def with_trenches(mesh):
    """The mesh with a trench, named by its number, for each span that its lines do not tell without one: they do where a
    line has both directions, and no other arc lies in it."""
    for number in sorted({arc.span for arc in mesh.arcs} - {0}):
        arcs = [arc for arc in mesh.arcs if arc.span == number]
        told = len(arcs) == 2 and arcs[0].cable == arcs[1].cable and is_way_back(*arcs)
        if not told and not mesh.trench(number):
            mesh = replace(mesh, trenches=(*mesh.trenches, Trench(_new_name(mesh, number), span=number)))
    return mesh


def with_lines(mesh):
    """The mesh with its arcs line by line as they are written: both directions of a known span on one line, each other arc on
    a line of its own, since a span line says that its span is known."""
    lines = []  # the numbers of the arcs of each
    for cable in range(len(mesh.cables)):
        numbers = [number for number, arc in enumerate(mesh.arcs) if arc.cable == cable]
        both = len(numbers) == 2 and is_way_back(*(mesh.arcs[number] for number in numbers))
        lines += [numbers] if both else [[number] for number in numbers]
    titles = tuple(mesh.cables[mesh.arcs[numbers[0]].cable] for numbers in lines)
    arcs = [replace(mesh.arcs[number], cable=cable) for cable, numbers in enumerate(lines) for number in numbers]
    return replace(mesh.with_arcs([number for numbers in lines for number in numbers], arcs), cables=titles)


def _new_name(mesh, number):
    name = f"S{number}"
    while name in [trench.name for trench in mesh.trenches]:
        name += "_"
    return name
