"""Where every route goes through, found by asking the planner: for whoever asked for a pair apart and got none."""

from __future__ import annotations

from dataclasses import dataclass, replace

from . import rules, sheet
from .answer import plan


@dataclass(frozen=True)
class Meeting:
    """What is on every route within the reach: the nodes between the ends, in the order in which the shortest route meets them;
    or the arc that is the only route. Neither where routes meet now in this node and now in that."""

    nodes: tuple[int, ...] = ()
    arc: int | None = None


def on_every_route(answer):
    """The Meeting of a request for a pair apart that was refused by 14 or 15; None of any other answer.

    What is on every route is on the shortest, and there is no route without it. So the planner is asked for one with the arcs
    into each node of the shortest closed in turn. Where an arc is on every route, so are its ends: it is told only where it has
    none between those of the route."""
    if answer.number not in (rules.NONE_APART, rules.NONE_APART_YET):
        return None
    arcs, shortest = answer.mesh.arcs, _any_pair(answer, ()).main
    into = {node: [number for number, arc in enumerate(arcs) if arc.head == node] for node in shortest.nodes[1:-1]}
    nodes = tuple(node for node in into if _any_pair(answer, into[node]).number == rules.NO_ROUTE)
    only = len(shortest.arcs) == 1 and _any_pair(answer, shortest.arcs).number == rules.NO_ROUTE
    return Meeting(nodes, shortest.arcs[0] if only else None)


def _any_pair(answer, closed):
    """The answer where any pair will do, with these arcs closed too."""
    return plan(answer.mesh.with_closed(closed), replace(answer.request, allowance=1, apart=False))


def words(answer):
    """What is on every route, and what to do about it; nothing where no pair apart was missed."""
    met = on_every_route(answer)
    if met is None:
        return ""
    mesh, yet = answer.mesh, answer.number == rules.NONE_APART_YET
    if met.arc is not None:
        return f"The only route within this reach is {sheet.called(mesh, met.arc)}.\n"
    if met.nodes:
        passed = f"Every route within this reach passes {_listed([mesh.site(node) for node in met.nodes])}"
        return f"{passed}: no allowance brings such a pair.\n" if yet else f"{passed}.\n"
    if yet:
        return _larger_allowance(answer.request.allowance)
    # Without a limit, two routes that are apart are missing only where one node or one arc is on all routes (Menger).
    return "No site is on every route within this reach: which they meet in differs. A larger reach brings such a pair.\n"


def _listed(names):
    *others, last = names
    return f"{', '.join(others)} and {last}" if others else last


def _larger_allowance(allowance):
    if allowance == rules.ALLOWANCE_MAX:
        return "The allowance is the largest that there is: a shorter reach leaves fewer routes to try.\n"
    return f"Raise --allowance from {allowance:,}: a larger one finds such a pair, or tells by 14 that there is none.\n"


def data(answer):
    """The same as plain dictionaries and lists, for JSON; None where no pair apart was missed."""
    met = on_every_route(answer)
    if met is None:
        return None
    sites = [sheet.site_data(answer.mesh, node) for node in met.nodes]
    return {"sites": sites, "arc": None if met.arc is None else sheet.arc_data(answer.mesh, met.arc)}
