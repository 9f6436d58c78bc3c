"""What a larger reach would bring, found by asking the planner."""

from __future__ import annotations

from dataclasses import dataclass, replace

from . import rules
from .answer import Pair, plan


@dataclass(frozen=True)
class Why:
    """`reach` is the least at which fewer risks and spans are shared or, where there was no route or no pair apart, at which
    there is one; `shared` is how many then are. Both are None where no reach does that; `stopped` tells that a larger allowance
    might, since it was the allowance that ended the last try, and `routed` that there is a route at the largest reach."""

    reach: int | None
    shared: int | None
    stopped: bool = False
    routed: bool = True


def least_reach(answer):
    """The least reach that betters an answer; None where none could: the count is 0, or it was refused for another reason
    than that there is no route or no pair apart.

    A larger reach only adds routes behind those of the ranking, so a pair stays one, and the best never shares more: what is
    better at one reach is better at every larger one, and halving finds the least."""
    if isinstance(answer, Pair) and answer.shared > 0:
        most_shared = answer.shared - 1
    elif answer.number in (rules.NO_ROUTE, rules.NONE_APART, rules.NONE_APART_YET):
        most_shared = rules.SHARED_MAX
    else:
        return None
    found = _at(answer, rules.REACH_MAX)
    if not _betters(found, most_shared):
        return Why(None, None, _is_cut_short(found), found.number != rules.NO_ROUTE)
    low, high = answer.request.reach, rules.REACH_MAX  # not better at low, better at high
    while high - low > 1:
        middle = (low + high) // 2
        tried = _at(answer, middle)
        if _betters(tried, most_shared):
            high, found = middle, tried
        else:
            low = middle
    return Why(high, found.shared)


def _at(answer, reach):
    return plan(answer.mesh, replace(answer.request, reach=reach))


def _betters(answer, most_shared):
    return isinstance(answer, Pair) and answer.shared <= most_shared


def _is_cut_short(answer):
    """Whether a larger allowance might better it."""
    if answer.number == rules.STOPPED:
        return answer.shared > answer.floor
    return answer.number == rules.NONE_APART_YET


def words(answer):
    """The same in words."""
    better = least_reach(answer)
    refused = not isinstance(answer, Pair)
    if better is None:
        return "" if refused else "No reach makes it fewer: the count is 0.\n"
    if better.reach is None:
        if not better.routed:
            return f"No reach brings a route: none leads from one to the other{_over_open(answer)}.\n"
        none = "No reach brings such a pair" if refused else "No larger reach shares fewer"
        return f"{none}{' with this allowance' if better.stopped else ''}.\n"
    more = f"{better.reach:,} m, {better.reach - answer.request.reach:,} m more"
    if refused:
        return f"The least reach with {'such a pair' if answer.request.apart else 'a route'} is {more}.\n"
    return f"The least reach at which fewer are shared is {more}: {better.shared} then.\n"


def _over_open(answer):
    return " over open arcs" if answer.mesh.closed else ""
