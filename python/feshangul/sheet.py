"""An answer as text: the lines that the program `routes` prints, a sheet in words, and JSON."""

from . import rules
from .answer import Pair

TO_DO_ON_BLANK = """\
Ask the operator which risks touch each of them, and list these. One that is known to fail together with no other span gets a \
risk of its own, the same in both directions. 0 m is only for a patch inside a building.
`feshangul mend` leaves such arcs as they are.
"""
MEETS_NOWHERE = "meets in no building but the two ends"


def lines(answer):
    """What `routes` prints for the same request (docs/FORMATS.md), or would around closed arcs, which it does not read."""
    if not isinstance(answer, Pair):
        return f"refused {answer.number}\n"
    text = f"{answer.verdict} {answer.shared} {answer.floor} {answer.ranked}\n"
    for role, route in (("main", answer.main), ("standby", answer.standby)):
        text += " ".join([role, str(route.kilometres), *map(str, route.arcs)]) + "\n"
    return text


# ---- in words ----


def words(answer):
    """The sheet: what a planner asks of an answer, in words."""
    text = _asked(answer) + _apart(answer.request) + _closed(answer.mesh)
    if not isinstance(answer, Pair):
        return text + f"Refused, number {answer.number}: {answer.words}.\n" + _remedy(answer)
    text += _verdict(answer) + _shared(answer) + _floor(answer) + _met(answer)
    text += _route("Main", answer, answer.main)
    if answer.main == answer.standby:
        text += "Standby: the same route once more; it fails with the main.\n"
    else:
        text += _route("Standby", answer, answer.standby)
    return text + f"Together {answer.total:,} m.\n"


def _asked(answer):
    mesh, r = answer.mesh, answer.request
    no_limit = ", which sets no limit" if r.reach == rules.REACH_MAX else ""
    return f"From {mesh.site(r.source)} to {mesh.site(r.terminal)}, each route within {r.reach:,} m{no_limit}.\n"


def _apart(request):
    return f"Asked for a pair that {MEETS_NOWHERE}.\n" if request.apart else ""


def _closed(mesh):
    """What is closed; both directions of a line at once. It stands on the sheet of a refusal too: it may be the reason."""
    if not mesh.closed:
        return ""
    return f"Closed, and so on no route: {'; '.join(called(mesh, *numbers) for numbers in mesh.by_line(mesh.closed))}.\n"


def called(mesh, number, *way_back):
    """An arc, or both arcs of a line, apart from any route."""
    if number >= len(mesh.arcs):
        return f"arc {number}, which is past the table"
    if way_back:
        return f"{_line(mesh, number)}, arcs {' and '.join(map(str, (number, *way_back)))}"
    arc = mesh.arcs[number]
    way = f"from {mesh.short_site(arc.tail)} to {mesh.short_site(arc.head)}"
    return f"{_by(mesh, number)} {way}"


def _remedy(refusal):
    """What to do about an arc that is refused."""
    reason = refusal.number % rules.REASONS
    if reason in rules.ARC_FAULTS:
        return "`feshangul mend` takes such arcs out.\n"
    return _blank(refusal.mesh) + TO_DO_ON_BLANK if reason == rules.ARC_BLANK else ""


def _blank(mesh):
    """Every line with no risk listed, not that of the named arc alone: whoever asks the operator asks once."""
    lines = mesh.by_line(mesh.blank)
    kinds = ("span", "arc") if mesh.named else ("arc",)
    text = f"No risk is listed for {_counted(len(lines), *kinds)}:\n"
    for numbers in lines:
        line = mesh.arcs[numbers[0]].line
        place = "" if line is None else f"line {line}: "
        text += f"  {place}{called(mesh, *numbers)}\n"
    return text


def _verdict(pair):
    mains = _counted(pair.ranked, "main")
    at_floor = pair.shared == pair.floor
    apart = pair.request.apart
    if pair.number == rules.SETTLED:
        if at_floor:
            none = "no such pair" if apart else "none"
            why = f"no pair within this reach shares fewer, and {none} that shares as few is shorter"
        else:
            why = "every route within this reach has been tried as main"
        return f"Settled after {mains}: {why}. No larger allowance changes this pair.\n"
    if at_floor:
        why = "no pair within this reach shares fewer; only the length could still get better"
    else:
        a_pair = "such a pair" if apart else "a pair"
        why = f"a larger one may find {a_pair} that shares fewer, {pair.floor} at best, or as few at less length"
    return f"Stopped after {mains}, which is the allowance: {why}. A larger allowance never gives a worse pair.\n"


def _shared(pair):
    return f"Shared by both routes: {_common(pair)}.\n"


def _common(pair):
    """What both routes share, by name. Where the span of an arc is not known, more may be common than are: hence `known`."""
    risks = [pair.mesh.risk(r) for r in sorted(pair.shared_risks)]
    spans = [pair.mesh.span(s) for s in pair.common_spans]
    span = "span" if pair.spans_known else "known span"
    if not pair.shared:
        return f"no risk and no {span}"
    return f"{_listed(risks, 'risk')}; {_listed(spans, span)}"


def _listed(names, thing):
    return f"{_counted(len(names), thing)}: {', '.join(names)}" if names else f"no {thing}"


def _floor(pair):
    every = "On every route within this reach"
    # What is on every route is on both of these; where they share no more, what they share is just that.
    if pair.floor == pair.shared:
        return f"{every}{', and so in every pair' if pair.floor else ''}: {_common(pair)}.\n"
    if not pair.floor:
        return f"{every}: no risk and no {'span' if all(a.span for a in pair.mesh.open_arcs) else 'known span'}.\n"
    # The reply has their number alone: of which kind they are can be told where only one kind is shared.
    kinds = [kind for kind, shared in (("risk", pair.shared_risks), ("span", pair.shared_spans)) if shared]
    return f"{every}, and so in every pair: {_counted(pair.floor, *kinds)}.\n"


def _met(pair):
    if pair.request.apart:
        return f"The pair {MEETS_NOWHERE}, and no arc is on both routes.\n"
    nodes = [pair.mesh.site(n) for n in pair.common_nodes]
    arcs = [pair.mesh.cable(a) for a in pair.uncounted_arcs]
    met = [f"{_counted(len(nodes), 'site')} ({', '.join(nodes)})"] if nodes else []
    uncounted = f"of no known span, which {'is' if len(arcs) == 1 else 'are'} not counted"
    met += [f"{_counted(len(arcs), 'arc')} {uncounted} ({', '.join(arcs)})"] if arcs else []
    if not met:
        return "Between the ends they pass no common site.\n"
    return f"Both routes pass {' and '.join(met)}.\n"


def _route(role, pair, route):
    mesh = pair.mesh
    text = f"{role}: {route.metres:,} m, {route.kilometres:,} km: {', '.join(mesh.place(n) for n in route.nodes)}.\n"
    for number in route.arcs:
        arc = mesh.arcs[number]
        ends = f"{mesh.short_site(arc.tail)} to {mesh.short_site(arc.head)}"
        risks = ", ".join(mesh.short_risk(r) for r in sorted(arc.risks)) or "no risk"
        text += f"  {ends}: {arc.metres:,} m by {_by(mesh, number)}; {risks}\n"
    return text


def _by(mesh, number):
    """What a route goes by between two sites."""
    span = mesh.arcs[number].span
    if mesh.named:
        return f"{_line(mesh, number)}, arc {number}"
    return f"arc {number}" + (f" in span {span}" if span else "")


def _line(mesh, number):
    """The line of an arc in a mesh by name. One that has a span to itself has its name too, so that is not said twice."""
    span = mesh.arcs[number].span
    return mesh.cable(number) + (f" in {mesh.span(span)}" if mesh.trench(span) else "")


def _counted(number, *things):
    return f"{number:,} {' or '.join(thing + ('' if number == 1 else 's') for thing in things)}"


# ---- as data ----


def data(answer):
    """The answer as plain dictionaries and lists, for JSON (docs/MESHES.md has each field)."""
    mesh, r = answer.mesh, answer.request
    found = {
        "verdict": answer.verdict,
        "number": answer.number,
        "from": site_data(mesh, r.source),
        "to": site_data(mesh, r.terminal),
        "reach": r.reach,
        "allowance": r.allowance,
        "apart": r.apart,
        "closed": [arc_data(mesh, n) for n in sorted(mesh.closed)],
        "blank": [arc_data(mesh, n) | {"line": mesh.arcs[n].line} for n in mesh.blank],
    }
    if not isinstance(answer, Pair):
        return found | {"words": answer.words, "arc": answer.arc, "line": answer.line}
    shared = {
        "count": answer.shared,
        "span_count": len(answer.shared_spans),
        "risks": [_risk(mesh, n) for n in sorted(answer.shared_risks)],
        "spans": [_span(mesh, n) for n in answer.common_spans],
        "sites": [site_data(mesh, n) for n in answer.common_nodes],
        "uncounted_arcs": [arc_data(mesh, n) for n in answer.uncounted_arcs],
    }
    return found | {
        "shared": shared,
        "floor": answer.floor,
        "ranked": answer.ranked,
        "metres": answer.total,
        "main": _route_data(mesh, answer.main),
        "standby": _route_data(mesh, answer.standby),
    }


def site_data(mesh, node):
    site = mesh.sites[node] if node < len(mesh.sites) else None
    return {"number": node, "name": site and site.name, "title": site and site.title}


def _risk(mesh, number):
    risk = mesh.risks[number] if mesh.named else None
    return {"number": number, "name": risk and risk.name, "title": risk and risk.title}


def _span(mesh, number):
    span = mesh.named_span(number) if mesh.named else None
    return {"number": number, "name": span and span.name, "title": span and span.title}


def _route_data(mesh, route):
    return {
        "metres": route.metres,
        "kilometres": route.kilometres,
        "nodes": [site_data(mesh, n) for n in route.nodes],
        "arcs": [arc_data(mesh, n) for n in route.arcs],
    }


def arc_data(mesh, number):
    if number >= len(mesh.arcs):  # closed, and for that refused
        return {"number": number} | dict.fromkeys(("name", "title", "span", "from", "to", "metres", "risks"))
    arc = mesh.arcs[number]
    cable = mesh.named_cable(number) if mesh.named else None
    return {
        "number": number,
        "name": cable and cable.name,
        "title": cable and cable.title,
        "span": _span(mesh, arc.span) if arc.span else None,
        "from": site_data(mesh, arc.tail),
        "to": site_data(mesh, arc.head),
        "metres": arc.metres,
        "risks": [_risk(mesh, r) for r in sorted(arc.risks)],
    }
