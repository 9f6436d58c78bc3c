"""Meshes as people write them, by number or by name, and back (docs/MESHES.md)."""

from contextlib import contextmanager
from dataclasses import replace

from . import names, rules
from .closings import Between, InTrench, Numbers, closings_of
from .fault import InputFault, hint, quoted
from .line import Line
from .mesh import Arc, Mesh, Request, Risk, Site, Trench

# The widths of the fields in the records: the numbered form takes what the planner refuses, as long as a record holds it.
BYTE = 2**8 - 1
TWO_BYTES = 2**16 - 1
FOUR_BYTES = 2**32 - 1

KINDS = ("site", "risk", "trench", "span", "arc", "request")  # each tells that a mesh is by name; `closed` does not
NAMED_KINDS = (*KINDS[:-1], "closed", KINDS[-1])


def read(text, where):
    """The mesh of a text; `where` names the text in a message."""
    text = text.removeprefix("\ufeff")  # a byte order mark
    reader, number = None, 0
    for number, whole in enumerate(text.split("\n"), 1):
        line = Line(whole)
        if line.is_empty():
            continue
        with _told_at(where, number):
            if reader is None:
                reader = _Named() if line.name_ahead() in KINDS else _Numbered()
            reader.read(line, number)
    if reader is None:
        raise InputFault(f"{where} line {number}: expected a mesh, found the end of the file")
    mesh = reader.mesh()
    for number, closing in reader.closings:  # only now, since what they close may stand below them
        with _told_at(where, number):
            mesh = _closed_by(mesh, closing, number)
    return mesh


@contextmanager
def _told_at(where, number):
    """Puts the line before the words of a fault."""
    try:
        yield
    except InputFault as fault:
        raise InputFault(f"{where} line {number}: {fault}") from None


def _closed_by(mesh, closing, number):
    """The mesh with what a line closes. What is closed already is more likely a slip of the pen for something else."""
    arcs = _arcs_of(mesh, closing)
    again = next((arc for arc in arcs if arc in mesh.closed), None)
    if again is not None:
        raise InputFault(f"{mesh.cable(again)} is closed on line {mesh.closed_lines[again]} already")
    return mesh.with_closed(arcs, number)


def _arcs_of(mesh, closing):
    arcs = closing.arcs(mesh)
    if not arcs:
        raise InputFault(closing.missing(mesh))
    return arcs


def read_closed(line, mesh):
    """The arcs that are closed by what could stand behind `closed` in the text of a mesh."""
    if not mesh.named:
        return _arcs_of(mesh, _read_closed_numbers(line))
    sites, trenches = ([named.name for named in known] for known in (mesh.sites, mesh.trenches))
    return _arcs_of(mesh, _read_closed_names(line, sites, trenches))


# ---- by number: a request line, then one arc a line, and lines that close some ----


class _Numbered:
    def __init__(self):
        self.request = None
        self.arcs = []
        self.closings = []  # each with its line

    def read(self, line, number):
        if self.request is None:
            self.request = _read_request(line)
        elif line.name_ahead() == "closed":
            line.take("closed")
            self.closings.append((number, _read_closed_numbers(line)))
            line.end()
        else:
            self.arcs.append(_read_arc(line, len(self.arcs), number))

    def mesh(self):
        return Mesh(tuple(self.arcs), (self.request,))


def _read_request(line):
    if not line.take("from"):
        raise line.expected('"from", or one of ' + ", ".join(f'"{k}"' for k in KINDS))
    source = line.number("the source node", BYTE, rules.NODE_RANGE)
    line.need("to")
    terminal = line.number("the terminal node", BYTE, rules.NODE_RANGE)
    line.need("reach")
    reach = line.metres("the reach", FOUR_BYTES, rules.REACH_RANGE)
    line.need("allowance")
    allowance = line.number("the allowance", FOUR_BYTES, rules.ALLOWANCE_RANGE)
    apart = _read_apart(line)
    spare = (0, 0)
    if line.take("spare"):
        low = line.number("0 as spare bytes 2-3", TWO_BYTES)
        line.need(",")
        spare = (low, line.number("0 as spare bytes 12-15", FOUR_BYTES))
    line.end()
    return Request(source, terminal, reach, allowance, spare, apart)


def _read_apart(line):
    """Whether a request goes on with the word that asks for a pair apart."""
    return line.name_ahead() == "apart" and line.take("apart")


def _read_arc(line, arc, number):
    # An arc's number is its position. It is written all the same, so that a lost or doubled line is noticed.
    wrong = line.expected(f'arc number {arc}, or "closed"')
    try:
        if line.number("", FOUR_BYTES) != arc:
            raise wrong
    except InputFault:
        raise wrong from None
    line.need(":")
    tail = line.number("the tail node", BYTE, rules.NODE_RANGE)
    line.need(",")
    head = line.number("the head node", BYTE, rules.NODE_RANGE)
    line.need(",")
    metres = line.metres("the length", FOUR_BYTES, rules.METRES_RANGE)
    line.need(",")
    risks = _read_risk_numbers(line)
    if line.name_ahead() == "spare":  # as it was written until T-03
        raise InputFault('expected "span N", found "spare": these bytes of an arc are the number of its span now')
    span = line.number("the span", TWO_BYTES, rules.SPAN_RANGE) if line.take("span") else 0
    line.end()
    return Arc(tail, head, metres, risks, span, line=number)


def _read_risk_numbers(line):
    line.need("{")
    if line.take("}"):
        return frozenset()
    risks = []
    while True:
        risks.append(line.number("a risk", rules.RISKS - 1, rules.RISK_RANGE))
        _hold_once("risk", risks, str(risks[-1]))
        if line.take("}"):
            return frozenset(risks)
        if not line.take(","):
            raise line.expected('"," or "}"')


def _read_closed_numbers(line):
    numbers = []
    while True:
        numbers.append(line.number("a closed arc", rules.ARCS - 1, rules.ARC_RANGE))
        _hold_once("closed arc", numbers, str(numbers[-1]))
        if not line.take(","):
            return Numbers(tuple(numbers))


def _hold_once(kind, found, last):
    """One named twice is more likely a slip of the pen for another than meant."""
    if found[-1] in found[:-1]:
        raise InputFault(f"expected each {kind} once, found {last} again")


# ---- by name: sites, risks, trenches, spans, arcs, what is closed and requests, each name declared above its first use ----


class _Named:
    def __init__(self):
        self.sites, self.risks = {}, {}  # by name, in the order of their numbers
        self.trenches = {}  # by name, in the order of their lines
        self.lines = {}  # where a site, a risk or a trench was declared
        self.arcs, self.cables, self.requests = [], [], []
        self.closings = []  # each with its line

    def read(self, line, number):
        kind = line.name_ahead()
        if kind not in NAMED_KINDS:
            raise line.expected(", ".join(f'"{k}"' for k in NAMED_KINDS[:-1]) + f' or "{NAMED_KINDS[-1]}"')
        line.take(kind)
        getattr(self, f"_read_{kind}")(line, number)
        line.end()

    def mesh(self):
        sites, risks, trenches = (tuple(named.values()) for named in (self.sites, self.risks, self.trenches))
        return Mesh(tuple(self.arcs), tuple(self.requests), True, sites, risks, tuple(self.cables), trenches)

    def _read_site(self, line, number):
        name = self._declared(line, number, "site", self.sites, rules.NODES)
        title, place = line.title(), None
        if not line.is_empty():
            latitude = line.decimal("a latitude" if title is not None else "a title in quotes, or a latitude", 90)
            place = (latitude, line.decimal("a longitude", 180))
        self.sites[name] = Site(name, title, place)

    def _read_risk(self, line, number):
        name = self._declared(line, number, "risk", self.risks, rules.RISKS)
        self.risks[name] = Risk(name, line.title())

    def _read_trench(self, line, number):
        name = self._declared(line, number, "trench", self.trenches)
        self.trenches[name] = Trench(name, line.title())

    def _declared(self, line, number, kind, known, most=None):
        name = line.name(f"a {kind}'s name")
        if name in known:
            raise InputFault(f"{kind} {quoted(name)} stands on line {self.lines[kind, name]} already")
        if len(known) == most:
            raise InputFault(f"expected at most {most} {kind}s, found {quoted(name)} as one more")
        self.lines[kind, name] = number
        return name

    def _read_span(self, line, number):
        self._read_arcs(line, number, 2)

    def _read_arc(self, line, number):
        self._read_arcs(line, number, 1)

    def _read_arcs(self, line, number, directions):
        tail, head = _read_ends(line, self.sites)
        metres = line.metres("the length", rules.ARC_METRES_MAX, rules.METRES_RANGE)
        risks = self._read_risks(line)
        if len(self.arcs) + directions > rules.ARCS:
            raise InputFault(f"expected at most {rules.ARCS} arcs (a span is two), found arc {rules.ARCS + 1}")
        span = self._span(line, directions)
        for ends in ((tail, head), (head, tail))[:directions]:
            self.arcs.append(Arc(*ends, metres, risks, span, len(self.cables), number))
        self.cables.append(line.title())

    def _span(self, line, directions):
        """The number of the span that a line lies in: its trench's, which gets one with its first line; else one of its own
        for both directions, and none for one alone, whose way back may lie in the same."""
        if line.name_ahead() != "in":
            return self._next_span() if directions == 2 else 0
        name = _read_trench(line, self.trenches)
        if not self.trenches[name].span:
            self.trenches[name] = replace(self.trenches[name], span=self._next_span())
        return self.trenches[name].span

    def _next_span(self):
        return 1 + max((arc.span for arc in self.arcs), default=0)

    def _read_risks(self, line):
        if line.take("-"):
            return frozenset()
        wanted = 'risks, as CHT,PRING, or "-" for a patch of 0 m'
        if line.name_ahead() == "in" and "in" not in self.risks:  # they were left out before "in TRENCH"
            raise line.expected(wanted)
        risks = []
        while True:
            name = line.name(wanted)
            risks.append(_number_of(name, "risk", self.risks))
            _hold_once("risk", risks, quoted(name))
            if not line.take(","):
                return frozenset(risks)

    def _read_closed(self, line, number):
        self.closings.append((number, _read_closed_names(line, self.sites, self.trenches)))

    def _read_request(self, line, _number):
        source, terminal = _read_ends(line, self.sites)
        given = {}
        if line.take("reach"):
            given["reach"] = line.metres("the reach", rules.REACH_MAX, rules.REACH_RANGE)
        if line.take("allowance"):
            given["allowance"] = read_allowance(line)
        self.requests.append(Request(source, terminal, **given, apart=_read_apart(line)))


def _read_ends(line, sites, between=""):
    """Two different sites, by number, with a word between them where one is given."""
    one = _number_of(line.name("a site"), "site", sites)
    if between:
        line.need(between)
    other = _number_of(line.name("a site"), "site", sites)
    if one == other:
        raise InputFault("expected two different sites")
    return one, other


def _read_trench(line, trenches):
    line.need("in")
    name = line.name("a trench")
    _hold_declared(name, "trench", trenches)
    return name


def _read_closed_names(line, sites, trenches):
    if line.is_empty():
        raise line.expected('two sites, or "in" and a trench')
    if line.name_ahead() == "in":
        return InTrench(_read_trench(line, trenches))
    one_way = line.name_ahead() == "from"
    if one_way:
        line.take("from")
    one, other = _read_ends(line, sites, "to" if one_way else "")
    title = line.title()
    place = line.number("a number", FOUR_BYTES, "1 on") if title is None and line.take("no.") else None
    return Between(one, other, one_way, title, place)


def read_allowance(line):
    """An allowance that the planner takes."""
    found = line.number("the allowance", rules.ALLOWANCE_MAX, rules.ALLOWANCE_RANGE)
    if found == 0:
        raise InputFault(f"expected the allowance from {rules.ALLOWANCE_RANGE}, found 0")
    return found


def _number_of(name, kind, known):
    _hold_declared(name, kind, known)
    return list(known).index(name)


def _hold_declared(name, kind, known):
    if name not in known:
        raise InputFault(f'expected a {kind} that a line "{kind} .." above declares, found {quoted(name)}{hint(name, known)}')


# ---- and back ----


def write(mesh):
    """The text of a mesh, in the form that it has."""
    return _write_named(mesh) if mesh.named else _write_numbered(mesh)


def _write_numbered(mesh):
    (r,) = mesh.requests
    spare = f" spare {r.spare[0]},{r.spare[1]}" if any(r.spare) else ""
    lines = [f"from {r.source} to {r.terminal} reach {r.reach} allowance {r.allowance}{_apart(r)}{spare}"]
    for number, a in enumerate(mesh.arcs):
        span = f" span {a.span}" if a.span else ""
        lines.append(f"{number}: {a.tail},{a.head},{a.metres},{braced(a.risks)}{span}")
    lines += _written_closings(mesh)
    return "\n".join(lines) + "\n"


def _write_named(mesh):
    mesh = names.with_lines(names.with_trenches(mesh))
    lines = [" ".join(["site", s.name, *_title(s.title), *(f"{degrees:f}" for degrees in s.place or ())]) for s in mesh.sites]
    lines += [" ".join(["risk", r.name, *_title(r.title)]) for r in mesh.risks]
    lines += [" ".join(["trench", t.name, *_title(t.title)]) for t in mesh.trenches]
    for cable, title in enumerate(mesh.cables):
        lines.append(_written_cable(mesh, [a for a in mesh.arcs if a.cable == cable], title))
    lines += _written_closings(mesh)
    for r in mesh.requests:
        ends = f"{mesh.sites[r.source].name} {mesh.sites[r.terminal].name}"
        lines.append(f"request {ends} reach {_length(r.reach)} allowance {r.allowance}{_apart(r)}")
    return "\n".join(lines) + "\n"


def _written_cable(mesh, arcs, title):
    a, kind = arcs[0], "span" if len(arcs) == 2 else "arc"
    ends = (mesh.sites[a.tail].name, mesh.sites[a.head].name)
    risks = ",".join(mesh.risks[r].name for r in sorted(a.risks)) or "-"
    trench = mesh.trench(a.span)
    return " ".join([kind, *ends, _length(a.metres), risks, *(("in", trench.name) if trench else ()), *_title(title)])


def _written_closings(mesh):
    return [f"closed {closing.written(mesh)}" for closing in closings_of(mesh)]


def _apart(request):
    return " apart" if request.apart else ""


def _title(title):
    return [] if title is None else [f'"{title}"']


def _length(metres):
    """Exact, in kilometres from 1,000 m on."""
    if metres < 1000:
        return f"{metres}m"
    return f"{metres // 1000}.{metres % 1000:03}".rstrip("0").rstrip(".") + "km"


def braced(risks):
    """Risks by number: {0,63}, rising."""
    return "{" + ",".join(map(str, sorted(risks))) + "}"
