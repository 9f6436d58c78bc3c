"""Records as bytes, little-endian (docs/FORMATS.md, "Records"): arcs, requests and changes both ways, closed sets written,
replies read."""

from __future__ import annotations

import struct
from dataclasses import dataclass

from . import rules
from .fault import InputFault
from .mesh import Arc, Mesh, Request

REPLY_BYTES = 96

_ARC = struct.Struct("<BBHIQ")  # tail, head, span, metres, risks
_REQUEST = struct.Struct("<BBHIII")  # source, terminal, spare, reach, allowance, spare
_REPLY = struct.Struct("<6B2x3I4xQ32s32s")
_CHANGE = struct.Struct("<HBxH10x")  # old number, reason, new number
_LOST = 2**16 - 1  # in place of a new number


def risks_field(risks):
    return sum(1 << r for r in risks)


def risks_of(risk_field):
    return frozenset(r for r in range(64) if risk_field >> r & 1)


def put_table(arcs):
    return b"".join(_put_arc(number, arc) for number, arc in enumerate(arcs))


def _put_arc(number, a):
    try:
        return _ARC.pack(a.tail, a.head, a.span, a.metres, risks_field(a.risks))
    except (struct.error, ValueError):  # the latter for a negative risk
        ranges = f"lengths {rules.METRES_RANGE}, risks {rules.RISK_RANGE}, spans {rules.SPAN_RANGE}"
        raise InputFault(f"arc {number} has a number that no record can hold: nodes are {rules.NODE_RANGE}, {ranges}") from None


def put_request(r):
    return _REQUEST.pack(r.source, r.terminal, r.spare[0], r.reach, r.allowance, r.spare[1])


def put_closed(closed):
    """A closed set: bit n for arc n, lowest first."""
    try:
        return sum(1 << number for number in closed).to_bytes(rules.CLOSED_BYTES, "little")
    except (OverflowError, ValueError):  # the latter for a negative number
        raise InputFault(f"an arc is closed whose number no closed set can hold: arcs are {rules.ARC_RANGE}") from None


def get_mesh(data, where):
    """The mesh of the bytes that `routes` reads, a request and then arcs; `where` names their place in a message."""
    torn = len(data) % rules.RECORD_BYTES
    if not data or torn:
        at = len(data) - torn
        raise InputFault(f"{where} byte {at}: expected a record of {rules.RECORD_BYTES} bytes, found {torn}")
    source, terminal, low, reach, allowance, high = _REQUEST.unpack_from(data)
    return Mesh(get_table(data[rules.RECORD_BYTES :]), (Request(source, terminal, reach, allowance, (low, high)),))


def get_table(data):
    """The arcs of whole records."""
    fields = _ARC.iter_unpack(data)
    return tuple(Arc(tail, head, metres, risks_of(risk_field), span) for tail, head, span, metres, risk_field in fields)


@dataclass(frozen=True)
class Listed:
    """A record of the mender's list: an arc's old number, the reason, and its new number, None where it is lost."""

    old: int
    reason: int
    new: int | None


def get_list(data):
    return tuple(Listed(old, reason, None if new == _LOST else new) for old, reason, new in _CHANGE.iter_unpack(data))


def put_list(changes):
    """The list that says these changes; whatever has the fields of Listed."""
    return b"".join(_CHANGE.pack(c.old, c.reason, _LOST if c.new is None else c.new) for c in changes)


@dataclass(frozen=True)
class Reply:
    """The fields of a reply record; the two routes as lists of arc numbers. `shared_spans` is how many of those shared are
    spans: the record has no numbers of spans."""

    verdict: int
    shared: int
    floor: int
    shared_spans: int
    ranked: int
    main_metres: int
    standby_metres: int
    shared_risks: frozenset[int]
    main: tuple[int, ...]
    standby: tuple[int, ...]


def get_reply(data):
    (
        verdict,
        shared,
        floor,
        main_arcs,
        standby_arcs,
        shared_spans,
        ranked,
        main_metres,
        standby_metres,
        shared_field,
        main,
        standby,
    ) = _REPLY.unpack(data)
    return Reply(
        verdict,
        shared,
        floor,
        shared_spans,
        ranked,
        main_metres,
        standby_metres,
        risks_of(shared_field),
        tuple(main[:main_arcs]),
        tuple(standby[:standby_arcs]),
    )
