"""The limits and the numbers of docs/RULES.md, and each refusal, and each reason of the mender, in words."""

NODES = 32
RISKS = 64
ARCS = 128
ARC_METRES_MAX = 2_000_000
REACH_MAX = 62_000_000  # 31 arcs of 2,000,000 metres: no route is longer
SPAN_MAX = 65_535  # numbers of spans begin at 1; 0 stands for a span that is not known
SHARED_MAX = RISKS + NODES - 1  # every risk, and a span for each of the 31 arcs that a route has at most
ALLOWANCE_MAX = 1_000_000
RECORD_BYTES = 16  # an arc, a request, or a change that the mender lists
CLOSED_BYTES = ARCS // 8  # a closed set: one bit for each number that an arc may have
MEND_BYTES_MAX = 4096  # of a table that is mended

# What makes sense in each field, as messages say it; most fields of a record hold more.
NODE_RANGE = f"0 to {NODES - 1}"
ARC_RANGE = f"0 to {ARCS - 1}"
RISK_RANGE = f"0 to {RISKS - 1}"
METRES_RANGE = f"0 to {ARC_METRES_MAX:,} m"
SPAN_RANGE = f"0 to {SPAN_MAX:,}"
REACH_RANGE = f"0 to {REACH_MAX:,} m"
ALLOWANCE_RANGE = f"1 to {ALLOWANCE_MAX:,}"

SETTLED = 0
STOPPED = 1
NO_ROUTE = 10
NONE_APART, NONE_APART_YET = 14, 15  # of a request for a pair apart: there is none, or none with its main within the allowance
CLOSED_FAULT = 16

# The faults of an arc; returned as one of these and REASONS times the arc's number.
ARC_FAULTS = ARC_NODE, ARC_ENDS, ARC_LENGTH = 20, 21, 22
ARC_BLANK = 24  # returned in the same way, and no fault: the mender leaves such an arc, since only a person knows its risks
REASONS = 256

REFUSALS = {
    2: f"the table has more than {ARCS} arcs",
    3: "the table is no whole number of arcs",
    4: "the reply buffer is under 96 bytes",
    5: f"source or terminal is no node: nodes are {NODE_RANGE}",
    6: "source and terminal are the same node",
    7: f"the reach is over {REACH_MAX:,} m",
    8: f"the allowance is not {ALLOWANCE_RANGE}",
    NO_ROUTE: "no route from source to terminal is within reach",
    12: "the spare bytes of the request are not zero",
    NONE_APART: "any two routes within reach meet in a building between the ends, or are the same arc",
    NONE_APART_YET: "no main within the allowance has a standby that it meets in no building",
    CLOSED_FAULT: f"the closed set is not {CLOSED_BYTES} bytes, or marks an arc past the table",
}
NO_OPEN_ROUTE = "no route over open arcs from source to terminal is within reach"  # NO_ROUTE, where some arcs are closed
BEHIND_BLANK = SETTLED, STOPPED, CLOSED_FAULT, NO_ROUTE, NONE_APART, NONE_APART_YET  # only returned where no arc is blank


def arc_fault(arc):
    """The first fault of an arc, by its number and in words; None where it is sound."""
    for end, node in (("tail", arc.tail), ("head", arc.head)):
        if node >= NODES:
            return ARC_NODE, f"{end} node {node} is over {NODES - 1}"
    if arc.tail == arc.head:
        return ARC_ENDS, f"both ends are node {arc.tail}"
    if arc.metres > ARC_METRES_MAX:
        return ARC_LENGTH, f"length {arc.metres:,} m is over {ARC_METRES_MAX:,}"
    return None


def is_blank(arc):
    """Whether an arc has metres and no risk listed. Its span does not make up for that; a patch of 0 metres may have none."""
    return arc.metres > 0 and not arc.risks


def blank_words(arc):
    """What is refused of an arc that is blank."""
    return f"{arc.metres:,} m long, and no risk is listed"


def closed_fault(number, arcs):
    """Why a table of so many arcs cannot have this one closed, by number and in words; None where it has it."""
    if number < arcs:
        return None
    has = {0: "no arc", 1: "only arc 0"}.get(arcs, f"only arcs 0 to {arcs - 1}")
    return CLOSED_FAULT, f"closed, but the table has {has}"


# ---- mending ----

# Why an arc is lost: the faults of an arc in turn, past the limit of arcs, or as a torn end. 4 has ended with T-03.
MEND_REASONS = LOST_NODE, LOST_ENDS, LOST_LENGTH, LOST_PAST, LOST_TORN = 1, 2, 3, 5, 6
_REASON_OF = dict(zip(ARC_FAULTS, MEND_REASONS))

MEND_REFUSALS = {
    2: f"the table is over {MEND_BYTES_MAX:,} bytes, which are {MEND_BYTES_MAX // RECORD_BYTES} arcs",
    13: "an output buffer is shorter than the table",
}


def mend_reason(arc, kept):
    """Why an arc is lost where `kept` are kept before it, by number and in words; None where it stays, as it is."""
    fault = arc_fault(arc)
    if fault:
        return _REASON_OF[fault[0]], fault[1]
    if kept >= ARCS:
        return LOST_PAST, f"{ARCS} arcs are kept before it"
    return None


def torn_reason(length):
    """Why the end of a table is lost that is so many bytes and no whole record."""
    return LOST_TORN, f"torn off after {length} of its {RECORD_BYTES} bytes"


# ---- lengths ----


def kilometres(metres):
    """Whole kilometres of a whole route, rounded up once: its spans are never rounded one by one."""
    return (metres + 999) // 1000
