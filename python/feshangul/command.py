"""The command `feshangul`."""

from __future__ import annotations

import argparse
import contextlib
import json
import os
import sys
from dataclasses import replace
from typing import NamedTuple

from . import __version__, answer, meeting, mending, names, records, rules, sheet, text, why
from .fault import Fault, InputFault, OutputFault, clean, hint, quoted
from .line import Line
from .mesh import Request

STATUSES = "exit status: 0 settled, 1 stopped, 2 usage or input, 3 refused; the highest where a mesh has several requests"
MEND_STATUSES = "exit status: 0 nothing to mend, 1 something is lost, 2 usage or input, 3 refused by number"
LOST = 1
REFUSED = 3
INPUT_MOST = 1 << 20  # bytes; no mesh that can be planned comes near
LONGEST_MESSAGE = 200  # characters of a foreign text in one


class Done(NamedTuple):
    """What a run leaves: its output, its exit status and, where the output is not for people, words beside it."""

    output: str | bytes
    status: int
    words: str = ""


def main(words=None):
    """Runs the command and returns its exit status."""
    try:
        options = _parser().parse_args(words)
        done = options.run(options)
        _write(done.output)  # whole, and only here, so that a fault anywhere leaves standard output empty
        _tell(done.words)
        return done.status
    except Fault as fault:
        _tell(f"feshangul: {fault}\n")
        return 2
    except KeyboardInterrupt:
        return 130


def _write(output):
    """Bytes as they are; words for people in the terminal's encoding."""
    if sys.stdout is None:
        raise OutputFault("standard output is closed")
    if isinstance(output, str):
        output = output.encode(sys.stdout.encoding, errors="backslashreplace")
    try:
        sys.stdout.buffer.write(output)
        sys.stdout.flush()
    except OSError as error:
        _give_up(sys.stdout)
        raise OutputFault(f"standard output: {error.strerror}") from None


def _tell(words):
    """Words on standard error; where they cannot be written, the exit status alone tells."""
    if sys.stderr is not None:
        try:
            sys.stderr.write(words)
            sys.stderr.flush()
        except OSError:
            _give_up(sys.stderr)


def _give_up(stream):
    """What is left in its buffer would be written, and fail, once more when Python ends, with a status of its own."""
    with contextlib.suppress(OSError):
        os.dup2(os.open(os.devnull, os.O_WRONLY), stream.fileno())


# ---- plan ----


def _plan(options):
    mesh = _closed(options, _asked(options, _read_mesh(options.mesh)))
    answers = [answer.plan(mesh, request) for request in mesh.requests]
    status = max(_status(found) for found in answers)
    if options.json:
        return Done("".join(_as_json(found, options.why) for found in answers).encode(), status)
    return Done("\n".join(_as_sheet(found, options.why) for found in answers), status)


def _status(found):
    return found.number if isinstance(found, answer.Pair) else REFUSED


def _as_sheet(found, with_why):
    return sheet.lines(found) + "\n" + sheet.words(found) + meeting.words(found) + (why.words(found) if with_why else "")


def _as_json(found, with_why):
    fields = sheet.data(found)
    met = meeting.data(found)
    if met is not None:
        fields["on_every_route"] = met
    if with_why:
        better = why.least_reach(found)
        fields["why"] = better and {"reach": better.reach, "shared": better.shared}
    return _json(fields)


def _json(fields):
    return json.dumps(fields, ensure_ascii=False) + "\n"


def _asked(options, mesh):
    """The mesh with the requests of the command line: each option stands for that field in every request of the file."""
    given = {field: value for field, value in (("reach", options.reach), ("allowance", options.allowance)) if value is not None}
    for field, option, word in (("source", "--from", options.source), ("terminal", "--to", options.terminal)):
        if word is not None:
            given[field] = _end(mesh, option, word)
    if options.apart:
        given["apart"] = True
    requests = [replace(request, **given) for request in _chosen(options, mesh)]
    if not requests:
        if "source" not in given or "terminal" not in given:
            raise InputFault(f'{_shown(options.mesh)} has no request: add a line "request A B", or give --from and --to')
        requests = [Request(**given)]
    return mesh.with_requests(*dict.fromkeys(requests))


def _chosen(options, mesh):
    if options.request is None or not mesh.requests:
        return mesh.requests
    if not 1 <= options.request <= len(mesh.requests):
        raise InputFault(f"--request: expected 1 to {len(mesh.requests)}, found {options.request}")
    return mesh.requests[options.request - 1 : options.request]


def _end(mesh, option, word):
    if not mesh.named:
        return _option(option, word, lambda line: line.number("a node", text.BYTE, rules.NODE_RANGE))
    sites = [site.name for site in mesh.sites]
    if word not in sites:
        raise InputFault(f"{option}: expected a site of the mesh, found {quoted(word)}{hint(word, sites)}")
    return sites.index(word)


def _closed(options, mesh):
    """The mesh with what the command line closes beside what its text does."""
    arcs = [_option("--closed", word, lambda line: text.read_closed(line, mesh)) for word in options.closed]
    return mesh.with_closed(frozenset().union(*arcs))


def _option(option, word, read):
    line = Line(word)
    try:
        value = read(line)
        line.end()
    except InputFault as fault:
        raise InputFault(f"{option}: {fault}") from None
    return value


def _reach(word):
    return _option("--reach", word, lambda line: line.metres("the reach", rules.REACH_MAX, rules.REACH_RANGE))


def _allowance(word):
    return _option("--allowance", word, text.read_allowance)


def _place(word):
    return _option("--request", word, lambda line: line.number("a request's place", text.FOUR_BYTES, "1 on"))


# ---- mend ----


def _mend(options):
    """A mended mesh is headed by the words, as comments; a mended table in bytes has them beside it."""
    found = mending.mend_table(_read(options.mesh)) if options.bytes else mending.mend(_read_mesh(options.mesh))
    status = _mend_status(found)
    if options.json:
        return Done(_mended_json(found, options.bytes), status)
    if status == REFUSED:  # no mesh and no table is left that could be printed
        return Done(b"", status, f"feshangul: {_shown(options.mesh)}: refused, number {found.number}: {found.words}\n")
    words = mending.words(found)
    if options.bytes:
        return Done(records.put_table(found.mesh.arcs), status, "".join(f"{line}\n" for line in words))
    return Done(("".join(f"# {line}\n" for line in words) + text.write(found.mesh)).encode(), status)


def _mend_status(found):
    if not isinstance(found, mending.Mended):
        return REFUSED
    return LOST if found.changes else 0


def _mended_json(found, as_bytes):
    fields = mending.data(found)
    if isinstance(found, mending.Mended):
        if as_bytes:
            fields["table"] = records.put_table(found.mesh.arcs).hex()
        else:
            fields["mesh"] = text.write(found.mesh)
    return _json(fields).encode()


# ---- bytes and text ----


def _bytes(options):
    mesh = _asked(options, _read_mesh(options.mesh))
    if len(mesh.requests) != 1:
        raise InputFault(f"{_shown(options.mesh)}: expected one request, found {len(mesh.requests)}: choose by --request")
    if mesh.closed:  # without them `routes` would plan over what is closed
        found = f"{len(mesh.closed)}: the bytes that `routes` reads have no place for them"
        raise InputFault(f"{_shown(options.mesh)}: expected no closed arcs, found {found}")
    if mesh.requests[0].apart:
        found = '"apart": the bytes that `routes` reads have no place for it'
        raise InputFault(f"{_shown(options.mesh)}: expected a request for any pair, found {found}")
    return Done(records.put_request(mesh.requests[0]) + records.put_table(mesh.arcs), 0)


def _text(options):
    mesh = records.get_mesh(_read(options.bytes), _shown(options.bytes))
    if options.names:
        mesh = names.given(mesh, _read_mesh(options.names), _shown(options.names))
    return Done(text.write(mesh).encode(), 0)


# ---- files ----


def _shown(file):
    if file == "-":
        return "standard input"
    if not file:
        return '""'
    return clean(file if len(file) <= LONGEST_MESSAGE else "..." + file[-LONGEST_MESSAGE:])


def _read(file):
    try:
        if file == "-":
            found = sys.stdin.buffer.read(INPUT_MOST + 1) if sys.stdin else b""
        else:
            with open(file, "rb") as opened:
                found = opened.read(INPUT_MOST + 1)
    except (OSError, ValueError) as error:
        raise InputFault(f"{_shown(file)}: {getattr(error, 'strerror', None) or 'cannot be read'}") from None
    if len(found) > INPUT_MOST:
        raise InputFault(f"{_shown(file)}: longer than any mesh ({INPUT_MOST:,} bytes)")
    return found


def _read_mesh(file):
    return text.read(_read(file).decode("utf-8", errors="replace"), _shown(file))


# ---- words of the command line ----


class _Parser(argparse.ArgumentParser):
    def __init__(self, **given):
        super().__init__(allow_abbrev=False, **given)

    def error(self, message):
        if sys.stderr is not None:
            self.print_usage(sys.stderr)
        self.exit(2, f"{self.prog}: {clean(message[:LONGEST_MESSAGE])}{'...' * (len(message) > LONGEST_MESSAGE)}\n")

    def _print_message(self, message, file=None):
        if file is sys.stdout:
            _write(message)  # --help and --version: told where they cannot be written
        elif file is not None:
            super()._print_message(message, file)


def _parser():
    parser = _Parser(prog="feshangul", description="Plans pairs of fibre routes that share as few risks and spans as possible.")
    parser.add_argument("--version", action="version", version=f"feshangul {__version__}")
    commands = parser.add_subparsers(metavar="COMMAND", required=True)

    plan = commands.add_parser(
        "plan",
        help="plan the requests of a mesh",
        epilog=STATUSES,
        description="Plans each request of a mesh: prints the planner's reply as three lines, and then in words.",
    )
    _add_request(plan)
    closed_help = "close this too, as a line `closed WHAT` of the mesh would; may be given several times"
    plan.add_argument("--closed", action="append", default=[], metavar="WHAT", help=closed_help)
    plan.add_argument("--apart", action="store_true", help=f"want a pair that {sheet.MEETS_NOWHERE}")
    plan.add_argument("--json", action="store_true", help="print one JSON object a request, each on a line of its own")
    plan.add_argument("--why", action="store_true", help="tell the least reach at which fewer would be shared")
    plan.set_defaults(run=_plan)

    mend = commands.add_parser(
        "mend",
        help="take the faulty arcs out of a mesh",
        epilog=MEND_STATUSES,
        description="Prints a mesh without its faulty arcs, headed by comments that say, by line, what is lost, and what is left "
        "for a person: arcs with no risk listed.",
    )
    mend.add_argument("mesh", metavar="MESH", help="a mesh, docs/MESHES.md; - for standard input")
    mend.add_argument("--bytes", action="store_true", help="MESH is the bytes of a table of arcs, and so is what is printed")
    mend.add_argument("--json", action="store_true", help="print one JSON object, with the mended mesh in it as text")
    mend.set_defaults(run=_mend)

    to_bytes = commands.add_parser(
        "bytes",
        help="write a mesh as the bytes that `routes` reads",
        description="Writes the request and the arcs of a mesh to standard output as records, docs/FORMATS.md.",
    )
    _add_request(to_bytes)
    to_bytes.set_defaults(run=_bytes, apart=False)

    to_text = commands.add_parser(
        "text",
        help="write such bytes as a mesh",
        description="Writes the mesh whose records are read, by number or with the names of another mesh.",
    )
    to_text.add_argument("bytes", metavar="BYTES", nargs="?", default="-", help="a file, or - for standard input")
    to_text.add_argument("--names", metavar="MESH", help="write by name, with the sites, risks and trenches of this mesh")
    to_text.set_defaults(run=_text)
    return parser


def _add_request(command):
    command.add_argument("mesh", metavar="MESH", help="a mesh, docs/MESHES.md; - for standard input")
    command.add_argument("--request", type=_place, metavar="K", help="only the mesh's K-th request, from 1")
    command.add_argument("--from", dest="source", metavar="A", help="from this site, and not the mesh's own")
    command.add_argument("--to", dest="terminal", metavar="B", help="to this site")
    command.add_argument("--reach", type=_reach, metavar="LENGTH", help="how long a route may be: 80km, 80000m or 80000")
    command.add_argument("--allowance", type=_allowance, metavar="N", help="how many mains may be tried")
