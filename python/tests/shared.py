"""What the tests share: where things are, the command as a process and as a function, and small random meshes."""

import io
import os
import re
import subprocess
import sys
import tempfile
import unittest
from dataclasses import replace
from pathlib import Path
from typing import NamedTuple
from unittest import mock

from feshangul.command import main
from feshangul.mesh import Arc, Mesh, Request

REPOSITORY = Path(__file__).resolve().parents[2]
EXAMPLES = REPOSITORY / "examples"
COMMAND = REPOSITORY / "bin/feshangul"
RELEASE = REPOSITORY / "release"

# Mesh A as bytes, written out by hand: the request, then arcs 0 to 4.
A_HEX = (
    "0003000010270000e803000000000000"
    "00010000e80300000100000000000000"
    "01030000a00f00000200000000000000"
    "00020000a00f00000400000000000000"
    "02030000e80300000800000000000000"
    "01020000e80300001000000000000000"
)

# And the sheet of its answer.
A_SHEET = """\
From node 0 to node 3, each route within 10,000 m.
Settled after 2 mains: no pair within this reach shares fewer, and none that shares as few is shorter. \
No larger allowance changes this pair.
Shared by both routes: no risk and no known span.
On every route within this reach: no risk and no known span.
Between the ends they pass no common site.
Main: 5,000 m, 5 km: node 0, node 1, node 3.
  node 0 to node 1: 1,000 m by arc 0; risk 0
  node 1 to node 3: 4,000 m by arc 1; risk 1
Standby: 5,000 m, 5 km: node 0, node 2, node 3.
  node 0 to node 2: 4,000 m by arc 2; risk 2
  node 2 to node 3: 1,000 m by arc 3; risk 3
Together 10,000 m.
"""


def example(name):
    return (EXAMPLES / name).read_text(encoding="utf-8")


def without_comments(text):
    lines = [re.sub("#.*", "", line).rstrip() for line in text.split("\n")]
    return "".join(line + "\n" for line in lines if line)


# ---- the command ----


class Ran(NamedTuple):
    """What a run of the command left."""

    status: int
    output: bytes
    errors: bytes


def run(*words, program=(sys.executable, COMMAND), stdin=b"", stdout=subprocess.PIPE, settings=(), folder=None):
    """Runs the command as a process; `settings` go into its environment."""
    done = subprocess.run(
        [*program, *words],
        input=stdin,
        stdout=stdout,
        stderr=subprocess.PIPE,
        cwd=folder,
        env=_environment(settings),
        timeout=60,
        check=False,
    )
    return _without_traceback(Ran(done.returncode, done.stdout, done.stderr))


def _environment(settings):
    """That of this process, without what changes how Python writes, and so that no run leaves files behind."""
    kept = {name: value for name, value in os.environ.items() if not name.startswith("PYTHON")}
    return {**kept, "PYTHONDONTWRITEBYTECODE": "1", **dict(settings)}


def call(*words, stdin=b""):
    """Calls the command as a function. The planner is started once for all calls, so this is quicker than a process."""
    output, errors = _stream("strict"), _stream("backslashreplace")
    with mock.patch.multiple(sys, stdin=io.TextIOWrapper(io.BytesIO(stdin)), stdout=output, stderr=errors):
        try:
            status = main(list(map(str, words)))
        except SystemExit as end:  # how argparse ends
            status = end.code
    return _without_traceback(Ran(status, output.buffer.getvalue(), errors.buffer.getvalue()))


def _stream(errors):
    return io.TextIOWrapper(io.BytesIO(), encoding="utf-8", errors=errors, write_through=True)


def _without_traceback(ran):
    if b"Traceback" in ran.errors or b"Exception ignored" in ran.errors:  # the latter where Python itself ends badly
        raise AssertionError(ran.errors.decode(errors="replace"))
    return ran


class CommandTest(unittest.TestCase):
    """A test with a folder of its own."""

    def setUp(self):
        folder = tempfile.TemporaryDirectory()
        self.addCleanup(folder.cleanup)
        self.folder = Path(folder.name)

    def file(self, content, name="mesh.txt"):
        """A new file, from text or bytes."""
        path = self.folder / name
        path.write_bytes(content.encode() if isinstance(content, str) else content)
        return path

    def assert_told(self, ran, message):
        """The message is all that was written, and the status is 2."""
        self.assertEqual(ran, Ran(2, b"", f"feshangul: {message}\n".encode()))


# ---- random meshes ----


def small_mesh(rng):
    """A mesh of 4 to 8 nodes and up to 14 arcs with one request. Lengths, risks and spans are few, so that much is equal and
    shared."""
    nodes = rng.choice((4, 4, 4, 5, 5, 6, 7, 8))
    arcs = tuple(_small_arc(rng, nodes) for _ in range(rng.choice((rng.randint(1, 14), 12, 14))))
    source, terminal = rng.sample(range(nodes), 2)
    return Mesh(arcs, (Request(source, terminal, rng.randrange(0, 10000, 500), rng.choice((1, 2, 3, 1000))),))


SMALL_RISKS = (0, 1, 2, 31, 32, 63)


def _small_arc(rng, nodes):
    """No risk is listed now and then where it is 0 metres long; elsewhere at least one is."""
    metres = rng.randrange(0, 4000, 500)
    risks = frozenset(r for r in SMALL_RISKS if rng.random() < 0.3)
    if metres and not risks:
        risks = frozenset({rng.choice(SMALL_RISKS)})
    return Arc(*rng.sample(range(nodes), 2), metres, risks, rng.choice((0, 0, 1, 2, 256, 65535)))


def partly_closed(rng, mesh):
    """The mesh with some of its arcs closed, few or many."""
    share = rng.choice((0.1, 0.2, 0.5))
    closed = [number for number in range(len(mesh.arcs)) if rng.random() < share]
    return mesh.with_closed(closed or [rng.randrange(len(mesh.arcs))])


def damaged(rng, mesh):
    """The mesh with one thing that the planner refuses."""
    (request,) = mesh.requests
    number, arc = rng.choice(list(enumerate(mesh.arcs)))
    of_request = ({"source": 40}, {"terminal": request.source}, {"reach": 70_000_000}, {"allowance": 0}, {"spare": (0, 9)})
    of_arc = ({"head": 40}, {"head": arc.tail}, {"metres": 2_000_001}, {"metres": 500, "risks": frozenset()})
    change = rng.choice(of_request + of_arc)
    if change in of_request:
        return mesh.with_requests(replace(request, **change))
    return replace(mesh, arcs=(*mesh.arcs[:number], replace(arc, **change), *mesh.arcs[number + 1 :]))


def routes(mesh, request):
    """Every route of the mesh over its open arcs, whatever its length, in the order of their ranking: metres, arcs and what it
    carries, which are the risks and the known spans of its arcs."""
    found = []

    def go_on(node, met, arcs):
        if node == request.terminal:
            metres = sum(mesh.arcs[number].metres for number in arcs)
            found.append((metres, arcs, frozenset().union(*(_carried(mesh.arcs[number]) for number in arcs))))
            return
        for number, arc in enumerate(mesh.arcs):
            if arc.tail == node and arc.head not in met and number not in mesh.closed:
                go_on(arc.head, met | {arc.head}, (*arcs, number))

    go_on(request.source, {request.source}, ())
    return sorted(found, key=lambda route: route[:2])


def _carried(arc):
    return {("risk", risk) for risk in arc.risks} | ({("span", arc.span)} if arc.span else set())
