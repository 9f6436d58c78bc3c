"""Feshangul: pairs of fibre routes that share as few risks and spans as possible, planned by a proved library.

    import feshangul

    mesh = feshangul.read_mesh("examples/A.txt")
    for request in mesh.requests:
        answer = feshangul.plan(mesh, request)
        print(answer.verdict, answer.main.metres, answer.standby.metres)

`plan` returns a Pair, or a Refusal with its number and words. `mesh.with_closed([3, 7])` is the mesh with these arcs closed, so
that no route takes them. `Request(.., apart=True)` asks for two routes that meet in no building but the two ends; where there
are none, `on_every_route` tells what every route goes through. `mesh.blank` are the arcs with no risk listed, for which the
planner refuses a mesh. `mend` takes the faulty arcs out of a mesh, and returns a Mended, or a MendRefusal; `mend_table` does so
for a table in bytes. The standard library alone is needed.
"""

__version__ = "0.9.0"

from pathlib import Path

from .answer import Pair, Refusal, Route, plan
from .fault import Fault, InputFault, LibraryFault, clean
from .meeting import Meeting, on_every_route
from .mending import Change, Mended, MendRefusal, mend, mend_table
from .mesh import Arc, Mesh, Request, Risk, Site, Trench
from .text import read as parse_mesh
from .text import write as write_mesh

__all__ = [
    "Arc",
    "Change",
    "Fault",
    "InputFault",
    "LibraryFault",
    "Meeting",
    "MendRefusal",
    "Mended",
    "Mesh",
    "Pair",
    "Refusal",
    "Request",
    "Risk",
    "Route",
    "Site",
    "Trench",
    "mend",
    "mend_table",
    "on_every_route",
    "parse_mesh",
    "plan",
    "read_mesh",
    "write_mesh",
]


def read_mesh(path):
    """The mesh of a text file (docs/MESHES.md)."""
    return parse_mesh(Path(path).read_bytes().decode("utf-8", errors="replace"), clean(str(path)))
