"""The lines of the package against those of the program `routes`, for the same bytes, which have no closed arcs and ask for any
pair.

Only where the environment variable ROUTES holds a command, words split by spaces, that runs the program on standard input."""

import os
import random
import subprocess
import unittest
from concurrent.futures import ThreadPoolExecutor

from feshangul import answer, records, rules, sheet, text

from .shared import EXAMPLES, damaged, example, small_mesh

ROUTES = os.environ.get("ROUTES", "").split()
RANDOM_MESHES = 2000


def printed(mesh):
    """What the program prints for the only request of a mesh."""
    (request,) = mesh.requests
    data = records.put_request(request) + records.put_table(mesh.arcs)
    return subprocess.run(ROUTES, input=data, stdout=subprocess.PIPE, check=True, timeout=60).stdout.decode()


@unittest.skipUnless(ROUTES, "ROUTES holds no command that runs the program `routes`")
class Routes(unittest.TestCase):
    def assert_all_printed(self, meshes):
        """Holds each mesh against the program, and returns the numbers of the answers that came, without their arcs."""
        numbers = set()
        with ThreadPoolExecutor(2) as pool:
            for place, (mesh, expected) in enumerate(zip(meshes, pool.map(printed, meshes))):
                found = answer.plan(mesh, mesh.requests[0])
                numbers.add(found.number % rules.REASONS)
                with self.subTest(place, mesh=text.write(mesh)):
                    self.assertEqual(sheet.lines(found), expected)
        return numbers

    def test_the_examples_give_the_lines_that_the_program_prints(self):
        meshes = [text.read(example(path.name), path.name) for path in sorted(EXAMPLES.glob("*.txt"))]
        for_routes = [mesh for mesh in meshes if not mesh.closed and not mesh.requests[0].apart]
        self.assertEqual(len(for_routes), len(meshes) - 2)  # G.txt and H.txt
        self.assertEqual(self.assert_all_printed(for_routes), {0})

    def test_2000_random_meshes_give_the_lines_that_the_program_prints(self):
        rng = random.Random(20)
        meshes = [small_mesh(rng) if number % 5 else damaged(rng, small_mesh(rng)) for number in range(RANDOM_MESHES)]
        self.assertEqual(self.assert_all_printed(meshes), {0, 1, 5, 6, 7, 8, 10, 12, *rules.ARC_FAULTS, rules.ARC_BLANK})


if __name__ == "__main__":
    unittest.main()
