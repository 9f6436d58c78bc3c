"""What README.md, docs/MESHES.md and docs/RULES.md show is what the command reads and prints."""

import json
import re
import unittest

from feshangul import text

from .shared import EXAMPLES, REPOSITORY, Ran, call, example


def blocks(name, begins):
    """The indented blocks of a document, without their indent, from the first that begins so on."""
    text = (REPOSITORY / name).read_text(encoding="utf-8")
    found = [
        re.sub("^    ", "", block, flags=re.MULTILINE) for block in re.findall(r"(?:^    .*\n|^\n(?=    ))+", text, re.MULTILINE)
    ]
    found = [block.strip("\n") + "\n" for block in found]
    return found[next(place for place, block in enumerate(found) if block.startswith(begins)) :]


def fields_of(found):
    """Every field of a JSON value, however deep."""
    inner = found.values() if isinstance(found, dict) else found if isinstance(found, list) else ()
    return set(found if isinstance(found, dict) else ()).union(*map(fields_of, inner))


def rows(name, heading, keep_commas=False):
    """The rows of the first table under a heading, as lists of cells, without the two that head it."""
    section = (REPOSITORY / name).read_text(encoding="utf-8").split(f"## {heading}\n")[1]
    table = re.search(r"(?:^\|.*\n)+", section, re.MULTILINE)[0].splitlines()[2:]
    cells = [[cell.strip() for cell in row.strip("|").split("|")] for row in table]
    return cells if keep_commas else [[cell.replace(",", "") for cell in row] for row in cells]


class Documents(unittest.TestCase):
    maxDiff = None

    def test_the_mesh_worked_through_in_meshes_prints_what_stands_below_it(self):
        mesh, printed, *_ = blocks("docs/MESHES.md", "site LON")
        ran = call("plan", "-", stdin=mesh.encode())
        self.assertEqual((ran.status, ran.output.decode()), (0, printed))

    def test_the_mesh_by_number_in_meshes_is_read(self):
        mesh, *_ = blocks("docs/MESHES.md", "from 0 to 3")
        self.assertEqual(call("plan", "-", stdin=mesh.encode()).output.decode().split("\n")[0], "settled 4 4 1")

    def test_the_faulty_mesh_by_number_in_meshes_prints_what_stands_below_it(self):
        _, faulty, printed, *_ = blocks("docs/MESHES.md", "from 0 to 3")
        ran = call("plan", "-", stdin=faulty.encode())
        self.assertEqual((ran.status, ran.output.decode()), (3, printed))

    def test_the_mesh_with_a_closed_number_past_the_table_in_meshes_prints_what_stands_below_it(self):
        _, _, _, closed, printed, *_ = blocks("docs/MESHES.md", "from 0 to 3")
        ran = call("plan", "-", stdin=closed.encode())
        self.assertEqual((ran.status, ran.output.decode()), (3, printed))

    def test_the_mesh_with_blanks_in_meshes_prints_what_stands_below_it_and_is_mended_as_it_tells(self):
        _, _, _, _, _, blank, printed, *_ = blocks("docs/MESHES.md", "from 0 to 3")
        ran = call("plan", "-", stdin=blank.encode())
        self.assertEqual((ran.status, ran.output.decode()), (3, printed))
        _, _, head, *_ = blocks("docs/MESHES.md", "from 0 to 2")
        self.assertEqual(call("mend", "-", stdin=blank.encode()), Ran(0, (head + blank).encode(), b""))

    def test_the_mesh_worked_through_in_meshes_with_blanks_is_refused_as_told(self):
        mesh, _, _, _, refused, *_ = blocks("docs/MESHES.md", "site LON")
        blank = mesh.replace("410.6km CHT", "410.6km -").replace("312km BEL", "312km -")
        ran = call("plan", "-", stdin=blank.encode())
        self.assertEqual((ran.status, ran.output.decode().count(refused)), (3, 2))

    def test_the_mesh_worked_through_in_meshes_with_a_span_closed_prints_what_is_told_of_it(self):
        mesh, _, closed, refused, *_ = blocks("docs/MESHES.md", "site LON")
        for above in ("trench KENT", "request LON"):  # wherever below the sites
            printed = call("plan", "-", stdin=mesh.replace(above, f"closed LON PAR\n{above}", 1).encode()).output.decode()
            to_paris, to_london = printed.split("\nrefused 10\n")
            self.assertTrue(to_paris.startswith("settled 3 3 1\nmain 685 2 4\n"))
            for sheet in (to_paris, to_london):
                self.assertEqual(sheet.count(closed), 1)
            self.assertTrue(to_london.endswith(refused))

    def test_the_mesh_worked_through_in_meshes_for_pairs_apart_prints_what_is_told_of_it(self):
        mesh, printed, _, _, _, asked, refused, *_ = blocks("docs/MESHES.md", "site LON")
        found = call("plan", "-", "--apart", stdin=mesh.encode()).output.decode()
        behind = re.sub(r"(request .*)", r"\1 apart", mesh)
        self.assertEqual(call("plan", "-", stdin=behind.encode()).output.decode(), found)
        to_paris, to_london = found.split("\nrefused 14\n")
        self.assertTrue(to_paris.startswith("".join(printed.splitlines(keepends=True)[:3])))
        self.assertIn("The pair meets in no building but the two ends", to_paris)
        for sheet in (to_paris, to_london):
            self.assertEqual(sheet.count(asked), 1)
        self.assertTrue(to_london.endswith(refused))

    def test_the_meshes_for_pairs_apart_in_meshes_print_what_stands_beside_them(self):
        checked = 0
        for cells in rows("docs/MESHES.md", "Pairs apart", keep_commas=True):
            arcs = re.findall(r"`(.*)`", cells[0])[0].replace("; ", "\n") if "`" in cells[0] else arcs
            for allowance, line in re.findall(r"(\d+): `(.*?)`", cells[2]):
                with self.subTest(cells[0], reach=cells[1], allowance=allowance):
                    mesh = f"from 0 to 1 reach {cells[1]} allowance {allowance} apart\n{arcs}\n"
                    self.assertEqual(call("plan", "-", stdin=mesh.encode()).output.decode().split("\n")[0], line)
                    checked += 1
        self.assertEqual(checked, 18)

    def test_the_mesh_refused_by_15_in_meshes_prints_what_stands_below_it(self):
        mesh, printed, *_ = blocks("docs/MESHES.md", "from 0 to 1")
        ran = call("plan", "-", stdin=mesh.encode())
        self.assertEqual((ran.status, ran.output.decode()), (3, printed))

    def test_the_mesh_mended_in_meshes_becomes_what_stands_below_it(self):
        faulty, printed, _, command, *_ = blocks("docs/MESHES.md", "from 0 to 2")
        ran = call("mend", "-", stdin=faulty.encode())
        self.assertEqual((ran.status, ran.output.decode()), (1, printed))
        self.assertEqual(call("plan", "-", stdin=printed.encode()).status, 0)
        self.assertEqual(command, "feshangul mend --bytes operator.bin > clean.bin\n")

    def test_every_field_of_a_mended_mesh_in_json_stands_in_meshes(self):
        faulty, *_ = blocks("docs/MESHES.md", "from 0 to 2")
        faulty = faulty.replace("5: 2,0,7000,{2}", "5: 2,0,7000,{}")
        fields = json.loads(call("mend", "--json", "-", stdin=faulty.encode()).output)
        table = (REPOSITORY / "docs/MESHES.md").read_text(encoding="utf-8").split("`mend --json` prints")[1]
        for field in (*fields, *fields["changes"][0], *fields["blank"][0], "table"):
            with self.subTest(field):
                self.assertIn(f"`{field}`", table)

    def test_every_field_of_an_answer_in_json_stands_in_meshes(self):
        mesh, *_ = blocks("docs/MESHES.md", "site LON")
        _, faulty, *_ = blocks("docs/MESHES.md", "from 0 to 3")
        given = ((mesh, ()), (faulty, ()), (mesh, ("--apart",)))
        answers = [call("plan", "--json", "--why", "-", *words, stdin=text.encode()).output.decode() for text, words in given]
        fields = fields_of([json.loads(line) for written in answers for line in written.splitlines()])
        self.assertTrue({"span_count", "uncounted_arcs", "title", "why", "words", "apart", "on_every_route"} <= fields)
        table = (REPOSITORY / "docs/MESHES.md").read_text(encoding="utf-8").split("`plan --json` prints")[1]
        for field in fields:
            with self.subTest(field):
                self.assertIn(f"`{field}`", table.split("`mend --json` prints")[0])

    def test_the_meshes_worked_in_rules_are_the_examples(self):
        for name, heading in (
            ("A.txt", "A mesh worked by hand"),
            ("F.txt", "Two cables in one trench, worked by hand"),
            ("H.txt", "A pair apart, worked by hand"),
        ):
            with self.subTest(name):
                expected = [
                    [str(number), f"{a.tail} {a.head}", str(a.metres), " ".join(map(str, sorted(a.risks))) or "-", str(a.span)]
                    for number, a in enumerate(text.read(example(name), name).arcs)
                ]
                found = rows("docs/RULES.md", heading)
                self.assertEqual(found, [row[: len(found[0])] for row in expected])  # without spans where none is known

    def test_the_mesh_with_a_trench_in_rules_has_the_answers_that_it_tells(self):
        f = example("F.txt")
        for lines, mesh, words in (
            ("settled 0 0 3\nmain 1 0\nstandby 4 2 3\n", f, ()),
            ("settled 1 1 2\nmain 1 0\nstandby 2 1\n", f, ("--reach", "3999")),
            ("settled 0 0 2\nmain 1 0\nstandby 2 1\n", re.sub(" span [78]\n", "\n", f), ()),
            ("settled 0 0 2\nmain 1 0\nstandby 2 1\n", f.replace("2000,{2} span 7", "2000,{2} span 9"), ()),
        ):
            with self.subTest(lines):
                self.assertTrue(call("plan", "-", *words, stdin=mesh.encode()).output.decode().startswith(lines + "\n"))

    def test_the_first_command_of_the_readme_prints_what_stands_below_it(self):
        printed, *_ = blocks("README.md", "settled 0 0 4")
        output = call("plan", EXAMPLES / "europe.txt").output.decode()
        for shown in printed.split("\n"):
            with self.subTest(shown):
                self.assertIn(shown.removesuffix(" ..").rstrip("."), output)

    def test_the_mesh_of_the_readme_is_planned(self):
        mesh, *_ = blocks("README.md", "site LON")
        self.assertEqual(call("plan", "-", stdin=mesh.encode()).status, 0)


if __name__ == "__main__":
    unittest.main()
