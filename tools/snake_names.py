#!/usr/bin/env python3
"""Spells the repository's own names as today's Rattle spells names: words, lemmas, fields and constructors in snake case.

usage: tools/snake_names.py [--dry] [FOLDER]

Run once, at the top, behind the kit's port.py, which turns the library's names and some of ours. A name is ours where a definition, a proof file or a record
of ours declares it. Types and modules keep their capitals; functions of src/, exported names, strings, inputs and outputs keep theirs. A name that a file
imports from the kit stays in that file. Edits, wrong definitions and what stands between backticks in pages are turned likewise.
"""
import os
import pathlib
import re
import sys

# Names that would meet another. A lemma that would have a word's or a function's name gets `_lem`.
APART = {
    "asMain": "wanted_as_main", "asStandby": "wanted_as_standby", "readBack": "number_read_back", "listLength": "list_written", "tableLength": "table_written",
    "may-stay": "is_to_stay", "torn-end": "has_torn_end", "first-door": "first_door", "fewer-nodes": "fewer_nodes", "off-nodes": "off_nodes", "in-front": "put_in_front",
    "is-in": "is_member", "no-arc": "no_common_arc", "no-route": "has_no_route", "no-pair": "has_no_pair", "not-over": "is_not_over", "on-every": "is_on_every",
    "whole-arcs": "has_whole_arcs", "of-arc": "of_one_arc", "list-size": "list_keeps_size", "table-size": "table_keeps_size", "by-risks": "shares_by_risks",
}
PARTS = {"getD": "get_or"}
HERE = os.path.dirname(os.path.realpath(__file__))
STOP = r"\s(){}\[\].;,@\"«»"
NAME = rf"[^{STOP}]+"
HEAD = r"(?:(?:abbrev|unfoldable|pub|opaque|instance|private|\|)\s+)*"
DECLARED = re.compile(rf"^\s*{HEAD}((?:{NAME}[ ]+)*?{NAME})(?:\s+\{{[^}}\n]*\}})*\s+:(?:\s|$)")
MADE = re.compile(r"invariant-|decreases-|measure-|Need-|After-")


def crates(root):
    return {line.split(":")[0].split()[0] for line in (root / "crates.txt").read_text().splitlines() if re.match(r"[a-z]", line)}


def texts(root, endings):
    for folder, folders, files in os.walk(root / "crates"):
        folders[:] = sorted(f for f in folders if f != "out")
        for file in sorted(files):
            if file.endswith(endings):
                yield pathlib.Path(folder) / file


def snake(name):
    if name in APART:
        return APART[name]
    parts = [PARTS.get(part, part) for part in name.split("-")]
    return "_".join(re.sub(r"(?<=[a-z0-9])([A-Z])", lambda m: "_" + m[1].lower(), part) if re.match(r"[a-zα-ω]", part) else part for part in parts)


def declared(text):
    lines = [line.split(" -- ")[0] for line in text.splitlines()]
    for line, after in zip(lines, [*lines[1:], ""]):
        if line.lstrip().startswith("--"):
            continue
        match = DECLARED.match(line)
        if match:
            yield from match[1].split()
        elif re.match(r"\s+:\s", after) and re.match(rf"\s*{HEAD}{NAME}$", line):
            yield line.split()[-1]
        for names in re.findall(rf"[({{]((?:{NAME} )+): ", line):
            yield from names.split()


def needs(name):
    return ("-" in name and re.search(r"\w-\w", name)) or (re.match(r"[a-zα-ω]", name) and re.search(r"[a-z0-9][A-Z]", name))


def ours(root):
    named, local, plain = set(), set(), set()
    for path in texts(root, (".antt",)):
        into = local if path.name == "Proof.antt" else named
        for name in declared(path.read_text()):
            plain.add(name) if not needs(name) else None if MADE.match(name) else into.add(name)
    for path in texts(root, (".rt",)):
        plain.update(re.findall(r"\bfn (\w+)", path.read_text()))
    for path in texts(root, (".antt",)):
        plain.update(name for names in re.findall(r"use [^\s;{]+\.\{([^}]*)\}", path.read_text()) for name in re.split(r"[\s,]+", names) if not needs(name))
    plain.update(snake(name) for name in named if "-" not in name)
    for name in named | local:
        if "-" in name and name not in APART and snake(name) in plain:
            APART[name] = snake(name) + "_lem"
    return named, local


def imported(text, own):
    found = set()
    for path, names in re.findall(r"use ([^\s;{]+?)\.?\{([^}]*)\}", text):
        steps = path.split(".")
        if not (steps[0] == "Rattle" and len(steps) > 1 and steps[1] in own):
            found.update(n for n in re.split(r"[\s,]+", names) if n)
    return found


def turn(text, names, fields, local, own):
    """Each name of text in its new spelling; `local` are those that a proof file declares for itself, which stand behind no dot."""
    foreign = imported(text, own)
    cut = re.compile(rf"(?<![^{STOP}])(\.?)({NAME})")

    def one(match):
        name = match[2]
        if name in foreign:
            return match[0]
        if name in names and not (match[1] and name not in fields and name in local):
            return match[1] + snake(name)
        if not match[1] and name in local:
            return snake(name)
        return match[0]

    lines = []
    for line in text.split("\n"):
        code, dash, note = (line, "", "") if not re.search(r"(^|\s)--\s", line) else (lambda k: (line[:k], "", line[k:]))(re.search(r"(^|\s)--\s", line).start())
        lines.append(cut.sub(one, code) + re.sub(r"`([^`]*)`", lambda m: "`" + cut.sub(one, m[1]) + "`", note))
    return "\n".join(lines)


def main(argv):
    dry = "--dry" in argv
    argv = [a for a in argv if a != "--dry"]
    root = pathlib.Path(argv[0] if argv else ".").resolve()
    own = crates(root)
    named, local = ours(root)
    if dry:
        report(root, named, local, own)
        return 0
    for path in texts(root, (".antt", ".rt")):
        text = path.read_text()
        here = {n for n in declared(text) if n in local} if path.name == "Proof.antt" else set()
        if path.suffix == ".rt":
            new = turn_source(text, named, own)
        else:
            new = turn(text, named, named, here, own)
        if new != text:
            path.write_text(new)
    for path in [*texts(root, (".edit",)), root / "mutants" / "list.txt"]:
        if path.is_file():
            text = path.read_text()
            new = "\n".join(line if line.startswith("#") else fragment(line, named, path) for line in text.split("\n"))
            if new != text:
                path.write_text(new)
    for path in [root / "README.md", *sorted((root / "docs").glob("*.md"))]:
        if path.name != "PORT.md":
            text = path.read_text()
            new = re.sub(r"`([^`\n]*)`", lambda m: "`" + words(m[1], named) + "`", text)
            if new != text:
                path.write_text(new)
    return 0


def words(text, named):
    cut = re.compile(rf"(?<![^{STOP}])({NAME})")
    return cut.sub(lambda m: snake(m[1]) if m[1] in named else m[0], text)


def turn_source(text, named, own):
    """In src/ only clauses, ghost lines and what notes put between backticks hold such names: none is a name of Rust."""
    foreign = imported(text, own)
    cut = re.compile(rf"(?<![^{STOP}])({NAME})")
    return "\n".join(cut.sub(lambda m: snake(m[1]) if m[1] in named and m[1] not in foreign else m[0], line) if not line.lstrip().startswith("//") else re.sub(r"`([^`]*)`", lambda m: "`" + cut.sub(lambda n: snake(n[1]) if n[1] in named else n[0], m[1]) + "`", line) for line in text.split("\n"))


# What port.py does to whole files, for the lines of edits and of wrong definitions, which it does not read.
FRAGMENTS = [
    (r"List·Memᴰ", "Memᴰ"),
    (r"\bif_then_else_", "if◌then◌else◌"),
    (r"(?<=[\w)′']) \.(?=[\w\d])", "."),
    (r"Rattle·(\w+)·(specs|proofs)\.\2\.", r"Rattle.\1.\2."),
    (r"Rattle·(\w+)\.(specs|proofs)\.", r"Rattle.\1.\2."),
]


def fragment(line, named, path):
    if path.suffix == ".edit" and not line.startswith(("old: ", "new: ")):
        return line
    for old, new in FRAGMENTS:
        line = re.sub(old, new, line)
    return words(line, named)


def report(root, named, local, own):
    tokens = {}
    cut = re.compile(rf"(?<![^{STOP}])({NAME})")
    for path in texts(root, (".antt", ".rt")):
        for token in set(cut.findall(path.read_text())):
            tokens.setdefault(token, []).append(str(path.relative_to(root)))
    for name in sorted(named | local):
        new = snake(name)
        if new in tokens:
            print("meets", name, "->", new, tokens[new][:3], len(tokens[new]))
    turned = {}
    for name in sorted(named | local):
        turned.setdefault(snake(name), []).append(name)
    for new, olds in turned.items():
        if len(olds) > 1:
            print("together", new, olds)
    for token in sorted(tokens):
        if needs(token) and token not in named | local and re.match(r"[a-z]", token):
            print("other", token, len(tokens[token]), tokens[token][0])


sys.exit(main(sys.argv[1:]))
