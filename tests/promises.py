#!/usr/bin/env python3
"""Fails where docs/PROMISES.md names a point of the scope, a definition, theorem, must-fail edit or test that is not there.

The page's tables have columns named definition, theorem, must-fail edits and tests; what stands before them is the sentence and the
points of docs/SCOPE.md that it belongs to (§5.3; a point starts with its number in bold). In the first two, `name` `name` (crate/specs/File) says that this file declares these names, publicly: a record, a
data type, an abbreviation, a function or theorem. `Type.member` is a field or a constructor. In a file of src/ it is a function, a
struct or an enum. In the column of must-fail edits `crate/label` is an edit; every edit of the repository has to be named. In the
column of tests `name` is a Rust function marked #[test], a path is a file, and `name` (tests/c/host.c) is a function of that file.

What is no fault, but to be known, ends the output in lines that start with 'note:': rows whose only test is the reference against
itself, definitions that stand in proofs/, and points of the scope that no row has.
"""
import pathlib
import re
import sys

ROOT = pathlib.Path(__file__).resolve().parent.parent
COLUMNS = ("definition", "theorem", "must-fail edits", "tests")
NAMED = re.compile(r"`([^`]+)`")
CITED = re.compile(r"((?:`[^`]+` )+)\(([\w/+.]+)\)")
WORDS = r"((?:(?:abbrev|unfoldable|opaque|pub|record|data)\s+)*)"
DECLARED = re.compile(r"^(\s*)" + WORDS + r"([^\s:(){}]+)(?=[\s:({]|$)(.*)$")
POINT = re.compile(r"§\d+\.\d+")
TESTED = re.compile(r"#\[test\]\s*(?:#\[[^\]]*\]\s*)*fn (\w+)\(")


def rows(page):
    """The rows of the page's tables, as line number, sentence and the cells of COLUMNS; and what is wrong with the tables."""
    found, wrong, columns, width = [], [], None, 0
    for number, line in enumerate(page.splitlines(), 1):
        if not line.startswith("|"):
            columns = None
            continue
        cells = [cell.strip() for cell in re.split(r"(?<!\\)\|", line.strip()[1:].removesuffix("|"))]
        if columns is None:
            columns, width = {name: at for at, name in enumerate(cells)}, len(cells)
            if not set(COLUMNS) <= set(columns):
                wrong.append("line %d: a table without the columns %s" % (number, ", ".join(COLUMNS)))
        elif all(set(cell) <= set("-: ") for cell in cells):
            continue
        elif len(cells) != width:
            wrong.append("line %d: %d cells, where the table has %d" % (number, len(cells), width))
        elif set(COLUMNS) <= set(columns):
            found.append((number, " ".join(cells[: columns["definition"]]), *(cells[columns[name]] for name in COLUMNS)))
    return found, wrong


def file_of(path):
    """The file of a crate, or of the repository, that the page names with or without its ending; None where there is none."""
    for ending in ("", ".antt", ".rt", ".rs", ".py", ".c"):
        for base in ("crates", ""):
            file = ROOT / base / (path + ending)
            if file.is_file():
                return file
    return None


def declarations(text):
    """What a file of antt declares, as {name: public}, a member of a record or data type as Type.member."""
    found, inside, depth = {}, None, 0
    for line in text.splitlines():
        m = DECLARED.match(line)
        if not m or line.lstrip().startswith("--"):
            continue
        at, words, name, rest = len(m.group(1)), m.group(2).split(), m.group(3), m.group(4).lstrip()
        if inside and at <= depth:
            inside = None
        if "record" in words or "data" in words:
            found[name] = "pub" in words
            inside, depth = name, at
        elif inside:
            if rest.startswith(":"):
                found["%s.%s" % (inside, name)] = found[inside]
        elif rest.startswith(":"):
            found[name] = found.get(name, False) or "pub" in words
    return found


def fault(path, file, name):
    """What is wrong with a name that the page says the file declares; None where nothing is."""
    text = file.read_text()
    if file.suffix == ".antt":
        public = declarations(text).get(name)
        return "%s does not declare %s" % (path, name) if public is None else None if public else "%s in %s is not pub" % (name, path)
    form = r"^(?:static )?\w[\w ]*\b%s\(" if file.suffix == ".c" else r"\b(?:fn|struct|enum|def) %s\b"
    return None if re.search(form % re.escape(name), text, re.M) else "%s does not declare %s" % (path, name)


def tests():
    """The names of the Rust tests, each with whether it holds the reference to itself only."""
    found = {}
    for file in [*ROOT.glob("tests/*/tests/**/*.rs"), *ROOT.glob("tests/*/src/**/*.rs"), *ROOT.glob("bindings/rust/**/*.rs")]:
        alone = file.relative_to(ROOT).parts[:2] == ("tests", "reference")
        for name in TESTED.findall(file.read_text()):
            found[name] = found.get(name, True) and alone
    return found


def points():
    """The points of the scope; none where there is no such page."""
    page = ROOT / "docs" / "SCOPE.md"
    return re.findall(r"^\*\*(§\d+\.\d+)\*\*", page.read_text(), re.M) if page.exists() else []


def main():
    lines, wrong = rows((ROOT / "docs" / "PROMISES.md").read_text())
    edits = {"%s/%s" % (edit.parts[-3], edit.stem) for edit in ROOT.glob("crates/*/must-fail/*.edit")}
    known, named, notes = tests(), set(), []
    scope, had = points(), set()
    if not lines:
        wrong.append("docs/PROMISES.md has no rows")

    def cited(number, cell):
        for names, path in CITED.findall(cell):
            file = file_of(path)
            for name in NAMED.findall(names):
                bad = "no file %s" % path if file is None else fault(path, file, name)
                if bad:
                    wrong.append("line %d: %s" % (number, bad))
            yield path, names

    for number, sentence, definition, theorem, refused, tried in lines:
        had |= set(POINT.findall(sentence))
        wrong += ["line %d: the scope has no %s" % (number, point) for point in POINT.findall(sentence) if point not in scope]
        for path, names in cited(number, definition):
            if "/proofs/" in path:
                notes.append("line %d: the definition %s(%s) stands in no specs/" % (number, names, path))
        list(cited(number, theorem))
        for name in NAMED.findall(refused):
            named.add(name)
            if name not in edits:
                wrong.append("line %d: no must-fail edit %s" % (number, name))
        elsewhere = [n for names, _ in cited(number, tried) for n in NAMED.findall(names)]
        rest = NAMED.findall(CITED.sub("", tried))
        for name in rest:
            if name not in known and not (ROOT / name).exists():
                wrong.append("line %d: no test %s" % (number, name))
        if rest and not elsewhere and all(known.get(name) for name in rest):
            notes.append("line %d: tested by the reference against itself only: %s" % (number, sentence))
    bare = [point for point in scope if point not in had]
    if bare:
        notes.append("points of the scope that no row has: " + ", ".join(bare))
    for edit in sorted(edits - named):
        wrong.append("no row names the must-fail edit %s" % edit)
    for line in wrong:
        print(line)
    for line in notes:
        print("note: " + line)
    sys.exit(1 if wrong else 0)


if __name__ == "__main__":
    main()
