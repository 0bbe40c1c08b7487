#!/usr/bin/env python3
"""Spells the repository's own definitions and lemmas as today's Rattle does: words in snake case, types and modules in camel case.

usage: python3 tools/snake_names.py           at the top of the repository
       python3 tools/snake_names.py --list    prints the old and the new names, and writes nothing

`columnsBy` becomes `columns_by`, `refusal-number` becomes `refusal_number`, `NO-ROOM` becomes `NO_ROOM`. A lemma that would get the name
of a definition beside it ends in `_lem`. What Rattle makes (the names of goals, and of what a goal gives), names of Rattle's libraries,
items of Rust and strings stay as they are. It goes over specs/, proofs/, the clauses in src/, the must-fail edits, and the names in
backticks on the pages that cite them; rt fmt lays the files out afterwards. A line that begins 'look:' names a file in which a new name
was there already. A second run changes nothing.
"""

import os
import re
import sys

# Answers.antt and the like: there most names are goals.
OF_GOALS = ("Answers.antt", "Invariants.antt", "Proof.antt")
PAGES = ("docs/PROMISES.md", "docs/DECISIONS.md", "docs/notes")
# Lemmas whose plain spelling is a word of the library.
ELSE = {"bit-and": "bit_of_and", "bit-or": "bit_of_or"}

NAME = re.compile(r"[^\s(){}.:;,@\"«»λ]+")
OLD = re.compile(r"(?=.*[A-Za-z'0-9]-[A-Za-z0-9]|[a-z][\w']*[A-Z])[A-Za-z][\w'-]*\Z")
USE = re.compile(r"^[ \t]*(?:pub )?(?:ghost )?use ([^\s;{]+?)(?:\.?\{([^}]*)\})?(?: as (\S+?))?;?$", re.M)
# What is no code: comments, strings, characters.
ANTT = re.compile(r'--.*$|"(?:[^"\\\n]|\\.)*"', re.M)
RUST = re.compile(r'//.*$|b?"(?:[^"\\]|\\.)*"|b?\'(?:[^\'\\\n]|\\.)\'', re.M)
# A declaration, or a name that is given inside of one.
BESIDE = re.compile(r"(?:^|\blet )(?:abbrev )?(?:pub )?([a-z][\w']*(?:-[\w']+)+)(?: [({].*?[)}])* (?::(?! goal\.)|=)", re.M)
# The variables of an answer behind which stands what a goal gives.
GIVEN = re.compile(r"\| (?:then|else|in)[-_]\S* (\w+) ↦|let (\w+) = \(goal\.at")


def new_name(name):
    words = re.sub(r"(?<=[a-z0-9])[A-Z]+", lambda m: "_" + m[0].lower(), name) if name[0].islower() else name
    return words.replace("-", "_")


def files(top, suffixes):
    for folder, dirs, names in os.walk(top):
        dirs[:] = sorted(d for d in dirs if d not in ("out", "target", ".git"))
        yield from (os.path.join(folder, n) for n in sorted(names) if n.endswith(suffixes))


def text_of(path):
    with open(path, encoding="utf-8", newline="") as f:
        return f.read()


def parts(text, no_code):
    """The text in turn: (True, code), or (False, a comment or a string)."""
    at = 0
    for m in no_code.finditer(text):
        if text[at : m.start()]:
            yield True, text[at : m.start()]
        yield False, m[0]
        at = m.end()
    if text[at:]:
        yield True, text[at:]


def foreign(text):
    """The names that a text brings in from Rattle's libraries, and the goals of a function."""
    names = set()
    for m in USE.finditer(text):
        steps = m[1].split(".")
        own = steps[0] == "Rattle" and len(steps) > 1 and os.path.isdir(os.path.join("crates", steps[1], "src"))
        if m[2] and (not own or steps[-1] == "Goals"):
            names |= {w.strip().split(" as ")[0].strip() for w in m[2].split(",")}
    return names


def beside_goals(path, text):
    """What an answer file declares that is no goal; nothing of a proof that walks the code by hand, where nearly all names are made."""
    return set() if path.endswith("Proof.antt") else {n for n in BESIDE.findall(text) if f"{n} : goal." not in text}


def own_names():
    """Each of the repository's own names that is to be spelled anew, with its new spelling."""
    found = {}
    for path in files("crates", ".antt"):
        text = text_of(path)
        brought = foreign(text)
        declared = beside_goals(path, text) if os.path.basename(path) in OF_GOALS else None
        for is_code, part in parts(text, ANTT):
            for name in NAME.findall(part) if is_code else ():
                if OLD.match(name) and name not in brought and (declared is None or name in declared):
                    found.setdefault(name, set()).add(path)
    names = {n: ELSE.get(n) or new_name(n) for n in found if new_name(n) != n}
    for lemma in [n for n in names if "-" in n]:
        if any("-" not in n and names[n] == names[lemma] and found[n] & found[lemma] for n in names):
            names[lemma] += "_lem"
    return names


def turn_comment(comment, names):
    """In prose a dash may be a hyphen: a name is what stands in backticks, in the list at the head of a file, or in camel case."""

    def turned(text):
        return NAME.sub(lambda m: names.get(m[0], m[0]), text)

    comment = re.sub(r"`([^`\n]*)`", lambda m: "`" + turned(m[1]) + "`", comment)
    head = re.match(r"(--   +)(\S+(?:,? \S+)*?)( {3,}|\Z)", comment)
    if head:
        listed = turned(head[2])
        gap = " " * max(len(head[2]) + len(head[3]) - len(listed), 3) if head[3] else ""
        comment = head[1] + listed + gap + comment[head.end() :]
    return re.sub(r"\b[a-z][\w']*[A-Z][\w']*\b(?!-)", lambda m: names.get(m[0], m[0]), comment)


def turn_antt(text, names, path):
    of_goals = os.path.basename(path) in OF_GOALS
    brought = foreign(text)
    roots = {"c", "goal", "goal.at"} | {v for m in GIVEN.finditer(text) for v in m.groups() if v}
    out = []
    for is_code, part in parts(text, ANTT):

        def one(m):
            name, before = m[0], part[: m.start()]
            if name not in names or name in brought:
                return name
            if of_goals:
                behind = re.search(r"([^\s(){};,@\"«»λ]*)\.\Z", before)
                at_start = re.search(r"(?:\n|\A)(?:pub )?\Z", before)
                if behind and behind[1] in roots or at_start and f"\npub {name} : goal." in text:
                    return name
            return names[name]

        if is_code:
            part = NAME.sub(one, part)
        elif part.startswith("--"):
            part = turn_comment(part, names)
        out.append(part)
    return "".join(out)


def turn_rust(text, names):
    brought = foreign(text)
    out = []
    for is_code, part in parts(text, RUST):
        if is_code:
            part = NAME.sub(lambda m: m[0] if m[0] in brought else names.get(m[0], m[0]), part)
        elif part.startswith("//"):
            part = turn_comment(part, names)
        out.append(part)
    return "".join(out)


def turn_edit(text, names):
    """An edit names its file, and then what of that file's text is old and new."""
    lines, file = [], ""
    for line in text.split("\n"):
        word, _, rest = line.partition(": ")
        if word == "file":
            file = rest
        elif word in ("old", "new"):
            rest = turn_rust(rest, names) if file.endswith(".rt") else turn_antt(rest, names, file)
            line = f"{word}: {rest}"
        lines.append(line)
    return "\n".join(lines)


def turn_page(text, names):
    return re.sub(r"(?<!`)`([^`\n]+)`(?!`)", lambda m: "`" + names.get(m[1], m[1]) + "`", text)


def fallen_together(path, old, names):
    no_code = RUST if path.endswith(".rt") else ANTT
    to = {}
    for is_code, part in parts(old, no_code):
        for name in NAME.findall(part) if is_code else ():
            to.setdefault(names.get(name, name), set()).add(name)
    return [sorted(froms) for froms in to.values() if len(froms) > 1]


def main(argv):
    names = own_names()
    if argv == ["--list"]:
        print("\n".join(f"{n} {names[n]}" for n in sorted(names)))
        return 0
    if argv:
        print(__doc__)
        return 2
    turned = {}
    for path in files("crates", (".antt", ".rt", ".edit")):
        old = text_of(path)
        turned[path] = old, turn_antt(old, names, path) if path.endswith(".antt") else turn_rust(old, names) if path.endswith(".rt") else turn_edit(old, names)
    for top in PAGES:
        for path in [top] if os.path.isfile(top) else files(top, ".md"):
            turned[path] = text_of(path), turn_page(text_of(path), names)
    for path, (old, new) in turned.items():
        if old != new:
            with open(path, "w", encoding="utf-8", newline="") as f:
                f.write(new)
        if path.endswith((".antt", ".rt")):
            for froms in fallen_together(path, old, names):
                print(f"look: {path}: {', '.join(froms)} fall together")
    return 0


if __name__ == "__main__":
    raise SystemExit(main(sys.argv[1:]))
