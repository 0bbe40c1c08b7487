#!/usr/bin/env python3
"""Fails where a must-fail edit was refused for another reason than a fact that cannot be proved: refusals.py LOG, of `rt ci`.

An edit shows something only if the prover refuses it at a fact. It is refused as well where it takes away what a proof cites or does
not fit together, and such a refusal says nothing of the mistake that the edit is named after; or only a limit of the prover is met.
`rt ci` prints of each edit the first error that is more than a missing name. It is

fact     a fact of the code that is not proved, a tactic that does not close its goal, or a proof of one fact where another is asked for:
         two types, sides or indices that are not equal
name     nothing but names that the edit took away
limit    nothing but a limit of the prover
shape    the text does not fit together: a field, an argument or a clause too many or too few, data of another type
bad      the edit cannot be applied, compiled or read
untried  there is no line of it
other    none of these, or no error is told

All but the first fail. tests/refusals.txt lists the exceptions, as `crate/label: reason`. One that is not needed fails too. With -v
each edit is listed.
"""
import collections
import pathlib
import re
import sys

ROOT = pathlib.Path(__file__).resolve().parent.parent
LINE = re.compile(r"^rt: must-fail (\w+/\w+)\.edit: (.*)$", re.M)
SHAPE = re.compile(r"has no field|this tuple has|is applied to an argument but|does not parse|this clause |write the clause|too many|too few")
FACT = re.compile(
    r"it is not proved that |: error: `[^`]+`: (?:`omega`: .*does not follow from what it read|`rw`: no occurrence of |`simp`: no equation of "
    r"|give a proof of that as the last argument, |list the missing equation|(?:as printed|computed as far as they go), the two (?:types|sides|indices) "
    r"|computed as a goal is, one side reads `|expected type `|this `[^`]+` lands at index `)"
)
# what the check of a proof asks for where a type of data stands and no fact
DATA = re.compile(r"expected type `(?:[\w.]+\.)?(?:ℕ|ℤ|Bool|List|String|Char|Type|Option)\b[^≡≤<→]*`")


def kind(said):
    """The kind of a refusal, from what `rt ci` says of it."""
    if not said.startswith("refused, as it must be"):
        return "bad"
    if "(only because a proof file names" in said:
        return "name"
    if "(only by a limit" in said:
        return "limit"
    if SHAPE.search(said) or DATA.search(said):
        return "shape"
    return "fact" if FACT.search(said) else "other"


def exceptions():
    found = {}
    for line in (ROOT / "tests" / "refusals.txt").read_text().splitlines():
        if line.strip() and not line.startswith("#"):
            label, _, why = line.partition(": ")
            found[label] = why.strip()
    return found


def main():
    *flags, log = sys.argv[1:]
    told = dict(LINE.findall(pathlib.Path(log).read_text(errors="replace")))
    listed, wrong, kinds, used = exceptions(), [], collections.Counter(), set()
    for edit in sorted(ROOT.glob("crates/*/must-fail/*.edit")):
        label = "%s/%s" % (edit.parts[-3], edit.stem)
        what = kind(told[label]) if label in told else "untried"
        kinds[what] += 1
        if "-v" in flags:
            print("%-8s %s: %s" % (what, label, told.get(label, "")))
        if what == "fact":
            continue
        if label in listed:
            used.add(label)
        else:
            wrong.append("%s: %s, not refused at a fact: %s" % (label, what, told.get(label, "no line of it")))
    for label, why in listed.items():
        if label not in used:
            wrong.append("tests/refusals.txt: %s is refused at a fact, or is no edit: it needs no exception" % label)
        if not why:
            wrong.append("tests/refusals.txt: %s has no reason" % label)
    for line in wrong:
        print(line)
    print("note: edits by what refused them: " + ", ".join("%s %d" % pair for pair in sorted(kinds.items())))
    sys.exit(1 if wrong or not kinds else 0)


if __name__ == "__main__":
    main()
