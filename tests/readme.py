#!/usr/bin/env python3
"""Holds README.md to what is there. To be run after `bin/build pressbadger`, with `compare` built.

Its C compiles against include/pressbadger.h; the function there that takes a table, `int NAME(const uint64_t *rows)`, and asks one
question of it with numbers written out, is run on tables of both kinds, and answers each as a plain comparison here does. What it says
that `bin/compare` prints is what the program prints. It counts the lines of specs/ rightly. (Its Rust is run by cargo.)
"""
import itertools
import pathlib
import random
import re
import subprocess
import sys
import tempfile

ROOT = pathlib.Path(__file__).resolve().parent.parent
GCC = ["gcc", "-std=c99", "-Wall", "-Wextra", "-Werror", "-I", str(ROOT / "include"), "-x", "c", "-"]
TAKES = re.compile(r"^(?:static )?int (\w+)\(const uint64_t \*?\s*rows(?:\[\d*\])?\)", re.M)
ASKS = re.compile(r"pb_compare(?:_default)?\(" + r"\s*(\d+),\s*(\d+),\s*(\d+),\s*rows,\s*(\d+),\s*(\d+),\s*(\d+),")
MAIN = """
#include <stdio.h>
int main(void) {
    static const uint64_t tables[][%d] = {%s};
    for (size_t i = 0; i < sizeof tables / sizeof tables[0]; i++)
        putchar(%s(tables[i]) ? '1' : '0');
    return 0;
}
"""


def lines(pattern):
    return sum(len(file.read_text().splitlines()) for file in ROOT.glob(pattern))


def inner():
    """The files that only inner functions cite: those called Inner, and those that a specs/Lib names below a line that says so."""
    for file in ROOT.glob("crates/*/specs/Lib.antt"):
        _, _, below = file.read_text().partition("-- what private functions alone cite\n")
        for module in re.findall(r"^pub mod (\w+)$", below, re.M):
            yield "%s/%s.antt" % (file.parent.relative_to(ROOT), module)
    yield "crates/*/specs/Inner.antt"


def count(page):
    """The lines that a reader must believe, and those of them that only inner functions and tests cite."""
    counts = "(%s lines, comments and imports included, of which %s serve" % (
        format(lines("crates/*/specs/*.antt"), ","),
        format(sum(lines(files) for files in inner()) + lines("crates/probes/specs/*.antt"), ","),
    )
    if counts not in page:
        yield "README.md should say: %s inner functions and tests only)" % counts


def same(states, letters, finals, rows, x, y):
    """Whether two sets have one language, by all the pairs of sets that are reached."""
    seen, left = {(x, y)}, [(x, y)]
    while left:
        pair = left.pop()
        if bool(pair[0] & finals) != bool(pair[1] & finals):
            return False
        for letter in range(letters):
            onward = [0, 0]
            for side, mask in enumerate(pair):
                for state in range(states):
                    if mask >> state & 1:
                        onward[side] |= rows[state * letters + letter]
            if tuple(onward) not in seen:
                seen.add(tuple(onward))
                left.append(tuple(onward))
    return True


def tables(states, letters):
    """Every table of a small size; some of a larger one."""
    if states * states * letters <= 12:
        return list(itertools.product(range(1 << states), repeat=states * letters))
    draw = random.Random(8)
    sparse = [tuple(1 << draw.randrange(states) for _ in range(states * letters)) for _ in range(1000)]
    return sparse + [tuple(draw.randrange(1 << states) for _ in range(states * letters)) for _ in range(1000)]


def run_c(block, name, numbers, folder):
    """What is wrong with the function of a block, run on tables of both kinds; None where nothing is."""
    states, letters, finals, rows, x, y = numbers
    if rows != states * letters:
        return "README.md's %s lends %d rows, where its pattern has %d" % (name, rows, states * letters)
    tried = tables(states, letters)
    listed = ",".join("{%s}" % ",".join("%dU" % row for row in table) for table in tried)
    program = folder / name
    library = ["-o", str(program), "-L", str(ROOT / "target" / "staticlib"), "-lpressbadger"]
    subprocess.run(GCC + library, input=block + MAIN % (rows, listed, name), text=True, check=True)
    answers = subprocess.run([program], capture_output=True, text=True, check=True).stdout
    wanted = "".join("01"[same(states, letters, finals, table, x, y)] for table in tried)
    if answers != wanted:
        return "README.md's %s answers some table as it should not" % name
    if len(set(wanted)) < 2:
        return "README.md's %s has one answer, %s, whatever the table is" % (name, wanted[0])
    print("%s: %d tables, %d of them SAME" % (name, len(tried), wanted.count("1")))
    return None


def compile_c(page):
    """The page's C, compiled and run."""
    blocks = re.findall(r"^```c\n(.*?)^```$", page, re.M | re.S)
    ran = 0
    with tempfile.TemporaryDirectory() as folder:
        for block in blocks:
            subprocess.run(GCC + ["-fsyntax-only"], input=block, text=True, check=True)
            takes, asks = TAKES.search(block), ASKS.search(block)
            if takes and asks:
                yield run_c(block, takes.group(1), [int(n) for n in asks.groups()], pathlib.Path(folder))
                ran += 1
    if ran == 0:
        yield ("README.md shows no C function `int NAME(const uint64_t *rows)` that calls pb_compare or pb_compare_default with numbers")


def compared(page):
    """What the page says that bin/compare prints."""
    shown = re.findall(r"^\$ bin/compare (\S+)\n((?:[^$`\n].*\n|\n)*)", page, re.M)
    program = ROOT / "target" / "bin" / "compare"
    if not shown or not program.exists():
        yield "README.md shows no question and its answer" if not shown else "compare is not built: run `bin/build compare`"
        return
    for file, answer in shown:
        with open(ROOT / file, "rb") as question:
            printed = subprocess.run([program], stdin=question, capture_output=True, text=True).stdout
        if printed != answer:
            yield "README.md does not show what is printed for %s:\n%s" % (file, printed)


def main():
    page = (ROOT / "README.md").read_text()
    wrong = [fault for check in (count, compared, compile_c) for fault in check(page) if fault]
    for fault in wrong:
        print(fault)
    sys.exit(1 if wrong else 0)


if __name__ == "__main__":
    main()
