#!/usr/bin/env python3
"""Deletes each `ensures` clause of a public function in a copy, and lists the proved callers that then fail.

    tests/clauses.py FOLDER [CRATE.MODULE..]

FOLDER is made: a copy of the crates in which every function of the libraries has a hole for its proof. So the callers
in rds_uses are proved from contracts alone, and a clause that goes costs the proofs of its callers, no more. Clauses
with no caller in common go in one run. FOLDER/table.txt has a line a clause: the callers that need it, or `nobody`. A
FOLDER that is there is gone on with, as the crates were when it was made; names choose functions by how they begin.
"""

import os
import re
import shutil
import subprocess
import sys
from dataclasses import dataclass, field

from holes import LIBRARIES, TOP, copied, functions_of, read, words, write

# A caller of more functions than these is asked only of clauses that no other caller needs.
FEW = 8
# What a check says of a caller that is proved, but for the holes.
HELD = "depends on a hole|no holes"


@dataclass(eq=False)
class Clause:
    title: str
    file: str
    place: tuple
    callers: set
    failed: set = field(default_factory=set)


def copies(folder):
    """Makes the copy, and another that stays as it is; gives the libraries' functions.

    The other has its name only once both are whole, so that a copying that was broken off is done again.
    """
    if not os.path.isdir(f"{folder}/as_was"):
        copied(folder, [*LIBRARIES, "rds_uses"])
        begun = f"{folder}/as_was_begun"
        shutil.rmtree(begun, ignore_errors=True)
        for crate in [*LIBRARIES, "rds_uses"]:
            shutil.copytree(f"{TOP}/crates/{crate}", f"{begun}/{crate}", ignore=shutil.ignore_patterns("out"))
        os.rename(begun, f"{folder}/as_was")
    return [f for it in LIBRARIES for f in functions_of(f"{folder}/as_was/{it}")]


def check_without(folder, clauses, callers):
    """What a check says of each of these callers, once these clauses are gone."""
    for file in (
        f"{it}/src/{entry}" for it in LIBRARIES for entry in os.listdir(f"{folder}/as_was/{it}/src")
    ):
        text = read(f"{folder}/as_was/{file}")
        for start, end in (it.place for it in clauses if it.file == file):
            text = text[:start] + re.sub(r"[^\n]", " ", text[start:end]) + text[end:]
        write(f"{folder}/{file}", text)
    check = [*words(folder, "rds_uses", callers), "--jobs", "2"]
    ran = subprocess.run(
        check, cwd=f"{folder}/rds_uses", stdout=subprocess.PIPE, stderr=subprocess.STDOUT, encoding="utf-8"
    )
    write(f"{folder}/last.txt", ran.stdout)
    said = dict(re.findall(r"^fn (?:rds_uses::)?(\S+): (.*)", ran.stdout, re.M))
    for it in said:
        while same := re.search(r" the same .* as `(?:rds_uses::)?(.*)`", said[it]):
            said[it] = said[same[1]]
    return said or sys.exit(f"see {folder}/last.txt")


def parted(clauses, asked):
    """The clauses in parts, so that those of one part have no caller in common of those that are asked."""
    clauses = [it for it in clauses if it.callers & asked and not it.failed]
    while clauses:
        taken, left, busy = [], [], set()
        for it in clauses:
            (left if it.callers & asked & busy else taken).append(it)
            busy |= it.callers & asked if it is taken[-1] else set()
        yield taken
        clauses = left


def main(folder, words):
    functions, clauses, table = copies(folder), [], f"{folder}/table.txt"
    bodies = {it.path.replace(".", "::"): it.body for it in functions_of(f"{folder}/as_was/rds_uses")}
    said = check_without(folder, [], {it.partition("::")[0] for it in bodies})
    if open_ones := [it for it in bodies if not re.match(HELD, said[it])]:
        sys.exit(f"not proved to begin with: {', '.join(open_ones)}")
    known = read(table) if os.path.isfile(table) else ""
    for f in functions:
        hole, call = f"`Rattle.{f.crate}.proofs.{f.path}.Proof.", f".{f.path.rpartition('.')[2]}("
        callers = {it for it in bodies if hole in said[it] or not f.body and call in bodies[it]}
        for name, place in f.clauses if f.is_public else []:
            title = f"{f.crate}.{f.path} {name}"
            if f"{title}: " not in known and title.startswith(tuple(words or [""])):
                clauses.append(Clause(title, f.file, place, callers))
    many = {it for it in bodies if said[it].count("`") > 2 * FEW}
    for asked in (set(bodies) - many, many):
        for part in parted(clauses, asked):
            said = check_without(folder, part, {caller for it in part for caller in it.callers & asked})
            for it in part:
                it.failed = {c for c in it.callers & asked if not re.match(HELD, said[c])}
            note(table, [it for it in part if it.failed])
    note(table, [it for it in clauses if not it.failed])


def note(table, clauses):
    """Adds what was found to the table."""
    with open(table, "a", encoding="utf-8") as out:
        out.writelines(f"{it.title}: {', '.join(sorted(it.failed)) or 'nobody'}\n" for it in clauses)


if __name__ == "__main__":
    if "--help" in sys.argv:
        print(__doc__)
        sys.exit()
    if len(sys.argv) < 2:
        sys.exit(__doc__)
    main(os.path.abspath(sys.argv[1]), sys.argv[2:])
