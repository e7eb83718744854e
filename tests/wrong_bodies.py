#!/usr/bin/env python3
"""Tries the wrong bodies in crates/*/wrong/, one run per crate or a few, and fails unless the prover refuses each.

    tests/wrong_bodies.py [--right] [--beside LOG] [CRATE..]
    tests/wrong_bodies.py --cut [CRATE..]

A wrong body is an edit: a file, and pairs of a text of a function and its replacement. The edits are made in a copy of the crate. There
each other function has a hole for its proof and a body that calls nothing, so an edited function is checked against the contracts of its
callees. A second edit of a function is made in a twin: a copy of the function that follows it, with another name and the same contract
and proof.
A wrong body is refused

- by a goal that a tactic closes of the right body and not of this one. For such a goal the right proof, which `rt ci` checks, has no
  answer by hand. The edit names it after the tactic, in a line `search: GOAL` or `grind: GOAL`, and nothing else is tried. A line
  `own: GOAL` names a goal that the right body does not have, and both tactics try it. Without such a line all goals are tried, and
  those that refuse the edit are printed;
- otherwise by a line of the answers by hand that the prover refuses, unless the line only names something that the edit removed.
  Answers follow the form of a body, so an edit that keeps the meaning can be refused like this, too. So this counts only if
  tests/wrong_bodies.answers states the false claim of the edit, in a line 'CRATE/EDIT GOAL: CLAIM'. The answer to this goal is read,
  and all others are left open. A line without GOAL has all answers read.

An edit with a line `equal: WHY` keeps the meaning: goals may not refuse it.

--right tries the right bodies in the same way, and none may be refused. Without it a run tries one right body of the crate, another one
each day. --cut checks each crate as the edits of must-fail/ cut it, without their errors: it must be proved. With --beside, `rt ci` runs
meanwhile and its output goes to LOG, ended by the line 'proofs: ended'. Each crate waits until the crates below it are proved. Until all
are proved, `rt ci` has half of the processors.
"""

import argparse
import os
import re
import shutil
import subprocess
import sys
import tempfile
import time
from concurrent.futures import ThreadPoolExecutor
from dataclasses import dataclass, replace
from threading import Condition
from typing import Sequence

import must_fail
from holes import (
    CALLERS,
    EXPORTED,
    LIBRARIES,
    PROGRAM,
    RT,
    TOP,
    Function,
    below,
    built,
    checked,
    copied,
    functions_of,
    is_built,
    over,
    read,
    words,
    write,
)

CRATES = f"{TOP}/crates"
# The table with the false claim of each edit that only lines of answers refuse.
TOLD = "tests/wrong_bodies.answers"
# The time limit of one check, in seconds; beside other proofs a check takes some minutes.
LIMIT = 3600
# The line that ends the log of `rt ci`.
ENDED = re.compile(r"^proofs: ended$", re.M)
# A body that calls nothing is in no cycle of calls.
CYCLE = r"(?m)^ *#\[cycle\(\w+\)\]\n"
# The heads of functions whose bodies say more than their contracts: a constant or a type follows from the body.
KEEPS_BODY = r"\bconst fn\b|->\s*impl\b"
# Errors of an answer that names something that the edit removed, and of NO_GOAL.
GONE = "has no field|is not in scope|has no `|was not admitted|^`no-such-goal`"
# An answer to a goal that no function has. If an answer is refused, the check does not write draft answers for open goals, which
# saves 5 to 10 s per crate. So this follows the right answers, and its error is ignored.
NO_GOAL = """
pub no-such-goal : goal.no-such-goal
no-such-goal c = tt
"""
# A value of any type, for the answers by hand that are left open.
ANY = """
left-open : {A : Type 2} → A
left-open = ?
"""
# The tactics of `#[tactic(auto)]`, by names that no answers have. In an answer they take a fifth of its time, since after a goal that
# `auto` leaves open the check looks for advice.
SEARCH, GRIND = "search by_rules", "grind (by_arith, by_steps)"
TACTICS = {"search": SEARCH, "grind": GRIND, "own": f"first_of ({SEARCH}, {GRIND})"}
IMPORTS = """use Rattle.std.proofs.Common.{arith as by_arith, rules as by_rules}
use Rattle.std.proofs.lemmas.Grind.{common_steps as by_steps}
"""
# The begin of a closure in a body.
CLOSURE = re.compile(r"(?:[(,=]|\bmove)\s*&?\|")
# The attribute of a function with lemmas and definitions for its goals.
ATTRIBUTE = re.compile(r" *#\[tactic\(auto((?:, \w+\([^()]*\))*)\)\]\n")


@dataclass(eq=False)
class WrongBody:
    name: str
    edits: list  # (file, place, old, new)
    function: Function | None  # that is edited
    tactic: str  # that closes this goal of the right body alone
    goal: str
    is_equal: bool  # it keeps the meaning
    is_told: bool  # the table tells what is false of it
    answer: str  # to the goal that the table names
    is_right: bool = False  # it is the right body, tried in the same way
    goals: Sequence = ()  # the goals that refuse it
    lines: Sequence = ()

    def is_refused(self):
        return bool(self.goals or self.is_told and self.lines)

    def is_as_wanted(self):
        """Whether a wrong body is refused, and one that keeps the meaning, or a right one, is not."""
        return self.is_refused() != (self.is_equal or self.is_right)

    def has_right_goal(self):
        """Whether the tactic closes the goal of the right body."""
        return self.tactic in ("search", "grind")

    def made_right(self):
        return replace(self, edits=[(path, at, old, old) for path, at, old, _ in self.edits], is_right=True)

    def report(self):
        kind = ", the right body" if self.is_right else ", which keeps the meaning" if self.is_equal else ""
        said = ", ".join(self.goals or self.lines)
        return f"{self.name}{kind}: {f'refused: {said}' if said else 'not refused'}{'' if self.is_as_wanted() else ' - WRONG'}"


def of_the_day(bodies):
    """One of these, another one each day. A trait's function has no twin."""
    named = [body for body in bodies if body.has_right_goal() and not body.function.is_of_trait]
    return [named[int(time.time() // 86400) % len(named)].made_right()] if named else []


def told_of():
    """The edits in the table, with the goal of the answer that refuses each. Each has one line, and its file has to exist."""
    text = read(f"{TOP}/{TOLD}")
    rows = [it for it in text.splitlines() if not it.startswith("#")]
    if not rows:
        sys.exit(f"{TOLD}: there is no line")
    if not text.endswith("\n"):
        sys.exit(f"{TOLD}: the last line is cut off")
    told = {}
    for row in rows:
        name, _, claim = row.partition(": ")
        edit, _, goal = name.partition(" ")
        if not claim:
            sys.exit(f"{TOLD}: the line says nothing of an edit: {row}")
        if edit in told:
            sys.exit(f"{TOLD}: two lines of {edit}")
        told[edit] = goal
    if gone := [it for it in told if not os.path.isfile(f"{CRATES}/{it.replace('/', '/wrong/', 1)}.edit")]:
        sys.exit(f"{TOLD} tells of edits that are not there: {', '.join(gone)}")
    return told


def wrong_body(crate, file, functions, told={}):
    """Reads an edit, and finds its function."""
    lines = [it.partition(": ")[::2] for it in read(f"{CRATES}/{crate}/wrong/{file}").splitlines()]
    name, is_equal = f"{crate}/{file}", any(key == "equal" for key, _ in lines)
    tactic, goal = next((line for line in lines if line[0] in TACTICS), ("", ""))
    edit = name.removesuffix(".edit")
    body = WrongBody(name, [], None, tactic, goal, is_equal, edit in told, told.get(edit, ""))
    path, old = "", ""
    for key, said in lines:
        path = f"{crate}/{said}" if key == "file" else path
        old = said if key == "old" else old
        if key == "new":
            text = read(f"{CRATES}/{path}")
            if text.count(old) != 1:
                sys.exit(
                    f"{body.name}: the text occurs {text.count(old)} times in {path}, and not once: {old}"
                )
            at = text.index(old)
            body.edits.append((path, at, old, said))
            here = next((f for f in functions if f.file == path and f.place[0] <= at < f.place[1]), None)
            # Without this rule an edit of a constant would change the trials of other edits.
            if not here or body.function not in (None, here):
                sys.exit(f"{body.name}: the text is in no function, or in another one: {old}")
            body.function = here
    return body if body.function else sys.exit(f"{body.name}: there is no edit in it")


def edited(text, edits):
    """The text with these edits, made from the last to the first, so that places before an edit stay valid."""
    for _, at, old, new in sorted(edits, key=lambda it: it[1], reverse=True):
        text = text[:at] + new + text[at + len(old) :]
    return text


def put_twin(folder, body, number):
    """Moves this wrong body to a twin of its function."""
    f = body.function
    start, end = f.place
    inside = [(path, at - start, old, new) for path, at, old, new in body.edits]
    name = f.path.rpartition(".")[2]
    text = re.sub(
        rf"\bfn {name}\b",
        f"fn {name}_{number}",
        edited(read(f"{CRATES}/{f.file}")[start:end], inside),
        count=1,
    )
    body.edits = [(f.file, end, "", f"\n\n{text}")]
    body.function = replace(f, path=f"{f.path}_{number}")
    put_proof(folder, f, body.function)


def put_proof(folder, f, twin):
    """Puts the right proof of a function into the copy, for the function or its twin."""
    shutil.rmtree(twin.proof(folder), ignore_errors=True)
    os.makedirs(twin.proof(folder))
    # In an import of several modules its path follows a brace or a blank.
    path = re.escape(f.path)
    own = rf"(?<=\bproofs\.){path}\b|(?<=[{{ ]){path}(?=\.(?:Given|Goals)\b)"
    for at, _, names in os.walk(f.proof(CRATES)):
        to = at.replace(f.proof(CRATES), twin.proof(folder), 1)
        os.makedirs(to, exist_ok=True)
        for it in names:
            write(f"{to}/{it}", re.sub(own, twin.path, read(f"{at}/{it}")))
    if not os.path.isfile(f"{twin.proof(folder)}/Proof.antt"):
        path = f"{twin.proof(folder)}/Answers.antt"
        said = (
            read(path) if os.path.isfile(path) else f"use Rattle.{f.crate}.proofs.{twin.path}.Goals as goal\n"
        )
        write(path, said + NO_GOAL)


def answer_by(tactic, goal, right):
    """The imports and the text of an answer to a goal of a function by what its `auto` tries."""
    text = read(f"{CRATES}/{right.file}")[right.place[0] : right.place[1]]
    lists = dict(re.findall(r"(\w+)\((.*?)\)", said[1] if (said := ATTRIBUTE.search(text)) else ""))
    imports, names = IMPORTS, {"using": [], "unfolding": []}
    for key in lists:
        for path in re.findall(r"[\w:]+", lists[key]):
            module, _, name = path.replace("crate::", f"{right.crate}::").replace("::", ".").rpartition(".")
            imports += f"use Rattle.{module}.{{{name}}}\n"
            names[key].append(name)
    words = TACTICS[tactic]
    if tactic != "search" and names["using"]:
        words = f"first_of ({words}, grind (by_arith, {', '.join(names['using'])}))"
    unfolding = f"unfolding {' '.join(names['unfolding'])}\n" if names["unfolding"] else ""
    return imports, f"\npub {goal} : goal.{goal}\n{unfolding}{goal} = {words}\n"


def put_answers(folder, body, right):
    """Has the check read what refuses a wrong body, the tactic or an answer by hand, and leaves the other answers by hand open, so that
    it reads no lemma for them."""
    f = body.function
    path = f"{f.proof(folder)}/Answers.antt"
    text = read(path) if os.path.isfile(path) else ""
    if body.answer:
        return write(path, with_needed_imports(with_one_answer(text, body.answer)))
    by_hand = re.findall(r"^pub (?!no-such-goal)(\S+) : goal\.", text, re.M)
    imports, said = answer_by(body.tactic, body.goal, right) if body.goal else ("", "")
    said += "".join(
        f"\npub {goal} : goal.{goal}\n{goal} = left-open\n" for goal in by_hand if goal != body.goal
    )
    if said:
        own = f"use Rattle.{f.crate}.proofs.{f.path}.Goals as goal\n"
        write(path, f"{own}{imports}{ANY}{said}{NO_GOAL}")


def with_one_answer(text, kept):
    """The answers with all but this one left open."""
    lines, goal = [], None
    for line in text.splitlines(keepends=True):
        if found := re.match(r"pub (\S+) : goal\.", line):
            goal = found[1] if found[1] not in (kept, "no-such-goal") else None
            lines.append(f"{line}{goal} = left-open\n\n" if goal else line)
        elif not goal or not line.startswith((f"{goal} ", "unfolding ", " ", "\n", ")", "]", "}")):
            goal = None
            lines.append(line)
    if f"pub {kept} : goal." not in text:
        sys.exit(f"{TOLD} names {kept}, to which no answer is given")
    return "".join(lines)


def with_needed_imports(text):
    """The answers without the names that they do not use, so that the check does not read their lemmas."""
    imports = re.findall(r"^use .*\n", text, re.M)
    rest = re.sub(r"^use .*\n", "", text, flags=re.M)
    kept = ""
    for line in imports:
        head, brace, names = line.rstrip("}\n").partition("{")
        visible = {name: re.split(r" as |\.", name)[-1] for name in names.split(", ")}
        used = [name for name in visible if any(part in rest for part in visible[name].split("◌") if part)]
        kept += f"{head}{{{', '.join(used)}}}\n" if used and brace else "" if brace else line
    return f"{kept}{ANY}{rest}"


def is_tried_alone(body):
    """Whether one goal is tried, or the answers by hand are. The check would write draft answers for open goals of closures."""
    return bool(body.goal or body.is_told) and not CLOSURE.search(body.function.body)


def leave_goals_open(folder, crate, paths):
    """Has no tactic try the goals of these functions that have no answer."""
    functions = [f for f in functions_of(f"{folder}/{crate}") if f.path in paths]
    for f in sorted(functions, key=lambda f: -f.place[0]):
        text, (start, end) = read(f"{folder}/{f.file}"), f.place
        own = ATTRIBUTE.sub("", text[start:end], count=1)
        write(f"{folder}/{f.file}", f"{text[:start]}#[tactic(none)]\n{own}{text[end:]}")


def put_loops(folder, crate, edited):
    """Replaces the body of each other function that has a hole by one that calls nothing: a check also covers callees."""
    functions = [
        f for f in functions_of(f"{folder}/{crate}") if f.has_room_for_hole() and f.path not in edited
    ]
    for f in (it for it in functions if it.is_in_cycle):
        replace(f, is_in_cycle=False).put_hole(folder)
    for file in {f.file for f in functions}:
        text = read(f"{folder}/{file}")
        for start, end, size in sorted(
            (f.place[0], f.place[1], len(f.body)) for f in functions if f.file == file
        )[::-1]:
            head = text[start : end - size]
            if not re.search(KEEPS_BODY, head):
                text = f"{text[:start]}{re.sub(CYCLE, '', head)}{{ loop {{}} }}{text[end:]}"
        write(f"{folder}/{file}", text)


def drop_main(folder, crate):
    """Takes `main` out of a program. Without it the crate is a library, and its check links no code."""
    for f in (it for it in functions_of(f"{folder}/{crate}") if it.path == "main"):
        text = read(f"{folder}/{f.file}")
        write(f"{folder}/{f.file}", text[: f.place[0]] + text[f.place[1] :])
        shutil.rmtree(f.proof(folder))


def prepare(folder, crate, bodies):
    """Puts the wrong bodies into the copy, and the right proofs of their functions."""
    count = {}
    for body in bodies:
        f = body.function
        count[f] = count.get(f, 0) + 1
        if count[f] > 1:
            put_twin(folder, body, count[f])
        else:
            put_proof(folder, f, f)
        if body.goal or body.answer or not body.is_told:
            put_answers(folder, body, f)
    edits = [it for body in bodies for it in body.edits]
    for path in {it[0] for it in edits}:
        write(f"{folder}/{path}", edited(read(f"{CRATES}/{path}"), [it for it in edits if it[0] == path]))
    put_loops(folder, crate, {body.function.path for body in bodies})
    drop_main(folder, crate)
    leave_goals_open(folder, crate, {body.function.path for body in bodies if is_tried_alone(body)})
    places = {f.path: f.place for f in functions_of(f"{folder}/{crate}")}
    for body in bodies:
        body.function = replace(body.function, place=places[body.function.path])


def refusal(folder, body, said):
    """The goals, and the lines of answers by hand, by which the prover refuses a wrong body."""
    f = body.function
    first, last = (read(f"{folder}/{f.file}").count("\n", 0, at) + 1 for at in f.place)
    answers = f"{f.proof('.').partition(f'{f.crate}/')[2]}/Answers.antt"
    file = f"{folder}/{f.crate}/{answers}"
    answered = re.findall(r"^pub (\S+) : goal\.", read(file), re.M) if os.path.isfile(file) else []
    left_open = rf"^note: {f.file.partition('/')[2]}:(\d+):\d+: .*\(`([^`]+)`\)(?:;|$)"
    found = [goal for line, goal in re.findall(left_open, said, re.M) if first <= int(line) <= last]
    goals = dict.fromkeys(goal for goal in found if goal not in answered and not is_tried_alone(body))
    errors = re.findall(rf"^\./{answers}:(\d+):\d+: error: (.*)", said, re.M)
    # The right body has to have the goal.
    errors = [(at, why) for at, why in errors if body.is_right and body.goal or not re.search(GONE, why)]
    if tried := body.goal or body.answer:
        goals |= {tried: None} if any(why.startswith(f"`{tried}`: ") for _, why in errors) else {}
        errors = []
    return list(goals), list(dict.fromkeys(f"line {at} of {answers}" for at, _ in errors))


def runs_of(crate):
    """The files of the wrong bodies, by run. A trait's function has no twin: a second edit of it is tried in a second run."""
    functions, runs = list(functions_of(f"{CRATES}/{crate}")), []
    for file in sorted(it for it in os.listdir(f"{CRATES}/{crate}/wrong") if it.endswith(".edit")):
        f = wrong_body(crate, file, functions).function
        files, taken = next((run for run in runs if f not in run[1]), ([], set()))
        if not files:
            runs.append((files, taken))
        files.append(file)
        if f.is_of_trait:
            taken.add(f)
    return [files for files, _ in runs]


def try_all(room, crate, where, told, are_right):
    """Tries the wrong bodies of a crate, or the right ones, over the libraries at `where`."""
    return [body for files in runs_of(crate) for body in try_some(room, crate, files, where, told, are_right)]


def try_some(room, crate, files, where, told, are_right):
    """Tries these in one run."""
    shutil.rmtree(f"{room}/{crate}", ignore_errors=True)
    functions = copied(room, [crate], [crate])
    bodies = [wrong_body(crate, it, functions, told) for it in files]
    right = [body.made_right() for body in bodies if body.tactic != "own"]
    bodies = right if are_right else bodies + of_the_day(bodies)
    prepare(room, crate, bodies)
    ran = subprocess.run(
        words(room, crate, {it.function.path.replace(".", "::") for it in bodies}, where),
        cwd=f"{room}/{crate}",
        stdout=subprocess.PIPE,
        stderr=subprocess.STDOUT,
        encoding="utf-8",
        timeout=LIMIT,
    )
    if not re.search(r"^only=\d+ ", ran.stdout, re.M):
        sys.exit(f"{crate}: the run came to no end:\n{ran.stdout[-3000:]}")
    for body in bodies:
        body.goals, body.lines = refusal(room, body, ran.stdout)
        print(body.report(), flush=True)
    if not all(body.is_as_wanted() for body in bodies):
        print(f"{crate}: the end of that run's output:\n{ran.stdout[-3000:]}", flush=True)
    return bodies


def build(crates):
    """Builds the libraries below these crates that are not built yet."""
    for it in (it for it in LIBRARIES if any(it in below(crate) for crate in crates) and not is_built(it)):
        if subprocess.run(
            [RT, "lib"], cwd=f"{CRATES}/{it}", stdout=subprocess.DEVNULL, timeout=LIMIT
        ).returncode:
            sys.exit(f"{it} is not proved: no wrong body is tried above it")


def cut(folder, crate):
    """Leaves out in a copy what the edits of must-fail/ leave out, without their errors."""
    for edit in (it for it in must_fail.edits() if it.crate.name == crate):
        edit.make()
        for path, old, new in edit.pairs[1:]:
            write(f"{folder}/{crate}/{path}", read(f"{folder}/{crate}/{path}").replace(old, new))


def is_cut_proved(crate):
    """Whether a crate is proved as the edits of must-fail/ cut it."""
    with tempfile.TemporaryDirectory(prefix="cut-") as room:
        shutil.copytree(f"{CRATES}/{crate}", f"{room}/{crate}", ignore=shutil.ignore_patterns("out"))
        cut(room, crate)
        ran = subprocess.run(
            [*checked(crate), *over(crate)],
            cwd=f"{room}/{crate}",
            stdout=subprocess.PIPE,
            stderr=subprocess.STDOUT,
            encoding="utf-8",
            timeout=LIMIT,
        )
    is_proved = "\nlogic=proved" in ran.stdout
    print(
        f"{crate}, as it is cut: {'proved' if is_proved else f'NOT PROVED:{chr(10)}{ran.stdout[-2000:]}'}",
        flush=True,
    )
    return is_proved


def try_cuts(names):
    crates = [it for it in [*LIBRARIES, EXPORTED] if it in (names or [*LIBRARIES, EXPORTED])]
    build(crates)
    with ThreadPoolExecutor(len(os.sched_getaffinity(0))) as pool:
        return 0 if all(list(pool.map(is_cut_proved, crates))) else 1


def link(path, to):
    """Links a file, or copies it if no link can be made."""
    try:
        os.link(path, to)
    except OSError:
        shutil.copy2(path, to)


def follow(log, where):
    """Links each library once the log of `rt ci` calls it proved: at its end `rt ci` restores the files it found at its start."""
    is_ended = False
    while not is_ended:
        said = read(log) if os.path.isfile(log) else ""
        for it in re.findall(r"^rt: (\w+) (?:proved|is kept: .*)$", said, re.M):
            if it in LIBRARIES and not os.path.isdir(where(it)):
                shutil.copytree(built(it), f"{where(it)}.new", copy_function=link)
                os.rename(f"{where(it)}.new", where(it))
        is_ended = ENDED.search(said)
        time.sleep(1)


def wait_for(crates, where, proofs):
    """Waits until all of these crates are proved."""
    while lacking := [it for it in crates if not os.path.isdir(where(it))]:
        if proofs.done() and not any(os.path.isdir(where(it)) for it in lacking):
            proofs.result()
            sys.exit(f"{lacking[0]} is not proved: no wrong body is tried above it")
        time.sleep(1)


class Lanes:
    """The processors for wrong bodies. Of the waiting crates, the one with most edits comes first, so that it does not run alone at
    the end."""

    def __init__(self, free):
        self.free, self.waiting, self.changed = free, {}, Condition()

    def open(self, count):
        with self.changed:
            self.free += count
            self.changed.notify_all()

    def try_in_turn(self, room, crate, *how):
        """Tries the wrong bodies of a crate on its turn."""
        with self.changed:
            self.waiting[crate] = len(os.listdir(f"{CRATES}/{crate}/wrong"))
            self.changed.wait_for(lambda: self.free and crate == max(self.waiting, key=self.waiting.get))
            del self.waiting[crate]
            self.free -= 1
            self.changed.notify_all()
        try:
            return try_all(room, crate, *how)
        finally:
            self.open(1)


def tried(crates, told, are_right, log):
    """Tries the wrong bodies of these crates, over what is built or beside `rt ci`."""
    lanes = len(os.sched_getaffinity(0))
    with tempfile.TemporaryDirectory(prefix="wrong-bodies-") as room, ThreadPoolExecutor(
        len(crates) + 1
    ) as pool:
        if not log:
            build(crates)
            free = Lanes(lanes)
            return sum(pool.map(lambda it: free.try_in_turn(room, it, built, told, are_right), crates), [])

        def where(crate):
            return f"{room}/built/{crate}.rlib"

        def follow_to_end():
            try:
                follow(log, where)
            finally:
                free.open(lanes - half)

        def wait_and_try(crate):
            wait_for(below(crate), where, proofs)
            return free.try_in_turn(room, crate, where, told, are_right)

        os.mkdir(f"{room}/built")
        half = max(lanes // 2, 1)
        free = Lanes(half)
        proofs = pool.submit(follow_to_end)
        return sum(pool.map(wait_and_try, crates), [])


def main(names, are_right, log):
    told = told_of()
    crates = [it for it in [*LIBRARIES, EXPORTED, CALLERS, PROGRAM] if os.path.isdir(f"{CRATES}/{it}/wrong")]
    if unknown := [it for it in names if it not in crates]:
        sys.exit(f"there are no wrong bodies of {', '.join(unknown)}")
    bodies = tried([it for it in crates if it in (names or crates)], told, are_right, log)
    failed = [body.name for body in bodies if not body.is_as_wanted()]
    kind = "right" if are_right else "wrong"
    print(
        f"{kind} bodies: {len(bodies) - len(failed)} as they must be, {len(failed)} not: {' '.join(failed)}"
    )
    return 1 if failed or not bodies else 0


if __name__ == "__main__":
    parser = argparse.ArgumentParser(
        description=__doc__, formatter_class=argparse.RawDescriptionHelpFormatter
    )
    parser.add_argument("--right", action="store_true")
    parser.add_argument("--cut", action="store_true")
    parser.add_argument("--beside", metavar="LOG")
    parser.add_argument("names", metavar="CRATE", nargs="*")
    asked = parser.parse_args()
    sys.exit(try_cuts(asked.names) if asked.cut else main(asked.names, asked.right, asked.beside))
