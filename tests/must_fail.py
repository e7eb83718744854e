#!/usr/bin/env python3
"""Makes crates/NAME/must-fail/*.edit for `rt ci`, from tests/must_fail.edits.

    tests/must_fail.py [--tried LOG]

An edit is an error in one file of a crate, and the items of one module that stay. `rt ci` checks the crate once more for each edit, so all
else is left out: modules and items by #[cfg(test)], specs and lemmas by comments, unless an item that stays needs them. A file of must-fail/
that is no edit of the table is removed. An edit that cannot be made is an error here: `rt ci` only warns of that.

With --tried it fails unless LOG, the output of `rt ci`, says of each edit that the prover refused it.
"""

import argparse
import re
import sys
from dataclasses import dataclass, field
from pathlib import Path
from typing import Iterator

CRATES = Path(__file__).resolve().parent.parent / "crates"
TABLE = Path(__file__).with_suffix(".edits")
# The first line of an item, with its indentation, its kind and its names.
ITEM = re.compile(r'( *)(?:pub(?:\(crate\))? )?(?:const |extern "C" )*(fn|struct|enum|trait|impl)\b([^({;]*)')
# An import from a crate of this repository, with its names, unless one is an operator.
IMPORT = re.compile(r"\s*(?:ghost )?use (?!std::|Rattle\.std\.)[\w.:]*?(\w+|\{[^{}◌]*\});")
# The file of names that the proofs of a crate share.
NAMES = "proofs/Names.antt"
# Derives that stay.
VALUES = {"Clone", "Copy", "Drop"}
# Brackets that may follow the last line of a comment, and the first lines of the file that they then close.
ENDS = {
    "": [""],
    "}": ["use Rattle.std.specs.Prelude.{ℕ "],
    ")": ["none : ⊥ → Type 1", "none x = (elim x [ ] "],
    "]": ["none : ⊥ → Type 1", "none x = elim x [ "],
    ")]": [
        "use Rattle.std.specs.Prelude.{true, false}",
        "none : ⊥ → Type 1",
        "none x = elim true [ | true ↦ elim x [ ] | false ↦ (elim x [ ] ",
    ],
    "]]": [
        "use Rattle.std.specs.Prelude.{true, false}",
        "none : ⊥ → Type 1",
        "none x = elim true [ | true ↦ elim x [ ] | false ↦ elim x [ ",
    ],
}


def words(text: str) -> set[str]:
    return set(re.findall(r"\w+", text))


def comment(text: str) -> list[tuple[str, str]]:
    """The pairs that make a comment of a file of specs or lemmas. None if it only lists others, or if no last line occurs once."""
    lines = text.rstrip("\n").split("\n")
    if all(re.match(r"(--|(pub )?mod )", line) for line in lines):
        return []
    for count in range(3):
        last, end = lines[-1 - count], "".join("".join(lines[len(lines) - count :]).split())
        if end in ENDS and text.count(last) == 1:
            *first, before = ENDS[end]
            heads = [line for line in lines if line]
            return [*zip(heads, [*first, f"{before}{{-{heads[len(first)]}"]), (last, f"{last} -}}")]
    return []


@dataclass
class Edit:
    """An edit: its file, the error, and which items of a module stay; the pairs so far, and the texts as these change them."""

    path: Path
    error: tuple[str, str, str]
    module: str
    stay: set[str]
    pairs: list[tuple[str, str, str]] = field(default_factory=list)
    texts: dict[str, str] = field(default_factory=dict)
    # What is asked for of the file of names that proofs share.
    named: set[str] = field(default_factory=set)

    @property
    def crate(self) -> Path:
        return self.path.parent.parent

    def read(self, file: str) -> str:
        return (self.crate / file).read_text()

    def replace(self, file: str, old: str, new: str) -> None:
        """Adds a pair: a text that occurs once in a file, within a line, and its replacement."""
        text = self.texts.setdefault(file, self.read(file))
        if (count := text.count(old)) != 1:
            sys.exit(f"{self.path}: the text occurs {count} times in {file}, and not once: {old}")
        self.texts[file] = text.replace(old, new)
        self.pairs.append((file, old, new))

    def mark(self, file: str, line: str, mark: str) -> None:
        """Puts a mark before a line, after its indentation."""
        self.replace(file, line, re.sub(r"^ *", lambda found: found[0] + mark, line))

    def make(self) -> str:
        """The edit as `rt ci` reads it."""
        self.replace(*self.error)
        for line in re.findall(r"^(?:pub )?(?:mod|use) .*", self.read("src/lib.rt"), re.M):
            if not re.match(rf"(pub )?mod {self.module};", line):
                self.mark("src/lib.rt", line, "#[cfg(test)] ")
        kept = self.kept_of_module(f"src/{self.module}.rt")
        paths = [path for part in ("specs", "proofs") for path in sorted((self.crate / part).rglob("*.antt"))]
        files = [
            file for path in paths if not re.match(r"proofs/.*/", file := str(path.relative_to(self.crate)))
        ]
        comments = {file: comment(self.read(file)) for file in files}
        needed = self.needed(
            [kept, *(self.read(file) for file in files if not comments[file] and file != NAMES)]
        )
        for file in sorted(set(files) - needed):
            for old, new in comments[file]:
                self.replace(file, old, new)
        for line in self.read(NAMES).splitlines() if NAMES in needed or comments.get(NAMES) == [] else []:
            if (new := self.name_line(line)) != line:
                self.replace(NAMES, line, new)
        return "".join(f"file: {file}\nold: {old}\nnew: {new}\n" for file, old, new in self.pairs)

    def kept_of_module(self, file: str) -> str:
        """Leaves out the other items of the module, and derives and imports that only these need. The text that is left."""
        lines = self.read(file).splitlines()
        kept = [
            lines[at] for at in self.places_kept(file, lines) if not self.leave_out_attribute(file, lines, at)
        ]
        code = words("\n".join(line for line in kept if not re.match(r"\s*(//|(ghost )?use )", line)))
        unused = [line for line in kept if (found := IMPORT.match(line)) and not words(found[1]) & code]
        for line in unused:
            self.mark(file, line, "// ")
        return "\n".join(line for line in kept if line not in unused)

    def leave_out_attribute(self, file: str, lines: list[str], at: int) -> bool:
        """Leaves out a text of an error, and each derive but those by which values are copied and let go."""
        if lines[at].strip().startswith("#[error("):
            self.mark(file, lines[at], "// ")
        elif lines[at].startswith("#[derive(") and (other := words(lines[at]) - {"derive"}) - VALUES:
            # the line may not be the only one of its kind, but those around it are
            self.mark(file, lines[at - 1], "/* ")
            self.mark(file, lines[at + 1], f"*/ #[derive({', '.join(sorted(other & VALUES))})] ")
        else:
            return False
        return True

    def places_kept(self, file: str, lines: list[str]) -> Iterator[int]:
        """Leaves out the items that do not stay. The numbers of the lines that are left."""
        at = 0
        while at < len(lines):
            found, end = ITEM.match(lines[at]), at
            stays = not found or words(re.sub(r"<.*?>|\bfor\b|:.*", "", found[3])) <= self.stay
            if found and not (stays and found[2] == "impl") and not re.search(r"(;|\{\})$", lines[at]):
                while not re.match(found[1] + r"(\}|\{\})", lines[end]):
                    end += 1
            if stays:
                yield from range(at, end + 1)
            else:
                self.leave_out_item(file, lines[at], lines[end + 1 :])
            at = end + 1

    def leave_out_item(self, file: str, head: str, rest: list[str]) -> None:
        """Leaves out an item that begins with this line. Of a method with a proof the head, a test, stays: each proof has a function."""
        name = re.search(r" fn (\w+)", head)
        proofs = list((self.crate / "proofs" / self.module).glob(f"*/{name[1]}/*.antt")) if name else []
        if not proofs:
            return self.mark(file, head, "#[cfg(test)] ")
        if not head.endswith("-> bool"):
            sys.exit(
                f"{self.path}: only a method that tests can be left out while its proof is there: {head}"
            )
        self.replace(file, head, f"{head} {{ false }} /*")
        self.mark(file, next(filter(None, rest)), "*/ ")
        for proof in (str(path.relative_to(self.crate)) for path in proofs):
            for old, new in comment(self.read(proof)):
                self.replace(proof, old, new)

    def needed(self, texts: list[str]) -> set[str]:
        """The specs and lemmas that these texts and the proofs of functions that stay import, and those that these import."""
        proofs = (self.crate / "proofs" / self.module).rglob("*.antt")
        texts += [path.read_text() for path in proofs if path.parent.name in self.stay]
        found: set[str] = set()
        while texts:
            for head, names in re.findall(
                rf"\buse Rattle\.{self.crate.name}\.([\w.]+)(?:\{{([^}}]*))?", texts.pop()
            ):
                # a name in braces may be that of a module further down, as Groups.group
                modules = {(head + name.strip()).rpartition(".")[0] for name in names.split(",")}
                files = {module.replace(".", "/") + ".antt" for module in {head} | modules}
                if NAMES in files and (new := {*re.split(r",\s*", names)} - self.named):
                    self.named |= new
                    lines = map(self.name_line, self.read(NAMES).splitlines())
                    texts.append("\n".join(line for line in lines if not line.startswith("--")))
                for file in sorted(file for file in files - found if (self.crate / file).is_file()):
                    found.add(file)
                    texts.append(self.read(file) if file != NAMES else "")
        return found

    def name_line(self, line: str) -> str:
        """A line of the file of names, with the names that are asked for, or as a comment."""
        head, brace, rest = line.partition("{")
        if not brace:
            return line
        kept = [
            name
            for name in re.split(r",\s*", rest.partition("}")[0])
            if re.split(r" as |\.", name)[-1] in self.named
        ]
        return f"{head}{{{', '.join(kept)}}}" if kept else f"-- {line}"


def edits() -> Iterator[Edit]:
    """The edits of the table."""
    row = r"^edit: (\w+)/(\w+)\nfile: (.*)\nold: (.*)\nnew: (.*)\nstay: (\w+) (.*)$"
    text = TABLE.read_text()
    rows = re.findall(row, text, re.M)
    if len(rows) != len(re.findall("^edit:", text, re.M)) or not rows:
        sys.exit(f"{TABLE}: an edit has the five lines edit, file, old, new and stay")
    for crate, name, file, old, new, module, stay in rows:
        yield Edit(CRATES / crate / "must-fail" / f"{name}.edit", (file, old, new), module, set(stay.split()))


def make() -> None:
    """Writes the edits that are not there as they must be, and removes all other files of must-fail/."""
    made = {edit.path: edit.make() for edit in edits()}
    for path in set(CRATES.glob("*/must-fail/*")) - set(made):
        path.unlink()
    for path, text in made.items():
        path.parent.mkdir(exist_ok=True)
        if not path.is_file() or path.read_text() != text:
            path.write_text(text)


def untried(log: str) -> list[str]:
    """The edits that the output of `rt ci` does not call refused."""
    refused = set(re.findall(r"must-fail (\S+)\.edit: refused, as it must be", log))
    return [name for edit in edits() if (name := f"{edit.crate.name}/{edit.path.stem}") not in refused]


if __name__ == "__main__":
    parser = argparse.ArgumentParser(
        description=__doc__, formatter_class=argparse.RawDescriptionHelpFormatter
    )
    parser.add_argument("--tried", metavar="LOG", type=Path)
    asked = parser.parse_args()
    if not asked.tried:
        make()
    elif missing := untried(asked.tried.read_text()):
        sys.exit(f"`rt ci` refused no edit {', '.join(missing)}")
