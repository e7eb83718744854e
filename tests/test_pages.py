"""Pages against their sources: options, errors, rows, numbers, files, functions, links and commands.

Each test collects what differs, a line each. How pages read is for their reviewer.
"""

from __future__ import annotations

import functools
import os
import re
from typing import Any, Iterator

import pytest
from running import TOP, said

PAGES = ["README.md", "CHANGELOG.md", "examples/README.md", "tests/README.md"]
PAGES += sorted(f"docs/{path.name}" for path in (TOP / "docs").glob("*.md"))
MONITOR_PAGES = sorted(f"monitor/{path.name}" for path in (TOP / "monitor").glob("*.md"))
TESTING = "docs/TESTING.md"


class Faults(list[str]):
    """What differs, a line each."""

    def same(self, what: str, wanted: Any, got: Any) -> None:
        if wanted == got:
            return
        if isinstance(wanted, set):
            self.append(f"{what}: missing {sorted(wanted - got)}, unknown {sorted(got - wanted)}")
        else:
            self.append(f"{what}: {got}, and not {wanted}")


@pytest.fixture
def faults() -> Iterator[Faults]:
    """The faults of a test, which fails if there are any."""
    found = Faults()
    yield found
    if found:
        pytest.fail("\n".join(found), pytrace=False)


def read(path: str) -> str:
    return (TOP / path).read_text()


def exists(path: str) -> bool:
    return (TOP / path).exists()


def one_line(text: str) -> str:
    return re.sub(r"\s+", " ", text)


def between(text: str, start: str, end: str) -> str:
    return text.split(start, 1)[1].split(end, 1)[0]


def span_in(text: str) -> tuple[int, int] | None:
    """The lowest and the highest value that a text names first, as '0 to 5'; 2^36 counts as the number."""
    text = re.sub(r"2\^(\d+)", lambda power: str(2 ** int(power[1])), text)
    found = re.search(r"(\d+) to (\d+)", text)
    return (int(found[1]), int(found[2])) if found else None


OF_HELP = r"\[default: (\d+)\]"


def default_in(pattern: str, text: str) -> str | None:
    found = re.search(pattern, text)
    return found[1] if found else None


# ---- options, errors and rows


class Program:
    """What the help says."""

    def __init__(self, rds: str) -> None:
        text = said(rds, "--help")
        named = re.findall(r"^  ([a-z]+)  ", between(text, "Commands:", "Options:"), re.M)
        helps = {command: said(rds, command, "--help") + "\n\n" for command in named if command != "help"}
        self.options = {command: self.options_in(text) for command, text in helps.items()}
        # of the first command that has it
        self.every_option = {
            name: text for named in reversed(self.options.values()) for name, text in named.items()
        }
        self.refusals = set(re.findall(r"^ +(\d+) ([A-Z]\w+) ", text, re.M))
        self.rows = set(re.findall(r"^  ([a-z]+),[A-Z]+,?", helps["list"], re.M))
        self.totals = set(re.findall(r"^total,(\w+),", said(rds, "totals"), re.M))

        self.errors = dict(re.findall(r"^ +(\d+ [A-Z]\w+) +(.*(?:\n {12,}.*)*)", text, re.M))
        self.about = between(text, "Print version\n\n", "\n\n")

    @staticmethod
    def options_in(text: str) -> dict[str, str]:
        """Each option of a help text with what is said of it."""
        entries = re.split(r"\n(?=  +-)", "\n" + between(text, "Options:\n", "\n\n"))[1:]
        parted = (re.match(r" *(?:-\w, )?--([a-z]+)(?: <\w+>)?([\s\S]*)", entry) for entry in entries)
        return {entry[1]: one_line(entry[2]) for entry in parted if entry and entry[1] != "help"}


@pytest.fixture(scope="module")
def program(rds: str) -> Program:
    return Program(rds)


class Manual:
    """What rds.1 says."""

    def __init__(self) -> None:
        text = read("rds.1")
        self.options: dict[str, set[str]] = {}
        for form in between(text, ".Sh SYNOPSIS", ".Sh DESCRIPTION").split("\n.Nm\n")[1:]:
            for commands in re.findall(r"^\.Cm ([a-z| ]+)$", form, re.M):
                self.options |= dict.fromkeys(commands.split(" | "), set(re.findall(r"Fl -([a-z]+)", form)))
        entries = re.findall(r"^\.It Fl -([a-z]+)[^\n]*\n((?:(?!\.It |\.El).*\n)*)", text, re.M)
        self.entries = dict(entries)
        self.said = {name: one_line(entry) for name, entry in entries}
        self.refusals = set(re.findall(r"^\.It (\d+) (\w+)$", text, re.M))
        errors = re.findall(r"^\.It (\d+ \w+)\n((?:(?!\.It |\.El).*\n)*)", text, re.M)
        self.errors = {name: without_macros(entry) for name, entry in errors}
        self.about = without_macros(between(text, ".Sh DESCRIPTION", ".Sh ROWS"))
        rows = between(text, ".Sh ROWS", ".Sh ")
        self.rows = set(re.findall(r"^\.It Li (\w+)$", rows, re.M))
        self.totals = every_burst(set(re.findall(r"^\.Li (\w+)", between(rows, ".It Li total", ".El"), re.M)))


def without_macros(text: str) -> str:
    """A text of mdoc as it is read, in one line."""
    text = re.sub(r"^\.Ql (\S+)", r"'\1'", text, flags=re.M)
    text = re.sub(r"^\.Fl -", "--", text, flags=re.M)
    text = re.sub(r"^\.(?:Ar|Cm|Li|Pa) ", "", text, flags=re.M)
    return re.sub(r" ([;:,.])(?= |$)", r"\1", one_line(text)).strip()


class Using:
    """What docs/USING.md and docs/FORMATS.md say."""

    def __init__(self) -> None:
        text = read("docs/USING.md")
        part = between(text, "\n## Options\n", "\n## ")
        self.table = re.findall(r"^\| `--([a-z]+)[^|]*\| ([^|]*) \| [^|]* \| ([^|]*) ?\|$", part, re.M)
        self.commands = set(re.findall(r"^\| `([a-z]+)` \|", text.split("\n## Options")[0], re.M))
        self.refusals = set(re.findall(r"^\| (\d+) \| (\w+) \|", text.split("## Exit status")[1], re.M))
        self.named = set(re.findall(r"`refused (\d+) (\w+)`", text))
        self.statuses = re.findall(r"^\| (\d) \|", between(text, "| Status | Means |", "\n\n"), re.M)
        text = read("docs/FORMATS.md")
        rows = between(text, "| Row | Fields |", "\n\n")
        self.rows = set(re.findall(r"^\| `([a-z]+)` \|", rows, re.M))
        totals = between(text, "| Total | Counts |", "\n\n").splitlines()[2:]
        self.totals = every_burst(
            {name for row in totals for name in re.findall(r"`(\w+)`", row.split("|")[1])}
        )


def every_burst(names: set[str]) -> set[str]:
    """Names of totals, of which 'burst1 to burst5' are five."""
    return names | {f"burst{span}" for span in range(1, 6)} if {"burst1", "burst5"} <= names else names


def test_options(program: Program, faults: Faults) -> None:
    manual, using = Manual(), Using()
    faults.same("docs/USING.md, commands", set(program.options), using.commands)
    faults.same("rds.1, commands", set(program.options), set(manual.options))
    for command in sorted(program.options):
        names = set(program.options[command])
        told = {name for name, commands, _ in using.table if f"`{command}`" in commands}
        faults.same(f"docs/USING.md, options of {command}", names, told)
        faults.same(f"rds.1, options of {command}", names, manual.options.get(command, set()))
    for path in ("completions/rds.bash", "completions/_rds"):
        named = set(re.findall(r"--([a-z]+)", read(path)))
        faults.same(f"{path}, options", set(program.every_option), set(program.every_option) & named)


def test_values_of_options(program: Program, faults: Faults) -> None:
    manual = Manual()
    for name, commands, values in Using().table:
        text, entry = program.every_option.get(name, ""), manual.said.get(name, "")
        default = default_in(OF_HELP, text)
        for command in re.findall(r"`(\w+)`", commands):
            own = default_in(OF_HELP, program.options[command].get(name, ""))
            if own != default:
                of = f"default of {command} --{name}"
                faults.same(f"docs/USING.md, {of}", own, default_in(rf"`{command}` (\d+)", values))
                told = without_macros(manual.entries.get(name, ""))
                faults.same(f"rds.1, {of}", own, default_in(rf"default of {command} is (\d+)", told))
        faults.same(f"docs/USING.md, default of --{name}", default, default_in(r"default (\d+)", values))
        faults.same(f"rds.1, default of --{name}", default, default_in(r"default (\d+)", entry))
        # the values of --share depend on another option, and are told in words
        if name != "share" and span_in(text):
            faults.same(f"docs/USING.md, range of --{name}", span_in(text), span_in(values))
            faults.same(f"rds.1, range of --{name}", span_in(text), span_in(entry))


def test_manual_has_the_words_of_the_help(program: Program, faults: Faults) -> None:
    """Each option's entry of rds.1, and each error's, begins with them."""
    manual = Manual()
    of_encode = program.options["encode"]["hex"].strip()
    faults.same(
        "rds.1, words of encode --hex",
        1,
        without_macros(manual.entries["hex"]).count(f": {of_encode[0].lower()}{of_encode[1:]}."),
    )
    for name, text in (program.every_option | program.options["list"]).items():
        wanted = re.sub(r" \[default: (.*)\]$", r"; default \1", text.strip())
        found = without_macros(manual.entries.get(name, ""))
        faults.same(f"rds.1, words of --{name}", f"{wanted}.", found[: len(wanted) + 1])
    for name, text in program.errors.items():
        wanted, found = one_line(text), manual.errors.get(name, "")
        faults.same(f"rds.1, words of {name}", f"{wanted}.".lower(), found[: len(wanted) + 1].lower())
    sentences = re.split(r"(?<=\.) |; ", one_line(program.about))
    missing = {text for text in sentences if "--hex" not in text and text not in manual.about}
    faults.same("rds.1, words on the input", set(), missing)


def test_errors_and_rows(program: Program, faults: Faults) -> None:
    manual, using = Manual(), Using()
    for refusals, rows, page in (("docs/USING.md", "docs/FORMATS.md", using), ("rds.1", "rds.1", manual)):
        faults.same(f"{refusals}, refusals", program.refusals, page.refusals)  # type: ignore[attr-defined]
        faults.same(f"{rows}, rows", program.rows, page.rows)  # type: ignore[attr-defined]
        faults.same(f"{rows}, totals", program.totals, page.totals)  # type: ignore[attr-defined]
    faults.same("docs/USING.md, refusals in the text", set(), using.named - program.refusals)


def test_manual_of_an_installation(faults: Faults) -> None:
    """Its files are where `make install` puts them, and its exit statuses and processor those of the other pages."""
    manual, folder = read("rds.1"), re.findall(r"^PREFIX \?= (.*)$", read("Makefile"), re.M)[0]
    paths = re.findall(r"^\.It Pa (\S+)$", manual, re.M)
    faults.same("rds.1, folder of the examples", [f"{folder}/share/rds/examples"], paths)
    statuses = re.findall(r"^\.It (\d)$", between(manual, ".Sh EXIT STATUS", "The errors are:"), re.M)
    faults.same("rds.1, exit statuses", Using().statuses, statuses)
    for page, what, pattern in (
        ("README.md", "processor", r"x86-64-v\d"),
        ("docs/MODEL.md", "standard", r"IEC \d+"),
    ):
        found = [{*re.findall(pattern, text)} for text in (read(page), manual)]
        faults.same(f"rds.1, {what} as in {page}", *found)


def test_errors_of_scripts(program: Program, faults: Faults) -> None:
    """The errors that docs/TROUBLES.md names, and the exit statuses that it tells apart."""
    part = between(read("docs/TROUBLES.md"), "| Ended | Do |", "\n\n")
    named = {pair for pair in re.findall(r"`(?:refused )?(\d+) ([A-Z]\w+)`", part)}
    faults.same("docs/TROUBLES.md, errors", set(), named - program.refusals)
    faults.same("docs/TROUBLES.md, number of errors", 5, len(named))
    statuses = set(re.findall(r"^\| (\d)[ ,]", part, re.M))
    faults.same("docs/TROUBLES.md, exit statuses", set(Using().statuses), statuses)


# ---- numbers

COUNTED = {"four": "4", "eight": "8", "tenth": "10", "hundredth": "100"}
DIFFERENTIAL, WORK, GROWTH = (f"tests/test_{name}.py" for name in ("differential", "work", "growth"))
HEADER, PART, REFUSAL = "lib/rds.h", "crates/rds_abi/src/part.rt", "crates/rds_abi/src/refusal.rt"
DECODER = "crates/rds_live/src/stream_decoder.rt"
# A number in a page, and the same number in its source. A pattern may tell it several times.
TOLD = (
    (TESTING, r"a recording for each of ([\d,]+) seeds", DIFFERENTIAL, r"^SEEDS, .* = (\d+),"),
    (TESTING, r"compares ([\d,]+) streams", DIFFERENTIAL, r"^SEEDS, .* = \d+, (\d+),"),
    (TESTING, r"`rds list` over ([\d,]+) random recordings", "tests/test_library.py", r"^RECORDINGS = (\d+)"),
    (TESTING, r"Random calls of ([\d,]+) seeds", "tests/test_library.py", r'^SEEDS = .*"archive": (\d+)'),
    (TESTING, r"and (\d+) states and", "tests/library/calls.py", r"in range\((\d+)\):\n +begin ="),
    (TESTING, r"(\w+) threads call at once", "tests/test_library.py", r"ThreadPoolExecutor\((\d+)\)"),
    (TESTING, r"A size is (\w+) times the one before", GROWTH, r"^SIZES = \(1, (\d+),"),
    (TESTING, r"may take (\w+) times its processor time", GROWTH, r"^MOST, .* = (\d+),"),
    (TESTING, r"past its bound (\w+) times in a row", GROWTH, r"^MOST, .*, (\d+)$"),
    (TESTING, r"the measurement, and a (\w+) to spare", WORK, r"spare = (\d+) if"),
    (TESTING, r"it is a (\w+), so that one more table shows", WORK, r"spare = \d+ if .* else (\d+)"),
    (TESTING, r"64 KiB is allowed, and (\w+) more", WORK, r"size // 65536 \+ (\d+)"),
    (HEADER, r"the last (\d+) bytes that", "crates/rds_abi/src/stream.rt", r"MOST_KEPT: u64 = (\d+);"),
    (HEADER, r"(?:hears up to|and of the) (\d+) bits", PART, r"HEARD_BEFORE: u64 = (\d+);"),
    (HEADER, r"or as (\d+) bytes may", "crates/rds_live/src/room.rt", r"AT_ONCE: usize = (\d+);"),
    (HEADER, r"items(?:\[|, )(\d+)(?:\];|, &taken)", DECODER, r"ITEMS_A_BYTE: usize = (\d+)"),
    (HEADER, r"(?:room for|(?:is|completes) at most) (\d+)", DECODER, r"ITEMS_A_BYTE: usize = (\d+)"),
    (HEADER, r"The (\d+) bits of a group", "docs/MODEL.md", r"a group of (\d+) bits"),
    (HEADER, r"2\^(\d+) bits", "crates/rds_stream/src/packed.rt", r"MOST_BITS: u64 = 1 << (\d+);"),
    (HEADER, r"at most (\d+) bytes of stack", "tests/test_library.py", r"^STACK = (\d+)"),
    (HEADER, r"(?:more than |word of |A |a )(\d+)(?: bits|-bit word)", REFUSAL, r"of more than (\d+) bits"),
    (HEADER, r"(?:burst is above|bits: 0 to|bits, 0 to|burst: 1 to) (\d+)", REFUSAL, r"is above (\d+)"),
    (HEADER, r"(?:reach is not|number of blocks apart:) 1 to (\d+)", REFUSAL, r"reach is not 1 to (\d+)"),
    (HEADER, r"(?:loss is not|bad blocks lose sync:) 1 to (\d+)", REFUSAL, r"loss is not 1 to (\d+)"),
    (HEADER, r"(?:of, or of above|last blocks: loss to) (\d+)", REFUSAL, r"or more, up to (\d+)"),
    (HEADER, r"the library's own from (\d+) on", REFUSAL, r"Refusal::SmallRoom => \((\d+),"),
)


def numbers_in(pattern: str, text: str) -> set[str]:
    """The numbers at the matches of the pattern."""
    told = {number.replace(",", "").lower() for number in re.findall(pattern, text, re.M)}
    return {COUNTED.get(number, number) for number in told}


@pytest.mark.parametrize("page, told, path, source", TOLD, ids=[row[0] + row[1] for row in TOLD])
def test_numbers(faults: Faults, page: str, told: str, path: str, source: str) -> None:
    text = one_line(re.sub(r"\n \* ?", "\n", read(page)))
    numbers = numbers_in(source, read(path))
    faults.same(f"{page}, '{told}' as in {path}", numbers or {"a number"}, numbers_in(told, text))


def test_seconds_that_a_call_may_take(faults: Faults) -> None:
    limited = r'environ.get\("LIMIT", (\d+)|atoi\(limit\) : (\d+)'
    texts = [path.read_text() for path in (TOP / "tests").iterdir() if path.suffix in (".sh", ".py", ".c")]
    limits = {found[1] or found[2] for text in texts for found in re.finditer(limited, text)}
    faults.same("tests, the seconds that a call may take", {"60"}, limits)


def test_crates(faults: Faults) -> None:
    rows = [line for line in read("crates.txt").splitlines() if not line.startswith("#")]
    crates = {row.split(":")[0].split()[0] for row in rows}
    named = set(
        re.findall(r"`(rds(?:_\w+)?)`", between(read("docs/ARCHITECTURE.md"), "## The crates", "\n## "))
    )
    faults.same("docs/ARCHITECTURE.md, crates", crates, named & crates)


# ---- files and functions

# A path in backquotes, or the name of a file; and the name of a function, a type or a constant.
PLACE = re.compile(r"`([\w.*-]*/[\w./*-]*|[\w-]+\.(?:rt|antt|py|sh|c|h|md|1|answers|bounds|sums))`")
NAME = re.compile(r"`((?:\w+::)?[a-z]+_\w+|[A-Z]\w+(?:::\w+)?)`")


@functools.cache
def defined_in(path: str) -> set[str]:
    """The names that a file defines; those inside an impl also as `Type::function`."""

    def named_in(text: str) -> set[str]:
        pattern = r"\b(?:fn|struct|enum|trait|type|def|class|(?:const|static)(?! fn)) (\w+)|^(\w+)\(\)"
        return {word or script for word, script in re.findall(pattern, text, re.M)}

    text = read(path)
    parts = re.findall(r"^(?:pub(?:\(crate\))? )?(?:impl|trait)\b([^{;]*)\{([\s\S]*?)^\}", text, re.M)
    words = [(word, body) for head, body in parts for word in re.findall(r"\w+", head)]
    return named_in(text) | {f"{word}::{name}" for word, body in words for name in named_in(body)}


def places_in(text: str) -> Iterator[tuple[str, str | None]]:
    """Each place that a text names, and its file or folder, which may be one of the crate that was named last before it."""
    crate = ""
    for token in re.finditer(r"`([^`]+)`", text):
        named = token[1].partition("/")[0]
        crate = named if exists(f"crates/{named}") else crate
        if PLACE.fullmatch(token[0]):
            starts = ("", "crates/", f"crates/{crate}/", f"crates/{crate}/src/", f"crates/{crate}/specs/")
            yield token[1], next((start + token[1] for start in starts if exists(start + token[1])), None)


def test_places_of_the_map(faults: Faults) -> None:
    """The files and functions that docs/ARCHITECTURE.md names, in its text and in its drawing."""
    page = "docs/ARCHITECTURE.md"
    parts = re.split(r"^```.*$", read(page), flags=re.M)
    text, drawing = one_line(" ".join(parts[::2])), "".join(parts[1::2])
    lines = re.findall(r"^ \| [ \d]{2}  (\S+) +([\w:]+(?:, [\w:]+)*)(?:  .*)?$", drawing, re.M)
    places = [*places_in(text), *(found for path, _ in lines for found in places_in(f"`{path}`"))]
    faults.extend(f"{page}: there is no {place}" for place, path in places if not path)
    for path, names in lines:
        file = f"crates/{path}"
        missing = [name for name in names.split(", ") if exists(file) and name not in defined_in(file)]
        faults.extend(f"{page}: {file} has no {name}" for name in missing)
    patterns = ("crates/*/src/**/*.rt", "crates/*/specs/**/*.antt", "tests/*.py", "lib/rds.h", "crates.txt")
    texts = [path.read_text() for pattern in patterns for path in TOP.glob(pattern)]
    held = {word for text in texts for word in re.findall(r"\w+", text)}
    missing = [name for name in NAME.findall(text) if not {*name.split("::")} <= held and not exists(name)]
    faults.extend(f"{page}: no source has {name}" for name in missing)
    faults.same(f"{page}, lines of the drawing", drawing.count("/src/"), len(lines))
    faults.same(f"{page}, files of the drawing", len(lines), len({path for path, _ in lines}))


def test_claims(faults: Faults) -> None:
    """The contracts that docs/PROOFS.md names, with the callers and the files of lemmas of each."""
    table = [line.split("\t") for line in read("tests/claims.tsv").splitlines()[1:]]
    proved = between(read("docs/PROOFS.md"), "\n## What is proved\n", "\n## ")
    rows = re.findall(r"^\| (?!Claim)[^|]* \| ([^|]*) \|$", proved, re.M)
    faults.same("tests/claims.tsv, contracts", set(rows), {row[0] for row in table})
    lemmas = {path.stem for path in (TOP / "crates").resolve().glob("*/proofs/**/*.antt")}
    for _, callers, files in table:
        for name, row in re.findall(r"(\w+): ((?:`\w+`(?:, )?)+)", callers):
            path = f"crates/rds_uses/src/{name}.rt"
            defined = defined_in(path) if exists(path) else set()
            missing = [caller for caller in re.findall(r"\w+", row) if caller not in defined]
            faults.extend(f"tests/claims.tsv: {path} has no {caller}" for caller in missing)
        missing = [name for name in re.findall(r"`(\w+)`", files) if name not in lemmas]
        faults.extend(f"tests/claims.tsv: no proofs have {name}.antt" for name in missing)


def test_whole_proofs_by_hand() -> None:
    # a proof by hand could set a history to anything, so it has two: of how it begins, and of how it grows
    found = sorted(path for path in (TOP / "crates").resolve().glob("*/proofs/**/Proof.antt"))
    assert [str(path).split("/crates/")[1] for path in found] == [
        f"rds_stream/proofs/trace/Trace/{name}/Proof.antt" for name in ("new", "note")
    ]


@pytest.mark.parametrize("folder", ["tests", "examples"])
def test_maps(faults: Faults, folder: str) -> None:
    """The files of a folder, and those that the tables of its page name."""
    cells = re.findall(r"^\|([^|]*)\|", read(f"{folder}/README.md"), re.M)
    named = {name for cell in cells for name in re.findall(r"`([\w./]+)`", cell) if not name.endswith("/")}
    held = [path.relative_to(TOP / folder) for path in (TOP / folder).rglob("*") if path.is_file()]
    names = {str(path) for path in held if not {"__pycache__", ".mypy_cache", "out"} & {*path.parts}}
    faults.same(f"{folder}/README.md, files", names - {"README.md"}, named)


def test_glossary(faults: Faults) -> None:
    words = re.findall(r"^\| ((?!Field term|Word)\w[^|]*) \|", read("docs/GLOSSARY.md"), re.M)
    twice = {word for word in words if words.count(word) > 1}
    faults.same("docs/GLOSSARY.md, words that are there twice", set(), twice)


@pytest.mark.parametrize("page", ["README.md", "docs/ACCURACY.md", "docs/COMPARISON.md"])
def test_figures_of_reception(page: str) -> None:
    """A page that tells which share of a signal was received says that signals are simulated, before its first table of it."""
    told = r"All signals are simulated|Every signal on these pages is simulated|by simulated signals"
    assert re.search(told, one_line(read(page))[:1500])


def test_none(rds: str) -> None:
    """A block that is none may have been received, as one of the two that acquired sync. Help, manual and page say when it is none."""
    pages = {
        "help": said(rds, "list", "--help"),
        **{path: read(path) for path in ("rds.1", "docs/FORMATS.md")},
    }
    when = r"before the (block|one) that acquired sync, after sync was lost,? or past the end"
    assert {name for name, text in pages.items() if not re.search(when, one_line(text))} == set()


# ---- links and commands


def headings(path: str) -> set[str]:
    """What the headings of a page are called in a link."""
    heads = re.findall(r"^#+ (.*)$", read(path), re.M)
    return {re.sub(r"[^\w\- ]", "", head.lower()).replace(" ", "-") for head in heads}


def test_links(faults: Faults) -> None:
    """Links lead somewhere, and from README.md a way of links leads to each page."""
    links: dict[str, set[str]] = {page: set() for page in PAGES + MONITOR_PAGES}
    for page in links:
        for link in re.findall(r"\]\(([^)\s]+)\)", re.sub(r"^```[\s\S]*?^```", "", read(page), flags=re.M)):
            path, _, heading = link.partition("#")
            target = os.path.normpath(os.path.join(os.path.dirname(page), path)) if path else page
            if "://" in link:
                continue
            if not exists(target):
                faults.append(f"{page}: the link {link} leads nowhere")
            elif heading and heading not in headings(target):
                faults.append(f"{page}: the link {link} names no heading")
            links[page].add(target)
    found: set[str] = set()
    new = {"README.md"}
    while new:
        found |= new
        new = {target for page in new for target in links.get(page, ())} - found
    faults.extend(f"{page}: no link leads here" for page in sorted({*links} - found))


def lines_of_code(page: str) -> list[str]:
    """The lines of code of a page, and its text in backquotes; of the manual page all lines."""
    text = read(page)
    if page == "rds.1":
        return text.replace("$EXAMPLES/", "examples/").splitlines()
    return re.findall(r"^    (?:\$ )?(\S.*)$", text, re.M) + re.findall(r"`([^`\n]+)`", text)


@pytest.mark.parametrize("page", PAGES + ["rds.1"])
def test_commands(program: Program, faults: Faults, page: str) -> None:
    """The scripts, the targets of make, and the commands of rds with their options that a page shows."""
    targets = set(re.findall(r"^([a-z-]+)(?: [a-z-]+)*:", read("Makefile"), re.M))
    for line in lines_of_code(page):
        scripts = re.findall(r"(?<![\w/.])((?:examples|tests|lib|packaging)/[\w/]+\.\w+)", line)
        faults.extend(f"{page}: there is no {path}" for path in scripts if not exists(path))
        called = re.findall(r"^make ([a-z-]+)", line)
        faults.extend(f"{page}: there is no target {target}" for target in called if target not in targets)
        for command, words in re.findall(r"(?:^|[|;(] *|until )rds ([a-z]+)\b([^|<>;()]*)", line):
            if command not in {*program.options, "help"}:
                faults.append(f"{page}: rds has no command {command}")
            known = {*program.options.get(command, {}), "help"}
            unknown = [name for name in re.findall(r"(?<!\S)--([a-z]+)", words) if name not in known]
            faults.extend(f"{page}: rds {command} has no option --{name}" for name in unknown)
