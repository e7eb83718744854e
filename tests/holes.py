"""Copies of crates in which functions have a hole for their proof, so that few are proved again."""

import os
import re
import shutil
import sys
from dataclasses import dataclass

TOP = os.path.dirname(os.path.dirname(os.path.abspath(__file__)))
RT = shutil.which(os.environ.get("RT", "rt")) or sys.exit("there is no Rattle toolchain (rt) on the PATH")
KIT = os.path.dirname(os.path.dirname(os.path.realpath(RT)))
LIBRARIES = [
    "rds_code",
    "rds_stream",
    "rds_sync",
    "rds_live",
    "rds_soft",
    "rds_abi",
    "rds_pieces",
    "rds_crew",
    "rds_rows",
    "rds_tool",
]
# The library for C: no crate uses it.
EXPORTED = "rds_c"
# The callers of the libraries, proved from contracts alone.
CALLERS = "rds_uses"
PROGRAM = "rds"
# The hole has any type: its goal is printed, and to print the statement of a function takes long.
HOLE = """use Rattle.{crate}.proofs.{path}.Statement.{{statement}}

hole : {{A : Type 2}} → A
hole = ?

pub {name}_spec : {{M : Type 1}} → statement M
{name}_spec = hole
"""


@dataclass(eq=False)
class Function:
    crate: str
    file: str
    path: str  # as the crate's proofs have it
    is_public: bool
    place: tuple  # from its attributes to the end of its body
    body: str
    clauses: list
    is_in_cycle: bool  # of calls: such functions are proved together, in a folder of the cycle's name
    is_of_trait: bool  # a trait's function, which the `impl` of a type has

    def proof(self, folder):
        """The folder of its proof below the crates in `folder`."""
        return f"{folder}/{self.crate}/proofs/{self.path.replace('.', '/')}"

    def has_room_for_hole(self):
        """Whether there is a proof, in a folder of the function's name."""
        return bool(self.body) and self.path.replace(".", "").isidentifier()

    def put_hole(self, folder):
        """Replaces its proof by a hole. Functions of a cycle keep theirs."""
        if self.has_room_for_hole() and not self.is_in_cycle:
            shutil.rmtree(self.proof(folder), ignore_errors=True)
            os.makedirs(self.proof(folder))
            text = HOLE.format(crate=self.crate, path=self.path, name=self.path.rpartition(".")[2])
            write(f"{self.proof(folder)}/Proof.antt", text)


def read(path):
    with open(path, encoding="utf-8") as it:
        return it.read()


def write(path, text):
    with open(path, "w", encoding="utf-8") as it:
        it.write(text)


def blanked(text):
    """The text with spaces for its comments and strings."""
    return re.sub(
        r"//.*|\"(?:\\[\s\S]|[^\"\\])*\"|'(?:\\.|[^'\\])'", lambda it: re.sub(r"[^\n]", " ", it[0]), text
    )


def past(text, at):
    """The place after the bracket that closes the one at `at`."""
    depth = 0
    for place in range(at, len(text)):
        depth += (text[place] in "({[") - (text[place] in ")}]")
        if depth == 0:
            return place + 1


def holders(text):
    """Each `impl` and `trait`: its start and end, the type or trait, and its name in proofs."""
    for it in re.finditer(r"^(?:pub(?:\(crate\))? )?(?:impl|trait)\b([^{;]*)", text, re.M):
        said = re.sub(r"&(?:'\w+ )?", "Ref", re.sub(r"\bFrom<(\w+)[^ ]* for", r"From\1 for", it[1]))
        while "<" in said:
            said = re.sub(r"<[^<>]*>", "", said)
        trait, _, kind = re.sub(r":(?!:).*", "", said).rpartition(" for ")
        yield it.end(), past(text, it.end()), kind.split()[0], kind.split()[0] + trait.strip().rpartition(
            ":"
        )[2]


def root_of(folder):
    """The root module of a crate."""
    return "main" if os.path.isfile(f"{folder}/src/main.rt") else "lib"


def functions_of(folder):
    """All functions of a crate."""
    crate, modules = os.path.basename(folder), sorted(it[:-3] for it in os.listdir(f"{folder}/src"))
    root, texts = root_of(folder), {it: blanked(read(f"{folder}/src/{it}.rt")) for it in modules}
    exported = set(re.findall(r"\w+", " ".join(re.findall(r"pub (?:use \w+::|mod )([^;]*);", texts[root]))))
    home = {
        kind: it
        for it in texts
        for kind in re.findall(r"^pub.* (?:struct|enum|trait) (\w+)", texts[it], re.M)
    }
    for module, text in texts.items():
        inside = list(holders(text))
        for it in re.finditer(
            r"^(?: *#\[.*\]\n)* *(pub(?:\(crate\))? |)(?:const |extern +)?fn (\w+)", text, re.M
        ):
            kind, owner = next(
                (names for start, end, *names in inside if start < it.end() < end), (None, None)
            )
            # The result's type, which may hold `[T; N]`, ends before the clauses, the body or a `;`.
            at, clauses = past(text, text.index("(", it.end())), []
            at += re.match(r"(?:\[.*?\]|(?!\s(?:requires|ensures|ghost|where)\b)[^{;])*", text[at:]).end()
            while said := re.match(r"\s*(requires|ensures|ghost)\b\*?\s*(\w*)[^{;]*(?={)", text[at:]):
                end = past(text, at + said.end())
                if said[1] == "ensures":
                    clauses.append((said[2] or str(len(clauses) + 1), (at, end)))
                at = end
            at += re.match(r"\s*", text[at:]).end()
            end = past(text, at) if text[at] == "{" else at
            is_open = it[1] == "pub " or not it[1] and (owner != kind or end == at)
            path = ".".join(filter(None, [home.get(kind, module if module != root else None), owner, it[2]]))
            is_public = is_open and bool({module, kind or it[2]} & exported)
            file, place, is_in_cycle = f"{crate}/src/{module}.rt", (it.start(), end), "#[cycle(" in it[0]
            is_of_trait = owner != kind
            yield Function(
                crate, file, path, is_public, place, text[at:end], clauses, is_in_cycle, is_of_trait
            )


def copied(folder, crates, with_holes=(*LIBRARIES, EXPORTED)):
    """Copies crates to `folder`, with holes for the proofs of those that are named, and returns the functions of these.

    Files of an interrupted copy are overwritten.
    """
    functions = []
    for crate in crates:
        here, there = f"{TOP}/crates/{crate}", f"{folder}/{crate}"
        shutil.copytree(here, there, ignore=shutil.ignore_patterns("out"), dirs_exist_ok=True)
        functions += functions_of(f"{folder}/{crate}") if crate in with_holes else []
    for f in functions:
        f.put_hole(folder)
    return functions


def used_by(crate):
    """The libraries that a crate uses, by crates.txt: those of this repository, and others."""
    names = re.search(rf"^{crate}\b[^:#\n]*:(.*)", read(f"{TOP}/crates.txt"), re.M)[1].split()
    return [it for it in LIBRARIES if it in names], [it for it in names if it not in LIBRARIES]


def below(crate):
    """The libraries that a crate and those below it use, lowest first."""
    found = {it for name in used_by(crate)[0] for it in [name, *below(name)]}
    return [it for it in LIBRARIES if it in found]


def is_built(crate):
    """Whether the built library is newer than its sources and those below it."""
    folders = [
        f"{TOP}/crates/{it}/{part}" for it in [*below(crate), crate] for part in ("src", "specs", "proofs")
    ]
    files = (f"{at}/{name}" for folder in folders for at, _, names in os.walk(folder) for name in names)
    rlib = built(crate)
    return os.path.isdir(rlib) and os.path.getmtime(rlib) > max(os.path.getmtime(it) for it in files)


def built(crate):
    """Where `rt` puts a library that it builds."""
    return f"{TOP}/crates/{crate}/out/rlib/{crate}.rlib"


def over(crate, where=built):
    """The words that name the built libraries below a crate."""
    said = []
    for it in below(crate):
        rlib = where(it)
        said += ["--extern", f"{it}={rlib}"] if it in used_by(crate)[0] else []
        said += ["-L", f"dependency={os.path.dirname(rlib)}"]
    return said


def of_kit(crate, kit):
    """The words of each command over a crate and these libraries of the toolchain."""
    said = [
        "--crate-name",
        crate,
        f"src/{root_of(f'{TOP}/crates/{crate}')}.rt",
        "--logic-built",
        f"{KIT}/logic_built",
    ]
    said += ["--antt-project", f"{KIT}/rattle/logic/antt-project.json", "-L", f"dependency={KIT}/rlibs"]
    return said + [word for it in sorted(kit) for word in ("--extern", f"{it}={KIT}/rlibs/{it}.rlib")]


def checked(crate):
    """The words that check a crate, without those for the libraries of this repository below it."""
    kit = {"core", "std", *(name for it in [*below(crate), crate] for name in used_by(it)[1])}
    return [f"{KIT}/bin/rattle", "check", *of_kit(crate, kit)]


def words(folder, crate, only, where=None):
    """The words that check these functions of a copy. The libraries below are copies beside it, or built ones at `where`."""
    said = [*checked(crate), "--allow-holes", "--incremental", f"{folder}/kept_{crate}"]
    if where:
        said += over(crate, where)
    else:
        for it in below(crate):
            said += [
                "--lib",
                f"{it}:{','.join(['core', 'std', *sum(used_by(it), [])])}={folder}/{it}/src/lib.rt",
            ]
    return said + [word for it in sorted(only) for word in ("--only", it)]
