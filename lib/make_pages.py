#!/usr/bin/env python3
"""Writes a manual page for each function of rds.h: lib/make_pages.py FOLDER"""

from __future__ import annotations

import re
import sys
from pathlib import Path

HEADER = (Path(__file__).resolve().parent / "rds.h").read_text(encoding="utf-8")
# A comment, and the declarations that follow it up to an empty line.
PARTS = re.findall(
    r"^/\* ((?:(?!\*/).)*?) ?\*/\n((?:(?!\n\n|/\*).)*\brds_\w+\((?:(?!\n\n).)*;)", HEADER, re.M | re.S
)


def escaped(text: str) -> str:
    """Text for troff: no backslash, and no line that begins as a request."""
    return re.sub(r"^(?=[.'])", r"\\&", text.replace("\\", "\\e"), flags=re.M)


def described(comment: str) -> str:
    """The comment in troff, with a row per parameter. A paragraph follows the rows, and one has the errors."""
    text = escaped(re.sub(r"^ \* ?", "", comment, flags=re.M))
    text = re.sub(r"^  (\w+(?:, \w+)*)  +(.*)$", r".TP\n.I \1\n\2\n.PP", text, flags=re.M)
    text = re.sub(r"^\.PP\n(?=\.TP)", "", text, flags=re.M)
    return re.sub(r"(?<!\.PP)\n(?=Errors)", r"\n.PP\n", text)


def summary_of(comment: str) -> str:
    """The first sentence of the comment."""
    first = re.split(r"[.:](?:\s|$)", " ".join(re.sub(r"^ \*", "", comment, flags=re.M).split()))[0]
    return escaped(first[0].lower() + first[1:])


def page(names: list[str], comment: str, declared: str) -> str:
    version = re.search(r"#define RDS_VERSION 0x(\d\d)(\d\d)(\d\d)", HEADER)
    assert version
    number = ".".join(str(int(part, 16)) for part in version.groups())
    synopsis = escaped(re.sub(r"^RDS_MUST_USE\n", "", declared, flags=re.M))
    return (
        f'.TH {names[0].upper()} 3 "" "librds {number}" "librds"\n.SH NAME\n'
        f"{', '.join(names)} \\- {summary_of(comment)}\n"
        f'.SH SYNOPSIS\n.nf\n#include <rds.h>\n\n{synopsis}\n.fi\n.PP\nCompile and link with\n.BR "pkg-config --cflags --libs rds" .\n'
        f".SH DESCRIPTION\n{described(comment)}\n.SH SEE ALSO\n.BR rds (1)\n.PP\n"
        "The comment at the top of rds.h has the rules of all functions: errors, pointers, threads, memory.\n"
    )


def main() -> int:
    if len(sys.argv) != 2:
        sys.exit(__doc__)
    folder = Path(sys.argv[1])
    for comment, declared in PARTS:
        names = re.findall(r"\b(rds_\w+)\(", declared)
        for name in names:
            first = name == names[0]
            (folder / f"{name}.3").write_text(
                page(names, comment, declared) if first else f".so man3/{names[0]}.3\n", encoding="utf-8"
            )
    return 0


if __name__ == "__main__":
    sys.exit(main())
