#!/usr/bin/python3
"""Makes the manual page and the completions of rds-monitor from its help: packaging/make_pages.py FOLDER

FOLDER gets rds-monitor.1, rds-monitor.bash and _rds-monitor. Needs numpy, and Debian's python3-argparse-manpage and
python3-shtab. The page has the date SOURCE_DATE_EPOCH, or else today's.
"""

from __future__ import annotations

import argparse
import os
import re
import sys
import time
from pathlib import Path
from typing import List

os.environ["COLUMNS"] = "80"
sys.dont_write_bytecode = True
sys.path.insert(0, str(Path(__file__).resolve().parents[1] / "monitor"))
try:
    import shtab

    try:
        from argparse_manpage.manpage import Manpage
    except ImportError:  # its name before version 3
        from build_manpages.manpage import Manpage
    from rds_monitor import __doc__ as summary, __version__
    from rds_monitor.cli import COMMANDS, Command, Parser, parser_of
except ImportError as error:
    sys.exit(
        f"packaging/make_pages.py: {error}: the manual page and the completions of rds-monitor need Debian's "
        "python3-numpy, python3-argparse-manpage and python3-shtab"
    )

HEAD = r"""
.SH NAME
rds\-monitor \- tables, alarms and databases of what an RDS decoder heard
.SH SYNOPSIS
.B rds\-monitor
.I COMMAND
[options]
[\fIINPUT\fR]
.SH DESCRIPTION
{summary}
An input is a recording of packed bits or a listing of
.BR rds (1),
told apart by content;
without one, standard input is read.
Times need the start of the recording (\-\-start) and the rate of the sampler's clock.
.SH COMMANDS
"""
TAIL = r"""
.SH EXIT STATUS
.TP
0
The output was written.
.TP
1
An input cannot be read or is not what it should be, or the output cannot be written: one line on standard error says why.
.TP
2
The command line is wrong.
.PP
The command check ends in the statuses of a plugin: 0 OK, 1 WARNING, 2 CRITICAL, 3 UNKNOWN.
.SH ENVIRONMENT
.TP
RDS_LIBRARY
The path of librds.so.0, by default the system's.
.TP
RDS
The path of the program rds, by default that of the PATH. It decodes recordings if there is no librds.
.SH SEE ALSO
.BR rds (1)
"""


def roff(text: str) -> str:
    """Text as roff has it: backslashes, hyphens of options, and lines that begin like a request."""
    return re.sub(r"^([.'])", r"\\&\1", text.replace("\\", "\\e").replace("-", "\\-"), flags=re.M)


def entries_of(command: Command) -> List[str]:
    """The options of a command, by argparse-manpage, an entry each."""
    options = str(Manpage(parser_of(command))).partition(".SH OPTIONS\n")[2]
    text = re.sub(r"\n\n+", "\n", options).strip("\n")
    return re.split(r"\n(?=\.TP\n)", text) if text else []


def common_entries() -> List[str]:
    """Those of half of the commands or more, in the order of the first one that has them."""
    every = [entry for command in COMMANDS for entry in entries_of(command)]
    return [entry for entry in dict.fromkeys(every) if every.count(entry) >= len(COMMANDS) / 2]


def section_of(command: Command, common: List[str]) -> str:
    """The command's section of the page: what it does, its own options, the names of common ones, and its example."""
    parser, entries = parser_of(command), entries_of(command)
    lines = [f".SS {command.name}", roff(parser.description or "")]
    lines += [entry for entry in entries if entry not in common]
    shared = [entry.split("\n")[1].split(" ")[0] for entry in entries if entry in common]
    if shared:
        lines += [".PP", "Common: " + ", ".join(shared) + "."]
    if parser.epilog:
        lines += [".PP", ".nf", roff(parser.epilog), ".fi"]
    return "\n".join(line for line in lines if line)


def page() -> str:
    date = time.strftime("%Y-%m-%d", time.gmtime(int(os.environ.get("SOURCE_DATE_EPOCH", time.time()))))
    head = f'.TH RDS-MONITOR 1 {date} "rds-monitor {__version__}"' + HEAD.format(summary=roff(summary or ""))
    common = common_entries()
    sections = "\n".join(section_of(command, common) for command in COMMANDS)
    return head + sections + "\n.SH COMMON OPTIONS\n" + "\n".join(common) + TAIL


def whole_parser() -> Parser:
    """All commands in one parser, as shtab needs it. A value that is none of a few is completed as a file's name."""
    whole = Parser(prog="rds-monitor", description=summary)
    whole.add_argument(
        "-V",
        "--version",
        action="version",
        version="",
        help="print the version and the decoder",
    )
    commands = whole.add_subparsers(metavar="COMMAND")
    for command in COMMANDS:
        parser = commands.add_parser(command.name, help=command.summary)
        command.options(parser)
        parser.description = command.summary
        for action in parser._actions:
            known = {key: value for key, value in vars(action).items() if value is not argparse.SUPPRESS}
            action.help = (action.help or "") % known
            if action.nargs != 0 and not action.choices:
                action.complete = shtab.FILE  # type: ignore[attr-defined]
    return whole


def completion(shell: str) -> str:
    """The completion by shtab. Version 1.5.5 offers only the first of a few values in bash: here all of them."""
    wrong = """_choices"
  current_action_choices="${!current_action_choices_var}\""""
    right = """_choices[@]"
  current_action_choices="$(printf '%s\\n' "${!current_action_choices_var}")\""""
    text: str = shtab.complete(whole_parser(), shell)
    return text.replace(wrong, right)


def main(words: List[str]) -> None:
    if len(words) != 1:
        sys.exit("usage: packaging/make_pages.py FOLDER")
    folder = Path(*words)
    folder.mkdir(parents=True, exist_ok=True)
    (folder / "rds-monitor.1").write_text(page())
    for shell, name in {"bash": "rds-monitor.bash", "zsh": "_rds-monitor"}.items():
        (folder / name).write_text(completion(shell))


if __name__ == "__main__":
    main(sys.argv[1:])
