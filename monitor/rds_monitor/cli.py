"""The command `rds-monitor`: its sub-commands, their common options, exit statuses and errors.

A sub-command NAME of a module has two functions there: `options_NAME(parser)` adds its options, and its docstring has the description and,
after an empty line, examples; `run_NAME(arguments)` returns its exit status. Its line in `COMMANDS` is all that this file says of it."""

import argparse
import ctypes
import importlib
import os
import signal
import sys
from typing import Any, Callable, NamedTuple, NoReturn, Optional, Sequence

from . import __doc__ as about
from . import __version__
from .rows.hours import take_hour
from .rows.items import Fault, Misuse, cause


class Command(NamedTuple):
    name: str
    module: str
    summary: str

    def options(self, parser: argparse.ArgumentParser) -> None:
        add = self.function("options")
        if add.__doc__:
            told, _, examples = "\n".join(map(str.strip, add.__doc__.splitlines())).partition("\n\n")
            parser.description = told.replace("\n", " ")
            parser.epilog = "\n  ".join(["example:", *examples.splitlines()])
        add(parser)

    def function(self, of: str) -> Any:
        return getattr(importlib.import_module(f"rds_monitor.{self.module}"), f"{of}_{self.name}")


COMMANDS = (
    Command("errors", "measures.errors", "block errors by interval"),
    Command("outages", "measures.outages", "when no RDS was received"),
    Command("programmes", "measures.measure", "which PI codes were received, and when"),
    Command("types", "measures.measure", "which group types were received, and how many"),
    Command("corrected", "measures.measure", "which blocks were corrected, and how"),
    Command("clock", "measures.clock", "the sampler's clock by that of the station"),
    Command("info", "content.info", "what the station says of itself"),
    Command("json", "content.jsonl", "a line of JSON per event, row, or group as redsea does"),
    Command("groups", "measures.groups", "the groups as lines of hexadecimal words"),
    Command("table", "measures.table", "the rows with times, as CSV or Parquet"),
    Command("db", "db.store", "add recordings to an SQLite database"),
    Command("report", "page.report", "a page to look at, of HTML"),
    Command("why", "why", "why rds refused an input"),
    Command("check", "watch.check", "judge the reception, as a plugin of Nagios or Icinga"),
    Command("form", "signal.form", "identify the format of a file, and how to convert it to packed bits"),
    Command("pack", "signal.pack", "convert bits and samples to packed bits"),
    Command("demod", "signal.demod", "demodulate MPX or IQ to packed bits"),
    Command("stations", "capture.stations", "which FM stations a capture of IQ has"),
    Command("batch", "batch", "decode a folder of recordings"),
    Command("watch", "watch.service", "watch stations day and night: listings, database, pages, alarms"),
)


class Parser(argparse.ArgumentParser):
    """Errors are lines `rds-monitor NAME: the fault`, then the usage, with status 2; a command may have a way of its own."""

    on_error: Optional[Callable[[str], NoReturn]] = None

    def error(self, message: str) -> NoReturn:
        if self.on_error:
            self.on_error(message)
        self.exit(2, f"{self.prog}: {message}\n{self.format_usage()}")


def parser_of(command: Command) -> Parser:
    name, form = f"rds-monitor {command.name}", argparse.RawDescriptionHelpFormatter
    parser = Parser(prog=name, formatter_class=form, allow_abbrev=False)
    command.options(parser)
    return parser


OVERVIEW = f"""\
usage: rds-monitor COMMAND [options] [INPUT]

{about}

An input is a recording of packed bits or a listing of `rds list` or `rds follow`, told apart by content;
without one, standard input is read.

commands:
%s

rds-monitor COMMAND --help describes a command, with an example.
"""


def overview() -> str:
    width = max(len(command.name) for command in COMMANDS)
    return OVERVIEW % "\n".join(f"  {command.name:{width}}  {command.summary}" for command in COMMANDS)


def chosen(words: Sequence[str]) -> Optional[Command]:
    """The command that the first word names; help and the version are printed here."""
    if not words or words[0] in {"-h", "--help", "help"}:
        sys.stdout.write(overview())
        return None
    if words[0] in {"-V", "--version"}:
        try:
            decoder = importlib.import_module("rds_monitor.rows.decoders").decoder_of()[1]
        except Fault as error:
            decoder = f"none: {error}"
        print(f"rds-monitor {__version__}", f"decoder: {decoder}", sep="\n")
        return None
    found = next((command for command in COMMANDS if command.name == words[0]), None)
    if not found:
        raise Misuse(f"there is no command {words[0]!r}: rds-monitor --help lists them")
    return found


def main(words: Optional[Sequence[str]] = None) -> int:
    tune_memory()
    # A reader that leaves early, such as head, ends the command without a word.
    signal.signal(signal.SIGPIPE, signal.SIG_DFL)
    words = sys.argv[1:] if words is None else words
    name = "rds-monitor"
    try:
        command = chosen(words)
        if not command:
            return 0
        name = f"rds-monitor {command.name}"
        arguments = parser_of(command).parse_args(words[1:])
        take_hour(arguments)
        status = int(command.function("run")(arguments))
        sys.stdout.flush()
        return status
    except Fault as error:
        return _say(name, str(error), 2 if isinstance(error, Misuse) else 1)
    except OSError as error:
        # The output may be the fault: what Python still holds of it is not tried again.
        os.dup2(os.open(os.devnull, os.O_WRONLY), 1)
        return _say(name, f"{error.filename or 'writing'}: {cause(error)}", 1)
    except KeyboardInterrupt:
        return 130


def tune_memory() -> None:
    """Keeps memory that was given back, since each chunk asks for as much again: a tenth of the time goes into new pages else."""
    try:
        library = ctypes.CDLL(None)
        for name in (-1, -3):
            library.mallopt(name, 1 << 26)
    except (OSError, AttributeError):
        return


def _say(name: str, text: str, status: int) -> int:
    try:
        sys.stdout.flush()
    except OSError:
        os.dup2(os.open(os.devnull, os.O_WRONLY), 1)
    print(f"{name}: {text}", file=sys.stderr)
    return status
