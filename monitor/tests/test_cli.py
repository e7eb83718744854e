"""The command: help, errors, streams that fail, names of files, progress, the manual page and the completions."""

from __future__ import annotations

import argparse
import os
import re
import shlex
import shutil
import signal
import subprocess
import sys
from itertools import chain
from pathlib import Path
from typing import List
from unittest import mock

import pytest

from conftest import COMMAND, PROGRAM, STATION, TOP, monitor, ran, rds
from made import damaged, on_a_terminal, peak_memory, run, said
import rds_monitor
from rds_monitor import cli
from rds_monitor.rows import inputs
from rds_monitor.rows.items import Rules
from rds_monitor.watch import verdict

MONITOR = TOP / "monitor"


# In the order of the help: tables, contents and rows; what is made of them; and what is done before.
NAMES = """errors outages programmes types corrected clock info json groups table db report why check
    form pack demod stations batch watch""".split()


def test_help_has_an_example() -> None:
    text = run("--help").out
    assert re.findall(r"^  (\w+) ", text, re.M) == NAMES
    for command in cli.COMMANDS:
        assert f"  {command.name} " in text and command.summary in text
        shown = run(command.name, "--help")
        assert shown.status == 0 and re.search(rf"\nexamples?:\n  rds-monitor {command.name} ", shown.out)
        for words in re.findall(rf"^  rds-monitor {command.name} ([^|>\n]*)", shown.out, re.M):
            given = cli.parser_of(command).parse_args(shlex.split(words))
            if command.name == "batch":
                rds("list", *shlex.split(given.options))
    assert run().out == text and run("--version").out.startswith(f"rds-monitor {cli.__version__}\n")


# Command lines, with the fault of each.
COMMAND_LINES = """
nothing                                    there is no command 'nothing': rds-monitor --help lists them
errors --every 0.5                         an interval has a second or more
errors a b                                 unrecognized arguments: b
errors --gaps 5                            '5' is no pair FROM-TO
errors --bits -1                           --bits
errors --loss 3 --share 3                  contradict each other
errors --of 3                              --of needs --share
errors --ever 5                            unrecognized
errors -V                                  unrecognized arguments: -V
programmes --least x                       'x' is no number of groups
info --csv --json                          not allowed with
json --rows --redsea                       not allowed with
groups --times --spy                       not allowed with
demod --raw s16                            --raw needs --rate
demod --rate fast --raw s16                invalid int value: 'fast'
demod --raw s16 --rate 171000 --channel 1  --channel is for MPX in a file with a header
demod --offset 5                           --offset and --no-equaliser are for --iq
demod --raw s8 --rate 171000               invalid choice: 's8'
pack                                       required: --from
pack --from nothing                        invalid choice: 'nothing'
pack --from bytes --lsb-first              --lsb-first is for packed bits
"""


@pytest.mark.parametrize("row", COMMAND_LINES.strip().splitlines())
def test_command_lines_that_are_none(row: str) -> None:
    words, fault = re.split(" {2,}", row)
    done = run(*words.split())
    assert done.status == 2 and fault in done.err and done.out == "", done


def test_bounds_of_options() -> None:
    """The longest recording, positions of twelve digits, and the default of --of."""
    assert inputs.bits_of(str(2**36)) == 2**36
    assert inputs.gaps_of("1-2,999999999998-999999999999")[1] == (999999999998, 999999999999)
    for make, text in ((inputs.bits_of, str(2**36 + 1)), (inputs.gaps_of, "1-1000000000000")):
        with pytest.raises(argparse.ArgumentTypeError):
            make(text)
    errors = next(command for command in cli.COMMANDS if command.name == "errors")
    assert inputs.rules_of(cli.parser_of(errors).parse_args(["--share", "3"])) == Rules(2, 3, 3, 64)


# Options that rds refuses, with its error.
RULES = "burst 6: 1 BurstRange; reach 0: 2; loss 65: 3; share 5 --of 4: 15; bits 300000: 4; gaps 9-9: 16"


@pytest.mark.usefixtures("decoder")
@pytest.mark.parametrize("rule", RULES.split("; "))
def test_rules_are_those_of_rds(rule: str, station: bytes) -> None:
    words, fault = f"--{rule}".split(": ")
    done = run("errors", *words.split(), data=station)
    assert done.status == 1 and f"refused {fault}" in done.err and done.out == ""


NO_DECODER = {**os.environ, "RDS_LIBRARY": "/none/librds.so.0", "RDS": "/none/rds"}
# Commands that decode. FILE would be written, and IN is a file of the input.
DECODING = """errors|outages|programmes|types|corrected|clock|info|info --csv|json|json --rows|json --redsea|groups|table|report|check -
    |table --parquet FILE|db --name x FILE|form IN|stations IN""".replace(
    "\n    ", ""
).split(
    "|"
)


@pytest.mark.parametrize("command", DECODING)
def test_no_decoder_for_a_recording(command: str, station: bytes, station_listing: bytes, tmp_path) -> None:
    """The error names both, and nothing is written. A listing needs none."""
    words = written_below(tmp_path, command, station)
    for more in ({}, {"PYTHONPATH": str(MONITOR)}):
        done = monitor(*words, data=station, env={**NO_DECODER, **more})
        said = done.stderr if words[0] != "check" else done.stdout
        assert all(name in said for name in (b"librds", b"'/none/rds'", b"install python3-librds or rds"))
        assert done.returncode == (3 if words[0] == "check" else 1) and b"Traceback" not in done.stderr
        assert (done.stdout == b"" or words[0] == "check") and os.listdir(tmp_path) == ["IN"]
    if command in ("errors", "json"):
        assert monitor(command, data=station_listing, env=NO_DECODER).returncode == 0


def written_below(folder: Path, command: str, data: bytes) -> List[str]:
    (folder / "IN").write_bytes(data)
    return [str(folder / word) if word in ("FILE", "IN") else word for word in command.split()]


@pytest.mark.parametrize(
    "command", [command for command in DECODING if not re.search("FILE|stations", command)]
)
def test_both_decoders_write_the_same(command: str, station: bytes, tmp_path) -> None:
    """In each command, of a station with wrong bits and without sync for a while."""
    noise = bytes(range(256)) * 20
    words = written_below(tmp_path, command, data := damaged(station, 0.01, 1) + noise + station)
    more = ["--bits", "300001", "--gaps", "104-130,5000-7000", "--burst", "5"] * (
        command[:4] not in ("chec", "form")
    )
    by_rds = {**os.environ, "RDS_LIBRARY": "/none"}
    done, other = (monitor(*words, *more, data=data, env=env) for env in (dict(os.environ), by_rds))
    assert done.stdout == other.stdout and done.stderr == other.stderr and done.returncode == other.returncode
    assert done.stdout or command == "clock"


def test_which_decoder_is_told(decoder: str) -> None:
    done = monitor("--version")
    wanted = "librds 0.2.0" if decoder == "librds" else os.path.abspath(PROGRAM)
    assert done.stdout.decode() == f"rds-monitor {cli.__version__}\ndecoder: {wanted}\n"


def test_no_numpy() -> None:
    done = ran([sys.executable, "-c", "import sys; sys.modules['numpy'] = None; import rds_monitor.__main__"])
    fault = "rds-monitor needs the Python module numpy: install python3-numpy\n"
    assert (done.returncode, done.stdout, done.stderr) == (1, "", fault)


COMMANDS = [command for command in DECODING if not command.startswith(("check", "form", "stations"))]


@pytest.mark.parametrize("command", COMMANDS)
def test_an_output_that_fails_is_not_begun(command: str, station: bytes, tmp_path) -> None:
    """By rules that the program refuses, and for a listing whose first row is none: no row, no names of columns and no file."""
    row, by_rds = b"acquired,51,9,-,-,-,-,-\n", {**os.environ, "RDS_LIBRARY": "/none"}
    words = written_below(tmp_path, command, station)
    for more, data, fault in (
        (["--burst", "6"], station, b"refused 1 BurstRange\n"),
        ([], row, b": row 1: "),
    ):
        done = monitor(*words, *more, data=data, env=by_rds)
        assert (done.returncode, done.stdout) == (1, b"") and fault in done.stderr
        assert os.listdir(tmp_path) == ["IN"]


# ---- streams


@pytest.mark.parametrize("command", ["errors", "table", "types", "pack --from packed"])
def test_a_full_device(command: str, station: bytes) -> None:
    with open("/dev/full", "wb") as full:
        words = [*COMMAND, *command.split()]
        done = subprocess.run(words, input=station, stdout=full, stderr=subprocess.PIPE)
    assert done.returncode == 1
    assert done.stderr == f"rds-monitor {command.split()[0]}: writing: No space left on device\n".encode()


def test_a_fault_after_rows_for_a_full_device() -> None:
    """The rows are lost, and the fault is told."""
    text = "import sys; from rds_monitor import cli; print(1); sys.exit(cli._say('it', 'a fault', 1))"
    buffered = {**os.environ, "PYTHONUNBUFFERED": ""}
    with open("/dev/full", "wb") as full:
        done = subprocess.run([sys.executable, "-c", text], stdout=full, stderr=subprocess.PIPE, env=buffered)
    assert (done.returncode, done.stderr) == (1, b"it: a fault\n")


def test_a_reader_that_leaves(station_listing: bytes, tmp_path) -> None:
    (tmp_path / "it").write_bytes(station_listing)
    command = f"'{sys.executable}' -m rds_monitor table it | head -n 1"
    done = subprocess.run(command, shell=True, cwd=tmp_path, capture_output=True)
    assert done.stdout.startswith(b"event,bit,") and done.stderr == b""


def test_a_pipe_that_gives_little_at_a_time(station: bytes) -> None:
    process = subprocess.Popen([*COMMAND, "errors"], stdin=subprocess.PIPE, stdout=subprocess.PIPE)
    assert process.stdin and process.stdout
    for begin in range(0, len(station), 997):
        process.stdin.write(station[begin : begin + 997])
        process.stdin.flush()
    process.stdin.close()
    assert process.stdout.read().decode().splitlines() == said("errors", data=station)
    assert process.wait() == 0


@pytest.mark.parametrize("name", ["it's", 'a "b"', "line\nfeed", "$(touch x)", "-v", "a b;c", "\x1b[31mred"])
def test_names_of_files(name: str, station: bytes, station_listing: bytes, tmp_path, monkeypatch) -> None:
    monkeypatch.chdir(tmp_path)
    (tmp_path / name).write_bytes(station)
    wanted = said("errors", data=station)
    assert said("errors", "--", name) == said("errors", f"./{name}") == wanted
    assert said("errors", f"--length=./{name}", data=station_listing) == wanted
    gone = run("errors", "--", name + "!")
    assert gone.status == 1 and gone.err.count("\n") == 1 and gone.err[:-1].isprintable()
    assert os.listdir(tmp_path) == [name]


def test_text_of_strangers_is_escaped_in_errors() -> None:
    done = run("errors", data=b"group,1,\x1b[31m\xff,\n" * 3)
    assert done.status == 1 and done.err[:-1].isprintable() and "\\x1b[31m" in done.err


def test_an_interrupted_command_has_the_status_of_its_signal() -> None:
    with mock.patch("rds_monitor.measures.errors.run_errors", side_effect=KeyboardInterrupt):
        assert run("errors") == (128 + signal.SIGINT, "", "")


# ---- long work


def test_progress_is_for_a_terminal(tmp_path, station: bytes) -> None:
    (tmp_path / "it").write_bytes(station * 40)
    # A second passes with each look at the clock, or none.
    timed = (
        "import itertools, sys; from rds_monitor import cli; from rds_monitor.rows import extent, recording\n"
        "clock = itertools.count(0, int(sys.argv[1]))\n"
        "recording.CHUNK, extent.time.monotonic = 1 << 16, lambda: next(clock)\n"
        "sys.exit(cli.main(['errors', sys.argv[2]]))"
    )
    # Chunks of 65536 of a million bytes; at the end the line is erased.
    shown = on_a_terminal("-c", timed, "1", str(tmp_path / "it"))
    assert shown.startswith(b"\r7 %\r13 %\r") and shown.endswith(b"\r100 %\r     \r")
    assert on_a_terminal("-c", timed, "0", str(tmp_path / "it")) == b""
    assert monitor("errors", str(tmp_path / "it")).stderr == b""


@pytest.mark.parametrize("command", ["errors", "outages"])
def test_memory_does_not_grow(command: str, station: bytes) -> None:
    """Two hours and four times as much take the same memory, below 100 MB."""
    before, after = (peak_memory(command, data=station * times) for times in (40, 160))
    assert after < before + 12000 and after < 100000


# ---- the manual page and the completions


@pytest.fixture(scope="module")
def pages(tmp_path_factory) -> dict:
    """The manual page and the completions, as packages have them."""
    pytest.importorskip("shtab")
    pytest.importorskip("build_manpages")
    folder = tmp_path_factory.mktemp("pages")
    # The package beside the script counts, and no other one.
    (folder / "rds_monitor.py").write_text("raise ValueError")
    words = [sys.executable, TOP / "packaging" / "make_pages.py", folder / "of" / "monitor"]
    subprocess.run(words, check=True, env={**os.environ, "PYTHONPATH": str(folder)})
    return {path.name: path for path in words[-1].iterdir()}


def test_the_manual_page_is_right(pages: dict) -> None:
    if shutil.which("mandoc"):
        lint = ["mandoc", "-T", "lint", "-W", "warning", pages["rds-monitor.1"]]
        assert subprocess.run(lint, capture_output=True).stdout == b""
    text = pages["rds-monitor.1"].read_text().replace("\\-", "-")
    assert text.split("\n.SH DESCRIPTION\n")[1].startswith(rds_monitor.__doc__)
    assert re.findall(r"^\.BR (.*)$", text, re.M) == ["rds (1),", "rds (1)"]
    assert "\nRDS_LIBRARY\nThe path of librds.so.0, by default the system's.\n" in text
    statuses = ("OK", "WARNING", "CRITICAL", "UNKNOWN")
    named = ", ".join(f"{getattr(verdict, name)} {name}" for name in statuses)
    assert verdict.WORDS == statuses and f"ends in the statuses of a plugin: {named}." in text
    for words, status in ((["errors", STATION], 0), (["errors", "/none"], 1), (["errors", "-x"], 2)):
        assert run(*words).status == status and f"\n.TP\n{status}\n" in text


COMMANDS = {command.name: command for command in cli.COMMANDS}
ACTIONS = {name: cli.parser_of(command)._actions for name, command in COMMANDS.items()}


def test_each_option_is_on_each_page(pages: dict) -> None:
    text = pages["rds-monitor.1"].read_text().replace("\\-", "-")
    bash, zsh = pages["rds-monitor.bash"], pages["_rds-monitor"].read_text()
    assert zsh.startswith("#compdef rds-monitor\n")
    for command, found in ACTIONS.items():
        of_page = text.split(f"\n.SS {command}\n")[1].split("\n.S")[0]
        of_zsh = zsh.split(f"\n_shtab_rds_monitor_{command}_options=(")[1].split("\n)")[0]
        epilog = cli.parser_of(COMMANDS[command]).epilog
        assert (f"\n.PP\n.nf\n{epilog}\n.fi" in of_page) == bool(epilog)
        names = [name for action in found for name in action.option_strings]
        assert completed(command, "-", file=bash) == names
        assert all(f"\\fB{name}\\fR" in of_page for name in names if name not in ("-h", "--help"))
        assert all(re.search(rf'[",{{]\*?{name}["\[,}}]', of_zsh) for name in names)
        for action in found:
            # a value that is none of a few is a file
            files = [
                f"\n_shtab_rds_monitor_{command}_{name.replace('-', '_')}_COMPGEN="
                for name in action.option_strings
            ]
            assert {file in bash.read_text() for file in files} <= {action.nargs != 0 and not action.choices}
            wanted = sorted(map(str, action.choices or ()))
            assert not wanted or sorted(completed(command, action.option_strings[0], "", file=bash)) == wanted


def test_signs_of_roff(pages: dict) -> None:
    """Backslashes, hyphens, and lines that begin like a request."""
    ask = "import make_pages, sys; sys.stdout.write(make_pages.roff(sys.argv[1]))"
    done = ran([sys.executable, "-c", ask, "a-b\n.c \\d\n'e"], check=True, cwd=TOP / "packaging")
    assert done.stdout == "a\\-b\n\\&.c \\ed\n\\&'e"


def test_common_options_are_told_once(pages: dict) -> None:
    text = pages["rds-monitor.1"].read_text().replace("\\-", "-")
    told = re.findall(
        r"^\.TP\n\\fB(--burst|--start|--unfinished)\\fR .*\n|^\.TP\n\\fB(--unfinished)\\fR\n", text, re.M
    )
    assert sorted(first or second for first, second in told) == ["--burst", "--start", "--unfinished"]


def test_defaults_are_those_of_the_help() -> None:
    """A number in brackets at the end of an option's help is its default."""
    told = 0
    for action in chain(*ACTIONS.values()):
        number = re.search(r"\((\d+(?:\.\d+)?)(?: [^()]*)?\)(?:;|:|$)", action.help or "")
        if number and isinstance(action.default, (int, float)) and action.default is not argparse.SUPPRESS:
            assert float(number[1]) == action.default, action.option_strings
            told += 1
    assert told > 5


DEFAULTS = """
--reach 3; --rate 1187.5; errors --every 60; outages --density 10; outages --shortest 1;
programmes --least 3; programmes --pause 10; demod --offset 0; stations --seconds 10; watch --speed 1"""


def test_defaults_typed_again() -> None:
    """All numbers. Those without a command are of each that has the option."""
    found = set()
    for name, actions in ACTIONS.items():
        for action in actions:
            option, number = (action.option_strings or [""])[0], action.default
            if isinstance(number, (int, float)) and not isinstance(number, bool):
                of = "" if option in ("--burst", "--reach", "--rate") else f"{name} "
                found.add(f"{of}{option} {number:g}")
    assert found == {" ".join(text.split()) for text in DEFAULTS.split(";")}
    errors = next(command for command in cli.COMMANDS if command.name == "errors")
    for words, rules in (
        ("", (2, 3, 10, 0, 0)),
        ("--share 3", (2, 3, 3, 64, 0)),
        ("--soft", (2, 3, 10, 0, 32)),
    ):
        assert inputs.rules_of(cli.parser_of(errors).parse_args([*words.split(), "x"])) == rules


def completed(*words: str, program: str = "rds-monitor", file) -> list:
    """What bash offers for the last word, by the function that it was told to call."""
    ask = (
        f"source '{file}'; COMP_WORDS=({program} \"$@\"); COMP_CWORD=$#;"
        f" told=$(complete -p {program}) && set -- $told && ${{@: -2:1}};"
        " printf '%s\\n' \"${COMPREPLY[@]}\""
    )
    words = ("bash", "-c", ask, "-", *words)
    return ran(words, check=True, cwd=TOP).stdout.split()


def test_completion_in_bash(pages: dict) -> None:
    bash = pages["rds-monitor.bash"]
    assert set(completed("", file=bash)) == {command.name for command in cli.COMMANDS}
    assert completed("-", file=bash) == ["-h", "--help", "-V", "--version"]
    assert completed("out", file=bash) == ["outages"]
    assert completed("outages", "--s", file=bash) == ["--share", "--soft", "--shortest", "--start"]
    # A value or an input is the name of a file.
    for words in (["outages"], ["outages", "--length"], ["db"], ["errors", "--hex"]):
        assert completed(*words, "READ", file=bash) == ["README.md"]


def test_completion_in_zsh(pages: dict) -> None:
    if not shutil.which("zsh"):
        pytest.skip("no zsh")
    assert subprocess.run(["zsh", "-n", pages["_rds-monitor"]], capture_output=True).stderr == b""


# ---- the manual page of rds

# Numbers of the page that no help says: from standards, processors, and an example.
MANUAL = (TOP / "rds.1").read_text()
OF_THE_PAGE = "62106 baseband,62106 earlier,50067,1998,64 processor,2 and,2009 on,104,130".split(",")


def test_numbers_on_the_manual_page_of_rds() -> None:
    """Each is in the program's help, before the same word."""
    commands = ((), *((name,) for name in "scan list follow totals encode".split()))
    help_of_all = " ".join(word for words in commands for word in rds(*words, "--help").decode().split())
    page = " ".join(re.sub(r"^\.(?:Dd|Dt|It \d+|Xr|Bl).*|^\.\w+ ?", "", MANUAL, flags=re.M).split())
    known = {*OF_THE_PAGE, f"1 to {len(str(2**36)) + 1} digits"}
    found = re.findall(r"\b\d+(?: (?:to|is) \d+)?\b(?: \w+)?", page)
    assert [entry for entry in found if entry not in known and entry not in help_of_all] == []
    assert known <= {*found}
    assert rds("list", "--gaps", "104-130", "--bits", 130, data=bytes(20))
    of_both = ("first position after a gap", "16 information bits, then 10 check bits", "eight fields")
    last_bit = "The position of the last bit of the block that acquired"
    assert all(claim in page and claim in help_of_all for claim in of_both)
    assert all(claim in page for claim in ("At most twice a second", "in seven hex digits", last_bit))
    assert "0 The output is complete, or" in " ".join(re.sub(r"^\.It ", "", MANUAL, flags=re.M).split())
