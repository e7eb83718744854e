"""The built program as a person sees it: exit status, standard output and standard error of each run.

program.cases has a row for most runs; here are those that need more than an input, such as a slow pipe or a full device.
"""

from __future__ import annotations

import codecs
import contextlib
import os
import random
import re
import select
import shlex
import signal
import subprocess
import threading
import time
from pathlib import Path
from typing import Any, Callable, Iterator, Sequence

import pytest
from running import LIMIT, TOP, Ran, run, said, wrote

Cases = Callable[[int], None]
SAMPLE = TOP / "examples" / "station.bin"
COMMANDS = ["scan", "list", "follow", "totals", "encode"]
TOTALS = "valid burst1 burst2 burst3 burst4 burst5 lost bits groups complete acquired losses".split()


def totals(*numbers: Any) -> str:
    """The twelve rows of totals."""
    return "".join(f"total,{name},{number},-,-,-,-,-\n" for name, number in zip(TOTALS, numbers, strict=True))


ZERO = "00003f000019800005a00001b4"
ACQUIRED = "acquired,51,2,-,-,-,-,-\n"
FIRST = f"{ACQUIRED}group,26,0,A,none,B:0000,C:0000,D:0000\n"
# after a first group
ONE_LOST = "group,104,-,?,lost,none,none,none\nlost,129,-,-,-,-,-,-\n"
AGAIN = "acquired,155,2,-,-,-,-,-\ngroup,130,0,A,none,B:0000,C:0000,D:0000\n"
TWO_LOST = "group,104,0,A,lost,B:0000,lost,none\nlost,181,-,-,-,-,-,-\nacquired,207,4,-,-,-,-,-\n"
BY_ONE = f"{FIRST}{ONE_LOST}{AGAIN}{totals(6, 0, 0, 0, 0, 0, 1, 0, 3, 0, 2, 1)}"
TEXTS = {
    "zero": ZERO,
    "zero_bytes": "".join(rf"\x{ZERO[k : k + 2]}" for k in range(0, 26, 2)),
    "million": "0" * 1048576,
    "rows": "25,A\n51,B\n77,C\n96,B\n103,D\n",
    "acquired": ACQUIRED,
    "first": FIRST,
    # of two groups the second has one bad block, or two
    "one_bad": f"{ZERO}000037400019800005a00001b4",
    "two_bad": f"{ZERO}000037400019800005240001b4",
    "by_one": BY_ONE,
    "two_of_three": f"{FIRST}{TWO_LOST}group,182,-,?,none,none,none,D:0000\n{totals(5, 0, 0, 0, 0, 0, 2, 0, 3, 0, 2, 1)}",
    "with_gap": f"{FIRST}group,104,0,A,lost,B:0000,C:0000,D:0000\n",
    "ignored_loss": "rds: --loss is ignored with --share\n",
    "ignored_of": "rds: --of is ignored without --share\n",
    "no_flips": "".join(f"total,soft{count},0,-,-,-,-,-\n" for count in range(1, 7)),
}


# ---- the table


def spelled(text: str) -> bytes:
    """The bytes of a text of the table."""

    def named(found: re.Match[str]) -> str:
        name, *numbers = found[1].split()
        return totals(*numbers) if name == "totals" else TEXTS[name]

    return codecs.escape_decode(re.sub(r"\{([a-z_]+(?: \d+)*)\}", named, text).encode())[0]  # type: ignore


def rows_of_table() -> Iterator[list[str]]:
    """The six fields of each run."""
    for line in (TOP / "tests" / "program.cases").read_text().splitlines():
        if line and not line.startswith("#"):
            fields = [*map(str.strip, line.split(" | ")), *[""] * 6][:7]
            for value in fields[6].split("; "):
                yield [field.replace("@", value) for field in fields[:6]]


ROWS = [*rows_of_table()]


def matches(wanted: bytes, text: bytes) -> bool:
    """Whether a text is as wanted: whole, or from its beginning (^), or with a part (*)."""
    if wanted[:1] == b"^":
        return text.startswith(wanted[1:])
    return wanted[1:] in text if wanted[:1] == b"*" else text == wanted


@pytest.mark.parametrize("row", ROWS, ids=[row[0] for row in ROWS])
def test_table(rds: str, row: list[str]) -> None:
    _, words, given, status, out, err = row
    ended = run(rds, *shlex.split(words), data=spelled(given))
    assert ended.status == int(status), ended.err
    assert matches(spelled(out), ended.out), ended.out
    assert matches(spelled(err), ended.err), ended.err


def test_how_many_texts_are_compared_in_part() -> None:
    # a part says less than the whole
    assert sum(field[:1] in ("*", "^") for row in ROWS for field in row[4:]) == 75


def test_argument_that_is_not_utf_8(rds: str) -> None:
    done = subprocess.run([rds, b"\xff"], capture_output=True, timeout=60)
    fault = b"error: an argument is not valid UTF-8\n"
    assert (done.returncode, done.stdout, done.stderr) == (2, b"", fault)


# ---- help


@pytest.mark.parametrize("command", ["", *COMMANDS])
def test_help_fits_80_columns(rds: str, command: str) -> None:
    assert max(map(len, said(rds, *command.split(), "--help").splitlines())) <= 80


# ---- every number of workers and pieces

EIGHT = FIRST + "".join(f"group,{at},0,A,A:0000,B:0000,C:0000,D:0000\n" for at in range(104, 729, 104))
EIGHT += totals(31, 0, 0, 0, 0, 0, 0, 0, 8, 7, 1, 0)
EACH = {
    "list --hex --loss 1 --workers": (256, TEXTS["one_bad"], BY_ONE),
    "totals --hex --loss 1 --workers": (256, TEXTS["one_bad"], BY_ONE[BY_ONE.index("total,") :]),
    # by a reach of four some guesses lock on a false phase, and stay on it
    "list --hex --reach 3 --workers 2 --pieces": (208, 8 * ZERO, EIGHT),
    "list --hex --reach 4 --workers 2 --pieces": (208, 8 * ZERO, EIGHT),
}


@pytest.mark.parametrize("words", EACH)
def test_each_number_makes_the_same(rds: str, words: str) -> None:
    last, given, text = EACH[words]
    for number in range(1, last + 1):
        assert run(rds, *words.split(), number, data=given.encode()) == (0, text.encode(), b""), number


# ---- streams


def start(*words: Any, **options: Any) -> subprocess.Popen[bytes]:
    pipes: dict[str, Any] = {name: subprocess.PIPE for name in ("stdin", "stdout", "stderr")}
    return subprocess.Popen([str(word) for word in words], **pipes | options)


def given_late(child: subprocess.Popen[bytes], *parts: bytes, pause: float = 0.02) -> Ran:
    """Writes the parts one after the other, and waits for the end."""
    assert child.stdin
    try:
        for part in parts:
            child.stdin.write(part)
            child.stdin.flush()
            time.sleep(pause)
    except BrokenPipeError:  # the stream has ended before its input
        pass
    with contextlib.suppress(BrokenPipeError):  # what is still in the buffer is written first
        child.stdin.close()
    child.stdin = None
    out, err = child.communicate(timeout=60)
    return Ran(child.returncode, out, err)


@pytest.mark.parametrize("bits", [0, 1, 7, 8, 9, *range(3100, 3113), 3199, 3200])
def test_stream_of_some_bits(rds: str, station: bytes, bits: int, cases: Cases) -> None:
    # gaps at and about the borders of chunks
    gaps: list[list[str]] = [[], ["--gaps=1591-1593,1600-1608,1999-2000,2300-2600"]] if bits >= 3100 else [[]]
    cases(len(gaps))
    begun = station[:400]
    for words in gaps:
        wanted = wrote(rds, "list", "--bits", bits, *words, data=begun)
        child = start(rds, "follow", "--bits", bits, *words)
        assert given_late(child, begun[:200], begun[200:250], begun[250:]) == (0, wanted, b"")


def test_nothing_is_read_after_the_last_byte(rds: str, station: bytes, tmp_path: Path) -> None:
    path = tmp_path / "in"
    path.write_bytes(station[:400])
    with path.open("rb") as file:
        ended = run(rds, "follow", "--bits", 803, stdin=file)
        assert os.read(file.fileno(), 1000) == station[101:400]
    assert ended == (0, wrote(rds, "list", "--bits", 803, data=station[:400]), b"")


@pytest.mark.parametrize("workers", [2, 4, 256])
def test_stream_is_listed_by_several(rds: str, station: bytes, tmp_path: Path, workers: int) -> None:
    # a file, since a read of a pipe gives 64 KiB at most; noise, in which guesses fail
    path, held = tmp_path / "in", 40 * station + random.Random(5).randbytes(300_000) + station
    path.write_bytes(held)
    with path.open("rb") as file:
        ended = run(rds, "follow", "--workers", workers, stdin=file)
    assert ended == (0, wrote(rds, "list", "--workers", 1, data=held), b"")


def test_stream_is_listed_as_its_recording(rds: str, station: bytes) -> None:
    rules = ["--burst", 5, "--share", 3, "--of", 9]
    ended = given_late(start(rds, "follow", *rules), station[:100], station[100:], pause=0.1)
    assert ended == (0, wrote(rds, "list", *rules, data=station), b"")


def follow_begun(rds: str, begun: bytes, command: Sequence[str] = ()) -> tuple[Any, bytes]:
    """A stream that has these bytes so far, and its rows by then: all but the group in progress, and no totals."""
    rows = [row for row in wrote(rds, "list", data=begun).splitlines(True) if not row.startswith(b"total")]
    child, wanted, text = start(*(command or (rds, "follow"))), b"".join(rows[:-1]), b""
    assert child.stdin and child.stdout
    child.stdin.write(begun)
    child.stdin.flush()
    os.set_blocking(child.stdout.fileno(), False)
    for _ in range(100):
        text += os.read(child.stdout.fileno(), 65536) if len(text) < len(wanted) and has_some(child) else b""
        if len(text) >= len(wanted):
            break
        time.sleep(0.05)
    assert text == wanted
    os.set_blocking(child.stdout.fileno(), True)
    return child, text


def has_some(child: subprocess.Popen[bytes]) -> bool:
    return bool(select.select([child.stdout], [], [], 0)[0])


def test_rows_come_before_more_of_the_stream(rds: str, station: bytes) -> None:
    child, text = follow_begun(rds, station[:1305])
    out, err = child.communicate(timeout=60)
    assert (child.returncode, text + out, err) == (0, wrote(rds, "list", data=station[:1305]), b"")


@pytest.mark.parametrize("number", [signal.SIGINT, signal.SIGTERM])
def test_rows_stay_if_a_stream_is_ended(rds: str, station: bytes, number: signal.Signals) -> None:
    # A shell's background job ignores SIGINT.
    child, _ = follow_begun(rds, station[:1305], ["env", "--default-signal", rds, "follow"])
    child.send_signal(number)
    assert child.communicate(timeout=60)[0] == b"" and child.returncode == -number


def test_stream_that_ignores_signals(rds: str, station: bytes) -> None:
    ignored = ["bash", "-c", "trap '' INT TERM; exec \"$0\" follow", rds]
    child, text = follow_begun(rds, station[:1305], ignored)
    child.send_signal(signal.SIGINT)
    child.send_signal(signal.SIGTERM)
    out, err = child.communicate(timeout=60)
    assert (child.returncode, text + out, err) == (0, wrote(rds, "list", data=station[:1305]), b"")


@pytest.mark.parametrize("command", ["list", "follow"])
def test_reader_that_leaves_early(rds: str, station: bytes, command: str) -> None:
    # a stream has no end; of a list there is more than a pipe holds, so that it still writes
    child = start(rds, command)
    assert child.stdin and child.stdout and child.stderr
    ended = threading.Timer(LIMIT, child.kill)
    ended.start()
    thread = threading.Thread(target=feed, args=(child.stdin, station, 10**6 if command == "follow" else 3))
    thread.start()
    try:
        assert child.stdout.readline().decode() == ACQUIRED
        child.stdout.close()
        assert child.stderr.read() == b"refused 10 Write\n" and child.wait(60) == 1
        thread.join(60)
    finally:
        ended.cancel()


def feed(pipe: Any, held: bytes, times: int) -> None:
    try:
        for _ in range(times):
            pipe.write(held)
        pipe.close()
    except BrokenPipeError:
        pass


# ---- progress

SHARE = "written [0-9]+ MB, rows of [1-9][0-9]? % of the bits, [0-9]+ s left"
PROGRESS = {
    "list --pieces 2 --workers 2": "decoded [12] of 2 pieces, [0-9]+ s left",
    "list --pieces 2 --workers 1": "decoded [12] of 2 pieces, [0-9]+ s left",
    "list --workers 1": SHARE,
    "scan --workers 2": SHARE,
    "scan --bits 1500000": SHARE,
}


@pytest.mark.parametrize("words", PROGRESS)
def test_progress_line(rds: str, station: bytes, words: str) -> None:
    """Input and reader are late. test_progress.py looks at the numbers and times of lines."""
    child = start(rds, *words.split(), "--progress")
    time.sleep(0.8)
    thread = threading.Thread(target=feed, args=(child.stdin, 8 * station, 1))
    thread.start()
    time.sleep(1.2)
    child.stdin = None
    out, err = child.communicate(timeout=60)
    thread.join(60)
    assert (child.returncode, out) == (0, wrote(rds, *words.split(), data=8 * station))
    lines = err.decode().split("\r")
    assert any(re.fullmatch(PROGRESS[words], line) for line in lines), f"no line of this form: {lines}"


# ---- devices and limits

REFUSED = {
    "closed input | scan --hex <&-": "9 Read",
    "settings before closed input | list --loss 0 <&-": "3 LossRange",
    "closed input of a stream | follow <&-": "9 Read",
    "settings of a closed stream | follow --workers 0 <&-": "7 CrewRange",
    "rules before workers | follow --loss 0 --workers 257 <&-": "3 LossRange",
    "closed output | scan --hex <$IN >&-": "10 Write",
    "closed output of a stream | follow --bits 40 <$IN >&-": "10 Write",
    "full output | scan --hex <$IN >/dev/full": "10 Write",
    "full output of a stream | follow <$IN >/dev/full": "10 Write",
    "help into full output | --help >/dev/full": "10 Write",
    "version into full output | --version >/dev/full": "10 Write",
    "help list into full output | help list >/dev/full": "10 Write",
    "list --help into full output | list --help >/dev/full": "10 Write",
    "help into closed output | --help >&-": "10 Write",
    "version into closed output | --version >&-": "10 Write",
}


def by_shell(rds: str, text: str, **variables: object) -> Ran:
    names = {name: str(value) for name, value in variables.items()}
    return run("bash", "-c", text, env={**os.environ, "RDS": rds, **names})


@pytest.mark.parametrize("row", REFUSED)
def test_device(rds: str, tmp_path: Path, row: str) -> None:
    (tmp_path / "in").write_text(ZERO)
    ended = by_shell(rds, f'"$RDS" {row.split(" | ")[1]}', IN=tmp_path / "in")
    assert ended == (1, b"", f"refused {REFUSED[row]}\n".encode())


@pytest.mark.parametrize("trap, status, err", [("", 153, b""), ("trap '' XFSZ; ", 1, b"refused 10 Write\n")])
def test_past_a_file_size_limit(rds: str, tmp_path: Path, trap: str, status: int, err: bytes) -> None:
    # a file may have a block: the system ends the program by SIGXFSZ, and if that is ignored, writing fails
    script = f'({trap}ulimit -f 1; "$RDS" list <{SAMPLE} >$OUT 2>$ERR) 2>/dev/null'
    ended = by_shell(rds, script, OUT=tmp_path / "out", ERR=tmp_path / "err")
    assert ended.status == status and (tmp_path / "err").read_bytes() == err
    assert (tmp_path / "out").read_text().startswith(ACQUIRED)


# The system puts the stack at another place each time, and what is there before counts too: so once is not enough.
@pytest.mark.parametrize(
    "kib, words, times",
    [
        (192, "list --workers 1", 1),
        (192, "list --workers 4", 8),
        (192, "follow", 1),
        (576, "follow --workers 256", 8),
    ],
)
def test_stack(
    rds: str, station: bytes, kib: int, words: str, times: int, tmp_path: Path, cases: Cases
) -> None:
    cases(times)
    # more than a read of `follow` takes
    (tmp_path / "bits").write_bytes(station * (2**18 // len(station) + 1))
    for _ in range(times):
        ended = by_shell(rds, f'ulimit -s {kib}; exec "$RDS" {words} <{tmp_path}/bits')
        assert (ended.status, ended.err) == (0, b"") and ended.out.decode().startswith(ACQUIRED)


@pytest.mark.parametrize("command", ["totals", "list"])
def test_64_workers_in_380_mb_of_address_space(rds: str, command: str) -> None:
    # their stacks are small: the system's default of 8 MB each would not fit
    words = f"{command} --workers 64 --pieces 64 <{SAMPLE}"
    ended = by_shell(rds, f'ulimit -s 8192 -v 380000; exec "$RDS" {words}')
    assert (ended.status, ended.err) == (0, b"") and b"total,valid," in ended.out


def test_input_that_does_not_block(rds: str) -> None:
    read_end, write_end = os.pipe()
    os.set_blocking(read_end, False)
    assert run(rds, "scan", stdin=read_end) == (1, b"", b"refused 9 Read\n")
    os.close(read_end)
    os.close(write_end)


def test_output_that_does_not_block(rds: str, station: bytes) -> None:
    read_end, write_end = os.pipe()
    os.set_blocking(write_end, False)
    assert run(rds, "list", data=3 * station, stdout=write_end)[::2] == (1, b"refused 10 Write\n")
    os.close(read_end)
    os.close(write_end)


def test_too_long_input_is_read_to_its_end(rds: str, station: bytes) -> None:
    # it is more than a pipe holds
    child = start(rds, "scan", "--bits", 68719476737)
    assert child.stdin and child.stdout and child.stderr
    child.stdin.write(2 * station)
    assert child.poll() is None
    child.stdin.close()
    assert (child.wait(60), child.stdout.read(), child.stderr.read()) == (1, b"", b"refused 5 TooLong\n")
