"""The decoder: librds, or a process of the program rds.

Both give the same rows at the same time, and raise the same `Fault`. A decoder is made of rules, gaps and the number of bits to
decode, if that is known. `place` is how many bits were pushed, and `place_after` counts bytes to come too. `push` gives all rows
that the bits so far complete. `finish` takes the first `bits` of the last bytes, and gives the last rows and the totals. By rules
with a margin bytes are symbols, one more than bits, and `finish` takes none."""

import array
import fcntl
import importlib
import os
import shutil
import signal
import subprocess
import termios
import time
from functools import partial
from pathlib import Path
from typing import Any, Callable, List, Optional, Sequence, Tuple, Union

from .items import Fault, Rows, Rules, Totals, cause, joined
from .listing import SOFT_NAMES, TOTAL_NAMES, TOTAL_ROW, totals_from
from .parse import parse
from .soft_end import PADDING, SoftTotals, rows_before

# systemd and a terminal signal all processes of a watch at once. The decoder ends when its input does, and not before.
SHIELD = 'trap "" TERM INT HUP QUIT; exec "$0" "$@"'
# Seconds without any progress after which a program hangs. systemd's watchdog has twice as many.
PATIENCE = 30.0
FIRST_PAUSE, LONGEST_PAUSE = 0.0002, 0.01

Gaps = Sequence[Tuple[int, int]]


class Pushed:
    """How much was pushed to a decoder."""

    def __init__(self, is_soft: bool):
        self.is_soft, self.bytes = is_soft, 0

    @property
    def place(self) -> int:
        return self.place_after(0)

    def place_after(self, size: int) -> int:
        return max(0, self.bytes + size - 1) if self.is_soft else 8 * (self.bytes + size)


class ByLibrary(Pushed):
    """By librds, in this process."""

    def __init__(self, rules: Rules = Rules(), gaps: Gaps = (), bits: Optional[int] = None) -> None:
        super().__init__(rules.margin > 0)
        self._librds, given = library(), list(gaps)
        *four, margin = rules
        self._follower: Any = self._tried(
            lambda: self._librds.SoftFollower(self._librds.Rules(*four), given, margin)
            if margin
            else self._librds.Follower(self._librds.Rules(*four), given)
        )
        self._soft_totals = SoftTotals()

    def _tried(self, call: Callable[[], Any]) -> Any:
        try:
            return call()
        except self._librds.Refused as error:
            raise Fault(str(error)) from None

    def push(self, data: bytes) -> Rows:
        rows: Rows = self._tried(lambda: self._follower.push_array(data))
        self.bytes += len(data)
        if self.is_soft:
            self._soft_totals.take(rows)
        return rows

    def finish(self, data: bytes = b"", bits: int = 0) -> Tuple[Rows, Totals]:
        if self.is_soft:
            rows = rows_before(self._tried(lambda: self._follower.push_array(PADDING)), self.place)
            return rows, self._soft_totals.take(rows)
        rows, found = self._tried(lambda: self._follower.finish_array(data, bits))
        told: Any = (getattr(found, name, ()) for name in Totals._fields)
        return rows, Totals(*told)


class ByProgram(Pushed):
    """By a process `rds follow`, which starts with the first bits; of symbols by the job `soft_job`."""

    def __init__(
        self,
        program: str,
        rules: Rules = Rules(),
        gaps: Gaps = (),
        bits: Optional[int] = None,
        soft_job: str = "follow",
    ) -> None:
        super().__init__(rules.margin > 0)
        job = soft_job if self.is_soft else "follow"
        self._program, self._words = program, [job, *_words(rules, gaps, bits)]
        self._process: Optional["subprocess.Popen[bytes]"] = None
        self._text = b""  # what it wrote and was not taken yet

    def push(self, data: bytes) -> Rows:
        if not data:
            return parse(b"")[0]
        self._start()
        self.bytes += len(data)
        self._work(memoryview(data))
        return self._taken()

    def finish(self, data: bytes = b"", bits: int = 0) -> Tuple[Rows, Totals]:
        self._start()
        try:
            self._end(memoryview(data[: (bits + 7) // 8]))
        except OSError as error:
            raise Fault(f"{self._program}: {cause(error)}") from None
        rows, totals = self._taken(), self._totals()
        if totals is None:
            raise Fault(self._why())
        self._err.close()
        return rows, totals

    def _start(self) -> None:
        """Once."""
        if self._process:
            return
        pipe, words = subprocess.PIPE, ["/bin/sh", "-c", SHIELD, self._program, *self._words]
        try:
            self._process = subprocess.Popen(
                words, stdin=pipe, stdout=pipe, stderr=pipe, start_new_session=True, bufsize=0
            )
        except OSError as error:
            raise Fault(f"{self._program} cannot be started: {cause(error)}") from None
        streams: Any = (self._process.stdin, self._process.stdout, self._process.stderr)
        self._in, self._out, self._err = streams
        for stream in streams:
            os.set_blocking(stream.fileno(), False)

    def _work(self, rest: memoryview) -> None:
        """Gives the program these bytes, and takes what it writes, until it waits for more bytes."""
        assert self._process
        pause, end = FIRST_PAUSE, time.monotonic() + PATIENCE
        unread, stat = array.array("i", [0]), Path(f"/proc/{self._process.pid}/stat")
        before: Tuple[int, int] = (0, 0)
        while True:
            rest = rest[self._write(rest) :]
            # How many bytes wait in its input; and whether it waits, which it does only for input and for room in its output.
            fcntl.ioctl(self._in.fileno(), termios.FIONREAD, unread)
            waits = not rest and not unread[0] and stat.read_bytes().rpartition(b") ")[2][:1] == b"S"
            if self._read() or (len(rest), unread[0]) != before:
                before = len(rest), unread[0]
                pause, end = FIRST_PAUSE, time.monotonic() + PATIENCE
            elif waits:
                return  # it slept before the read found nothing, so it has not more to write
            elif time.monotonic() > end:
                self._process.kill()
                raise Fault(f"{self._program} did nothing for {PATIENCE:g} s")
            else:
                time.sleep(pause)
                pause = min(2 * pause, LONGEST_PAUSE)

    def _write(self, data: memoryview) -> int:
        # A program that has ended must not end this one.
        blocked = signal.pthread_sigmask(signal.SIG_BLOCK, {signal.SIGPIPE})
        try:
            return int(self._in.write(data) or 0) if data else 0
        except BrokenPipeError:
            signal.sigtimedwait({signal.SIGPIPE}, 0)
            self._read()
            raise Fault(self._why()) from None
        finally:
            signal.pthread_sigmask(signal.SIG_SETMASK, blocked)

    def _read(self) -> bool:
        """Whether it had written something."""
        data = self._out.read(1 << 18)
        if data == b"":
            raise Fault(self._why())
        self._text += data or b""
        return bool(data)

    def _why(self) -> str:
        """How it ended before its input. A refusal reads as that of librds."""
        status, said = self._status(), self._err.read() or b""
        if status == 1 and said.startswith(b"refused "):
            return said.decode().splitlines()[0]
        return f"{self._program} {how_ended(status, said)}"

    def _status(self) -> int:
        assert self._process
        try:
            return self._process.wait(1)
        except subprocess.TimeoutExpired:
            self._process.kill()
            return self._process.wait()

    def _end(self, last: memoryview) -> None:
        """Ends its input with these bytes, and takes the rest of what it writes."""
        self._write(last)
        self._in.close()
        end = time.monotonic() + PATIENCE
        while time.monotonic() < end:
            data = self._out.read(1 << 18)
            if data == b"":
                break
            self._text += data or b""
            if data is None:
                time.sleep(FIRST_PAUSE)
        self._status()
        self._out.close()

    def _taken(self) -> Rows:
        """The rows of the whole lines so far, but those of totals."""
        end = self._text.find(b"total,")
        end = self._text.rfind(b"\n") + 1 if end < 0 else end
        lines, self._text = self._text[:end], self._text[end:]
        rows, bad = parse(lines)
        if bad:
            raise Fault(f"{self._program} writes no listing: {lines.splitlines()[bad.row][:80]!r}")
        return rows

    def _totals(self) -> Optional[Totals]:
        found = [TOTAL_ROW.fullmatch(line) for line in self._text.splitlines()]
        names = TOTAL_NAMES + (SOFT_NAMES if self.is_soft else [])
        if [entry[1].decode() if entry else "" for entry in found] != names:
            return None
        return totals_from([int(entry[2]) for entry in found if entry])


def _words(rules: Rules, gaps: Gaps, bits: Optional[int]) -> List[str]:
    burst, reach, loss, of, margin = rules
    words = ["--soft", f"--margin={margin}"] if margin else [f"--burst={burst}"]
    words += [f"--reach={reach}"]
    words += [f"--share={loss}", f"--of={of}"] if of else [f"--loss={loss}"]
    words += [f"--gaps={','.join(f'{begin}-{end}' for begin, end in gaps)}"] if gaps else []
    return words + ([] if bits is None else [f"--bits={bits}"])


def how_ended(status: int, said: bytes) -> str:
    """In words, by the status of a process and what it said on standard error."""
    how = f"ended with status {status}" if status >= 0 else f"was ended by {_signal_name(-status)}"
    lines = said.decode("utf-8", "backslashreplace").split("\n")
    last = next((line.strip() for line in reversed(lines) if line.strip()), "")
    return how + (f": {last}" if last else "")


def _signal_name(number: int) -> str:
    try:
        return signal.Signals(number).name
    except ValueError:
        return f"signal {number}"


StreamDecoder = Union[ByLibrary, ByProgram]
NewDecoder = Callable[..., StreamDecoder]
CURE = "install python3-librds or rds, or name librds.so.0 in RDS_LIBRARY or the program in RDS; a listing needs neither"


def library() -> Any:
    return importlib.import_module("librds")


def rds_program() -> str:
    """The program rds, as the environment names it."""
    return os.environ.get("RDS") or "rds"


def decoder_of(program: Optional[str] = None, soft: Sequence[str] = ()) -> Tuple[NewDecoder, str]:
    """The decoder and its name: the program that a table or a command line names, or else librds, or else rds. For soft decisions
    `soft` has the jobs that do, if it is a program: the first one that it has is taken."""
    if program is not None:
        return by_program(program, soft)
    try:
        librds = library()
        if soft and not hasattr(librds, "SoftFollower"):
            raise ImportError("this librds has no soft decisions")
        return ByLibrary, f"librds {'.'.join(map(str, librds.version()))}"
    except (ImportError, OSError) as error:
        why = str(error).partition(": install")[0]
    try:
        return by_program(rds_program(), soft)
    except Fault as error:
        raise Fault(f"there is neither librds nor rds to decode by ({why}; {error}): {CURE}") from None


def by_program(program: str, soft: Sequence[str] = ()) -> Tuple[NewDecoder, str]:
    """Of a program that answers."""
    path = shutil.which(program)
    if path is None:
        raise Fault(f"there is no program {program!r}")
    if not _said(path, "--version").startswith(b"rds "):
        raise Fault(f"{path} is not the program rds")
    whole, jobs = os.path.abspath(path), [job for job in soft if _said(path, job, "--soft")]
    if soft and not jobs:
        raise Fault(f"{path} has no soft decisions ({' or '.join(soft)} --soft)")
    return partial(ByProgram, whole, soft_job=jobs[0]) if jobs else partial(ByProgram, whole), whole


def _said(path: str, *words: str) -> bytes:
    """What a program writes without an input."""
    null = subprocess.DEVNULL
    try:
        return subprocess.run([path, *words], stdin=null, capture_output=True, timeout=PATIENCE).stdout
    except (OSError, subprocess.TimeoutExpired) as error:
        raise Fault(f"{path} cannot be run: {error}") from None


def decode(data: bytes) -> Tuple[Rows, Totals]:
    decoder = decoder_of()[0]()
    rows = decoder.push(data)
    last, totals = decoder.finish()
    return joined([rows, last]), totals
