"""The reception of a station, judged as a plugin of a monitoring system: one line, performance data, and an exit status.

What cannot be judged is UNKNOWN, whatever the reason: an error in the command line too."""

import argparse
import io
import os
import sys
import time
from collections import deque
from typing import List, NoReturn, Optional, Sequence, Tuple

import numpy

from ..content.decoder import Decoder
from ..measures.measure import Programmes
from ..rows.clock import RATE, number_of, option_type, rate_of
from ..rows.compressed import decompressed
from ..rows.heads import is_listing
from ..rows.hours import hour_of
from ..rows.inputs import length_of, recording_options, rules_of
from ..rows.items import BLOCK_BITS, CORRECTED, GROUP_BITS, VALID
from ..rows.items import Fault, Readable, Reading, Rows, Source, cause
from ..rows.listing import Listing, begins_of, ends_of, groups_in, kinds_of
from ..rows.recording import Recording
from .asked import judge_station
from .verdict import UNKNOWN, WORDS, Limits, Seen, Verdict

# A second of a listing has at most 140 rows: an acquisition, a group and a loss per block; a row, at most 80 bytes.
LISTING_BYTES = 140 * 80
NAMES_FOR = 60.0  # a dynamic PS shows all of its parts within a minute
PAUSE = 5.0  # a file that was written to less than this ago may just be between two writes


class Reception:
    """What the rows of one session tell. `begin` and `end` are the positions of the judged part."""

    def __init__(self, rate: float, names: bool):
        self._rate = rate
        self._programmes = Programmes(3, 10 * rate)
        self._decoder = Decoder() if names else None
        self.begin = self.end = 0
        self.valid = self.corrected = 0
        self.whole_until: Optional[int] = None
        self.pi: Optional[int] = None
        self._names: List[Tuple[int, str]] = []

    def add(self, rows: Rows) -> None:
        if not len(rows):
            return
        self.end = max(self.end, int(ends_of(rows[-1:])[0]))
        groups = groups_in(rows)
        kinds = kinds_of(groups)
        self.valid += int((kinds == VALID).sum())
        self.corrected += int((kinds == CORRECTED).sum())
        whole = groups["place"][(kinds == VALID).all(axis=1)]
        if len(whole):
            self.whole_until = int(whole[-1]) + GROUP_BITS
        for programme in self._programmes.add(rows):
            self.pi = programme.pi
        for event in self._decoder.feed(rows) if self._decoder else []:
            if event.item == "ps":
                self._names.append((event.place, event.text))

    def close(self) -> None:
        for programme in self._programmes.close():
            self.pi = programme.pi

    def names(self) -> List[str]:
        """The PS that held within the last minute, the last one last."""
        since = self.end - NAMES_FOR * self._rate
        before = [name for place, name in self._names if place < since]
        return before[-1:] + [name for place, name in self._names if place >= since]


def received(source: Source, last: Optional[float], rate: float, names: bool) -> Reception:
    """What the last session of a source tells: of its last seconds, if only these are judged."""
    reception = Reception(rate, names)
    kept: List[Rows] = []
    session = 0
    for rows in source.chunks():
        if isinstance(source, Listing) and source.session != session:
            session, kept, reception = source.session, [], Reception(rate, names)
        if not len(rows):
            continue
        if last is None:
            if not reception.end and isinstance(source, Listing) and source.is_part:
                reception.begin = int(begins_of(rows[:1])[0])
            reception.add(rows)
            continue
        kept.append(rows)
        since = int(ends_of(rows[-1:])[0]) - last * rate
        while len(kept) > 1 and begins_of(kept[1][:1])[0] <= since:
            del kept[0]
    if last is not None:
        _add_last(reception, kept, source, last, rate)
    if source.length is not None:
        reception.end = source.length
    reception.close()
    return reception


def _add_last(reception: Reception, kept: List[Rows], source: Source, last: float, rate: float) -> None:
    if not kept:
        return
    end = source.length if source.length is not None else int(ends_of(kept[-1][-1:])[0])
    first = 0 if source.length is not None else int(begins_of(kept[0][:1])[0])
    reception.begin = max(first, int(end - last * rate))
    rows = numpy.concatenate(kept)
    begins = begins_of(rows)
    rows, begins = rows[begins >= reception.begin], begins[begins >= reception.begin]
    if len(rows) and begins[0] < reception.begin + GROUP_BITS:
        reception.begin = int(begins[0])  # the group that the first second cuts is left out whole
    reception.add(rows)


def open_end(paths: Sequence[str], last: Optional[float], arguments: argparse.Namespace) -> Source:
    """The source of files that follow one another: of their ends, if only the last seconds are judged."""
    parts = [_open(path) for path in paths]
    head = next((head for head, _ in parts if head), b"")
    if not head:
        raise Fault(f"there is nothing in {paths[-1]}")
    listed = is_listing(head)
    if not listed and arguments.length is not None:
        raise Fault("--length is for a listing")
    bytes_per_second = arguments.rate if arguments.soft else arguments.rate / 8
    if all(path != "-" and os.path.isfile(path) for path in paths):
        if last is not None:
            parts = _ends(parts, int(last * (LISTING_BYTES if listed else bytes_per_second) + 1), listed)
    elif len(parts) > 1:
        raise Fault("of several inputs each must be a file")
    data = _Chain([stream for head, stream in parts for stream in (io.BytesIO(head), stream)])
    if listed:
        length = None if arguments.length is None else length_of(arguments.length)
        part = last is not None or all(map(hour_of, paths))
        how = Reading(unfinished_ok=part, length=length, trust_length=True, sessions=True)
        return Listing(data, b"", how)
    return Recording(data, b"", Reading(rules_of(arguments)), None, None)


Opened = Tuple[bytes, Readable]  # the first bytes of an input, and the rest


def _open(path: str) -> Opened:
    try:
        file = sys.stdin.buffer if path == "-" else open(path, "rb")
    except FileNotFoundError:
        raise Fault(f"there is no file {path} to read") from None
    except OSError as error:
        raise Fault(f"{path} cannot be read: {error.strerror}") from None
    head = file.read(4096)
    unpacked = decompressed(file, head)
    if unpacked:
        return unpacked.read(4096), unpacked
    return head, file


def _ends(parts: Sequence[Opened], most: int, cut_line: bool) -> List[Opened]:
    """The last `most` bytes of files, from the beginning of a line if they are listings."""
    found: List[Opened] = []
    for head, stream in reversed(parts):
        file = stream if isinstance(stream, io.BufferedIOBase) else _tail(head, stream, most)
        size = file.seek(0, os.SEEK_END)
        begin = max(0, size - most)
        # From the byte before, so that a line that begins there is kept.
        file.seek(max(0, begin - 1) if cut_line else begin)
        if begin and cut_line:
            file.readline()
        found.insert(0, (b"", file))
        most -= size - begin
        if most <= 0:
            break
    return found


def _tail(head: bytes, stream: Readable, most: int) -> io.BytesIO:
    """At least the last `most` bytes of a compressed file, and one more if it has it."""
    kept, size = deque([head]), len(head)
    while True:
        data = stream.read(1 << 16)
        if not data:
            return io.BytesIO(b"".join(kept))
        kept.append(data)
        size += len(data)
        while size - len(kept[0]) > most:
            size -= len(kept.popleft())


class _Chain:
    """Streams one after the other."""

    def __init__(self, streams: List[Readable]):
        self._streams = streams

    def read(self, size: int, /) -> bytes:
        data = b""
        while self._streams and len(data) < size:
            more = self._streams[0].read(size - len(data))
            data += more
            if not more:
                del self._streams[0]
        return data


def seen_in(reception: Reception, quiet: float, rate: float) -> Seen:
    """`quiet` is how many seconds ago the file was written to."""
    if quiet >= PAUSE:
        reception.end += int(quiet * rate)
    age = None
    if reception.whole_until is not None:
        age = (reception.end - reception.whole_until) / rate + (quiet if quiet < PAUSE else 0)
    sent = (reception.end - reception.begin) // BLOCK_BITS
    if not sent:
        raise Fault("there is no block in it")
    # Of the blocks sent. A block more than was sent whole may be read where the input is cut.
    counts = reception.valid, reception.corrected
    valid, corrected = (min(100.0, 100 * count / sent) for count in counts)
    pi = None if reception.pi is None else f"{reception.pi:04X}"
    return Seen(valid, corrected, age, pi, [name.strip() for name in reception.names()])


def report(status: int, text: str, data: str = "") -> int:
    """The one line: another bar in it would begin the data, and the rest comes from strangers."""
    plain = text.replace("|", "/").replace("\n", " ")
    shown = "".join(sign if sign.isprintable() else f"\\x{ord(sign):02x}" for sign in plain)
    line = f"RDS {WORDS[status]} - {shown}" + (f" | {data}" if data else "") + "\n"
    sys.stdout.buffer.write(line.encode("utf-8", "backslashreplace"))
    return status


def percent_of(text: str) -> float:
    value = number_of(text)
    if value > 100:
        raise argparse.ArgumentTypeError(f"{text!r} is above 100 per cent")
    return value


pi_of = option_type("[0-9A-Fa-f]{4}", str.upper, "is not four hexadecimal digits")


def name_of(text: str) -> str:
    if not text.strip():
        raise argparse.ArgumentTypeError("a name is not empty")
    return text


def options_check(parser: argparse.ArgumentParser) -> None:
    parser.description = (
        "Judge the reception of a station, by the convention of Nagios and Icinga: one line, performance data, and the "
        "status 0 OK, 1 WARNING, 2 CRITICAL or 3 UNKNOWN. Of a stream that was restarted, its last session is judged."
    )
    parser.epilog = (
        "examples:\n  rds-monitor check --pi D393 --name 'PAXO*' recording.bin\n"
        "  rds-monitor check --last 300 -w 95 -c 80 growing.csv\n"
        "  rds-monitor check --last 300 last-hour.csv this-hour.csv\n"
        "  rds-monitor check --station Alpha /var/lib/rds-monitor/watch.db"
    )
    setattr(parser, "on_error", misused)
    text = "a recording or a listing, or several files that follow one another"
    parser.add_argument("input", nargs="+", metavar="INPUT", help=text)
    text = "judge the last seconds of a file that is being written"
    parser.add_argument("--last", type=number_of, metavar="SECONDS", help=text)
    text = "judge this station by the database of `rds-monitor watch`"
    parser.add_argument("--station", metavar="NAME", help=text)
    limits = parser.add_argument_group("limits")
    for name, kind, unit, text in (
        ("-w", percent_of, "PERCENT", "warning: fewer blocks are valid (90, or -c above)"),
        ("-c", percent_of, "PERCENT", "critical: fewer blocks are valid (50, or -w below)"),
        ("-W", number_of, "SECONDS", "warning: the last valid group is older (10, or -C below)"),
        ("-C", number_of, "SECONDS", "critical: the last valid group is older (60, or -W above)"),
    ):
        limits.add_argument(name, type=kind, metavar=unit, help=text)
    limits.add_argument("--pi", type=pi_of, metavar="DIGITS", help="critical: another PI was received last")
    limits.add_argument(
        "--name",
        type=name_of,
        action="append",
        default=[],
        metavar="PATTERN",
        help="critical: no PS of the last minute fits, in which * is any text and ? any character; warning: there was "
        "none; may be given more than once",
    )
    recording_options(parser)
    listing = parser.add_argument_group("for a listing")
    listing.add_argument("--length", metavar="FILE|BITS", help="its recording, or how many bits that has")
    text = "bits per second (%(default)s)"
    parser.add_argument("--rate", type=rate_of, default=RATE, metavar="BITS", help=text)


def misused(message: str) -> NoReturn:
    sys.exit(report(UNKNOWN, f"{message} (rds-monitor check --help)"))


def run_check(arguments: argparse.Namespace) -> int:
    try:
        return _run(arguments)
    except Fault as error:
        return report(UNKNOWN, str(error))
    except OSError as error:
        return report(UNKNOWN, f"{error.filename or 'reading'}: {cause(error)}")
    except Exception as error:  # noqa: BLE001 - a plugin that dies must not look like a warning
        return report(UNKNOWN, f"{type(error).__name__}: {error}")


def limits_of(arguments: argparse.Namespace) -> Limits:
    """A limit that is not given does not contradict the one that is."""
    low, lowest, old, oldest = arguments.w, arguments.c, arguments.W, arguments.C
    if low is not None and lowest is not None and low < lowest:
        raise Fault(f"-w {low:g} is below -c {lowest:g}: no warning would come")
    if old is not None and oldest is not None and old > oldest:
        raise Fault(f"-W {old:g} is above -C {oldest:g}: no warning would come")
    return Limits(
        max(90.0, lowest or 0.0) if low is None else low,
        min(50.0, 100.0 if low is None else low) if lowest is None else lowest,
        min(10.0, 10.0 if oldest is None else oldest) if old is None else old,
        max(60.0, old or 0.0) if oldest is None else oldest,
    )


def _run(arguments: argparse.Namespace) -> int:
    wanted = limits_of(arguments), arguments.pi, arguments.name
    if arguments.station is not None:
        return report_of(judge_station(arguments.input, arguments.station, *wanted))
    if arguments.last is not None and arguments.length is not None:
        raise Fault("a listing that is being written has no --length")
    if arguments.last == 0:
        raise Fault("--last takes more than 0 seconds")
    source = open_end(arguments.input, arguments.last, arguments)
    reception = received(source, arguments.last, arguments.rate, bool(arguments.name))
    quiet, paths = 0.0, arguments.input
    if arguments.last is not None and all(map(os.path.isfile, paths)):
        last = max(os.stat(path).st_mtime for path in paths if os.stat(path).st_size)
        quiet = max(0.0, time.time() - last)
    verdict = Verdict()
    verdict.judge(seen_in(reception, quiet, arguments.rate), *wanted)
    return report_of(verdict)


def report_of(verdict: Verdict) -> int:
    return report(verdict.status, ", ".join(verdict.said), " ".join(verdict.data))
