"""Recovery after a watch was killed: hours' files are made whole, and the database gets the rows that it lacks."""

import io
import os
from typing import Iterator, List, Optional, Tuple

import numpy

from ..db.parts import Contents, Part
from ..rows.clock import Clock
from ..rows.compressed import HEAD, decompressed
from ..rows.hours import hour_of
from ..rows.items import BLOCK_BITS, ITEM, Fault, Reading, Rows
from ..rows.listing import Listing, ends_of
from .compress import SUFFIX
from .records import OpenPart, PartGrew, PartKey, PartOpened, PartTold, Records
from .repair import make_whole
from .times import Timing


def recover(folder: str, stations: List[str], records: Records) -> List[str]:
    """Gives the paths of the hours that were looked at."""
    for station in stations:
        # Its last hour, if the database was not told of it before the end.
        path = os.path.join("listings", station)
        whole = os.path.join(folder, path)
        entries = os.listdir(whole) if os.path.isdir(whole) else []
        names = sorted(entry for entry in entries if hour_of(entry) and entry.endswith(".csv"))
        for name in sorted(names, key=lambda name: os.stat(os.path.join(whole, name)).st_mtime)[-2:]:
            known = os.path.join(path, name)
            if not records.knows(known, known + SUFFIX):
                _open(folder, station, known, records)
    found = records.open_parts()
    for entry in found:
        replay(folder, entry, records)
    return [part.path for part in found]


def _open(folder: str, station: str, path: str, records: Records) -> None:
    hour = hour_of(path)
    assert hour is not None
    make_whole(os.path.join(folder, path))
    rows = _readable(os.path.join(folder, path))[0]
    if len(rows):
        timing = Timing(hour.start, hour.rate)
        begin = max(0, int(rows["place"][0]) - BLOCK_BITS)
        key = PartKey(f"{station} {os.path.basename(path)}", 0)
        records.write([PartOpened(key, station, timing, begin, path)])


def rows_of(path: str) -> Tuple[Rows, List[int]]:
    """The rows of an hour's file, and the number of bytes up to the end of each."""
    with open(path, "rb") as file:
        data = file.read()
    unpacked = decompressed(io.BytesIO(data[HEAD:]), data[:HEAD])
    data = b"".join(iter(unpacked.read, b"")) if unpacked else data
    source = Listing(io.BytesIO(data), b"", Reading(unfinished_ok=True))
    rows: Rows = numpy.concatenate([numpy.zeros(0, ITEM), *source.chunks()])
    return rows, (numpy.flatnonzero(numpy.frombuffer(data, "u1") == 10)[: len(rows)] + 1).tolist()


def _readable(path: str) -> Tuple[Rows, List[int]]:
    """No row of a file that is damaged: one hour must not keep all stations from being watched."""
    try:
        return rows_of(path)
    except Fault:
        return rows_of(os.devnull)


def replay(folder: str, opened: OpenPart, records: Records) -> None:
    """Takes the rows of a part once more, and writes what the database lacks: it has what the first bytes of the file tell."""
    path = os.path.join(folder, opened.path)
    size = make_whole(path) if os.path.exists(path) else 0
    contents = Contents(opened.timing.rate)
    for before in _before(folder, opened, records):
        for event in contents.decoder.feed(before):
            contents.take(event)
        contents.outages.add(before)
    if contents.outages.end is None:
        contents.outages.end = opened.quiet  # an outage that began before that hour
    part = Part(Clock(*opened.timing), opened.begin, contents)
    rows, ends = _readable(path if size else os.devnull)
    told = int(numpy.searchsorted(numpy.array(ends, "i8"), opened.size, "right"))
    part.add(rows[:told])
    known = part.taken()
    # Minutes that are there stay as they are; those that were lost with the watch's last second are told now.
    known.events.clear()
    known.outages.clear()
    part.add(rows[told:])
    end = max([opened.end, *map(int, ends_of(rows[-1:]))])
    part.close(end, last=True)
    told_again = [PartTold(opened.key, one) for one in (known, part.taken())]
    records.write([*told_again, PartGrew(opened.key, end, size, closed=True)])


def _before(folder: str, part: OpenPart, records: Records) -> Iterator[Rows]:
    """The rows of the hour before, by which the contents are known that hold in this one."""
    path: Optional[str] = records.path_of(PartKey(part.key.recording, part.key.number - 1))
    if path and os.path.exists(os.path.join(folder, path)):
        try:
            yield rows_of(os.path.join(folder, path))[0]
        except Fault:
            return
