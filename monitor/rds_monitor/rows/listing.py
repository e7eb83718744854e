"""The reader and the writer of listings, the text of `rds list` and `rds follow`.

The reader takes no row that it would not write again in the same bytes: it compares the type and version of a group with its blocks,
each row with the one before, and the totals with the rows. Lines may end in CR LF, and UTF-8 may begin with its mark. Rows are parsed by
numpy over the bytes of many lines at once (parse.py); the order of rows is judged here."""

import re
from itertools import chain
from typing import Iterator, List, Optional, Sequence, Tuple

import numpy

from .heads import HEADER
from .items import ACQUIRED, BLOCKS, BLOCK_BITS, CORRECTED, GROUP, GROUP_BITS, ITEM, LONGEST, LOSS, MISSING
from .items import Fault, Readable, Reading, Rows, Totals, add_totals, chosen, joined, totals_of
from .parse import FIRST, LAST, TOTAL, Bad, parse, read_pattern

TOTAL_NAMES = "valid burst1 burst2 burst3 burst4 burst5 lost bits groups complete acquired losses".split()
# Blocks that soft decisions corrected, by how many symbols they flipped; the last ones flipped six or more.
SOFT_NAMES = [f"soft{flips}" for flips in range(1, 7)]
TOTAL_ROW = re.compile(rb"total,([a-z0-9]+),(0|[1-9][0-9]{0,19}),-,-,-,-,-")
LINES = 1 << 19
LONGEST_LINE = 1 << 12  # no row has a tenth of it
CUT = "the listing does not end in its totals: it is cut off, or rds has not ended (--unfinished accepts it)"


class Listing:
    """A listing as a source of rows. With `unfinished_ok` it may be a part of one. With `sessions` it may be several, one after the
    other, such as of a stream that was restarted: `session` counts them, and is that of the chunk that was given last.
    """

    def __init__(self, stream: Readable, head: bytes, how: Reading = Reading()):
        self.length, self.session, self.is_soft = how.length, 0, how.is_soft
        self.is_part = how.unfinished_ok  # a part tells nothing of what was before its first row
        # Of the session before, and of this one once they were read.
        self.totals_before: Optional[Totals] = None
        self.totals: Optional[Totals] = None
        self._stream, self._head = stream, head
        self._trusted, self._sessions = how.trust_length, how.sessions
        self._begin_session()

    def _next_session(self) -> None:
        self._close(final=False)
        self.totals_before = self.totals
        self.session += 1
        self._begin_session()

    def _begin_session(self) -> None:
        self._last: Optional[Rows] = None
        self.end = 0  # the position after the last bit that a row tells of, so far
        self._counted, self._corrected = totals_of(numpy.zeros(0, ITEM)), 0
        self._found: List[int] = []
        self.totals = None

    def chunks(self) -> Iterator[Rows]:
        number = 1
        for lines in self._lines():
            if number == 1 and lines.startswith(HEADER + b"\n"):
                lines, number = lines[len(HEADER) + 1 :], 2
            if not lines:
                continue
            rows, bad = parse(lines)
            try:
                yield from self._judged(lines, rows)
            except Bad as error:
                bad = error
            if bad:
                line = lines.split(b"\n", bad.row + 1)[bad.row]
                if line == HEADER:
                    raise Fault(
                        f"row {number + bad.row}: a second listing begins here, with names of columns"
                    )
                text = line[:80].decode("ascii", "backslashreplace")
                raise Fault(f"row {number + bad.row}: {bad.reason}: {text!r}")
            number += len(rows)
        self._close()

    def _lines(self) -> Iterator[bytes]:
        """The text in pieces of whole lines, each ended by a line feed alone."""
        rest, mark = b"", b"\xef\xbb\xbf"
        # What was read first is given before more is waited for, which of a stream may take long.
        for data in chain([self._head], iter(lambda: self._stream.read(LINES), b"")):
            rest += data
            end = rest.rfind(b"\n") + 1
            lines, rest = rest[:end], rest[end:]
            if len(rest) > LONGEST_LINE:
                raise Fault(f"a row has no end within {LONGEST_LINE} bytes: this is no listing")
            if lines and mark:
                lines, mark = lines[3:] if lines.startswith(mark) else lines, b""
            yield lines.replace(b"\r\n", b"\n") if b"\r" in lines else lines
        rest = rest.rstrip(b"\r")
        if TOTAL_ROW.fullmatch(rest):
            yield rest + b"\n"  # its last field cannot go on, so the line is whole, though it lacks its end
        elif rest and not self.is_part:
            raise Fault(CUT)

    def _judged(self, lines: bytes, rows: Rows) -> Iterator[Rows]:
        """The rows of some lines up to where one does not fit. Runs of rows with and without totals come in turn."""
        is_total = rows["what"] == TOTAL
        edges = [0, *(numpy.flatnonzero(numpy.diff(is_total)) + 1).tolist(), len(rows)]
        texts = lines.split(b"\n") if is_total.any() else []
        for begin, end in zip(edges, edges[1:]):
            if begin == end or not is_total[begin]:
                yield from self._of_session(rows[begin:end], begin)
            else:
                for row in range(begin, end):
                    self._take_total(texts[row], row)

    def _take_total(self, text: bytes, row: int) -> None:
        match = TOTAL_ROW.fullmatch(text)
        if not match:
            raise Bad(row, "it is no row of a total")
        names, name = TOTAL_NAMES + SOFT_NAMES, match[1].decode()
        is_whole = self.totals is not None and (bool(self.totals.soft) or name not in SOFT_NAMES)
        if is_whole and self._sessions:
            self._next_session()
        elif is_whole:
            raise Bad(row, "a second listing begins here, or is that of a stream that was restarted")
        found = self._found
        if name != names[len(found)]:
            raise Bad(row, f"the total {names[len(found)]!r} is missing before it")
        found.append(int(match[2]))
        self.totals = totals_from(found)

    def _of_session(self, rows: Rows, at: int) -> Iterator[Rows]:
        """Rows without totals, of one session or several; `at` is the number of the first among its lines."""
        while len(rows):
            if self._found:
                second = rows["what"][0] == ACQUIRED
                why = "a second listing begins here" if second else "it comes after the totals"
                bad: Optional[Bad] = Bad(0, why)
            else:
                bad = first_misfit(self._last, rows, self.is_part)
            fits = bad.row if bad else len(rows)
            if fits:
                yield self._taken(rows[:fits])
            if not bad:
                return
            if not self._sessions or rows["what"][fits] != ACQUIRED:
                raise Bad(at + fits, bad.reason)
            self._next_session()
            rows, at = rows[fits:], at + fits

    def _taken(self, rows: Rows) -> Rows:
        self._last = rows[-1:].copy()
        self._counted = add_totals(self._counted, totals_of(rows))
        self._corrected += int((kinds_of(rows) == CORRECTED).sum())
        self.end = max(self.end, ends_of(self._last).item())
        of = f"{self.length} bits of the recording: it is of another one, or the length is wrong"
        for most, text in ((LONGEST, "2^36 bits that a listing may have"), (self.length, of)):
            if most is not None and self.end > most:
                raise Fault(f"a row is of bit {self.end - 1}, past the {text}")
        return rows

    def _close(self, final: bool = True) -> None:
        """Judges a session that ended. One before the last may have been killed."""
        if self.totals is None:
            if self.is_part or not final:
                return
            raise Fault(CUT)
        told, counted = self.totals, self._counted
        if told.soft:
            counted = counted._replace(bursts=(0,) * 5)  # what flips make of a mask is not told by it
        pairs = list(zip(TOTAL_NAMES, flat(told), flat(counted)))
        pairs.append(("corrected", sum(told.bursts) + sum(told.soft), self._corrected))
        wrong = [pair for pair in pairs if pair[1] < pair[2] or pair[1] > pair[2] and not self.is_part]
        if wrong:
            name, stated, found = wrong[0]
            raise Fault(
                f"the total {name!r} is {stated}, but the rows have {found}: rows are missing or too many"
                + ("" if stated < found else " (--unfinished accepts a part)")
            )
        # Noise gives rows too, every minute or so; if there are none for a tenth of the time, the length is likely a wrong one.
        if self.length is not None and not self._trusted and 0 < self.end < (self.length - 71250) / 1.1:
            raise Fault(
                f"the recording has {self.length} bits, but the last row is of bit {self.end - 1}, more than a tenth before: "
                "the length is wrong, or nothing was received for long (--trust-length)"
            )


def flat(totals: Totals) -> tuple[int, ...]:
    return (totals.valid, *totals.bursts, *totals[2:8], *totals.soft)


def named(totals: Totals) -> Iterator[Tuple[str, int]]:
    """As they end a listing."""
    return zip(TOTAL_NAMES + SOFT_NAMES, flat(totals))


def totals_from(values: Sequence[int]) -> Optional[Totals]:
    """Of the values at the end of a listing, if these are all."""
    if len(values) not in (len(TOTAL_NAMES), len(TOTAL_NAMES + SOFT_NAMES)):
        return None
    lost, bits, groups, complete, gains, losses = values[6:12]
    soft = tuple(values[12:])
    return Totals(values[0], tuple(values[1:6]), lost, bits, groups, complete, gains, losses, soft)


def ends_of(rows: Rows) -> Rows:
    """The position after the last bit of each row."""
    pattern = read_pattern(rows)
    groups = rows["what"] == GROUP
    length = numpy.where(groups, BLOCK_BITS * (LAST[pattern].astype("i8") - FIRST[pattern] + 1), 1)
    ends: Rows = rows["place"].astype("i8") + length
    return ends


def begins_of(rows: Rows) -> Rows:
    """The position of the first bit of each row's first block."""
    begins: Rows = rows["place"].astype("i8") - numpy.where(rows["what"] == GROUP, 0, BLOCK_BITS - 1)
    return begins


def groups_in(rows: Rows) -> Rows:
    at = rows["what"] == GROUP
    return rows if at.all() else chosen(rows, at)


def kinds_of(groups: Rows) -> Rows:
    """The outcomes of the blocks, a row of four per group."""
    return numpy.stack([groups[f"kind{block}"] for block in BLOCKS], axis=1)


def places_of(groups: Rows) -> Rows:
    """The positions of the first bits of the blocks, a row of four per group. They count for blocks that were read."""
    first = groups["place"].astype("i8")
    if not (groups["kind1"] != MISSING).all():
        first -= BLOCK_BITS * FIRST[read_pattern(groups)]
    places: Rows = first[:, None] + BLOCK_BITS * numpy.arange(4)
    return places


def first_misfit(last: Optional[Rows], rows: Rows, part: bool) -> Optional[Bad]:
    """The first row that cannot follow the one before it.

    Within a lock the first group begins with the block that acquired, each later one follows on the one before, and the
    loss is that of the last block. In a part of a listing rows may be missing, but places go on."""
    if last is None and not part and len(rows) and rows["what"][0] != ACQUIRED:
        missing = "rows are missing before it (--unfinished accepts a part)"
        return Bad(0, f"a listing begins with an acquisition: {missing}")
    known = rows if last is None else joined([last, rows])
    pattern, what, place = read_pattern(known), known["what"], known["place"].astype("i8")
    if (what == GROUP).all() and (pattern == 15).all() and (numpy.diff(place) == GROUP_BITS).all():
        return None
    ends = ends_of(known)
    was, now = what[:-1], what[1:]
    back = ends[1:] < ends[:-1]
    # A group begins where the last one ended, or, in the next lock, up to 25 bits before.
    back |= (now == GROUP) & (place[1:] < ends[:-1] - numpy.where(was == GROUP, 0, BLOCK_BITS))
    restarts = (now == ACQUIRED) & (was != LOSS)
    follows = (now == ACQUIRED) & (was == LOSS) & (place[1:] >= ends[:-1])
    follows |= (now == LOSS) & (was == GROUP) & (ends[1:] == ends[:-1])
    whole = (LAST[pattern[:-1]] == 3) & (FIRST[pattern[1:]] == 0)
    follows |= (now == GROUP) & (was == GROUP) & (place[1:] == ends[:-1]) & whole
    opens = (place[1:] == place[:-1] - 25) & (FIRST[pattern[1:]] == known["number"][:-1].astype("i8") - 1)
    follows |= (now == GROUP) & (was == ACQUIRED) & opens
    wrong = back | restarts if part else ~follows
    if not wrong.any():
        return None
    at = int(wrong.argmax())
    reason = "rows are missing before it (--unfinished accepts a part)"
    if now[at] == ACQUIRED and (back[at] or restarts[at]):
        reason = "a second listing begins here, or that of a stream that was restarted"
    elif back[at]:
        reason = "its place goes back: rows are out of order"
    return Bad(at + (last is None), reason)


OFFSET_NAMES = ("", "A", "B", "C", "Cx", "D")
VERSION_NAMES = ("", "A", "B", "?")


def block_texts(rows: Rows, block: int) -> List[str]:
    """The texts of the blocks of this number, 1 to 4."""
    fields = (rows[f"{name}{block}"].tolist() for name in ("kind", "offset", "info", "burst"))
    return [
        ("none" if kind == MISSING else "lost")
        if kind < 2
        else f"{OFFSET_NAMES[offset]}:{info:04X}" + (f"~{burst:07X}" if kind == 3 else "")
        for kind, offset, info, burst in zip(*fields)
    ]


def text_of(rows: Rows) -> bytes:
    lines = []
    fields = (rows[name].tolist() for name in ("what", "place", "number", "version", "conflict"))
    blocks = (block_texts(rows, block) for block in BLOCKS)
    for what, place, number, version, conflict, *four in zip(*fields, *blocks):
        if what == GROUP:
            name = f"{'-' if number == 255 else number},{VERSION_NAMES[version]}{'!' * conflict}"
            lines.append(f"group,{place},{name},{','.join(four)}\n")
        else:
            row = f"acquired,{place},{number}" if what == ACQUIRED else f"lost,{place},-"
            lines.append(f"{row},-,-,-,-,-\n")
    return "".join(lines).encode("ascii")


def totals_text(totals: Totals) -> bytes:
    rows = (f"total,{name},{value},-,-,-,-,-\n" for name, value in named(totals))
    return "".join(rows).encode("ascii")
