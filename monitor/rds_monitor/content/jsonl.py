"""The command `json`: a line of JSON per event, per row of the listing, or per group with the keys of redsea."""
import argparse
import sys
from functools import lru_cache
from operator import itemgetter
from typing import Any, Dict, Iterator, List, Optional, Tuple, Union

from ..rows.clock import Clock, clock_of, clock_options
from ..rows.inputs import input_options, open_input
from ..rows.items import ACQUIRED, GROUP, LOSS, LOST, MISSING, UNKNOWN_TYPE, Rows
from ..rows.listing import OFFSET_NAMES, named
from .charset import safe_json
from .decoder import Decoder, Event
from .redsea import Redsea


def set_utf8() -> None:
    """Output is UTF-8 whatever the locale."""
    reconfigure = getattr(sys.stdout, "reconfigure", None)
    if reconfigure:
        reconfigure(encoding="utf-8")


def options_json(parser: argparse.ArgumentParser) -> None:
    """A line of JSON per event: acquisitions and losses of sync, and changes of what the station says. Characters that could act on a
    terminal are \\u escapes.

    rds-monitor json monday.bin | jq 'select(.item == "ps")'
    receiver | rds follow | rds-monitor json --unfinished
    rds-monitor json --redsea monday.bin"""
    input_options(parser)
    text = "RBDS: its names of programme types, and call letters by the PI"
    parser.add_argument("--rbds", action="store_true", help=text)
    form = parser.add_mutually_exclusive_group()
    help_of_rows = "a line per row of the listing, with the blocks of groups, and the totals"
    form.add_argument("--rows", action="store_true", help=help_of_rows)
    form.add_argument("--redsea", action="store_true", help="a line per group, with the keys of redsea")
    clock_options(parser)


def run_json(arguments: argparse.Namespace) -> int:
    set_utf8()
    source, is_redsea = open_input(arguments), arguments.redsea
    decoder = Decoder(rbds=arguments.rbds, lapses=is_redsea, data=not is_redsea)
    redsea = Redsea(decoder)
    for rows in source.chunks():
        clock = clock_of(arguments, source)
        if arguments.rows:
            sys.stdout.writelines(map(line, row_objects(rows, clock)))
        elif arguments.redsea:
            sys.stdout.write("".join(redsea.lines(rows, clock)))
        else:
            sys.stdout.writelines(event_lines(rows, decoder.feed(rows), clock))
    for name, value in named(source.totals) if arguments.rows and source.totals else ():
        sys.stdout.write(line({"event": "total", "name": name, "value": value}))
    return 0


def placed(event: str, bit: int, clock: Clock) -> Dict[str, Any]:
    found = {"event": event, "bit": bit, "time_s": round(clock.seconds(bit), 3)}
    if clock.start is not None:
        found["time_utc"] = clock.utc(bit)[0]
    return found


def line(value: Dict[str, Any]) -> str:
    return safe_json(value) + "\n"


# A text comes up to four times: as value, as text, and in the next event.
_quoted = lru_cache(1 << 10)(safe_json)


def content_line(event: Event, clock: Clock) -> str:
    """Without a dictionary, since some stations send as many as groups."""
    place, pi, item, value, before, text = event
    shown = _quoted(text)
    told = shown if text is value else safe_json(value)
    was = _quoted(before) if isinstance(before, str) else safe_json(before)
    time = f'"time_s":{round(clock.seconds(place), 3)!r}'
    if clock.start is not None:
        time += f',"time_utc":"{clock.utc(place)[0]}"'
    where = f'"event":"content","bit":{place},{time},"pi":"{pi:04X}","item":{_quoted(item)}'
    return f'{{{where},"value":{told},"before":{was},"text":{shown}}}\n'


def event_lines(rows: Rows, events: List[Event], clock: Clock) -> List[str]:
    """Acquisitions, losses and changes, in the order of the rows: a group's changes come after an acquisition in it."""
    sync = rows[rows["what"] != GROUP]
    columns = (sync[name].tolist() for name in ("what", "place", "number"))
    found: List[Tuple[int, str]] = [
        (place, line(_sync_object(what, place, number, clock))) for what, place, number in zip(*columns)
    ]
    lines = [content_line(event, clock) for event in events]
    if not found:
        return lines
    found += zip((event.place for event in events), lines)
    return [text for _, text in sorted(found, key=itemgetter(0))]


def _sync_object(what: int, place: int, number: int, clock: Clock) -> Dict[str, Any]:
    if what == ACQUIRED:
        return {**placed("acquired", place, clock), "number": number}
    return placed("lost", place, clock)


def row_objects(rows: Rows, clock: Clock) -> Iterator[Dict[str, Any]]:
    for row in rows.tolist():
        place, blocks, (what, number, version, conflict) = row[0], row[1:17], row[17:]
        if what in (ACQUIRED, LOSS):
            yield _sync_object(what, place, number, clock)
        else:
            yield {
                **placed("group", place, clock),
                "type": None if number == UNKNOWN_TYPE else number,
                "version": {1: "A", 2: "B"}.get(version),
                "conflict": bool(conflict),
                "blocks": [_block_object(*blocks[4 * k : 4 * k + 4]) for k in range(4)],
            }


def _block_object(burst: int, info: int, kind: int, offset: int) -> Optional[Dict[str, Union[str, bool]]]:
    """A block: null if it is none, as before the block that acquired sync."""
    if kind == MISSING:
        return None
    if kind == LOST:
        return {"lost": True}
    found: Dict[str, Union[str, bool]] = {"offset": OFFSET_NAMES[offset], "word": f"{info:04X}"}
    if burst:
        found["burst"] = f"{burst:07X}"
    return found
