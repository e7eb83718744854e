"""The command `info`: what stations say of themselves, as a summary, or as CSV or JSON of changes."""
import argparse
import csv
import sys
import textwrap
from itertools import chain
from typing import Dict, List, NamedTuple

import numpy

from ..rows.clock import Clock, clock_of, clock_options
from ..rows.inputs import input_options, open_input
from ..rows.items import ITEM
from .charset import printable
from .decoder import ITEMS, Decoder, Event
from .jsonl import content_line, set_utf8

# The names of items for a reader, where they are not the item's own in capitals.
_LABELS = """
rt_ab: RT flag; ms: Music/speech; di_stereo: Stereo; di_artificial_head: Artificial head; di_compressed:
Compressed; di_dynamic_pty: Dynamic PTY; linkage: Linkage; country: Country; language: Language; tmc_id: TMC
identification; paging_id: Paging identification; broadcaster_bits: Broadcaster's bits; ews_channel: EWS
channel; tmc_service: TMC service; tmc_provider: TMC provider; tmc_message: TMC message; rt_plus_running: RT+ item running;
rt_plus_toggle: RT+ item toggle; rt_plus: RT+; dab_service: DAB service; ert: eRT; ert_plus: RT+ for eRT;
ert_plus_running: RT+ for eRT item running; ert_plus_toggle: RT+ for eRT item toggle; call_letters: Call letters; lps: Long PS; ih:
In-house data; rp: Radio paging; erp: Enhanced paging; tdc: Data channel"""
LABELS: Dict[str, str] = dict(line.split(": ") for line in " ".join(_LABELS.split()).split("; "))


def label(item: str) -> str:
    """The name of an item for a reader: EON D312 PS for eon:D312.ps."""
    name, _, of = item.partition(":")
    if name == "eon":
        network, _, rest = of.partition(".")
        shown = rest.replace(":", " ")
        return f"EON {network} {shown if rest.startswith('mapped') else shown.upper()}"
    return f"{LABELS.get(name, name.upper())} {of}".rstrip()


def options_info(parser: argparse.ArgumentParser) -> None:
    parser.description = (
        "What a station says of itself: PI, PS, RT, PTY, AF, CT and the rest of IEC 62106. A value counts in a group "
        "whose blocks are all valid, or if it was received twice in a row alike, once of that in valid blocks."
    )
    parser.epilog = (
        "example:\n  rds-monitor info monday.bin\n"
        "  rds-monitor info --csv --start 2026-03-29T00:30:00Z monday.bin > changes.csv\n\n"
        "items in CSV and JSON, with examples of which of several:\n" + textwrap.indent(ITEMS, "  ")
    )
    input_options(parser)
    of_rbds = "RBDS: its names of programme types, and call letters by the PI"
    parser.add_argument("--rbds", action="store_true", help=of_rbds)
    form = parser.add_mutually_exclusive_group()
    form.add_argument("--csv", action="store_true", help="a row per change")
    form.add_argument("--json", action="store_true", help="a line of JSON per change")
    clock_options(parser)


def run_info(arguments: argparse.Namespace) -> int:
    set_utf8()
    source, decoder = open_input(arguments), Decoder(rbds=arguments.rbds)
    programmes: Dict[int, Dict[str, Last]] = {}
    writer = csv.writer(sys.stdout, lineterminator="\n")
    names = ["time_s", "pi", "item", "value", "bit"]
    chunks = source.chunks()
    # Names of columns are written, whether or not there is a row.
    for rows in chain([next(chunks, numpy.empty(0, ITEM))], chunks):
        events, clock = decoder.feed(rows), clock_of(arguments, source)
        if arguments.csv:
            if names:
                writer.writerow([*names, *clock.names("time")])
                names = []
            writer.writerows(row_of(event, clock) for event in events)
        elif arguments.json:
            sys.stdout.writelines(content_line(event, clock) for event in events)
        else:
            for event in events:
                items = programmes.setdefault(event.pi, {})
                before = items.get(event.item)
                if not before or before.text != event.text:
                    items[event.item] = Last(event.text, event.place, before.changes + 1 if before else 0)
    if not (arguments.csv or arguments.json):
        sections = [section(pi, items, clock_of(arguments, source)) for pi, items in programmes.items()]
        sys.stdout.write("\n".join(sections) or "no station: no PI was received in valid blocks\n")
    return 0


def row_of(event: Event, clock: Clock) -> List[str]:
    """The fields of a change, in which nothing can move a terminal's cursor."""
    text = "" if event.value is None else printable(event.text)
    shown = f"{clock.seconds(event.place):.3f}", f"{event.pi:04X}", event.item, text
    return [*shown, str(event.place), *clock.utc(event.place)]


class Last(NamedTuple):
    """The last value of an item."""

    text: str
    place: int  # since when it holds
    changes: int


def section(pi: int, items: Dict[str, Last], clock: Clock) -> str:
    width = max(len(label(item)) for item in items)
    lines = [f"{pi:04X} {printable(items['ps'].text) if 'ps' in items else ''}".rstrip()]
    for item, (text, place, changes) in items.items():
        if item != "pi":
            utc = clock.utc(place)
            since = utc[0] if utc else f"{clock.seconds(place):.3f} s"
            changed = f", {changes} change{'s' * (changes != 1)}" if changes else ""
            lines.append(f"  {label(item):{width}}  {printable(text)}  (since {since}{changed})")
    return "\n".join(lines) + "\n"
