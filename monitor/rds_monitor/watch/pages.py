"""Pages of the network as it is: an overview with a tile per station, and a page per station. They have no script, and texts
of stations are escaped. `rds-monitor report` draws a recording with zoom."""

import base64
import hashlib
import os
import sqlite3
from html import escape
from typing import Any, Dict, List, Mapping, NamedTuple, Optional, Sequence, Tuple
from urllib.parse import quote

from ..content.charset import printable
from ..content.info import label
from ..db.standing import Availability, bad_in, standing_of
from ..rows.clock import DAY, utc_text
from ..rows.extent import replace

STEP = 240.0  # seconds of the last day per point of a picture
# The last alarms of a station, and the last changes in its last sessions.
ALARMS = "SELECT alarm, begin_at, end_at, text FROM alarm_rows WHERE station = ? ORDER BY 2 DESC LIMIT 30"
EVENTS = """
SELECT start + place / rate AS at, item, value FROM recordings JOIN sessions ON recording = recordings.id
  JOIN event_rows ON session = sessions.id JOIN facts ON facts.id = fact
  WHERE sessions.id IN (SELECT sessions.id FROM recordings JOIN sessions ON recording = recordings.id
    WHERE station = ? ORDER BY start + end_place / rate DESC LIMIT 4)
  ORDER BY at DESC LIMIT 40"""
STYLE = """\
:root{color-scheme:light dark;--ink:#1b1f24;--paper:#fff;--soft:#667;--line:#d5d9e0;--bad:#b3261e;--warn:#9a6700;--good:#1a7f37}
@media(prefers-color-scheme:dark){:root{--ink:#e6e9ee;--paper:#14171b;--soft:#9aa3ad;--line:#333a44;--bad:#ff8a80;--warn:#e3b341;--good:#56d364}}
body{margin:1.5rem;font:16px/1.45 system-ui,sans-serif;color:var(--ink);background:var(--paper)}
h1{font-size:1.4rem}h2{font-size:1.1rem;margin-top:1.6rem}
a{color:inherit}.soft{color:var(--soft)}
ul.tiles{display:grid;grid-template-columns:repeat(auto-fill,minmax(19rem,1fr));gap:1rem;padding:0;list-style:none}
.tile{border:1px solid var(--line);border-left:.5rem solid var(--good);border-radius:.4rem;padding:.8rem;overflow-wrap:anywhere}
.tile.warning{border-left-color:var(--warn)}.tile.critical{border-left-color:var(--bad)}
.tile h2{margin:0}.tile p{margin:.2rem 0}.ps{font:600 1.2rem ui-monospace,monospace;white-space:pre}
.alarm{color:var(--bad);font-weight:600}
svg{width:100%;height:2.6rem;display:block}.bad{fill:var(--bad)}.fixed{fill:var(--warn)}.fine{fill:var(--good)}.axis{stroke:var(--line)}
.hours{display:flex;justify-content:space-between;margin:0;font-size:.75rem;color:var(--soft)}
table{border-collapse:collapse}td,th{text-align:left;padding:.15rem .8rem .15rem 0;border-bottom:1px solid var(--line);vertical-align:top}
td.text{white-space:pre-wrap;overflow-wrap:anywhere}"""
HASH = base64.b64encode(hashlib.sha256(STYLE.encode()).digest()).decode()
POLICY = f"default-src 'none'; style-src 'sha256-{HASH}'; base-uri 'none'; form-action 'none'"

States = Dict[str, Dict[str, Any]]  # by the names of stations


class Bar(NamedTuple):
    """Some minutes of a station: blocks sent, valid, corrected. Without a session none was sent."""

    sent: int
    valid: int
    corrected: int


def worst_first(states: States) -> List[str]:
    """The names of stations: by alarms, then by bad blocks."""
    order = ("critical", "warning", "fine")

    def rank(name: str) -> Tuple[int, float, str]:
        stands = standing_of(states[name])
        return order.index(stands.severity), -(bad_in(states[name]["minute"]) or 0), name

    return sorted(states, key=rank)


def write_pages(
    folder: str,
    states: States,
    days: Dict[str, Availability],
    lasting: Dict[str, str],
    utc: float,
    data: sqlite3.Connection,
    refresh: int,
) -> None:
    """Writes all pages, and removes those of stations that the table had once. `lasting` are the alarms of the watch."""
    os.makedirs(folder, exist_ok=True)
    for (name,) in data.execute("SELECT station FROM station_rows").fetchall():
        if name not in states and os.path.exists(os.path.join(folder, f"{name}.html")):
            os.unlink(os.path.join(folder, f"{name}.html"))
    bars = {name: bars_of(data, name, utc) for name in states}
    replace(os.path.join(folder, "index.html"), overview(states, bars, utc, refresh, lasting))
    for name, state in states.items():
        alarms, events = (data.execute(query, (name,)).fetchall() for query in (ALARMS, EVENTS))
        page = station_page(name, state, bars[name], alarms, events, utc, refresh, days.get(name))
        replace(os.path.join(folder, f"{name}.html"), page)


def bars_of(data: sqlite3.Connection, station: str, utc: float) -> List[Bar]:
    """The blocks of the last day by `STEP` seconds."""
    count = int(DAY / STEP)
    first = int(utc / STEP) - count + 1
    found = {
        int(slot): Bar(*blocks)
        for slot, *blocks in data.execute(
            "SELECT CAST((start + minute * minute_bits / rate) / ? AS INTEGER) AS slot, SUM(sent), SUM(valid), SUM(corrected)"
            " FROM recordings JOIN sessions ON recording = recordings.id JOIN minute_rows ON session = sessions.id"
            " WHERE station = ? AND start + end_place / rate > ? GROUP BY slot HAVING slot >= ?",
            (STEP, station, first * STEP, first),
        )
    }
    return [found.get(first + at, Bar(0, 0, 0)) for at in range(count)]


def _page(title: str, body: str, refresh: int) -> str:
    return (
        f'<!DOCTYPE html>\n<html lang="en"><head><meta charset="utf-8"><title>{escape(title)}</title>\n'
        f'<meta http-equiv="Content-Security-Policy" content="{POLICY}">\n'
        f'<meta http-equiv="refresh" content="{refresh}"><meta name="viewport" content="width=device-width">\n'
        f"<style>{STYLE}</style></head>\n<body>\n{body}\n</body></html>\n"
    )


def _time(utc: float) -> str:
    text = utc_text(utc)
    return f'<time datetime="{text}">{text[:10]} {text[11:19]} UTC</time>'


def _text(text: Any) -> str:
    """A text of a stranger, in an element of its own so that its direction does not turn the rest."""
    return f"<bdi>{escape(printable(str(text)))}</bdi>"


def picture(bars: Sequence[Bar], height: int, name: str) -> str:
    """Bars of bad blocks from the top, corrected ones in another colour; a gap has no session."""
    width, parts = len(bars), []
    for at, bar in enumerate(bars):
        if not bar.sent:
            continue
        bad = height * (bar.sent - bar.valid - bar.corrected) / bar.sent
        fixed = height * bar.corrected / bar.sent
        of_kind = (("fine", bad + fixed, height - bad - fixed), ("fixed", bad, fixed), ("bad", 0.0, bad))
        for kind, top, high in of_kind:
            if high > 0:
                # An outage of a second is seen, too.
                shape = f'y="{top:.1f}" width="1" height="{max(high, 1.0):.1f}"'
                parts.append(f'<rect class="{kind}" x="{at}" {shape}/>')
    text = f"Blocks of the last 24 hours of {escape(name)}: valid, corrected, bad"
    shape = f'viewBox="0 0 {width} {height}" preserveAspectRatio="none" shape-rendering="crispEdges"'
    axis = f'<line class="axis" x1="0" x2="{width}" y1="{height}" y2="{height}"/>'
    hours = '<p class="hours"><span>24 h ago</span><span>12 h ago</span><span>now</span></p>'
    return f'<svg {shape} role="img" aria-label="{text}">{"".join(parts)}{axis}</svg>{hours}'


def _percent(state: Dict[str, Any]) -> str:
    bad = bad_in(state["minute"])
    return "no minute yet" if bad is None else f"{bad:.1f} % of the last minute bad"


def _signal(state: Dict[str, Any]) -> str:
    """How strong it is, if that is known."""
    units = {"snr_db": "RDS SNR {:.1f} dB", "level_dbfs": "level {:.1f} dBFS"}
    values = ((text, state["signal"].get(name)) for name, text in units.items())
    told = ", ".join(text.format(value) for text, value in values if value is not None)
    return f"; {told}" if told else ""


def overview(
    states: States, bars: Dict[str, List[Bar]], utc: float, refresh: int, lasting: Mapping[str, str] = {}
) -> str:
    tiles = "\n".join(_tile(name, states[name], bars[name], utc) for name in worst_first(states))
    count = sum(bool(state["alarms"]) for state in states.values())
    head = f"<h1>RDS network</h1>\n<p>{len(states)} stations, {count} with an alarm. {_time(utc)}</p>{_alarms(lasting)}"
    return _page("RDS network", f'{head}\n<ul class="tiles">\n{tiles}\n</ul>', refresh)


def _tile(name: str, state: Dict[str, Any], bars: Sequence[Bar], utc: float) -> str:
    held, frequency = state["held"], state["frequency"]
    last = state["last_group_utc"]
    age = "no whole group yet" if last is None else f"last whole group {max(0.0, utc - last):.0f} s ago"
    return (
        f'<li class="tile {standing_of(state).severity}"><h2><a href="{quote(name)}.html">{escape(name)}</a>'
        + (f' <span class="soft">{frequency:g} MHz</span>' if frequency else "")
        + f'</h2><p class="ps">{_text(held.get("ps", ""))}&#8203;</p><p>{_text(held.get("rt", "no RT"))}</p>'
        f'<p class="soft">PI {_text(held.get("pi", "none"))}, PTY {_text(held.get("pty", "none"))}</p>'
        f"{_alarms(state['alarms'])}<p>{standing_of(state).state}; {_percent(state)}; {age}{_signal(state)}</p>{picture(bars, 40, name)}</li>"
    )


def _alarms(alarms: Mapping[str, str]) -> str:
    return "".join(f'<p class="alarm">{escape(name)}: {_text(text)}</p>' for name, text in alarms.items())


def station_page(
    name: str,
    state: Dict[str, Any],
    bars: Sequence[Bar],
    alarms: Sequence[Tuple[Any, ...]],
    events: Sequence[Tuple[Any, ...]],
    utc: float,
    refresh: int,
    day: Optional[Availability] = None,
) -> str:
    session = f"no session: {_text(state['reason'] or 'the receiver starts')}"
    if state["session_utc"]:
        session = f"session since {_time(state['session_utc'])}"
    contents = [(label(item), text) for item, text in state["held"].items()]
    told = [(alarm, _at(begin), _at(end), text) for alarm, begin, end, text in alarms]
    changes = [(_at(at), label(item), "none" if value is None else value) for at, item, value in events]
    hours = [f"{word} {seconds / 3600:.2f} h" for word, seconds in (day._asdict() if day else {}).items()]
    parts = [
        f'<p><a href="index.html">RDS network</a></p><h1>{escape(name)}</h1>',
        f"<p>{standing_of(state).state}; {_percent(state)}{_signal(state)}; {session}; {state['starts']} starts of the receiver. {_time(utc)}</p>",
        f"{_alarms(state['alarms'])}\n<h2>The last 24 hours</h2>{picture(bars, 60, name)}",
        f"<p>{', '.join(hours)}</p>" if day else "",
        f"<h2>Contents</h2>{_table(('Item', 'Value'), contents)}",
        f"<h2>Alarms</h2>{_table(('Alarm', 'Begin', 'End', ''), told)}",
        f"<h2>Changes</h2>{_table(('Time', 'Item', 'Value'), changes)}",
    ]
    return _page(name, "\n".join(parts), refresh)


def _at(utc: Optional[float]) -> str:
    return "" if utc is None else utc_text(utc)[:19].replace("T", " ")


def _table(head: Sequence[str], rows: Sequence[Sequence[Any]]) -> str:
    if not rows:
        return '<p class="soft">none</p>'
    top = "".join(f'<th scope="col">{escape(title)}</th>' for title in head)
    cells = ("".join(f'<td class="text">{_text(text)}</td>' for text in row) for row in rows)
    body = "".join(f"<tr>{row}</tr>" for row in cells)
    return f"<table><thead><tr>{top}</tr></thead><tbody>{body}</tbody></table>"
