"""The page of HTML: a station is a dictionary of what is told of it."""

import base64
import hashlib
import importlib
import os
from functools import lru_cache
from typing import Any, Dict, Optional, Sequence, Tuple

from ..content.charset import printable, safe_json
from ..db.standing import Availability
from ..rows.items import Fault
from .line import TimeLine, bad_percent
from .overview import polyline

HERE = os.path.dirname(os.path.abspath(__file__))
D3 = "/usr/share/javascript/d3/d3.min.js"
Station = Dict[str, Any]


def told_of(
    name: str,
    line: TimeLine,
    times: Tuple[float, float],
    start: Optional[float],
    held: Dict[str, str],
    tile: Dict[str, Any],
    available: Optional[Availability] = None,
) -> Station:
    """A station from one time to another on its line; `start` is the UTC of the first one, if known."""
    sums = line.sums()
    return {
        "name": printable(name),
        "available": available._asdict() if available else None,
        "held": {item: text for item, text in held.items() if text},
        "start": start,
        "end": round(times[1] - times[0], 3),
        "totals": sums,
        "tile": tile,
        "bad_percent": bad_percent(sums["sent"], sums["valid"]),
        "outage_count": len(line.outages),
        **line.told(times[0]),
    }


def rank_of(station: Station) -> Tuple[Any, ...]:
    """The worst first."""
    tile = station["tile"]
    return not tile["alarm"], -(tile["minute"] or 0), -(station["bad_percent"] or 0), station["name"]


def page_of(title: str, stations: Sequence[Station], **more: Any) -> str:
    """The page: every text of a station is escaped by the template, or data that the script shows as text. Of a station that has a
    `page` of its own it shows the tile; `links` are to other pages, and `table` has a caption, a head, and rows of cells: a text and the page
    that it links to, or none.
    """
    template, policy, parts = template_of()
    stations = sorted(stations, key=rank_of)
    data = safe_json([station for station in stations if "page" not in station])
    safe = dict(parts, data=data.replace("<", "\\u003c"))
    markup: Any = importlib.import_module("markupsafe")
    known: Dict[str, Any] = {name: markup.Markup(text) for name, text in safe.items()}
    known.update(title=printable(title), stations=stations, policy=policy, polyline=polyline)
    known.update(links=(), table=None)
    return str(template.render({**known, **more}))


@lru_cache(None)
def template_of() -> Tuple[Any, str, Dict[str, str]]:
    """The template, the style and scripts of each page, and the policy that allows only these."""
    try:
        jinja2: Any = importlib.import_module("jinja2")
        with open(os.environ.get("RDS_D3", D3), encoding="utf-8") as file:
            library = file.read()
    except ImportError:
        raise Fault("the page needs jinja2: install python3-jinja2") from None
    except OSError as error:
        text = f"the page needs D3: {error.filename}: {error.strerror}"
        raise Fault(f"{text}: install libjs-d3, or name it by RDS_D3") from None
    parts = {"css": read("report.css"), "js": read("report.js"), "d3": library}
    style, script, d3 = map(hash_of, parts.values())
    policy = f"default-src 'none'; style-src '{style}'; script-src '{d3}' '{script}'; base-uri 'none'; form-action 'none'"
    strict = jinja2.StrictUndefined
    environment = jinja2.Environment(autoescape=True, trim_blocks=True, lstrip_blocks=True, undefined=strict)
    return environment.from_string(read("report.html")), policy, parts


def hash_of(text: str) -> str:
    return "sha256-" + base64.b64encode(hashlib.sha256(text.encode("utf-8")).digest()).decode()


def read(name: str) -> str:
    with open(os.path.join(HERE, name), encoding="utf-8") as file:
        return file.read()
