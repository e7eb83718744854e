"""How a station stands: its state in a word, and for how long it was received, or why not."""

import sqlite3
from typing import Any, Dict, Mapping, NamedTuple, Optional

CRITICAL = ("silent", "no_rds", "pi")
# Seconds without a whole group, and per cent of bad blocks in the last minute, above which a station is not good.
SILENT_SECONDS, BAD_PERCENT = 10, 50
STATES = ("no session", "no sync", "bad", "good")


class Standing(NamedTuple):
    """One of `STATES`, its reason, and the alarms that last with their texts."""

    state: str
    reason: str
    alarms: Mapping[str, str]

    @property
    def severity(self) -> str:
        if any(alarm in self.alarms for alarm in CRITICAL):
            return "critical"
        return "warning" if self.alarms else "fine"

    @property
    def text(self) -> str:
        """What is wrong, or no text."""
        said = [f"{alarm}: {text}" for alarm, text in self.alarms.items()]
        return "; ".join(said) or ("" if self.state == "good" else self.reason)


def standing(
    no_session: Optional[str], silent: Optional[float], bad: Optional[float], alarms: Mapping[str, str]
) -> Standing:
    """By why there is no session, the seconds since the last whole group, and per cent of bad blocks in the last minute."""
    if no_session is not None:
        return Standing(STATES[0], f"no session: {no_session}", alarms)
    if silent is None or silent > SILENT_SECONDS:
        age = "yet" if silent is None else f"for {silent:.0f} s"
        return Standing(STATES[1], f"no whole group {age}", alarms)
    if bad is not None and bad > BAD_PERCENT:
        return Standing(STATES[2], f"{bad:.0f} % bad blocks in the last minute", alarms)
    return Standing(STATES[3], "", alarms)


def standing_of(state: Dict[str, Any]) -> Standing:
    """By the state of a station that is watched."""
    reason = None if state["session_utc"] is not None else state["reason"] or "the receiver starts"
    last = state["last_group_utc"]
    silent = None if last is None else state["utc"] - last
    return standing(reason, silent, bad_in(state["minute"]), state["alarms"])


def bad_in(minute: Optional[Mapping[str, float]]) -> Optional[float]:
    """Per cent of a minute's blocks that were not valid."""
    return 100 * (1 - minute["valid"] / minute["sent"]) if minute and minute["sent"] else None


class Availability(NamedTuple):
    """Seconds: in sync, without RDS, without a session while the watch ran, and while it did not. They add up to the time asked for."""

    received: float
    noise: float
    down: float
    unknown: float


def availability(data: sqlite3.Connection, station: str, begin: float, end: float) -> Availability:
    query = "SELECT kind, SUM(MIN(end_at, ?) - MAX(begin_at, ?)) FROM spans WHERE station = ? AND begin_at < ? AND end_at > ? GROUP BY kind"
    found = dict(data.execute(query, (end, begin, station, end, begin)).fetchall())
    # Times that a clock passed twice, since it was set back, count once.
    session, watched = (min(found.get(kind, 0.0), end - begin) for kind in ("session", "watched"))
    noise, known = min(found.get("noise", 0.0), session), max(session, watched)
    return Availability(session - noise, noise, known - session, end - begin - known)
