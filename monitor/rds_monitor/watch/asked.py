"""`check --station`: the verdict on a station by the database of a watch."""

import fcntl
import json
import os
import sqlite3
import time
from typing import Any, Dict, Optional, Sequence, Tuple
from urllib.parse import quote

from ..db.standing import CRITICAL as CRITICAL_ALARMS
from ..db.standing import STATES, Availability, availability, standing_of
from ..rows.clock import DAY
from ..rows.items import Fault
from .records import WATCH, lasting_in
from .verdict import CRITICAL, OK, WARNING, Limits, Seen, Verdict

# The watch writes each ten seconds. Without news for so long it is not running.
NEWS = 60.0


def judge_station(
    paths: Sequence[str], name: str, limits: Limits, pi: Optional[str], names: Sequence[str]
) -> Verdict:
    """By the station's state, the alarms that last, the last minute, and the options."""
    if len(paths) != 1:
        raise Fault("--station is for one database")
    (path,), verdict = paths, Verdict()
    looked, state, disk, day = known_of(path, name)
    quiet = time.time() - looked
    if disk:
        verdict.say(WARNING, f"disk: {disk}")
        return verdict
    if quiet > NEWS:
        runs = runs_for(os.path.dirname(os.path.abspath(path)))
        if runs is not None and runs > NEWS:
            verdict.say(CRITICAL, f"disk: nothing was written for {quiet:.0f} s while rds-monitor watch runs")
            return verdict
        why = "does not run" if runs is None else "has just begun"
        raise Fault(f"{name} was last looked at {quiet:.0f} s ago: rds-monitor watch {why}")
    stands = standing_of(state)
    for alarm, text in sorted(stands.alarms.items()):
        verdict.say(CRITICAL if alarm in CRITICAL_ALARMS else WARNING, f"{alarm}: {text}")
    if stands.state != STATES[-1] and not stands.alarms:
        verdict.say(OK, stands.reason)
    verdict.judge(seen_of(state), limits, pi, names)
    verdict.data += [f"{word}={seconds:.0f}s" for word, seconds in day._asdict().items()]
    return verdict


def runs_for(folder: str) -> Optional[float]:
    """For how many seconds a watch has held its lock, if one does."""
    try:
        with open(os.path.join(folder, "watch.lock"), "rb") as lock:
            fcntl.flock(lock, fcntl.LOCK_SH | fcntl.LOCK_NB)
    except BlockingIOError:
        return time.time() - os.stat(lock.name).st_mtime
    except OSError:
        pass
    return None


def seen_of(state: Dict[str, Any]) -> Seen:
    minute, last, held = state["minute"], state["last_group_utc"], state["held"]
    sent = minute["sent"] if minute else 0
    valid, corrected = (100 * minute[name] / sent if sent else None for name in ("valid", "corrected"))
    age = None if last is None else max(0.0, state["utc"] - last)  # news are up to ten seconds old
    names = state.get("names") or [name for name in [held.get("ps", "").strip()] if name]
    return Seen(valid, corrected, age, held.get("pi"), names, "blocks of the last minute", True)


def known_of(path: str, name: str) -> Tuple[float, Dict[str, Any], str, Availability]:
    """When a station was last looked at, its state, what is wrong with the disk, and the last day."""
    try:
        # Without making a file if there is none.
        data = sqlite3.connect(f"file:{quote(os.path.abspath(path))}?mode=ro", uri=True, timeout=5)
        found = data.execute("SELECT station, looked_at, state FROM station_rows ORDER BY station").fetchall()
        known = {station: (float(looked), json.loads(state)) for station, looked, state in found}
        disk = lasting_in(data, WATCH).get("disk", ("",))[0]
        looked, state = known.get(name, (0.0, {}))
        day = availability(data, name, looked - DAY, looked)
        data.close()
    except sqlite3.Error as error:
        raise Fault(f"{path}: {error}") from None
    if name not in known:
        raise Fault(f"{path} has no station {name}: there are {', '.join(known) or 'none'}")
    return looked, state, disk, day
