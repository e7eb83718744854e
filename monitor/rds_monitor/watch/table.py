"""The table of stations: its keys, their values and their defaults."""

import importlib
import re
from dataclasses import dataclass, field, fields, replace
from typing import Any, Callable, Dict, Iterable, NamedTuple, Optional, Set, Tuple

from ..rows.compressed import zstandard
from ..rows.items import Fault
from ..signal.found import HALF_CHANNEL_HZ, is_inside
from ..signal.receiver import RATES


@dataclass(frozen=True)
class AlarmLimits:
    """When alarms begin: seconds, but sessions an hour for `flapping`, minutes for `errors`, and groups for `ct`. None turns one off."""

    silent: Optional[float] = 15
    no_rds: Optional[float] = 10
    fast: Optional[float] = 60
    slow: Optional[float] = 60
    flapping: Optional[float] = 10
    errors: Optional[float] = 3
    errors_percent: float = 30
    pi: Optional[float] = 10
    ps: Optional[float] = 60
    rt: Optional[float] = 60
    af: Optional[float] = 300
    ps_stuck: Optional[float] = None
    rt_stuck: Optional[float] = 86400
    ta: Optional[float] = 600
    pty31: Optional[float] = 1
    ct: Optional[float] = 2
    ct_offset: float = 5
    ct_absent: Optional[float] = None
    disk: Optional[float] = 5


class Tuned(NamedTuple):
    """A station of a shared receiver: its frequency in Hz, and whether multipath is undone."""

    hertz: int
    equaliser: bool


@dataclass(frozen=True)
class ReceiverTable:
    """A receiver of IQ that several stations share: the command, its raw samples, the centre in MHz, and all of its stations."""

    name: str
    command: Tuple[str, ...]
    raw: str
    rate: int
    centre: float
    form: str = "iq"
    soft: bool = True
    patience: float = 10
    tuned: Tuple[Tuned, ...] = ()

    def offset(self, frequency: float) -> int:
        """From the centre in Hz, of a frequency in MHz."""
        return round(1e6 * (frequency - self.centre))


@dataclass(frozen=True)
class StationTable:
    """A station: its receiver's command, the format of its output, and the expected contents."""

    name: str
    command: Tuple[str, ...]
    form: str = "bits"
    raw: Optional[str] = None
    rate: Optional[int] = None
    offset: float = 0
    receiver: Optional[ReceiverTable] = None
    equaliser: bool = False
    soft: bool = False
    frequency: Optional[float] = None
    pi: Tuple[str, ...] = ()
    ps: Tuple[str, ...] = ()
    rt: Tuple[str, ...] = ()
    af: Tuple[int, ...] = ()  # in kHz
    patience: float = 10
    alarm_command: Tuple[str, ...] = ()
    alarms: AlarmLimits = field(default_factory=AlarmLimits)

    def same_receiver(self, other: "StationTable") -> bool:
        """Whether the command and the form of its output are the same, so that it need not be restarted."""
        names = ("name", "command", "form", "raw", "rate", "offset", "receiver", "equaliser", "soft", "hertz")
        return all(getattr(self, name) == getattr(other, name) for name in names)

    @property
    def hertz(self) -> int:
        """The frequency in a shared receiver's band."""
        return round(1e6 * (self.frequency or 0)) if self.receiver else 0


class Keep(NamedTuple):
    """For how long listings and the rows of the database are kept, up to which size the listings, and whether closed hours are compressed;
    0 keeps all."""

    listings_days: float = 0
    listings_gb: float = 0
    database_days: float = 0
    compress: bool = False


class Table(NamedTuple):
    folder: Optional[str]
    keep: Keep
    stations: Tuple[StationTable, ...]
    program: Optional[str]  # that decodes, in place of librds
    receivers: Tuple[ReceiverTable, ...]
    # Whether it says `soft = true`: soft decisions by default need no decoder that has them.
    needs_soft: bool

    def hard(self) -> "Table":
        """The same without soft decisions."""
        receivers = {one.name: replace(one, soft=False) for one in self.receivers}
        hard = (replace(one, soft=False) for one in self.stations)
        return self._replace(stations=_received(hard, receivers), receivers=tuple(receivers.values()))


Judge = Callable[[Any, str], Any]
Values = Dict[str, Any]
Receivers = Dict[str, ReceiverTable]
Stations = Tuple[StationTable, ...]


def _rule(fits: Callable[[Any], bool], needed: str, made: Callable[[Any], Any]) -> Judge:
    """The value as it is used, or a fault that says which one is needed."""

    def judge(value: Any, of: str) -> Any:
        if not fits(value):
            raise Fault(f"{of}: {needed} needed, not {value!r}")
        return made(value)

    return judge


def _is_text(value: Any) -> bool:
    return isinstance(value, str) and value != "" and "\0" not in value


def _is_number(value: Any, *kinds: type) -> bool:
    return isinstance(value, kinds or (int, float)) and not isinstance(value, bool)


def _texts(value: Any) -> Tuple[Any, ...]:
    return tuple(value if isinstance(value, list) else [value])


def _one_of(choices: Tuple[str, ...]) -> Judge:
    return _rule(lambda value: value in choices, f"one of {', '.join(choices)} is", str)


def _name(value: Any, of: str) -> str:
    """The name of a station, which is that of its folder too."""
    text: str = _text(value, of)
    is_long = len(text.encode("utf-8", "replace")) > 100
    if "/" in text or text[0] in ".-" or text == "index" or is_long or not text.isprintable():
        needed = "no '/', at most 100 bytes, no '.' or '-' first, and not 'index'"
        raise Fault(f"{of}: {text!r} cannot be the name of a folder: {needed}")
    return text


def _words(value: Any, of: str) -> Tuple[str, ...]:
    words = value if isinstance(value, list) else []
    if words and all(isinstance(word, str) and "\0" not in word for word in words):
        return tuple(words)
    raise Fault(f'{of}: a list of words is needed, such as ["receiver", "-f", "98.1M"]: no shell reads it')


_text = _rule(_is_text, "a text is", str)
_number = _rule(lambda one: _is_number(one) and 0 <= one < 1e12, "a number that is not below 0 is", float)
_patterns = _rule(
    lambda value: value != [] and all(isinstance(text, str) and text.strip() for text in _texts(value)),
    "a pattern or a list of patterns is",
    _texts,
)
_truth = _rule(lambda value: isinstance(value, bool), "true or false is", bool)

PI = re.compile("[0-9A-Fa-f]{4}")
JUDGES: Dict[str, Judge] = {
    "name": _name,
    "command": _words,
    "form": _one_of(("bits", "mpx", "iq")),
    "raw": _one_of(("s16", "f32", "u8")),
    "rate": _rule(
        lambda value: _is_number(value, int) and value in RATES,
        f"{RATES[0]} to {RATES[-1]} samples per second are",
        int,
    ),
    "receiver": _text,
    "equaliser": _truth,
    "soft": _truth,
    "offset": _rule(lambda value: _is_number(value) and -3e6 < value < 3e6, "a number of Hz is", float),
    "frequency": _number,
    "pi": _rule(
        lambda value: value != [] and all(_is_text(pi) and PI.fullmatch(pi) for pi in _texts(value)),
        "four hexadecimal digits in quotes, or a list of such, are",
        lambda value: tuple(map(str.upper, _texts(value))),
    ),
    "ps": _patterns,
    "rt": _patterns,
    "af": _rule(
        lambda value: value != [] and all(_is_number(one) and 0.1 < one < 108 for one in _texts(value)),
        "a list of frequencies in MHz is",
        lambda value: tuple(round(1000 * one) for one in _texts(value)),
    ),
    "patience": _number,
    "alarm_command": _words,
}
# Keys of a receiver's own that a station of it does not have.
OF_RECEIVER = ("command", "form", "raw", "rate", "offset", "patience", "soft")
RECEIVER_JUDGES: Dict[str, Judge] = {
    **{name: JUDGES[name] for name in ("command", "raw", "rate", "patience", "soft")},
    "name": _text,
    "form": _one_of(("iq",)),
    "centre": _number,
}
KEPT = {"compress": _truth}
MOST_LOOKED_AT = 60  # minutes and clock times that an alarm looks at, at most


def read_table(path: str) -> Table:
    try:
        with open(path, "rb") as file:
            return table_of(file.read().decode("utf-8"))
    except OSError as error:
        raise Fault(f"{path!r} cannot be read: {error.strerror}") from None
    except UnicodeDecodeError:
        raise Fault(f"{path!r} is not in UTF-8") from None
    except Fault as error:
        raise Fault(f"{path!r}: {error}") from None


def _toml() -> Any:
    """The reader of TOML, which Python has from 3.11 on."""
    for name in ("tomllib", "tomli"):
        try:
            return importlib.import_module(name)
        except ImportError:
            continue
    raise Fault("a table needs Python 3.11, or the module tomli: install Debian's python3-tomli")


def table_of(text: str) -> Table:
    toml = _toml()
    try:
        given: Dict[str, Any] = toml.loads(text)
    except toml.TOMLDecodeError as error:
        raise Fault(f"this is no TOML: {error}") from None
    _known(given, {"folder", "program", "keep", "defaults", "receiver", "station"}, "the table")
    folder, program = (_text(given[name], name) if name in given else None for name in ("folder", "program"))
    listed, defaults = given.get("station", []), given.get("defaults", {})
    if not isinstance(listed, list) or not listed:
        raise Fault("there is no [[station]]")
    if not isinstance(defaults, dict) or "name" in defaults:
        raise Fault("[defaults] has the keys of a station but its name")
    receivers = _receivers(given.get("receiver", []))
    stations = tuple(_station(entry, defaults, number, receivers) for number, entry in enumerate(listed, 1))
    names = [station.name.casefold() for station in stations]
    for station in stations:
        if names.count(station.name.casefold()) > 1:
            raise Fault(f"there are two stations {station.name!r}")
    stations = _tuned(stations, receivers)
    keep = _known(given.get("keep", {}), set(Keep._fields), "[keep]")
    kept = Keep(**{name: KEPT.get(name, _number)(value, f"keep.{name}") for name, value in keep.items()})
    if kept.compress:
        zstandard("keep.compress needs zstd: install python3-zstandard")
    found = {station.receiver.name: station.receiver for station in stations if station.receiver}
    needs_soft = any(one.get("soft") for one in (defaults, *listed, *given.get("receiver", [])))
    return Table(folder, kept, stations, program, tuple(found.values()), needs_soft)


def _known(given: Any, names: Set[str], of: str) -> Dict[str, Any]:
    """A table with no other keys."""
    if not isinstance(given, dict):
        raise Fault(f"{of} is a table")
    for name in given:
        if name not in names:
            raise Fault(f"{of} has an unknown key {name!r}: there are {', '.join(sorted(names))}")
    return given


def _receivers(listed: Any) -> Receivers:
    """By name, without their stations."""
    found: Receivers = {}
    if not isinstance(listed, list):
        raise Fault("receivers are tables [[receiver]]")
    for number, given in enumerate(listed, 1):
        name = given.get("name") if isinstance(given, dict) else None
        of = f"receiver {name!r}" if isinstance(name, str) else f"the receiver number {number}"
        values = _known(given, {*RECEIVER_JUDGES}, of)
        for key in ("name", "command", "raw", "rate", "centre"):
            if key not in values:
                raise Fault(f"{of} has no {key!r}")
        judged = {key: RECEIVER_JUDGES[key](value, f"{key} of {of}") for key, value in values.items()}
        receiver = ReceiverTable(**judged)
        if receiver.name in found:
            raise Fault(f"there are two receivers {receiver.name!r}")
        found[receiver.name] = receiver
    return found


def _tuned(stations: Stations, receivers: Receivers) -> Stations:
    """The stations, whose receivers know all of theirs."""
    whole: Receivers = {}
    for name, receiver in receivers.items():
        own = [station for station in stations if station.receiver and station.receiver.name == name]
        if not own:
            raise Fault(f"receiver {name!r} has no station")
        tuned = tuple(sorted(Tuned(station.hertz, station.equaliser) for station in own))
        for one, other in zip(tuned, tuned[1:]):
            if one.hertz == other.hertz:
                raise Fault(f"receiver {name!r} has two stations at {one.hertz / 1e6:g} MHz")
        whole[name] = replace(receiver, tuned=tuned)
    return _received(stations, whole)


def _received(stations: Iterable[StationTable], receivers: Receivers) -> Stations:
    return tuple(replace(one, receiver=one.receiver and receivers[one.receiver.name]) for one in stations)


def _station(given: Any, defaults: Dict[str, Any], number: int, receivers: Receivers) -> StationTable:
    if not isinstance(given, dict):
        raise Fault("a [[station]] is a table")
    name = given.get("name")
    of = f"station {name!r}" if isinstance(name, str) else f"the station number {number}"
    merged = _known({**defaults, **given}, {*JUDGES, "alarms"}, of)
    if "receiver" in merged:
        merged = _of_receiver(given, merged, of, receivers)
    for key in ("name", "command"):
        if key not in merged:
            raise Fault(f"{of} has no {key!r}")
    limits = {**_alarms(defaults.get("alarms", {}), "[defaults]"), **_alarms(merged.pop("alarms", {}), of)}
    found = {key: JUDGES[key](value, f"{key} of {of}") for key, value in merged.items()}
    if "receiver" in found:
        found["receiver"] = receivers[found["receiver"]]
    elif "equaliser" not in found:
        found["equaliser"] = found.get("form") == "iq"  # of a receiver's only station
    found.setdefault("soft", found.get("form", "bits") != "bits")
    station = StationTable(**found, alarms=replace(AlarmLimits(), **limits))
    _judge_form(station, of)
    return station


def _of_receiver(given: Values, merged: Values, of: str, receivers: Receivers) -> Values:
    """The keys of a station of a shared receiver, which has the rest of them, whatever the defaults are."""
    receiver = receivers.get(merged["receiver"]) if isinstance(merged["receiver"], str) else None
    if receiver is None:
        raise Fault(f"{of}: there is no receiver {merged['receiver']!r}")
    for key in OF_RECEIVER:
        if key in given:
            raise Fault(f"{of}: {key!r} is a key of its receiver")
    if "frequency" not in merged:
        raise Fault(f"{of} has no 'frequency', which its receiver needs")
    frequency = _number(merged["frequency"], f"frequency of {of}")
    if not is_inside(receiver.offset(frequency), receiver.rate):
        reach = (receiver.rate / 2 - HALF_CHANNEL_HZ) / 1e6
        band = f"{receiver.centre - reach:.10g} to {receiver.centre + reach:.10g} MHz"
        text = f"{of}: {frequency:g} MHz is not in the band of receiver {receiver.name!r}"
        raise Fault(f"{text}: that has {band}")
    common = {"command": list(receiver.command), "form": receiver.form, "patience": receiver.patience}
    common.update(raw=receiver.raw, rate=receiver.rate, soft=receiver.soft)
    return {**{key: value for key, value in merged.items() if key not in OF_RECEIVER}, **common}


def _judge_form(table: StationTable, of: str) -> None:
    if table.form != "iq" and table.equaliser:
        raise Fault(f"{of}: 'equaliser' is for the form iq")
    if table.form == "bits" and table.soft:
        raise Fault(f"{of}: 'soft' is for the forms mpx and iq")
    if table.form == "bits" and (table.raw is not None or table.rate is not None or table.offset):
        raise Fault(f"{of}: 'raw', 'rate' and 'offset' are for the forms mpx and iq")
    if table.form != "bits" and (table.raw is None or table.rate is None):
        raise Fault(f"{of}: the form {table.form} needs 'raw' and 'rate'")
    if table.form == "mpx" and table.offset:
        raise Fault(f"{of}: 'offset' is for the form iq")


def _alarms(given: Any, of: str) -> Dict[str, Any]:
    _known(given, {field.name for field in fields(AlarmLimits)}, f"the alarms of {of}")
    found: Dict[str, Any] = {}
    for name, value in given.items():
        off = value is False and name not in ("errors_percent", "ct_offset")
        found[name] = None if off else _number(value, f"alarm {name} of {of}")
        if name in ("errors", "ct") and (found[name] or 0) > MOST_LOOKED_AT:
            raise Fault(f"alarm {name} of {of}: at most {MOST_LOOKED_AT} are looked at, not {value!r}")
    return found
