"""Groups as redsea's JSON: a line per group, by the keys of redsea for what both know.

Values are those that count by the rules of `content`, so they are the station's and no wrong correction's; a PS or a
text is written with the last group of its turn, as long as it holds."""
from functools import lru_cache
from itertools import chain, groupby
from operator import itemgetter
from typing import Any, Callable, Dict, Iterable, List, Tuple

import numpy

from ..rows.clock import Clock, utc_texts
from ..rows.items import BLOCKS, GROUP, VALID, Rows, chosen
from .charset import safe_json
from .decoder import Decoder, Event
from .evidence import Array
from .features import clock_time, item_number
from .looks import TMC, codes_of, name_of
from .names import language, programme_type
from .networks import kilohertz

Object = Dict[str, Any]
Words = Tuple[int, int, int, int]
MOST_WRITTEN = 1 << 14  # how many groups are remembered: more than a station sends in turn
TIME = "\0"  # the time's place in a line, in which no control is
# The segment in which a name or text is written, besides the group in which it changes: of these bits of block 2.
WRITTEN_IN = {"ps": (3, 3), "rt": (0xF, 0)}
# The group types that tell an item, but for the group in which it changes.
_TELL = {
    "0A 0B 15B": "di_dynamic_pty di_compressed di_artificial_head di_stereo ps af",
    "1A 1B": "pin country tmc_id language",
    "2A 2B": "rt rt_ab",
    "3A": "oda tmc_service",
    "4A": "ct",
    "5A 5B": "tdc",
    "8A": "tmc_provider tmc_message",
    "10A": "ptyn",
    "14A 14B": "eon",
    "15A": "lps",
}
TOLD_IN = {item: groups for groups, items in _TELL.items() for item in items.split()}
# Items that are written with the group in which they are told, and a PI, by which nothing else holds.
_TOLD_ONCE = tuple("pi rt_plus ert dab:".split())
_DI = ("dynamic_pty", "compressed", "artificial_head", "stereo")


class Written(Dict[int, str]):
    """Lines of groups, made when they are asked for first, while the items hold that they tell."""

    def __init__(self, make: Callable[[int], str]) -> None:
        super().__init__()
        self._make = make
        # By group type and low bits of block 2, the groups that have a line.
        self._known: Dict[int, List[int]] = {}

    def __missing__(self, group: int) -> str:
        found = self._make(group)
        if group >> 44 & 0xF == 6:
            return found  # in-house data are seldom alike
        if len(self) < MOST_WRITTEN:
            self[group] = found
            self._known.setdefault(group >> 32 & 0xF80F, []).append(group)
        else:
            self.clear()
        return found

    def clear(self) -> None:
        super().clear()
        self._known.clear()

    def forget(self, code: int, bits: int, segment: int) -> None:
        """The lines of groups of a type, of which some bits of block 2 say the segment."""
        for low in range(16):
            if low & bits == segment:
                for group in self._known.pop(code << 11 | low, ()):
                    del self[group]


class Redsea:
    """Writes the groups of rows, chunk by chunk."""

    def __init__(self, decoder: Decoder) -> None:
        self._decoder = decoder
        self._held: Dict[str, Any] = {}
        self._pi, self._time = -1, ""
        self._fresh: List[str] = []
        self._is_valid: bool
        self._head = lru_cache(MOST_WRITTEN)(self._head_of)
        self._written = Written(self._text_of)
        makers: Dict[str, Callable[[Object, Words], None]] = {
            "0A 0B 15B": self._tuning,
            "1A": self._labels,
            "1B": lambda found, words: self._put_number(found, "pin", words[3]),
            "2A 2B": self._text,
            "3A": self._open_data,
            "4A": self._clock,
            "5A 5B": self._channel,
            "6A 6B": lambda found, words: None,
            "8A": self._traffic,
            "10A": lambda found, _: self._put(found, pty_name="ptyn"),
            "14A 14B": self._network,
            "15A": lambda found, _: self._put(found, long_ps="lps"),
        }
        self._makers = {code: maker for names, maker in makers.items() for code in codes_of(names)}
        # Of other types only these bits are told.
        self._told = numpy.full(32, 0xFFE0 << 32)
        self._told[list(self._makers)] = -1

    def lines(self, rows: Rows, clock: Clock) -> List[str]:
        """A line per group whose second block is known, from the first group on whose PI counts."""
        events, before = self._decoder.feed(rows), self._pi
        groups = _those(rows, (rows["what"] == GROUP) & (rows["kind2"] >= VALID))
        begins = [(event.place, event.pi) for event in events if event.item == "pi"]
        own = numpy.array([before, *(pi for _, pi in begins)])
        own = own[numpy.searchsorted([place for place, _ in begins], groups["place"], side="right")]
        groups = _those(groups, (own >= 0) & ((groups["kind1"] < VALID) | (groups["info1"] == own)))
        keys: List[int] = (_keys_of(groups) & self._told[groups["info2"] >> 11]).tolist()
        if self._time != TIME * (clock.start is not None):
            self._time = TIME * (clock.start is not None)
            self._written.clear()
        lines: List[str] = []
        begin = 0
        ends = numpy.searchsorted(groups["place"], [event.place for event in events]).tolist()
        for end, pairs in groupby(zip(ends, events), itemgetter(0)):
            told = [event for _, event in pairs]  # events of one group change it together
            if begin == end or end == len(keys) or self._changes(told, keys[end] >> 32):
                lines += self._lines_of(keys[begin:end])
                begin = end
                for event in told:
                    self._hold(event)
        lines += self._lines_of(keys[begin:])
        if clock.start is None:
            return lines
        times = utc_texts(clock.start + groups["place"] / clock.rate)
        return [line.replace(TIME, f',"rx_time":"{time}"') for line, time in zip(lines, times)]

    def _changes(self, events: List[Event], second: int) -> bool:
        """Whether the events of a group change lines, its own or those after it: others tell again what its block 2 asks for."""
        values = {event.item: event.value for event in events}
        return any(
            item.startswith(_TOLD_ONCE)
            or self._held.get(item, self) != value
            or item in WRITTEN_IN
            and second & WRITTEN_IN[item][0] != WRITTEN_IN[item][1]
            for item, value in values.items()
        )

    def _lines_of(self, groups: List[int]) -> Iterable[str]:
        """The lines of groups in a row, in the first of which items may have changed."""
        first = [self._text_of(group) for group in groups[:1] if self._fresh]
        if first:
            self._fresh = []
        return chain(first, map(self._written.__getitem__, groups[len(first) :]))

    def _hold(self, event: Event) -> None:
        name = event.item.partition(":")[0]
        if name == "pi":
            self._held, self._pi = {}, event.pi
            self._written.clear()
        for code in codes_of(TOLD_IN.get(name, "")):
            self._written.forget(code, *WRITTEN_IN.get(name, (0, 0)))
        self._held.pop(event.item, None)  # of several lists the one that changed last is the last
        self._held[event.item] = event.value
        self._fresh.append(event.item)

    def _text_of(self, group: int) -> str:
        """What is written of a group: its blocks 2 to 4, whether these are complete, and whether all are valid."""
        second = group >> 32 & 0xFFFF
        rest: Object = {}
        self._is_valid = bool(group >> 49)
        code, text = second >> 11, self._head(self._pi, second & 0xFFE0) + self._time
        if group >> 48 & 1 and code >> 1 == 6:
            # Without a dictionary: the lines of some stations are mostly these.
            third = "" if code & 1 else f"{group >> 16 & 0xFFFF},"
            text += f',"in_house_data":[{second & 0x1F},{third}{group & 0xFFFF}]'
        elif group >> 48 & 1 and code in self._makers:
            self._makers[code](rest, (self._pi, second, group >> 16 & 0xFFFF, group & 0xFFFF))
        if self._fresh:
            self._applications(rest)
        return f"{text},{safe_json(rest)[1:]}\n" if rest else text + "}\n"

    def _head_of(self, pi: int, second: int) -> str:
        head = {"pi": f"0x{pi:04X}", "group": name_of(second >> 11), "tp": bool(second >> 10 & 1)}
        return safe_json({**head, "prog_type": self._type(second >> 5 & 0x1F)})[:-1]

    def _type(self, code: int) -> str:
        return programme_type(code, self._decoder.rbds) if code else "No PTY"

    def _put(self, found: Object, **items: str) -> None:
        """Values that hold, by redsea's key and the item."""
        for key, item in items.items():
            if self._held.get(item) is not None:
                found[key] = self._held[item]

    def _tuning(self, found: Object, words: Words) -> None:
        found["ta"], found["is_music"] = bool(words[1] & 0x10), bool(words[1] & 0x08)
        segment, name = words[1] & 3, name_of(words[1] >> 11)
        if f"di_{_DI[segment]}" in self._held:
            found["di"] = {_DI[segment]: self._held[f"di_{_DI[segment]}"]}
        if (segment == 3 or "ps" in self._fresh) and name != "15B":
            self._put(found, ps="ps")
        if segment == 3 and name == "0A":
            self._put(found, alt_frequencies_a="af")
            lists = [value for item, value in self._held.items() if item.startswith("af:") and value]
            keys = {"tuned_frequency": "tuned", "same_programme": "same", "regional_variants": "regional"}
            if lists:
                found["alt_frequencies_b"] = {key: lists[-1][of] for key, of in keys.items()}

    def _put_number(self, found: Object, item: str, number: int) -> None:
        """A programme item number, and its start if it has one that counts."""
        start = item_number(number)
        counts = start is not None and start == self._held.get(item)
        if number and (counts or start is None and self._is_valid):
            found["prog_item_number"] = number
        if start and counts:
            found["prog_item_started"] = {"day": int(start[:2]), "time": start[3:]}

    def _labels(self, found: Object, words: Words) -> None:
        self._put_number(found, "pin", words[3])
        found["has_linkage"] = bool(words[2] & 0x8000)
        variant = words[2] >> 12 & 7
        if variant == 0:
            self._put(found, country="country")
        elif variant == 1 and "tmc_id" in self._held:
            found["tmc_id"] = int(self._held["tmc_id"], 16)
        elif variant == 3 and "language" in self._held:
            found["language"] = language(int(self._held["language"], 16)) or self._held["language"]

    def _text(self, found: Object, words: Words) -> None:
        self._put(found, rt_ab="rt_ab")
        if words[1] & 0xF == 0 or "rt" in self._fresh:
            self._put(found, radiotext="rt")

    def _open_data(self, found: Object, words: Words) -> None:
        held = self._held.get(f"oda:{words[3]:04X}")
        if held:
            name = held["name"] or f"(Unknown 0x{words[3]:04X})"
            found["open_data_app"] = {"oda_group": held["group"], "app_name": name, "message": words[2]}
        service = self._held.get("tmc_service")
        if words[3] in TMC and service:
            table = service["location_table"]
            info = {"is_encrypted": table == 0, "location_table": table}
            info.update(is_on_alt_freqs=service["alternative_frequencies"], scope=service["scope"])
            found["tmc"] = {"system_info": info}

    def _clock(self, found: Object, words: Words) -> None:
        own = clock_time((words[1] & 3) << 32 | words[2] << 16 | words[3])
        time = self._held.get("ct")
        if time and own and time == own.isoformat(timespec="minutes"):
            # To the second, with its offset: 2026-03-29T03:30:00+02:00, or Z for none.
            found["clock_time"] = f"{time[:16]}:00{'Z' if time[16:] == '+00:00' else time[16:]}"

    def _channel(self, found: Object, words: Words) -> None:
        address = words[1] & 0x1F
        if f"tdc:{address}" in self._held:
            own = words[3:] if words[1] & 0x800 else words[2:]  # in version B only block 4 is the channel's
            raw = b"".join(word.to_bytes(2, "big") for word in own)
            found["transparent_data"] = {"address": address, "raw": raw.hex(" ").upper()}

    def _traffic(self, found: Object, words: Words) -> None:
        traffic: Object = {}
        if self._held.get("tmc_provider"):
            traffic["service_provider"] = self._held["tmc_provider"]
        held = self._held.get("tmc_message")
        if held and (held["event"], held["location"]) == (words[2] & 0x7FF, words[3]):
            extent = f"{'-' if held['direction'] == 'negative' else '+'}{held['extent']}"
            message = {"event_codes": [held["event"]], "location": held["location"], "extent": extent}
            if "diversion" in held:
                message["diversion_advised"] = held["diversion"]
            traffic["message"] = message
        if traffic:
            found["tmc"] = traffic

    def _network(self, found: Object, words: Words) -> None:
        of = f"eon:{words[3]:04X}."
        other = found["other_network"] = {"pi": f"0x{words[3]:04X}"}
        self._put(other, tp=of + "tp")
        variant = words[1] & 0xF
        if words[1] & 0x800:
            self._put(other, ta=of + "ta")
        elif variant == 3:
            self._put(other, ps=of + "ps")
        elif variant == 4 and isinstance(self._held.get(of + "af"), list):
            self._put(other, alt_frequencies=of + "af")
        elif 5 <= variant <= 9:
            mapped = kilohertz(words[2] & 0xFF, low=variant == 9)
            if mapped:
                other["kilohertz"] = mapped
        elif variant == 12:
            other["has_linkage"] = bool(words[2] & 0x8000)
            if words[2] & 0x8000 and words[2] & 0xFFF:
                other["linkage_set"] = words[2] & 0xFFF
        elif variant == 14:
            self._put_number(other, of + "pin", words[2])
        elif variant == 13:
            self._put(other, ta=of + "ta")
            if of + "pty" in self._held:
                other["prog_type"] = self._type(self._held[of + "pty"])

    def _applications(self, found: Object) -> None:
        """What was told by this group of applications whose groups have no fixed type."""
        told = [item for item in self._fresh if self._held.get(item)]
        if any(item.startswith("rt_plus") for item in self._fresh):
            found["radiotext_plus"] = {
                "item_running": self._held.get("rt_plus_running"),
                "item_toggle": self._held.get("rt_plus_toggle"),
                "tags": [
                    {"content-type": item.split(":")[1].replace(".", "_"), "data": self._held[item]}
                    for item in told
                    if item.startswith("rt_plus:")
                ],
            }
        if "ert" in self._fresh:
            self._put(found, enhanced_radiotext="ert")
        for item in told:
            if item.startswith("dab:"):
                held = self._held[item]
                found["dab"] = {"kilohertz": round(float(item[4:]) * 1000), "mode": held["mode"]}
                found["dab"].update(channel=held["channel"], ensemble_id=f"0x{held['ensemble']}")


def _those(rows: Rows, which: Array) -> Rows:
    return rows if which.all() else chosen(rows, which)


def _keys_of(groups: Rows) -> Array:
    """Blocks 2 to 4 of groups, whether these are complete, and whether all four are valid."""
    second, third, fourth = (groups[f"info{block}"].astype("i8") for block in BLOCKS[1:])
    complete = (groups["kind3"] >= VALID) & (groups["kind4"] >= VALID)
    valid = numpy.logical_and.reduce([groups[f"kind{block}"] == VALID for block in BLOCKS])
    keys: Array = valid * (1 << 49) | complete << 48 | second << 32
    keys[complete] |= (third << 16 | fourth)[complete]
    return keys
