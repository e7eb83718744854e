"""Flags, codes and features: what a group says by itself."""
import datetime
from typing import Any, Dict, Optional

from ..rows.clock import EPOCH_MJD
from . import names
from .columns import fields_of, payload
from .events import Taker, Teller
from .looks import GROUP_CODES, TMC, Kind, may_carry_application, name_of

DI_BITS = ("di_dynamic_pty", "di_compressed", "di_artificial_head", "di_stereo")


class Flags(Taker):
    """All groups: TP and PTY. Groups 0A, 0B and 15B: TA, music or speech, and decoder identification."""

    kinds = {Kind.TP_PTY, Kind.TA_MS, Kind.DI}

    def __init__(self, teller: Teller, rbds: bool) -> None:
        super().__init__(teller)
        self._rbds = rbds

    def take(self, kind: int, message: int, position: int, value: int) -> None:
        if kind == Kind.TP_PTY:
            self._tell("tp", bool(value >> 5))
            self._tell("pty", value & 31, f"{value & 31} {names.programme_type(value & 31, self._rbds)}")
        elif kind == Kind.TA_MS:
            self._tell("ta", bool(value >> 1))
            self._tell("ms", "music" if value & 1 else "speech")
        else:
            self._tell(DI_BITS[position], bool(value))


def item_number(value: int) -> Optional[str]:
    """A programme item number as day and time, or None if it is none. The day 0 says that there is none."""
    day, hour, minute = value >> 11, value >> 6 & 0x1F, value & 0x3F
    return f"{day:02} {hour:02}:{minute:02}" if day and hour < 24 and minute < 60 else None


# By their variants, the slow labelling codes that are numbers.
LABELS = {1: "tmc_id", 2: "paging_id", 6: "broadcaster_bits", 7: "ews_channel"}


class SlowLabels(Taker):
    """Groups 1A and 1B: programme item number and slow labelling codes."""

    kinds = {Kind.PIN, Kind.LINKAGE, Kind.LABEL}

    def __init__(self, teller: Teller, pi: int) -> None:
        super().__init__(teller)
        self._pi = pi

    def take(self, kind: int, message: int, position: int, value: int) -> None:
        if kind == Kind.PIN:
            number = item_number(value)
            if number or not value >> 11:
                self._tell("pin", number)
        elif kind == Kind.LINKAGE:
            self._tell("linkage", bool(value))
        elif position == 0:
            code = value & 0xFF
            self._tell("ecc", f"{code:02X}" if code else None)
            country = names.country(code, self._pi)
            self._tell("country", country, names.COUNTRY_NAMES[country] if country else None)
        elif position == 3:
            code, name = value & 0xFF, names.language(value & 0xFF)
            self._tell("language", f"{code:02X}", f"{code:02X} {name}" if name else None)
        elif position in LABELS:
            self._tell(LABELS[position], f"{value:03X}")


def clock_time(value: int) -> Optional[datetime.datetime]:
    """The local time that a group 4A says, or None if it is no time."""
    day, hour, minute, sign, half_hours = fields_of("ct", value, "day hour minute sign half_hours")
    if hour > 23 or minute > 59 or day < EPOCH_MJD:
        return None
    time = datetime.datetime(1970, 1, 1, hour, minute, tzinfo=datetime.timezone.utc)
    offset = datetime.timedelta(minutes=30 * half_hours * (-1 if sign else 1))
    return (time + datetime.timedelta(day - EPOCH_MJD)).astimezone(datetime.timezone(offset))


class ClockTime(Taker):
    """Group 4A: clock time and date. It never comes twice alike, so it needs a valid group."""

    kinds = {Kind.CT}

    def take(self, kind: int, message: int, position: int, value: int) -> None:
        time = clock_time(value)
        if time:
            self._tell("ct", time.isoformat(timespec="minutes"))


class OpenData(Taker):
    """Group 3A: which application is carried by which group type, and the service of TMC."""

    kinds = {Kind.ODA, Kind.ODA_MESSAGE}

    def __init__(self, teller: Teller) -> None:
        super().__init__(teller)
        self._service: Dict[str, Any] = {}

    def take(self, kind: int, message: int, position: int, value: int) -> None:
        if kind == Kind.ODA:
            self._take_assignment(position, value)
        elif message in TMC:
            self._take_service(value)

    def _take_assignment(self, aid: int, code: int) -> None:
        name = names.APPLICATIONS.get(aid)
        group = {0: None, 31: "fault"}.get(code, name_of(code))
        shown = {0: "in no group of its own", 31: "temporary fault"}.get(code, f"in {group}")
        if code not in (0, 31) and not may_carry_application(code):
            shown += ", which carries none"
        found = {"group": group, "name": name}
        self._tell(f"oda:{aid:04X}", found, f"{name or 'unknown application'} {shown}")

    def _take_service(self, value: int) -> None:
        """EN ISO 14819-1: variant 0 has the location table, flags and scope, variant 1 the service and its timing."""
        if value >> 14 == 0:
            self._service.update(
                location_table=value >> 6 & 0x3F,
                alternative_frequencies=bool(value & 0x20),
                mode="enhanced" if value & 0x10 else "basic",
                scope=[name for bit, name in zip((8, 4, 2, 1), names.TMC_SCOPES) if value & bit],
            )
        elif value >> 14 == 1:
            self._service["service"] = value >> 6 & 0x3F
        if "scope" in self._service:
            known = [("location table", "location_table"), ("service", "service")]
            parts = [f"{name} {self._service[key]}" for name, key in known if key in self._service]
            shown = ", ".join([*parts, " ".join(self._service["scope"])])
            self._tell("tmc_service", dict(self._service), shown)


class Features(Taker):
    """Groups 5A to 9A and 13A that no application has: which features are there, and the data of EWS; with `data` those
    of transparent channels and of the operator's own."""

    kinds = {Kind.CHANNEL, Kind.EWS, Kind.ODA}
    features = {"6A": "ih", "6B": "ih", "7A": "rp", "8A": "tmc", "13A": "erp"}

    def __init__(self, teller: Teller, data: bool) -> None:
        super().__init__(teller)
        if data:
            self.kinds = self.kinds | {Kind.TDC_DATA, Kind.IH_DATA}

    def take(self, kind: int, message: int, position: int, value: int) -> None:
        if kind in {Kind.TDC_DATA, Kind.IH_DATA}:
            self._take_data(kind, position, value)
        elif kind == Kind.EWS:
            first, *rest = payload(value)[1:]
            self._tell("ews", f"{first:02X} {rest[0]:04X} {rest[1]:04X}")
        elif kind == Kind.ODA:
            self._assigned(position, name_of(value))
        elif position < GROUP_CODES:
            self._tell(f"tdc:{position}", True)
        else:
            self._tell(self.features[name_of(position - GROUP_CODES)], True)

    def _take_data(self, kind: int, position: int, value: int) -> None:
        """The bytes of a channel, or five bits and words: in version B, whose position is higher, a word less."""
        if kind == Kind.TDC_DATA:
            raw = value.to_bytes(2 if position > 0xFF else 4, "big")
            self._tell(f"tdc_data:{position & 0xFF}", raw.hex(" ").upper())
        else:
            raw = value.to_bytes(3 if position else 5, "big")
            self._tell("ih_data", raw.hex(" ", 2).upper())

    def _assigned(self, aid: int, group: str) -> None:
        """An application has this group type, which is no such feature then."""
        if group in ("5A", "5B"):
            self._teller.drop(
                [item for item in self._teller.held if item.partition(":")[0] in {"tdc", "tdc_data"}]
            )
        elif group in self.features and not (group == "8A" and aid in TMC):
            self._teller.drop([self.features[group], *["ih_data"] * (group in ("6A", "6B"))])


class TrafficMessages(Taker):
    """Group 8A: user messages of TMC (ISO 14819-1), by their numbers: the first group of each."""

    kinds = {Kind.TMC_MESSAGE}

    def take(self, kind: int, message: int, position: int, value: int) -> None:
        event, location, negative, extent = fields_of("tmc", value, "event location direction extent")
        is_single, diversion, duration = fields_of("tmc", value, "kind diversion duration")
        direction = "negative" if negative else "positive"
        found: Dict[str, Any] = dict(event=event, location=location, direction=direction, extent=extent)
        shown = f"event {event} at location {location}, extent {'-' if negative else '+'}{extent}"
        if is_single & 2:
            found.update(diversion=bool(diversion), duration=duration)
            shown += f", duration {duration}{', diversion advised' * diversion}"
        self._tell("tmc_message", found, shown)


class DabLink(Taker):
    """EN 301 700: DAB ensembles and services that belong to the programme."""

    kinds = {Kind.DAB, Kind.DAB_SERVICE}

    def take(self, kind: int, message: int, position: int, value: int) -> None:
        if kind == Kind.DAB_SERVICE:
            self._tell(f"dab_service:{position:04X}", True)
            return
        number, frequency, ensemble = fields_of("dab", value, "mode frequency ensemble")
        channel, mode = names.DAB_CHANNELS.get(16 * frequency), names.DAB_MODES[number]
        found = {"ensemble": f"{ensemble:04X}", "channel": channel, "mode": mode}
        shown = f"ensemble {ensemble:04X}, channel {channel or 'unknown'}, mode {mode}"
        self._tell(f"dab:{16 * frequency / 1000:.3f}", found, shown)


PLAIN = (ClockTime, OpenData, TrafficMessages, DabLink)  # those that need only the teller
