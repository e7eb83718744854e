"""How `demod` reports how well bits or symbols were received."""

import argparse
import json
import time
from typing import Any, Callable, Dict, TextIO

from .receiver import Receiver


class QualityLine:
    """Reports on standard error: at the end, at times if asked, and on a terminal in one line that is overwritten."""

    def __init__(self, arguments: argparse.Namespace, stream: TextIO, station: str = ""):
        self._json, self._every, self._stream = arguments.json, arguments.every, stream
        self._next = arguments.every or 0.0
        # Several stations have no line of their own.
        self._shows = stream.isatty() and not arguments.json and not arguments.every and not station
        self._shown, self._prefix = 0.0, f"{station}: " if station else ""

    def tell(self, seconds: float, report: Callable[[], Dict[str, Any]]) -> None:
        if self._every and seconds >= self._next:
            self._next = seconds + self._every
            self.end(report())
        elif self._shows and time.monotonic() - self._shown > 0.5:
            self._shown = time.monotonic()
            self._stream.write(f"\r{sentence(report())}\x1b[K")
            self._stream.flush()

    def end(self, told: Dict[str, Any]) -> None:
        clear = "\r\x1b[K" if self._shows else ""
        text = json.dumps(told) if self._json else f"rds-monitor demod: {self._prefix}{sentence(told)}"
        self._stream.write(f"{clear}{text}\n")
        self._stream.flush()


def sentence(told: Dict[str, Any]) -> str:
    if not told["locked"]:
        return f"{told['seconds']} s, no RDS"
    parts = [
        f"{told['seconds']} s, {100 * told['received']:.1f} % of its bits in valid blocks",
        f"coherent for {100 * told['locked']:.1f} % of it, from {told['first_lock_s']} s on",
    ]
    if told["snr_db"] is not None:
        parts.append(f"signal to noise {told['snr_db']} dB")
    parts.append(f"carrier {told['carrier_offset_hz']:+} Hz, clock {told['clock_offset_ppm']:+} ppm")
    levels = {"rds_khz": "deviation {} kHz", "rds_to_pilot_db": "level {} dB relative to the pilot"}
    levels["rds_dbfs"] = "level {} dBFS"
    parts += [text.format(told[name]) for name, text in levels.items() if told[name] is not None][:1]
    return "; ".join(parts)


def report_of(receiver: Receiver, written: int) -> Dict[str, Any]:
    return {**receiver.quality.report(), "symbols" if receiver.is_soft else "bits": written}
