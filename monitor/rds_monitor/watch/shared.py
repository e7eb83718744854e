"""A receiver that several stations share: one process of its command, and one that demodulates all of them."""

import re
from collections import deque
from typing import Any, Deque, Dict, List, Optional, Tuple, Union

from .. import ITSELF
from .receiver import Keeper, Launch
from .table import ReceiverTable

FREQUENCY = re.compile(rb'\{"frequency":(\d+),')


def demodulator(table: ReceiverTable) -> Tuple[str, ...]:
    """The command that gives lines with the bits of all stations."""
    words = [*ITSELF, "demod", "--stations", *(["--soft"] if table.soft else []), "--raw", table.raw]
    words += ["--rate", str(table.rate), "--centre", str(round(1e6 * table.centre))]
    words += ["--at", ",".join(str(station.hertz) for station in table.tuned)]
    equalised = ",".join(str(station.hertz) for station in table.tuned if station.equaliser)
    return (*words, *(["--equalise", equalised] if equalised else []))


class SharedReceiver:
    """Keeps the command running. At each look it is read once, and the lines wait for their stations."""

    def __init__(self, table: ReceiverTable, speed: float, launch: Launch, now: float):
        self.table = table
        self.keeper = Keeper(table.command, table.patience * speed, launch, now, demodulator(table))
        self._taps: Dict[int, Tap] = {}
        self._rest = b""
        self._read_at: Optional[float] = None
        self.is_stopped = False

    def tap(self, hertz: int, now: float) -> "Tap":
        self._taps[hertz] = Tap(self, now)
        return self._taps[hertz]

    def read(self, now: float) -> None:
        if now == self._read_at:
            return
        self._read_at = now
        data = self.keeper.read(now)
        if data is None:
            self._rest = b""
            for tap in self._taps.values():
                tap.waiting.append(None)
            return
        *lines, self._rest = (self._rest + data).split(b"\n")
        found: Dict[int, List[bytes]] = {}
        for line in lines:
            of = FREQUENCY.match(line)
            if of:
                found.setdefault(int(of[1]), []).append(line + b"\n")
        for hertz, own in found.items():
            if hertz in self._taps:
                self._taps[hertz].waiting.append(b"".join(own))

    def stop(self, now: float, reason: str) -> None:
        """For good, once no station takes part."""
        if all(tap.is_stopped for tap in self._taps.values()):
            self.is_stopped = True
            self.keeper.stop(now, reason)


def of_keeper(name: str) -> Any:
    """What the keeper of all stations has by this name."""
    return property(
        lambda tap: getattr(tap._shared.keeper, name),
        lambda tap, value: setattr(tap._shared.keeper, name, value),
    )


class Tap:
    """A station's part of a shared receiver, as if that were the keeper of a command of its own."""

    def __init__(self, shared: SharedReceiver, now: float):
        self._shared, self.last_byte = shared, now
        self.waiting: Deque[Optional[bytes]] = deque()
        self.is_stopped = False

    def read(self, now: float) -> Optional[bytes]:
        self._shared.read(now)
        if not self.waiting:
            return b""
        data = self.waiting.popleft()
        if data:
            self.last_byte = now
        return data

    patience, reason = of_keeper("patience"), of_keeper("reason")
    starts, is_stopping = of_keeper("starts"), of_keeper("is_stopping")

    @property
    def is_running(self) -> bool:
        """For a station that left while others go on, it does not."""
        goes_on_without = self.is_stopped and not self._shared.is_stopped
        return self._shared.keeper.is_running and not goes_on_without

    def stop_run(self, now: float, reason: str) -> None:
        """The run of all stations ends."""
        self._shared.keeper.stop_run(now, reason)

    def stop(self, now: float, reason: str) -> None:
        self.is_stopped = True
        self._shared.stop(now, reason)

    def kill(self) -> None:
        self._shared.keeper.kill()


AnyKeeper = Union[Keeper, Tap]  # a station's: of a command of its own, or of one that it shares
