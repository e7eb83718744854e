"""Events, the values that hold, and how both are told."""
from typing import Any, Collection, Dict, Iterable, List, NamedTuple, Optional

Value = Any

# All items. After a colon comes which of several.
ITEMS = """\
pi  call_letters (with --rbds)  tp  pty  ta  ms  di_stereo  di_artificial_head  di_compressed  di_dynamic_pty  ps  rt_ab  rt  ptyn  ct
af (method A)  af:89.3 (method B, by the tuned frequency)
rt_plus:item.title  rt_plus_running  rt_plus_toggle  ert  ert_plus:item.title  ert_plus_running  ert_plus_toggle  lps
pin  linkage  ecc  country  language  tmc_id  paging_id  broadcaster_bits  ews_channel
oda:CD46  tmc  tmc_service  tmc_provider  tmc_message  tdc:3  tdc_data:3 (only json)  ih  ih_data (only json)  rp  erp  ews  dab:220.352  dab_service:D310
eon:D312.ps  .af  .mapped:98.1  .tp  .ta  .pty  .pin  .linkage
"""


class Event(NamedTuple):
    """A value that changed in the group whose first bit is at this place, of this PI.

    Values are such as JSON has; `text` is the same for a reader. `before` is None for the first value of an item, and
    `value` is None for an item that is no longer sent."""

    place: int
    pi: int
    item: str
    value: Value
    before: Value
    text: str


class Held(NamedTuple):
    """A value that holds since the group at this place."""

    value: Value
    text: str
    place: int


class Teller:
    """Collects the events of the programme that is received."""

    def __init__(self, lapses: bool) -> None:
        """With `lapses`, a name or text that is in change is told as None, and told again even if it is the same."""
        self.pi, self.place = -1, 0
        self.held: Dict[str, Held] = {}
        self.lapses = lapses
        self._events: List[Event] = []

    def begin(self, pi: int, place: int) -> None:
        """Another programme: nothing of it is known."""
        before = self.held["pi"].value if self.held else None
        self.pi, self.place = pi, place
        self.held = {"pi": Held(f"{pi:04X}", f"{pi:04X}", place)}
        self._events.append(Event(place, pi, "pi", f"{pi:04X}", before, f"{pi:04X}"))

    def tell(self, item: str, value: Value, text: Optional[str] = None) -> None:
        """A value that counts: an event if it is another one."""
        before = self.held.get(item)
        if value == (before.value if before else None):
            return
        # A text is its own, the same object.
        shown = text if text is not None else value if isinstance(value, str) else _text(value)
        if value is None:
            del self.held[item]
        else:
            self.held[item] = Held(value, shown, self.place)
        self._events.append(Event(self.place, self.pi, item, value, before.value if before else None, shown))

    def tell_text(self, item: str, text: Optional[str]) -> None:
        """A name or text that is whole, or None while it is in change: the one before stays until another is known."""
        before = self.held.get(item)
        if self.lapses and before and text in (None, before.value):
            self._events.append(Event(self.place, self.pi, item, text, before.value, _text(text)))
        elif text is not None:
            self.tell(item, text)

    def drop(self, items: Iterable[str]) -> None:
        """Items that are no longer sent."""
        for item in list(items):
            self.tell(item, None)

    def taken(self) -> List[Event]:
        events, self._events = self._events, []
        return events


def _text(value: Value) -> str:
    if value is None:
        return "none"
    return ("no", "yes")[value] if isinstance(value, bool) else str(value)


class Taker:
    """Takes the news of some kinds."""

    kinds: Collection[int] = ()

    def __init__(self, teller: Teller) -> None:
        self._teller = teller
        self._tell = teller.tell

    def take(self, kind: int, message: int, position: int, value: int) -> None:
        raise NotImplementedError

    def hear(self, kind: int, message: int, codes: Optional[bytes]) -> None:
        """The characters of a text that is whole, or None if the one that was told does not hold any more."""
        raise NotImplementedError
