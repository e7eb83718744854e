"""Alternative frequencies, and other networks (EON)."""
from typing import Any, Dict, List, Optional

from . import names
from .events import Taker, Teller
from .features import item_number
from .looks import Kind
from .texts import name_of

# IEC 62106, clause 6.2.1.6: the codes of frequencies, of how many follow, and of a long or medium wave after it.
LAST_VHF, NONE_FOLLOW, MOST_FOLLOW, LOW_FOLLOWS = 204, 224, 249, 250


def kilohertz(code: int, low: bool = False) -> Optional[int]:
    """The frequency of a code, or None if it is of none; `low` is of long and medium wave."""
    if not low:
        return 87500 + 100 * code if 1 <= code <= LAST_VHF else None
    if 1 <= code <= 15:
        return 144 + 9 * code
    return 387 + 9 * code if 16 <= code <= 135 else None


def megahertz(frequency: int) -> str:
    return f"{frequency / 1000:.1f}" if frequency >= 87500 else f"{frequency / 1000:.3f}"


class FrequencyList:
    """The list after one head, which says how many frequencies there are and names the first.

    By method A each frequency comes once. By method B the first one is that of a transmitter, and comes again in each
    pair: if the pair rises, beside a frequency of the same programme, else beside one of a regional variant. The list
    is complete once as many pairs came as its head says; any other pair after that begins it anew."""

    TURNS = 8

    def __init__(self, head: int) -> None:
        self.head, self.count, self.first = head, (head >> 8) - NONE_FOLLOW, head & 0xFF
        self._told: List[int] = []
        self._begin()

    def _begin(self) -> None:
        self._pairs: Dict[int, None] = {}
        self._turns = self._before_head = 0
        self._list = self._found()

    def take(self, pair: int) -> Any:
        """Takes a pair that counts. Returns the list if it became complete: the frequencies, or by method B those of one transmitter."""
        if pair == self.head:
            self._turns += 1
            if self._turns == 1:
                self._before_head = len(self._pairs)
                self._list = self._found()
                return self._list
            if self._turns > self.TURNS and self._list is None:
                self._begin()
            return None
        if pair in self._pairs or not self._belongs(pair):
            return None
        if self._list is not None:
            self._begin()
        self._pairs[pair] = None
        self._list = self._found()
        return self._list

    @property
    def is_by_a(self) -> bool:
        """Whether it is complete and by method A."""
        return isinstance(self._list, list)

    def _belongs(self, pair: int) -> bool:
        """Whether a pair has a frequency, and by method B that of the transmitter."""
        high, low = divmod(pair, 256)
        if self._is_beside(high, low) or any(self._is_beside(*divmod(known, 256)) for known in self._pairs):
            return self._is_beside(high, low)
        # A code of long or medium wave is one of VHF, too.
        return bool(kilohertz(high) or kilohertz(low))

    def _is_beside(self, high: int, low: int) -> bool:
        """Whether a pair is of method B: it has the first frequency, and is none of long or medium wave."""
        return high != LOW_FOLLOWS and self.first in (high, low)

    def _found(self) -> Any:
        """The list, or None while it is not complete."""
        first, heard = kilohertz(self.first), [divmod(pair, 256) for pair in self._pairs]
        pairs = heard[self._before_head :] + heard[: self._before_head]
        beside = [pair for pair in pairs if self._is_beside(*pair)]
        if self.count == 0:
            return []
        if first is not None and beside:
            if len(beside) != self.count // 2:
                return None
            same, regional = (
                sorted(filter(None, (kilohertz(low if high == self.first else high) for high, low in chosen)))
                for chosen in ([p for p in beside if p[0] <= p[1]], [p for p in beside if p[0] > p[1]])
            )
            return {"tuned": first, "same": same, "regional": regional}
        found = [first] if first is not None else []
        for high, low in pairs:
            codes = [kilohertz(low, True)] if high == LOW_FOLLOWS else [kilohertz(high), kilohertz(low)]
            found += [code for code in codes if code is not None]
        if len(found) != self.count:
            return None
        # The same frequencies that come in another order, since the list was heard from its middle on, are the same list.
        if sorted(found) != sorted(self._told):
            self._told = found
        return self._told


def _many(frequencies: List[int]) -> str:
    return " ".join(map(megahertz, frequencies)) or "none"


def _transmitter(found: Dict[str, Any]) -> str:
    regional = f"; regional {_many(found['regional'])}" if found["regional"] else ""
    return f"{megahertz(found['tuned'])}: {_many(found['same'])}{regional}"


class Frequencies(Taker):
    """Groups 0A: alternative frequencies, the message being the head of their list."""

    kinds = {Kind.AF}

    def __init__(self, teller: Teller) -> None:
        super().__init__(teller)
        self._lists: Dict[int, FrequencyList] = {}

    def take(self, kind: int, message: int, position: int, value: int) -> None:
        if message not in self._lists:
            self._lists[message] = FrequencyList(message)
        found = self._lists[message].take(value)
        if isinstance(found, dict):
            # A list by the other method, or another one by method A, is to be told again if it comes back.
            self._lists = {head: known for head, known in self._lists.items() if not known.is_by_a}
            self._teller.drop({"af"} & self._teller.held.keys())
            self._tell(f"af:{megahertz(found['tuned'])}", found, _transmitter(found))
        elif found is not None:
            self._lists = {message: self._lists[message]}
            self._teller.drop([item for item in self._teller.held if item.startswith("af:")])
            self._tell("af", found, _many(found))


class OtherNetworks(Taker):
    """Groups 14A and 14B: other networks, the message being their PI."""

    kinds = {kind for kind in Kind if kind.name.startswith("EON_")}

    def __init__(self, teller: Teller, rbds: bool) -> None:
        super().__init__(teller)
        self._rbds = rbds
        self._lists: Dict[int, FrequencyList] = {}
        self._mapped: Dict[str, Dict[int, int]] = {}

    def take(self, kind: int, message: int, position: int, value: int) -> None:
        of = f"eon:{message:04X}"
        if kind == Kind.EON_AF:
            self._take_frequencies(of, message, value)
        elif kind == Kind.EON_MAPPED:
            self._take_mapped(of, position, value)
        elif kind == Kind.EON_LINKAGE:
            self._take_linkage(of, value)
        elif kind == Kind.EON_PTY:
            self._tell(f"{of}.pty", value, f"{value} {names.programme_type(value, self._rbds)}")
        elif kind == Kind.EON_PIN:
            number = item_number(value)
            if number or not value >> 11:
                self._tell(f"{of}.pin", number)
        else:
            self._tell(f"{of}.{'tp' if kind == Kind.EON_TP else 'ta'}", bool(value))

    def hear(self, kind: int, message: int, codes: Optional[bytes]) -> None:
        self._teller.tell_text(f"eon:{message:04X}.ps", name_of(codes) if codes is not None else None)

    def _take_frequencies(self, of: str, network: int, value: int) -> None:
        known = self._lists.get(network)
        if NONE_FOLLOW <= value >> 8 <= MOST_FOLLOW and (known is None or known.head != value):
            known = self._lists[network] = FrequencyList(value)
        found = known.take(value) if known else None
        if found is not None:
            self._tell(f"{of}.af", found, _transmitter(found) if isinstance(found, dict) else _many(found))

    def _take_mapped(self, of: str, position: int, value: int) -> None:
        """A frequency of the tuned network, and one that belongs to it there: in variants 5 to 8 the first to the fourth,
        which are told together, and in variant 9 that of medium wave."""
        number = position >> 8
        tuned, mapped = kilohertz(position & 0xFF), kilohertz(value, not number)
        if tuned and mapped:
            item = f"{of}.mapped:{megahertz(tuned)}" + ".am" * (not number)
            known = self._mapped.setdefault(item, {})
            known[number] = mapped
            found = list(dict.fromkeys(known[one] for one in sorted(known)))
            self._tell(item, found if len(found) > 1 else mapped, _many(found))

    def _take_linkage(self, of: str, value: int) -> None:
        linked, extended, international = (bool(value & bit) for bit in (0x8000, 0x4000, 0x1000))
        number = value & 0xFFF
        found = dict(linked=linked, extended_generic=extended, international=international, set=number)
        shown = f"{'linked' if linked else 'not linked'}, set {number:03X}{', international' * international}"
        self._tell(f"{of}.linkage", found, shown)
