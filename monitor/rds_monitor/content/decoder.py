"""What stations say of themselves: events where a value changes, and the values that hold.

    decoder = Decoder()
    for rows in source.chunks():
        for event in decoder.feed(rows):
            print(event.place, event.item, event.text)

`ITEMS` lists the items.

A value counts in a group whose four blocks are all valid, or when it was received twice in a row alike, of which once
in valid blocks. Corrected blocks alone never name a station. Another PI is another station, of which nothing is known
yet. Names and texts are told by the rules of `turns`."""
from operator import itemgetter
from typing import Any, Dict, List, Optional, Tuple

import numpy

from ..rows.items import ACQUIRED, GROUP, Rows, chosen
from . import features, names, networks, texts
from .columns import Columns, columns_of
from .events import ITEMS, Event, Held, Taker, Teller
from .evidence import KIND_SHIFT, POSITION_BITS, Array, Evidence, Observations, latest
from .looks import Kind
from .received import Received

__all__ = ["ITEMS", "Decoder", "Event", "Held", "Programme"]

OFFSET_C, OFFSET_CX = 3, 4
SLICE = 32768


class Programme:
    """A station, by its PI: one object per group type, each of which takes its kinds of news."""

    def __init__(self, pi: int, teller: Teller, rbds: bool, everything: bool, data: bool) -> None:
        self.pi, self._teller = pi, teller
        plain = (*features.PLAIN, networks.Frequencies, *texts.PLAIN)
        takers: List[Taker] = [taker(teller) for taker in plain]
        takers += [features.Flags(teller, rbds), features.SlowLabels(teller, pi)]
        takers += [features.Features(teller, data), networks.OtherNetworks(teller, rbds)]
        self._takers = [[one for one in takers if kind in one.kinds] for kind in range(max(Kind) + 1)]
        kinds = [kind for kind in Kind if self._takers[kind]]
        self._received = Received(everything, kinds, teller.lapses)

    def feed(self, groups: Columns, chosen: Array) -> None:
        news, changes = self._received.news(groups, chosen)
        messages = news.key >> POSITION_BITS & (1 << KIND_SHIFT - POSITION_BITS) - 1
        columns = (news.at, news.key >> KIND_SHIFT, messages, news.key & (1 << POSITION_BITS) - 1, news.value)
        found: List[Tuple[Any, ...]] = list(zip(*(column.tolist() for column in columns)))
        if changes:
            # Texts have no position.
            found += [(at, kind, message, None, codes) for at, kind, message, codes in changes]
            found.sort(key=itemgetter(0, 1))
        places = groups.place[chosen[[at for at, *_ in found]]].tolist() if found else []
        for place, (_, kind, message, position, said) in zip(places, found):
            self._teller.place = place
            for taker in self._takers[kind]:
                if position is None:
                    taker.hear(kind, message, said)
                else:
                    taker.take(kind, message, position, said)


class Decoder:
    """Decodes the contents of rows, chunk by chunk. However rows are cut into chunks, the events are the same."""

    def __init__(
        self, *, rbds: bool = False, everything: bool = False, lapses: bool = False, data: bool = False
    ) -> None:
        """With `rbds` programme types have the names of RBDS, and PI call letters; with `lapses` texts in change are told as None; with
        `data` the bytes of groups 5 and 6 are. `everything` is for tests: it looks at all values that count, and not only at news.
        """
        self.programme: Optional[Programme] = None
        self.rbds, self._everything, self._data = rbds, everything, data
        self._identifications = Evidence()
        self._fresh = self._tuned = False
        self._teller = Teller(lapses)

    def held(self) -> Dict[str, Held]:
        """What the station says now, by item."""
        return dict(self._teller.held)

    def feed(self, rows: Rows) -> List[Event]:
        """The events of the next rows, in the order of their places."""
        for begin in range(0, len(rows), SLICE):
            self._feed(rows[begin : begin + SLICE])
        return self._teller.taken()

    def _feed(self, rows: Rows) -> None:
        is_group = rows["what"] == GROUP
        if is_group.all():
            groups, fresh, is_fresh = rows, numpy.zeros(len(rows), bool), False
        else:
            acquired = numpy.cumsum(rows["what"] == ACQUIRED)
            groups, at = chosen(rows, is_group), acquired[is_group]
            fresh, is_fresh = numpy.diff(at, prepend=0) > 0, bool(acquired[-1] != numpy.append(0, at)[-1])
        if not fresh.size:
            self._fresh |= is_fresh
            return
        fresh[0] |= self._fresh
        self._fresh = is_fresh
        self._feed_groups(groups, fresh)

    def _feed_groups(self, rows: Rows, fresh: Array) -> None:
        groups = columns_of(rows)
        programme, begins, belongs = self._programmes(rows, groups, fresh)
        readable = belongs & groups.known[1]
        readable &= ~groups.known[2] | (rows["offset3"] == numpy.where(groups.code & 1, OFFSET_CX, OFFSET_C))
        bounds: List[int] = sorted({0, *numpy.flatnonzero(begins).tolist(), len(rows)})
        for begin, end in zip(bounds, bounds[1:]):
            if begins[begin]:
                self._begin(int(programme[begin]), int(groups.place[begin]))
            chosen = numpy.flatnonzero(readable[begin:end])
            if self.programme and chosen.size:
                self.programme.feed(groups.where(slice(begin, end)), chosen)

    def _begin(self, pi: int, place: int) -> None:
        self._teller.begin(pi, place)
        if self.rbds:
            self._teller.tell("call_letters", names.call_letters(pi))
        self.programme = Programme(pi, self._teller, self.rbds, self._everything, self._data)

    def _programmes(self, rows: Rows, groups: Columns, fresh: Array) -> tuple[Array, Array, Array]:
        """For each group the PI that counts, whether another one begins there, and whether the group is of that programme.

        A group without PI is taken to be of the programme of the group before it, but not after an acquisition.
        """
        first = groups.known[0]
        third = groups.known[2] & (rows["offset3"] == OFFSET_CX)
        contradicts = first & third & (groups.words[0] != groups.words[2])
        has = (first | third) & ~contradicts
        value = numpy.where(first, groups.words[0], groups.words[2])
        sound = (~first | groups.valid[0]) & (~third | groups.valid[2])
        now = self.programme.pi if self.programme else -1
        index = numpy.flatnonzero(has)
        is_same = not (has & (value != now)).any()
        if is_same and index.size:
            sound[index[0]] = sound[index].any()  # one of them says what all do
            index = index[:1]
        seen = Observations(
            numpy.zeros(index.size, "i8"), index, value[index], groups.whole[index], sound[index]
        )
        counted = self._identifications.counted(seen)
        programme, begins, belongs = numpy.full(has.size, now), numpy.zeros(has.size, bool), has
        if not is_same:
            counts = numpy.zeros(has.size, bool)
            counts[counted.at] = True
            recent = latest(counts)
            programme = numpy.where(recent >= 0, value[recent], now)
            begins = programme != numpy.append(now, programme[:-1])
            belongs = has & (value == programme)
        if has.all():
            self._tuned = bool(belongs[-1])
            return programme, begins, belongs
        told = latest(has | fresh)
        tuned = numpy.where(told >= 0, belongs[told], self._tuned)
        self._tuned = bool(tuned[-1])
        return programme, begins, tuned & ~contradicts
