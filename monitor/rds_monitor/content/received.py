"""The news in the groups of one programme: which values changed, and which names and texts became whole or ended."""
from typing import Any, Dict, Iterator, List, NamedTuple, Optional, Sequence, Tuple

import numpy

from ..rows.items import GROUP_BITS
from .columns import Columns, Groups, among, fields_of
from .evidence import NONE_SEEN, Array, Epochs, Evidence, News, Observations, key_of, latest
from .fields import FIELDS
from .looks import APART, FLAGS, GROUP_CODES, LOOKS, PRESENT, TEXTS, TMC, Kind, TextLook, code_of
from .looks import may_carry_application
from .turns import OUTAGE_BITS, UNKNOWN, Distinct, Message, Segments, steps_of


def joined(seen: Sequence[Observations]) -> Observations:
    found = [one for one in seen if one.key.size]
    return Observations(*map(numpy.concatenate, zip(*found))) if found else NONE_SEEN


def in_time(news: News) -> News:
    if (news.at[1:] >= news.at[:-1]).all():
        return news
    order = numpy.argsort(news.at, kind="stable")
    return News(*(column[order] for column in news))


class FrequencyNews:
    """News in a list of alternative frequencies, which is sent over and over after its head.

    A pair is new if it has not come since its head came `GONE` times. After a new pair all pairs of the next `WINDOW`
    turns are news; so are those of the first turns of every `REFRESH`, which bounds how long any mistake can last. All is
    news after another list.
    """

    GONE, WINDOW, REFRESH = 4, 8, 256

    def __init__(self) -> None:
        self.heads = numpy.array([-1, -1])  # the last two
        self._forget()

    def _forget(self) -> None:
        self.turns: Dict[int, int] = {}
        self.changed: Dict[int, int] = {}
        self.last: Dict[Tuple[int, int], int] = {}

    def news(self, counted: News, everything: bool) -> News:
        """The news, with the head of the list as the message in the key."""
        is_head = (counted.value >> 8 >= 224) & (counted.value >> 8 <= 249)
        recent = latest(is_head)
        head = numpy.where(recent >= 0, counted.value[recent], self.heads[-1])
        chosen = numpy.zeros(head.size, bool)
        others = self._others(counted.value[is_head], numpy.flatnonzero(is_head))
        for part in numpy.split(numpy.arange(head.size), others):
            if numpy.isin(part[:1], others).any():
                self._forget()
            # Pairs before any head are of none.
            heads = head[part][steps_of(head[part], -1) != 0] if part.size else part
            for one in numpy.unique(heads).tolist():
                index = part[head[part] == one]
                chosen[index] = self._news_of(one, counted.value[index]) | everything
        key = key_of(Kind.AF, head, counted.value)
        return News(key[chosen], counted.at[chosen], counted.value[chosen])

    def _others(self, heads: Array, at: Array) -> Array:
        """Where a list ends that came twice in a row, as by method A, and another begins. From there on all is news."""
        heads = numpy.append(self.heads, heads)
        self.heads = heads[-2:]
        others: Array = at[(heads[2:] != heads[1:-1]) & (heads[1:-1] == heads[:-2])]
        return others

    def _news_of(self, head: int, pairs: Array) -> Array:
        turn = self.turns.get(head, 0) + numpy.cumsum(pairs == head)
        # numpy sorts words of 16 bits several times as fast.
        order = numpy.argsort(pairs.astype("u2"), kind="stable")
        first = numpy.ones(order.size, bool)
        first[1:] = pairs[order][1:] != pairs[order][:-1]
        before = numpy.empty(order.size, "i8")
        before[1:] = turn[order][:-1]
        starts = numpy.flatnonzero(first)
        names = [(head, pair) for pair in pairs[order][starts].tolist()]
        before[starts] = [self.last.get(name, -self.REFRESH) for name in names]
        new = numpy.empty(order.size, bool)
        new[order] = turn[order] - before > self.GONE
        ends = numpy.append(starts[1:], order.size) - 1
        self.last.update(zip(names, turn[order][ends].tolist()))
        recent = latest(new)
        changed = numpy.where(recent >= 0, turn[recent], self.changed.get(head, -self.REFRESH))
        self.turns[head], self.changed[head] = int(turn[-1]), int(changed[-1])
        news: Array = (turn - changed <= self.WINDOW) | (turn % self.REFRESH < self.WINDOW)
        return news


MOST_BEGUN = 256  # how many names of other networks are remembered, of those that were never whole


class TextChange(NamedTuple):
    """The characters of a text that became whole in the group with this number, or None if it holds no more.

    `message` tells which of several texts it is, or its coding."""

    at: int
    kind: Kind
    message: int
    codes: Optional[bytes]


class Messages:
    """The reception of all names and texts of one programme."""

    def __init__(self, lapses: bool) -> None:
        """With `lapses`, a text that ends and is whole again at once is told."""
        self._messages: Dict[Tuple[TextLook, int], Message] = {}
        self._lapses = lapses
        self._place = self._outage = self._run = 0
        self._flags: Dict[Kind, Tuple[int, int]] = {kind: (UNKNOWN, 0) for kind in FLAGS}

    def changes(self, groups: Groups, evidence: Evidence) -> Tuple[News, List[TextChange]]:
        """The changes of the flag of RadioText, and those of all texts, in these groups."""
        # For each group the number of the outages before it, and of the run of groups without a gap that it is in.
        step = steps_of(groups.place, self._place)
        outage = self._outage + numpy.cumsum(step > OUTAGE_BITS)
        run = self._run + numpy.cumsum(step != GROUP_BITS)
        self._place, self._outage, self._run = int(groups.place[-1]), int(outage[-1]), int(run[-1])
        changed = {kind: evidence.news(groups.observed(*LOOKS[kind]), groups.of) for kind in FLAGS}
        epochs = {kind: Epochs(changed[kind], *self._flags[kind]) for kind in FLAGS}
        self._flags = {kind: epochs[kind].last for kind in FLAGS}
        found: List[TextChange] = []
        for look in TEXTS:
            rows = groups.assigned(look.groups, look.applications)
            if look.message:
                rows = groups.with_known(rows, FIELDS[look.message].blocks)
            segment = groups.values(look.segment, rows) - look.first
            rows = rows[(segment >= 0) & (segment < look.shape.segments)]
            if rows.size:
                of_flag = epochs[look.flag] if look.flag else None
                found += self._texts(groups, look, rows, outage, run, of_flag)
        return changed[Kind.RT_FLAG], found

    def _texts(
        self, groups: Groups, look: TextLook, rows: Array, outage: Array, run: Array, epochs: Optional[Epochs]
    ) -> Iterator[TextChange]:
        names = starts = numpy.zeros(1, "i8")
        if look.message:
            message = groups.values(look.message, rows)
            rows = rows[numpy.argsort(message, kind="stable")]
            names, starts = numpy.unique(groups.values(look.message, rows), return_index=True)
        at, number = groups.places_of(rows)
        said, generation = _said(groups, look, rows), outage[at] << 32
        if epochs:
            # The flag that counts has to be that of the group itself, or the one of this coding.
            flags = numpy.full(rows.size, look.coding)
            if look.coding is None and look.flag is not None:
                flags = groups.values(LOOKS[look.flag][0].value, rows)
            own = epochs.flag(at) == flags[number]
            at, number, generation = at[own], number[own], (generation | epochs.number(at))[own]
        for one, start, end in zip(names.tolist(), starts.tolist(), [*starts[1:].tolist(), rows.size]):
            chosen: Any = slice(None)
            if look.message:
                chosen = numpy.flatnonzero((number >= start) & (number < end))
            of = at[chosen]
            rest = run[of], generation[chosen], said[start:end]
            part = Segments(groups.place[of], number[chosen] - start, *rest)
            coding = one if look.coding is None else look.coding
            for row, codes in self._message(look, one).take(part):
                yield TextChange(int(of[row]), look.kind, coding, codes)

    def _message(self, look: TextLook, message: int) -> Message:
        if (look, message) not in self._messages:
            if len(self._messages) >= MOST_BEGUN:
                self._forget()
            self._messages[look, message] = Message(look.shape, self._lapses)
        return self._messages[look, message]

    def _forget(self) -> None:
        """Noise begins the names of networks that do not exist: those that were never whole are forgotten."""
        self._messages = {key: message for key, message in self._messages.items() if message.was_told}


def _said(groups: Groups, look: TextLook, rows: Array) -> Distinct:
    values, valid, own = [], [], {2, *(FIELDS[look.message].blocks if look.message else ())}
    for pair in look.pairs:
        blocks = FIELDS[pair].blocks
        known = groups.alike.known[blocks[0] - 1][rows]
        values.append(numpy.where(known, groups.values(pair, rows), UNKNOWN))
        valid.append(groups.are_valid(rows, {*own, *blocks}))
    segment = groups.values(look.segment, rows) - look.first
    return Distinct(segment, numpy.stack(values, axis=1), numpy.stack(valid, axis=1))


class Received:
    """The reception of one programme. `news` takes the next groups of it."""

    def __init__(self, everything: bool, kinds: Sequence[int], lapses: bool) -> None:
        """News of these kinds are of use. With `everything`, all that counts is news: slow, and the measure that `news` is tested by."""
        self._everything = everything
        self._evidence, self._frequencies = Evidence(), FrequencyNews()
        self._assigned: Dict[int, int] = {}
        self._group_of: Dict[int, int] = {}
        self._messages = Messages(lapses)
        self._sifted = [kind for kind in LOOKS if kind in kinds and kind not in {*APART, *FLAGS}]

    def news(self, columns: Columns, chosen: Array) -> Tuple[News, List[TextChange]]:
        """The news of the chosen groups, in the order of the groups and of the kinds within each, and the changes of texts in any order."""
        groups = Groups(columns, chosen)
        self._assign(groups, assignments := self._sift(groups, self._seen(groups, Kind.ODA)))
        flags, texts = self._messages.changes(groups, self._evidence)
        found = [assignments, flags, *self._all_news(groups)]
        for kind, text in ((Kind.TAGS, Kind.RT), (Kind.ERT_TAGS, Kind.ERT)):
            changes = numpy.array([change.at for change in texts if change.kind == text], "i8")
            found.append(self._tags(groups, kind, numpy.sort(numpy.concatenate([flags.at, changes]))))
        news = News(*map(numpy.concatenate, zip(*found)))
        order = numpy.lexsort((news.key, news.at))
        return News(*(part[order] for part in news)), texts

    def _all_news(self, groups: Groups) -> Iterator[News]:
        seen = [self._seen(groups, kind) for kind in self._sifted]
        # The bits that groups 3A carry of TMC, by their variants.
        services = self._seen(groups, Kind.ODA_MESSAGE)
        aid = services.key & 0xFFFF
        key = key_of(Kind.ODA_MESSAGE, aid, services.value >> 14)
        services = services._replace(key=key).where(among(aid, TMC))
        yield self._sift(groups, joined([*seen, *self._present(groups), services]))
        counted = self._evidence.news(self._seen(groups, Kind.AF), groups.of, True)
        if counted.key.size:
            yield self._frequencies.news(in_time(counted), self._everything)
        yield self._evidence.news(self._seen(groups, Kind.EON_AF), groups.of, True)
        clocks = self._seen(groups, Kind.CT)
        yield self._sift(groups, clocks.where(clocks.whole))

    @staticmethod
    def _seen(groups: Groups, kind: Kind) -> Observations:
        return joined([groups.observed(look) for look in LOOKS[kind]])

    def _sift(self, groups: Groups, seen: Observations) -> News:
        return self._evidence.news(seen, groups.of, self._everything)

    def _assign(self, groups: Groups, assignments: News) -> None:
        """Notes for each group the application that its type is assigned to, or -1."""
        assigned = numpy.array([self._assigned.get(one, -1) for one in range(32)])
        if not assignments.key.size:
            groups.application = assigned[groups.alike.code]
            return
        code = groups.alike.code[groups.of]
        application = assigned[code]
        for key, at, of in zip(*(column.tolist() for column in in_time(assignments))):
            self._move(application[at:], code[at:], key & 0xFFFF, of)
        groups.assign(application)

    def _move(self, applications: Array, codes: Array, application: int, code: int) -> None:
        """An application has this group type from the first of these groups on, and its type before no more."""
        before = self._group_of.pop(application, None)
        if before is not None and self._assigned.get(before) == application:
            del self._assigned[before]
            applications[codes == before] = -1
        if may_carry_application(code):
            applications[codes == code] = application
            self._group_of[application], self._assigned[code] = code, application

    @staticmethod
    def _present(groups: Groups) -> Iterator[Observations]:
        """The features that are there, by groups whose second block is valid."""
        for name, aids in PRESENT.items():
            rows = groups.assigned(name, aids)
            rows = rows[groups.alike.valid[1][rows]]
            if rows.size:
                is_channel = name[:-1] == "5"
                channel = groups.values("tdc.channel", rows) if is_channel else GROUP_CODES | code_of(name)
                ones = numpy.ones(rows.size, bool)
                key = numpy.zeros(rows.size, "i8") + key_of(Kind.CHANNEL, 0, channel)
                yield Observations(key, rows, ones.astype("i8"), groups.alike.whole[rows], ones)

    def _tags(self, groups: Groups, kind: Kind, others: Array) -> News:
        """The tags of RadioText Plus that count: the same ones are of each text in turn, and are news again after changes of texts."""
        seen = self._seen(groups, kind)
        first, second = fields_of("rtplus", seen.value, "class1 class2")
        seen = seen._replace(key=key_of(kind, 0, first << 6 | second))
        counted = in_time(self._evidence.news(seen, groups.of, True))
        text = numpy.searchsorted(others, counted.at)
        again = (counted.value[1:] == counted.value[:-1]) & (text[1:] == text[:-1])
        return News(*(column[numpy.append(True, ~again)[: counted.at.size]] for column in counted))
