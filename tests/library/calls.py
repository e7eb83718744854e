"""Calls of the library and their answers as tests/plain.py has them: what library/calls.c is asked, and what it has to answer.

An answer has all that a call may write, byte by byte. Random calls are drawn from a seed.
"""

from __future__ import annotations

import random
import re
import struct
import subprocess
from dataclasses import dataclass, replace
from functools import cache, lru_cache
from itertools import pairwise
from typing import Any, Callable, Iterator, NamedTuple, Sequence

import making
import plain
from plain import Item, Read, Recording, Rules, Run, State
from running import LIMIT, TOP

OF_ITEMS = "items run finish_run push push_with finish finish_with".split()
NAMES = ["totals", *OF_ITEMS, *"remainder correct encode name numbers check".split()]
REQUEST, ANSWER = struct.Struct("<7QqQ32s256s"), struct.Struct("<3Q4qQ256s128s")
STATE, STREAM, TOTALS = struct.Struct("<2Q4IQ"), struct.Struct("<2I32sQ40s128s32sQ"), struct.Struct("<16Q")
ITEM, BLOCK = struct.Struct("<Q32s4BI"), struct.Struct("<IH2B")
# The header's numbers, such as NUMBERS["TOO_LONG"].
ROWS = re.findall(r"\bRDS_(\w+) = (\w+)", (TOP / "lib/rds.h").read_text())
NUMBERS = {name: int(number, 0) for name, number in ROWS}
KEPT, MOST_BITS, MOST_ROOM = 30, 1 << 36, 1 << 14
# What the program fills with before a call.
PATTERN = 0x5A
UNTOUCHED = int.from_bytes(bytes([PATTERN] * 8), "little")


@dataclass(frozen=True)
class Call:
    """A call by its name and arguments; `begin`, `end` and `bits` are the numbers of a call that has no recording."""

    name: str
    data: bytes = b""
    bits: int = 0
    gaps: plain.Gaps = ()
    rules: Rules = Rules()
    reserved: int = 0
    begin: int = 0
    end: int = 0
    room: int = MOST_ROOM
    known: bytes = b""
    allowed: int = -1
    refuses_on: bool = False

    def request(self) -> bytes:
        lengths = [len(self.data), self.bits, len(self.gaps)]
        numbers = [NAMES.index(self.name), *lengths, self.begin, self.end, self.room]
        gaps = b"".join(struct.pack("<2Q", *gap) for gap in self.gaps)
        rules = raw_rules(self.rules, self.reserved)
        return REQUEST.pack(*numbers, self.allowed, self.refuses_on, rules, self.known) + self.data + gaps


class Answer(NamedTuple):
    """All that a call may write, its allocations (how many were refused and not given back, the most bytes at a time) and its stack."""

    refusal: int = 0
    taken: int = UNTOUCHED
    counted: int = UNTOUCHED
    refused: int = 0
    kept: int = 0
    most: int = 0
    stack: int = 0
    is_room_left: int = 1
    known: bytes = bytes(256)
    found: bytes = bytes([PATTERN] * 128)
    room: bytes = b""


def ask(command: Sequence[str], calls: Sequence[Call]) -> list[Answer]:
    """The answers of a program that was made of calls.c."""
    given = b"".join(call.request() for call in calls)
    out = subprocess.run(command, input=given, stdout=subprocess.PIPE, check=True, timeout=5 * LIMIT).stdout
    answers, at = [], 0
    for call in calls:
        answer = Answer(*ANSWER.unpack_from(out, at))
        at += ANSWER.size
        size = 13 * (len(call.data) // 8) if call.name == "encode" else 0
        size = ITEM.size * answer.counted if call.name in OF_ITEMS else size
        size = 0 if answer.refusal else size
        answers.append(answer._replace(room=out[at : at + size]))
        at += size
    assert at == len(out)
    return answers


# ---- values as the library has them


def raw_block(block: Read | None) -> bytes:
    if block is None or not block.offset:
        return BLOCK.pack(0, 0, NUMBERS["MISSING" if block is None else "LOST"], 0)
    kind, offset = "CORRECTED" if block.burst else "VALID", plain.NAMES[block.offset].upper()
    return BLOCK.pack(block.burst, block.word, NUMBERS[kind], NUMBERS[offset])


def raw_item(item: Item) -> bytes:
    what = NUMBERS[{"acquired": "ACQUIRED", "group": "GROUP", "lost": "LOSS"}[item.what]]
    number = {"group": 255, "lost": 0}[item.what] if item.number == "-" else int(item.number)
    version = item.version[0].replace("?", "UNKNOWN")
    version_number = NUMBERS[f"VERSION_{version}"] if item.what == "group" else 0
    blocks = b"".join(map(raw_block, item.blocks or [None] * 4))
    return ITEM.pack(item.place, blocks, what, number, version_number, item.version.endswith("!"), 0)


def raw_totals(totals: dict[str, int]) -> bytes:
    return TOTALS.pack(*(totals[name] for name in plain.TOTALS), *[0] * 4)


def raw_rules(rules: Rules, reserved: int = 0) -> bytes:
    return struct.pack("<4I12xI", *rules, reserved)


def raw_state(state: State, rules: Rules) -> bytes:
    return STATE.pack(*state, *(rules[2:] if state.number else (0, 0)), 0)


@dataclass(frozen=True)
class Stream:
    """What is known of a stream between two chunks."""

    place: int = 0
    state: State = State()
    totals: tuple[int, ...] = (0,) * 12
    tail: bytes = b""

    def raw(self, rules: Rules) -> bytes:
        state, totals = raw_state(self.state, rules), TOTALS.pack(*self.totals, *[0] * 4)
        head = NUMBERS["STREAM_MAGIC"], NUMBERS["STREAM_VERSION"], raw_rules(rules)
        return STREAM.pack(*head, self.place, state, totals, self.tail, 0)


def parsed(known: bytes, rules: Rules) -> Stream | None:
    """The stream that these bytes tell, by these rules; None if no call can have left them."""
    if known == bytes(STREAM.size):
        return Stream()
    _, _, _, place, state, totals, tail, _ = STREAM.unpack(known)
    numbers = State(*STATE.unpack(state)[:4])
    stream = Stream(place, numbers, TOTALS.unpack(totals)[:12], tail[: min(KEPT, place // 8)])
    is_place = place % 8 == 0 and place <= MOST_BITS
    is_told = stream.raw(rules) == known and plain.is_lawful(numbers, place, rules)
    return stream if is_place and is_told else None


# ---- answers by plain.py


class Refused(Exception):
    """The name of an error, and how many items there are if they do not fit."""


def refused(call: Call, name: str, count: int = UNTOUCHED) -> Answer:
    return Answer(NUMBERS[name], counted=count, known=call.known.ljust(256, b"\0"))


def refuse(**errors: bool) -> None:
    """Raises the first error that applies."""
    for name, applies in errors.items():
        if applies:
            raise Refused(name)


def check_rules(call: Call) -> None:
    burst, reach, bad, of = call.rules
    refuse(RESERVED_FIELD=call.reserved != 0, BURST_RANGE=burst > 5, REACH_RANGE=not 1 <= reach <= 8)
    refuse(SHARE_RANGE=of > 0 and not 1 <= bad <= of <= 64, LOSS_RANGE=of == 0 and not 1 <= bad <= 64)


def check_recording(call: Call) -> Recording:
    ends = [0, *(place for gap in call.gaps for place in gap), call.bits]
    are_gaps = ends == sorted(ends) and all(begin < end for begin, end in call.gaps)
    check_rules(call)
    refuse(
        TOO_LONG=call.bits > MOST_BITS, BITS_PAST_BYTES=call.bits > 8 * len(call.data), BAD_GAPS=not are_gaps
    )
    return recording_of(call.data, call.bits, tuple(call.gaps))


@lru_cache(4)
def recording_of(data: bytes, bits: int, gaps: tuple[tuple[int, int], ...]) -> Recording:
    return Recording(data, bits, gaps)


def found(raw: bytes) -> bytes:
    return raw + bytes([PATTERN] * (128 - len(raw)))


def with_items(call: Call, items: Sequence[Item], known: bytes = b"", **others: Any) -> Answer:
    """The answer of these items, if there is room."""
    if len(items) > call.room:
        raise Refused("SMALL_ROOM", len(items))
    room = b"".join(map(raw_item, items))
    left = (known or call.known).ljust(256, b"\0")
    return Answer(counted=len(items), known=left, room=room, **others)


@lru_cache(4)
def report_of(data: bytes, bits: int, gaps: tuple[tuple[int, int], ...], rules: Rules) -> list[Item]:
    return [*plain.report(recording_of(data, bits, gaps), rules)]


def items_of(call: Call) -> list[Item]:
    check_recording(call)
    return report_of(call.data, call.bits, tuple(call.gaps), call.rules)


def state_at(call: Call, place: int) -> Run:
    """The run that goes on from the state of a call at this place."""
    recording, state = check_recording(call), State(*STATE.unpack(call.known)[:4])
    is_told = raw_state(state, call.rules) == call.known and plain.is_lawful(state, place, call.rules)
    refuse(PLACE_RANGE=not call.begin <= call.end <= call.bits, UNLAWFUL_STATE=not is_told)
    return Run(recording, call.rules, state)


def push(call: Call) -> Answer:
    stream = parsed(call.known, call.rules)
    if stream is None:
        raise Refused("UNLAWFUL_STATE")
    refuse(TOO_LONG=stream.place + 8 * len(call.data) > MOST_BITS)
    heard, items, taken = Heard(call, stream), list[Item](), 0
    while taken < len(call.data):
        before = heard.run.state
        more = heard.over(8 * taken, 8 * taken + 8)
        if len(items) + len(more) > call.room:
            heard.run.state = before
            break
        items, taken = items + more, taken + 1
    if call.data and not taken:
        raise Refused("SMALL_ROOM", len(more))
    return with_items(call, items, heard.after(taken, items).raw(call.rules), taken=taken)


class Heard:
    """A stream that goes on with more bytes: the run over its tail and these, moved."""

    def __init__(self, call: Call, stream: Stream) -> None:
        self.stream, self.tail = stream, stream.tail + call.data
        self.moved, self.begin = stream.place - 8 * len(stream.tail), 8 * len(stream.tail)
        bits, gaps = 8 * len(self.tail), [(begin - self.moved, end - self.moved) for begin, end in call.gaps]
        cut = [(max(begin, 0), min(end, bits)) for begin, end in gaps if end > 0 and begin < bits]
        recording = Recording(self.tail, None, cut)
        self.run = Run(recording, call.rules, self.state_moved(stream.state, -self.moved))

    @staticmethod
    def state_moved(state: State, bits: int) -> State:
        return state._replace(due=state.due + bits) if state.number else state

    def over(self, begin: int, end: int) -> list[Item]:
        """The items of these bits, counted from the first that is new."""
        items = self.run.over(self.begin + begin, self.begin + end)
        return [item._replace(place=item.place + self.moved) for item in items]

    def end(self) -> list[Item]:
        return [item._replace(place=item.place + self.moved) for item in self.run.end()]

    def after(self, taken: int, items: list[Item]) -> Stream:
        """The stream once this number of bytes was heard, which have these items."""
        state, tail = self.state_moved(self.run.state, self.moved), self.tail[: self.begin // 8 + taken]
        return Stream(self.stream.place + 8 * taken, state, tuple(self.totals(items).values()), tail[-KEPT:])

    def totals(self, items: list[Item]) -> dict[str, int]:
        sums = zip(self.stream.totals, plain.totals_of(items).values())
        return dict(zip(plain.TOTALS, ((before + more) % 2**64 for before, more in sums)))


def finish(call: Call) -> Answer:
    """Of rds_finish, or of rds_finish_with for the bits of some bytes."""
    stream = parsed(call.known, call.rules)
    if stream is None:
        raise Refused("UNLAWFUL_STATE")
    refuse(TOO_LONG=stream.place + call.bits > MOST_BITS, BITS_PAST_BYTES=call.bits > 8 * len(call.data))
    heard = Heard(call, stream)
    items = heard.over(0, call.bits) + heard.end()
    return with_items(call, items, found=found(raw_totals(heard.totals(items))))


def check(call: Call) -> Answer:
    """Of a stream that no call can have left it names the cause, if that has a name."""
    magic, version, rules = STREAM.unpack(call.known)[:3]
    if parsed(call.known, call.rules) is None:
        refuse(
            NOT_A_STREAM=magic != NUMBERS["STREAM_MAGIC"], OTHER_VERSION=version != NUMBERS["STREAM_VERSION"]
        )
        refuse(OTHER_RULES=rules[:16] != raw_rules(call.rules)[:16], UNLAWFUL_STATE=True)
    return Answer(known=call.known)


def run(call: Call) -> Answer:
    run = state_at(call, call.begin)
    items = [*run.over(call.begin, call.end)]
    return with_items(call, items, raw_state(run.state, call.rules))


def remainder(call: Call) -> Answer:
    refuse(BLOCK_RANGE=call.begin >> 26 > 0)
    return Answer(found=found(struct.pack("<H", plain.remainder(call.begin))))


def correct(call: Call) -> Answer:
    word, offset, limit = call.begin, call.end, call.bits
    refuse(BLOCK_RANGE=word >> 26 > 0, OFFSET_RANGE=not 1 <= offset <= 6, BURST_RANGE=limit > 5)
    recording = Recording((word << 6).to_bytes(4, "big"), 26)
    read = recording.read(plain.np.array([25]), plain.np.array([offset]), limit)
    return Answer(found=found(raw_block(Read(*(int(row[0]) for row in read)))))


def encode(call: Call) -> Answer:
    groups = [*struct.iter_unpack("<4H", call.data)]
    refuse(SMALL_ROOM=len(groups) > call.room)
    return Answer(room=b"".join(map(plain.packed, groups)))


ANSWERS: dict[str, Callable[[Call], Answer]] = {
    "totals": lambda call: Answer(found=found(raw_totals(plain.totals_of(items_of(call))))),
    "items": lambda call: with_items(call, items_of(call)),
    "run": run,
    "finish_run": lambda call: with_items(call, [*state_at(call, call.bits).end()]),
    "push": push,
    "push_with": push,
    "finish": finish,
    "finish_with": finish,
    "check": check,
    "remainder": remainder,
    "correct": correct,
    "encode": encode,
}


def answer_of(call: Call) -> Answer:
    """The right answer, if there is memory enough."""
    try:
        return ANSWERS[call.name](call)
    except Refused as error:
        return refused(call, *error.args)


# ---- random calls


class Asked(NamedTuple):
    """A call and its right answer."""

    call: Call
    wanted: Answer
    # of a stream whose totals are made up: no recording may have as many
    may_be_unlawful: bool = False

    def is_answered(self, given: Answer) -> bool:
        is_unlawful = self.may_be_unlawful and given == refused(self.call, "UNLAWFUL_STATE")
        return given == self.wanted or is_unlawful


def asked(call: Call, **others: Any) -> Asked:
    call = replace(call, **others)
    return Asked(call, answer_of(call))


class Draw:
    """The calls of a seed."""

    def __init__(self, seed: int) -> None:
        self.chance = chance = random.Random(f"calls {seed}")
        held = making.recording(seed)
        begin = chance.randrange(max(1, len(held) - 100))
        data = held[begin : begin + chance.choice([0, 40, 150, 400])]
        bits = max(0, 8 * len(data) - chance.choice([0, 0, chance.randrange(8), chance.randrange(100)]))
        words = making.gaps(chance, bits) if chance.random() < 0.4 else []
        self.call = Call("totals", data, bits, plain.gaps_of(words[1]) if words else [], self.rules())
        self.items = asked(self.call, name="items")

    def rules(self) -> Rules:
        chance, of = self.chance, self.chance.choice([0, 0, self.chance.randrange(1, 65)])
        return Rules(chance.randrange(6), chance.randrange(1, 9), chance.randrange(1, (of or 12) + 1), of)

    def all(self) -> Iterator[Asked]:
        yield from self.alone()
        yield from self.faulty()
        yield asked(self.call)
        yield from self.with_little_room(self.items)
        yield from self.ranges()
        yield from self.states()
        yield from self.stream()
        yield from self.streams()

    def alone(self) -> Iterator[Asked]:
        """Blocks and groups."""
        chance = self.chance
        word = chance.getrandbits(26 if chance.random() < 0.9 else 32)
        if chance.random() < 0.5:
            word = plain.block(chance.getrandbits(16), chance.randrange(1, 6)) ^ making.burst_of(chance, 5)
        yield asked(Call("remainder", begin=word))
        yield asked(Call("correct", begin=word, end=chance.randrange(8), bits=chance.randrange(7)))
        groups = b"".join(chance.randbytes(8) for _ in range(chance.randrange(4)))
        yield asked(Call("encode", groups, room=chance.randrange(4)))

    def faulty(self) -> Iterator[Asked]:
        """Numbers of any size, of which the first error counts."""
        chance, call = self.chance, self.call
        rules = Rules(*(chance.choice([number, number, chance.randrange(80)]) for number in call.rules))
        gaps = [*call.gaps, *[(chance.randrange(99), chance.randrange(99))] * chance.randrange(2)]
        bits = chance.choice([call.bits, call.bits, 8 * len(call.data) + 1, MOST_BITS + 1])
        for name in ("totals", "items"):
            others = {"reserved": chance.choice([0, 0, 0, 1]), "rules": rules, "gaps": gaps, "bits": bits}
            yield asked(call, name=name, **others)

    def with_little_room(self, one: Asked) -> Iterator[Asked]:
        """The call, and the same with room for one item less."""
        yield one
        if one.wanted.counted:
            call = replace(one.call, room=one.wanted.counted - 1)
            yield Asked(call, refused(call, "SMALL_ROOM", one.wanted.counted))

    def ranges(self) -> Iterator[Asked]:
        """Runs in a row, each from the state that the one before it left."""
        call, known, rooms = self.call, bytes(STATE.size), b""
        places = sorted(self.chance.sample(range(call.bits), min(call.bits, self.chance.randrange(8))))
        for begin, end in pairwise([0, *places, call.bits]):
            part = asked(call, name="run", begin=begin, end=end, known=known)
            yield from self.with_little_room(part)
            known, rooms = part.wanted.known[: STATE.size], rooms + part.wanted.room
        last = asked(call, name="finish_run", known=known)
        yield from self.with_little_room(last)
        assert rooms + last.wanted.room == self.items.wanted.room

    def states(self) -> Iterator[Asked]:
        """Random numbers as a state: an error, or a state that a run continues."""
        chance, call = self.chance, self.call
        for _ in range(20):
            begin = chance.randrange(call.bits + 1)
            large = [chance.getrandbits(size) >> chance.randrange(size) for size in (64, 64, 32, 32)]
            near = [begin + chance.randrange(-1, 28), chance.choice([chance.randrange(16), large[1]])]
            near += [chance.randrange(6), chance.randrange(6)]
            state = State(*chance.choice([large, near, near]))
            loss = chance.choice([call.rules[2:]] * 6 + [(chance.randrange(70), chance.randrange(70))])
            told = loss if state.number or chance.random() < 0.1 else (0, 0)
            known = STATE.pack(*(max(0, number) for number in state), *told, chance.choice([0] * 9 + [1]))
            yield asked(call, name="run", begin=begin, end=begin + chance.randrange(260), known=known)

    def stream(self) -> Iterator[Asked]:
        """Chunks in a row, by room for a few items too; then the end, inside a byte or after it."""
        call, chance = self.call, self.chance
        known, items, done, last = bytes(256), 0, 0, chance.randrange(call.bits // 8 + 1)
        while done < last:
            chunk = call.data[done : min(last, done + chance.randrange(100))]
            whole = asked(call, name="push", data=chunk, known=known)
            yield from self.by_both(whole)
            yield from self.by_both(asked(whole.call, room=chance.randrange(20)))
            wanted = whole.wanted
            known, items, done = wanted.known, items + wanted.counted, done + wanted.taken
        at_once = asked(call, name="push", data=call.data[:done], known=bytes(256))
        yield at_once
        assert not done or at_once.wanted.known == known
        rest = {"data": call.data[done:], "bits": call.bits - 8 * done}
        self.left = asked(call, name="finish_with", known=known, **rest)
        counted = items + self.left.wanted.counted
        assert (self.left.wanted.found, counted) == (answer_of(call).found, self.items.wanted.counted)
        yield self.left
        yield asked(call, name="finish", data=b"", bits=0, known=known)

    def by_both(self, one: Asked) -> Iterator[Asked]:
        """A push, then one with a scratch as large as rds.h says, with half of it, and with none."""
        yield one
        place = STREAM.unpack(one.call.known)[3]
        end = place + 8 * len(one.call.data)
        near = sum(gap[1] > place - 240 and gap[0] < end for gap in one.call.gaps)
        call = replace(one.call, name="push_with", begin=near, end=self.chance.randrange(64), bits=2)
        yield Asked(call, one.wanted)
        for halves in () if one.wanted.refusal else (0, 1):
            too_little = replace(call, bits=halves)
            yield Asked(too_little, refused(too_little, "OUT_OF_MEMORY"))

    def streams(self) -> Iterator[Asked]:
        """A byte of a stream that is another; other rules; and numbers that no stream need have."""
        chance, left = self.chance, self.left.call
        for _ in range(10):
            changed = bytearray(left.known)
            changed[chance.randrange(256)] ^= 1 << chance.randrange(8)
            rules = chance.choice([self.call.rules] * 4 + [self.rules()])
            others = [made_up(chance, rules), made_up(chance, rules), chance.randbytes(256)]
            known = chance.choice([bytes(changed), *others])
            has_others = known[88:216] != left.known[88:216] and known[:88] == left.known[:88]
            for name in ("push", chance.choice(["finish", "finish_with"]), "check"):
                is_end = name != "push"
                rest: dict[str, Any] = dict(data=b"", bits=0, room=1) if is_end else dict(data=left.data[:60])
                one = asked(left, name=name, rules=rules, known=known, **rest)
                yield one._replace(may_be_unlawful=has_others)


def made_up(chance: random.Random, rules: Rules) -> bytes:
    """Numbers such as a stream may have, but for a few."""
    place = (chance.getrandbits(36) >> chance.randrange(36)) // 8 * 8 + (chance.random() < 0.05)
    number = chance.randrange(6)
    state = State(place + chance.randrange(27), chance.randrange(8), number, chance.randrange(number + 1))
    state = State() if number == 0 and chance.random() < 0.9 else state
    kept = min(KEPT, place // 8) + (chance.random() < 0.05)
    totals = tuple(min(chance.getrandbits(4), place // 104) for _ in range(12))
    return Stream(place, state, totals, chance.randbytes(kept)).raw(rules)


@cache
def drawn_by(seed: int) -> list[Asked]:
    return [*Draw(seed).all()]


def drawn(seeds: range) -> list[Asked]:
    return [one for seed in seeds for one in drawn_by(seed)]
