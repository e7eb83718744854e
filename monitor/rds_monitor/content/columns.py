"""The groups of one programme as columns, and the values of fields in them."""
from functools import lru_cache
from typing import Any, Dict, Iterable, List, NamedTuple, Sequence, Tuple

import numpy

from ..rows.items import BLOCKS, VALID, Rows
from .evidence import NONE_SEEN, UNKNOWN, Array, Observations, key_of
from .fields import FIELDS, Field
from .looks import Look, carriers, codes_of


def payload(value: Any) -> Tuple[Any, ...]:
    """The words of a group, but for the PI, from the 37 bits that it carries of its own, such as `ct`, `rtplus` and `dab`."""
    return None, value >> 32, value >> 16 & 0xFFFF, value & 0xFFFF


@lru_cache(None)
def _fields(prefix: str, names: str) -> List[Field]:
    return [FIELDS[f"{prefix}.{name}"] for name in names.split()]


def fields_of(prefix: str, value: Any, names: str) -> List[Any]:
    """The values of these fields in such a payload."""
    return [field.of(payload(value)) for field in _fields(prefix, names)]


class Columns(NamedTuple):
    """Groups, a row each: first position, four words, which of these are known and valid, and group type code; a column for each block."""

    place: Array
    words: Array
    known: Array
    valid: Array
    whole: Array
    code: Array

    def where(self, chosen: Any) -> "Columns":
        return Columns(*(column[..., chosen] for column in self))


def columns_of(rows: Rows) -> Columns:
    words, kinds = (numpy.stack([rows[f"{name}{block}"] for block in BLOCKS]) for name in ("info", "kind"))
    valid, known = kinds == VALID, kinds >= VALID
    return Columns(rows["place"].astype("i8"), words, known, valid, valid.all(axis=0), words[1] >> 11)


def among(values: Array, chosen: Sequence[int]) -> Array:
    found: Array = numpy.zeros(values.size, bool)
    for one in chosen:
        found |= values == one
    return found


def _keys_of(columns: Columns) -> Array:
    """Groups that are alike, but for their place and block 1, have the same number."""
    words, known, valid = columns.words, columns.known, columns.valid
    found: Array = columns.whole.astype("i8")
    for column in (*valid[1:], *known[2:]):
        found = found << 1 | column
    for word in words[1:]:
        found = found << 16 | word
    return found


def _alike(keys: Array) -> Tuple[Array, Array]:
    """One group of those that have the same key, for each key, and for each group the number of its key."""
    # A hash finds nearly all of them, several times as fast as sorting.
    place = keys.view("u8") * numpy.uint64(0x9E3779B97F4A7C15) >> numpy.uint64(48)
    table = numpy.empty(1 << 16, "i8")
    table[place] = numpy.arange(keys.size)
    one = table[place]
    missed = numpy.flatnonzero(keys[one] != keys)
    if missed.size:
        _, first, number = numpy.unique(keys[missed], return_index=True, return_inverse=True)
        one[missed] = missed[first[number]]
    is_one = numpy.zeros(keys.size, bool)
    is_one[one] = True
    return numpy.flatnonzero(is_one), (numpy.cumsum(is_one) - 1)[one]


class Groups:
    """Some groups of one programme, whose second blocks are known.

    A station sends the same few groups over and over: `alike` has a row for those that are alike, and `of` is the number
    of its row for each group. Methods take and give numbers of such rows."""

    def __init__(self, columns: Columns, chosen: Array) -> None:
        self.place = columns.place[chosen]
        first, self.of = _alike(_keys_of(columns)[chosen])
        alike = columns.where(chosen[first])
        self._set(alike._replace(words=alike.words.astype("i8")), numpy.full(first.size, UNKNOWN))

    def _set(self, alike: Columns, application: Array) -> None:
        self.alike, self.application = alike, application
        present = numpy.flatnonzero(numpy.bincount(alike.code))
        self._by_code = {code: numpy.flatnonzero(alike.code == code) for code in present.tolist()}
        self._carried: Dict[Tuple[Any, ...], Tuple[Array, Array]] = {}

    def assign(self, application: Array) -> None:
        """The application that each group's type is assigned to, or -1. Groups of two of them are not alike."""
        different, number = numpy.unique(application, return_inverse=True)
        both, self.of = numpy.unique(self.of * different.size + number, return_inverse=True)
        self._set(self.alike.where(both // different.size), different[both % different.size])

    def rows(self, names: str) -> Array:
        """Those of these types, in order."""
        if names == "all":
            return numpy.arange(self.alike.code.size)
        found = [self._by_code[code] for code in codes_of(names) if code in self._by_code]
        if not found:
            return numpy.empty(0, "i8")
        return found[0] if len(found) == 1 else numpy.sort(numpy.concatenate(found))

    def places_of(self, rows: Array) -> Tuple[Array, Array]:
        """The groups that are alike to one of these rows, in order, and for each the place of its row among them."""
        table = numpy.full(self.alike.code.size, -1)
        table[rows] = numpy.arange(rows.size)
        number = table[self.of]
        at = numpy.flatnonzero(number >= 0)
        return at, number[at]

    def assigned(self, names: str, applications: Sequence[int]) -> Array:
        """Those of these types, or for ODA of any, that are assigned to one of the applications, if there are any."""
        rows = self.rows("all" if names == "ODA" else names)
        return rows[among(self.application[rows], applications)] if applications else rows

    def values(self, name: str, rows: Array) -> Array:
        field = FIELDS[name]
        words = [word[rows] if of in field.blocks else word for of, word in zip(BLOCKS, self.alike.words)]
        value: Array = field.of(words)
        return value

    def with_known(self, rows: Array, blocks: Iterable[int]) -> Array:
        for block in blocks:
            rows = rows[self.alike.known[block - 1][rows]]
        return rows

    def are_valid(self, rows: Array, blocks: Iterable[int]) -> Array:
        valid: Array = numpy.logical_and.reduce([self.alike.valid[block - 1][rows] for block in blocks])
        return valid

    def observed(self, look: Look) -> Observations:
        """The field in the groups of its types whose blocks that carry it are known; sound are those whose blocks are valid."""
        blocks = carriers(look)
        of = look.groups, look.applications, blocks
        if of not in self._carried:
            rows = self.with_known(self.assigned(look.groups, look.applications), blocks)
            self._carried[of] = rows, self.are_valid(rows, blocks)
        rows, sound = self._carried[of]
        if look.when and rows.size:
            chosen = among(self.values(look.when, rows), tuple(look.values))
            rows, sound = rows[chosen], sound[chosen]
        if not rows.size:
            return NONE_SEEN
        position: Any = self.values(look.position, rows) if look.position else 0
        message: Any = self.values(look.message, rows) if look.message else 0
        key = numpy.zeros(rows.size, "i8") + key_of(look.kind, message, position + look.offset)
        return Observations(key, rows, self.values(look.value, rows), self.alike.whole[rows], sound)
