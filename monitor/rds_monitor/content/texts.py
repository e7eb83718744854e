"""Names and texts: PS, RadioText with RadioText Plus, programme type name, long PS, enhanced RadioText."""
from functools import lru_cache
from typing import Dict, List, Optional, Tuple

from .charset import decode
from .columns import fields_of
from .events import Taker, Teller
from .looks import Kind
from .names import CONTENT_TYPES


def name_of(codes: bytes) -> str:
    """A name or text by the character set of RDS, without the blanks or zeros that fill it up."""
    return decode(codes).rstrip(" \0")


class Name(Taker):
    """A name in groups of its own: PS in 0A and 0B, PTYN in 10A, the provider of a TMC service in 8A, and the long PS in 15A, in UTF-8."""

    items = {Kind.PS: "ps", Kind.PTYN: "ptyn", Kind.TMC_NAME: "tmc_provider", Kind.LPS: "lps"}
    kinds = tuple(items)

    def hear(self, kind: int, message: int, codes: Optional[bytes]) -> None:
        name = None if codes is None else name_of(codes)
        if codes is not None and kind == Kind.LPS:
            name = codes.decode("utf-8", "replace").rstrip(" \0")
        self._teller.tell_text(self.items[Kind(kind)], name)


# A tag of RadioText Plus: the item that it tells, and the characters of the text from start to before end.
Tag = Tuple[str, int, int]


@lru_cache(1 << 10)
def tags_of(prefix: str, value: int) -> List[Tag]:
    """The tags of a group. The second of two of one content type has the item's name and :2."""
    found: List[Tag] = []
    for number in "12":
        content, start, more = fields_of("rtplus", value, f"class{number} start{number} more{number}")
        if content:
            item = f"{prefix}:{CONTENT_TYPES[content]}"
            is_second = any(tag[0] == item for tag in found)
            found.append((item + ":2" * is_second, start, start + more + 1))
    return found


class TaggedText(Taker):
    """A text, and the tags of RadioText Plus that are parts of it."""

    text, prefix = "", ""

    def __init__(self, teller: Teller) -> None:
        super().__init__(teller)
        self._characters: Optional[Tuple[str, ...]] = None
        self._pending: Dict[str, Tag] = {}
        self._last_tags = -1  # the tags that were taken last, if the text did not change since

    def hear(self, kind: int, message: int, codes: Optional[bytes]) -> None:
        self._last_tags = -1
        self._characters = self._split(message, codes) if codes is not None else None
        if self._characters is None:
            self._pending.clear()
            self._teller.tell_text(self.text, None)
            return
        self._teller.tell_text(self.text, "".join(self._characters).rstrip(" \0"))
        self._tell_tags()

    @staticmethod
    def _split(message: int, codes: bytes) -> Tuple[str, ...]:
        """The text of each character that a tag counts."""
        raise NotImplementedError

    def _take_tags(self, value: int) -> None:
        """Tags are of the text that holds, or of the one that becomes whole next. The same ones again change nothing."""
        if value == self._last_tags:
            return
        self._last_tags = value
        toggle, running = fields_of("rtplus", value, "toggle running")
        if self._teller.held.get(f"{self.prefix}_toggle", (toggle,))[0] != toggle:
            # Another item has begun: nothing that was said of the one before is of it.
            self._teller.drop([item for item in self._teller.held if item.startswith(f"{self.prefix}:item.")])
        self._tell(f"{self.prefix}_toggle", toggle)
        self._tell(f"{self.prefix}_running", bool(running))
        tags = tags_of(self.prefix, value)
        if len(tags) == 1 and f"{tags[0][0]}:2" in self._teller.held:
            self._teller.drop([f"{tags[0][0]}:2"])
        self._pending.update((tag[0], tag) for tag in tags)
        if self._characters is not None:
            self._tell_tags()

    def _tell_tags(self) -> None:
        characters = self._characters or ()
        for item, start, end in self._pending.values():
            text = "".join(characters[start:end]).strip(" \0")
            if end <= len(characters) and text:
                self._tell(item, text)
        self._pending.clear()


class RadioText(TaggedText):
    """Groups 2A and 2B, and those of RadioText Plus."""

    kinds = (Kind.RT_FLAG, Kind.RT, Kind.TAGS)
    text, prefix = "rt", "rt_plus"

    def take(self, kind: int, message: int, position: int, value: int) -> None:
        if kind == Kind.TAGS:
            self._take_tags(value)
        else:
            self._tell("rt_ab", "AB"[value & 1])

    @staticmethod
    @lru_cache(1 << 8)
    def _split(message: int, codes: bytes) -> Tuple[str, ...]:
        return tuple(decode(bytes([code])) for code in codes)


class EnhancedText(TaggedText):
    """Enhanced RadioText, in UTF-8 or by its coding in UCS-2, and the groups of RadioText Plus for it."""

    kinds = (Kind.ERT, Kind.ERT_TAGS)
    text, prefix = "ert", "ert_plus"

    def take(self, kind: int, message: int, position: int, value: int) -> None:
        self._take_tags(value)

    @staticmethod
    def _split(message: int, codes: bytes) -> Tuple[str, ...]:
        return tuple(codes.decode("utf-8" if message else "utf-16-be", "replace"))


PLAIN = (Name, RadioText, EnhancedText)  # those that need only the teller
