"""The basic character set of RDS (IEC 62106, Annex E, table E.1), and text that is safe to print.

RBDS has the same set. A code below 0x20 is a control: 0x0A a preferred line break, 0x0B the end of a headline, 0x0D the
end of the text, and 0x1F a soft hyphen. The table leaves 0x7F and 0xFF empty: they are shown as blanks."""
import json
import re
import unicodedata
from functools import lru_cache
from typing import Any, Callable

LINE_BREAK, END_OF_HEADLINE, END_OF_TEXT, SOFT_HYPHEN = 0x0A, 0x0B, 0x0D, 0x1F

# A line is one column of table E.1: the codes from 0x20, 0x30 .. 0xF0 on.
_COLUMNS = (
    " !\"#¤%&'()*+,-./",
    "0123456789:;<=>?",
    "@ABCDEFGHIJKLMNO",
    "PQRSTUVWXYZ[\\]―_",
    "‖abcdefghijklmno",
    "pqrstuvwxyz{|}¯ ",
    "áàéèíìóòúùÑÇŞß¡Ĳ",
    "âäêëîïôöûüñçşǧıĳ",
    "ªα©‰Ǧěňőπ€£$←↑→↓",
    "º¹²³±İńűµ¿÷°¼½¾§",
    "ÁÀÉÈÍÌÓÒÚÙŘČŠŽÐĿ",
    "ÂÄÊËÎÏÔÖÛÜřčšžđŀ",
    "ÃÅÆŒŷÝÕØÞŊŔĆŚŹŦð",
    "ãåæœŵýõøþŋŕćśźŧ ",
)
# Controls are kept as they are: `printable` shows them. These three only shape a display.
_SHOWN = {LINE_BREAK: " ", END_OF_HEADLINE: " ", SOFT_HYPHEN: ""}


def character(code: int) -> str:
    """The character of a code, 0 to 255. A control that the standard does not name is itself."""
    if code >= 0x20:
        return _COLUMNS[(code >> 4) - 2][code & 15]
    return _SHOWN.get(code, chr(code))


_CHARACTERS = tuple(character(code) for code in range(256))


@lru_cache(4096)
def decode(codes: bytes) -> str:
    return "".join([_CHARACTERS[code] for code in codes])


@lru_cache(4096)
def _is_unsafe(sign: str) -> bool:
    """Whether a character moves the cursor, turns the direction of writing, has no shape, or is unassigned."""
    return unicodedata.category(sign) in {"Cc", "Cf", "Cs", "Co", "Cn", "Zl", "Zp"}


def _escaped(sign: str) -> str:
    code = ord(sign)
    return f"\\x{code:02x}" if code < 0x100 else f"\\u{code:04x}" if code < 0x10000 else f"\\U{code:08x}"


def _marks(text: str) -> list[bool]:
    """Which characters are combining marks too many: any after the second on one letter, and one on no letter."""
    room, found = 0, []
    for sign in text:
        mark = unicodedata.category(sign)[0] == "M"
        found.append(mark and room == 0)
        room = max(0, room - 1) if mark else 2 if unicodedata.category(sign)[0] == "L" else 0
    return found


def _with(escape: Callable[[str], str], text: str) -> str:
    """With its unsafe characters escaped."""
    signs = zip(text, _marks(text))
    return "".join([escape(sign) if bad or _is_unsafe(sign) else sign for sign, bad in signs])


def printable(text: str) -> str:
    """The text in one line that is safe on a terminal.

    Escaped by a backslash, as in Python, are controls, marks that turn the direction of writing, combining marks beyond
    two on a letter, and a backslash."""
    text = text.replace("\\", "\\\\")
    if text.isascii() and text.isprintable():
        return text
    return _with(_escaped, text)


_ENCODER = json.JSONEncoder(ensure_ascii=False, separators=(",", ":"))


def safe_json(value: Any) -> str:
    """A value as one line of JSON in UTF-8, in which the characters that `printable` escapes are \\u escapes."""
    text = _ENCODER.encode(value)
    if text.isascii() and text.isprintable():
        return text
    # Signs that may be unsafe, after the letter that combining marks may follow.
    runs = re.compile(r"[A-Za-z]?[^ -~]+")
    return runs.sub(lambda run: _with(lambda sign: json.dumps(sign)[1:-1], run[0]), text)
