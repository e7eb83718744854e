"""The character set by the table of the standard, and what is safe to print."""

from __future__ import annotations

import json
import unicodedata

import pytest
from hypothesis import given, strategies as st

from rds_monitor.content import charset
from rds_monitor.content.charset import character, decode, printable, safe_json

# Table E.1 as it is printed: a line per low digit, a column per high digit, 2 to F. The blanks of 7F and FF are empty
# cells.
TABLE = """
SP 0 @ P ‖ p á â ª º Á Â Ã ã
! 1 A Q a q à ä α ¹ À Ä Å å
" 2 B R b r é ê © ² É Ê Æ æ
# 3 C S c s è ë ‰ ³ È Ë Œ œ
¤ 4 D T d t í î Ǧ ± Í Î ŷ ŵ
% 5 E U e u ì ï ě İ Ì Ï Ý ý
& 6 F V f v ó ô ň ń Ó Ô Õ õ
' 7 G W g w ò ö ő ű Ò Ö Ø ø
( 8 H X h x ú û π µ Ú Û Þ þ
) 9 I Y i y ù ü € ¿ Ù Ü Ŋ ŋ
* : J Z j z Ñ ñ £ ÷ Ř ř Ŕ ŕ
+ ; K [ k { Ç ç $ ° Č č Ć ć
, < L \\ l | Ş ş ← ¼ Š š Ś ś
- = M ] m } ß ǧ ↑ ½ Ž ž Ź ź
. > N ― n ¯ ¡ ı → ¾ Ð đ Ŧ ŧ
/ ? O _ o SP Ĳ ĳ ↓ § Ŀ ŀ ð SP
"""


def test_every_printed_character_is_that_of_the_table() -> None:
    lines = TABLE.strip().split("\n")
    assert len(lines) == 16
    for low, line in enumerate(lines):
        cells = [" " if cell == "SP" else cell for cell in line.split()]
        assert [character(high << 4 | low) for high in range(2, 16)] == cells, line


def test_controls() -> None:
    shown = {0x0A: " ", 0x0B: " ", 0x1F: ""}
    assert [*map(character, range(0x20))] == [shown.get(code, chr(code)) for code in range(0x20)]


def test_all_codes_decode_one_by_one() -> None:
    everything = bytes(range(256))
    assert decode(everything) == "".join(map(character, everything))
    assert len(set(decode(bytes(range(0x20, 0x7F)) + bytes(range(0x80, 0xFF))))) == 95 + 127


SHOWN = {
    "Köln ¤$": "Köln ¤$",
    "\x1b[2J": "\\x1b[2J",
    "\x9b31m": "\\x9b31m",
    "a\r\nb\tc\0": "a\\x0d\\x0ab\\x09c\\x00",
    "back\\slash": "back\\\\slash",
    "back\\släsh": "back\\\\släsh",
    "\u202eevil\u202c": "\\u202eevil\\u202c",
    "\u200f\u2066\u2028\u2029\ufeff\ue000\u0378": "\\u200f\\u2066\\u2028\\u2029\\ufeff\\ue000\\u0378",
    "\uffff\U0001ffff": "\\uffff\\U0001ffff",
    "\U000e0041": "\\U000e0041",
    "e\u0301\u0302": "e\u0301\u0302",
    "e" + "\u0301" * 64: "e\u0301\u0301" + "\\u0301" * 62,
    "\u0301": "\\u0301",
    " \u0301": " \\u0301",
    "<script>&'\"": "<script>&'\"",
}


@pytest.mark.parametrize("text", SHOWN)
def test_printable(text: str) -> None:
    assert printable(text) == SHOWN[text]


def are_safe(text: str) -> bool:
    return not {*map(unicodedata.category, text)} & {"Cc", "Cf", "Cs", "Co", "Cn", "Zl", "Zp"}


@given(st.text())
def test_printable_is_one_safe_line(text: str) -> None:
    shown = printable(text)
    assert shown.encode("utf-8").decode("utf-8") == shown and are_safe(shown)


@given(st.text(), st.text())
def test_printable_tells_texts_apart(one: str, other: str) -> None:
    assert (printable(one) == printable(other)) == (one == other)


@given(st.text(st.one_of(st.characters(), st.sampled_from("aZ1 \u00e9\u0301\u0300\u202e\x7f"))))
def test_json_is_looked_at_where_it_may_be_unsafe(text: str) -> None:
    whole = json.dumps(text, ensure_ascii=False)
    pairs = zip(whole, charset._marks(whole))
    assert safe_json(text) == "".join(
        json.dumps(sign)[1:-1] if bad or charset._is_unsafe(sign) else sign for sign, bad in pairs
    )


@given(st.text())
def test_json_is_safe_and_the_same(text: str) -> None:
    line = safe_json({"value": text})
    assert json.loads(line) == {"value": text} and are_safe(line)
