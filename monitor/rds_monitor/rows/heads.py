"""What an input is, by its first bytes: a listing, groups in hexadecimal, or bits."""

import re
from itertools import islice

from .items import Fault

HEADER = b"kind,place,type,version,block1,block2,block3,block4"

# Patterns of lines, which are compiled where they are used: most inputs are bits.
_BLOCK = rb"([0-9A-Fa-f]{4}|-{4})"
GROUP_LINE = (
    rb"[ \t]*" + rb"[ \t]*".join([_BLOCK] * 4) + rb"(?:[ \t]*@[ \t]*(\S[^\r\n]*?)|[ \t][^@\r\n]*)?[ \t\r]*"
)
NO_GROUP = rb"[ \t\r]*(?:<[^\n]*|[Gg]:[ \t\r]*)?"
_IN_FOURS = rb"@|----|^\s*(?:\w{4}[ \t]+){3}"
_WORD_SIGNS = b"0123456789ABCDEFabcdef-"

ROWS = (b"acquired,", b"group,", b"lost,", b"total,", HEADER[:11])
UTF16, UTF8 = (b"\xff\xfe", b"\xfe\xff"), b"\xef\xbb\xbf"
_TEXT = bytes(range(32, 127)) + b"\t\r\n"


def is_known(head: bytes) -> bool:
    """Whether these first bytes say what an input is, whatever follows them. Text does by a whole line that tells something."""
    if head.startswith((*UTF16, UTF8[:1], b"<", b"G", b"g")):
        return len(head) >= 64 and b"\n" in head
    lines = head.split(b"\n")[:-1]
    is_told = any(len(line) >= 16 and not re.fullmatch(NO_GROUP, line) for line in lines)
    return is_told or len(head) >= 6 and bool(head.translate(None, _TEXT))


def is_listing(head: bytes) -> bool:
    """Whether an input is text that claims to be a listing. Other text is refused: no recording looks like it."""
    if head.startswith(UTF16) and b"g\0r\0o\0u\0p\0" in head:
        raise Fault("the listing is in UTF-16, as PowerShell writes it: convert it to UTF-8 or ASCII")
    if head.removeprefix(UTF8).startswith(ROWS):
        return True
    if len(head) >= 16 and not head.translate(None, _TEXT):
        line = head.splitlines()[0][:60].decode("ascii")
        if not head.translate(None, b"0123456789abcdefABCDEF \t\r\n"):
            raise Fault("the input is hexadecimal text: use --hex")
        raise Fault(f"row 1: {line!r} is no row of a listing, and text is no recording of packed bits")
    return False


def is_groups(head: bytes) -> bool:
    """Whether an input begins with lines of four hexadecimal words. Digits without a blank after each word may be a
    recording, unless `@` or ---- is there."""
    begin = head.lstrip()[:2]
    if begin[:1] not in (b"<", b"G", b"g") and begin.strip(_WORD_SIGNS):
        return False
    whole = head.split(b"\n")
    told = (line for line in whole[: max(1, len(whole) - 1)] if not re.fullmatch(NO_GROUP, line))
    lines = list(islice(told, 3))
    fit = (re.fullmatch(GROUP_LINE, line) and re.search(_IN_FOURS, line) for line in lines)
    return bool(lines) and all(fit)
