"""Why `rds` refused an input, or decoded little of it: the line, byte or gap at fault, or blocks that are not decoded."""

import argparse
import re
import signal
import subprocess
import sys
from typing import Any, Callable, Dict, List, Optional, Sequence

import numpy

from .rows.blocks import REMAINDERS
from .rows.decoders import rds_program
from .rows.items import Fault

DIGITS = b"0123456789ABCDEFabcdef"


def options_why(parser: argparse.ArgumentParser) -> None:
    """Runs rds with the same words and the same input, and tells where the fault is: for 12 GroupText each line that is no group, for 11
    HexText the first byte that is no digit, for 16 BadGaps the gap, for 4 BitsPastBytes how many bits there are. Of bits that are not
    refused it tells how many blocks have offset word E of RBDS, which is not decoded. The exit status is that of rds. RDS names the program
    (rds).

    rds-monitor why encode < groups.txt
    rds-monitor why list --hex --gaps=104-105,100-130 < recording.hex"""
    text = "the words that rds was called with"
    parser.add_argument("words", metavar="WORD", nargs=argparse.REMAINDER, help=text)


def run_why(arguments: argparse.Namespace) -> int:
    words, held = [*arguments.words], sys.stdin.buffer.read()
    program = rds_program()
    # rds may refuse before it has read all: then the pipe is closed, which is no end of this command.
    signal.signal(signal.SIGPIPE, signal.SIG_IGN)
    try:
        ran = subprocess.run([program, *words], input=held, stdout=subprocess.DEVNULL, stderr=subprocess.PIPE)
    except OSError as error:
        raise Fault(f"{program}: {error.strerror}") from None
    said = ran.stderr.decode("utf-8", "replace")
    sys.stdout.write(said)
    refusal = re.search(r"^refused (\d+) ", said, re.M)
    is_decoded = ran.returncode == 0 and "encode" not in words
    tell = TELLERS.get(int(refusal[1])) if refusal else blocks_e if is_decoded else None
    if tell:
        sys.stdout.write("".join(f"{line}\n" for line in tell(words, held)))
    return ran.returncode


def option(words: Sequence[str], name: str) -> Optional[str]:
    """The value of an option among the words of a command line."""
    for word, after in zip(words, [*words[1:], None]):
        if word == f"--{name}":
            return after
        if word.startswith(f"--{name}="):
            return word.partition("=")[2]
    return None


def bits_held(words: Sequence[str], held: bytes) -> int:
    if "--hex" in words:
        return 4 * sum(held.count(digit) for digit in DIGITS)
    # A bit is the difference of two symbols.
    return max(len(held) - 1, 0) if "--soft" in words else 8 * len(held)


def hex_text(_words: Sequence[str], held: bytes) -> List[str]:
    at = len(held) - len(held.lstrip(DIGITS + b" \t\r\n"))
    if at < len(held):
        line, column = held.count(b"\n", 0, at) + 1, at - held.rfind(b"\n", 0, at)
        place = f"byte {at + 1} (line {line}, column {column})"
        return [f"{place} is 0x{held[at]:02X}, neither a digit nor blank"]
    return [f"there are {bits_held(['--hex'], held) // 4} digits, an odd number"]


def group_text(_words: Sequence[str], held: bytes) -> List[str]:
    lines = []
    for number, line in enumerate(held.split(b"\n"), 1):
        digits = line.translate(None, b" \t\r")
        if digits and not (len(digits) == 16 and digits.translate(None, DIGITS) == b""):
            shown = (line[:-1] if line.endswith(b"\r") else line).decode("ascii", "backslashreplace")
            lines.append(f"line {number}: {shown.encode('unicode_escape').decode('ascii')}")
    return lines


def bad_gaps(words: Sequence[str], held: bytes) -> List[str]:
    bits, end = int(option(words, "bits") or bits_held(words, held)), 0
    for number, gap in enumerate((option(words, "gaps") or "").split(","), 1):
        begin, _, after = gap.partition("-")
        start, stop = int(begin), int(after)
        for is_bad, fault in (
            (start >= stop, "is empty"),
            (stop > bits, f"goes past the end of the recording, {bits} bits"),
            (start < end, f"begins before {end}, the end of the one before it"),
        ):
            if is_bad:
                return [f"gap {number}, {gap}, {fault}"]
        end = stop
    return []


# The least number of blocks E in a row that are told, and how many bits are looked at.
LEAST_E, MOST_BITS = 4, 1 << 22


def first_bits(words: Sequence[str], held: bytes) -> Any:
    """The first bits of the input, one per byte."""
    if "--hex" in words:
        digits = held[: MOST_BITS // 4].translate(None, b" \t\r\n")
        held = bytes.fromhex(digits[: len(digits) // 2 * 2].decode())
    if "--soft" in words:
        signs = numpy.frombuffer(held[: MOST_BITS + 1], "i1") > 0
        bits = numpy.not_equal(signs[1:], signs[:-1]).view("u1")
    else:
        bits = numpy.unpackbits(numpy.frombuffer(held[: MOST_BITS // 8], "u1"))
    return bits[: int(option(words, "bits") or MOST_BITS)]


def blocks_e(words: Sequence[str], held: bytes) -> List[str]:
    """How many blocks have offset word E, which adds nothing to the check bits: MMBS sends them between groups."""
    bits = first_bits(words, held)
    count = len(bits) - 25
    last = count - 26 * (LEAST_E - 1)
    if last < 1:
        return []
    remainders, ones = numpy.zeros(count, "u2"), numpy.zeros(count, "u1")
    for begin, remainder in enumerate(REMAINDERS):
        remainders ^= bits[begin : begin + count] * numpy.uint16(remainder)
        ones |= bits[begin : begin + count]
    is_e = (remainders == 0) & (ones > 0)
    is_told = numpy.zeros(count, bool)
    runs = numpy.logical_and.reduce([is_e[26 * k : last + 26 * k] for k in range(LEAST_E)])
    for k in range(LEAST_E):
        is_told[26 * k : last + 26 * k] |= runs
    # Without an offset word, windows a few bits beside blocks may be blocks too: those of one bit position count.
    found = int(numpy.bincount(numpy.flatnonzero(is_told) % 26, minlength=26).max())
    if not found:
        return []
    counted = f"{found} of the blocks in the first {len(bits)} bits have offset word E (RBDS with MMBS)"
    return [f"{counted}: they count as bad, and 10 in a row lose sync; --loss 64 keeps it"]


TELLERS: Dict[int, Callable[[Sequence[str], bytes], List[str]]] = {
    4: lambda words, held: [f"the input holds {bits_held(words, held)} bits"],
    11: hex_text,
    12: group_text,
    16: bad_gaps,
}
