"""The options of every command that reads an input, and the source that they name."""

import argparse
import os
import re
from typing import Optional, Sequence, Tuple

from .clock import option_type
from .hours import hour_of
from .items import LONGEST, MARGIN, Fault, Misuse, Reading, Rules, Source
from .opening import open_source


def gaps_of(text: str) -> Sequence[Tuple[int, int]]:
    """The gaps of --gaps: pairs FROM-TO, in order, with a comma between each two."""
    found = []
    for pair in text.split(",") if text else []:
        match = re.fullmatch(r"(\d{1,12})-(\d{1,12})", pair)
        if not match:
            raise argparse.ArgumentTypeError(f"{pair!r} is no pair FROM-TO")
        found.append((int(match[1]), int(match[2])))
    return found


bits_of = option_type("[0-9]+", int, "is no number of bits up to 2^36", lambda bits: bits <= LONGEST)
margin_of = option_type("[0-9]{1,3}", int, "is no margin from 1 to 127", lambda margin: 1 <= margin <= 127)


def input_options(parser: argparse.ArgumentParser, several: bool = False) -> None:
    """INPUT, or with `several` any number of them, and the options of a recording and of a listing."""
    how = ("*", ["-"]) if several else ("?", "-")
    text = "a recording or a listing (default: - for standard input)"
    parser.add_argument("input", nargs=how[0], default=how[1], metavar="INPUT", help=text)
    recording, of_gaps = recording_options(parser), "bits at these positions mean nothing"
    recording.add_argument("--hex", action="store_true", help="it is hexadecimal text")
    recording.add_argument("--bits", type=bits_of, metavar="N", help="it has N bits (default: all)")
    recording.add_argument("--gaps", type=gaps_of, default=(), metavar="FROM-TO,..", help=of_gaps)
    listing = parser.add_argument_group("for a listing")
    listing.add_argument("--length", metavar="FILE|BITS", help="its recording, or how many bits that has")
    trust, part = "believe a --length far past the last row", "without totals, such as an hour of a stream"
    listing.add_argument("--trust-length", action="store_true", help=trust)
    part = f"accept a part: {part}, or with rows missing"
    listing.add_argument("--unfinished", action="store_true", help=part)


# The options of a decoder's rules, with their defaults.
RULES = {
    "--burst": (None, "correct bursts of up to N bits, 0 to 5 (2)"),
    "--reach": (3, "sync needs two valid blocks at most N blocks apart, 1 to 8 (3)"),
    "--loss": (None, "drop sync after N consecutive bad blocks, 1 to 64 (10)"),
    "--share": (None, "in place of --loss: after N bad blocks of the last --of"),
    "--of": (None, "1 to 64 (64)"),
}


def recording_options(parser: argparse.ArgumentParser) -> argparse._ArgumentGroup:
    recording = parser.add_argument_group("for a recording")
    for name, (default, text) in RULES.items():
        recording.add_argument(name, type=int, default=default, metavar="N", help=text)
    recording.add_argument("--soft", action="store_true", help="it is symbols, as demod --soft writes them")
    margin = "with --soft: correct a block if all other corrections cost N more, 1 to 127 (32)"
    recording.add_argument("--margin", type=margin_of, metavar="N", help=margin)
    return recording


def rules_of(arguments: argparse.Namespace) -> Rules:
    burst, reach, loss, share, of = (getattr(arguments, name[2:]) for name in RULES)
    if arguments.soft and (burst is not None or getattr(arguments, "hex", False)):
        raise Misuse(f"--{'hex' if burst is None else 'burst'} and --soft contradict each other")
    if arguments.margin is not None and not arguments.soft:
        raise Misuse("--margin needs --soft")
    burst, margin = 2 if burst is None else burst, (arguments.margin or MARGIN) if arguments.soft else 0
    if loss is not None and share is not None:
        raise Misuse("--loss and --share contradict each other")
    if share is not None:
        return Rules(burst, reach, share, 64 if of is None else of, margin)
    if of is not None:
        raise Misuse("--of needs --share")
    return Rules(burst, reach, 10 if loss is None else loss, 0, margin)


def length_of(text: str) -> int:
    """The bits of --length: digits are a number, and ./20260329 a file."""
    if re.fullmatch(r"[0-9]+", text):
        return int(text)
    try:
        return 8 * os.stat(text).st_size
    except OSError as error:
        raise Fault(f"--length {text!r}: {error.strerror}") from None


def open_input(arguments: argparse.Namespace, path: Optional[str] = None, sessions: bool = False) -> Source:
    """The source that the options name: of `path`, by default of INPUT."""
    named = {name: getattr(arguments, name) for name in ("gaps", "bits", "hex", "trust_length")}
    length = None if arguments.length is None else length_of(arguments.length)
    path = arguments.input if path is None else path
    hour = hour_of(path)
    named.update(unfinished_ok=arguments.unfinished, length=length, sessions=sessions)
    named.update(is_soft=hour is not None and hour.is_soft)
    return open_source(path, Reading(rules_of(arguments), **named))
