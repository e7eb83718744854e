"""The verdict on a station, and the limits by which it is judged."""

import re
from typing import List, NamedTuple, Optional, Sequence

OK, WARNING, CRITICAL, UNKNOWN = 0, 1, 2, 3
WORDS = ("OK", "WARNING", "CRITICAL", "UNKNOWN")


class Limits(NamedTuple):
    """Per cent of valid blocks and seconds since the last whole group that are a warning, or worse."""

    low: float
    lowest: float
    old: float
    oldest: float


class Seen(NamedTuple):
    """Per cent of blocks, seconds since the last whole group, the PI, and the PS of a minute. `shows` shows contents nobody asked for."""

    valid: Optional[float]
    corrected: Optional[float]
    age: Optional[float]
    pi: Optional[str]
    names: Sequence[str]
    blocks: str = "blocks"
    shows: bool = False


class Verdict:
    """A status, which only gets worse, its reasons, and performance data."""

    def __init__(self) -> None:
        self.status = OK
        self.said: List[str] = []
        self.data: List[str] = []

    def say(self, status: int, text: str, *data: str) -> None:
        self.status = max(self.status, status)
        self.said.append(text)
        self.data += data

    def judge(self, seen: Seen, limits: Limits, pi: Optional[str], patterns: Sequence[str]) -> None:
        low, lowest, old, oldest = limits
        if seen.valid is None:
            self.say(OK, "no whole minute yet", "valid=U", "corrected=U")
        else:
            valid = f"valid={seen.valid:.2f}%;{low:g}:;{lowest:g}:;0;100"
            status = CRITICAL if seen.valid < lowest else WARNING if seen.valid < low else OK
            text = f"{seen.valid:.2f} % of the {seen.blocks} valid"
            self.say(status, text, valid, f"corrected={seen.corrected:.2f}%;;;0;100")
        if seen.age is None:
            self.say(CRITICAL, "no valid group", "age=U")
        else:
            status = CRITICAL if seen.age > oldest else WARNING if seen.age > old else OK
            age = f"age={seen.age:.3f}s;{old:g};{oldest:g};0"
            self.say(status, f"last valid group {seen.age:.3f} s ago", age)
        self._judge_contents(seen, pi, patterns)

    def _judge_contents(self, seen: Seen, pi: Optional[str], patterns: Sequence[str]) -> None:
        if pi is not None and seen.pi != pi:
            self.say(CRITICAL, f"programme {seen.pi} instead of {pi}" if seen.pi else "no programme")
        elif seen.pi is not None and (pi is not None or seen.shows):
            self.say(OK, f"programme {seen.pi}")
        fits = [pattern_of(pattern) for pattern in patterns or ("*",)]
        fitting = [name for name in seen.names if any(fit.fullmatch(name) for fit in fits)]
        if fitting and (patterns or seen.shows):
            self.say(OK, f"name {fitting[-1]}")
        elif patterns and seen.names:
            self.say(CRITICAL, f"name {seen.names[-1]} instead of {' or '.join(patterns)}")
        elif patterns:
            self.say(WARNING, "no name")


def pattern_of(text: str) -> "re.Pattern[str]":
    """A name in which * is any text and ? any character."""
    return re.compile(re.escape(text.strip()).replace(r"\*", ".*").replace(r"\?", "."), re.DOTALL)
