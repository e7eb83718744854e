"""Which fields are looked at in which groups: tables, by the fields of `fields.py`."""
from enum import IntEnum
from functools import lru_cache
from typing import Dict, FrozenSet, List, NamedTuple, Optional, Tuple

from .fields import FIELDS
from .turns import Shape

ENHANCED_RT, TMC = 0x6552, (0xCD46, 0xCD47)

# Kinds of news, in the order in which those of one group are told.
Kind = IntEnum(
    "Kind",
    "TP_PTY TA_MS DI AF PS RT_FLAG RT PTYN_FLAG PTYN PIN LINKAGE LABEL CT ODA ODA_MESSAGE ERT DAB EON_TP EON_PS EON_AF EON_MAPPED "
    "EON_LINKAGE EON_PTY EON_TA EON_PIN LPS EWS CHANNEL TMC_NAME DAB_SERVICE TAGS ERT_CODING ERT_TAGS TMC_MESSAGE TDC_DATA IH_DATA",
)
# Positions of CHANNEL: the channels of transparent data, and from here on group type codes.
GROUP_CODES = 0x40

# The group type of the fields has to be assigned to one of the applications, if there are any, or to none for 0.
_TABLE = """
kind         groups     value        position       message    when               applications
TP_PTY       all        tp.pty       -              -          -                  -
TA_MS        0A,0B,15B  ta.ms        -              -          -                  -
DI           0A,0B,15B  di.bit       di.segment     -          -                  -
AF           0A         af.pair      af.pair        -          -                  -
RT_FLAG      2A,2B      rt.kind      -              -          -                  -
PTYN_FLAG    10A        ptyn.flag    -              -          -                  -
PIN          1A,1B      pin          -              -          -                  -
LINKAGE      1A         la           -              -          -                  -
LABEL        1A         label.data   label.variant  -          -                  -
CT           4A         ct           -              -          -                  -
ODA          3A         oda.group    oda.aid        -          -                  -
ODA_MESSAGE  3A         oda.message  oda.aid        -          -                  -
ERT_CODING   3A         ert.coding   -              -          oda.aid=0x6552     -
EON_TP       14A,14B    eon.tp       -              eon.pi     -                  -
EON_AF       14A        eon.data     eon.data       eon.pi     eon.variant=4      -
EON_MAPPED   14A        eon.mapped   eon.tuned      eon.pi     eon.variant=9      -
EON_MAPPED   14A        eon.mapped   eon.tuned+256  eon.pi     eon.variant=5      -
EON_MAPPED   14A        eon.mapped   eon.tuned+512  eon.pi     eon.variant=6      -
EON_MAPPED   14A        eon.mapped   eon.tuned+768  eon.pi     eon.variant=7      -
EON_MAPPED   14A        eon.mapped   eon.tuned+1024 eon.pi     eon.variant=8      -
EON_LINKAGE  14A        eon.linkage  -              eon.pi     eon.variant=12     -
EON_PTY      14A        eon.pty      -              eon.pi     eon.variant=13     -
EON_TA       14A        eon.ta13     -              eon.pi     eon.variant=13     -
EON_TA       14B        eon.ta       -              eon.pi     -                  -
EON_PIN      14A        eon.data     -              eon.pi     eon.variant=14     -
EWS          9A         ews          -              -          -                  0
TDC_DATA     5A         tdc.data     tdc.channel    -          -                  0
TDC_DATA     5B         tdc.short    tdc.channel+256 -         -                  0
IH_DATA      6A         ih           -              -          -                  0
IH_DATA      6B         ih.short     +1             -          -                  0
TMC_MESSAGE  8A         tmc.message  tmc.location   tmc.event  tmc.kind=1,2,3     0,CD46,CD47
DAB          ODA        dab          dab.low        -          dab.service=0      0093
DAB_SERVICE  ODA        dab.service  dab.ensemble   -          dab.service=1      0093
TAGS         ODA        rtplus       -              -          -                  4BD7
ERT_TAGS     ODA        rtplus       -              -          -                  4BD8
"""


class Look(NamedTuple):
    """A field that is looked at: in which groups, under which position and message, and when: by another's values."""

    kind: Kind
    groups: str
    value: str
    position: str
    offset: int
    message: str
    when: str
    values: FrozenSet[int]
    applications: Tuple[int, ...]


def _looks() -> Dict[Kind, List[Look]]:
    found: Dict[Kind, List[Look]] = {}
    for line in _TABLE.strip().splitlines()[1:]:
        name, groups, value, *rest = ["" if cell == "-" else cell for cell in line.split()]
        position, message, when, applications = rest
        (position, _, offset), (when, _, values) = position.partition("+"), when.partition("=")
        chosen = frozenset(int(one, 0) for one in values.split(",") if one)
        assigned = tuple(int(one, 16) or -1 for one in applications.split(",") if one)
        of = groups.replace(",", " "), value, position, int(offset or 0), message, when, chosen, assigned
        found.setdefault(Kind[name], []).append(Look(Kind[name], *of))
    return found


LOOKS = _looks()
# Kinds that are each sifted by themselves, and those of a part of the texts below.
APART = {Kind[name] for name in "ODA ODA_MESSAGE AF EON_AF CT TAGS ERT_TAGS".split()}
FLAGS = (Kind.RT_FLAG, Kind.PTYN_FLAG, Kind.ERT_CODING)


@lru_cache(None)
def carriers(look: Look) -> Tuple[int, ...]:
    """The blocks that carry a field: those of all its fields, and block 2, which says the group type."""
    names = [name for name in (look.value, look.position, look.message, look.when) if name]
    return tuple(sorted({2}.union(*(FIELDS[name].blocks for name in names))))


class TextLook(NamedTuple):
    """A name or text: its layout, the groups that carry it, and the fields of a segment's number and pairs.

    `first` is the number of the first segment, and `message` tells one of several texts apart. Another value of `flag`
    begins another text; groups have to carry the flag that counts, or if there is a `coding`, that has to count. Their
    type has to be assigned to one of the `applications` if there are any, or to none for -1."""

    kind: Kind
    groups: str
    shape: Shape
    segment: str
    pairs: Tuple[str, ...]
    first: int = 0
    message: str = ""
    flag: Optional[Kind] = None
    coding: Optional[int] = None
    applications: Tuple[int, ...] = ()


_TWO_OF_RT = ("rt.first", "rt.second")
_ERT = ("ert.segment", ("ert.first", "ert.second"), 0, "", Kind.ERT_CODING)
_PTYN = ("ptyn.segment", ("ptyn.first", "ptyn.second"))
_TMC_NAME = ("tmc.variant", ("tmc.first", "tmc.second"), 0x14)
TEXTS = (
    TextLook(Kind.PS, "0A 0B", Shape(4, 1), "ps.segment", ("ps.pair",)),
    TextLook(Kind.RT, "2A", Shape(16, 2, True), "rt.segment", _TWO_OF_RT, flag=Kind.RT_FLAG),
    TextLook(Kind.RT, "2B", Shape(16, 1, True), "rt.segment", _TWO_OF_RT[1:], flag=Kind.RT_FLAG),
    TextLook(Kind.PTYN, "10A", Shape(2, 2), *_PTYN, flag=Kind.PTYN_FLAG),
    TextLook(Kind.EON_PS, "14A", Shape(4, 1), "eon.variant", ("eon.data",), message="eon.pi"),
    TextLook(Kind.LPS, "15A", Shape(8, 2, True), "lps.segment", ("lps.first", "lps.second")),
    TextLook(Kind.TMC_NAME, "8A", Shape(2, 2), *_TMC_NAME, applications=(-1, *TMC)),
    TextLook(Kind.ERT, "ODA", Shape(32, 2, True), *_ERT, coding=1, applications=(ENHANCED_RT,)),
    TextLook(Kind.ERT, "ODA", Shape(32, 2, True, wide=True), *_ERT, coding=0, applications=(ENHANCED_RT,)),
)
# Features whose presence is told: the group type, and the assignments that leave it to them.
PRESENT: Dict[str, Tuple[int, ...]] = {"8A": (-1, *TMC), **dict.fromkeys("5A 5B 6A 6B 7A 13A".split(), (-1,))}


def code_of(name: str) -> int:
    """The group type code of a name: 4 bits of the type, and one of the version."""
    return int(name[:-1]) << 1 | (name[-1] == "B")


def may_carry_application(code: int) -> bool:
    """Whether the standard lets groups of this type carry an open data application: IEC 62106, clause 6.1.5.4."""
    return code in codes_of("3B 4B 5A 5B 6A 6B 7A 7B 8A 8B 9A 9B 10B 11A 11B 12A 12B 13A 13B")


def name_of(code: int) -> str:
    return f"{code >> 1}{'AB'[code & 1]}"


@lru_cache(64)
def codes_of(names: str) -> Tuple[int, ...]:
    return tuple(map(code_of, names.split()))
