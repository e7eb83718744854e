"""The position of each field in a group: one table for all group types, with the clauses of IEC 62106.

The clauses are those of the edition of 2009; EN 50067:1998 has the same text in its clause 3 in place of 6. Enhanced
RadioText, RadioText Plus, the DAB link and the long PS are of later documents, which their lines name."""
import re
from typing import Any, NamedTuple, Tuple

# Bits are BLOCK:HIGH-LOW, the most significant part first; block 1 is the first, bit 15 the highest.
TABLE = """
field             groups        bits               -- clause    meaning
pi                all           1:15-0             -- 6.2.1.1   programme identification; in block 3 of version B too
type              all           2:15-12            -- 6.1.3     group type
version           all           2:11               -- 6.1.3     0 is version A, 1 version B
tp                all           2:10               -- 6.2.1.3   traffic programme
pty               all           2:9-5              -- 6.2.1.2   programme type
tp.pty            all           2:10-5             -- 6.1.3     both
ta                0A 0B 15B     2:4                -- 6.1.5.1   traffic announcement
ms                0A 0B 15B     2:3                -- 6.2.1.4   1 is music, 0 speech
ta.ms             0A 0B 15B     2:4-3              -- 6.1.5.1   both
di.segment        0A 0B 15B     2:1-0              -- 6.2.1.5   3 less the number of the bit in DI
di.bit            0A 0B 15B     2:2                -- 6.2.1.5   a bit of the decoder identification
ps.segment        0A 0B         2:1-0              -- 6.1.5.1   which two of eight characters
ps.pair           0A 0B         4:15-0             -- 6.1.5.1   two characters of the programme service name
af.pair           0A            3:15-0             -- 6.2.1.6   two codes of alternative frequencies
la                1A            3:15               -- 6.1.5.2   linkage actuator
label.variant     1A            3:14-12            -- 6.1.5.2   variant of the slow labelling codes
label.data        1A            3:11-0             -- 6.1.5.2   a slow labelling code
pin               1A 1B         4:15-0             -- 6.2.1.7   programme item number: day, hour, minute
rt.kind           2A 2B         2:11 2:4           -- 6.1.5.3   version, and text A/B flag
rt.segment        2A 2B         2:3-0              -- 6.1.5.3   which four characters, or which two in version B
rt.first          2A            3:15-0             -- 6.1.5.3   two characters of RadioText
rt.second         2A 2B         4:15-0             -- 6.1.5.3   the next two; in version B the pair of the segment
oda.group         3A            2:4-0              -- 6.1.5.4   application group type code
oda.message       3A            3:15-0             -- 6.1.5.4   bits of the application's own
oda.aid           3A            4:15-0             -- 6.1.5.4   application identification
ert.coding        3A            3:0                -- Annex Q   of enhanced RadioText: 1 is UTF-8, 0 UCS-2
ct.day            4A            2:1-0 3:15-1       -- 6.1.5.6   modified Julian day
ct.hour           4A            3:0 4:15-12        -- 6.1.5.6   hour, UTC
ct.minute         4A            4:11-6             -- 6.1.5.6   minute
ct.sign           4A            4:5                -- 6.1.5.6   1 is west of Greenwich
ct.half_hours     4A            4:4-0              -- 6.1.5.6   local time offset in half hours
ct                4A            2:1-0 3:15-0 4:15-0 -- 6.1.5.6  all of these
tdc.channel       5A 5B         2:4-0              -- 6.1.5.8   address of a transparent data channel
tdc.data          5A            3:15-0 4:15-0      -- 6.1.5.8   four bytes of the channel
tdc.short         5B            4:15-0             -- 6.1.5.8   two bytes of the channel
ih                6A            2:4-0 3:15-0 4:15-0 -- 6.1.5.9  in-house data
ih.short          6B            2:4-0 4:15-0       -- 6.1.5.9   the same in version B
tmc.variant       8A            2:4-0              -- 6.1.5.12  0x10 and a variant of tuning information (EN ISO 14819-1)
tmc.first         8A            3:15-0             -- 6.1.5.12  two characters of the service provider's name
tmc.second        8A            4:15-0             -- 6.1.5.12  the next two
tmc.kind          8A            2:4-3 3:15         -- ISO 14819-1 no user message, single group, first of several groups
tmc.duration      8A            2:2-0              -- ISO 14819-1 duration and persistence, in a single group
tmc.diversion     8A            3:15               -- ISO 14819-1 diversion is advised, in a single group
tmc.direction     8A            3:14               -- ISO 14819-1 1 is the negative direction
tmc.extent        8A            3:13-11            -- ISO 14819-1 how many locations further it extends
tmc.event         8A            3:10-0             -- ISO 14819-1 event code
tmc.location      8A            4:15-0             -- ISO 14819-1 location code
tmc.message       8A            2:4-0 3:15-0 4:15-0 -- ISO 14819-1 all of these
ews               9A            2:4-0 3:15-0 4:15-0 -- 6.1.5.13 emergency warning data of the country's own
ptyn.flag         10A           2:4                -- 6.1.5.14  A/B flag of the programme type name
ptyn.segment      10A           2:0                -- 6.1.5.14  which four of eight characters
ptyn.first        10A           3:15-0             -- 6.1.5.14  two characters of the programme type name
ptyn.second       10A           4:15-0             -- 6.1.5.14  the next two
eon.tp            14A 14B       2:4                -- 6.1.5.19  traffic programme of the other network
eon.variant       14A           2:3-0              -- 6.1.5.19  variant of the information
eon.data          14A           3:15-0             -- 6.1.5.19  the information, by its variant
eon.pi            14A 14B       4:15-0             -- 6.1.5.19  PI of the other network
eon.tuned         14A           3:15-8             -- 6.1.5.19  variants 5 to 9: a frequency of the tuned network
eon.mapped        14A           3:7-0              -- 6.1.5.19  variants 5 to 9: the frequency that belongs to it
eon.linkage       14A           3:15-0             -- 6.2.1.8   variant 12: linkage actuator, extended generic, set number
eon.pty           14A           3:15-11            -- 6.1.5.19  variant 13: programme type
eon.ta13          14A           3:0                -- 6.1.5.19  variant 13: traffic announcement
eon.ta            14B           2:3                -- 6.1.5.19  traffic announcement of the other network
lps.segment       15A           2:2-0              -- IEC 62106-2:2018  which four bytes
lps.first         15A           3:15-0             -- IEC 62106-2:2018  two bytes of the long PS, in UTF-8
lps.second        15A           4:15-0             -- IEC 62106-2:2018  the next two
rtplus.toggle     ODA           2:4                -- Annex P   item toggle bit
rtplus.running    ODA           2:3                -- Annex P   item running bit
rtplus.class1     ODA           2:2-0 3:15-13      -- Annex P   content type of tag 1
rtplus.start1     ODA           3:12-7             -- Annex P   where tag 1 starts in the RadioText
rtplus.more1      ODA           3:6-1              -- Annex P   how many characters tag 1 has after its first
rtplus.class2     ODA           3:0 4:15-11        -- Annex P   content type of tag 2
rtplus.start2     ODA           4:10-5             -- Annex P   where tag 2 starts
rtplus.more2      ODA           4:4-0              -- Annex P   how many characters tag 2 has after its first
rtplus            ODA           2:4-0 3:15-0 4:15-0 -- Annex P  all of these
ert.segment       ODA           2:4-0              -- Annex Q   which four bytes
ert.first         ODA           3:15-0             -- Annex Q   two bytes of enhanced RadioText
ert.second        ODA           4:15-0             -- Annex Q   the next two
dab.service       ODA           2:4                -- EN 301 700 if 1 of a service, else of an ensemble
dab.mode          ODA           2:3-2              -- EN 301 700 DAB mode
dab.frequency     ODA           2:1-0 3:15-0       -- EN 301 700 frequency in 16 kHz
dab.low           ODA           3:15-0             -- EN 301 700 its low 16 bits, by which it is told from others
dab.ensemble      ODA           4:15-0             -- EN 301 700 identification of the ensemble or service
dab               ODA           2:4-0 3:15-0 4:15-0 -- EN 301 700 all of these
"""


class Field(NamedTuple):
    """A field: its parts as (block 1 to 4, shift, mask), the blocks of these, and the groups that have it."""

    name: str
    groups: Tuple[str, ...]
    parts: Tuple[Tuple[int, int, int], ...]
    blocks: Tuple[int, ...]

    def of(self, words: Any) -> Any:
        """The value in the four information words of a group, or of many if the words are arrays."""
        (block, shift, mask), *others = self.parts
        value: Any = words[block - 1] >> shift & mask
        for block, shift, mask in others:
            value = value << mask.bit_length() | words[block - 1] >> shift & mask
        return value

    @property
    def width(self) -> int:
        return sum(mask.bit_length() for _, _, mask in self.parts)


def _field(line: str) -> Field:
    match = re.fullmatch(r"(\S+) +(all|ODA|(?:\d+[AB] ?)+) +((?:\d:\S+ )+) *-- \S.* \S.*", line)
    assert match, line
    parts = []
    for part in match[3].split():
        block, _, bits = part.partition(":")
        high, _, low = bits.partition("-")
        shift = int(low or high)
        parts.append((int(block), shift, (1 << int(high) - shift + 1) - 1))
    blocks = sorted({block for block, *_ in parts})
    return Field(match[1], tuple(match[2].split()), tuple(parts), tuple(blocks))


FIELDS = {field.name: field for field in map(_field, TABLE.strip().splitlines()[1:])}
