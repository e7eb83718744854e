#!/usr/bin/python3
"""Random recordings, lines of groups, and words for `rds`, as test_differential.py tries them.

    tests/making.py SEED > RECORDING

The same seed makes the same recording.
"""

import random
import sys

from plain import A, B, BLOCK, C, CX, D, WORDS, block, bursts, encode, remainder

NUMBERED = {1: (A,), 2: (B,), 3: (C, CX), 4: (D,)}


# ---- pieces of recordings, as text of zeros and ones


def sent(blocks):
    """The bits of some blocks."""
    return "".join(format(it, "026b") for it in blocks)


def burst_of(chance, longest):
    """A burst of up to `longest` bits, anywhere in a block."""
    length = chance.randint(1, longest)
    form = 1 | chance.getrandbits(length) | 1 << (length - 1)
    return form << chance.randint(0, BLOCK - length)


def group_words(chance, programme):
    """Words of any group type; block 3 of version B often has the programme."""
    words = [programme, *(chance.getrandbits(16) for _ in range(3))]
    if words[1] >> 11 & 1 and chance.random() < 0.7:
        words[2] = programme
    return words


def groups(chance):
    """Groups of one programme, some of their blocks damaged, some blocks 3 with the other version's offset."""
    programme, damage = chance.getrandbits(16), chance.choice([0, 0.02, 0.1, 0.3, 0.6])
    blocks = []
    for _ in range(chance.randint(1, 60)):
        four = encode(group_words(chance, programme))
        if chance.random() < 0.05:
            four[2] ^= WORDS[C] ^ WORDS[CX]
        blocks += [it ^ burst_of(chance, 7) if chance.random() < damage else it for it in four]
    return sent(blocks[chance.randint(0, 3) :])


# Bursts that make of a block with offset C one that another burst makes one with C', and the other way round.
_REMAINDERS = {remainder(it) for it in bursts(5)}
TWOFOLD = sorted(it for it in bursts(5) if remainder(it) ^ WORDS[C] ^ WORDS[CX] in _REMAINDERS)


def twofold(chance):
    """Groups whose block 2 says nothing, and whose block 3 fits both of its offsets, or fits one."""
    blocks = []
    for _ in range(chance.randint(1, 20)):
        four = encode(group_words(chance, 0xD393))
        four[1] = chance.getrandbits(BLOCK) if chance.random() < 0.7 else four[1] ^ burst_of(chance, 5)
        four[2] ^= chance.choice(TWOFOLD) if TWOFOLD and chance.random() < 0.7 else burst_of(chance, 5)
        blocks += four
    return sent(blocks)


def zeros(chance):
    """The zero group over and over: its windows are valid in wrong phases too."""
    return sent(encode([0, 0, 0, 0]) * chance.randint(2, 40))


def noise(chance):
    """Bits without a meaning."""
    length = chance.randint(1, chance.choice([30, 3000]))
    return format(chance.getrandbits(length), f"0{length}b")


def islands(chance):
    """Blocks of the right numbers, of which many say nothing: acquisitions over some blocks, and losses soon after."""
    share, number = chance.choice([0.3, 0.6, 0.85]), chance.randint(1, 4)
    blocks = []
    for _ in range(chance.randint(2, 120)):
        is_noise = chance.random() < share
        offset = chance.choice(NUMBERED[number])
        blocks.append(chance.getrandbits(BLOCK) if is_noise else block(chance.getrandbits(16), offset))
        number = chance.randint(1, 4) if chance.random() < 0.05 else number % 4 + 1
    return sent(blocks)


def phases(chance):
    """Valid blocks of any numbers. Each begins within the one before, and spoils it, or some bits after it."""
    bits = ""
    for _ in range(chance.randint(2, 60)):
        bits = bits[: max(0, len(bits) - chance.choice([0, 0, 1, 13]))]
        bits += sent([block(chance.getrandbits(16), chance.choice([A, B, C, CX, D]))]) + "0" * chance.choice(
            [0, 0, 0, 1, 26]
        )
    return bits


KINDS = [groups, groups, groups, groups, twofold, zeros, noise, islands, phases]


def recording(seed):
    """Some pieces in a row, between which bits may be missing, and a few bits at random."""
    chance = random.Random(f"recording {seed}")
    longer = chance.choice([1, 1, 1, 1, 1, 8])
    bits = ""
    for _ in range(longer * chance.randint(1, 12)):
        bits += chance.choice(KINDS)(chance)
        bits = bits[: len(bits) - chance.choice([0, 0, 0, chance.randint(0, min(30, len(bits)))])]
    held = bytearray(int(bits + "1" * (-len(bits) % 8) or "0", 2).to_bytes((len(bits) + 7) // 8, "big"))
    for _ in range(chance.choice([0, 0, len(held) // 500, len(held) // 50])):
        held[chance.randrange(len(held))] ^= 1 << chance.randrange(8)
    return bytes(held)


# ---- lines for encode


def spelled(chance, word):
    """A word's digits of either case, with blanks between them."""
    digits = format(word, "04x")
    digits = digits.upper() if chance.random() < 0.3 else digits
    return "".join(it + (chance.choice(" \t\r") if chance.random() < 0.1 else "") for it in digits)


def lines(seed):
    """Lines of groups; at one seed of four, one line has a digit more or less, or another byte."""
    chance = random.Random(f"lines {seed}")
    rows = []
    for _ in range(chance.randint(0, 200)):
        words = group_words(chance, chance.getrandbits(16))
        rows.append("" if chance.random() < 0.1 else "".join(spelled(chance, it) for it in words))
    if rows and chance.random() < 0.25:
        at = chance.randrange(len(rows))
        rows[at] = chance.choice(
            [rows[at] + "0", "123456789abcde", "0000 0000 0000 000g", "0" * 32, "\0" + rows[at]]
        )
    return ("\n".join(rows) + chance.choice(["", "\n"])).encode()


def as_digits(chance, held):
    """The digits of bytes, some of them upper-case, with blanks."""
    text = held.hex()
    text = text.upper() if chance.random() < 0.3 else text
    width = chance.randint(1, 100)
    return (
        chance.choice(["\n", "\r\n", " ", "\t"])
        .join(text[k : k + width] for k in range(0, len(text), width))
        .encode()
    )


# Bytes that are neither digits nor blanks: all below 128, and some above.
STRANGE = [
    it
    for it in [*range(128), 0x80, 0x85, *range(0xA0, 0xB0), 0xFF]
    if chr(it) not in "0123456789abcdefABCDEF \t\r\n"
]


# ---- words of the command line


def rules(chance):
    """Rules of either kind."""
    words = ["--burst", str(chance.randint(0, 5)), "--reach", str(chance.randint(1, 8))]
    if chance.random() < 0.6:
        return words + ["--loss", str(chance.choice([chance.randint(1, 6), chance.randint(1, 64), 64]))]
    of = chance.choice([chance.randint(1, 64), 64])
    return words + [
        "--share",
        str(chance.choice([chance.randint(1, of), (of + 3) // 4, of])),
        "--of",
        str(of),
    ]


def crew(chance):
    """A few pieces or more than there are groups, and workers."""
    pieces = chance.choice([chance.randint(1, 9), chance.randint(10, 100), chance.randint(101, 4000)])
    workers = chance.choice([*range(1, 10), chance.randint(10, 40)])
    return ["--pieces", str(pieces), "--workers", str(workers)]


def gaps(chance, bits):
    """No gaps, or up to 36 within `bits` bits. Some begin at the end of the one before, some are long, and some end the bits."""
    count = max(0, chance.randint(-3, 6)) ** 2
    pairs, end = [], 0
    for _ in range(count):
        start = end + chance.choice([0, *[chance.randint(0, 2 * bits // count)] * 6])
        end = start + chance.choice([*[chance.randint(1, 9)] * 9, chance.randint(1, 999)])
        if end > bits:
            break
        pairs.append(f"{start}-{end}")
    if bits > end and chance.random() < 0.05:
        pairs.append(f"{chance.randint(end, bits - 1)}-{bits}")
    return ["--gaps", ",".join(pairs)] if pairs else []


if __name__ == "__main__":
    if len(sys.argv) != 2 or not sys.argv[1].isdigit():
        sys.exit(__doc__)
    sys.stdout.buffer.write(recording(int(sys.argv[1])))
