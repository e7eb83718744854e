"""Recordings of which a run keeps the most: bits that are valid windows at chosen places: tests/worst_inputs.py PLAN BYTES

A window is valid with an offset word if its remainder by the generator is that word (EN 50067:1998, Annex B): ten linear equations,
modulo 2, of its 26 bits. The windows of a plan repeat after some number of bytes. So the equations are solved once, for a ring of that
length, and the ring is written again and again. The free bits are pseudo-random, by the first seed for which no other window is
valid: another window might acquire sync, or be the next block. The same plan gives the same bytes.
"""

import itertools
import random
import sys

from plain import A, B, BLOCK, C, D, NUMBERS, OFFSET_OF, WORDS, remainder

# the offset word of each block number
WORD_OF = {number: WORDS[offset] for number, offset in enumerate((A, B, C, D), 1)}


# ---- plans: the length of a ring in bits, and its windows, each by its last place and the number of its block


def short_locks():
    """For `--loss 1 --reach 8`: every 27 bits a block 4 acquires sync, and the next block loses it.

    There is a window of block 4 every 27 bits, and one of block 2 six bits after each. So each block 4 has a block 2 six blocks
    before it, six bits after an earlier block 4.
    """
    starts = range(0, 8 * 27, 27)
    return 8 * 27, [(start, 4) for start in starts] + [(start + 6, 2) for start in starts]


def three_phases():
    """For `--loss 1`: three phases of locks, 13 bits apart, of which none ever meets another.

    There is a window every 13 bits, and the sixth before it is its partner, three blocks before. The second after it is not the
    next block, so sync is lost there, and the third, 39 bits later, acquires it. While a run in one phase searches, runs in the
    other two are in sync.
    """
    numbers = [1] * 6
    while len(numbers) < 24:
        numbers.append((numbers[-6] + 2) % 4 + 1)
    return 13 * 24, [(13 * k, number) for k, number in enumerate(numbers)]


PLANS = {plan.__name__: plan for plan in (short_locks, three_phases)}


# ---- bits that have the windows of a plan


def equations(length, windows):
    """What the windows ask: sets of places, each as a number whose bits they are, and the parity of the bits there."""
    shares = [remainder(1 << k) for k in range(BLOCK)]
    for last, number in windows:
        for row in range(10):
            places = sum(1 << (last - k) % length for k in range(BLOCK) if shares[k] >> row & 1)
            yield places, WORD_OF[number] >> row & 1


def solved(rows):
    """The same equations by their highest places, which differ: each tells its highest bit by those below."""
    by_place = {}
    for places, parity in rows:
        while places and places.bit_length() - 1 in by_place:
            other, odd = by_place[places.bit_length() - 1]
            places, parity = places ^ other, parity ^ odd
        if places:
            by_place[places.bit_length() - 1] = places, parity
        elif parity:
            raise ValueError("no bits have these windows")
    return by_place


def filled(length, by_place, seed):
    """The bits of a ring for which the equations hold, the first one first."""
    free, bits = random.Random(seed), 0
    for place in range(length):
        if place in by_place:
            places, parity = by_place[place]
            bit = parity ^ bin(places & bits).count("1") & 1
        else:
            bit = free.getrandbits(1)
        bits |= bit << place
    return [bits >> place & 1 for place in range(length)]


def windows_of(bits):
    """The valid windows of a ring, in order."""
    for last in range(len(bits)):
        block = sum(bits[(last - k) % len(bits)] << k for k in range(BLOCK))
        if number := NUMBERS[OFFSET_OF[remainder(block)]]:
            yield last, number


def ring_of(plan):
    """The bytes of the plan's ring."""
    length, windows = plan()
    by_place = solved(equations(length, windows))
    for seed in itertools.count():
        bits = filled(length, by_place, seed)
        if list(windows_of(bits)) == sorted(windows):
            return int("".join(map(str, bits)), 2).to_bytes(length // 8, "big")


def recording(name, size):
    """So many bytes of a plan."""
    ring = ring_of(PLANS[name])
    return (ring * (size // len(ring) + 1))[:size]


if __name__ == "__main__":
    sys.stdout.buffer.write(recording(sys.argv[1], int(sys.argv[2])))
