"""The permutation made by rules from a seed, and a step of its state.

Expected: by the words of request M-101 of document 02, written down here, and held to the figures that came with it; moyo
has no such function. 2 and 10 are by the request's and document 01's words.
"""
import random
import struct
import zlib

from records import MUCH, case, lent, number, rooms, size

STATES = {0: 0x3C6EF35F, 1: 0x3C88596C, 42: 0x4099B181, 0xFFFFFFFF: 0x3C558D52}
LISTS = {
    (0, 0): "", (0, 1): "0", (0, 2): "1 0", (1, 2): "1 0", (2, 2): "0 1", (0, 4): "3 0 1 2",
    (0, 5): "3 1 2 4 0", (1, 5): "3 2 4 0 1", (42, 5): "0 1 4 3 2", (0xFFFFFFFF, 5): "2 1 4 3 0",
    (0, 8): "3 7 1 5 4 2 0 6", (1, 8): "6 2 3 5 7 4 1 0", (42, 8): "4 5 7 3 6 2 0 1",
}
CRCS = {0: 0x642F907F, 1: 0x08622271, 42: 0x0D0BC691, 0xFFFFFFFF: 0x8DC0928D, 3735928559: 0xB4431F4A}


def step(state):
    """Both cut to 32 bits."""
    return (state * 1664525 % 2**32 + 1013904223) % 2**32


def shuffled(seed, n):
    entries = list(range(n))
    for i in range(n - 1, 0, -1):
        seed = step(seed)
        j = (seed >> 16) % (i + 1)
        entries[i], entries[j] = entries[j], entries[i]
    return entries


def word(x):
    return struct.pack("<I", x)


def step_case(state):
    return case("t", [word(state)], [step(state)])


def shuffle_case(seed, n, room):
    """2: n over 256; 10: the room is short."""
    refused = 2 if n > 256 else 10 if room < n else 0
    return case("h", [word(seed), size(n), number(room)], lent(refused, [] if refused else shuffled(seed, n), room))


def held():
    assert all(step(state) == after for state, after in STATES.items())
    assert all(shuffled(*key) == [int(x) for x in entries.split()] for key, entries in LISTS.items())
    assert all(zlib.crc32(bytes(shuffled(seed, 256))) == crc for seed, crc in CRCS.items())
    # the first seed whose sum passes 32 bits, and the first whose product does
    assert [s * 1664525 % 2**32 + 1013904223 >= 2**32 for s in (1971, 1972)] == [False, True]
    assert [s * 1664525 >= 2**32 for s in (2580, 2581)] == [False, True]


def cases(oracle):
    held()
    rng = random.Random(101)
    seeds = [*CRCS, 2, 7, 1971, 1972, 2580, 2581, 2**31 - 1, 2**31] + [rng.getrandbits(32) for _ in range(7)]
    yield from (step_case(state) for state in seeds + [rng.getrandbits(32) for _ in range(80)])
    yield from (shuffle_case(seed, n, n) for seed in seeds for n in (0, 1, 2, 3, 4, 5, 8, 16, 255, 256))
    # every n once, of another seed each
    yield from (shuffle_case(rng.getrandbits(32), n, n) for n in range(257))
    # other rooms, 10, 2, and 2 with 10
    for n in (0, 1, 2, 5, 8, 255, 256, 257, 258, 65535, 2**32, 2**64 - 1):
        yield from (shuffle_case(42, n, room) for room in dict.fromkeys(rooms(min(n, MUCH)) + [257, MUCH]))
