"""Permutations of sites: identity, image, inverse, product.

Expected: by document 01's words; the Rust has none of the refusals.
"""
import random

from records import MUCH, case, lent, listed_bytes, number, rooms


def is_permutation(p):
    return sorted(p) == list(range(len(p)))


def refusal(n, permutations, room):
    """2: over 256 sites, or unequal lengths; 5: an image repeated or out of range; 10: the room is short."""
    if n > 256 or any(len(p) != n for p in permutations):
        return 2
    if not all(map(is_permutation, permutations)):
        return 5
    return 10 if room < n else 0


def identity(n, room):
    refused = refusal(n, [], room)
    return case("i", [number(n), number(room)], lent(refused, [] if refused else range(n), room))


def image(p, site):
    refused = refusal(len(p), [p], len(p)) or (5 if site >= len(p) else 0)
    return case("a", [listed_bytes(p), number(site)], ["refused", refused] if refused else [p[site]])


def inverse(p, room):
    refused = refusal(len(p), [p], room)
    images = [] if refused else [p.index(i) for i in range(len(p))]
    return case("v", [listed_bytes(p), number(room)], lent(refused, images, room))


def product(p, q, room):
    """p after q."""
    refused = refusal(len(p), [p, q], room)
    images = [] if refused else [p[i] for i in q]
    return case("x", [listed_bytes(p), listed_bytes(q), number(room)], lent(refused, images, room))


def shuffled(rng, n):
    p = list(range(n))
    rng.shuffle(p)
    return p


def broken(rng, n):
    """An image repeated; just out of range; far out of range."""
    p, q, r = shuffled(rng, n), shuffled(rng, n), shuffled(rng, n)
    p[rng.randrange(n)] = p[0] if n > 1 else 1
    q[rng.randrange(n)] = min(n, 255)
    r[rng.randrange(n)] = 255
    return [x for x in (p, q, r) if not is_permutation(x)]


def cases(oracle):
    rng = random.Random(31)
    for n in (0, 1, 2, 3, 5, 16, 255, 256, 257, 300, 65535):
        yield from (identity(n, room) for room in rooms(min(n, MUCH)))
    sizes = [0, 1, 2, 2, 3, 3, 3, 5, 5, 8, 13, 24, 100, 255, 256]
    for p, q in [([1, 0, 2, 4, 3], [1, 0, 2, 4, 3]), ([1, 2, 0], [1, 0, 2]), ([1, 0, 2], [1, 2, 0])] + [
            (shuffled(rng, n), shuffled(rng, n)) for n in sizes]:
        n = len(p)
        yield from (image(p, site) for site in dict.fromkeys([*range(min(n, 6)), max(n - 1, 0), n, n + 1, 255, 65535]))
        for room in rooms(n):
            yield inverse(p, room)
            yield product(p, q, room)
    # 5, and 5 with 10
    for n in (1, 2, 3, 5, 24, 256):
        good = shuffled(rng, n)
        for p in broken(rng, n):
            yield from (image(p, site) for site in (0, n - 1, n))
            for room in (n, n + 2, n - 1):
                yield from (inverse(p, room), product(p, good, room), product(good, p, room), product(p, p, room))
    # 2, with 5 and 10: over 256 entries an image is out of range of a byte, so one is repeated
    for n in (257, 300):
        p = [i % 256 for i in range(n)]
        yield from (image(p, 0), image(p, n), inverse(p, n), inverse(p, 0))
        yield from (product(p, p, n), product(p, [], 0), product([], p, n))
    for p, q in [([0], []), ([], [0]), ([0, 1], [0]), ([1, 0], [2, 1, 0]), ([0, 0], [0, 0, 0]), ([7], [7, 7])]:
        yield from (product(p, q, room) for room in (3, 0))
