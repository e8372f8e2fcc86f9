"""Document 01's sentences on labels, the fit and letters, and its refusals of the calls on sites, as Python. Read by
site_vectors.py and match_vectors.py, which hold them to the Rust on every design; what no job can show is by them
alone.

A prepared candidate is (M, q, D, L, R), the matrices nine whole numbers row by row.
"""
import itertools
import math
import subprocess

from vectors_coordinates import read
from vectors_matrices import det, in_range

INNER = list(itertools.product((-1, 0, 1), repeat=3))
OFFSETS = INNER + [o for o in itertools.product(range(-2, 3), repeat=3) if o not in INNER]


class Diagonals:
    """D, L and R of a matrix, or nothing for refusal 8: the Rust's, each asked for once."""

    def __init__(self, oracle):
        self.oracle, self.known = oracle, {}

    def of(self, m):
        m = tuple(m)
        if m not in self.known:
            line = " ".join(map(str, m)) + "\n"
            run = subprocess.run([self.oracle, "diagonals"], input=line.encode(), capture_output=True, check=True)
            words = run.stdout.decode().split()
            self.known[m] = None if words[0] == "refused" else tuple(
                [int(w) for w in words[1 + 10 * k:10 + 10 * k]] for k in range(3))
        return self.known[m]

    def space(self, text):
        """The prepared candidate of 64 bytes, or the number of its refusal."""
        found = read(text)
        if found is None:
            return 6
        snf = self.of(found[0])
        return 8 if snf is None else (found[0], found[1], *snf)


# ---- the fit

def times(m, v):
    """Row sums, each product and sum rounded once, left to right, beginning with the first product."""
    return [(float(m[3 * i]) * v[0] + float(m[3 * i + 1]) * v[1]) + float(m[3 * i + 2]) * v[2] for i in range(3)]


def distance(basis, space, p, o):
    m, q, d, l, r = space
    b = times(l, [(float(o[i]) + p[i]) - q[i] for i in range(3)])
    y = times(r, [b[i] / float(d[4 * i]) if d[4 * i] else 0.0 for i in range(3)])
    moved = times(m, y)
    x, y, z = times(basis, [((moved[i] + q[i]) - p[i]) - float(o[i]) for i in range(3)])
    return math.sqrt((x * x + y * y) + z * z)


def distances(basis, space, p):
    return [distance(basis, space, p, o) for o in OFFSETS]


def match(basis, space, p, symprec):
    """Place and distance of the first offset that fits, or nothing."""
    for place, o in enumerate(OFFSETS):
        found = distance(basis, space, p, o)
        if found < symprec:
            return place, found
    return None


# ---- labels and letters

def labels(permutations, mapping):
    """The first listed site whose primitive site is joined by the permutations, either way, in any number of steps."""
    def joined(site):
        found, new = {site}, [site]
        while new:
            i = new.pop()
            for p in permutations:
                for j in (p[i], p.index(i)):
                    if j not in found:
                        found.add(j)
                        new.append(j)
        return found

    sets = {i: joined(i) for i in set(mapping)}
    return [min(k for k, j in enumerate(mapping) if j in sets[i]) for i in mapping]


def multiplicities(ls):
    return [ls.count(l) for l in ls]


def letters(ls, positions, basis, candidates, symprec):
    """Of each orbit, that of the first candidate that its first site that fits one fits; nothing where one has none.
    A candidate is a multiplicity, a letter and its space."""
    of = {}
    for label in set(ls):
        own = [c for c in candidates if c[0] == ls.count(label)]
        sites = [p for l, p in zip(ls, positions) if l == label]
        fits = (c[1] for p in sites for c in own if match(basis, c[2], p, symprec))
        of[label] = next(fits, None)
    return None if None in of.values() else [of[l] for l in ls]


# ---- refusals: the lowest number of those that apply

def within(limit, values):
    return all(math.isfinite(v) and abs(v) <= limit for v in values)


def not_some(n):
    return n == 0 or n > 96


def is_permutation(p):
    return sorted(p) == list(range(len(p)))


def permutations_of(n, k, images):
    return [images[o * n:(o + 1) * n] for o in range(k)]


def bad_counts(n, k, images):
    return n > 256 or not_some(k) or len(images) != k * n


def bad_images(n, k, images):
    return not all(map(is_permutation, permutations_of(n, k, images)))


def lowest(conditions):
    """Conditions are looked at in the order of their numbers: one may make no sense where an earlier one holds."""
    return next((number for number, applies in conditions if applies()), 0)


def align_refusal(t, rotations, images, n, targets, room):
    return lowest([
        (2, lambda: bad_counts(n, len(rotations), images) or not_some(len(targets))),
        (3, lambda: not all(map(in_range, [t, *rotations, *targets]))),
        (5, lambda: bad_images(n, len(rotations), images)),
        (7, lambda: abs(det(t)) != 1),
        (10, lambda: room < n * len(targets))])


def list_refusal(diagonals, c, elements, positions, rooms):
    n = len(positions)
    return lowest([
        (2, lambda: n > 256 or len(elements) != n),
        (3, lambda: not in_range(c)),
        (4, lambda: not all(within(1000, p) for p in positions)),
        (7, lambda: not 1 <= abs(det(c)) <= 64),
        (8, lambda: diagonals.of(c) is None),
        (9, lambda: n * abs(det(c)) > 1024),
        (10, lambda: min(rooms) < n * abs(det(c)))])


def bad_sites(n, k, images, mapping):
    return bad_images(n, k, images) or any(i >= n for i in mapping)


def label_refusal(n, k, images, mapping, rooms):
    return lowest([
        (2, lambda: bad_counts(n, k, images)),
        (5, lambda: bad_sites(n, k, images, mapping)),
        (9, lambda: len(mapping) > 1024),
        (10, lambda: min(rooms) < len(mapping))])


def match_refusal(basis, p, space, symprec):
    return lowest([
        (4, lambda: not (within(1e6, basis) and within(1000, p) and within(1000, [symprec]) and symprec > 0)),
        (6, lambda: space == 6),
        (8, lambda: space == 8)])


def letter_refusal(spaces, n, k, images, mapping, positions, basis, counts, symprec, rooms):
    """`counts` are the numbers of multiplicities, letters and texts."""
    return lowest([
        (2, lambda: bad_counts(n, k, images) or counts[2] > 64 or len(set(counts)) > 1
         or len(mapping) != len(positions)),
        (4, lambda: not (within(1e6, basis) and all(within(1000, p) for p in positions) and within(1000, [symprec])
                         and symprec > 0)),
        (5, lambda: bad_sites(n, k, images, mapping)),
        (6, lambda: 6 in spaces),
        (8, lambda: 8 in spaces),
        (9, lambda: len(mapping) > 1024),
        (10, lambda: min(rooms) < len(mapping))])
