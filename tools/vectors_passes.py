"""The passes of the diagonalisation of a matrix, nine entries row by row.

Expected: by the words of document 01 ("Diagonalise") and of request M-113 of document 02, written down here over whole
numbers of any size, and held to the figures that came with the request. moyo has no such function; D, L and R of every
matrix that is not refused, and which are refused with 8, are held to the Rust's (`ORACLE diagonals`).
"""
import collections
import itertools
import random
import sys

from jobs import i8
from records import case
from vectors_matrices import FAR, PLAIN, any_matrix, diagonals, in_range, one_entry, outside, singular, skewed

COUNTED = {
    (2, 0, 0, 0, 3, 0, 0, 0, 1): (1, 1, 1),
    (0, 0, 0, 0, 0, 0, 0, 0, 0): (0, 0, 0),
    (2, 4, 6, 4, 8, 12, 2, 4, 6): (2, 0, 0),
    (2, 0, 0, 0, 4, 0, 0, 0, 0): (1, 1, 0),
    (0, 1, 1, 1, 0, 1, 1, 1, 0): (2, 2, 1),
    (1, -1, 0, 1, 1, 0, 0, 0, 1): (2, 1, 1),
    (1, 1, 1, 1, 1, 1, 1, 1, 1): (2, 0, 0),
}
LEFT = {
    (1, 31, 0, 31, 0, 1, 0, 1, 0): (1, 0, 0),
    (-8, 4, -9, 9, -8, -7, 8, 2, -4): (2, 0, 0),
    (-4, -5, -5, 5, -5, -4, -6, -6, 6): (3, 1, 0),
    (2, 3, 4, 4, -2, -4, 3, -4, 4): (3, 2, 0),
}
# eleven passes of a second stage, the most that were seen with the request
LONG = (30, 30, 30, 31, 0, 31, 17, -31, 30)


class Diagonalisation:
    """D, L and R, and for each stage its first pivot and what each of its passes assigned."""

    def __init__(self, entries):
        self.d = [list(entries[3 * i:3 * i + 3]) for i in range(3)]
        self.l = [[int(i == j) for j in range(3)] for i in range(3)]
        self.r = [[int(i == j) for j in range(3)] for i in range(3)]
        self.pivots, self.stages = [], []
        for s in range(3):
            self.stage(s)

    def pivot(self, s):
        """The magnitude and place of the least entry, the first in row order; none where all are 0."""
        places = itertools.product(range(s, 3), repeat=2)
        return min(((abs(self.d[i][j]), i, j) for i, j in places if self.d[i][j]), default=None)

    def stage(self, s):
        first = self.pivot(s)
        self.pivots.append(first and first[0])
        self.stages.append([])
        while self.pivot(s):
            assigned, updated = self.one_pass(s, *self.pivot(s)[1:])
            self.stages[s].append(assigned)
            if not updated:
                return

    def one_pass(self, s, i, j):
        for m in (self.d, self.l):
            m[s], m[i] = m[i], m[s]
        for row in self.d + self.r:
            row[s], row[j] = row[j], row[s]
        assigned = []
        if self.d[s][s] < 0:
            for row in self.d + self.r:
                row[s] = -row[s]
                assigned.append(row[s])
        updated = False
        for i in range(s + 1, 3):
            k = cut(self.d[i][s], self.d[s][s])
            updated = updated or k != 0
            for m in (self.d, self.l) if k else ():
                m[i] = [x - k * y for x, y in zip(m[i], m[s])]
                assigned += m[i]
        for j in range(s + 1, 3):
            k = cut(self.d[s][j], self.d[s][s])
            updated = updated or k != 0
            for row in self.d + self.r if k else ():
                row[j] -= k * row[s]
                assigned.append(row[j])
        return assigned, updated

    def leaves(self):
        return any(not small(p) for stage in self.stages for p in stage)

    def passes(self):
        return tuple(map(len, self.stages))

    def begun(self):
        """Up to the first pass that assigns an entry outside -511..511, that one with them."""
        counts = [0, 0, 0]
        for s, stage in enumerate(self.stages):
            for assigned in stage:
                counts[s] += 1
                if not small(assigned):
                    return tuple(counts)
        return tuple(counts)


def cut(a, b):
    """The quotient, cut toward 0."""
    return abs(a) // abs(b) * (1 if (a < 0) == (b < 0) else -1)


def small(assigned):
    return all(-511 <= x <= 511 for x in assigned)


def told(m):
    """The number, 0 for none, and the counts."""
    if not in_range(m):
        return 3, ()
    run = Diagonalisation(m)
    counts = run.begun()
    # at most one more than the first pivot's magnitude, or 0 where none exists
    assert all(n <= p + 1 if p else n == 0 for n, p in zip(counts, run.pivots))
    assert run.leaves() or counts == run.passes()
    return 8 if run.leaves() else 0, counts


def passes_case(m):
    number, counts = told(m)
    return case("N", [i8(m)], (["refused", number] if number else ["accepted"]) + list(counts))


def held(oracle, ms):
    assert all(told(m) == (0, counts) for m, counts in COUNTED.items())
    assert all(told(m) == (8, counts) for m, counts in LEFT.items())
    # the starred C over ℤ, past the entry that leaves; and the longest stage
    assert Diagonalisation((1, 31, 0, 31, 0, 1, 0, 1, 0)).passes() == (2, 2, 1)
    assert Diagonalisation(LONG).passes()[1] == 11 and Diagonalisation(LONG).pivots[1] == 155
    for m, line in diagonals(oracle, ms).items():
        run = Diagonalisation(m)
        words = [w for w in line.split(" points")[0].split() if w not in "DLR"]
        ours = [str(x) for part in (run.d, run.l, run.r) for row in part for x in row]
        assert words == (["refused", "8"] if run.leaves() else ours)


def matrices():
    rng = random.Random(113)
    ms = [*COUNTED, *LEFT, LONG] + PLAIN + [one_entry(rng) for _ in range(8)] + [singular(rng) for _ in range(12)]
    for size, count in [(1, 12), (2, 12), (3, 12), (6, 24), (9, 40), (12, 40), (20, 40), (31, 60)]:
        ms += [any_matrix(rng, size) for _ in range(count)]
    ms += [skewed(rng) for _ in range(40)]
    # 3, also of matrices that would leave
    ms += FAR + [outside(rng, size, entry) for size in (1, 9, 31) for entry in (32, -32, 127, -128)]
    ms += [m[:k] + (32,) + m[k + 1:] for m in LEFT for k in (0, 4, 8)]
    return list(dict.fromkeys(tuple(m) for m in ms))


def cases(oracle):
    ms = matrices()
    held(oracle, ms)
    yield from map(passes_case, ms)


def main():
    """usage: vectors_passes.py ORACLE COUNT

    As many matrices at random are held to the Rust, and these with every one of -1..1 and of ±31 to the bound.
    """
    oracle, count = sys.argv[1], int(sys.argv[2])
    rng = random.Random(9000)
    ms = [any_matrix(rng, rng.choice((1, 2, 3, 6, 12, 20, 31))) for _ in range(count)]
    held(oracle, ms)
    ms += [*itertools.product((-1, 0, 1), repeat=9), *itertools.product((-31, 31), repeat=9)]
    numbers = collections.Counter(told(m)[0] for m in ms)
    print("%d matrices, %d accepted, %d refused with 8: none over the bound" % (len(ms), numbers[0], numbers[8]))


if __name__ == "__main__":
    main()
