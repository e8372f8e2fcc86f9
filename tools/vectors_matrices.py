"""Matrices of whole numbers, nine row by row: the diagonalisation, points, a rotation in another basis, centrings.

Expected: D, L, R and the points are the Rust's (`ORACLE diagonals`, which has refusal 8); T⁻¹RT is by exact fractions,
also where one basis follows another; the centrings are moyo's `Centering::linear`, copied here. Refusals 3, 7 and 10 are
by document 01's words: the Rust has none of them.
"""
import random
import subprocess
from fractions import Fraction

from jobs import IDENTITY, i8
from records import case, lent, number, rooms

CENTRINGS = {
    "P": [1, 0, 0, 0, 1, 0, 0, 0, 1],
    "A": [1, 0, 0, 0, 1, 1, 0, -1, 1],
    "B": [1, 0, -1, 0, 1, 0, 1, 0, 1],
    "C": [1, -1, 0, 1, 1, 0, 0, 0, 1],
    "I": [0, 1, 1, 1, 0, 1, 1, 1, 0],
    "R": [1, 0, 1, -1, 1, 1, 0, -1, 1],
    "F": [-1, 1, 1, 1, -1, 1, 1, 1, -1],
}
# the designs of document 01, the limits of the determinant, and what lies beside refusal 8
DESIGNS = [
    [2, 0, 0, 0, 3, 0, 0, 0, 1],
    [8, 0, 0, 0, 8, 0, 0, 0, 1],
    [13, 0, 0, 0, 5, 0, 0, 0, 1],
    [-8, 0, 0, 0, 8, 0, 0, 0, 1],
    [-13, 0, 0, 0, 5, 0, 0, 0, 1],
    [4, 0, 0, 0, 4, 0, 0, 0, 4],
    [2, 0, 0, 0, 2, 0, 0, 0, 16],
    [1, 0, 0, 0, 31, 0, 0, 0, 2],
    [1, 31, 0, 31, 0, 1, 0, 1, 0],
    [1, 31, 0, 16, -15, 1, 0, 1, 0],
    [1, 31, 0, 16, -16, 1, 0, 1, 0],
    [1, 31, 0, 16, -14, 1, 0, 1, 0],
    [1, -31, 0, 16, 15, 1, 0, 1, 0],
    [1, 31, 0, -16, 15, 1, 0, 1, 0],
    [31, 0, 0, 0, 31, 0, 0, 0, 31],
    [-31, 0, 0, 0, -31, 0, 0, 0, -31],
    [31] * 9,
    [0] * 9,
]
PLAIN = list(CENTRINGS.values()) + DESIGNS + [[-x for x in m] for m in CENTRINGS.values()]
FAR = [[-128] * 9, [127] * 9, [0] * 8 + [32], [-32] + [0] * 8]


def det(m):
    a, b, c, d, e, f, g, h, i = m
    return a * (e * i - h * f) - b * (d * i - g * f) + c * (d * h - g * e)


def in_range(m):
    return max(map(abs, m)) <= 31


def any_matrix(rng, size):
    return [rng.randint(-size, size) for _ in range(9)]


def singular(rng):
    """Rank 1, rank 2, or some lines zero."""
    row = [rng.randint(-3, 3) for _ in range(3)]
    other = [rng.randint(-3, 3) for _ in range(3)]
    rows = [
        [[k * x for x in row] for k in (1, -2, 3)],
        [row, other, [x + y for x, y in zip(row, other)]],
        [row, [0, 0, 0], other],
        [[x, 0, y] for x, y in zip(row, other)],
    ][rng.randrange(4)]
    rng.shuffle(rows)
    return sum(rows, [])


def one_entry(rng):
    m = [0] * 9
    m[rng.randrange(9)] = rng.choice([-31, -7, -1, 1, 5, 31])
    return m


def outside(rng, size, entry):
    m = any_matrix(rng, size)
    m[rng.randrange(9)] = entry
    return m


def some_copies(rng, size):
    """Entries up to the size, and a determinant from 1 to 64 in magnitude."""
    while True:
        m = any_matrix(rng, size)
        if 1 <= abs(det(m)) <= 64:
            return m


def skewed(rng, diagonals=((1, 1, 1), (1, 1, 2), (1, 2, 4), (2, 3, 5), (1, 8, 8), (4, 4, 4))):
    """Large entries and a small determinant: a diagonal, with rows and columns added to each other."""
    while True:
        m = [[0] * 3 for _ in range(3)]
        for i, d in enumerate(rng.choice(diagonals)):
            m[i][i] = rng.choice([-d, d])
        for _ in range(rng.randint(3, 9)):
            i, j = rng.sample(range(3), 2)
            k = rng.choice([-3, -2, -1, 1, 2, 3])
            if rng.random() < 0.5:
                m[i] = [x + k * y for x, y in zip(m[i], m[j])]
            else:
                for row in m:
                    row[i] += k * row[j]
        m = sum(m, [])
        if in_range(m):
            return m


def diagonals(oracle, ms):
    """The line that the Rust gives for each matrix in range: D, L, R and the points; or `refused 8`."""
    ms = [m for m in ms if in_range(m)]
    lines = "".join(" ".join(map(str, m)) + "\n" for m in ms)
    run = subprocess.run([oracle, "diagonals"], input=lines.encode(), capture_output=True, check=True)
    return dict(zip(map(tuple, ms), run.stdout.decode().splitlines(), strict=True))


def snf_cases(oracle):
    rng = random.Random(20)
    ms = PLAIN + [one_entry(rng) for _ in range(12)] + [singular(rng) for _ in range(30)]
    for size, count in [(1, 50), (2, 50), (3, 50), (6, 60), (12, 50), (20, 40), (31, 40)]:
        ms += [any_matrix(rng, size) for _ in range(count)]
    ms += [outside(rng, 31, entry) for entry in [32, -32, 33, 64, 127, -127, -128, -128, 32, -33]] + FAR
    answers = diagonals(oracle, ms)
    for m in ms:
        line = answers.get(tuple(m), "refused 3")
        refused = int(line.split()[1]) if line.startswith("refused") else 0
        words = [w for w in line.split(" points")[0].split() if w not in "DLR"]
        yield case("D", [i8(m)], lent(refused, words, 27))


def points_refusal(line, m, room):
    if not in_range(m):
        return 3
    if not 1 <= abs(det(m)) <= 64:
        return 7
    if line.startswith("refused"):
        return 8
    return 10 if room < abs(det(m)) else 0


def points_cases(oracle):
    rng = random.Random(23)
    inside = list(PLAIN)
    for size, count in [(1, 40), (2, 40), (3, 40), (6, 50), (12, 30)]:
        inside += [some_copies(rng, size) for _ in range(count)]
    inside += [skewed(rng) for _ in range(60)] + [any_matrix(rng, 31) for _ in range(12)]
    far = [outside(rng, 3, entry) for entry in [32, -32, 33, 64, 127, -127, -128, 32]] + FAR
    others = [skewed(rng) for _ in range(10)]
    answers = diagonals(oracle, inside + others)
    for m in inside + far + others:
        line = answers.get(tuple(m), "")
        enough = min(abs(det(m)), 64)
        # every room for the designs and some others
        for room in rooms(enough) if m in PLAIN + far + others else [enough]:
            refused = points_refusal(line, m, room)
            words = [] if refused else line.split(" points")[1].split()
            assert refused or len(words) == 3 * abs(det(m))
            yield case("P", [i8(m), number(room)], lent(refused, words, room, 3))


def factors_cases(oracle):
    """The three diagonal numbers of C, with C's own refusals."""
    rng = random.Random(31)
    ms = PLAIN + FAR + [some_copies(rng, size) for size in (1, 2, 3, 6, 12) for _ in range(12)]
    ms += [skewed(rng) for _ in range(30)] + [any_matrix(rng, 31) for _ in range(8)]
    answers = diagonals(oracle, ms)
    for m in ms:
        line = answers.get(tuple(m), "")
        refused = points_refusal(line, m, 64)
        entries = [] if refused else [w for w in line.split(" points")[0].split() if w not in "DLR"][:9]
        yield case("F", [i8(m)], lent(refused, entries[0::4], 3))


def product(a, b):
    return [sum(a[3 * i + k] * b[3 * k + j] for k in range(3)) for i in range(3) for j in range(3)]


def inverse(m):
    """By elimination, in fractions."""
    rows = [[Fraction(x) for x in m[3 * i:3 * i + 3]] + [Fraction(i == j) for j in range(3)] for i in range(3)]
    for k in range(3):
        at = next(i for i in range(k, 3) if rows[i][k])
        rows[k], rows[at] = rows[at], rows[k]
        rows[k] = [x / rows[k][k] for x in rows[k]]
        for i in range(3):
            if i != k:
                rows[i] = [x - rows[i][k] * y for x, y in zip(rows[i], rows[k])]
    return [x for row in rows for x in row[3:]]


def rotation_case(t, r):
    refused = 3 if not (in_range(t) and in_range(r)) else 7 if abs(det(t)) != 1 else 0
    words = [] if refused else product(product(inverse(t), r), t)
    return case("T", [i8(t), i8(r)], lent(refused, words, 9))


def rotation_cases():
    rng = random.Random(29)
    one = ((1, 1, 1),)
    swap = [0, 1, 0, 1, 0, 0, 0, 0, 1]
    simple = [list(IDENTITY), swap, [-x for x in IDENTITY], [0, 0, 1, 1, 0, 0, 0, 1, 0]]
    # T⁻¹RT grows most under entries of 30 and 31
    large = [[31, 30, 0, 30, 29, 0, 0, 0, 1], [1, 31, 0, 0, 1, 31, 0, 0, 1], [31, 30, 31, 30, 29, 30, 31, 30, 30]]
    units = simple + large + [skewed(rng, one) for _ in range(30)]
    yield from (rotation_case(t, r) for t in units for r in simple + [[0] * 9, [31] * 9, [-31] * 9])
    for size in (1, 1, 2, 3, 6, 12, 31):
        yield from (rotation_case(skewed(rng, one), any_matrix(rng, size)) for _ in range(20))
    # 7 and 3, and both at once
    for t in list(CENTRINGS.values())[1:] + DESIGNS + [[2, 0, 0, 0, 1, 0, 0, 0, 1]]:
        yield from (rotation_case(t, r) for r in (swap, outside(rng, 3, 32)))
    for entry in (32, -32, 127, -128):
        yield from (rotation_case(t, r) for t, r in ((outside(rng, 3, entry), swap), (swap, outside(rng, 3, entry))))


# T, U and R of request M-111: the worked change, and T and U exchanged; a rotation between that is out of range, and
# one that just is not; an inverse, and a product TU, out of range; determinants -1
FOURFOLD = [0, -1, 0, 1, 0, 0, 0, 0, 1]
SUCCESSIVE = [
    ([1, 1, 0, 0, 1, 0, 0, 0, 1], [1, 0, 0, 1, 1, 0, 0, 0, 1], FOURFOLD),
    ([1, 0, 0, 1, 1, 0, 0, 0, 1], [1, 1, 0, 0, 1, 0, 0, 0, 1], FOURFOLD),
    ([1, 6, 0, 0, 1, 0, 0, 0, 1], [1, -6, 0, 0, 1, 0, 0, 0, 1], FOURFOLD),
    ([1, 5, 0, 0, 1, 0, 0, 0, 1], [1, -5, 0, 0, 1, 0, 0, 0, 1], FOURFOLD),
    ([1, 31, 0, 0, 1, 31, 0, 0, 1], list(IDENTITY), list(IDENTITY)),
    ([1, 31, 0, 0, 1, 0, 0, 0, 1], [1, 1, 0, 0, 1, 0, 0, 0, 1], list(IDENTITY)),
    ([0, 1, 0, 1, 0, 0, 0, 0, 1], [1, 1, 0, 0, 1, 0, 0, 0, -1], FOURFOLD),
]


def transformed(t, r):
    return [int(x) for x in product(product(inverse(t), r), t)]


def in_bytes(m):
    return max(map(abs, m)) <= 127


def two_bases(t, u, r):
    """By T and then by U, and by TU; by T and then by T⁻¹."""
    between, both, back = transformed(t, r), product(t, u), [int(x) for x in inverse(t)]
    if in_range(between) and in_range(both):
        assert transformed(u, between) == transformed(both, r)
    if in_range(between) and in_range(back):
        assert transformed(back, between) == r
    pairs = [(t, r), (u, between), (both, r), (back, between)]
    yield from (rotation_case(m, x) for m, x in pairs if in_bytes(m) and in_bytes(x))


def two_rotations(t, r, s):
    """By T: R, S and RS."""
    assert transformed(t, product(r, s)) == product(transformed(t, r), transformed(t, s))
    yield from (rotation_case(t, x) for x in (r, s, product(r, s)))


def successive(rng):
    """T, U, R and S at random, with all in range that request M-111 has in range."""
    one = ((1, 1, 1),)
    while True:
        t, u, r, s = skewed(rng, one), skewed(rng, one), any_matrix(rng, rng.choice((1, 2, 5))), any_matrix(rng, 2)
        if in_range(product(t, u)) and in_range(transformed(t, r)) and in_range(product(r, s)):
            return t, u, r, s


def successive_cases():
    rng = random.Random(111)
    for t, u, r in SUCCESSIVE:
        yield from two_bases(t, u, r)
    for t, u, r, s in (successive(rng) for _ in range(200)):
        yield from two_bases(t, u, r)
        yield from two_rotations(t, r, s)


def cases(oracle):
    yield from snf_cases(oracle)
    yield from points_cases(oracle)
    yield from factors_cases(oracle)
    yield from rotation_cases()
    yield from successive_cases()
    yield from (case("C", [letter.encode()], [letter] + m) for letter, m in CENTRINGS.items())
