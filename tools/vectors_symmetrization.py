"""Symmetrised positions and lattices.

Expected: what `ORACLE moyo --deep` prints for a job with those parts: the primitive positions, with the permutations
that it aligned to the targets as the images; the new, the primitive and the listed basis, of a job without sites.
Refusal 10, and 2 for counts that no job can have, are by document 01's words.
"""
import math

from jobs import IDENTITY, STILL, Job, answer, f64, generated, i8
from records import case, lent, listed_bytes, listed_matrices, listed_triples, number, rooms, shortened

INVERSION = tuple(-x for x in IDENTITY)
TWOFOLD = (-1, 0, 0, 0, -1, 0, 0, 0, 1)
THREEFOLD = (0, 0, 1, 1, 0, 0, 0, 1, 0)
SWAPPED = (0, 0, 1, 0, 1, 0, 1, 0, 0)
DOUBLED = (2, 0, 0, 0, 1, 0, 0, 0, 1)
ZERO = (0,) * 9
C_CENTRING = (1, -1, 0, 1, 1, 0, 0, 0, 1)
NO_SHIFT = (0.0, 0.0, 0.0)
BELOW_HALF, ABOVE_HALF = 0.49999999999999994, 0.5000000000000001
PAIR = [(0.1, 0.2, 0.3), (-0.1, -0.2, -0.3)]

# ---- positions

# kinds of the generator, each with how many of its jobs are looked at; the most images of a job taken
POSITION_KINDS = [("real", 120), ("wild", 40), ("ties", 40), ("zeros", 40), ("fault", 60)]
MOST_IMAGES = 90


def same(t, shift, sites, targets, images):
    """The operations are the targets: T has to commute with them, or be refused."""
    return Job(t=t, shift=shift, sites=sites, operations=targets, images=images, targets=targets)


def moved(*translations):
    """One position, and one target that moves it."""
    return [same(IDENTITY, NO_SHIFT, [(0.0, -0.0, 0.25)], [(IDENTITY, v)], [0]) for v in translations]


def spread(n):
    return [(i / 7.0, -i / 300.0, 0.25 * i) for i in range(n)]


POSITIONS = moved(
    # ties of rounding, and what lies beside them
    (0.5, -0.5, 0.25), (1.5, -1.5, 2.75), (2.5, -2.5, -0.75), (BELOW_HALF, -BELOW_HALF, BELOW_HALF),
    (ABOVE_HALF, -ABOVE_HALF, 0.0), (999.5, -999.5, 1000.0), (-0.0, 0.0, -0.0), (1.0, -1.0, -3.0),
    (5e-324, -5e-324, 2.2250738585072014e-308)) + [
    # zeros of both signs, through T, the shift and an inversion
    same(INVERSION, NO_SHIFT, [(0.0, -0.0, 0.0)], [STILL], [0]),
    same(IDENTITY, (-0.0, 0.0, -0.0), [(-0.0, -0.0, 0.0)], [STILL], [0]),
    same(IDENTITY, (0.25, -0.25, 0.0), [(0.25, -0.25, -0.0)], [STILL, (INVERSION, (-0.0, 0.0, 0.0))], [0, 0]),
    same((0, -1, 0, 1, 0, 0, 0, 0, -1), NO_SHIFT, [(0.0, -0.0, 0.5), (-0.0, 0.0, -0.5)],
         [STILL, (INVERSION, NO_SHIFT)], [0, 1, 1, 0]),
    # an answer of -0: the mean underflows to -0
    same(IDENTITY, NO_SHIFT, [(-0.0, -1.0, -1.0)], [(IDENTITY, (-5e-324, 0.0, 0.0)), (IDENTITY, (-0.0, 0.0, 0.0))],
         [0, 0]),
    same(IDENTITY, NO_SHIFT, [(-0.0, -1.0, -1.0)], [(IDENTITY, (5e-324, 0.0, 0.0)), (IDENTITY, (-0.0, 0.0, 0.0))],
         [0, 0]),
    # beyond 1
    same(IDENTITY, (999.5, -999.5, 0.125), [(-1000.0, 1000.0, 17.3), (3.7, -4.2, -17.3)],
         [STILL, (TWOFOLD, (0.5, 1.5, -7.0))], [0, 1, 1, 0]),
    # an inverse image that is not the image: a threefold axis and its square
    same(IDENTITY, NO_SHIFT, [(0.11, 0.2, 0.3), (0.31, 0.1, 0.2), (0.2, 0.3, 0.12)],
         [STILL, (THREEFOLD, NO_SHIFT), ((0, 1, 0, 0, 0, 1, 1, 0, 0), NO_SHIFT)], [0, 1, 2, 1, 2, 0, 2, 0, 1]),
    # equal rotations: the last one's permutation stands for both targets
    same(IDENTITY, NO_SHIFT, PAIR, [STILL, (IDENTITY, (0.5, 0.5, 0.0)), (INVERSION, NO_SHIFT)], [0, 1, 1, 0, 1, 0]),
    # the counts' limits
    same(IDENTITY, NO_SHIFT, [], [STILL], []),
    same(IDENTITY, NO_SHIFT, spread(256), [STILL], range(256)),
    same(IDENTITY, NO_SHIFT, spread(257), [STILL], [0] * 257),
    same(IDENTITY, NO_SHIFT, PAIR, [STILL, (INVERSION, (0.1, 0.0, 0.0))] * 48, [0, 1, 1, 0] * 48),
    same(IDENTITY, NO_SHIFT, PAIR, [STILL] * 97, [0, 1] * 97),
    # 2, 3, 4, 5, 7 and their order
    same(IDENTITY, NO_SHIFT, PAIR, [], []),
    same(IDENTITY, NO_SHIFT, PAIR, [((32,) + IDENTITY[1:], NO_SHIFT)], [0, 1]),
    same(IDENTITY[:8] + (-32,), NO_SHIFT, PAIR, [STILL], [0, 1]),
    same(IDENTITY, (0.0, 1000.0000000000001, 0.0), PAIR, [STILL], [0, 1]),
    same(IDENTITY, (0.0, -1000.0, 1000.0), PAIR, [STILL], [0, 1]),
    same(IDENTITY, NO_SHIFT, [PAIR[0], (0.0, 0.0, math.inf)], [STILL], [0, 1]),
    same(IDENTITY, NO_SHIFT, [(math.nan, 0.0, 0.0)], [STILL], [0]),
    same(IDENTITY, NO_SHIFT, PAIR, [STILL, (INVERSION, (0.0, 0.0, -1001.0))], [0, 1, 1, 0]),
    same(IDENTITY, NO_SHIFT, PAIR, [STILL], [0, 0]),
    same(IDENTITY, NO_SHIFT, PAIR, [STILL, (INVERSION, NO_SHIFT)], [0, 1, 1, 2]),
    same(DOUBLED, NO_SHIFT, PAIR, [STILL], [0, 1]),
    same(ZERO, NO_SHIFT, PAIR, [STILL], [0, 1]),
    same(ZERO, NO_SHIFT, PAIR, [STILL], [1, 1]),
    same(ZERO, NO_SHIFT, [(math.nan, 0.0, 0.0)], [STILL], [7]),
    same((-128,) * 9, NO_SHIFT, [(math.nan, 0.0, 0.0)], [STILL], [7]),
    same((-128,) * 9, NO_SHIFT, [(math.nan, 0.0, 0.0)], [], [7]),
]


def position_case(t, shift, positions, rotations, translations, images, room, refused, words):
    parts = [i8(t), f64(shift), listed_triples(positions), listed_matrices(rotations), listed_triples(translations)]
    return case("S", parts + [listed_bytes(images), number(room)], lent(refused, words, room, 3))


def of_job(oracle, job, every_room):
    """The job's cases, or none where a refusal that is none of the positions' comes first."""
    refused, lines = answer(oracle, job)
    rotations, translations = [m for m, _ in job.targets], [v for _, v in job.targets]
    n, images, words = len(job.sites), job.images, []
    if refused in (0, 13):
        refused = 0
        images = [int(w) for line in lines if line[0] == "aligned" for w in line[2:]]
        words = [shortened(w) for line in lines if line[0] == "primitive" for w in line[2:]]
    elif refused not in (2, 3, 4, 5, 7) or [m for m, _ in job.operations] != rotations:
        # the operations are the targets' own where a refusal stands for the call's
        return
    for room in rooms(n) if every_room else [n]:
        short = not refused and room < n
        yield position_case(job.t, job.shift, job.sites, rotations, translations, images, room,
                            10 if short else refused, [] if short else words)


def unlike_counts():
    """Targets as two lists of unlike lengths, and images other than targets × positions: 2, before all else."""
    for rotations, translations, images in [
            ([IDENTITY], [], [0, 1]), ([IDENTITY], [NO_SHIFT] * 2, [0, 1]), ([IDENTITY] * 2, [NO_SHIFT], [0, 1, 1, 0]),
            ([IDENTITY], [NO_SHIFT], [0]), ([IDENTITY], [NO_SHIFT], [0, 1, 0]), ([IDENTITY], [NO_SHIFT], []),
            ([IDENTITY] * 2, [NO_SHIFT] * 2, [0, 1]), ([], [], [0, 1]), ([(32,) * 9], [], [0, 0]),
            ([IDENTITY], [(math.nan,) * 3], [7])]:
        for t, room in [(IDENTITY, 2), (IDENTITY, 5), (ZERO, 1), ((-32,) * 9, 0)]:
            yield position_case(t, NO_SHIFT, PAIR, rotations, translations, images, room, 2, [])


def position_cases(oracle):
    for job in POSITIONS:
        yield from of_job(oracle, job, True)
    for kind, count in POSITION_KINDS:
        for at, j in enumerate(generated(oracle, 20, kind, count)):
            if len(j.sites) * len(j.targets) <= MOST_IMAGES:
                job = Job(t=j.t, shift=j.shift, sites=j.sites, operations=j.operations, images=j.images,
                          targets=j.targets)
                yield from of_job(oracle, job, at % 8 == 0)
    yield from unlike_counts()


# ---- lattices

LATTICE_KINDS = [("real", 50), ("wild", 25), ("ties", 20), ("zeros", 20), ("limits", 3), ("nosites", 10), ("fault", 40)]


def diag(x, y, z):
    return (x, 0.0, 0.0, 0.0, y, 0.0, 0.0, 0.0, z)


def row(m, i, factor):
    return tuple(factor * x if k // 3 == i else x for k, x in enumerate(m))


SKEW = (5.0, -1.25, 0.5, 0.0, 4.5, 0.75, 0.0, 0.0, 6.125)
GENERAL = (3.1, 0.2, -0.7, 0.4, 2.9, 0.1, -0.3, 0.6, 4.2)

LATTICES = [
    # right- and left-handed: a negated third row has its zeros negated too
    Job(SKEW),
    Job(row(SKEW, 2, -1.0)),
    Job(row(SKEW, 0, -1.0), c=C_CENTRING),
    Job(GENERAL, rotations=[IDENTITY, INVERSION]),
    Job(row(GENERAL, 1, -1.0), rotations=[IDENTITY, SWAPPED]),
    Job(diag(-1.0, 1.0, 1.0)),
    Job(diag(1.0, -2.0, 3.0), c=C_CENTRING),
    Job(SKEW, t=(0, 1, 0, 1, 0, 0, 0, 0, 1)),
    Job(tuple(-x for x in diag(1.0, 1.0, 1.0))),
    # the largest and small ones
    Job(diag(1e6, -1e6, 1e6)),
    Job((1e6,) * 3 + (-1e6, 1e6, 1e6) + (1e6, 1e6, -1e6)),
    Job(diag(1e-100, 1e-100, 1e-100)),
    Job(diag(2.3e-162, 1.0, 1.0)),
    Job(diag(5e-162, 1.0, 1.0), rotations=[IDENTITY, INVERSION]),
    Job(diag(1.0, 1.0, 1e-154)),
    # 12: the zero lattice, a pivot that is 0 or below, a NaN pivot
    Job(diag(0.0, 0.0, 0.0)),
    Job(diag(1.0, 0.0, 1.0)),
    Job(diag(1.0, 1.0, 0.0)),
    Job(diag(0.0, -0.0, 1.0)),
    Job((1.0, 2.0, 3.0, 2.0, 4.0, 6.0, 0.0, 0.0, 1.0)),
    Job((0.1, 0.3, 1.0, 0.1, 0.3, 2.0, 0.1, 0.3, 3.0)),
    Job((0.1, 0.7, 0.0, 0.2, 1.4, 0.0, 0.3, 2.1, 1.0)),
    Job((1.1, 2.2, 3.3, 1.1, 2.2, 3.3, 1.1, 2.2, 3.3)),
    Job(diag(1e-162, 1.0, 1.0)),
    # 12: the determinant underflows; the deformation alone is not finite
    Job(diag(1e-108, 1e-108, 1e-108)),
    Job(diag(1e-107, 1e-108, 1e-108)),
    Job(diag(1.0, 1.0, 1e-310), rotations=[IDENTITY, SWAPPED]),
    Job(diag(1.0, 1.0, -1e-310), rotations=[IDENTITY, SWAPPED]),
    Job(diag(1.0, 1.0, 1e-300), rotations=[IDENTITY, SWAPPED]),
    # 2, 3, 4, 7 and the order of them
    Job(SKEW, rotations=[]),
    Job(SKEW, rotations=[IDENTITY] * 96),
    Job(SKEW, rotations=[IDENTITY] * 97),
    Job(SKEW, rotations=[IDENTITY, (32,) + IDENTITY[1:]]),
    Job(SKEW, rotations=[IDENTITY, (31,) + IDENTITY[1:]]),
    Job(SKEW, t=IDENTITY[:8] + (-128,)),
    Job(SKEW, c=IDENTITY[:8] + (-32,)),
    Job(row(SKEW, 0, math.inf)),
    Job((math.nan,) + SKEW[1:]),
    Job(SKEW[:8] + (math.nextafter(1e6, math.inf),)),
    Job(SKEW[:3] + (-math.nextafter(1e6, math.inf),) + SKEW[4:]),
    Job(SKEW, t=DOUBLED),
    Job(SKEW, t=ZERO),
    Job(SKEW, c=ZERO),
    Job(SKEW, c=(13, 0, 0, 0, 5, 0, 0, 0, 1)),
    Job(SKEW, c=(8, 0, 0, 0, -8, 0, 0, 0, 1)),
    Job((math.nan,) * 9, t=(32,) * 9, rotations=[]),
    Job((math.nan,) * 9, t=(32,) * 9),
    Job((math.nan,) * 9, t=ZERO),
    Job(diag(0.0, 0.0, 0.0), c=ZERO),
]


def lattice_cases(oracle):
    jobs = list(LATTICES)
    for kind, count in LATTICE_KINDS:
        jobs += [Job(j.lattice, j.t, c=j.c, rotations=j.rotations) for j in generated(oracle, 20, kind, count)]
    for job in jobs:
        refused, lines = answer(oracle, job)
        # a refusal that is none of the lattice's comes first
        if refused in (0, 2, 3, 4, 7, 12):
            of = {line[0]: line[1:] for line in lines}
            words = [] if refused else map(shortened, of["new-basis"] + of["primitive-basis"] + of["listed-basis"])
            parts = [f64(job.lattice), i8(job.t), i8(job.c), listed_matrices(job.rotations)]
            yield case("L", parts, lent(refused, list(words), 27))


def cases(oracle):
    yield from position_cases(oracle)
    yield from lattice_cases(oracle)
