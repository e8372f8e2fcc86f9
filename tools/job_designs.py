"""Whole jobs on purpose: the designs of document 01, both sides of each limit, the smallest jobs that tell two readings
of its sentences apart, faults of each number, damaged bytes, and the largest jobs. Read by job_vectors.py; what each is
answered with comes from the Rust.

A design is a change to the plain job: L, T and C the identity, shift 0, one site (63, at 0,0,0), the identity as the
only operation, target and rotation, one candidate (1, `a`, `x,y,z`), symprec 0.001.
"""
import math
import struct

from jobs import IDENTITY, STILL, Job
from site_vectors import BOTH, DOUBLED, EIGHT, INVERSION, MIRROR, ON_THE_WAY, ORIGIN, SHEAR, SQUARED, STARRED
from site_vectors import THREEFOLD, ZERO, candidate, cycle, first, flat, last, longer, sets, shorter, spares
from vectors_coordinates import padded
from vectors_matrices import CENTRINGS, det
from vectors_symmetrization import SWAPPED, diag

GENERAL = candidate(1, "a", "x,y,z")
PLAIN = dict(sites=[ORIGIN], images=[0], candidates=[GENERAL])
TINY = 5e-324
STARRED_EIGHT = (1, 31, 0, 31, 0, 1, 0, 1, 0)
WIDE = (31, 30, 0, 1, 1, 0, 0, 0, 1)
ABOVE = {limit: math.nextafter(limit, 2 * limit) for limit in (1000.0, 1000000.0)}


def job(**changes):
    return Job(**{**PLAIN, **changes})


def texts(*strings):
    """The plain job with this string for its candidate's coordinates, and as a second candidate that nothing tries."""
    for s in strings:
        yield job(candidates=[candidate(1, "a", s)])
        yield job(candidates=[GENERAL, candidate(9, "b", s)])


def at(*positions, **changes):
    n = len(positions)
    return job(sites=list(positions), images=list(range(n)) * len(changes.get("operations", [STILL])), **changes)


def copied(c, **changes):
    """A cell of |det C| copies of its site, with a candidate that all of them fit."""
    return job(c=c, candidates=[candidate(abs(det(c)), "a", "x,y,z")], **changes)


def motion(rotation, translation=ORIGIN):
    return rotation, translation


def whole(x, y, z):
    return x, 0, 0, 0, y, 0, 0, 0, z


def entry(m, k, value):
    return tuple(value if i == k else x for i, x in enumerate(m))


COPIES = whole(8, 8, 1)

# ---- document 01's designs and traps

WORKED = [
    copied(CENTRINGS["C"]), job(), job(sites=[], images=[]),
    at(*[ORIGIN] * 5, c=CENTRINGS["C"], candidates=[candidate(4, "b", "x,y,z"), candidate(2, "a", "x,y,z")]),
    job(c=CENTRINGS["C"], sites=[ORIGIN] * 5, images=STARRED,
        candidates=[candidate(4, "b", "x,y,z"), candidate(2, "a", "x,y,z")]),
    at(ORIGIN, ORIGIN, candidates=[candidate(2, "a", "x,y,z")]), job(sites=[ORIGIN] * 2, images=[0, 0]),
    copied(whole(2, 3, 1)), job(c=STARRED_EIGHT), copied(COPIES), copied(whole(13, 5, 1)), at((-1.25, -1.0, 1.25)),
    at((0.25, 0.0, 0.0), candidates=[candidate(1, "a", "0,0,0")], symprec=0.25),
    at((0.25, 0.0, 0.0), candidates=[candidate(1, "a", "0,0,0")], symprec=math.nextafter(0.25, 1)),
    *texts("-x,2x,1/2", "x,y", "+x,y,z"),
    # wrapping early; the first duplicate; the lowest site only; 27 offsets only
    at((-0.5, 0.0, 0.0), candidates=[candidate(1, "o", "3/2,0,0")]),
    at((-0.5, 0.0, 0.0), candidates=[candidate(1, "o", "5/2,0,0")]),
    *[job(sites=[ORIGIN] * 2, operations=[STILL] * 2, images=images, candidates=[GENERAL, candidate(2, "b", "x,y,z")])
      for images in ([1, 0, 0, 1], [0, 1, 1, 0])],
    job(sites=[(0.75, 0.1, 0.1), (-0.75, -0.1, -0.1)], operations=BOTH, targets=BOTH, images=[0, 1, 1, 0],
        rotations=[IDENTITY, INVERSION], candidates=[candidate(2, "l", "-2-3/4,-1/9,-x")], symprec=0.02),
    at((0.25, 0.0, 0.0), candidates=[candidate(1, "o", "9/4,0,0")]),
    at((0.4, 0.0, 0.0), candidates=[candidate(1, "a", "0,0,0")], symprec=1.0),
    # ties: round goes away from zero, and keeps the sign of zero
    *[at((x, 0.0, 0.0), targets=[motion(IDENTITY, (y, 0.0, 0.0)), STILL])
      for x, y in ((0.0, 0.5), (0.0, -0.5), (0.0, 2.5), (-0.0, -0.3), (-0.0, -0.4))],
]

# ---- readings

C_ROWS = (-1, 0, 0, 0, 0, -1, 0, -1, 0)
ROWS = (1, 2, 0, 0, 1, 0, 0, 0, 1)
CYCLES = [IDENTITY, THREEFOLD, SQUARED]
MIRRORS = [IDENTITY, MIRROR, whole(1, -1, 1), whole(1, 1, -1)]
READINGS = [
    # C⁻¹ by whole cofactors: signs of zero in the bases and in positions
    *[copied(CENTRINGS[name], lattice=lattice) for name in "ABCI" for lattice in (diag(1, 1, -1), IDENTITY)],
    copied(CENTRINGS["R"], lattice=diag(1, 1, -1)), copied(CENTRINGS["F"], lattice=diag(1, 1, -1)),
    job(c=C_ROWS), job(c=whole(-1, 1, 1)), at((0.25, -0.5, 1.0), c=C_ROWS),
    job(t=INVERSION, c=C_ROWS), job(t=(0, 1, 0, 1, 0, 0, 0, 0, 1), sites=[(-0.0, 0.25, -1.0)]),
    # a summed coefficient is the final one
    *texts("9x+9x+9x+9x-9x,y,z", "9x+9x+9x+5x-x,y,z", "9x+9x+9x+5x,y,z", "9x+9x+9x+4x,y,z", "x,-9y-9y-9y-4y,z",
           "x,-9y-9y-9y-5y,z"),
    # a candidate that no orbit tries: 6 and 8 of it, and 511 passes
    job(candidates=[GENERAL, (9, 98, EIGHT)]), job(candidates=[GENERAL, candidate(999, "b", "")]),
    *texts("x+9y+9y+9y+4y,9x+7x-9y-6y+z,y", "x+9y+9y+9y+4y,9x+7x-9y-7y+z,y", "-9y+6z,9y+5y+9z,9z",
           "3x+3y-4z,x-4y-4z,-4x-4y-4z", "5x-7y+5z,-7x-2y+6z,7x+8y+6z"),
    # no sites: every condition as ever
    *[job(sites=[], **{"images": [], **changes}) for changes in (
        dict(lattice=ZERO), dict(targets=[motion(MIRROR)]), dict(candidates=[candidate(1, "a", "")]),
        dict(candidates=[(9, 98, EIGHT)]), dict(operations=[]), dict(images=[0]), dict(operations=[STILL] * 2),
        dict(candidates=[]), dict(c=STARRED_EIGHT), dict(c=ZERO), dict(lattice=ZERO, targets=[motion(MIRROR)]),
        dict(c=COPIES), dict(rotations=[entry(IDENTITY, 0, 32)]), dict(symprec=-0.0), dict(t=ZERO))],
    # 12: the old determinant, pivots however small, a deformation that is not finite
    *[job(lattice=diag(a, a, a), rotations=[IDENTITY, ZERO]) for a in (1.7e-108, 1e-108, 1e-110)],
    *[job(lattice=diag(a, a, a)) for a in (1.7e-108, 1e-108, 1e-110)],
    *[job(lattice=diag(1, 1, z), rotations=CYCLES) for z in (TINY, 1e-300)],
    *[job(lattice=diag(1, 1, z), rotations=[IDENTITY, SWAPPED]) for z in (1e-310, 1e-300)],
    job(lattice=diag(2.3e-162, 1, 1)), job(lattice=diag(1e-163, 1, 1)), job(rotations=[ZERO]),
    # rows and columns of C, O, G, R; T⁻¹RT is not TRT⁻¹
    at((0.5, 0.25, 0.0), c=ROWS), at((0.5, 0.25, 0.0), c=(1, 0, 0, 2, 1, 0, 0, 0, 1)),
    *[job(t=SHEAR, operations=[motion(MIRROR)], targets=[motion(m)])
      for m in ((-1, -2, 0, 0, 1, 0, 0, 0, 1), (-1, 2, 0, 0, 1, 0, 0, 0, 1), (-1, 0, 0, -2, 1, 0, 0, 0, 1))],
    *[at((0.25, 0.125, 0.5), operations=[motion(m)], targets=[motion(m)])
      for m in (SHEAR, (1, 0, 0, 1, 1, 0, 0, 0, 1), THREEFOLD)],
    *[job(rotations=[IDENTITY, m]) for m in (SHEAR, (1, 0, 0, 1, 1, 0, 0, 0, 1))],
    # left-handed lattices; the old determinant is that of the lattice times T, then C
    job(lattice=diag(1, 1, -1)), job(t=MIRROR), job(c=MIRROR),
    job(t=MIRROR, lattice=diag(-1, 1, 1)), job(lattice=(2, 0, 0.5, 0, 3, 0, 0, 0, -4), t=(0, 1, 0, 1, 0, 0, 0, 0, 1)),
    # of determinants whose sign in floats is not that of the exact number
    *[job(lattice=m, rotations=MIRRORS) for m in ((0.2, 0.1, 0.2, 0.1, 0.1, 0.3, 0.3, 0.2, 0.5),
                                                  (0.2, 0.2, 0.2, 0.1, 0.3, 0.2, 0.3, 0.5, 0.4))],
    # the norm is the root of (a² + b²) + c², in that order
    *[at(p, candidates=[candidate(1, "a", "0,0,0")], symprec=s)
      for p, s in (((0.05, 0.1, 0.25), 0.2738612787525831), ((0.05, 0.3, 0.4), 0.5024937810560446))],
    # -0 as a listed and as a primitive coordinate
    at((-1.0, 0.0, 0.0)), at((-0.0, -0.0, -0.0)), at((-2.0, -0.5, -3.0), c=MIRROR),
    at((-0.0, -0.0, -0.0), targets=[STILL, motion(IDENTITY, (-TINY, 0.0, 0.0))]),
    # 8 of C counts what is assigned on the way
    *[job(c=c) for c in (ON_THE_WAY, (1, 31, 0, 16, -15, 1, 0, 1, 0), (1, 31, 0, 16, -16, 1, 0, 1, 0),
                         (-5, 6, -4, 6, 4, -5, 3, -3, 3))],
    # sites before candidates; duplicates of candidates; multiplicities that no orbit has
    *[job(sites=[(0.25, 0.0, 0.0), (-0.25, 0.0, 0.0)], operations=BOTH, targets=BOTH, images=[0, 1, 1, 0],
          rotations=[IDENTITY, INVERSION], candidates=[candidate(2, "ef"[k], text) for k, text in enumerate(pair)])
      for pair in (("-1/4,0,0", "1/4,0,0"), ("1/4,0,0", "-1/4,0,0"), ("3/4,0,0", "x,y,z"), ("7/4,0,0", "x,y,z"))],
    job(candidates=[candidate(1, letter, "x,y,z") for letter in "ab"]), job(candidates=[]),
    job(candidates=[candidate(m, "b", "x,y,z") for m in (0, 2, 65535)]),
    job(candidates=[candidate(m, "b", "x,y,z") for m in (0, 65535)] + [GENERAL]),
    # an operation that no target takes joins nothing, and nor does an earlier duplicate
    *[job(sites=[ORIGIN] * 2, operations=operations, images=[0, 1, 1, 0], targets=targets,
          candidates=[GENERAL, candidate(2, "b", "x,y,z")])
      for operations, targets in ((BOTH, [STILL]), (BOTH, BOTH), ([STILL] * 2, [STILL]), (BOTH, [motion(INVERSION)]))],
    # checked though unused
    job(operations=[motion(MIRROR, (math.nan, 0.0, 0.0)), STILL], images=[0, 0]),
    job(operations=[motion(entry(MIRROR, 3, 32)), STILL], images=[0, 0]),
    job(operations=[motion(MIRROR), STILL], images=[1, 0]),
    # not checked: elements, letters, whether T⁻¹RT is in range, whether targets or rotations are a group or invertible
    at(*[ORIGIN] * 5, elements=[2 ** 31 - 1, -2 ** 31, 0, -1, 65536]),
    *[job(candidates=[candidate(1, letter, "x,y,z")]) for letter in (0, 10, 13, 32, 47, 127, 128, 255)],
    job(t=(1, 31, 0, 0, 1, 0, 0, 0, 1), operations=[motion(MIRROR), STILL], images=[0, 0]),
    job(operations=[motion(ZERO)], targets=[motion(ZERO, (0.25, 0.5, 0.75))], rotations=[(31,) * 9, IDENTITY]),
    job(targets=[motion(IDENTITY, (0.5, 0.0, 0.0)), STILL, STILL]), job(targets=[STILL] * 96),
    # what is worked out may pass the limits of what is given
    at((1000.0, 0.0, 0.0), shift=(-1000.0, 0.0, 0.0)), copied(COPIES, lattice=diag(1e6, 1e6, 1e6)),
    at((0.0, 0.0, 2.0), t=(1, 31, 0, 0, 1, 31, 0, 0, 1)),
    # positions are symmetrised from the unsymmetrised ones, by the inverse image
    job(sites=[(0.1, 0.0, 0.0), (0.4, 0.0, 0.0), (0.6, 0.0, 0.0)], images=[1, 2, 0, 0, 1, 2, 2, 0, 1],
        operations=[motion(THREEFOLD), STILL, motion(SQUARED)], targets=[STILL, motion(THREEFOLD), motion(SQUARED)],
        rotations=CYCLES, candidates=[candidate(3, "c", "x,y,z")]),
    # points are not reduced, and D is not sorted
    *[copied(c) for c in ((3, 1, 2, -1, 4, 0, 2, -3, 5), (2, 1, 0, -1, 2, 0, 0, 0, 1), whole(6, 4, 1), WIDE)],
]

# ---- the grammar

GRAMMAR = list(texts(
    "0x,y,z", "-0,y,z", "0/3,y,z", "9/1,y,z", "x-x+y-y,y,z", " x , - y , 1 / 2 ", "2 x,y,z", "9+9+9,y,z",
    "x,y,z" + 7 * "+1/2-1/3" + "+0x", "x,y,z" + 7 * "+1/2-1/3" + "+x+", "x\t,y,z", "X,y,z", "", "1/2x,y,z", "x2,y,z",
    "x/2,y,z", "2*x,y,z", "00,y,z", "--x,y,z", "w,y,z", ",y,z", "x,,z", "x+,y,z", "x+-y,y,z", "12,y,z", "12x,y,z",
    "1/12,y,z", "0.5,y,z", "1/0,y,z", "1 2,y,z", "x,y,z,", "x,y,z,x")) + [
    job(candidates=[(1, 97, b"x,y,z".ljust(64, pad))]) for pad in (b"\0", b"\t", b"\n")]

# ---- both sides of each limit: T, C, O, G, R; the floats; counts; sizes

LIMITS = [
    job(t=WIDE), job(t=entry(WIDE, 8, 2)), job(t=ZERO), job(c=ZERO), job(c=(1, 2, 3, 4, 5, 6, 7, 8, 9)),
    *[job(**{name: entry(IDENTITY, *to)}) for name in "tc" for to in ((1, 31), (1, 32), (3, -31), (3, -32), (0, -128))],
    *[job(operations=[motion(entry(IDENTITY, k, e)), STILL], images=[0, 0])
      for k in (0, 4, 8) for e in (31, 32, -31, -32)],
    *[job(operations=[motion(m)], targets=[motion(m)]) for m in (entry(ZERO, 8, 31), entry(ZERO, 8, -31))],
    *[job(targets=[STILL, motion(entry(IDENTITY, 2, e))]) for e in (31, 32, -32, 127)],
    *[job(rotations=[IDENTITY, entry(ZERO, 6, e)]) for e in (31, 32, -31, -32, -128)],
    copied(whole(4, 4, 4)), copied((3, -2, 0, 2, 3, 0, 0, 0, 5)), copied(whole(-8, 8, 1)), copied(whole(-13, 5, 1)),
    *[job(lattice=diag(1, x, 1)) for x in (1e6, ABOVE[1e6], -1e6, -ABOVE[1e6], math.inf, math.nan)],
    *[job(**{name: value((0.0, x, 0.0))})
      for name, value in (("shift", tuple), ("sites", lambda p: [p]), ("operations", lambda p: [motion(IDENTITY, p)]),
                          ("targets", lambda p: [motion(IDENTITY, p)]))
      for x in (1000.0, ABOVE[1000.0], -1000.0, -ABOVE[1000.0], -math.inf, math.nan)],
    *[job(symprec=s) for s in (1000.0, ABOVE[1000.0], TINY, 0.0, -0.0, -0.001, math.inf, math.nan)],
    *[job(**{name: []}) for name in ("operations", "targets", "rotations")],
    job(operations=[STILL] * 96, images=[0] * 96), job(operations=[STILL] * 97, images=[0] * 97),
    job(targets=[STILL] * 97), job(rotations=[IDENTITY] * 96), job(rotations=[IDENTITY] * 97),
    job(candidates=[candidate(1, "a", "1/7,x,0")] * 63 + [candidate(1, "b", "x,y,z")]), job(candidates=[GENERAL] * 65),
    job(images=[]), job(images=[0, 0]), job(images=[1]), job(images=[255]),
    job(sites=[ORIGIN] * 2, operations=BOTH, images=[0, 1, 1, 1]),
    *[copied(COPIES, sites=[ORIGIN] * n, images=range(n)) for n in (16, 17)],
    # 256 sites of 4 copies and of 5; 257 sites
    *[job(c=(m, 0, 0, 0, 1, 0, 0, 0, 1), sites=[(i / 512, -i / 3, 0.5) for i in range(256)], images=images,
          candidates=[candidate(count * m, "q", text), candidate(m * count, "r", "x,y,z")])
      for m in (4, 5) for images, count, text in ((range(256), 1, "x,0,1/2"), (cycle(256), 256, "0,1/3,1/2"))],
    job(sites=[ORIGIN] * 257, images=[i % 256 for i in range(257)]),
]

# ---- faults: a number, and what it does to a copy of the arguments

# two sites that an inversion exchanges; `tail` is put behind the bytes, nothing cuts the last one
GOOD = dict(sites=[(0.25, 0.0, 0.0), (-0.25, 0.0, 0.0)], elements=[63, 63], operations=BOTH, targets=BOTH,
            images=[0, 1, 1, 0], rotations=[IDENTITY], candidates=[candidate(2, "e", "3/4,0,0")], tail=b"",
            spare=[0] * 8)
MANY = [ORIGIN] * 17
FAULTS = [
    (1, sets(tail=b"Z")), (1, sets(tail=b"\n")), (1, sets(tail=None)),
    (2, longer("images", 0)), (2, shorter("images")), (2, sets(targets=[])), (2, sets(rotations=[])),
    (2, sets(operations=[])), (2, sets(candidates=[GENERAL] * 65)),
    (3, longer("rotations", (32,) + ZERO[1:])), (3, sets(t=(1, -32) + IDENTITY[2:])), (3, sets(c=(-128,) * 9)),
    (3, longer("targets", (ZERO[:8] + (127,), ORIGIN))), (3, last("operations", ((-32,) + ZERO[1:], ORIGIN))),
    (4, sets(shift=(0.0, math.nan, 0.0))), (4, sets(symprec=0.0)), (4, last("sites", (0.0, 0.0, 1e300))),
    (4, longer("targets", (IDENTITY, (0.0, math.inf, 0.0)))), (4, last("operations", (MIRROR, (0.0, 0.0, -1001.0)))),
    (4, sets(lattice=diag(1000001.0, 1, 1))),
    (5, first("images", 1)), (5, last("images", 255)), (5, last("images", 1)),
    (6, longer("candidates", candidate(9, "b", "x,y"))), (6, first("candidates", candidate(2, "b", "+x,y,z"))),
    (7, sets(t=DOUBLED)), (7, sets(c=ZERO)), (7, sets(c=whole(13, 5, 1))),
    (8, longer("candidates", (9, 98, EIGHT))), (8, sets(c=STARRED_EIGHT)),
    (9, sets(c=COPIES, sites=MANY, elements=[8] * 17, images=[*range(17)] * 2)), *spares(8),
    (11, longer("targets", (MIRROR, ORIGIN))), (11, first("targets", (ZERO, ORIGIN))),
    (12, sets(lattice=ZERO)), (12, sets(rotations=[ZERO])),
    (13, lambda x: dict(candidates=[(w[0] + 7, *w[1:]) for w in x["candidates"]])), (13, sets(candidates=[]))]


def more(**entries):
    """Lists with one entry more each."""
    return lambda x: {name: list(x[name]) + [entry] for name, entry in entries.items()}


# of the call on lists: those that belong together differ in length
ENTRIES = dict(elements=8, positions=ORIGIN, rotations=MIRROR, translations=ORIGIN, target_rotations=MIRROR,
               target_translations=ORIGIN, multiplicities=9, letters=98, texts=padded("x,y,z"))
LISTS_FAULTS = [
    *[(2, longer(name, entry)) for name, entry in ENTRIES.items()], *[(2, shorter(name)) for name in ENTRIES],
    *[(2, sets(**{name: []})) for name in ENTRIES], (2, longer("images", 0)), (2, sets(conventional=[])),
    (3, more(conventional=(32,) + ZERO[1:])), (4, sets(symprec=-0.0)), (4, last("translations", (0.0, 0.0, math.nan))),
    (5, first("images", 1)), (6, more(multiplicities=9, letters=98, texts=padded("x,y"))), (7, sets(t=DOUBLED)),
    (8, more(multiplicities=9, letters=98, texts=EIGHT)),
    (9, sets(c=COPIES, positions=MANY, elements=[8] * 17, images=[*range(17)] * 2)), *spares(8),
    (11, more(target_rotations=MIRROR, target_translations=ORIGIN)), (12, sets(lattice=ZERO)),
    (13, lambda x: dict(multiplicities=[m + 7 for m in x["multiplicities"]]))]

# ---- bytes

SIZES = dict(zip(b"LTCSOPGRWNZ", (73, 34, 10, 29, 34, 2, 34, 10, 68, 9, 1)))


def pieces(data):
    """One a command."""
    out = []
    while data:
        out.append(data[:SIZES[data[0]]])
        data = data[SIZES[data[0]]:]
    return out


def damaged(data):
    """Cut before a command; it left out, repeated, exchanged with the next; a byte less or more, another command."""
    ps = pieces(data)
    for k, p in enumerate(ps):
        before, after = b"".join(ps[:k]), b"".join(ps[k + 1:])
        yield from (before, before + after, before + p + p + after, before + p[:-1] + after, before + p + b"\0" + after,
                    before + b"?" + p[1:] + after, before + p[:1].lower() + p[1:] + after)
        yield before + b"".join(ps[k + 1:k + 2]) + p + b"".join(ps[k + 2:])


def payloads(data):
    """NaNs of several patterns for the first float, and for symprec."""
    for bits in (0x7FF0000000000001, 0xFFF0000000000001, 0x7FFFFFFFFFFFFFFF, 0xFFFFFFFFFFFFFFFF):
        pattern = struct.pack("<Q", bits)
        yield from (data[:1] + pattern + data[9:], data[:-9] + pattern + data[-1:])


def spread(n):
    return [(i / 512, -i / 3, 0.25 * (i % 4)) for i in range(n)]


def large(n, operations, targets, rotations, candidates):
    """Every operation is the identity, so that the last permutation counts, which turns the sites by one."""
    return Job(sites=spread(n), operations=[STILL] * operations, targets=[STILL] * targets,
               images=flat(cycle(n, k + 1) for k in reversed(range(operations))), rotations=[IDENTITY] * rotations,
               candidates=[candidate(n, 33 + k, "x,y,%d/7" % (k % 7)) for k in range(candidates - 1)]
               + [candidate(n, "z", "x,y,z")])


def extended(x, **entries):
    """The job with these entries more."""
    for name, more_entries in entries.items():
        setattr(x, name, list(getattr(x, name)) + more_entries)
    return x


# 65,536 bytes, in two ways, and 65,538, which also has an image too many; more entries than a legal list has
FULL = [large(255, 96, 17, 86, 64), extended(large(255, 96, 95, 18, 34), candidates=[candidate(9, "b", "x,y")])]
LARGE = FULL + [extended(large(255, 96, 17, 86, 64), images=[0]), extended(large(256, 96, 1, 1, 2), images=[0]),
                job(sites=[ORIGIN] * 2200), job(images=[7] * 32000), job(operations=[STILL] * 1900),
                job(candidates=[GENERAL] * 950)]
# the like in few bytes: counts over the limits
OVER = [job(operations=[STILL] * 97, images=[0] * 97), job(sites=[ORIGIN] * 300)]
# images that are commands' bytes
COMMANDS = job(sites=spread(91), images=cycle(91), candidates=[candidate(91, "c", "x,y,z")])
# lists that no 65,536 bytes hold: the candidates in front are never tried, so that without them the answer is the same
PAST = large(256, 96, 96, 96, 19)
UNTRIED = [candidate(9, "u", "x,y,z")] * 45
