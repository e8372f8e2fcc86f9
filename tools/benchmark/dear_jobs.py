#!/usr/bin/env python3
"""Jobs that bound what a job costs, as files below FOLDER: dear_jobs.py FOLDER

small/   the least that is legal: no site, the worked example of document 01; and where moyo does less: candidates of
         another multiplicity, of which 6 and 8 are to be decided all the same; a target that no operation gives (11),
         where moyo has nothing to zero
dear/    the most: every listed site tried with every candidate at every offset; most sites and targets
growth/  sites by candidates, each site its own orbit whose last candidate fits; sites by targets, one orbit
"""
import itertools
import os
import random
import sys

sys.path.insert(0, os.path.join(os.path.dirname(os.path.abspath(__file__)), ".."))
from jobs import IDENTITY, Job, STILL  # noqa: E402

DOUBLED = (2, 0, 0, 0, 2, 0, 0, 0, 1)  # four copies, the third coordinate as it was
CENTRED = (1, -1, 0, 1, 1, 0, 0, 0, 1)  # moyo's Centering::C
SHEARED = (1, 0, 0, 0, 1, 0, 1, 0, 1)
HEXAGONAL = (5.1, -2.55, 0.0, 0.0, 4.4167, 0.0, 0.0, 0.0, 7.3)
PLANES = ("x,y", "x,x", "x,-x", "x,2x", "2x,x", "x,0", "0,x", "0,0", "1/2,0", "0,1/2", "1/2,1/2", "x,1/2", "1/2,x",
          "1/3,2/3", "2/3,1/3", "x,-y")
HEIGHTS = ("0", "1/4", "1/2", "3/4")


def text(coordinates):
    return coordinates.encode().ljust(64)


def missing(count, multiplicity):
    """Candidates at heights that no site of `scattered` has."""
    names = [plane + "," + height for height in HEIGHTS for plane in PLANES]
    return [(multiplicity, 97 + k % 26, text(names[k])) for k in range(count)]


def scattered(rng, count):
    """Sites whose heights are an eighth and odd: at least 0.1 from every candidate's."""
    return [(rng.random(), rng.random(), 0.125 + 0.25 * rng.randrange(4) + 0.02 * rng.random()) for _ in range(count)]


def whole_rotations(count):
    """Different unimodular matrices: signed permutations, and these sheared."""
    out = []
    for shear in itertools.count():
        for p in itertools.permutations(range(3)):
            for signs in itertools.product((1, -1), repeat=3):
                m = [[0] * 3 for _ in range(3)]
                for i in range(3):
                    m[i][p[i]] = signs[i]
                m[0] = [a + shear * b for a, b in zip(m[0], m[1])]
                out.append(tuple(e for row in m for e in row))
                if len(out) == count:
                    return out


def operations(rng, count):
    return [(m, (rng.random(), rng.random(), rng.random())) for m in whole_rotations(count)]


def permutations(rng, sites, count):
    return [image for _ in range(count) for image in rng.sample(range(sites), sites)]


def ring(sites):
    """One permutation that joins all."""
    return [(i + 1) % sites for i in range(sites)]


def small():
    yield "no_sites", Job(candidates=[(1, 97, text("x,y,z"))])
    yield "no_sites_target_unknown", Job(targets=[(SHEARED, (0.0, 0.0, 0.0))], candidates=[(1, 97, text("x,y,z"))])
    yield "worked_example", Job(c=CENTRED, sites=[(0.0, 0.0, 0.0)], images=[0], candidates=[(2, 97, text("x,y,z"))])
    yield "1_site_63_candidates_never_tried", Job(
        HEXAGONAL, sites=[(0.1, 0.2, 0.3)], images=[0], candidates=missing(63, 2) + [(1, 122, text("x,y,z"))])


def dear(rng):
    yield "1024_sites_64_candidates_all_miss", Job(
        HEXAGONAL, c=DOUBLED, sites=scattered(rng, 256), images=ring(256), candidates=missing(64, 1024), symprec=0.0001)
    yield "256_orbits_63_miss_before_the_last_fits", Job(
        HEXAGONAL, c=DOUBLED, sites=scattered(rng, 256), images=range(256),
        candidates=missing(63, 4) + [(4, 122, text("x,y,z"))], symprec=0.0001)
    many = operations(rng, 96)
    yield "256_sites_96_targets", Job(
        HEXAGONAL, c=DOUBLED, sites=scattered(rng, 256), operations=many, images=permutations(rng, 256, 96),
        targets=many, candidates=[(1024, 97, text("x,y,z"))], symprec=0.0001)


def growth(rng):
    for sites, candidates in itertools.product((16, 64, 256), (1, 8, 64)):
        yield "%03d_sites_%02d_candidates" % (sites, candidates), Job(
            HEXAGONAL, sites=scattered(rng, sites), images=range(sites),
            candidates=missing(candidates - 1, 1) + [(1, 122, text("x,y,z"))], symprec=0.0001)
    for sites, targets in itertools.product((16, 64, 256), (1, 12, 96)):
        few = operations(rng, targets)
        yield "%03d_sites_%02d_targets" % (sites, targets), Job(
            HEXAGONAL, sites=scattered(rng, sites), operations=few,
            images=ring(sites) + permutations(rng, sites, targets - 1), targets=few,
            candidates=[(sites, 97, text("x,y,z"))], symprec=0.0001)


def main(folder):
    for name, made in (("small", small()), ("dear", dear(random.Random(1))), ("growth", growth(random.Random(2)))):
        os.makedirs(os.path.join(folder, name))
        for job, parts in made:
            written = parts.bytes()
            assert len(written) <= 65536, job
            with open(os.path.join(folder, name, job + ".job"), "wb") as out:
                out.write(written)


main(sys.argv[1])
