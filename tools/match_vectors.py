"""Candidates prepared, and matched with positions.

Expected: of a prepared candidate, rows and origin as in vectors_coordinates.py, D, L and R by the Rust (`ORACLE
diagonals`). Of a match, the offset's place and the distance, bit for bit, are those of the Rust's
`match_wyckoff_coordinates` in a job: the lines `match` of `ORACLE moyo --deep`, for each listed site and candidate; the
call is given that run's listed basis and position. site_words.py has document 01's sentences; they are held to the Rust
on every match, choose the symprec that is a distance, and alone give the refusals and the matches of positions beyond
1, which no job lists.
"""
import collections
import math
import random

from jobs import IDENTITY, Job, f64, generated
from records import case, lent, pattern, shortened
from site_vectors import Run, faulty, first, floats, last, sets
from site_words import OFFSETS, Diagonals, distances, match, match_refusal
from vectors_coordinates import NAMED, first_triplets, padded
from vectors_matrices import any_matrix, skewed

# what leaves -511..511, at the end or on the way, what just doesn't, and sums that leave -31..31 on the way alone
EDGES = [
    "x+9y+9y+9y+4y,9x+9x+9x+4x+z,y", "-9y+6z,9y+5y+9z,9z", "x+9y+9y+9y+4y,9x+7x-9y-6y+z,y",
    "x+9y+9y+9y+4y,9x+7x-9y-7y+z,y",
    "3x+3y-4z,x-4y-4z,-4x-4y-4z", "5x-7y+5z,-7x-2y+6z,7x+8y+6z", "9x+9x+9x+9x-9x,y,z", "9x+9x+9x+5x-x,y,z", "0x,0y,0z",
    "9x+9x+9x+4x,9y+9y+9y+4y,9z+9z+9z+4z", "-9x-9x-9x-4x,0,0", "x,x,x", "x,y,x+y", "2x,3y,5z", "2x,4y,6z", "y,z,x",
    "-z,-y,-x"]


# ---- prepared candidates

def summed(k, name):
    """The items of a coefficient, each a digit at the most."""
    sign = "-" if k < 0 else "+"
    nines, rest = divmod(abs(k), 9)
    return (sign + "9" + name) * nines + (sign + str(rest) + name if rest else "")


def text_of(m, constants=("", "", "")):
    """The rows of a matrix as coordinates, or nothing where they are over 64 bytes."""
    terms = ["".join(map(summed, m[3 * i:3 * i + 3], "xyz")) + constants[i] for i in range(3)]
    text = ",".join(t.removeprefix("+") or "0" for t in terms)
    return text if len(text) <= 64 else None


def prepared(diagonals, text):
    space = diagonals.space(text)
    if isinstance(space, int):
        return case("p", [text], lent(space, [], 39))
    m, q, d, l, r = space
    return case("p", [text], lent(0, [*m, *map(pattern, q), *d, *l, *r], 39))


def prepare_cases(diagonals, table):
    rng = random.Random(43)
    texts = list(dict.fromkeys(first_triplets(table)))[::4] + NAMED + EDGES
    for size, count in [(1, 20), (2, 25), (4, 30), (9, 40), (14, 30)]:
        constants = [("", "", ""), ("+1/3", "-3/7", "+9")]
        texts += [text_of(any_matrix(rng, size), rng.choice(constants)) for _ in range(count)]
    texts += [text_of(skewed(rng)) for _ in range(30)]
    yield from (prepared(diagonals, padded(text)) for text in dict.fromkeys(texts) if text is not None)


# ---- matches

class Matches:
    """Records of matches, each once, and what kinds there are."""

    def __init__(self, diagonals):
        self.diagonals, self.records, self.kinds = diagonals, {}, collections.Counter()

    def count(self, basis, p, space, symprec, found):
        factors = ("none", "some", "some", "all")[[space[2][4 * i] for i in range(3)].count(0)]
        fits = "fits" if found else "misses"
        least = min(distances(basis, space, p))
        self.kinds.update([
            fits, factors + " of d zero " + fits,
            "outer" if found and found[0] > 26 else "", "least is symprec" if least == symprec else "",
            "next to least" if found and symprec == math.nextafter(least, math.inf) else "",
            "-0" if any(v == 0 and math.copysign(1, v) < 0 for v in p) else "",
            "below 0" if min(p) < 0 else "", "above 0" if max(p) > 0 else "",
            "distance 0" if found and found[1] == 0 else ""])

    def add(self, basis, p, text, symprec, rust=False):
        """`rust`: what the Rust says, `-` or place and distance; where it is false the match is by the words."""
        space = self.diagonals.space(text)
        refused = match_refusal(basis, p, space, symprec)
        if refused:
            words = ["refused", refused]
        else:
            found = match(basis, space, p, symprec)
            words = ["misses"] if found is None else ["fits", found[0], pattern(found[1])]
            if rust:
                place, _, digits = rust.partition(":")
                assert words == (["misses"] if rust == "-" else ["fits", int(place), shortened(digits)]), (words, rust)
                self.count(basis, p, space, symprec, found)
        record, line = case("M", [f64(basis), f64(p), text, f64([symprec])], words)
        self.records[record] = line
        return refused, (record, line)


def of_run(matches, job, run, chosen):
    for j, k in chosen:
        matches.add(floats(run.basis), floats(run.positions[j]), job.candidates[k][2], job.symprec, run.matches[j][k])


GENERATED = [("real", 40), ("wild", 40), ("ties", 30), ("outer", 60), ("edge", 60), ("zeros", 30)]


def generated_matches(oracle, matches, rng):
    """Of each job a few: those that fit an outer offset, others that fit, those that miss."""
    for kind, count in GENERATED:
        for job in generated(oracle, 47, kind, count):
            run = Run(oracle, job)
            if run.reached and run.matches and job.candidates:
                pairs = [(j, k) for j in range(len(run.matches)) for k in range(len(job.candidates))]
                rng.shuffle(pairs)
                sort = {"outer": [], "fits": [], "misses": []}
                for j, k in pairs:
                    word = run.matches[j][k]
                    kind = "misses" if word == "-" else "outer" if int(word.split(":")[0]) > 26 else "fits"
                    sort[kind].append((j, k))
                of_run(matches, job, run, sort["outer"][:3] + sort["fits"][:2] + sort["misses"][:2])


SKEW = (5.0, -1.25, 0.5, 0.0, 4.5, 0.75, 0.0, 0.0, 6.125)
LATTICES = [IDENTITY, SKEW, tuple(-v for v in SKEW), (3.1, 0.2, -0.7, 0.4, 2.9, 0.1, -0.3, 0.6, 4.2),
            (1e-3, 0, 0, 0, 7.0, 0, 0, 0, 11.5),
            (1, 0, 0, 0, 1, 0, 0, 0, -1), (1e5, 0, 0, 1e4, 2e5, 0, 0, 0, 5e4)]
# a site at -1 is listed at -0
PLACES = [(0.4, 0.0, 0.0), (-1.0, 0.0, 0.0), (-1.0, -2.0, -1.0), (0.25, 0.0, -0.25), (1 / 3, -1 / 3, 0.5),
          (-0.1, 0.2, -0.3),
          (0.125, 0.5, -0.75), (-1.0, 0.3, 0.7), (0.9999999999999999, -0.9999999999999999, 0.5), (5e-324, -1.0, 1e-17)]
TEXTS = ["0,0,0", "1/2,1/4,3/4", "-1/4,-1,1", "9/4,0,0", "-7/4,5/4,2", "-9,9,0", "x,0,0", "x,x,x", "x,-x,1/2", "2x,x,0",
         "-x,2x,1/2",
         "x,2x,z", "x,y,0", "0,y,z", "x+y,x-y,z", "2x,3y,5z", "x+y+z,x-y,2z", "3x-y,x+2y,7z", "x,y,z", "-x,-y,-z",
         "x+1/3,y-2/7,z+9",
         "9x,9y,9z", "x-y,2x-2y,1/3", "-y,x,z-1/4", "3x+2y,5x-7z,y+z", "1/3,2/3,z", "x,x,1/8", "1/2-1/3,0,0",
         "x+y,y+z,z-x"]
BORDER = ["9x+9x+9x+9x-9x,y,z", "x+9y+9y+9y+4y,9x+7x-9y-6y+z,y"]
REGULAR = ["x+1/3,y-2/7,z+9", "3x+2y,5x-7z,y+z", "3x-y,x+2y,7z", "x+y+z+1/3,x-y-1/7,2z+1/9",
           "7x-5y+1/3,3y+5z-3/7,9z-2x+5/9"]


def one_site(lattice, p, texts, symprec):
    return Job(lattice, sites=[p], images=[0], symprec=symprec, candidates=[(1, 97, padded(t)) for t in texts])


def all_of(oracle, matches, lattice, p, texts, symprec):
    job = one_site(lattice, p, texts, symprec)
    run = Run(oracle, job)
    of_run(matches, job, run, [(0, k) for k in range(len(texts))])


def tight(oracle, matches, lattice, p, text, rng):
    """The least distance as symprec, and the next float; the one next to an offset's that no earlier offset reaches."""
    run = Run(oracle, one_site(lattice, p, [text], 1.0))
    found = distances(floats(run.basis), matches.diagonals.space(padded(text)), floats(run.positions[0]))
    least = min(found)
    firsts = [d for i, d in enumerate(found) if i and d < min(found[:i])]
    above = [least] + rng.sample(firsts, min(1, len(firsts)))
    for symprec in [least] + [math.nextafter(d, math.inf) for d in above]:
        if 0 < symprec <= 1000:
            all_of(oracle, matches, lattice, p, [text], symprec)


def on_positions(oracle, matches, table, rng):
    """First triplets of International Tables, at positions of theirs and beside them."""
    for text in rng.sample(list(dict.fromkeys(first_triplets(table))), 60):
        m, q = matches.diagonals.space(padded(text))[:2]
        v = [rng.uniform(-1, 1) for _ in range(3)]
        p = tuple(sum(m[3 * i + j] * v[j] for j in range(3)) + q[i] for i in range(3))
        all_of(oracle, matches, rng.choice(LATTICES), p, [text], 0.001)
        all_of(oracle, matches, rng.choice(LATTICES), (p[0] + 0.07, p[1] - 0.11, p[2] + 0.13), [text], 0.001)


def every_place(oracle, matches):
    """Points that only one offset reaches, one for each offset."""
    texts = ["%d/4,%d/2,%d/4" % (4 * x + 1, 2 * y + 1, 4 * z - 1) for x, y, z in OFFSETS]
    for part in (texts[:64], texts[64:]):
        all_of(oracle, matches, SKEW, (0.25, 0.5, -0.25), part, 0.001)
    places = [line.split()[2] for line in matches.records.values() if line.startswith("M fits")]
    assert sorted(map(int, places)) == list(range(125))


def rust_matches(oracle, matches, table):
    rng = random.Random(53)
    every_place(oracle, matches)
    generated_matches(oracle, matches, rng)
    all_of(oracle, matches, IDENTITY, (0.4, 0.0, 0.0), ["0,0,0"], 1.0)
    all_of(oracle, matches, IDENTITY, (0.25, 0.0, 0.0), ["0,0,0"], 0.25)
    for symprec in (1e-3, 5e-324, 1e-16, 0.3, 1000.0):
        for p in rng.sample(PLACES, 4):
            all_of(oracle, matches, rng.choice(LATTICES), p, rng.sample(TEXTS, 8), symprec)
    for p in PLACES:
        all_of(oracle, matches, rng.choice(LATTICES), p, BORDER + TEXTS[::5], 1e-15)
    # no factor of these is 0: only the rounding keeps an offset from fitting
    for k in range(12):
        p = tuple(rng.uniform(-1, 1) for _ in range(3))
        all_of(oracle, matches, rng.choice(LATTICES), p, REGULAR, (5e-324, 1e-17)[k % 2])
    for k in range(130):
        p = tuple(rng.uniform(-1, 1) for _ in range(3)) if k % 2 else rng.choice(PLACES)
        tight(oracle, matches, rng.choice(LATTICES), p, rng.choice(TEXTS), rng)
    on_positions(oracle, matches, table, rng)


LEAST = {"fits": 400, "misses": 400, "outer": 80, "least is symprec": 80, "next to least": 60, "-0": 60, "below 0": 200,
         "above 0": 200, "distance 0": 60, "none of d zero fits": 60, "none of d zero misses": 20,
         "some of d zero fits": 60,
         "some of d zero misses": 60, "all of d zero fits": 30, "all of d zero misses": 60}


# ---- beyond what a job lists, and refusals

def far_matches(matches):
    rng = random.Random(59)
    for k in range(40):
        ways = [rng.uniform(-1000, 1000), float(rng.randint(-1000, 1000)), rng.uniform(-3, 3)]
        p = tuple(rng.choice(ways) for _ in range(3))
        basis = tuple(map(float, rng.choice(LATTICES)))
        matches.add(basis, p, padded(rng.choice(TEXTS)), rng.choice([1e-3, 0.5, 5.0, 1000.0, 1e-13]))
    for p in [(1000.0, -1000.0, 1000.0), (2.25, 0.0, 0.0), (-1.75, 0.0, 0.0), (3.0, -3.0, 0.0), (-0.0, -0.0, -0.0)]:
        for text in ("0,0,0", "x,y,z", "x,0,0", "1/4,0,0", "9x,9y,9z"):
            matches.add(tuple(map(float, IDENTITY)), p, padded(text), 0.001)
    for basis in [(1e6,) * 9, (-1e6, 0.0, 0.0, 0.0, 1e6, 0.0, 0.0, 0.0, 1e6), (0.0,) * 9, (-0.0,) * 9, (5e-324,) * 9,
                  (1e-200,) * 9]:
        for text in ("x,y,z", "1/3,0,0", "x,x,0"):
            matches.add(basis, (0.1, 0.2, -0.3), padded(text), 1000.0)


MATCH_FAULTS = [
    (4, first("basis", math.nan)), (4, last("basis", math.inf)), (4, last("basis", math.nextafter(1e6, 2e6))),
    (4, first("basis", -math.nextafter(1e6, 2e6))), (4, first("basis", -math.inf)),
    *[(4, sets(p=p)) for p in [(math.nan, 0.0, 0.0), (0.0, math.inf, 0.0), (0.0, 0.0, -math.inf),
                               (math.nextafter(1000.0, 2000.0), 0.0, 0.0),
                               (0.0, -math.nextafter(1000.0, 2000.0), 0.0), (0.0, 0.0, 2000.0)]],
    *[(4, sets(symprec=s)) for s in (0.0, -0.0, -5e-324, math.nan, math.inf, -math.inf,
                                     math.nextafter(1000.0, 2000.0))],
    *[(6, sets(text=padded(t))) for t in ("x,y", "+x,y,z", "", "9x+9x+9x+5x,y,z", "x,y,z,", "x,y,z\0", "X,y,z",
                                          "1/0,y,z", "x,y,w")],
    *[(8, sets(text=padded(t))) for t in ("x+9y+9y+9y+4y,9x+9x+9x+4x+z,y", "-9y+6z,9y+5y+9z,9z",
                                          "x+9y+9y+9y+4y,9x+7x-9y-7y+z,y",
                                          "3x+3y-4z,x-4y-4z,-4x-4y-4z", "5x-7y+5z,-7x-2y+6z,7x+8y+6z")]]


def cases(oracle, table):
    diagonals = Diagonals(oracle)
    yield from prepare_cases(diagonals, table)
    matches = Matches(diagonals)
    rust_matches(oracle, matches, table)
    assert len(matches.records) >= 1000, len(matches.records)
    for kind, least in LEAST.items():
        assert matches.kinds[kind] >= least, (kind, matches.kinds)
    far_matches(matches)
    good = dict(basis=tuple(map(float, SKEW)), p=(0.1, 0.2, 0.3), text=padded("x,0,0"), symprec=0.001)
    for _ in faulty(good, MATCH_FAULTS, lambda x: matches.add(x["basis"], x["p"], x["text"], x["symprec"])):
        pass
    yield from matches.records.items()
