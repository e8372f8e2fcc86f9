"""Permutations aligned to targets, listed sites, labels and letters.

Expected: what `ORACLE moyo --deep` prints for a job with those parts, which is what moyo's own
`align_primitive_permutations`, `transform_cell`, `orbits_in_cell` and `assign_wyckoffs_by_orbit` give: the aligned
permutations, the listed positions, points, primitive sites, labels, multiplicities and letters, and refusals 11 and 13.
A call is given what the job's run had by then. The other refusals are by document 01's words (site_words.py), and so
are labels and letters for mappings that no job has; on every design the words are held to the Rust.
"""
import math

from jobs import IDENTITY, STILL, Job, answer, f64, generated, i8
from records import MOST, case, lent, lent_lists, listed_bytes, listed_elements, listed_matrices, listed_numbers
from records import listed_texts, listed_triples, number, pattern, shortened, size, value
from site_words import Diagonals, align_refusal, label_refusal, labels, letter_refusal, letters, list_refusal
from site_words import multiplicities, permutations_of
from vectors_coordinates import padded
from vectors_matrices import CENTRINGS, det

INVERSION = tuple(-x for x in IDENTITY)
MIRROR = (-1, 0, 0, 0, 1, 0, 0, 0, 1)
THREEFOLD = (0, 0, 1, 1, 0, 0, 0, 1, 0)
SQUARED = (0, 1, 0, 0, 0, 1, 1, 0, 0)
DOUBLED = (2, 0, 0, 0, 1, 0, 0, 0, 1)
ZERO = (0,) * 9
AROUND = (0, 0, 1, 1, 0, 0, 0, 1, 0)
ORIGIN = (0.0, 0.0, 0.0)
HUGE = [257, 65536, 2 ** 32, 2 ** 63, 2 ** 64 - 1]


class Run:
    """What the Rust had at the end of a job: its number, and where it got as far, its lists. Floats are 16 digits."""

    def __init__(self, oracle, job):
        self.refused, lines = answer(oracle, job)
        self.reached = self.refused in (0, 13)
        full = lines[lines.index(["full"]) + 1:] if self.reached else []
        self.aligned = [[int(w) for w in r[2:]] for r in full if r[0] == "aligned"]
        self.primitive = [r[2:] for r in full if r[0] == "primitive"]
        self.basis = next((r[1:] for r in full if r[0] == "listed-basis"), None)
        sites = [r for r in full if r[0] == "site"]
        self.positions = [r[2:5] for r in sites]
        self.points = [r[5:8] for r in sites]
        self.mapping = [int(r[8]) for r in sites]
        self.labels = [int(r[9]) for r in sites]
        self.multiplicities = [int(r[10]) for r in sites]
        self.letters = [int(r[11]) for r in sites] if self.refused == 0 else None
        self.matches = [r[2:] for r in full if r[0] == "match"]


def floats(words):
    return tuple(value(int(w, 16)) for w in words)


def flat(lists):
    return [entry for entries in lists for entry in entries]


# ---- records: arguments by name, `spare` the room beyond the answer, list by list

def room(need, spare):
    """Few cells where no list could have as many as the answer would need."""
    return max(0, (need if need <= MOST - 10 else 20) + spare)


def align_case(x, found):
    """`found`: the images, or nothing where a target's rotation is absent."""
    cells = room(x["sites"] * len(x["targets"]), x["spare"][0])
    refused = align_refusal(x["t"], x["rotations"], x["images"], x["sites"], x["targets"], cells)
    refused = refused or (11 if found is None else 0)
    parts = [i8(x["t"]), listed_matrices(x["rotations"]), listed_bytes(x["images"]), size(x["sites"]),
             listed_matrices(x["targets"]), number(cells)]
    return refused, case("A", parts, lent(refused, [] if refused else found, cells))


def list_case(diagonals, x, found):
    """`found`: words of the listed positions and points, the mapping and the elements, each a list."""
    cells = [room(len(x["positions"]) * abs(det(x["c"])), spare) for spare in x["spare"]]
    refused = list_refusal(diagonals, x["c"], x["elements"], x["positions"], cells)
    parts = [i8(x["c"]), listed_elements(x["elements"]), listed_triples(x["positions"])] + [number(r) for r in cells]
    words = [[]] * 4 if refused else found
    return refused, case("l", parts, lent_lists(refused, list(zip(words, cells, (3, 3, 1, 1), strict=True))))


def label_case(x, found=None):
    """`found`: the Rust's labels and multiplicities; where there are none they are by the words."""
    cells = [room(len(x["mapping"]), spare) for spare in x["spare"]]
    refused = label_refusal(x["sites"], x["count"], x["images"], x["mapping"], cells)
    if not refused:
        ls = labels(permutations_of(x["sites"], x["count"], x["images"]), x["mapping"])
        words = [ls, multiplicities(ls)]
        assert found in (None, words)
    else:
        words = [[], []]
    parts = [size(x["sites"]), size(x["count"]), listed_bytes(x["images"]), listed_numbers(x["mapping"])]
    parts += [number(r) for r in cells]
    return refused, case("o", parts, lent_lists(refused, list(zip(words, cells, (1, 1), strict=True))))


def letter_words(diagonals, x):
    """Labels, multiplicities and letters by the words, or nothing where an orbit has no fit."""
    ls = labels(permutations_of(x["sites"], x["count"], x["images"]), x["mapping"])
    candidates = [(m, l, diagonals.space(t)) for m, l, t in zip(x["candidates"], x["letters"], x["texts"])]
    found = letters(ls, x["positions"], x["basis"], candidates, x["symprec"])
    return None if found is None else [ls, multiplicities(ls), found]


def letter_case(diagonals, x, found=False):
    """`found`: the Rust's three lists, or nothing for 13; where it is false they are by the words."""
    cells = [room(len(x["mapping"]), spare) for spare in x["spare"]]
    counts = [len(x["candidates"]), len(x["letters"]), len(x["texts"])]
    spaces = [diagonals.space(t) for t in x["texts"]]
    refused = letter_refusal(spaces, x["sites"], x["count"], x["images"], x["mapping"], x["positions"], x["basis"],
                             counts, x["symprec"], cells)
    words = [[]] * 3
    if not refused:
        by_words = letter_words(diagonals, x)
        assert found in (False, by_words)
        refused = 13 if by_words is None else 0
        words = by_words or words
    parts = [size(x["sites"]), size(x["count"]), listed_bytes(x["images"]), listed_numbers(x["mapping"])]
    parts += [listed_triples(x["positions"]), f64(x["basis"]), listed_numbers(x["candidates"]),
              listed_bytes(x["letters"])]
    parts += [listed_texts(x["texts"]), f64([x["symprec"]])] + [number(r) for r in cells]
    return refused, case("w", parts, lent_lists(refused, list(zip(words, cells, (1, 1, 1), strict=True))))


# ---- refusals in order

def faulty(good, faults, make):
    """Each fault alone, and with the first fault of every higher number at once; the first fault of each number also
    with that of each higher one by itself. Faults are a number and what it does to a copy of the arguments; a fault of
    number k makes the call refuse with k, whatever higher one there is."""
    firsts = {}
    for k, fault in faults:
        firsts.setdefault(k, fault)
    for k, fault in faults:
        higher = [(j, firsts[j]) for j in sorted(firsts, reverse=True) if j > k]
        together = [[], higher] + ([[pair] for pair in higher] if fault is firsts[k] else [])
        for others in together:
            x = dict(good)
            for _, other in others:
                x.update(other(x))
            x.update(fault(x))
            refused, record = make(x)
            assert refused == k, (refused, k, record[1][:80])
            yield record


def sets(**entries):
    return lambda x: entries


def longer(name, entry):
    return lambda x: {name: list(x[name]) + [entry]}


def shorter(name):
    return lambda x: {name: list(x[name])[:-1]}


def last(name, entry):
    return lambda x: {name: list(x[name])[:-1] + [entry]}


def first(name, entry):
    return lambda x: {name: [entry] + list(x[name])[1:]}


def spares(count):
    """One list too short by one, all by one, one with none at all."""
    out = [[-1 if k == i else 2 * k for k in range(count)] for i in range(count)]
    return [(10, sets(spare=s)) for s in out + [[-1] * count, [0] * (count - 1) + [-MOST]]]


# ---- permutations aligned to targets

def align_rust(oracle, x):
    """The Rust's images, or nothing for 11: of a job with those operations and targets and nothing else of note."""
    run = Run(oracle, Job(t=x["t"], sites=[ORIGIN] * x["sites"], operations=[(m, ORIGIN) for m in x["rotations"]],
                          images=x["images"], targets=[(m, ORIGIN) for m in x["targets"]]))
    return run.refused, flat(run.aligned) if run.reached else None


def align_of(oracle, x):
    """A record of the Rust's answer, or of a refusal that it shares."""
    refused, found = align_rust(oracle, x)
    expected, record = align_case(x, found)
    assert expected in (10, refused) or (expected == 0 and refused == 13), (expected, refused)
    return record


def alignment(t, operations, targets, sites, spare=0):
    """Operations: a rotation and its permutation."""
    return dict(t=t, rotations=[m for m, _ in operations], images=flat(p for _, p in operations), sites=sites,
                targets=targets, spare=[spare])


SHEAR = (1, 1, 0, 0, 1, 0, 0, 0, 1)
AXIS = [(IDENTITY, [0, 1, 2]), (THREEFOLD, [1, 2, 0]), (SQUARED, [2, 0, 1])]
PAIRED = [(IDENTITY, [0, 1]), (INVERSION, [1, 0])]
ALIGNMENTS = [
    alignment(IDENTITY, AXIS, [IDENTITY, THREEFOLD, SQUARED], 3),
    # the targets in another order, one of them twice, some of the operations left out
    alignment(IDENTITY, AXIS, [SQUARED, IDENTITY, SQUARED], 3),
    alignment(IDENTITY, AXIS, [THREEFOLD], 3),
    # equal rotations: the last wins, wherever it stands
    alignment(IDENTITY, [(IDENTITY, [1, 0]), (IDENTITY, [0, 1])], [IDENTITY], 2),
    alignment(IDENTITY, [(IDENTITY, [0, 1]), (INVERSION, [0, 1]), (IDENTITY, [1, 0])], [IDENTITY, INVERSION], 2),
    alignment(IDENTITY, [(INVERSION, [0, 1, 2]), (IDENTITY, [0, 2, 1]), (INVERSION, [1, 2, 0]), (IDENTITY, [1, 0, 2]),
                         (MIRROR, [2, 1, 0])], [INVERSION, IDENTITY, INVERSION], 3),
    # T⁻¹RT, T of both signs; and where it is not TRT⁻¹
    alignment(THREEFOLD, AXIS, [IDENTITY, THREEFOLD], 3),
    alignment(SHEAR, [(IDENTITY, [0, 1]), (MIRROR, [1, 0])], [(-1, -2, 0, 0, 1, 0, 0, 0, 1), IDENTITY], 2),
    alignment(SHEAR, [(IDENTITY, [0, 1]), (MIRROR, [1, 0])], [(-1, 2, 0, 0, 1, 0, 0, 0, 1)], 2),
    alignment((0, 1, 0, 1, 0, 0, 0, 0, 1), [(IDENTITY, [0, 1]), (MIRROR, [1, 0])], [(1, 0, 0, 0, -1, 0, 0, 0, 1)], 2),
    alignment(INVERSION, PAIRED, [INVERSION, IDENTITY], 2),
    # a rotation that became a matrix no target can have: over 31, or over a byte's range, 256 apart
    alignment((1, 31, 0, 0, 1, 0, 0, 0, 1), [(MIRROR, [0]), (IDENTITY, [0])], [IDENTITY], 1),
    alignment((1, 31, 0, 0, 1, 0, 0, 0, 1), [(MIRROR, [0]), (IDENTITY, [0])], [(-1, 6, 0, 0, 1, 0, 0, 0, 1)], 1),
    alignment((1, 16, 0, 0, 1, 0, 0, 0, 1), [((9, 0, 0, 0, -7, 0, 0, 0, 1), [0])], [(9, 0, 0, 0, -7, 0, 0, 0, 1)], 1),
    # a target differs in one entry from the operation's rotation: 11; with no sites too
    alignment(IDENTITY, PAIRED, [INVERSION[:8] + (1,)], 2),
    alignment(IDENTITY, PAIRED, [IDENTITY, (1, 0, 0, 0, 1, 0, 0, 1, 1)], 2),
    alignment(IDENTITY, [(IDENTITY, []), (INVERSION, [])], [IDENTITY, INVERSION], 0),
    alignment(IDENTITY, [(IDENTITY, [])], [INVERSION], 0),
    # rotations that are none: any matrix in range, singular ones too
    alignment(IDENTITY, [(ZERO, [0, 1]), ((31,) * 9, [1, 0])], [(31,) * 9, ZERO], 2),
    # the counts' limits
    alignment(IDENTITY, [(IDENTITY, list(range(256)))], [IDENTITY], 256),
    alignment(IDENTITY, [(IDENTITY, list(range(255, -1, -1))), (IDENTITY, list(range(1, 256)) + [0])], [IDENTITY] * 4,
              256),
    alignment(IDENTITY, [(IDENTITY, [(i + k) % 11 for i in range(11)]) for k in range(96)], [IDENTITY], 11),
    alignment(IDENTITY, [(INVERSION, [0]), (IDENTITY, [0])], [INVERSION] * 96, 1),
]
ALIGN_FAULTS = [
    *[(2, sets(sites=n)) for n in HUGE], (2, sets(sites=0)), (2, sets(sites=1)), (2, sets(rotations=[])),
    (2, sets(rotations=[], images=[])), (2, sets(rotations=[IDENTITY] * 97, images=[0, 1] * 97)),
    (2, shorter("images")),
    (2, longer("images", 0)), (2, sets(images=[])), (2, sets(targets=[])), (2, sets(targets=[IDENTITY] * 97)),
    (2, lambda x: dict(sites=257, images=[i % 256 for i in range(514)])),
    (3, sets(t=(32,) + IDENTITY[1:])), (3, sets(t=IDENTITY[:8] + (-128,))), (3, last("rotations", (0, -32) + ZERO[2:])),
    (3, first("rotations", ZERO[:8] + (127,))), (3, last("targets", ZERO[:4] + (32,) + ZERO[5:])),
    (3, first("targets", ZERO[:8] + (-32,))),
    (5, last("images", 1)), (5, last("images", 2)), (5, first("images", 255)), (5, first("images", 1)),
    # of an operation that no target takes
    (5, lambda x: dict(rotations=x["rotations"] + [MIRROR], images=list(x["images"]) + [0, 0])),
    (7, sets(t=DOUBLED)), (7, sets(t=ZERO)), (7, sets(t=(31, 30, 0, 1, 1, 0, 0, 0, -2))), *spares(1),
    (11, last("targets", MIRROR)), (11, first("targets", ZERO)), (11, sets(targets=[MIRROR]))]


def align_cases(oracle):
    for k, x in enumerate(ALIGNMENTS):
        yield from (align_of(oracle, dict(x, spare=[spare])) for spare in [0, 1, 7, -1, -MOST][:5 if k < 16 else 3])
    good = alignment(IDENTITY, PAIRED, [INVERSION, IDENTITY], 2)

    def make(x):
        # a job shares every refusal but 10, where it can have the counts
        if x["sites"] < 300 and len(x["images"]) < 300:
            refused, found = align_rust(oracle, x)
            expected, record = align_case(x, found)
            assert expected in (10, refused), (expected, refused)
            return expected, record
        return align_case(x, [])

    yield from faulty(good, ALIGN_FAULTS, make)


# ---- listed sites

def listing(run, elements):
    """The Rust's lists in words."""
    return [[shortened(w) for w in flat(run.positions)], flat(run.points), run.mapping,
            [elements[i] for i in run.mapping]]


def list_of(oracle, diagonals, x):
    """Of a job whose symmetrised positions are the given ones: nothing moves them."""
    sites = x["positions"]
    run = Run(oracle, Job(c=x["c"], sites=sites, images=[i % 256 for i in range(len(sites))], elements=x["elements"]))
    found = None
    if run.reached:
        # the sum over targets loses the sign of -0, and so does p + point
        assert run.primitive == [["%016x" % int(pattern(v + 0.0), 16) for v in p] for p in sites]
        found = listing(run, x["elements"])
    expected, record = list_case(diagonals, x, found)
    assert expected in (10, run.refused) or run.refused == 13, (expected, run.refused)
    return expected, record


def cell(c, positions, elements=None):
    return dict(c=tuple(c), positions=positions, spare=[0] * 4,
                elements=elements or [(-1) ** i * (i * 9973 + 1) for i in range(len(positions))])


SOME = [(0.1, 0.2, 0.3), (-0.4, 1.75, -2.5)]
EDGES = [(-1.0, 0.0, 0.0), (-0.0, 0.0, -0.0), (-1.25, 1.25, -0.75), (1000.0, -1000.0, 999.9999999999999),
         (5e-324, -5e-324, 2.2250738585072014e-308), (0.9999999999999999, -0.9999999999999999, 1 / 3)]
CELLS = [cell(c, SOME) for c in CENTRINGS.values()] + [cell([-x for x in c], EDGES) for c in CENTRINGS.values()] + [
    cell(IDENTITY, EDGES), cell(IDENTITY, []), cell(CENTRINGS["F"], []),
    cell(IDENTITY, [ORIGIN] * 5, [2 ** 31 - 1, -2 ** 31, 0, -1, 65536]),
    # the designs of document 01
    cell(CENTRINGS["C"], [ORIGIN]), cell(DOUBLED, EDGES), cell((2, 0, 0, 0, 3, 0, 0, 0, 1), EDGES[:3]),
    cell((8, 0, 0, 0, 8, 0, 0, 0, 1), [ORIGIN]), cell((8, 0, 0, 0, -8, 0, 0, 0, 1), [(0.3, -0.0, 7.0)]),
    # C⁻¹ by whole cofactors; C row by row; an entry of 511 passes
    cell((-1, 0, 0, 0, 0, -1, 0, -1, 0), [ORIGIN, (0.25, -0.5, 1.0)]),
    cell((1, 2, 0, 0, 1, 0, 0, 0, 1), [(0.5, 0.25, 0.0)]),
    cell((1, 31, 0, 16, -15, 1, 0, 1, 0), SOME), cell((3, 1, 2, -1, 4, 0, 2, -3, 5), SOME),
    cell((3, 0, 0, 0, 7, 0, 0, 0, 3), SOME),
    cell((31, 30, 0, 1, 1, 0, 0, 0, 1), SOME), cell((1, 0, 0, 0, 31, 0, 0, 0, 2), [(0.1, 0.7, -0.3)]),
    # 1,024 listed sites, and more
    cell((8, 0, 0, 0, 8, 0, 0, 0, 1), [(0.0, 0.0, 0.5)] * 16), cell((4, 0, 0, 0, 1, 0, 0, 0, 1), [ORIGIN] * 256),
    cell((8, 0, 0, 0, 8, 0, 0, 0, 1), [ORIGIN] * 17), cell((5, 0, 0, 0, 1, 0, 0, 0, 1), [ORIGIN] * 205),
    cell((5, 0, 0, 0, 1, 0, 0, 0, 1), [ORIGIN] * 256),
]
ON_THE_WAY = (3, 0, -12, 6, 3, 0, -20, -10, 5)
LIST_FAULTS = [
    (2, longer("elements", 1)), (2, shorter("elements")), (2, sets(elements=[])), (2, longer("positions", ORIGIN)),
    (2, sets(positions=[])), (2, lambda x: dict(positions=[ORIGIN] * 257, elements=[8] * 257, spare=[-1000] * 4)),
    # with 7, 8 and 9 in the same matrix
    (3, sets(c=(32,) + IDENTITY[1:])), (3, sets(c=IDENTITY[:8] + (-32,))), (3, sets(c=(-128,) * 9)),
    (3, sets(c=(1, 32, 0, 31, 0, 1, 0, 1, 0))), (3, sets(c=(32, 0, 0, 0, 32, 0, 0, 0, 1), spare=[-2000] * 4)),
    (4, last("positions", (0.0, 0.0, math.nan))), (4, first("positions", (math.inf, 0.0, 0.0))),
    (4, last("positions", (0.0, math.nextafter(1000.0, 2000.0), 0.0))),
    (4, last("positions", (-math.nextafter(1000.0, 2000.0), 0.0, 0.0))), (4, first("positions", (0.0, -math.inf, 0.0))),
    (7, sets(c=ZERO)), (7, sets(c=(13, 0, 0, 0, 5, 0, 0, 0, 1))), (7, sets(c=(-13, 0, 0, 0, 5, 0, 0, 0, 1))),
    (7, sets(c=(1, 2, 3, 4, 5, 6, 7, 8, 9))), (7, sets(c=(31, 0, 0, 0, 31, 0, 0, 0, 31))),
    (7, sets(c=(0, -9, 6, 0, 14, 9, 0, 0, 9))), (7, sets(c=(3, 3, -4, 1, -4, -4, -4, -4, -4))),
    (8, sets(c=(-5, 6, -4, 6, 4, -5, 3, -3, 3))), (8, sets(c=(1, 31, 0, 31, 0, 1, 0, 1, 0))),
    (8, sets(c=(1, 31, 0, 16, -16, 1, 0, 1, 0))), (8, sets(c=ON_THE_WAY)),
    (9, lambda x: dict(c=(8, 0, 0, 0, 8, 0, 0, 0, 1), positions=[ORIGIN] * 17, elements=[8] * 17, spare=[-1080] * 4)),
    *spares(4)]


def list_cases(oracle, diagonals):
    for x in CELLS:
        yield list_of(oracle, diagonals, x)[1]
        if len(x["positions"]) * abs(det(x["c"])) <= 18:
            yield from (list_of(oracle, diagonals, dict(x, spare=s))[1]
                        for s in ([1, 0, 2, 0], [0, 3, 0, 1], [-1, 5, 5, 5], [4, -1, 0, 0], [0, 0, -MOST, 0],
                                  [0, 0, 0, -1]))
    good = cell(CENTRINGS["C"], SOME)
    yield from faulty(good, LIST_FAULTS, lambda x: list_refused(oracle, diagonals, x))
    # 8 and 9 together: 23 sites of 45 copies
    refused, record = list_of(oracle, diagonals, dict(cell(ON_THE_WAY, [ORIGIN] * 23), spare=[-1000] * 4))
    assert refused == 8
    yield record


def list_refused(oracle, diagonals, x):
    """As the oracle refuses a job, where one can have the counts."""
    if len(x["elements"]) == len(x["positions"]):
        return list_of(oracle, diagonals, x)
    return list_case(diagonals, x, None)


# ---- labels

def labelling(permutations, mapping, sites=None):
    n = len(permutations[0]) if sites is None else sites
    return dict(sites=n, count=len(permutations), images=flat(permutations), mapping=mapping, spare=[0, 0])


def copies(n, m):
    return [i for i in range(n) for _ in range(m)]


def cycle(n, step=1):
    return [(i + step) % n for i in range(n)]


STARRED = [1, 0, 2, 4, 3]
LABELLINGS = [
    labelling([STARRED], copies(5, 2)), labelling([STARRED], copies(5, 1)), labelling([STARRED] * 3, copies(5, 4)),
    labelling([list(range(5)), STARRED], copies(5, 2)), labelling([STARRED, list(range(5))], copies(5, 2)),
    # mappings of another order, with sites that are absent and others often
    labelling([[0, 1]], [1, 0, 1]), labelling([[1, 0]], [1, 0, 1]), labelling([[0, 1, 2]], [1, 0, 1]),
    labelling([STARRED], [4, 2, 1]), labelling([STARRED], [1, 1, 1]), labelling([STARRED], [3, 0, 4, 1, 2, 0, 3]),
    labelling([STARRED], [2]), labelling([[1, 2, 0]], [2, 0]), labelling([[1, 2, 0]], [2]),
    labelling([[2, 0, 1]], [1, 2, 1, 0]),
    # joined through a site that is absent, through two permutations, either way
    labelling([[1, 0, 2], [0, 2, 1]], [0, 2]), labelling([[0, 2, 1], [1, 0, 2]], [2, 0]),
    labelling([[1, 0, 2]], [0, 2]),
    labelling([[1, 0, 2, 3], [0, 1, 3, 2]], [3, 1, 2, 0]),
    labelling([[0, 3, 2, 1], [2, 1, 0, 3], [0, 1, 3, 2]], [0, 1, 2, 3]),
    labelling([[3, 1, 2, 0], [0, 3, 2, 1], [0, 1, 3, 2]], [1, 0, 3, 2, 1]),
    labelling([cycle(7, 3)], [6, 5, 4]), labelling([cycle(6, 2), cycle(6, 4)], [5, 4, 3, 2, 1, 0]),
    labelling([cycle(6, 2), cycle(6, 3)], [5, 4, 3, 2, 1, 0]),
    labelling([[]], []), labelling([[], [], []], []), labelling([[0]], []), labelling([[0]], [0]),
    labelling([[1, 0]], []),
    # the counts' limits
    labelling([list(range(256))], copies(256, 4)), labelling([cycle(256)], copies(256, 4)),
    labelling([list(range(256))], list(range(255, -1, -1))), labelling([cycle(256, 2)] * 4, list(range(256))),
    labelling([[i ^ 1 for i in range(256)]], [i * 37 % 256 for i in range(1024)]), labelling([[0]], [0] * 1024),
    labelling([cycle(11, k % 11) for k in range(96)], cycle(11, 5)), labelling([list(range(11))] * 96, cycle(11, 5)),
    labelling([list(range(11))] * 95 + [STARRED + [5, 6, 7, 8, 9, 10]], cycle(11, 4)),
]
LABEL_FAULTS = [
    *[(2, sets(sites=n)) for n in HUGE], (2, sets(sites=0)), (2, sets(sites=2)), (2, sets(count=0)),
    (2, sets(count=0, images=[])),
    (2, sets(count=97, images=STARRED * 97)), (2, sets(count=2)), (2, sets(count=2 ** 64 - 1)),
    (2, sets(count=2 ** 63)),
    (2, shorter("images")), (2, longer("images", 3)), (2, sets(images=[])),
    (2, sets(sites=257, count=1, images=[i % 256 for i in range(257)])), (2, sets(sites=0, count=0, images=[])),
    (2, sets(sites=2 ** 63, count=2, images=[])), (2, sets(sites=2 ** 32, count=2 ** 32, images=[])),
    (5, last("images", 4)), (5, last("images", 5)), (5, first("images", 255)), (5, last("mapping", 5)),
    (5, first("mapping", 65535)),
    (5, first("mapping", 256)), (5, lambda x: dict(sites=0, images=[])),
    (5, sets(count=2, images=STARRED + [0, 0, 1, 2, 3])),
    (9, lambda x: dict(mapping=list(x["mapping"]) + [0] * (1025 - len(x["mapping"])), spare=[-1020] * 2)),
    (9, lambda x: dict(mapping=list(x["mapping"]) + [1] * (1025 - len(x["mapping"])), spare=[0] * 2)),
    (9, lambda x: dict(mapping=list(x["mapping"]) + [1] * (1090 - len(x["mapping"])), spare=[0] * 2)), *spares(2)]


def label_cases(oracle):
    for x in LABELLINGS:
        for spare in ([0, 0], [3, 1], [0, 5], [-1, 0], [1, -1], [-MOST, -MOST])[:6 if len(x["mapping"]) < 40 else 1]:
            if len(x["mapping"]) or min(spare) >= 0:
                yield label_case(dict(x, spare=spare))[1]
    yield from faulty(labelling([STARRED], copies(5, 2)), LABEL_FAULTS, label_case)


# ---- letters

def candidate(multiplicity, letter, text):
    return multiplicity, ord(letter) if isinstance(letter, str) else letter, padded(text)


def lettering(labelled, positions, candidates, basis=IDENTITY, symprec=0.001):
    return dict(labelled, positions=positions, basis=tuple(float(v) for v in basis),
                candidates=[c[0] for c in candidates], letters=[c[1] for c in candidates],
                texts=[c[2] for c in candidates], symprec=symprec, spare=[0] * 3)


BOTH = [STILL, (INVERSION, ORIGIN)]
QUARTERS = [(0.25, 0.0, 0.0), (-0.25, 0.0, 0.0), (0.0, 0.0, 0.0)]


def paired(*candidates, symprec=0.001):
    """Two sites that an inversion joins, at 1/4 and -1/4, and one by itself at 0."""
    return Job(sites=QUARTERS, operations=BOTH, targets=BOTH, images=[0, 1, 2, 1, 0, 2],
               rotations=[IDENTITY, INVERSION], candidates=[candidate(*c) for c in candidates], symprec=symprec)


def single(x, *candidates, c=IDENTITY, symprec=0.001):
    """A site at (x, 0, 0)."""
    return Job(c=c, sites=[(x, 0.0, 0.0)], images=[0], candidates=[candidate(*k) for k in candidates], symprec=symprec)


LETTERINGS = [
    # the worked example of document 01
    single(0.0, (2, "a", "x,y,z"), c=CENTRINGS["C"]),
    # the second site alone fits: at -1/4
    paired((2, "e", "3/4,0,0"), (1, "a", "0,0,0")),
    # the first site fits the second candidate, the second site the first: sites go before candidates
    paired((2, "a", "3/4,0,0"), (2, "b", "1/4,0,0"), (1, "c", "0,0,0")),
    paired((2, "b", "1/4,0,0"), (2, "a", "3/4,0,0"), (1, "c", "0,0,0")),
    # the first that fits, in list order; multiplicities of no orbit; one letter twice; letters of any byte
    paired((1, "z", "x,y,z"), (2, "f", "x,y,z"), (2, "e", "x,0,0"), (1, "a", "0,0,0")),
    paired((0, "z", "x,y,z"), (3, "y", "x,y,z"), (65535, "x", "x,y,z"), (2, "e", "x,0,0"), (2, "f", "x,y,z"),
           (1, "a", "0,0,0")),
    paired((2, 0, "x,y,z"), (1, 255, "x,y,z")), paired((2, 10, "x,y,z"), (1, 10, "x,y,z")),
    # 13: of one orbit, of both, with no candidate, of a multiplicity that is one off
    paired((2, "e", "x,y,z")), paired((1, "a", "0,0,0")), paired(), paired((3, "e", "x,y,z"), (1, "a", "x,y,z")),
    paired((2, "e", "1/8,0,0"), (1, "a", "0,0,0")), paired((2, "e", "x,y,z"), (1, "a", "1/2,0,0")),
    # a distance that is symprec; below it; an offset of the outer shell; the first offset that fits
    single(0.25, (1, "a", "0,0,0"), symprec=0.25), single(0.25, (1, "a", "0,0,0"), symprec=math.nextafter(0.25, 1.0)),
    single(0.25, (1, "b", "9/4,0,0")), single(0.25, (1, "b", "-7/4,0,0")), single(0.25, (1, "b", "-11/4,0,0")),
    single(0.4, (1, "a", "0,0,0"), symprec=1.0),
    # a candidate that no orbit tries is read all the same; the sum of a term counts, not what it is on the way
    single(0.0, (1, "a", "x,y,z"), (9, "z", "x,y")),
    single(0.0, (1, "a", "x,y,z"), (9, "z", "x+9y+9y+9y+4y,9x+9x+9x+4x+z,y")),
    single(0.0, (1, "a", "9x+9x+9x+9x-9x,y,z")), single(0.0, (1, "a", "9x+9x+9x+9x,y,z")),
    # no sites, with a candidate and without, and one that is none
    Job(), Job(candidates=[candidate(1, "a", "x,y,z")]), Job(candidates=[candidate(1, "a", "x,y")]),
    Job(candidates=[candidate(1, "a", "-9y+6z,9y+5y+9z,9z")]),
    # 64 candidates, the last fits; one more
    single(0.25, *[(1, 64 + k % 32, "1/2,0,0") for k in range(63)], (1, "q", "x,0,0")),
    single(0.25, *[(1, "r", "x,0,0")] * 65),
]


def letter_arguments(job, run):
    """What the letter call is given of a job: what its run had by then."""
    n = len(job.sites)
    return dict(sites=n, count=len(job.targets), images=flat(run.aligned), mapping=run.mapping, spare=[0] * 3,
                positions=[floats(p) for p in run.positions], basis=floats(run.basis), symprec=job.symprec,
                candidates=[c[0] for c in job.candidates], letters=[c[1] for c in job.candidates],
                texts=[c[2] for c in job.candidates])


def letter_of(diagonals, job, run, spare=None):
    """The Rust's letters, or 13; 4 where the job's basis became one that the call is not given."""
    x = dict(letter_arguments(job, run), spare=spare or [0] * 3)
    found = [run.labels, run.multiplicities, run.letters] if run.refused == 0 else None
    refused, record = letter_case(diagonals, x, found)
    assert refused in (4, 10, run.refused)
    return record


def words_of(job):
    """The letter call's arguments for a job that is refused before it."""
    return dict(sites=len(job.sites), count=1, images=list(range(len(job.sites))), mapping=list(range(len(job.sites))),
                positions=list(job.sites), basis=tuple(map(float, IDENTITY)), symprec=job.symprec, spare=[0] * 3,
                candidates=[c[0] for c in job.candidates], letters=[c[1] for c in job.candidates],
                texts=[c[2] for c in job.candidates])


# mappings that no job has: by the words
GENERAL = (3.1, 0.2, -0.7, 0.4, 2.9, 0.1, -0.3, 0.6, 4.2)
FAR = [(999.25, -1000.0, 17.5), (-0.25, 0.5, 0.0), (0.75, 3.0, -2.0)]
OWN = [
    lettering(labelling([[0, 1]], [1, 0, 1]), QUARTERS, [candidate(1, "a", "x,0,0"), candidate(2, "b", "x,0,0")]),
    lettering(labelling([[0, 1]], [1, 0, 1]), QUARTERS, [candidate(1, "a", "3/4,0,0"), candidate(2, "b", "0,0,0")]),
    lettering(labelling([[1, 0]], [1, 0, 1]), QUARTERS, [candidate(3, "c", "0,0,0")]),
    lettering(labelling([[1, 0, 2], [0, 2, 1]], [2, 0]), QUARTERS[:2], [candidate(2, "d", "3/4,0,0")]),
    lettering(labelling([STARRED], [4, 2, 1]), QUARTERS, [candidate(1, "e", "x,0,0"), candidate(1, "f", "x,y,z")]),
    lettering(labelling([STARRED], copies(5, 2)), [(0.1 * k, 0.0, 0.2) for k in range(10)],
              [candidate(4, "g", "7/9,0,z"), candidate(2, "h", "x,x,z"), candidate(2, "i", "x,0,1/5"),
               candidate(4, "j", "x,y,z")]),
    lettering(labelling([STARRED], copies(5, 2)), [(0.1 * k, 0.0, 0.2) for k in range(10)],
              [candidate(4, "g", "x,0,z"), candidate(2, "h", "x,x,z")]),
    lettering(labelling([[0, 1, 2]], [2, 1, 0]), FAR, [candidate(1, "k", "1/4,0,z"), candidate(1, "l", "x,1/2,0"),
                                                       candidate(1, "m", "3/4,1,0"), candidate(1, "n", "x,y,z")],
                                                       GENERAL, 0.01),
    lettering(labelling([[0, 1, 2]], [2, 1, 0]), FAR, [candidate(1, "k", "1/4,0,z"), candidate(1, "m", "3/4,1,0")],
              GENERAL, 0.01),
    lettering(labelling([[0, 1, 2]], [2, 1, 0]), FAR, [candidate(1, "o", "0,0,0")], GENERAL, 1000.0),
    lettering(labelling([[0]], [0]), [(0.25, 0.0, 0.0)], [candidate(1, "p", "0,0,0")],
              [1e6, 0, 0, 0, -1e6, 0, 0, 0, 1e6], 1000.0),
    lettering(labelling([[]], []), [], []), lettering(labelling([[], []], []), [], [candidate(1, "a", "x,y,z")] * 64),
    lettering(labelling([[0]], []), [], []),
    # 1,024 sites of one orbit, which its last site alone fits
    lettering(labelling([[0]], [0] * 1024), [ORIGIN] * 1023 + [(0.25, 0.0, 0.0)],
              [candidate(1023, "y", "x,y,z"), candidate(1024, "z", "1/4,0,0")]),
]
EIGHT = padded("x+9y+9y+9y+4y,9x+9x+9x+4x+z,y")
LETTER_FAULTS = [
    *[(2, sets(sites=n)) for n in HUGE], (2, sets(count=0)), (2, sets(count=97, images=[0, 1, 2] * 97)),
    (2, sets(count=2 ** 63)),
    (2, shorter("images")), (2, longer("images", 3)), (2, longer("mapping", 0)), (2, shorter("mapping")),
    (2, sets(mapping=[])),
    (2, shorter("positions")), (2, longer("positions", ORIGIN)), (2, shorter("candidates")), (2, shorter("letters")),
    (2, shorter("texts")), (2, longer("candidates", 1)), (2, longer("letters", 7)), (2, longer("texts", EIGHT)),
    (2, sets(candidates=[])),
    (2, lambda x: dict(candidates=[1] * 65, letters=[97] * 65, texts=[padded("x,y,z")] * 65)),
    (4, first("basis", math.nan)), (4, last("basis", math.inf)), (4, last("basis", math.nextafter(1e6, 2e6))),
    (4, first("basis", -math.nextafter(1e6, 2e6))), (4, last("positions", (0.0, 0.0, math.nan))),
    (4, first("positions", (0.0, -math.inf, 0.0))), (4, last("positions", (math.nextafter(1000.0, 2000.0), 0.0, 0.0))),
    *[(4, sets(symprec=s)) for s in (0.0, -0.0, -0.001, math.nan, math.inf, math.nextafter(1000.0, 2000.0))],
    (5, last("images", 1)), (5, last("images", 3)), (5, first("images", 255)), (5, last("mapping", 3)),
    (5, first("mapping", 65535)),
    (6, last("texts", padded("x,y"))), (6, first("texts", padded("+x,y,z"))),
    (6, last("texts", padded("9x+9x+9x+5x,y,z"))),
    (8, first("texts", padded("-9y+6z,9y+5y+9z,9z"))), (8, last("texts", EIGHT)), *spares(3),
    (13, sets(candidates=[9, 1])), (13, sets(candidates=[2, 2])), (13, sets(candidates=[], letters=[], texts=[])),
    (13, last("texts", padded("1/2,0,0"))), (13, first("texts", padded("1/2,0,0"))),
    (13, sets(symprec=5e-324, basis=GENERAL,
     positions=[(0.1, 0.2, 0.7)] * 3))]
# with 1,025 listed sites
MANY_FAULTS = [(4, last("positions", (0.0, 0.0, math.nan))), (5, last("mapping", 3)),
               (6, last("texts", padded("x,y"))), (8, last("texts", EIGHT)), (10, sets(spare=[-1020] * 3)),
               (13, sets(candidates=[9, 1], spare=[-1020] * 3))]


def letter_cases(oracle, diagonals):
    for job in LETTERINGS:
        run = Run(oracle, job)
        if run.reached:
            small = len(run.mapping) < 40 and len(job.candidates) < 40
            yield from (letter_of(diagonals, job, run, spare)
                        for spare in ([0, 0, 0], [2, 0, 1], [0, 4, 0], [-1, 0, 3], [0, -1, 0],
                                      [1, 1, -MOST])[:6 if small else 1]
                        if run.mapping or min(spare) >= 0)
        else:
            refused, record = letter_case(diagonals, words_of(job))
            assert refused == run.refused
            yield record
    for x in OWN:
        yield letter_case(diagonals, x)[1]
        if len(x["mapping"]) < 20:
            yield letter_case(diagonals, dict(x, spare=[3, 2, 1]))[1]
    good = lettering(labelling([[0, 1, 2], [1, 0, 2]], [0, 1, 2]), QUARTERS,
                     [candidate(2, "e", "3/4,0,0"), candidate(1, "a", "0,0,0")])
    assert letter_case(diagonals, good)[0] == 0
    yield from faulty(good, LETTER_FAULTS, lambda x: letter_case(diagonals, x))
    many = dict(good, mapping=[0] * 1025, positions=[ORIGIN] * 1025)
    for k, fault in [(9, sets()), *MANY_FAULTS]:
        refused, record = letter_case(diagonals, dict(many, **fault(many)))
        assert refused == min(k, 9)
        yield record
    refused, record = letter_case(diagonals, dict(good, mapping=[0] * 1025, spare=[-1020] * 3))
    assert refused == 2
    yield record


# ---- designs of the generator: every list that the run had

DESIGN_KINDS = [("real", 90), ("wild", 60), ("ties", 40), ("outer", 40), ("edge", 60), ("zeros", 30), ("nosites", 10)]
SPARE = [[0] * 4, [1, 0, 3, 0], [0, 2, 0, 1], [5, 5, 5, 5]]


def is_small(job):
    listed = len(job.sites) * abs(det(job.c))
    return (listed <= 18 and len(job.candidates) <= 14
            and len(job.sites) * len(job.operations) <= 200 and len(job.operations) + len(job.targets) <= 52)


def design_cases(oracle, diagonals, job, run, spare):
    rotations, targets = [m for m, _ in job.operations], [m for m, _ in job.targets]
    x = dict(t=job.t, rotations=rotations, images=job.images, sites=len(job.sites), targets=targets, spare=spare[:1])
    yield align_case(x, flat(run.aligned))[1]
    x = dict(c=job.c, elements=job.elements, positions=[floats(p) for p in run.primitive], spare=spare)
    yield list_case(diagonals, x, listing(run, job.elements))[1]
    x = letter_arguments(job, run)
    yield label_case(dict(x, spare=spare[:2]), [run.labels, run.multiplicities])[1]
    yield letter_of(diagonals, job, run, spare[:3])


def designs(oracle):
    """Small jobs that the Rust answers or refuses with 13, with their runs."""
    for kind, count in DESIGN_KINDS:
        for job in generated(oracle, 41, kind, count):
            if is_small(job):
                run = Run(oracle, job)
                if run.reached:
                    yield job, run


def cases(oracle):
    diagonals = Diagonals(oracle)
    yield from align_cases(oracle)
    yield from list_cases(oracle, diagonals)
    yield from label_cases(oracle)
    yield from letter_cases(oracle, diagonals)
    count = 0
    for job, run in designs(oracle):
        yield from design_cases(oracle, diagonals, job, run, SPARE[count % 4])
        count += 1
    assert count >= 150, count
