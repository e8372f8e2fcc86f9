"""Whole jobs: the call on bytes and its report (J), the call on lists (j), a job's bytes read into lists (b).

Expected of J: what `ORACLE moyo --full` prints for those bytes, the report and every list bit for bit, which is moyo's
own `standardize_and_symmetrize_cell` and `assign_wyckoffs_by_orbit`; `ORACLE doc --full`, the oracle's second
implementation, prints the same of each. Refusals 1 to 9 are the oracle's. An element is that of the listed site's
primitive site. 10, which the report program cannot meet, is by document 01's words: a list shorter than the answer,
after 9 and before 11. j has such jobs as lists; lists that belong together and differ in length are 2. b has what the
jobs were written from, or Python's `struct` reads; 1 is the oracle's, 10 a list shorter than what would stand in it.

The jobs are those of job_designs.py and the generator's (`ORACLE dump`).
"""
import os
import subprocess
import tempfile

from job_designs import COMMANDS, FAULTS, FULL, GOOD, GRAMMAR, LARGE, LIMITS, LISTS_FAULTS, OVER, PAST, READINGS
from job_designs import UNTRIED, WORKED, damaged, payloads
from jobs import Job, f64, i8, parts
from records import case, listed_bytes, listed_elements, listed_long, listed_matrices, listed_numbers, listed_texts
from records import listed_triples, number, pattern, shortened
from site_vectors import faulty, flat, spares
from vectors_matrices import det

# of the lists of an answer: positions, points, mapping, elements, labels, multiplicities, letters, primitive positions
WIDTHS = (3, 3, 1, 1, 1, 1, 1, 3)


# ---- what the Rust answers

class Outcome:
    """The number of a refusal or 0, and the report; of an answer its counts, its bases and factors, and its lists."""

    def __init__(self, oracle, data):
        out, second = (subprocess.run([oracle, way, "--full"], input=data, capture_output=True, check=True).stdout
                       for way in ("moyo", "doc"))
        assert out == second
        head, _, full = out.partition(b"\nfull\n")
        told = head.split()
        self.refused, self.report = (int(told[1]), out) if told[0] == b"refused" else (0, head + b"\n")
        if not self.refused:
            self.counts = [int(told[1]), int(told[3])]
            self.read([line.split() for line in full.decode().split("\n")[:-1]])

    def read(self, rows):
        named, sites = {r[0]: r[1:] for r in rows}, [r for r in rows if r[0] == "site"]
        self.singles = [shortened(w) for w in named["primitive-basis"] + named["listed-basis"]] + named["factors"]
        self.mapping = [int(r[8]) for r in sites]
        self.before = [[shortened(w) for r in sites for w in r[2:5]], flat(r[5:8] for r in sites), self.mapping]
        self.behind = [[r[k] for r in sites] for k in (9, 10, 11)]
        self.primitive = [shortened(w) for r in rows if r[0] == "primitive" for w in r[2:5]]

    def lists(self, elements):
        return [*self.before, [elements[i] for i in self.mapping], *self.behind, self.primitive]


def cells(lists, rooms, widths):
    """Each list's words, and zeros behind them."""
    return flat(list_ + [0] * (room * width - len(list_))
                for list_, room, width in zip(lists, rooms, widths, strict=True))


def needed(x):
    """The entries of an answer, list by list."""
    return [len(x.sites) * abs(det(x.c))] * 7 + [len(x.sites)]


def rooms_for(x, spare):
    """Room for an answer, and for as many entries more; for a few where there is no job, or no answer could be lent."""
    return [max(0, (n if n <= 1024 else 3) + s) for n, s in zip(needed(x) if x else [2] * 8, spare, strict=True)]


def settled(outcome, x, rooms):
    """The number of the refusal or 0, with 10 at its place."""
    short = x and any(r < n for r, n in zip(rooms, needed(x), strict=True))
    return 10 if short and outcome.refused in (0, 11, 12, 13) else outcome.refused


def words(outcome, refused, elements, rooms, *report):
    """What is said, the bases and factors, the report where it is asked for, and every lent cell."""
    if refused:
        return ["refused", refused, *[0] * 21, *report, *cells([[]] * 8, rooms, WIDTHS)]
    return ["accepted", *outcome.counts, *outcome.singles, *report, *cells(outcome.lists(elements), rooms, WIDTHS)]


# ---- records: `x` is the job, or nothing where bytes are none or lists are unlike; each call's refusal and its record

def packed(data, rooms):
    return [listed_long(data)] + [number(r) for r in rooms]


def bytes_case(oracle, data, x, spare=(0,) * 8):
    outcome, rooms = Outcome(oracle, data), rooms_for(x, spare)
    assert x or outcome.refused == 1
    refused = settled(outcome, x, rooms)
    report = b"refused 10\n" if refused == 10 else outcome.report
    return refused, case("J", packed(data, rooms), words(outcome, refused, x and x.elements, rooms, report.hex()))


# the lists of a job, each with how it is packed and the width of an entry
LISTS = [("elements", listed_elements, 1), ("positions", listed_triples, 3), ("rotations", listed_matrices, 9),
         ("translations", listed_triples, 3), ("images", listed_long, 1),
         ("target_rotations", listed_matrices, 9), ("target_translations", listed_triples, 3),
         ("conventional", listed_matrices, 9), ("multiplicities", listed_numbers, 1), ("letters", listed_bytes, 1),
         ("texts", listed_texts, 64)]


def lists_of(x):
    """A job's lists by name, and what it has one of."""
    def each(entries, k):
        return [e[k] for e in entries]

    return dict(lattice=x.lattice, t=x.t, shift=x.shift, c=x.c, symprec=x.symprec, elements=x.elements,
                positions=x.sites, rotations=each(x.operations, 0), translations=each(x.operations, 1), images=x.images,
                target_rotations=each(x.targets, 0), target_translations=each(x.targets, 1), conventional=x.rotations,
                multiplicities=each(x.candidates, 0), letters=each(x.candidates, 1), texts=each(x.candidates, 2))


TOGETHER = [("elements", "positions"), ("rotations", "translations"), ("target_rotations", "target_translations"),
            ("multiplicities", "letters", "texts")]


def job_of(y):
    """The job of such lists, or nothing where those that belong together differ in length."""
    if any(len({len(y[name]) for name in names}) > 1 for names in TOGETHER):
        return None
    _, operations, targets, candidates = (list(zip(*(y[name] for name in names))) for names in TOGETHER)
    return Job(y["lattice"], y["t"], y["shift"], y["c"], y["positions"], operations, y["images"], targets,
               y["conventional"], y["symprec"], y["elements"], candidates)


def lists_case(oracle, y, twin=None):
    """`twin`: a job that has the same answer, where no bytes hold these lists."""
    x = job_of(y)
    outcome, rooms = x and Outcome(oracle, (twin or x).bytes()), rooms_for(x, y["spare"])
    refused = settled(outcome, x, rooms) if x else 2
    assert refused != 1
    data = [f64(y["lattice"]), i8(y["t"]), f64(y["shift"]), i8(y["c"])] + [pack(y[name]) for name, pack, _ in LISTS]
    data += [f64([y["symprec"]])] + [number(r) for r in rooms]
    return refused, case("j", data, words(outcome, refused, y["elements"], rooms))


def entry_words(entries):
    """Of numbers, or of triples, matrices and texts of them."""
    values = flat(e if isinstance(e, (tuple, list, bytes)) else [e] for e in entries)
    return [pattern(v) if isinstance(v, float) else v for v in values]


def read_case(oracle, data, x, spare=(0,) * 11):
    """Lists behind the images are printed first."""
    y, widths = x and lists_of(x), [width for _, _, width in LISTS]
    need = [len(y[name]) if x else 2 for name, _, _ in LISTS]
    rooms = [max(0, n + s) for n, s in zip(need, spare, strict=True)]
    assert (x is None) == (Outcome(oracle, data).refused == 1)
    refused = 1 if x is None else 10 if any(r < n for r, n in zip(rooms, need)) else 0
    said, lists = ["refused", refused, *[0] * 31], [[]] * 11
    if not refused:
        singles = [list(map(float, y["lattice"])), y["t"], y["shift"], y["c"], [y["symprec"]]]
        said = ["read", *(need[k] for k in (0, 2, 4, 5, 7, 8)), *entry_words(singles)]
        lists = [entry_words(y[name]) for name, _, _ in LISTS]
    ordered = [cells(lists[part], rooms[part], widths[part]) for part in (slice(5, 11), slice(0, 5))]
    return refused, case("b", packed(data, rooms), said + flat(ordered))


# ---- jobs on purpose

# exact room as a rule, too much of it at times
SPARE = [[0] * 8] * 6 + [[3, 0, 1, 2, 0, 5, 1, 4], [1] * 8]
SHORT = [fault({})["spare"] for _, fault in spares(8)]


def made(x):
    return Job(**{name: entry for name, entry in x.items() if name not in ("tail", "spare")})


def fault_case(oracle, x):
    job, tail = made(x), x["tail"]
    data = job.bytes()[:-1] if tail is None else job.bytes() + tail
    return bytes_case(oracle, data, None if tail != b"" else job, x["spare"])


def job_or_none(oracle, data):
    return None if Outcome(oracle, data).refused == 1 else parts(data)


def purposeful_cases(oracle):
    for x in WORKED + READINGS + GRAMMAR + LIMITS + [COMMANDS]:
        yield bytes_case(oracle, x.bytes(), x)[1]
    for x in WORKED[:5] + [made(GOOD)]:
        for spare in [[40] * 8, *SPARE, *SHORT]:
            yield bytes_case(oracle, x.bytes(), x, spare)[1]
            yield lists_case(oracle, dict(lists_of(x), spare=spare))[1]
    yield from faulty(GOOD, FAULTS, lambda x: fault_case(oracle, x))
    yield from faulty(dict(lists_of(made(GOOD)), spare=[0] * 8), LISTS_FAULTS, lambda y: lists_case(oracle, y))


def byte_cases(oracle):
    for data in dict.fromkeys([*damaged(made(GOOD).bytes()), *payloads(WORKED[0].bytes())]):
        x = job_or_none(oracle, data)
        yield bytes_case(oracle, data, x)[1]
        yield read_case(oracle, data, x)[1]
    for x in LARGE + OVER:
        yield bytes_case(oracle, x.bytes(), x)[1]
        yield bytes_case(oracle, x.bytes()[:-1] + b"?", None)[1]
    yield bytes_case(oracle, FULL[0].bytes() + b"Z", None)[1]


def read_cases(oracle):
    x = made(GOOD)
    for spare in [[40] * 11, [-9] * 11] + [[-1 if k == i else k % 3 for k in range(11)] for i in range(11)]:
        yield read_case(oracle, x.bytes(), x, spare)[1]
    for x in WORKED[:5] + LIMITS[:-5] + [*OVER, COMMANDS, FULL[0]]:
        yield read_case(oracle, x.bytes(), x)[1]
    for data in [FULL[0].bytes() + b"Z"] + [x.bytes()[:-1] + b"?" for x in OVER]:
        yield read_case(oracle, data, None)[1]


def past_cases(oracle):
    y, untried = lists_of(PAST), lists_of(Job(candidates=UNTRIED))
    y.update((name, untried[name] + y[name]) for name in TOGETHER[3])
    assert len(PAST.bytes()) <= 65536 < len(job_of(y).bytes())
    for spare in ([0] * 8, SHORT[7]):
        yield lists_case(oracle, dict(y, spare=spare), PAST)[1]


# ---- the generator's jobs

SEED = 10
KINDS = [("real", 70, 5000), ("wild", 60, 3000), ("ties", 50, 3000), ("outer", 40, 3000), ("edge", 80, 4000),
         ("limits", 30, 9000), ("nosites", 40, 3000), ("fault", 120, 3000), ("faults", 70, 3000), ("damaged", 70, 3000),
         ("zeros", 40, 3000)]


def dumped(oracle, kind, count, most):
    """The bytes of those that are small enough."""
    with tempfile.TemporaryDirectory() as folder:
        subprocess.run([oracle, "dump", str(SEED), str(count), folder, "--kind", kind, "--max", str(most)], check=True)
        for name in sorted(os.listdir(folder)):
            if name.endswith(".job"):
                with open(os.path.join(folder, name), "rb") as f:
                    yield f.read()


def generated_cases(oracle):
    for k, data in enumerate(data for kind in KINDS for data in dumped(oracle, *kind)):
        x, spare = job_or_none(oracle, data), SPARE[k % 8]
        yield bytes_case(oracle, data, x, spare)[1]
        if k % 3 == 0 and x and x.sites:
            yield bytes_case(oracle, data, x, SHORT[k // 3 % 10])[1]
        if k % 5 == 0 and x and len(data) < 2000:
            yield lists_case(oracle, dict(lists_of(x), spare=spare))[1]
        if k % 7 == 0 and len(data) < 2000:
            yield read_case(oracle, data, x, [*spare, 0, 2, 0])[1]


def cases(oracle):
    for family in (purposeful_cases, byte_cases, read_cases, past_cases, generated_cases):
        yield from family(oracle)
