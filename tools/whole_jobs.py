#!/usr/bin/env python3
"""The small whole jobs of crates/designs_jobs, with what the Rust answers to them.

usage: whole_jobs.py ORACLE FOLDER      (FOLDER: crates/designs_jobs; writes specs/Jobs.antt, proofs/Jobs.antt and
                                         specs/Matches.antt there, which rt fmt lays out)

ORACLE is the program that runs moyo's own sources over document 01's stand-in arithmetic.
Each job is built here byte by byte, given to `ORACLE moyo --full`, and what that prints (the
report, and bit by bit every list) becomes the expected outcome. Nothing of the expected values
comes from this repository's definitions. A number that the Rust has no counterpart for (1 to 9)
is the oracle's reading of document 01; 10, which the report program cannot meet, is by its words.
"""
import struct
import subprocess
import sys

from jobs import IDENTITY, f64, i8

INVERSION = [-1, 0, 0, 0, -1, 0, 0, 0, -1]
C_CENTRING = [1, -1, 0, 1, 1, 0, 0, 0, 1]
I_CENTRING = [0, 1, 1, 1, 0, 1, 1, 1, 0]
X_TO_Z = [0, 0, 1, 0, 1, 0, 1, 0, 0]


def job(lattice=IDENTITY, t=IDENTITY, shift=(0, 0, 0), c=IDENTITY, sites=((63, (0, 0, 0)),),
        operations=((IDENTITY, (0, 0, 0)),), images=(0,), targets=((IDENTITY, (0, 0, 0)),),
        rotations=(IDENTITY,), candidates=((1, "a", "x,y,z"),), symprec=0.001):
    b = b"L" + f64(lattice) + b"T" + i8(t) + f64(shift) + b"C" + i8(c)
    for element, p in sites:
        b += b"S" + struct.pack("<i", element) + f64(p)
    for m, v in operations:
        b += b"O" + i8(m) + f64(v)
    for image in images:
        b += b"P" + bytes([image])
    for m, v in targets:
        b += b"G" + i8(m) + f64(v)
    for m in rotations:
        b += b"R" + i8(m)
    for multiplicity, letter, text in candidates:
        b += b"W" + struct.pack("<H", multiplicity) + letter.encode() + text.encode().ljust(64)
    return b + b"N" + f64([symprec]) + b"Z"


BOTH = ((IDENTITY, (0, 0, 0)), (INVERSION, (0, 0, 0)))
STRETCHED = dict(lattice=[1, 0, 0, 0, 1, 0, 0, 0, 3], sites=[(63, (0, 0, 0.1))], candidates=[(1, "a", "0,0,0")], symprec=0.25)


def at(x, text, symprec=0.001):
    """One site at (x, 0, 0) and one candidate."""
    return job(sites=[(63, (x, 0, 0))], candidates=[(1, "a", text)], symprec=symprec)


JOBS = [
    ("the worked example of document 01", job(c=C_CENTRING, candidates=[(2, "a", "x,y,z")])),
    ("two orbits of a body-centred cell, lettered by different candidates",
     job(c=I_CENTRING, sites=[(63, (0, 0, 0)), (8, (0.25, 0, 0))], images=[0, 1],
         candidates=[(1, "z", "x,y,z"), (2, "a", "0,0,0"), (2, "b", "x,y,z")])),
    ("an inversion: the letter comes from the orbit's second site; a third site is its own orbit",
     job(sites=[(63, (0.25, 0, 0)), (63, (-0.25, 0, 0)), (8, (0, 0, 0))], operations=BOTH, targets=BOTH,
         images=[0, 1, 2, 1, 0, 2], rotations=[IDENTITY, INVERSION],
         candidates=[(2, "e", "3/4,0,0"), (2, "f", "x,y,z"), (1, "a", "0,0,0")])),
    ("the orbit's first site fits nothing, so that all 125 offsets are tried; its second site does",
     job(sites=[(63, (0.25, 0, 0)), (63, (-0.25, 0, 0))], operations=BOTH, targets=BOTH, images=[0, 1, 1, 0],
         rotations=[IDENTITY, INVERSION], candidates=[(2, "e", "3/4,0,0")])),
    ("a left-handed lattice, T of determinant -1, a shift and a translation",
     job(lattice=[2, 0, 0, 0, 3, 0, 0, 0.5, 4], t=[0, 1, 0, 1, 0, 0, 0, 0, 1], shift=(0.125, 0, 0),
         sites=[(63, (0.5, 0.25, -1.25))], targets=[(IDENTITY, (0.25, 0, 0))],
         candidates=[(1, "a", "x,y,z")])),
    ("a job without sites", job(sites=[], images=[])),
    ("equal rotations, the last wins: two sites are one orbit",
     job(sites=[(63, (0, 0, 0)), (63, (0, 0, 0))], operations=[(IDENTITY, (0, 0, 0))] * 2, images=[0, 1, 1, 0],
         candidates=[(2, "a", "x,y,z")])),
    ("an operation that no target takes joins nothing",
     job(sites=[(63, (0, 0, 0)), (63, (0, 0, 0))], operations=BOTH, images=[0, 1, 1, 0])),
    ("the distance is symprec: it misses", at(0.25, "0,0,0", 0.25)),
    ("the listed basis is shorter along z than the given one: 0.1 of it is within symprec",
     job(rotations=[IDENTITY, X_TO_Z], **STRETCHED)),
    ("of the given one it is not", job(**STRETCHED)),
    ("the constant -1/4", at(-0.25, "-1/4,0,0")),
    ("the constants -1 and 1", job(sites=[(63, (0, 0, 0))], candidates=[(1, "a", "-1,1,0")])),
    ("the constants 1/2 - 1/3 are those of a site at 1/2 - 1/3, rounded as they are", at(0.5 - 1 / 3, "1/2-1/3,0,0", 5e-324)),
    ("and not of one at 1/6", at(1 / 6, "1/2-1/3,0,0", 5e-324)),
    ("its last byte is cut", job()[:-1]),
    ("no operation", job(operations=[], images=[])),
    ("an image too many", job(images=[0, 0])),
    ("65 candidates", job(candidates=[(1, "a", "x,y,z")] * 65)),
    ("an entry of T is 32", job(t=[32, 0, 0, 0, 1, 0, 0, 0, 1])),
    ("an entry of C is -32", job(c=[-32, 0, 0, 0, 1, 0, 0, 0, 1])),
    ("an entry of O is 32", job(operations=[([1, 0, 0, 0, 1, 0, 0, 0, 32], (0, 0, 0))])),
    ("an entry of G is 32", job(targets=[([32, 0, 0, 0, 1, 0, 0, 0, 1], (0, 0, 0))])),
    ("an entry of R is -32", job(rotations=[[1, 0, 0, 0, 1, 0, 0, -32, 1]])),
    ("the lattice over 1,000,000", job(lattice=[1000000.0000000001, 0, 0, 0, 1, 0, 0, 0, 1])),
    ("the shift over 1,000", job(shift=(0, 1000.0000000000001, 0))),
    ("a position that is not finite", job(sites=[(63, (0, 0, float("inf")))])),
    ("the translation of an operation is not finite", job(operations=[(IDENTITY, (float("nan"), 0, 0))])),
    ("the translation of a target over 1,000", job(targets=[(IDENTITY, (0, 0, -1000.0000000000001))])),
    ("symprec is -0", job(symprec=-0.0)),
    ("permutation 0,0", job(sites=[(63, (0, 0, 0)), (63, (0.5, 0, 0))], images=[0, 0])),
    ("the second candidate, of a multiplicity that no orbit has, is no triplet; C is zero",
     job(c=[0] * 9, candidates=[(1, "a", "x,y,z"), (9, "b", "x,y")])),
    ("the determinant of T is 2", job(t=[2, 0, 0, 0, 1, 0, 0, 0, 1])),
    ("C is diag(13,5,1)", job(c=[13, 0, 0, 0, 5, 0, 0, 0, 1])),
    ("the starred C of refusal 8", job(c=[1, 31, 0, 31, 0, 1, 0, 1, 0])),
    ("a candidate of 8 that no orbit tries", job(candidates=[(1, "a", "x,y,z"), (9, "z", "x+9y+9y+9y+4y,9x+9x+9x+4x+z,y")])),
    ("17 sites of 64 copies are over 1,024",
     job(c=[8, 0, 0, 0, 8, 0, 0, 0, 1], sites=[(63, (0, 0, 0))] * 17, images=range(17))),
    ("the target's rotation is absent, and the lattice is zero",
     job(lattice=[0] * 9, targets=[(INVERSION, (0, 0, 0))])),
    ("the lattice is zero, and there is no candidate", job(lattice=[0] * 9, candidates=[])),
    ("there is no candidate", job(candidates=[])),
]

# room for two listed sites of one primitive one in each list, and less in one
ROOMS = ["positions", "points", "mapping", "elements", "labels", "multiplicities", "letters", "primitive"]


def rooms(short=None):
    size = {name: 1 if name == "primitive" else 2 for name in ROOMS}
    if short:
        size[short] -= 1
    return "record { %s }" % "; ".join("%s = %d" % (name, size[name]) for name in ROOMS)


def numbers(values):
    return " ∷ ".join([str(v) for v in values] + ["[]"])


def whole(text):
    v = int(text)
    return "pos %d" % v if v >= 0 else "negsuc %d" % (-v - 1)


def listed(values):
    return " ∷ ".join(list(values) + ["[]"])


def position(bits):
    return "record { x = float 0x%s; y = float 0x%s; z = float 0x%s }" % tuple(bits)


def basis(words):
    return listed("(%s)" % listed("float 0x" + b for b in words[3 * i:3 * i + 3]) for i in range(3))


def outcome(lines):
    if lines[0].startswith("refused"):
        return "refused " + lines[0].split()[1]
    head = lines[0].split()
    rest = [line.split() for line in lines]
    named = {words[0]: words[1:] for words in rest}
    sites = [words for words in rest if words[0] == "site"]
    elements = ELEMENTS[0]
    fields = [
        ("positions", listed(position(s[2:5]) for s in sites)),
        ("points", listed("(%s)" % listed(whole(v) for v in s[5:8]) for s in sites)),
        ("mapping", numbers(s[8] for s in sites)),
        ("elements", listed(whole(elements[int(s[8])]) for s in sites)),
        ("labels", numbers(s[9] for s in sites)),
        ("multiplicities", numbers(s[10] for s in sites)), ("letters", numbers(s[11] for s in sites)),
        ("primitive", listed(position(words[2:5]) for words in rest if words[0] == "primitive")),
        ("primitive_cell_basis", basis(named["primitive-basis"])), ("listed_cell_basis", basis(named["listed-basis"])),
        ("factors", listed(whole(v) for v in named["factors"])),
        ("sites", head[1]), ("orbits", head[3])]
    return "accepted (record { %s })" % "; ".join("%s = %s" % f for f in fields)


HEADER = """-- Small whole jobs: their bytes and their outcomes. One table; the one proof over it stands in proofs/. Accepted, 11, 12
-- and 13 are as the Rust gives them over the stand-in arithmetic, 1 to 10 by document 01. Made by tools/whole_jobs.py; not written by hand.
use Rattle.std.specs.Prelude.{refl, List, [], ◌∷◌, pos}
use Rattle.definitions.specs.Refusal.{accepted, refused}
use Rattle.definitions.specs.Job.{float}
use Rattle.definitions.specs.WholeCalls.{ample}
use Rattle.designs.specs.Evaluate.{Whole, Returned, evaluate, returned}

"""

# what rests on every row stands in proofs/, so that an edit of a row is refused at the row
PROOF_HEADER = """-- Every small whole job has its outcome.
use Rattle.definitions.specs.Lists.{Each}
use Rattle.designs.specs.Evaluate.{Returned}
use Rattle.designs_jobs.specs.Jobs.{%s, jobs}

"""


def rows_of(kind, rows, right, by, opened, pub):
    """Rows as declarations, each with its proof by computing, and the list of them. A row at a time: a task of the
    checker has a limit of steps."""
    out = []
    for k, (words, value) in enumerate(rows):
        out.append("-- %s\nabbrev %s_%d : %s\n%s_%d = %s\n" % (words, kind, k, KINDS[kind], kind, k, value))
        out.append("%sis_%d : %s %s_%d\nunfolding %s\nis_%d = %s %s_%d refl\n" % (
            pub, k, right, kind, k, opened, k, by, kind, k))
    names = ["%s_%d" % (kind, k) for k in range(len(rows))]
    out.append("unfoldable pub %s : List %s\n%s = %s\n" % (TABLES[kind], KINDS[kind], TABLES[kind], listed(names)))
    return "\n".join(out)


def proof_of(kind, rows, right):
    """The one proof over all rows."""
    proofs = "".join("(is_%d, " % k for k in range(len(rows))) + "tt" + ")" * len(rows)
    return "pub %s_right : Each %s %s\nunfolding Each %s\n%s_right = %s\n" % (
        TABLES[kind], right, TABLES[kind], TABLES[kind], TABLES[kind], proofs)


KINDS = {"job": "Whole", "match": "Matched"}
TABLES = {"job": "jobs", "match": "matches"}

ELEMENTS = [None]


def site_elements(data):
    """The elements of the job's sites, as its bytes have them."""
    out, at = [], 73 + 34 + 10
    while data[at:at + 1] == b"S":
        out.append(struct.unpack_from("<i", data, at + 1)[0])
        at += 29
    return out


def row(words, data, room, answer):
    return words, "record { bytes = %s; rooms = %s; outcome = %s }" % (numbers(data), room, answer)


def whole_jobs(oracle):
    rows = []
    for words, data in JOBS:
        out = subprocess.run([oracle, "moyo", "--full"], input=data, stdout=subprocess.PIPE).stdout
        ELEMENTS[0] = site_elements(data)
        rows.append(row(words, data, "ample", outcome(out.decode().splitlines())))
    # The report program lends room enough, so no run of the Rust shows 10: document 01's words do.
    worked = JOBS[0][1]
    ELEMENTS[0] = site_elements(worked)
    out = subprocess.run([oracle, "moyo", "--full"], input=worked, stdout=subprocess.PIPE).stdout
    rows.append(row("room for just the answer", worked, rooms(), outcome(out.decode().splitlines())))
    for name in ROOMS:
        rows.append(row("room for one entry less in the list of " + name, worked, rooms(name), "refused 10"))
    names = ", ".join("is_%d" % k for k in range(len(rows)))
    return (HEADER + rows_of("job", rows, "Returned", "returned", "evaluate", "pub "),
            PROOF_HEADER % names + proof_of("job", rows, "Returned"))


# position, coordinates and symprec of a match in the unit cell
MATCHES = [
    ((0.4, 0, 0), "0,0,0", 1.0), ((0.4, 0, 0), "0,0,0", 0.5), ((0.25, 0, 0), "0,0,0", 0.25), ((0, 0, 0), "0,0,0", 0.001),
    ((1.5, 0, 0), "-1/2,0,0", 0.001), ((0.3, 0.3, 0), "x,x,0", 0.001), ((0.3, 1.7, 0), "x,-x,0", 0.001),
    ((0.25, 0.5, 0.75), "x,2x,1/4", 0.001), ((0.1, 0.2, 0.3), "x,y,z", 0.001), ((0.1, 0.2, 0.3), "0,0,0", 0.001),
    ((-0.0, 0, 0), "x,0,0", 5e-324), ((0.2, 0, 0), "x,x,x", 0.2),
]

MATCH_HEADER = """-- Matches with their places and distances, as the Rust gives them over the stand-in arithmetic. One table, and one
-- proof over it.
-- Made by tools/whole_jobs.py; not written by hand.
use Rattle.std.specs.Prelude.{refl, List, [], ◌∷◌, Some, None}
use Rattle.definitions.specs.Lists.{Each}
use Rattle.definitions.specs.Job.{float}
use Rattle.designs.specs.Evaluate.{Matched, MatchedRight, match_evaluated, matched}

"""


def matches(oracle):
    rows = []
    for p, text, symprec in MATCHES:
        data = job(sites=[(63, p)], candidates=[(1, "a", text)], symprec=symprec)
        out = subprocess.run([oracle, "moyo", "--deep"], input=data, stdout=subprocess.PIPE).stdout.decode()
        words = [line.split() for line in out.splitlines()]
        found = [w for w in words if w[0] == "match"][0][2]
        listed_at = [w for w in words if w[0] == "site"][0][2:5]
        value = "None"
        if found != "-":
            place, distance = found.split(":")
            value = "Some (record { place = %s; distance = float 0x%s })" % (place, distance)
        rows.append(("%s at %s, symprec %s" % (text, p, symprec),
                     "record { position = %s; text = %s; symprec = float 0x%s; match = %s }" % (
                         position(listed_at), numbers(text.encode().ljust(64)), struct.pack(">d", symprec).hex(), value)))
    return (MATCH_HEADER + rows_of("match", rows, "MatchedRight", "matched", "match_evaluated", "")
            + "\n" + proof_of("match", rows, "MatchedRight"))


def main():
    oracle, folder = sys.argv[1:]
    jobs, proof = whole_jobs(oracle)
    for name, text in (("specs/Jobs", jobs), ("proofs/Jobs", proof), ("specs/Matches", matches(oracle))):
        with open("%s/%s.antt" % (folder, name), "w") as f:
            f.write(text)


main()
