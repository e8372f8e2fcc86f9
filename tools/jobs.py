"""Jobs of document 01 as bytes, and what the Rust answers to them. Read by the scripts beside it.

ORACLE is the program that runs moyo's own sources over document 01's stand-in arithmetic.
"""
import struct
import subprocess

IDENTITY = (1, 0, 0, 0, 1, 0, 0, 0, 1)
STILL = (IDENTITY, (0.0, 0.0, 0.0))


def i8(entries):
    return struct.pack("<9b", *entries)


def f64(values):
    return struct.pack("<%dd" % len(values), *values)


def columns(m):
    """Nine numbers row by row, column by column; and back."""
    return tuple(m[3 * j + i] for i in range(3) for j in range(3))


class Job:
    """The parts of a job; matrices are nine numbers row by row, a candidate is a multiplicity, a letter's byte and 64
    bytes."""

    def __init__(self, lattice=IDENTITY, t=IDENTITY, shift=(0.0, 0.0, 0.0), c=IDENTITY, sites=(), operations=(STILL,),
                 images=(), targets=(STILL,), rotations=(IDENTITY,), symprec=0.001, elements=None, candidates=()):
        self.lattice, self.t, self.shift, self.c, self.sites = lattice, t, shift, c, sites
        self.operations, self.images, self.targets, self.rotations, self.symprec = operations, images, targets, rotations, symprec
        self.elements = [63] * len(sites) if elements is None else elements
        self.candidates = candidates

    def bytes(self):
        b = b"L" + f64(columns(self.lattice)) + b"T" + i8(self.t) + f64(self.shift) + b"C" + i8(self.c)
        b += b"".join(b"S" + struct.pack("<i", e) + f64(p) for e, p in zip(self.elements, self.sites, strict=True))
        b += b"".join(b"O" + i8(m) + f64(v) for m, v in self.operations)
        b += b"".join(b"P" + bytes([image]) for image in self.images)
        b += b"".join(b"G" + i8(m) + f64(v) for m, v in self.targets)
        b += b"".join(b"R" + i8(m) for m in self.rotations)
        b += b"".join(b"W" + struct.pack("<HB", m, letter) + text for m, letter, text in self.candidates)
        return b + b"N" + f64([self.symprec]) + b"Z"


def parts(b):
    """The job of these bytes."""
    at = [0]

    def take(form):
        values = struct.unpack_from("<" + form, b, at[0])
        at[0] += struct.calcsize("<" + form)
        return values

    def every(command, form):
        out = []
        while b[at[0]:at[0] + 1] == command:
            at[0] += 1
            out.append(take(form))
        return out

    (lattice,), (t,), (c,) = every(b"L", "9d"), every(b"T", "9b3d"), every(b"C", "9b")
    sites = every(b"S", "i3d")
    operations = [(o[:9], o[9:]) for o in every(b"O", "9b3d")]
    images = [p[0] for p in every(b"P", "B")]
    targets = [(g[:9], g[9:]) for g in every(b"G", "9b3d")]
    rotations = every(b"R", "9b")
    candidates = every(b"W", "HB64s")
    ((symprec,),) = every(b"N", "d")
    return Job(columns(lattice), t[:9], t[9:], c, [s[1:] for s in sites], operations, images, targets, rotations,
               symprec, [s[0] for s in sites], candidates)


def generated(oracle, seed, kind, count):
    """Jobs of a kind of the generator; those that cannot be read are left out."""
    for index in range(count):
        job = subprocess.run([oracle, "gen", str(seed), str(index), "--kind", kind], capture_output=True, check=True).stdout
        if subprocess.run([oracle, "moyo"], input=job, capture_output=True, check=True).stdout != b"refused 1\n":
            yield parts(job)


def answer(oracle, job):
    """The refusal's number or 0, and the words of each line of every list, reached also where 13 applies."""
    run = subprocess.run([oracle, "moyo", "--deep"], input=job.bytes(), capture_output=True, check=True)
    # a letter is any byte
    lines = [line.split() for line in run.stdout.decode("latin-1").split("\n") if line.split()]
    refused = int(lines[0][1]) if lines[0][0] == "refused" else 0
    return refused, lines
