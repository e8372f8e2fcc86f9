#!/usr/bin/env python3
"""Makes what crates/vectors reads and is to print.

usage: vectors.py ORACLE TABLE CRATE

Writes CRATE/stdin, the records, and CRATE/stdout, a line for each. ORACLE is the program that runs moyo's own sources
over document 01's stand-in arithmetic, TABLE the first triplets of International Tables A. Each module `vectors_*` or
`*_vectors` beside this one has a family of calls, and says where its expected values come from.
"""
import collections
import sys

import job_vectors
import match_vectors
import site_vectors
import vectors_coordinates
import vectors_floats
import vectors_matrices
import vectors_passes
import vectors_permutations
import vectors_shuffle
import vectors_symmetrization

FAMILIES = [vectors_floats, vectors_matrices, vectors_passes, vectors_permutations, vectors_shuffle,
            vectors_symmetrization, site_vectors, job_vectors]
TABLED = [vectors_coordinates, match_vectors]


def verdict(line):
    words = line.split(" ")
    return " ".join([words[0]] + words[1:3] * (words[1] == "refused"))


def main():
    oracle, table, crate = sys.argv[1:]
    cases = list(dict.fromkeys(c for family in FAMILIES for c in family.cases(oracle)))
    cases = list(dict.fromkeys(cases + [c for family in TABLED for c in family.cases(oracle, table)]))
    assert len(dict(cases)) == len(cases), "a record has two answers"
    with open(crate + "/stdin", "wb") as f:
        f.write(b"".join(record for record, _ in cases))
    with open(crate + "/stdout", "w") as f:
        f.write("".join(line + "\n" for _, line in cases))
    counts = collections.Counter(verdict(line) for _, line in cases)
    print(len(cases), "records:", ", ".join("%s: %d" % entry for entry in counts.items()))


main()
