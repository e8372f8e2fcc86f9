"""Coordinates of candidates: the first triplet of every Wyckoff position of International Tables A, and strings at the
edge of document 01's grammar or outside it.

Expected: by the grammar as a regular expression, sums of coefficients as whole numbers, constants as exact fractions
rounded once each (`fractions.Fraction` to float is correctly rounded) and added left to right by the machine. Nothing
of it is this repository's reader. The triplets are those of data/international-tables-first-triplets.txt, which stands
beside document 01; TABLE names it.
"""
import random
import re
from fractions import Fraction

from records import case, lent, pattern

ITEM = r"(?:[0-9]?[xyz]|[0-9]/[1-9]|[0-9])"
TERM = re.compile(r"-?%s(?:[+-]%s)*" % (ITEM, ITEM))
SIGNED = re.compile(r"([+-]?)(%s)" % ITEM)


def term(text):
    """The three summed coefficients and the origin of a term."""
    row, origin = [0, 0, 0], 0.0
    for sign, item in SIGNED.findall(text):
        s = -1 if sign == "-" else 1
        if item[-1] in "xyz":
            row["xyz".index(item[-1])] += s * (int(item[0]) if len(item) == 2 else 1)
        else:
            n, _, d = item.partition("/")
            origin += float(Fraction(s * int(n), int(d or 1)))
    return row, origin


def read(data):
    """Rows and origin of 64 bytes, or nothing."""
    terms = data.replace(b" ", b"").decode("latin-1").split(",")
    if len(terms) != 3 or not all(TERM.fullmatch(t) for t in terms):
        return None
    found = [term(t) for t in terms]
    rows = [e for row, _ in found for e in row]
    return (rows, [q for _, q in found]) if max(map(abs, rows)) <= 31 else None


def coordinates(data):
    assert len(data) == 64
    found = read(data)
    words = [] if found is None else found[0] + [pattern(q) for q in found[1]]
    return case("W", [data], lent(6 if found is None else 0, words, 12))


def padded(text):
    return text.encode("latin-1").ljust(64)[:64]


# document 01's designs and sentences, and the pairs that tell readings apart
NAMED = [
    "-x,2x,1/2", "x,y", "+x,y,z", "x,y,z", "9x+9x+9x+9x-9x,y,z", "9x+9x+9x+5x-x,y,z", "9x+9x+9x+9x,y,z", "9x+9x+9x+4x,y,z",
    "9x+9x+9x+5x,y,z", "-9x-9x-9x-4x,y,z", "-9x-9x-9x-5x,y,z", "0x,-0,0/3", "1 /2,- x,z", "1/2x,y,z", "x,y,z,", ",x,y,z",
    "", "--x,y,z", "w,y,z", ",y,z", "x+,y,z", "x+-y,y,z", "12x,y,z", "10/12,0,0", "0.5,y,z", "1/0,y,z", "x2,y,z", "x/2,y,z",
    "2*x,y,z", "00,0,0", "X,y,z", "x,y,z\t", "\tx,y,z", "x,y,z\0", "1/2-1/3,0,0", "-1/4,-1,1", "9/1,9+9+9,0", "x-x+y-y,0,0",
    "x y,z,x", "x , y , z", "1 2,0,0", "1/2/3,0,0", "x,y;z", "x,,z", "-,y,z", "+,y,z", "1/,y,z", "/2,y,z", "x1,y,z", "1-,0,0",
    "-1/3+2/3-1/3,0,0", "1/3+1/3+1/3,7/9,5/7", "x,x,x", "2x-y,x+y,z-1/2", "x+9y+9y+9y+4y,9x+9x+9x+4x+z,y", "x,y,z x", "x,y,zz",
]


def stray(rng):
    """A triplet with a byte changed, dropped or put in."""
    text = bytearray(rng.choice(NAMED).encode("latin-1").ljust(64)[:64])
    at = rng.randrange(24)
    kind = rng.randrange(3)
    byte = rng.choice(b"xyz0123456789+-/, \t\0XY.*w\xff\x7f")
    if kind == 0:
        text[at] = byte
    elif kind == 1:
        del text[at]
        text.append(32)
    else:
        text.insert(at, byte)
        del text[64:]
    return bytes(text)


def made(rng):
    """Three terms of items by chance, with spaces by chance."""
    terms = []
    for _ in range(3):
        items = []
        for k in range(rng.randint(1, 5)):
            sign = rng.choice(["", "-"]) if k == 0 else rng.choice("+-")
            item = rng.choice([rng.choice("xyz"), "%d%s" % (rng.randrange(10), rng.choice("xyz")), str(rng.randrange(10)),
                               "%d/%d" % (rng.randrange(10), rng.randint(1, 9))])
            items.append(sign + item)
        terms.append("".join(items))
    text = ",".join(terms)
    while rng.random() < 0.3 and len(text) < 60:
        at = rng.randrange(len(text) + 1)
        text = text[:at] + " " + text[at:]
    return padded(text)


def first_triplets(table):
    with open(table) as f:
        return [line.split()[3] for line in f if line.strip() and not line.startswith("#")]


def cases(oracle, table):
    rng = random.Random(37)
    triplets = first_triplets(table)
    assert len(triplets) == 1731
    for text in triplets:
        record, line = coordinates(padded(text))
        assert "refused" not in line, text
        yield record, line
    for text in NAMED:
        yield coordinates(padded(text))
    for k in range(256):
        yield coordinates(b"x,y,z" + bytes([k]) + b" " * 58)
    yield from (coordinates(stray(rng)) for _ in range(700))
    yield from (coordinates(made(rng)) for _ in range(400))
    yield coordinates(b"x" * 64)
    yield coordinates(b"x,y,z".rjust(64))
    yield coordinates(("-9x" * 10 + "+9x" * 10 + ",y,z").encode()[:64])
