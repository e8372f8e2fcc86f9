"""Patterns through `round` and its steps, `sqrt` and `remainder`.

Expected: ties away from zero and the case of rounding by exact fractions, and the placing that request M-104 of document
02 was given; the machine's IEEE 754 square root and C's fmod, by way of `math`.
"""
import math
import struct
from fractions import Fraction

from records import case, pattern, value

SIGN, INFINITY, DIGITS = 1 << 63, 0x7FF0000000000000, (1 << 52) - 1


class Random:
    """splitmix64"""

    def __init__(self, state):
        self.state = state

    def next(self):
        self.state = (self.state + 0x9E3779B97F4A7C15) % 2**64
        z = self.state
        z = (z ^ z >> 30) * 0xBF58476D1CE4E5B9 % 2**64
        z = (z ^ z >> 27) * 0x94D049BB133111EB % 2**64
        return z ^ z >> 31

    def below(self, n):
        return self.next() % n


def bits_of(x):
    return int.from_bytes(struct.pack("<d", x), "little")


def around(*patterns):
    """Each with both its neighbours, in both signs."""
    near = [p % SIGN + k for p in patterns for k in (-1, 0, 1)]
    return [p | s for p in near if 0 <= p < SIGN for s in (0, SIGN)]


def special():
    # the zeros, the infinities, both ends of the subnormals and of the normals; NaNs, quiet and signalling
    nans = [1, 2, 1 << 51, 1 << 51 | 1, DIGITS, 0x0007FFFFFFFFFFFF, 0x000DEADBEEF00001]
    out = around(0, 1, 1 << 52, INFINITY, DIGITS, INFINITY - 1) + [s | INFINITY | d for d in nans for s in (0, SIGN)]
    # 1/2 and the float below it, which an addition of 1/2 would take to 1
    return out + around(bits_of(0.49999999999999994), bits_of(0.5))


def ties(random):
    out = [n + 0.5 for n in range(40)]
    # from 2^52 on no float is half way; the last ones that are lie below
    for p in (10, 20, 31, 32, 40, 48, 49, 50, 51, 52):
        out += [2.0**p - k + 0.5 for k in (1, 2, 3)] + [2.0**p + 0.5] * (p < 52)
    for _ in range(60):
        p = 1 + random.below(51)
        out.append(random.below(1 << p) + 0.5)
    return around(*map(bits_of, out))


def powers():
    # of two, in whole steps of the exponent's field; every other one is a power of four
    out = [field << 52 for field in [*range(0, 2047, 37), *range(1018, 1030), *range(1070, 1080)]]
    out += map(bits_of, [1 << 52, (1 << 52) - 1, 1 << 53, (1 << 53) - 1, (1 << 53) + 2])
    return around(*out, *(1 << p for p in range(0, 52, 3)))


def squares(random):
    out = [n * n for n in range(1, 30)]
    # of 26 digits, scaled by even powers
    for _ in range(80):
        n = (1 << 25) + random.below(1 << 25)
        out.append(n * n * value(1023 - 2 * random.below(400) + 2 * random.below(400) << 52))
    # near those of numbers half way between two floats, where a root is hardest to round
    for _ in range(80):
        n = 2 * ((1 << 26) + random.below(1 << 26)) + 1
        out.append(n * n)
    return around(*map(bits_of, out))


def anything(random):
    out = []
    for _ in range(60):
        digits = random.below(52)
        subnormal = random.next() >> 12 + digits
        out += [subnormal, subnormal | SIGN]
    out += [random.next() for _ in range(300)]
    # where rounding has work to do: magnitudes from 2^-2 to 2^53
    for _ in range(200):
        field = 1021 + random.below(56)
        out.append(random.next() & (SIGN | DIGITS) | field << 52)
    return out


def rounded(x):
    if not math.isfinite(x):
        return x
    return math.copysign(float(math.floor(abs(Fraction(x)) + Fraction(1, 2))), x)


# the step that settles each, as the request was read before there was code
PLACED = {
    "special": [math.nan, math.inf, -math.inf, 0.0, -0.0],
    "nearest": [5e-324, -0.4, 0.49999999999999994, 1.0, -3.0, 2.0**52 + 1, 2.0**60, 1.7e308, 0.7, 2.4999999999999996],
    "tie": [0.5, -0.5, 1.5, -1.5, 2.5, 2.0**51 + 0.5, 2.0**52 - 0.5],
}


def step(x):
    """A special value is a zero or not finite; a tie is an odd number of halves."""
    if x == 0 or not math.isfinite(x):
        return "special"
    halves = 2 * Fraction(x)
    return "tie" if halves.denominator == 1 and halves.numerator % 2 == 1 else "nearest"


def root(x):
    return math.nan if x < 0 else math.sqrt(x)


def remainder(x):
    return math.nan if math.isinf(x) else math.fmod(x, 1.0)


def cases(oracle):
    random = Random(20)
    plain, half, power, square, any_one = special(), ties(random), powers(), squares(random), anything(random)
    out = []
    patterns = list(dict.fromkeys(plain + half + power + square + any_one))
    for bits in patterns:
        for tag, f in (("r", rounded), ("q", root)):
            out.append(case(tag, [bits.to_bytes(8, "little")], ["%x" % bits, pattern(f(value(bits)))]))
    placed = [(bits_of(x), name) for name, xs in PLACED.items() for x in xs]
    assert all(step(value(bits)) == name for bits, name in placed)
    for bits, name in dict.fromkeys(placed + [(bits, step(value(bits))) for bits in patterns]):
        out.append(case("s", [bits.to_bytes(8, "little")], ["%x" % bits, name, pattern(rounded(value(bits)))]))
    designs = [bits_of(x) for x in (-1.25, -1.0, 1.0, 0.75, -0.75, 2.0, -3.5, 1000.0, -999.9999999999999)]
    of_triples = list(dict.fromkeys(designs + plain + half[:120] + power + any_one[-260:]))
    for at in range(0, len(of_triples) - 2, 3):
        three = of_triples[at:at + 3]
        words = ["%x" % bits for bits in three] + [pattern(remainder(value(bits))) for bits in three]
        out.append(case("m", [bits.to_bytes(8, "little") for bits in three], words))
    return out
