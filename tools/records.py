"""Records and lines of crates/vectors, as the table in its src/main.rt has them: arguments packed, answers printed."""
import struct

from jobs import f64, i8

# the most entries of a list, and the most cells that are lent; the most of a long list of bytes; much room
MOST = 1100
LONG = 65600
MUCH = 300


def case(tag, parts, words):
    """A record and its line."""
    return tag.encode() + b"".join(parts), " ".join([tag] + [str(w) for w in words])


def number(n):
    return struct.pack("<H", n)


def size(n):
    return struct.pack("<Q", n)


def listed(entries, pack):
    assert len(entries) <= MOST
    return number(len(entries)) + b"".join(pack(e) for e in entries)


def listed_long(data):
    assert len(data) <= LONG
    return size(len(data)) + bytes(data)


def listed_bytes(images):
    return listed(images, lambda image: bytes([image]))


def listed_numbers(numbers):
    return listed(numbers, number)


def listed_elements(elements):
    return listed(elements, lambda e: struct.pack("<i", e))


def listed_texts(texts):
    assert all(len(t) == 64 for t in texts)
    return listed(texts, bytes)


def listed_matrices(ms):
    return listed(ms, i8)


def listed_triples(ts):
    return listed(ts, f64)


def value(bits):
    return struct.unpack("<d", struct.pack("<Q", bits))[0]


def pattern(x):
    """The hexadecimal digits of a float's pattern, or `nan`."""
    return "nan" if x != x else "%x" % struct.unpack("<Q", struct.pack("<d", x))[0]


def shortened(digits):
    """As `pattern`, of 16 digits."""
    return "%x" % int(digits, 16)


def lent(refused, words, cells, width=1):
    """The verdict, and that many cells of a width: the answer's words and zeros behind them, or zeros."""
    if refused:
        return ["refused", refused] + [0] * (cells * width)
    assert len(words) <= cells * width
    return ["accepted"] + list(words) + [0] * (cells * width - len(words))


def lent_lists(refused, lists):
    """As `lent`, of lists: each its answer's words, its cells and their width."""
    out = ["refused", refused] if refused else ["accepted"]
    for words, cells, width in lists:
        out += lent(refused, words, cells, width)[2 if refused else 1:]
    return out


def rooms(n):
    """The room that is just enough first; then too much, one too little, none."""
    return [r for r in dict.fromkeys([n, n + 1, n + 4, MUCH, n - 1, 0]) if 0 <= r <= MUCH]
