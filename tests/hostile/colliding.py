"""Texts that a table of std's hashes finds in one place.

std's hasher begins with a number that is fixed. Of a text of 16 bytes it takes the first eight and the last eight as numbers, the lowest byte first, and joins the length and that number to the one,
and a constant to the other, by xor. It multiplies the two to 128 bits, and joins the halves of the product by xor: that gives 0 where the product is a multiple of 2^64 + 1. So each text has the hash of
all others where its first eight bytes make a multiple of the greater prime factor of 2^64 + 1, and its last eight one of the smaller. The first eight are the same here in all texts.
"""
import itertools

INITIAL = 0x243F6A8885A308D3
CONSTANT = 0x9E3779B97F4A7C15
SMALLER, GREATER = 274177, 67280421310721
MOST = 2**64 - 1
FRONT = b"zBITDwk3"
# What stands in label names and metric names.
BYTES = sorted(b"0123456789ABCDEFGHIJKLMNOPQRSTUVWXYZ_abcdefghijklmnopqrstuvwxyz")


def number(text):
    return int.from_bytes(text, "little")


def joined(one, other):
    product = one * other
    return product & MOST ^ product >> 64


def hash_of(text):
    """What the hasher makes of a text of 16 bytes, before it goes on with the byte 255 that ends each text."""
    return joined(number(text[:8]) ^ INITIAL + 16, number(text[8:]) ^ CONSTANT)


def ends():
    """Four bytes and four more that make a multiple of the smaller factor, one after another."""
    low, high = CONSTANT & 0xFFFFFFFF, CONSTANT >> 32
    fronts = {}
    for middle in itertools.product(BYTES, repeat=3):
        front = bytes([BYTES[0], *middle])
        fronts.setdefault((number(front) ^ low) % SMALLER, []).append(front)
    for back in map(bytes, itertools.product(BYTES, repeat=4)):
        for front in fronts.get(-((number(back) ^ high) << 32) % SMALLER, ()):
            yield front + back


def texts(count):
    """So many texts of 16 letters, digits and underscores, each another one, that have one hash."""
    found = [FRONT + end for end in itertools.islice(ends(), count)]
    assert len(set(found)) == count and {hash_of(text) for text in found} == {0}
    return found
