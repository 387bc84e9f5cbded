#!/usr/bin/env python3
# Writes `stdin`, patterns of f64s as little-endian u64s, and `stdout`, the line that is expected for each.
#
# The expected values come from Python's own floats, and none from the program: the root is math.sqrt's, which is the
# hardware's, with a NaN for a number below 0; patterns are struct's; the order key is IEEE 754's rule for totalOrder on
# the pattern (of a negative number all bits reversed, else the sign bit set); the floor at 0 is x where x > 0, else +0;
# the hold in 0..2 is Rust's `clamp`.
#
# The patterns, in this order: both zeros, infinities and NaNs of each kind; subnormals, the smallest, the largest, the
# powers of two with their neighbours, and random ones; powers of two with their two neighbours, every fifth exponent
# from the least to the largest, so that even and odd ones occur; the largest finite numbers; perfect squares with their
# neighbours; numbers whose roots lie near the middle of two floats; whole numbers from 1 (norms) and random norms;
# numbers around 0, 1/2, 1, 3/2, 2 and 4; random patterns; and the negatives of every eleventh of all these. The seed is
# fixed, and a pattern is listed once.
import math
import os
import random
import struct

SIGN = 1 << 63


def bits(x):
    return struct.unpack('<Q', struct.pack('<d', x))[0]


def value(b):
    return struct.unpack('<d', struct.pack('<Q', b))[0]


def around(b, n):
    return range(b - n, b + n + 1)


def patterns():
    rng = random.Random(20240607)
    out = [0, SIGN, bits(math.inf), bits(-math.inf)]
    for payload in (1, 2, (1 << 51) - 1, 1 << 51, (1 << 51) + 1, (1 << 52) - 1):
        out += [0x7FF << 52 | payload, 0xFFF << 52 | payload]
    # subnormals
    out += range(1, 33)
    out += range((1 << 52) - 16, (1 << 52) + 16)
    for e in range(5, 52):
        out += around(1 << e, 1)
    out += [rng.randrange(1, 1 << rng.randrange(2, 53)) for _ in range(200)]
    # powers of two
    for field in list(range(1, 2047, 5)) + [1022, 1023, 1024, 1025, 2045, 2046]:
        out += around(field << 52, 1)
    out += range((0x7FF << 52) - 8, 0x7FF << 52)
    # perfect squares
    for k in list(range(2, 40)) + [rng.randrange(40, 1 << rng.randrange(7, 27)) for _ in range(120)]:
        e = rng.randrange(-480, 480) if k % 3 == 0 else 0
        out += around(bits(math.ldexp(float(k * k), 2 * e)), 1)
    # (2m + 1)² / 4, cut to 53 digits
    for _ in range(100):
        m = rng.randrange(1 << 52, 1 << 53)
        q = (2 * m + 1) ** 2 // 4
        cut = q.bit_length() - 53
        e = rng.randrange(-400, 400)
        out += around(bits(math.ldexp(float(q >> cut), cut + 2 * e)), 1)
    # norms
    out += [bits(float(n)) for n in range(1, 301)]
    out += [bits(float(16129 * n)) for n in range(1, 40)]
    out += [bits(float(rng.randrange(1, 66064385))) for _ in range(200)]
    out += [bits(66064384.0), bits(66064383.0)]
    # bounds of the hold
    for x in (0.5, 1.0, 1.5, 2.0, 4.0):
        out += around(bits(x), 4)
        out += around(bits(-x), 4)
    out += around(SIGN + 4, 4)
    # random
    out += [rng.randrange(1 << 64) for _ in range(400)]
    out += [rng.randrange(0x3C0 << 52, 0x440 << 52) for _ in range(200)]
    out += [b ^ SIGN for b in out[::11]]
    return list(dict.fromkeys(out))


def root(x):
    return math.nan if x < 0 else math.sqrt(x)


def key(b):
    return (1 << 64) - 1 - b if b & SIGN else b | SIGN


def hold(x):
    return 0.0 if x < 0 else 2.0 if x > 2 else x


def shown(x):
    return 'nan' if math.isnan(x) else '%016x' % bits(x)


def line(b):
    x = value(b)
    k = '-' if math.isnan(x) else '%016x' % key(b)
    return ' '.join(('%016x' % b, shown(root(x)), k, shown(x if x > 0 else 0.0), shown(hold(x))))


def main():
    here = os.path.dirname(os.path.abspath(__file__))
    listed = patterns()
    assert 2400 <= len(listed) <= 8192, len(listed)
    with open(os.path.join(here, 'stdin'), 'wb') as f:
        f.write(b''.join(struct.pack('<Q', b) for b in listed))
    with open(os.path.join(here, 'stdout'), 'w') as f:
        f.write(''.join(line(b) + '\n' for b in listed))


main()
