#!/usr/bin/env python3
"""Writes stdin (the cases) and stdout (what is right of them): CRC-32 by zlib, UTF-8 by Python's own decoder.

CRC-32: the empty string, the check string "123456789", 256 rising bytes, a 64 KiB pattern (byte i is i * i / 7 + i, modulo 256),
and every length from 0 to 40 of the pattern; each in one piece three times (by eight bytes, by one, with tables of its own) and
in two pieces cut at every place from 0 to 17. UTF-8: both ends of each row of RFC 3629's table of section 4, every byte value in
the second place of each row's first byte, overlong forms, surrogates, above 10FFFF, bytes that never occur, every truncation of
valid characters, alone and after and before other text, and 400 random strings of boundary bytes (seed 3629).
"""
import os, random, struct, zlib

here = os.path.dirname(os.path.abspath(__file__))
cases, expected = [], []


def crc(s):
    cases.append((0, s))
    cuts = sum(1 for at in range(18) if at <= len(s))
    expected.extend(["%08x" % zlib.crc32(s)] * (3 + cuts))


def text(s):
    cases.append((1, s))
    try:
        s.decode("utf-8")
        expected.append("valid")
    except UnicodeDecodeError:
        expected.append("not valid")


pattern = bytes((i * i // 7 + i) % 256 for i in range(65536))
for s in [b"", b"123456789", bytes(range(256)), pattern] + [pattern[1000 : 1000 + n] for n in range(41)]:
    crc(s)

rows = [
    [(0x00, 0x7F)],
    [(0xC2, 0xDF), (0x80, 0xBF)],
    [(0xE0, 0xE0), (0xA0, 0xBF), (0x80, 0xBF)],
    [(0xE1, 0xEC), (0x80, 0xBF), (0x80, 0xBF)],
    [(0xED, 0xED), (0x80, 0x9F), (0x80, 0xBF)],
    [(0xEE, 0xEF), (0x80, 0xBF), (0x80, 0xBF)],
    [(0xF0, 0xF0), (0x90, 0xBF), (0x80, 0xBF), (0x80, 0xBF)],
    [(0xF1, 0xF3), (0x80, 0xBF), (0x80, 0xBF), (0x80, 0xBF)],
    [(0xF4, 0xF4), (0x80, 0x8F), (0x80, 0xBF), (0x80, 0xBF)],
]
for row in rows:
    low, high = bytes(a for a, _ in row), bytes(b for _, b in row)
    for char in (low, high):
        for n in range(len(char) + 1):
            text(char[:n])
            text(b"ab" + char[:n])
            text(char[:n] + b"c")
            text(char[:n] + char)
        for place in range(len(char)):
            for byte in (0x00, 0x7F, 0x80, 0x8F, 0x90, 0x9F, 0xA0, 0xBF, 0xC0, 0xC1, 0xC2, 0xDF, 0xE0, 0xEF, 0xF0, 0xF4, 0xF5, 0xFF):
                text(char[:place] + bytes([byte]) + char[place + 1 :])
    for byte in range(256):
        text(low[:1] + bytes([byte]) + low[2:])
for s in [b"", b"plain", "h\u00e9llo \u20ac \U0001f600".encode(), b"\xc0\x80", b"\xc1\xbf", b"\xe0\x9f\xbf", b"\xf0\x8f\xbf\xbf",
          b"\xed\xa0\x80", b"\xed\xbf\xbf", b"\xf4\x90\x80\x80", b"\xf5\x80\x80\x80", b"\xfe", b"\xff", b"\x80", b"\xbf\xbf"]:
    text(s)
random.seed(3629)
bounds = [0x00, 0x41, 0x7F, 0x80, 0x8F, 0x90, 0x9F, 0xA0, 0xBF, 0xC0, 0xC2, 0xDF, 0xE0, 0xE1, 0xEC, 0xED, 0xEE, 0xEF, 0xF0, 0xF1, 0xF3, 0xF4, 0xF5, 0xFF]
for _ in range(400):
    text(bytes(random.choice(bounds) for _ in range(random.randrange(1, 9))))

with open(os.path.join(here, "stdin"), "wb") as f:
    for kind, s in cases:
        f.write(struct.pack("<BI", kind, len(s)) + s)
with open(os.path.join(here, "stdout"), "w") as f:
    f.write("".join(line + "\n" for line in expected))
