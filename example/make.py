"""make.py [ORACLE]: writes the six files of document 01's worked example beside this file, field by field.

ORACLE is the program of the oracle that runs the published Rust. With it the bytes are held against the library that the Rust makes, and
what the list program must print of them, judged by the Rust and document 01, is written to ../stdout.
"""
import os
import struct
import subprocess
import sys
import tempfile
import zlib

HERE = os.path.dirname(os.path.abspath(__file__))
PLATFORM, ROOT = b"linux", b"/pumps"
ROWS = ((1, (127.0, 0.0)), (2, (127.0, 0.25)))  # id, coordinates; no metadata
QUERY, K, LIMIT = (127.0, 0.25), 1, 1


def sealed(body):
    return body + struct.pack("<I", zlib.crc32(body))


def text(word):
    return struct.pack("<I", len(word)) + word


def files():
    # A record: id, metadata length, coordinates. One segment has both.
    segments = sealed(b"".join(struct.pack("<QIff", id, 0, *vector) for id, vector in ROWS))
    # Generation 3, sequence 7; 2 dimensions, m 16, ef 200; seed 42; squared L2; model `m`; one segment, two rows.
    head = b"VECGEN01" + struct.pack("<QQIIIQB", 3, 7, 2, 16, 200, 42, 0) + text(b"m") + struct.pack("<IQ", 1, 2)
    # The segment's length and CRC-32; of each row the id, its segment, offset and metadata length.
    table = struct.pack("<Q", len(segments)) + segments[-4:]
    entries = b"".join(struct.pack("<QIII", id, 0, 20 * row, 0) for row, (id, _) in enumerate(ROWS))
    manifest = sealed(head + table + entries)
    # Both rows have scale 127 / 127 and the codes 127 and 0: 0.25 is below the first midpoint. So they tie, and limit 1 keeps the lower id.
    identity = text(PLATFORM) + text(ROOT) + manifest[8:-4]
    row = struct.pack("<dqbb", 1.0, 127 * 127, 127, 0)
    cache = sealed(b"VECSQ801" + struct.pack("<I", 1) + text(identity) + 2 * row)
    return {
        "MANIFEST": manifest,
        "SEGMENTS": segments,
        "CACHE": cache,
        "QUERY": struct.pack("<ff", *QUERY),
        "CALL": struct.pack("<II", K, LIMIT),
        "PLACE": PLATFORM + b"\n" + ROOT,
    }


def held(oracle, made):
    """The Rust publishes the same library."""
    with tempfile.TemporaryDirectory() as directory:
        words = [oracle, "gen", directory, "--dist", "example", "--k", str(K), "--limit", str(LIMIT)]
        subprocess.run(words, check=True)
        for name in ("MANIFEST", "SEGMENTS", "QUERY", "CALL"):
            with open(os.path.join(directory, name), "rb") as f:
                assert f.read() == made[name], name


made = files()
for name, data in made.items():
    with open(os.path.join(HERE, name), "wb") as f:
        f.write(data)
if len(sys.argv) > 1:
    held(sys.argv[1], made)
    with open(os.path.join(HERE, "..", "stdout"), "wb") as f:
        f.write(subprocess.run([sys.argv[1], "list", HERE], check=True, stdout=subprocess.PIPE).stdout)
