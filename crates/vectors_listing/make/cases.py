"""cases.py ORACLE DIR: writes DIR/data/NNN, the files of each case; DIR/args, their folders; DIR/cases.txt, what each is; and
DIR/stdout, what is printed of them.

README.md says what the cases are and what comes from whom.
"""
import collections
import dataclasses
import os
import random
import shutil
import struct
import subprocess
import sys
import tempfile
import zlib

ORACLE, TO = sys.argv[1:3]
NAMES = ("MANIFEST", "SEGMENTS", "CACHE", "QUERY", "CALL", "PLACE")
METRICS = ("l2", "cosine", "ip")
L2, COSINE, INNER = 0, 1, 2
MOST = 65536
PLATFORM, ROOT = b"linux", b"/pumps"
MAX64 = 2**64 - 1
NAN, INFINITY, MINUS_ZERO = 0x7FC00000, 0x7F800000, 0x80000000


def u32(x):
    return struct.pack("<I", x)


def u64(x):
    return struct.pack("<Q", x)


def i64(x):
    return struct.pack("<q", x)


def f64(x):
    return struct.pack("<d", x)


def f32s(*xs):
    return struct.pack("<%df" % len(xs), *xs)


def number(data, at, size):
    return int.from_bytes(data[at : at + size], "little")


def text(word):
    return u32(len(word)) + word


def sealed(body):
    return body + u32(zlib.crc32(body))


def resealed(data):
    return sealed(data[:-4])


def put(data, at, part):
    assert 0 <= at and at + len(part) <= len(data), (at, len(part), len(data))
    return data[:at] + part + data[at + len(part) :]


def flip(data, at, bits=1):
    return put(data, at, bytes([data[at] ^ bits]))


# ---- Libraries ----

Entry = collections.namedtuple("Entry", "id segment offset metadata")


@dataclasses.dataclass(frozen=True)
class Library:
    """Good bytes with a query for them. The rows of `cache` are the Rust's, or those of `encoded`."""

    manifest: bytes
    segments: bytes
    cache: bytes
    query: bytes
    platform: bytes = PLATFORM
    root: bytes = ROOT

    def __post_init__(self):
        set_to = lambda name, value: object.__setattr__(self, name, value)
        m = self.manifest
        set_to("dimensions", number(m, 24, 4))
        set_to("metric", m[44])
        set_to("counts", 49 + number(m, 45, 4))
        set_to("count", number(m, self.counts, 4))
        set_to("rows", number(m, self.counts + 4, 8))
        set_to("table", self.counts + 12)
        set_to("entries", self.table + 12 * self.count)

    @property
    def identity(self):
        return text(self.platform) + text(self.root) + self.manifest[8:-4]

    def entry_at(self, row):
        return self.entries + 20 * row

    def entry(self, row):
        return Entry(*struct.unpack_from("<QIII", self.manifest, self.entry_at(row)))

    def length(self, segment):
        return number(self.manifest, self.table + 12 * segment, 8)

    def start(self, segment):
        return sum(map(self.length, range(segment)))

    def record_at(self, row):
        return self.start(self.entry(row).segment) + self.entry(row).offset

    def metadata_at(self, row):
        return self.record_at(row) + 12 + 4 * self.dimensions

    def row_at(self, row):
        return len(self.cache) - 4 - (self.rows - row) * (self.dimensions + 16)

    def row(self, row):
        return self.cache[self.row_at(row) :][: self.dimensions + 16]

    def headed(self, **changes):
        """Another platform, root or manifest, and the cache with the same rows behind the head for it."""
        other = dataclasses.replace(self, **changes)
        rows = b"".join(self.row(row) for row in range(self.rows))
        return dataclasses.replace(other, cache=sealed(b"VECSQ801" + u32(1) + text(other.identity) + rows))

    def rowed(self, row, at, part):
        """Other bytes in a row of the cache, sealed."""
        return dataclasses.replace(self, cache=resealed(put(self.cache, self.row_at(row) + at, part)))

    def scaled(self, row, scale):
        return self.rowed(row, 0, f64(scale))

    def recorded(self, at, part):
        """Other bytes in the segments, with every checksum made right again and the cache that belongs to the manifest."""
        manifest, parts, data = self.manifest, [], put(self.segments, at, part)
        for segment in range(self.count):
            one = resealed(data[self.start(segment) :][: self.length(segment)])
            manifest = put(manifest, self.table + 12 * segment + 8, one[-4:])
            parts.append(one)
        return dataclasses.replace(self.headed(manifest=resealed(manifest)), segments=b"".join(parts))

    def files(self, k, limit):
        place = self.platform + b"\n" + self.root
        return dict(zip(NAMES, (self.manifest, self.segments, self.cache, self.query, u32(k) + u32(limit), place)))


def encoded(vector):
    """A row of the cache, by document 01's encoder."""
    vector = struct.unpack("<%df" % len(vector), f32s(*vector))
    largest = max(map(abs, vector))
    scale = largest / 127.0 if largest else 1.0
    codes = []
    for x in vector:
        quotient = abs(x / scale)
        code = int(quotient) + (quotient - int(quotient) >= 0.5)
        codes.append(-code if x < 0 else code)
    return struct.pack("<dq%db" % len(codes), scale, sum(c * c for c in codes), *codes)


def written(metric, query, rows, segments=1, generation=3, sequence=7, model=b"m", platform=PLATFORM, root=ROOT):
    """A library written field by field. `rows` are id, vector and metadata, in the order in which their records lie."""
    segments = min(segments, len(rows))
    parts, entries = [b""] * segments, []
    for place, (id, vector, metadata) in enumerate(rows):
        segment = place * segments // len(rows)
        entries.append((Entry(id, segment, len(parts[segment]), len(metadata)), vector))
        parts[segment] += u64(id) + u32(len(metadata)) + f32s(*vector) + metadata
    entries.sort()
    parts = list(map(sealed, parts))
    head = struct.pack("<QQIIIQB", generation, sequence, len(query), 16, 200, 42, metric) + text(model)
    table = b"".join(u64(len(part)) + part[-4:] for part in parts)
    ends = b"".join(struct.pack("<QIII", *entry) for entry, _ in entries)
    manifest = sealed(b"VECGEN01" + head + u32(segments) + u64(len(rows)) + table + ends)
    identity = text(platform) + text(root) + manifest[8:-4]
    cache = sealed(b"VECSQ801" + u32(1) + text(identity) + b"".join(encoded(vector) for _, vector in entries))
    return Library(manifest, b"".join(parts), cache, f32s(*query), platform, root)


def generated(seed, rows, dimensions, metric, kind, segments=0, metadata=0, model="m", generation=2, sequence=None, root=ROOT):
    """A library of the Rust's publisher, or for a number of segments by the oracle's hand, with the Rust's cache, moved to PLATFORM and root."""
    with tempfile.TemporaryDirectory() as directory:
        words = [ORACLE, "gen", directory, "--seed", seed, "--rows", rows, "--dims", dimensions, "--metric", METRICS[metric]]
        words += ["--dist", kind, "--meta-max", metadata, "--generation", generation, "--segments", segments, "--model", model]
        words += ["--sequence", seed * seed if sequence is None else sequence]
        subprocess.run(list(map(str, words)), check=True)
        read = {name: open(os.path.join(directory, name), "rb").read() for name in NAMES}
    platform, _, found = read["PLACE"].partition(b"\n")
    library = Library(read["MANIFEST"], read["SEGMENTS"], read["CACHE"], read["QUERY"], platform, found)
    assert library.headed().cache == library.cache
    return library.headed(platform=PLATFORM, root=root)


# ---- Cases ----

CASES = []


def case(kind, name, library, k=1, limit=1, **changes):
    """Adds a case: the files of the library and the call, but for what is changed (`manifest=..`). None is a missing file."""
    files = library.files(k, limit)
    for file, data in changes.items():
        assert file.upper() in NAMES
        files[file.upper()] = data
    CASES.append((kind, name, files))


def example():
    rows = [(1, (127.0, 0.0), b""), (2, (127.0, 0.25), b"")]
    library = written(L2, (127.0, 0.25), rows)
    for k, limit in ((1, 1), (1, 2), (2, 2), (1, 3), (2, 3), (3, 3), (2, 65536), (10000, 10000), (10000, 65536), (0, 0), (0, 1), (0, 65536)):
        case("worked example", "k %d, limit %d" % (k, limit), library, k, limit)
    for k, limit in ((10001, 10001), (10001, 0), (2**32 - 1, 2**32 - 1)):
        case("k and limit", "k %d, limit %d" % (k, limit), library, k, limit)
    for k, limit in ((2, 1), (1, 0), (0, 65537), (1, 65537), (10000, 9999), (10000, 2**32 - 1)):
        case("k and limit", "k %d, limit %d" % (k, limit), library, k, limit)


def empty():
    """Libraries without rows, which are without segments too."""
    for metric in (L2, COSINE, INNER):
        library = generated(3 + metric, 0, 3, metric, "gauss")
        for k, limit in ((1, 1), (0, 0), (5, 9)):
            case("empty library", "%s, k %d, limit %d" % (METRICS[metric], k, limit), library, k, limit)
    case("empty library", "a byte of segments", library, segments=b"\0")
    case("empty library", "query of one coordinate", library, query=f32s(1.0))
    case("empty library", "k over the limit", library, 3, 2)
    case("empty library", "a byte more of cache", library, cache=library.cache + b"\0")
    case("empty library", "query of zeros under cosine", generated(4, 0, 3, COSINE, "gauss"), query=f32s(0.0, 0.0, -0.0))
    case("empty library", "rows but no segments", library, manifest=resealed(put(library.manifest, library.counts + 4, u64(1))))
    case("empty library", "segments but no rows", library, manifest=resealed(put(library.manifest, library.counts, u32(1))))


def good():
    """Libraries of every kind of numbers, with limits below, at and above the number of rows."""
    kinds = ("gauss", "ties", "tiny", "huge", "zero", "half", "near", "bits", "mixed")
    for place, kind in enumerate(kinds):
        for metric in (L2, COSINE, INNER):
            seed = 100 + 3 * place + metric
            rows, dimensions = 2 + seed * 7 % 11, 1 + seed * 5 % 7
            segments = seed % 4
            library = generated(seed, rows, dimensions, metric, kind, segments, metadata=(0, 5, 20)[metric], model=("m", "pump", "널-é")[metric])
            calls = [((rows + 1) // 2, rows - 1 - seed % 2 * (rows > 3)), (rows, rows), (rows + seed % 3, rows + 5)]
            if kind in ("gauss", "half", "near", "huge", "tiny"):
                del calls[1 + seed % 2]
            for k, limit in calls:
                name = "%s, %s, %d rows of %d, k %d, limit %d" % (kind, METRICS[metric], rows, dimensions, min(k, limit), limit)
                case("good library", name, library, min(k, limit), limit)


def ties():
    """Equal distances, which the id orders, and distances that only their sign tells apart."""
    vectors = {L2: (1.0, 2.0), COSINE: (3.0, 4.0), INNER: (2.0, -1.0)}
    ids = (70, 9, 10, MAX64, 0, 100, 8, 71)
    for metric, vector in vectors.items():
        library = written(metric, (1.0, 1.0), [(id, vector, b"") for id in ids], segments=3)
        for k, limit in ((8, 8), (3, 5), (1, 1)):
            case("ties", "all equal, %s, k %d, limit %d" % (METRICS[metric], k, limit), library, k, limit)
    mirrored = [(5, (1.0, 0.0), b""), (4, (-1.0, 0.0), b""), (3, (0.0, 1.0), b""), (2, (0.0, -1.0), b""), (9, (0.0, 0.0), b"")]
    for metric in (L2, INNER):
        library = written(metric, (0.0, 0.0), mirrored, segments=2)
        case("ties", "query of zeros, %s" % METRICS[metric], library, 5, 5)
        case("ties", "query of zeros, %s, limit 2" % METRICS[metric], library, 2, 2)
    scaled = [(id, (float(2**id), 0.0), b"") for id in range(1, 7)] + [(7, (-4.0, 0.0), b""), (8, (0.0, 2.0), b"")]
    for query in ((1.0, 0.0), (-1.0, 0.0), (0.0, 5.0)):
        case("ties", "cosine 0, 1 and 2, query %s" % (query,), written(COSINE, query, scaled, segments=4), 8, 8)
    # Case f and more of it: inner products of zeros. -0.0 comes before +0.0 whatever the id.
    zeros = [(1, (-0.0,), b""), (2, (0.0,), b""), (3, (-0.0,), b""), (4, (0.0,), b"")]
    for query in (1.0, -1.0, 0.0, -0.0):
        for k, limit in ((4, 4), (2, 2)):
            name = "inner products of zeros, query %s, k %d, limit %d" % (query, k, limit)
            case("zeros", name, written(INNER, (query,), zeros), k, limit)
    pairs = [(10 - i, pair, b"") for i, pair in enumerate(((0.0, 0.0), (-0.0, 0.0), (0.0, -0.0), (-0.0, -0.0), (1.0, -1.0), (-1.0, 1.0)))]
    for query in ((1.0, 1.0), (-1.0, 1.0), (-0.0, 1.0)):
        case("zeros", "inner products of pairs, query %s" % (query,), written(INNER, query, pairs, segments=2), 6, 6)
    case("zeros", "squared L2 of zeros", written(L2, (0.0, -0.0), pairs, segments=2), 6, 6)


def numbers():
    """Ids, generations and sequences of every length; distances at the ends of their range."""
    ids = [0, 9, 10, 99, 100, 2**32 - 1, 2**32, 10**19 - 1, 10**19, 2**63 - 1, 2**63, MAX64 - 1, MAX64]
    rows = [(id, (float(place % 5), float(place % 3)), b"") for place, id in enumerate(ids)]
    random.Random(1).shuffle(rows)
    library = written(L2, (1.0, 1.0), rows, 3, generation=MAX64, sequence=MAX64)
    case("numbers", "ids of every length, the largest generation and sequence", library, 13, 13)
    case("numbers", "the same, k 0", library, 0, 7)
    case("numbers", "generation 1, sequence 0", written(L2, (1.0, 1.0), rows, 2, generation=1, sequence=0), 4, 9)
    big, small = 3.4028234663852886e38, 1.401298464324817e-45
    extremes = [(id, vector, b"") for id, vector in enumerate(((big, big), (-big, -big), (big, -big), (small, 0.0), (-small, small), (1.0, small)))]
    for metric in (L2, COSINE, INNER):
        for query in ((big, big), (small, -small), (-big, small)):
            case("numbers", "the ends of f32, %s, query %s" % (METRICS[metric], query), written(metric, query, extremes, 2), 6, 6)


def models():
    for name, model in (("512 bytes", b"m" * 512), ("512 bytes of UTF-8", "é널".encode() * 102 + b"mm"), ("spaces and newlines", b" \n\t ")):
        case("model", name, written(L2, (1.0,), [(1, (2.0,), b"one"), (2, (1.0,), b"two")], model=model), 2, 2)
    for name, model in (
        ("513 bytes", b"m" * 513),
        ("no bytes", b""),
        ("a zero byte", b"a\0b"),
        ("not UTF-8", b"\xc3\x28"),
        ("cut UTF-8", b"m\xe2\x82"),
        ("a surrogate", b"\xed\xa0\x80"),
    ):
        case("model", name, written(L2, (1.0,), [(1, (2.0,), b""), (2, (1.0,), b"")], model=model), 2, 2)


def base(metric=L2):
    """Five rows of 3 in three segments; neither the segments nor the records in them go by the id."""
    rows = [(40, (1.0, -2.0, 0.5), b"forty"), (10, (0.25, 3.0, -1.0), b""), (30, (-1.5, 0.125, 2.0), "é널".encode()),
            (50, (2.0, 2.0, -2.0), b"\0"), (20, (0.5, 0.5, 4.0), b"twenty")]
    return written(metric, (0.5, 1.0, 2.0), rows, 3)


def manifests():
    """1 to 4."""
    library = base()
    m, counts, table, entries = library.manifest, library.counts, library.table, library.entries

    def one(name, data, **more):
        case("manifest", name, library, 2, 3, manifest=data, **more)

    for length in (0, 3, 4, 65):
        one("%d bytes" % length, m[:length])
    for length in (66, counts + 2, counts + 9, table + 5, entries - 1, entries + 30):
        one("cut after %d bytes and sealed" % length, sealed(m[:length]))
    one("a byte more, sealed", sealed(m[:-4] + b"\0"))
    one("a byte more", m + b"\0")
    one("magic", resealed(flip(m, 0)))
    one("magic's last byte", resealed(flip(m, 7)))
    for name, at, part in (
        ("generation 0", 8, u64(0)),
        ("1,025 segments", counts, u32(1025)),
        ("no segments", counts, u32(0)),
        ("no rows", counts + 4, u64(0)),
        ("a row more", counts + 4, u64(6)),
        ("a row fewer", counts + 4, u64(4)),
        ("1,000,001 rows", counts + 4, u64(1000001)),
        ("2^64 - 1 rows", counts + 4, u64(MAX64)),
        ("segment of 3 bytes", table, u64(3)),
        ("segment of 67,108,865 bytes", table + 12, u64(67108865)),
        ("two equal ids", entries + 20, u64(10)),
        ("falling ids", entries + 40, u64(19)),
        ("segment 3 of 3", entries + 8, u32(3)),
        ("metadata of 16,385 bytes", entries + 16, u32(16385)),
        ("record past its segment's end", entries + 12, u32(library.length(library.entry(0).segment))),
        ("offset 2^32 - 1", entries + 92, u32(2**32 - 1)),
        ("metric 3", 44, b"\x03"),
        ("metric 255", 44, b"\xff"),
        ("no dimensions", 24, u32(0)),
        ("4,097 dimensions", 24, u32(4097)),
        ("m 1", 28, u32(1)),
        ("m 65", 28, u32(65)),
        ("ef under m", 32, u32(15)),
        ("ef 4,097", 32, u32(4097)),
        ("model of no bytes", 45, u32(0)),
        ("model of 2^32 - 1 bytes", 45, u32(2**32 - 1)),
        ("model not UTF-8", 49, b"\xff"),
    ):
        one(name, resealed(put(m, at, part)))
    one("checksum", flip(m, len(m) - 1, 128))
    one("checksum's first byte", flip(m, len(m) - 4))
    one("seed, not sealed", flip(m, 36))
    one("generation, not sealed", flip(m, 8, 2))
    gap = resealed(put(m, library.entry_at(3) + 12, u32(1)))
    one("a record a byte later", gap)
    one("a record a byte earlier", resealed(put(m, library.entry_at(0) + 12, u32(library.entry(0).offset - 1))))
    one("two records at one place", resealed(put(m, library.entry_at(0) + 12, u32(0))))
    one("segment longer by a byte", resealed(put(m, table, u64(library.length(0) + 1))))
    one("row 2 in another segment", resealed(put(m, library.entry_at(2) + 8, u32(0))))
    last = written(L2, (1.0,), [(1, (2.0,), b""), (2, (1.0,), b"")], 2)
    both = put(put(last.manifest, last.table, u64(36)), last.entry_at(1) + 8, u32(0) + u32(16))
    case("manifest", "a segment without rows", last, manifest=resealed(both))
    one("magic and checksum", flip(flip(m, 0), len(m) - 1))
    one("metric and bytes left over", sealed(put(m, 44, b"\x03")[:-4] + b"\0"))
    one("checksum and tiling", flip(gap, len(m) - 1))
    one("magic, and a byte of segments missing", resealed(flip(m, 0)), segments=library.segments[:-1])
    one("tiling, and a byte of segments missing", gap, segments=library.segments[:-1])
    one("tiling, and a query that is not finite", gap, query=u32(NAN) * 3)


def segments():
    """5 and 6, at rows and segments of several numbers."""
    for metric in (L2, COSINE, INNER):
        library = base(metric)
        s = library.segments

        def one(name, data):
            case("segments", "%s, %s" % (METRICS[metric], name), library, 2, 3, segments=data)

        def right(name, at, part):
            changed = library.recorded(at, part)
            case("segments", "%s, %s, checksums right" % (METRICS[metric], name), changed, 2, 3)

        for row in range(library.rows):
            at, end = library.record_at(row), library.metadata_at(row)
            changes = (
                ("id", at, u64(library.entry(row).id + 1)),
                ("metadata length", at + 8, u32(library.entry(row).metadata + 1)),
                ("coordinate not a number", at + 16, u32(NAN)),
                ("infinite coordinate", end - 4, u32(INFINITY | (row % 2 << 31))),
                ("zeros", at + 12, u32(0) * 2 + u32(MINUS_ZERO)),
                ("metadata not UTF-8", end, b"\xff"),
            )
            for place, (name, at, part) in enumerate(changes):
                wanted = (row + metric) % 3 == place % 3
                if not wanted or name == "zeros" and metric != COSINE or name[-1] == "8" and not library.entry(row).metadata:
                    continue
                if (row + place) % 2:
                    one("row %d, %s" % (row, name), put(s, at, part))
                else:
                    right("row %d, %s" % (row, name), at, part)
        for segment in range(library.count):
            stored = library.start(segment) + library.length(segment) - 4
            one("checksum of segment %d" % segment, flip(s, stored, 16))
    library = base()
    s, m = library.segments, library.manifest
    case("segments", "zeros are no fault under squared L2", library.recorded(library.record_at(1) + 12, bytes(12)), 2, 3)
    first = s[: library.length(0)]
    for name, data in (("a byte fewer", s[:-1]), ("a byte more", s + b"\0"), ("no bytes", b""), ("one byte", b"x"), ("the first segment", first)):
        case("segments", name, library, segments=data)
    for segment in range(library.count):
        changed = library.headed(manifest=resealed(flip(m, library.table + 12 * segment + 8)))
        case("segments", "segment %d has not the manifest's checksum" % segment, changed)
    sign = lambda row: flip(s, library.record_at(row) + 15, 128)
    for row in range(library.rows):
        case("segments", "row %d, the sign of a coordinate" % row, library, segments=sign(row))
    # Of two bad records the first by segment and offset counts, and a segment's records come before its checksum.
    bad = lambda data, row: put(data, library.record_at(row) + 12, u32(NAN))
    case("segments", "rows 0 and 3 of segment 0 bad", library, segments=bad(bad(s, 0), 3))
    case("segments", "rows 1 and 2 bad", library, segments=bad(bad(s, 1), 2))
    case("segments", "checksum of segment 0, row 4 bad", library, segments=bad(flip(s, library.length(0) - 1), 4))
    case("segments", "row 2 bad, checksum of segment 2", library, segments=bad(flip(s, len(s) - 1), 2))
    changed = put(put(m, library.entry_at(0) + 12, u32(0)), library.entry_at(3) + 12, u32(24))
    case("segments", "rows 0 and 3 changed for each other in the manifest", library.headed(manifest=resealed(changed)))
    case("segments", "row 1 bad, platform of 65 bytes", library, segments=bad(s, 1), place=b"p" * 65 + b"\n/pumps")
    case("segments", "a byte more, no cache", library, segments=s + b"\0", cache=b"")


def places():
    """10, and what belongs to which part of PLACE."""
    library = base()
    for name, platform, root in (
        ("both parts empty", b"", b""),
        ("platform empty", b"", b"/pumps"),
        ("root empty", b"linux", b""),
        ("a newline at the end", b"linux", b"/pumps\n"),
        ("several newlines", b"linux", b"/pu\n\nmps\n"),
        ("newlines alone", b"", b"\n\n"),
        ("carriage return", b"linux\r", b"/pumps\r"),
        ("not UTF-8", b"\xff\xfe", b"/\x80\xc3"),
        ("zero bytes", b"\0", b"\0/\0"),
        ("spaces", b" linux ", b" /pumps "),
        ("platform of 64 bytes", b"p" * 64, b"/pumps"),
        ("platform of 65 bytes", b"p" * 65, b"/pumps"),
        ("platform of 65 bytes, root empty", b"p" * 65, b""),
        ("platform of 300 bytes", b"p" * 300, b"/"),
        ("root of 3,000 bytes", b"linux", b"/pumps" * 500),
    ):
        case("place", name, library.headed(platform=platform, root=root), 3, 4)
    for name, data in (
        ("without newline", b"linux/pumps"),
        ("empty", b""),
        ("one byte, no newline", b"l"),
        ("a newline alone, for another cache", b"\n"),
        ("a newline at the end, for another cache", b"linux\n/pumps\n"),
        ("another platform", b"lunix\n/pumps"),
        ("another root", b"linux\n/pump5"),
        ("the newline one earlier", b"linu\nx/pumps"),
        ("the newline twice", b"linux\n\npumps"),
        ("platform of 65 bytes, for another cache", b"p" * 65 + b"\n/pumps"),
    ):
        case("place", name, library, 3, 4, place=data)
    case("place", "platform of 65 bytes, no cache, query not finite", library, place=b"p" * 65 + b"\n", cache=b"", query=u32(NAN) * 3)


def caches():
    """12 to 15."""
    for metric in (L2, COSINE, INNER):
        library = base(metric)
        for turn, row in enumerate((0, 1 + metric, 4)):
            for place, (name, at, part) in enumerate((
                ("scale 0", 0, f64(0.0)),
                ("scale -0", 0, f64(-0.0)),
                ("scale -1", 0, f64(-1.0)),
                ("infinite scale", 0, f64(float("inf"))),
                ("scale not a number", 0, u64(0x7FF8000000000000)),
                ("norm one more", 8, u64(number(library.row(row), 8, 8) + 1)),
                ("norm negative", 8, i64(-number(library.row(row), 8, 8))),
                ("code -128", 17, b"\x80"),
                ("another code", 16, bytes([library.row(row)[16] ^ 3])),
                ("zero row", 8, bytes(8 + library.dimensions)),
            )):
                if (place + turn + metric) % 3 == 0:
                    case("cache", "%s, row %d, %s" % (METRICS[metric], row, name), library.rowed(row, at, part), 2, 3)
    library = base()
    c, identity = library.cache, len(library.identity)
    for name, data in (
        ("a byte fewer", c[:-1]),
        ("a byte more", c + b"\0"),
        ("no bytes", b""),
        ("a row fewer", c[: library.row_at(4)] + c[-4:]),
        ("magic", resealed(flip(c, 0))),
        ("version 2", resealed(put(c, 8, u32(2)))),
        ("version 257", resealed(flip(c, 9))),
        ("length of the identity", resealed(put(c, 12, u32(identity + 1)))),
        ("length of the platform", resealed(flip(c, 16))),
        ("platform", resealed(flip(c, 20))),
        ("root", resealed(flip(c, 29))),
        ("generation in the identity", resealed(flip(c, 35))),
        ("last byte of the identity", resealed(flip(c, 15 + identity))),
        ("checksum", flip(c, len(c) - 2)),
        ("checksum's last byte", flip(c, len(c) - 1, 64)),
        ("row 2, scale, not sealed", flip(c, library.row_at(2))),
        ("row 0, scale -1, not sealed", put(c, library.row_at(0), f64(-1.0))),
        ("rows 1 and 3 bad", resealed(put(put(c, library.row_at(3), f64(0.0)), library.row_at(1), f64(0.0)))),
        ("magic and identity", flip(flip(c, 3), 30)),
        ("identity and row 0", put(flip(c, 30), library.row_at(0), f64(0.0))),
    ):
        case("cache", name, library, 2, 3, cache=data)
    case("cache", "checksum, and a query of 2", library, cache=flip(c, len(c) - 2), query=library.query[:8])
    case("cache", "row 4, code -128, and k over the limit", library.rowed(4, 16, b"\x80"), 4, 1)
    other = generated(77, 5, 3, L2, "gauss", 3)
    case("cache", "of another library", library, 2, 3, cache=other.cache)
    sequence = library.headed(manifest=resealed(put(library.manifest, 16, u64(8))))
    case("cache", "of another sequence", library, 2, 3, cache=sequence.cache)
    case("cache", "of that sequence, with its manifest", sequence, 2, 3)
    # A row that no record gives is as good as another: scales from the least to nearly the largest, and rows changed for each other.
    for row, scale in ((2, 5e-324), (2, 1e100), (0, 1e-200)):
        for k, limit in ((2, 2), (5, 5)):
            case("cache", "row %d, scale %g, k %d, limit %d" % (row, scale, k, limit), library.scaled(row, scale), k, limit)
    case("cache", "row 0 is row 4", library.rowed(0, 0, library.row(4)), 1, 1)
    case("cache", "zero row under inner product", base(INNER).rowed(1, 8, bytes(11)), 5, 5)


def queries():
    """16 to 18 and their order."""
    faults = (
        ("no bytes", b""),
        ("two coordinates", f32s(1.0, 2.0)),
        ("four coordinates", f32s(1.0, 2.0, 3.0, 4.0)),
        ("not a number", f32s(1.0, 2.0) + u32(NAN)),
        ("signalling", u32(0x7F800001) + f32s(1.0, 2.0)),
        ("infinite", f32s(1.0) + u32(INFINITY) + f32s(1.0)),
        ("-infinite", u32(INFINITY | MINUS_ZERO) + f32s(1.0, 1.0)),
    )
    for place, (name, data) in enumerate(faults):
        case("query", "%s, %s" % (METRICS[place % 3], name), base(place % 3), 2, 3, query=data)
    for metric in (L2, COSINE, INNER):
        case("query", "%s, zeros" % METRICS[metric], base(metric), 2, 3, query=f32s(0.0, -0.0, 0.0))
        case("query", "%s, subnormal" % METRICS[metric], base(metric), 2, 3, query=u32(1) + u32(MINUS_ZERO) + u32(0))
    library = base()
    nan = u32(NAN) * 3
    case("query", "not a number, k 10,001", library, 10001, 1, query=nan)
    case("query", "not a number, k 0", library, 0, 0, query=nan)
    case("query", "k 10,001, limit 1", library, 10001, 1)
    for length in (1, 5, 11):
        case("query", "%d bytes" % length, library, query=bytes(length))
    for length in (0, 4, 7, 9, 16):
        case("call", "%d bytes" % length, library, call=(u32(1) * 4)[:length])
    case("call", "7 bytes, and a bad manifest", library, call=bytes(7), manifest=b"")
    case("call", "9 bytes, and k would be 10,001", library, call=u32(10001) + u32(1) + b"\0")
    case("query", "5 bytes, and no newline in PLACE", library, query=bytes(5), place=b"linux")


def distances():
    """22, and approximate distances that only just are finite or become +0."""
    for metric, scale in ((L2, 1e200), (INNER, 1e308)):
        plain = base(metric)
        for rows in ((0,), (1,), (4,), (3, 1), (4, 2, 0)):
            library = plain
            for row in rows:
                library = library.scaled(row, scale)
            name = "%s, scale %g in %s" % (METRICS[metric], scale, ", ".join("row %d" % row for row in rows))
            case("distance", name, library, 1, 1)
        case("distance", name + ", k 0", library, 0, 0)
        case("distance", name + ", k 0, limit 65,536", library, 0, 65536)
        case("distance", "%s, scale %g in row 2, k over the limit" % (METRICS[metric], scale), plain.scaled(2, scale), 4, 3)
        case("distance", "%s, scale %g in row 3, limit 65,536" % (METRICS[metric], scale), plain.scaled(3, scale), 10000, 65536)
    # Case g: scale 1e200 and norm 0, and with norm 1 and a zero query.
    zero = written(L2, (0.0, 0.0), [(1, (0.0, 0.0), b""), (2, (1.0, 1.0), b"")])
    case("distance", "scale 1e200, norm 0", zero.scaled(0, 1e200), 2, 2)
    case("distance", "scale 1e200, norm 1, zero query", zero.scaled(0, 1e200).rowed(0, 8, u64(1) + b"\1\0"), 1, 1)
    # Infinity less infinity: +0, and so the nearest.
    far = written(L2, (3e38, 3e38), [(1, (3e38, 3e38), b""), (2, (-3e38, 3e38), b""), (3, (1.0, 1.0), b""), (4, (-1.0, -1.0), b"")])
    case("distance", "l2, infinity less infinity in row 2", far.scaled(2, 1e300), 1, 1)
    case("distance", "l2, infinity and infinity in row 3", far.scaled(3, 1e300), 1, 1)
    case("distance", "cosine, scale 1e308 in rows 0 and 4", base(COSINE).scaled(0, 1e308).scaled(4, 1e308), 5, 5)


def lengths():
    """Each file missing, one byte too long, and as long as it may be; folders in place of files."""
    library = base()
    long = bytes(MOST + 1)
    for name in NAMES:
        case("missing", name, library, **{name.lower(): None})
    case("missing", "SEGMENTS and PLACE", library, segments=None, place=None)
    case("missing", "all but MANIFEST", library, segments=None, cache=None, query=None, call=None, place=None)
    case("missing", "all", library, manifest=None, segments=None, cache=None, query=None, call=None, place=None)
    case("missing", "QUERY, and a bad manifest", library, query=None, manifest=b"")
    case("missing", "SEGMENTS of an empty library, which are 0 bytes", generated(3, 0, 3, L2, "gauss"), segments=None)
    for name in ("CACHE", "CALL"):
        case("folder", "%s is a folder" % name, library, **{name.lower(): {"DATA": library.files(1, 1)[name]}})
    for name in NAMES:
        case("too long", name, library, **{name.lower(): long})
    case("too long", "PLACE, and CALL missing", library, place=long, call=None)
    case("too long", "MANIFEST, SEGMENTS missing, QUERY of 5 bytes", library, manifest=long, segments=None, query=bytes(5))
    case("as long as may be", "QUERY of 16,384 coordinates", library, query=bytes(MOST))
    case("as long as may be", "CALL", library, call=bytes(MOST))
    case("as long as may be", "PLACE", library, place=PLATFORM + b"\n" + bytes(MOST - 6))
    rows = [(id, (float(id), 1.0), b"metadata " * 1819) for id in (3, 1, 2)] + [(4, (1.0, 1.0), b"")]
    rows[3] = (4, (1.0, 1.0), b"x" * (MOST - 4 - sum(20 + len(row[2]) for row in rows)))
    segments = written(L2, (2.0, 1.0), rows)
    assert len(segments.segments) == MOST
    case("as long as may be", "SEGMENTS, with metadata of 16,371 bytes", segments, 4, 4)
    whole = written(L2, (1.0,), [(1, (2.0,), "널".encode() * 5461 + b"x"), (2, (1.0,), b"")])
    case("as long as may be", "metadata of 16,384 bytes", whole, 2, 2)
    largest = written(L2, (1.0,), [(row, (float(row % 89),), b"") for row in range(3272)], model=b"nineteen bytes long")
    assert len(largest.manifest) == MOST
    case("as long as may be", "MANIFEST of 3,272 rows, for which no cache is short enough", largest, 5, 9, cache=largest.cache[:99])
    # Every row takes 37 bytes of the cache, 20 of them in the identity: 1,768 rows are the most that are ever listed.
    cached = generated(11, 1768, 1, L2, "gauss", 1, generation=MAX64, sequence=MAX64, root=b"/pumps/in/the/cellar!")
    assert len(cached.cache) == MOST
    case("as long as may be", "CACHE of 1,768 rows, all listed", cached, 1768, 1768)
    case("large", "600 rows in 5 segments, which the id orders, k 70, limit 400", generated(12, 600, 1, COSINE, "gauss", 5), 70, 400)
    case("large", "1,024 segments", generated(13, 1024, 1, INNER, "ties", 1024), 20, 100)
    case("large", "4,096 dimensions", generated(14, 2, 4096, L2, "gauss", 2), 2, 2)


def damaged():
    """A byte changed, dropped or added anywhere, not sealed again."""
    rng = random.Random(20)
    for name in NAMES:
        for turn in range(6):
            metric = turn % 3
            library = base(metric)
            data = library.files(3, 3 + turn % 3)[name]
            at = rng.randrange(len(data))
            if turn < 4:
                what, data = "byte %d changed" % at, flip(data, at, rng.randrange(1, 256))
            elif turn == 4:
                what, data = "byte %d dropped" % at, data[:at] + data[at + 1 :]
            else:
                what, data = "a byte added at %d" % at, data[:at] + bytes([rng.randrange(256)]) + data[at:]
            case("damaged", "%s, %s, %s" % (name, METRICS[metric], what), library, 3, 3 + turn % 3, **{name.lower(): data})


# ---- Writing ----


def write(directory, files):
    for name, data in files.items():
        path = os.path.join(directory, name)
        if data is None:
            continue
        os.makedirs(directory, exist_ok=True)
        if isinstance(data, dict):
            write(path, data)
        else:
            with open(path, "wb") as f:
                f.write(data)


def main():
    for part in (example, empty, good, ties, numbers, models, manifests, segments, places, caches, queries, distances, lengths, damaged):
        part()
    assert len(CASES) < 1000
    data = os.path.join(TO, "data")
    shutil.rmtree(data, ignore_errors=True)
    names, printed, apart = [], [], []
    kinds, said, found = collections.Counter(), collections.Counter(), collections.defaultdict(set)
    for place, (kind, name, files) in enumerate(CASES, 1):
        directory = os.path.join(data, "%03d" % place)
        write(directory, files)
        run = subprocess.run([ORACLE, "list", directory], stdout=subprocess.PIPE, stderr=subprocess.PIPE)
        if run.returncode:
            apart.append("%03d %s: %s\n%s" % (place, kind, name, run.stderr.decode()))
            continue
        names.append("%03d %s: %s\n" % (place, kind, name))
        printed.append("%03d\n%s" % (place, run.stdout.decode("ascii")))
        lines = run.stdout.decode().splitlines()
        words = lines[0].split()
        kinds[kind] += 1
        said["list" if words[0] == "generation" else words[1] if words[0] == "refused" else lines[0]] += 1
        if words[0] == "refused":
            found[int(words[1])].add(int(words[3]))
    assert not apart, "the Rust and document 01 differ:\n" + "\n".join(apart)
    lines = ["%03d\n" % place for place in range(1, len(CASES) + 1)]
    for name, parts in (("args", lines), ("cases.txt", names), ("stdout", printed)):
        with open(os.path.join(TO, name), "w", encoding="ascii") as f:
            f.write("".join(parts))
    print("%d cases" % len(CASES))
    print("by kind: %s" % ", ".join("%s %d" % x for x in kinds.items()))
    print("lists %d, too long %d, bad input %d" % (said["list"], said["too long"], said["bad input"]))
    print("refused: %s" % ", ".join("%d: %d" % (n, said[str(n)]) for n in sorted(found)))
    print("places: %s" % ", ".join("%d at %s" % (n, sorted(found[n])) for n in sorted(found) if len(found[n]) > 1))
    wanted = {1, 2, 3, 4, 5, 6, 10, 12, 13, 14, 15, 16, 17, 18, 22}
    assert set(found) == wanted, (wanted - set(found), set(found) - wanted)


main()
