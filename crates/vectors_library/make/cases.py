"""cases.py ORACLE DIR: writes DIR/stdin, libraries good and changed, and DIR/stdout, what the two checks must say of each.

stdin is a row of cases. A case is the expected CRC-32, the scratch's length, and the lengths of its name, manifest and segments (u32
each), then these three. The scratch is lent as 1, 2, 3, ..

stdout has a line for each: its number in the list; of `manifest::check` the refusal's number and place, the head, and what became of
the scratch (kept, or zero); the same of `segment::check`; and the name. A head is length, generation, sequence, dimensions, m, ef, seed,
metric byte, model length, model in hexadecimal, segments, rows; of a refusal it is `-`, which says that all its fields are zero.

Number and place are those of `oracle list`, which prints only where the Rust and document 01 written out agree. It is lent an empty
cache, so that an accepted library shows as 12. It expects the manifest's own CRC and has no lent slices; so two things are by the
rules of document 01, from its answer: an expected CRC other than the stored one is 3 unless there is a 1 or a 2 before it, and a scratch
of fewer elements than rows is 11 unless there is a 1, 2 or 3. The head of an accepted library is read here, from the bytes.
"""
import collections
import os
import struct
import subprocess
import sys
import tempfile
import zlib

ORACLE, TO = sys.argv[1:3]
L2, COSINE, INNER = 0, 1, 2
NAN, INFINITY = 0x7FC00000, 0x7F800000


def u32(x):
    return struct.pack("<I", x)


def u64(x):
    return struct.pack("<Q", x)


def floats(*values):
    return struct.pack("<%df" % len(values), *values)


def sealed(body):
    return body + u32(zlib.crc32(body))


def put(data, at, part):
    assert at + len(part) <= len(data)
    return data[:at] + part + data[at + len(part) :]


Row = collections.namedtuple("Row", "id coordinates metadata")
Head = collections.namedtuple("Head", "generation sequence dimensions m ef seed metric model")


class Files:
    """A manifest and its segments, the bytes as they are, with the places of the manifest's fields as the library was written."""

    def __init__(self, manifest, segments, model, rows):
        self.manifest, self.segments, self.rows = manifest, segments, rows
        self.counts = 49 + model
        self.table = self.counts + 12
        self.entries = self.table + 12 * len(segments)

    def copy(self, manifest=None, segments=None):
        other = Files(self.manifest, self.segments, self.counts - 49, self.rows)
        other.entries = self.entries
        other.manifest = self.manifest if manifest is None else manifest
        other.segments = self.segments if segments is None else segments
        return other

    def set(self, at, part):
        """Bytes of the manifest changed, its CRC left as it was."""
        return self.copy(manifest=put(self.manifest, at, part))

    def field(self, row, name, value):
        """A field of a row's entry changed."""
        at = self.entries + 20 * row
        if name == "id":
            return self.set(at, u64(value))
        return self.set(at + {"segment": 8, "offset": 12, "metadata": 16}[name], u32(value))

    def get(self, row, name):
        at = self.entries + 20 * row + {"segment": 8, "offset": 12, "metadata": 16}[name]
        return struct.unpack_from("<I", self.manifest, at)[0]

    def length(self, segment, value):
        return self.set(self.table + 12 * segment, u64(value))

    def right(self):
        """The manifest's CRC put right."""
        return self.copy(manifest=sealed(self.manifest[:-4]))

    def segment(self, number, data):
        return self.copy(segments=self.segments[:number] + [data] + self.segments[number + 1 :])

    def record(self, row, at, part):
        """Bytes of a row's record changed, no CRC put right."""
        number, offset = self.get(row, "segment"), self.get(row, "offset")
        return self.segment(number, put(self.segments[number], offset + at, part))

    def crc(self, number, value):
        """The manifest's CRC of a segment changed, and the manifest's own put right."""
        return self.set(self.table + 12 * number + 8, u32(value)).right()

    def right_segments(self):
        """Every CRC put right: the segments' own, the manifest's of them, and the manifest's."""
        other = self.copy(segments=[sealed(s[:-4]) for s in self.segments])
        for number, data in enumerate(other.segments):
            other = other.set(other.table + 12 * number + 8, data[-4:])
        return other.right()


def write(head, segments):
    """The files of a library from its rows, each segment's in the order in which they lie there."""
    entries, table, parts = [], b"", []
    for number, rows in enumerate(segments):
        part = b""
        for row in rows:
            entries.append((row.id, number, len(part), len(row.metadata)))
            part += u64(row.id) + u32(len(row.metadata)) + row.coordinates + row.metadata
        parts.append(sealed(part))
        table += u64(len(parts[-1])) + parts[-1][-4:]
    body = b"VECGEN01" + u64(head.generation) + u64(head.sequence)
    body += u32(head.dimensions) + u32(head.m) + u32(head.ef) + u64(head.seed) + bytes([head.metric])
    body += u32(len(head.model)) + head.model + u32(len(segments)) + u64(len(entries)) + table
    for entry in sorted(entries):
        body += struct.pack("<QIII", *entry)
    return Files(sealed(body), parts, len(head.model), len(entries))


def read(manifest, segments):
    """Head, and the rows of each segment by offset, of a good library."""
    generation, sequence, dimensions, m, ef, seed, metric, length = struct.unpack_from("<QQIIIQBI", manifest, 8)
    head = Head(generation, sequence, dimensions, m, ef, seed, metric, manifest[49 : 49 + length])
    count, rows = struct.unpack_from("<IQ", manifest, 49 + length)
    at, starts, start = 61 + length, [], 0
    for number in range(count):
        starts.append(start)
        start += struct.unpack_from("<Q", manifest, at + 12 * number)[0]
    at += 12 * count
    found = [[] for _ in range(count)]
    for row in range(rows):
        id, number, offset, metadata = struct.unpack_from("<QIII", manifest, at + 20 * row)
        data = segments[starts[number] + offset :]
        end = 12 + 4 * dimensions
        found[number].append((offset, Row(id, data[12:end], data[end : end + metadata])))
    return head, [[row for _, row in sorted(part, key=lambda r: r[0])] for part in found]


Case = collections.namedtuple("Case", "name manifest segments expected room good")
CASES = []


def case(name, files, expected=None, room=None, segments=None, good=False):
    """Adds a case. `expected` and `room` stand for the stored CRC and for a little more than enough."""
    manifest = files.manifest
    stored = struct.unpack("<I", manifest[-4:])[0] if len(manifest) >= 4 else 0
    assert len(name) < 100 and "\n" not in name
    CASES.append(
        Case(
            name,
            manifest,
            b"".join(files.segments) if segments is None else segments,
            stored if expected is None else expected,
            files.rows + (0, 1, 6)[len(CASES) % 3] if room is None else room,
            good,
        )
    )


def both(name, files):
    """A damaged manifest, its CRC left as it was and put right."""
    case(name, files)
    case(name + ", CRC put right", files.right())


def whole(name, files):
    """A library written with its fault, every CRC right, and with its manifest's wrong too."""
    case(name, files)
    case(name + ", CRC wrong", files.set(16, bytes([files.manifest[16] ^ 255])))


def spoilt(name, files):
    """Damaged segments, their CRCs left as they were and put right."""
    case(name, files)
    case(name + ", CRCs put right", files.right_segments())


# ---- Good libraries ----

KINDS = ["gauss", "ties", "tiny", "huge", "zero", "half", "near", "bits", "mixed"]
SCALARS = [0x01, 0x7F, 0x80, 0x7FF, 0x800, 0xFFF, 0x1000, 0xCFFF, 0xD000, 0xD7FF, 0xE000, 0xFFFF]
SCALARS += [0x10000, 0x3FFFF, 0x40000, 0xFFFFF, 0x100000, 0x10FFFF]
BOUNDARY = "".join(map(chr, SCALARS)).encode()


def generated(number, rows, dimensions, metric, kind, segments, metadata):
    with tempfile.TemporaryDirectory() as directory:
        words = [ORACLE, "gen", directory, "--seed", number, "--rows", rows, "--dims", dimensions]
        words += ["--metric", ("l2", "cosine", "ip")[metric], "--dist", kind, "--meta-max", metadata]
        words += ["--generation", 2 + number % 3, "--sequence", number * number, "--segments", segments]
        words += ["--model", ("m", "pump 7", "Strömung/1")[number % 3]]
        subprocess.run(list(map(str, words)), check=True)
        data = [open(os.path.join(directory, name), "rb").read() for name in ("MANIFEST", "SEGMENTS")]
    return read(*data), data


def good():
    number, made = 0, []
    for kind in KINDS:
        for metric in (L2, COSINE, INNER):
            rows, dimensions = (1, 2, 4, 7, 9, 5)[number % 6], (1, 3, 2, 8, 5, 16, 33)[number % 7]
            segments, metadata = number % 5, (0, 6, 14, 40)[number % 4]
            (head, parts), data = generated(number, rows, dimensions, metric, kind, segments, metadata)
            files = write(head, parts)
            assert [files.manifest, b"".join(files.segments)] == data
            made.append((head, parts))
            by = "published" if segments == 0 else "laid out"
            case("good: %s, %s" % (kind, by), files, good=True)
            number += 1
    for metric in (L2, COSINE, INNER):
        (head, parts), _ = generated(number, 0, 4, metric, "gauss", 0, 0)
        case("good: no rows", write(head, parts), good=True)
        number += 1
    for metric, segments in ((L2, 1), (INNER, 4)):
        (head, parts), _ = generated(number, 200, 2, metric, "gauss", segments, 8)
        case("good: 200 rows", write(head, parts), good=True)
        number += 1
    # The same rows in other orders and other segments.
    for chosen in (3, 4, 10, 16, 21, 22):
        head, parts = made[chosen]
        rows = sorted(row for part in parts for row in part)
        case("good: one segment, rows by rising id", write(head, [rows]), good=True)
        case("good: one segment, rows by falling id", write(head, [rows[::-1]]), good=True)
        count = min(len(rows), 4)
        dealt = [rows[n::count][::-1] for n in range(count)][::-1]
        case("good: rows dealt over the segments, falling", write(head, dealt), good=True)
    # The ends of each range.
    a, b = Row(3, floats(1, 2), b""), Row(9, floats(-3, 0.5), b"x")
    head = Head(1, 0, 2, 16, 200, 42, L2, b"m")
    most = 2**64 - 1
    ends = [
        ("m 2, ef 2", head._replace(m=2, ef=2), [[a, b]]),
        ("m 64, ef 64", head._replace(m=64, ef=64), [[a, b]]),
        ("m 2, ef 4096", head._replace(m=2, ef=4096), [[b], [a]]),
        ("generation, sequence and seed at their most", head._replace(generation=most, sequence=most, seed=most), [[a]]),
        ("seed 0", head._replace(seed=0), [[a]]),
        ("model of 512 bytes", head._replace(model=b"0123456789abcdef" * 32), [[a, b]]),
        ("model of 512 bytes, four a character", head._replace(model="\U0001F600".encode() * 128), [[b, a]]),
        ("model and metadata of the ends of each UTF-8 range", head._replace(model=BOUNDARY), [[a._replace(metadata=BOUNDARY)]]),
        ("metadata with NUL", head, [[a._replace(metadata=b"\0"), b._replace(metadata=b"a\0\0b\0")]]),
        ("metadata of 16,384 bytes", head, [[a._replace(metadata=b"0123456789abcdef" * 1024), b]]),
        ("ids 0 and the largest", head, [[b._replace(id=most), a._replace(id=0)]]),
        ("ids that rise as u64 but not as u32 or i64", head, [[Row(i, floats(i % 7, 1), b"") for i in (2**63, 5, 2**63 - 1, 2**32 + 4)]]),
        ("4096 dimensions", head._replace(dimensions=4096, metric=COSINE), [[Row(1, floats(*([-0.0] * 4095 + [1e-45])), b"end")]]),
        ("1024 segments", head._replace(dimensions=1), [[Row(2000 - n, floats(n), b"")] for n in range(1024)]),
        ("zero vectors", head, [[a._replace(coordinates=floats(0, -0.0)), b._replace(coordinates=floats(0, 0))]]),
        ("zero vectors, inner product", head._replace(metric=INNER), [[a._replace(coordinates=floats(-0.0, -0.0))]]),
        ("cosine, one coordinate the least", head._replace(metric=COSINE), [[a._replace(coordinates=u32(0x80000000) + u32(1))]]),
        ("cosine, one coordinate the least negative", head._replace(metric=COSINE), [[a._replace(coordinates=u32(0x80000001) + u32(0))]]),
        ("the largest f32 of either sign", head, [[a._replace(coordinates=u32(0x7F7FFFFF) + u32(0xFF7FFFFF))]]),
    ]
    for name, head, parts in ends:
        case("good: " + name, write(head, parts), good=True)
    case("good: shortest manifest, no scratch", write(Head(1, 0, 1, 2, 2, 0, L2, b"m"), []), room=0, good=True)
    case("good: scratch far longer than the rows", write(Head(1, 0, 2, 16, 200, 42, INNER, b"m"), [[b, a]]), room=4096, good=True)


# ---- Changed ones ----

# Each way in which bytes are no UTF-8; those in CUT only where the text ends.
BAD = [
    ("continuation alone 80", "80"), ("continuation alone BF", "bf"), ("two bytes too long C0", "c0af"), ("two bytes too long C1", "c1bf"),
    ("three bytes too long", "e08080"), ("three bytes just too long", "e09fbf"), ("four bytes too long", "f0808080"),
    ("four bytes just too long", "f08fbfbf"), ("first surrogate", "eda080"), ("last surrogate", "edbfbf"), ("past the last character", "f4908080"),
    ("lead F5", "f5808080"), ("lead F8", "f888808080"), ("FE", "fe"), ("FF", "ff"), ("second byte of two", "c328"),
    ("second byte of three", "e228a1"),
    ("third byte of three", "e28228"), ("second byte of four", "f0288cbc"), ("third byte of four", "f09028bc"), ("fourth byte of four", "f0909028"),
    ("two leads", "c3c3"), ("one continuation too many", "c3a9a9"),
]
CUT = [
    ("one byte of two", "c3"), ("one byte of three", "e2"), ("two bytes of three", "e282"), ("one byte of four", "f0"),
    ("two bytes of four", "f09f"), ("three bytes of four", "f09f98"),
]


def texts():
    """Each bad form after 0 to 17 good bytes, and before some where it is not one of the cut ones."""
    for n, (name, form) in enumerate(BAD):
        yield name, b"abcdefghijklmnopq"[: (0, 1, 7, 8, 9, 15, 16, 17)[n % 8]] + bytes.fromhex(form) + b"yz"[: n % 3]
    for n, (name, form) in enumerate(CUT):
        yield name + ", cut", b"abcdefghijklmnopq"[: (0, 3, 8, 16)[n % 4]] + bytes.fromhex(form)


def bases():
    """Three libraries to damage: rows out of id order in three segments; one segment; four, each of one row."""
    head = Head(5, 77, 3, 16, 200, 42, L2, "Strömung".encode())
    rows = [
        [Row(40, floats(1, 2, 3), "a€".encode()), Row(7, floats(-1, 0, 0.5), b""), Row(23, floats(8, -0.0, 1e-40), b"pump 7")],
        [Row(5, floats(0, 0.25, 0), "\U0001F600!".encode()), Row(90, floats(3e38, -3e38, 1), b"zz")],
        [Row(61, floats(0.1, 0.2, 0.3), b"motor"), Row(12, floats(4, 4, 4), b"motor")],
    ]
    one = Head(2**40, 0, 2, 2, 2, 0, COSINE, b"m")
    four = Head(1, 2**64 - 1, 1, 64, 4096, 2**63, INNER, b"x" * 20)
    return [
        write(head, rows),
        write(one, [[Row(2**63, floats(0, 1), "é".encode()), Row(1, floats(-0.0, -2), b"abc"), Row(2**32, floats(5, 6), b"")]]),
        write(four, [[Row(n, floats(n), b"ab"[:n % 3])] for n in (9, 4, 6, 1)]),
    ]


def head_damage(files):
    for at, name in ((0, "first"), (4, "fifth"), (7, "last")):
        both("magic's %s byte" % name, files.set(at, bytes([files.manifest[at] ^ 1])))
    both("magic of a cache", files.set(0, b"VECSQ801"))
    for value in (3, 4, 128, 255):
        both("metric byte %d" % value, files.set(44, bytes([value])))
    for name, at, values in (("dimensions", 24, (0, 4097, 2**32 - 1)), ("m", 28, (0, 1, 65, 2**32 - 1)), ("ef", 32, (0, 1, 4097, 2**32 - 1))):
        for value in values:
            both("%s %d" % (name, value), files.set(at, u32(value)))
    both("m 17, ef 16", files.set(28, u32(17) + u32(16)))
    both("m 1, ef 1", files.set(28, u32(1) + u32(1)))
    both("m 65, ef 65", files.set(28, u32(65) + u32(65)))
    both("generation 0", files.set(8, u64(0)))
    # No refusal but the CRC's.
    for name, at in (("generation", 8), ("sequence", 16), ("seed", 36), ("model", 49), ("a segment's CRC", files.table + 8)):
        case("%s changed" % name, files.set(at, bytes([files.manifest[at] ^ 2])))
    case("generation, sequence and seed changed, CRC put right", files.set(8, u64(99)).set(16, u64(98)).set(36, u64(97)).right())
    case("metric changed, CRC put right", files.set(44, bytes([2])).right())


def model_damage(head, rows):
    made = lambda model, **fields: write(head._replace(model=model, **fields), rows)
    whole("model of no bytes", made(b""))
    whole("model of 513 bytes", made(b"p" * 513))
    both("model of 513 bytes, dimensions 0", made(b"p" * 513).set(24, u32(0)))
    for name, model in texts():
        case("model: " + name, made(model))
    for name, model in (("alone", b"\0"), ("first", b"\0m"), ("inside", b"pump\x007"), ("last", "Strömung\0".encode())):
        whole("NUL %s in the model" % name, made(model))
    whole("model of 511 bytes and half a character", made(b"p" * 511 + b"\xc3"))
    # The model's length against the bytes that are there.
    files = made(b"p" * 20)
    left = len(files.manifest) - 4 - 49
    for value in (0, 513, 2**31, 2**32 - 1):
        both("model length %d" % value, files.set(45, u32(value)))
    both("model length 512, cut short", files.set(45, u32(512)))
    both("model one byte past the end", files.set(45, u32(left + 1)))
    both("model one byte past the end, no UTF-8, dimensions 0", files.set(45, u32(left + 1)).set(49, b"\xff").set(24, u32(0)))
    both("model one byte past the end, metric 3", files.set(45, u32(left + 1)).set(44, b"\3"))
    # Cut at the counts.
    for size in (0, 1, 3, 4, 5, 11):
        cut = files.copy(manifest=files.manifest[: 69 + size] + files.manifest[-4:])
        both("ends after %d bytes of the counts" % size, cut)
        if size in (0, 4):
            both("ends after %d bytes of the counts, dimensions 0" % size, cut.set(24, u32(0)))
            both("ends after %d bytes of the counts, NUL in the model" % size, cut.set(60, b"\0"))
            both("ends after %d bytes of the counts, generation 0" % size, cut.set(8, u64(0)))
    both("model over all that follows", files.copy(manifest=files.manifest[:-4] + b"p" * 4).set(45, u32(left)))


def length_damage(files):
    whole = files.manifest
    for size in (0, 1, 3, 4, 8, 49, 64, 65):
        case("manifest of %d bytes" % size, files.copy(manifest=whole[:size]))
    for size in (65, 66, 67):
        both("manifest of %d bytes, the last four a CRC" % size, files.copy(manifest=whole[: size - 4] + bytes(4)))
    case("manifest of 66 zeros", files.copy(manifest=bytes(66)))
    short = write(Head(1, 0, 1, 2, 2, 0, L2, b""), [])
    case("manifest of 65 bytes, model length 0", short)
    case("manifest of 66 bytes, model length 0", short.copy(manifest=sealed(short.manifest[:-4] + b"\0")))
    for count in (1, 4, 12, 20):
        both("%d bytes left over" % count, files.copy(manifest=whole[:-4] + bytes(count) + whole[-4:]))
        both("%d bytes missing at the end" % count, files.copy(manifest=whole[: -4 - count] + whole[-4:]))
    case("a byte after the CRC", files.copy(manifest=whole + b"\0"))
    case("the CRC's last byte missing", files.copy(manifest=whole[:-1]))
    case("the CRC missing", files.copy(manifest=whole[:-4]))


def count_damage(files):
    segments, rows, at = len(files.segments), files.rows, files.counts
    for value in sorted({0, segments - 1, segments + 1, 1024, 1025, 2**32 - 1}):
        both("segment count %d" % value, files.set(at, u32(value)))
    for value in (0, rows - 1, rows + 1, 1000000, 1000001, 2**32 + rows, 2**64 - 1):
        both("row count %d" % value, files.set(at + 4, u64(value)))
    both("counts 0 and 0", files.set(at, u32(0) + u64(0)))
    body = files.manifest[: files.counts]
    whole("a segment but no rows", files.copy(manifest=sealed(body + u32(1) + u64(0) + u64(4) + u32(0))))
    whole("a row but no segments", files.copy(manifest=sealed(body + u32(0) + u64(1) + u64(1) + bytes(12))))
    last = segments - 1
    for value in (0, 3, 4, 67108865, 2**32, 2**63, 2**64 - 1):
        both("length %d of the last segment" % value, files.length(last, value))
    both("length of segment 0 and 2^32", files.length(0, 2**32 + len(files.segments[0])))
    both("length 67108864 of segment 0", files.length(0, 67108864))
    both("length 3 of segment 0, generation 0, dimensions 0", files.length(0, 3).set(8, u64(0)).set(24, u32(0)))


def row_damage(files):
    """Over a library of two segments or more, two rows or more in each."""
    rows, segments = files.rows, len(files.segments)
    id = lambda row: struct.unpack_from("<Q", files.manifest, files.entries + 20 * row)[0]
    entry = lambda row: files.manifest[files.entries + 20 * row :][:20]
    both("ids of rows 0 and 1 equal", files.field(1, "id", id(0)))
    both("ids of the last two rows equal", files.field(rows - 1, "id", id(rows - 2)))
    both("id of row 2 under that of row 1", files.field(2, "id", id(1) - 1))
    both("id 0 in the last row", files.field(rows - 1, "id", 0))
    both("first two rows exchanged", files.set(files.entries, entry(1) + entry(0)))
    for row in (0, rows - 1):
        both("segment number of row %d is the count" % row, files.field(row, "segment", segments))
    both("segment number 2^32 - 1", files.field(1, "segment", 2**32 - 1))
    large = files
    for row in range(rows):
        large = large.field(row, "id", 2**62 + row)
    both("segment number of row 1 is the count, ids over any length", large.field(1, "segment", segments))
    for value in (16385, 2**31, 2**32 - 1):
        both("metadata length %d" % value, files.field(1, "metadata", value))
    ends = [row for row in range(rows) if not any(
        files.get(r, "segment") == files.get(row, "segment") and files.get(r, "offset") > files.get(row, "offset") for r in range(rows))]
    size = lambda row: 12 + 4 * struct.unpack_from("<I", files.manifest, 24)[0] + files.get(row, "metadata")
    for row in ends:
        both("row %d one byte past its segment" % row, files.field(row, "offset", files.get(row, "offset") + 1))
    row = ends[0]
    both("metadata one byte past the segment", files.field(row, "metadata", files.get(row, "metadata") + 1))
    both("row %d over the segment's CRC" % row, files.field(row, "offset", files.get(row, "offset") + 4))
    both("offset 2^32 - 1", files.field(row, "offset", 2**32 - 1))
    both("offset whose end is 2^32", files.field(row, "offset", 2**32 - size(row)))
    both("segment one byte shorter", files.length(files.get(row, "segment"), len(files.segments[files.get(row, "segment")]) - 1))


def crc_damage(files):
    stored = struct.unpack("<I", files.manifest[-4:])[0]
    wrong = lambda value: files.copy(manifest=files.manifest[:-4] + u32(value))
    for bit in (0, 8, 23, 31):
        case("stored CRC, bit %d" % bit, wrong(stored ^ 1 << bit))
    case("stored CRC 0", wrong(0))
    case("stored CRC complemented", wrong(stored ^ 0xFFFFFFFF))
    case("stored CRC in the other byte order", wrong(struct.unpack(">I", files.manifest[-4:])[0]))
    case("stored CRC wrong, the expected one right", wrong(stored ^ 1), expected=stored)
    for name, value in (("0", 0), ("of another bit", stored ^ 1 << 31), ("in the other byte order", struct.unpack(">I", files.manifest[-4:])[0])):
        case("expected CRC " + name, files, expected=value)
    body = files.set(16, u64(1))
    case("expected CRC that of the bytes, stored one of before", body, expected=zlib.crc32(body.manifest[:-4]))
    case("expected CRC other, generation 0", files.set(8, u64(0)).right(), expected=1)
    case("expected CRC other, dimensions 0", files.set(24, u32(0)).right(), expected=1)
    case("expected CRC other, bytes left over", files.copy(manifest=sealed(files.manifest[:-4] + b"\0")), expected=1)
    case("expected CRC other, gap in segment 0", files.length(0, len(files.segments[0]) + 1).right(), expected=1)
    case("expected CRC other, a record's id wrong", files.record(0, 0, u64(0)), expected=1)


def tiling_damage(files):
    """Over the first library: row 1 lies in the middle of segment 0, row 4 at its start, row 3 at its end; rows 0 and 6 are segment 1."""
    size = lambda number: len(files.segments[number])
    at = lambda row: files.get(row, "offset")
    both("segment 0 longer by one", files.length(0, size(0) + 1))
    both("segment 2 longer by four", files.length(2, size(2) + 4))
    both("first row of segment 1 at 1", files.field(0, "offset", 1).field(6, "offset", at(6) + 1).length(1, size(1) + 1))
    both("gap before the last row of segment 0", files.field(3, "offset", at(3) + 1).length(0, size(0) + 1))
    both("gap before the middle row of segment 0", files.field(1, "offset", at(1) + 1).field(3, "offset", at(3) + 1).length(0, size(0) + 1))
    both("two rows at offset 0", files.field(1, "offset", 0))
    both("three rows at offset 0", files.field(1, "offset", 0).field(3, "offset", 0))
    both("overlap of one byte", files.field(1, "offset", at(1) - 1))
    both("overlap of one byte at the end", files.field(3, "offset", at(3) - 1).length(0, size(0) - 1))
    both("last row short of the end", files.field(3, "metadata", files.get(3, "metadata") - 1))
    both("middle row short of the next", files.field(4, "metadata", files.get(4, "metadata") - 1))
    both("middle row into the next", files.field(1, "metadata", 1))
    both("row of segment 2 in segment 0", files.field(2, "segment", 0))
    both("all rows of segment 1 in segment 0", files.field(0, "segment", 0).field(6, "segment", 0))
    both("rows of segments 0 and 2 exchanged", files.field(4, "segment", 2).field(5, "segment", 0))
    both("offsets of two rows of one segment exchanged", files.field(4, "offset", at(3)).field(3, "offset", 0))
    entries = [files.manifest[files.entries + 20 * row :][:20] for row in range(files.rows)]
    table = [files.manifest[files.table + 12 * n :][:12] for n in range(3)]

    def made(table, entries):
        counts = u32(len(table)) + u64(len(entries))
        other = files.copy(manifest=sealed(files.manifest[: files.counts] + counts + b"".join(table) + b"".join(entries)))
        other.rows = len(entries)
        return other

    for name, place in (("before", 0), ("between", 1), ("after", 3)):
        moved = [put(e, 8, u32(files.get(n, "segment") + (files.get(n, "segment") >= place))) for n, e in enumerate(entries)]
        for size_of in (0, 3, 4, 5, 67108864, 67108865):
            more = made(table[:place] + [u64(size_of) + u32(0)] + table[place:], moved)
            whole("segment of %d bytes without rows %s the others" % (size_of, name), more)
    # One row more, where others lie already.
    for name, row, offset in (("at 0", 4, 0), ("on the middle row", 1, at(1)), ("on the last row", 3, at(3)), ("across two rows", 1, 1)):
        more = entries + [u64(2**64 - 1) + u32(0) + u32(offset) + u32(files.get(row, "metadata"))]
        whole("one row more in segment 0, " + name, made(table, more))
    both("segment 0 longer by one, segment 1's first row not at 0", files.length(0, size(0) + 1).field(0, "offset", 1))
    bad = files.length(0, size(0) + 1).right()
    case("segment 0 longer by one, and its bytes too", bad.segment(0, files.segments[0] + b"\0"))
    case("segment 0 longer by one, no segments lent", bad, segments=b"")
    case("segment 0 longer by one, scratch short", bad, room=files.rows - 1)
    case("segment 0 longer by one, no scratch", bad, room=0)
    case("segment 0 longer by one, CRC wrong, no scratch", files.length(0, size(0) + 1), room=0)


def scratch_damage(files):
    rows = files.rows
    for room in (0, 1, rows - 1):
        case("scratch of %d" % room, files, room=room)
    case("scratch of as many as rows", files, room=rows)
    case("scratch short, generation 0", files.set(8, u64(0)).right(), room=rows - 1)
    case("scratch short, metric 3", files.set(44, b"\3").right(), room=rows - 1)
    case("scratch short, CRC wrong", files.set(16, u64(0)), room=rows - 1)
    case("scratch short, expected CRC other", files, expected=7, room=rows - 1)
    case("scratch short, segments too long", files, room=rows - 1, segments=b"".join(files.segments) + b"\0")
    case("scratch short, a record's id wrong", files.record(0, 0, u64(0)), room=rows - 1)


def slice_damage(files):
    whole = b"".join(files.segments)
    case("segments one byte longer", files, segments=whole + b"\0")
    case("segments four bytes longer", files, segments=whole + bytes(4))
    case("segments one byte shorter", files, segments=whole[:-1])
    case("segments without their first byte", files, segments=whole[1:])
    case("segments without the last CRC", files, segments=whole[:-4])
    case("no segments lent", files, segments=b"")
    case("segments without the last", files, segments=b"".join(files.segments[:-1]))
    case("segments twice", files, segments=whole * 2)
    last = files.record(files.rows - 1, 0, u64(0))
    case("segments one byte longer, the last row's id wrong", last, segments=b"".join(last.segments) + b"\0")
    case("segments one byte shorter, the last row's id wrong", last, segments=b"".join(last.segments)[:-1])
    case("segments one byte longer, CRC of segment 0 wrong", files.crc(0, 1), segments=whole + b"\0")


def record_damage(files, dimensions, cosine):
    last = files.rows - 1
    row_id = lambda row: struct.unpack_from("<Q", files.manifest, files.entries + 20 * row)[0]
    for row in (0, last):
        for bit in (0, 31, 63):
            spoilt("id of row %d, bit %d" % (row, bit), files.record(row, 0, u64(row_id(row) ^ 1 << bit)))
    for row in range(files.rows):
        have = files.get(row, "metadata")
        spoilt("metadata length of row %d one more" % row, files.record(row, 8, u32(have + 1)))
    spoilt("metadata length of row 0, high bit", files.record(0, 8, u32(files.get(0, "metadata") | 1 << 31)))
    end = 12 + 4 * dimensions - 4
    numbers = [("infinity", INFINITY), ("-infinity", INFINITY | 1 << 31), ("NaN", NAN), ("-NaN", NAN | 1 << 31), ("NaN with bit 0", INFINITY + 1),
               ("NaN of all bits", 2**32 - 1)]
    for n, (name, bits) in enumerate(numbers):
        spoilt("%s, first coordinate of row %d" % (name, n % files.rows), files.record(n % files.rows, 12, u32(bits)))
        spoilt("%s, last coordinate of row %d" % (name, last), files.record(last, end, u32(bits)))
    for row in (0, last):
        for name, part in (("zero", u32(0)), ("negative zero", u32(1 << 31)), ("a zero of each sign", u32(1 << 31) + u32(0))):
            zeros = (part * dimensions)[: 4 * dimensions]
            spoilt("%s vector in row %d%s" % (name, row, ", cosine" if cosine else ""), files.record(row, 12, zeros))
    largest = u32(0x7F7FFFFF)
    case("largest f32 in row 0, CRCs put right", files.record(0, 12, largest).right_segments())


def text_damage(head, rows):
    """Metadata that is no UTF-8, in turn in each row, every other byte right."""
    flat = [(number, place) for number, part in enumerate(rows) for place in range(len(part))]
    for n, (name, text) in enumerate(texts()):
        number, place = flat[n % len(flat)]
        changed = [list(part) for part in rows]
        changed[number][place] = changed[number][place]._replace(metadata=text)
        case("metadata: " + name, write(head, changed))
    # A character cut by the end of its record, whose rest begins the next one.
    next_id = 0xA9A9A9
    cut = [[Row(1, floats(*[1] * head.dimensions), b"\xc3"), Row(next_id, floats(*[2] * head.dimensions), b"")]]
    case("metadata: cut, the next id begins with a continuation", write(head, cut))
    good = write(head, rows)
    spoilt("metadata: one byte to FF", good.record(4, 12 + 4 * head.dimensions, b"\xff"))
    spoilt("metadata: one letter to another", good.record(4, 12 + 4 * head.dimensions, b"b"))


def crc_of_segments(files):
    """Over the first library: see tiling_damage."""
    stored = [struct.unpack("<I", data[-4:])[0] for data in files.segments]
    for number, data in enumerate(files.segments):
        case("stored CRC of segment %d" % number, files.segment(number, data[:-4] + u32(stored[number] ^ 1)))
        case("manifest's CRC of segment %d" % number, files.crc(number, stored[number] ^ 1 << 31))
        other = stored[number] ^ 0x100
        case("both CRCs of segment %d wrong and equal" % number, files.segment(number, data[:-4] + u32(other)).crc(number, other))
        changed = data[:13] + bytes([data[13] ^ 1]) + data[14:]
        case("coordinate in segment %d" % number, files.segment(number, changed))
        case("coordinate in segment %d, its own CRC put right" % number, files.segment(number, sealed(changed[:-4])))
        case("coordinate in segment %d, the manifest's CRC put right" % number, files.segment(number, changed).crc(number, zlib.crc32(changed[:-4])))
        case("coordinate in segment %d, CRCs put right" % number, files.segment(number, changed).right_segments())
    case("CRCs of segments 0 and 1 exchanged in the manifest", files.crc(0, stored[1]).crc(1, stored[0]))
    case("CRCs of segments 1 and 2 wrong", files.crc(1, 0).crc(2, 0))
    # Who comes first. Rows 4, 1, 3 lie in segment 0 in this order; rows 0, 6 in segment 1; rows 5, 2 in segment 2.
    wrong = lambda f, row: f.record(row, 0, u64(0))
    case("CRC of segment 0, record in segment 1", wrong(files.crc(0, 0), 0))
    case("CRC of segment 0, record in segment 2", wrong(files.crc(0, 0), 5))
    case("CRC of segment 1, record in segment 2", wrong(files.crc(1, 0), 2))
    case("CRC of segment 0, record in segment 0", wrong(files.crc(0, 0), 3))
    case("CRC of segment 1, record in segment 0", wrong(files.crc(1, 0), 1))
    case("CRC of segment 2, record in segment 1", wrong(files.crc(2, 0), 6))
    spoilt("records of rows 1 and 4", wrong(wrong(files, 1), 4))
    spoilt("records of rows 1 and 3", wrong(wrong(files, 3), 1))
    spoilt("records of rows 3 and 4", wrong(wrong(files, 3), 4))
    spoilt("records of rows 0 and 3", wrong(wrong(files, 0), 3))
    spoilt("records of rows 2 and 6", wrong(wrong(files, 2), 6))
    spoilt("records of rows 2 and 5", wrong(wrong(files, 2), 5))
    spoilt("every record", wrong(wrong(wrong(wrong(wrong(wrong(wrong(files, 0), 1), 2), 3), 4), 5), 6))
    spoilt("NaN in row 3, metadata in row 1", files.record(3, 12, u32(NAN)).record(1, 8, u32(1)))
    case("segments 0 and 1 exchanged", files, segments=files.segments[1] + files.segments[0] + files.segments[2])
    a, b = files.get(5, "offset"), files.get(2, "offset")
    case("offsets of two rows of one length exchanged, CRC put right", files.field(5, "offset", b).field(2, "offset", a).right())
    case("ids of two rows of one length exchanged in the segment", files.record(5, 0, u64(12)).record(2, 0, u64(61)).right_segments())


def empty_damage():
    empty = write(Head(3, 4, 7, 16, 200, 42, COSINE, b"model"), [])
    case("no rows, a byte of segments", empty, segments=b"\0")
    case("no rows, four bytes of segments", empty, segments=bytes(4))
    case("no rows, expected CRC other", empty, expected=0)
    both("no rows, generation 0", empty.set(8, u64(0)))
    both("no rows, segment count 1", empty.set(empty.counts, u32(1)))
    both("no rows, row count 1", empty.set(empty.counts + 4, u64(1)))
    both("no rows, a byte left over", empty.copy(manifest=empty.manifest[:-4] + b"\0" + empty.manifest[-4:]))
    both("no rows, dimensions 0", empty.set(24, u32(0)))
    case("no rows, CRC wrong", empty.set(16, u64(0)))
    case("no rows, CRC wrong, a byte of segments", empty.set(16, u64(0)), segments=b"\0")


def bound_damage():
    """Libraries right in all but one bound."""
    head = Head(1, 0, 2, 16, 200, 42, L2, b"m")
    case("1025 segments", write(head._replace(dimensions=1), [[Row(n, floats(n), b"")] for n in range(1025)]))
    case("4097 dimensions", write(head._replace(dimensions=4097), [[Row(1, floats(*[1] * 4097), b"")]]))
    whole("no dimensions", write(head._replace(dimensions=0), [[Row(1, b"", b"abcd")]]))
    case("metadata of 16,385 bytes", write(head, [[Row(1, floats(1, 2), b"m" * 16385)]]))
    whole("one id twice", write(head, [[Row(1, floats(1, 2), b""), Row(1, floats(1, 2), b"")]]))
    whole("one id in two segments", write(head, [[Row(1, floats(1, 2), b"")], [Row(1, floats(1, 2), b"")]]))
    whole("a segment without rows", write(head, [[Row(1, floats(1, 2), b"")], []]))
    whole("only a segment without rows", write(head, [[]]))


def damaged():
    three, one, four = bases()
    for name, files in (("three segments", three), ("one segment", one), ("four segments", four)):
        case("good: base of %s" % name, files, good=True)
    length_damage(three)
    head_damage(three)
    head_damage(one)
    three_parts = read(three.manifest, b"".join(three.segments))
    four_parts = read(four.manifest, b"".join(four.segments))
    model_damage(*four_parts)
    count_damage(three)
    count_damage(one)
    row_damage(three)
    crc_damage(three)
    tiling_damage(three)
    scratch_damage(four)
    slice_damage(three)
    slice_damage(four)
    record_damage(three, 3, False)
    record_damage(one, 2, True)
    text_damage(*three_parts)
    crc_of_segments(three)
    empty_damage()
    bound_damage()


# ---- What must be said of each ----

def judged(c, directory):
    """Number and place by the oracle; 0 and 0 where the library is accepted."""
    files = {"MANIFEST": c.manifest, "SEGMENTS": c.segments, "CACHE": b"", "QUERY": b"", "CALL": bytes(8), "PLACE": b"\n"}
    for name, data in files.items():
        with open(os.path.join(directory, name), "wb") as f:
            f.write(data)
    done = subprocess.run([ORACLE, "list", directory], capture_output=True, text=True)
    if done.returncode != 0:
        sys.exit("%s: the oracle's two sides disagree\n%s" % (c.name, done.stderr))
    words = done.stdout.split()
    assert len(words) == 4 and words[0] == "refused", done.stdout
    number, place = int(words[1]), int(words[3])
    assert number in (1, 2, 3, 4, 5, 6, 12), c.name
    return (0, 0) if number == 12 else (number, place)


def line(c, directory):
    number, place = judged(c, directory)
    stored = struct.unpack("<I", c.manifest[-4:])[0] if len(c.manifest) >= 4 else 0
    if c.expected != stored and number not in (1, 2):
        number, place = 3, 0
    head, rows = "-", 0
    if number not in (1, 2, 3):
        h, parts = read(c.manifest, b"")
        rows = sum(map(len, parts))
        fields = [len(c.manifest), *h[:7], len(h.model), h.model.hex(), len(parts), rows]
        head = " ".join(map(str, fields))
    if number not in (1, 2, 3) and c.room < rows:
        number, place = 11, 0
    assert c.good == c.name.startswith("good: ") and not (c.good and number)
    scratch = "kept" if number in (1, 2, 3, 11) or c.room == 0 else "zero"
    accepted = number in (0, 5, 6)
    words = [0 if accepted else number, 0, head if accepted else "-", scratch]
    words += [number, place, head if number == 0 else "-", scratch, c.name]
    return number, " ".join(map(str, words))


def main():
    good()
    damaged()
    seen = {}
    for c in CASES:
        key = c[1:5]
        assert key not in seen, (c.name, seen[key])
        seen[key] = c.name
    data, lines, counts = b"", "", collections.Counter()
    with tempfile.TemporaryDirectory() as directory:
        for n, c in enumerate(CASES):
            name = c.name.encode()
            data += b"".join(map(u32, (c.expected, c.room, len(name), len(c.manifest), len(c.segments)))) + name + c.manifest + c.segments
            number, text = line(c, directory)
            lines += "%d %s\n" % (n, text)
            counts["good" if c.good else number] += 1
    with open(os.path.join(TO, "stdin"), "wb") as f:
        f.write(data)
    with open(os.path.join(TO, "stdout"), "w", encoding="ascii") as f:
        f.write(lines)
    print("%d cases, %d good libraries" % (len(CASES), counts.pop("good")))
    print("changed, by number (0: accepted): " + ", ".join("%d: %d" % item for item in sorted(counts.items())))


main()
