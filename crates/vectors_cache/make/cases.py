"""cases.py ORACLE DIR: writes DIR/stdin, libraries and caches good and changed, and DIR/stdout, what the four entries must say of each.

stdin is a row of cases. A case is max_cache_bytes and buffer_bytes (u64 each), then 14 numbers (u32 each): the expected CRC-32, the
scratch's length, its length at the case's opening, the lengths of name, manifest, segments, platform and of what is read of the root, the
root's length (zeros follow what is read), the length of the cache to open, the cache's room at preparing, and the rooms of codes, scales
and norms at building; then name, manifest, segments, platform, root and the cache to open.

What is lent: the scratch as 1, 2, 3 ..; the cache's room as its places modulo 251; codes -128, scales -1.5, norms -7.

stdout has these lines for each. A refusal is its number and place; a head is the manifest's length, generation, sequence, dimensions, m,
ef, seed, metric byte, the model's length, the sum of its 512 bytes, segments and rows, or `-` where every field is 0; the scratch ends as
kept, zero or changed, the rest of a room past what was stored as kept or changed. A sum is a CRC-32; a cache's are two, of all but its
last four bytes and of these, as the sum of a whole sealed cache is one number for all caches.

    case's place in the list, name
    size REFUSAL SIZE SCRATCH
    prepare REFUSAL GENERATION SEQUENCE CACHE-BYTES CODE-BYTES PARAMETER-BYTES SUM SUM REST SCRATCH
    the cache in hexadecimal                            only where it was prepared, of at most 256 bytes
    open REFUSAL LENGTH HEAD SCRATCH                    only where it was prepared: what was prepared, opened
    open REFUSAL LENGTH HEAD SCRATCH                    the cache of the case, opened
    build REFUSAL LENGTHS HEAD (SUM REST)*3 SCRATCH     of codes, scales and norms

By the Rust: the bytes of every cache are those that it wrote, and codes, scales and norms are cut from its rows; where a case lends another
platform, root or head of the manifest, the Rust's rows stand behind a head laid out as document 01 has it.

By the Rust and document 01 written out, in `oracle list`, which prints only where they agree: a refused manifest, and opening (12 to 15,
or none). The Rust's store lies at another path there, so the Rust is lent the cache with its own identity in place of the one that the
case asks for: an equal one for an equal one, another for any that differs, a wrong length for a wrong one, and a wrong checksum wrong by
the same bits. Which bytes of an identity count, and all places, are so document 01's alone.

By document 01's table alone, in `refusals` below: an expected CRC other than the stored one (3), a short scratch (11), sizing (10, 7, 9;
8 takes a manifest too long for a case), which `oracle list` reaches with the default options only, rooms (11), and a bad record at
preparing and building (5), as the Rust refuses such a library before it prepares.
"""
import collections
import dataclasses
import math
import os
import struct
import subprocess
import sys
import tempfile
import zlib

ORACLE, TO = sys.argv[1:3]
METRICS = ("l2", "cosine", "ip")
L2, COSINE, INNER = 0, 1, 2
DEFAULTS = (1073741824, 1048576)


def u32(x):
    return struct.pack("<I", x)


def u64(x):
    return struct.pack("<Q", x)


def f64(x):
    return struct.pack("<d", x)


def number(data, at, size):
    return int.from_bytes(data[at : at + size], "little")


def sealed(body):
    return body + u32(zlib.crc32(body))


def put(data, at, part):
    assert 0 <= at and at + len(part) <= len(data)
    return data[:at] + part + data[at + len(part) :]


def flip(data, at, bits=1):
    return put(data, at, bytes([data[at] ^ bits]))


def resealed(data):
    return sealed(data[:-4])


# ---- Libraries ----

Entry = collections.namedtuple("Entry", "id segment offset metadata")


@dataclasses.dataclass(frozen=True)
class Library:
    """What `oracle gen` wrote, or a change of it that keeps the rows. `cache` is the Rust's, or its rows behind another head."""

    manifest: bytes
    segments: bytes
    cache: bytes
    platform: bytes
    root: bytes

    def __post_init__(self):
        m = self.manifest
        put_in = lambda name, value: object.__setattr__(self, name, value)
        put_in("generation", number(m, 8, 8))
        put_in("sequence", number(m, 16, 8))
        put_in("dimensions", number(m, 24, 4))
        put_in("metric", m[44])
        put_in("counts", 49 + number(m, 45, 4))
        put_in("count", number(m, self.counts, 4))
        put_in("rows", number(m, self.counts + 4, 8))
        put_in("table", self.counts + 12)
        put_in("entries", self.table + 12 * self.count)

    @property
    def identity(self):
        return b"".join([u32(len(self.platform)), self.platform, u32(len(self.root)), self.root, self.manifest[8:-4]])

    @property
    def row_length(self):
        return self.dimensions + 16

    @property
    def size(self):
        return len(self.identity) + 20 + self.rows * self.row_length

    def row_at(self, row):
        return self.size - 4 - (self.rows - row) * self.row_length

    def row(self, row):
        return self.cache[self.row_at(row) :][: self.row_length]

    def entry(self, row):
        return Entry(*struct.unpack_from("<QIII", self.manifest, self.entries + 20 * row))

    def start(self, segment):
        return sum(number(self.manifest, self.table + 12 * n, 8) for n in range(segment))

    def record_at(self, row):
        entry = self.entry(row)
        return self.start(entry.segment) + entry.offset

    def record_end(self, row):
        return self.record_at(row) + 12 + 4 * self.dimensions + self.entry(row).metadata

    def headed(self, **changes):
        """With another platform, root or manifest: document 01's head, the same rows."""
        other = dataclasses.replace(self, **changes)
        head = b"VECSQ801" + u32(1) + u32(len(other.identity)) + other.identity
        rows = b"".join(self.row(row) for row in range(self.rows))
        return dataclasses.replace(other, cache=sealed(head + rows))


def generated(seed, rows, dimensions, metric, kind, segments=0, metadata=0, model="m", generation=2, root="/tmp/pivatsohy", more=()):
    assert not os.path.exists(root), root
    with tempfile.TemporaryDirectory() as directory:
        words = [ORACLE, "gen", directory, "--seed", seed, "--rows", rows, "--dims", dimensions, "--metric", METRICS[metric]]
        words += ["--dist", kind, "--meta-max", metadata, "--generation", generation, "--sequence", seed * seed, "--segments", segments]
        words += ["--model", model, "--root", root, *more]
        subprocess.run(list(map(str, words)), check=True)
        manifest, segments, cache, place = [
            open(os.path.join(directory, name), "rb").read() for name in ("MANIFEST", "SEGMENTS", "CACHE", "PLACE")
        ]
    platform, _, found = place.partition(b"\n")
    assert found == root.encode(), found
    library = Library(manifest, segments, cache, platform, found)
    assert len(cache) == library.size and library.headed().cache == cache
    return library


# ---- Cases ----


@dataclasses.dataclass
class Case:
    """`library` is good and is what the bytes lent were changed from; the root lent is `root` and then zeros."""

    name: str
    kind: str
    library: Library
    manifest: bytes
    segments: bytes
    platform: bytes
    root: bytes
    root_length: int
    cache: bytes
    options: tuple
    expected: int
    room: int
    open_room: int
    cache_room: int
    codes_room: int
    scales_room: int
    norms_room: int


CASES = []


def case(kind, name, library, **changes):
    """Adds a case: the library as it is and a little more than enough of each room, but for what is changed."""
    stored = changes.get("manifest", library.manifest)[-4:]
    values = dict(
        manifest=library.manifest,
        segments=library.segments,
        platform=library.platform,
        root=library.root,
        cache=library.cache,
        options=DEFAULTS,
        expected=number(stored, 0, 4) if len(stored) == 4 else 0,
        room=library.rows + 1,
        open_room=library.rows + 3,
        cache_room=library.size + 5,
        codes_room=library.rows * library.dimensions + 3,
        scales_room=library.rows + 2,
        norms_room=library.rows + 1,
    )
    values["root_length"] = len(changes.get("root", library.root))
    values.update(changes)
    c = Case(name, kind, library, **values)
    assert len(name) < 100 and name.isascii() and "\n" not in name
    assert max(len(c.manifest), len(c.cache), c.codes_room) <= 65536 and len(c.segments) <= 131072 and c.cache_room <= 1114112
    assert max(c.room, c.open_room, c.scales_room, c.norms_room, len(c.root)) <= 4096
    assert len(c.platform) <= 100 and len(c.root) <= c.root_length <= 1048577
    CASES.append(c)


# ---- What must be said of each ----


def answer(*words):
    """`oracle` with these words: what it printed."""
    done = subprocess.run([ORACLE, *words], capture_output=True, text=True)
    if done.returncode != 0:
        sys.exit("%s\n%s%s" % (words, done.stdout, done.stderr))
    return done.stdout


JUDGED = {}


def judged(c):
    """Number and place by the oracle of a manifest, and if that is accepted of opening under the default options; 0 and 0 where it opens.

    k is 0, so that a search answers and looks at no row. The segments lent are the good ones: opening does not look at them. Where they are
    longer than the list program allows, the search of the Rust alone is asked, for a cache as the Rust wrote it.
    """
    library = c.library
    root = c.root + bytes(c.root_length - len(c.root))
    place, query = c.platform + b"\n" + root, struct.pack("<f", 1.0) * library.dimensions
    files = {"MANIFEST": c.manifest, "SEGMENTS": library.segments, "CACHE": c.cache, "PLACE": place}
    files |= {"QUERY": query, "CALL": u32(0) + u32(1)}
    key = tuple(files.values())
    if key in JUDGED:
        return JUDGED[key]
    assert b"\n" not in c.platform
    with tempfile.TemporaryDirectory() as directory:
        for name, data in files.items():
            with open(os.path.join(directory, name), "wb") as f:
                f.write(data)
        if len(library.segments) > 65536:
            assert c.manifest == library.manifest and c.cache == library.cache
            query = os.path.join(directory, "QUERY")
            words = answer("search", directory, "--cached", "--k", "0", "--limit", "1", "--query", query).split()
        else:
            words = answer("list", directory).split()
    if words[0] == "generation":
        JUDGED[key] = (0, 0)
    else:
        assert len(words) == 4 and words[0] == "refused", (c.name, words)
        JUDGED[key] = (int(words[1]), int(words[3]))
        assert JUDGED[key][0] in (1, 2, 3, 4, 10, 12, 13, 14, 15), (c.name, JUDGED[key])
    return JUDGED[key]


def bad_record(library, segments):
    """The lowest row whose record is bad, or None. Document 01: it passes the end of the segments, or its id, metadata length, coordinates
    (non-finite, or all zero under cosine) or UTF-8 is wrong."""
    for row in range(library.rows):
        entry, at, end = library.entry(row), library.record_at(row), library.record_end(row)
        if end > len(segments):
            return row
        id, length = struct.unpack_from("<QI", segments, at)
        vector = struct.unpack_from("<%df" % library.dimensions, segments, at + 12)
        if id != entry.id or length != entry.metadata or not all(map(math.isfinite, vector)):
            return row
        if library.metric == COSINE and not any(vector):
            return row
        try:
            segments[at + 12 + 4 * library.dimensions : end].decode()
        except UnicodeDecodeError:
            return row
    return None


Refusals = collections.namedtuple("Refusals", "size prepare open build size_value kept open_kept")


def refusals(c):
    """What each of the four entries refuses a case with, (0, 0) for none: document 01's table and its orders, written out.

    From the oracle come 1 to 4 of a manifest whose own CRC is expected, and 12 to 15. All else is by the table:
    manifest: 1, 2; 3 also where another CRC is expected; 11 where the scratch is under the rows; 4.
    Sizing: 10, 7, 8, 9. Preparing: sizing's, 11, 5. Opening: sizing's, 12 to 15. Building: 8, 11, 5. A root too long for the oracle goes
    with a good manifest and an empty cache, which is 12 at opening.
    """
    library, none = c.library, (0, 0)
    long_root = c.root_length > 60000
    first = none if long_root else judged(c)
    manifest = first if first[0] in (1, 2, 3, 4) else none
    if manifest[0] not in (1, 2) and c.expected != number(c.manifest, len(c.manifest) - 4, 4):
        manifest = (3, 0)

    def scratch(room):
        return (11, 0) if manifest[0] not in (1, 2, 3) and room < library.rows else manifest

    identity = 4 + len(c.platform) + 4 + c.root_length + len(c.manifest) - 12
    size = identity + 20 + library.rows * library.row_length
    limit, block = c.options
    sizing = none
    if len(c.platform) > 64 or c.root_length > 1048576:
        sizing = (10, 0)
    elif not 1 <= limit <= 1073741824 or not library.row_length <= block <= 16777216:
        sizing = (7, 0)
    elif library.rows * library.dimensions > 536870912:
        sizing = (8, 0)
    elif size + 8 > limit:
        sizing = (9, 0)

    bad = bad_record(library, c.segments)
    records = none if bad is None else (5, bad)
    opening = first if first[0] in (12, 13, 14, 15) else none
    if long_root:
        assert c.cache == b""
        opening = (12, 0)
    few = c.codes_room < library.rows * library.dimensions or c.scales_room < library.rows or c.norms_room < library.rows

    def least(*tests):
        return next((t for t in tests if t[0]), none)

    kept = lambda room: room == 0 or scratch(room)[0] in (1, 2, 3, 11)
    return Refusals(
        least(scratch(c.room), sizing),
        least(scratch(c.room), sizing, (11, 0) if c.cache_room < size else none, records),
        least(scratch(c.open_room), sizing, opening),
        least(scratch(c.room), (11, 0) if few else none, records),
        size,
        "kept" if kept(c.room) else "zero",
        "kept" if kept(c.open_room) else "zero",
    )


def lines(c):
    r, library = refusals(c), c.library
    head = []
    if 0 in (r.size[0], r.open[0], r.build[0]):
        m = dataclasses.replace(library, manifest=c.manifest)
        model = c.manifest[49 : m.counts]
        head = [len(c.manifest), m.generation, m.sequence, m.dimensions, number(c.manifest, 28, 4), number(c.manifest, 32, 4)]
        head += [number(c.manifest, 36, 8), m.metric, len(model), "%08x" % zlib.crc32(model.ljust(512, b"\0")), m.count, m.rows]
    opened = lambda refusal, length: ["open", *refusal, *([0, "-"] if refusal[0] else [length, *head]), r.open_kept]
    out = [["size", *r.size, 0 if r.size[0] else r.size_value, r.kept]]
    if r.prepare[0]:
        out.append(["prepare", *r.prepare, 0, 0, 0, 0, 0, "00000000", "00000000", "kept", r.kept])
    else:
        root = c.root + bytes(c.root_length - len(c.root))
        cache = library.headed(manifest=c.manifest, platform=c.platform, root=root).cache
        assert len(cache) == r.size_value
        if (c.manifest, c.platform, root) == (library.manifest, library.platform, library.root):
            assert cache == library.cache
        codes, parameters = library.rows * library.dimensions, library.rows * 16
        sums = ["%08x" % zlib.crc32(part) for part in (cache[:-4], cache[-4:])]
        out.append(["prepare", 0, 0, head[1], head[2], len(cache), codes, parameters, *sums, "kept", r.kept])
        if len(cache) <= 256:
            out.append([cache.hex()])
        out.append(opened((11, 0) if r.open[0] == 11 else (0, 0), len(cache)))
    out.append(opened(r.open, len(c.cache)))
    if r.build[0]:
        out.append(["build", *r.build, 0, 0, 0, "-"] + ["00000000", "kept"] * 3 + [r.kept])
    else:
        rows = [library.row(row) for row in range(library.rows)]
        sums = [b"".join(row[16:] for row in rows), b"".join(row[:8] for row in rows), b"".join(row[8:16] for row in rows)]
        words = [w for s in sums for w in ("%08x" % zlib.crc32(s), "kept")]
        out.append(["build", 0, 0, c.codes_room, c.scales_room, c.norms_room, *head, *words, r.kept])
    return r, "".join(" ".join(map(str, words)) + "\n" for words in out)


# ---- Good libraries ----

KINDS = ["gauss", "ties", "tiny", "huge", "zero", "half", "near", "bits", "mixed"]
ROOTS = ["/tmp/pv", "/tmp/pivatsohy-7", "/tmp/pivatsohy strokes", "/tmp/pivatsohy-Str\u00f6mung", "/tmp/pivatsohy-" + "r" * 77]
ROOTS += ["/tmp/p" + "v" * 200]
MODELS = ["m", "pump 7", "Str\u00f6mung/1", "0123456789abcdef" * 32]


def good():
    seed = 0

    def add(rows, dimensions, metric, kind, segments, more=(), metadata=None):
        nonlocal seed
        seed += 1
        library = generated(
            seed, rows, dimensions, metric, kind, segments, (0, 6, 14, 40)[seed % 4] if metadata is None else metadata,
            MODELS[seed % 13 % 4], 2 + seed % 3, ROOTS[seed % 6], more,
        )
        by = "published" if segments == 0 else "%d segments" % library.count
        name = "%s, %s, %d rows of %d, %s" % (kind, METRICS[metric], library.rows, library.dimensions, by)
        exact = {}
        if seed % 3 == 0:
            exact = dict(room=library.rows, open_room=library.rows, cache_room=library.size, codes_room=library.rows * library.dimensions,
                         scales_room=library.rows, norms_room=library.rows)
        case("good", name + (", no room more" if exact else ""), library, **exact)
        return library

    for turn in (0, 1):
        for kind in KINDS:
            for metric in (L2, COSINE, INNER):
                rows = ((1, 2, 3, 5, 8, 13), (6, 1, 11, 21, 4, 9))[turn][seed % 6]
                dimensions = ((1, 2, 3, 4, 7, 8, 15), (16, 17, 31, 33, 50, 64, 101))[turn][seed % 7]
                add(rows, dimensions, metric, kind, seed % 5)
    for metric in (L2, COSINE, INNER):
        add(0, (1, 5, 4096)[metric], metric, "gauss", 0)
        add(3, (199, 200, 127)[metric], metric, ("mixed", "bits", "ties")[metric], 1 + metric)
    add(300, 3, L2, "gauss", 4)
    add(257, 1, INNER, "mixed", 0)
    add(200, 7, COSINE, "near", 1)
    add(128, 16, COSINE, "half", 3)
    add(60, 128, L2, "mixed", 2)
    two = add(2, 4096, COSINE, "gauss", 1)
    assert two.dimensions == 4096
    published = add(120, 150, INNER, "gauss", 0, more=("--segment-bytes", 65536), metadata=3)
    assert published.count == 2
    seed += 1
    example = generated(seed, 0, 0, L2, "example", 0, root="/tmp/pivatsohy")
    assert (example.generation, example.sequence, example.rows, example.dimensions) == (3, 7, 2, 2)
    case("good", "example", example)
    case("good", "example, no room more", example, room=2, open_room=2, cache_room=example.size, codes_room=4, scales_room=2, norms_room=2)
    # Other places than the Rust's own, and other heads of the manifest: the Rust's rows behind them.
    five = generated(seed, 5, 3, L2, "gauss", 2, 6)
    places = [("linux", "/s"), ("windows", "C:\\strokes"), ("", ""), ("", "/s"), ("linux", ""), ("p" * 64, "/s"), ("linux", "r" * 4096)]
    for platform, root in places:
        other = five.headed(platform=platform.encode(), root=root.encode())
        case("good", "platform of %d bytes, root of %d" % (len(platform), len(root)), other)
    for at, part, name in ((8, u64(2**64 - 1), "generation"), (16, u64(2**64 - 1), "sequence"), (36, u64(0), "seed")):
        other = five.headed(manifest=resealed(put(five.manifest, at, part)))
        case("good", "%s %d" % (name, number(part, 0, 8)), other)
    longest = five.headed(platform=b"linux", root=b"/s" + bytes(1048574))
    case("rule: sizing", "root of 1,048,576 bytes", longest, root=b"/s", root_length=1048576, cache=b"")
    case("rule: sizing", "root of 1,048,577 bytes", longest, root=b"/s", root_length=1048577, cache=b"")
    case("rule: sizing", "root of 1,048,577 bytes, cache limit 0", longest, root=b"/s", root_length=1048577, cache=b"", options=(0, 19))
    case("rule: sizing", "root of 1,048,576 bytes, limit one short", longest, root=b"/s", root_length=1048576, cache=b"",
         options=(longest.size + 7, 19))


# ---- Changed caches ----


def cache_case(name, library, cache, both=True, **changes):
    """A changed cache, its CRC left as it was and put right."""
    case("opening", name, library, cache=cache, **changes)
    if both and len(cache) >= 4 and resealed(cache) != cache:
        case("opening", name + ", CRC put right", library, cache=resealed(cache), **changes)


def identity_places(library):
    """Each part of the identity, with its place in the cache."""
    p, r = len(library.platform), len(library.root)
    start = 16 + 4 + p + 4 + r - 8  # where the manifest's byte 0 would stand
    fields = [("platform's length", 16), ("platform's first byte", 20), ("platform's last byte", 19 + p), ("root's length", 20 + p)]
    fields += [("root's first byte", 24 + p), ("root's last byte", 23 + p + r)]
    inside = [("generation", 8), ("sequence", 16), ("dimensions", 24), ("m", 28), ("ef", 32), ("seed", 36), ("metric", 44)]
    inside += [("model's length", 45), ("model", 49), ("segment count", library.counts), ("row count", library.counts + 4)]
    if library.rows:
        last = library.entries + 20 * (library.rows - 1)
        inside += [("segment 0's length", library.table), ("segment 0's CRC", library.table + 8), ("row 0's id", library.entries)]
        inside += [("row 0's offset", library.entries + 12), ("last row's id", last + 7), ("last row's segment", last + 8)]
        inside += [("last row's metadata length", last + 16), ("the last byte", len(library.manifest) - 5)]
    return fields + [(name, start + at) for name, at in inside]


def head_damage(library, both):
    cache, size = library.cache, library.size
    for name, other in (("one byte shorter", cache[:-1]), ("one byte longer", cache + b"\0"), ("empty", b""), ("of 15 bytes", cache[:15]),
                        ("of 16 bytes", cache[:16]), ("without its CRC", cache[:-4]), ("twice", cache * 2)):
        cache_case("cache " + name, library, other, both=False)
    if library.rows:
        cache_case("cache without a row", library, cache[: library.row_at(0)] + cache[library.row_at(0) + library.row_length :], both)
    for at in range(8):
        cache_case("magic, byte %d" % at, library, flip(cache, at, 1 << at), both and at in (0, 7))
    for version in (0, 2, 2**32 - 1, 1 << 24, 257):
        cache_case("version %d" % version, library, put(cache, 8, u32(version)), both and version in (0, 2))
    identity = len(library.identity)
    lengths = [("one less", identity - 1), ("one more", identity + 1), ("0", 0), ("the most", 2**32 - 1), ("2^16 more", identity + 65536)]
    for name, value in lengths:
        cache_case("identity's length %s" % name, library, put(cache, 12, u32(value)), both)
    for name, at in identity_places(library):
        assert 16 <= at < 16 + identity
        cache_case("identity: " + name, library, flip(cache, at), both)
    for name, bits in (("bit 0", 1), ("bit 31", 1 << 31), ("all bits", 2**32 - 1)):
        cache_case("CRC, %s" % name, library, cache[:-4] + u32(number(cache, size - 4, 4) ^ bits), False)
    cache_case("CRC of all but the identity", library, cache[:-4] + u32(zlib.crc32(cache[:16] + cache[16 + identity : -4])), False)


def place_damage(library):
    """The cache is the library's, the platform or root lent is another."""
    p, r = library.platform, library.root
    others = [("platform one byte other", b"linuy", r), ("platform one byte shorter", p[:-1], r), ("platform one byte longer", p + b"x", r)]
    others += [("no platform", b"", r), ("root one byte other", p, flip(r, len(r) - 1)), ("root one byte shorter", p, r[:-1])]
    others += [("root one byte longer", p, r + b"/"), ("no root", p, b""), ("a byte moved from root to platform", p + r[:1], r[1:])]
    others += [("a byte moved from platform to root", p[:-1], p[-1:] + r), ("platform and root exchanged", r, p)]
    others += [("root in capitals", p, r.upper())]
    for name, platform, root in others:
        if len(platform) <= 64:
            case("opening", "cache of another place: " + name, library, platform=platform, root=root)
    for at, name in ((8, "generation"), (16, "sequence"), (36, "seed"), (49, "model")):
        other = flip(library.manifest, at)
        if number(other, 8, 8):
            case("opening", "cache of another library: " + name, library, manifest=resealed(other))
            case("rule: lent", "cache of another library: " + name + ", expected CRC the other's", library, manifest=resealed(other),
                 expected=number(library.manifest, len(library.manifest) - 4, 4))


def codes_of(row):
    return struct.unpack("<%db" % (len(row) - 16), row[16:])


def encoded(scale, codes, norm=None):
    norm = sum(c * c for c in codes) if norm is None else norm
    return scale + u64(norm % 2**64) + struct.pack("<%db" % len(codes), *codes)


def rows_of(library):
    """Each change of a row, with a name."""
    n = library.dimensions
    scales = [("0", 0), ("-0", 1 << 63), ("-1", 0xBFF << 52), ("NaN", 0x7FF8 << 48), ("-NaN", 0xFFF8 << 48), ("infinity", 0x7FF << 52)]
    scales += [("NaN with bit 0", (0x7FF << 52) + 1), ("-infinity", 0xFFF << 52), ("the least denormal", 1), ("the least normal", 1 << 52)]
    scales += [("the largest", (0x7FF << 52) - 1), ("of the other sign", None)]
    for name, bits in scales:
        yield "scale " + name, lambda row, bits=bits: put(row, 0, u64(number(row, 0, 8) ^ 1 << 63 if bits is None else bits))
    norms = [("one more", lambda x: x + 1), ("one less", lambda x: x - 1), ("negated", lambda x: -x), ("negative", lambda x: -1)]
    norms += [("2^63", lambda x: 1 << 63), ("2^63 more", lambda x: x + (1 << 63)), ("2^32 more", lambda x: x + (1 << 32))]
    for name, change in norms:
        yield "norm " + name, lambda row, change=change: put(row, 8, u64(change(number(row, 8, 8)) % 2**64))
    for name, at in (("first", 0), ("last", n - 1)):
        least = lambda row, at: [*codes_of(row)[:at], -128, *codes_of(row)[at + 1 :]]
        yield "%s code -128, norm put right" % name, lambda row, at=at: encoded(row[:8], least(row, at))
        yield "%s code -128" % name, lambda row, at=at: put(row, 16 + at, b"\x80")
        yield "%s code changed" % name, lambda row, at=at: flip(row, 16 + at, 1)
        changed = lambda row, at: [*codes_of(row)[:at], codes_of(row)[at] ^ 1, *codes_of(row)[at + 1 :]]
        yield "%s code changed, norm put right" % name, lambda row, at=at: encoded(row[:8], changed(row, at))
    yield "zero, scale 1", lambda row: encoded(f64(1.0), [0] * n)
    yield "zero, scale as it was", lambda row: encoded(row[:8], [0] * n)
    yield "zero codes, norm as it was", lambda row: row[:16] + bytes(n)
    yield "codes all 127", lambda row: encoded(row[:8], [127] * n)
    yield "codes all -127", lambda row: encoded(row[:8], [-127] * n)
    yield "codes all -128, norm put right", lambda row: encoded(row[:8], [-128] * n)
    yield "codes all negated", lambda row: encoded(row[:8], [-x for x in codes_of(row)])
    yield "codes reversed", lambda row: row[:16] + row[:15:-1]
    yield "all zero bytes", lambda row: bytes(16 + n)
    yield "all FF bytes", lambda row: b"\xff" * (16 + n)


def changed(library, cache, row, change):
    at = library.row_at(row)
    return put(cache, at, change(cache[at : at + library.row_length]))


def row_damage(library, every):
    rows, cache, seen = library.rows, library.cache, {library.cache}
    for n, (name, change) in enumerate(rows_of(library)):
        for row in (0, rows - 1) if every else (n % rows,):
            other = changed(library, cache, row, change)
            if other not in seen:
                seen.add(other)
                cache_case("row %d: %s" % (row, name), library, other, every or n % 2 == 0)


def order_damage(library):
    """12 before 13 before 14 before 15, and the lower of two rows."""
    cache, last = library.cache, library.rows - 1
    bad = lambda cache, row: changed(library, cache, row, lambda r: put(r, 0, u64(0)))
    norm = lambda cache, row: changed(library, cache, row, lambda r: put(r, 8, u64(number(r, 8, 8) + 1)))
    magic, version, identity, root = flip(cache, 0), put(cache, 8, u32(2)), flip(cache, 12), flip(cache, 24 + len(library.platform))
    cache_case("magic and identity", library, flip(identity, 0))
    cache_case("version and identity", library, put(root, 8, u32(0)))
    cache_case("magic, row 0", library, bad(magic, 0))
    cache_case("version, last row", library, bad(version, last))
    cache_case("magic, version, identity, row 0", library, bad(put(flip(root, 0), 8, u32(9)), 0))
    cache_case("one byte longer, magic, identity, row 0", library, bad(flip(identity, 0), 0) + b"\0", False)
    cache_case("one byte shorter, root", library, root[:-1], False)
    cache_case("identity's length, row 0", library, bad(identity, 0))
    cache_case("root, row 0", library, bad(root, 0))
    cache_case("root, last row", library, norm(root, last))
    cache_case("rows 0 and %d" % last, library, bad(bad(cache, 0), last))
    cache_case("row 0's norm, row %d's scale" % last, library, bad(norm(cache, 0), last))
    cache_case("every row", library, [cache := bad(cache, row) for row in range(library.rows)][-1])
    cache = library.cache
    if last > 1:
        cache_case("rows 1 and %d" % last, library, norm(bad(cache, last), 1))
        cache_case("rows %d and 1" % last, library, bad(norm(cache, last), 1))
        cache_case("rows 1 and 2", library, bad(bad(cache, 2), 1))
        cache_case("rows 0 and 1 exchanged", library,
                   put(put(cache, library.row_at(0), library.row(1)), library.row_at(1), library.row(0)))
    case("opening", "bad row, CRC 0", library, cache=bad(cache, last)[:-4] + bytes(4))
    case("opening", "bad row, cache of another place", library, cache=bad(cache, 0), root=flip(library.root, 1))
    case("opening", "cache empty, limit at the size", library, cache=b"", options=(library.size + 8, library.row_length))


def bases():
    """Libraries to change, rows out of id order in each."""
    made = [
        generated(101, 5, 3, L2, "gauss", 2, 9),
        generated(102, 4, 5, COSINE, "gauss", 1, 9, "pump 7", 3),
        generated(103, 7, 17, INNER, "mixed", 3, 12, "Str\u00f6mung", 4, "/tmp/pivatsohy-7"),
        generated(104, 2, 33, COSINE, "ties", 2, 5, root="/tmp/pv"),
        generated(105, 3, 1, L2, "half", 3, 4),
        generated(106, 0, 6, COSINE, "gauss", 0, 0),
    ]
    for library in made[:3]:
        order = [library.record_at(row) for row in range(library.rows)]
        assert order != sorted(order)
    return made


def opening(libraries):
    five, four, seven, two, three, none = libraries
    for library in libraries:
        case("good", "base of %d rows of %d" % (library.rows, library.dimensions), library)
    head_damage(five, True)
    head_damage(four, False)
    head_damage(none, False)
    place_damage(five)
    place_damage(none)
    row_damage(five, True)
    for library in (four, seven, two, three):
        row_damage(library, False)
    for library in (five, four, seven):
        order_damage(library)


# ---- By the table ----


def sizing(library):
    rule = lambda name, **changes: case("rule: sizing", name, library, **changes)
    size, row = library.size, library.row_length
    for limit in (0, 1, 8, size, size + 7, size + 8, size + 9, 1073741824, 1073741825, 2**32, 2**64 - 1):
        rule("cache limit %s" % {size: "size", size + 7: "size + 7", size + 8: "size + 8", size + 9: "size + 9"}.get(limit, limit),
             options=(limit, DEFAULTS[1] + 1))
    for block in (0, 1, row - 1, row, row + 1, 16777216, 16777217, 2**32 + row, 2**64 - 1):
        name = {row - 1: "one row less a byte", row: "one row", row + 1: "one row and a byte"}.get(block, block)
        rule("block %s" % name, options=(DEFAULTS[0], block))
    rule("cache limit 0, block 0", options=(0, 0))
    rule("cache limit size + 7, block one row less a byte", options=(size + 7, row - 1))
    rule("cache limit size + 8, block one row", options=(size + 8, row))
    for length in (64, 65, 100):
        other = library.headed(platform=b"p" * length)
        case("rule: sizing", "platform of %d bytes" % length, other)
        case("rule: sizing", "platform of %d bytes, cache limit 0" % length, other, options=(0, DEFAULTS[1]))
        case("rule: sizing", "platform of %d bytes, cache limit one short" % length, other, options=(other.size + 7, row))
    rule("cache limit 0, no room", options=(0, row), cache_room=0)
    rule("cache limit size + 7, no room", options=(size + 7, row), cache_room=0)
    rule("cache limit size + 7, cache damaged", options=(size + 7, row), cache=b"")
    rule("block 0, cache of another place", options=(DEFAULTS[0], 0), cache=flip(library.cache, 20))
    if library.rows:
        bad = put(library.segments, library.record_at(0), u64(2**64 - 1))
        rule("cache limit size + 7, row 0's id wrong", options=(size + 7, row), segments=bad)
        rule("block 0, row 0's id wrong", options=(DEFAULTS[0], 0), segments=bad)


def lettered():
    """Document 01's case h: identity 121, cache 179; limit 187 passes, 186 gives 9; block 19 passes, 18 gives 7."""
    h = generated(8, 2, 3, L2, "gauss", 1).headed(platform=b"linux", root=b"/s")
    assert (len(h.identity), h.size) == (121, 179)
    case("good", "case h", h)
    for limit, block in ((187, 19), (186, 19), (187, 18), (186, 18)):
        case("rule: sizing", "case h, limit %d, block %d" % (limit, block), h, options=(limit, block))
    case("rule: sizing", "case h, platform of 65 bytes, limit 186, block 18", h, platform=b"p" * 65, options=(186, 18))


def rooms(library):
    rule = lambda name, **changes: case("rule: lent", name, library, **changes)
    size, rows, codes = library.size, library.rows, library.rows * library.dimensions
    for room in (0, 1, size - 4, size - 1, size, size + 5000):
        name = {size - 4: "size - 4", size - 1: "size - 1", size: "size", size + 5000: "size + 5000"}.get(room, room)
        rule("cache of %s" % name, cache_room=room)
    if rows:
        bad = put(library.segments, library.record_at(0), u64(2**64 - 1))
        for of, enough in (("codes", codes), ("scales", rows), ("norms", rows)):
            for name, room in ((of + " one short", enough - 1), ("no " + of, 0)):
                rule(name, **{of + "_room": room})
                rule(name + ", row 0's id wrong", segments=bad, **{of + "_room": room})
        rule("cache of size - 1, row 0's id wrong", cache_room=size - 1, segments=bad)
        rule("all one short", cache_room=size - 1, codes_room=codes - 1, scales_room=rows - 1, norms_room=rows - 1)
        for room in (0, rows - 1):
            rule("scratch of %d" % room, room=room, open_room=room)
            rule("scratch of %d but for opening" % room, room=room)
            rule("scratch of %d at opening" % room, open_room=room)
        rule("scratch one short, platform of 65 bytes, limits 0", room=rows - 1, open_room=rows - 1, platform=b"p" * 65, options=(0, 0))
        rule("scratch one short, no rooms", room=rows - 1, cache_room=0, codes_room=0)
        rule("scratch one short, row 0's id wrong", room=rows - 1, segments=bad)
        rule("scratch one short, magic wrong", open_room=rows - 1, cache=flip(library.cache, 0))
        rule("scratch one short, expected CRC other", room=rows - 1, open_room=rows - 1, expected=7)
    else:
        rule("no scratch", room=0, open_room=0)
    rule("no room at all but scratch", cache_room=0, codes_room=0, scales_room=0, norms_room=0)
    rule("scratch far longer", room=4096, open_room=4096)
    rule("rooms far longer", cache_room=size + 10000, codes_room=codes + 10000, scales_room=4096, norms_room=4096)
    for expected in (0, number(library.manifest, len(library.manifest) - 4, 4) ^ 1):
        rule("expected CRC %s" % ("0" if expected == 0 else "with bit 0 changed"), expected=expected)
    rule("expected CRC other, no rooms, limits 0", expected=7, cache_room=0, codes_room=0, options=(0, 0))
    rule("expected CRC other, cache damaged", expected=7, cache=b"")


def manifests(library):
    m, counts, entries = library.manifest, library.counts, library.entries
    changes = [
        ("empty", b""),
        ("of 65 bytes", m[:65]),
        ("one byte shorter", m[:-1]),
        ("one byte longer", m + b"\0"),
        ("magic", flip(m, 0)),
        ("generation 0", put(m, 8, u64(0))),
        ("segment count 1025", put(m, counts, u32(1025))),
        ("row count one more", put(m, counts + 4, u64(library.rows + 1))),
        ("row 1's id that of row 0", put(m, entries + 20, m[entries : entries + 8])),
        ("row 0's segment", put(m, entries + 8, u32(library.count))),
        ("metric 3", put(m, 44, b"\3")),
        ("dimensions 0", put(m, 24, u32(0))),
        ("dimensions 4097", put(m, 24, u32(4097))),
        ("m 1", put(m, 28, u32(1))),
        ("ef 4097", put(m, 32, u32(4097))),
        ("model of NUL", put(m, 49, b"\0")),
        ("model no UTF-8", put(m, 49, b"\xff")),
        ("model's length 0", put(m, 45, u32(0))),
        ("sequence", flip(m, 16)),
        ("its CRC", flip(m, len(m) - 1)),
    ]
    first = min(range(library.rows), key=lambda row: (library.entry(row).segment, library.entry(row).offset))
    changes += [("a row of segment 0 one byte on", put(m, entries + 20 * first + 12, u32(1))),
                ("a row's metadata one byte less", put(m, entries + 20 * first + 16, u32(library.entry(first).metadata - 1)))]
    for name, other in changes:
        both = [other] if len(other) < 66 else [other, resealed(other)]
        for n, manifest in enumerate(both):
            if manifest == library.manifest or (name == "sequence" and n):
                continue
            text = "manifest: " + name + ", CRC put right" * n
            case("manifest", text, library, manifest=manifest)
    tiling = resealed(put(m, entries + 20 * first + 12, u32(1)))
    worse = dict(platform=b"p" * 65, options=(0, 0), cache=b"", cache_room=0, codes_room=0, segments=b"")
    case("manifest", "manifest: magic, all else wrong too", library, manifest=flip(m, 0), room=0, open_room=0, **worse)
    case("manifest", "manifest: metric 3, all else wrong too", library, manifest=resealed(put(m, 44, b"\3")), room=0, open_room=0, **worse)
    case("manifest", "manifest: its CRC, all else wrong too", library, manifest=flip(m, len(m) - 1), room=0, open_room=0, **worse)
    case("manifest", "manifest: tiling, all else but the scratch wrong too", library, manifest=tiling, **worse)
    case("manifest", "manifest: tiling, scratch one short", library, manifest=tiling, room=library.rows - 1, open_room=library.rows - 1)
    case("manifest", "manifest: tiling, scratch exact", library, manifest=tiling, room=library.rows, open_room=library.rows)


def records(library):
    """Bad records, for preparing and building. Opening does not look at them."""
    s, rows, n = library.segments, library.rows, library.dimensions
    at, end, last = library.record_at, library.record_end, rows - 1
    rule = lambda name, segments: case("rule: records", name, library, segments=segments)
    vector = lambda row, column, bits: put(s, at(row) + 12 + 4 * column, u32(bits))
    patterns = [("infinity", 0x7F800000), ("-infinity", 0xFF800000), ("NaN", 0x7FC00000), ("-NaN", 0xFFC00000)]
    patterns += [("NaN with bit 0", 0x7F800001)]
    for k, (name, bits) in enumerate(patterns):
        rule("%s, first coordinate of row %d" % (name, k % rows), vector(k % rows, 0, bits))
        rule("%s, last coordinate of row %d" % (name, last - k % rows), vector(last - k % rows, n - 1, bits))
    for row in (0, last):
        for bit in (0, 63):
            rule("id of row %d, bit %d" % (row, bit), put(s, at(row), u64(library.entry(row).id ^ 1 << bit)))
        length = library.entry(row).metadata
        rule("metadata length of row %d one more" % row, put(s, at(row) + 8, u32(length + 1)))
        rule("metadata length of row %d, bit 31" % row, put(s, at(row) + 8, u32(length | 1 << 31)))
        if library.metric == COSINE:
            rule("row %d zero" % row, put(s, at(row) + 12, bytes(4 * n)))
            rule("row %d zero of either sign" % row, put(s, at(row) + 12, (u32(1 << 31) + u32(0)) * (n // 2) + u32(1 << 31) * (n % 2)))
    texts = [row for row in range(rows) if library.entry(row).metadata >= 3]
    for k, form in enumerate(("ff", "80", "c080", "e08080", "eda080", "f5")):
        row = texts[k % len(texts)]
        rule("metadata of row %d begins %s" % (row, form), put(s, at(row) + 12 + 4 * n, bytes.fromhex(form)))
    row = texts[-1]
    rule("metadata of row %d ends in half a character" % row, put(s, end(row) - 1, b"\xc3"))
    wrong = lambda s, row: put(s, at(row), u64(library.entry(row).id ^ 2))
    order = sorted(range(rows), key=at)
    rule("rows %d and %d" % (order[0], order[1]), wrong(wrong(s, order[0]), order[1]))
    rule("rows %d and %d" % (order[-1], order[-2]), wrong(wrong(s, order[-1]), order[-2]))
    rule("all rows", [s := wrong(s, row) for row in range(rows)][-1])
    s = library.segments
    if rows > 2:
        rule("rows 1 and %d" % last, put(wrong(s, 1), at(last) + 12, u32(0x7FC00000)))
        rule("rows %d and 1" % last, put(wrong(s, last), at(1) + 12, u32(0x7FC00000)))
    # The slice cut short: a record that passes its end is bad, the segment's CRC is not looked at.
    for row in order[-3:]:
        rule("segments cut one byte before the end of row %d" % row, s[: end(row) - 1])
        rule("segments cut at the end of row %d" % row, s[: end(row)])
        rule("segments cut in row %d's id" % row, s[: at(row) + 4])
    rule("no segments", b"")
    rule("segments one byte shorter", s[:-1])
    rule("segments one byte longer", s + b"\0")
    rule("segments twice", s + s)
    rule("last segment's CRC wrong", flip(s, len(s) - 1))
    if library.count > 1:
        rule("first segment's CRC wrong", flip(s, library.start(1) - 1))
    rule("segments one byte shorter, row %d's id" % order[0], wrong(s, order[0])[:-1])


def main():
    good()
    libraries = bases()
    five, four, seven, two, three, none = libraries
    opening(libraries)
    lettered()
    for library in (five, none):
        sizing(library)
    for library in (five, four, none):
        rooms(library)
    for library in (five, seven):
        manifests(library)
    for library in (five, four, seven):
        records(library)
    seen = {}
    for c in CASES:
        key = tuple(v for k, v in dataclasses.asdict(c).items() if k not in ("name", "kind", "library"))
        assert key not in seen, (c.name, seen[key])
        seen[key] = c.name
    data, text, counts, numbers = [], [], collections.Counter(), collections.defaultdict(collections.Counter)
    for place, c in enumerate(CASES):
        name = c.name.encode()
        words = [c.expected, c.room, c.open_room, len(name), len(c.manifest), len(c.segments), len(c.platform), len(c.root), c.root_length]
        words += [len(c.cache), c.cache_room, c.codes_room, c.scales_room, c.norms_room]
        data += [u64(c.options[0]), u64(c.options[1]), *map(u32, words), name, c.manifest, c.segments, c.platform, c.root, c.cache]
        r, out = lines(c)
        text.append("%d %s\n%s" % (place, c.name, out))
        counts[c.kind] += 1
        assert c.kind != "good" or (r.size[0], r.prepare[0], r.open[0], r.build[0]) == (0, 0, 0, 0), c.name
        for entry in ("size", "prepare", "open", "build"):
            numbers[entry][getattr(r, entry)[0]] += 1
        if c.kind == "opening":
            numbers["open, changed caches alone"][r.open[0]] += 1
    with open(os.path.join(TO, "stdin"), "wb") as f:
        f.write(b"".join(data))
    with open(os.path.join(TO, "stdout"), "w", encoding="ascii") as f:
        f.write("".join(text))
    print("%d cases: %s" % (len(CASES), ", ".join("%s %d" % item for item in counts.items())))
    for entry, found in numbers.items():
        print("%s, by number: %s" % (entry, ", ".join("%d: %d" % item for item in sorted(found.items()))))


main()
