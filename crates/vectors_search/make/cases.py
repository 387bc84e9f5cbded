"""cases.py PROGRAMS DIR: writes DIR/stdin, libraries and calls, and DIR/stdout, what each call must answer.

stdin is a row of libraries, each with its commands. A library is 10 numbers (u32 each): the lengths of manifest, segments, cache, platform
and root, the expected CRC-32, the lengths of codes, scales and norms that are built into, and the name's length; then name, manifest,
segments, cache, platform and root. A command is 112 bytes and what belongs to it; its first number (u32) says which:

    0   the library's end
    1   a call: kind (u32; 1 with ids, 2 over resident rows, 4 an agreement count, added up), k and limit (u64 each), then u32s: the lengths
        lent of manifest, segments, cache, codes, scales and norms; of keys, candidates and id work; of ids, distances, rows, starts and
        lengths; how many f32s the query has, how many ids are handed in, how many places to look at where the call does not return
        their count, the name's length, and the lengths that the state is made to hold of cache, codes, scales and norms (0: as returned);
        then name, query and ids
    2   a change: what (u32; manifest, segments, cache, codes, scales, norms), a value (u64), 8 bytes of nothing, the place (u32), and for
        the first three how many bytes follow (u32)
    3   a call with ids that the program makes, all 7

What is lent to be written is filled with one value each: keys 2^63 - 1, candidates 2^63 - 2, id work 2^63 - 3, ids 2^63 - 4, rows 2^63 - 5,
starts 2^63 - 6, distances -1e100, metadata lengths 2^32 - 2. No answer has one of them.

stdout has a line for each library, its name and the refusals (number and place) of its check, opening and building; and for each call:

    NAME: REFUSAL GENERATION SEQUENCE ELIGIBLE MEASURED COMPLETE APPROXIMATE COUNT SLICES     a search
    NAME: REFUSAL AGREEMENT SLICES                                                            an agreement count
      ID BITS ROW START LENGTH                                                                for each of the first 16 places
      sum SUM                                                                                 CRC-32 of all places, where there are more

SLICES has a letter for each slice. The five answer slices, from the count on: k as they were lent, x not. Keys, candidates and id work: z
all zero, k as they were lent, x neither, - empty.

By the Rust: every search of an unchanged library, its refusals (16 to 19, and 22 for a cache that it opens) with them. Start and length of
the metadata are the manifest's, and what stands there is held against the Rust's `Neighbor`. An agreement count is worked out from the
Rust's list and its exact search of the same ids; that one must be its list at a limit of all eligible rows, too.

By document 01's table alone, in `answer` below: calls on changed bytes and on short slices (20, 21, 22, 23 and what is none of them). That
function is held against the Rust wherever the Rust answers.
"""
import bisect
import collections
import math
import os
import random
import struct
import subprocess
import sys
import tempfile
import zlib

PROGRAMS, TO = sys.argv[1:3]
METRICS = ("l2", "cosine", "ip")
L2, COSINE, INNER = 0, 1, 2
IDS, RESIDENT, AGREEMENT = 1, 2, 4
LENT = ("manifest", "segments", "cache", "codes", "scales", "norms")
WORK = ("keys", "candidates", "work")
ANSWERS = ("ids", "distances", "rows", "starts", "lengths")
ROOM = dict(manifest=32768, segments=49152, cache=32768, codes=12288, scales=512, norms=512, keys=512, candidates=512, work=1024)
ROOM.update({name: 512 for name in ANSWERS})


def u32(x):
    return struct.pack("<I", x)


def u64(x):
    return struct.pack("<Q", x)


def f64(x):
    return struct.pack("<d", x)


def f32s(*xs):
    return struct.pack("<%df" % len(xs), *xs)


def number(data, at, size):
    return int.from_bytes(data[at : at + size], "little")


def bits(x):
    return number(f64(x), 0, 8)


def sealed(body):
    return body + u32(zlib.crc32(body))


def put(data, at, part):
    assert 0 <= at and at + len(part) <= len(data), (at, len(part), len(data))
    return data[:at] + part + data[at + len(part) :]


# ---- Libraries ----

Entry = collections.namedtuple("Entry", "id segment offset metadata")


class Library:
    """Good bytes, which the Rust accepts, with the cache that it prepared."""

    def __init__(self, name, manifest, segments, cache, place, more=(0, 0, 0)):
        self.name, self.manifest, self.segments, self.cache = name, manifest, segments, cache
        self.platform, _, self.root = place.partition(b"\n")
        m = manifest
        self.generation, self.sequence, self.dimensions, self.metric = number(m, 8, 8), number(m, 16, 8), number(m, 24, 4), m[44]
        self.counts = 49 + number(m, 45, 4)
        self.count, self.rows = number(m, self.counts, 4), number(m, self.counts + 4, 8)
        self.table = self.counts + 12
        self.entries = self.table + 12 * self.count
        self.ids = [self.entry(row).id for row in range(self.rows)]
        rows = [self.row(row) for row in range(self.rows)]
        # As the program holds them: the bytes, and zeros past them; the resident rows by element.
        self.held = {name: data.ljust(ROOM[name], b"\0") for name, data in (("manifest", m), ("segments", segments), ("cache", cache))}
        self.held["codes"] = [c for row in rows for c in row[16:]]
        self.held["scales"] = [number(row, 0, 8) for row in rows]
        self.held["norms"] = [number(row, 8, 8) for row in rows]
        # The lengths lent if nothing else is said: the resident slices as they were built, `more` than enough.
        self.length = dict(manifest=len(m), segments=len(segments), cache=len(cache))
        for name, extra in zip(("codes", "scales", "norms"), more):
            self.length[name] = len(self.held[name]) + extra
            self.held[name] += [0] * (ROOM[name] - len(self.held[name]))
        assert all(self.length[name] <= ROOM[name] and len(self.held[name]) == ROOM[name] for name in LENT), name
        self.jobs, self.calls = {}, []

    def entry(self, row):
        return Entry(*struct.unpack_from("<QIII", self.manifest, self.entries + 20 * row))

    def row_at(self, row):
        return len(self.cache) - 4 - (self.rows - row) * (self.dimensions + 16)

    def row(self, row):
        return self.cache[self.row_at(row) :][: self.dimensions + 16]

    def start(self, segment):
        return sum(number(self.manifest, self.table + 12 * n, 8) for n in range(segment))

    def record_at(self, row):
        return self.start(self.entry(row).segment) + self.entry(row).offset

    def record_end(self, row):
        return self.record_at(row) + 12 + 4 * self.dimensions + self.entry(row).metadata

    def vector(self, row):
        return self.segments[self.record_at(row) + 12 :][: 4 * self.dimensions]

    def files(self, directory, cache=None):
        for name, data in (("MANIFEST", self.manifest), ("SEGMENTS", self.segments), ("CACHE", cache or self.cache),
                           ("PLACE", self.platform + b"\n" + self.root)):
            with open(os.path.join(directory, name), "wb") as f:
                f.write(data)


def run(program, *words, given=None):
    done = subprocess.run([os.path.join(PROGRAMS, program), *map(str, words)], capture_output=True, text=True, input=given)
    if done.returncode != 0:
        sys.exit("%s\n%s%s" % (words, done.stdout, done.stderr))
    return done.stdout


def read_all(directory, *names):
    return [open(os.path.join(directory, name), "rb").read() for name in names]


SEED = 0
ROOT = "/tmp/pivatsohy"


def generated(rows, dimensions, metric, kind, segments=0, metadata=0, more=(0, 0, 0)):
    """By `oracle gen`: a library, its cache, and a query of the same kind."""
    global SEED
    SEED += 1
    assert not os.path.exists(ROOT)
    with tempfile.TemporaryDirectory() as directory:
        words = ["--seed", SEED, "--rows", rows, "--dims", dimensions, "--metric", METRICS[metric], "--dist", kind]
        words += ["--meta-max", metadata, "--generation", 2 + SEED % 3, "--sequence", SEED * SEED, "--segments", segments, "--root", ROOT]
        run("oracle", "gen", directory, *words)
        manifest, segments, cache, place, query = read_all(directory, "MANIFEST", "SEGMENTS", "CACHE", "PLACE", "QUERY")
    library = Library("", manifest, segments, cache, place, more)
    library.name = "%s, %s, %d rows of %d, %d segments" % (kind, METRICS[library.metric], library.rows, library.dimensions, library.count)
    library.query = query
    return library


def written(name, metric, dimensions, records, segments=1, more=(0, 0, 0)):
    """Records (id, coordinates, metadata) of our own, dealt out over so many segments in the order given; the Rust writes the cache."""
    global SEED
    SEED += 1
    parts, entries = [b""] * segments, []
    for n, (id, vector, metadata) in enumerate(records):
        at = n * segments // len(records)
        assert len(vector) == 4 * dimensions
        entries.append(struct.pack("<QIII", id, at, len(parts[at]), len(metadata)))
        parts[at] += u64(id) + u32(len(metadata)) + vector + metadata
    parts = [sealed(part) for part in parts]
    m = b"VECGEN01" + u64(2 + SEED % 3) + u64(2**64 - SEED) + u32(dimensions) + u32(16) + u32(200) + u64(42) + bytes([metric])
    m += u32(1) + b"m" + u32(segments) + u64(len(records))
    for part in parts:
        m += u64(len(part)) + part[-4:]
    manifest = sealed(m + b"".join(sorted(entries, key=lambda e: number(e, 0, 8))))
    with tempfile.TemporaryDirectory() as directory:
        for file, data in (("MANIFEST", manifest), ("SEGMENTS", b"".join(parts))):
            with open(os.path.join(directory, file), "wb") as f:
                f.write(data)
        run("vectors", "prepare", directory, ROOT)
        cache, place = read_all(directory, "CACHE", "PLACE")
    return Library(name, manifest, b"".join(parts), cache, place, more)


# ---- Document 01 ----

MIDPOINTS = [i + 0.5 for i in range(127)]
Answer = collections.namedtuple("Answer", "number place report places agreement past")
Place = collections.namedtuple("Place", "id bits row start length")


def floats(data):
    return struct.unpack("<%df" % (len(data) // 4), data)


def vector_holds(metric, vector):
    return all(map(math.isfinite, vector)) and (metric != COSINE or any(vector))


def encode(vector):
    largest = max(map(abs, vector))
    scale = largest / 127.0 if largest else 1.0
    codes = []
    for x in vector:
        quotient = x / scale
        magnitude = bisect.bisect_right(MIDPOINTS, abs(quotient))
        codes.append(-magnitude if quotient < 0 else magnitude)
    return scale, sum(c * c for c in codes), codes


def held(x):
    return 0.0 if x < 0 else 2.0 if x > 2 else x


def approximate(metric, row, query):
    (s, norm, codes), (qs, qnorm, qcodes) = row, query
    dot, norm, qnorm = float(sum(a * b for a, b in zip(codes, qcodes))), float(norm), float(qnorm)
    if metric == L2:
        d = ((s * s) * norm + (qs * qs) * qnorm) - ((2.0 * s) * qs) * dot
        return d if d > 0 else 0.0
    if metric == INNER:
        return ((-s) * qs) * dot
    return held(1.0 - dot / (math.sqrt(norm) * math.sqrt(qnorm)))


def inverse_norm(vector):
    total = -0.0
    for x in vector:
        total += x * x
    root = math.sqrt(total)
    return 1.0 / root if root else 0.0


def original(metric, query, vector):
    total = -0.0
    if metric == L2:
        for a, b in zip(query, vector):
            total += (a - b) * (a - b)
        return total
    for a, b in zip(query, vector):
        total += a * b
    if metric == INNER:
        return -total
    return held(1.0 - (total * inverse_norm(query)) * inverse_norm(vector))


def key(x):
    b = bits(x)
    return b ^ (2**64 - 1) if b >> 63 else b | 1 << 63


def row_holds(metric, scale, norm, codes):
    valid = math.isfinite(scale) and scale > 0 and -128 not in codes and norm == sum(c * c for c in codes)
    return valid and (metric != COSINE or norm != 0)


def signed(x, width):
    return x - (1 << width) if x >> (width - 1) else x


def answer(library, c):
    """What a call answers: document 01's tests in their order, and its lists."""

    def refused(number, place=0, past=True):
        return Answer(number, place, (0, 0, 0, 0, 0, 0, 0), [], 0, past)

    early = lambda number: refused(number, 0, False)
    m, s = bytes(c.data["manifest"]), bytes(c.data["segments"])
    if c.ids is not None and len(c.ids) > 1000000:
        return early(19)
    # The head: the length accepted and every field before the segments; segment lengths only within their bounds.
    n, rows, segments = library.dimensions, library.rows, library.count
    if len(m) != len(library.manifest) or m[: library.table] != library.manifest[: library.table]:
        return early(21)
    lengths = [number(m, library.table + 12 * i, 8) for i in range(segments)]
    if not all(4 <= length <= 67108864 for length in lengths):
        return early(21)
    query = floats(c.query)
    if len(query) != n or not vector_holds(library.metric, query):
        return early(16)
    if c.k > 10000:
        return early(17)
    if not c.k <= c.limit <= 65536:
        return early(18)
    if any(c.room[name] < min(c.k, rows) for name in ANSWERS):
        return early(20)
    if any(c.room[name] < min(c.limit, rows) for name in ("keys", "candidates")) or (c.ids is not None and c.room["work"] < len(c.ids)):
        return early(20)
    entries = [Entry(*struct.unpack_from("<QIII", m, library.entries + 20 * row)) for row in range(rows)]
    for row, e in enumerate(entries):
        rises = row == 0 or entries[row - 1].id < e.id
        if not rises or e.segment >= segments or e.metadata > 16384 or e.offset + 12 + 4 * n + e.metadata > lengths[e.segment] - 4:
            return refused(21, row)
    wanted = None if c.ids is None else set(c.ids)
    eligible = [row for row in range(rows) if wanted is None or entries[row].id in wanted]
    if c.k == 0:
        return Answer(0, 0, (library.generation, library.sequence, len(eligible), 0, 1, 0, 0), [], 0, True)
    # The rows as they are kept.
    width, kept = n + 16, []
    if c.kind & RESIDENT:
        codes, scales, norms = (c.data[name] for name in ("codes", "scales", "norms"))
        if [len(codes), len(scales), len(norms)] != [c.state[name] for name in ("codes", "scales", "norms")]:
            return refused(21)
        if len(codes) < rows * n or len(scales) < rows or len(norms) < rows:
            return refused(21)
        for row in range(rows):
            kept.append((u64(scales[row]) + u64(norms[row]), codes[row * n : (row + 1) * n]))
    else:
        cache = bytes(c.data["cache"])
        if len(cache) != c.state["cache"] or len(cache) < 4 + rows * width:
            return refused(21)
        for row in range(rows):
            at = len(cache) - 4 - (rows - row) * width
            kept.append((cache[at : at + 16], cache[at + 16 : at + width]))
    q, near, chosen = encode(query), [], set(eligible)
    for row, (parameters, codes) in enumerate(kept):
        scale, norm = struct.unpack("<dq", parameters)
        codes = [signed(code, 8) for code in codes]
        if not row_holds(library.metric, scale, norm, codes):
            return refused(21, row)
        if row in chosen:
            d = approximate(library.metric, (scale, norm, codes), q)
            if not math.isfinite(d):
                return refused(22, row)
            near.append((key(d), entries[row].id, row))
    candidates = sorted(row for _, _, row in sorted(near)[: c.limit])

    def start(row):
        return sum(lengths[: entries[row].segment]) + entries[row].offset

    def measured(rows):
        """(row that is refused, None) or (None, places)."""
        found = []
        for row in rows:
            e, at = entries[row], start(row)
            end = at + 12 + 4 * n + e.metadata
            if end > len(s) or (number(s, at, 8), number(s, at + 8, 4)) != (e.id, e.metadata):
                return row, None
            vector = floats(s[at + 12 : at + 12 + 4 * n])
            if not vector_holds(library.metric, vector):
                return row, None
            try:
                s[at + 12 + 4 * n : end].decode()
            except UnicodeDecodeError:
                return row, None
            found.append(Place(e.id, bits(original(library.metric, query, vector)), row, at + 12 + 4 * n, e.metadata))
        return None, sorted(found, key=lambda p: (key(struct.unpack("<d", u64(p.bits))[0]), p.id))

    exact = None
    if c.kind & AGREEMENT:
        bad, exact = measured(eligible)
        if exact is None:
            return refused(23, bad)
    bad, places = measured(candidates)
    if places is None:
        return refused(23, bad)
    places = places[: c.k]
    agreement = sum(a.id == b.id for a, b in zip(places, exact)) if exact is not None else 0
    report = (library.generation, library.sequence, len(eligible), len(candidates), 1, int(c.limit < len(eligible)), len(places))
    return Answer(0, 0, report, places, agreement, True)


# ---- Calls ----


class Call:
    """A call on a library. `changes` are (what, place, bytes or value); `lent`, `room` and `state` name other lengths than usual."""

    def __init__(self, library, by, name, kind, k, limit, query, ids=None, changes=(), lent={}, room={}, state={}, many=None):
        self.library, self.by, self.name, self.kind, self.k, self.limit, self.query = library, by, name, kind, k, limit, query
        self.ids, self.changes, self.many = ids, list(changes), many
        self.length = {**library.length, **lent}
        enough, candidates = min(k, library.rows), min(limit, library.rows)
        self.room = {"keys": candidates + 2, "candidates": candidates + 1, "work": 0 if ids is None else min(len(ids), 1000) + 3}
        self.room.update({answer: enough + 1 + n for n, answer in enumerate(ANSWERS)})
        self.room.update(room)
        self.state = {**{name: library.length[name] for name in LENT[2:]}, **state}
        self.forged = state
        data = {name: library.held[name][:] if name in LENT[3:] else bytearray(library.held[name]) for name in LENT}
        for what, at, value in self.changes:
            if what in LENT[3:]:
                data[what][at] = value
            else:
                assert at + len(value) <= ROOM[what]
                data[what][at : at + len(value)] = value
        assert all(self.length[x] <= ROOM[x] for x in LENT) and all(x <= ROOM[name] for name, x in self.room.items()), name
        assert (ids is not None) == bool(kind & IDS) and len(query) <= 1024
        self.data = {name: data[name][: self.length[name]] for name in LENT}
        self.said = answer(library, self)

    def bytes(self):
        """The changes, the call, and the changes undone."""
        out = [self.change(what, at, value) for what, at, value in self.changes]
        s, name = self.said, self.name.encode()
        head = [*[self.length[x] for x in LENT], *[self.room[x] for x in WORK], *[self.room[x] for x in ANSWERS], len(self.query) // 4]
        handed = 0 if self.ids is None else len(self.ids)
        head += [handed, len(s.places), len(name), *[self.forged.get(x, 0) for x in LENT[2:]]]
        assert len(name) <= 100
        out += [u32(3 if self.many else 1), u32(self.kind), u64(self.k), u64(self.limit), *map(u32, head), name, self.query]
        if not self.many:
            out += map(u64, self.ids or [])
        for what, at, value in reversed(self.changes):
            was = self.library.held[what]
            out.append(self.change(what, at, was[at] if what in LENT[3:] else bytes(was[at : at + len(value)])))
        return b"".join(out)

    @staticmethod
    def change(what, at, value):
        element = what in LENT[3:]
        head = u32(2) + u32(LENT.index(what)) + u64(value if element else 0) + bytes(8) + u32(at) + u32(0 if element else len(value))
        return head.ljust(112, b"\0") + (b"" if element else value)

    def lines(self):
        s = self.said
        assert self.kind & AGREEMENT or s.report[6] == len(s.places)
        words = [s.number, s.place] + ([s.agreement] if self.kind & AGREEMENT else list(s.report))
        work = ["-" if self.room[x] == 0 else "z" if s.past else "k" for x in WORK]
        if not self.kind & IDS and self.room["work"]:
            work[2] = "k"
        out = ["%s: %s kkkkk %s\n" % (self.name, " ".join(map(str, words)), "".join(work))]
        out += ["  %d %016x %d %d %d\n" % p for p in s.places[:16]]
        if len(s.places) > 16:
            data = b"".join(struct.pack("<QQQQI", *p) for p in s.places)
            out.append("  sum %08x\n" % zlib.crc32(data))
        return "".join(out)


LIBRARIES = []
KINDS = ["cached", "cached ids", "resident", "resident ids", "agreement cached", "agreement cached ids", "agreement resident"]
KINDS += ["agreement resident ids"]


def call(library, by, kind, text, *rest, **more):
    place = sum(len(l.calls) for l in LIBRARIES)
    c = Call(library, by, "%d %s%s" % (place, KINDS[kind], ", " + text if text else ""), kind, *rest, **more)
    library.calls.append(c)
    return c


def add(library):
    LIBRARIES.append(library)
    return library


def by_rust(library, calls, cache=None):
    """Holds what `answer` says of these calls against the Rust, run over the library's unchanged bytes, or over another cache."""
    words = lambda mode, k, limit, c: "%s %d %d -%s %s" % (
        mode, k, limit, c.query.hex(), "all" if c.ids is None else "-" + b"".join(map(u64, c.ids)).hex())
    lines = []
    for c in calls:
        lines.append(words("resident" if c.kind & RESIDENT else "cached", c.k, c.limit, c))
        if c.kind & AGREEMENT:
            lines.append(words("exact", c.k, 0, c))
            lines.append(words("resident" if c.kind & RESIDENT else "cached", c.k, max(c.k, len(library.ids), 1), c))
    with tempfile.TemporaryDirectory() as directory:
        library.files(directory, cache)
        said = iter(run("vectors", "search", directory, given="".join(line + "\n" for line in lines)).splitlines())

    def take():
        """(number, report, places)"""
        first = next(said).split()
        if first[0] == "refused":
            n, kind = int(first[1]), first[2]
            assert kind == ("InvalidInput" if n in (16, 17, 18, 19) else "Corrupt"), first
            return n, (0,) * 7, []
        places = []
        for _ in range(int(first[7])):
            id, distance, row, metadata = next(said).split()
            row = int(row)
            length = library.entry(row).metadata
            start = library.record_end(row) - length
            assert library.segments[start : start + length] == bytes.fromhex(metadata[1:])
            places.append(Place(int(id), int(distance, 16), row, start, length))
        return 0, tuple(map(int, first[1:])), places

    for c in calls:
        n, report, places = take()
        s = c.said
        if c.kind & AGREEMENT:
            exact, whole = take(), take()
            assert n != 0 or exact[2] == whole[2], c.name
            s = s._replace(agreement=sum(a.id == b.id for a, b in zip(places, exact[2])))
        # What is printed is the Rust's; a place of a refusal, which it does not have, is the table's.
        assert (s.number, s.report, s.places) == (n, report, places), (library.name, c.name, s, n, report, places)
        assert s.agreement == c.said.agreement, c.name
        c.said = c.said._replace(number=n, report=report, places=places, agreement=s.agreement)


# ---- Searches of the Rust's ----

RNG = random.Random(1)


def id_lists(library):
    """Texts and lists: ids repeated, unknown, unsorted, of both ends, none."""
    ids, unknown = library.ids, [x for x in (0, 1, 7, 2**32, 2**63, 2**64 - 2, 2**64 - 1) if x not in library.ids]
    some = RNG.sample(ids, len(ids) * 2 // 3)
    lists = [("no ids", []), ("unknown ids", unknown), ("all ids reversed", ids[::-1])]
    lists += [("some ids", some), ("ids twice and unknown ones", some + unknown + some[::-1])]
    if ids:
        lists += [("one id", [ids[-1]]), ("one id five times", [ids[0]] * 5), ("all ids and unknown ones", sorted(unknown + ids))]
        lists += [("every other id", ids[::2] + unknown[:1])]
    return lists


def bounds(eligible, rows):
    """k and limit at 0, 1, their bounds and around the eligible count."""
    e = eligible
    pairs = [(1, 1), (e, e), (2, e // 2), (0, 0), (e - 1, e - 1), (e // 3, e // 3), (e + 1, e + 1), (1, e - 1), (10000, 65536)]
    pairs += [(e // 2, e // 2 + 1), (e - 1, e), (1, 65536), (e, e + 1), (0, 65536), (10000, 10000), (1, e), (rows, rows), (0, 1)]
    pairs += [(e, 65536), (3, e + 1), (5, 5)]
    return [(k, limit) for k, limit in pairs if 0 <= k <= limit]


def queries(library):
    out = [library.query]
    if library.rows:
        for row in (0, library.rows // 2):
            out.append(library.vector(row))
        out.append(f32s(*[-x for x in floats(library.vector(library.rows - 1))]))
    if library.metric != COSINE:
        out.append(bytes(4 * library.dimensions))
    return out


TURN = 0


def searched(library, all_calls, listed_calls, agreements):
    """Calls of all four kinds and of the agreement counts, each over the cache and over resident rows."""
    global TURN
    add(library)
    asked, lists = queries(library), id_lists(library)
    calls = []

    def some(count, kinds, listed):
        global TURN
        for _ in range(count):
            TURN += 1
            text, ids = lists[TURN % len(lists)] if listed else ("", None)
            eligible = library.rows if ids is None else len(set(ids) & set(library.ids))
            pairs = bounds(eligible, library.rows)
            k, limit = pairs[TURN % len(pairs)]
            query = asked[TURN * 3 % len(asked)]
            for kind in kinds:
                words = "%sk %d, limit %d, %d eligible" % (text and text + ", ", k, limit, eligible)
                calls.append(call(library, "the Rust", kind, words, k, limit, query, ids))

    some(all_calls, (0, RESIDENT), False)
    some(listed_calls, (IDS, RESIDENT | IDS), True)
    some(agreements, (AGREEMENT, AGREEMENT | RESIDENT), False)
    some(agreements, (AGREEMENT | IDS, AGREEMENT | RESIDENT | IDS), True)
    by_rust(library, calls)


DATA = ["gauss", "ties", "near", "mixed", "half", "zero", "bits", "huge", "tiny"]


def good():
    n = 0
    for dimensions in (1, 2, 3, 15, 16, 17, 31, 32, 33, 64, 128):
        for metric in (L2, COSINE, INNER):
            rows = (60, 7, 21, 40, 2, 13, 33, 1)[n % 8] if dimensions < 100 else (40, 7, 21)[metric]
            kind = DATA[n * 2 % 9] if n % 2 else DATA[n % 4]
            library = generated(rows, dimensions, metric, kind, n % 5, (0, 9, 30)[n % 3], (n % 4, n % 3, n % 2))
            searched(library, 6, 5, 3)
            n += 1
    for metric in (L2, COSINE, INNER):
        rows, dimensions, kind = ((300, 3, "gauss"), (280, 16, "gauss"), (256, 2, "ties"))[metric]
        searched(generated(rows, dimensions, metric, kind, 4 - metric, 5, (0, 1, 2)), 9, 6, 6)
        searched(generated(0, (1, 5, 33)[metric], metric, "gauss", 0, 0, (3, 2, 1)), 4, 3, 2)
    example = generated(0, 0, L2, "example")
    assert (example.generation, example.sequence, example.rows, example.dimensions) == (3, 7, 2, 2)
    searched(example, 6, 4, 3)


def ties():
    """Libraries of our own: equal distances, zeros of both signs, ids of both ends, long metadata."""
    ends = [0, 1, 2**63 - 1, 2**63, 2**64 - 2, 2**64 - 1]

    def library(name, metric, vectors, ids, metadata=(b"",), segments=1, query=None):
        records = [(id, f32s(*v), metadata[n % len(metadata)]) for n, (id, v) in enumerate(zip(ids, vectors))]
        made = written(name, metric, len(vectors[0]), records, segments)
        made.query = f32s(*(query or vectors[0]))
        searched(made, 10, 6, 4)

    text = (b"", "Str\u00f6mung".encode(), b"x" * 300, b"", b"\0")
    for metric in (L2, COSINE, INNER):
        library("equal vectors, " + METRICS[metric], metric, [(1.0, -2.0, 0.5)] * 6, ends[::-1], text, 3)
        library("two values, " + METRICS[metric], metric, [(1.0, -2.0), (2.0, 1.0)] * 3, ends, text, 2, (1.0, 1.0))
        library("equal codes, " + METRICS[metric], metric, [(127.0, 0.25 + n / 64) for n in range(12)],
                [2**64 - 1 - 3 * n for n in range(12)], text, 4, (127.0, 0.33))
        library("parallel and opposite, " + METRICS[metric], metric, [(s * 3.0, s * -4.0) for s in (1, 2, -1, 0.5, -0.25, 1e30, -1e-30)],
                [5, 3, 9, 1, 8, 2, 7], text, 1, (3.0, -4.0))
        library("one row, " + METRICS[metric], metric, [(1.0,)], [2**64 - 1], (b"m",))
    zeros = [(0.0, -0.0), (-0.0, 0.0), (0.0, 0.0), (-0.0, -0.0), (1.0, 0.0), (0.0, 1.0)]
    for name, query in (("+, +", (1.0, 1.0)), ("-, +", (-1.0, 1.0)), ("-, -", (-1.0, -1.0)), ("zero", (0.0, -0.0))):
        library("zeros of both signs, query " + name, INNER, zeros, [60, 50, 40, 30, 20, 10], text, 2, query)
    library("zeros of both signs, l2", L2, zeros, [60, 50, 40, 30, 20, 10], text, 2, (0.0, 0.0))
    library("case f", INNER, [(0.0,), (-0.0,)], [2, 1], text, 1, (1.0,))
    library("longest metadata", L2, [(1.0,), (2.0,), (3.0,)], [3, 2, 1], (b"y" * 16384, b"", "\u00e9".encode() * 8192), 2)
    library("far apart", L2, [(1e38,), (-1e38,), (1e-38,), (0.0,), (3e38,)], [1, 2, 3, 4, 5], text, 1, (3e38,))
    library("not seen by the codes", L2, [(1000.0, float(n)) for n in (3, 1, 2, 0, -1, -3, -2)], range(1, 8), text, 1, (1000.0, 0.2))


def hidden():
    """Rows whose differences the codes do not see: lists that agree with the exact one in a few places."""
    for metric in (L2, COSINE, INNER):
        vectors = [f32s(1000.0, RNG.uniform(-3, 3), RNG.uniform(-3, 3), RNG.uniform(-9, 9)) for _ in range(40)]
        ids = RNG.sample(range(1000), 40)
        library = add(written("hidden from the codes, " + METRICS[metric], metric, 4, [(id, v, b"") for id, v in zip(ids, vectors)], 2))
        calls = []
        for k in (1, 3, 10, 20):
            for e, text, wanted in ((40, "", None), (30, "30 ids, ", RNG.sample(ids, 30))):
                for limit in (k, e // 2, e - 5, e - 2, e - 1):
                    query = f32s(1000.0, RNG.uniform(-1, 1), RNG.uniform(-1, 1), RNG.uniform(-9, 9))
                    for kind in (AGREEMENT, AGREEMENT | RESIDENT):
                        kind |= 0 if wanted is None else IDS
                        words = "%sk %d, limit %d, %d eligible" % (text, k, limit, e)
                        calls.append(call(library, "the Rust", kind, words, k, limit, query, wanted))
        by_rust(library, calls)


# ---- Refusals ----

ALL = tuple(range(8))
CACHED = (0, IDS, AGREEMENT, AGREEMENT | IDS)
OVER_RESIDENT = tuple(kind | RESIDENT for kind in CACHED)


def row_change(library, kind, row, scale=None, norm=None, code=None):
    """A row's scale (bits), norm (64 bits) or a code (place, byte) changed where this kind of call looks."""
    n, at = library.dimensions, library.row_at(row)
    if kind & RESIDENT:
        out = [("scales", row, scale)] if scale is not None else []
        out += [("norms", row, norm)] if norm is not None else []
        return out + ([("codes", row * n + code[0], code[1])] if code else [])
    out = [("cache", at, u64(scale))] if scale is not None else []
    out += [("cache", at + 8, u64(norm))] if norm is not None else []
    return out + ([("cache", at + 16 + code[0], bytes([code[1]]))] if code else [])


def refusing(library, shift):
    """Every number of a search, on one library; `shift` says which kinds each is tried with first."""
    rows, n, m, query = library.rows, library.dimensions, library.manifest, library.query
    last, turn, rust = rows - 1, shift, []

    def rule(text, k=2, limit=3, kinds=None, ids="some", query=query, count=2, by="the table", **more):
        nonlocal turn
        kinds = kinds or ALL
        for _ in range(min(count, len(kinds))):
            kind = kinds[turn % len(kinds)]
            turn += 3 if len(kinds) % 3 else 1
            listed = None
            if kind & IDS:
                listed = library.ids[::-1] + [5, 5] if ids == "some" else ids
            given = {name: value(kind) if callable(value) else value for name, value in more.items()}
            if by == "the Rust" and not given:
                rust.append(call(library, by, kind, text, k, limit, query, listed))
            else:
                call(library, "the table", kind, text, k, limit, query, listed, **given)
        turn += 1

    def vector(at, bits):
        return put(query, 4 * at, u32(bits))

    # 16, 17, 18: the Rust has them.
    zeros = (u32(1 << 31) + u32(0)) * n
    for text, other in (("query one short", query[:-4]), ("query one longer", query + u32(0)), ("no query", b""),
                        ("query twice", query * 2),
                        ("query with NaN", vector(0, 0x7FC00000)), ("query with -NaN", vector(n - 1, 0xFFC00001)),
                        ("query with infinity", vector(n - 1, 0x7F800000)), ("query with -infinity", vector(0, 0xFF800000)),
                        ("zero query", bytes(4 * n)), ("zero query of either sign", zeros[: 4 * n])):
        rule(text, query=other, by="the Rust")
    for k, limit in ((10000, 10000), (10001, 10001), (10001, 65536), (10001, 5), (2**32, 65536), (2**63, 2**63)):
        rule("k %d, limit %d" % (k, limit), k, limit, by="the Rust")
    for k, limit in ((1, 0), (3, 2), (10000, 9999), (1, 65536), (1, 65537), (0, 65537), (0, 65536), (65536, 65536), (2, 2**32 + 3),
                     (1, 2**63)):
        rule("k %d, limit %d" % (k, limit), k, limit, by="the Rust")
    # 20: each slice one short, none, and exactly enough.
    if rows:
        for slice in ANSWERS:
            for k in (1, rows, rows + 1):
                enough = min(k, rows)
                rule("k %d, %s one short" % (k, slice), k, rows + 1, room={slice: enough - 1})
                if k == rows:
                    rule("k %d, %s just enough" % (k, slice), k, rows + 1, room={slice: enough})
        for slice in ("keys", "candidates"):
            for k, limit in ((1, 2), (0, rows), (2, rows + 1), (rows, 65536)):
                rule("k %d, limit %d, %s one short" % (k, limit, slice), k, limit, room={slice: min(limit, rows) - 1})
                rule("k %d, limit %d, %s just enough" % (k, limit, slice), k, limit, count=1, room={slice: min(limit, rows)})
        few = [library.ids[0]]
        rule("one id, candidates for it alone", 1, rows, ids=few, kinds=(IDS, IDS | RESIDENT), room={"candidates": 1})
        rule("one id, answers for it alone", rows, rows, ids=few, kinds=(IDS, IDS | RESIDENT), room={"ids": 1})
    just = dict(room={**{slice: min(2, rows) for slice in ANSWERS}, "keys": min(3, rows), "candidates": min(3, rows)})
    rule("just enough of all", 2, 3, count=4, **just)
    listed = (IDS, IDS | RESIDENT, IDS | AGREEMENT, IDS | RESIDENT | AGREEMENT)
    rule("id work one short", kinds=listed, count=4, room={"work": len(library.ids) + 1})
    rule("id work just enough", kinds=listed, count=4, room={"work": len(library.ids) + 2})
    rule("no id work", kinds=listed, count=4, room={"work": 0})
    rule("no ids, no id work", kinds=listed, count=4, ids=[], room={"work": 0})
    rule("k 0, no id work", 0, 3, kinds=listed, room={"work": 0})
    rule("k 0, no answers", 0, 3, room={slice: 0 for slice in ANSWERS})
    rule("k 0, limit 0, no slices", 0, 0, room={slice: 0 for slice in ANSWERS + ("keys", "candidates")})
    # 21: the head, each field, and the manifest's length.
    fields = [("magic", 0), ("generation", 8), ("generation's last byte", 15), ("sequence", 16), ("sequence's last byte", 23)]
    fields += [("dimensions", 24), ("m", 28), ("ef", 32), ("seed", 36), ("seed's last byte", 43), ("metric", 44), ("model's length", 45)]
    fields += [("model", 49), ("segment count", library.counts), ("row count", library.counts + 4)]
    fields += [("row count's last byte", library.counts + 11)]
    for text, at in fields:
        rule("head: " + text, changes=[("manifest", at, bytes([m[at] ^ 1]))])
    rule("head: generation, k 0", 0, 0, changes=[("manifest", 8, u64(library.generation + 1))])
    for text, length in (("one byte shorter", len(m) - 1), ("one byte longer", len(m) + 1), ("empty", 0), ("of 65 bytes", 65),
                         ("of 66 bytes", 66)):
        if length != len(m):
            rule("manifest " + text, lent={"manifest": length})
    rule("manifest's CRC changed", changes=[("manifest", len(m) - 4, bytes([m[-4] ^ 1]))])
    # The cache's and the resident slices' lengths.
    for text, change in (("one shorter", -1), ("one longer", 1)):
        for slice, kinds in (("cache", CACHED), ("codes", OVER_RESIDENT), ("scales", OVER_RESIDENT), ("norms", OVER_RESIDENT)):
            if library.length[slice] + change >= 0:
                rule("%s %s" % (slice, text), kinds=kinds, lent={slice: library.length[slice] + change})
    for slice, kinds in (("cache", CACHED), ("codes", OVER_RESIDENT), ("scales", OVER_RESIDENT), ("norms", OVER_RESIDENT)):
        rule("no " + slice, kinds=kinds, lent={slice: 0})
        rule("no %s, k 0" % slice, 0, 3, kinds=kinds, count=1, lent={slice: 0})
        rule("the state holds another length of " + slice, kinds=kinds, count=1, state={slice: library.length[slice] + 1})
        least = {"cache": 4 + rows * (n + 16), "codes": rows * n, "scales": rows, "norms": rows}[slice]
        if least > 1:
            rule("state and %s one short of the rows" % slice, kinds=kinds, count=2, lent={slice: least - 1}, state={slice: least - 1})
        if slice == "cache":
            shorter = library.cache[library.row_at(0) :]
            rule("state and cache of rows alone", kinds=kinds, count=2, lent={slice: len(shorter)}, state={slice: len(shorter)},
                 changes=[("cache", 0, shorter)] if len(shorter) <= ROOM["cache"] else [])
    rule("cache's head and CRC changed", kinds=CACHED, changes=[("cache", 0, b"x" * 40), ("cache", len(library.cache) - 4, b"xxxx")])
    rule("k 0, segments empty", 0, 3, lent={"segments": 0})
    if not rows:
        rule("segments of 9 bytes", lent={"segments": 9})
        by_rust(library, rust)
        return
    # Segment lengths and entries.
    table, entry = library.table, lambda row, at: library.entries + 20 * row + at
    for segment in {0, library.count - 1}:
        length = number(m, table + 12 * segment, 8)
        for other in (0, 3, 4, length - 1, length + 1, 67108864, 67108865, 2**63):
            rule("segment %d's length %d" % (segment, other), changes=[("manifest", table + 12 * segment, u64(other))])
        rule("segment %d's CRC" % segment, changes=[("manifest", table + 12 * segment + 8, u32(7))])
    longest = lambda row: number(m, table + 12 * library.entry(row).segment, 8) - 4 - 12 - 4 * n - library.entry(row).metadata
    for row in (0, last):
        e = library.entry(row)
        for text, at, value in (("segment %d" % library.count, 8, u32(library.count)), ("segment 2^32 - 1", 8, u32(2**32 - 1)),
                                ("metadata 16385", 16, u32(16385)), ("metadata 2^32 - 1", 16, u32(2**32 - 1)),
                                ("metadata one more", 16, u32(e.metadata + 1)), ("offset 2^32 - 1", 12, u32(2**32 - 1)),
                                ("offset one past the last", 12, u32(longest(row) + 1)), ("offset the last", 12, u32(longest(row)))):
            rule("row %d's %s" % (row, text), changes=[("manifest", entry(row, at), value)])
        rule("row %d's metadata 16385, k 0" % row, 0, 0, changes=[("manifest", entry(row, 16), u32(16385))])
    rule("row 1's id that of row 0", changes=[("manifest", entry(1, 0), u64(library.ids[0]))])
    rule("row 1's id below row 0's", changes=[("manifest", entry(0, 0), u64(library.ids[1] + 1))])
    rule("row %d's id 0" % last, changes=[("manifest", entry(last, 0), u64(0))])
    rule("row %d's id 0, k 0" % last, 0, 3, changes=[("manifest", entry(last, 0), u64(0))])
    long = lambda row: ("manifest", entry(row, 16), u32(16385))
    rule("rows 1 and %d's metadata 16385" % last, changes=[long(last), long(1)])
    # The row test: every row, eligible or not.
    infinity, nan = bits(math.inf), 0x7FF8000000000000
    other_ids = library.ids[1:2]
    scales = [("0", 0), ("-0", 1 << 63), ("NaN", nan), ("-NaN", nan | 1 << 63), ("infinity", infinity), ("-infinity", infinity | 1 << 63)]
    scales += [("-1", bits(-1.0)), ("a subnormal", 1), ("2", bits(2.0))]
    faults = [("scale " + text, lambda row, scale=scale: dict(scale=scale)) for text, scale in scales]
    faults += [("code -128, first", lambda row: dict(code=(0, 128))), ("code -128, last", lambda row: dict(code=(n - 1, 128)))]
    norm = lambda row: number(library.row(row), 8, 8)
    for text, other in (("-1", lambda row: 2**64 - 1), ("0", lambda row: 0), ("2^32 more", lambda row: norm(row) + 2**32),
                        ("one more", lambda row: norm(row) + 1), ("one less", lambda row: (norm(row) - 1) % 2**64)):
        faults.append(("norm " + text, lambda row, other=other: dict(norm=other(row))))
    for text, fault in faults:
        for row in (0, last):
            rule("row %d's %s" % (row, text), changes=lambda kind: row_change(library, kind, row, **fault(row)))
        rule("row 0's %s, not eligible" % text, ids=other_ids, kinds=listed, count=1,
             changes=lambda kind: row_change(library, kind, 0, **fault(0)))
    rule("rows 1 and 0's scale 0", changes=lambda kind: row_change(library, kind, 1, scale=0) + row_change(library, kind, 0, scale=0))
    rule("row 0's scale 0, k 0", 0, 3, changes=lambda kind: row_change(library, kind, 0, scale=0))

    def blank(kind, row):
        """All codes 0 and norm 0: a zero row, which only cosine refuses."""
        out = row_change(library, kind, row, norm=0)
        for at in range(n):
            out += row_change(library, kind, row, code=(at, 0))
        return out

    for row in (0, last):
        rule("row %d of norm 0" % row, changes=lambda kind: blank(kind, row))
        rule("row %d of norm 0, scale 1e200" % row,
             changes=lambda kind: blank(kind, row) + row_change(library, kind, row, scale=bits(1e200)))
    # 22: an approximate distance that is not finite, of an eligible row.
    far = dict(scale=bits(1e200 if library.metric != INNER else 1.7e308))
    for row in (0, last):
        rule("row %d's scale too large" % row, rows, rows, count=4, changes=lambda kind: row_change(library, kind, row, **far))
        rule("row %d's scale too large, not eligible" % row, ids=other_ids, kinds=listed, count=4,
             changes=lambda kind: row_change(library, kind, row, **far))
        rule("row %d's scale too large, k 0" % row, 0, 0, count=1, changes=lambda kind: row_change(library, kind, row, **far))
    if library.metric != COSINE:
        for row in (0, last):
            cache = sealed(put(library.cache, library.row_at(row), u64(far["scale"]))[:-4])
            asked = []
            for kind, ids in ((0, None), (IDS, library.ids), (IDS, other_ids)):
                c = call(library, "the Rust", kind, "row %d's scale too large, a cache that opens" % row, 2, 3, query, ids,
                         [("cache", library.row_at(row), u64(far["scale"]))])
                asked.append(c)
            by_rust(library, asked, cache)
    for row in (0, 1):
        rule("row %d's scale too large, row %d's scale 0" % (row, 1 - row),
             changes=lambda kind: row_change(library, kind, row, **far) + row_change(library, kind, 1 - row, scale=0))
    rule("row 0's scale too large, its norm 3", changes=lambda kind: row_change(library, kind, 0, norm=3, **far))
    # 23: a candidate's record.
    s, at = library.segments, library.record_at
    text_rows = [row for row in range(rows) if library.entry(row).metadata]
    for row in (0, last):
        one = [library.ids[row]]
        for text, place, value in (("id", 0, u64(library.ids[row] ^ 1)), ("id's last byte", 7, bytes([s[at(row) + 7] ^ 128])),
                                   ("metadata length", 8, u32(library.entry(row).metadata + 1)), ("metadata length, last byte", 11, b"\1"),
                                   ("first coordinate NaN", 12, u32(0x7FC00000)), ("last coordinate infinity", 8 + 4 * n, u32(0x7F800000)),
                                   ("coordinates -NaN", 12, u32(0xFFC00000) * n), ("coordinates zero", 12, bytes(4 * n))):
            change = [("segments", at(row) + place, value)]
            rule("row %d's %s" % (row, text), rows, rows, changes=change)
            rule("row %d's %s, alone eligible" % (row, text), 1, 1, ids=one, kinds=listed, count=1, changes=change)
            rest = [x for x in library.ids if x not in one]
            rule("row %d's %s, not eligible" % (row, text), 1, 3, ids=rest, kinds=listed, count=1, changes=change)
            rule("row %d's %s, one candidate" % (row, text), 1, 1, count=3, changes=change)
    for row in text_rows[:2]:
        start = library.record_end(row) - library.entry(row).metadata
        rule("row %d's metadata no UTF-8" % row, rows, rows, changes=[("segments", start, b"\xff")])
        rule("row %d's metadata ends in half a character" % row, rows, rows, changes=[("segments", library.record_end(row) - 1, b"\xc3")])
        rule("row %d's metadata no UTF-8, one candidate" % row, 1, 1, count=4, changes=[("segments", start, b"\x80")])
        rule("row %d's metadata changed" % row, rows, rows, changes=[("segments", start, b"!")])
    order = sorted(range(rows), key=at)
    for row in order[-2:]:
        stop = library.record_end(row)
        for text, length in (("one byte before the end of row %d", stop - 1), ("at the end of row %d", stop),
                             ("in row %d's id", at(row) + 4)):
            rule("segments cut " + text % row, rows, rows, lent={"segments": length})
    rule("no segments", lent={"segments": 0})
    rule("segments one byte longer", lent={"segments": len(s) + 1})
    rule("segment CRCs changed", rows, rows, changes=[("segments", len(s) - 4, b"????")])
    wrong = lambda row: ("segments", at(row), u64(library.ids[row] ^ 2))
    rule("records of rows 1 and 0", rows, rows, changes=[wrong(1), wrong(0)])
    rule("all records", rows, rows, changes=[wrong(row) for row in range(rows)])
    rule("all records, k 0", 0, rows, changes=[wrong(row) for row in range(rows)])
    # Two faults at once, each pair.
    short = lambda slice: {slice: library.length[slice] - 1}
    faults = [
        ("head", dict(changes=lambda kind: [("manifest", 8, u64(99))])),
        ("query", dict(query=vector(0, 0x7FC00000))),
        ("k", dict(k=10001)),
        ("limit", dict(limit=65537)),
        ("limit below k", dict(k=3, limit=2)),
        ("distances short", dict(room={"distances": 0})),
        ("keys short", dict(room={"keys": 0})),
        ("entry 1", dict(changes=lambda kind: [("manifest", entry(1, 16), u32(16385))])),
        ("segments' length", dict(changes=lambda kind: [("manifest", table, u64(3))])),
        ("length", dict(lent=lambda kind: short("norms" if kind & RESIDENT else "cache"))),
        ("row 1", dict(changes=lambda kind: row_change(library, kind, 1, norm=5))),
        ("row 0 far", dict(changes=lambda kind: row_change(library, kind, 0, **far))),
        ("record 0", dict(changes=lambda kind: [wrong(0)])),
        ("k 0", dict(k=0)),
    ]

    def joined(a, b, name):
        """Both values of one thing lent: lengths and changes put together."""
        def both(kind):
            parts = [x[name](kind) if callable(x[name]) else x[name] for x in (a, b) if name in x]
            return {key: value for part in parts for key, value in part.items()} if isinstance(parts[0], dict) else sum(parts, [])
        return both

    for x in range(len(faults)):
        for y in range(x + 1, len(faults)):
            (one, a), (two, b) = faults[x], faults[y]
            if any(name in a and name in b for name in ("k", "limit", "query")):
                continue
            more = {name: joined(a, b, name) for name in ("changes", "lent", "room") if name in a or name in b}
            more.update({name: {**a, **b}[name] for name in ("k", "limit", "query") if name in a or name in b})
            rule("%s, %s" % (one, two), count=1, **more)
    by_rust(library, rust)


def many():
    """19: more ids than there may be, which the program makes."""
    library = add(generated(5, 3, L2, "gauss", 2, 6))
    library.name = "many ids"
    query, nan = library.query, u32(0x7FC00000) * 3
    for kind in (IDS, IDS | RESIDENT, IDS | AGREEMENT, IDS | RESIDENT | AGREEMENT):
        for text, count, more in (("", 1000001, {}), ("", 1000000, {}), (", head", 1000001, dict(changes=[("manifest", 8, u64(99))])),
                                  (", k 10001", 1000001, {}), (", query", 1000001, {}), (", query", 1000000, {})):
            call(library, "the table", kind, "%d ids%s" % (count, text), 10001 if "k" in text else 2, 3, nan if "query" in text else query,
                 [7] * count, many=True, **more)


def main():
    good()
    ties()
    hidden()
    bases = [
        generated(5, 3, L2, "gauss", 2, 12, (2, 1, 3)),
        generated(4, 5, COSINE, "gauss", 1, 9),
        generated(7, 17, INNER, "gauss", 3, 12, (0, 3, 0)),
        generated(0, 6, COSINE, "gauss", 0, 0),
    ]
    for shift, library in enumerate(bases):
        add(library)
        library.name = "refusals, " + library.name
        refusing(library, shift)
    many()
    data, text = [], []
    counts, numbers, apart = collections.Counter(), collections.Counter(), collections.Counter()
    for library in LIBRARIES:
        name = library.name.encode()
        parts = [library.manifest, library.segments, library.cache, library.platform, library.root]
        data += map(u32, map(len, parts))
        data += [library.manifest[-4:], *[u32(library.length[x]) for x in LENT[3:]], u32(len(name)), name, *parts]
        text.append("%s: 0 0 0 0 0 0 \n" % library.name)
        for c in library.calls:
            data.append(c.bytes())
            text.append(c.lines())
            counts[c.by, KINDS[c.kind], "refused" if c.said.number else "answered"] += 1
            numbers[c.by, c.said.number] += 1
            if c.kind & AGREEMENT and c.said.number == 0 and c.by == "the Rust":
                same, places = c.said.agreement, len(c.said.places)
                apart["in all places" if same == places else "in some" if same else "in none"] += 1
        data.append(bytes(112))
    with open(os.path.join(TO, "stdin"), "wb") as f:
        f.write(b"".join(data))
    with open(os.path.join(TO, "stdout"), "w", encoding="ascii") as f:
        f.write("".join(text))
    print("%d libraries, %d calls" % (len(LIBRARIES), sum(counts.values())))
    for by, kind, what in sorted(counts):
        print("by %s, %s, %s: %d" % (by, kind, what, counts[by, kind, what]))
    print("list and exact list agree: %s" % ", ".join("%s %d" % x for x in sorted(apart.items())))
    for by in ("the Rust", "the table"):
        print("by %s, by number: %s" % (by, ", ".join("%d: %d" % (n, x) for (b, n), x in sorted(numbers.items()) if b == by)))


main()
