/* edges [exact]: the archive at the edges of what may be lent to it. Each call is made of the archive and of plain.c: number, place and every
 * byte of everything written must be the same. On their own are tested document 01's rules on what a refusal leaves, and the numbers that
 * document 01 gives for the bounds, slices and cases.
 * With `exact`, for valgrind: blocks of exact length without canaries, and fewer ways of damage. */
#include "calls.h"

#include <float.h>
#include <math.h>

static bool exact;
static int wrong;
static size_t accepted, refused[26];
static const char *doing = ""; /* the test, and where in it, for a message */
static size_t where;

static void expect(bool holds, const char *what)
{
    if (holds) return;
    if (wrong++ < 20) printf("WRONG: %s, %zu: %s\n", doing, where, what);
}

/* ---- One call, of both. */

static uint64_t hash_of(uint64_t hash, const void *at, size_t count)
{
    for (size_t i = 0; i < count; i++) hash = (hash ^ ((const uint8_t *)at)[i]) * 1099511628211u;
    return hash;
}

static uint64_t read_hash(const call *c)
{
    call copy = *c;
    block *all[READ];
    read_blocks(&copy, all);
    uint64_t hash = hash_of(1, c, sizeof *c);
    for (size_t i = 0; i < READ; i++) hash = hash_of(hash, all[i]->at, all[i]->count);
    return hash;
}

/* Of a search that answered: the report and each place, against what was lent. */
static void sane(int f, const call *c, const outcome *o)
{
    uint64_t rows_count = plain_number(c->manifest.at + 53 + plain_number(c->manifest.at + 45, 4), 8), count;
    const uint64_t *ids = (const void *)o->out[ANSWERS].at, *rows = (const void *)o->out[ANSWERS + 2].at;
    const uint64_t *starts = (const void *)o->out[ANSWERS + 3].at;
    const double *distances = (const void *)o->out[ANSWERS + 1].at;
    const uint32_t *lengths = (const void *)o->out[ANSWERS + 4].at;
    if (f < FIRST_AGREEMENT) {
        pv_report r;
        memcpy(&r, o->out[0].at, sizeof r);
        uint64_t least = c->limit < r.eligible ? c->limit : r.eligible;
        count = c->k < r.eligible ? c->k : r.eligible;
        expect(r.count == count && r.measured == (c->k > 0 ? least : 0) && r.complete == 1, "the report's counts");
        expect(r.approximate == (c->k > 0 && c->limit < r.eligible) && r.eligible <= rows_count, "the report's approximate");
        expect(takes_ids(f) || r.eligible == rows_count, "all rows are eligible");
    } else {
        memcpy(&count, o->out[0].at, 8);
        expect(count <= c->k && count <= rows_count, "the agreement count");
        return;
    }
    for (uint64_t n = 0; n < count; n++) {
        expect(rows[n] < rows_count && isfinite(distances[n]), "a row of the library, a finite distance");
        expect(starts[n] <= c->segments.count && lengths[n] <= c->segments.count - starts[n], "metadata inside the segments");
        expect(n == 0 || distances[n - 1] < distances[n] || (distances[n - 1] <= distances[n] && ids[n - 1] < ids[n])
                   || (distances[n] == 0 && signbit(distances[n - 1]) != 0), "the order of the list");
    }
    const size_t sizes[5] = {8, 8, 8, 8, 4};
    for (int i = 0; i < 5; i++) expect(as_it_was(&o->out[ANSWERS + i], sizes[i] * count), "answers past the list stay");
}

/* What a call leaves, straight from document 01. 21, 11 and an answer have two ways each, which the comparison with plain.c tells. */
static void rules(int f, const call *c, const outcome *o)
{
    uint32_t n = o->number;
    bool early = n == 19 || (16 <= n && n <= 18) || n == 20, late = n == 0 || (22 <= n && n <= 24);
    bool has_row = n == 14 || n == 5 || n == 6 || (21 <= n && n <= 24);
    expect(n <= 24 && (o->place == 0 || has_row), "number and place");
    for (int i = 0; i < o->count; i++) {
        const written *w = &o->out[i];
        expect(guard == 0 || canaries(w), "a canary");
        if (w->kind == RESULT && i == 0 && n != 0) expect(all_zero(w), "zero on a refusal");
        if (w->kind == KEPT && n != 0) expect(as_it_was(w, 0), "as it was on a refusal");
        if (w->kind == WORK && early) expect(as_it_was(w, 0), "a working slice stays up to 20");
        if (w->kind == WORK && late) expect(all_zero(w), "a working slice is zero past 20");
        if (w->kind == SCRATCH && 1 <= n && n <= 3) expect(as_it_was(w, 0), "scratch stays on 1 to 3");
        if (w->kind == SCRATCH && n != 11 && !(1 <= n && n <= 3)) expect(all_zero(w), "scratch is zero");
        if (w->kind == WORK || w->kind == SCRATCH) expect(as_it_was(w, 0) || all_zero(w), "stays or is zero");
    }
    if (n == 0 && f >= FIRST_SEARCH) sane(f, c, o);
}

static uint32_t call_both(int f, const call *c)
{
    outcome a, p;
    uint64_t hash = read_hash(c);
    run(&archive, f, c, &a);
    expect(read_hash(c) == hash, "what is read stays");
    run(&plain, f, c, &p);
    if (!same_outcome(&a, &p)) {
        char text[200];
        snprintf(text, sizeof text, "%s gives %u at %llu, plain.c %u at %llu", call_names[f], a.number, (unsigned long long)a.place, p.number,
                 (unsigned long long)p.place);
        expect(false, text);
    }
    rules(f, c, &a);
    if (a.number == 0) accepted++;
    else refused[a.number < 25 ? a.number : 25]++;
    release(&a), release(&p);
    return a.number;
}

static void call_all(const call *c)
{
    for (int f = 0; f < CALLS; f++) call_both(f, c);
}

static void must(int f, const call *c, uint32_t number)
{
    char text[100];
    uint32_t n = call_both(f, c);
    if (n == number) return;
    snprintf(text, sizeof text, "%s gives %u, document 01 %u", call_names[f], n, number);
    expect(false, text);
}

static void must_searches(const call *c, uint32_t number)
{
    for (int f = FIRST_SEARCH; f < CALLS; f++) must(f, c, number);
}

/* ---- The libraries. */

static const float three[3][2] = {{127, 0.5f}, {-3, 4}, {1e-3f, -20}};
static const row three_rows[3] = {{5, 0, "caf\xc3\xa9", three[0]}, {9, 1, "", three[1]}, {1ull << 40, 0, "b", three[2]}};
static const float query_two[2] = {100, -7};
static const uint64_t wanted_four[4] = {9, 5, 77, 9};

static call tiny(uint8_t metric)
{
    return whole_call(make_library(metric, 2, "m\xc3\xa9", 2, three_rows, 3), query_two, 2, 2, wanted_four, 4);
}

static call empty(uint8_t metric) { return whole_call(make_library(metric, 2, "m", 0, NULL, 0), query_two, 2, 2, wanted_four, 4); }

/* ---- The tests. */

static void whole(void)
{
    for (uint8_t metric = 0; metric < 3; metric++) {
        call c = tiny(metric), e = empty(metric);
        for (int f = 0; f < CALLS; f++) must(f, &c, 0), must(f, &e, 0);
        c.k = 0, must_searches(&c, 0);
        c.limit = 0, must_searches(&c, 0);
        drop_call(&c), drop_call(&e);
    }
}

/* Null, or any pointer, where the count is 0: each buffer by itself, and all at once. */
static void nulls(void)
{
    call c = tiny(0), e = empty(0);
    call *all[2] = {&c, &e};
    for (where = 0; where < 2; where++)
        for (int odd = 0; odd < 2; odd++) {
            call *w = all[where];
            block none = {(uint8_t *)(uintptr_t)(odd ? 1 : 0), 0}, *read[READ];
            size_t *room[] = {&w->scratch, &w->cache_room, &w->codes_room, &w->scales_room, &w->norms_room, &w->keys, &w->candidates, &w->id_work,
                              &w->answers[0], &w->answers[1], &w->answers[2], &w->answers[3], &w->answers[4]};
            read_blocks(w, read);
            for (size_t i = 0; i < READ; i++) {
                block kept = *read[i];
                *read[i] = none, call_all(w), *read[i] = kept;
            }
            for (size_t i = 0; i < sizeof room / sizeof *room; i++) {
                size_t kept = *room[i];
                *room[i] = 0, call_all(w), *room[i] = kept;
            }
            call z = *w;
            read_blocks(&z, read);
            for (size_t i = 0; i < READ; i++) *read[i] = none;
            z.scratch = z.cache_room = z.codes_room = z.scales_room = z.norms_room = z.keys = z.candidates = z.id_work = 0;
            memset(z.answers, 0, sizeof z.answers);
            for (int f = 0; f < CALLS; f++) must(f, &z, f < FIRST_SEARCH ? 1 : 21);
        }
    where = 0;
    call n = c;
    n.segments = (block){NULL, 0}, must(CHECK_LIBRARY, &n, 5), must(PREPARE, &n, 5), must(BUILD, &n, 5), must_searches(&n, 23), n.segments = c.segments;
    n.cache = (block){NULL, 0}, must(OPEN, &n, 12), must(CACHED, &n, 21), n.cache = c.cache;
    n.query = (block){NULL, 0}, must_searches(&n, 16), n.query = c.query;
    n.codes = (block){NULL, 0}, must(RESIDENT, &n, 21), n.codes = c.codes;
    n.platform = n.root = (block){NULL, 0}, must(SIZE, &n, 0), must(OPEN, &n, 12);
    drop_call(&c), drop_call(&e);
}

/* Each byte of manifest, segments, cache and resident rows damaged, as it is and with the checksums made right again; each length cut, and
 * one byte too many. The states are those of the whole library. */
static void mend(call *c, int part)
{
    library l = {c->manifest, c->segments};
    if (part == 0 && c->manifest.count >= 4) seal(c->manifest);
    if (part == 1) seal_segments(l);
    if (part == 2 && c->cache.count >= 4) seal(c->cache);
    c->crc = crc_of(c->manifest);
}

static block *part_of(call *c, int part)
{
    return part == 0 ? &c->manifest : part == 1 ? &c->segments : part == 2 ? &c->cache : part == 3 ? &c->codes : part == 4 ? &c->scales : &c->norms;
}

static void damage_byte(call *c, int part, size_t i, uint8_t flip)
{
    block *b = part_of(c, part);
    block manifest = copy_of(c->manifest.at, c->manifest.count), old = copy_of(b->at, b->count);
    uint32_t crc = c->crc;
    b->at[i] ^= flip;
    for (int mended = 0; mended < (part < 3 ? 2 : 1); mended++) {
        if (mended) mend(c, part);
        c->k = 1 + (i + flip) % 3, c->limit = c->k + (i & 1); /* the answers have room for two places, and so 20 shows too */
        call_all(c);
    }
    memcpy(b->at, old.at, old.count), memcpy(c->manifest.at, manifest.at, manifest.count), c->crc = crc;
    drop(&manifest), drop(&old);
}

static void damage_length(call *c, int part, size_t count)
{
    block *b = part_of(c, part), kept = *b;
    uint32_t crc = c->crc;
    *b = new_block(count);
    memcpy(b->at == NULL ? (uint8_t[1]){0} : b->at, kept.at, count < kept.count ? count : kept.count);
    for (int mended = 0; mended < (part == 0 || part == 2 ? 2 : 1); mended++) {
        if (mended) mend(c, part);
        call_all(c);
    }
    drop(b), *b = kept, c->crc = crc;
}

static void damages(void)
{
    static const uint8_t flips[] = {0x55, 0x01, 0x80, 0xff, 0x02, 0x10};
    for (uint8_t metric = 0; metric < (exact ? 2 : 3); metric++) {
        call c = tiny(metric);
        c.keys = c.candidates = 3;
        for (int part = 0; part < 6; part++) {
            size_t step = part < 3 ? 1 : part == 3 ? 1 : 8;
            for (where = 0; where < part_of(&c, part)->count; where++)
                for (size_t f = 0; f < (exact ? 2 : sizeof flips); f++) damage_byte(&c, part, where, flips[f]);
            c.k = 2, c.limit = 2;
            for (where = 0; where <= part_of(&c, part)->count + 1; where += step)
                if (where != part_of(&c, part)->count) damage_length(&c, part, where);
        }
        drop_call(&c);
    }
}

/* Each bit of each state wrong: 21. */
static void states(void)
{
    call c = tiny(0);
    for (where = 0; where < 8 * PV_CACHE_STATE_BYTES; where++) {
        c.cached.bytes[where / 8] ^= (uint8_t)(1u << where % 8);
        for (int f = FIRST_SEARCH; f < (exact ? FIRST_SEARCH + 1 : CALLS); f++)
            if (over_cache(f)) must(f, &c, 21);
        c.cached.bytes[where / 8] ^= (uint8_t)(1u << where % 8);
    }
    for (where = 0; where < 8 * PV_RESIDENT_STATE_BYTES; where++) {
        c.resident.bytes[where / 8] ^= (uint8_t)(1u << where % 8);
        for (int f = FIRST_SEARCH; f < (exact ? RESIDENT + 1 : CALLS); f++)
            if (!over_cache(f)) must(f, &c, 21);
        c.resident.bytes[where / 8] ^= (uint8_t)(1u << where % 8);
    }
    memset(&c.cached, 0, sizeof c.cached), memset(&c.resident, 0, sizeof c.resident), must_searches(&c, 21);
    memset(&c.cached, 0xff, sizeof c.cached), memset(&c.resident, 0xff, sizeof c.resident), must_searches(&c, 21);
    memcpy(&c.cached, &c.resident, sizeof c.cached), must(CACHED, &c, 21);
    drop_call(&c);
    /* a state that no call gave: the lengths of both are too short for the rows; then where k is 0 nothing of the rows is looked at */
    call s = tiny(0);
    block cache = s.cache, codes = s.codes;
    s.cache = (block){cache.at, 57}, plain_put(s.cached.bytes + PV_AT_CACHE_LENGTH, 8, 57), must(CACHED, &s, 21);
    s.codes = (block){codes.at, 5}, plain_put(s.resident.bytes + PV_AT_CODES_LENGTH, 8, 5), must(RESIDENT, &s, 21);
    s.k = 0, must_searches(&s, 0);
    s.cache = cache, s.codes = codes;
    drop_call(&s);
}

/* One element short of each slice gives 11 or 20; exactly enough does not; more stay as they were. */
static void slices(void)
{
    call c = tiny(0);
    for (int f = 0; f < FIRST_SEARCH; f++) c.scratch = 2, must(f, &c, 11), c.scratch = 3, must(f, &c, 0), c.scratch = 9, must(f, &c, 0);
    c.scratch = 3;
    size_t *prepare[] = {&c.cache_room}, *build[] = {&c.codes_room, &c.scales_room, &c.norms_room};
    *prepare[0] -= 1, must(PREPARE, &c, 11), *prepare[0] += 20, must(PREPARE, &c, 0), *prepare[0] -= 19;
    for (where = 0; where < 3; where++)
        *build[where] -= 1, must(BUILD, &c, 11), *build[where] += 5, must(BUILD, &c, 0), *build[where] -= 4;
    size_t *answers[] = {&c.answers[0], &c.answers[1], &c.answers[2], &c.answers[3], &c.answers[4], &c.keys, &c.candidates};
    for (where = 0; where < 7; where++)
        *answers[where] -= 1, must_searches(&c, 20), *answers[where] += 8, must_searches(&c, 0), *answers[where] -= 7;
    c.id_work -= 1;
    for (int f = FIRST_SEARCH; f < CALLS; f++) must(f, &c, takes_ids(f) ? 20 : 0);
    c.id_work += 4, must_searches(&c, 0), c.id_work -= 3;
    /* min(k, rows) and min(limit, rows) */
    c.k = 10000, c.limit = 65536, must_searches(&c, 20);
    for (int i = 0; i < 5; i++) c.answers[i] = 3;
    must_searches(&c, 20), c.keys = 3, must_searches(&c, 20), c.candidates = 3, must_searches(&c, 0);
    /* with k = 0 only candidates and ids can be short */
    memset(c.answers, 0, sizeof c.answers), c.k = 0, must_searches(&c, 0), c.keys = 2, must_searches(&c, 20);
    drop_call(&c);
    call e = empty(0);
    e.scratch = e.keys = e.candidates = 0;
    for (int f = 0; f < CALLS; f++) must(f, &e, 0);
    drop_call(&e);
}

static void bounds(void)
{
    call c = tiny(0);
    for (int i = 0; i < 5; i++) c.answers[i] = 3;
    c.keys = c.candidates = 3;
    static const struct { size_t k, limit; uint32_t number; } calls[] = {
        {10000, 10000, 0}, {10001, 10001, 17}, {10001, 0, 17}, {SIZE_MAX, SIZE_MAX, 17}, {10000, 9999, 18}, {10000, 65536, 0}, {10000, 65537, 18},
        {1, 0, 18}, {0, 0, 0}, {0, 65536, 0}, {0, 65537, 18}, {1, SIZE_MAX, 18}, {1, 1, 0}, {3, 3, 0}, {4, 4, 0}};
    for (where = 0; where < sizeof calls / sizeof *calls; where++) c.k = calls[where].k, c.limit = calls[where].limit, must_searches(&c, calls[where].number);
    c.k = 1, c.limit = 2;
    float bad[2] = {0, 0};
    block query = c.query;
    static const float odd[] = {INFINITY, -INFINITY, NAN};
    c.query = (block){(uint8_t *)bad, 8}, must_searches(&c, 0);
    for (where = 0; where < 3; where++) bad[where % 2] = odd[where], must_searches(&c, 16), bad[where % 2] = 0;
    c.query.count = 4, must_searches(&c, 16), c.query = query;

    static const struct { size_t limit, block; uint32_t number; } options[] = {
        {0, 18, 7}, {1, 18, 9}, {1073741824, 18, 0}, {1073741825, 18, 7}, {SIZE_MAX, 18, 7}, {1073741824, 17, 7}, {1073741824, 0, 7},
        {1073741824, 16777216, 0}, {1073741824, 16777217, 7}, {1073741824, SIZE_MAX, 7}};
    for (where = 0; where < sizeof options / sizeof *options; where++) {
        c.max_cache_bytes = options[where].limit, c.buffer_bytes = options[where].block;
        must(SIZE, &c, options[where].number), must(PREPARE, &c, options[where].number), must(OPEN, &c, options[where].number);
    }
    c.max_cache_bytes = c.cache.count + 8, must(SIZE, &c, 7), c.buffer_bytes = 18, must(OPEN, &c, 0), must(PREPARE, &c, 0);
    c.max_cache_bytes--, must(SIZE, &c, 9), must(PREPARE, &c, 9), must(OPEN, &c, 9);
    c.max_cache_bytes = PV_DEFAULT_MAX_CACHE_BYTES;

    block platform = c.platform, root = c.root;
    c.platform = new_block(65), must(SIZE, &c, 10), must(PREPARE, &c, 10), must(OPEN, &c, 10);
    c.platform.count = 64, must(SIZE, &c, 0), must(OPEN, &c, 12), drop(&c.platform), c.platform = platform;
    c.root = new_block(1048577), must(SIZE, &c, 10), must(PREPARE, &c, 10), must(OPEN, &c, 10);
    c.root.count = 1048576, must(SIZE, &c, 0), must(PREPARE, &c, 11), must(OPEN, &c, 12), drop(&c.root), c.root = root;
    c.platform.at[0] ^= 1, must(OPEN, &c, 13), c.platform.at[0] ^= 1, c.root.at[1] ^= 1, must(OPEN, &c, 13), c.root.at[1] ^= 1;
    c.crc ^= 1;
    for (int f = 0; f < FIRST_SEARCH; f++) must(f, &c, 3);
    drop_call(&c);
}

/* The manifest's own bounds, each at its last good value and past it, with the checksum made right. */
static void manifest_bounds(void)
{
    call c = tiny(0);
    uint8_t *m = c.manifest.at, *entries = m + 61 + 3 + 24;
    static const struct { size_t at, count; uint64_t value; uint32_t number; } fields[] = {
        {8, 8, 0, 1}, {8, 8, UINT64_MAX, 0}, {16, 8, 0, 0}, {16, 8, UINT64_MAX, 0}, {24, 4, 0, 2}, {24, 4, 4097, 2}, {24, 4, 4096, 1}, {28, 4, 1, 2},
        {28, 4, 2, 0}, {28, 4, 64, 0}, {28, 4, 65, 2}, {32, 4, 15, 2}, {32, 4, 16, 0}, {32, 4, 4096, 0}, {32, 4, 4097, 2}, {36, 8, UINT64_MAX, 0},
        {44, 1, 1, 0}, {44, 1, 2, 0}, {44, 1, 3, 2}, {45, 4, 0, 2}, {45, 4, 513, 2}, {45, 4, 512, 1}, {45, 4, 100, 1}, {45, 4, 99, 2}, {45, 4, 2, 2}, {49, 1, 0, 2},
        {50, 1, 'a', 2}, {52, 4, 1025, 1}, {56, 8, 0, 1}, {56, 8, 1000001, 1}, {56, 8, UINT64_MAX, 1}, {64, 8, 3, 1}, {64, 8, 67108865, 1},
        {64, 8, 67108864, 4}, {64, 8, UINT64_MAX, 1}};
    for (where = 0; where < sizeof fields / sizeof *fields; where++) {
        uint8_t kept[8];
        memcpy(kept, m + fields[where].at, fields[where].count), plain_put(m + fields[where].at, fields[where].count, fields[where].value);
        mend(&c, 0), must(CHECK_MANIFEST, &c, fields[where].number), must(SIZE, &c, fields[where].number), call_all(&c);
        memcpy(m + fields[where].at, kept, fields[where].count), mend(&c, 0);
    }
    plain_put(entries + 20, 8, 5), mend(&c, 0), must(CHECK_MANIFEST, &c, 1), must_searches(&c, 21), plain_put(entries + 20, 8, 9); /* two ids the same */
    plain_put(entries + 8, 4, 2), mend(&c, 0), must(CHECK_MANIFEST, &c, 1), must_searches(&c, 21), plain_put(entries + 8, 4, 0); /* no such segment */
    mend(&c, 0), must(CHECK_LIBRARY, &c, 0);
    drop_call(&c);

    static char name[514], metadata[16386];
    for (size_t n = 511; n < 514; n++) {
        memset(name, 'm', n);
        call w = bare_call(make_library(0, 2, name, 2, three_rows, 3), 3);
        must(CHECK_LIBRARY, &w, n > 512 ? 2 : 0);
        drop_call(&w);
    }
    for (size_t n = 16383; n < 16386; n++) {
        memset(metadata, 'd', n);
        row one = {1, 0, metadata, three[0]};
        call w = bare_call(make_library(0, 2, "m", 1, &one, 1), 1);
        must(CHECK_LIBRARY, &w, n > 16384 ? 1 : 0);
        drop_call(&w);
    }

    /* a row of zeros, which cosine does not allow: as a record, in a cache, resident */
    for (uint8_t metric = 0; metric < 3; metric++) {
        static const float zero[2] = {0, 0};
        row rows[2] = {{1, 0, "", three[0]}, {2, 0, "", three[1]}};
        call w = whole_call(make_library(metric, 2, "m", 1, rows, 2), query_two, 1, 2, wanted_four, 4);
        memset(w.cache.at + w.cache.count - 4 - 10, 0, 10), seal(w.cache), memset(w.codes.at + 2, 0, 2), memset(w.norms.at + 8, 0, 8);
        must(OPEN, &w, metric == 1 ? 14 : 0), must(CACHED, &w, metric == 1 ? 21 : 0), must(RESIDENT, &w, metric == 1 ? 21 : 0);
        drop_call(&w);
        rows[1].v = zero;
        w = bare_call(make_library(metric, 2, "m", 1, rows, 2), 2), w.scales_room = w.norms_room = 2, w.codes_room = 4;
        must(CHECK_LIBRARY, &w, metric == 1 ? 5 : 0), must(BUILD, &w, metric == 1 ? 5 : 0);
        drop_call(&w);
    }
}

/* 19, and a million ids handed in; 8: 131,072 rows of 4,096 pass, one more does not; the longest manifest, the most rows and segments. */
static void large(void)
{
    call c = tiny(0);
    block wanted = c.wanted;
    c.wanted = new_block(8 * 1000001), c.id_work = 1000001;
    plain_put(c.wanted.at + 8 * 999999, 8, 9);
    for (int f = FIRST_SEARCH; f < CALLS; f++) must(f, &c, takes_ids(f) ? 19 : 0);
    c.wanted.count -= 8, c.id_work = 1000000, must_searches(&c, 0);
    c.id_work = 999999, must(CACHED_IDS, &c, 20);
    drop(&c.wanted), c.wanted = wanted;

    block manifest = c.manifest, segments = c.segments;
    for (size_t more = 0; more < 2; more++) {
        size_t rows = 131072 + more, each = 4093, parts = (rows + each - 1) / each; /* 4,093 records of 16,396 bytes are under 64 MiB */
        c.manifest = new_block(66 + 12 * parts + 20 * rows), c.segments = (block){NULL, 0};
        uint8_t *m = c.manifest.at;
        memcpy(m, manifest.at, 49), plain_put(m + 24, 4, 4096), plain_put(m + 45, 4, 1), m[49] = 'm';
        plain_put(m + 50, 4, parts), plain_put(m + 54, 8, rows);
        for (size_t n = 0; n < parts; n++) plain_put(m + 62 + 12 * n, 8, 4 + 16396 * (n + 1 < parts ? each : rows - each * (parts - 1)));
        for (size_t r = 0; r < rows; r++) {
            uint8_t *e = m + 62 + 12 * parts + 20 * r;
            plain_put(e, 8, r), plain_put(e + 8, 4, r / each), plain_put(e + 12, 4, 16396 * (r % each));
        }
        seal(c.manifest), c.crc = crc_of(c.manifest), c.scratch = rows;
        must(CHECK_MANIFEST, &c, 0), must(CHECK_LIBRARY, &c, 5);
        must(SIZE, &c, more ? 8 : 0), must(PREPARE, &c, more ? 8 : 11), must(OPEN, &c, more ? 8 : 12), must(BUILD, &c, more ? 8 : 11);
        c.scratch--, must(SIZE, &c, 11);
        drop(&c.manifest);
    }
    c.manifest = new_block(67108865), memcpy(c.manifest.at, manifest.at, manifest.count), c.manifest.at[44] = 3;
    must(CHECK_MANIFEST, &c, 1), c.manifest.count--, must(CHECK_MANIFEST, &c, 2), must(CACHED, &c, 21);
    c.manifest.at[44] = 0, must(CHECK_MANIFEST, &c, 1), drop(&c.manifest);
    for (size_t more = 0; more < 2; more++) {
        c.manifest = many_rows(1000000 + more, 0), c.crc = crc_of(c.manifest), c.scratch = 1000001;
        must(CHECK_MANIFEST, &c, more ? 1 : 0), drop(&c.manifest);
    }
    c.manifest = manifest, c.segments = segments;
    drop_call(&c);
    static row rows[1025];
    for (size_t n = 1024; n < 1026; n++) {
        for (uint32_t i = 0; i < n; i++) rows[i] = (row){i, i, "", three[i % 3]};
        call w = bare_call(make_library(0, 1, "m", n, rows, n), n);
        must(CHECK_LIBRARY, &w, n > 1024 ? 1 : 0), drop_call(&w);
    }
}

/* Two rows of the same codes whose scales differ in their last bits: an approximate distance that comes out below 0 counts as 0, and of two
 * that tie the lower id is kept. */
static void ties(void)
{
    static const float v[3] = {0.3f, -0.7f, 0.1f};
    row rows[2] = {{1, 0, "", v}, {2, 0, "", v}};
    for (uint8_t metric = 0; metric < 3; metric++) {
        call c = whole_call(make_library(metric, 3, "m", 1, rows, 2), v, 1, 1, wanted_four, 0);
        uint8_t *scale = c.cache.at + c.cache.count - 4 - 19;
        uint64_t bits = plain_number(scale, 8);
        for (where = 0; where < 400; where++) {
            plain_put(scale, 8, bits + where - 200), memcpy(c.scales.at + 8, scale, 8), seal(c.cache);
            must(OPEN, &c, 0), must(CACHED, &c, 0), must(RESIDENT, &c, 0);
        }
        drop_call(&c);
    }
}

/* Document 01's lettered cases, as far as they cross the header. */
static void built(const float *v, size_t dimensions, double scale, const int8_t *codes, int64_t norm)
{
    row r = {1, 0, "", v};
    call c = whole_call(make_library(0, dimensions, "m", 1, &r, 1), v, 1, 1, NULL, 0);
    expect(memcmp(c.scales.at, &scale, 8) == 0 && memcmp(c.norms.at, &norm, 8) == 0 && memcmp(c.codes.at, codes, dimensions) == 0, "scale, norm, codes");
    expect(memcmp(c.cache.at + c.cache.count - 4 - dimensions - 16, c.scales.at, 8) == 0, "the cache's scale");
    expect(memcmp(c.cache.at + c.cache.count - 4 - dimensions, codes, dimensions) == 0, "the cache's codes");
    drop_call(&c);
}

static double first_distance(int f, const call *c)
{
    outcome o;
    double d;
    run(&archive, f, c, &o);
    expect(o.number == 0, "answers");
    memcpy(&d, o.out[ANSWERS + 1].at, 8), release(&o);
    return d;
}

static void cases(void)
{
    where = 'a', built((float[]){127, 0.5f, -0.5f}, 3, 1, (int8_t[]){127, 1, -1}, 16131);
    where = 'b', built((float[]){254, 1, -1, 3}, 4, 2, (int8_t[]){127, 1, -1, 2}, 16135);
    where = 'c', built((float[]){0, 0}, 2, 1, (int8_t[]){0, 0}, 0);
    where = 'd';
    float right[2] = {127, 0}, up[2] = {0, 127}, nothing[2] = {0, 0};
    row one = {1, 0, "", right};
    call c = whole_call(make_library(0, 2, "m", 1, &one, 1), up, 1, 1, NULL, 0);
    expect(first_distance(CACHED, &c) == 32258 && first_distance(RESIDENT, &c) == 32258, "32258");
    where = 'g'; /* the row's scale and norm as the case has them, in a cache that opens */
    uint8_t *at = c.cache.at + c.cache.count - 22;
    double scale = 1e200;
    for (uint8_t norm = 0; norm < 2; norm++) {
        memcpy(at, &scale, 8), plain_put(at + 8, 8, norm), at[16] = norm, at[17] = 0, seal(c.cache), must(OPEN, &c, 0);
        memcpy(c.query.at, norm ? nothing : up, 8), must(CACHED, &c, norm ? 22 : 0), must(AGREEMENT_CACHED, &c, norm ? 22 : 0);
        memcpy(c.scales.at, &scale, 8), plain_put(c.norms.at, 8, norm), c.codes.at[0] = norm, c.codes.at[1] = 0;
        must(RESIDENT, &c, norm ? 22 : 0), must(AGREEMENT_RESIDENT, &c, norm ? 22 : 0);
    }
    drop_call(&c);
    where = 'e';
    c = whole_call(make_library(1, 2, "m", 1, &one, 1), right, 1, 1, NULL, 0);
    double same = first_distance(CACHED, &c);
    expect(same == 0 && !signbit(same), "+0");
    drop_call(&c);
    where = 'h';
    float v[3] = {1, 2, 3};
    row rows[2] = {{1, 0, "", v}, {2, 0, "", v}};
    c = whole_call(make_library(0, 3, "m", 1, rows, 2), v, 1, 1, NULL, 0);
    expect(c.cache.count == 179 && plain_number(c.cache.at + 12, 4) == 121, "identity 121, cache 179");
    c.max_cache_bytes = 187, c.buffer_bytes = 19, must(SIZE, &c, 0), must(PREPARE, &c, 0), must(OPEN, &c, 0);
    c.max_cache_bytes = 186, must(SIZE, &c, 9), c.max_cache_bytes = 187, c.buffer_bytes = 18, must(SIZE, &c, 7);
    drop_call(&c);
}

/* Cached and resident answers are alike to the bit, and from limit >= eligible on every place agrees. */
static void alike(const call *c)
{
    static const int pairs[4][2] = {{CACHED, RESIDENT}, {CACHED_IDS, RESIDENT_IDS}, {AGREEMENT_CACHED, AGREEMENT_RESIDENT},
                                    {AGREEMENT_CACHED_IDS, AGREEMENT_RESIDENT_IDS}};
    for (int i = 0; i < 4; i++) {
        outcome a, b;
        run(&archive, pairs[i][0], c, &a), run(&archive, pairs[i][1], c, &b);
        expect(same_outcome(&a, &b), "cached and resident alike");
        release(&a), release(&b);
    }
    for (int ids = 0; ids < 2; ids++) {
        outcome s, n;
        pv_report r;
        uint64_t agreement;
        run(&archive, CACHED + ids, c, &s), run(&archive, AGREEMENT_CACHED + ids, c, &n);
        memcpy(&r, s.out[0].at, sizeof r), memcpy(&agreement, n.out[0].at, 8);
        expect(s.number == n.number && (s.number != 0 || (agreement <= r.count && (r.approximate || agreement == r.count))), "agreement");
        for (int i = ANSWERS; i < ANSWERS + 5; i++) expect(s.out[i].count == 0 || memcmp(s.out[i].at, n.out[i].at, s.out[i].count) == 0, "the same list");
        release(&s), release(&n);
    }
}

static void chance_libraries(void)
{
    uint64_t seed = 7;
    size_t libraries = exact ? 3 : 60;
    for (where = 0; where < libraries; where++) {
        size_t rows = chance(&seed) % (exact ? 12 : where % 10 == 9 ? MOST_ROWS : 40), dimensions = 1 + chance(&seed) % (exact ? 6 : MOST_DIMENSIONS);
        size_t segments = rows == 0 ? 0 : 1 + chance(&seed) % (rows < 5 ? rows : 5);
        library l = chance_library(seed, (uint8_t)(where % 3), dimensions, segments, rows);
        float query[MOST_DIMENSIONS];
        uint64_t wanted[50];
        size_t count = chance(&seed) % 50;
        for (size_t i = 0; i < dimensions; i++) query[i] = (float)((int)(chance(&seed) % 2001) - 1000) / 300;
        query[0] = 1;
        if (rows > 0 && where % 2 == 0) /* a record, or its opposite */
            for (size_t i = 0; i < dimensions; i++) memcpy(&query[i], l.segments.at + 12 + 4 * i, 4), query[i] *= where % 4 == 0 ? 1 : -1;
        for (size_t i = 0; i < count; i++) wanted[i] = chance(&seed) % (2 * rows + 2);
        call c = whole_call(l, query, rows < 10000 ? rows : 10000, rows, wanted, count);
        for (int f = 0; f < CALLS; f++) must(f, &c, 0);
        alike(&c);
        for (int i = 0; i < 12; i++) {
            c.k = chance(&seed) % (rows + 3), c.limit = c.k + chance(&seed) % (rows + 3);
            must_searches(&c, 0), alike(&c);
        }
        drop_call(&c);
    }
}

/* Several bytes damaged at once, lengths and numbers by chance. */
static void chance_damage(void)
{
    uint64_t seed = 99;
    size_t turns = exact ? 60 : 6000;
    for (where = 0; where < turns; where++) {
        call c = tiny((uint8_t)(where % 3));
        c.keys = c.candidates = 3;
        for (int hits = (int)(chance(&seed) % 4); hits >= 0; hits--) {
            int part = (int)(chance(&seed) % 6);
            block *b = part_of(&c, part);
            b->at[chance(&seed) % b->count] ^= (uint8_t)(1u << chance(&seed) % 8);
            if (chance(&seed) % 2) c.cached.bytes[chance(&seed) % 112] ^= (uint8_t)(chance(&seed) % 64 == 0);
            if (part < 3 && part != 1 && chance(&seed) % 4 != 0) mend(&c, part);
        }
        if (chance(&seed) % 4 == 0) c.answers[chance(&seed) % 5] = chance(&seed) % 4, c.keys = chance(&seed) % 5, c.id_work = chance(&seed) % 6;
        if (chance(&seed) % 4 == 0) c.scratch = chance(&seed) % 5, c.cache_room = c.cache_room - 1 + chance(&seed) % 3;
        c.k = chance(&seed) % 4, c.limit = chance(&seed) % 5;
        call_all(&c);
        drop_call(&c);
    }
}

/* ---- Four distances. */

static void four(uint32_t metric, const float *const v[5], const size_t counts[5], uint32_t number)
{
    double a[6], p[4] = {0};
    for (int i = 0; i < 6; i++) a[i] = 4711; /* a canary before and behind */
    block b[5];
    for (int i = 0; i < 5; i++) b[i] = copy_of(v[i], 4 * counts[i]);
    uint32_t n = pv_distance_four(metric, AS(float, b[0]), AS(float, b[1]), AS(float, b[2]), AS(float, b[3]), AS(float, b[4]), a + 1);
    uint32_t m = plain_distance_four(metric, AS(float, b[0]), AS(float, b[1]), AS(float, b[2]), AS(float, b[3]), AS(float, b[4]), p);
    expect(n == number && m == number, "the number of four distances");
    expect(memcmp(a + 1, p, sizeof p) == 0 && a[0] == 4711 && a[5] == 4711, "four distances");
    if (n == 0) accepted++;
    else refused[n < 25 ? n : 25]++;
    for (int i = 0; i < 5; i++) drop(&b[i]);
}

static void fours(void)
{
    uint64_t seed = 5;
    static float v[5][4097];
    const float *all[5] = {v[0], v[1], v[2], v[3], v[4]};
    static const size_t lengths[] = {1, 2, 3, 4, 5, 7, 8, 9, 15, 16, 17, 31, 32, 33, 100, 768, 4095, 4096};
    for (where = 0; where < sizeof lengths / sizeof *lengths; where++)
        for (uint32_t metric = 0; metric < 3; metric++) {
            size_t n = lengths[where], counts[5] = {n, n, n, n, n};
            for (size_t i = 0; i < 5 * n; i++) v[i / n][i % n] = (float)((int)(chance(&seed) % 20001) - 10000) / 257;
            four(metric, all, counts, 0);
            v[0][n - 1] = FLT_MAX, v[1][0] = -FLT_MAX, v[2][n / 2] = FLT_TRUE_MIN;
            four(metric, all, counts, 0);
            for (int i = 0; i < 5; i++) {
                counts[i]--, four(metric, all, counts, 16), counts[i]++;
                float kept = v[i][n - 1];
                v[i][n - 1] = NAN, four(metric, all, counts, 16), v[i][n - 1] = INFINITY, four(metric, all, counts, 16), v[i][n - 1] = kept;
                float old[4096];
                memcpy(old, v[i], 4 * n), memset(v[i], 0, 4 * n), v[i][0] = -0.0f;
                four(metric, all, counts, metric == PV_COSINE ? 16 : 0), memcpy(v[i], old, 4 * n);
            }
        }
    const size_t none[5] = {0}, over[5] = {4097, 4097, 4097, 4097, 4097}, two[5] = {2, 2, 2, 2, 2};
    for (size_t i = 0; i < 5 * 4097; i++) v[i / 4097][i % 4097] = 1;
    four(0, all, none, 16), four(0, all, over, 16), four(0, all, two, 0);
    four(3, all, two, 16), four(256, all, two, 16), four(257, all, two, 16), four(UINT32_MAX, all, two, 16);
    /* cosine of a vector with itself and with its opposite: a rounding below 0 or over 2 is held */
    const size_t trio[5] = {3, 3, 3, 3, 3};
    for (where = 0; where < (exact ? 300 : 3000); where++) {
        for (size_t i = 0; i < 3; i++) v[0][i] = (float)(1 + chance(&seed) % 10007) / 131, v[1][i] = v[2][i] = -v[0][i], v[3][i] = v[4][i] = v[0][i];
        four(PV_COSINE, all, trio, 0);
    }
    /* case f */
    double d[4];
    expect(pv_distance_four(2, (float[]){1}, 1, (float[]){0.0f}, 1, (float[]){-0.0f}, 1, (float[]){1}, 1, (float[]){-1}, 1, d) == 0, "case f");
    expect(d[0] == 0 && signbit(d[0]) && d[1] == 0 && !signbit(d[1]) && d[2] == -1 && d[3] == 1, "case f: -0, +0");
}

static void texts(void)
{
    expect(strcmp(pv_refusal_text(0), "no refusal") == 0, "0");
    for (where = 1; where < 25; where++) {
        const char *text = pv_refusal_text((uint32_t)where);
        expect(strcmp(text, "unknown number") != 0 && strlen(text) > 20 && strchr(text, '\n') == NULL, "a line of its own");
        for (uint32_t other = 0; other < where; other++) expect(strcmp(text, pv_refusal_text(other)) != 0, "two the same");
    }
    expect(strcmp(pv_refusal_text(25), "unknown number") == 0 && strcmp(pv_refusal_text(UINT32_MAX), "unknown number") == 0, "others");
}

int main(int argc, char **argv)
{
    exact = argc > 1 && strcmp(argv[1], "exact") == 0;
    if (exact) guard = 0;
    static const struct { const char *name; void (*test)(void); bool quick; } tests[] = {
        {"whole libraries", whole, true}, {"null at count 0", nulls, true}, {"damage", damages, true}, {"states", states, true},
        {"slices", slices, true}, {"bounds", bounds, true}, {"bounds of the manifest", manifest_bounds, true}, {"large", large, false}, {"lettered cases", cases, true}, {"ties", ties, true},
        {"libraries by chance", chance_libraries, true}, {"damage by chance", chance_damage, true}, {"four distances", fours, true},
        {"refusal texts", texts, true}};
    for (size_t i = 0; i < sizeof tests / sizeof *tests; i++)
        if (tests[i].quick || !exact) doing = tests[i].name, where = 0, tests[i].test();
    doing = "all", where = 0;
    size_t refusals = 0;
    for (size_t n = 1; n < 26; n++) {
        refusals += refused[n];
        bool shows = n < 24 && !(exact && (n == 8 || n == 19));
        where = n, expect(shows ? refused[n] > 0 : refused[n] == 0, shows ? "this number never shows" : "this number shows");
    }
    printf("%zu answers, %zu refusals of %d numbers, %d wrong\n", accepted, refusals, exact ? 21 : 23, wrong);
    return wrong != 0;
}
