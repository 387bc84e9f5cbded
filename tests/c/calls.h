/* One call of any function with everything that it writes in blocks of their own, and what came of it. */
#ifndef CALLS_H
#define CALLS_H

#include "library.h"

#include <stdbool.h>

enum { CHECK_MANIFEST, CHECK_LIBRARY, SIZE, PREPARE, OPEN, BUILD, CACHED, CACHED_IDS, RESIDENT, RESIDENT_IDS, AGREEMENT_CACHED,
       AGREEMENT_CACHED_IDS, AGREEMENT_RESIDENT, AGREEMENT_RESIDENT_IDS, CALLS };
#define FIRST_SEARCH CACHED
#define FIRST_AGREEMENT AGREEMENT_CACHED

static const char *const call_names[CALLS] = {"pv_manifest_check", "pv_library_check", "pv_cache_size", "pv_cache_prepare", "pv_cache_open",
    "pv_resident_build", "pv_search_cached", "pv_search_cached_ids", "pv_search_resident", "pv_search_resident_ids", "pv_agreement_cached",
    "pv_agreement_cached_ids", "pv_agreement_resident", "pv_agreement_resident_ids"};

static inline bool over_cache(int f) { return f == CACHED || f == CACHED_IDS || f == AGREEMENT_CACHED || f == AGREEMENT_CACHED_IDS; }
static inline bool takes_ids(int f) { return f >= FIRST_SEARCH && (f - FIRST_SEARCH) % 2 == 1; }

/* The archive's functions, or the plain ones. */
typedef struct {
    __typeof__(pv_manifest_check) *manifest_check;
    __typeof__(pv_library_check) *library_check;
    __typeof__(pv_cache_size) *cache_size;
    __typeof__(pv_cache_prepare) *cache_prepare;
    __typeof__(pv_cache_open) *cache_open;
    __typeof__(pv_resident_build) *resident_build;
    __typeof__(pv_search_cached) *search_cached;
    __typeof__(pv_search_cached_ids) *search_cached_ids;
    __typeof__(pv_search_resident) *search_resident;
    __typeof__(pv_search_resident_ids) *search_resident_ids;
    __typeof__(pv_agreement_cached) *agreement_cached;
    __typeof__(pv_agreement_cached_ids) *agreement_cached_ids;
    __typeof__(pv_agreement_resident) *agreement_resident;
    __typeof__(pv_agreement_resident_ids) *agreement_resident_ids;
} functions;

#define FUNCTIONS(prefix) {prefix##_manifest_check, prefix##_library_check, prefix##_cache_size, prefix##_cache_prepare, \
    prefix##_cache_open, prefix##_resident_build, prefix##_search_cached, prefix##_search_cached_ids, prefix##_search_resident, \
    prefix##_search_resident_ids, prefix##_agreement_cached, prefix##_agreement_cached_ids, prefix##_agreement_resident, \
    prefix##_agreement_resident_ids}

static const functions archive = FUNCTIONS(pv), plain = FUNCTIONS(plain);

/* What is lent: the bytes that are read, and the element counts of what is written. */
typedef struct {
    block manifest, segments, cache, platform, root, codes, scales, norms, query, wanted;
    uint32_t crc;
    size_t max_cache_bytes, buffer_bytes, k, limit;
    pv_cache_state cached;
    pv_resident_state resident;
    size_t scratch, cache_room, codes_room, scales_room, norms_room, keys, candidates, id_work, answers[5];
} call;

enum { RESULT, KEPT, WORK, SCRATCH }; /* zero on a refusal; as it was on a refusal; the working slices; the scratch */
enum { ANSWERS = 2 };                 /* of a search: where the five answer slices begin among what is written */

typedef struct { int kind; uint8_t *start, *at; size_t count; } written;
typedef struct { uint32_t number; uint64_t place; written out[10]; int count; } outcome;

/* Bytes of canary before and behind what is written. 0 under valgrind, which watches the ends of exact blocks itself. */
static size_t guard = 64;

static inline uint8_t fill_at(size_t i) { return (uint8_t)(0x5a + 37 * i); }

static inline void *lend(outcome *o, int kind, size_t count)
{
    size_t whole = count + 2 * guard;
    written *w = &o->out[o->count++];
    *w = (written){kind, NULL, NULL, count};
    if (whole == 0) return NULL;
    w->start = malloc(whole), w->at = w->start + guard;
    if (w->start == NULL) { perror("memory"); exit(2); }
    for (size_t i = 0; i < whole; i++) w->start[i] = fill_at(i);
    return w->at;
}

/* Whether what was written is all zero, as it was before from an element on, or whether its canaries live. */
static inline bool all_zero(const written *w)
{
    for (size_t i = 0; i < w->count; i++)
        if (w->at[i] != 0) return false;
    return true;
}
static inline bool as_it_was(const written *w, size_t from)
{
    for (size_t i = from; i < w->count; i++)
        if (w->at[i] != fill_at(guard + i)) return false;
    return true;
}
static inline bool canaries(const written *w)
{
    for (size_t i = 0; i < guard; i++)
        if (w->start[i] != fill_at(i) || w->at[w->count + i] != fill_at(guard + w->count + i)) return false;
    return true;
}

static inline void release(outcome *o)
{
    for (int i = 0; i < o->count; i++) free(o->out[i].start);
    o->count = 0;
}

#define BYTES(b) (b).at, (b).count
#define AS(type, b) (const type *)(const void *)(b).at, (b).count / sizeof(type)

#define LIBRARY_ARGUMENTS BYTES(c->manifest), c->crc, scratch, c->scratch
#define SIZING_ARGUMENTS BYTES(c->platform), BYTES(c->root), c->max_cache_bytes, c->buffer_bytes
#define CACHED_ARGUMENTS &c->cached, BYTES(c->manifest), BYTES(c->segments), BYTES(c->cache)
#define RESIDENT_ARGUMENTS &c->resident, BYTES(c->manifest), BYTES(c->segments), AS(int8_t, c->codes), AS(double, c->scales), AS(int64_t, c->norms)
#define ID_ARGUMENTS AS(uint64_t, c->wanted), id_work, c->id_work
#define SEARCH_ARGUMENTS AS(float, c->query), c->k, c->limit, keys, c->keys, candidates, c->candidates, ids, c->answers[0], distances, \
    c->answers[1], rows, c->answers[2], starts, c->answers[3], lengths, c->answers[4]

static inline void run_search(const functions *a, int f, const call *c, outcome *o)
{
    pv_report *report = lend(o, RESULT, f < FIRST_AGREEMENT ? sizeof(pv_report) : sizeof(uint64_t));
    uint64_t *agreement = (uint64_t *)(void *)report;
    uint64_t *place = lend(o, RESULT, 8);
    uint64_t *ids = lend(o, KEPT, 8 * c->answers[0]);
    double *distances = lend(o, KEPT, 8 * c->answers[1]);
    uint64_t *rows = lend(o, KEPT, 8 * c->answers[2]), *starts = lend(o, KEPT, 8 * c->answers[3]);
    uint32_t *lengths = lend(o, KEPT, 4 * c->answers[4]);
    uint64_t *keys = lend(o, WORK, 8 * c->keys), *candidates = lend(o, WORK, 8 * c->candidates);
    uint64_t *id_work = takes_ids(f) ? lend(o, WORK, 8 * c->id_work) : NULL;
    switch (f) {
    case CACHED: o->number = a->search_cached(CACHED_ARGUMENTS, SEARCH_ARGUMENTS, report, place); break;
    case CACHED_IDS: o->number = a->search_cached_ids(CACHED_ARGUMENTS, ID_ARGUMENTS, SEARCH_ARGUMENTS, report, place); break;
    case RESIDENT: o->number = a->search_resident(RESIDENT_ARGUMENTS, SEARCH_ARGUMENTS, report, place); break;
    case RESIDENT_IDS: o->number = a->search_resident_ids(RESIDENT_ARGUMENTS, ID_ARGUMENTS, SEARCH_ARGUMENTS, report, place); break;
    case AGREEMENT_CACHED: o->number = a->agreement_cached(CACHED_ARGUMENTS, SEARCH_ARGUMENTS, agreement, place); break;
    case AGREEMENT_CACHED_IDS: o->number = a->agreement_cached_ids(CACHED_ARGUMENTS, ID_ARGUMENTS, SEARCH_ARGUMENTS, agreement, place); break;
    case AGREEMENT_RESIDENT: o->number = a->agreement_resident(RESIDENT_ARGUMENTS, SEARCH_ARGUMENTS, agreement, place); break;
    default: o->number = a->agreement_resident_ids(RESIDENT_ARGUMENTS, ID_ARGUMENTS, SEARCH_ARGUMENTS, agreement, place); break;
    }
    o->place = *place;
}

static inline void run(const functions *a, int f, const call *c, outcome *o)
{
    o->count = 0;
    if (f >= FIRST_SEARCH) {
        run_search(a, f, c, o);
        return;
    }
    size_t result[FIRST_SEARCH] = {PV_HEAD_BYTES, PV_HEAD_BYTES, 8, sizeof(pv_info), PV_CACHE_STATE_BYTES, PV_RESIDENT_STATE_BYTES};
    void *answer = lend(o, RESULT, result[f]);
    uint64_t *place = lend(o, RESULT, 8), *scratch = lend(o, SCRATCH, 8 * c->scratch);
    uint8_t *cache = f == PREPARE ? lend(o, KEPT, c->cache_room) : NULL;
    int8_t *codes = f == BUILD ? lend(o, KEPT, c->codes_room) : NULL;
    double *scales = f == BUILD ? lend(o, KEPT, 8 * c->scales_room) : NULL;
    int64_t *norms = f == BUILD ? lend(o, KEPT, 8 * c->norms_room) : NULL;
    switch (f) {
    case CHECK_MANIFEST: o->number = a->manifest_check(LIBRARY_ARGUMENTS, answer, place); break;
    case CHECK_LIBRARY: o->number = a->library_check(LIBRARY_ARGUMENTS, BYTES(c->segments), answer, place); break;
    case SIZE: o->number = a->cache_size(LIBRARY_ARGUMENTS, SIZING_ARGUMENTS, answer, place); break;
    case PREPARE: o->number = a->cache_prepare(LIBRARY_ARGUMENTS, BYTES(c->segments), SIZING_ARGUMENTS, cache, c->cache_room, answer, place); break;
    case OPEN: o->number = a->cache_open(LIBRARY_ARGUMENTS, BYTES(c->cache), SIZING_ARGUMENTS, answer, place); break;
    default: o->number = a->resident_build(LIBRARY_ARGUMENTS, BYTES(c->segments), codes, c->codes_room, scales, c->scales_room, norms,
                                           c->norms_room, answer, place); break;
    }
    o->place = *place;
}

static inline bool same_outcome(const outcome *a, const outcome *b)
{
    if (a->number != b->number || a->place != b->place || a->count != b->count) return false;
    for (int i = 0; i < a->count; i++)
        if (a->out[i].count > 0 && memcmp(a->out[i].at, b->out[i].at, a->out[i].count) != 0) return false;
    return true;
}

/* A call of a whole library: prepared, opened and built by the archive, with slices as long as its rows need. */
static inline call whole_call(library l, const float *query, size_t k, size_t limit, const uint64_t *wanted, size_t wanted_count)
{
    call c = {0};
    size_t dimensions = plain_number(l.manifest.at + 24, 4), rows = plain_number(l.manifest.at + 53 + plain_number(l.manifest.at + 45, 4), 8);
    uint64_t size = 0;
    uint32_t refused = 0;
    outcome o;
    c.manifest = l.manifest, c.segments = l.segments, c.crc = crc_of(l.manifest);
    c.platform = copy_of("linux", 5), c.root = copy_of("/s", 2);
    c.query = copy_of(query, 4 * dimensions), c.wanted = copy_of(wanted, 8 * wanted_count);
    c.max_cache_bytes = PV_DEFAULT_MAX_CACHE_BYTES, c.buffer_bytes = PV_DEFAULT_BUFFER_BYTES, c.k = k, c.limit = limit;
    c.scratch = c.scales_room = c.norms_room = rows, c.codes_room = rows * dimensions;
    c.keys = c.candidates = limit < rows ? limit : rows, c.id_work = wanted_count;
    for (int i = 0; i < 5; i++) c.answers[i] = k < rows ? k : rows;
    run(&archive, SIZE, &c, &o);
    memcpy(&size, o.out[0].at, 8), release(&o);
    c.cache_room = size;
    run(&archive, PREPARE, &c, &o);
    c.cache = copy_of(o.out[3].at, size), refused |= o.number, release(&o);
    run(&archive, BUILD, &c, &o);
    memcpy(&c.resident, o.out[0].at, sizeof c.resident), refused |= o.number;
    c.codes = copy_of(o.out[3].at, o.out[3].count), c.scales = copy_of(o.out[4].at, o.out[4].count);
    c.norms = copy_of(o.out[5].at, o.out[5].count), release(&o);
    run(&archive, OPEN, &c, &o);
    memcpy(&c.cached, o.out[0].at, sizeof c.cached), refused |= o.number, release(&o);
    if (refused != 0) { printf("a whole library is refused\n"); exit(1); }
    return c;
}

/* A call of a library that a check may refuse: nothing is prepared, and what is written has room for some rows. */
static inline call bare_call(library l, size_t rows)
{
    call c = {0};
    c.manifest = l.manifest, c.segments = l.segments, c.crc = crc_of(l.manifest), c.scratch = rows;
    return c;
}

/* The buffers that are only read. */
#define READ 10
static inline void read_blocks(call *c, block *all[READ])
{
    block *const blocks[READ] = {&c->manifest, &c->segments, &c->cache, &c->platform, &c->root, &c->codes, &c->scales, &c->norms, &c->query, &c->wanted};
    memcpy(all, blocks, sizeof blocks);
}

static inline void drop_call(call *c)
{
    block *all[READ];
    read_blocks(c, all);
    for (size_t i = 0; i < READ; i++) drop(all[i]);
}

#endif
