/* Document 01 in plain C, without regard to speed or to how the archive does it. Each function follows a paragraph of the paper. */
#include "plain.h"

#include <math.h>
#include <stdbool.h>
#include <stdlib.h>
#include <string.h>

typedef struct { const uint8_t *at; size_t count; } bytes;

uint64_t plain_number(const uint8_t *b, size_t count)
{
    uint64_t v = 0;
    while (count > 0) v = v << 8 | b[--count];
    return v;
}

void plain_put(uint8_t *b, size_t count, uint64_t value)
{
    for (size_t i = 0; i < count; i++, value >>= 8) b[i] = (uint8_t)value;
}

uint32_t plain_crc(const uint8_t *b, size_t count)
{
    uint32_t crc = 0xffffffff;
    for (size_t i = 0; i < count; i++) {
        crc ^= b[i];
        for (int bit = 0; bit < 8; bit++) crc = crc >> 1 ^ (crc & 1 ? 0xedb88320 : 0);
    }
    return ~crc;
}

/* calloc that also answers where nothing is asked for. */
static void *zeros(size_t count, size_t size)
{
    void *p = calloc(count + 1, size);
    if (p == NULL) abort();
    return p;
}

static bool utf8(const uint8_t *b, size_t count)
{
    for (size_t i = 0; i < count;) {
        size_t more = b[i] < 0x80 ? 0 : b[i] < 0xc2 ? 9 : b[i] < 0xe0 ? 1 : b[i] < 0xf0 ? 2 : b[i] < 0xf5 ? 3 : 9;
        if (more == 9 || count - i <= more) return false;
        for (size_t j = 1; j <= more; j++)
            if (b[i + j] >> 6 != 2) return false;
        if (b[i] == 0xe0 && b[i + 1] < 0xa0) return false; /* longer than needed */
        if (b[i] == 0xed && b[i + 1] > 0x9f) return false; /* surrogates */
        if (b[i] == 0xf0 && b[i + 1] < 0x90) return false;
        if (b[i] == 0xf4 && b[i + 1] > 0x8f) return false; /* over 10ffff */
        i += 1 + more;
    }
    return true;
}

/* ---- The manifest. */

typedef struct { uint64_t generation, sequence, dimensions, m, ef, seed, metric, model, segments, rows; } fields;
typedef struct { uint64_t id, segment, offset, metadata; } entry;

/* The tests up to the counts and the whole length. */
static uint32_t head_number(bytes m, fields *f)
{
    if (m.count < 66 || m.count > 67108864 || memcmp(m.at, "VECGEN01", 8) != 0) return 1;
    f->generation = plain_number(m.at + 8, 8), f->sequence = plain_number(m.at + 16, 8);
    f->dimensions = plain_number(m.at + 24, 4), f->m = plain_number(m.at + 28, 4), f->ef = plain_number(m.at + 32, 4);
    f->seed = plain_number(m.at + 36, 8), f->metric = m.at[44], f->model = plain_number(m.at + 45, 4);
    if (f->metric > 2 || f->model < 1 || f->model > 512) return 2;
    size_t end = 49 + f->model, body = m.count - 4;
    if (end > body) return 1;
    if (!utf8(m.at + 49, f->model) || memchr(m.at + 49, 0, f->model) != NULL) return 2;
    if (f->dimensions < 1 || f->dimensions > 4096 || f->m < 2 || f->m > 64 || f->ef < f->m || f->ef > 4096) return 2;
    if (end + 12 > body) return 1;
    f->segments = plain_number(m.at + end, 4), f->rows = plain_number(m.at + end + 4, 8);
    if (f->generation == 0 || f->segments > 1024 || f->rows > 1000000 || (f->rows == 0) != (f->segments == 0)) return 1;
    return end + 12 + 12 * f->segments + 20 * f->rows == body ? 0 : 1;
}

static uint64_t segment_length(bytes m, const fields *f, uint64_t n) { return plain_number(m.at + 61 + f->model + 12 * n, 8); }

static bool segment_lengths(bytes m, const fields *f)
{
    for (uint64_t n = 0; n < f->segments; n++)
        if (segment_length(m, f, n) < 4 || segment_length(m, f, n) > 67108864) return false;
    return true;
}

static entry entry_of(bytes m, const fields *f, uint64_t row)
{
    const uint8_t *b = m.at + 61 + f->model + 12 * f->segments + 20 * row;
    return (entry){plain_number(b, 8), plain_number(b + 8, 4), plain_number(b + 12, 4), plain_number(b + 16, 4)};
}

static uint64_t record_bytes(const fields *f, entry e) { return 12 + 4 * f->dimensions + e.metadata; }

/* The first row that breaks the rising-id, segment, metadata or record-end rule, or the row count. */
static uint64_t bad_entry(bytes m, const fields *f)
{
    for (uint64_t row = 0; row < f->rows; row++) {
        entry e = entry_of(m, f, row);
        if (row > 0 && entry_of(m, f, row - 1).id >= e.id) return row;
        if (e.segment >= f->segments || e.metadata > 16384) return row;
        if (e.offset + record_bytes(f, e) > segment_length(m, f, e.segment) - 4) return row;
    }
    return f->rows;
}

/* The row of a segment that begins at an offset, or the row count. Two that do are not told apart here. */
static uint64_t row_at(bytes m, const fields *f, uint64_t segment, uint64_t offset)
{
    uint64_t row = 0;
    while (row < f->rows && (entry_of(m, f, row).segment != segment || entry_of(m, f, row).offset != offset)) row++;
    return row;
}

/* One record after the other through each segment, every row once. Where rows lie in their order, as in the tests of a million, none is
 * looked for. */
static bool tiles(bytes m, const fields *f)
{
    uint64_t seen = 0;
    for (uint64_t n = 0; n < f->segments; n++) {
        uint64_t at = 0;
        while (at != segment_length(m, f, n) - 4) {
            entry e = seen < f->rows ? entry_of(m, f, seen) : (entry){0, 0, 0, 0};
            uint64_t row = seen < f->rows && e.segment == n && e.offset == at ? seen : row_at(m, f, n, at);
            if (row == f->rows) return false;
            at += record_bytes(f, entry_of(m, f, row));
            seen++;
        }
        if (at == 0) return false;
    }
    return seen == f->rows;
}

static uint32_t manifest_number(bytes m, uint32_t expected, uint64_t *scratch, size_t room, fields *f)
{
    uint32_t number = head_number(m, f);
    if (number != 0) return number;
    if (!segment_lengths(m, f) || bad_entry(m, f) != f->rows) return 1;
    uint32_t stored = (uint32_t)plain_number(m.at + m.count - 4, 4);
    if (plain_crc(m.at, m.count - 4) != stored || stored != expected) return 3;
    if (room < f->rows) return 11;
    if (room > 0) memset(scratch, 0, room * sizeof *scratch);
    return tiles(m, f) ? 0 : 4;
}

/* Eleven numbers, `more` numbers of the state's own, the model. */
static void put_state(bytes m, const fields *f, const uint64_t *more, size_t count, uint8_t *out)
{
    uint64_t head[11] = {m.count, f->generation, f->sequence, f->dimensions, f->m, f->ef, f->seed, f->metric, f->model, f->segments, f->rows};
    for (size_t i = 0; i < 11; i++) plain_put(out + 8 * i, 8, head[i]);
    for (size_t i = 0; i < count; i++) plain_put(out + 88 + 8 * i, 8, more[i]);
    memset(out + 88 + 8 * count, 0, 512);
    memcpy(out + 88 + 8 * count, m.at + 49, f->model);
}

uint32_t plain_manifest_check(const uint8_t *manifest, size_t manifest_length, uint32_t expected_crc, uint64_t *scratch,
                              size_t scratch_length, pv_head *head, uint64_t *place)
{
    bytes m = {manifest, manifest_length};
    fields f;
    memset(head, 0, sizeof *head), *place = 0;
    uint32_t number = manifest_number(m, expected_crc, scratch, scratch_length, &f);
    if (number == 0) put_state(m, &f, NULL, 0, head->bytes);
    return number;
}

/* ---- Segments. */

static uint64_t record_start(bytes m, const fields *f, uint64_t row)
{
    entry e = entry_of(m, f, row);
    uint64_t start = e.offset;
    for (uint64_t n = 0; n < e.segment; n++) start += segment_length(m, f, n);
    return start;
}

static float float_at(const uint8_t *b)
{
    uint32_t bits = (uint32_t)plain_number(b, 4);
    float x;
    memcpy(&x, &bits, 4);
    return x;
}

static bool valid_vector(uint64_t metric, const float *v, size_t count)
{
    bool zero = true;
    for (size_t i = 0; i < count; i++) {
        if (!isfinite(v[i])) return false;
        zero = zero && v[i] == 0.0f;
    }
    return !(metric == PV_COSINE && zero);
}

static void coordinates(bytes m, const fields *f, bytes s, uint64_t row, float *out)
{
    for (uint64_t i = 0; i < f->dimensions; i++) out[i] = float_at(s.at + record_start(m, f, row) + 12 + 4 * i);
}

static bool record_ok(bytes m, const fields *f, bytes s, uint64_t row)
{
    entry e = entry_of(m, f, row);
    uint64_t start = record_start(m, f, row);
    if (start + record_bytes(f, e) > s.count) return false;
    if (plain_number(s.at + start, 8) != e.id || plain_number(s.at + start + 8, 4) != e.metadata) return false;
    float v[4096];
    coordinates(m, f, s, row, v);
    return valid_vector(f->metric, v, f->dimensions) && utf8(s.at + start + 12 + 4 * f->dimensions, e.metadata);
}

static uint32_t segments_number(bytes m, const fields *f, bytes s, uint64_t *place)
{
    uint64_t whole = 0;
    for (uint64_t n = 0; n < f->segments; n++) whole += segment_length(m, f, n);
    if (whole != s.count) return 5;
    const uint8_t *start = s.at;
    for (uint64_t n = 0; n < f->segments; n++) {
        uint64_t length = segment_length(m, f, n);
        for (uint64_t at = 0; at < length - 4;) {
            uint64_t row = row_at(m, f, n, at);
            *place = row;
            if (!record_ok(m, f, s, row)) return 5;
            at += record_bytes(f, entry_of(m, f, row));
        }
        *place = n;
        uint32_t crc = plain_crc(start, length - 4);
        if (crc != plain_number(start + length - 4, 4) || crc != plain_number(m.at + 61 + f->model + 12 * n + 8, 4)) return 6;
        start += length;
    }
    *place = 0;
    return 0;
}

uint32_t plain_library_check(const uint8_t *manifest, size_t manifest_length, uint32_t expected_crc, uint64_t *scratch,
                             size_t scratch_length, const uint8_t *segments, size_t segments_length, pv_head *head, uint64_t *place)
{
    bytes m = {manifest, manifest_length}, s = {segments, segments_length};
    fields f;
    memset(head, 0, sizeof *head), *place = 0;
    uint32_t number = manifest_number(m, expected_crc, scratch, scratch_length, &f);
    if (number == 0) number = segments_number(m, &f, s, place);
    if (number == 0) put_state(m, &f, NULL, 0, head->bytes);
    return number;
}

/* ---- Rows of codes. */

typedef struct { double scale; int64_t norm; } row_values;

static row_values encode(const float *v, size_t count, int8_t *codes)
{
    double most = 0;
    for (size_t i = 0; i < count; i++)
        if (fabs((double)v[i]) > most) most = fabs((double)v[i]);
    row_values r = {most == 0 ? 1.0 : most / 127, 0};
    for (size_t i = 0; i < count; i++) {
        double quotient = (double)v[i] / r.scale;
        int magnitude = 0;
        for (int point = 0; point < 127; point++) magnitude += point + 0.5 <= fabs(quotient);
        codes[i] = (int8_t)(quotient < 0 ? -magnitude : magnitude);
        r.norm += magnitude * magnitude;
    }
    return r;
}

static bool row_ok(uint64_t metric, row_values r, const int8_t *codes, size_t count)
{
    int64_t sum = 0;
    for (size_t i = 0; i < count; i++) {
        if (codes[i] == -128) return false;
        sum += codes[i] * codes[i];
    }
    return isfinite(r.scale) && r.scale > 0 && r.norm == sum && !(metric == PV_COSINE && sum == 0);
}

static double held(double x) { return x < 0 ? 0 : x > 2 ? 2 : x; }

static double approximate(uint64_t metric, row_values r, row_values q, int64_t dot)
{
    double norm = (double)r.norm, qnorm = (double)q.norm, d = (double)dot;
    if (metric == PV_COSINE) return held(1 - d / (sqrt(norm) * sqrt(qnorm)));
    if (metric == PV_INNER_PRODUCT) return ((-r.scale) * q.scale) * d;
    double x = ((r.scale * r.scale) * norm + (q.scale * q.scale) * qnorm) - ((2 * r.scale) * q.scale) * d;
    return x > 0 ? x : 0;
}

static double inverse_norm(const float *v, size_t count)
{
    double sum = -0.0;
    for (size_t i = 0; i < count; i++) sum += (double)v[i] * (double)v[i];
    double root = sqrt(sum);
    return root == 0 ? 0 : 1 / root;
}

static double original(uint64_t metric, const float *q, const float *v, size_t count)
{
    double sum = -0.0;
    for (size_t i = 0; i < count; i++) {
        double a = (double)q[i], b = (double)v[i];
        sum += metric == PV_SQUARED_L2 ? (a - b) * (a - b) : a * b;
    }
    if (metric == PV_SQUARED_L2) return sum;
    if (metric == PV_INNER_PRODUCT) return -sum;
    return held(1 - (sum * inverse_norm(q, count)) * inverse_norm(v, count));
}

/* ---- Caches and resident rows. */

static uint32_t sizing_number(bytes m, const fields *f, size_t platform, size_t root, size_t limit, size_t block, uint64_t *size)
{
    *size = 8 + platform + root + (m.count - 12) + 20 + f->rows * (f->dimensions + 16);
    if (platform > 64 || root > 1048576) return 10;
    if (limit < 1 || limit > 1073741824 || block < f->dimensions + 16 || block > 16777216) return 7;
    if (f->rows * f->dimensions > 536870912) return 8;
    return *size + 8 > limit ? 9 : 0;
}

uint32_t plain_cache_size(const uint8_t *manifest, size_t manifest_length, uint32_t expected_crc, uint64_t *scratch, size_t scratch_length,
                          const uint8_t *platform, size_t platform_length, const uint8_t *root, size_t root_length,
                          size_t max_cache_bytes, size_t buffer_bytes, uint64_t *size, uint64_t *place)
{
    bytes m = {manifest, manifest_length};
    fields f;
    (void)platform, (void)root;
    *size = 0, *place = 0;
    uint32_t number = manifest_number(m, expected_crc, scratch, scratch_length, &f);
    if (number == 0) number = sizing_number(m, &f, platform_length, root_length, max_cache_bytes, buffer_bytes, size);
    if (number != 0) *size = 0;
    return number;
}

/* The cache up to its rows; the count of bytes. */
static size_t put_cache_head(bytes m, bytes platform, bytes root, uint8_t *out)
{
    size_t identity = 8 + platform.count + root.count + (m.count - 12);
    uint8_t *at = out;
    memcpy(at, "VECSQ801", 8), plain_put(at + 8, 4, 1), plain_put(at + 12, 4, identity), at += 16;
    plain_put(at, 4, platform.count), at += 4;
    if (platform.count > 0) memcpy(at, platform.at, platform.count), at += platform.count;
    plain_put(at, 4, root.count), at += 4;
    if (root.count > 0) memcpy(at, root.at, root.count), at += root.count;
    memcpy(at, m.at + 8, m.count - 12);
    return 16 + identity;
}

static uint32_t lowest_bad_record(bytes m, const fields *f, bytes s, uint64_t *place)
{
    for (uint64_t row = 0; row < f->rows; row++)
        if (!record_ok(m, f, s, row)) {
            *place = row;
            return 5;
        }
    return 0;
}

uint32_t plain_cache_prepare(const uint8_t *manifest, size_t manifest_length, uint32_t expected_crc, uint64_t *scratch,
                             size_t scratch_length, const uint8_t *segments, size_t segments_length, const uint8_t *platform,
                             size_t platform_length, const uint8_t *root, size_t root_length, size_t max_cache_bytes,
                             size_t buffer_bytes, uint8_t *cache, size_t cache_length, pv_info *info, uint64_t *place)
{
    bytes m = {manifest, manifest_length}, s = {segments, segments_length}, p = {platform, platform_length}, r = {root, root_length};
    fields f;
    uint64_t size = 0;
    memset(info, 0, sizeof *info), *place = 0;
    uint32_t number = manifest_number(m, expected_crc, scratch, scratch_length, &f);
    if (number == 0) number = sizing_number(m, &f, platform_length, root_length, max_cache_bytes, buffer_bytes, &size);
    if (number == 0 && cache_length < size) number = 11;
    if (number == 0) number = lowest_bad_record(m, &f, s, place);
    if (number != 0) return number;
    size_t at = put_cache_head(m, p, r, cache);
    for (uint64_t row = 0; row < f.rows; row++, at += f.dimensions + 16) {
        float v[4096];
        int8_t codes[4096];
        coordinates(m, &f, s, row, v);
        row_values e = encode(v, f.dimensions, codes);
        uint64_t bits;
        memcpy(&bits, &e.scale, 8);
        plain_put(cache + at, 8, bits), plain_put(cache + at + 8, 8, (uint64_t)e.norm), memcpy(cache + at + 16, codes, f.dimensions);
    }
    plain_put(cache + at, 4, plain_crc(cache, at));
    *info = (pv_info){f.generation, f.sequence, size, f.rows * f.dimensions, f.rows * 16};
    return 0;
}

/* Where the rows lie, counted from the end of the cache, and one of them. */
static row_values cached_row(bytes c, const fields *f, uint64_t row, int8_t *codes)
{
    const uint8_t *b = c.at + c.count - 4 - (f->rows - row) * (f->dimensions + 16);
    uint64_t bits = plain_number(b, 8);
    row_values r;
    memcpy(&r.scale, &bits, 8), bits = plain_number(b + 8, 8), memcpy(&r.norm, &bits, 8), memcpy(codes, b + 16, f->dimensions);
    return r;
}

static uint32_t cache_number(bytes m, const fields *f, bytes c, bytes platform, bytes root, uint64_t size, uint64_t *place)
{
    if (c.count != size || memcmp(c.at, "VECSQ801", 8) != 0 || plain_number(c.at + 8, 4) != 1) return 12;
    uint8_t *head = zeros(size, 1);
    size_t count = put_cache_head(m, platform, root, head);
    int other = memcmp(c.at, head, count);
    free(head);
    if (other != 0) return 13;
    for (uint64_t row = 0; row < f->rows; row++) {
        int8_t codes[4096];
        row_values r = cached_row(c, f, row, codes);
        *place = row;
        if (!row_ok(f->metric, r, codes, f->dimensions)) return 14;
    }
    *place = 0;
    return plain_crc(c.at, c.count - 4) == plain_number(c.at + c.count - 4, 4) ? 0 : 15;
}

uint32_t plain_cache_open(const uint8_t *manifest, size_t manifest_length, uint32_t expected_crc, uint64_t *scratch, size_t scratch_length,
                          const uint8_t *cache, size_t cache_length, const uint8_t *platform, size_t platform_length,
                          const uint8_t *root, size_t root_length, size_t max_cache_bytes, size_t buffer_bytes, pv_cache_state *state,
                          uint64_t *place)
{
    bytes m = {manifest, manifest_length}, c = {cache, cache_length}, p = {platform, platform_length}, r = {root, root_length};
    fields f;
    uint64_t size = 0;
    memset(state, 0, sizeof *state), *place = 0;
    uint32_t number = manifest_number(m, expected_crc, scratch, scratch_length, &f);
    if (number == 0) number = sizing_number(m, &f, platform_length, root_length, max_cache_bytes, buffer_bytes, &size);
    if (number == 0) number = cache_number(m, &f, c, p, r, size, place);
    if (number == 0) put_state(m, &f, &(uint64_t){cache_length}, 1, state->bytes);
    return number;
}

uint32_t plain_resident_build(const uint8_t *manifest, size_t manifest_length, uint32_t expected_crc, uint64_t *scratch,
                              size_t scratch_length, const uint8_t *segments, size_t segments_length, int8_t *codes, size_t codes_length,
                              double *scales, size_t scales_length, int64_t *norms, size_t norms_length, pv_resident_state *state,
                              uint64_t *place)
{
    bytes m = {manifest, manifest_length}, s = {segments, segments_length};
    fields f;
    memset(state, 0, sizeof *state), *place = 0;
    uint32_t number = manifest_number(m, expected_crc, scratch, scratch_length, &f);
    if (number == 0 && f.rows * f.dimensions > 536870912) number = 8;
    if (number == 0 && (codes_length < f.rows * f.dimensions || scales_length < f.rows || norms_length < f.rows)) number = 11;
    if (number == 0) number = lowest_bad_record(m, &f, s, place);
    if (number != 0) return number;
    for (uint64_t row = 0; row < f.rows; row++) {
        float v[4096];
        coordinates(m, &f, s, row, v);
        row_values r = encode(v, f.dimensions, codes + row * f.dimensions);
        scales[row] = r.scale, norms[row] = r.norm;
    }
    put_state(m, &f, (uint64_t[]){codes_length, scales_length, norms_length}, 3, state->bytes);
    return 0;
}

/* ---- Searches. */

typedef struct {
    bool agreement, resident, by_ids;
    const uint8_t *head, *model; /* of the state: its eleven numbers, its model */
    uint64_t lengths_opened[3];
    bytes m, s, c;
    const int8_t *codes;
    const double *scales;
    const int64_t *norms;
    size_t lengths_lent[3];
    const uint64_t *wanted;
    size_t wanted_count, k, limit, query_count;
    const float *query;
    uint64_t *work[3]; /* keys, candidates, id_work */
    size_t work_count[3];
    uint64_t *ids, *rows, *starts;
    double *distances;
    uint32_t *lengths;
    size_t answer_count[5];
} search;

typedef struct { uint64_t key, id, row; double distance; } ranked;

/* totalOrder of finite numbers as an order of whole ones. */
static uint64_t key_of(double x)
{
    uint64_t bits;
    memcpy(&bits, &x, 8);
    return bits >> 63 ? ~bits : bits | (uint64_t)1 << 63;
}

static int by_order(const void *a, const void *b)
{
    const ranked *x = a, *y = b;
    if (x->key != y->key) return x->key < y->key ? -1 : 1;
    return (x->id > y->id) - (x->id < y->id);
}

static int by_row(const void *a, const void *b)
{
    const ranked *x = a, *y = b;
    return (x->row > y->row) - (x->row < y->row);
}

static void sort(ranked *r, size_t count, int (*order)(const void *, const void *)) { qsort(r, count, sizeof *r, order); }

static bool head_same(const search *c, fields *f)
{
    uint8_t state[600];
    if (head_number(c->m, f) != 0 || !segment_lengths(c->m, f)) return false;
    put_state(c->m, f, NULL, 0, state);
    return memcmp(state, c->head, 88) == 0 && memcmp(state + 88, c->model, 512) == 0;
}

static bool eligible_id(const search *c, uint64_t id)
{
    bool found = !c->by_ids;
    for (size_t i = 0; i < c->wanted_count && !found; i++) found = c->wanted[i] == id;
    return found;
}

static bool rows_length_ok(const search *c, const fields *f)
{
    if (!c->resident)
        return c->c.count == c->lengths_opened[0] && c->c.count >= 4 + f->rows * (f->dimensions + 16);
    for (int i = 0; i < 3; i++)
        if (c->lengths_lent[i] != c->lengths_opened[i] || c->lengths_lent[i] < f->rows * (i == 0 ? f->dimensions : 1)) return false;
    return true;
}

/* The exact distances of rows, by rising row. */
static uint32_t measure(const search *c, const fields *f, ranked *r, size_t count, uint64_t *place)
{
    sort(r, count, by_row);
    for (size_t i = 0; i < count; i++) {
        float v[4096];
        *place = r[i].row;
        if (!record_ok(c->m, f, c->s, r[i].row)) return 23;
        coordinates(c->m, f, c->s, r[i].row, v);
        r[i].distance = original(f->metric, c->query, v, f->dimensions);
        if (!isfinite(r[i].distance)) return 24;
        r[i].key = key_of(r[i].distance);
    }
    sort(r, count, by_order);
    *place = 0;
    return 0;
}

/* From the lengths of the rows on: the list, in `kept`, and the exact list, in `all`, which is measured for an agreement count only. */
static uint32_t listed(const search *c, const fields *f, ranked *all, ranked *kept, size_t *measured, uint64_t *place)
{
    if (!rows_length_ok(c, f)) return 21;
    int8_t query_codes[4096], codes[4096];
    row_values q = encode(c->query, f->dimensions, query_codes);
    size_t eligible = 0;
    for (uint64_t row = 0; row < f->rows; row++) {
        row_values r;
        if (c->resident) {
            r = (row_values){c->scales[row], c->norms[row]};
            memcpy(codes, c->codes + row * f->dimensions, f->dimensions);
        } else {
            r = cached_row(c->c, f, row, codes);
        }
        *place = row;
        if (!row_ok(f->metric, r, codes, f->dimensions)) return 21;
        uint64_t id = entry_of(c->m, f, row).id;
        if (!eligible_id(c, id)) continue;
        int64_t dot = 0;
        for (uint64_t i = 0; i < f->dimensions; i++) dot += codes[i] * query_codes[i];
        double distance = approximate(f->metric, r, q, dot);
        if (!isfinite(distance)) return 22;
        all[eligible++] = (ranked){key_of(distance), id, row, distance};
    }
    *place = 0;
    sort(all, eligible, by_order);
    *measured = c->limit < eligible ? c->limit : eligible;
    memcpy(kept, all, *measured * sizeof *kept);
    uint32_t number = c->agreement ? measure(c, f, all, eligible, place) : 0;
    return number != 0 ? number : measure(c, f, kept, *measured, place);
}

static uint32_t searched(const search *c, pv_report *report, uint64_t *agreement, uint64_t *place)
{
    fields f;
    if (c->by_ids && c->wanted_count > 1000000) return 19;
    if (!head_same(c, &f)) return 21;
    if (c->query_count != f.dimensions || !valid_vector(f.metric, c->query, c->query_count)) return 16;
    if (c->k > 10000) return 17;
    if (c->limit < c->k || c->limit > 65536) return 18;
    for (int i = 0; i < 5; i++)
        if (c->answer_count[i] < (c->k < f.rows ? c->k : f.rows)) return 20;
    for (int i = 0; i < 2; i++)
        if (c->work_count[i] < (c->limit < f.rows ? c->limit : f.rows)) return 20;
    if (c->work_count[2] < c->wanted_count) return 20;
    for (int i = 0; i < 3; i++)
        if (c->work_count[i] > 0) memset(c->work[i], 0, c->work_count[i] * 8);
    uint64_t bad = bad_entry(c->m, &f);
    if (bad != f.rows) {
        *place = bad;
        return 21;
    }
    size_t eligible = 0, measured = 0, count = 0;
    for (uint64_t row = 0; row < f.rows; row++) eligible += eligible_id(c, entry_of(c->m, &f, row).id);
    ranked *all = zeros(f.rows, sizeof *all), *kept = zeros(f.rows, sizeof *kept);
    uint32_t number = 0;
    if (c->k > 0) {
        number = listed(c, &f, all, kept, &measured, place);
        count = c->k < eligible ? c->k : eligible;
    }
    for (size_t i = 0; number == 0 && i < count; i++) {
        entry e = entry_of(c->m, &f, kept[i].row);
        c->ids[i] = kept[i].id, c->distances[i] = kept[i].distance, c->rows[i] = kept[i].row;
        c->starts[i] = record_start(c->m, &f, kept[i].row) + 12 + 4 * f.dimensions, c->lengths[i] = (uint32_t)e.metadata;
        *agreement += kept[i].id == all[i].id;
    }
    if (number == 0)
        *report = (pv_report){f.generation, f.sequence, eligible, measured, 1, c->k > 0 && c->limit < eligible, count};
    free(all), free(kept);
    return number;
}

/* The eight calls: what they take, and how they begin and end. */
#define CACHED const pv_cache_state *state, const uint8_t *manifest, size_t manifest_length, const uint8_t *segments, size_t segments_length, \
    const uint8_t *cache, size_t cache_length
#define RESIDENT const pv_resident_state *state, const uint8_t *manifest, size_t manifest_length, const uint8_t *segments, \
    size_t segments_length, const int8_t *codes, size_t codes_length, const double *scales, size_t scales_length, const int64_t *norms, \
    size_t norms_length
#define IDS const uint64_t *wanted, size_t wanted_length, uint64_t *id_work, size_t id_work_length
#define REST const float *query, size_t query_length, size_t k, size_t limit, uint64_t *keys, size_t keys_length, uint64_t *candidates, \
    size_t candidates_length, uint64_t *ids, size_t ids_length, double *distances, size_t distances_length, uint64_t *rows, \
    size_t rows_length, uint64_t *starts, size_t starts_length, uint32_t *lengths, size_t lengths_length

#define SEARCH(is_agreement) \
    search c = {0}; \
    c.agreement = is_agreement, c.head = state->bytes; \
    c.m = (bytes){manifest, manifest_length}, c.s = (bytes){segments, segments_length}; \
    c.query = query, c.query_count = query_length, c.k = k, c.limit = limit; \
    c.work[0] = keys, c.work_count[0] = keys_length, c.work[1] = candidates, c.work_count[1] = candidates_length; \
    c.ids = ids, c.distances = distances, c.rows = rows, c.starts = starts, c.lengths = lengths; \
    c.answer_count[0] = ids_length, c.answer_count[1] = distances_length, c.answer_count[2] = rows_length; \
    c.answer_count[3] = starts_length, c.answer_count[4] = lengths_length
#define OVER_CACHE \
    c.model = state->bytes + 96, c.lengths_opened[0] = plain_number(state->bytes + 88, 8); \
    c.c = (bytes){cache, cache_length}
#define OVER_RESIDENT \
    c.resident = true, c.model = state->bytes + 112, c.codes = codes, c.scales = scales, c.norms = norms; \
    for (size_t i = 0; i < 3; i++) c.lengths_opened[i] = plain_number(state->bytes + 88 + 8 * i, 8); \
    c.lengths_lent[0] = codes_length, c.lengths_lent[1] = scales_length, c.lengths_lent[2] = norms_length
#define BY_IDS \
    c.by_ids = true, c.wanted = wanted, c.wanted_count = wanted_length, c.work[2] = id_work, c.work_count[2] = id_work_length
#define REPORT \
    uint64_t agreement = 0; \
    memset(report, 0, sizeof *report), *place = 0; \
    return searched(&c, report, &agreement, place)
#define AGREEMENT \
    pv_report report; \
    *agreement = 0, *place = 0; \
    return searched(&c, &report, agreement, place)

uint32_t plain_search_cached(CACHED, REST, pv_report *report, uint64_t *place) { SEARCH(false); OVER_CACHE; REPORT; }
uint32_t plain_search_cached_ids(CACHED, IDS, REST, pv_report *report, uint64_t *place) { SEARCH(false); OVER_CACHE; BY_IDS; REPORT; }
uint32_t plain_search_resident(RESIDENT, REST, pv_report *report, uint64_t *place) { SEARCH(false); OVER_RESIDENT; REPORT; }
uint32_t plain_search_resident_ids(RESIDENT, IDS, REST, pv_report *report, uint64_t *place) { SEARCH(false); OVER_RESIDENT; BY_IDS; REPORT; }
uint32_t plain_agreement_cached(CACHED, REST, uint64_t *agreement, uint64_t *place) { SEARCH(true); OVER_CACHE; AGREEMENT; }
uint32_t plain_agreement_cached_ids(CACHED, IDS, REST, uint64_t *agreement, uint64_t *place) { SEARCH(true); OVER_CACHE; BY_IDS; AGREEMENT; }
uint32_t plain_agreement_resident(RESIDENT, REST, uint64_t *agreement, uint64_t *place) { SEARCH(true); OVER_RESIDENT; AGREEMENT; }
uint32_t plain_agreement_resident_ids(RESIDENT, IDS, REST, uint64_t *agreement, uint64_t *place) { SEARCH(true); OVER_RESIDENT; BY_IDS; AGREEMENT; }

/* ---- Distances and records. */

uint32_t plain_distance_four(uint32_t metric, const float *query, size_t query_length, const float *a, size_t a_length, const float *b,
                             size_t b_length, const float *c, size_t c_length, const float *d, size_t d_length, double distances[4])
{
    const float *v[5] = {a, b, c, d, query};
    size_t counts[5] = {a_length, b_length, c_length, d_length, query_length};
    bool ok = metric <= 2 && query_length >= 1 && query_length <= 4096;
    for (int i = 0; i < 5; i++) ok = ok && counts[i] == query_length && valid_vector(metric, v[i], counts[i]);
    for (int i = 0; i < 4; i++) distances[i] = ok ? original(metric, query, v[i], query_length) : 0;
    return ok ? 0 : 16;
}

uint32_t plain_records(const uint64_t *ids, size_t ids_length, const double *distances, size_t distances_length, const uint64_t *rows,
                       size_t rows_length, size_t count, pv_record *out, size_t out_length)
{
    if (count > ids_length || count > distances_length || count > rows_length || count > out_length) return 20;
    for (size_t i = 0; i < count; i++) out[i] = (pv_record){distances[i], ids[i], rows[i]};
    return 0;
}
