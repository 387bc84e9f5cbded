/* Small libraries for the tests, written field by field after document 01's layouts, and the checksums of damaged ones made right again. */
#ifndef LIBRARY_H
#define LIBRARY_H

#include "plain.h"

#include <stdio.h>
#include <stdlib.h>
#include <string.h>

/* A heap block of exactly its bytes; null where it has none. */
typedef struct { uint8_t *at; size_t count; } block;

static inline block new_block(size_t count)
{
    block b = {NULL, count};
    if (count > 0 && (b.at = calloc(count, 1)) == NULL) { perror("memory"); exit(2); }
    return b;
}

static inline block copy_of(const void *from, size_t count)
{
    block b = new_block(count);
    if (count > 0) memcpy(b.at, from, count);
    return b;
}

static inline void drop(block *b) { free(b->at), *b = (block){NULL, 0}; }

static inline void seal(block b) { plain_put(b.at + b.count - 4, 4, plain_crc(b.at, b.count - 4)); }

/* A manifest ends in its CRC-32, which is also the one expected. */
static inline uint32_t crc_of(block m) { return m.count < 4 ? 0 : (uint32_t)plain_number(m.at + m.count - 4, 4); }

typedef struct { uint64_t id; uint32_t segment; const char *metadata; const float *v; } row;
typedef struct { block manifest, segments; } library;

/* Of rows by rising id. Within a segment the last row lies first, so that the order of ids is not that of offsets. */
static inline library make_library(uint8_t metric, size_t dimensions, const char *model, size_t segments, const row *rows, size_t count)
{
    size_t name = strlen(model), bytes = 4 * segments;
    for (size_t r = 0; r < count; r++) bytes += 12 + 4 * dimensions + strlen(rows[r].metadata);
    library l = {new_block(65 + name + 12 * segments + 20 * count), new_block(bytes)};
    uint8_t *m = l.manifest.at, *table = m + 61 + name, *entries = table + 12 * segments, *s = l.segments.at;
    memcpy(m, "VECGEN01", 8), plain_put(m + 8, 8, 3), plain_put(m + 16, 8, 7), plain_put(m + 24, 4, dimensions), plain_put(m + 28, 4, 16);
    plain_put(m + 32, 4, 200), plain_put(m + 36, 8, 42), m[44] = metric, plain_put(m + 45, 4, name), memcpy(m + 49, model, name);
    plain_put(m + 49 + name, 4, segments), plain_put(m + 53 + name, 8, count);
    for (size_t n = 0; n < segments; n++) {
        uint8_t *start = s;
        for (size_t r = count; r-- > 0;) {
            if (rows[r].segment != n) continue;
            size_t metadata = strlen(rows[r].metadata);
            plain_put(entries + 20 * r, 8, rows[r].id), plain_put(entries + 20 * r + 8, 4, n);
            plain_put(entries + 20 * r + 12, 4, (uint64_t)(s - start)), plain_put(entries + 20 * r + 16, 4, metadata);
            plain_put(s, 8, rows[r].id), plain_put(s + 8, 4, metadata), s += 12;
            memcpy(s, rows[r].v, 4 * dimensions), s += 4 * dimensions;
            memcpy(s, rows[r].metadata, metadata), s += metadata;
        }
        uint32_t crc = plain_crc(start, (size_t)(s - start));
        plain_put(s, 4, crc), s += 4;
        plain_put(table + 12 * n, 8, (uint64_t)(s - start)), plain_put(table + 12 * n + 8, 4, crc);
    }
    seal(l.manifest);
    return l;
}

/* The segments' CRC-32s, in the segments and in the manifest, and the manifest's own; the manifest is otherwise whole. */
static inline void seal_segments(library l)
{
    size_t name = plain_number(l.manifest.at + 45, 4), segments = plain_number(l.manifest.at + 49 + name, 4);
    uint8_t *s = l.segments.at;
    for (size_t n = 0; n < segments; n++) {
        uint8_t *table = l.manifest.at + 61 + name + 12 * n;
        block part = {s, plain_number(table, 8)};
        seal(part);
        memcpy(table + 8, s + part.count - 4, 4);
        s += part.count;
    }
    seal(l.manifest);
}

/* Numbers that look like chance, the same in each run. */
static inline uint32_t chance(uint64_t *seed)
{
    *seed = *seed * 6364136223846793005u + 1442695040888963407u;
    return (uint32_t)(*seed >> 33);
}

#define MOST_ROWS 400
#define MOST_DIMENSIONS 40

/* A library of rows by chance: few values, so that distances tie; some metadata. */
static inline library chance_library(uint64_t seed, uint8_t metric, size_t dimensions, size_t segments, size_t count)
{
    static float v[MOST_ROWS][MOST_DIMENSIONS];
    static row rows[MOST_ROWS];
    static const char *const metadata[4] = {"", "a", "pump 7", "\xc3\xa9\xe2\x82\xac\xf0\x9f\x92\xa7"};
    uint64_t id = 0;
    for (size_t r = 0; r < count; r++) {
        for (size_t i = 0; i < dimensions; i++) v[r][i] = (float)((int)(chance(&seed) % 9) - 4) * 0.75f;
        v[r][chance(&seed) % dimensions] = 1.5f; /* none is all zero */
        id += 1 + chance(&seed) % 3;
        rows[r] = (row){id, (uint32_t)(r < segments ? r : chance(&seed) % segments), metadata[chance(&seed) % 4], v[r]};
    }
    return make_library(metric, dimensions, "chance", count == 0 ? 0 : segments, rows, count);
}

/* A manifest of many rows of one coordinate in one segment, as the ids rise (order 0), fall (1), or in any order (2). */
static inline block many_rows(size_t rows, int order)
{
    uint64_t seed = 1;
    block m = new_block(66 + 12 + 20 * rows);
    uint8_t *entries = m.at + 74;
    memcpy(m.at, "VECGEN01", 8), plain_put(m.at + 8, 8, 1), plain_put(m.at + 24, 4, 1), plain_put(m.at + 28, 4, 16), plain_put(m.at + 32, 4, 200);
    plain_put(m.at + 45, 4, 1), m.at[49] = 'm', plain_put(m.at + 50, 4, 1), plain_put(m.at + 54, 8, rows), plain_put(m.at + 62, 8, 16 * rows + 4);
    for (size_t i = 0; i < rows; i++) plain_put(entries + 20 * i, 8, i), plain_put(entries + 20 * i + 12, 4, 16 * (order == 1 ? rows - 1 - i : i));
    for (size_t i = rows; order == 2 && i-- > 1;) {
        uint8_t *x = entries + 20 * i + 12, *y = entries + 20 * (chance(&seed) % (i + 1)) + 12;
        uint64_t kept = plain_number(x, 4);
        plain_put(x, 4, plain_number(y, 4)), plain_put(y, 4, kept);
    }
    seal(m);
    return m;
}

#endif
