/* Pivatsohy: search of a library of vectors by codes of one byte a coordinate (SQ8), with the listed rows measured exactly.
 * What each function answers is proved for every input; document 01 has the layouts, the arithmetic and the order of tests.
 *
 * A library is a manifest and its segments. A cache holds the codes of all rows in one buffer, as it may be kept in a file;
 * resident rows hold the same codes in three buffers. The way from files to a list:
 *
 *     pv_library_check                    once, when the library is read
 *     pv_cache_size, pv_cache_prepare     once, to make the cache; or pv_resident_build in place of both and of opening
 *     pv_cache_open                       once, when the cache is read
 *     pv_search_cached                    for each query; or pv_search_resident
 *
 * FOR ALL FUNCTIONS
 *
 * Buffers. A buffer is a pointer and the count of its elements (not of its bytes), which is taken as it is given. Where the count
 * is 0 the pointer may be null or anything else: it is not looked at. Every buffer of every function may have count 0. A buffer has
 * at most PTRDIFF_MAX bytes, as every object in C.
 * A pointer without a count (head, state, info, report, size, agreement, place, distances of pv_distance_four) is never null.
 *
 * Alignment. As C aligns the type: 8 bytes for uint64_t, int64_t, double, pv_info, pv_report and pv_record, 4 for float and
 * uint32_t, 1 for uint8_t, int8_t, pv_head, pv_cache_state and pv_resident_state.
 *
 * Overlap. What a function writes (each pointer without const) overlaps nothing else that is lent to the same call. Where it does,
 * the call may read or write outside the buffers. Buffers that are only read (const) may overlap, or be one and the same.
 *
 * Change. Nothing else changes what is lent while a call runs: no other thread, and, where it is a mapped file, no other process
 * that writes or cuts the file. Where it does, the call may read or write outside the buffers. Read a file that others may change
 * into memory first. Between two calls the bytes may change: the next call finds it, or answers of the bytes as they are then.
 *
 * Answers. Every function returns 0, or the number of the first test that failed: a refusal, listed below. *place is then the
 * number of the row or segment at fault, counted from 0, where the function's comment says so; otherwise, and with 0, it is 0. On a
 * refusal *head, *state, *info, *report, *size and *agreement are all zero; and answers, cache and resident rows are as they were.
 * Whatever bytes and numbers are lent, a call ends and does nothing but answer so, if the stack is large enough.
 *
 * Nothing else. No function keeps a pointer, holds anything between calls, allocates, reads or writes a file, or sets errno.
 *
 * Threads. Any number of calls may run at once. They may share what they only read (const); each has its own of what it writes.
 *
 * Stack. A call takes less than PV_STACK_BYTES of stack. No theorem says so: the deepest call known, a search over resident rows, took
 * 62,800 bytes on x86-64; searches whose ids are chosen so that sorting them goes as deep as it can no more; all other calls 43,500.
 */
#ifndef PIVATSOHY_H
#define PIVATSOHY_H

#include <stddef.h>
#include <stdint.h>

#ifdef __cplusplus
extern "C" {
#endif

/* ---- Bounds. */

#define PV_MIN_MANIFEST_BYTES 66         /* the shortest manifest: no rows, no segments, a model of one byte */
#define PV_MAX_MANIFEST_BYTES 67108864
#define PV_MAX_ROWS 1000000
#define PV_MAX_SEGMENTS 1024
#define PV_MIN_SEGMENT_BYTES 4
#define PV_MAX_SEGMENT_BYTES 67108864    /* of one segment */
#define PV_MAX_DIMENSIONS 4096           /* at least 1 */
#define PV_MAX_MODEL_BYTES 512           /* at least 1 */
#define PV_MAX_METADATA_BYTES 16384      /* of one record */
#define PV_MAX_PLATFORM_BYTES 64
#define PV_MAX_ROOT_BYTES 1048576
#define PV_MAX_CODE_BYTES 536870912      /* rows x dimensions of a library that has a cache or resident rows */
#define PV_MAX_CACHE_BYTES 1073741824    /* the largest cache limit; the least is 1 */
#define PV_MAX_BUFFER_BYTES 16777216     /* the largest block; the least is a row of the cache */
#define PV_MAX_K 10000                   /* places of a list */
#define PV_MAX_LIMIT 65536               /* candidates; at least k */
#define PV_MAX_IDS 1000000               /* ids handed in, repeats with them */

/* The default options: max_cache_bytes (the cache limit) and buffer_bytes (the block). */
#define PV_DEFAULT_MAX_CACHE_BYTES 1073741824
#define PV_DEFAULT_BUFFER_BYTES 1048576

#define PV_STACK_BYTES 98304

/* A row of the cache takes dimensions + PV_ROW_HEAD_BYTES bytes; an entry of the manifest, one for each row, takes
 * PV_ENTRY_BYTES, so that a scratch of manifest_length / PV_ENTRY_BYTES numbers is always long enough. */
#define PV_ROW_HEAD_BYTES 16
#define PV_ENTRY_BYTES 20

/* The metrics. */
#define PV_SQUARED_L2 0
#define PV_COSINE 1
#define PV_INNER_PRODUCT 2

/* ---- Refusals: the number, and what it means to a user. For a programmer: 11 and 20 are only for the lengths in a function's "Takes".
 * 21 and 23 do not occur where state, library, cache and resident rows are those that the check, opening or building accepted or made.
 * 24 does not occur: no f32 is large enough. */
#define PV_REFUSALS(X) \
    X(1, "the manifest is not one of this kind, is cut short, has bytes left over, or its counts and rows break a rule") \
    X(2, "the manifest has a metric, model name or configuration that is not allowed") \
    X(3, "the manifest's checksum is wrong, or it is another manifest than the one expected") \
    X(4, "the rows that the manifest names do not fill their segments without gaps and overlaps") \
    X(5, "the segments have the wrong length, or a record in them is damaged or another than the manifest names") \
    X(6, "a segment's checksum is wrong, or another than the manifest names") \
    X(7, "the cache limit or the block size asked for is outside its bounds") \
    X(8, "the library is too large: rows times dimensions is over 536,870,912") \
    X(9, "the cache would be larger than the cache limit asked for") \
    X(10, "the platform name is over 64 bytes, or the root path is over 1,048,576 bytes") \
    X(11, "the program lent too little room for the check, the cache or the resident rows") \
    X(12, "the cache has the wrong length, or is not a cache of this kind and version") \
    X(13, "the cache was made for another library, platform or root path") \
    X(14, "a row of the cache is damaged") \
    X(15, "the cache's checksum is wrong") \
    X(16, "the query or a vector has the wrong count of values, a value that is not a finite number, or only zeros under cosine") \
    X(17, "more than 10,000 results were asked for") \
    X(18, "the candidate limit is below the number of results asked for, or over 65,536") \
    X(19, "more than 1,000,000 ids were handed in") \
    X(20, "the program lent too little room for the results or the candidates") \
    X(21, "the library or its rows are no longer as they were when they were opened") \
    X(22, "the approximate distance of a row is too large to be a finite number") \
    X(23, "a record is no longer as it was when the library was checked") \
    X(24, "the exact distance of a record is too large to be a finite number")

/* The line of a refusal's number; "no refusal" for 0, "unknown number" for a number that is none of the above. */
static inline const char *pv_refusal_text(uint32_t number)
{
#define PV_REFUSAL_CASE(n, text) case n: return text;
    switch (number) {
    case 0: return "no refusal";
    PV_REFUSALS(PV_REFUSAL_CASE)
    default: return "unknown number";
    }
#undef PV_REFUSAL_CASE
}

/* ---- States: what was accepted, by which a search knows what it is lent. Plain bytes that may be copied, kept and sent; they mean
 * the same on every machine. Any bytes may be handed in as a state: a search answers 21 where they do not fit the manifest, and the
 * cache or resident rows, lent with them. */
#define PV_HEAD_BYTES 600
#define PV_CACHE_STATE_BYTES 608
#define PV_RESIDENT_STATE_BYTES 624

typedef struct pv_head { uint8_t bytes[PV_HEAD_BYTES]; } pv_head;                                  /* a check's */
typedef struct pv_cache_state { uint8_t bytes[PV_CACHE_STATE_BYTES]; } pv_cache_state;             /* opening's */
typedef struct pv_resident_state { uint8_t bytes[PV_RESIDENT_STATE_BYTES]; } pv_resident_state;    /* building's */

/* Where a state holds what. Each is a number of 8 bytes, the lowest byte first; the model's bytes come last. */
#define PV_AT_MANIFEST_LENGTH 0
#define PV_AT_GENERATION 8
#define PV_AT_SEQUENCE 16
#define PV_AT_DIMENSIONS 24
#define PV_AT_M 32
#define PV_AT_EF 40
#define PV_AT_SEED 48
#define PV_AT_METRIC 56
#define PV_AT_MODEL_LENGTH 64
#define PV_AT_SEGMENTS 72
#define PV_AT_ROWS 80
#define PV_AT_HEAD_MODEL 88       /* pv_head: PV_MAX_MODEL_BYTES bytes, zero past the model's length */
#define PV_AT_CACHE_LENGTH 88     /* pv_cache_state */
#define PV_AT_CACHE_MODEL 96      /* pv_cache_state: the model, as above */
#define PV_AT_CODES_LENGTH 88     /* pv_resident_state: the three lengths lent to pv_resident_build */
#define PV_AT_SCALES_LENGTH 96
#define PV_AT_NORMS_LENGTH 104
#define PV_AT_RESIDENT_MODEL 112  /* pv_resident_state: the model, as above */

/* What preparing made. */
typedef struct pv_info {
    uint64_t generation;      /* the library's, from its manifest */
    uint64_t sequence;
    uint64_t cache_bytes;     /* the cache's size, as pv_cache_size gives it */
    uint64_t code_bytes;      /* rows x dimensions: the codes in it */
    uint64_t parameter_bytes; /* rows x 16: the scales and norms in it */
} pv_info;

/* What a search did. */
typedef struct pv_report {
    uint64_t generation;  /* which library answered */
    uint64_t sequence;
    uint64_t eligible;    /* rows that could be listed: all of them, or those whose id was handed in, each once */
    uint64_t measured;    /* records measured exactly: min(limit, eligible), or 0 where k is 0 */
    uint64_t complete;    /* 1: every eligible row was looked at; 1 in each report */
    uint64_t approximate; /* 1 where limit < eligible and k is not 0: the list may be another than the exact one; else 0 */
    uint64_t count;       /* places of the list: min(k, eligible) */
} pv_report;

/* A place of a list. */
typedef struct pv_record {
    double distance;
    uint64_t id;
    uint64_t row;
} pv_record;

/* ---- Libraries. */

/* Checks a manifest.
 * Takes: the manifest. expected_crc: the CRC-32 in the last four bytes (lowest first) of the manifest that is expected; where
 *   nothing else tells it, the manifest's own. scratch: at least as many numbers as the manifest has rows, else 11;
 *   manifest_length / PV_ENTRY_BYTES are always enough.
 * Gives: *head, what was accepted.
 * Refuses with: 1 or 2 in the order of the manifest's fields, 3, 11, 4. *place: 0.
 * Leaves: scratch as it was on 1, 2, 3 and on 11 for scratch; otherwise, on success too, all of it zero. */
uint32_t pv_manifest_check(const uint8_t *manifest, size_t manifest_length, uint32_t expected_crc,
                           uint64_t *scratch, size_t scratch_length, pv_head *head, uint64_t *place);

/* Checks a library: its manifest, anew, and its segments.
 * Takes: manifest, expected_crc and scratch as pv_manifest_check. segments: all of them, one after the other.
 * Gives: *head, what was accepted.
 * Refuses with: 1 or 2, 3, 11, 4 as pv_manifest_check; 5 at 0 for the length of all segments; then of each segment in turn 5 for its
 *   first bad record (by offset), then 6. *place: the row for 5 at a record, the segment for 6, otherwise 0.
 * Leaves: scratch as pv_manifest_check. */
uint32_t pv_library_check(const uint8_t *manifest, size_t manifest_length, uint32_t expected_crc,
                          uint64_t *scratch, size_t scratch_length, const uint8_t *segments, size_t segments_length,
                          pv_head *head, uint64_t *place);

/* ---- Caches. */

/* The size of a library's cache: how many bytes to lend to pv_cache_prepare, and to pv_cache_open afterwards.
 * Takes: manifest, expected_crc and scratch as pv_manifest_check. platform and root: the names of the machine kind and of the place
 *   for which the cache is made; any bytes, which opening compares. max_cache_bytes and buffer_bytes: the options, which are
 *   tested and have no other effect; see the defaults above.
 * Gives: *size, in bytes.
 * Refuses with: 1 or 2, 3, 11, 4 as pv_manifest_check; 10, 7, 8, 9. *place: 0.
 * Leaves: scratch as pv_manifest_check. */
uint32_t pv_cache_size(const uint8_t *manifest, size_t manifest_length, uint32_t expected_crc,
                       uint64_t *scratch, size_t scratch_length, const uint8_t *platform, size_t platform_length,
                       const uint8_t *root, size_t root_length, size_t max_cache_bytes, size_t buffer_bytes,
                       uint64_t *size, uint64_t *place);

/* Makes a library's cache.
 * Takes: all that pv_cache_size takes; the segments; cache: at least as many bytes as pv_cache_size gives, else 11.
 * Gives: the cache, in as many bytes of it from the first on as pv_cache_size gives; *info.
 * Refuses with: 1 or 2, 3, 11, 4, 10, 7, 8, 9 as pv_cache_size; 11 for the cache; 5 for the lowest bad row. *place: the row for 5,
 *   otherwise 0. Records are tested as by pv_library_check, the length of all segments and their CRC-32s are not.
 * Leaves: the cache as it was on every refusal, its bytes past the size always. scratch as pv_manifest_check. */
uint32_t pv_cache_prepare(const uint8_t *manifest, size_t manifest_length, uint32_t expected_crc,
                          uint64_t *scratch, size_t scratch_length, const uint8_t *segments, size_t segments_length,
                          const uint8_t *platform, size_t platform_length, const uint8_t *root, size_t root_length,
                          size_t max_cache_bytes, size_t buffer_bytes, uint8_t *cache, size_t cache_length,
                          pv_info *info, uint64_t *place);

/* Opens a cache.
 * Takes: all that pv_cache_size takes; cache: exactly the bytes of the cache, without any past its size.
 * Gives: *state, for pv_search_cached and its kin.
 * Refuses with: 1 or 2, 3, 11, 4, 10, 7, 8, 9 as pv_cache_size; 12, 13, 14, 15. *place: the row for 14, otherwise 0.
 * Leaves: scratch as pv_manifest_check. */
uint32_t pv_cache_open(const uint8_t *manifest, size_t manifest_length, uint32_t expected_crc,
                       uint64_t *scratch, size_t scratch_length, const uint8_t *cache, size_t cache_length,
                       const uint8_t *platform, size_t platform_length, const uint8_t *root, size_t root_length,
                       size_t max_cache_bytes, size_t buffer_bytes, pv_cache_state *state, uint64_t *place);

/* ---- Resident rows. */

/* Makes a library's resident rows.
 * Takes: manifest, expected_crc and scratch as pv_manifest_check; the segments; codes: at least rows x dimensions elements, scales
 *   and norms: at least rows elements each, else 11.
 * Gives: one code for each coordinate of each row, one scale and one norm for each row; *state, for pv_search_resident and its
 *   kin, with the three lengths lent here: searches want the same.
 * Refuses with: 1 or 2, 3, 11, 4 as pv_manifest_check; 8; 11 for the three; 5 for the lowest bad row, as pv_cache_prepare.
 *   *place: the row for 5, otherwise 0.
 * Leaves: codes, scales and norms as they were on every refusal, what is past the rows always. scratch as pv_manifest_check. */
uint32_t pv_resident_build(const uint8_t *manifest, size_t manifest_length, uint32_t expected_crc,
                           uint64_t *scratch, size_t scratch_length, const uint8_t *segments, size_t segments_length,
                           int8_t *codes, size_t codes_length, double *scales, size_t scales_length,
                           int64_t *norms, size_t norms_length, pv_resident_state *state, uint64_t *place);

/* ---- Searches. */

/* Lists the rows nearest to a query: the min(limit, eligible) least by approximate distance are measured exactly, and the min(k, eligible)
 * least of those are listed, the nearest first, equal distances by id. With limit >= eligible the list is the exact one.
 * Takes: *state of pv_cache_open; manifest, segments and cache as they were checked and opened. query: as many finite values as the
 *   library has dimensions, not all zero under cosine. k: places wanted. limit: candidates, at least k.
 *   keys and candidates: working slices, at least min(limit, rows) elements each, else 20.
 *   ids, distances, rows, starts, lengths: answer slices, at least min(k, rows) elements each, else 20.
 * Gives: *report. For each place n below report->count: ids[n]; distances[n]; rows[n], its row in the library from 0; its metadata,
 *   the lengths[n] bytes from segments[starts[n]] on.
 * Refuses with: 21 for the manifest's length or head, 16, 17, 18, 20, 21 for the manifest's entries. Where k is 0, it answers now.
 *   Then 21 for the cache's length; row by row 21 (every row) and 22 (eligible rows); of the candidates by rising row 23 and 24.
 *   *place: the row for 21 at an entry or row and for 22, 23 and 24; otherwise 0. (21 at 0 may so be row 0, the head or a length.)
 * Leaves: the answer slices past report->count, and all of them on a refusal, as they were. keys and candidates as they were
 *   where it refused up to 20 in that order; otherwise, on success too, all of them zero. */
uint32_t pv_search_cached(const pv_cache_state *state, const uint8_t *manifest, size_t manifest_length,
                          const uint8_t *segments, size_t segments_length, const uint8_t *cache, size_t cache_length,
                          const float *query, size_t query_length, size_t k, size_t limit,
                          uint64_t *keys, size_t keys_length, uint64_t *candidates, size_t candidates_length,
                          uint64_t *ids, size_t ids_length, double *distances, size_t distances_length,
                          uint64_t *rows, size_t rows_length, uint64_t *starts, size_t starts_length,
                          uint32_t *lengths, size_t lengths_length, pv_report *report, uint64_t *place);

/* The same of the rows whose id is among those handed in.
 * Takes: all that pv_search_cached takes. wanted: the ids, in any order; an id may stand there twice or belong to no row; none at
 *   all means that no row is eligible. id_work: a working slice, at least wanted_length elements, else 20.
 * Refuses with: 19 for wanted_length, before all else; then as pv_search_cached.
 * Gives and leaves: as pv_search_cached, id_work as keys and candidates. */
uint32_t pv_search_cached_ids(const pv_cache_state *state, const uint8_t *manifest, size_t manifest_length,
                              const uint8_t *segments, size_t segments_length, const uint8_t *cache, size_t cache_length,
                              const uint64_t *wanted, size_t wanted_length, uint64_t *id_work, size_t id_work_length,
                              const float *query, size_t query_length, size_t k, size_t limit,
                              uint64_t *keys, size_t keys_length, uint64_t *candidates, size_t candidates_length,
                              uint64_t *ids, size_t ids_length, double *distances, size_t distances_length,
                              uint64_t *rows, size_t rows_length, uint64_t *starts, size_t starts_length,
                              uint32_t *lengths, size_t lengths_length, pv_report *report, uint64_t *place);

/* The searches over resident rows. With the same library and all else lent the same they answer to the bit as those over a cache.
 * Takes: *state of pv_resident_build; codes, scales and norms as it left them, with the lengths lent to it, in place of the cache.
 * Refuses with: 21 for the lengths of codes, scales and norms in place of the cache's.
 * All else as pv_search_cached and pv_search_cached_ids. */
uint32_t pv_search_resident(const pv_resident_state *state, const uint8_t *manifest, size_t manifest_length,
                            const uint8_t *segments, size_t segments_length, const int8_t *codes, size_t codes_length,
                            const double *scales, size_t scales_length, const int64_t *norms, size_t norms_length,
                            const float *query, size_t query_length, size_t k, size_t limit,
                            uint64_t *keys, size_t keys_length, uint64_t *candidates, size_t candidates_length,
                            uint64_t *ids, size_t ids_length, double *distances, size_t distances_length,
                            uint64_t *rows, size_t rows_length, uint64_t *starts, size_t starts_length,
                            uint32_t *lengths, size_t lengths_length, pv_report *report, uint64_t *place);
uint32_t pv_search_resident_ids(const pv_resident_state *state, const uint8_t *manifest, size_t manifest_length,
                                const uint8_t *segments, size_t segments_length, const int8_t *codes, size_t codes_length,
                                const double *scales, size_t scales_length, const int64_t *norms, size_t norms_length,
                                const uint64_t *wanted, size_t wanted_length, uint64_t *id_work, size_t id_work_length,
                                const float *query, size_t query_length, size_t k, size_t limit,
                                uint64_t *keys, size_t keys_length, uint64_t *candidates, size_t candidates_length,
                                uint64_t *ids, size_t ids_length, double *distances, size_t distances_length,
                                uint64_t *rows, size_t rows_length, uint64_t *starts, size_t starts_length,
                                uint32_t *lengths, size_t lengths_length, pv_report *report, uint64_t *place);

/* ---- Agreement counts. */

/* In how many places the list and the exact list, which is that over all eligible rows, hold the same id.
 * Takes: what the search of the same name takes. All eligible records are measured, so it may take long.
 * Gives: *agreement, at most min(k, eligible); the list in the answer slices, as the search does, which has min(k, eligible) places.
 *   From limit >= eligible on *agreement is all of them.
 * Refuses with: as the search does, but 23 and 24 for all eligible rows and not only for the candidates.
 * Leaves: as the search does. */
uint32_t pv_agreement_cached(const pv_cache_state *state, const uint8_t *manifest, size_t manifest_length,
                             const uint8_t *segments, size_t segments_length, const uint8_t *cache, size_t cache_length,
                             const float *query, size_t query_length, size_t k, size_t limit,
                             uint64_t *keys, size_t keys_length, uint64_t *candidates, size_t candidates_length,
                             uint64_t *ids, size_t ids_length, double *distances, size_t distances_length,
                             uint64_t *rows, size_t rows_length, uint64_t *starts, size_t starts_length,
                             uint32_t *lengths, size_t lengths_length, uint64_t *agreement, uint64_t *place);
uint32_t pv_agreement_cached_ids(const pv_cache_state *state, const uint8_t *manifest, size_t manifest_length,
                                 const uint8_t *segments, size_t segments_length, const uint8_t *cache, size_t cache_length,
                                 const uint64_t *wanted, size_t wanted_length, uint64_t *id_work, size_t id_work_length,
                                 const float *query, size_t query_length, size_t k, size_t limit,
                                 uint64_t *keys, size_t keys_length, uint64_t *candidates, size_t candidates_length,
                                 uint64_t *ids, size_t ids_length, double *distances, size_t distances_length,
                                 uint64_t *rows, size_t rows_length, uint64_t *starts, size_t starts_length,
                                 uint32_t *lengths, size_t lengths_length, uint64_t *agreement, uint64_t *place);
uint32_t pv_agreement_resident(const pv_resident_state *state, const uint8_t *manifest, size_t manifest_length,
                               const uint8_t *segments, size_t segments_length, const int8_t *codes, size_t codes_length,
                               const double *scales, size_t scales_length, const int64_t *norms, size_t norms_length,
                               const float *query, size_t query_length, size_t k, size_t limit,
                               uint64_t *keys, size_t keys_length, uint64_t *candidates, size_t candidates_length,
                               uint64_t *ids, size_t ids_length, double *distances, size_t distances_length,
                               uint64_t *rows, size_t rows_length, uint64_t *starts, size_t starts_length,
                               uint32_t *lengths, size_t lengths_length, uint64_t *agreement, uint64_t *place);
uint32_t pv_agreement_resident_ids(const pv_resident_state *state, const uint8_t *manifest, size_t manifest_length,
                                   const uint8_t *segments, size_t segments_length, const int8_t *codes, size_t codes_length,
                                   const double *scales, size_t scales_length, const int64_t *norms, size_t norms_length,
                                   const uint64_t *wanted, size_t wanted_length, uint64_t *id_work, size_t id_work_length,
                                   const float *query, size_t query_length, size_t k, size_t limit,
                                   uint64_t *keys, size_t keys_length, uint64_t *candidates, size_t candidates_length,
                                   uint64_t *ids, size_t ids_length, double *distances, size_t distances_length,
                                   uint64_t *rows, size_t rows_length, uint64_t *starts, size_t starts_length,
                                   uint32_t *lengths, size_t lengths_length, uint64_t *agreement, uint64_t *place);

/* ---- Distances and records. */

/* The exact distances of a query to four vectors a, b, c, d.
 * Takes: metric: PV_SQUARED_L2, PV_COSINE or PV_INNER_PRODUCT; five vectors of one length from 1 to PV_MAX_DIMENSIONS, all values
 *   finite, none of the five all zero under cosine. distances: room for four, never null.
 * Gives: the distances of a, b, c, d, in this order, each as a search would measure it.
 * Refuses with: 16, also for an unknown metric; the four distances are then +0. */
uint32_t pv_distance_four(uint32_t metric, const float *query, size_t query_length, const float *a, size_t a_length,
                          const float *b, size_t b_length, const float *c, size_t c_length,
                          const float *d, size_t d_length, double distances[4]);

/* The places of a list as records, after a search.
 * Takes: the answer slices of a search; count: report->count; out: at least count records.
 * Gives: distance, id and row of each place in out[0] to out[count - 1].
 * Refuses with: 20 where count is over the length of ids, distances, rows or out.
 * Leaves: out past count, and all of it on a refusal, as it was. */
uint32_t pv_records(const uint64_t *ids, size_t ids_length, const double *distances, size_t distances_length,
                    const uint64_t *rows, size_t rows_length, size_t count, pv_record *out, size_t out_length);

#ifdef __cplusplus
}
#endif

#endif
