/* list FOLDER, list -n FOLDER..: the list program of document 01 over the archive. Prints of each folder what its six files give, to the
 * letter; with -n after a line with the folder's name. */
#include <pivatsohy.h>

#include <inttypes.h>
#include <stdio.h>
#include <stdlib.h>
#include <string.h>

enum { MANIFEST, SEGMENTS, CACHE, QUERY, CALL, PLACE, FILES };
static const char *const names[FILES] = {"MANIFEST", "SEGMENTS", "CACHE", "QUERY", "CALL", "PLACE"};

#define LONGEST 65536

/* bytes is null where the file is missing; else a block of exactly the file's length, or of one byte for an empty file. */
typedef struct { uint8_t *bytes; size_t length; } file;

static void *block(size_t count, size_t size)
{
    void *p = calloc(count > 0 ? count : 1, size);
    if (p == NULL) exit(2);
    return p;
}

/* At most a byte more than a file may have. What cannot be read, a folder say, is missing. */
static file read_file(const char *folder, const char *name)
{
    static uint8_t room[LONGEST + 1];
    char path[4096];
    file f = {NULL, 0};
    if (snprintf(path, sizeof path, "%s/%s", folder, name) >= (int)sizeof path) return f;
    FILE *in = fopen(path, "rb");
    if (in == NULL) return f;
    size_t length = fread(room, 1, sizeof room, in);
    if (!ferror(in)) {
        f.bytes = block(length, 1), f.length = length;
        memcpy(f.bytes, room, length);
    }
    fclose(in);
    return f;
}

static uint32_t u32(const uint8_t *b) { return (uint32_t)(b[0] | b[1] << 8 | b[2] << 16) | (uint32_t)b[3] << 24; }

static const char *input_fault(const file *f)
{
    for (int i = 0; i < FILES; i++)
        if (f[i].length > LONGEST) return "too long";
    for (int i = 0; i < FILES; i++)
        if (f[i].bytes == NULL) return "bad input";
    if (f[QUERY].length % 4 != 0 || f[CALL].length != 8 || memchr(f[PLACE].bytes, '\n', f[PLACE].length) == NULL) return "bad input";
    return NULL;
}

static void print_list(const file *f)
{
    file m = f[MANIFEST], s = f[SEGMENTS], c = f[CACHE];
    uint32_t crc = m.length < 4 ? 0 : u32(m.bytes + m.length - 4);
    size_t k = u32(f[CALL].bytes), limit = u32(f[CALL].bytes + 4), queries = f[QUERY].length / 4;
    const uint8_t *platform = f[PLACE].bytes, *newline = memchr(platform, '\n', f[PLACE].length);
    size_t platform_length = (size_t)(newline - platform);

    /* as many as the manifest can have rows, so that 11 and 20 never show */
    size_t room = m.length / PV_ENTRY_BYTES;
    uint64_t *scratch = block(room, 8), *keys = block(room, 8), *candidates = block(room, 8);
    uint64_t *ids = block(room, 8), *rows = block(room, 8), *starts = block(room, 8);
    double *distances = block(room, 8);
    uint32_t *lengths = block(room, 4);
    float *query = block(queries, 4);
    memcpy(query, f[QUERY].bytes, 4 * queries);
    pv_head head;
    pv_cache_state state;
    pv_report report;
    uint64_t place;

    uint32_t number = pv_library_check(m.bytes, m.length, crc, scratch, room, s.bytes, s.length, &head, &place);
    if (number == 0)
        number = pv_cache_open(m.bytes, m.length, crc, scratch, room, c.bytes, c.length, platform, platform_length, newline + 1,
                               f[PLACE].length - platform_length - 1, PV_DEFAULT_MAX_CACHE_BYTES, PV_DEFAULT_BUFFER_BYTES, &state, &place);
    if (number == 0)
        number = pv_search_cached(&state, m.bytes, m.length, s.bytes, s.length, c.bytes, c.length, query, queries, k, limit, keys, room,
                                  candidates, room, ids, room, distances, room, rows, room, starts, room, lengths, room, &report, &place);
    if (number != 0) {
        printf("refused %" PRIu32 " at %" PRIu64 "\n", number, place);
    } else {
        printf("generation %" PRIu64 " sequence %" PRIu64 " eligible %" PRIu64 " measured %" PRIu64 " complete %" PRIu64 " approximate %" PRIu64 "\n",
               report.generation, report.sequence, report.eligible, report.measured, report.complete, report.approximate);
        for (size_t i = 0; i < report.count; i++) {
            uint64_t bits;
            memcpy(&bits, &distances[i], 8);
            printf("%zu %" PRIu64 " %016" PRIx64 " %" PRIu64 "\n", i + 1, ids[i], bits, rows[i]);
        }
    }
    free(scratch), free(keys), free(candidates), free(ids), free(rows), free(starts), free(distances), free(lengths), free(query);
}

int main(int argc, char **argv)
{
    int named = argc > 1 && strcmp(argv[1], "-n") == 0;
    for (int i = 1 + named; i < argc; i++) {
        file f[FILES];
        for (int n = 0; n < FILES; n++) f[n] = read_file(argv[i], names[n]);
        if (named) puts(argv[i]);
        const char *fault = input_fault(f);
        if (fault != NULL) puts(fault);
        else print_list(f);
        for (int n = 0; n < FILES; n++) free(f[n].bytes);
    }
    return 0;
}
