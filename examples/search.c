/* search FOLDER LIMIT: lists the row of a library that is nearest to a query, with LIMIT candidates measured exactly.
 * FOLDER holds MANIFEST and SEGMENTS, the library, and QUERY, the query's f32s. The cache is made in memory.
 * From the repository's root: cc -Iinclude examples/search.c target/staticlib/libapi.a -o search && ./search example 2 */
#include <pivatsohy.h>

#include <inttypes.h>
#include <stdio.h>
#include <stdlib.h>
#include <string.h>

typedef struct { uint8_t *bytes; size_t length; } file;

static void *room_for(size_t count, size_t size)
{
    void *room = calloc(count + 1, size);
    if (room == NULL) { perror("memory"); exit(2); }
    return room;
}

static file read_file(const char *folder, const char *name)
{
    char path[4096];
    snprintf(path, sizeof path, "%s/%s", folder, name);
    FILE *in = fopen(path, "rb");
    long length = in != NULL && fseek(in, 0, SEEK_END) == 0 ? ftell(in) : -1;
    if (length < 0) { perror(path); exit(2); }
    file f = {room_for((size_t)length, 1), (size_t)length};
    rewind(in);
    if (fread(f.bytes, 1, f.length, in) != f.length) { perror(path); exit(2); }
    fclose(in);
    return f;
}

/* Ends the program where a call refused. */
static void held(const char *call, uint32_t number, const uint64_t *place)
{
    if (number == 0) return;
    printf("%s: refused %" PRIu32 " at %" PRIu64 ": %s\n", call, number, *place, pv_refusal_text(number));
    exit(1);
}

int main(int argc, char **argv)
{
    if (argc != 3) { fprintf(stderr, "usage: search FOLDER LIMIT\n"); return 2; }
    file m = read_file(argv[1], "MANIFEST"), s = read_file(argv[1], "SEGMENTS"), q = read_file(argv[1], "QUERY");
    size_t limit = (size_t)strtoull(argv[2], NULL, 10), count = q.length / sizeof(float);
    float *query = room_for(count, sizeof(float));
    memcpy(query, q.bytes, count * sizeof(float));
    uint32_t crc = 0; /* the manifest that is expected: here, whichever lies in the folder */
    for (size_t i = 4; i > 0 && m.length >= 4; i--) crc = crc << 8 | m.bytes[m.length - 5 + i];
    const uint8_t platform[] = {'l', 'i', 'n', 'u', 'x'}, root[] = {'/', 'p', 'u', 'm', 'p', 's'};

    size_t rows = m.length / PV_ENTRY_BYTES, most = PV_DEFAULT_MAX_CACHE_BYTES, block = PV_DEFAULT_BUFFER_BYTES; /* rows: or fewer */
    uint64_t *scratch = room_for(rows, 8), *keys = room_for(rows, 8), *candidates = room_for(rows, 8);
    uint64_t place, size, id, row, start, bits;
    double distance;
    uint32_t length;
    pv_head head;
    pv_info info;
    pv_cache_state state;
    pv_report report;

    held("check", pv_library_check(m.bytes, m.length, crc, scratch, rows, s.bytes, s.length, &head, &place), &place);
    held("size", pv_cache_size(m.bytes, m.length, crc, scratch, rows, platform, sizeof platform, root, sizeof root, most, block,
                               &size, &place), &place);
    uint8_t *cache = room_for(size, 1);
    held("prepare", pv_cache_prepare(m.bytes, m.length, crc, scratch, rows, s.bytes, s.length, platform, sizeof platform, root,
                                     sizeof root, most, block, cache, size, &info, &place), &place);
    held("open", pv_cache_open(m.bytes, m.length, crc, scratch, rows, cache, size, platform, sizeof platform, root, sizeof root,
                               most, block, &state, &place), &place);
    held("search", pv_search_cached(&state, m.bytes, m.length, s.bytes, s.length, cache, size, query, count, 1, limit, keys, rows,
                                    candidates, rows, &id, 1, &distance, 1, &row, 1, &start, 1, &length, 1, &report, &place), &place);
    if (report.count == 1) {
        memcpy(&bits, &distance, sizeof bits);
        printf("place 1 id %" PRIu64 " distance %g bits %016" PRIx64 " row %" PRIu64 " metadata \"%.*s\"\n", id, distance, bits, row,
               (int)length, (const char *)s.bytes + start);
    }
    return 0;
}
