/* stack: how much stack each call takes beyond a thread that makes none, at most PV_STACK_BYTES: of 4,096 dimensions, of many rows that lie in
 * any order, and of a million ids in three orders and such as the sort parts as badly as it can. Not for valgrind, which hides the stack of a thread that has ended. */
#define _POSIX_C_SOURCE 200809L
#include "calls.h"

#include <pthread.h>

#define STACK ((size_t)1 << 20)

static const call *lent;
static int which;
static outcome got;

static void *idle(void *unused) { return unused; }
static void *one_call(void *unused)
{
    run(&archive, which, lent, &got);
    return unused;
}
static void *one_distance(void *unused)
{
    double d[4];
    const float *q = (const float *)(const void *)lent->query.at;
    size_t n = lent->query.count / 4;
    pv_distance_four(0, q, n, q, n, q, n, q, n, q, n, d);
    return unused;
}

static size_t touched(void *(*body)(void *))
{
    uint8_t *stack = aligned_alloc(4096, STACK);
    pthread_attr_t attributes;
    pthread_t id;
    if (stack == NULL) exit(2);
    memset(stack, 0xa5, STACK);
    pthread_attr_init(&attributes);
    if (pthread_attr_setstack(&attributes, stack, STACK) != 0 || pthread_create(&id, &attributes, body, NULL) != 0) exit(2);
    pthread_join(id, NULL), pthread_attr_destroy(&attributes);
    size_t untouched = 0;
    while (untouched < STACK && stack[untouched] == 0xa5) untouched++;
    free(stack);
    return STACK - untouched;
}

static size_t most, least;
static const char *most_name = "";

static void measure(const char *name, void *(*body)(void *))
{
    size_t used = touched(body) - least;
    if (used > most) most = used, most_name = name;
}

static void measure_all(const call *c, int from, int to)
{
    lent = c;
    for (which = from; which < to; which++) {
        measure(call_names[which], one_call);
        release(&got);
    }
}

/* Ids that std's sort_unstable, which the archive sorts them by, parts as badly as it can: each parting keeps nearly all before its pivot, until
 * after 2 log2 of their count a heap sort takes over. They are found by sorting ids that are settled only when the sort compares them (McIlroy's
 * way); what follows is that sort, without the heap and the networks. An id that is not settled is less than any other; settled ones fall. */
#define DEEP 1000000

static uint64_t *found;
static uint64_t settled;
static uint32_t *places, candidate;

static bool less(uint32_t x, uint32_t y)
{
    if (found[x] == 0 && found[y] == 0) found[x == candidate ? x : y] = UINT32_MAX - settled++;
    if (found[x] == 0) candidate = x;
    if (found[y] == 0) candidate = y;
    return found[x] < found[y];
}

static size_t median(size_t a, size_t b, size_t c, size_t apart)
{
    if (apart >= 8) {
        apart /= 8;
        a = median(a, a + apart * 4, a + apart * 7, apart);
        b = median(b, b + apart * 4, b + apart * 7, apart);
        c = median(c, c + apart * 4, c + apart * 7, apart);
    }
    bool below = less(places[a], places[b]);
    if (below != less(places[a], places[c])) return a;
    return less(places[b], places[c]) == below ? b : c;
}

static size_t part(size_t low, size_t high, size_t at, bool or_equal)
{
    uint32_t pivot = places[at];
    places[at] = places[low], places[low] = pivot;
    size_t i = low + 1;
#define GOES(x) (or_equal ? !less(pivot, (x)) : less((x), pivot))
    while (i < high && GOES(places[i])) i++;
    if (i + 1 < high) {
        uint32_t held = places[i + 1];
        size_t hole = i + 1;
        for (; hole < high - 1; hole++) {
            bool goes = GOES(places[hole + 1]);
            places[hole] = places[i], places[i] = places[hole + 1], i += goes;
        }
        bool goes = GOES(held);
        places[high - 1] = places[i], places[i] = held, i += goes;
    }
    places[low] = places[i - 1], places[i - 1] = pivot;
    return i - 1;
}

static void deep_part(size_t low, size_t high, unsigned depth)
{
    while (high - low > 16 && depth-- > 0) {
        size_t apart = (high - low) / 8, at = median(low, low + apart * 4, low + apart * 7, apart);
        bool or_equal = low > 0 && !less(places[low - 1], places[at]);
        size_t mid = part(low, high, at, or_equal);
        if (!or_equal) deep_part(low, mid, depth);
        low = mid + 1;
    }
}

static void deep_ids(uint64_t *ids)
{
    found = ids, places = malloc(DEEP * sizeof *places);
    if (places == NULL) exit(2);
    for (uint32_t i = 0; i < DEEP; i++) places[i] = i, ids[i] = 0;
    /* neither a rising nor a falling run from the first on, which the sort looks for */
    ids[0] = UINT32_MAX - 1, ids[1] = UINT32_MAX - 2, ids[2] = UINT32_MAX, settled = 3;
    deep_part(0, DEEP, 2 * 19);
    for (uint32_t i = 0; i < DEEP; i++) if (ids[i] == 0) ids[i] = i + 1;
    free(places);
}

int main(void)
{
    static float v[3][4096];
    row rows[3];
    for (size_t r = 0; r < 3; r++) {
        for (size_t i = 0; i < 4096; i++) v[r][i] = (float)((i * 7 + r * 31) % 101) - 50;
        rows[r] = (row){r + 1, 0, "metadata", v[r]};
    }
    uint64_t wanted[2] = {1, 3};
    least = touched(idle);
    for (uint8_t metric = 0; metric < 3; metric++) {
        call c = whole_call(make_library(metric, 4096, "m", 1, rows, 3), v[1], 2, 2, wanted, 2);
        measure_all(&c, 0, CALLS);
        measure("pv_distance_four", one_distance);
        if (metric == 0) {
            block kept = c.wanted;
            c.wanted = new_block(8000000), c.id_work = 1000000;
            uint64_t *ids = (uint64_t *)(void *)c.wanted.at, seed = 1;
            for (int order = 0; order < 4; order++) {
                for (size_t i = 0; i < 1000000; i++) ids[i] = order == 0 ? i : order == 1 ? 1000000 - i : chance(&seed);
                if (order == 3) deep_ids(ids);
                for (int f = CACHED_IDS; f < CALLS; f += 2) measure_all(&c, f, f + 1);
            }
            drop(&c.wanted), c.wanted = kept;
        }
        drop_call(&c);
    }
    call l = whole_call(chance_library(1, 0, 9, 5, MOST_ROWS), v[0], MOST_ROWS, MOST_ROWS, wanted, 2);
    measure_all(&l, 0, CALLS), l.k = 20, l.limit = 30, measure_all(&l, FIRST_SEARCH, CALLS), drop_call(&l);
    for (int order = 0; order < 3; order++) {
        call c = bare_call((library){many_rows(100000, order), {NULL, 0}}, 100000);
        lent = &c, which = CHECK_MANIFEST, measure(call_names[which], one_call);
        if (got.number != 0) printf("WRONG: many rows are refused with %u\n", got.number), most = STACK;
        release(&got), drop(&c.manifest);
    }
    printf("%zu bytes at most, in %s; the header allows %d\n", most, most_name, PV_STACK_BYTES);
    return most > PV_STACK_BYTES;
}
