/* records: pv_records against the answer slices that it copies, in blocks of exact length. */
#include "library.h"

static int wrong;
static void expect(int holds, const char *what)
{
    if (!holds) wrong++, printf("WRONG: %s\n", what);
}

#define MOST 40

int main(void)
{
    uint64_t seed = 3;
    size_t calls = 0;
    uint64_t ids[MOST], rows[MOST];
    double distances[MOST];
    for (size_t i = 0; i < MOST; i++) {
        ids[i] = (uint64_t)chance(&seed) << 32 | chance(&seed), rows[i] = chance(&seed) % 1000000;
        distances[i] = i == 0 ? -0.0 : i == 1 ? 0.0 : (double)chance(&seed) / 3;
    }
    for (size_t count = 0; count <= MOST; count++)
        for (int which = -1; which < 4; which++)
            for (int by = -1; by < 2; by += 2) { /* one slice an element too short, or too long; none where which is -1 */
                size_t n[4] = {count, count, count, count};
                if (which >= 0) n[which] += (size_t)by;
                if (which >= 0 && n[which] > MOST) continue; /* nor has a slice -1 elements */
                int fits = which < 0 || by > 0;
                block i = copy_of(ids, 8 * n[0]), d = copy_of(distances, 8 * n[1]), r = copy_of(rows, 8 * n[2]), out = new_block(sizeof(pv_record) * n[3]);
                if (out.count > 0) memset(out.at, 0x5a, out.count);
                uint32_t number = pv_records((const uint64_t *)(const void *)i.at, n[0], (const double *)(const void *)d.at, n[1],
                                             (const uint64_t *)(const void *)r.at, n[2], count, (pv_record *)(void *)out.at, n[3]);
                expect(number == (fits ? 0 : 20), "the number");
                for (size_t j = 0; j < n[3]; j++) {
                    pv_record got, stays;
                    memset(&stays, 0x5a, sizeof stays), memcpy(&got, out.at + j * sizeof got, sizeof got);
                    if (fits && j < count)
                        expect(memcmp(&got.distance, &distances[j], 8) == 0 && got.id == ids[j] && got.row == rows[j], "a record");
                    else
                        expect(memcmp(&got, &stays, sizeof got) == 0, "a record that stays");
                }
                calls++;
                drop(&i), drop(&d), drop(&r), drop(&out);
            }
    pv_record one = {1, 2, 3};
    expect(pv_records(NULL, 0, NULL, 0, NULL, 0, 0, NULL, 0) == 0, "null at count 0");
    expect(pv_records(ids, MOST, distances, MOST, rows, MOST, SIZE_MAX, &one, 1) == 20 && one.id == 2, "a count past all");
    printf("%zu calls, %d wrong\n", calls + 2, wrong);
    return wrong != 0;
}
