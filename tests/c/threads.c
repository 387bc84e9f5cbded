/* threads [TURNS]: all calls from several threads at once, which share what is read; each outcome is that of one thread alone. */
#include "calls.h"

#include <pthread.h>

#define THREADS 6
#define KINDS 12

static call lent[3];
static outcome alone[3][CALLS][KINDS];
static unsigned turns = 40;

static call varied(const call *c, int kind)
{
    call v = *c;
    if (kind > 0) v.k = (size_t)kind, v.limit = (size_t)(kind + 5 * (kind % 3));
    return v;
}

static void *search(void *argument)
{
    uint64_t seed = (uintptr_t)argument;
    size_t wrong = 0;
    for (unsigned i = 0; i < turns * CALLS; i++) {
        int metric = (int)(chance(&seed) % 3), f = (int)(chance(&seed) % CALLS), kind = (int)(chance(&seed) % KINDS);
        call c = varied(&lent[metric], kind);
        outcome o;
        run(&archive, f, &c, &o);
        wrong += !same_outcome(&o, &alone[metric][f][kind]);
        release(&o);
    }
    return (void *)wrong;
}

int main(int argc, char **argv)
{
    if (argc > 1) turns = (unsigned)atoi(argv[1]);
    size_t wrong = 0, rows = turns < 10 ? 20 : 300, dimensions = 17;
    float query[MOST_DIMENSIONS];
    uint64_t wanted[200];
    for (size_t i = 0; i < dimensions; i++) query[i] = (float)i - 3.25f;
    for (size_t i = 0; i < 200; i++) wanted[i] = 700 - 3 * i;
    for (uint8_t metric = 0; metric < 3; metric++) {
        lent[metric] = whole_call(chance_library(metric, metric, dimensions, 4, rows), query, rows, rows, wanted, 200);
        for (int f = 0; f < CALLS; f++)
            for (int kind = 0; kind < KINDS; kind++) {
                call c = varied(&lent[metric], kind);
                run(&archive, f, &c, &alone[metric][f][kind]);
                wrong += alone[metric][f][kind].number != 0;
            }
    }
    pthread_t ids[THREADS];
    for (uintptr_t i = 0; i < THREADS; i++)
        if (pthread_create(&ids[i], NULL, search, (void *)(i + 1)) != 0) return 2;
    for (size_t i = 0; i < THREADS; i++) {
        void *w;
        pthread_join(ids[i], &w), wrong += (uintptr_t)w;
    }
    printf("%d threads, %u calls, %zu wrong\n", THREADS, THREADS * turns * CALLS, wrong);
    for (int metric = 0; metric < 3; metric++) {
        for (int f = 0; f < CALLS; f++)
            for (int kind = 0; kind < KINDS; kind++) release(&alone[metric][f][kind]);
        drop_call(&lent[metric]);
    }
    return wrong != 0;
}
