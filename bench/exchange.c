/* The yardstick for a take and a give: each of so many threads exchanges a word of its own and stores into it again, so
 * many rounds, with the words 64 bytes apart. Prints the threads and the nanoseconds of the best of 99 runs. */
#include <pthread.h>
#include <stdalign.h>
#include <stdatomic.h>
#include <stdint.h>
#include <stdio.h>
#include <stdlib.h>
#include <time.h>

enum { MOST = 64, RUNS = 99 };

struct state {
    alignas(64) atomic_uint_fast64_t word;
};

static struct state states[MOST];
static uint64_t rounds;

static void *turn(void *state) {
    atomic_uint_fast64_t *word = &((struct state *)state)->word;
    for (uint64_t round = 0; round < rounds; round++) {
        uint64_t found = atomic_exchange(word, 2 * 24);
        atomic_store(word, found | 1);
    }
    return 0;
}

static uint64_t now(void) {
    struct timespec t;
    clock_gettime(CLOCK_MONOTONIC, &t);
    return (uint64_t)t.tv_sec * 1000000000 + (uint64_t)t.tv_nsec;
}

static uint64_t best_of(int threads) {
    uint64_t best = UINT64_MAX;
    for (int run = 0; run < RUNS; run++) {
        pthread_t others[MOST];
        uint64_t start = now();
        for (int k = 1; k < threads; k++)
            if (pthread_create(&others[k], 0, turn, &states[k])) exit(1);
        turn(&states[0]);
        for (int k = 1; k < threads; k++) pthread_join(others[k], 0);
        uint64_t time = now() - start;
        if (time < best) best = time;
    }
    return best;
}

int main(int count, char **words) {
    rounds = count == 2 ? strtoull(words[1], 0, 10) : 0;
    for (int threads = 1; threads <= 4; threads += 3)
        printf("%d threads: %llu\n", threads, (unsigned long long)best_of(threads));
    return 0;
}
