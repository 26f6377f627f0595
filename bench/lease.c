/* The yardstick for entering a shared arena with a cache, placing 32 bytes and leaving: each of so many threads exchanges
 * a word of its own, clears the next 32 bytes of its own block, and stores into the word again, so many rounds. The words
 * lie 64 bytes apart; blocks have 32 KiB and stay until the run ends. Prints the threads and the nanoseconds of the best
 * of 9 runs. */
#include <pthread.h>
#include <stdalign.h>
#include <stdatomic.h>
#include <stdint.h>
#include <stdio.h>
#include <stdlib.h>
#include <string.h>
#include <time.h>

enum { MOST = 4, RUNS = 9, BLOCK = 32768, HEADER = 16, BYTES = 32 };

struct state {
    alignas(64) atomic_uint_fast64_t word;
    char *block;
    size_t filled;
};

static struct state states[MOST];
static uint64_t rounds;

static void *turn(void *argument) {
    struct state *state = argument;
    for (uint64_t round = 0; round < rounds; round++) {
        uint64_t found = atomic_exchange(&state->word, 0);
        if (!state->block || state->filled + BYTES > BLOCK) {
            char *block = malloc(BLOCK);
            if (!block) exit(1);
            *(char **)block = state->block;
            state->block = block;
            state->filled = HEADER;
        }
        memset(state->block + state->filled, 0, BYTES);
        state->filled += BYTES;
        atomic_store(&state->word, found + 2 * BYTES);
    }
    return 0;
}

static void empty(struct state *state) {
    while (state->block) {
        char *before = *(char **)state->block;
        free(state->block);
        state->block = before;
    }
}

static uint64_t now(void) {
    struct timespec t;
    clock_gettime(CLOCK_MONOTONIC, &t);
    return (uint64_t)t.tv_sec * 1000000000 + (uint64_t)t.tv_nsec;
}

static uint64_t best_of(int threads) {
    uint64_t best = UINT64_MAX;
    for (int run = 0; run < RUNS; run++) {
        pthread_t others[MOST];
        uint64_t start = now();
        for (int k = 1; k < threads; k++)
            if (pthread_create(&others[k], 0, turn, &states[k])) exit(1);
        turn(&states[0]);
        for (int k = 1; k < threads; k++) pthread_join(others[k], 0);
        uint64_t time = now() - start;
        if (time < best) best = time;
        for (int k = 0; k < MOST; k++) empty(&states[k]);
    }
    return best;
}

int main(int count, char **words) {
    rounds = count == 2 ? strtoull(words[1], 0, 10) : 0;
    for (int threads = 1; threads <= MOST; threads *= 2)
        printf("%d threads: %llu\n", threads, (unsigned long long)best_of(threads));
    return 0;
}
