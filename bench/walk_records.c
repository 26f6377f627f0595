// Walks all records of all frames of a file, as read_frames and read_record do, and times it.
#define _POSIX_C_SOURCE 199309L
#include <stdint.h>
#include <stdio.h>
#include <stdlib.h>
#include <time.h>

static int varint(const uint8_t *s, size_t n, size_t *at, int most, uint64_t *value) {
    uint64_t v = 0;
    for (int i = 0; i < most; i++) {
        if (*at >= n) return 0;
        uint8_t b = s[(*at)++];
        v |= (uint64_t)(b & 127) << (7 * i);
        if (b < 128) { *value = v; return 1; }
    }
    return 0;
}

static int skip(const uint8_t *s, size_t n, size_t *at, uint32_t group, int left, uint64_t *sum);

static int record(const uint8_t *s, size_t n, size_t *at, int left, uint64_t *sum, uint32_t *ended) {
    uint64_t tag, v;
    if (!varint(s, n, at, 5, &tag) || tag >> 32 || tag < 8) return 0;
    size_t payload = *at;
    switch (tag & 7) {
    case 0: if (!varint(s, n, at, 10, &v)) return 0; break;
    case 1: if (n - *at < 8) return 0; *at += 8; break;
    case 2: if (!varint(s, n, at, 5, &v) || v >> 31 || n - *at < v) return 0; payload = *at; *at += v; break;
    case 3: if (!left || !skip(s, n, at, tag >> 3, left - 1, sum)) return 0; break;
    case 4: if (!ended) return 0; *ended = tag >> 3; return 1;
    case 5: if (n - *at < 4) return 0; *at += 4; break;
    default: return 0;
    }
    *sum += (tag >> 3) + (*at - payload);
    return 1;
}

static int skip(const uint8_t *s, size_t n, size_t *at, uint32_t group, int left, uint64_t *sum) {
    while (*at < n) {
        uint32_t ended = 0;
        uint64_t ignored = 0;
        if (!record(s, n, at, left, &ignored, &ended)) return 0;
        if (ended) return ended == group;
    }
    return 0;
}

struct place { size_t start, end; };

int main(int argc, char **argv) {
    FILE *f = fopen(argv[1], "rb");
    fseek(f, 0, SEEK_END);
    size_t n = ftell(f);
    rewind(f);
    uint8_t *s = malloc(n);
    if (argc != 2 || fread(s, 1, n, f) != n) return 1;
    double best = 1e9;
    uint64_t sum = 0;
    size_t count = 0;
    for (int round = 0; round < 5; round++) {
        struct timespec a, b;
        clock_gettime(CLOCK_MONOTONIC, &a);
        size_t at = 0, room = 0;
        struct place *places = NULL;
        count = 0;
        while (at < n) {
            uint64_t len;
            if (!varint(s, n, &at, 5, &len) || len >> 31 || n - at < len) return 1;
            if (count == room) places = realloc(places, (room = room ? 2 * room : 4) * sizeof *places);
            places[count++] = (struct place){at, at + len};
            at += len;
        }
        sum = 0;
        for (size_t i = 0; i < count; i++) {
            const uint8_t *p = s + places[i].start;
            size_t len = places[i].end - places[i].start, here = 0;
            while (here < len) if (!record(p, len, &here, 100, &sum, NULL)) return 1;
        }
        free(places);
        clock_gettime(CLOCK_MONOTONIC, &b);
        double t = (b.tv_sec - a.tv_sec) + (b.tv_nsec - a.tv_nsec) / 1e9;
        if (t < best) best = t;
    }
    printf("%zu frames, sum %llu, %.2f ms\n", count, (unsigned long long)sum, best * 1e3);
    return 0;
}
