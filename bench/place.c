/* The yardstick for placements: places so many records of 32 bytes in blocks that double from 256 to 32,768 bytes, each
 * from calloc, writes a number into each record, and keeps where each one lies. */
#include <stdint.h>
#include <stdlib.h>

static unsigned char *block;
static size_t size, filled;

static unsigned char *place(size_t bytes) {
    size_t len = (bytes + 7) / 8 * 8;
    if (size - filled < len) {
        size = size == 0 ? 256 : size * 2 < 32768 ? size * 2 : 32768;
        if (size < 16 + len) size = 16 + len;
        block = calloc(1, size);
        if (!block) exit(1);
        filled = 16;
    }
    unsigned char *at = block + filled;
    filled += len;
    return at;
}

int main(int count, char **words) {
    size_t records = count == 2 ? strtoul(words[1], 0, 10) : 0;
    unsigned char **names = malloc(records * sizeof *names);
    if (records && !names) return 1;
    for (size_t i = 0; i < records; i++) {
        names[i] = place(32);
        *(uint64_t *)(names[i] + 24) = i + 1;
    }
    return 0;
}
