/* The yardstick: reads a frames file of pb.Tick whole, walks its frames and values, and writes each value again in its
 * frame through a buffer of its own. It keeps no messages. */
#include <fcntl.h>
#include <stdint.h>
#include <stdlib.h>
#include <unistd.h>

static unsigned char buffer[1 << 16];
static size_t filled;

static void flush(void) {
    size_t done = 0;
    while (done < filled) {
        ssize_t count = write(1, buffer + done, filled - done);
        if (count <= 0) exit(7);
        done += (size_t)count;
    }
    filled = 0;
}

/* The varint at *at, or exit. */
static uint64_t varint(const unsigned char *bytes, size_t *at, size_t end, int most) {
    uint64_t value = 0;
    for (int shift = 0; shift < 7 * most; shift += 7) {
        if (*at >= end) exit(9);
        unsigned char byte = bytes[(*at)++];
        value |= (uint64_t)(byte & 127) << shift;
        if (byte < 128) return value;
    }
    exit(9);
}

static void put_frame(uint64_t value) {
    if (filled + 12 > sizeof buffer) flush();
    size_t prefix = filled++;
    if (value) {
        buffer[filled++] = 8;
        for (; value >= 128; value >>= 7) buffer[filled++] = (unsigned char)(value | 128);
        buffer[filled++] = (unsigned char)value;
    }
    buffer[prefix] = (unsigned char)(filled - prefix - 1);
}

int main(int count, char **words) {
    int file = count == 2 ? open(words[1], O_RDONLY) : -1;
    if (file < 0) return 6;
    size_t room = 1 << 16, len = 0;
    unsigned char *bytes = malloc(room);
    for (;;) {
        if (len == room) bytes = realloc(bytes, room *= 2);
        if (!bytes) return 1;
        ssize_t got = read(file, bytes + len, room - len < 65536 ? room - len : 65536);
        if (got < 0) return 6;
        if (got == 0) break;
        len += (size_t)got;
    }
    for (size_t at = 0; at < len;) {
        uint64_t size = varint(bytes, &at, len, 5), value = 0;
        if (size > len - at) return 9;
        for (size_t end = at + size; at < end;) {
            if (varint(bytes, &at, end, 5) != 8) return 9;
            value = varint(bytes, &at, end, 10);
        }
        put_frame(value);
    }
    flush();
    return 0;
}
