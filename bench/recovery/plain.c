// Reads a file in pieces of 1 MiB and sums it once, by zlib or by one table: `plain zlib FILE`, `plain table FILE`.
#include <fcntl.h>
#include <stdint.h>
#include <stdio.h>
#include <string.h>
#include <unistd.h>
#include <zlib.h>

static unsigned char piece[1 << 20];
static uint32_t table[256];

static void make_table(void) {
    for (uint32_t n = 0; n < 256; n++) {
        uint32_t register_ = n;
        for (int bit = 0; bit < 8; bit++) register_ = register_ >> 1 ^ (register_ & 1 ? 0xEDB88320 : 0);
        table[n] = register_;
    }
}

static uint32_t sum(uint32_t crc, const unsigned char *bytes, ssize_t size) {
    uint32_t register_ = ~crc;
    for (ssize_t k = 0; k < size; k++) register_ = register_ >> 8 ^ table[(register_ ^ bytes[k]) & 255];
    return ~register_;
}

int main(int words, char **word) {
    if (words < 3) return 1;
    int by_table = strcmp(word[1], "table") == 0, file = open(word[2], O_RDONLY);
    if (file < 0) return 1;
    uint32_t crc = 0;
    make_table();
    for (;;) {
        ssize_t size = read(file, piece, sizeof piece);
        if (size < 0) return 1;
        if (size == 0) break;
        crc = by_table ? sum(crc, piece, size) : crc32(crc, piece, size);
    }
    printf("%u\n", crc);
    return 0;
}
