// The same work as main.txt by zlib: `plain` in pieces of 1 MiB, `plain small` in pieces of 1 KiB. It prints the sum.
#include <stdio.h>
#include <zlib.h>

static unsigned char piece[1048576];

int main(int words, char **word) {
    (void)word;
    size_t size = words > 1 ? 1024 : 1048576, times = (1u << 30) / size;
    for (size_t at = 0; at < size; at++) piece[at] = at % 251;
    uLong crc = 0;
    for (size_t turn = 0; turn < times; turn++) crc = crc32(crc, piece, size);
    printf("%lu\n", crc);
    return 0;
}
